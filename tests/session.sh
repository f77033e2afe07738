#!/bin/sh
# The session of tests/session/script with the example overrun, which README shows: each command behind '> ', and below it what the program answers.
set -u
cd "$(dirname "$0")/.." || exit 1
sh tests/build.sh || exit 1
work=$(mktemp -d) || exit 1
trap 'rm -rf "$work"' EXIT
trap 'exit 130' HUP INT TERM
script=$PWD/tests/session/script
program=$PWD/crates/bpfdb/out/bpfdb
cd examples/overrun || exit 1

# (The program echoes no command. So what it answers to one is what a script that ends with it prints beyond the one before.)
shown=0
count=0
while read -r command; do
    count=$((count + 1))
    echo "> $command"
    # (the arguments are words without quotes)
    # shellcheck disable=SC2046
    head -n "$count" "$script" | "$program" debug $(cat arguments) > "$work/replies" || exit 1
    tail -n "+$((shown + 1))" "$work/replies"
    shown=$(wc -l < "$work/replies")
done < "$script"
