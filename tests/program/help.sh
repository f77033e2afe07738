#!/bin/sh
# Makes tests/program/help/ anew: the texts of help as the built program (or the one whose whole path is BPFDB) gives them. Read what
# has changed before you commit it.
set -u
cd "$(dirname "$0")/../.." || exit 1
[ -n "${BPFDB:-}" ] || sh tests/build.sh || exit 1
program=${BPFDB:-$PWD/crates/bpfdb/out/bpfdb}
texts=tests/program/help
mkdir -p "$texts" || exit 1
"$program" --help > "$texts/bpfdb.txt" || exit 1
"$program" -h > "$texts/bpfdb-short.txt" || exit 1
for subcommand in $(awk '/^Commands:/ { inside = 1; next } /^$/ { inside = 0 } inside && $1 != "help" { print $1 }' "$texts/bpfdb-short.txt"); do
    "$program" $subcommand --help > "$texts/$subcommand.txt" || exit 1
    "$program" $subcommand -h > "$texts/$subcommand-short.txt" || exit 1
done
