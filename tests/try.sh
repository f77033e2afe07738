#!/bin/sh
# bpfdb without proofs, for a first look: `rt try` compiles it with checks and runs it once, in a minute or two. Nothing is proved by that.
# Without words it plays the session of tests/session/script with the example overrun, which README shows, each command behind '> '. With words it is bpfdb's own
# command line: a word that names a file is that file, standard input is the script (of `debug` at a terminal: up to Ctrl-D), and what is
# printed comes when it has ended. Its status is bpfdb's. Each ten seconds a line says that it still works.
set -u
from=$PWD
cd "$(dirname "$0")/.." || exit 1
command -v rt > /dev/null || { echo "FAILED: there is no 'rt', the command of the Rattle toolchain (README.md says where it comes from)." >&2; exit 1; }
work=$(mktemp -d) || exit 1
ticker=''
# leave: ends what tells of the time, and takes all files away.
leave() {
    [ -z "$ticker" ] || kill "$ticker"
    rm -rf "$work"
}
trap leave EXIT
trap 'exit 130' HUP INT TERM

# tell_time: a line each ten seconds, until it is killed.
tell_time() {
    trap 'kill "$sleeper"; exit' TERM
    seconds=0
    while :; do
        sleep 10 &
        sleeper=$!
        wait "$sleeper"
        seconds=$((seconds + 10))
        echo "still at work, after $seconds s" >&2
    done
}

# tried WORD..: the command line, by `rt try`. What `rt try` itself says of its run is left out, unless the run gave no answer.
tried() {
    tell_time < /dev/null > /dev/null &
    ticker=$!
    (cd crates/bpfdb && rt try "$@") 2> "$work/err"
    status=$?
    kill "$ticker"
    ticker=''
    grep -q '^run=ended' "$work/err" || { cat "$work/err" >&2; return "$status"; }
    grep -v -E '^(checked: |run=|interpreted: |rt: |note: )' "$work/err" >&2
    return "$status"
}

# (`rt try` doesn't read a terminal)
if [ -t 0 ] && [ "${1:-}" = debug ]; then
    echo 'Type the commands, and then Ctrl-D: the replies come together, when bpfdb is compiled.' >&2
    cat > "$work/script" || exit 1
    exec < "$work/script"
fi
echo 'Compiling bpfdb without its proofs: a minute or two. `make run` proves it.' >&2
# named WORD NUMBER: the name under which the program finds a file: its own, unless that stands for another file already or has a blank.
named() {
    name=$(basename "$1")
    case $name in *' '*) name=$2 ;; esac
    [ ! -e "$work/files/$name" ] || name=$2-$name
}

if [ $# -gt 0 ]; then
    mkdir "$work/files" || exit 1
    count=$#
    data=''
    number=0
    while [ "$number" -lt "$count" ]; do
        number=$((number + 1))
        word=$1
        shift
        case $word in
        /*) path=$word ;;
        *) path=$from/$word ;;
        esac
        if [ -f "$path" ]; then
            named "$word" "$number"
            cp "$path" "$work/files/$name" || exit 1
            data="$data --data $name=$work/files/$name"
            word=$name
        fi
        set -- "$@" "$word"
    done
    # (each of these is a word without blanks)
    # shellcheck disable=SC2086
    tried $data -- "$@"
    exit
fi

# (The program echoes no command. Each of this session is answered by one line.)
# shellcheck disable=SC2046
tried --data "context.bin=$PWD/examples/overrun/context.bin" --data "program.bin=$PWD/examples/overrun/program.bin" -- \
    debug $(cat examples/overrun/arguments) < tests/session/script > "$work/replies" || exit
paste -d '\n' tests/session/script "$work/replies" | sed '1~2s/^/> /'
cat >&2 <<'NEXT'

What to type next:
  make try FILE=examples/fault/program.s OPTIONS='--listing -m examples/fault/context.bin'
      debugs a program of yours, or this one: continue, reverse-stepi, info regs, and then Ctrl-D
  make try JOB=origin FILE=examples/fault/program.s OPTIONS='--listing -m examples/fault/context.bin'
      says where its bad address came from
  make run
      proves and builds bpfdb; `make install` then brings bpfdb-shell, bpfdb-page and the others
NEXT
