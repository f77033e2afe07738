#!/bin/sh
# How fast the built program is (or the one that BPFDB names): nanoseconds a move, the best of five runs, and the ratio to a plain step of the same
# loop; beside a plain interpreter in C of two of the loops (tests/speed/plain.c) and DPDK's (tests/speed/dpdk.c), where the machine has a C compiler
# and the package libdpdk-dev; and the time of one command.
# Takes the number of millions of steps of a plain run, 20 if left out. No promise depends on it, and the gate doesn't run it. What is timed ends as it
# should, or the run ends with status 1. tests/instructions.sh counts, whatever else the machine does.
set -u
cd "$(dirname "$0")/.." || exit 1
millions=${1:-20}
[ -n "${BPFDB:-}" ] || sh tests/build.sh || exit 1
bpfdb=${BPFDB:-$PWD/crates/bpfdb/out/bpfdb}
work=$(mktemp -d) || exit 1
trap 'rm -rf "$work"' EXIT
trap 'exit 130' HUP INT TERM

# fail WHAT: ends this with a line.
fail() {
    echo "FAILED: $1"
    exit 1
}

# leave LINE: ends this with the line of what failed.
leave() {
    echo "$1"
    exit 1
}

# Times are microseconds.

# best ENDING COMMAND..: the least time of five runs of a command over the script, whose last line ends so.
best() {
    ending=$1 least=
    shift
    for round in 1 2 3 4 5; do
        started=$(date +%s%N)
        "$@" < "$work/script" > "$work/answer" 2> "$work/errors"
        took=$((($(date +%s%N) - started) / 1000))
        tail -n 1 "$work/answer" "$work/errors" | grep -q -e "$ending" || fail "round $round of $*: $(tail -n 1 "$work/answer")"
        if [ -z "$least" ] || [ "$took" -lt "$least" ]; then
            least=$took
        fi
    done
    echo "$least"
}

# session LINES TIMES ENDING OPTION..: the least time of a session of the lines, so many times over.
session() {
    lines=$1 times=$2 ending=$3
    shift 3
    for time in $(seq "$times"); do
        echo "$lines"
    done > "$work/script"
    best "$ending" "$bpfdb" debug --listing --steps 1000000000 "$@"
}

# shown WHAT TIME MOVES [PLAIN]: a line: nanoseconds a move, and its ratio to a plain step of so many picoseconds.
shown() {
    awk -v what="$1" -v time="$2" -v moves="$3" -v plain="${4:-0}" 'BEGIN {
        printf "%s: %.2f ns a move", what, time * 1000 / moves
        if (plain > 0) printf ", %.2f of a plain step", time * 1000000 / moves / plain
        printf "\n"
    }'
}

# of_loop NAME COUNT: a loop in each way. COUNT moves fit the largest journal.
of_loop() {
    program=$work/$1.s
    : > "$work/script"
    steps=$((millions * 1000000))
    least=$(best "step limit $steps reached" "$bpfdb" run --listing --steps "$steps" "$program") || leave "$least"
    plain=$((least * 1000000 / steps))
    shown "$1, plain" "$least" "$steps"
    for size in 1024 65536 16777216; do
        least=$(session "stepi $steps" 1 '; done; ' --journal "$size" "$program") || leave "$least"
        shown "$1, kept in $size bytes" "$least" "$steps" "$plain"
    done
    # (a command's share is what a session takes more with it than without)
    forward=$(session "stepi $2" 20 '; done; ' "$program" --journal "$size") || leave "$forward"
    for command in "reverse-stepi $2" undo reverse-continue; do
        least=$(session "stepi $2
$command" 20 ' back; ' "$program" --journal "$size") || leave "$least"
        shown "$1, ${command% *}" $((least - forward)) $((20 * $2)) "$plain"
    done
    backward=$(session "stepi $2
reverse-stepi $2" 20 ' back; ' "$program" --journal "$size") || leave "$backward"
    least=$(session "stepi $2
reverse-stepi $2
redo $2" 20 ' redone; ' "$program" --journal "$size") || leave "$least"
    shown "$1, redo" $((least - backward)) $((20 * $2)) "$plain"
    least=$(session "stepi $2
last-write 0x2000000ff" 20 'not changed in ' "$program" --journal "$size") || leave "$least"
    shown "$1, a move that last-write looks at" $((least - forward)) $((20 * $2)) "$plain"
}

# of_stops WHAT LINES COUNT: `continue` over so many turns of a loop, after lines that set what it never meets.
of_stops() {
    printf '%s\n' "$2" continue > "$work/script"
    least=$(best 'forward; end; exited' "$bpfdb" debug --listing --steps 1000000000 "$work/stops.s") || leave "$least"
    shown "counting, continue $1" "$least" $((2 * $3))
}

printf '%s\n' 'loop: add r0, 1' 'jlt r0, 2147483647, loop' exit > "$work/counting.s"
printf '%s\n' 'loop: ldxdw r1, [r10-8]' 'add r1, 1' 'stxdw [r10-8], r1' 'ja loop' > "$work/memory.s"
printf '%s\n' 'loop: callf f' 'ja loop' 'f: add r6, 1' exit > "$work/calls.s"
printf '%s\n' 'loop: atomic_fetch_add64 [r10-8], r1' 'atomic_add64 [r10-8], r2' 'ja loop' > "$work/atomics.s"

# peer NAME FLAGS WHY: a program in C of two of the loops; where it can not be compiled, why.
peer() {
    # (flags are words without blanks)
    # shellcheck disable=SC2086
    if "${CC:-cc}" -O2 -o "$work/$1" "tests/speed/$1.c" $2 2> "$work/errors"; then
        "$work/$1" "$millions" > "$work/times" || fail "tests/speed/$1.c"
        grep -v '^sum' "$work/times"
    else
        echo "tests/speed/$1.c is left out: $3"
    fi
}

peer plain '' 'there is no C compiler'
peer dpdk "$(pkg-config --cflags --libs libdpdk 2> /dev/null)" 'there is no libdpdk-dev'
of_loop counting 700000
of_loop memory 600000
of_loop calls 100000
of_loop atomics 500000
turns=$((millions * 500000))
{ printf '%s\n' "lddw r1, $turns" 'loop: add r0, 1' 'jlt r0, r1, loop' exit; yes exit | head -n 64; } > "$work/stops.s"
of_stops 'without stops' '' "$turns"
of_stops 'with 64 breakpoints that it never meets' "$(seq 5 68 | sed 's/^/break /')" "$turns"
of_stops 'with 4 watches that never differ' "$(seq 4 | sed 's/^/watch 0x20000000/')" "$turns"
echo stepi > "$work/script"
for size in 1024 16777216; do
    least=$(best '1 forward; done; at 1: ' "$bpfdb" debug --listing --journal "$size" "$work/counting.s") || leave "$least"
    echo "from start over one command to the end, a journal of $size bytes: $least microseconds"
done
