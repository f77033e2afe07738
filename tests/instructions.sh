#!/bin/sh
# How many instructions of the processor a move takes in the built program (or the one that BPFDB names): callgrind's count of 60,000 moves less that
# of 20,000, so the load of the machine doesn't matter. It needs valgrind. A line a program: a plain step, a line of trace, a step that is kept in each size of a
# journal, and at the largest a move back, one that is made again, an entry that last-write looks at, and a move that origin passes. No promise depends on
# it, and the gate doesn't run it.
set -u
cd "$(dirname "$0")/.." || exit 1
[ -n "${BPFDB:-}" ] || sh tests/build.sh || exit 1
bpfdb=${BPFDB:-$PWD/crates/bpfdb/out/bpfdb}
command -v valgrind > /dev/null || { echo 'FAILED: there is no valgrind here'; exit 1; }
work=$(mktemp -d) || exit 1
trap 'rm -rf "$work"' EXIT
trap 'exit 130' HUP INT TERM

# counted SCRIPT ARGUMENT..: the instructions of a run over this script.
counted() {
    printf '%b' "$1" > "$work/script"
    shift
    valgrind --tool=callgrind --callgrind-out-file=/dev/null "$bpfdb" "$@" < "$work/script" 2>&1 > /dev/null | sed -n 's/.*Collected : //p'
}

# each SCRIPT ARGUMENT..: the instructions a move, in tenths: MOVES stands for how many they are.
each() {
    script=$1
    shift
    many=$(counted "$(echo "$script" | sed 's/MOVES/60000/g')" $(echo "$@" | sed 's/MOVES/60000/g'))
    few=$(counted "$(echo "$script" | sed 's/MOVES/20000/g')" $(echo "$@" | sed 's/MOVES/20000/g'))
    echo $(((many - few) / 4000))
}

# tenths COUNT: as 118.8.
tenths() {
    echo "$(($1 / 10)).$(($1 % 10))"
}

# measure NAME OPTION..: the line of a program.
measure() {
    name=$1
    program=$work/$1.s
    shift
    line="$name: plain $(tenths "$(each '' run --listing --steps MOVES "$@" "$program")")"
    line="$line, a line of trace $(tenths "$(each '' trace --listing --steps MOVES "$@" "$program")")"
    for size in 1024 65536 16777216; do
        kept=$(each 'stepi MOVES\n' debug --listing --journal "$size" "$@" "$program")
        line="$line, kept in $size $(tenths "$kept")"
    done
    for command in reverse-stepi\ MOVES undo reverse-continue 'last-write 0x2000000ff'; do
        line="$line, ${command% *} $(tenths $(($(each "stepi MOVES\\n$command\\n" debug --listing --journal "$size" "$@" "$program") - kept)))"
    done
    line="$line, origin $(tenths $(($(each '' origin --listing --journal "$size" --steps MOVES "$@" "$program" r9) - kept)))"
    back=$(each 'stepi MOVES\nreverse-stepi MOVES\n' debug --listing --journal "$size" "$@" "$program")
    echo "$line, redo $(tenths $(($(each 'stepi MOVES\nreverse-stepi MOVES\nredo MOVES\n' debug --listing --journal "$size" "$@" "$program") - back)))"
}

printf '%s\n' 'lddw r1, 10000000' 'loop: add r0, 1' 'jlt r0, r1, loop' exit > "$work/counting.s"
printf '%s\n' 'lddw r1, 10000000' 'loop: add r0, 1' 'stxdw [r10-8], r0' 'ldxdw r2, [r10-8]' 'jlt r2, r1, loop' exit > "$work/memory.s"
printf '%s\n' 'lddw r6, 10000000' 'loop: callf f' 'add r6, -1' 'jne r6, 0, loop' exit 'f: mov r0, 1' exit > "$work/calls.s"
printf '%s\n' 'ldmapval r6, 0, 0' 'lddw r1, 10000000' 'loop: ldxdw r2, [r6+0]' 'add r0, 1' 'stxdw [r6+0], r0' 'jlt r0, r1, loop' exit > "$work/map.s"
measure counting
measure memory
measure calls
measure map --maps 8x1
