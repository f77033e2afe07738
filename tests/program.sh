#!/bin/sh
# Tests of the built program (or of the one whose whole path is BPFDB) from outside: its output, its standard error and its exit
# status, with input and output that fail, with each request for memory refused in turn, at its limits, and with programs that are
# made to hurt or at random, and how it is built. A test that passes prints nothing; one that fails names itself and shows what differs; what is left out, for
# want of a tool, is told at the end (left_out in tests/machine.sh). The tests stand in
# tests/program/, a file a part; with the names of parts (session, usage, ..) these alone are run, else all, one a processor. Expected texts are written out
# there, by the manual, or stand in crates/bpfdb/stdout and tests/session/; the texts of help stand in tests/program/help/.
set -u
cd "$(dirname "$0")/.." || exit 1
[ -n "${BPFDB:-}" ] || sh tests/build.sh || exit 1
top=$PWD
parts=$top/tests/program
program=${BPFDB:-$top/crates/bpfdb/out/bpfdb}
work=$(mktemp -d) || exit 1
. tests/machine.sh
# (rows are of the options that they have: Linux's library is joined by itself in those of road.sh alone)
export BPFDB_LINUX=
LEFT_OUT=${LEFT_OUT:-$work/left-out}
export LEFT_OUT
# leave: ends the processes that are still at work beside this one, and takes all files away.
started=''
leave() {
    # (the numbers of processes are without blanks)
    [ -z "$started" ] || kill $started 2> /dev/null
    rm -rf "$work"
}
trap leave EXIT
trap 'exit 130' HUP INT TERM

# all_parts: each part, those that take longest first.
all_parts() {
    printf '%s\n' fuzz faults page wasm memory hostile transcripts rings limits context captures kernels convert calls callees trace gdb dap linux machine headers join counts turns target options road kinds load runs journal libraries listings bugs objects links direct named tracefile suite session questions opening origin branches names places whynot diff strict json pieces usage refusals results remote lines shell editors conformance symbols jobs install dist files streams build batch
}

# total: the last lines of the parts, added up. Fails where a test failed, or a part has no such line.
total() {
    all_parts | while read -r part; do
        tail -n 1 "$work/$part"
    done | awk -v parts="$(all_parts | wc -l)" '
        /^tests of the program: [0-9]+, of which [0-9]+ failed$/ { ended++; count += $5; failed += $8 }
        END {
            printf "tests of the program: %d, of which %d failed\n", count, failed
            if (ended < parts) printf "FAILED: %d parts came to no end\n", parts - ended
            exit failed > 0 || ended < parts
        }
    '
}

if [ $# -eq 0 ]; then
    # (help writes texts anew, and harness, linked and packets are read by parts)
    unlisted=$(ls "$parts" | sed -n 's/\.sh$//p' | grep -v -x -e harness -e help -e linked -e packets -e "$(all_parts)")
    [ -z "$unlisted" ] || { echo "FAILED: parts that all_parts doesn't name: $unlisted"; exit 1; }
    # (work has no quotes: mktemp made it)
    all_parts | xargs -P "$(nproc)" -I PART sh -c "sh tests/program.sh PART > '$work/PART' 2>&1"
    all_parts | while read -r part; do
        grep -v -x 'tests of the program: [0-9]*, of which [0-9]* failed' "$work/$part"
    done
    tell_left_out "$work/left-out"
    total
    exit
fi

. "$parts/harness.sh"
for part in "$@"; do
    begin "$part"
done

tell_left_out "$work/left-out"
echo "tests of the program: $count, of which $failures failed"
[ "$failures" -eq 0 ]
