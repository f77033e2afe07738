#!/bin/sh
# The gate: each part in turn, with a line that says how it ended, how long it took and how much of the processors. The first part that fails
# ends it. Its last line, where all passed, is that of rt ci; before it stands what was left out for want of a tool. Of a tree that is a commit, out/passed
# then has the commit and that line.
set -u
cd "$(dirname "$0")/.." || exit 1
. tests/machine.sh
exec < /dev/null
mkdir -p out || exit 1
log=out/ci.log
LEFT_OUT=$PWD/out/left-out
export LEFT_OUT
rm -f out/passed "$LEFT_OUT"

# processor: the processor seconds that what has ended took up to now. (The last line of `times` is that of the children: 12m3.45s 0m6.78s.)
processor() {
    times > out/times
    tail -n 1 out/times | sed 's/[ms]/ /g' | awk '{ printf "%d", $1 * 60 + $2 + $3 * 60 + $4 }'
}

# part NAME COMMAND..: runs a part; one that fails ends the gate.
part() {
    name=$1
    shift
    started=$(date +%s)
    processor > out/before
    outcome=passed
    "$@" || outcome=FAILED
    processor > out/after
    took=$(duration $(($(date +%s) - started)))
    echo "$name: $outcome in $took; $(duration $(($(cat out/after) - $(cat out/before)))) of a processor"
    [ "$outcome" = passed ] || exit 1
}

# prove: rt ci, with its words as they come and in the log. It passed where its status and its last line say so.
prove() {
    echo 1 > out/ci.status
    {
        rt ci 2>&1
        echo $? > out/ci.status
    } | tee "$log"
    [ "$(cat out/ci.status)" = 0 ] && tail -n 1 "$log" | grep -q -x '[1-9][0-9]* passed, 0 failed'
}

# proved: rt ci, and after it how much of the processors went into crates, tests and wrong bodies (tests/minutes.sh).
proved() {
    sh tests/minutes.sh out/minutes &
    sampler=$!
    prove
    ended=$?
    kill "$sampler" 2> /dev/null
    wait "$sampler" 2> /dev/null
    sh tests/minutes.sh --told out/minutes
    return "$ended"
}

part 'tests/pages.sh' sh tests/pages.sh
alone
echo 'rt ci: every proof from nothing, the must-fail edits, each test and program (some 45 minutes on four cores)'
part 'rt ci' proved
# (where it isn't there, tests/program.sh leaves out what it is for)
part 'crates/memory_calls' test -x crates/memory_calls/out/memory_calls
part 'tests/program.sh' sh tests/program.sh
part 'tests/examples.sh' sh tests/examples.sh
if [ -z "$(git status --porcelain 2>&1)" ]; then
    { git rev-parse HEAD; tail -n 1 "$log"; } > out/passed
fi
tell_left_out "$LEFT_OUT"
tail -n 1 "$log"
