#!/bin/sh
# Tests the program of this folder, or the one that is named, by what bpfdb prints and by its exit status. BPFDB may name the
# debugger. A test that fails is a line, and then the exit status is 1.
set -u
bpfdb=${BPFDB:-bpfdb}
here=$(dirname "$0")
program=${1:-$here/program.s}
context=$here/context.bin
maps=
work=$(mktemp -d) || exit 1
trap 'rm -rf "$work"' EXIT
status=0

# expect NAME WANTED FOUND: the texts are to be the same.
expect() {
    [ "$2" = "$3" ] && return
    echo "FAILED: $1: '$3', and not '$2'"
    status=1
}

# result CONTEXT: r0 at the end, and the exit status: 0 where the program exited, 1 at a fault or after 1000 steps, 2 where
# bpfdb could not run it.
result() {
    printed=$("$bpfdb" run --listing --steps 1000 -m "$1" "$program" 2>&1)
    echo "$printed, status $?"
}

# after N ADDRESS: the byte at an address after N steps.
after() {
    printf 'stepi %s\nx %s 1\n' "$1" "$2" | "$bpfdb" debug --listing -m "$context" "$program" | sed -n 's/^0x[0-9a-f]*: //p'
}

expect 'a time to live of 64 passes' '0x1, status 0' "$(result "$context")"
expect 'the byte at 8 before the store' 40 "$(after 4 0x100000008)"
expect 'the byte at 8 after it' 3f "$(after 5 0x100000008)"
expect 'the byte at 9 stays' 11 "$(after 9 0x100000009)"

# A header that is cut off, and no header at all.
head -c 19 "$context" > "$work/short"
: > "$work/empty"
expect 'a short header is dropped' '0x0, status 0' "$(result "$work/short")"
expect 'an empty context is dropped' '0x0, status 0' "$(result "$work/empty")"

# A time to live of 1.
{ head -c 8 "$context"; printf '\001'; tail -c 11 "$context"; } > "$work/last"
expect 'a time to live of 1 is dropped' '0x0, status 0' "$(result "$work/last")"

# replies_to COMMAND..: the replies to the commands of one session, each with its command, as 'COMMAND: LINE LINE ..'. After each command
# stands a word that is none: its refusal is where the reply ends, also where that has several lines or none.
replies_to() {
    for command in "$@"; do
        printf '%s\n-\n' "$command"
    done | "$bpfdb" debug --listing ${maps:+--maps "$maps"} -m "$context" "$program" | {
        for command in "$@"; do
            printf '%s:' "$command"
            while read -r line && [ "$line" != 'refused Q1: unknown command' ]; do
                printf ' %s' "$line"
            done
            echo
        done
    }
}

# The same start twice in one session: a context that is set by hand stays where the machine goes back to before its first step.
wanted='set mem 0x100000008 02: ok
continue: 7 forward; end; exited at 6: r0 0x1
x 0x100000008 1: 0x100000008: 01
reverse-stepi 1000000000: 7 back; start; at 0: jlt r2, 20, L7
x 0x100000008 1: 0x100000008: 02
set mem 0x100000008 01: ok
continue: 5 forward; end; exited at 8: r0 0x0
x 0x100000008 1: 0x100000008: 01'
found=$(replies_to 'set mem 0x100000008 02' continue 'x 0x100000008 1' 'reverse-stepi 1000000000' 'x 0x100000008 1' 'set mem 0x100000008 01' \
    continue 'x 0x100000008 1')
expect 'a time to live of 2, and then of 1, in one session' "$wanted" "$found"

# A command that is refused is seen, though the exit status of the session is 0.
expect 'a refused command' 'set reg r10 1: refused Q7: register not writable' "$(replies_to 'set reg r10 1')"

# Whole replies, for a script of its own.
"$bpfdb" debug --listing -m "$context" "$program" < "$here/script" > "$work/replies"
expect 'the exit status of debug' 0 $?
cmp -s "$here/replies" "$work/replies"
expect 'the replies to the script are as in replies' 0 $?

# The same with a map: a counter of the example counters that is set by hand stays where the machine goes back to before its first step.
context=$here/../counters/context.bin program=$here/../counters/program.s maps=8x4
wanted='set cell 0 2 2900000000000000: ok
continue: 12 forward; end; exited at 12: r0 0x2a
reverse-stepi 1000000000: 12 back; start; at 0: ldxb r6, [r1+0]
x 0x300000010 8: 0x300000010: 2900000000000000'
found=$(replies_to 'set cell 0 2 2900000000000000' continue 'reverse-stepi 1000000000' 'x 0x300000010 8')
expect 'a counter that begins at 41' "$wanted" "$found"

exit $status
