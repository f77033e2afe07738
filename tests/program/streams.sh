# Standard input, output and error that are closed or fail, devices that are full, and readers that leave.

unread='cannot read input\n'
unwritten='cannot write output\n'
bytes program b7 00 00 00 2a 00 00 00 EXIT
bytes endless 05 00 ff ff 00 00 00 00
bytes faulting 71 10 00 00 00 00 00 00 EXIT
printf 'mov r0, 42\nexit\n' > program.s
printf 'mov r0, 41\nexit\n' > less.s
: > empty
"$program" trace program > there
cp "$top/crates/bpfdb/stdin" script

# found NAME STATUS OUTPUT ERRORS: holds the status that the last command left against what was wanted.
found() {
    echo $? > found/status
    check "$@"
}

# Standard input that can't be read is no concern of those that don't read it.
"$program" < . > found/out 2> found/err
found "input that can't be read" 2 '' "$unread"
"$program" debug program < . > found/out 2> found/err
found "debug: input that can't be read" 2 '' "$unread"
"$program" run program < . > found/out 2> found/err
found "run: input that can't be read" 0 '0x2a\n' ''
"$program" <&- > found/out 2> found/err
found 'closed input' 0 '' ''
"$program" debug program <&- > found/out 2> found/err
found 'debug: closed input' 0 '' ''
"$program" debug -m script script <&- > found/out 2> found/err
found 'debug: closed input, a refused program' 2 '' 'refused C3: length is no multiple of 8\n'
"$program" run -m program program <&- > found/out 2> found/err
found 'run: closed input' 0 '0x2a\n' ''

# An input that is open, but not for reading, is no closed one: it can't be read.
for other in other /dev/null; do
    "$program" 0> $other > found/out 2> found/err
    found "input that is open for writing alone, $other" 2 '' "$unread"
    "$program" debug program 0> $other > found/out 2> found/err
    found "debug: input that is open for writing alone, $other" 2 '' "$unread"
    "$program" run program 0> $other > found/out 2> found/err
    found "run: input that is open for writing alone, $other" 0 '0x2a\n' ''
    "$program" debug --journal 1023 program 0> $other > found/out 2> found/err
    found "debug: input that is open for writing alone, $other, and a refused journal" 2 '' 'refused J1: journal size out of range\n'
done
"$program" debug program 0>> other > found/out 2> found/err
found 'debug: input that is open for appending alone' 2 '' "$unread"
"$program" debug program 0<> other > found/out 2> found/err
found 'debug: input that is open for reading and writing' 0 '' ''

# each WAY: what each command line that writes comes to with an output that fails, with WAY to run it.
each() {
    : > found/out
    while read -r arguments; do
        "$1" $arguments
        found "$1 $arguments" 2 '' "$unwritten"
    done <<'ROWS'

run program
run --listing program.s
trace program
trace --branches program
trace --profile program
run --strict program
trace --strict program
diff --trace there program
diff --listing program.s less.s
diff --writes --listing program.s less.s
debug program
debug --listing program.s
asm program.s
lines program.s
origin program
disasm program
check program
check --listing program.s
--help
-h
help
run --help
debug -h
ROWS
}

# to_full ARGUMENT..: the output is a full device.
to_full() {
    "$program" "$@" < script > /dev/full 2> found/err
}

# to_closed ARGUMENT..: the output is closed.
to_closed() {
    "$program" "$@" < script >&- 2> found/err
}

# to_input ARGUMENT..: the output is open for reading alone.
to_input() {
    "$program" "$@" < script 1< program 2> found/err
}

# to_left ARGUMENT..: the output is a pipe whose reader has left.
to_left() {
    "$program" "$@" < script >&5 2> found/err
}

# (who opens a pipe to write waits for one who opens it to read; that one ends at once)
mkfifo pipe
: < pipe &
exec 5> pipe
wait

[ -c /dev/full ] || left_out 'devices that are full' 'there is no /dev/full'
[ -c /dev/full ] && each to_full
each to_closed
each to_input
each to_left
[ -c /dev/full ] && to_full asm empty
found 'no bytes to write to a full device' 0 '' ''
to_closed asm empty
found 'no bytes to write to a closed output' 0 '' ''
: > script
to_full debug program
found 'no reply to write to a full device' 0 '' ''
cp "$top/crates/bpfdb/stdin" script

# A fault that can't be told: the status is 2, whatever it would have been.
: > found/out
: > found/err
while read -r arguments; do
    [ -c /dev/full ] && "$program" $arguments < script > found/out 2> /dev/full
    found "a full standard error: $arguments" 2 '' ''
    "$program" $arguments < script > found/out 2>&-
    found "closed standard error: $arguments" 2 '' ''
    "$program" $arguments < script > found/out 2>&5
    found "a standard error whose reader has left: $arguments" 2 '' ''
    "$program" $arguments <&- >&- 2>&-
    found "all closed: $arguments" 2 '' ''
    [ -c /dev/full ] && "$program" $arguments < script > /dev/full 2>&1
    found "all full: $arguments" 2 '' ''
done <<'ROWS'
frob
run
run --steps 0 program
run missing
run -m missing program
run empty
run --steps 7 endless
run faulting
run --maps 0x1 program
debug empty
debug --journal 1023 program
origin program r10
asm program
disasm empty
check empty
ROWS

# What has nothing to tell needs no standard error.
[ -c /dev/full ] && "$program" run program > found/out 2> /dev/full
found 'run: a full standard error' 0 '0x2a\n' ''
"$program" run program > found/out 2>&-
found 'run: closed standard error' 0 '0x2a\n' ''
"$program" --help > found/help 2>&-
: > found/out
found '--help: closed standard error' 0 '' ''
same '--help: closed standard error' "$parts/help/bpfdb.txt" found/help
while read -r arguments; do
    "$program" $arguments < script >&- 2>&-
    found "closed output and closed standard error: $arguments" 2 '' ''
    "$program" $arguments <&- >&5 2>&5
    found "an output and a standard error whose reader has left: $arguments" 2 '' ''
done <<'ROWS'
run program
trace program
asm program.s
lines program.s
origin program
disasm program
check program
--help
ROWS
"$program" debug program < script >&- 2>&-
found 'closed output and closed standard error: debug' 2 '' ''
"$program" < script >&- 2>&-
found 'closed output and closed standard error' 2 '' ''
exec 5>&-

# Readers that leave in the middle: of a long output, and of a session.
yes exit | head -n 65535 > long.s
for arguments in 'disasm --listing long.s' 'asm long.s' 'trace endless'; do
    {
        "$program" $arguments 2> found/err
        echo $? > found/status
    } | head -c 0
    check "a reader that leaves at once: $arguments" 2 '' "$unwritten"
    {
        "$program" $arguments 2> found/err
        echo $? > found/status
    } | head -c 1 > found/byte
    check "a reader that leaves after a byte: $arguments" 2 '' "$unwritten"
done

# feed SCRIPT: the script, and one more step once the reader of the replies has left, for which it waits 10 seconds at most.
feed() {
    printf '%b' "$1"
    waited=0
    until [ -e left ] || [ "$waited" -ge 10 ]; do
        sleep 1
        waited=$((waited + 1))
    done
    echo stepi
}

# obey ARGUMENT..: runs the program between two pipes.
obey() {
    "$program" "$@" 2> found/err
    echo $? > found/status
}

feed '' | obey | {
    exec <&-
    : > left
}
check 'a reader that leaves at once' 2 '' "$unwritten"
rm left

# (the first reply comes while the program waits for the next line, so it was flushed)
feed 'stepi\n' | obey debug program | {
    read -r reply
    echo "$reply" > found/out
    exec <&-
    : > left
}
check 'a reader that leaves after the first reply' 2 '1 forward; done; at 1: exit\n' "$unwritten"
: > found/out

# A limit on the size of files ends a program by a signal; where that is ignored, a write beyond it is one that fails.
yes exit | head -n 500 > many.s
(
    trap '' XFSZ
    ulimit -f 1
    "$program" asm many.s > cut 2> found/err
    echo $? > found/status
)
check 'an output beyond the limit on the size of files' 2 '' "$unwritten"
# (a shell tells of the signal itself)
{
    (
        ulimit -f 1
        exec "$program" asm many.s > cut 2> found/err
    )
    echo $? > found/status
} 2> /dev/null
check 'an output beyond the limit on the size of files, which ends by SIGXFSZ' $((128 + 25)) '' ''
