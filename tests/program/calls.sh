# Calls to the system that are interrupted, come short or fail: files, scripts, replies and standard error.

bytes program b7 00 00 00 2a 00 00 00 EXIT
words=$text
bytes first 71 10 00 00 00 00 00 00 EXIT
bytes context 07 02 03
printf 'start: mov r0, 42\nexit\n' > program.s
bytes endless 05 00 ff ff 00 00 00 00
yes exit | head -n 5000 > long.s
yes "$(printf '\225\001\002\003\004\005\006')" | head -n 8000 > long
kit=$(dirname "$(rt doc)")
"$kit/toolchain/bin/clang" -fuse-ld=lld -shared -fPIC -O1 -nostdlib -o interrupt.so "$top/tests/interrupt.c" ||
    complain "tests/interrupt.c can't be compiled by the clang of the kit, $kit"

# under SETTINGS STATUS OUTPUT ERRORS ARGUMENT..: the command line comes to this where calls go as the settings say.
under() {
    settings=$1 status=$2 output=$3 errors=$4
    shift 4
    env $settings LD_PRELOAD=./interrupt.so "$program" "$@" < script > found/out 2> found/err
    echo $? > found/status
    check "$settings bpfdb $*" "$status" "$output" "$errors"
}

# typed SCRIPT STATUS OUTPUT ERRORS ARGUMENT..: the command line comes to this where the script is typed at a terminal.
typed() {
    printf '%b' "$1" > script
    status=$2 output=$3 errors=$4
    shift 4
    ./terminal script "$program" "$@" > found/out 2> found/err
    echo $? > found/status
    check "bpfdb $* at a terminal" "$status" "$output" "$errors"
}

# At a terminal debug says what to do, and each line is read after a prompt; the end of input is one more. Other subcommands say nothing.
compile terminal
greeting="bpfdb reads commands from this terminal. 'bpfdb debug --help' lists them, 'quit' ends.\n"
first_greeting="bpfdb debugs a small program that is built in: mov r0, 42 and exit. For yours: 'bpfdb debug FILE'.\n'bpfdb debug --help' lists the commands, 'quit' ends.\n"
typed 'stepi\n\nfrob\n' 0 '1 forward; done; at 1: exit\nrefused Q1: unknown command\n' "$first_greeting> > > > "
typed 'stepi\nquit\nstepi\n' 0 '1 forward; done; at 1: exit\n' "$first_greeting> > "
typed 'stepi\n' 0 '1 forward; done; at 1: exit\n' "$greeting> > " debug --listing program.s
typed '' 0 '' "$greeting> " debug program
typed 'stepi\n' 0 '0x2a\n' '' run program
typed 'stepi\n' 2 '' 'refused J1: journal size out of range\n' debug --journal 0 program

# hinted LINE HINT ARGUMENT..: the command line is refused with this line; where standard error is a terminal, this hint follows, if there is one.
compile errors
hinted() {
    line=$1 hint=$2
    shift 2
    : > script
    run "$@"
    check "bpfdb $*" 2 '' "$line\n"
    ./errors "$program" "$@" < script > found/out 2> found/err
    echo $? > found/status
    check "bpfdb $* with a terminal as standard error" 2 '' "$line\n${hint:+$hint\n}"
}

# C3, and C4 and C6 at slot 0, of what begins as an object (0x7f, E, L, F) or as a text and is read as words have a hint: with each subcommand that checks a
# program.
bytes object 7f 45 4c 46 02 01 01 00 00 00 00 00 00 00 00 00
head -c 13 object > cut.o
printf 'mov r0, 7\nexit\n' > plain.s
printf '; sevens\nmov r0, 7\nexit\n' > comment.s
printf 'exit ; 12345678\n' > unused.s
ragged='refused C3: length is no multiple of 8'
unknown='refused C4 at slot 0: unknown instruction'
unused='refused C6 at slot 0: unused field is not zero'
for subcommand in run trace debug origin gdb disasm check load; do
    hinted "$unused" 'object looks like an object: --object' "$subcommand" --words object
    hinted "$ragged" 'plain.s looks like a listing: --listing' "$subcommand" --words plain.s
done
hinted "$ragged" 'cut.o looks like an object: --object' check --words cut.o
hinted "$unknown" 'comment.s looks like a listing: --listing' check --words comment.s
hinted "$unused" 'unused.s looks like a listing: --listing' check --words unused.s
cp object "$(printf 'a\033b')"
hinted "$unused" 'a\\x1bb looks like an object: --object' check --words "$(printf 'a\033b')"

# A text has a line feed among its first 4,096 bytes, and there none but printing ASCII, tabs, carriage returns and line feeds.
printf '\ta\r\nb' > blanks.s
hinted "$ragged" 'blanks.s looks like a listing: --listing' check --words blanks.s
for count in 4095 4096; do
    { head -c "$count" /dev/zero | tr '\0' a; printf '\nb'; } > "late$count.s"
done
hinted "$ragged" 'late4095.s looks like a listing: --listing' check --words late4095.s
hinted "$ragged" '' check --words late4096.s
printf 'exit' > unended.s
printf 'exit ; \303\244\n' > umlaut.s
printf 'exit\177\n' > delete.s
for text in unended umlaut delete; do
    hinted "$ragged" '' check --words "$text.s"
done
{ head -c 4095 /dev/zero | tr '\0' '\n'; printf 'a\377b'; } > binary-later.s
hinted "$ragged" 'binary-later.s looks like a listing: --listing' check --words binary-later.s

# A text of another name is read as words, too, where nothing says that it is a listing.
cp plain.s plain
hinted "$ragged" 'plain looks like a listing: --listing' run plain

# Nothing is said of other bytes, of other faults (here C6 at slot 1 of a text, whose first word jumps to slot 2571), nor where FILE isn't read as words.
bytes zeros 00 00 00 00 00 00 00 00
hinted "$unknown" '' run zeros
bytes zeros 00 00 00
hinted "$ragged" '' run zeros
bytes later b7 00 00 00 00 00 00 00 95 10 00 00 00 00 00 00
hinted 'refused C6 at slot 1: unused field is not zero' '' run later
{ printf 'e\t\n\naaaa'; yes 'exit ; 1' | head -n 2600 | tr -d '\n'; } > later.s
hinted 'refused C6 at slot 1: unused field is not zero' '' run --words later.s
hinted 'refused M5: malformed map list' '' run --words --maps x object
hinted 'refused F1: an object has maps of its own: leave --maps out' '' run --maps x object
hinted 'refused A6 at line 1: byte outside ASCII text' '' run --listing object
hinted 'refused A6 at line 1: byte outside ASCII text' '' asm object
hinted 'refused E1: no ELF file' '' link plain.s
hinted 'cannot read missing' '' run missing
hinted 'refused J1: journal size out of range' '' debug --journal 0 program

# Of words that call a helper that bpfdb lacks its number is told, and its name in the kernel where it has one (1 to 211 of its list of helpers), with what answers it.
answers="in an object --with, --helper or Linux's library answers it"
while IFS='|' read -r number imm name; do
    bytes helper b7 00 00 00 00 00 00 00 85 00 00 00 $imm 95 00 00 00 00 00 00 00
    hinted 'refused C11 at slot 1: unknown helper' "slot 1 calls helper $number$name: $answers" run helper
done <<'ROWS'
14|0e 00 00 00| (bpf_get_current_pid_tgid)
211|d3 00 00 00| (bpf_cgrp_storage_delete)
212|d4 00 00 00|
65550|0e 00 01 00|
4294967295|ff ff ff ff|
0|00 00 00 00|
ROWS
bytes helper 18 01 00 00 05 00 00 00 00 00 00 00 00 00 00 00 85 00 00 00 19 00 00 00 95 00 00 00 00 00 00 00
for subcommand in run trace debug origin gdb disasm check load; do
    hinted 'refused C11 at slot 2: unknown helper' "slot 2 calls helper 25 (bpf_perf_event_output): $answers" "$subcommand" helper
done
printf 'mov r0, 0\ncall 14\nexit\n' > helper.s
hinted 'refused C11 at slot 1: unknown helper' 'slot 1 is line 2 of helper.s' run helper.s

# Of a listing whose program the checker refuses the line of the slot is told, by its table.
printf 'mov r0, 0\nja end ; too far\nexit\nend:\n' > far.s
printf '; two slots\nlddw r1, 5\n\nlast: mov r10, 1\nexit\n' > wide.s
hinted 'refused C8 at slot 1: target is no instruction' 'slot 1 is line 2 of far.s' run --listing far.s
for subcommand in run trace debug origin gdb disasm check; do
    hinted 'refused C7 at slot 2: write to r10' 'slot 2 is line 4 of wide.s' "$subcommand" --listing wide.s
done
: > empty.s
hinted 'refused C1: empty program' '' run --listing empty.s

# What is interrupted is made again, and what comes short goes on: the answers are those of the other parts.
"$program" asm long.s > long.bin
for how in INTERRUPTED=0 INTERRUPTED=1 INTERRUPTED=5 SHORT=1 'INTERRUPTED=2 SHORT=3' 'INTERRUPTED=1 SHORT=1000'; do
    cp "$top/crates/bpfdb/stdin" script
    session=$(text "$top/crates/bpfdb/stdout")
    under "$how" 0 "$session" ''
    under "$how" 0 "$session" '' debug --listing program.s
    under "$how" 0 '0x7\n' '' run -m context first
    under "$how" 0 '0x2a\n' '' run --listing program.s
    under "$how" 0 "$words" '' asm program.s
    under "$how" 0 'exited at 1: r0 0x2a\n-2 r0 = 0x2a; 0: mov r0, 42\n' '' origin program
    under "$how" 0 '0 1 start\n1 2\n' '' lines program.s
    under "$how" 0 '1 0: mov r0, 42; r0 = 0x2a\n2 1: exit\nexited at 1: r0 0x2a\n' '' trace program
    under "$how" 0 'mov r0, 42\nexit\n' '' disasm program
    under "$how" 0 'ok 5000 instructions in 5000 slots\n' '' check long.bin
    under "$how" 0 'ok 5000 instructions in 5000 slots\n' '' check --listing long.s
    under "$how" 1 '' 'step limit 7 reached at 0\n' run --steps 7 endless
    under "$how" 1 '' 'fault access 0x0 at 0\n' run first
    under "$how" 2 '' 'cannot read missing\n' run missing
    under "$how" 2 '' 'refused J1: journal size out of range\n' debug --journal 0 program
    under "$how" 0 "$(text "$parts/help/bpfdb.txt")" '' --help
done

# A read that fails is the end of no file: not the first one, not one in the middle, not the one that would find the end.
printf 'stepi\n' > script
for read in 1 2 3 4; do
    under "FAILED=$read" 2 '' 'cannot read long.bin\n' check long.bin
    under "FAILED=$read" 2 '' 'cannot read long.bin\n' debug long.bin
    under "FAILED=$read" 2 '' 'cannot read long\n' run -m long long
done
under FAILED=5 0 'ok 5000 instructions in 5000 slots\n' '' check long.bin
for read in 1 2 3; do
    under "FAILED=$read" 2 '' 'cannot read long.s\n' asm long.s
    under "FAILED=$read" 2 '' 'cannot read long.s\n' check --listing long.s
done
under FAILED=4 0 'ok 5000 instructions in 5000 slots\n' '' check --listing long.s
for read in 1 2 5 16; do
    under "FAILED=$read SHORT=1" 2 '' 'cannot read program\n' run program
done
for read in 3 4; do
    under "FAILED=$read" 2 '' 'cannot read context\n' run -m context first
done
under FAILED=5 0 '0x7\n' '' run -m context first
under 'FAILED=20 SHORT=1' 2 '' 'cannot read context\n' run -m context first
