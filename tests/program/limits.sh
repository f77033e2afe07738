# As much as the limits allow: the longest programs, contexts, listings, scripts and journals, sixteen full maps, and little stack and memory.
. "$parts/packets.sh"

sixteen=256x256,256x256,256x256,256x256,256x256,256x256,256x256,256x256
sixteen=$sixteen,$sixteen
yes 'add r0, 1' | head -n 65534 > longest.s
echo exit >> longest.s
yes "$(printf '\7\1\1\1\2\1\1')" | tr '\1\2\n' '\0\1\0' | head -c 524272 > longest
printf '\225\0\0\0\0\0\0\0' >> longest
# (the same, but that it adds 2 at last)
{ head -c 524264 longest; printf '\7\0\0\0\2\0\0\0\225\0\0\0\0\0\0\0'; } > other-end
yes "$(printf '\377')" | tr '\n' '\252' | head -c 65536 > context

# output NAME FILE ARGUMENT..: the program's output is that of the file, nothing is on standard error, and the status is 0.
output() {
    name=$1
    cp "$2" wanted/out
    shift 2
    : > wanted/err
    echo 0 > wanted/status
    run "$@"
    compare "$name"
}

# The longest program of instructions of one slot, with all maps and the longest context, through each subcommand.
: > script
result '0xfffe\n' run -m context --maps $sixteen longest
result '0xfffe\n' run -m context --maps $sixteen --listing longest.s
result 'ok 65535 instructions in 65535 slots\n' check --maps $sixteen longest
result 'ok 65535 instructions in 65535 slots\n' check --maps $sixteen --listing longest.s
output 'asm of the longest program' longest asm longest.s
output 'disasm of the longest program' longest.s disasm --maps $sixteen longest
output 'disasm of the longest listing' longest.s disasm --maps $sixteen --listing longest.s
seq 0 65534 | awk '{ print $1, $1 + 1 }' > slots
output 'lines of the longest listing' slots lines longest.s
result '65535 65534: exit\nexited at 65534: r0 0xfffe\n' trace -m context --maps $sixteen --from 65535 longest
awk 'BEGIN { for (i = 0; i < 65534; i++) print "1 " i ": add r0, 1"; print "1 65534: exit\nexited at 65534: r0 0xfffe" }' > profile
output 'a profile of the longest program' profile trace -m context --maps $sixteen --profile longest
awk 'BEGIN {
    print "exited at 65534: r0 0xfffe"
    for (i = 65534; i > 64534; i--) printf "-%d r0 = 0x%x; %d: add r0, 1; from r0\n", 65536 - i, i, i - 1
    print "cut: there are more lines"
}' > origin
# whence NAME: where the result of the longest program came from: 1,000 lines, and there are more.
whence() {
    run origin -m context --maps $sixteen --journal 16777216 longest
    cp origin wanted/out
    : > wanted/err
    echo 1 > wanted/status
    compare "$1"
}
whence 'origin of the longest program'
value=$(printf '%0512d' 1)
# full NAME ARGUMENT..: a session in the largest machine: to its end, edits of its last bytes, and all of that taken back.
full() {
    session "$1" "stepi 65534\ninfo history\nset mem 0x10000ffff 77\nset cell 15 255 $value\nx 0x10000fffe 2\nx 0x300f0ff00 256\n\
watch 0x300f0ffff\nbreak 65534\ndisas 65534 256\nlast-write 0x300f0ffff\nundo 3\nx 0x10000fffe 2\nx 0x300f0fffe 2\nrc\ncontinue\n" \
        "65534 forward; done; at 65534: exit\n65534 moves, 1 commands, 1048544 of 16777216 bytes\nok\nok\n0x10000fffe: ff77\n\
0x300f0ff00: $value\nok\nok\n65534: exit\nchanged 1 moves back: 0x0 to 0x1\n65536 back; done; at 0: add r0, 1\n0x10000fffe: ffaa\n\
0x300f0fffe: 0000\nrefused Q4: no kept step\n65534 forward; break; at 65534: exit\n" \
        debug -m context --maps $sixteen --journal 16777216 longest
}
full 'the largest machine'

# A program that reaches the last byte of each map, and of the context.
{
    for map in 0 1 2 3 4 5 6 7 8 9 10 11 12 13 14 15; do
        printf 'ldmapval r3, %s, 65535\nldxb r4, [r3+0]\nadd r0, r4\nstb [r3+0], 1\nldxb r4, [r3+0]\nadd r0, r4\n' $map
    done
    printf 'add r1, r2\nldxb r4, [r1-1]\nadd r0, r4\nexit\n'
} > reach.s
result '0xba\n' run -m context --maps $sixteen --listing reach.s

# The longest program of wide loads.
yes 'lddw r0, 0x1122334455667788' | head -n 32767 > wide.s
echo exit >> wide.s
result 'ok 32768 instructions in 65535 slots\n' check --listing wide.s
result '0x1122334455667788\n' run --listing wide.s
output 'disasm of the longest program of wide loads' wide.s disasm --listing wide.s

# As many labels as there are slots: each jump goes to the next slot.
awk 'BEGIN { for (i = 0; i < 65534; i++) printf "slot_%d: ja slot_%d\n", i, i + 1; print "slot_65534: exit" }' > labels.s
awk 'BEGIN { for (i = 0; i < 65534; i++) printf "%sja L%d\n", i ? "L" i ":\n" : "", i + 1; print "L65534:\nexit" }' > canonical.s
yes "$(printf '\5\1\1\1\1\1\1')" | tr '\1\n' '\0\0' | head -c 524272 > jumps
printf '\225\0\0\0\0\0\0\0' >> jumps
output 'asm of 65,535 labels' jumps asm labels.s
output 'asm of the same labels, as they are written back' jumps asm canonical.s
output 'disasm of 65,535 labels' canonical.s disasm jumps
result '0x0\n' run jumps

# Listings of two megabytes: of 65,535 lines, of one line, and of lines without an instruction.
yes 'add r0, 1 ; 0123456789012345678' | head -n 65534 > two.s
printf 'exit' >> two.s
result 'ok 65535 instructions in 65535 slots\n' check --listing two.s
result '0xfffe\n' run --listing two.s
output 'asm of a listing of 2 MB' longest asm two.s
output 'disasm of a listing of 2 MB' longest.s disasm --listing two.s
{
    head -c 1000000 /dev/zero | tr '\0' 'n'
    printf ': mov r0, '
    head -c 1000000 /dev/zero | tr '\0' '0'
    printf '7\nexit ;'
    head -c 1000000 /dev/zero
} > line.s
result 'ok 2 instructions in 2 slots\n' check --listing line.s
result '0x7\n' run --listing line.s
{
    head -c 2000000 /dev/zero | tr '\0' '\n'
    printf 'frob'
} > lines.s
refused 'refused A1 at line 2000001: unknown mnemonic' asm lines.s

# Scripts of a megabyte and more: of short lines, of one line, and of blank lines.
yes 'info trace' | head -n 100000 > script
yes 'trace 0' | head -n 100000 > stated
output 'a script of 100,000 commands' stated debug longest
head -c 2000000 /dev/zero | tr '\0' 'x' > script
printf 'refused Q12: line too long\n' > stated
output 'a script of one line of 2,000,000 bytes' stated debug longest
head -c 2000000 /dev/zero | tr '\0' '\n' > script
echo quit >> script
yes stepi | head -n 200000 >> script
: > stated
output 'a script of 2,000,000 blank lines' stated debug longest
awk 'BEGIN { for (i = 0; i < 20000; i++) print "stepi 3\nset reg r1 0x" i "\nundo\nreverse-stepi 3\nfrob" }' > script
awk 'BEGIN { for (i = 0; i < 20000; i++) print "3 forward; done; at 3: add r0, 1\nok\n1 back; done; at 3: add r0, 1\n" \
    "3 back; done; at 0: add r0, 1\nrefused Q1: unknown command" }' > stated
output 'a script of 100,000 commands there and back' stated debug longest

# The largest journal: a command of 100,000 steps, then as many steps as it holds, to the last byte, which are all taken back. A step
# more drops the oldest, which began the command. (Four steps of 16 bytes, and 2,396,736 of 7: 16,777,216.)
bytes endless 05 00 ff ff 00 00 00 00
session 'the largest journal' 'stepi 100000\ninfo history\nundo\ninfo history\n' \
    "100000 forward; done; at 0: ja L0\n100000 moves, 1 commands, 700000 of 16777216 bytes\n100000 back; done; at 0: ja L0\n\
0 moves, 0 commands, 0 of 16777216 bytes\n" debug --journal 16777216 endless
printf 'mov r0, 1\nmov r0, 2\nmov r0, 3\nmov r0, 4\nend: ja end\n' > five.s
session 'the largest journal, full' "stepi 2396740\ninfo history\nreverse-stepi 2396740\ninfo history\nstepi 2396740\nstepi\ninfo history\n\
undo\ninfo history\nundo\nreverse-stepi 1000000000\ninfo history\nredo 1000000000\ninfo history\nundo\nredo\n" \
    "2396740 forward; done; at 4: ja L4\n2396740 moves, 1 commands, 16777216 of 16777216 bytes\n2396740 back; done; at 0: mov r0, 1\n\
0 moves, 0 commands, 0 of 16777216 bytes\n2396740 forward; done; at 4: ja L4\n1 forward; done; at 4: ja L4\n\
2396740 moves, 1 commands, 16777207 of 16777216 bytes\n1 back; done; at 4: ja L4\n2396739 moves, 0 commands, 16777200 of 16777216 bytes\n\
refused Q5: fewer kept commands\n2396739 back; start; at 1: mov r0, 2\n0 moves, 0 commands, 0 of 16777216 bytes\n\
2396740 redone; all; at 4: ja L4\n2396740 moves, 1 commands, 16777207 of 16777216 bytes\n1 back; done; at 4: ja L4\n1 redone; done; at 4: ja L4\n" \
    debug --journal 16777216 --steps 1000000000 --listing five.s
session 'the smallest journal, full' 'stepi 100000\ninfo history\nreverse-stepi 146\nreverse-stepi\nredo 1000\ninfo history\n' \
    "100000 forward; done; at 4: ja L4\n146 moves, 0 commands, 1022 of 1024 bytes\n146 back; done; at 4: ja L4\n\
refused Q4: no kept step\n146 redone; all; at 4: ja L4\n146 moves, 0 commands, 1022 of 1024 bytes\n" debug --journal 1024 --listing five.s

# Programs of many lengths, and contexts: there is memory for each.
for slots in 1 2 3 15 16 17 255 256 257 511 512 513 1000 1001 1023 1024 1025 4095 4096 4097 8192 16384 32767 32768 65534; do
    { yes 'add r0, 1' | head -n $((slots - 1)); echo exit; } > many.s
    result "ok $slots instructions in $slots slots\n" check --listing many.s
    result "$slots $((slots - 1)): exit\nexited at $((slots - 1)): r0 $(printf '0x%x' $((slots - 1)))\n" trace --from $slots --listing many.s
done
printf 'mov r0, r2\nexit\n' > length.s
for size in 0 1 2 7 8 255 256 1023 1024 1025 4095 4096 4097 8191 8192 16384 32767 32768 65535 65536; do
    head -c $size /dev/zero > part
    result "$(printf '0x%x' $size)\n" run -m part --listing length.s
done

# Journals of many sizes: each is opened, and knows its size.
for size in 1024 1025 1500 2047 2048 4095 4096 10000 32767 65536 65537 100000 262144 999999 1000000 1000001 1048576 1048577 3000000 4194304 8388607 10000000 \
    16777215 16777216
do
    session "a journal of $size bytes" 'stepi 2\ninfo history\n' "2 forward; done; at 0: ja L0\n2 moves, 1 commands, 14 of $size bytes\n" debug --journal "$size" endless
    result 'at 0: ja L0\nleft r0 = 0x0; at the opening\n' origin --steps 9 --journal "$size" endless
    requests "gdb with a journal of $size bytes" gdb --registers bpf --journal "$size" endless <<ROWS
> info history|0 moves, 0 commands, 0 of $size bytes
ROWS
done

# Little stack: 256 kB are enough for all of this, and for help and a command line that is none.
object typed
object calls
"$program" link typed.o > typed 2> told
bytes overrun.o $(sed 's/../& /g' "$top/examples/overrun/object.hex")
"$program" link --with calls.o overrun.o > both
many=$(printf ' --with calls.o%.0s' 1 2 3 4 5 6 7 8 9 10 11 12 13 14 15 16)
# shellcheck disable=SC2086
"$program" lines --object $many overrun.o > rows
# (an object whose code is the longest program: it stands behind the object text.o, of 448 bytes, whose section has its offset and size at 344)
object text
{ head -c 344 text.o; printf '\300\001\0\0\0\0\0\0\370\377\007\0\0\0\0\0'; tail -c +361 text.o; cat longest; } > longest.o
cp "$parts/suites/cells.test" "$parts/suites/alone.test" .
# parted: what is wanted of the longest program and of the one that adds 2 at last: 1,000 lines of moves of each.
parted() {
    awk 'BEGIN {
        print "step 65534 wrote otherwise\n< 65534 65533: add r0, 1; r0 = 0xfffe\n> 65534 65533: add r0, 2; r0 = 0xffff"
        print "< exited at 65534: r0 0xfffe\n> exited at 65534: r0 0xffff"
        for (run = 1; run <= 2; run++) {
            mark = run == 1 ? "<" : ">"
            printf "%s at 65534: exit\n%s -1 r0 = 0x%x; 65533: add r0, %d; from r0\n", mark, mark, 65533 + run, run
            for (i = 2; i <= 1000; i++) printf "%s -%d r0 = 0x%x; %d: add r0, 1; from r0\n", mark, i, 65535 - i, 65534 - i
            print mark " cut: there are more lines"
        }
    }' > wanted/out
    : > wanted/err
    echo 1 > wanted/status
}
(
    ulimit -s 256
    result '0xfffe\n' run -m context --maps $sixteen longest
    result '0xfffe\n' run -m context --maps $sixteen --listing two.s
    result 'ok 65535 instructions in 65535 slots\n' check --maps $sixteen --listing two.s
    result '0x7\n' run --listing line.s
    result '0x7\n' run --strict --listing line.s
    output 'asm with 256 kB of stack' jumps asm labels.s
    output 'disasm with 256 kB of stack' canonical.s disasm --maps $sixteen jumps
    output 'lines with 256 kB of stack' slots lines two.s
    full 'the largest machine with 256 kB of stack'
    output 'trace with 256 kB of stack' profile trace -m context --maps $sixteen --profile --listing two.s
    output 'link with 256 kB of stack' "$top/examples/overrun/program.bin" link overrun.o
    output 'link of two objects with 256 kB of stack' both link --with calls.o overrun.o
    # shellcheck disable=SC2086
    output 'lines of 17 objects with 256 kB of stack' rows lines --object $many overrun.o
    for subcommand in run trace debug origin gdb check disasm; do
        : > script
        run $subcommand $(told_maps) typed
        cp found/out wanted/out
        cp found/err wanted/err
        cp found/status wanted/status
        run $subcommand --object typed.o
        compare "$subcommand --object with 256 kB of stack"
    done
    result '0xfffe\n' run --object -m context longest.o
    whence 'origin with 256 kB of stack'
    parted
    run diff -m context --maps $sixteen --journal 16777216 longest other-end
    compare 'diff with 256 kB of stack'
    echo continue > path
    result 'at 0: ja L0\nleft r0 = 0x0; at the opening\n' origin --steps 9 --script path endless
    : > script
    run link typed.o
    cp typed wanted/out
    cp told wanted/err
    echo 0 > wanted/status
    compare 'link of maps with 256 kB of stack'
    { od -An -v -tx1 longest | tr -d ' \n'; printf ' '; od -An -v -tx1 context | tr -d ' \n'; } > script
    run batch --maps $sixteen
    check 'batch with 256 kB of stack' 0 '0xfffe\n' ''
    : > script
    run test cells.test
    cp "$parts/suites/cells.out" wanted/out
    : > wanted/err
    echo 1 > wanted/status
    compare 'test with 256 kB of stack'
    requests 'gdb with 256 kB of stack' gdb --registers bpf -m context --maps $sixteen --journal 16777216 longest <<'ROWS'
c|T05replaylog:end;|exited at 65534: r0 0xfffe
> origin r9|OK|left r9 = 0x0; at the opening
> whynot 65534|OK|it was reached 1 moves back
qRcmd,7768796e6f7420{302c*4000}302c|OK|refused V3: neither a slot nor slots with commas between
bc|T05replaylog:begin;
> whynot 65534|OK|it can still be reached
ROWS
    usage "unrecognized subcommand 'rum'" rum longest
    output 'help with 256 kB of stack' "$parts/help/bpfdb.txt" --help
    echo "count=$count failures=$failures" > counted
)
. ./counted

# The kernel counts environment and arguments to the stack. So with 32 kB of them a little more is enough, of which no more is taken: each subcommand, also over
# objects, and what gdb asks, with the same output and status as without a limit. `STACKS=1 sh tests/program.sh limits` prints the least stack of each.
stack=224
room=$(head -c 32700 /dev/zero | tr '\0' x)
# in_stack SIZE ARGUMENT..: runs the program so on the file `script`. What is found: its status, output and standard error.
in_stack() {
    (
        ulimit -s "$1"
        shift
        exec env -i "ROOM=$room" "BPFDB_LINUX=$BPFDB_LINUX" "$program" "$@"
    ) < script > found/out 2> found/err
    echo $? > found/status
}
# least: the least stack of the job whose results are wanted, in kB, by steps of 4 kB.
least() {
    low=64 high=1024
    while [ $((high - low)) -gt 4 ]; do
        middle=$(((low + high) / 8 * 4))
        in_stack $middle "$@" 2> /dev/null
        if agree status && agree out && agree err; then high=$middle; else low=$middle; fi
    done
    echo "$high kB of stack: bpfdb $* < $input"
}
# (the requests of a line are framed by `asked_by`: the sum of a packet's bytes stands behind it)
asked_by() {
    for request in "$@"; do
        case $request in
            monitor\ *) request=qRcmd,$(printf '%s' "${request#monitor }" | od -An -v -tx1 | tr -d ' \n') ;;
        esac
        sum=$(printf '%s' "$request" | od -An -v -tu1 | awk '{ for (i = 1; i <= NF; i++) sum += $i } END { printf "%02x", sum % 256 }')
        printf '$%s#%s' "$request" "$sum"
    done
}
: > nothing
printf 'continue\ninfo regs\nundo\nredo\nset reg r0 7\ndisas 0 5\nlast-write 0x200000000\nreverse-continue\n' > commands
printf 'b70000002a0000009500000000000000 \n' > cases
asked_by c > asked-c
asked_by 'monitor help' > asked-help
asked_by 'monitor info regs' > asked-regs
asked_by 'monitor origin' c 'monitor origin r9' > asked-origin
asked_by 'monitor whynot 0' c 'monitor whynot 0' > asked-whynot
asked_by c bc g m0,40 'monitor origin r0' 'monitor whynot 1' qXfer:features:read:target.xml:0,400 > asked-all
printf -- '-- name\na\n-- object overrun.o\n-- result\n0\n-- name\nb\n-- object typed.o\n-- mem\n2a\n-- result\n1\n' > objects.test
printf -- '-- object overrun.o\n-- with calls.o\n-- with calls.o\n-- result\n0\n' > joined.test
printf -- '-- object overrun.o\n-- section none\n-- with calls.o\n-- result\n0\n' > none.test
printf -- '-- object overrun.o\n-- with calls.o\n-- with script\n-- result\n0\n' > wrong.test
printf '1 0: mov r0, 1\n' > steps
printf 'loop: add r0, 1\njlt r0, 3, loop\nexit\n' > count.s
: > stacks
while IFS='|' read -r input arguments; do
    cp "$input" script
    # (words without blanks)
    # shellcheck disable=SC2086
    run $arguments
    for part in status out err; do mv found/$part wanted/$part; done
    # shellcheck disable=SC2086
    in_stack $stack $arguments
    compare "$stack kB of stack and 32 kB of environment: bpfdb $arguments < $input"
    # shellcheck disable=SC2086
    [ -z "${STACKS:-}" ] || least $arguments >> stacks
done <<ROWS
nothing|run --object typed.o
nothing|run --strict --object overrun.o
nothing|trace --object overrun.o
nothing|trace --branches --object typed.o
nothing|trace --json --object overrun.o
nothing|trace --profile --object overrun.o
commands|debug --object overrun.o
nothing|origin --object overrun.o
nothing|origin --branches --addresses --object typed.o
nothing|origin --dot --object overrun.o
nothing|origin --json --object overrun.o
nothing|origin --script commands --object overrun.o
nothing|whynot --object overrun.o 0
nothing|whynot --json --addresses --object typed.o 1
nothing|whynot --script commands --object typed.o 1
nothing|diff --other-mem nothing --object overrun.o
nothing|diff --writes --other-mem cases --object typed.o
nothing|diff --trace steps --object overrun.o
nothing|check --object typed.o
nothing|disasm --object typed.o
nothing|lines --object --with calls.o overrun.o
nothing|link typed.o
nothing|link -o taken typed.o
nothing|link --section none --with calls.o overrun.o
nothing|link --with calls.o --with calls.o --with calls.o overrun.o
nothing|link -r --with calls.o overrun.o
nothing|link --entries events=7 typed.o
nothing|link --struct xdp overrun.o
nothing|asm labels.s
cases|batch
nothing|test cells.test
nothing|test --json objects.test
nothing|test --cover objects.test
nothing|test --cover-info joined.test
nothing|test joined.test
nothing|test none.test
nothing|test wrong.test
nothing|test --show program joined.test
asked-c|gdb --object overrun.o
asked-help|gdb --object overrun.o
asked-regs|gdb --object overrun.o
asked-origin|gdb --object overrun.o
asked-whynot|gdb --object overrun.o
asked-all|gdb --object typed.o
asked-all|gdb --registers riscv --listing count.s
nothing|help
nothing|rum
ROWS
cat stacks

# Little memory of all kinds: the work is done, or one line says that memory ran out.
# loads ROOM: the system can load the program in an address space of so many kB. What it can't load has status 127.
loads() {
    (
        ulimit -v "$1"
        exec "$program" --version
    ) > found/out 2> found/err
    [ $? -ne 127 ]
}
# least_room: the least one of those, by steps of 25 kB. It grows with the program.
least_room() {
    for room in $(seq 3000 25 6000); do
        loads "$room" && break
    done
    echo "$room"
}
least_room=$(least_room)
# squeezed ROOMS ARGUMENT..: so it is in each of these address spaces, in kB, with `script` as input. 50,000 are enough.
squeezed() {
    rooms=$1
    shift
    "$program" "$@" < script > whole
    wanted=$?
    for room in $rooms; do
        count=$((count + 1))
        (
            ulimit -v "$room"
            exec "$program" "$@"
        ) < script > found/out 2> found/err
        found=$?
        line=$(cat found/err)
        case $found,$room,$line in
            "$wanted",*,) cmp -s whole found/out && continue ;;
            127,*) [ "$room" -ge "$least_room" ] || continue ;;
            2,50000,*) ;;
            2,*,'out of memory' | 2,*,'refused '[ACEOJ]*': out of memory' | 2,*,'refused '[ACO]*': out of memory (the other run)')
                [ -s found/out ] || continue ;;
        esac
        complain "bpfdb $* in $room kB: status $found, $(wc -c < found/out) bytes of output, on standard error '$line'"
    done
}

# Each subcommand: where there is hardly room to load the program, a small thing, and the greatest where there is more. (The steps are small there, since the stack
# takes address space, too: what needs more of it than is left would be ended by a signal, between where the program can be loaded and where all fits.)
printf 'loop: add r0, 2\njlt r0, 3, loop\nexit\n' > further.s
printf 'continue\n' > path
little=$(seq $((least_room - 100)) 25 $((least_room + 50)))
# (the stacks of gdb and of origin behind a script grow by more than the others', and what is left of some 4,500 kB, more or less by what the system's own
# libraries take, hasn't room for that)
grown=$(seq 5000 25 5125)
more='6000 8000 10000 12000 14000 16000 18000 20000 25000 30000 40000 50000'
# (the words of a row are without blanks; gdb is asked to continue, for the line `origin r9`, and to detach)
printf '$c#63$qRcmd,6f726967696e207239#45$D#44' > asked
while IFS='|' read -r size input arguments; do
    cp "$input" script
    case $size in
        little) squeezed "$little" $arguments ;;
        grown) squeezed "$grown" $arguments ;;
        more) squeezed "$more" $arguments ;;
    esac
done <<ROWS
little|path|run --listing count.s
little|path|debug --journal 1024 --listing count.s
little|path|trace --listing count.s
little|path|trace --branches --listing count.s
little|path|trace --profile --listing count.s
little|path|lines count.s
little|path|check --listing count.s
little|path|asm count.s
little|path|disasm --listing count.s
little|path|test alone.test
little|path|run --object calls.o
little|path|link overrun.o
little|path|link -r --with calls.o overrun.o
little|path|origin --journal 1024 --listing count.s
little|path|diff --journal 1024 --listing count.s further.s
grown|path|origin --journal 1024 --script path --listing count.s
grown|asked|gdb --journal 1024 --listing count.s
more|path|run -m context --maps $sixteen longest
more|path|debug -m context --maps $sixteen --journal 16777216 longest
more|path|trace -m context --maps $sixteen --from 65535 longest
more|path|lines two.s
more|path|disasm --maps $sixteen longest
more|path|check --listing two.s
more|path|run --object -m context longest.o
more|path|asm labels.s
more|path|run --listing line.s
more|path|origin -m context --maps $sixteen --journal 16777216 longest
more|path|diff -m context --maps $sixteen --journal 16777216 longest other-end
more|path|diff --writes -m context --maps $sixteen --journal 16777216 longest other-end
more|asked|gdb -m context --maps $sixteen --journal 16777216 longest
ROWS
