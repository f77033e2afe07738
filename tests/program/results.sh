# What jobs give: programs that are run, checked, assembled and written as listings, with values from RFC 9669 and the manual.

# Programs that are run: the result, or the line of the fault, and the bytes.
while IFS='|' read -r way answer hex; do
    bytes program $hex
    case $way in
        result) result "$answer\n" run program ;;
        fault) stopped "$answer" run program ;;
    esac
done <<'ROWS'
result|0x2a|b7 00 00 00 2a 00 00 00 EXIT
result|0xffffffff|b4 00 00 00 ff ff ff ff EXIT
result|0xffffffffffffffff|b7 00 00 00 ff ff ff ff EXIT
result|0x8000000000000000|18 00 00 00 00 00 00 00 00 00 00 00 00 00 00 80 37 00 01 00 ff ff ff ff EXIT
result|0x5|18 00 00 00 05 00 00 00 00 00 00 00 01 00 00 00 9c 10 00 00 00 00 00 00 EXIT
result|0x100000005|18 00 00 00 05 00 00 00 00 00 00 00 01 00 00 00 9f 10 00 00 00 00 00 00 EXIT
result|0xffffffffffffffff|b7 00 00 00 f3 ff ff ff 97 00 01 00 03 00 00 00 EXIT
result|0x8877|18 00 00 00 88 77 66 55 00 00 00 00 44 33 22 11 dc 00 00 00 10 00 00 00 EXIT
result|0x88776655|18 00 00 00 88 77 66 55 00 00 00 00 44 33 22 11 d7 00 00 00 20 00 00 00 EXIT
result|0x0|71 a0 00 fe 00 00 00 00 EXIT
fault|fault access 0x1ffffffff at 0|71 a0 ff fd 00 00 00 00 EXIT
fault|fault access 0x200000200 at 0|7a 0a 00 00 07 00 00 00 EXIT
fault|fault access 0x0 at 2|18 01 00 00 ff ff ff ff 00 00 00 00 ff ff ff ff 71 10 01 00 00 00 00 00 EXIT
fault|fault depth at 0|85 10 00 00 ff ff ff ff EXIT
fault|fault token 0x0 at 0|85 00 00 00 01 00 00 00 EXIT
ROWS

bytes program b7 00 00 00 2a 00 00 00 EXIT
others='r1=0x0 r2=0x0 r3=0x0 r4=0x0 r5=0x0 r6=0x0 r7=0x0 r8=0x0 r9=0x0 r10=0x200000200'
result '0x2a\n' run --steps 2 program
stopped 'step limit 1 reached at 1' run --steps 1 program
session 'there and back' 'stepi\ninfo regs\nreverse-stepi\nstepi 5\nstepi\nquit\n' \
    "1 forward; done; at 1: exit\nr0=0x2a $others\nat 1: exit\n1 back; done; at 0: mov r0, 42\n\
2 forward; end; exited at 1: r0 0x2a\nrefused Q3: the machine has ended\n" debug program
bytes endless 05 00 ff ff 00 00 00 00
stopped 'step limit 7 reached at 0' run --steps 7 endless

# A context that is read, and edits of it.
bytes load 79 11 00 00 00 00 00 00 EXIT
bytes eight 01 02 03 04 05 06 07 08
zeros='r3=0x0 r4=0x0 r5=0x0 r6=0x0 r7=0x0 r8=0x0 r9=0x0 r10=0x200000200'
session 'the context' 'stepi\ninfo regs\nreverse-stepi\ninfo regs\n' \
    "1 forward; done; at 1: exit\nr0=0x0 r1=0x807060504030201 r2=0x8 $zeros\nat 1: exit\n\
1 back; done; at 0: ldxdw r1, [r1+0]\nr0=0x0 r1=0x100000000 r2=0x8 $zeros\nat 0: ldxdw r1, [r1+0]\n" debug -m eight load
bytes past 79 10 01 00 00 00 00 00 EXIT
stopped 'fault access 0x100000001 at 0' run -m eight past

# A journal that is full.
bytes count 07 00 00 00 01 00 00 00 05 00 fe ff 00 00 00 00
session 'a journal of 1,024 bytes' \
    'stepi 100\ninfo history\nundo\nreverse-stepi 100\ninfo regs\nreverse-stepi\n' \
    "100 forward; done; at 0: add r0, 1\n89 moves, 0 commands, 1019 of 1024 bytes\nrefused Q5: fewer kept commands\n\
89 back; start; at 1: ja L0\nr0=0x6 $others\nat 1: ja L0\nrefused Q4: no kept step\n" debug --journal 1024 count

# What is kept is the longest end of the history that fits, at each size: of 200 steps, by turns of 16 and 7 bytes, the newest of 7.
for size in 1024 1025 1026 1027 1028 1029 1030 1031 1032 1033 1034 1035 1036 1037 1038 1039 1040; do
    kept=$(awk -v size="$size" 'BEGIN {
        for (moves = 0; sum + (moves % 2 ? 16 : 7) <= size; moves++) sum += moves % 2 ? 16 : 7
        print moves " moves, 0 commands, " sum " of " size " bytes"
    }')
    session "a journal of $size bytes is used to the last byte" 'stepi 200\ninfo history\nreverse-stepi 1000\ninfo history\n' \
        "200 forward; done; at 0: add r0, 1\n$kept\n${kept%% *} back; start; at $((${kept%% *} % 2)): $([ $((${kept%% *} % 2)) = 0 ] && echo 'add r0, 1' || echo 'ja L0')\n0 moves, 0 commands, 0 of $size bytes\n" \
        debug --journal "$size" count
done

# Counts and slots above 255: a limit of steps at a far slot, and a write 301 moves ago.
{ echo 'stb [r10-8], 7'; yes 'mov r0, 1' | head -n 300; echo exit; } > far.s
stopped 'step limit 299 reached at 299' run --listing --steps 299 far.s
session 'a write 301 moves ago' 'stepi 301\nlast-write 0x2000001f8\n' \
    '301 forward; done; at 301: exit\nchanged 301 moves back: 0x0 to 0x7\n' debug --listing far.s

# Moves that are made again: in pieces up to the last one, until a new move; behind refused commands; a new pc in a machine that has
# faulted; across moves that were dropped; past a breakpoint and a watch.
bytes three 07 00 00 00 01 00 00 00 a5 00 fe ff 03 00 00 00 EXIT
at_0='at 0: add r0, 1\n'
at_1='at 1: jlt r0, 3, L0\n'
q13='refused Q13: nothing to redo\n'
session 'redo' 'stepi 3\nundo\nredo\nredo 5\ninfo history\nredo\nundo\nset reg r0 9\nredo\nundo\nredo\ninfo regs\n' \
    "3 forward; done; ${at_1}3 back; done; ${at_0}1 redone; done; ${at_1}2 redone; all; ${at_1}3 moves, 1 commands, 39 of 65536 bytes\n\
${q13}3 back; done; ${at_0}ok\n${q13}1 back; done; ${at_0}1 redone; done; ${at_0}r0=0x9 $others\n$at_0" debug three
q2='refused Q2: wrong argument\n'
session 'redo behind refused commands' 'redo\nstepi 2\nundo\nset reg r10 1\nredo 0\nredo 1 1\nredo x\nundo\nfrob\nbreak 1\nredo 2\nredo 2\n' \
    "${q13}2 forward; done; ${at_0}2 back; done; ${at_0}refused Q7: register not writable\n$q2$q2${q2}refused Q5: fewer kept commands\n\
refused Q1: unknown command\nok\n2 redone; done; ${at_0}$q13" debug three
bytes below 7a 0a 00 00 07 00 00 00 EXIT
faulted='fault access 0x200000200 at 0\n'
session 'redo of a new pc' 'stepi\nset pc 0\nundo\nredo\nstepi\nundo 3\nredo 3\n' \
    "1 forward; end; ${faulted}ok\n1 back; done; ${faulted}1 redone; done; at 0: stdw [r10+0], 7\n1 forward; end; ${faulted}\
3 back; done; at 0: stdw [r10+0], 7\n3 redone; done; $faulted" debug below
session 'redo across moves that were dropped' 'stepi 100\nreverse-stepi 100\nredo 1000\ninfo history\nundo\nreverse-stepi 89\nredo 88\nredo 2\n' \
    "100 forward; done; ${at_0}89 back; start; at 1: ja L0\n89 redone; all; ${at_0}89 moves, 0 commands, 1019 of 1024 bytes\n\
refused Q5: fewer kept commands\n89 back; done; at 1: ja L0\n88 redone; done; at 1: ja L0\n1 redone; all; $at_0" debug --journal 1024 count
bytes stores 72 01 00 00 07 00 00 00 72 01 00 00 02 00 00 00 EXIT
session 'redo past a breakpoint and a watch' \
    'break 1\nwatch 0x100000000\ncontinue\ncontinue\nset mem 0x100000000 55\nundo 3\nx 0x100000000 1\nredo 2\nx 0x100000000 1\nredo 2\nx 0x100000000 1\ninfo breaks\n' \
    "ok\nok\n1 forward; break; at 1: stb [r1+0], 2\n1 forward; watch; at 2: exit\nok\n3 back; done; at 0: stb [r1+0], 7\n0x100000000: 01\n\
2 redone; done; at 2: exit\n0x100000000: 02\n1 redone; all; at 2: exit\n0x100000000: 55\nbreak 1\nwatch 0x100000000\n" debug -m eight stores

# Maps.
bytes update 18 51 00 00 00 00 00 00 00 00 00 00 00 00 00 00 bf a2 00 00 00 00 00 00 07 02 00 00 f8 ff ff ff \
    18 63 00 00 00 00 00 00 00 00 00 00 04 00 00 00 85 00 00 00 02 00 00 00 EXIT
result 'ok 6 instructions in 8 slots\n' check --maps 8x2 update
result 'ldmap r1, 0\nmov r2, r10\nadd r2, -8\nldmapval r3, 0, 4\ncall 2\nexit\n' disasm --maps 8x2 update
result '0x0\n' run --maps 8x2 update
for subcommand in run debug disasm check; do
    refused 'refused C12 at slot 0: no such map or offset' $subcommand update
done
session 'maps' "set cell 0 0 0102030405060708\nset cell 0 1 090a0b0c0d0e0f10\nset cell 0 1 0102\ncontinue\n\
x 0x300000000 16\ninfo history\nundo\nx 0x300000000 16\nset reg r4 1\ncontinue\n" \
    "ok\nok\nrefused Q14: no such cell or wrong length\n6 forward; end; exited at 7: r0 0x0\n\
0x300000000: 05060708090a0b0c090a0b0c0d0e0f10\n8 moves, 3 commands, 142 of 65536 bytes\n6 back; done; at 0: ldmap r1, 0\n\
0x300000000: 0102030405060708090a0b0c0d0e0f10\nok\n6 forward; end; exited at 7: r0 0xffffffffffffffef\n" debug --maps 8x2 update

# assembled LISTING BYTE..: the bytes that the listing (as printf's %b reads it) is assembled to.
assembled() {
    listing=$1
    shift
    printf '%b' "$listing" > listing.s
    bytes wanted/words "$@"
    row "bpfdb asm of $listing" 0 '' "$text" '' asm listing.s
    same "the bytes of $listing" wanted/words found/out
}

loop='; count\nloop: add r0, 1\njlt r0, 0x3, loop\nexit\n'
assembled "$loop" 07 00 00 00 01 00 00 00 a5 00 fe ff 03 00 00 00 EXIT
cp found/out loop
cp listing.s loop.s
result 'L0:\nadd r0, 1\njlt r0, 3, L0\nexit\n' disasm loop
result 'L0:\nadd r0, 1\njlt r0, 3, L0\nexit\n' disasm --listing loop.s
result 'ok 3 instructions in 3 slots\n' check loop
result 'ok 3 instructions in 3 slots\n' check --listing loop.s
result '0x3\n' run loop
assembled ''
assembled '; nothing\n\n \t\r\nlabel:\n'
assembled 'exit' EXIT
assembled 'exit\r\n' EXIT
assembled 'lddw r1, -1' 18 01 00 00 ff ff ff ff 00 00 00 00 ff ff ff ff
assembled 'stxdw [ r10 - 8 ] , r1' 7b 1a f8 ff 00 00 00 00
assembled 'x: ja x' 05 00 ff ff 00 00 00 00
assembled 'atomic_cmpxchg32 [r1], r2' c3 21 00 00 f1 00 00 00
assembled 'be16 r0' dc 00 00 00 10 00 00 00
assembled 'ja e\ne:' 05 00 00 00 00 00 00 00
assembled 'mov r0, 10' b7 00 00 00 0a 00 00 00
assembled 'mov r0, 4294967295\nexit\n' b7 00 00 00 ff ff ff ff EXIT
result 'mov r0, -1\nexit\n' disasm --listing listing.s
printf 'ja e\ne:' > listing.s
refused 'refused C8 at slot 0: target is no instruction' check --listing listing.s

# Listings of one line that are refused.
while IFS='|' read -r answer listing; do
    printf '%s' "$listing" > listing.s
    refused "refused $answer" asm listing.s
done <<'ROWS'
A2 at line 1: wrong operands|mov r0
A3 at line 1: number out of range|mov r0, 4294967296
A5 at line 1: unknown label|jeq r0, 1, far
A1 at line 1: unknown mnemonic|frob r0
ROWS

# The listings of tests/program/listings, written back, are assembled to the same bytes; and what is written back stays.
for listing in "$parts"/listings/*.s; do
    name=${listing##*/}
    : > script
    "$program" asm "$listing" > words && "$program" disasm --maps 8x256 words > canonical.s &&
        "$program" asm canonical.s > words_again && "$program" disasm --maps 8x256 --listing canonical.s > canonical_again.s ||
        complain "$name: asm and disasm"
    [ -s words ] || complain "$name: no bytes"
    same "$name: asm, disasm, asm" words words_again
    same "$name: disasm, asm, disasm" canonical.s canonical_again.s
    run run --maps 8x256 --listing "$listing"
    mv found/out found/from_listing
    run run --maps 8x256 words
    same "$name: the listing runs as its bytes do" found/from_listing found/out
done
bytes wanted/words b7 00 00 00 00 00 00 00 15 02 05 00 00 00 00 00 71 13 00 00 00 00 00 00 0f 30 00 00 00 00 00 00 \
    07 01 00 00 01 00 00 00 07 02 00 00 ff ff ff ff 05 00 fa ff 00 00 00 00 EXIT
"$program" asm "$parts/listings/sum.s" > words
same "sum.s: its bytes" wanted/words words
result '0x24\n' run -m eight words
result '0x0\n' run words

# Every instruction in every form, there, back and there again: listings/instructions.s holds each result against one worked out
# by hand, and ends with 1 where all agree. Of its 735 instructions 60 are `ja fail`, and 8 more are reached by failures alone;
# 812 slots stand in front of the `exit` that ends it (both are counted in the listing).
instructions=$parts/listings/instructions.s
result '0x1\n' run --maps 8x256 --listing "$instructions"
shown='info regs\ninfo frames\ninfo trace\ninfo history\nx 0x200000000 256\nx 0x200000100 256\nx 0x300000000 256\n'
there='667 forward; end; exited at 812: r0 0x1\ntrace 1 0xabc\n'
again='667 redone; done; exited at 812: r0 0x1\ntrace 1 0xabc\n'
all_zero=$(printf '%0512d' 0)
at_first="r0=0x0 $others\nat 0: mov r9, 2\ndepth 0\ntrace 0\n0 moves, 0 commands, 0 of 65536 bytes\n\
0x200000000: $all_zero\n0x200000100: $all_zero\n0x300000000: $all_zero\n"
session 'every instruction there and back' \
    "continue\ninfo trace\nundo\n${shown}continue\ninfo trace\nreverse-stepi 1000000000\n${shown}redo 667\ninfo trace\nundo\n$shown" \
    "${there}667 back; done; at 0: mov r9, 2\n$at_first${there}667 back; start; at 0: mov r9, 2\n$at_first${again}\
667 back; done; at 0: mov r9, 2\n$at_first" \
    debug --maps 8x256 --listing "$instructions"

# alike NAME NUMBER FILE: the file has so many different lines.
alike() {
    count=$((count + 1))
    number=$(sort -u "$3" | wc -l)
    [ "$number" -eq "$2" ] || complain "$1: $number, not $2"
}

# They are 119 opcodes, the first bytes of their words (the second halves of wide loads begin with 00); and 109 mnemonics, of
# which 50 have two forms: with a register and with a number behind the first operand.
"$program" asm "$instructions" > words
od -An -v -tx1 words | awk '{ for (i = 1; i <= NF; i++) if (n++ % 8 == 0 && $i != "00") print $i }' > opcodes
alike 'instructions.s: its opcodes' 119 opcodes
"$program" disasm --maps 8x256 words | sed '/:$/d' > lines
awk '{ print $1 }' lines > mnemonics
alike 'instructions.s: its mnemonics' 109 mnemonics
awk '{ print $1, $3 ~ /^r/ }' lines > kinds
alike 'instructions.s: its mnemonics and forms' 159 kinds

# The longest program.
yes exit | head -n 65535 > longest.s
"$program" asm longest.s > longest
yes "$(printf '\225\1\1\1\1\1\1')" | tr '\1\n' '\0\0' | head -c 524280 > wanted/words
same 'the longest program' wanted/words longest
result 'ok 65535 instructions in 65535 slots\n' check longest
: > wanted/err
echo 0 > wanted/status
cp longest.s wanted/out
run disasm longest
compare 'bpfdb disasm longest'
{ echo 'ja far'; yes exit | head -n 32767; echo 'far: exit'; } > far.s
result 'ok 32769 instructions in 32769 slots\n' check --listing far.s
{ echo 'ja32 far'; yes exit | head -n 32768; echo 'far: exit'; } > far.s
result 'ok 32770 instructions in 32770 slots\n' check --listing far.s
