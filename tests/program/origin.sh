# Where a value came from: what is asked about and what is refused, what is told, where an answer is cut, and what a journal has dropped. What is wanted was
# worked out by hand from what each instruction reads and writes, and from what its entry weighs (docs/JOURNAL.md).

listing count.s 'loop: add r0, 1;jlt r0, 3, loop;exit'
listing one.s 'mov r0, 1;exit'
listing load.s 'ldxb r0, [r1+0];exit'
listing endless.s 'l: ja l'
bytes context 2a 01 00
bytes count.bin 07 00 00 00 01 00 00 00 a5 00 fe ff 03 00 00 00 EXIT

# A register, by its name or where nothing is named; an end at the limit of steps, and one step before the program's.
three='-3 r0 = 0x3; 0: add r0, 1; from r0\n-5 r0 = 0x2; 0: add r0, 1; from r0\n-7 r0 = 0x1; 0: add r0, 1; from r0\nleft r0 = 0x0; at the opening\n'
tells 0 "exited at 2: r0 0x3\n$three" origin --listing count.s
tells 0 "exited at 2: r0 0x3\n$three" origin --listing count.s r0
tells 0 "exited at 2: r0 0x3\n$three" origin count.bin r0
tells 0 "exited at 2: r0 0x3\n$three" origin --steps 7 count.bin
tells 0 'at 2: exit\n-2 r0 = 0x3; 0: add r0, 1; from r0\n-4 r0 = 0x2; 0: add r0, 1; from r0\n-6 r0 = 0x1; 0: add r0, 1; from r0\nleft r0 = 0x0; at the opening\n' \
    origin --steps 6 count.bin
tells 0 'at 0: add r0, 1\n-2 r0 = 0x1; 0: add r0, 1; from r0\nleft r0 = 0x0; at the opening\n' origin --steps 2 count.bin
tells 0 'at 1: jlt r0, 3, L0\n-1 r0 = 0x1; 0: add r0, 1; from r0\nleft r0 = 0x0; at the opening\n' origin --steps 1 count.bin
# (a jump weighs 7 bytes: the journal of 4,194,304 has room for 599,186 of them)
tells 0 'at 0: ja L0\nleft r0 = 0x0; at the opening\n' origin --steps 599186 --listing endless.s
tells 0 'at 0: ja L0\nleft r0 = 0x0; before the kept history\n' origin --steps 599187 --listing endless.s
tells 0 'at 0: ja L0\nleft r0 = 0x0; before the kept history\n' origin --listing endless.s
for number in 3 4 5 6 7 8 9; do
    tells 0 "exited at 1: r0 0x1\nleft r$number = 0x0; at the opening\n" origin --listing one.s r$number
done
tells 0 'exited at 1: r0 0x2a\nleft r1 = 0x100000000; at the opening\n' origin -m context --listing load.s r1
tells 0 'exited at 1: r0 0x2a\nleft r2 = 0x3; at the opening\n' origin --listing load.s r2 -m context

# Faults: of an access the registers of its address, of which r10 is none; of another kind r0.
listing far.s 'mov r3, 5;stxdw [r3+0], r1;exit'
tells 0 'fault access 0x5 at 1\n-2 r3 = 0x5; 0: mov r3, 5\n' origin --listing far.s
tells 0 'fault access 0x5 at 1\nleft r1 = 0x0; at the opening\n' origin --listing far.s r1
listing frame.s 'ldxb r0, [r10+0];exit'
tells 0 'fault access 0x200000200 at 0\n' origin --listing frame.s
listing deep.s 'f: callf f;exit'
tells 0 'fault depth at 0\nleft r0 = 0x0; at the opening\n' origin --listing deep.s

# Bytes: of the context, with their place there; of a frame; of a map. Decimal and hexadecimal, with leading zeros, 1 to 256 of them.
tells 0 'exited at 1: r0 0x2a\nleft 0x100000000:3 = 0x12a; byte 0 of the context; at the opening\n' \
    origin -m context --listing load.s 0x100000000:3
for what in 0x100000001 0x100000001:1 4294967297 4294967297:0x1 0x0100000001:01; do
    tells 0 'exited at 1: r0 0x2a\nleft 0x100000001:1 = 0x1; byte 1 of the context; at the opening\n' origin -m context --listing load.s $what
done
listing store.s 'stw [r10-8], 0x1234;stb [r10-7], 7;mov r0, 0;exit'
tells 0 'exited at 3: r0 0x0\n-3 0x2000001f9:1 = 0x7; 1: stb [r10-7], 7\n-4 0x2000001f8:4 = 0x1234; 0: stw [r10-8], 4660\n' origin --listing store.s 0x2000001f8:2
tells 0 'exited at 3: r0 0x0\n-4 0x2000001f8:4 = 0x1234; 0: stw [r10-8], 4660\nleft 0x2000001fc:1 = 0x0; not written since the call\n' origin --listing store.s 0x2000001fb:2
listing cell.s 'ldmapval r1, 0, 8;ldxb r0, [r1+7];exit'
tells 0 'exited at 3: r0 0x0\n-2 r0 = 0x0; 2: ldxb r0, [r1+7]; from 0x30000000f:1\nleft 0x30000000f:1 = 0x0; at the opening\n' origin --maps 8x2 --listing cell.s
whole=$(awk 'BEGIN { for (i = 0; i < 256; i += 8) printf "left 0x2000000%02x:8 = 0x0; not written since the call\\n", i }')
tells 0 "exited at 1: r0 0x1\n$whole" origin --listing one.s 0x200000000:256
tells 0 "exited at 1: r0 0x1\n$whole" origin --listing one.s 0x200000000:0x100

# Bytes that are left stand on one line where each follows the one before, at most eight of them: nine; four of which one is missing between, and the
# lower two come to be wanted last; and four that two loads read.
bytes row 01 02 03 04 05 06 07 08 09
tells 0 'exited at 1: r0 0x1\nleft 0x100000000:8 = 0x807060504030201; byte 0 of the context; at the opening\nleft 0x100000008:1 = 0x9; byte 8 of the context; at the opening\n' \
    origin -m row --listing one.s 0x100000000:9
listing apart.s 'ldxh r0, [r1+0];ldxh r2, [r1+3];add r0, r2;exit'
tells 0 'exited at 3: r0 0x705\n-2 r0 = 0x705; 2: add r0, r2; from r0 r2\n-3 r2 = 0x504; 1: ldxh r2, [r1+3]; from 0x100000003:2\n-4 r0 = 0x201; 0: ldxh r0, [r1+0]; from 0x100000000:2\nleft 0x100000003:2 = 0x504; byte 3 of the context; at the opening\nleft 0x100000000:2 = 0x201; byte 0 of the context; at the opening\n' \
    origin -m row --listing apart.s
listing halves.s 'ldxh r2, [r1+2];ldxh r0, [r1+0];add r0, r2;exit'
tells 0 'exited at 3: r0 0x604\n-2 r0 = 0x604; 2: add r0, r2; from r0 r2\n-3 r0 = 0x201; 1: ldxh r0, [r1+0]; from 0x100000000:2\n-4 r2 = 0x403; 0: ldxh r2, [r1+2]; from 0x100000002:2\nleft 0x100000000:4 = 0x4030201; byte 0 of the context; at the opening\n' \
    origin -m row --listing halves.s
# A byte of the first frame that nothing wrote, and of a frame that a call entered; where a journal has dropped moves nobody knows.
listing unset.s 'ldxw r0, [r10-4];exit'
tells 0 'exited at 1: r0 0x0\n-2 r0 = 0x0; 0: ldxw r0, [r10-4]; from 0x2000001fc:4\nleft 0x2000001fc:4 = 0x0; not written since the call\n' origin --listing unset.s
listing late.s 'ldxw r0, [r10-4];l: add r2, 1;jlt r2, 60, l;exit'
tells 0 'exited at 3: r0 0x0\nleft 0x2000001fc:4 = 0x0; before the kept history\n' origin --journal 1024 --listing late.s 0x2000001fc:4

# What names nothing, and what isn't there. It is looked at last.
v1='refused V1: neither r0 to r9 nor ADDRESS:COUNT'
v2='refused V2: address not present'
for what in r10 r11 r R0 r00 r0: r0:1 '' ' ' ' r0' 'r0 ' x 0x 0x200000000: :1 : 0x200000000:0 0x200000000:257 0x200000000:1:1 '0x200000000: 1' 0x200000000:-1 0x200000000,1 \
    18446744073709551616 0x10000000000000000 0x200000000:18446744073709551616 pc word
do
    refused "$v1" origin --listing one.s "$what"
done
for what in 0 0x0 0x1ffffffff 0x200000200 0x2000001ff:2 0x100000000 0x300000000 18446744073709551615 0xffffffffffffffff:256 0x200000101:256; do
    refused "$v2" origin --listing one.s "$what"
done
refused "$v2" origin -m context --listing load.s 0x100000003
refused "$v2" origin -m context --listing load.s 0x100000000:4
refused "$v2" origin --maps 8x2 --listing cell.s 0x300000010
refused "$v2" origin --maps 8x2 --listing cell.s 0x30000000f:2
head -c 65537 /dev/zero > long
refused 'cannot read absent' origin -m missing absent r10
refused 'cannot read missing' origin -m missing --maps 0x1 one.s r10
refused 'refused M1: value size not 1 to 256' origin -m long --maps 0x1 --listing count.bin r10
refused 'refused A6 at line 1: byte outside ASCII text' origin -m long --listing count.bin r10
refused 'refused C3: length is no multiple of 8' origin -m long context r10
refused 'refused O1: context too long' origin -m long --journal 1023 count.bin r10
refused 'refused J1: journal size out of range' origin --journal 1023 count.bin r10
refused 'refused J1: journal size out of range' origin --journal 16777217 count.bin
tells 0 "exited at 2: r0 0x3\n$three" origin --journal 16777216 count.bin

# An answer that is cut, and one that has as many lines as there may be.
tells 0 "exited at 2: r0 0x3\n$three" origin --lines 3 count.bin
tells 0 "exited at 2: r0 0x3\n$three" origin --lines=1000000000 count.bin
tells 1 'exited at 2: r0 0x3\n-3 r0 = 0x3; 0: add r0, 1; from r0\n-5 r0 = 0x2; 0: add r0, 1; from r0\ncut: there are more lines\n' origin --lines 2 count.bin
tells 1 'exited at 2: r0 0x3\n-3 r0 = 0x3; 0: add r0, 1; from r0\ncut: there are more lines\n' origin --lines 1 count.bin
listing further.s 'mov r3, 4;add r3, 1;ldxb r0, [r3+0];exit'
tells 1 'fault access 0x5 at 2\n-2 r3 = 0x5; 1: add r3, 1; from r3\ncut: there are more lines\n' origin --lines 1 --listing further.s

# loads N: the program that adds up N numbers of eight bytes of the context, and what is told of its r0. Backwards each of them adds eight wanted
# places and needs a ninth, r0, but the first one, which r0 is.
loads() {
    awk -v n="$1" 'BEGIN {
        print "ldxdw r0, [r1+0]"
        for (i = 1; i < n; i++) printf "ldxdw r2, [r1+%d]\nadd r0, r2\n", 8 * i
        print "exit"
    }' > loads.s
    awk -v n="$1" -v most="$2" 'BEGIN {
        steps = 2 * n
        printf "exited at %d: r0 0x0\n", steps - 1
        for (i = n - 1; i >= 1; i--) {
            if (lines++ == most) { print "cut: there are more lines"; exit }
            printf "-%d r0 = 0x0; %d: add r0, r2; from r0 r2\n", steps - 2 * i, 2 * i
            if (lines++ == most) { print "cut: there are more lines"; exit }
            printf "-%d r2 = 0x0; %d: ldxdw r2, [r1+%d]; from 0x1%08x:8\n", steps - 2 * i + 1, 2 * i - 1, 8 * i, 8 * i
            if (8 * (n - i) + 1 > 4096) { print "cut: more than 4096 places are wanted"; exit }
        }
        if (lines == most) { print "cut: there are more lines"; exit }
        printf "-%d r0 = 0x0; 0: ldxdw r0, [r1+0]; from 0x100000000:8\n", steps
        for (i = n - 1; i >= 0; i--) printf "left 0x1%08x:8 = 0x0; byte %d of the context; at the opening\n", 8 * i, 8 * i
    }' > told
}

# tells_loads STATUS N MOST ARGUMENT..: the answer about that program.
tells_loads() {
    status=$1 n=$2
    loads "$2" "$3"
    shift 3
    run origin -m page --listing loads.s "$@"
    echo "$status" > wanted/status
    cp told wanted/out
    : > wanted/err
    compare "bpfdb origin of $n loads, $*"
}

head -c 4104 /dev/zero > page
tells_loads 0 2 1000
tells_loads 0 512 2000 --lines 2000
tells_loads 0 512 1023 --lines 1023
tells_loads 1 512 1022 --lines 1022
tells_loads 1 512 1000
tells_loads 1 513 2000 --lines 2000
tells_loads 1 513 1024 --lines 1024
tells_loads 1 513 1023 --lines 1023

# A part of more places than are wanted, and of fewer: a call that clears 512 bytes, of which one is wanted, with no other place and with 600 bytes
# of the context.
listing few.s 'callf f;exit;f: ldxb r0, [r10-1];exit'
tells 0 'exited at 1: r0 0x0\n-3 r0 = 0x0; 2: ldxb r0, [r10-1]; from 0x2000005ff:1\n-4 0x200000400:512; 0: callf L2; not written since the call\n' origin --listing few.s
awk 'BEGIN {
    printf "callf f\nexit\nf: ldxb r0, [r10-1]\n"
    for (i = 0; i < 75; i++) printf "ldxdw r2, [r1+%d]\nadd r0, r2\n", 8 * i
    print "exit"
}' > many.s
awk 'BEGIN {
    print "exited at 1: r0 0x0"
    for (i = 74; i >= 0; i--) {
        printf "-%d r0 = 0x0; %d: add r0, r2; from r0 r2\n", 151 - 2 * i, 2 * i + 4
        printf "-%d r2 = 0x0; %d: ldxdw r2, [r1+%d]; from 0x1%08x:8\n", 152 - 2 * i, 2 * i + 3, 8 * i, 8 * i
    }
    print "-153 r0 = 0x0; 2: ldxb r0, [r10-1]; from 0x2000005ff:1"
    print "-154 0x200000400:512; 0: callf L2; not written since the call"
    for (i = 74; i >= 0; i--) printf "left 0x1%08x:8 = 0x0; byte %d of the context; at the opening\n", 8 * i, 8 * i
}' > told
run origin -m page --listing many.s
echo 0 > wanted/status
cp told wanted/out
: > wanted/err
compare 'a cleared frame with 600 wanted bytes'

# However much is wanted, a move that writes nothing of it is passed at once: 750,000 of them, with 3,904 bytes of the context wanted. What they write is
# a register, and bytes of the frame and of a map that lie as far behind the beginning of their regions as wanted ones do.
{
    printf 'ldmapval r8, 0, 0\nmov r6, 150000\nloop: mov r3, r6\nstxdw [r10-8], r6\nstxdw [r8+8], r6\nsub r6, 1\njne r6, 0, loop\n'
    awk 'BEGIN { for (i = 0; i < 488; i++) printf "ldxdw r4, [r1+%d]\nadd r0, r4\n", 8 * i; print "exit" }'
} > idle.s
awk 'BEGIN {
    print "exited at 984: r0 0x0"
    for (i = 487; i >= 0; i--) {
        printf "-%d r0 = 0x0; %d: add r0, r4; from r0 r4\n", 976 - 2 * i, 2 * i + 9
        printf "-%d r4 = 0x0; %d: ldxdw r4, [r1+%d]; from 0x1%08x:8\n", 977 - 2 * i, 2 * i + 8, 8 * i, 8 * i
    }
    for (i = 487; i >= 0; i--) {
        if (i == 0) print "left r0 = 0x0; at the opening"
        printf "left 0x1%08x:8 = 0x0; byte %d of the context; at the opening\n", 8 * i, 8 * i
    }
}' > told
(
    ulimit -t 4
    run origin -m page --maps 16x1 --journal 16777216 --lines 2000 --listing idle.s
)
cp told wanted/out
compare '750,000 moves that write nothing that is wanted'

# What the journal has dropped. The end weighs 5 bytes, a jump 7, an addition 16: so 1,024 bytes hold the end and 44 rounds with 7 to spare, and of 45
# all but the first addition.
for rounds in 44 45; do
    listing rounds.s "loop: add r0, 1;jlt r0, $rounds, loop;exit"
    output=$(awk -v n="$rounds" 'BEGIN {
        printf "exited at 2: r0 0x%x\\n", n
        for (i = n; i > n - 44; i--) printf "-%d r0 = 0x%x; 0: add r0, 1; from r0\\n", 2 * (n - i) + 3, i
        printf "left r0 = 0x%x; %s\\n", n - 44, n == 44 ? "at the opening" : "before the kept history"
    }')
    tells 0 "$output" origin --journal 1024 --listing rounds.s
done
tells 0 'exited at 2: r0 0x2d\nleft r1 = 0x0; before the kept history\n' origin --journal 1024 --listing rounds.s r1
tells 0 'exited at 2: r0 0x2d\nleft r1 = 0x0; at the opening\n' origin --journal 1040 --listing rounds.s r1
tells 0 'exited at 2: r0 0x2d\nleft r1 = 0x0; before the kept history\n' origin --journal 1039 --listing rounds.s r1

# Registers that make addresses, on demand: the base of a load and of a store. r10 is none.
listing pointer.s 'stxdw [r10-8], r1;mov r2, r10;ldxdw r0, [r2-8];exit'
tells 0 'exited at 3: r0 0x0\n-2 r0 = 0x0; 2: ldxdw r0, [r2-8]; from 0x2000001f8:8\n-4 0x2000001f8:8 = 0x0; 0: stxdw [r10-8], r1; from r1\nleft r1 = 0x0; at the opening\n' \
    origin --listing pointer.s
tells 0 'exited at 3: r0 0x0\n-2 r0 = 0x0; 2: ldxdw r0, [r2-8]; from 0x2000001f8:8 r2\n-3 r2 = 0x200000200; 1: mov r2, r10\n-4 0x2000001f8:8 = 0x0; 0: stxdw [r10-8], r1; from r1\nleft r1 = 0x0; at the opening\n' \
    origin --addresses --listing pointer.s
tells 1 'exited at 3: r0 0x0\n-2 r0 = 0x0; 2: ldxdw r0, [r2-8]; from 0x2000001f8:8 r2\n-3 r2 = 0x200000200; 1: mov r2, r10\ncut: there are more lines\n' \
    origin --listing --lines 2 pointer.s r0 --addresses

# Functions: each has r6 to r9 of its own, which begin as the caller's; a frame that is entered is zero.
listing calls.s 'mov r6, 5;callf other;callf sum;exit;sum: mov r0, r6;ldxdw r2, [r10-8];add r0, r2;exit;other: mov r6, 7;stdw [r10-8], 3;exit'
tells 0 'exited at 3: r0 0x5\n-3 r0 = 0x5; 6: add r0, r2; from r0 r2\n-4 r2 = 0x0; 5: ldxdw r2, [r10-8]; from 0x2000005f8:8\n-5 r0 = 0x5; 4: mov r0, r6; from r6 at depth 1\n-6 0x200000400:512; 2: callf L4; not written since the call\n-11 r6 = 0x5; 0: mov r6, 5\n' \
    origin --listing calls.s
tells 0 'exited at 3: r0 0x5\n-11 r6 = 0x5; 0: mov r6, 5\n' origin --listing calls.s r6
tells 0 'at 9: stdw [r10-8], 3\n-1 r6 at depth 1 = 0x7; 8: mov r6, 7\n' origin --listing --steps 3 calls.s r6
tells 0 'at 8: mov r6, 7\n-2 r6 = 0x5; 0: mov r6, 5\n' origin --listing --steps 2 calls.s r6

# Registers of one number at three depths.
listing nested.s 'mov r6, 1;mov r7, 2;callf f;mov r0, r6;add r0, r7;exit;f: mov r6, 3;callf g;mov r7, r6;exit;g: mov r6, 4;mov r7, 5;exit'
tells 0 'exited at 5: r0 0x3\n-2 r0 = 0x3; 4: add r0, r7; from r0 r7\n-3 r0 = 0x1; 3: mov r0, r6; from r6\n-12 r7 = 0x2; 1: mov r7, 2\n-13 r6 = 0x1; 0: mov r6, 1\n' \
    origin --listing nested.s
tells 0 'at 10: mov r6, 4\n-2 r6 at depth 1 = 0x3; 6: mov r6, 3\n' origin --listing --steps 5 nested.s r6
tells 0 'at 10: mov r6, 4\n-4 r7 = 0x2; 1: mov r7, 2\n' origin --listing --steps 5 nested.s r7
tells 0 'at 12: exit\n-2 r6 at depth 2 = 0x4; 10: mov r6, 4\n' origin --listing --steps 7 nested.s r6
tells 0 'at 8: mov r7, r6\n-5 r6 at depth 1 = 0x3; 6: mov r6, 3\n' origin --listing --steps 8 nested.s r6
tells 0 'at 8: mov r7, r6\n-7 r7 = 0x2; 1: mov r7, 2\n' origin --listing --steps 8 nested.s r7

# Bytes of the last frame, and cells of two maps.
listing last.s 'mov r3, 0;callf f;exit;f: add r3, 1;jlt r3, 7, on;stb [r10-1], 9;ldxb r0, [r10-1];exit;on: callf f;exit'
tells 0 'exited at 2: r0 0x9\n-9 r0 = 0x9; 6: ldxb r0, [r10-1]; from 0x200001dff:1\n-10 0x200001dff:1 = 0x9; 5: stb [r10-1], 9\n' origin --listing last.s
listing cells.s 'ldmapval r1, 0, 8;ldmapval r2, 1, 8;stb [r1+0], 1;stb [r2+0], 2;ldxb r0, [r1+0];exit'
tells 0 'exited at 7: r0 0x1\n-2 r0 = 0x1; 6: ldxb r0, [r1+0]; from 0x300000008:1\n-4 0x300000008:1 = 0x1; 4: stb [r1+0], 1\n' origin --maps 8x2,8x2 --listing cells.s

# A name of nine letters is copied to seven bytes and a zero: the last two fall on the pointer.
listing name.s 'stxdw [r10-8], r1;mov r3, r10;add r3, -16;copy: ldxb r4, [r1+0];stxb [r3+0], r4;add r1, 1;add r3, 1;jne r4, 0, copy;ldxdw r1, [r10-8];ldxb r0, [r1+15];exit'
printf 'localhost\0\0\0\0\0\0\1' > name
tells 0 'fault access 0x100000083 at 9\n-2 r1 = 0x100000074; 8: ldxdw r1, [r10-8]; from 0x2000001f8:8\n-6 0x2000001f9:1 = 0x0; 4: stxb [r3+0], r4; from r4\n-7 r4 = 0x0; 3: ldxb r4, [r1+0]; from 0x100000009:1\n-11 0x2000001f8:1 = 0x74; 4: stxb [r3+0], r4; from r4\n-12 r4 = 0x74; 3: ldxb r4, [r1+0]; from 0x100000008:1\n-55 0x2000001f8:8 = 0x100000000; 0: stxdw [r10-8], r1; from r1\nleft 0x100000009:1 = 0x0; byte 9 of the context; at the opening\nleft 0x100000008:1 = 0x74; byte 8 of the context; at the opening\nleft r1 = 0x100000000; at the opening\n' \
    origin -m name --listing name.s

# The numbers of three records are added up; the third one's length leads out of the context.
listing records.s 'next: ldxb r3, [r1+0];jeq r3, 0, done;ldxb r4, [r1+1];add r0, r4;add r1, r3;ja next;done: exit'
printf '\2\5\4\7\0\2\11\0' > records
tells 0 'fault access 0x10000000f at 0\n-4 r0 = 0xc; 3: add r0, r4; from r0 r4\n-5 r4 = 0x0; 2: ldxb r4, [r1+1]; from 0x100000007:1\n-10 r0 = 0xc; 3: add r0, r4; from r0 r4\n-11 r4 = 0x7; 2: ldxb r4, [r1+1]; from 0x100000003:1\n-16 r0 = 0x5; 3: add r0, r4; from r0 r4\n-17 r4 = 0x5; 2: ldxb r4, [r1+1]; from 0x100000001:1\nleft 0x100000007:1 = 0x0; byte 7 of the context; at the opening\nleft 0x100000003:1 = 0x7; byte 3 of the context; at the opening\nleft r0 = 0x0; at the opening\nleft 0x100000001:1 = 0x5; byte 1 of the context; at the opening\n' \
    origin -m records --listing records.s r0

# A compare-exchange reads r0, the source and the word.
listing compare.s 'mov r0, 7;mov r2, 9;stdw [r10-8], 7;atomic_cmpxchg64 [r10-8], r2;ldxdw r0, [r10-8];exit'
tells 0 'exited at 5: r0 0x9\n-2 r0 = 0x9; 4: ldxdw r0, [r10-8]; from 0x2000001f8:8\n-3 r0 = 0x7; 0x2000001f8:8 = 0x9; 3: atomic_cmpxchg64 [r10-8], r2; from r0 r2 0x2000001f8:8\n-4 0x2000001f8:8 = 0x7; 2: stdw [r10-8], 7\n-5 r2 = 0x9; 1: mov r2, 9\n-6 r0 = 0x7; 0: mov r0, 7\n' \
    origin --listing compare.s

# A jump is not followed, and a move of two parts is one line.
listing jump.s 'mov r1, 1;jne r1, 0, far;mov r0, 2;far: mov r0, 3;exit'
tells 0 'exited at 4: r0 0x3\n-2 r0 = 0x3; 3: mov r0, 3\n' origin --listing jump.s
listing fetch.s 'stdw [r10-8], 1;mov r1, 2;stb [r10-7], 3;atomic_fetch_add64 [r10-8], r1;ldxb r0, [r10-6];exit'
tells 0 'exited at 5: r0 0x0\n-2 r0 = 0x0; 4: ldxb r0, [r10-6]; from 0x2000001fa:1\n-3 r1 = 0x301; 0x2000001f8:8 = 0x303; 3: atomic_fetch_add64 [r10-8], r1; from r1 0x2000001f8:8\n-4 0x2000001f9:1 = 0x3; 2: stb [r10-7], 3\n-5 r1 = 0x2; 1: mov r1, 2\n-6 0x2000001f8:8 = 0x1; 0: stdw [r10-8], 1\n' \
    origin --listing fetch.s

# A move that writes a register and bytes, or one and a word, is found by either; where it wrote only other ones it is passed over. So is a call that
# entered another frame than the one whose byte is asked about.
added='-3 r1 = 0x301; 0x2000001f8:8 = 0x303; 3: atomic_fetch_add64 [r10-8], r1; from r1 0x2000001f8:8\n-4 0x2000001f9:1 = 0x3; 2: stb [r10-7], 3\n-5 r1 = 0x2; 1: mov r1, 2\n-6 0x2000001f8:8 = 0x1; 0: stdw [r10-8], 1\n'
for what in r1 0x2000001ff; do
    tells 0 "exited at 5: r0 0x0\n$added" origin --listing fetch.s $what
done
tells 0 'exited at 5: r0 0x0\nleft r2 = 0x0; at the opening\n' origin --listing fetch.s r2
tells 0 'exited at 5: r0 0x0\nleft 0x2000001f7:1 = 0x0; not written since the call\n' origin --listing fetch.s 0x2000001f7
listing match.s 'mov r0, 1;stdw [r10-8], 1;mov r3, 7;atomic_cmpxchg64 [r10-8], r3;exit'
matched='-2 r0 = 0x1; 0x2000001f8:8 = 0x7; 3: atomic_cmpxchg64 [r10-8], r3; from r0 r3 0x2000001f8:8\n-3 r3 = 0x7; 2: mov r3, 7\n-4 0x2000001f8:8 = 0x1; 1: stdw [r10-8], 1\n-5 r0 = 0x1; 0: mov r0, 1\n'
for what in r0 0x2000001f8; do
    tells 0 "exited at 4: r0 0x1\n$matched" origin --listing match.s $what
done
tells 0 'exited at 4: r0 0x1\n-3 r3 = 0x7; 2: mov r3, 7\n' origin --listing match.s r3
listing update.s 'stw [r10-4], 1;stdw [r10-16], 42;ldmap r1, 0;mov r2, r10;add r2, -4;mov r3, r10;add r3, -16;mov r4, 0;call 2;exit'
updated='-2 r0 = 0x0; 0x300000008:8 = 0x2a; 9: call 2; from r1 0x2000001fc:4 r4 0x2000001f0:8\n-3 r4 = 0x0; 8: mov r4, 0\n-8 r1 = 0x400000000; 2: ldmap r1, 0\n-9 0x2000001f0:8 = 0x2a; 1: stdw [r10-16], 42\n-10 0x2000001fc:4 = 0x1; 0: stw [r10-4], 1\n'
for what in r0 0x300000008 0x30000000f; do
    tells 0 "exited at 10: r0 0x0\n$updated" origin --maps 8x3 --listing update.s $what
done
for what in r5 0x300000007:1 0x300000010:1; do
    tells 0 "exited at 10: r0 0x0\nleft $what = 0x0; at the opening\n" origin --maps 8x3 --listing update.s $what
done
listing word.s 'mov r1, 9;call 64;exit'
tells 0 'exited at 2: r0 0x0\n-2 r0 = 0x0; word 0 = 0x9; 1: call 64; from r1\n-3 r1 = 0x9; 0: mov r1, 9\n' origin --listing word.s r0
tells 0 'exited at 2: r0 0x0\n-3 r1 = 0x9; 0: mov r1, 9\n' origin --listing word.s r1
for what in 0x200000400:1 0x2000005f8 0x2000005ff; do
    tells 0 'exited at 3: r0 0x5\n-6 0x200000400:512; 2: callf L4; not written since the call\n' origin --listing calls.s $what
done
for what in 0x200000000:1 0x2000001ff:1; do
    tells 0 "exited at 3: r0 0x5\nleft $what = 0x0; not written since the call\n" origin --listing calls.s $what
done
for what in 0x200000800:1 0x2000009f8:1; do
    tells 0 "exited at 3: r0 0x5\nleft $what = 0x0; at the opening\n" origin --listing calls.s $what
done
tells 0 'at 10: exit\n-1 0x2000005f8:8 = 0x3; 9: stdw [r10-8], 3\n' origin --listing --steps 4 calls.s 0x2000005ff

# script NAME TEXT: writes a script; the text is as printf's %b reads it.
script() {
    printf '%b' "$2" > "$1"
}

# A script in place of a run: where it leads is asked about. Its replies are not shown, what it shows and sets has no line, and standard input stays
# unread.
two='at 1: jlt r0, 3, L0\n-1 r0 = 0x2; 0: add r0, 1; from r0\n-3 r0 = 0x1; 0: add r0, 1; from r0\nleft r0 = 0x0; at the opening\n'
first='at 1: jlt r0, 3, L0\n-1 r0 = 0x1; 0: add r0, 1; from r0\nleft r0 = 0x0; at the opening\n'
for text in 'stepi 3\n' 'stepi 3' '\t stepi 3 \r\n\n \n' 'stepi\nstepi\nstepi\n' 'continue\nreverse-stepi 4\n' 'stepi 3\nquit\nnonsense\n' 'stepi 3\n quit \nset reg r0 9\n'; do
    script path "$text"
    tells 0 "$two" origin --script path count.bin
    tells 0 "$two" origin --listing count.s r0 --script=path
done
for text in '' '\n' 'quit\nstepi\n' 'continue\nreverse-continue\n' 'stepi 4\nundo\n' 'info regs\ninfo history\nwatch 0x200000000\n'; do
    script path "$text"
    tells 0 'at 0: add r0, 1\nleft r0 = 0x0; at the opening\n' origin --script path count.bin
    tells 0 'at 0: add r0, 1\nleft r9 = 0x0; at the opening\n' origin --script path count.bin r9
done
script path 'break 1\ninfo regs\nx 0x2000001f8 8\ncontinue\nlast-write 0x2000001f8\n'
tells 0 "$first" origin --script path count.bin
script path 'continue\n'
tells 0 "exited at 2: r0 0x3\n$three" origin --script path count.bin
tells 1 'exited at 2: r0 0x3\n-3 r0 = 0x3; 0: add r0, 1; from r0\ncut: there are more lines\n' origin --script path --lines 1 count.bin
tells 0 'fault access 0x5 at 1\n-2 r3 = 0x5; 0: mov r3, 5\n' origin --script path --listing far.s
tells 0 'exited at 3: r0 0x0\n-2 r0 = 0x0; 2: ldxdw r0, [r2-8]; from 0x2000001f8:8 r2\n-3 r2 = 0x200000200; 1: mov r2, r10\n-4 0x2000001f8:8 = 0x0; 0: stxdw [r10-8], r1; from r1\nleft r1 = 0x0; at the opening\n' \
    origin --addresses --script path --listing pointer.s
tells 0 'exited at 1: r0 0x2a\n-2 r0 = 0x2a; 0: ldxb r0, [r1+0]; from 0x100000000:1\nleft 0x100000000:1 = 0x2a; byte 0 of the context; at the opening\n' \
    origin -m context --script path --listing load.s
script path 'stepi 3\n'
tells 0 'at 9: stdw [r10-8], 3\n-1 r6 at depth 1 = 0x7; 8: mov r6, 7\n' origin --listing --script path calls.s r6
# (the limit is that of each command)
script path 'continue\ncontinue\n'
tells 0 'at 2: exit\n-2 r0 = 0x3; 0: add r0, 1; from r0\n-4 r0 = 0x2; 0: add r0, 1; from r0\n-6 r0 = 0x1; 0: add r0, 1; from r0\nleft r0 = 0x0; at the opening\n' \
    origin --steps 3 --script path count.bin

# Edits write and read nothing; one of the pc has no line.
listing word-of-frame.s 'ldxdw r0, [r10-8];exit'
script path 'set mem 0x2000001f8 01000000\nstepi 2\nset pc 0\nstepi\n'
tells 0 'at 1: exit\n-1 r0 = 0x1; 0: ldxdw r0, [r10-8]; from 0x2000001f8:8\n-5 0x2000001f8:4 = 0x1; edit\nleft 0x2000001fc:4 = 0x0; not written since the call\n' \
    origin --script path --listing word-of-frame.s
script path 'stepi 2\nset reg r0 5\ncontinue\n'
five='exited at 2: r0 0x6\n-3 r0 = 0x6; 0: add r0, 1; from r0\n-4 r0 = 0x5; edit\n'
tells 0 "$five" origin --script path count.bin
tells 0 'exited at 2: r0 0x6\nleft r1 = 0x0; at the opening\n' origin --script path count.bin r1
script path 'stepi 2\nset mem 0x2000001f8 aabb\nstepi\n'
tells 0 'at 3: exit\n-2 0x2000001f8:2 = 0xbbaa; edit\n-4 0x2000001f8:4 = 0x1234; 0: stw [r10-8], 4660\n' origin --script path --listing store.s 0x2000001f8:4
tells 0 'at 3: exit\n-2 0x2000001f8:2 = 0xbbaa; edit\n' origin --script path --listing store.s 0x2000001f9
# (one to eight bytes make a number, of which the first byte is the lowest; nine are told without it)
digits=
for count_of in 1 2 3 4 5 6 7 8 9; do
    digits=${digits}0$count_of
    number=" = 0x$(printf 0807060504030201 | tail -c $((2 * count_of)) | sed 's/^0//')"
    [ $count_of -lt 9 ] || number=
    script path "set mem 0x2000001f0 $digits\n"
    tells 0 "at 0: mov r0, 1\n-1 0x2000001f0:$count_of$number; edit\n" origin --script path --listing one.s "0x2000001f0:$count_of"
done
script path 'set cell 0 1 010203040506\n'
tells 0 'at 0: mov r0, 1\n-1 0x300000006:6 = 0x60504030201; edit\n' origin --maps 6x2 --script path --listing one.s 0x30000000b
script path 'set cell 0 1 0000000000000042\ncontinue\n'
tells 0 'exited at 3: r0 0x42\n-2 r0 = 0x42; 2: ldxb r0, [r1+7]; from 0x30000000f:1\n-4 0x300000008:8 = 0x4200000000000000; edit\n' \
    origin --maps 8x2 --script path --listing cell.s
script path 'stepi\nset pc 2\nstepi\n'
tells 0 'exited at 2: r0 0x1\n-3 r0 = 0x1; 0: add r0, 1; from r0\nleft r0 = 0x0; at the opening\n' origin --script path count.bin
script path 'stepi\nset reg r3 9\ncontinue\n'
tells 0 'fault access 0x9 at 1\n-2 r3 = 0x9; edit\n' origin --script path --listing far.s

# Edits of the bytes at the edges of regions: of the longest context, of the first and the last frame, of the first and the last of sixteen full maps.
head -c 65536 /dev/zero > largest
sixteen=256x256,256x256,256x256,256x256,256x256,256x256,256x256,256x256
sixteen=$sixteen,$sixteen
edges='0x100000000 0x10000ffff 0x200000000 0x2000001ff 0x200001c00 0x200001dff 0x300000000 0x30000ffff 0x300f00000 0x300f0ffff'
for edge in $edges; do
    echo "set mem $edge 77"
done > path
echo stepi >> path
back=11
for edge in $edges; do
    tells 0 "at 1: exit\n-$back $edge:1 = 0x77; edit\n" origin -m largest --maps $sixteen --script path --listing one.s $edge
    back=$((back - 1))
done
tells 0 'at 1: exit\n-10 0x10000ffff:1 = 0x77; edit\nleft 0x10000fffe:1 = 0x0; byte 65534 of the context; at the opening\n' \
    origin -m largest --maps $sixteen --script path --listing one.s 0x10000fffe:2
script path 'stepi 2\nset reg r6 1\ncontinue\n'
tells 0 'exited at 3: r0 0x5\n-12 r6 = 0x5; 0: mov r6, 5\n' origin --script path --listing calls.s r6

# What was taken back is not asked, unless it was made again.
script path 'stepi 2\nset reg r0 5\nundo\ncontinue\n'
tells 0 "exited at 2: r0 0x3\n$three" origin --script path count.bin
script path 'stepi 2\nset reg r0 5\nundo 2\nredo\ncontinue\n'
tells 0 "exited at 2: r0 0x3\n$three" origin --script path count.bin
script path 'stepi 2\nset reg r0 5\nundo 2\nredo 3\ncontinue\n'
tells 0 "$five" origin --script path count.bin
script path 'stepi 2\nset reg r0 5\ncontinue\nreverse-continue\nredo 9\n'
tells 0 "$five" origin --script path count.bin
script path 'stepi 2\nset reg r0 5\ncontinue\nreverse-stepi 9\nstepi\n'
tells 0 "$first" origin --script path count.bin

# What the journal has dropped of a script's moves: of 45 rounds the first addition, of 44 none; what is taken back brings none again.
for rounds in 44 45; do
    listing rounds.s "loop: add r0, 1;jlt r0, $rounds, loop;exit"
    since='at the opening'
    [ $rounds = 44 ] || since='before the kept history'
    script path 'continue\n'
    tells 0 "$(printf 'exited at 2: r0 0x%x' "$rounds")\nleft r1 = 0x0; $since\n" origin --journal 1024 --script path --listing rounds.s r1
    script path 'continue\nreverse-stepi 3\n'
    tells 0 "at 0: add r0, 1\nleft r1 = 0x0; $since\n" origin --journal 1024 --script path --listing rounds.s r1
    script path 'continue\nreverse-stepi 3\nredo 3\n'
    tells 0 "$(printf 'exited at 2: r0 0x%x' "$rounds")\nleft r1 = 0x0; $since\n" origin --journal 1024 --script path --listing rounds.s r1
done
script path 'continue\nreverse-continue\n'
tells 0 'at 1: jlt r0, 45, L0\nleft r0 = 0x1; before the kept history\n' origin --journal 1024 --script path --listing rounds.s

# A line that is refused, which is looked at before what is asked about, and after all else; and a script that can't be read.
long=$(awk 'BEGIN { printf "%1025s", "" }')
while IFS='|' read -r text reply; do
    script path "$text"
    refused "$reply" origin --script path --maps 8x2 count.bin r10
done << END
nonsense\n|refused Q1: unknown command
stepi 3\nnonsense\nquit\n|refused Q1: unknown command
stepi 0\n|refused Q2: wrong argument
quit now\n|refused Q2: wrong argument
continue\nstepi\nnonsense\n|refused Q3: the machine has ended
reverse-stepi\n|refused Q4: no kept step
stepi\nundo 2\n|refused Q5: fewer kept commands
x 0 1\n|refused Q6: address not present
set reg r10 1\n|refused Q7: register not writable
break 9\n|refused Q8: no instruction starts there
finish\n|refused Q9: outermost frame
delete 0\n|refused Q11: not there or already there
$long\n|refused Q12: line too long
redo\n|refused Q13: nothing to redo
set cell 0 2 0000000000000000\n|refused Q14: no such cell or wrong length
END
script path "${long# }\nstepi 3\n"
tells 0 "$two" origin --script path count.bin
script path 'nonsense\n'
refused 'refused J1: journal size out of range' origin --journal 1023 --script path count.bin
script path 'stepi\n'
refused "$v1" origin --script path count.bin r10
refused "$v2" origin --script path count.bin 0x100000000
refused 'cannot read nowhere' origin --script nowhere --maps 0x1 count.bin
refused 'cannot read ' origin --script '' count.bin
refused 'cannot read .' origin --script . count.bin
refused 'cannot read missing' origin --script nowhere -m missing count.bin
refused 'cannot read absent' origin --script nowhere absent

# An answer as a graph: a part that two moves told, a byte each; a register that the caller's move told; what read nothing; what is left; a cut, branches,
# and refusals.
box='strict digraph origin {\n  node [shape=box];\n'
listing graph.s 'mov r1, 4;stxdw [r10-8], r1;stb [r10-7], 2;ldxh r0, [r10-8];add r0, r1;exit'
tells 0 "${box}  n0 [label=\"exited at 5: r0 0x208\"];\n  n1 [label=\"-2 r0 = 0x208; 4: add r0, r1; from r0 r1\"];\n  n2 [label=\"-3 r0 = 0x204; 3: ldxh r0, [r10-8]; from 0x2000001f8:2\"];\n  n3 [label=\"-4 0x2000001f9:1 = 0x2; 2: stb [r10-7], 2\"];\n  n4 [label=\"-5 0x2000001f8:8 = 0x4; 1: stxdw [r10-8], r1; from r1\"];\n  n5 [label=\"-6 r1 = 0x4; 0: mov r1, 4\"];\n  n4 -> n5;\n  n2 -> n4;\n  n2 -> n3;\n  n1 -> n2;\n  n1 -> n5;\n}\n" \
    origin --dot --listing graph.s
listing handed.s 'mov r6, r2;callf f;exit;f: mov r0, r6;exit'
tells 0 "${box}  n0 [label=\"exited at 2: r0 0x3\"];\n  n1 [label=\"-3 r0 = 0x3; 3: mov r0, r6; from r6 at depth 1\"];\n  n2 [label=\"-5 r6 = 0x3; 0: mov r6, r2; from r2\"];\n  n3 [label=\"left r2 = 0x3; at the opening\"];\n  n2 -> n3;\n  n1 -> n2;\n}\n" \
    origin --dot -m context --listing handed.s
tells 1 "${box}  n0 [label=\"exited at 5: r0 0x208\"];\n  n1 [label=\"-2 r0 = 0x208; 4: add r0, r1; from r0 r1\"];\n  n2 [label=\"cut: there are more lines\"];\n}\n" \
    origin --lines 1 --dot --listing graph.s
listing decided.s 'mov r0, 1;jeq r0, 1, on;exit;on: add r0, 1;exit'
tells 0 "${box}  n0 [label=\"exited at 4: r0 0x2\"];\n  n1 [label=\"-2 r0 = 0x2; 3: add r0, 1; from r0\"];\n  n2 [label=\"-4 r0 = 0x1; 0: mov r0, 1\"];\n  n3 [label=\"-3 1: jeq r0, 1, L3; r0 = 0x1; jumped to 3\"];\n  n4 [label=\"no other branch; at the opening\"];\n  n1 -> n2;\n}\n" \
    origin --dot --branches --listing decided.s
refused "$v1" origin --dot --listing graph.s r10
if has dot 'graphs as graphviz reads them'; then
    "$program" origin --dot --listing graph.s 2> found/err | dot -Tplain 2>> found/err | cut -d ' ' -f 1 | sort | uniq -c | tr -d '\n' > found/out
    echo 0 > found/status
    check 'a graph as graphviz reads it' 0 '      5 edge      1 graph      6 node      1 stop' ''
fi
