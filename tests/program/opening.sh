# Registers at the start: each of them and each form of a value, what keeps its own, each subcommand that runs a program, runs that are opened again, and
# what is refused. What is wanted was worked out by hand from the instructions: the context begins at 0x100000000, the outermost frame ends at 0x200000200,
# and without --regs r1 and r2 tell the context and the others are 0.

# gives VALUE LIST: r3 has this value before the first step.
listing r3.s 'mov r0, r3;exit'
gives() {
    result "$1\n" run --regs "r3=$2" r3.s
}

# Each register, alone; all of them, in any order; those that aren't named.
for r in 0 1 2 3 4 5 6 7 8 9; do
    listing "reg.s" "mov r0, r$r;exit"
    result '0xfedcba9876543210\n' run --regs "r$r=0xfedcba9876543210" reg.s
done
bytes three 07 08 09
listing stop.s 'exit'
# regs REPLY ARGUMENT..: `info regs` before the first step.
regs() {
    reply=$1
    shift
    session "bpfdb $*" 'info regs\n' "$reply" "$@"
}
regs 'r0=0x0 r1=0x100000000 r2=0x3 r3=0x0 r4=0x0 r5=0x0 r6=0x0 r7=0x0 r8=0x0 r9=0x0 r10=0x200000200\nat 0: exit\n' debug -m three stop.s
regs 'r0=0xa r1=0x9 r2=0x8 r3=0x7 r4=0x6 r5=0x5 r6=0x4 r7=0x3 r8=0x2 r9=0x1 r10=0x200000200\nat 0: exit\n' \
    debug -m three --regs r9=1,r8=2,r7=3,r6=4,r5=5,r4=6,r3=7,r2=8,r1=9,r0=10 stop.s
regs 'r0=0x0 r1=0x100000000 r2=0x3 r3=0x0 r4=0x2a r5=0x0 r6=0x0 r7=0x0 r8=0x0 r9=0x0 r10=0x200000200\nat 0: exit\n' debug -m three --regs r4=42 stop.s
regs 'r0=0x0 r1=0x0 r2=0x3 r3=0x0 r4=0x0 r5=0x0 r6=0x0 r7=0x0 r8=0x0 r9=0x0 r10=0x200000200\nat 0: exit\n' debug -m three --regs r1=0 stop.s
result '0x7\n' run --regs r0=7 stop.s

# Numbers, as `set reg` takes them.
gives 0x0 0
gives 0x7 007
gives 0x1f 0x1F
gives 0x1f 0x000000000000000000001f
gives 0xffffffffffffffff 18446744073709551615
gives 0xffffffffffffffff 0xffffffffffffffff
# Addresses, and blanks.
gives 0x100000000 context
gives 0x100000000 context+0
gives 0x100000004 context+4
gives 0x10000001f context+0x1f
gives 0x100010000 context+65536
gives 0x200000200 stack
gives 0x200000200 stack-0
gives 0x2000001f8 stack-8
gives 0x200000000 stack-512
result '0x7\n' run --regs ' r3 = 7 ,r4=8' r3.s
result '0x8\n' run --regs 'r4=7,	r3	=	8	' r3.s
result '0x7\n' run '--regs=r3=7' r3.s
# They are the places that they name: of the context's bytes, and of the frame.
listing load.s 'ldxb r0, [r3+0];exit'
result '0x9\n' run -m three --regs r3=context+2 load.s
stopped 'fault access 0x100000003 at 0' run -m three --regs r3=context+3 load.s
stopped 'fault access 0x100000000 at 0' run --regs r3=context load.s
listing store.s 'stdw [r3+0], 5;ldxdw r0, [r10-8];exit'
result '0x5\n' run --regs r3=stack-8 store.s
stopped 'fault access 0x200000200 at 0' run --regs r3=stack store.s

# Words, and objects.
bytes r3.bin bf 30 00 00 00 00 00 00 EXIT
result '0x2a\n' run --regs r3=42 r3.bin
result '0x2a\n' run --words --regs r3=42 r3.bin
if has_clang 'registers at the start of an object'; then
    printf 'long sum(long a, long b, long c, long d, long e) { return a + 10 * b + 100 * c + 1000 * d + 10000 * e; }\n' > sum.c
    clang -O2 -target bpf -c -o sum.o sum.c 2> found/err || complain "sum.c: $(cat found/err)"
    # (54321 is 0xd431)
    result '0xd431\n' run --regs r1=1,r2=2,r3=3,r4=4,r5=5 sum.o
    result '0xd431\n' run --object --regs r1=1,r2=2,r3=3,r4=4,r5=5 sum.o
    # The setup of data leaves zeros in r3 and r4: 2 + 1 + 20 + 50000 is 0xc367. An entry that takes a packet's struct gets it whatever r3 is.
    printf 'int data[3] = { 1, 2, 3 };\nlong sum(long a, long b, long c, long d, long e) { return data[1] + a + 10 * b + 100 * c + 1000 * d + 10000 * e; }\n' > data.c
    clang -O2 -target bpf -c -o data.o data.c 2> found/err || complain "data.c: $(cat found/err)"
    result '0xc367\n' run --regs r1=1,r2=2,r3=3,r4=4,r5=5 data.o
    cat > length.c <<'C'
struct xdp_md { unsigned data, data_end, data_meta, ingress_ifindex, rx_queue_index, egress_ifindex; };
__attribute__((section("xdp"))) int length(struct xdp_md *packet) { return packet->data_end - packet->data; }
C
    clang -g -O2 -target bpf -c -o length.o length.c 2> found/err || complain "length.c: $(cat found/err)"
    result '0x3 XDP_TX\n' run --struct xdp --regs r3=5 -m three length.o
fi

# A trace: the values are there, and no step wrote them.
listing sum.s 'mov r0, r1;add r0, r3;exit'
tells 0 '1 0: mov r0, r1; r0 = 0x28\n2 1: add r0, r3; r0 = 0x2a\n3 2: exit\nexited at 2: r0 0x2a\n' trace --regs r1=0x28,r3=2 sum.s
tells 0 '1 0: mov r0, r1\n1 1: add r0, r3\n1 2: exit\nexited at 2: r0 0x2a\n' trace --profile --regs r1=0x28,r3=2 sum.s
listing jump.s 'jeq r1, 5, far;mov r0, 1;exit;far: mov r0, 2;exit'
tells 0 '1 0: jeq r1, 5, L3; r1 = 0x5; jumped\nexited at 4: r0 0x2\n' trace --branches --regs r1=5 jump.s
result '{"kind":"result","r0":"0x2a"}\n' run --json --regs r1=0x28,r3=2 sum.s
stopped 'step limit 1 reached at 1' run --steps 1 --regs r1=1 sum.s

# A session: they are no moves, so nothing lies before them; and going back comes to them again.
session 'no move lies before registers at the start' 'info history\nundo\nreverse-stepi\nstepi\nset reg r1 9\nundo\nundo\ninfo history\nset reg r3 0\nredo\ncontinue\n' \
    '0 moves, 0 commands, 0 of 65536 bytes\nrefused Q5: fewer kept commands\nrefused Q4: no kept step\n1 forward; done; at 1: add r0, r3\nok\n1 back; done; at 1: add r0, r3\n1 back; done; at 0: mov r0, r1\n0 moves, 0 commands, 0 of 65536 bytes\nok\nrefused Q13: nothing to redo\n3 forward; end; exited at 2: r0 0x28\n' \
    debug --regs r1=0x28,r3=2 sum.s

# Where a value came from ends with them, at the opening.
sum='-2 r0 = 0x2a; 1: add r0, r3; from r0 r3\n'
from='-3 r0 = 0x28; 0: mov r0, r1; from r1\n'
tells 0 "exited at 2: r0 0x2a\n$sum${from}left r3 = 0x2; at the opening\nleft r1 = 0x28; at the opening\n" origin --regs r1=0x28,r3=2 sum.s
tells 0 'exited at 2: r0 0x2a\nleft r3 = 0x2; at the opening\n' origin --regs r1=0x28,r3=2 sum.s r3
printf 'stepi\n' > one
tells 0 'at 1: add r0, r3\n-1 r0 = 0x28; 0: mov r0, r1; from r1\nleft r1 = 0x28; at the opening\n' origin --script one --regs r1=0x28,r3=2 sum.s
# And so does why a slot was not come to.
tells 0 'exited at 2: r0 0x1\n-3 0: jeq r1, 5, L3; r1 = 0x6; went on\nat 0: jeq r1, 5, L3\nleft r1 = 0x6; at the opening\n' whynot --regs r1=6 jump.s 3
tells 0 'exited at 4: r0 0x2\n-3 0: jeq r1, 5, L3; r1 = 0x5; jumped to 3\nat 0: jeq r1, 5, L3\nleft r1 = 0x5; at the opening\n' whynot --regs r1=5 jump.s 1

# Both runs of `diff` begin with them, and so do those that are made again to tell where values came from.
bytes four 04
bytes five 05
listing both.s 'ldxb r4, [r1+0];add r4, r3;mov r0, r4;exit'
tells 1 'step 1 wrote otherwise\n< 1 0: ldxb r4, [r1+0]; r4 = 0x4\n> 1 0: ldxb r4, [r1+0]; r4 = 0x5\n< exited at 3: r0 0xb\n> exited at 3: r0 0xc\n' \
    diff --alone --regs r3=7 -m four --other-mem five both.s
listing add.s 'mov r0, r3;add r0, 1;exit'
listing sub.s 'mov r0, r3;sub r0, 1;exit'
parts_at='step 2 wrote otherwise\n< 2 1: add r0, 1; r0 = 0x8\n> 2 1: sub r0, 1; r0 = 0x6\n< exited at 2: r0 0x8\n> exited at 2: r0 0x6\n'
came='< -1 r0 = 0x8; 1: add r0, 1; from r0\n< -2 r0 = 0x7; 0: mov r0, r3; from r3\n< left r3 = 0x7; at the opening\n> -1 r0 = 0x6; 1: sub r0, 1; from r0\n> -2 r0 = 0x7; 0: mov r0, r3; from r3\n> left r3 = 0x7; at the opening\n'
tells 1 "$parts_at" diff --alone --regs r3=7 add.s sub.s
"$program" diff --regs r3=7 add.s sub.s > found/whole 2>&1
printf "$parts_at" > wanted/whole
grep '^[<>] \(-\|left\)' found/whole > found/came
printf "$came" > wanted/came
count=$((count + 1))
cmp -s found/came wanted/came || { complain 'where both values came from with registers at the start'; diff wanted/came found/whole; }
tells 0 'same for 2 steps\nexited at 1: r0 0x7\n' diff --regs r3=7 r3.s r3.bin
# A run along its own trace is told whole with them, and not without.
"$program" trace --regs r1=0x28,r3=2 sum.s > sum.trace
tells 0 'same for 3 steps\nexited at 2: r0 0x2a\n' diff --trace sum.trace --regs r1=0x28,r3=2 sum.s
run diff --trace sum.trace sum.s
count=$((count + 1))
[ "$(cat found/status)" = 1 ] || complain 'a trace of a run with registers at the start, and a run without'
# What both leave: the byte at r3.
listing put.s 'stxb [r3+0], r4;mov r0, 0;exit'
listing put2.s 'stxb [r3+0], r4;mov r0, 0;ja on;on: exit'
tells 0 'same writes\n< exited at 2: r0 0x0\n> exited at 3: r0 0x0\n' diff --writes -m three --regs r3=context+1,r4=0x33 put.s put2.s
# And which step wrote it last, which is looked for in runs that begin so, too.
listing put4.s 'add r4, 1;stxb [r3+0], r4;mov r0, 0;exit'
run diff --writes -m three --regs r3=context+1,r4=0x33 put.s put4.s
count=$((count + 1))
[ "$(head -n 3 found/out)" = "$(printf '0x100000001:1 ends otherwise: 0x33, 0x34\n< 1 0: stxb [r3+0], r4; 0x100000001:1 = 0x33\n> 2 1: stxb [r3+0], r4; 0x100000001:1 = 0x34')" ] || complain "what two runs leave with registers at the start: $(cat found/out found/err)"

# A strict run is looked for a read with them, and then runs with them.
result '0x2a\n' run --strict --regs r3=42 r3.s
listing maybe.s 'jeq r1, 5, read;mov r0, r1;exit;read: ldxb r0, [r10-1];exit'
stopped 'read of 0x2000001ff at 3: not written since the call' run --strict --regs r1=5 maybe.s
result '0x6\n' run --strict --regs r1=6 maybe.s
tells 1 '1 0: jeq r1, 5, L3\nread of 0x2000001ff at 3: not written since the call\n' trace --strict --regs r1=5 maybe.s
tells 0 '1 0: jeq r1, 5, L3\n2 1: mov r0, r1; r0 = 0x6\n3 2: exit\nexited at 2: r0 0x6\n' trace --strict --regs r1=6 maybe.s

# gdb sees them: r0 to r9, r10 and pc, eight bytes each, the lowest first. The sum of `g` is its code, 0x67; that of the answer is worked out here.
zero=0000000000000000
answer=${zero}2800000000000000${zero}${zero}${zero}${zero}${zero}${zero}${zero}${zero}0002000002000000${zero}
sum=$(printf '%s' "$answer" | od -An -v -tu1 | awk '{ for (i = 1; i <= NF; i++) sum += $i } END { printf "%02x", sum % 256 }')
row 'gdb reads registers at the start' 0 '$g#67' "+\$$answer#$sum" '' gdb --registers bpf --regs r1=0x28 stop.s

# bpfdb-shell and bpfdb-page begin with them, too, and so does what the shell asks of `origin`.
if has python3 'registers at the start in bpfdb-shell and bpfdb-page'; then
    printf 'p $r1\ncontinue\norigin r3\n' | BPFDB=$program "$top/share/bpfdb-shell" --regs r1=0x28,r3=2 sum.s > found/out 2> found/err
    echo $? > found/status
    check 'bpfdb-shell --regs' 0 '$r1 = 0x28 (40)\n3 forward; end; exited at 2: r0 0x2a\nleft r3 = 0x2; at the opening\n' ''
    count=$((count + 1))
    BPFDB=$program "$top/share/bpfdb-page" -o sum.html --regs r1=0x28,r3=2 sum.s > found/out 2>&1
    grep -q '"registers":\["0x0","0x28","0x0","0x2","0x0",' sum.html || complain "bpfdb-page --regs: $(cat found/out)"
fi

# What is refused, alike in each subcommand, before a step is taken; in the order of the list, and of an item the register first.
for subcommand in run trace debug origin diff gdb; do
    other=
    [ "$subcommand" != diff ] || other=r3.s
    refused 'refused O3: malformed list of registers' "$subcommand" --regs r3 r3.s $other
    refused 'refused O6: two values of one register' "$subcommand" --regs r3=1,r3=1 r3.s $other
done
refused 'refused O3: malformed list of registers' whynot --regs r3 r3.s 1
refused 'refused O3: malformed list of registers' diff --trace sum.trace --regs r3 r3.s
for list in '' ' ' , r3 r3= =5 r3=5, ,r3=5 'r3=5,,r4=6' r11=1 r03=1 R3=1 3=1 x=1 r3=-1 r3=+1 r3=5x r3=0x r3=0X5 r3==5 'r3=5 6' 'r3=5;r4=6' 'r3=5 r4=6' r3=r4 r3=maps r3=Context \
    r3=contexts r3=context-1 r3=context+ r3=context+-1 r3=context+4+4 'r3=context + 4' r3=stack+1 r3=stack- r3=stack-r1 'r 3=5' 'r3:5'; do
    refused 'refused O3: malformed list of registers' run --regs "$list" r3.s
done
for value in 18446744073709551616 0x10000000000000000 99999999999999999999999999 context+65537 context+0x10001 context+18446744073709551616 stack-513 stack-18446744073709551616; do
    refused 'refused O4: value of a register out of range' run --regs "r3=$value" r3.s
done
refused 'refused O5: r10 is not writable' run --regs r10=1 r3.s
refused 'refused O5: r10 is not writable' run --regs r3=1,r10=stack r3.s
refused 'refused O5: r10 is not writable' run --regs r10=x r3.s
refused 'refused O6: two values of one register' run --regs r0=1,r1=1,r0=2 r3.s
refused 'refused O3: malformed list of registers' run --regs r3=x,r10=1 r3.s
refused 'refused O4: value of a register out of range' run --regs r3=0x10000000000000000,r3=x r3.s
# Behind what is wrong with FILE, and before a context that is too long and a journal that is too small.
bytes ragged 95 00 00
refused 'refused C3: length is no multiple of 8' run --regs r3 ragged
refused 'refused M5: malformed map list' run --regs r3 --maps 8 r3.s
head -c 65537 /dev/zero > long
refused 'refused O3: malformed list of registers' run --regs r3 -m long r3.s
refused 'refused O1: context too long' run --regs r3=1 -m long r3.s
refused 'refused O3: malformed list of registers' debug --regs r3 --journal 1 r3.s
refused 'refused J1: journal size out of range' debug --regs r3=1 --journal 1 r3.s
refused 'refused O1: context too long (the other run)' diff --regs r3=1 -m four --other-mem long r3.s
# It is given once, and subcommands that run nothing don't have it.
usage "the argument '--regs <REG=VALUE>' cannot be used multiple times" run --regs r3=1 --regs r4=1 r3.s
for subcommand in asm disasm lines check load link test batch; do
    usage "unexpected argument '--regs' found" "$subcommand" --regs r3=1 r3.s
done
