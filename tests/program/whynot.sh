# Why a program did not come to a slot: each kind of answer, calls and recursion, edits, what the journal dropped, and what is refused. What is wanted was
# worked out by hand from the jumps, calls and returns of each listing. Then programs at random, held against a model (tests/trials/whynot.py).

# A loop: the branch that left it for good; the exit, which was reached; both; what lies before the end of a run.
listing count.s 'loop: add r0, 1;jlt r0, 3, loop;exit'
left='-2 1: jlt r0, 3, L0; r0 = 0x3; went on\n'
why='at 1: jlt r0, 3, L0\n-1 r0 = 0x3; 0: add r0, 1; from r0\n-3 r0 = 0x2; 0: add r0, 1; from r0\n-5 r0 = 0x1; 0: add r0, 1; from r0\nleft r0 = 0x0; at the opening\n'
tells 0 "exited at 2: r0 0x3\n$left$why" whynot --listing count.s 0
tells 0 "exited at 2: r0 0x3\n$left$why" whynot --listing count.s 0x00,0
tells 0 "exited at 2: r0 0x3\n$left" whynot --alone --listing count.s 0
tells 0 'exited at 2: r0 0x3\nit was reached 2 moves back\n' whynot --listing count.s 0,1
tells 1 "exited at 2: r0 0x3\n${left}at 1: jlt r0, 3, L0\n-1 r0 = 0x3; 0: add r0, 1; from r0\ncut: there are more lines\n" whynot --lines 1 --listing count.s 0
tells 0 "exited at 2: r0 0x3\n$left" whynot --lines 1 --alone --listing count.s 0
tells 0 'exited at 2: r0 0x3\nit was reached 1 moves back\n' whynot --listing count.s 2
tells 0 'exited at 2: r0 0x3\nit was reached 1 moves back\n' whynot --listing count.s 0,2
tells 0 'at 1: jlt r0, 3, L0\nit can still be reached\n' whynot --steps 3 --listing count.s 0
tells 0 'at 1: jlt r0, 3, L0\nit can still be reached\n' whynot --steps 3 --listing count.s 2
tells 0 'at 2: exit\nit can still be reached\n' whynot --steps 6 --listing count.s 2

# Faults; code to which nothing leads; two registers that are compared.
listing far.s 'mov r3, 5;stxdw [r3+0], r1;exit'
tells 0 'fault access 0x5 at 1\n-1 1: stxdw [r3+0], r1; faulted\n' whynot --listing far.s 2
tells 0 'fault access 0x5 at 1\nit was reached 1 moves back\n' whynot --listing far.s 1
listing dead.s 'exit;mov r0, 1;exit'
tells 0 'exited at 0: r0 0x0\nit was out of reach from the opening\n' whynot --listing dead.s 1
tells 0 'exited at 0: r0 0x0\nit was reached 1 moves back\n' whynot --listing dead.s 0,1,2
listing both.s 'mov r1, 2;mov r2, 3;jgt r1, r2, far;mov r0, 0;exit;far: exit'
tells 0 'exited at 4: r0 0x0\n-3 2: jgt r1, r2, L5; r1 = 0x2; r2 = 0x3; went on\nat 2: jgt r1, r2, L5\n-1 r2 = 0x3; 1: mov r2, 3\n-2 r1 = 0x2; 0: mov r1, 2\n' \
    whynot --listing both.s 5
listing frame.s 'jgt r10, 5, on;mov r0, 1;exit;on: exit'
tells 0 'exited at 3: r0 0x0\n-2 0: jgt r10, 5, L3; r10 = 0x200000200; jumped to 3\n' whynot --listing frame.s 1

# Where the values came from, with addresses or without.
bytes context 2a
listing load.s 'ldxb r0, [r1+0];jeq r0, 1, one;exit;one: mov r0, 7;exit'
decided='exited at 2: r0 0x2a\n-2 1: jeq r0, 1, L3; r0 = 0x2a; went on\nat 1: jeq r0, 1, L3\n-1 r0 = 0x2a; 0: ldxb r0, [r1+0]; from 0x100000000:1'
tells 0 "$decided\nleft 0x100000000:1 = 0x2a; byte 0 of the context; at the opening\n" whynot -m context --listing load.s 3
tells 0 "$decided r1\nleft 0x100000000:1 = 0x2a; byte 0 of the context; at the opening\nleft r1 = 0x100000000; at the opening\n" whynot -m context --addresses --listing load.s 3

# Calls: what a function calls, one of its registers, what it never returns to, and what only returns lead to.
listing calls.s 'callf f;exit;g: mov r0, 9;exit;f: jeq r0, 0, out;callf g;out: exit'
tells 0 'exited at 1: r0 0x0\n-3 4: jeq r0, 0, L6; r0 = 0x0; jumped to 6\nat 4: jeq r0, 0, L6\nleft r0 = 0x0; at the opening\n' whynot --listing calls.s 2
tells 0 'at 6: exit\nit can still be reached\n' whynot --steps 2 --listing calls.s 1
tells 0 'at 6: exit\n-1 4: jeq r0, 0, L6; r0 = 0x0; jumped to 6\n' whynot --alone --steps 2 --listing calls.s 3
listing saved.s 'callf f;exit;f: jeq r6, 0, out;mov r0, 1;out: exit'
tells 0 'exited at 1: r0 0x0\n-3 2: jeq r6, 0, L4; r6 = 0x0; jumped to 4\nat 2: jeq r6, 0, L4\nleft r6 = 0x0; at the opening\n' whynot --listing saved.s 3
listing deep.s 'f: callf f;mov r0, 1;exit'
tells 0 'fault depth at 0\nit was out of reach from the opening\n' whynot --listing deep.s 1
listing back.s 'f: jeq r0, 0, deeper;exit;deeper: callf f;mov r0, 1;exit'
tells 0 'fault depth at 2\n-2 0: jeq r0, 0, L2; r0 = 0x0; jumped to 2\n' whynot --alone --listing back.s 3
tells 0 'fault depth at 2\n-2 0: jeq r0, 0, L2; r0 = 0x0; jumped to 2\n' whynot --alone --listing back.s 1
tells 0 'at 2: callf L0\nit can still be reached\n' whynot --steps 13 --listing back.s 3

# Scripts: an edit of pc; what was taken back; an empty one. What the journal dropped.
listing plain.s 'mov r0, 1;mov r0, 2;exit'
printf 'stepi\nset pc 2\n' > edited
tells 0 'at 2: exit\n-1 edit; then at 2\n' whynot --script edited --listing plain.s 1
tells 0 'at 2: exit\nit was reached 2 moves back\n' whynot --script edited --listing plain.s 0
printf 'stepi\nset pc 2\nundo\n' > undone
tells 0 'at 1: mov r0, 2\nit can still be reached\n' whynot --script undone --listing plain.s 1
tells 0 'at 0: mov r0, 1\nit can still be reached\n' whynot --script /dev/null --listing plain.s 2
listing late.s 'jeq r0, 0, l;mov r0, 1;exit;l: ja l'
tells 0 'at 3: ja L3\n-1000 0: jeq r0, 0, L3; r0 = 0x0; jumped to 3\nat 0: jeq r0, 0, L3\nleft r0 = 0x0; at the opening\n' whynot --steps 1000 --listing late.s 1
tells 0 'at 3: ja L3\nit was out of reach before what is kept\n' whynot --steps 1000 --journal 1024 --listing late.s 1

# Long programs: a jump to a slot above 255, a slot that was reached 300 moves ago, a wide load between the branch and the slot, a loop of 301 slots, and the
# slot 40,000. And what is behind seven returns.
many() { yes "$2" | head -n "$1"; }
{ echo 'jeq r0, 0, far'; many 299 'mov r1, 1'; echo exit; echo 'far: exit'; } > above.s
tells 0 'exited at 301: r0 0x0\n-2 0: jeq r0, 0, L301; r0 = 0x0; jumped to 301\n' whynot --alone --listing above.s 1
{ many 299 'mov r1, 1'; echo exit; } > ago.s
tells 0 'exited at 299: r0 0x0\nit was reached 300 moves back\n' whynot --listing ago.s 0
{ echo 'jne r0, 0, far'; echo exit; echo 'far: mov r1, 1'; many 297 'mov r1, 1'; echo 'lddw r1, 1'; echo 'mov r0, 1'; echo exit; } > passed.s
tells 0 'exited at 1: r0 0x0\n-2 0: jne r0, 0, L2; r0 = 0x0; went on\n' whynot --alone --listing passed.s 302
{ echo 'loop: mov r0, 1'; many 299 'mov r1, 1'; echo 'jne r0, 1, loop'; echo exit; } > round.s
tells 0 'exited at 301: r0 0x1\n-2 300: jne r0, 1, L0; r0 = 0x1; went on\n' whynot --alone --listing round.s 0
{ many 40000 'mov r1, 1'; echo exit; } > top.s
tells 0 'exited at 40000: r0 0x0\nit was reached 1 moves back\n' whynot --listing top.s 40000
refused 'refused V4: no instruction starts at the slot' whynot --listing top.s 40001
listing seven.s 'callf a;exit;a: callf b;exit;b: callf c;exit;c: callf d;exit;d: callf e;exit;e: callf f;exit;f: callf g;exit;g: mov r0, 1;exit'
tells 0 'at 14: mov r0, 1\nit can still be reached\n' whynot --steps 7 --listing seven.s 1

# What names no slot, and what no instruction starts at: the first one counts. It is looked at last.
v3='refused V3: neither a slot nor slots with commas between'
v4='refused V4: no instruction starts at the slot'
for what in '' ' ' , 1, ,1 1,,2 1- -1 +1 '1 ' ' 1' 0x 18446744073709551616 1,x; do
    case $what in -*) set -- --listing plain.s -- "$what" ;; *) set -- --listing plain.s "$what" ;; esac
    refused "$v3" whynot "$@"
done
listing wide.s 'lddw r0, 1;exit'
for what in 3 1,3 3,1 9,x 65535 65536 4294967296 18446744073709551615; do
    refused "$v4" whynot --listing plain.s "$what"
done
refused "$v4" whynot --listing wide.s 1
refused "$v4" whynot --listing wide.s 0,1,2

# Labels, by hand: several at one slot, on lines of their own; of the second slot behind a branch; one that no instruction follows. Names that differ by a byte
# at either end are others, and numbers stay slots.
tells 0 "exited at 2: r0 0x3\n$left$why" whynot --listing count.s loop
tells 0 'fault depth at 2\n-2 0: jeq r0, 0, L2; r0 = 0x0; jumped to 2\n' whynot --alone --listing back.s 3
listing labels.s 'mov r1, 7;a:;b2:; _c: jeq r1, 7, e;ab: exit;e: mov r0, 1;last: exit;end:'
for label in a b2 _c; do
    tells 0 'exited at 4: r0 0x1\nit was reached 3 moves back\n' whynot --listing labels.s $label
done
tells 0 'exited at 4: r0 0x1\n-3 1: jeq r1, 7, L3; r1 = 0x7; jumped to 3\n' whynot --alone --listing labels.s ab
tells 0 'exited at 4: r0 0x1\nit was reached 2 moves back\n' whynot --listing labels.s e
tells 0 'exited at 4: r0 0x1\nit was reached 1 moves back\n' whynot --listing labels.s last
tells 0 'exited at 1: r0 0x0\n-3 4: jeq r0, 0, L6; r0 = 0x0; jumped to 6\n' whynot --alone --listing calls.s g
tells 0 'exited at 1: r0 0x0\nit was reached 2 moves back\n' whynot --listing calls.s out

# A place that there isn't, also of raw words: it is refused by its name, after the run. What would steer a terminal is spelled out.
"$program" asm labels.s > labels.bin
for what in x b B2 b2a as las L3 r0 end a,ab 1:2 labels.s:1 a: : :1; do
    refused "refused V5: no such place: $what" whynot --listing labels.s "$what"
    refused "refused V5: no such place: $what" whynot labels.bin "$what"
done
refused 'refused V5: no such place: a' whynot labels.bin a
refused 'refused V5: no such place: x\\x1b[2J' whynot --listing labels.s "$(printf 'x\033[2J')"
refused 'refused J1: journal size out of range' whynot --journal 1023 --listing plain.s x
printf 'finish\n' > refuses
refused 'refused Q9: outermost frame' whynot --script refuses --listing plain.s x

# Values: those that make it as a constant. Which way the verdict went; one that was made; by hexadecimal; one that nothing makes; among some slots alone.
listing verdict.s 'jeq r0, 0, pass;mov r0, 1;exit;pass: mov r0, 2;exit'
decided='exited at 4: r0 0x2\n-3 0: jeq r0, 0, L3; r0 = 0x0; jumped to 3\n'
"$program" asm verdict.s > verdict.bin
for what in =1 =0x1 =01 =1,0 =1,1,1 =1,1,18446744073709551615; do
    tells 0 "$decided" whynot --alone --listing verdict.s $what
    tells 0 "$decided" whynot --alone verdict.bin $what
done
tells 0 "${decided}at 0: jeq r0, 0, L3\nleft r0 = 0x0; at the opening\n" whynot verdict.bin =1
all_ran='each instruction that makes it ran\n'
tells 0 "exited at 4: r0 0x2\nmade: -2 r0 = 0x2; 3: mov r0, 2\n$all_ran" whynot verdict.bin =2
tells 0 'exited at 4: r0 0x2\nit was reached 2 moves back\n' whynot verdict.bin 3
v6='refused V6: neither a number nor an enumerator of one value'
v7='refused V7: no instruction makes the value'
for what in = =, =x =XDP_DROP =1x =-1 '=1 ' =18446744073709551616 =1,x =1,0,x =1,0,1,1; do
    refused "$v6" whynot --listing verdict.s "$what"
    refused "$v6" whynot verdict.bin "$what"
done
for what in =0 =3 =4294967297 =0x100000001 =1,2 =1,0,1 =1,1,0 =2,0,3 =2,4; do
    refused "$v7" whynot verdict.bin $what
done

# Of those that make it, the ones that ran: the newest one is told, and it is asked about the others, over what is kept. One that ran twice; one that is made
# and overwritten, while a branch leads past another; among some slots alone; in a loop.
listing again.s 'mov r0, 1;jeq r1, 0, out;mov r0, 1;exit;out: mov r0, 2;exit'
past='-3 1: jeq r1, 0, L4; r1 = 0x0; jumped to 4\n'
why='at 1: jeq r1, 0, L4\nleft r1 = 0x0; at the opening\n'
tells 0 "exited at 5: r0 0x2\nmade: -4 r0 = 0x1; 0: mov r0, 1\n$past$why" whynot --listing again.s =1
tells 0 "exited at 5: r0 0x2\nmade: -4 r0 = 0x1; 0: mov r0, 1\n$past" whynot --alone --listing again.s =1
tells 0 "exited at 5: r0 0x2\n$past" whynot --alone --listing again.s =1,1
tells 0 "exited at 5: r0 0x2\nmade: -4 r0 = 0x1; 0: mov r0, 1\noverwritten: $past$why" whynot --listing again.s =1,0,2
tells 0 "exited at 5: r0 0x2\nmade: -4 r0 = 0x1; 0: mov r0, 1\noverwritten: $past" whynot --alone --listing again.s =1,0,2
tells 0 'at 1: jeq r1, 0, L4\nmade: -1 r0 = 0x1; 0: mov r0, 1\nit can still be reached\n' whynot --steps 1 --listing again.s =1
tells 0 'at 0: mov r0, 1\nit can still be reached\n' whynot --script /dev/null --listing again.s =1
tells 0 "exited at 5: r0 0x2\n$past$why" whynot --listing again.s 0,2
tells 0 'exited at 5: r0 0x2\nit was reached 4 moves back\n' whynot --listing again.s 0
listing twice.s 'mov r0, 1;mov r0, 2;mov r0, 1;exit'
tells 0 "exited at 3: r0 0x1\nmade: -2 r0 = 0x1; 2: mov r0, 1\n$all_ran" whynot --listing twice.s =1
listing rounds.s 'loop: mov r3, 5;add r0, 1;jlt r0, 3, loop;exit;mov r3, 5;exit'
tells 0 "exited at 3: r0 0x3\nmade: -4 r3 = 0x5; 0: mov r3, 5\nit was out of reach from the opening\n" whynot --listing rounds.s =5

# Each made it, and it was overwritten: the last branch of that call before the first move that wrote there. None lies between; it is what the program has now;
# two branches, and two writes; a branch of a function that was called; what such a one wrote, and what is written behind the return: not that; bytes of the frame.
listing over.s 'mov r0, 1;jeq r1, 0, on;mov r0, 3;on: exit'
bytes one 2a
tells 0 "exited at 3: r0 0x1\nmade: -3 r0 = 0x1; 0: mov r0, 1\n$all_ran" whynot --listing over.s =1
tells 0 'exited at 3: r0 0x3\nmade: -4 r0 = 0x1; 0: mov r0, 1\noverwritten: -3 1: jeq r1, 0, L3; r1 = 0x100000000; went on\nat 1: jeq r1, 0, L3\nleft r1 = 0x100000000; at the opening\n' \
    whynot -m one --listing over.s =1
listing over.s 'mov r0, 1;jeq r1, 0, a;a: mov r3, 1;jeq r2, 0, b;b: mov r0, 2;jeq r3, 0, c;c: mov r0, 4;exit'
tells 0 'exited at 7: r0 0x4\nmade: -8 r0 = 0x1; 0: mov r0, 1\noverwritten: -5 3: jeq r2, 0, L4; r2 = 0x0; went on\n' whynot --alone --listing over.s =1,0,1
tells 0 'exited at 7: r0 0x4\nmade: -4 r0 = 0x2; 4: mov r0, 2\noverwritten: -3 5: jeq r3, 0, L6; r3 = 0x1; went on\n' whynot --alone --listing over.s =2
listing over.s 'jeq r1, 0, on;on: mov r0, 1;mov r0, 2;exit'
tells 0 "exited at 3: r0 0x2\nmade: -3 r0 = 0x1; 1: mov r0, 1\n$all_ran" whynot --listing over.s =1
listing over.s 'mov r0, 1;jeq r1, 0, on;on: callf f;mov r0, 2;exit;f: jeq r2, 0, out;out: exit'
tells 0 'exited at 4: r0 0x2\nmade: -7 r0 = 0x1; 0: mov r0, 1\noverwritten: -6 1: jeq r1, 0, L2; r1 = 0x0; went on\n' whynot --alone --listing over.s =1
listing over.s 'mov r0, 1;jeq r1, 0, on;on: callf f;exit;f: mov r0, 2;exit'
tells 0 "exited at 3: r0 0x2\nmade: -6 r0 = 0x1; 0: mov r0, 1\n$all_ran" whynot --listing over.s =1
listing over.s 'callf f;jeq r1, 0, on;on: mov r6, 3;callf g;exit;f: mov r6, 1;exit;g: jeq r1, 0, in;in: mov r6, 4;exit'
tells 0 "exited at 4: r0 0x0\nmade: -9 r6 at depth 1 = 0x1; 5: mov r6, 1\n$all_ran" whynot --listing over.s =1
listing over.s 'stw [r10-8], 1;jeq r1, 0, on;on: stw [r10-4], 2;jeq r2, 0, in;in: stb [r10-8], 3;exit'
tells 0 'exited at 5: r0 0x0\nmade: -6 0x2000001f8:4 = 0x1; 0: stw [r10-8], 1\noverwritten: -3 3: jeq r2, 0, L4; r2 = 0x0; went on\n' whynot --alone --listing over.s =1

# What is made: of 32 bits and of 64, bytes of the frame, a register at its depth. Not by a store that faults, and not by hand. What was taken back isn't
# kept, nor what the journal has dropped.
listing kinds.s 'mov32 r1, -1;lddw r2, 18446744073709551615;stw [r10-8], -1;stb [r10-1], -1;callf f;exit;f: mov r6, 255;stdw [r10-16], 255;exit'
for told in '18446744073709551615 8 r2 = 0xffffffffffffffff; 1: lddw r2, 0xffffffffffffffff' '4294967295,0,1 9 r1 = 0xffffffff; 0: mov32 r1, -1' \
    '4294967295 7 0x2000001f8:4 = 0xffffffff; 3: stw [r10-8], -1' '255,4,1 6 0x2000001ff:1 = 0xff; 4: stb [r10-1], -1' \
    '255,0,8 4 r6 at depth 1 = 0xff; 7: mov r6, 255' '255 3 0x2000005f0:8 = 0xff; 8: stdw [r10-16], 255'; do
    value=${told%% *} told=${told#* }
    tells 0 "exited at 6: r0 0x0\nmade: -${told%% *} ${told#* }\n$all_ran" whynot --listing kinds.s =$value
done
listing faults.s 'stw [r10+0], 5;exit'
tells 0 'fault access 0x200000200 at 0\nit was reached 1 moves back\n' whynot --listing faults.s =5
printf 'set reg r0 1\nstepi 2\nreverse-stepi 2\n' > by_hand
tells 0 'at 0: mov r0, 1\nit can still be reached\n' whynot --script by_hand --listing again.s =1
printf 'stepi 3\nundo\nstepi\nset pc 4\nstepi\n' > edits
tells 0 'at 5: exit\nmade: -3 r0 = 0x1; 0: mov r0, 1\n-2 edit; then at 4\n' whynot --script edits --listing again.s =1
listing dropped.s 'mov r0, 7;loop: add r1, 1;ja loop;mov r0, 7;exit'
tells 0 'at 1: add r1, 1\nmade: -11 r0 = 0x7; 0: mov r0, 7\nit was out of reach from the opening\n' whynot --steps 11 --listing dropped.s =7
tells 0 'at 1: add r1, 1\nit was out of reach before what is kept\n' whynot --steps 1001 --journal 1024 --listing dropped.s =7

# What makes a constant, slot by slot: moves of an immediate, of 32 and 64 bits, wide loads, and stores of one to the frame, as it is there; nothing else, and
# no store by another register. A value below 2^32 is that of the low 32 bits, as the kernel takes a verdict, a larger one that of all 64.
listing made.s 'jeq r0, 0, out;mov r1, -1;mov32 r2, -1;lddw r3, 4294967295;lddw r4, 18446744073709551615;stb [r10-1], -1;sth [r10-2], -1;stw [r10-4], -1;stdw [r10-8], -1;stb [r1+0], 7;mov r5, r1;add r5, 7;xor r6, 7;mov r7, 7;mov32 r8, 7;stdw [r10-16], 7;out: exit'
{ for made in 1 2 3 5 9 10; do echo "4294967295 $made"; done
  for made in 1 5 10; do echo "18446744073709551615 $made"; done
  for made in 15 16 17; do echo "7 $made"; done
  echo '255 7'; echo '65535 8'; } > makers
for value in 4294967295 18446744073709551615 7 255 65535 0; do
    for slot in 0 1 2 3 4 5 6 7 8 9 10 11 12 13 14 15 16 17 18; do
        if grep -q -x "$value $slot" makers; then
            tells 0 'exited at 18: r0 0x0\n-2 0: jeq r0, 0, L18; r0 = 0x0; jumped to 18\n' whynot --alone --listing made.s =$value,$slot,1
        else
            refused "$v7" whynot --listing made.s =$value,$slot,1
        fi
    done
done

# A program as long as there are, each of whose slots makes the value.
{ many 65534 'mov r0, 1'; echo exit; } > most.s
tells 0 "exited at 65534: r0 0x1\nmade: -2 r0 = 0x1; 65533: mov r0, 1\n$all_ran" whynot --listing most.s =1
{ echo exit; many 65533 'mov r0, 1'; echo exit; } > most.s
tells 0 'exited at 0: r0 0x0\nit was out of reach from the opening\n' whynot --listing most.s =1

# Enumerators, in a BTF that is written by hand: ENUM and ENUM64, negative ones, one of two enums with one value, and with two. A function's name comes first.
if has_clang 'whynot of enumerators'; then
    cat > enums.s << 'END'
	.section xdp,"ax",@progbits
	.globl prog
	.type prog,@function
prog:
	if r0 == 0 goto pass
	r0 = 1
	r3 = 0x100000001 ll
	exit
pass:
	r0 = 2
	exit
	.size prog, .-prog
	.section .BTF,"",@progbits
	.short 0xeb9f
	.byte 1, 0
	.long 24, 0, strings - types, strings - types, end - strings
types:
	.long 0, 0x06000004, 4
	.long drop - strings, 1, pass_name - strings, 2, unspec - strings, -1, prog_name - strings, 1
	.long 0, 0x06000002, 4
	.long drop - strings, 1, twice - strings, 1
	.long 0, 0x06000001, 4
	.long twice - strings, 2
	.long 0, 0x13000003, 8
	.long large - strings, 1, 1, small - strings, 1, 0, odd - strings, 0, 1
strings:
	.byte 0
drop:	.asciz "DROP"
pass_name:	.asciz "PASS"
unspec:	.asciz "UNSPEC"
prog_name:	.asciz "prog"
twice:	.asciz "TWICE"
large:	.asciz "LARGE"
small:	.asciz "SMALL"
odd:	.asciz "ODD"
end:
END
    clang -target bpf -c enums.s -o enums.o 2> found/err || complain "clang: enums.s: $(cat found/err)"
    decided='exited at 6: r0 0x2\n-3 0: jeq r0, 0, L5; r0 = 0x0; jumped to 5\n'
    for what in DROP =DROP SMALL =SMALL LARGE =LARGE =1 =4294967297 =prog; do
        tells 0 "$decided" whynot --alone --object enums.o $what
    done
    for what in PASS =PASS =2; do
        tells 0 "exited at 6: r0 0x2\nmade: -2 r0 = 0x2; 5: mov r0, 2\n$all_ran" whynot --object enums.o $what
    done
    tells 0 'exited at 6: r0 0x2\nit was reached 3 moves back\n' whynot --object enums.o prog
    for what in UNSPEC =UNSPEC ODD =ODD =3; do
        refused "$v7" whynot --object enums.o $what
    done
    for what in TWICE =TWICE =NONE =DRO =ROP =DROPS = =x =1,0,7; do
        refused "$v6" whynot --object enums.o $what
    done
    for what in NONE DRO ROP DROPS; do
        refused "refused V5: no such place: $what" whynot --object enums.o $what
    done
    if has python3 'whynot of enumerators in damaged objects'; then
        count=$((count + 1))
        python3 "$top/tests/trials/enumerators.py" "$program" enums.o > trial 2>&1 || complain "tests/trials/enumerators.py: $(cat trial)"
    fi
fi

# Functions and lines of C: what is told of each is what is told of its slots, by another reader of the table of `lines`; of a line by its whole path and by the
# last parts of that. Objects without BTF have functions alone.
object calls
for place in entry:0 next:4 thrice:7; do
    tells 0 "$("$program" whynot --object calls.o "${place#*:}")\n" whynot --object calls.o "${place%:*}"
done
for what in nex ext next: thrice:7 calls.c:1 - .text; do
    case $what in
        -*|.*) refused 'refused V3: neither a slot nor slots with commas between' whynot --object calls.o -- "$what" ;;
        *) refused "refused V5: no such place: $what" whynot --object calls.o "$what" ;;
    esac
done
refused 'refused E1: no ELF file' whynot --object plain.s plain
if has_clang 'whynot of functions and of lines of C'; then
    for bug in service limits payload oversize classes; do
        cp "$top/examples/bugs/$bug.c" "$top/examples/bugs/$bug.packet" .
        clang -g -O2 -target bpf -c $bug.c -o $bug.o 2> found/err || complain "clang: $bug.c: $(cat found/err)"
        "$program" lines --object $bug.o > table
        awk '$2 != "-" { slots[$2] = slots[$2] (slots[$2] == "" ? "" : ",") $1 } !told[$3]++ { print $3, $1 } END { for (line in slots) print line, slots[line] }' table > places
        [ "$(wc -l < places)" -gt 1 ] || complain "$bug.c has few places: $(cat places)"
        while read -r place slots; do
            wanted=$("$program" whynot --object -m $bug.packet $bug.o "$slots")
            tells 0 "$wanted\n" whynot --object -m $bug.packet $bug.o "$place"
            case $place in
                */*:*)
                    tells 0 "$wanted\n" whynot --object -m $bug.packet $bug.o "${place##*/}"
                    refused "refused V5: no such place: ${place#*/[a-z]}" whynot --object -m $bug.packet $bug.o "${place#*/[a-z]}"
                    refused "refused V5: no such place: ${place}0" whynot --object -m $bug.packet $bug.o "${place}0"
                    ;;
            esac
        done < places
    done
fi

# Programs at random.
if has python3 'why programs at random did not come to each of their slots'; then
    python3 "$top/tests/trials/whynot.py" "$program" 150 > trial 2> found/err
    echo $? > found/status
    { grep -a '^FAILED' trial; sed -n 's/^[0-9]* questions .*: \([0-9]* failed\)$/\1/p' trial; } > found/out
    check 'why programs at random did not come to each of their slots' 0 '0 failed\n' ''
fi
