# Where two runs part: each kind of answer from both sides, what is written of it, where the values came from, ends and limits, and what is refused. What is
# wanted was worked out by hand. (With --alone where the values came from is left out.) Then pairs at random, held against a model over the traces of both and
# against `origin`, and changed traces (tests/trials/diff.py).

# One program on two contexts: a value that was read, and the branch that it decided; from the other side; on the same context.
bytes four 04
bytes five 05
listing port.s 'ldxb r2, [r1+0];jne r2, 4, out;mov r0, 1;out: exit'
tells 1 'step 1 wrote otherwise\n< 1 0: ldxb r2, [r1+0]; r2 = 0x4\n> 1 0: ldxb r2, [r1+0]; r2 = 0x5\nstep 3 went elsewhere\n< 3 2: mov r0, 1; r0 = 0x1\n> 3 3: exit\n< exited at 3: r0 0x1\n> exited at 3: r0 0x0\n' \
    diff --alone --listing -m four --other-mem five port.s
tells 1 'step 1 wrote otherwise\n< 1 0: ldxb r2, [r1+0]; r2 = 0x5\n> 1 0: ldxb r2, [r1+0]; r2 = 0x4\nstep 3 went elsewhere\n< 3 3: exit\n> 3 2: mov r0, 1; r0 = 0x1\n< exited at 3: r0 0x0\n> exited at 3: r0 0x1\n' \
    diff --alone --listing --mem=five --other-mem=four port.s
tells 0 'same for 4 steps\nexited at 3: r0 0x1\n' diff --listing -m four --other-mem four port.s
# A context that is longer is one only where its length is written; one that isn't there has no address either.
bytes longer 04 00
tells 0 'same for 4 steps\nexited at 3: r0 0x1\n' diff --listing -m four --other-mem longer port.s
listing length.s 'mov r0, r2;exit'
tells 1 'step 1 wrote otherwise\n< 1 0: mov r0, r2; r0 = 0x1\n> 1 0: mov r0, r2; r0 = 0x2\n< exited at 1: r0 0x1\n> exited at 1: r0 0x2\n' diff --alone --listing -m four --other-mem longer length.s
tells 1 'step 1 wrote otherwise\n< 1 0: ldxb r2, [r1+0]; r2 = 0x4\n> 1 0: ldxb r2, [r1+0]\nstep 2 is in one run alone\n< 2 1: jne r2, 4, L3\n< exited at 3: r0 0x1\n> fault access 0x0 at 0\n' \
    diff --alone --listing -m four --other-mem /dev/null port.s

# Two programs: one instruction for another that writes the same; another value; another register; another place; one step more.
listing one.s 'mov r0, 1;exit'
listing add.s 'add r0, 1;exit'
listing two.s 'mov r0, 2;exit'
listing r3.s 'mov r3, 1;exit'
tells 0 'same for 2 steps\nexited at 1: r0 0x1\n' diff --listing one.s add.s
tells 1 'step 1 wrote otherwise\n< 1 0: mov r0, 1; r0 = 0x1\n> 1 0: mov r0, 2; r0 = 0x2\n< exited at 1: r0 0x1\n> exited at 1: r0 0x2\n' diff --alone --listing one.s two.s
tells 1 'step 1 wrote otherwise\n< 1 0: mov r3, 1; r3 = 0x1\n> 1 0: mov r0, 1; r0 = 0x1\n< exited at 1: r0 0x0\n> exited at 1: r0 0x1\n' diff --alone --listing r3.s one.s
listing near.s 'stxb [r10-1], r0;exit'
listing far.s 'stxb [r10-2], r0;exit'
listing half.s 'stxh [r10-2], r0;exit'
tells 1 'step 1 wrote otherwise\n< 1 0: stxb [r10-1], r0; 0x2000001ff:1 = 0x0\n> 1 0: stxb [r10-2], r0; 0x2000001fe:1 = 0x0\n< exited at 1: r0 0x0\n> exited at 1: r0 0x0\n' diff --alone --listing near.s far.s
tells 1 'step 1 wrote otherwise\n< 1 0: stxb [r10-2], r0; 0x2000001fe:1 = 0x0\n> 1 0: stxh [r10-2], r0; 0x2000001fe:2 = 0x0\n< exited at 1: r0 0x0\n> exited at 1: r0 0x0\n' diff --alone --listing far.s half.s
listing more.s 'mov r0, 1;ja on;on: exit'
tells 1 'step 3 is in one run alone\n> 3 2: exit\n< exited at 1: r0 0x1\n> exited at 2: r0 0x1\n' diff --listing one.s more.s
tells 1 'step 3 is in one run alone\n< 3 2: exit\n< exited at 2: r0 0x1\n> exited at 1: r0 0x1\n' diff --listing more.s one.s

# The first of several differences counts, of each kind; values are compared as long as both stand at one slot.
listing many.s 'mov r3, 1;mov r4, 1;mov r0, 1;exit'
listing others.s 'mov r3, 1;mov r4, 2;mov r0, 2;exit'
tells 1 'step 2 wrote otherwise\n< 2 1: mov r4, 1; r4 = 0x1\n> 2 1: mov r4, 2; r4 = 0x2\n< exited at 3: r0 0x1\n> exited at 3: r0 0x2\n' diff --alone --listing many.s others.s
listing left.s 'ja l;r: mov r0, 1;l: mov r0, 2;exit'
listing right.s 'ja r;r: mov r0, 3;l: mov r0, 2;exit'
tells 1 'step 2 went elsewhere\n< 2 2: mov r0, 2; r0 = 0x2\n> 2 1: mov r0, 3; r0 = 0x3\n< exited at 3: r0 0x2\n> exited at 3: r0 0x2\n' diff --listing left.s right.s

# What a call clears, registers of functions at other depths, what a fetch, an update and a trace write.
listing called.s 'callf f;exit;f: mov r6, 1;exit'
listing jumped.s 'ja f;exit;f: mov r6, 1;exit'
tells 1 'step 1 wrote otherwise\n< 1 0: callf L2; 0x200000400:512\n> 1 0: ja L2\nstep 4 is in one run alone\n< 4 1: exit\n< exited at 1: r0 0x0\n> exited at 3: r0 0x0\n' diff --alone --listing called.s jumped.s
listing back.s 'callf f;mov r6, 1;exit;f: exit'
listing on.s 'callf f;b: mov r6, 1;exit;f: ja b'
tells 1 'step 3 wrote otherwise\n< 3 1: mov r6, 1; r6 = 0x1\n> 3 1: mov r6, 1; r6 at depth 1 = 0x1\nstep 5 is in one run alone\n> 5 1: mov r6, 1; r6 = 0x1\n< exited at 2: r0 0x0\n> exited at 2: r0 0x0\n' \
    diff --alone --listing back.s on.s
listing xchg.s 'mov r3, 7;atomic_xchg64 [r10-8], r3;exit'
listing fetch.s 'mov r3, 7;atomic_fetch_add64 [r10-8], r3;exit'
listing plus.s 'mov r3, 7;atomic_add64 [r10-8], r3;exit'
tells 0 'same for 3 steps\nexited at 2: r0 0x0\n' diff --listing xchg.s fetch.s
tells 1 'step 2 wrote otherwise\n< 2 1: atomic_fetch_add64 [r10-8], r3; r3 = 0x0; 0x2000001f8:8 = 0x7\n> 2 1: atomic_add64 [r10-8], r3; 0x2000001f8:8 = 0x7\n< exited at 2: r0 0x0\n> exited at 2: r0 0x0\n' \
    diff --alone --listing fetch.s plus.s
bytes low 00 00 00 00 00 00 00 00 00 00 00 00 00 00 00 00 01
bytes high 00 00 00 00 00 00 00 00 00 00 00 00 00 00 00 00 02
listing put.s 'stw [r10-4], 0;mov r3, r1;add r3, 1;ldmap r1, 0;mov r2, r10;add r2, -4;mov r4, 0;call 2;exit'
tells 1 'step 8 wrote otherwise\n< 8 8: call 2; r0 = 0x0; 0x300000000:16\n> 8 8: call 2; r0 = 0x0; 0x300000000:16\n< exited at 9: r0 0x0\n> exited at 9: r0 0x0\n' \
    diff --alone --maps 16x1 --listing -m low --other-mem high put.s
tells 0 'same for 9 steps\nexited at 9: r0 0x0\n' diff --maps 16x1 --listing -m low --other-mem low put.s
listing word.s 'mov r1, 5;call 64;exit'
listing other.s 'mov r1, 6;call 64;exit'
tells 1 'step 1 wrote otherwise\n< 1 0: mov r1, 5; r1 = 0x5\n> 1 0: mov r1, 6; r1 = 0x6\n< exited at 2: r0 0x0\n> exited at 2: r0 0x0\n' diff --alone --listing word.s other.s
listing given.s 'call 64;exit'
tells 1 'step 1 wrote otherwise\n< 1 0: call 64; r0 = 0x0; word 0 = 0x100000000\n> 1 0: call 64; r0 = 0x0; word 0 = 0x0\n< exited at 1: r0 0x0\n> exited at 1: r0 0x0\n' \
    diff --alone --listing -m four --other-mem /dev/null given.s

# Ends: at one step and slot, but for another reason; the same fault, and others; the limit, which is no end.
listing end.s exit
listing null.s 'ldxb r0, [r0+0];exit'
listing next.s 'ldxb r0, [r0+1];exit'
tells 1 '< exited at 0: r0 0x0\n> fault access 0x0 at 0\n' diff --listing end.s null.s
tells 1 '< fault access 0x0 at 0\n> exited at 0: r0 0x0\n' diff --listing null.s end.s
tells 1 '< fault access 0x0 at 0\n> fault access 0x1 at 0\n' diff --listing null.s next.s
tells 0 'same for 1 steps\nfault access 0x0 at 0\n' diff --listing null.s null.s
listing deep.s 'f: callf f;exit'
tells 0 'same for 8 steps\nfault depth at 0\n' diff --listing deep.s deep.s
listing loop.s 'l: ja l'
tells 1 'same for 1000000 steps\nstep limit 1000000 reached at 0\n' diff --listing loop.s loop.s
tells 1 'same for 1 steps\nstep limit 1 reached at 1\n' diff --steps 1 --listing one.s add.s
tells 1 '< step limit 1 reached at 2\n> step limit 1 reached at 1\n' diff --steps 1 --listing left.s right.s
tells 0 'same for 2 steps\nexited at 1: r0 0x1\n' diff --steps 2 --listing one.s add.s
tells 1 'step 2 is in one run alone\n> 2 0: ja L0\n< exited at 0: r0 0x0\n> step limit 3 reached at 0\n' diff --steps 3 --listing end.s loop.s
tells 1 '< exited at 0: r0 0x0\n> step limit 1 reached at 0\n' diff --steps 1 --listing end.s loop.s

# What both leave for one who looks from outside: stores in another order, of other widths, one that is written over; from both sides.
bytes eight 09 00 00 00 00 00 00 00
listing stores.s 'stw [r1+0], 1;stw [r1+4], 2;mov r0, 7;exit'
listing wide.s 'mov r0, 7;stb [r1+4], 5;lddw r2, 0x200000001;stxdw [r1+0], r2;exit'
listing wrong.s 'stdw [r1+0], 1;stb [r1+4], 3;mov r0, 7;exit'
tells 0 'same writes\n< exited at 3: r0 0x7\n> exited at 5: r0 0x7\n' diff --writes --listing -m eight stores.s wide.s
tells 0 'same writes\n< exited at 5: r0 0x7\n> exited at 3: r0 0x7\n' diff --listing -m eight wide.s stores.s --writes
tells 1 '0x100000004:1 ends otherwise: 0x2, 0x3\n< 2 1: stw [r1+4], 2; 0x100000004:4 = 0x2\n> 2 1: stb [r1+4], 3; 0x100000004:1 = 0x3\n< exited at 3: r0 0x7\n> exited at 3: r0 0x7\n' \
    diff --alone --writes --listing -m eight stores.s wrong.s
tells 1 '0x100000004:1 ends otherwise: 0x3, 0x2\n< 2 1: stb [r1+4], 3; 0x100000004:1 = 0x3\n> 4 4: stxdw [r1+0], r2; 0x100000000:8 = 0x200000001\n< exited at 3: r0 0x7\n> exited at 5: r0 0x7\n' \
    diff --alone --writes --listing -m eight wrong.s wide.s
# A byte that one of them doesn't write is what it was: otherwise, or the same.
listing seven.s 'mov r0, 7;exit'
listing nine.s 'stb [r1+0], 9;mov r0, 7;exit'
tells 1 '0x100000000:1 ends otherwise: 0x1, 0x9\n< 1 0: stw [r1+0], 1; 0x100000000:4 = 0x1\n> not written\n< exited at 3: r0 0x7\n> exited at 1: r0 0x7\n' \
    diff --alone --writes --listing -m eight stores.s seven.s
tells 1 '0x100000000:1 ends otherwise: 0x9, 0x1\n< not written\n> 1 0: stw [r1+0], 1; 0x100000000:4 = 0x1\n< exited at 1: r0 0x7\n> exited at 3: r0 0x7\n' \
    diff --alone --writes --listing -m eight seven.s stores.s
tells 0 'same writes\n< exited at 1: r0 0x7\n> exited at 2: r0 0x7\n' diff --writes --listing -m eight seven.s nine.s
# The last write is told, not the first one; and where a loop writes, the last time.
listing twice.s 'stb [r1+0], 5;stb [r1+0], 6;stb [r1+1], 6;exit'
listing round.s 'mov r3, 3;again: stxb [r1+0], r3;add r3, 1;jne r3, 6, again;exit'
tells 1 '0x100000000:1 ends otherwise: 0x6, 0x5\n< 2 1: stb [r1+0], 6; 0x100000000:1 = 0x6\n> 8 1: stxb [r1+0], r3; 0x100000000:1 = 0x5\n< exited at 3: r0 0x0\n> exited at 4: r0 0x0\n' \
    diff --alone --writes --listing -m eight twice.s round.s
# Behind the context maps, one after another, traced words, r0.
listing map.s 'ldmapval r2, 0, 4;stw [r2+0], 9;exit'
listing other-map.s 'ldmapval r2, 0, 4;stw [r2+0], 265;exit'
listing second-map.s 'ldmapval r2, 0, 4;stw [r2+0], 9;ldmapval r2, 1, 1;stb [r2+0], 255;mov r0, 1;exit'
listing last-byte.s 'ldmapval r2, 0, 4;stdw [r2-4], 0;stw [r2+0], 9;ldmapval r2, 1, 1;stb [r2+0], 254;mov r0, 1;exit'
tells 1 '0x300000005:1 ends otherwise: 0x0, 0x1\n< 2 2: stw [r2+0], 9; 0x300000004:4 = 0x9\n> 2 2: stw [r2+0], 265; 0x300000004:4 = 0x109\n< exited at 3: r0 0x0\n> exited at 3: r0 0x0\n' \
    diff --alone --writes --maps 4x2 --listing map.s other-map.s
tells 1 '0x300100001:1 ends otherwise: 0x0, 0xff\n< not written\n> 4 5: stb [r2+0], 255; 0x300100001:1 = 0xff\n< exited at 3: r0 0x0\n> exited at 7: r0 0x1\n' \
    diff --alone --writes --maps 4x2,2x1 --listing map.s second-map.s
tells 1 '0x300100001:1 ends otherwise: 0xff, 0xfe\n< 4 5: stb [r2+0], 255; 0x300100001:1 = 0xff\n> 5 6: stb [r2+0], 254; 0x300100001:1 = 0xfe\n< exited at 7: r0 0x1\n> exited at 8: r0 0x1\n' \
    diff --alone --writes --maps 4x2,2x1 --listing second-map.s last-byte.s
tells 0 'same writes\n< exited at 3: r0 0x0\n> exited at 3: r0 0x0\n' diff --writes --maps 4x2 --listing map.s map.s
listing words.s 'mov r1, 5;call 64;mov r1, 6;call 64;exit'
tells 1 'word 1 ends otherwise: 0x6, none\n< 4 3: call 64; r0 = 0x0; word 1 = 0x6\n> not written\n< exited at 4: r0 0x0\n> exited at 2: r0 0x0\n' diff --alone --writes --listing words.s word.s
tells 1 'word 1 ends otherwise: none, 0x6\n< not written\n> 4 3: call 64; r0 = 0x0; word 1 = 0x6\n< exited at 2: r0 0x0\n> exited at 4: r0 0x0\n' diff --alone --writes --listing word.s words.s
tells 1 'word 0 ends otherwise: 0x5, 0x6\n< 2 1: call 64; r0 = 0x0; word 0 = 0x5\n> 2 1: call 64; r0 = 0x0; word 0 = 0x6\n< exited at 2: r0 0x0\n> exited at 2: r0 0x0\n' \
    diff --alone --writes --listing word.s other.s
# However many maps, entries and words are the same before: the fifth map, entry 300, and the word behind sixteen.
listing fifth-map.s 'ldmapval r2, 4, 3;stb [r2+0], 9;exit'
listing other-fifth.s 'ldmapval r2, 4, 3;stb [r2+0], 8;exit'
listing far-entry.s 'ldmapval r2, 0, 300;stb [r2+0], 9;exit'
listing other-far.s 'ldmapval r2, 0, 300;stb [r2+0], 8;exit'
listing seventeen.s 'mov r6, 16;l: mov r1, 7;call 64;add r6, -1;jne r6, 0, l;mov r1, 5;call 64;exit'
listing other-word.s 'mov r6, 16;l: mov r1, 7;call 64;add r6, -1;jne r6, 0, l;mov r1, 6;call 64;exit'
tells 1 '0x300400003:1 ends otherwise: 0x9, 0x8\n< 2 2: stb [r2+0], 9; 0x300400003:1 = 0x9\n> 2 2: stb [r2+0], 8; 0x300400003:1 = 0x8\n< exited at 3: r0 0x0\n> exited at 3: r0 0x0\n' \
    diff --alone --writes --maps 4x1,4x1,4x1,4x1,4x1 --listing fifth-map.s other-fifth.s
tells 1 '0x30000012c:1 ends otherwise: 0x9, 0x8\n< 2 2: stb [r2+0], 9; 0x30000012c:1 = 0x9\n> 2 2: stb [r2+0], 8; 0x30000012c:1 = 0x8\n< exited at 3: r0 0x0\n> exited at 3: r0 0x0\n' \
    diff --alone --writes --maps 1x301 --listing far-entry.s other-far.s
tells 1 'word 16 ends otherwise: 0x5, 0x6\n< 67 6: call 64; r0 = 0x0; word 16 = 0x5\n> 67 6: call 64; r0 = 0x0; word 16 = 0x6\n< exited at 7: r0 0x0\n> exited at 7: r0 0x0\n' \
    diff --alone --writes --listing seventeen.s other-word.s
tells 1 'r0 ends otherwise: 0x1, 0x2\n< 1 0: mov r0, 1; r0 = 0x1\n> 1 0: mov r0, 2; r0 = 0x2\n< exited at 1: r0 0x1\n> exited at 1: r0 0x2\n' diff --alone --writes --listing one.s two.s
listing end.s exit
tells 1 'r0 ends otherwise: 0x0, 0x1\n< not written\n> 1 0: mov r0, 1; r0 = 0x1\n< exited at 0: r0 0x0\n> exited at 1: r0 0x1\n' diff --alone --writes --listing end.s one.s
# Registers, the stack, calls and slots don't count; an update does, whose line has no value.
tells 0 'same writes\n< exited at 1: r0 0x0\n> exited at 0: r0 0x0\n' diff --writes --listing r3.s end.s
tells 0 'same writes\n< exited at 1: r0 0x0\n> exited at 1: r0 0x0\n' diff --writes --listing near.s half.s
tells 0 'same writes\n< exited at 1: r0 0x0\n> exited at 3: r0 0x0\n' diff --writes --listing called.s jumped.s
tells 1 '0x30000000f:1 ends otherwise: 0x1, 0x2\n< 8 8: call 2; r0 = 0x0; 0x300000000:16\n> 8 8: call 2; r0 = 0x0; 0x300000000:16\n< exited at 9: r0 0x0\n> exited at 9: r0 0x0\n' \
    diff --alone --writes --maps 16x1 --listing -m low --other-mem high put.s
# On two contexts: what no step wrote doesn't count, but what ends as the other one was given does not differ; a byte that one context lacks.
listing more-by-one.s 'ldxb r2, [r1+0];add r2, 1;stxb [r1+0], r2;exit'
listing to-five.s 'ldxb r2, [r1+0];jne r2, 4, out;stb [r1+0], 5;out: exit'
listing behind.s 'stb [r1+1], 1;exit'
tells 1 'r0 ends otherwise: 0x1, 0x0\n< 3 2: mov r0, 1; r0 = 0x1\n> not written\n< exited at 3: r0 0x1\n> exited at 3: r0 0x0\n' diff --alone --writes --listing -m four --other-mem five port.s
tells 1 '0x100000000:1 ends otherwise: 0x5, 0x6\n< 3 2: stxb [r1+0], r2; 0x100000000:1 = 0x5\n> 3 2: stxb [r1+0], r2; 0x100000000:1 = 0x6\n< exited at 3: r0 0x0\n> exited at 3: r0 0x0\n' \
    diff --alone --writes --listing -m four --other-mem five more-by-one.s
tells 0 'same writes\n< exited at 3: r0 0x0\n> exited at 3: r0 0x0\n' diff --writes --listing -m four --other-mem five to-five.s
tells 1 '0x100000001:1 ends otherwise: none, 0x1\n< not written\n> 1 0: stb [r1+1], 1; 0x100000001:1 = 0x1\n< fault access 0x100000001 at 0\n> exited at 1: r0 0x0\n' \
    diff --alone --writes --listing -m four --other-mem longer behind.s
# Ends: the reason, and not the slot; r0 only where both exited; the limit, which is no end, and what was left up to there.
listing null.s 'ldxb r0, [r0+0];exit'
listing next.s 'ldxb r0, [r0+1];exit'
listing null-later.s 'mov r3, 1;ldxb r0, [r0+0];exit'
listing null-too.s 'mov r0, 8;ldxb r3, [r3+0];stb [r1+0], 1;exit'
listing token.s 'mov r1, 5;call 1;exit'
listing other-token.s 'mov r1, 6;call 1;exit'
listing loop.s 'l: ja l'
tells 1 'same writes\n< fault token 0x5 at 1\n> fault token 0x6 at 1\n' diff --writes --listing token.s other-token.s
tells 1 'same writes\n< exited at 0: r0 0x0\n> fault access 0x0 at 0\n' diff --writes --listing end.s null.s
tells 1 'same writes\n< fault access 0x0 at 0\n> fault access 0x1 at 0\n' diff --writes --listing null.s next.s
tells 0 'same writes\n< fault access 0x0 at 0\n> fault access 0x0 at 1\n' diff --writes --listing null.s null-later.s
tells 0 'same writes\n< fault access 0x0 at 0\n> fault access 0x0 at 1\n' diff --writes --listing -m four null.s null-too.s
tells 1 '0x100000000:1 ends otherwise: 0x5, 0x4\n< 3 2: stxb [r1+0], r2; 0x100000000:1 = 0x5\n> not written\n< exited at 3: r0 0x0\n> fault access 0x0 at 1\n' \
    diff --alone --writes --listing -m four more-by-one.s null-too.s
tells 1 'same writes\n< step limit 5 reached at 0\n> step limit 5 reached at 0\n' diff --writes --steps 5 --listing loop.s loop.s
tells 1 '0x100000000:1 ends otherwise: 0x1, 0x9\n< 1 0: stw [r1+0], 1; 0x100000000:4 = 0x1\n> not written\n< step limit 1 reached at 1\n> step limit 1 reached at 1\n' \
    diff --alone --writes --steps 1 --listing -m eight stores.s wide.s
tells 0 'same writes\n< exited at 1: r0 0x1\n> exited at 1: r0 0x1\n' diff --writes --steps 2 --listing one.s add.s

# Where the values came from that were written otherwise: of each run what `origin` tells behind that step. What a context gave, from both sides; up to a
# limit; of a run that differs in nothing else.
four_came='at 1: jne r2, 4, L3\n%s -1 r2 = 0x4; 0: ldxb r2, [r1+0]; from 0x100000000:1\n%s left 0x100000000:1 = 0x4; byte 0 of the context; at the opening\n'
five_came='at 1: jne r2, 4, L3\n%s -1 r2 = 0x5; 0: ldxb r2, [r1+0]; from 0x100000000:1\n%s left 0x100000000:1 = 0x5; byte 0 of the context; at the opening\n'
# came MARK TEXT: the text behind the mark of its run, which is %s in its lines but the first.
came() { printf '%s' "%s $2" | sed "s/%s/$1/g"; }
tells 1 "step 1 wrote otherwise\n< 1 0: ldxb r2, [r1+0]; r2 = 0x4\n> 1 0: ldxb r2, [r1+0]; r2 = 0x5\nstep 3 went elsewhere\n< 3 2: mov r0, 1; r0 = 0x1\n> 3 3: exit\n< exited at 3: r0 0x1\n> exited at 3: r0 0x0\n$(came '<' "$four_came")$(came '>' "$five_came")" \
    diff --listing -m four --other-mem five port.s
tells 1 "step 1 wrote otherwise\n< 1 0: ldxb r2, [r1+0]; r2 = 0x5\n> 1 0: ldxb r2, [r1+0]; r2 = 0x4\nstep 3 went elsewhere\n< 3 3: exit\n> 3 2: mov r0, 1; r0 = 0x1\n< exited at 3: r0 0x0\n> exited at 3: r0 0x1\n$(came '<' "$five_came")$(came '>' "$four_came")" \
    diff --listing -m five --other-mem four port.s
tells 1 "step 1 wrote otherwise\n< 1 0: ldxb r2, [r1+0]; r2 = 0x4\n> 1 0: ldxb r2, [r1+0]; r2 = 0x5\n< step limit 1 reached at 1\n> step limit 1 reached at 1\n$(came '<' "$four_came")$(came '>' "$five_came")" \
    diff --steps 1 --listing -m four --other-mem five port.s
tells 1 'step 1 wrote otherwise\n< 1 0: mov r0, r2; r0 = 0x1\n> 1 0: mov r0, r2; r0 = 0x2\n< exited at 1: r0 0x1\n> exited at 1: r0 0x2\n< at 1: exit\n< -1 r0 = 0x1; 0: mov r0, r2; from r2\n< left r2 = 0x1; at the opening\n> at 1: exit\n> -1 r0 = 0x2; 0: mov r0, r2; from r2\n> left r2 = 0x2; at the opening\n' \
    diff --listing -m four --other-mem longer length.s
# Another instruction; another register; steps before it, which both made alike; a register of a function that was called, and of none.
sum='step 3 wrote otherwise\n< 3 2: add r0, 3; r0 = 0x6\n> 3 2: add r0, 4; r0 = 0x7\n< exited at 3: r0 0x6\n> exited at 3: r0 0x7\n'
listing bad.s 'mov r0, 1;frob;exit'
listing sum.s 'mov r0, 1;add r0, 2;add r0, 3;exit'
listing other-sum.s 'mov r0, 1;add r0, 2;add r0, 4;exit'
tells 1 'step 1 wrote otherwise\n< 1 0: mov r3, 1; r3 = 0x1\n> 1 0: mov r0, 1; r0 = 0x1\n< exited at 1: r0 0x0\n> exited at 1: r0 0x1\n< at 1: exit\n< -1 r3 = 0x1; 0: mov r3, 1\n> at 1: exit\n> -1 r0 = 0x1; 0: mov r0, 1\n' \
    diff --listing r3.s one.s
tells 1 "$sum< at 3: exit\n< -1 r0 = 0x6; 2: add r0, 3; from r0\n< -2 r0 = 0x3; 1: add r0, 2; from r0\n< -3 r0 = 0x1; 0: mov r0, 1\n> at 3: exit\n> -1 r0 = 0x7; 2: add r0, 4; from r0\n> -2 r0 = 0x3; 1: add r0, 2; from r0\n> -3 r0 = 0x1; 0: mov r0, 1\n" \
    diff --listing sum.s other-sum.s
tells 1 'step 3 wrote otherwise\n< 3 1: mov r6, 1; r6 = 0x1\n> 3 1: mov r6, 1; r6 at depth 1 = 0x1\nstep 5 is in one run alone\n> 5 1: mov r6, 1; r6 = 0x1\n< exited at 2: r0 0x0\n> exited at 2: r0 0x0\n< at 2: exit\n< -1 r6 = 0x1; 1: mov r6, 1\n> at 2: exit\n> -1 r6 at depth 1 = 0x1; 1: mov r6, 1\n' \
    diff --listing back.s on.s
# Several parts of one step: of a fetch, of a call that traces and of one that updates a map, whose bytes of the context are two lines.
tells 1 'step 2 wrote otherwise\n< 2 1: atomic_fetch_add64 [r10-8], r3; r3 = 0x0; 0x2000001f8:8 = 0x7\n> 2 1: atomic_add64 [r10-8], r3; 0x2000001f8:8 = 0x7\n< exited at 2: r0 0x0\n> exited at 2: r0 0x0\n< at 2: exit\n< -1 r3 = 0x0; 0x2000001f8:8 = 0x7; 1: atomic_fetch_add64 [r10-8], r3; from r3 0x2000001f8:8\n< -2 r3 = 0x7; 0: mov r3, 7\n< left 0x2000001f8:8 = 0x0; not written since the call\n> at 2: exit\n> -1 0x2000001f8:8 = 0x7; 1: atomic_add64 [r10-8], r3; from r3 0x2000001f8:8\n> -2 r3 = 0x7; 0: mov r3, 7\n> left 0x2000001f8:8 = 0x0; not written since the call\n' \
    diff --listing fetch.s plus.s
tells 1 'step 1 wrote otherwise\n< 1 0: call 64; r0 = 0x0; word 0 = 0x100000000\n> 1 0: call 64; r0 = 0x0; word 0 = 0x0\n< exited at 1: r0 0x0\n> exited at 1: r0 0x0\n< at 1: exit\n< -1 r0 = 0x0; word 0 = 0x100000000; 0: call 64; from r1\n< left r1 = 0x100000000; at the opening\n> at 1: exit\n> -1 r0 = 0x0; word 0 = 0x0; 0: call 64; from r1\n> left r1 = 0x0; at the opening\n' \
    diff --listing -m four --other-mem /dev/null given.s
# put_came MARK VALUE: where the value came from that it put into the map.
put_came() {
    for line in 'at 9: exit' '-1 r0 = 0x0; 0x300000000:16; 8: call 2; from r1 0x2000001fc:4 r4 0x100000001:16' '-2 r4 = 0x0; 7: mov r4, 0' '-5 r1 = 0x400000000; 3: ldmap r1, 0' \
        '-8 0x2000001fc:4 = 0x0; 0: stw [r10-4], 0' 'left 0x100000001:8 = 0x0; byte 1 of the context; at the opening' "left 0x100000009:8 = $2; byte 9 of the context; at the opening"
    do
        printf '%s %s\\n' "$1" "$line"
    done
}
put_both="$(put_came '<' 0x100000000000000)$(put_came '>' 0x200000000000000)"
tells 1 "step 8 wrote otherwise\n< 8 8: call 2; r0 = 0x0; 0x300000000:16\n> 8 8: call 2; r0 = 0x0; 0x300000000:16\n< exited at 9: r0 0x0\n> exited at 9: r0 0x0\n$put_both" \
    diff --maps 16x1 --listing -m low --other-mem high put.s
# A frame that a call cleared, where the other step wrote nothing; so it is told of one run alone.
tells 1 'step 1 wrote otherwise\n< 1 0: callf L2; 0x200000400:512\n> 1 0: ja L2\nstep 4 is in one run alone\n< 4 1: exit\n< exited at 1: r0 0x0\n> exited at 3: r0 0x0\n< at 2: mov r6, 1\n< -1 0x200000400:512; 0: callf L2; not written since the call\n' \
    diff --listing called.s jumped.s
tells 1 'step 1 wrote otherwise\n< 1 0: ja L2\n> 1 0: callf L2; 0x200000400:512\nstep 4 is in one run alone\n> 4 1: exit\n< exited at 3: r0 0x0\n> exited at 1: r0 0x0\n> at 2: mov r6, 1\n> -1 0x200000400:512; 0: callf L2; not written since the call\n' \
    diff --listing jumped.s called.s
# A bad access on one side: the registers of its address; r10 is none of these, and a bad token has none: nothing is told then.
listing bad-store.s 'mov r3, 5;stb [r3+0], 1;exit'
listing good.s 'mov r3, 5;mov r0, 1;exit'
listing bad-frame.s 'ldxb r0, [r10+0];exit'
listing good-frame.s 'ldxb r0, [r10-1];exit'
listing token.s 'call 1;exit'
tells 1 "step 1 wrote otherwise\n< 1 0: ldxb r2, [r1+0]; r2 = 0x4\n> 1 0: ldxb r2, [r1+0]\nstep 2 is in one run alone\n< 2 1: jne r2, 4, L3\n< exited at 3: r0 0x1\n> fault access 0x0 at 0\n$(came '<' "$four_came")> fault access 0x0 at 0\n> left r1 = 0x0; at the opening\n" \
    diff --listing -m four --other-mem /dev/null port.s
tells 1 'step 2 wrote otherwise\n< 2 1: stb [r3+0], 1\n> 2 1: mov r0, 1; r0 = 0x1\nstep 3 is in one run alone\n> 3 2: exit\n< fault access 0x5 at 1\n> exited at 2: r0 0x1\n< fault access 0x5 at 1\n< -2 r3 = 0x5; 0: mov r3, 5\n> at 2: exit\n> -1 r0 = 0x1; 1: mov r0, 1\n' \
    diff --listing bad-store.s good.s
tells 1 'step 1 wrote otherwise\n< 1 0: ldxb r0, [r10+0]\n> 1 0: ldxb r0, [r10-1]; r0 = 0x0\nstep 2 is in one run alone\n> 2 1: exit\n< fault access 0x200000200 at 0\n> exited at 1: r0 0x0\n> at 1: exit\n> -1 r0 = 0x0; 0: ldxb r0, [r10-1]; from 0x2000001ff:1\n> left 0x2000001ff:1 = 0x0; not written since the call\n' \
    diff --listing bad-frame.s good-frame.s
tells 1 'step 1 wrote otherwise\n< 1 0: call 1\n> 1 0: mov r0, 1; r0 = 0x1\nstep 2 is in one run alone\n> 2 1: exit\n< fault token 0x0 at 0\n> exited at 1: r0 0x1\n> at 1: exit\n> -1 r0 = 0x1; 0: mov r0, 1\n' \
    diff --listing token.s one.s
# In a function that was called: r6 that it had from its caller makes the bad address; a call that is too deep writes nothing.
listing passed.s 'mov r6, 9;callf f;exit;f: ldxb r0, [r6+0];exit'
listing own.s 'mov r6, 9;callf f;exit;f: ldxb r0, [r10-1];exit'
tells 1 'step 3 wrote otherwise\n< 3 3: ldxb r0, [r6+0]\n> 3 3: ldxb r0, [r10-1]; r0 = 0x0\nstep 4 is in one run alone\n> 4 4: exit\n< fault access 0x9 at 3\n> exited at 2: r0 0x0\n< fault access 0x9 at 3\n< -3 r6 = 0x9; 0: mov r6, 9\n> at 4: exit\n> -1 r0 = 0x0; 3: ldxb r0, [r10-1]; from 0x2000005ff:1\n> -2 0x200000400:512; 1: callf L3; not written since the call\n' \
    diff --listing passed.s own.s
calls='callf a;exit;a: callf b;exit;b: callf c;exit;c: callf d;exit;d: callf e;exit;e: callf f;exit;f: callf g;exit'
listing eighth.s "$calls;g: callf g;exit"
listing seventh.s "$calls;g: mov r0, 1;exit"
tells 1 'step 8 wrote otherwise\n< 8 14: callf L14\n> 8 14: mov r0, 1; r0 = 0x1\nstep 9 is in one run alone\n> 9 15: exit\n< fault depth at 14\n> exited at 1: r0 0x1\n> at 15: exit\n> -1 r0 = 0x1; 14: mov r0, 1\n' \
    diff --listing eighth.s seventh.s
# Lines that are cut, of each run by itself; the registers that make addresses; a journal that keeps each move, and one that drops the first one: 43 rounds
# of 23 bytes and 16 more fit, 44 don't.
tells 1 "$sum< at 3: exit\n< -1 r0 = 0x6; 2: add r0, 3; from r0\n< -2 r0 = 0x3; 1: add r0, 2; from r0\n< cut: there are more lines\n> at 3: exit\n> -1 r0 = 0x7; 2: add r0, 4; from r0\n> -2 r0 = 0x3; 1: add r0, 2; from r0\n> cut: there are more lines\n" \
    diff --lines 2 --listing sum.s other-sum.s
listing two-registers.s 'add r0, r2;exit'
tells 1 'step 1 wrote otherwise\n< 1 0: mov r0, 1; r0 = 0x1\n> 1 0: add r0, r2; r0 = 0x0\n< exited at 1: r0 0x1\n> exited at 1: r0 0x0\n< at 1: exit\n< -1 r0 = 0x1; 0: mov r0, 1\n> at 1: exit\n> -1 r0 = 0x0; 0: add r0, r2; from r0 r2\n> left r0 = 0x0; at the opening\n> left r2 = 0x0; at the opening\n' \
    diff --lines=1 --listing one.s two-registers.s
pointed='step 2 wrote otherwise\n< 2 1: stb [r3-1], 5; 0x2000001ff:1 = 0x5\n> 2 1: stb [r3-2], 5; 0x2000001fe:1 = 0x5\n< exited at 2: r0 0x0\n> exited at 2: r0 0x0\n'
listing pointer.s 'mov r3, r10;stb [r3-1], 5;exit'
listing other-pointer.s 'mov r3, r10;stb [r3-2], 5;exit'
tells 1 "$pointed< at 2: exit\n< -1 0x2000001ff:1 = 0x5; 1: stb [r3-1], 5\n> at 2: exit\n> -1 0x2000001fe:1 = 0x5; 1: stb [r3-2], 5\n" diff --listing pointer.s other-pointer.s
tells 1 "$pointed< at 2: exit\n< -1 0x2000001ff:1 = 0x5; 1: stb [r3-1], 5; from r3\n< -2 r3 = 0x200000200; 0: mov r3, r10\n> at 2: exit\n> -1 0x2000001fe:1 = 0x5; 1: stb [r3-2], 5; from r3\n> -2 r3 = 0x200000200; 0: mov r3, r10\n" \
    diff --addresses --listing pointer.s other-pointer.s
# rounds ROUNDS SINCE STEP R0: two programs that part behind a loop, with a journal of 1,024 bytes.
rounds() {
    listing rounds.s "l: add r0, 1;jlt r0, $1, l;add r3, 1;exit"
    listing other-rounds.s "l: add r0, 1;jlt r0, $1, l;add r3, 2;exit"
    tells 1 "step $3 wrote otherwise\n< $3 2: add r3, 1; r3 = 0x1\n> $3 2: add r3, 2; r3 = 0x2\n< exited at 3: r0 $4\n> exited at 3: r0 $4\n< at 3: exit\n< -1 r3 = 0x1; 2: add r3, 1; from r3\n< left r3 = 0x0; $2\n> at 3: exit\n> -1 r3 = 0x2; 2: add r3, 2; from r3\n> left r3 = 0x0; $2\n" \
        diff --journal 1024 --listing rounds.s other-rounds.s
}
rounds 43 'at the opening' 87 0x2b
rounds 44 'before the kept history' 89 0x2c
# A journal is refused where there are values to tell, and last of all; with --alone, or where there are none, it isn't looked at.
j1='refused J1: journal size out of range'
for size in 7 1023 16777217; do
    refused "$j1" diff --journal $size --listing one.s two.s
    refused "$j1" diff --journal=$size --writes --listing one.s two.s
    refused 'refused A1 at line 2: unknown mnemonic (the other run)' diff --journal $size --listing one.s bad.s
    tells 0 'same for 2 steps\nexited at 1: r0 0x1\n' diff --journal $size --listing one.s add.s
    tells 0 'same writes\n< exited at 1: r0 0x1\n> exited at 1: r0 0x1\n' diff --journal $size --writes --listing one.s add.s
    tells 1 'step 2 went elsewhere\n< 2 2: mov r0, 2; r0 = 0x2\n> 2 1: mov r0, 3; r0 = 0x3\n< exited at 3: r0 0x2\n> exited at 3: r0 0x2\n' diff --journal $size --listing left.s right.s
    tells 1 "$sum" diff --journal $size --alone --listing sum.s other-sum.s
done
one_two='step 1 wrote otherwise\n< 1 0: mov r0, 1; r0 = 0x1\n> 1 0: mov r0, 2; r0 = 0x2\n< exited at 1: r0 0x1\n> exited at 1: r0 0x2\n< at 1: exit\n< -1 r0 = 0x1; 0: mov r0, 1\n> at 1: exit\n> -1 r0 = 0x2; 0: mov r0, 2\n'
for size in 1024 16777216; do
    tells 1 "$one_two" diff --journal $size --listing one.s two.s
done

# And where the values came from at the place that ends otherwise: behind the steps that wrote it last, from both sides; the last time in a loop.
tells 1 '0x100000004:1 ends otherwise: 0x2, 0x3\n< 2 1: stw [r1+4], 2; 0x100000004:4 = 0x2\n> 2 1: stb [r1+4], 3; 0x100000004:1 = 0x3\n< exited at 3: r0 0x7\n> exited at 3: r0 0x7\n< at 2: mov r0, 7\n< -1 0x100000004:4 = 0x2; 1: stw [r1+4], 2\n> at 2: mov r0, 7\n> -1 0x100000004:1 = 0x3; 1: stb [r1+4], 3\n' \
    diff --writes --listing -m eight stores.s wrong.s
tells 1 '0x100000000:1 ends otherwise: 0x6, 0x5\n< 2 1: stb [r1+0], 6; 0x100000000:1 = 0x6\n> 8 1: stxb [r1+0], r3; 0x100000000:1 = 0x5\n< exited at 3: r0 0x0\n> exited at 4: r0 0x0\n< at 2: stb [r1+1], 6\n< -1 0x100000000:1 = 0x6; 1: stb [r1+0], 6\n> at 2: add r3, 1\n> -1 0x100000000:1 = 0x5; 1: stxb [r1+0], r3; from r3\n> -3 r3 = 0x5; 2: add r3, 1; from r3\n> -6 r3 = 0x4; 2: add r3, 1; from r3\n> -8 r3 = 0x3; 0: mov r3, 3\n' \
    diff --writes --listing -m eight twice.s round.s
tells 1 '0x100000000:1 ends otherwise: 0x5, 0x6\n< 8 1: stxb [r1+0], r3; 0x100000000:1 = 0x5\n> 2 1: stb [r1+0], 6; 0x100000000:1 = 0x6\n< exited at 4: r0 0x0\n> exited at 3: r0 0x0\n< at 2: add r3, 1\n< -1 0x100000000:1 = 0x5; 1: stxb [r1+0], r3; from r3\n< -3 r3 = 0x5; 2: add r3, 1; from r3\n< cut: there are more lines\n> at 2: stb [r1+1], 6\n> -1 0x100000000:1 = 0x6; 1: stb [r1+0], 6\n' \
    diff --lines 2 --writes --listing -m eight round.s twice.s
# Where no step wrote it, what it was; up to a limit; at a fault; of a map.
not_written='> at 0: mov r0, 7\n> left 0x100000000:1 = 0x9; byte 0 of the context; at the opening\n'
tells 1 "0x100000000:1 ends otherwise: 0x1, 0x9\n< 1 0: stw [r1+0], 1; 0x100000000:4 = 0x1\n> not written\n< exited at 3: r0 0x7\n> exited at 1: r0 0x7\n< at 1: stw [r1+4], 2\n< -1 0x100000000:4 = 0x1; 0: stw [r1+0], 1\n$not_written" \
    diff --writes --listing -m eight stores.s seven.s
tells 1 "0x100000000:1 ends otherwise: 0x1, 0x9\n< 1 0: stw [r1+0], 1; 0x100000000:4 = 0x1\n> not written\n< step limit 1 reached at 1\n> step limit 1 reached at 1\n< at 1: stw [r1+4], 2\n< -1 0x100000000:4 = 0x1; 0: stw [r1+0], 1\n$not_written" \
    diff --writes --steps 1 --listing -m eight stores.s wide.s
tells 1 '0x100000000:1 ends otherwise: 0x5, 0x4\n< 3 2: stxb [r1+0], r2; 0x100000000:1 = 0x5\n> not written\n< exited at 3: r0 0x0\n> fault access 0x0 at 1\n< at 3: exit\n< -1 0x100000000:1 = 0x5; 2: stxb [r1+0], r2; from r2\n< -2 r2 = 0x5; 1: add r2, 1; from r2\n< -3 r2 = 0x4; 0: ldxb r2, [r1+0]; from 0x100000000:1\n< left 0x100000000:1 = 0x4; byte 0 of the context; at the opening\n> at 0: mov r0, 8\n> left 0x100000000:1 = 0x4; byte 0 of the context; at the opening\n' \
    diff --writes --listing -m four more-by-one.s null-too.s
tells 1 '0x300100001:1 ends otherwise: 0x0, 0xff\n< not written\n> 4 5: stb [r2+0], 255; 0x300100001:1 = 0xff\n< exited at 3: r0 0x0\n> exited at 7: r0 0x1\n< at 0: ldmapval r2, 0, 4\n< left 0x300100001:1 = 0x0; at the opening\n> at 6: mov r0, 1\n> -1 0x300100001:1 = 0xff; 5: stb [r2+0], 255\n' \
    diff --writes --maps 4x2,2x1 --listing map.s second-map.s
tells 1 "0x30000000f:1 ends otherwise: 0x1, 0x2\n< 8 8: call 2; r0 = 0x0; 0x300000000:16\n> 8 8: call 2; r0 = 0x0; 0x300000000:16\n< exited at 9: r0 0x0\n> exited at 9: r0 0x0\n$put_both" \
    diff --writes --maps 16x1 --listing -m low --other-mem high put.s
# A traced word of both, and of one alone; a byte that one context lacks; r0, and where no step wrote it.
tells 1 'word 0 ends otherwise: 0x5, 0x6\n< 2 1: call 64; r0 = 0x0; word 0 = 0x5\n> 2 1: call 64; r0 = 0x0; word 0 = 0x6\n< exited at 2: r0 0x0\n> exited at 2: r0 0x0\n< at 2: exit\n< -1 r0 = 0x0; word 0 = 0x5; 1: call 64; from r1\n< -2 r1 = 0x5; 0: mov r1, 5\n> at 2: exit\n> -1 r0 = 0x0; word 0 = 0x6; 1: call 64; from r1\n> -2 r1 = 0x6; 0: mov r1, 6\n' \
    diff --writes --listing word.s other.s
word_came='at 4: exit\n%s -1 r0 = 0x0; word 1 = 0x6; 3: call 64; from r1\n%s -2 r1 = 0x6; 2: mov r1, 6\n'
tells 1 "word 1 ends otherwise: 0x6, none\n< 4 3: call 64; r0 = 0x0; word 1 = 0x6\n> not written\n< exited at 4: r0 0x0\n> exited at 2: r0 0x0\n$(came '<' "$word_came")" diff --writes --listing words.s word.s
tells 1 "word 1 ends otherwise: none, 0x6\n< not written\n> 4 3: call 64; r0 = 0x0; word 1 = 0x6\n< exited at 2: r0 0x0\n> exited at 4: r0 0x0\n$(came '>' "$word_came")" diff --writes --listing word.s words.s
tells 1 '0x100000001:1 ends otherwise: none, 0x1\n< not written\n> 1 0: stb [r1+1], 1; 0x100000001:1 = 0x1\n< fault access 0x100000001 at 0\n> exited at 1: r0 0x0\n> at 1: exit\n> -1 0x100000001:1 = 0x1; 0: stb [r1+1], 1\n' \
    diff --writes --listing -m four --other-mem longer behind.s
tells 1 'r0 ends otherwise: 0x1, 0x2\n< 1 0: mov r0, 1; r0 = 0x1\n> 1 0: mov r0, 2; r0 = 0x2\n< exited at 1: r0 0x1\n> exited at 1: r0 0x2\n< at 1: exit\n< -1 r0 = 0x1; 0: mov r0, 1\n> at 1: exit\n> -1 r0 = 0x2; 0: mov r0, 2\n' \
    diff --writes --listing one.s two.s
listing inside.s 'callf f;exit;f: mov r0, 1;mov r6, 3;exit'
listing other-inside.s 'callf f;exit;f: mov r0, 2;mov r6, 3;exit'
tells 1 'r0 ends otherwise: 0x1, 0x2\n< 2 2: mov r0, 1; r0 = 0x1\n> 2 2: mov r0, 2; r0 = 0x2\n< exited at 1: r0 0x1\n> exited at 1: r0 0x2\n< at 3: mov r6, 3\n< -1 r0 = 0x1; 2: mov r0, 1\n> at 3: mov r6, 3\n> -1 r0 = 0x2; 2: mov r0, 2\n' \
    diff --writes --listing inside.s other-inside.s
tells 1 'r0 ends otherwise: 0x0, 0x1\n< not written\n> 1 0: mov r0, 1; r0 = 0x1\n< exited at 0: r0 0x0\n> exited at 1: r0 0x1\n< at 0: exit\n< left r0 = 0x0; at the opening\n> at 1: exit\n> -1 r0 = 0x1; 0: mov r0, 1\n' \
    diff --writes --listing end.s one.s

# Words, and maps of both.
bytes one.bin b7 00 00 00 01 00 00 00 EXIT
bytes two.bin b7 00 00 00 02 00 00 00 EXIT
tells 0 'same for 2 steps\nexited at 1: r0 0x1\n' diff one.bin one.bin
tells 1 "$one_two" diff one.bin two.bin

# FILE's run is looked at first, then the other one; nothing is written.
bytes ragged 95 00 00
head -c 65537 /dev/zero > long
refused 'refused C3: length is no multiple of 8' diff ragged one.bin
refused 'refused C3: length is no multiple of 8 (the other run)' diff one.bin ragged
refused 'refused C1: empty program (the other run)' diff one.bin /dev/null
refused 'refused C3: length is no multiple of 8' diff ragged /dev/null
refused 'refused A1 at line 2: unknown mnemonic' diff --listing bad.s one.s
refused 'refused A1 at line 2: unknown mnemonic (the other run)' diff --listing one.s bad.s
refused 'refused O1: context too long' diff -m long --other-mem four one.bin
refused 'refused O1: context too long (the other run)' diff -m four --other-mem long one.bin
refused 'refused M1: value size not 1 to 256' diff --maps 0x1 one.bin two.bin
refused 'cannot read absent' diff one.bin absent
refused 'cannot read absent' diff one.bin --other-mem absent
usage "a second program, '[OTHER]', or '--other-mem <PATH>' or '--trace <PATH>' is needed" diff one.bin
usage "the argument '[OTHER]' cannot be used with '--trace <PATH>'" diff --trace four one.bin two.bin
usage "the argument '--other-mem <PATH>' cannot be used with '--trace <PATH>'" diff --trace four --other-mem five one.bin
usage "the argument '--writes' cannot be used with '--trace <PATH>'" diff --writes --trace four one.bin
usage "the argument '[OTHER]' cannot be used with '--trace <PATH>'" diff --writes --trace four one.bin two.bin
usage "a second program, '[OTHER]', or '--other-mem <PATH>' or '--trace <PATH>' is needed" diff --writes one.bin
usage "unexpected argument '--writes' found" trace --writes one.bin
refused 'refused C3: length is no multiple of 8 (the other run)' diff --writes one.bin ragged
refused 'refused C3: length is no multiple of 8' diff --writes ragged one.bin
refused 'refused O1: context too long (the other run)' diff --writes -m four --other-mem long one.bin
usage "the argument '[OTHER]' cannot be used with '--other-mem <PATH>'" diff --other-mem four one.bin two.bin
usage "unexpected argument 'third' found" diff first second third

# Against a trace of `trace`'s own form: the same; another value, another slot; each line but the end; no line; lines behind the end; another end.
# told LINE..: the lines of the trace that is held against.
told() { printf '%s\n' "$@" > there; }
first='1 0: ldxb r2, [r1+0]; r2 = 0x4' second='2 1: jne r2, 4, L3' third='3 2: mov r0, 1; r0 = 0x1' end='exited at 3: r0 0x1'
told "$first" "$second" "$third" '4 3: exit' "$end"
tells 0 'same for 4 steps\nexited at 3: r0 0x1\n' diff --listing -m four --trace there port.s
tells 1 'step 1 is told otherwise\n< 1 0: ldxb r2, [r1+0]; r2 = 0x5\n> 1 0: ldxb r2, [r1+0]; r2 = 0x4\n' diff --listing -m five --trace there port.s
# (what asks about values changes nothing there)
tells 1 'step 1 is told otherwise\n< 1 0: ldxb r2, [r1+0]; r2 = 0x5\n> 1 0: ldxb r2, [r1+0]; r2 = 0x4\n' diff --journal 7 --lines 1 --addresses --alone --listing -m five --trace there port.s
told "$first" "$second" '3 3: exit' 'exited at 3: r0 0x0'
tells 1 'step 3 is told otherwise\n< 3 2: mov r0, 1; r0 = 0x1\n> 3 3: exit\n' diff --listing -m four --trace there port.s
told "$first" "$second"
tells 1 'step 3 is not in the trace\n< 3 2: mov r0, 1; r0 = 0x1\n' diff --listing -m four --trace there port.s
told "$first" "$second" "$third" '4 3: exit'
tells 1 'the end is not in the trace\n< exited at 3: r0 0x1\n' diff --listing -m four --trace there port.s
tells 1 'step 1 is not in the trace\n< 1 0: ldxb r2, [r1+0]; r2 = 0x4\n' diff --listing -m four --trace /dev/null port.s
told "$first" "$second" "$third" '4 3: exit' "$end" '5 4: exit' '6 5: exit'
tells 1 'the trace goes on\n< exited at 3: r0 0x1\n> 5 4: exit\n' diff --listing -m four --trace there port.s
told "$first" "$second" "$third" '4 3: exit' 'exited at 3: r0 0x2'
tells 1 'the end is told otherwise\n< exited at 3: r0 0x1\n> exited at 3: r0 0x2\n' diff --listing -m four --trace there port.s
# An end where there is a step, and a step where there is the end.
told "$first" 'fault access 0x0 at 1'
tells 1 'step 2 is told otherwise\n< 2 1: jne r2, 4, L3\n> fault access 0x0 at 1\n' diff --listing -m four --trace there port.s
told "$first" "$second" "$third" '4 3: exit' '5 4: exit'
tells 1 'the end is told otherwise\n< exited at 3: r0 0x1\n> 5 4: exit\n' diff --listing -m four --trace there port.s
# The limit is an end, too, and no status 0.
told "$first" "$second" 'step limit 2 reached at 2'
tells 1 'same for 2 steps\nstep limit 2 reached at 2\n' diff --steps 2 --listing -m four --trace there port.s
tells 1 'step 3 is told otherwise\n< 3 2: mov r0, 1; r0 = 0x1\n> step limit 2 reached at 2\n' diff --steps 3 --listing -m four --trace there port.s
told "$first" "$second" "$third"
tells 1 'the end is told otherwise\n< step limit 2 reached at 2\n> 3 2: mov r0, 1; r0 = 0x1\n' diff --steps 2 --listing -m four --trace there port.s
# Remarks, blank lines, blanks around a line, and a last line without its end; what would steer a terminal.
printf '# a trace\n\n\t%s \r\n  # and\n%s\n%s\n4 3: exit\n%s' "$first" "$second" "$third" "$end" > there
tells 0 'same for 4 steps\nexited at 3: r0 0x1\n' diff --listing -m four --trace there port.s
printf '1 0: \033[2J\n' > there
tells 1 'step 1 is told otherwise\n< 1 0: ldxb r2, [r1+0]; r2 = 0x4\n> 1 0: \\x1b[2J\n' diff --listing -m four --trace there port.s

# Against lines of registers: the same; each entry; several; numbers of both kinds; one that isn't told; more and fewer lines.
# (rows LINE..: the slot and r0 to r2; r3 to r9 are 0, and r10 stands where it does.)
rows() { for row in "$@"; do echo "$row 0 0 0 0 0 0 0 0x200000200"; done > there; }
rows '0 0 0x100000000 1' '1 0 0x100000000 4' '2 0 4294967296 0x04' '3 1 - 4'
tells 0 'same for 4 steps\nexited at 3: r0 0x1\n' diff --listing -m four --trace there port.s
here='0x100000000 0x5 0x0 0x0 0x0 0x0 0x0 0x0 0x0 0x200000200'
tells 1 "step 2 is told otherwise\n< 1 0x0 $here\n> 1 0 0x100000000 4 0 0 0 0 0 0 0 0x200000200\nr2: 0x5 here, 0x4 there; here by step 1, 0: ldxb r2, [r1+0]\n" \
    diff --listing -m five --trace there port.s
here='0x100000000 0x4 0x0 0x0 0x0 0x0 0x0 0x0 0x0 0x200000200'
rows '0 0 0x100000000 1' '1 0 0x100000000 4' '3 7 0x100000001 4'
tells 1 "step 3 is told otherwise\n< 2 0x0 $here\n> 3 7 0x100000001 4 0 0 0 0 0 0 0 0x200000200\nslot: 2 here, 3 there; here by step 2, 1: jne r2, 4, L3\nr0: 0x0 here, 0x7 there; here since the start\nr1: 0x100000000 here, 0x100000001 there; here since the start\n" \
    diff --listing -m four --trace there port.s
rows '0 0 0x100000000 1' '1 0 0x100000000 4'
tells 1 "step 3 is not in the trace\n< 2 0x0 $here\n" diff --listing -m four --trace there port.s
rows '0 0 0x100000000 1' '1 0 0x100000000 4' '2 0 4294967296 0x04' '3 1 - 4' '4 1 - 4'
tells 1 'the trace goes on\n< exited at 3: r0 0x1\n> 4 1 - 4 0 0 0 0 0 0 0 0x200000200\n' diff --listing -m four --trace there port.s
tells 1 'the trace goes on\n< step limit 2 reached at 2\n> 2 0 4294967296 0x04 0 0 0 0 0 0 0 0x200000200\n' diff --steps 2 --listing -m four --trace there port.s
rows '0 0 0x100000000 1' '1 0 0x100000000 4'
tells 1 'same for 2 steps\nstep limit 2 reached at 2\n' diff --steps 2 --listing -m four --trace there port.s
# A whole first line; at the start nothing was written.
echo '- 1 2 3 4 5 6 7 8 9 10 18446744073709551615' > there
tells 1 'step 1 is told otherwise\n< 0 0x0 0x0 0x0 0x0 0x0 0x0 0x0 0x0 0x0 0x0 0x200000200\n> - 1 2 3 4 5 6 7 8 9 10 18446744073709551615\nr0: 0x0 here, 0x1 there; here since the start\nr1: 0x0 here, 0x2 there; here since the start\nr2: 0x0 here, 0x3 there; here since the start\nr3: 0x0 here, 0x4 there; here since the start\nr4: 0x0 here, 0x5 there; here since the start\nr5: 0x0 here, 0x6 there; here since the start\nr6: 0x0 here, 0x7 there; here since the start\nr7: 0x0 here, 0x8 there; here since the start\nr8: 0x0 here, 0x9 there; here since the start\nr9: 0x0 here, 0xa there; here since the start\nr10: 0x200000200 here, 0xffffffffffffffff there\n' \
    diff --trace there one.bin
# Which step wrote a register: of the function that runs, which finds its caller's r6 to r9 in its own, and gives them back.
listing calls.s 'mov r6, 5;callf f;mov r0, r6;exit;f: mov r7, r6;mov r6, 7;exit'
# (at LINE: a line at which all but the slot and r6 is left out; and after how many that tell nothing)
at() { { yes - | head -n "$1" | sed 's/-/- - - - - - - - - - - -/'; echo "$2 - - - - - - $3 - - - -"; } > there; }
at 2 4 9
tells 1 'step 3 is told otherwise\n< 4 0x0 0x0 0x0 0x0 0x0 0x0 0x5 0x0 0x0 0x0 0x200000600\n> 4 - - - - - - 9 - - - -\nr6: 0x5 here, 0x9 there; here by step 1, 0: mov r6, 5\n' diff --listing --trace there calls.s
at 4 6 9
tells 1 'step 5 is told otherwise\n< 6 0x0 0x0 0x0 0x0 0x0 0x0 0x7 0x5 0x0 0x0 0x200000600\n> 6 - - - - - - 9 - - - -\nr6: 0x7 here, 0x9 there; here by step 4, 5: mov r6, 7\n' diff --listing --trace there calls.s
at 5 - 9
tells 1 'step 6 is told otherwise\n< 2 0x0 0x0 0x0 0x0 0x0 0x0 0x5 0x0 0x0 0x0 0x200000200\n> - - - - - - - 9 - - - -\nr6: 0x5 here, 0x9 there; here by step 1, 0: mov r6, 5\n' diff --listing --trace there calls.s
# Fetches, helpers that answer in r0 and trace: r0 of each.
listing r0.s 'mov r3, 1;atomic_fetch_add64 [r10-8], r3;call 64;exit'
echo '- - - - - - - - - - - -' > there; echo '- - - - - - - - - - - -' >> there; echo '2 - - - 9 - - - - - - -' >> there
tells 1 'step 3 is told otherwise\n< 2 0x0 0x0 0x0 0x0 0x0 0x0 0x0 0x0 0x0 0x0 0x200000200\n> 2 - - - 9 - - - - - - -\nr3: 0x0 here, 0x9 there; here by step 2, 1: atomic_fetch_add64 [r10-8], r3\n' diff --listing --trace there r0.s
echo '- - - - - - - - - - - -' > there; echo '- - - - - - - - - - - -' >> there; echo '- - - - - - - - - - - -' >> there; echo '3 9 - - - - - - - - - -' >> there
tells 1 'step 4 is told otherwise\n< 3 0x0 0x0 0x0 0x0 0x0 0x0 0x0 0x0 0x0 0x0 0x200000200\n> 3 9 - - - - - - - - - -\nr0: 0x0 here, 0x9 there; here by step 3, 2: call 64\n' diff --listing --trace there r0.s

# What is no trace, by its first line; behind FILE's machine.
registers='0 0 0 0 0 0 0 0 0 0 0 0'
while read -r line; do
    told '# so' "$line"
    refused 'refused X2 at line 2: neither a line of trace nor a slot and eleven registers' diff --trace there one.bin
    told "$registers" "$line"
    refused 'refused X3 at line 2: not of the form of the first line' diff --trace there one.bin
    told "$first" '' "$line"
    refused 'refused X3 at line 3: not of the form of the first line' diff --trace there one.bin
done << 'LINES'
0
0 0 0 0 0 0 0 0 0 0 0
0 0 0 0 0 0 0 0 0 0 0 0 0
0 0 0 0 0 0 0 0 0 0 0 -1
0 0 0 0 0 0 0 0 0 0 0 0x
0 0 0 0 0 0 0 0 0 0 0 18446744073709551616
0 0 0 0 0 0 0 0 0 0 0 r0
0 0 0 0 0 0 0 0 0 0 0 --
1 0 mov r0, 1
k 0: exit
exited
mov r0, 1
LINES
told "$first" "$registers"
refused 'refused X3 at line 2: not of the form of the first line' diff --trace there one.bin
told "$registers" "$first"
refused 'refused X3 at line 2: not of the form of the first line' diff --trace there one.bin
printf '%1024s\n' "$first" > there
tells 1 'step 1 is told otherwise\n< 1 0: mov r0, 1; r0 = 0x1\n> 1 0: ldxb r2, [r1+0]; r2 = 0x4\n' diff --trace there one.bin
printf '%s\n%1025s\n0\n' "$first" "$second" > there
refused 'refused X1 at line 2: more than 1024 bytes' diff --trace there one.bin
printf '#%1024s\n0\n' '' > there
refused 'refused X1 at line 1: more than 1024 bytes' diff --trace there one.bin
refused 'refused C3: length is no multiple of 8' diff --trace there ragged
refused 'cannot read absent' diff --trace absent one.bin
told "$first"
refused 'refused O1: context too long' diff -m long --trace there one.bin

# Pairs at random.
if has python3 'where two runs part, of pairs at random'; then
    python3 "$top/tests/trials/diff.py" "$program" 200 > trial 2> found/err
    echo $? > found/status
    { grep -a '^FAILED' trial; sed -n 's/^[0-9]* pairs: \([0-9]* failed\)$/\1/p' trial; } > found/out
    check 'where two runs part, of pairs at random' 0 '0 failed\n' ''
    python3 "$top/tests/trials/writes.py" "$program" 300 > trial 2> found/err
    echo $? > found/status
    { grep -a '^FAILED' trial; sed -n 's/^[0-9]* pairs: \([0-9]* failed\)$/\1/p' trial; } > found/out
    check 'what two runs leave, of pairs at random' 0 '0 failed\n' ''
    if has_clang 'what two builds of one source leave'; then
        python3 "$top/tests/trials/writes.py" "$program" --builds "$parts/c" > trial 2> found/err
        echo $? > found/status
        { grep -a '^FAILED' trial; sed -n 's/^[0-9]* pairs of builds of [0-9]* programs: \([0-9]* failed\)$/\1/p' trial; } > found/out
        check 'what two builds of one source leave' 0 '0 failed\n' ''
    fi
fi

# Two objects, each with its own maps and names: a build that stores another value, one with a map more, which is the last, and one whose maps stand in another
# order. How many steps there are is the compiler's own matter.
find_compilers 'diff of two objects'

# tells_maps STATUS LINES ARGUMENT..: `diff` has this status, and among its lines, without their numbers of steps and slots, are these and no others that tell of maps.
tells_maps() {
    echo "$1" > wanted/status
    printf '%b' "$2" > wanted/out
    : > wanted/err
    shift 2
    : > script
    run diff "$@"
    # (without places in C)
    sed 's/; in entry ([a-z]*\.c:[0-9]*)$//' found/out > bare
    grep -e ' ends otherwise: ' -e '^[<>].* in [a-z]*\[[0-9]\]$' -e '^[<>] not written$' -e '^same ' bare | sed 's/; [0-9]*: \(call 2\|stxdw\)[^;]*;.* in / in /; s/^same for [0-9]* steps$/same steps/; s/^\([<>]\) -1 \(r0 = 0x0; \)*/\1 /' > told
    mv told found/out
    compare "bpfdb diff $*"
}

# built SOURCE NAME OPTION..: the object of tests/program/diff/SOURCE.c that these options make.
built() {
    source=$1
    name=$2
    shift 2
    "$compiler" -g -O2 -target bpf "$@" -c "$parts/diff/$source.c" -o "$name.o" 2> found/err || complain "$compiler: $name.o: $(cat found/err)"
}
for compiler in $compilers; do
    built maps old
    built maps new -DSTORED=9
    built maps more -DMORE
    built maps unwritten -DUNWRITTEN
    built maps turned -DTURNED
    tells_maps 0 'same steps\n' old.o old.o
    tells_maps 0 'same writes\n' --writes old.o old.o
    tells_maps 1 '0x300100000:1 ends otherwise: 0x7, 0x9\n< 0x300100000:8 = 0x7 in late[0]\n> 0x300100000:8 = 0x9 in late[0]\n' --writes old.o new.o
    tells_maps 1 '0x300200000:1 ends otherwise: none, 0x8\n< not written\n> 0x300200000:8 = 0x8 in other[0]\n' --writes old.o more.o
    tells_maps 1 '0x300200000:1 ends otherwise: 0x8, none\n> not written\n< 0x300200000:8 = 0x8 in other[0]\n' --writes more.o old.o
    for options in '' --writes '--writes --alone' --json; do
        # (the options are without blanks)
        refused 'refused F3: map 0 is another one in OTHER' diff $options old.o turned.o
        refused 'refused F3: map 0 is another one in OTHER' diff $options turned.o more.o
    done
    # A map that one lacks, and the other doesn't write to, is nothing that it leaves.
    tells_maps 0 'same writes\n' --writes old.o unwritten.o
    tells_maps 0 'same writes\n' --writes unwritten.o old.o
    # Data of another size, and the bytes that one of them lacks.
    built data few
    built data many -DMANY=8 -DLAST=9
    built data wide -DMANY=8
    tells_maps 1 '0x300000038:1 ends otherwise: none, 0x9\n< not written\n> 0x300000038:8 = 0x9 in counted[7]\n' --writes few.o many.o
    tells_maps 1 '0x300000038:1 ends otherwise: 0x9, none\n> not written\n< 0x300000038:8 = 0x9 in counted[7]\n' --writes many.o few.o
    tells_maps 0 'same writes\n' --writes few.o wide.o
    tells_maps 0 'same writes\n' --writes wide.o few.o
    tells_maps 0 'same steps\n' few.o wide.o
    # What is wrong with OTHER is told as OTHER's.
    head -c 100 old.o > cut.o
    refused 'refused E6: malformed section table (the other run)' diff old.o cut.o
    refused 'refused E6: malformed section table' diff cut.o old.o
done
