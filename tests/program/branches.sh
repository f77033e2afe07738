# The branches that decided that a value came about and that a program came to where it stands, and those that kept a value (`origin --branches`): each kind of answer, values through
# copies and calls, loops, recursion, edits, what the journal dropped, and answers that are cut. What is wanted was worked out by hand from the jumps, calls and returns of each listing. Then programs at
# random, held against a model (tests/trials/branches.py).

# Nested conditions, the both sides of one, and early exits.
listing nest.s 'jeq r1, 0, none;jeq r2, 0, none;mov r0, 1;jgt r2, 5, big;mov r0, 2;exit;big: mov r0, 3;exit;none: exit'
printf '123' > three
printf '123456' > six
start='; at the opening\n'
tells 0 "exited at 8: r0 0x0\nleft r0 = 0x0$start-2 0: jeq r1, 0, L8; r1 = 0x0; jumped to 8\nno other branch$start" origin --branches --listing nest.s
tells 0 "exited at 5: r0 0x2\n-2 r0 = 0x2; 4: mov r0, 2\n-3 3: jgt r2, 5, L6; r2 = 0x3; went on\n-5 1: jeq r2, 0, L8; r2 = 0x3; went on\n-6 0: jeq r1, 0, L8; r1 = 0x100000000; went on\nno other branch$start" \
    origin --branches -m three --listing nest.s
tells 0 "exited at 7: r0 0x3\n-2 r0 = 0x3; 6: mov r0, 3\n-3 3: jgt r2, 5, L6; r2 = 0x6; jumped to 6\n-5 1: jeq r2, 0, L8; r2 = 0x6; went on\n-6 0: jeq r1, 0, L8; r1 = 0x100000000; went on\nno other branch$start" \
    origin --branches -m six --listing nest.s
tells 0 "at 3: jgt r2, 5, L6\nleft r2 = 0x6$start-2 1: jeq r2, 0, L8; r2 = 0x6; went on\n-3 0: jeq r1, 0, L8; r1 = 0x100000000; went on\nno other branch$start" \
    origin --branches -m six --steps 3 --listing nest.s r2

# Where two ways meet again nothing was decided of the slot; a value that was made on one of them was.
listing join.s 'jeq r2, 0, else;mov r0, 1;ja join;else: mov r0, 2;join: exit'
tells 0 "exited at 4: r0 0x2\n-2 r0 = 0x2; 3: mov r0, 2\n-3 0: jeq r2, 0, L3; r2 = 0x0; jumped to 3\nno other branch$start" origin --branches --listing join.s
tells 0 "exited at 4: r0 0x1\n-3 r0 = 0x1; 1: mov r0, 1\n-4 0: jeq r2, 0, L3; r2 = 0x6; went on\nno other branch$start" origin --branches -m six --listing join.s
tells 0 "at 2: ja L4\n-1 r0 = 0x1; 1: mov r0, 1\n-2 0: jeq r2, 0, L3; r2 = 0x6; went on\nno other branch$start" origin --branches -m six --steps 2 --listing join.s
tells 0 "at 3: mov r0, 2\nleft r0 = 0x0$start-1 0: jeq r2, 0, L3; r2 = 0x0; jumped to 3\nno other branch$start" origin --branches --steps 1 --listing join.s
listing same.s 'jeq r0, 0, on;on: exit'
tells 0 "exited at 1: r0 0x0\nleft r0 = 0x0${start}no other branch$start" origin --branches --listing same.s

# A branch that is told, turned: the other way wasn't sure, and here another branch leads from it to the same slot.
listing either.s 'jeq r1, 0, out;jeq r2, 0, out;exit;out: exit'
tells 0 "exited at 3: r0 0x0\nleft r0 = 0x0$start-2 0: jeq r1, 0, L3; r1 = 0x0; jumped to 3\nno other branch$start" origin --branches --listing either.s
printf 'set reg r1 1\ncontinue\n' > turned
tells 0 "exited at 3: r0 0x0\nleft r0 = 0x0$start-2 1: jeq r2, 0, L3; r2 = 0x0; jumped to 3\n-3 0: jeq r1, 0, L3; r1 = 0x1; went on\nno other branch$start" \
    origin --branches --script turned --listing either.s

# Values: through copies and arithmetic, one that a branch went on to change, two that two branches made, addresses that are followed, and a function that
# finds it in a register of its caller. What no line tells is not asked about.
listing copied.s 'jeq r2, 0, else;mov r3, 1;ja join;else: mov r3, 2;join: stxdw [r10-8], r3;ldxdw r0, [r10-8];lsh r0, 4;exit'
tells 0 "exited at 7: r0 0x10\n-2 r0 = 0x10; 6: lsh r0, 4; from r0\n-3 r0 = 0x1; 5: ldxdw r0, [r10-8]; from 0x2000001f8:8\n-4 0x2000001f8:8 = 0x1; 4: stxdw [r10-8], r3; from r3\n-6 r3 = 0x1; 1: mov r3, 1\n-7 0: jeq r2, 0, L3; r2 = 0x6; went on\nno other branch$start" \
    origin --branches -m six --listing copied.s
listing added.s 'mov r0, 1;jeq r2, 0, on;add r0, 5;on: exit'
tells 0 "exited at 3: r0 0x6\n-2 r0 = 0x6; 2: add r0, 5; from r0\n-4 r0 = 0x1; 0: mov r0, 1\n-3 1: jeq r2, 0, L3; r2 = 0x6; went on\nno other branch$start" \
    origin --branches -m six --listing added.s
tells 0 "exited at 3: r0 0x1\n-3 r0 = 0x1; 0: mov r0, 1\nkept: -2 1: jeq r2, 0, L3; r2 = 0x0; jumped to 3\nno other branch$start" origin --branches --listing added.s
listing two.s 'mov r3, 1;mov r4, 1;jeq r2, 0, a;mov r3, 2;a: jeq r1, 0, b;mov r4, 2;b: mov r0, r3;add r0, r4;exit'
sum='exited at 8: r0 0x4\n-2 r0 = 0x4; 7: add r0, r4; from r0 r4\n'
tells 0 "$sum-3 r0 = 0x2; 6: mov r0, r3; from r3\n-4 r4 = 0x2; 5: mov r4, 2\n-6 r3 = 0x2; 3: mov r3, 2\n-5 4: jeq r1, 0, L6; r1 = 0x100000000; went on\n-7 2: jeq r2, 0, L4; r2 = 0x6; went on\nno other branch$start" \
    origin --branches -m six --listing two.s
tells 1 "${sum}cut: there are more lines\nno other branch$start" origin --branches --lines 1 -m six --listing two.s
listing where.s 'mov r4, r10;jeq r2, 0, on;add r4, -8;on: ldxb r0, [r4-8];exit'
tells 0 "exited at 4: r0 0x0\n-2 r0 = 0x0; 3: ldxb r0, [r4-8]; from 0x2000001f0:1\nleft 0x2000001f0:1 = 0x0; not written since the call\nno other branch$start" \
    origin --branches -m six --listing where.s
tells 0 "exited at 4: r0 0x0\n-2 r0 = 0x0; 3: ldxb r0, [r4-8]; from 0x2000001f0:1 r4\n-3 r4 = 0x2000001f8; 2: add r4, -8; from r4\n-5 r4 = 0x200000200; 0: mov r4, r10\nleft 0x2000001f0:1 = 0x0; not written since the call\n-4 1: jeq r2, 0, L3; r2 = 0x6; went on\nno other branch$start" \
    origin --branches --addresses -m six --listing where.s
listing handed.s 'mov r6, 1;jeq r2, 0, on;mov r6, 2;on: callf f;exit;f: mov r0, r6;exit'
tells 0 "exited at 4: r0 0x2\n-3 r0 = 0x2; 5: mov r0, r6; from r6 at depth 1\n-5 r6 = 0x2; 2: mov r6, 2\n-6 1: jeq r2, 0, L3; r2 = 0x6; went on\nno other branch$start" \
    origin --branches -m six --listing handed.s

# Loops: behind one nothing was decided, in one each turn was, by the turn before.
listing until.s 'loop: add r0, 1;jlt r0, 3, loop;exit'
added='-1 r0 = 0x3; 0: add r0, 1; from r0\n-3 r0 = 0x2; 0: add r0, 1; from r0\n-5 r0 = 0x1; 0: add r0, 1; from r0\nleft r0 = 0x0; at the opening\n'
tells 0 "at 1: jlt r0, 3, L0\n$added-2 1: jlt r0, 3, L0; r0 = 0x2; jumped to 0\n-4 1: jlt r0, 3, L0; r0 = 0x1; jumped to 0\nno other branch$start" \
    origin --branches --steps 5 --listing until.s
tells 0 "exited at 2: r0 0x3\nleft r1 = 0x0${start}no other branch$start" origin --branches --listing until.s r1
listing while.s 'while: jge r0, 2, out;add r0, 1;ja while;out: exit'
tells 0 "exited at 3: r0 0x2\nleft r1 = 0x0${start}no other branch$start" origin --branches --listing while.s r1
tells 0 "at 2: ja L0\nleft r1 = 0x0$start-2 0: jge r0, 2, L3; r0 = 0x1; went on\n-5 0: jge r0, 2, L3; r0 = 0x0; went on\nno other branch$start" \
    origin --branches --steps 5 --listing while.s r1
listing find.s 'loop: add r0, 1;jeq r0, 2, found;jlt r0, 5, loop;mov r0, 0;exit;found: mov r1, 1;exit'
tells 0 "exited at 6: r0 0x2\n-2 r1 = 0x1; 5: mov r1, 1\n-3 1: jeq r0, 2, L5; r0 = 0x2; jumped to 5\n-5 2: jlt r0, 5, L0; r0 = 0x1; jumped to 0\n-6 1: jeq r0, 2, L5; r0 = 0x1; went on\nno other branch$start" \
    origin --branches --listing find.s r1
# (A loop that never ends is no way past it.)
listing ever.s 'jeq r1, 0, on;ever: ja ever;on: exit'
tells 0 "exited at 2: r0 0x0\nleft r0 = 0x0$start-2 0: jeq r1, 0, L2; r1 = 0x0; jumped to 2\nno other branch$start" origin --branches --listing ever.s

# What kept a value: the branch that skipped the instruction that would have written it before it was read, at -O0 and -O2, each of two in a row, and of a
# chain of them the one that failed; a value at the opening, two values that one branch kept, and one that decided as well (nest.s).
listing verdict.s 'mov r0, 2;jne r1, 7, out;jne r2, 7, out;mov r0, 1;out: exit'
tells 0 "exited at 4: r0 0x2\n-3 r0 = 0x2; 0: mov r0, 2\nkept: -2 1: jne r1, 7, L4; r1 = 0x0; jumped to 4\nno other branch$start" origin --branches --listing verdict.s
printf 'set reg r1 7\ncontinue\n' > seventh
tells 0 "exited at 4: r0 0x2\n-4 r0 = 0x2; 0: mov r0, 2\nkept: -2 2: jne r2, 7, L4; r2 = 0x0; jumped to 4\nno other branch$start" \
    origin --branches --script seventh --listing verdict.s
printf 'set reg r1 7\nset reg r2 7\ncontinue\n' > both
tells 0 "exited at 4: r0 0x1\n-2 r0 = 0x1; 3: mov r0, 1\n-3 2: jne r2, 7, L4; r2 = 0x7; went on\n-4 1: jne r1, 7, L4; r1 = 0x7; went on\nno other branch$start" \
    origin --branches --script both --listing verdict.s
listing row.s 'mov r0, 1;jeq r1, 0, a;mov r0, 2;a: jeq r2, 0, b;mov r0, 3;b: exit'
row='exited at 5: r0 0x1\n-4 r0 = 0x1; 0: mov r0, 1\nkept: -2 3: jeq r2, 0, L5; r2 = 0x0; jumped to 5\n'
tells 0 "${row}kept: -3 1: jeq r1, 0, L3; r1 = 0x0; jumped to 3\nno other branch$start" origin --branches --listing row.s
tells 1 "${row}cut: there are more lines\n" origin --branches --lines 1 --listing row.s
listing opening.s 'jeq r1, 0, out;add r0, 0;out: jeq r2, 0, on;mov r2, 1;on: exit'
tells 0 "exited at 4: r0 0x0\nleft r0 = 0x0${start}kept: -3 0: jeq r1, 0, L2; r1 = 0x0; jumped to 2\nno other branch$start" origin --branches --listing opening.s
listing pair.s 'mov r3, 1;mov r4, 2;jeq r1, 0, on;mov r3, 5;mov r4, 5;on: add r3, r4;mov r0, r3;exit'
tells 0 "exited at 7: r0 0x3\n-2 r0 = 0x3; 6: mov r0, r3; from r3\n-3 r3 = 0x3; 5: add r3, r4; from r3 r4\n-5 r4 = 0x2; 1: mov r4, 2\n-6 r3 = 0x1; 0: mov r3, 1\nkept: -4 2: jeq r1, 0, L5; r1 = 0x0; jumped to 5\nno other branch$start" \
    origin --branches --listing pair.s
# Bytes of the frame, of which some would have been written; not by another register, nor by a function that was called, of its own frame.
listing stack.s 'stdw [r10-8], 1;jeq r1, 0, on;stw [r10-4], 1;on: ldxdw r0, [r10-8];exit'
frame='r0 = 0x1; 3: ldxdw r0, [r10-8]; from 0x2000001f8:8\n'
tells 0 "exited at 4: r0 0x1\n-2 ${frame}-4 0x2000001f8:8 = 0x1; 0: stdw [r10-8], 1\nkept: -3 1: jeq r1, 0, L3; r1 = 0x0; jumped to 3\nno other branch$start" \
    origin --branches --listing stack.s
listing beside.s 'stdw [r10-8], 1;jeq r1, 0, on;stw [r10-12], 1;on: ldxdw r0, [r10-8];exit'
tells 0 "exited at 4: r0 0x1\n-2 ${frame}-4 0x2000001f8:8 = 0x1; 0: stdw [r10-8], 1\nno other branch$start" origin --branches --listing beside.s
listing other.s 'stdw [r10-8], 1;jeq r1, 0, on;stw [r2-4], 1;on: ldxdw r0, [r10-8];exit'
tells 0 "exited at 4: r0 0x1\n-2 ${frame}-4 0x2000001f8:8 = 0x1; 0: stdw [r10-8], 1\nno other branch$start" origin --branches --listing other.s
listing inner.s 'stdw [r10-8], 1;callf f;ja on;on: ldxdw r0, [r10-8];exit;f: jeq r1, 0, out;stdw [r10-8], 2;out: exit'
tells 0 "exited at 4: r0 0x1\n-2 ${frame}-7 0x2000001f8:8 = 0x1; 0: stdw [r10-8], 1\nno other branch$start" origin --branches --listing inner.s
# In a function that returned: its verdict, an edit in it, r0 of its caller, not one of its own registers; and what is handed to a function.
listing returned.s 'callf f;exit;f: mov r0, 5;jeq r1, 0, out;mov r0, 6;out: exit'
tells 0 "exited at 1: r0 0x5\n-4 r0 = 0x5; 2: mov r0, 5\nkept: -3 3: jeq r1, 0, L5; r1 = 0x0; jumped to 5\nno other branch$start" origin --branches --listing returned.s
printf 'stepi 2\nset pc 5\ncontinue\n' > skipped
tells 0 "exited at 1: r0 0x5\n-4 r0 = 0x5; 2: mov r0, 5\nkept: -3 edit; then at 5\nno other branch$start" origin --branches --script skipped --listing returned.s
listing shared.s 'mov r0, 1;callf f;exit;f: jeq r1, 0, out;mov r0, 2;out: exit'
tells 0 "exited at 2: r0 0x1\n-5 r0 = 0x1; 0: mov r0, 1\nkept: -3 3: jeq r1, 0, L5; r1 = 0x0; jumped to 5\nno other branch$start" origin --branches --listing shared.s
listing own.s 'mov r6, 1;callf f;mov r0, r6;exit;f: jeq r1, 0, out;mov r6, 2;out: exit'
tells 0 "exited at 3: r0 0x1\n-2 r0 = 0x1; 2: mov r0, r6; from r6\n-6 r6 = 0x1; 0: mov r6, 1\nno other branch$start" origin --branches --listing own.s
listing given.s 'mov r6, 1;jeq r1, 0, on;mov r6, 2;on: callf f;exit;f: mov r0, r6;exit'
tells 0 "exited at 4: r0 0x1\n-3 r0 = 0x1; 5: mov r0, r6; from r6 at depth 1\n-6 r6 = 0x1; 0: mov r6, 1\nkept: -5 1: jeq r1, 0, L3; r1 = 0x0; jumped to 3\nno other branch$start" \
    origin --branches --listing given.s
# Loops: the branch that left one kept the value from its next turn, which would have read it itself; each of its turns may have kept it.
listing turns.s 'loop: mov r3, 0;jeq r2, 0, use;mov r3, 1;use: mov r0, r3;add r1, 1;jlt r1, 2, loop;exit'
tells 0 "exited at 6: r0 0x0\n-4 r0 = 0x0; 3: mov r0, r3; from r3\n-6 r3 = 0x0; 0: mov r3, 0\nkept: -2 5: jlt r1, 2, L0; r1 = 0x2; went on\nkept: -5 1: jeq r2, 0, L3; r2 = 0x0; jumped to 3\n-7 5: jlt r1, 2, L0; r1 = 0x1; jumped to 0\nno other branch$start" \
    origin --branches --listing turns.s
listing search.s 'loop: add r1, 1;jeq r1, 7, found;jlt r1, 2, loop;ja out;found: mov r0, 1;out: exit'
tells 0 "exited at 5: r0 0x0\nleft r0 = 0x0${start}kept: -3 2: jlt r1, 2, L0; r1 = 0x2; went on\nkept: -4 1: jeq r1, 7, L4; r1 = 0x2; went on\nkept: -7 1: jeq r1, 7, L4; r1 = 0x1; went on\nno other branch$start" \
    origin --branches --listing search.s
tells 0 "exited at 2: r0 0x3\n-3 r0 = 0x3; 0: add r0, 1; from r0\n-5 r0 = 0x2; 0: add r0, 1; from r0\n-7 r0 = 0x1; 0: add r0, 1; from r0\nleft r0 = 0x0${start}kept: -2 1: jlt r0, 3, L0; r0 = 0x3; went on\n-4 1: jlt r0, 3, L0; r0 = 0x2; jumped to 0\n-6 1: jlt r0, 3, L0; r0 = 0x1; jumped to 0\nno other branch$start" \
    origin --branches --listing until.s

# Calls: what a function decides doesn't count for its caller; in it the branches of its caller follow. Recursion; seven calls deep.
listing calls.s 'jeq r1, 0, skip;exit;skip: callf f;exit;f: jeq r0, 0, in;exit;in: mov r0, 7;exit'
tells 0 "exited at 3: r0 0x7\n-3 r0 = 0x7; 6: mov r0, 7\n-4 4: jeq r0, 0, L6; r0 = 0x0; jumped to 6\n-6 0: jeq r1, 0, L2; r1 = 0x0; jumped to 2\nno other branch$start" origin --branches --listing calls.s
tells 0 "at 7: exit\n-1 r0 = 0x7; 6: mov r0, 7\n-2 4: jeq r0, 0, L6; r0 = 0x0; jumped to 6\n-4 0: jeq r1, 0, L2; r1 = 0x0; jumped to 2\nno other branch$start" \
    origin --branches --steps 4 --listing calls.s
tells 0 "at 4: jeq r0, 0, L6\nleft r0 = 0x0$start-2 0: jeq r1, 0, L2; r1 = 0x0; jumped to 2\nno other branch$start" origin --branches --steps 2 --listing calls.s
listing back.s 'f: jeq r0, 0, deeper;exit;deeper: callf f;mov r0, 1;exit'
turn='0: jeq r0, 0, L2; r0 = 0x0; jumped to 2\n'
tells 0 "at 0: jeq r0, 0, L2\nleft r0 = 0x0$start-2 $turn-4 ${turn}no other branch$start" origin --branches --steps 4 --listing back.s
listing seven.s 'callf a;exit;a: callf b;exit;b: callf c;exit;c: callf d;exit;d: callf e;exit;e: callf f;exit;f: callf g;exit;g: jeq r0, 0, in;exit;in: mov r0, 7;exit'
tells 0 "exited at 1: r0 0x7\n-9 r0 = 0x7; 16: mov r0, 7\n-10 14: jeq r0, 0, L16; r0 = 0x0; jumped to 16\nno other branch$start" origin --branches --listing seven.s

# Scripts: an edit that led elsewhere, others, what was taken back, and the move that an answer told. What the journal dropped.
listing plain.s 'mov r0, 1;mov r0, 2;exit'
printf 'stepi\nset pc 2\n' > edited
tells 0 "at 2: exit\n-2 r0 = 0x1; 0: mov r0, 1\n-1 edit; then at 2\nno other branch$start" origin --branches --script edited --listing plain.s
printf 'stepi\nset pc 1\nset reg r0 7\n' > others
tells 0 "at 1: mov r0, 2\n-1 r0 = 0x7; edit\nno other branch$start" origin --branches --script others --listing plain.s
printf 'stepi\nset pc 2\nundo\n' > undone
tells 0 "at 1: mov r0, 2\n-1 r0 = 0x1; 0: mov r0, 1\nno other branch$start" origin --branches --script undone --listing plain.s
printf 'continue\nreverse-stepi 3\n' > told
tells 0 "at 6: mov r0, 7\nleft r0 = 0x0$start-1 4: jeq r0, 0, L6; r0 = 0x0; jumped to 6\n-3 0: jeq r1, 0, L2; r1 = 0x0; jumped to 2\nno other branch$start" \
    origin --branches --script told --listing calls.s
tells 0 "at 0: mov r0, 1\nleft r0 = 0x0${start}no other branch$start" origin --branches --script /dev/null --listing plain.s
listing late.s 'jeq r0, 0, l;mov r0, 1;exit;l: ja l'
tells 0 "at 3: ja L3\nleft r0 = 0x0$start-1000 0: jeq r0, 0, L3; r0 = 0x0; jumped to 3\nno other branch$start" origin --branches --steps 1000 --listing late.s
tells 0 'at 3: ja L3\nleft r0 = 0x0; before the kept history\nno other branch; before the kept history\n' \
    origin --branches --steps 1000 --journal 1024 --listing late.s

# Answers that are cut: each part has its lines.
tells 1 "at 1: jlt r0, 3, L0\n-1 r0 = 0x3; 0: add r0, 1; from r0\ncut: there are more lines\n-2 1: jlt r0, 3, L0; r0 = 0x2; jumped to 0\ncut: there are more lines\n" \
    origin --branches --lines 1 --steps 5 --listing until.s
tells 1 "at 1: jlt r0, 3, L0\nleft r1 = 0x0$start-2 1: jlt r0, 3, L0; r0 = 0x2; jumped to 0\ncut: there are more lines\n" \
    origin --branches --lines 1 --steps 5 --listing until.s r1
tells 0 "at 1: jlt r0, 3, L0\nleft r1 = 0x0$start-2 1: jlt r0, 3, L0; r0 = 0x2; jumped to 0\n-4 1: jlt r0, 3, L0; r0 = 0x1; jumped to 0\nno other branch$start" \
    origin --branches --lines 2 --steps 5 --listing until.s r1

# What a jump compared, as `trace --branches` tells it: r10 on either side, and a register of a function that was called.
listing ends.s 'mov r4, r10;jeq r4, r10, out;mov r0, 1;out: exit'
ends='1: jeq r4, r10, L3; r4 = 0x200000200; r10 = 0x200000200; jumped'
tells 0 "2 $ends\nexited at 3: r0 0x0\n" trace --branches --listing ends.s
tells 0 "exited at 3: r0 0x0\nleft r0 = 0x0${start}kept: -2 $ends to 3\nno other branch$start" origin --branches --listing ends.s
listing ends.s 'callf f;exit;f: mov r6, 1;jgt r10, r6, on;exit;on: mov r0, 2;exit'
ends='3: jgt r10, r6, L5; r10 = 0x200000600; r6 = 0x1; jumped'
tells 0 "3 $ends\nexited at 1: r0 0x2\n" trace --branches --listing ends.s
tells 0 "exited at 1: r0 0x2\n-3 r0 = 0x2; 5: mov r0, 2\n-4 $ends to 5\nno other branch$start" origin --branches --listing ends.s

# What is asked about is refused as without it.
refused 'refused V1: neither r0 to r9 nor ADDRESS:COUNT' origin --branches --listing plain.s r10

# Programs at random.
if has python3 'which branches of programs at random decided'; then
    python3 "$top/tests/trials/branches.py" "$program" 200 > trial 2> found/err
    echo $? > found/status
    { grep -a '^FAILED' trial; sed -n 's/^[0-9]* answers.*: \([0-9]* failed\)$/\1/p' trial; } > found/out
    check 'which branches of programs at random decided' 0 '0 failed\n' ''
fi
