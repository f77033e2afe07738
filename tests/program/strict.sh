# Strict runs: reads of the stack where nothing was written since the call. What is wanted was worked out by hand: frame 0 has the addresses from 0x200000000
# to 0x2000001ff, frame 1 those from 0x200000400 to 0x2000005ff. Then programs at random, held against a model over their traces (tests/trials/strict.py).

# unread SLOT ADDRESS LISTING: a strict run of the listing stops before the read of this byte at this slot; and one that isn't strict doesn't.
unread() {
    listing p.s "$3"
    stopped "read of 0x$2 at $1: not written since the call" run --strict --maps 16x2 --listing p.s
    result '0x0\n' run --maps 16x2 --listing p.s
}

# reads LISTING: a strict run of the listing ends as one that isn't.
reads() {
    listing p.s "$1"
    result '0x0\n' run --strict --maps 16x2 --listing p.s
}

# Each width, with each byte written or one of them not: the first one that wasn't is told.
reads 'stdw [r10-8], 0;ldxb r0, [r10-8];ldxh r0, [r10-8];ldxw r0, [r10-4];ldxdw r0, [r10-8];exit'
unread 0 2000001ff 'ldxb r0, [r10-1];exit'
unread 1 2000001fd 'stb [r10-4], 0;ldxh r0, [r10-4];exit'
unread 1 2000001fc 'stw [r10-8], 0;ldxdw r0, [r10-8];exit'
unread 2 2000001fb 'stw [r10-4], 0;stw [r10-9], 0;ldxdw r0, [r10-8];exit'
unread 2 2000001ff 'stdw [r10-16], 0;stw [r10-8], 0;ldxb r0, [r10-1];exit'
reads 'stb [r10-4], 0;stb [r10-3], 0;sth [r10-2], 0;ldxw r0, [r10-4];exit'
unread 3 2000001fd 'stb [r10-4], 0;stb [r10-2], 0;stb [r10-1], 0;ldxw r0, [r10-4];exit'
unread 0 200000000 'ldxb r0, [r10-512];exit'
reads 'stb [r10-512], 0;stb [r10-1], 0;ldxb r0, [r10-512];ldxb r0, [r10-1];exit'
# A load that extends the sign; a value that is loaded and not used.
unread 0 2000001fe 'ldxsh r1, [r10-2];exit'
unread 0 2000001f8 'ldxsw r1, [r10-8];exit'
reads 'stb [r10-1], 0;ldxsb r1, [r10-1];exit'

# In a slot above 255.
many=$(yes 'mov r0, 0;' | head -n 300 | tr -d '\n')
unread 300 2000001ff "${many}ldxb r0, [r10-1];exit"

# Atomic operations read, those that fetch nothing, too, and then write.
unread 0 2000001f8 'atomic_add64 [r10-8], r0;exit'
unread 0 2000001f8 'atomic_xchg64 [r10-8], r0;exit'
unread 1 2000001fc 'stw [r10-8], 0;atomic_fetch_or64 [r10-8], r0;exit'
unread 0 2000001fc 'atomic_cmpxchg32 [r10-4], r0;exit'
reads 'stdw [r10-8], 0;atomic_xchg64 [r10-8], r0;atomic_add32 [r10-4], r0;ldxdw r0, [r10-8];exit'

# A helper's key, and the value that an update writes. What isn't updated isn't read, and a token that is no map's is told as a fault.
unread 4 2000001fc 'ldmap r1, 0;mov r2, r10;add r2, -4;call 1;mov r0, 0;exit'
unread 6 2000001ff 'stb [r10-4], 0;sth [r10-3], 0;ldmap r1, 0;mov r2, r10;add r2, -4;call 1;mov r0, 0;exit'
reads 'stw [r10-4], 0;ldmap r1, 0;mov r2, r10;add r2, -4;call 1;mov r0, 0;exit'
unread 9 2000001e8 'stw [r10-4], 0;stdw [r10-32], 0;ldmap r1, 0;mov r2, r10;add r2, -4;mov r3, r10;add r3, -32;mov r4, 0;call 2;exit'
unread 8 2000001fc 'ldmap r1, 0;mov r2, r10;add r2, -4;mov r3, r10;add r3, -32;mov r4, 0;ja on;on: call 2;exit'
reads 'stw [r10-4], 0;stdw [r10-32], 0;stdw [r10-24], 0;ldmap r1, 0;mov r2, r10;add r2, -4;mov r3, r10;add r3, -32;mov r4, 0;call 2;exit'
reads 'stw [r10-4], 2;ldmap r1, 0;mov r2, r10;add r2, -4;mov r3, r10;add r3, -32;mov r4, 0;call 2;add r0, 7;exit'
listing token.s 'mov r1, 5;mov r2, r10;add r2, -4;call 1;exit'
stopped 'fault token 0x5 at 3' run --strict --listing token.s

# A call enters a frame where nothing was written: what an earlier function left there counts for nothing, and neither does what the caller
# wrote at the same distance from r10. The caller's own stack stays as it was.
unread 5 2000005f8 'callf f;callf g;exit;f: stdw [r10-8], 0;exit;g: ldxdw r0, [r10-8];exit'
unread 3 2000005f8 'stdw [r10-8], 0;callf g;exit;g: ldxdw r0, [r10-8];exit'
reads 'stdw [r10-8], 0;callf f;ldxdw r0, [r10-8];exit;f: stdw [r10-8], 0;ldxdw r0, [r10-8];exit'
unread 1 2000001f8 'callf f;ldxdw r0, [r10-8];exit;f: stdw [r10-8], 0;exit'
unread 8 2000005ff 'mov r0, 0;callf f;mov r0, 1;callf f;exit;f: jeq r0, 1, g;stb [r10-1], 0;exit;g: ldxb r0, [r10-1];exit'
# A callee reads and writes the caller's stack by its address.
reads 'stdw [r10-8], 0;mov r1, r10;callf f;exit;f: ldxdw r0, [r1-8];exit'
unread 3 2000001f8 'mov r1, r10;callf f;exit;f: ldxdw r0, [r1-8];exit'
reads 'mov r1, r10;callf f;ldxdw r0, [r10-8];exit;f: stdw [r1-8], 0;exit'
# At the last depth, and a function's frame that was left.
unread 3 200001dff 'l: add r1, 1;jlt r1, 8, m;ja n;n: ldxb r0, [r10-1];exit;m: callf l;exit'
listing left.s 'mov r1, r10;add r1, 1024;callf f;ldxb r0, [r1-1];exit;f: stb [r10-1], 0;exit'
stopped 'fault access 0x2000005ff at 3' run --strict --listing left.s

# The context, maps, and what faults: over the end of a frame, between two of them, at a wild address.
bytes context 00 00 00 00 00 00 00 00
listing p.s 'ldxdw r2, [r1+0];lddw r1, 0x300000000;ldxdw r0, [r1+0];exit'
result '0x0\n' run --strict -m context --maps 16x2 --listing p.s
listing over.s 'ldxdw r0, [r10-4];exit'
stopped 'fault access 0x2000001fc at 0' run --strict --listing over.s
listing under.s 'ldxdw r0, [r10-516];exit'
stopped 'fault access 0x1fffffffc at 0' run --strict --listing under.s
listing wild.s 'mov r1, -4;ldxdw r0, [r1+0];exit'
stopped 'fault access 0xfffffffffffffffc at 1' run --strict --listing wild.s
listing stop.s 'mov r0, 42;exit'
result '0x2a\n' run --strict --listing stop.s
result '0x2a\n' run --steps 2 --strict --listing stop.s
stopped 'step limit 1 reached at 1' run --steps 1 --strict --listing stop.s
# The limit comes before a read behind it, and not before one of the steps that it allows.
listing late.s 'mov r1, 0;ldxb r0, [r10-1];exit'
stopped 'step limit 1 reached at 1' run --steps 1 --strict --listing late.s
stopped 'read of 0x2000001ff at 1: not written since the call' run --steps 2 --strict --listing late.s

# A trace shows the steps before it, those that are asked for; its status is 1.
listing t.s 'mov r1, 1;jne r1, 2, on;on: stb [r10-1], 5;ldxh r0, [r10-2];exit'
line='read of 0x2000001fe at 3: not written since the call\n'
tells 1 "1 0: mov r1, 1; r1 = 0x1\n2 1: jne r1, 2, L2\n3 2: stb [r10-1], 5; 0x2000001ff:1 = 0x5\n$line" trace --strict --listing t.s
tells 1 "2 1: jne r1, 2, L2\n$line" trace --strict --from 2 --count 1 --listing t.s
tells 1 "2 1: jne r1, 2, L2; r1 = 0x1; went on\n$line" trace --strict --branches --listing t.s
tells 1 "$line" trace --strict --from 4 --listing t.s
tells 1 "3 2: stb [r10-1], 5; 0x2000001ff:1 = 0x5\n$line" trace --strict --from 3 --steps 4 --listing t.s
tells 1 '3 2: stb [r10-1], 5; 0x2000001ff:1 = 0x5\nstep limit 3 reached at 3\n' trace --strict --from 3 --steps 3 --listing t.s
tells 0 '1 0: mov r0, 42; r0 = 0x2a\n2 1: exit\nexited at 1: r0 0x2a\n' trace --strict --listing stop.s
tells 1 '1 0: ldxdw r0, [r10-4]\nfault access 0x2000001fc at 0\n' trace --strict --listing over.s
usage "the argument '--strict' cannot be used with '--profile'" trace --strict --profile --listing t.s

# What is refused of a run that isn't strict is refused so.
bytes ragged 95 00 00
refused 'refused C3: length is no multiple of 8' run --strict ragged
refused 'refused C3: length is no multiple of 8' trace --strict ragged
head -c 65537 /dev/zero > long
refused 'refused O1: context too long' run --strict -m long --listing stop.s

# A strict session: a forward command stops there, whatever else it would have stopped for, and the next one goes on.
there='strict; at 3: ldxh r0, [r10-2]\nread of 0x2000001fe at 3: not written since the call\n'
second='2 forward; end; exited at 4: r0 0x500\n'
session 'debug --strict: it stops, and goes on' 'continue\ncontinue\n' "3 forward; $there$second" debug --strict --listing t.s
session 'debug: it does not' 'continue\n' '5 forward; end; exited at 4: r0 0x500\n' debug --listing t.s
session 'debug --strict: back and forward again' 'continue\ncontinue\nreverse-stepi 3\ncontinue\nreverse-continue\nstepi 9\nstepi\n' \
    "3 forward; $there${second}3 back; done; at 2: stb [r10-1], 5\n1 forward; ${there}3 back; start; at 0: mov r1, 1\n3 forward; ${there}1 forward; done; at 4: exit\n" debug --strict --listing t.s
session 'debug --strict: steps that lead there' 'stepi 2\nstepi\n' "2 forward; done; at 2: stb [r10-1], 5\n1 forward; $there" debug --strict --listing t.s
session 'debug --strict: as many steps as there are' 'stepi 3\nnexti\n' "3 forward; ${there}1 forward; done; at 4: exit\n" debug --strict --listing t.s
session 'debug --strict: a breakpoint before it, and one there' 'break 2\nbreak 3\ncontinue\ncontinue\n' \
    "ok\nok\n2 forward; break; at 2: stb [r10-1], 5\n1 forward; $there" debug --strict --listing t.s
session 'debug --strict: a watched byte' 'watch 0x2000001ff\ncontinue\n' "ok\n3 forward; $there" debug --strict --listing t.s
session 'debug --strict: redo goes over it' 'continue\ncontinue\nreverse-stepi 5\nredo 5\n' \
    "3 forward; $there${second}5 back; done; at 0: mov r1, 1\n5 redone; done; exited at 4: r0 0x500\n" debug --strict --listing t.s
# It is one that `run --strict` with these --steps finds.
session 'debug --strict: just within the limit' 'continue\n' "3 forward; $there" debug --strict --steps 4 --listing t.s
session 'debug --strict: behind the limit' 'continue\ncontinue\n' '3 forward; limit; at 3: ldxh r0, [r10-2]\n2 forward; end; exited at 4: r0 0x500\n' debug --strict --steps 3 --listing t.s
# Behind an edit there is none, which is said; undone it counts for nothing, made again it does.
session 'debug --strict: behind an edit' 'stepi\nset reg r1 2\nset reg r2 3\ncontinue\n' \
    '1 forward; done; at 1: jne r1, 2, L2\nok\nnot strict behind an edit\nok\n4 forward; end; exited at 4: r0 0x500\n' debug --strict --listing t.s
session 'debug --strict: an edit that is undone' 'stepi\nset reg r1 2\nundo\ncontinue\n' \
    "1 forward; done; at 1: jne r1, 2, L2\nok\nnot strict behind an edit\n1 back; done; at 1: jne r1, 2, L2\n2 forward; $there" debug --strict --listing t.s
session 'debug --strict: an edit that is forgotten' 'stepi\nset reg r1 2\nundo\nstepi\nstepi\n' \
    "1 forward; done; at 1: jne r1, 2, L2\nok\nnot strict behind an edit\n1 back; done; at 1: jne r1, 2, L2\n1 forward; done; at 2: stb [r10-1], 5\n1 forward; $there" debug --strict --listing t.s
session 'debug --strict: an edit that is made again' 'stepi\nset reg r1 2\nundo\nredo 1\ncontinue\n' \
    '1 forward; done; at 1: jne r1, 2, L2\nok\nnot strict behind an edit\n1 back; done; at 1: jne r1, 2, L2\n1 redone; done; at 1: jne r1, 2, L2\n4 forward; end; exited at 4: r0 0x500\n' \
    debug --strict --listing t.s
session 'debug --strict: an edit that is refused' 'set reg r10 1\ncontinue\n' "refused Q7: register not writable\n3 forward; $there" debug --strict --listing t.s
session 'debug --strict: no such read' 'continue\nset reg r0 1\n' '2 forward; end; exited at 1: r0 0x2a\nok\nnot strict behind an edit\n' debug --strict --listing stop.s
# No command stops before its first step: of a read by the first one of all the command that makes it tells.
listing first.s 'ldxb r0, [r10-1];exit'
session 'debug --strict: the first step of all' 'stepi\nundo\ncontinue\n' \
    '1 forward; done; at 1: exit\nread of 0x2000001ff at 0: not written since the call\n1 back; done; at 0: ldxb r0, [r10-1]\n2 forward; end; exited at 1: r0 0x0\nread of 0x2000001ff at 0: not written since the call\n' \
    debug --strict --listing first.s
# In a function that is stepped over.
listing called.s 'callf f;exit;f: ldxb r0, [r10-1];exit'
session 'debug --strict: in a call' 'nexti\nfinish\n' '1 forward; strict; at 2: ldxb r0, [r10-1]\nread of 0x2000005ff at 2: not written since the call\n2 forward; done; at 1: exit\n' debug --strict --listing called.s
# With questions, and as JSON.
session 'debug --strict --questions' 'continue\norigin r1\ncontinue\n' "3 forward; $there-3 r1 = 0x1; 0: mov r1, 1\n$second" debug --strict --questions --listing t.s
session 'debug --strict --json' 'continue\ncontinue\n' '{"line":1,"kind":"reply","text":"3 forward; strict; at 3: ldxh r0, [r10-2]\\u000aread of 0x2000001fe at 3: not written since the call\\u000a"}
{"line":2,"kind":"reply","text":"2 forward; end; exited at 4: r0 0x500\\u000a"}\n' debug --strict --json --listing t.s
row 'debug --strict: an empty script' 0 '' '' '' debug --strict --listing t.s
refused 'refused C3: length is no multiple of 8' debug --strict ragged
refused 'refused O1: context too long' debug --strict -m long --listing stop.s

# Questions of a strict run: asked before that instruction, behind its line; of a value that isn't named about what the instruction reads.
there='read of 0x2000001fe at 3: not written since the call\nat 3: ldxh r0, [r10-2]\n'
bytes='-1 0x2000001ff:1 = 0x5; 2: stb [r10-1], 5\nleft 0x2000001fe:1 = 0x0; not written since the call\n'
tells 0 "$there$bytes" origin --strict --listing t.s
tells 0 "$there$bytes" origin --strict --steps 4 t.s
tells 0 "$there-3 r1 = 0x1; 0: mov r1, 1\n" origin --strict t.s r1
tells 0 "${there}left 0x2000001fe:1 = 0x0; not written since the call\n" origin --strict t.s 0x2000001fe
tells 0 "${there}it can still be reached\n" whynot --strict t.s 4
tells 0 "${there}it was reached 3 moves back\n" whynot --strict --alone t.s 0
# The first step of all: it is asked at the opening. A step in a function that was called; a helper's map, and its key, of which some bytes were written.
tells 0 'read of 0x2000001ff at 0: not written since the call\nat 0: ldxb r0, [r10-1]\nleft 0x2000001ff:1 = 0x0; not written since the call\n' origin --strict first.s
tells 0 'read of 0x2000001ff at 0: not written since the call\nat 0: ldxb r0, [r10-1]\nit can still be reached\n' whynot --strict first.s 1
tells 0 'read of 0x2000005ff at 2: not written since the call\nat 2: ldxb r0, [r10-1]\n-1 0x200000400:512; 0: callf L2; not written since the call\n' origin --strict called.s
listing key.s 'stb [r10-4], 0;sth [r10-3], 0;ldmap r1, 0;mov r2, r10;add r2, -4;call 1;mov r0, 0;exit'
tells 0 'read of 0x2000001ff at 6: not written since the call\nat 6: call 1\n-3 r1 = 0x400000000; 2: ldmap r1, 0\n-4 0x2000001fd:2 = 0x0; 1: sth [r10-3], 0\n-5 0x2000001fc:1 = 0x0; 0: stb [r10-4], 0\nleft 0x2000001ff:1 = 0x0; not written since the call\n' \
    origin --strict --maps 16x2 key.s
tells 1 'read of 0x2000001ff at 6: not written since the call\nat 6: call 1\n-3 r1 = 0x400000000; 2: ldmap r1, 0\ncut: there are more lines\n' origin --strict --lines 1 --maps 16x2 key.s
tells 0 'read of 0x2000001ff at 6: not written since the call\nat 6: call 1\nleft r3 = 0x0; at the opening\n' origin --strict --maps 16x2 key.s r3
# With registers at the start, a small journal and branches.
tells 0 "${there}left r5 = 0x7; at the opening\n" origin --strict --regs r5=7 --journal 1024 t.s r5
tells 0 "$there-3 r1 = 0x1; 0: mov r1, 1\nno other branch; at the opening\n" origin --strict --branches t.s r1
# As JSON, and as a graph.
tells 0 '{"kind":"unwritten","address":"0x2000001fe","slot":3}
{"kind":"at","slot":3,"insn":"ldxh r0, [r10-2]"}
{"kind":"move","moves":3,"slot":0,"insn":"mov r1, 1","parts":[{"part":"r1","value":"0x1"}]}\n' origin --strict --json t.s r1
tells 0 '{"kind":"unwritten","address":"0x2000001fe","slot":3}
{"kind":"at","slot":3,"insn":"ldxh r0, [r10-2]"}
{"kind":"reached","moves":3}\n' whynot --strict --json t.s 0
tells 0 'strict digraph origin {
  node [shape=box];
  n0 [label="read of 0x2000001fe at 3: not written since the call"];
  n1 [label="at 3: ldxh r0, [r10-2]"];
  n2 [label="-3 r1 = 0x1; 0: mov r1, 1"];
}\n' origin --strict --dot t.s r1
# What is refused is refused so, by the state there.
refused 'refused V2: address not present' origin --strict t.s 0x1
refused 'refused V1: neither r0 to r9 nor ADDRESS:COUNT' origin --strict t.s r10
refused 'refused O1: context too long' origin --strict -m long stop.s
usage "the argument '--strict' cannot be used with '--script <PATH>'" origin --strict --script t.s t.s
usage "the argument '--strict' cannot be used with '--script <PATH>'" whynot --strict --script t.s t.s 0

# same WORD..: what is printed, told and answered with --strict behind the subcommand is what comes of it without.
same() {
    subcommand=$1
    shift
    run "$subcommand" "$@"
    cp found/out wanted/out
    cp found/err wanted/err
    status=$(cat found/status)
    run "$subcommand" --strict "$@"
    count=$((count + 1))
    { cmp -s wanted/out found/out && cmp -s wanted/err found/err && [ "$status" = "$(cat found/status)" ]; } || complain "as without --strict: $subcommand $*"
}
for file in stop.s over.s 'late.s --steps 1' 't.s --steps 3' ragged; do
    for ask in origin 'origin --branches' 'origin --json' 'origin --dot' 'whynot --json'; do
        what=''
        [ "${ask%% *}" = whynot ] && what=0
        # shellcheck disable=SC2086
        same $ask $file $what
    done
done

# The planted bug of examples/bugs, and the packet with which it doesn't show.
if has_clang 'a strict run of examples/bugs/limits.c'; then
    clang -O2 -target bpf -c -o limits.o "$top/examples/bugs/limits.c" 2> found/err || complain "examples/bugs/limits.c: $(cat found/err)"
    count=$((count + 1))
    "$program" run --strict --object -m "$top/examples/bugs/limits.packet" limits.o > found/out 2>&1
    grep -q -x 'read of 0x2000001fc at [0-9]*: not written since the call' found/out || complain "a strict run of examples/bugs/limits.c: $(cat found/out)"
    bytes whole 05 01 10
    result '0x15\n' run --strict --object -m whole limits.o

    # With its lines both lines tell where that is in C.
    cp "$top/examples/bugs/limits.c" limits.c
    clang -O2 -g -target bpf -c -o lined.o limits.c 2> found/err || complain "limits.c with its lines: $(cat found/err)"
    where="in in_flight (limits.c:$(sed -n '/limits.rate + limits.burst/=' limits.c))"
    printf '%s\n' "read of 0x2000001fc at N: not written since the call; $where" "at N: ldxw r, [r10-4]; $where" > wanted/lined
    for ask in 'origin' 'whynot limits.c:20'; do
        count=$((count + 1))
        # shellcheck disable=SC2086
        "$program" ${ask%% *} --strict --object -m "$top/examples/bugs/limits.packet" lined.o ${ask#"${ask%% *}"} > found/out 2> found/err
        head -n 2 found/out | sed 's/at [0-9]*:/at N:/; s/ldxw r[0-9]*,/ldxw r,/' | cmp -s - wanted/lined || complain "with lines, $ask --strict: $(cat found/out found/err)"
    done
fi

# Programs at random.
if has python3 'strict runs of programs at random'; then
    python3 "$top/tests/trials/strict.py" "$program" 300 > trial 2> found/err
    echo $? > found/status
    { grep -a '^FAILED' trial; sed -n 's/^[0-9]* programs: \([0-9]* failed\)$/\1/p' trial; } > found/out
    check 'strict runs of programs at random' 0 '0 failed\n' ''
fi
