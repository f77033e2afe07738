# Answers as objects of JSON. What is wanted is worked out by hand from the lines that the other parts hold: each kind of line, once. Then the answers of
# all listings, tests and objects of these folders, and of programs at random, read by Python's json and held against a model of another form, regular
# expressions over the lines that are printed without --json (tests/trials/jsons.py); so are those of origin as graphs.

listing p.s 'mov r1, 4;stxdw [r10-8], r1;mov r2, 3;ldxdw r0, [r10-8];add r0, r2;exit'
tells 0 '{"kind":"result","r0":"0x7"}\n' run --json --listing p.s
tells 0 '{"kind":"ok","instructions":6,"slots":6}\n' check --listing --json p.s
tells 0 '{"kind":"step","step":1,"slot":0,"insn":"mov r1, 4","parts":[{"part":"r1","value":"0x4"}]}
{"kind":"step","step":2,"slot":1,"insn":"stxdw [r10-8], r1","parts":[{"part":"0x2000001f8:8","value":"0x4"}]}
{"kind":"exited","slot":5,"r0":"0x7"}\n' trace --json --listing --count 2 p.s
tells 0 '{"kind":"step","step":6,"slot":5,"insn":"exit","parts":[]}
{"kind":"exited","slot":5,"r0":"0x7"}\n' trace --json --listing --from 6 p.s
tells 1 '{"kind":"limit","limit":3,"slot":3}\n' trace --json --listing --steps 3 --from 4 p.s
tells 0 '{"kind":"exited","slot":5,"r0":"0x7"}
{"kind":"move","moves":2,"slot":4,"insn":"add r0, r2","from":["r0","r2"],"parts":[{"part":"r0","value":"0x7"}]}
{"kind":"move","moves":3,"slot":3,"insn":"ldxdw r0, [r10-8]","from":["0x2000001f8:8"],"parts":[{"part":"r0","value":"0x4"}]}
{"kind":"move","moves":4,"slot":2,"insn":"mov r2, 3","parts":[{"part":"r2","value":"0x3"}]}
{"kind":"move","moves":5,"slot":1,"insn":"stxdw [r10-8], r1","from":["r1"],"parts":[{"part":"0x2000001f8:8","value":"0x4"}]}
{"kind":"move","moves":6,"slot":0,"insn":"mov r1, 4","parts":[{"part":"r1","value":"0x4"}]}\n' origin --json --listing p.s
tells 1 '{"kind":"exited","slot":5,"r0":"0x7"}
{"kind":"move","moves":2,"slot":4,"insn":"add r0, r2","from":["r0","r2"],"parts":[{"part":"r0","value":"0x7"}]}
{"kind":"text","text":"cut: there are more lines"}\n' origin --json --listing --lines 1 p.s

# What two runs leave, and where the values came from.
listing two.s 'stb [r1+0], 2;exit'
listing three.s 'stb [r1+0], 3;exit'
bytes byte 09
tells 1 '{"kind":"ends","place":"0x100000000:1","here":"0x2","there":"0x3"}
{"kind":"step","side":"<","step":1,"slot":0,"insn":"stb [r1+0], 2","parts":[{"part":"0x100000000:1","value":"0x2"}]}
{"kind":"step","side":">","step":1,"slot":0,"insn":"stb [r1+0], 3","parts":[{"part":"0x100000000:1","value":"0x3"}]}
{"kind":"exited","side":"<","slot":1,"r0":"0x0"}
{"kind":"exited","side":">","slot":1,"r0":"0x0"}
{"kind":"at","side":"<","slot":1,"insn":"exit"}
{"kind":"move","side":"<","moves":1,"slot":0,"insn":"stb [r1+0], 2","parts":[{"part":"0x100000000:1","value":"0x2"}]}
{"kind":"at","side":">","slot":1,"insn":"exit"}
{"kind":"move","side":">","moves":1,"slot":0,"insn":"stb [r1+0], 3","parts":[{"part":"0x100000000:1","value":"0x3"}]}\n' diff --writes --json --listing -m byte two.s three.s
tells 0 '{"kind":"same"}
{"kind":"exited","side":"<","slot":1,"r0":"0x0"}
{"kind":"exited","side":">","slot":1,"r0":"0x0"}\n' diff --writes --json --listing -m byte two.s two.s

# Names of parts with blanks; a part without a value; parts before the slot.
listing call.s 'mov r1, 7;stdw [r10-8], 0;callf f;atomic_fetch_add64 [r10-8], r1;add r0, r1;exit;f: mov r6, r1;add r6, r1;mov r0, r6;exit'
tells 0 '{"kind":"step","step":3,"slot":2,"insn":"callf L6","parts":[{"part":"0x200000400:512"}]}
{"kind":"step","step":4,"slot":6,"insn":"mov r6, r1","parts":[{"part":"r6 at depth 1","value":"0x7"}]}
{"kind":"exited","slot":5,"r0":"0xe"}\n' trace --json --listing --from 3 --count 2 call.s
tells 0 '{"kind":"exited","slot":5,"r0":"0xe"}
{"kind":"move","moves":2,"slot":4,"insn":"add r0, r1","from":["r0","r1"],"parts":[{"part":"r0","value":"0xe"}]}
{"kind":"move","moves":3,"slot":3,"insn":"atomic_fetch_add64 [r10-8], r1","from":["r1","0x2000001f8:8"],"parts":[{"part":"r1","value":"0x0"},{"part":"0x2000001f8:8","value":"0x7"}]}
{"kind":"move","moves":5,"slot":8,"insn":"mov r0, r6","from":["r6 at depth 1"],"parts":[{"part":"r0","value":"0xe"}]}
{"kind":"move","moves":6,"slot":7,"insn":"add r6, r1","from":["r6 at depth 1","r1"],"parts":[{"part":"r6 at depth 1","value":"0xe"}]}
{"kind":"move","moves":7,"slot":6,"insn":"mov r6, r1","from":["r1"],"parts":[{"part":"r6 at depth 1","value":"0x7"}]}
{"kind":"move","moves":9,"slot":1,"insn":"stdw [r10-8], 0","parts":[{"part":"0x2000001f8:8","value":"0x0"}]}
{"kind":"move","moves":10,"slot":0,"insn":"mov r1, 7","parts":[{"part":"r1","value":"0x7"}]}\n' origin --json --listing call.s r0

# A graph of eight functions, the most that call one another, in which the last one's values came from its own: step 9 of 19 is its first one, and its
# other steps follow.
listing eight.s 'mov r1, 5;callf f1;exit;f1: callf f2;exit;f2: callf f3;exit;f3: callf f4;exit;f4: callf f5;exit;f5: callf f6;exit;f6: callf f7;exit;f7: mov r6, r1;add r6, 1;mov r0, r6;exit'
tells 0 'strict digraph origin {
  node [shape=box];
  n0 [label="exited at 2: r0 0x6"];
  n1 [label="-9 r0 = 0x6; 17: mov r0, r6; from r6 at depth 7"];
  n2 [label="-10 r6 at depth 7 = 0x6; 16: add r6, 1; from r6 at depth 7"];
  n3 [label="-11 r6 at depth 7 = 0x5; 15: mov r6, r1; from r1"];
  n4 [label="-19 r1 = 0x5; 0: mov r1, 5"];
  n3 -> n4;
  n2 -> n3;
  n1 -> n2;
}\n' origin --dot --listing eight.s r0

# Branches, of a trace and of an answer; a byte of the context.
listing first.s 'jeq r1, 0, none;ldxb r0, [r1+0];exit;none: mov r0, 1;exit'
bytes context 09
tells 0 '{"kind":"step","step":1,"slot":0,"insn":"jeq r1, 0, L3","way":"went on","parts":[{"part":"r1","value":"0x100000000"}]}
{"kind":"exited","slot":2,"r0":"0x9"}\n' trace --json --branches -m context --listing first.s
tells 0 '{"kind":"exited","slot":2,"r0":"0x9"}
{"kind":"move","moves":2,"slot":1,"insn":"ldxb r0, [r1+0]","from":["0x100000000:1"],"parts":[{"part":"r0","value":"0x9"}]}
{"kind":"left","byte":0,"since":"opening","parts":[{"part":"0x100000000:1","value":"0x9"}]}
{"kind":"move","moves":3,"slot":0,"insn":"jeq r1, 0, L3","way":"went on","parts":[{"part":"r1","value":"0x100000000"}]}
{"kind":"text","text":"no other branch; at the opening"}\n' origin --json --branches -m context --listing first.s
listing kept.s 'mov r0, 1;jeq r2, 0, on;mov r0, 2;on: exit'
tells 0 '{"kind":"exited","slot":3,"r0":"0x1"}
{"kind":"move","moves":3,"slot":0,"insn":"mov r0, 1","parts":[{"part":"r0","value":"0x1"}]}
{"kind":"kept","moves":2,"slot":1,"insn":"jeq r2, 0, L3","way":"jumped","to":3,"parts":[{"part":"r2","value":"0x0"}]}
{"kind":"text","text":"no other branch; at the opening"}\n' origin --json --branches --listing kept.s
listing ends.s 'mov r4, r10;jeq r4, r10, on;mov r0, 2;on: exit'
tells 0 '{"kind":"exited","slot":3,"r0":"0x0"}
{"kind":"left","since":"opening","parts":[{"part":"r0","value":"0x0"}]}
{"kind":"kept","moves":2,"slot":1,"insn":"jeq r4, r10, L3","way":"jumped","to":3,"parts":[{"part":"r4","value":"0x200000200"},{"part":"r10","value":"0x200000200"}]}
{"kind":"text","text":"no other branch; at the opening"}\n' origin --json --branches --listing ends.s
# Bytes of the first frame, and of one that a call entered, that nothing wrote.
listing unset.s 'ldxw r0, [r10-4];exit'
tells 0 '{"kind":"exited","slot":1,"r0":"0x0"}
{"kind":"move","moves":2,"slot":0,"insn":"ldxw r0, [r10-4]","from":["0x2000001fc:4"],"parts":[{"part":"r0","value":"0x0"}]}
{"kind":"left","since":"call","parts":[{"part":"0x2000001fc:4","value":"0x0"}]}\n' origin --json --listing unset.s
listing called.s 'callf f;exit;f: ldxb r0, [r10-1];exit'
tells 0 '{"kind":"exited","slot":1,"r0":"0x0"}
{"kind":"move","moves":3,"slot":2,"insn":"ldxb r0, [r10-1]","from":["0x2000005ff:1"],"parts":[{"part":"r0","value":"0x0"}]}
{"kind":"move","moves":4,"slot":0,"insn":"callf L2","since":"call","parts":[{"part":"0x200000400:512"}]}\n' origin --json --listing called.s
tells 0 '{"kind":"exited","slot":4,"r0":"0x1"}
{"kind":"move","moves":3,"slot":0,"insn":"jeq r1, 0, L3","way":"jumped","to":3,"parts":[{"part":"r1","value":"0x0"}]}
{"kind":"at","slot":0,"insn":"jeq r1, 0, L3"}
{"kind":"left","since":"opening","parts":[{"part":"r1","value":"0x0"}]}\n' whynot --json --listing first.s 1
tells 0 '{"kind":"exited","slot":4,"r0":"0x1"}\n{"kind":"reached","moves":2}\n' whynot --json --listing first.s none
tells 0 '{"kind":"exited","slot":4,"r0":"0x1"}\n{"kind":"made","moves":2,"slot":3,"insn":"mov r0, 1","parts":[{"part":"r0","value":"0x1"}]}
{"kind":"text","text":"each instruction that makes it ran"}\n' whynot --json --listing first.s =1
listing over.s 'mov r0, 1;jeq r1, 0, on;on: mov r0, 3;exit'
tells 0 '{"kind":"exited","slot":3,"r0":"0x3"}\n{"kind":"made","moves":4,"slot":0,"insn":"mov r0, 1","parts":[{"part":"r0","value":"0x1"}]}
{"kind":"overwritten","moves":3,"slot":1,"insn":"jeq r1, 0, L2","way":"went on","parts":[{"part":"r1","value":"0x0"}]}\n' whynot --json --alone --listing over.s =1
tells 0 '{"kind":"at","slot":3,"insn":"mov r0, 1"}\n{"kind":"text","text":"it can still be reached"}\n' whynot --json --listing --steps 1 first.s 3,4
tells 0 '{"kind":"ran","count":1,"slot":0,"insn":"jeq r1, 0, L3"}
{"kind":"ran","count":0,"slot":1,"insn":"ldxb r0, [r1+0]"}
{"kind":"ran","count":0,"slot":2,"insn":"exit"}
{"kind":"ran","count":1,"slot":3,"insn":"mov r0, 1"}
{"kind":"ran","count":1,"slot":4,"insn":"exit"}
{"kind":"exited","slot":4,"r0":"0x1"}\n' trace --json --profile --listing first.s
tells 0 '{"kind":"insn","insn":"jeq r1, 0, L3"}
{"kind":"insn","insn":"ldxb r0, [r1+0]"}
{"kind":"insn","insn":"exit"}
{"kind":"label","label":"L3"}
{"kind":"insn","insn":"mov r0, 1"}
{"kind":"insn","insn":"exit"}\n' disasm --json --listing first.s
tells 0 '{"kind":"line","slot":0,"line":1,"labels":[]}
{"kind":"line","slot":1,"line":2,"labels":[]}
{"kind":"line","slot":2,"line":3,"labels":[]}
{"kind":"line","slot":3,"line":4,"labels":["none"]}
{"kind":"line","slot":4,"line":5,"labels":[]}\n' lines --json first.s
listing labels.s 'a:;b:;c: exit'
tells 0 '{"kind":"line","slot":0,"line":3,"labels":["a","b","c"]}\n' lines --json labels.s

# Edits, by a script.
printf 'stepi 1\nset reg r0 5\nset pc 2\n' > edits
tells 0 '{"kind":"at","slot":2,"insn":"exit"}
{"kind":"move","moves":2,"way":"edit","parts":[{"part":"r0","value":"0x5"}]}\n' origin --json --script edits --listing first.s
tells 0 '{"kind":"at","slot":2,"insn":"exit"}
{"kind":"move","moves":1,"way":"edit","to":2,"parts":[]}\n' whynot --json --script edits --listing first.s none

# Two runs, and a run against traces.
listing port.s 'ldxb r2, [r1+0];jne r2, 4, out;mov r0, 1;out: exit'
bytes four 04
bytes five 05
tells 1 '{"kind":"parting","step":1,"how":"wrote otherwise"}
{"kind":"step","side":"<","step":1,"slot":0,"insn":"ldxb r2, [r1+0]","parts":[{"part":"r2","value":"0x4"}]}
{"kind":"step","side":">","step":1,"slot":0,"insn":"ldxb r2, [r1+0]","parts":[{"part":"r2","value":"0x5"}]}
{"kind":"parting","step":3,"how":"went elsewhere"}
{"kind":"step","side":"<","step":3,"slot":2,"insn":"mov r0, 1","parts":[{"part":"r0","value":"0x1"}]}
{"kind":"step","side":">","step":3,"slot":3,"insn":"exit","parts":[]}
{"kind":"exited","side":"<","slot":3,"r0":"0x1"}
{"kind":"exited","side":">","slot":3,"r0":"0x0"}
{"kind":"at","side":"<","slot":1,"insn":"jne r2, 4, L3"}
{"kind":"move","side":"<","moves":1,"slot":0,"insn":"ldxb r2, [r1+0]","from":["0x100000000:1"],"parts":[{"part":"r2","value":"0x4"}]}
{"kind":"left","side":"<","byte":0,"since":"opening","parts":[{"part":"0x100000000:1","value":"0x4"}]}
{"kind":"at","side":">","slot":1,"insn":"jne r2, 4, L3"}
{"kind":"move","side":">","moves":1,"slot":0,"insn":"ldxb r2, [r1+0]","from":["0x100000000:1"],"parts":[{"part":"r2","value":"0x5"}]}
{"kind":"left","side":">","byte":0,"since":"opening","parts":[{"part":"0x100000000:1","value":"0x5"}]}\n' diff --json --listing -m four --other-mem five port.s
listing chain.s 'mov r0, 1;add r0, 2;exit'
listing other-chain.s 'mov r0, 1;callf f;exit;f: exit'
tells 1 '{"kind":"parting","step":2,"how":"wrote otherwise"}
{"kind":"step","side":"<","step":2,"slot":1,"insn":"add r0, 2","parts":[{"part":"r0","value":"0x3"}]}
{"kind":"step","side":">","step":2,"slot":1,"insn":"callf L3","parts":[{"part":"0x200000400:512"}]}
{"kind":"parting","step":3,"how":"went elsewhere"}
{"kind":"step","side":"<","step":3,"slot":2,"insn":"exit","parts":[]}
{"kind":"step","side":">","step":3,"slot":3,"insn":"exit","parts":[]}
{"kind":"exited","side":"<","slot":2,"r0":"0x3"}
{"kind":"exited","side":">","slot":2,"r0":"0x1"}
{"kind":"at","side":"<","slot":2,"insn":"exit"}
{"kind":"move","side":"<","moves":1,"slot":1,"insn":"add r0, 2","from":["r0"],"parts":[{"part":"r0","value":"0x3"}]}
{"kind":"text","side":"<","text":"cut: there are more lines"}
{"kind":"at","side":">","slot":3,"insn":"exit"}
{"kind":"move","side":">","moves":1,"slot":1,"insn":"callf L3","since":"call","parts":[{"part":"0x200000400:512"}]}\n' diff --lines 1 --json --listing chain.s other-chain.s
refused 'refused J1: journal size out of range' diff --journal 7 --json --listing chain.s other-chain.s
tells 0 '{"kind":"same","steps":4}\n{"kind":"exited","slot":3,"r0":"0x1"}\n' diff --json --listing -m four --other-mem four port.s
printf '0 0x0 0x100000000 1 0 0 0 0 0 0 0 -\n1 0 0x100000000 5 0 0 0 0 0 0 0 -\n' > registers
tells 1 '{"kind":"parting","step":2,"how":"is told otherwise"}
{"kind":"registers","side":"<","slot":1,"registers":["0x0","0x100000000","0x4","0x0","0x0","0x0","0x0","0x0","0x0","0x0","0x200000200"]}
{"kind":"registers","side":">","slot":1,"registers":["0","0x100000000","5","0","0","0","0","0","0","0","-"]}
{"kind":"entry","entry":"r2","here":"0x4","there":"0x5","step":1,"slot":0,"insn":"ldxb r2, [r1+0]"}\n' diff --json --listing -m four --trace registers port.s

# Faults and a strict run: lines on standard error stay what they are, and so do refusals.
listing wild.s 'ldxb r0, [r1+0];exit'
tells 1 '{"kind":"step","step":1,"slot":0,"insn":"ldxb r0, [r1+0]","parts":[]}\n{"kind":"fault","fault":"access 0x0","slot":0}\n' trace --json --listing wild.s
stopped 'fault access 0x0 at 0' run --json --listing wild.s
stopped 'step limit 1 reached at 1' run --json --steps 1 --listing p.s
listing unread.s 'ldxb r0, [r10-1];exit'
tells 1 '{"kind":"unwritten","address":"0x2000001ff","slot":0}\n' trace --json --strict --listing unread.s
listing bad.s 'frob r0'
refused 'refused A1 at line 1: unknown mnemonic' run --json --listing bad.s
refused 'cannot read none.s' trace --json --listing none.s
usage "unexpected argument '--json' found" link --json p.s
usage "unexpected argument '--json' found" asm --json p.s
usage "unexpected argument '--json' found" gdb --json p.s
usage "unexpected argument '--json' found" gdb --json p.s
usage "unexpected argument '--json' found" batch --json
usage "the argument '--show <PART>' cannot be used with '--json'" test --show program --json p.s
usage "the argument '--cover-info' cannot be used with '--json'" test --cover-info --json p.s
usage "the argument '--dot' cannot be used with '--json'" origin --dot --json --listing p.s

# A report, whose names have what JSON escapes.
printf -- '-- listing\nmov r0, 2\njeq r0, 2, out\nmov r0, 3\nout: exit\n-- name\nsays "no" \\ never\n-- result\n3\n-- name\nna\303\257ve\n-- result\n2\n' > t.test
"$program" test --json --cover t.test > found/out 2> found/err
echo $? > found/status
cat > wanted/out <<'END'
{"kind":"plan","tests":2}
{"kind":"failed","test":1,"name":"says \"no\" \\ never"}
{"kind":"place","line":6}
{"kind":"came","came":"exited at 3: r0 0x2"}
{"kind":"wanted","wanted":"result 3"}
{"kind":"debug","debug":"bpfdb-show 'says \"no\" \\ never' 't.test'"}
{"kind":"passed","test":2,"name":"naïve"}
{"kind":"cover","line":1,"ran":3,"instructions":4,"both":0,"branches":1}
{"kind":"missed","never":"went on","slot":1,"insn":"jeq r0, 2, L3"}
{"kind":"missed","never":"ran","slot":2,"insn":"mov r0, 3"}
END
echo 1 > wanted/status
: > wanted/err
compare 'a report as objects of JSON'
# What a test says of the bytes and the cells that it left.
printf -- '-- listing\nstb [r1+1], 5\nexit\n-- mem\n010203\n-- maps\n2x1\n-- result\n0\n-- name\na\n-- mem-after\n01.4\n-- name\nb\n-- mem-after\n0105 0300\n-- map-after\n0 0 .. 01\n' > left.test
"$program" test --json left.test > found/out 2> found/err
echo $? > found/status
cat > wanted/out <<'END'
{"kind":"plan","tests":2}
{"kind":"failed","test":1,"name":"a"}
{"kind":"place","line":10}
{"kind":"came","came":"exited at 1: r0 0x0"}
{"kind":"wanted","wanted":"result 0, and mem-after"}
{"kind":"byte","byte":1,"came":"0x100000001: 05"}
{"kind":"byte","byte":1,"wanted":".4"}
{"kind":"length","context":3,"after":2}
{"kind":"debug","debug":"bpfdb-show 'a' 'left.test'"}
{"kind":"failed","test":2,"name":"b"}
{"kind":"place","line":14}
{"kind":"came","came":"exited at 1: r0 0x0"}
{"kind":"wanted","wanted":"result 0, and mem-after, and map-after"}
{"kind":"byte","byte":3,"came":"none"}
{"kind":"byte","byte":3,"wanted":"00"}
{"kind":"length","context":3,"after":4}
{"kind":"cell","map":0,"index":0,"came":"0x300000000: 0000"}
{"kind":"cell","map":0,"index":0,"wanted":".. 01"}
{"kind":"debug","debug":"bpfdb-show 'b' 'left.test'"}
END
compare 'what was left of a test, as objects of JSON'

# The objects of a trace come one by one: a reader that goes away ends it, as it ends one of lines, and so does a full disk; and a million of them need no
# more memory than a few.
listing long.s 'mov r0, 0;loop: add r0, 1;jlt r0, 500000, loop;exit'
: > script
{ "$program" trace --json --listing long.s 2> found/err; echo $? > found/status; } < script | head -n 1 > found/out
check 'a reader of objects that goes away' 2 '{"kind":"step","step":1,"slot":0,"insn":"mov r0, 0","parts":[{"part":"r0","value":"0x0"}]}\n' 'cannot write output\n'
if [ -c /dev/full ]; then
    "$program" trace --json --listing long.s < script > /dev/full 2> found/err
    echo $? > found/status
    : > found/out
    check 'objects for a full disk' 2 '' 'cannot write output\n'
fi
(ulimit -v 20000 && "$program" trace --json --listing --steps 1000000 long.s < script 2> found/err; echo $? > found/status) | tail -n 1 > found/out
check 'objects of a million steps' 1 '{"kind":"limit","limit":1000000,"slot":2}\n' ''

# All that these folders have, and programs at random.
if has python3 'answers as objects of JSON'; then
    mkdir all
    cp "$parts"/listings/*.s "$parts"/suites/*.test all
    for file in "$top"/examples/*/*.s "$top"/examples/*/*.test; do
        cp "$file" "all/$(basename "$(dirname "$file")")-$(basename "$file")"
    done
    if has_clang 'lines of objects as objects of JSON'; then
        for source in "$parts"/c/*.c; do
            name=$(basename "$source" .c)
            clang -g -O2 -target bpf -c "$source" -o "all/$name.o" 2> found/err || rm -f "all/$name.o"
        done
    fi
    python3 "$top/tests/trials/jsons.py" "$program" all 1 60 > trial 2>&1
    echo $? > found/status
    sed -n 's/^[0-9]* answers, [0-9]* lines, [1-9][0-9]* edges, .*/held/p' trial > found/out
    : > found/err
    check 'answers as objects of JSON' 0 'held\n' '' || cat trial
fi

# jq reads them.
if has jq 'answers read by jq'; then
    "$program" trace --json --listing p.s | jq -r 'select(.kind == "step") | "\(.step) \(.slot): \(.insn)\(.parts | map("; \(.part) = \(.value)") | add // "")"' > found/out 2> found/err
    "$program" trace --listing p.s | sed '$d' > wanted/out
    echo 0 | tee found/status > wanted/status
    : > wanted/err
    compare 'lines of a trace, made again by jq'
fi
