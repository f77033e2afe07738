# Questions in a session, and replies as lines of JSON. What is wanted is worked out by hand; then each answer is held against that of the subcommand
# which obeys the same script (another way through the program), and what a session prints behind questions against what it prints without them.

# A byte decides: 7 leaves r0 at 1.
listing ask.s 'mov r0, 1;ldxb r2, [r1+0];jeq r2, 7, L;mov r0, 2;L: exit'
bytes seven 07
went='4 forward; end; exited at 4: r0 0x1\n'
kept='-2 2: jeq r2, 7, L4; r2 = 0x7; jumped to 4\nat 2: jeq r2, 7, L4\n-1 r2 = 0x7; 1: ldxb r2, [r1+0]; from 0x100000000:1\nleft 0x100000000:1 = 0x7; byte 0 of the context; at the opening\n'
session 'questions: where a value came from' 'continue\norigin r0\n' "${went}-4 r0 = 0x1; 0: mov r0, 1\n" debug --questions --listing -m seven ask.s
session 'questions: of interest is r0' 'continue\n origin \t\n' "${went}-4 r0 = 0x1; 0: mov r0, 1\n" debug --questions --listing -m seven ask.s
session 'questions: why a slot was not come to' 'continue\nwhynot 3\n' "$went$kept" debug --questions --listing -m seven ask.s
session 'questions: the slots that make a value' 'continue\nwhynot =2\n' "$went$kept" debug --questions --listing -m seven ask.s
session 'questions: before the first step' 'origin r1\nwhynot 3\n' 'left r1 = 0x100000000; at the opening\nit can still be reached\n' debug --questions --listing -m seven ask.s
session 'questions: behind an edit' 'stepi\nset reg r0 9\norigin r0\n' '1 forward; done; at 1: ldxb r2, [r1+0]\nok\n-1 r0 = 0x9; edit\n' debug --questions --listing -m seven ask.s

# They leave the session where it is: what was taken back for them is made again.
session 'questions: they go back over nothing' 'continue\norigin r0\nwhynot 3\nundo\ninfo history\nredo 4\norigin r0\n' \
    "$went-4 r0 = 0x1; 0: mov r0, 1\n${kept}4 back; done; at 0: mov r0, 1\n0 moves, 0 commands, 0 of 65536 bytes\n4 redone; done; exited at 4: r0 0x1\n-4 r0 = 0x1; 0: mov r0, 1\n" \
    debug --questions --listing -m seven ask.s

# What is refused, and by which letter; without --questions they are no commands.
refusals='refused V1: neither r0 to r9 nor ADDRESS:COUNT\nrefused V2: address not present\nrefused Q2: wrong argument\nrefused V3: neither a slot nor slots with commas between\nrefused V4: no instruction starts at the slot\nrefused V7: no instruction makes the value\nrefused Q2: wrong argument\nrefused Q1: unknown command\n'
session 'questions: refused' 'origin r10\norigin 0\norigin r0 r1\nwhynot\nwhynot 5\nwhynot =3\nwhynot 1 2\norigins\n' "$refusals" debug --questions --listing -m seven ask.s
session 'questions: not asked for' 'origin r0\nwhynot 3\n' 'refused Q1: unknown command\nrefused Q1: unknown command\n' debug --listing -m seven ask.s
long=$(awk 'BEGIN { for (i = 0; i < 1025; i++) printf " " }')
session 'questions: a line that is too long' "origin$long\norigin r0\n" 'refused Q12: line too long\nleft r0 = 0x0; at the opening\n' debug --questions --listing -m seven ask.s

# Lines of JSON: the number of the line that each answers. Blank lines have none, nor do quit and what stands behind it.
session 'replies as JSON' 'stepi\n\n \t\nfoo\norigin r0\ninfo breaks\nquit\nstepi\n' '{"line":1,"kind":"reply","text":"1 forward; done; at 1: ldxb r2, [r1+0]\\u000a"}
{"line":4,"kind":"refused","text":"refused Q1: unknown command\\u000a"}
{"line":5,"kind":"answer","text":"-1 r0 = 0x1; 0: mov r0, 1\\u000a"}
{"line":6,"kind":"reply","text":"none\\u000a"}\n' debug --questions --json --listing -m seven ask.s
session 'replies as JSON, without questions' 'origin r0' '{"line":1,"kind":"refused","text":"refused Q1: unknown command\\u000a"}\n' debug --json --listing -m seven ask.s
session 'replies as JSON: an empty script' '' '' debug --json --listing -m seven ask.s

# Each answer is that of the subcommand over the same script, whatever the journal has dropped.
listing loop.s 'mov r6, 0;mov r7, 0;L: add r6, 3;stxdw [r10-8], r6;ldxdw r7, [r10-8];jlt r6, 300, L;mov r0, r7;exit'
for journal in 1024 2000 65536; do
    for script in 'continue' 'stepi 100' 'stepi 7;undo;stepi 30' 'stepi 50;set reg r6 1000;stepi 9' 'break 5;continue;continue;reverse-stepi 3' 'stepi 60;reverse-stepi 9;redo 4'; do
        echo "$script" | tr ';' '\n' > lines
        for what in '' r0 r6 r7 0x2000001f8:8; do
            { cat lines && echo "origin $what"; } > script
            # (what is one word or none)
            # shellcheck disable=SC2086
            "$program" origin --listing --journal "$journal" --script lines -- loop.s $what < /dev/null | sed 1d > wanted/out
            "$program" debug --questions --listing --journal "$journal" loop.s < script | sed "1,$(wc -l < lines)d" > found/out
            same "debug --questions --journal $journal, $script, origin $what" wanted/out found/out
        done
        for what in 6 2,6 =300 7 L nosuch loop.s:5; do
            { cat lines && echo "whynot $what"; } > script
            "$program" whynot --listing --journal "$journal" --script lines -- loop.s "$what" < /dev/null 2>&1 | sed '/^refused/!{1d}' > wanted/out
            "$program" debug --questions --listing --journal "$journal" loop.s < script | sed "1,$(wc -l < lines)d" > found/out
            same "debug --questions --journal $journal, $script, whynot $what" wanted/out found/out
        done
    done
done

# Of an object also a function, a line of C, and a value by its name.
has clang 'questions about places of an object' && {
    cp "$parts/gdb/verdict.c" .
    clang -g -O2 -target bpf -c verdict.c
    printf '\7\2' > kind
    for what in verdict verdict.c:7 verdict.c:9 verdict.c:8 other.c:7 =1 =2 =XDP_DROP XDP_DROP XDP_PASS XDP_NONE 8 '3,5'; do
        printf 'continue\n' > lines
        "$program" whynot -m kind --script lines -- verdict.o "$what" < /dev/null 2>&1 | sed '/^refused/!{1d}' > wanted/out
        printf 'continue\nwhynot %s\n' "$what" | "$program" debug --questions -m kind verdict.o | sed 1d > found/out
        same "debug --questions of an object: whynot $what" wanted/out found/out
    done
}

# A session prints behind questions what it prints without them; as JSON the texts are the same, with the numbers of their lines.
has python3 'rows of debug as JSON' && {
    for script in 'stepi 3;info regs;origin r6;stepi;undo;info history;whynot 6;continue;origin;reverse-stepi 4;x 0x2000001f8 8;last-write 0x2000001f8' \
        'origin r0;;break 4;continue;whynot 7;info frames;disas 0 8;;undo;origin r7;redo;info trace;bad;set mem 0x2000001f8 ff;origin 0x2000001f8'; do
        echo "$script" | tr ';' '\n' > script
        "$program" debug --questions --listing loop.s < script > texts
        "$program" debug --questions --json --listing loop.s < script > objects
        grep -v -e '^origin' -e '^whynot' script | "$program" debug --listing loop.s > plain
        python3 - script texts objects plain > found/out 2>&1 << 'PYTHON'
import json
import sys

script, texts, objects, plain = (open(path, encoding='utf-8').read() for path in sys.argv[1:])
rows = [json.loads(line) for line in objects.splitlines()]
lines = script.split('\n')
assert ''.join(row['text'] for row in rows) == texts
assert ''.join(row['text'] for row in rows if not lines[row['line'] - 1].startswith(('origin', 'whynot'))) == plain
assert [row['line'] for row in rows] == [at for at, line in enumerate(lines, 1) if line.strip()]
for row in rows:
    word = lines[row['line'] - 1].split()[0]
    assert row['kind'] == ('refused' if row['text'].startswith('refused ') else 'answer' if word in ('origin', 'whynot') else 'reply'), row
print(f'{len(rows)} replies')
PYTHON
        grep -c . script | sed 's/$/ replies/' > wanted/out
        same "debug --json: $script" wanted/out found/out
    done
}

# Output that fails, and input that can't be read.
printf 'stepi\norigin r0\n' > script
if [ -c /dev/full ]; then
    "$program" debug --questions --json --listing -m seven ask.s < script > /dev/full 2> found/err
    echo $? > found/status
    : > found/out
    check 'debug --json: a device that is full' 2 '' 'cannot write output\n'
fi
"$program" debug --questions --json --listing -m seven ask.s < . > found/out 2> found/err
echo $? > found/status
check "debug --json: input that can't be read" 2 '' 'cannot read input\n'
