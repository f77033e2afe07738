# Pages of runs: what bpfdb-page writes and refuses, and, where there is a chromium, what a browser shows of it (tests/trials/pages.py). Expected states come from
# 'bpfdb debug', expected writers from the lines of 'bpfdb trace', expected moves from both.

if has python3 'pages of runs'; then
    BPFDB=$program
    BPFDB_PAGE=$top/share/bpfdb-page
    export BPFDB BPFDB_PAGE

    # unhurried FILE: takes out of what was said what is only said where it takes over a second.
    unhurried() {
        sed -i '/^bpfdb-page: [a-z ]* \.\.$/d' "$1"
    }

    # made STATUS ERRORS WORD..: bpfdb-page on these words has this status and writes this to standard error alone; what is refused leaves no file.
    made() {
        wanted_status=$1 wanted_errors=$2
        shift 2
        "$BPFDB_PAGE" "$@" < /dev/null > found/out 2> found/err
        echo $? > found/status
        unhurried found/err
        check "bpfdb-page $*" "$wanted_status" '' "$wanted_errors"
    }

    # told WORD..: what bpfdb says of these words, as check reads it.
    told() {
        "$program" "$@" 2>&1 > /dev/null | sed 's/\\/\\\\/g; s/$/\\n/' | tr -d '\n'
    }

    # What docs/PAGE.md shows at a shell leaves a page.
    if has_clang 'the commands of docs/PAGE.md'; then
        mkdir typed
        sed -n 's/^\$ //p' "$top/docs/PAGE.md" | sed "s|/usr/local/share/doc/bpfdb|$top|" > commands
        (cd typed && PATH=$top/share:$PATH && . ../commands && [ -s run.html ]) > found/out 2> found/err
        echo $? > found/status
        unhurried found/err
        check 'docs/PAGE.md: its commands' 0 '' ''
    fi

    # What can't be made is refused in bpfdb's own words where it is bpfdb that refuses, and leaves nothing.
    mkdir left
    python3 -c 'import sys; sys.stdout.buffer.write(bytes.fromhex(sys.stdin.read()))' < "$top/examples/overrun/object.hex" > overrun.o
    cp "$top/examples/overrun/overrun.c" "$top/examples/overrun/context.bin" .
    printf 'mov r0, 1\nexit\n' > two.s
    printf 'mov r0\n' > wrong.s
    head -c 700 overrun.o > cut.o
    usage_end="\\n\\nFor more information, try '--help'.\\n"
    made 2 "error: -o PAGE names no file to write$usage_end" two.s
    made 2 "error: FILE is missing$usage_end" -o left/run.html
    made 2 "error: unexpected argument '--json' found$usage_end" -o left/run.html two.s --json
    # (what is no word of its own goes to trace and to debug, and what one of them doesn't take that one refuses)
    for row in 'trace --frob missing two.s' 'debug --calls two.s' 'trace -x two.s' 'trace --frob=3 two.s' 'trace two.s --journal 1024' 'trace two.s wrong.s'; do
        words=${row#* }
        # shellcheck disable=SC2086
        "$program" $row 2>&1 | grep -q '^error: unexpected argument' || complain "tests/program/page.sh: bpfdb takes $row"
        # shellcheck disable=SC2086
        made 2 "$(told $row)" -o left/run.html $words
    done
    # With --strict a page ends where the run of bpfdb does.
    printf 'stb [r10-1], 5\nldxh r0, [r10-2]\nexit\n' > stack.s
    printf 'ldxb r0, [r10-1]\nexit\n' > first.s
    made 0 '' -o strict.html --strict stack.s
    count=$((count + 1))
    grep -q '"steps":1,"first":1,"shown":1,"end":"read of 0x2000001fe at 1: not written since the call"' strict.html || complain 'bpfdb-page --strict: where the page ends'
    made 0 '' -o strict.html --strict two.s
    count=$((count + 1))
    grep -q '"steps":2,"first":1,"shown":2,"end":"exited at 1: r0 0x1"' strict.html || complain 'bpfdb-page --strict: a run without such a read'
    made 2 'bpfdb-page: the run has no steps: read of 0x2000001ff at 0: not written since the call\n' -o left/run.html --strict first.s
    made 2 'cannot read missing\n' -o left/run.html missing
    made 2 'cannot read missing\n' -o left/run.html -m missing two.s
    made 2 "$(told trace --listing wrong.s)" -o left/run.html wrong.s
    made 2 "$(told link cut.o)" -o left/run.html cut.o
    made 2 "$(told link --section none overrun.o)" -o left/run.html --section none overrun.o
    made 2 "$(told link --entry none overrun.o)" -o left/run.html overrun.o --entry=none
    made 2 "$(told link --struct xdp --with nothing.o overrun.o)" -o left/run.html overrun.o --struct xdp --with nothing.o
    made 2 "$(told link two.s)" -o left/run.html --object two.s
    made 2 "$(told trace --profile --words --maps 8 overrun.o)" -o left/run.html --maps 8 overrun.o
    made 2 'bpfdb-page: the run has 2 steps, and none from 3 on\n' -o left/run.html --from 3 two.s
    made 2 "cannot write $PWD/none/run.html\\n" -o none/run.html two.s
    made 2 "cannot write left\\n" -o left two.s
    if [ -c /dev/full ]; then
        made 2 'cannot write /dev/full\n' -o /dev/full two.s
    fi
    cp two.s left/context.bin
    made 2 'left/context.bin: it is read, and would be lost\n' -o left/context.bin -m left/context.bin two.s
    ln -s context.bin left/two.s
    made 2 'left/context.bin: it is read, and would be lost\n' -o left/context.bin left/two.s
    same 'bpfdb-page replaces nothing that it reads' two.s left/context.bin
    rm left/two.s left/context.bin
    mkdir source
    cp overrun.o overrun.c source
    made 2 'source/overrun.c: it is read, and would be lost\n' -o source/overrun.c -m context.bin source/overrun.o
    same 'bpfdb-page replaces no source' overrun.c source/overrun.c
    (ulimit -f 8 && made 2 "cannot write $PWD/left/run.html\\n" -o left/run.html two.s; exit "$failures") || failures=$((failures + 1))
    count=$((count + 1))
    ls -A left > found/left
    : > wanted/left
    same 'bpfdb-page leaves nothing of what it refuses' wanted/left found/left
    BPFDB=/bin/echo made 2 'what BPFDB names is no bpfdb\n' -o left/run.html two.s
    printf '#!/bin/sh\nkill -9 $$\n' > killed
    chmod 755 killed
    BPFDB=$PWD/killed made 2 'bpfdb ended with status -9\n' -o left/run.html overrun.o
    BPFDB=$PWD/killed made 2 'bpfdb ended with status -9\n' -o left/run.html two.s
    BPFDB=$PWD/nothing made 2 "cannot find $PWD/nothing\\n" -o left/run.html two.s

    # An option's value in each form that bpfdb takes, and what is said where bpfdb takes over a second.
    printf 'ldxb r0, [r1+0]\nexit\n' > first.s
    made 0 '' -o left/apart.html -m context.bin first.s
    made 0 '' -oleft/joined.html -mcontext.bin first.s
    made 0 '' first.s --output=left/equal.html --mem=context.bin --listing
    for form in joined equal; do
        same "bpfdb-page: options, $form" left/apart.html "left/$form.html"
    done
    printf '#!/bin/sh\ncase $* in *--profile*) sleep 1.5 ;; esac\nexec "$REAL" "$@"\n' > slow
    chmod 755 slow
    BPFDB=$PWD/slow REAL=$program "$BPFDB_PAGE" -o left/slow.html two.s > found/out 2>&1
    grep -q -x 'bpfdb-page: counting the steps \.\.' found/out || complain 'bpfdb-page: what is said where it takes long'
    rm left/*.html

    # A page that is there is replaced as a whole, and what comes through a pipe is read once.
    made 0 '' -o left/run.html two.s
    cp left/run.html left/again.html
    made 2 'cannot read missing\n' -o left/run.html missing
    same 'bpfdb-page leaves the page that was there' left/again.html left/run.html
    mkdir piped
    mkfifo piped/two.s
    cat two.s > piped/two.s &
    made 0 '' -o left/piped.html --listing piped/two.s
    same 'bpfdb-page of what a pipe brings' left/run.html left/piped.html
    "$BPFDB_PAGE" --help < /dev/null >&- 2> found/err
    echo $? > found/status
    : > found/out
    check 'bpfdb-page --help: a closed output' 2 '' 'cannot write output\n'
    "$BPFDB_PAGE" --help < /dev/null > found/out 2>&1 && grep -q '^usage: bpfdb-page -o PAGE' found/out || complain 'bpfdb-page --help'

    # A failing test leaves its page, whose name a file system takes. One that was refused never ran, and cells can't be traced.
    cat > some.test <<'TEST'
-- listing
mov r0, 1
exit
-- name
passes
-- result
1
-- name
of a/b, "c" & größe
-- result
0
-- name
of a/b, "c" &  größe
-- result
0
-- name
.
-- fault
depth
-- name
refused
-- listing
mov r0, 1
-- result
0
-- name
cells
-- maps
4x3
-- cells
0 1 0a000000
-- result
0
-- name
registers
-- regs
r3 = 5
-- result
0
TEST
    "$program" test some.test > wanted/report
    "$top/share/bpfdb-show" --page failed some.test > found/out 2> found/err
    echo $? > found/status
    unhurried found/err
    check 'bpfdb-show --page' 2 "$(text wanted/report)" \
        "no page of refused: refused C10 at slot 0: program runs off its end\nno page of cells: it sets cells before its first step, which 'bpfdb trace' can't\nno page of registers: it sets registers before its first step, which 'bpfdb trace' can't\n"
    ls -A failed > found/pages
    printf '%s\n' _..html 'of_a_b___c_____gr____e.html' 'of_a_b___c____gr____e.html' | LC_ALL=C sort > wanted/pages
    LC_ALL=C sort -o found/pages found/pages
    same 'bpfdb-show --page: the pages' wanted/pages found/pages
    grep -q '<title>of a/b, &quot;c&quot; &amp; größe</title>' 'failed/of_a_b___c____gr____e.html' || complain 'bpfdb-show --page: the title of a page'
    "$top/share/bpfdb-show" --page failed passes some.test > found/out 2> found/err
    echo $? > found/status
    unhurried found/err
    check 'bpfdb-show --page of one test' 0 '' ''
    [ -s failed/passes.html ] || complain 'bpfdb-show --page of one test leaves no page'
    "$top/share/bpfdb-show" --page failed none some.test > found/out 2> found/err
    echo $? > found/status
    check 'bpfdb-show --page of no test' 2 '' 'refused T7: no test of this name: none\n'
    "$top/share/bpfdb-show" --page > found/out 2> found/err
    echo $? > found/status
    check 'bpfdb-show --page of nothing' 2 '' 'usage: bpfdb-show --page DIR [NAME] FILE\n'
    sed -n '1,/^1$/p' some.test > passes.test
    "$top/share/bpfdb-show" --page none passes.test > found/out 2> found/err
    echo $? > found/status
    check 'bpfdb-show --page where no test fails' 0 '1..1\nok 1 - passes\n' ''
    for name in 'twice / twice' 'twice _ twice'; do printf -- '-- name\n%s\n-- listing\nexit\n-- result\n1\n' "$name"; done > some.test
    "$top/share/bpfdb-show" --page twice some.test > /dev/null 2> found/err
    ls -A twice > found/pages
    printf '%s\n' twice___twice-2.html twice___twice.html > wanted/pages
    same 'bpfdb-show --page of two names that are one name of a file' wanted/pages found/pages
    rm -r failed twice none

    # begin_trials KIND: the trials of the pages in the folder KIND, beside what follows, where there is a browser.
    begin_trials() {
        [ -n "$browser" ] || return
        python3 "$top/tests/trials/pages.py" "$1" "$1" > "told-$1" 2>&1 &
        started="$started $!"
    }
    browser='' making='' variables=''
    ! has chromium 'pages of runs in a browser' || browser=chromium
    mkdir states moves long names variables

    # An object, with its functions and lines; and one whose names, source and files are made to be obeyed.
    "$BPFDB_PAGE" -o moves/overrun.html -m context.bin overrun.o 2> found/err || complain "no page of overrun.o: $(cat found/err)"
    printf '%s\n' -m "$top/examples/overrun/context.bin" "$top/examples/overrun/program.bin" > moves/overrun.words
    cat > hostile.py <<'PYTHON'
import struct
data = bytearray(open('overrun.o', 'rb').read())
name = b'</script><script>obeyed=1</script><img src=x onerror=obeyed=1>&lt;\x1b[8m\xe2\x80\xae\xff@@STEPS@@'
start, = struct.unpack_from('<Q', data, 40)
count, = struct.unpack_from('<H', data, 60)
headers = [start + 64 * at for at in range(count)]
symbols = next(at for at in headers if struct.unpack_from('<I', data, at + 4)[0] == 2)
strings = headers[struct.unpack_from('<I', data, symbols + 40)[0]]
place, size = struct.unpack_from('<QQ', data, strings + 24)
begin, length = struct.unpack_from('<QQ', data, symbols + 24)
text = bytes(data[place:place + size])
for at in range(begin, begin + length, 24):
    offset, = struct.unpack_from('<I', data, at)
    if text[offset:].startswith(b'copy\0'):
        struct.pack_into('<I', data, at, size)
struct.pack_into('<QQ', data, strings + 24, len(data), size + len(name) + 1)
data += text + name + b'\0'
open('<img src=x onerror=obeyed=1>.o', 'wb').write(data)
line = '\t</script><!-- <script>obeyed=1</script> \u202e@@RUN@@ ]]> \x07 \\u003c'
source = open('overrun.c').read().split('\n')
source[20] = line
open('overrun.c', 'w').write('\n'.join(source))
shown = lambda text: text.replace('\x1b', '\\x1b').replace('\u202e', '\\xe2\\x80\\xae').replace('\x07', '\\x07')
print(shown(name.replace(b'\xff', b'\\xff').decode()))
print(shown(line))
print('<img src=x onerror=obeyed=1>.o on <b>&amp;')
PYTHON
    python3 hostile.py > names/hostile.txt
    cp context.bin '<b>&amp;'
    "$BPFDB_PAGE" -o names/hostile.html -m '<b>&amp;' '<img src=x onerror=obeyed=1>.o' 2> found/err || complain "no page of hostile names: $(cat found/err)"
    begin_trials moves
    begin_trials names

    # A program with variables, of whose array no first byte is written.
    if has_clang 'a page of variables'; then
        cat > variables.c <<'C'
struct flow { unsigned long long packets; unsigned source, port; };
static volatile struct flow flows[16];
static volatile unsigned total;
__attribute__((section("prog"))) unsigned long long entry(const unsigned char *p, unsigned long long size)
{
	for (unsigned long long at = 0; at < size; at++) {
		volatile struct flow *flow = &flows[1 + at % 14];
		flow->packets++;
		flow->source = p[at];
		total += 1;
	}
	return flows[3].packets;
}
C
        clang -g -O1 -target bpf -c variables.c
        cp context.bin variables.bin
        "$BPFDB_PAGE" -o variables/variables.html -m variables.bin variables.o 2> found/err || complain "no page of variables.o: $(cat found/err)"
        printf '%s\n' -m "$PWD/variables.bin" --object "$PWD/variables.o" > variables/variables.words
        begin_trials variables
        variables=variables
    fi

    # What a page holds of an XDP program with a hash as the kernel loads it: the object's functions behind the 13 slots that give it its packet, and those of
    # what is joined to it, with their lines; and the variables of the one above.
    if has_clang 'a page of joined objects'; then
        limiter
        cat > held.py <<'PYTHON'
import json, re, sys
run = json.loads(re.search(r'(\{"title".*?\})</script>', open(sys.argv[1]).read(), re.DOTALL)[1])
print(run['end'])
print(*sorted(name for _, name in run['functions']))
names = dict(run['functions'])
print(*sorted({f"{names[max(start for start in names if start <= slot)]}:{run['files'][file]['name']}:{line}" for slot, file, line in run['lines']
               if line in (8, 9, 22, 33)}))
print(*sorted(f'{name} {size}' for _, size, name in run['variables']))
PYTHON
        made 0 '' -o left/limit.html --struct xdp --with mock.o -m ipv6.bin limit.o
        python3 held.py left/limit.html > found/held
        printf '%s\n' 'exited at 12: r0 0x2' '_setup _start bpf_map_lookup_elem bpf_map_update_elem is_known limit' \
            'bpf_map_update_elem:mock.c:9 is_known:limit.c:22 limit:limit.c:33' '' > wanted/held
        same 'the page of limit.o' wanted/held found/held
        # (16 flows of 16 bytes, and a number of 4)
        python3 held.py variables/variables.html | sed -n 4p > found/held
        echo 'flows 256 total 4' > wanted/held
        same 'the variables of a page' wanted/held found/held
        rm left/limit.html
    fi

    # The programs whose pages are held to bpfdb: the examples, and a listing for each kind of step, of end, and of excerpt. They are made side by side.
    # page NAME WORD..: the page states/NAME.html of a run, and the words for bpfdb beside it.
    page() {
        name=$1
        shift
        printf '%s\n' "$@" | grep -v -e '^--from=' -e '^--count=' > "states/$name.words"
        "$BPFDB_PAGE" -o "states/$name.html" "$@" > "states/$name.said" 2>&1 &
        started="$started $!" making="$making $!"
    }
    for example in fault records wrong-byte counters checksum count xdp suite overrun firewall listen; do
        # (the words of an example are without blanks; those of files get its folder)
        # shellcheck disable=SC2046
        page "$example" $(tr ' ' '\n' < "$top/examples/$example/arguments" | sed "s#^\([a-z]*\.[a-z]*\)\$#$top/examples/$example/\1#")
    done
    bytes context 01 02 03
    cat > kinds.s <<'LISTING'
        mov r6, -2
        ldxb r3, [r1+1]
        lddw r5, 0x1234
        stxdw [r10-8], r3
        stb [r10-1], 7
        mov r4, 5
        atomic_fetch_add64 [r10-8], r4
        atomic_add32 [r10-13], r6
        mov r0, 1
        atomic_cmpxchg64 [r10-8], r6
        atomic_cmpxchg64 [r10-8], r6
        jeq r3, 2, on
        exit
on:     callf f
        mov r1, 7
        call 64
        jne r3, 2, on
        callf f
        exit
f:      mov r7, 9
        mov r6, r10
        stxdw [r10-24], r6
        jeq r8, 3, back
        mov r8, 3
        callf f
        mov r9, r8
back:   exit
LISTING
    page kinds --listing -m "$PWD/context" "$PWD/kinds.s"
    cat > updates.s <<'LISTING'
        stw [r10-4], 1
        mov r6, 3
next:   stxdw [r10-24], r6
        stxb [r10-9], r6
        ldmap r1, 1
        mov r2, r10
        add r2, -4
        mov r3, r10
        add r3, -24
        mov r4, 0
        call 2
        ldmapval r3, 1, 12
        ldmap r1, 1
        mov r2, r10
        add r2, -4
        call 2
        ldmap r1, 0
        mov r2, r10
        add r2, -4
        mov r3, r10
        add r3, -24
        call 2
        ldmap r1, 0
        mov r2, r10
        add r2, -4
        call 1
        stxw [r0+1], r6
        stxw [r10-4], r6
        add r6, -1
        jne r6, 0, next
        mov r4, 7
        call 2
        exit
LISTING
    page updates --listing --maps=8x4,16x3 "$PWD/updates.s"
    printf 'f: stxdw [r10-8], r10\nmov r6, r10\ncallf f\nexit\n' > deep.s
    page deep --listing "$PWD/deep.s"
    printf 'mov r1, 5\nmov r2, r10\nadd r2, -4\ncall 1\nexit\n' > token.s
    page token --listing "$PWD/token.s"
    printf 'loop: add r0, 1\nstxdw [r10-8], r0\nja loop\n' > loop.s
    page limit --listing --steps=17 "$PWD/loop.s"
    cat > long.s <<'LISTING'
        mov r6, 12
        stxdw [r10-24], r6
        call 64
loop:   mov r1, r6
        callf f
        add r7, r0
        add r6, -1
        stxdw [r10-8], r7
        jne r6, 0, loop
        mov r0, r7
        exit
f:      lddw r5, 0x9e3779b97f4a7c15
        mov r4, 2000
g:      mul r5, r4
        xor r0, r5
        stxdw [r10-16], r0
        add r4, -1
        jne r4, 0, g
        exit
LISTING
    page excerpt --listing --from=5000 --count=3000 "$PWD/long.s"
    made 0 'bpfdb-page: the run has 120113 steps; the page shows 100000 of them, 20114 to 120113: --from K and --count N choose others\n' -o states/last.html long.s
    printf '%s\n' --listing "$PWD/long.s" > states/last.words
    seq 9000 | awk '{ print ($1 % 40 ? "" : "n" $1 ": ") "add r0, " $1 " ; line " $1 } END { print "exit" }' > wide.s
    page wide --listing "$PWD/wide.s"
    python3 -c 'import sys; sys.stdout.buffer.write(bytes.fromhex(sys.stdin.read()))' < "$top/examples/firewall/object.hex" > firewall.o
    cp "$top/examples/firewall/firewall.c" .
    page firewall -m "$top/examples/firewall/context.bin" firewall.o
    # (the words for bpfdb are those of the linked program)
    printf '%s\n' -m "$top/examples/firewall/context.bin" --maps 8x5 "$top/examples/firewall/program.bin" > states/firewall.words

    for process in $making; do
        wait "$process"
    done
    for said in states/*.said; do
        unhurried "$said"
        name=$(basename "$said" .said)
        [ -s "states/$name.html" ] && [ ! -s "$said" ] || complain "the page of $name: $(cat "$said")"
    done
    grep -q '"maps":\[\[8,5,"verdicts"\]' states/firewall.html 2> found/err || complain 'the page of a firewall has no name of its map'
    begin_trials states

    # Pages of 100,000 steps: of a loop, and of one whose steps all write what can't be told in short.
    cp states/last.html long
    cat > random.s <<'LISTING'
        lddw r1, 0x9e3779b97f4a7c15
        lddw r3, 0x2545f4914f6cdd1d
next:   mul r1, r3
        stxdw [r10-8], r1
        xor r1, 0x55
        stxdw [r10-16], r1
        add r1, r3
        stxdw [r10-24], r1
        ja next
LISTING
    "$BPFDB_PAGE" -o long/random.html --steps 100000 random.s 2> found/err || complain "no page of random.s: $(cat found/err)"
    begin_trials long
    for process in $started; do
        wait "$process"
    done
    started=''
    for kind in ${browser:+states moves long names $variables}; do
        grep -v '^[0-9]* trials$' "told-$kind"
        trials=$(sed -n 's/^\([0-9]*\) trials$/\1/p' "told-$kind")
        [ -n "$trials" ] || complain "pages: $kind came to no end"
        count=$((count + ${trials:-0}))
        failures=$((failures + $(grep -c '^FAILED: ' "told-$kind")))
    done
fi
