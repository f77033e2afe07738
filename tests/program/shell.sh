# bpfdb-shell: what gdb's habits become (tables/shell.txt, and for C shell-c.txt), each at a terminal in a session of its own, what it is without a terminal, objects and
# listings that it takes by themselves, colours, completion, and a machine without python3. Where there is no python3 only the last is tested.

shell=$top/share/bpfdb-shell
BPFDB=$program
export BPFDB
sed -n '/^#   1 ;/,/^# going/p' "$parts/tables/shell.txt" | sed '/^# going/d; s/^# *[0-9]* //; s/  *; [0-9]*$//' > sum.s
printf '\001\002' > context
printf 'si # a step\n\n# nothing\n' > commands
sed -i '2s/.*/i h/' commands
echo 'source itself' > itself
compile terminal

# shown FILE: what a terminal shows of a session, without prompts and empty lines, and without the number of the copy of an object.
shown() {
    sed 's/(bpfdb) //g; s|/dev/fd/[0-9]*|KEPT|' "$1" | grep -v '^$'
}

# habit BEFORE TYPED LINES: what is typed after other lines, in a session of the words $opened, prints these lines, a slash between two.
habit() {
    { echo "$1" | sed 's/; /\n/g' | grep .; echo '?'; echo "$2"; } > script
    # (these words have no blanks)
    # shellcheck disable=SC2086
    HOME=$PWD NO_COLOR=1 ./terminal script "$shell" $opened > found/all 2>&1
    shown found/all | awk "inside; \$0 == \"bpfdb-shell: 'help' lists the commands; 'man bpfdb' describes them\" { inside = 1 }" > found/out
    echo "$3" | sed 's| / |\n|g' > wanted/out
    count=$((count + 1))
    agree out && return
    complain "bpfdb-shell: '$2'${1:+ after '$1'}"
    diff wanted/out found/out
}

# plainly NAME STATUS SCRIPT OUTPUT ERRORS WORD..: a session without a terminal.
plainly() {
    name=$1 status=$2 output=$4 errors=$5
    printf '%b' "$3" > script
    shift 5
    "$shell" "$@" < script > found/out 2> found/err
    echo $? > found/status
    check "bpfdb-shell without a terminal: $name" "$status" "$output" "$errors"
}

# habits TABLE WORD..: each row of a table, in sessions of these words.
habits() {
    grep -v '^#' "$parts/tables/$1" > rows
    shift
    opened="$*"
    while IFS= read -r line; do
        before=${line%%|*} rest=${line#*| }
        habit "${before% }" "${rest%% | *}" "${rest#* | }"
    done < rows
}

if has python3 'bpfdb-shell'; then
    # (python3 itself, where the one on the PATH is a script that looks for it)
    PATH=$(dirname "$(python3 -c 'import sys; print(sys.executable)')"):$PATH
    habits shell.txt -m context sum.s
    printf 'mov r0, 1\nexit\n' > plain.s
    printf 'mov r0, 1 \r \nexit\n' > blank.s
    printf 'exit\n\013\n' > control.s
    ln -s /proc/self/mem unread.s

    # Without a terminal there are the replies alone, as bpfdb has them; refusals are those of bpfdb; an empty line repeats.
    plainly 'short names, comments and empty lines' 0 'si # a step\n\n# nothing\n   \nrs\nfrob\nset reg r10 1\nx 0x100000000 2' \
        '1 forward; done; at 3: mov r0, 0\n1 forward; done; at 4: jeq r2, 0, L10\n1 forward; done; at 5: ldxb r3, [r1+0]\n1 back; done; at 4: jeq r2, 0, L10\nrefused Q1: unknown command\n'\
'refused Q7: register not writable\n0x100000000: 0102\n' '' -m context sum.s
    plainly 'lines that end in a carriage return' 0 'c\r\n\r\nq now\r\nrs 2' \
        '18 forward; end; exited at 2: r0 0x3\nrefused Q3: the machine has ended\nrefused Q2: wrong argument\n2 back; done; at 1: stxb [r10-8], r0\n' '' -m context --listing sum.s
    plainly 'an empty line goes on with a listing' 0 'l 8\n\n' "$(printf '%s\n' '8: add r2, -1' '9: ja L4' '10: exit' | sed 's/$/\\n/' | tr -d '\n')" \
        "bpfdb-shell: the program ends there; 'l 0' begins anew\n" -m context sum.s
    plainly 'where it starts, and the calls by their functions' 0 'start\nsi 3\nstart\nsi 3\nbt\n' \
        'at 0: callf L3\n3 forward; done; at 5: ldxb r3, [r1+0]\n3 back; start; at 0: callf L3\n3 forward; done; at 5: ldxb r3, [r1+0]\n'\
'depth 1, in sum (sum.s:7)\nreturns to 1 r6=0x0 r7=0x0 r8=0x0 r9=0x0, in entry (sum.s:2)\n' '' -m context sum.s
    # Where going back ends at the journal's start, because moves were dropped, it says so. (An addition takes 16 bytes of the journal, a jump 7,
    # so 1,024 bytes hold 89 of them, and the largest 1,458,176 if it held as many a byte; of words for two digits that is 1,500,000.)
    printf 'loop: add r0, 1\nja loop\n' > endless.s
    dropped='bpfdb-shell: the journal dropped 111 moves: --journal 16777216 would keep some 1,500,000\n'
    plainly 'going back to where moves were dropped' 0 'c\nrc\nrs\nundo\norigin r0\nsi\norigin r0\nstart\n' \
        '200 forward; limit; at 0: add r0, 1\n89 back; start; at 1: ja L0\nrefused Q4: no kept step\nrefused Q5: fewer kept commands\nleft r0 = 0x38; before the kept history\n'\
'1 forward; done; at 0: add r0, 1\nleft r0 = 0x38; before the kept history\n1 back; start; at 1: ja L0\n' \
        "$dropped$dropped$dropped$dropped$dropped$dropped" --journal 1024 --steps 200 endless.s
    printf 'jeq r1, 0, none\nldxb r0, [r1+0]\nexit\nnone: mov r0, 1\nexit\n' > first.s
    decided='-3 0: jeq r1, 0, L3; r1 = 0x0; jumped to 3 (first.s:1)\nat 0: jeq r1, 0, L3\nleft r1 = 0x0; at the opening\n'
    plainly 'why it did not come to a slot, a line or a label' 0 'c\nwhynot 1\nwhynot first.s:2\nwhynot none\nrs\nwhynot none+1\nwhynot\nwhynot nosuch\nwhynot 9\n' \
        "3 forward; end; exited at 4: r0 0x1\n$decided${decided}it was reached 2 moves back\n1 back; done; at 4: exit\nit can still be reached\nrefused V5: no such place: nosuch\nrefused V4: no instruction starts at the slot\n" \
        'bpfdb-shell: whynot PLACE: a slot, a label, LABEL+1, FILE:LINE or =VALUE\n' first.s
    plainly 'why it did not make a value, and when it did' 0 'c\nwhynot =1\nwhynot =7\n' \
        '3 forward; end; exited at 4: r0 0x1\nmade: -2 r0 = 0x1; 3: mov r0, 1 (first.s:4)\neach instruction that makes it ran\nrefused V7: no instruction makes the value\n' '' first.s
    printf 'stb [r10-1], 5\nldxh r0, [r10-2]\nexit\n' > stack.s
    plainly 'a strict session, whose moves another one makes again' 0 'c\nwhynot stack.s:3\nc\nset reg r1 7\n' \
        '1 forward; strict; at 1: ldxh r0, [r10-2]\nread of 0x2000001fe at 1: not written since the call\nit can still be reached\n2 forward; end; exited at 2: r0 0x500\nok\nnot strict behind an edit\n' '' --strict stack.s
    plainly 'going back to the first move' 0 'si 5\nrc\nrs\n' '5 forward; done; at 1: ja L0\n5 back; start; at 0: add r0, 1\nrefused Q4: no kept step\n' '' endless.s
    plainly 'going back in the largest journal' 0 'c\nc\nc\nrc\n' \
        "$(for at in 1 2 3; do printf '1000000 forward; limit; at 0: add r0, 1\\n'; done)1458888 back; start; at 0: add r0, 1\n" \
        'bpfdb-shell: the journal dropped 1,541,112 moves, and has the most bytes that it may have\n' --journal 16777216 endless.s
    plainly 'nothing behind quit is obeyed' 0 'si\nq\nsi\n' '1 forward; done; at 1: exit\n' ''
    digits=$(awk 'BEGIN { for (i = 0; i < 5000; i++) printf 1 }')
    plainly 'numbers that are too large' 0 "p $digits\nb x.s:$digits\nx/${digits}xb 0\nb 18446744073709551616\np 18446744073709551616\np 18446744073709551615\n" \
        'refused Q12: line too long\nrefused Q12: line too long\nrefused Q12: line too long\nrefused Q2: wrong argument\n18446744073709551615 = 0xffffffffffffffff (-1)\n' \
        'bpfdb-shell: no value: 18446744073709551616 (a register as $r0, a number, a label, or a sum of them)\n'
    plainly 'a byte zero' 0 'si\norigin r0\0000\n' '1 forward; done; at 1: exit\nrefused V1: neither r0 to r9 nor ADDRESS:COUNT\n' '' plain.s
    plainly 'bytes that a terminal obeys' 0 'p \0033]0;T\0007\0302\0233\0342\0200\0256\0233\n' '' \
        'bpfdb-shell: no value: \\x1b]0;T\\x07\\xc2\\x9b\\xe2\\x80\\xae\\x9b (a register as $r0, a number, a label, or a sum of them)\n'
    plainly 'a listing with a control byte' 2 's\n' '' 'refused A6 at line 2: byte outside ASCII text\n' control.s
    plainly "a listing that can't be read" 2 's\n' '' 'cannot read unread.s\n' unread.s
    "$shell" --help > wanted/help
    "$shell" -m context --help < /dev/null > found/help 2>&1
    same 'bpfdb-shell: help behind other words' wanted/help found/help
    opened=blank.s
    habit '' 'info line 1' '1: blank.s:2: exit'
    # Where it is installed bpfdb is beside it, and needn't be on the PATH.
    mkdir placed placed/bin placed/share
    cp "$shell" placed/bin
    cp -r "$top/share/bpfdb" placed/share
    ln -s "$program" placed/bin/bpfdb
    echo si | (unset BPFDB && placed/bin/bpfdb-shell plain.s) > found/out 2> found/err
    echo $? > found/status
    check 'bpfdb-shell: bpfdb beside it' 0 '1 forward; done; at 1: exit\n' ''
    plainly 'no program' 2 'si\n' '' 'cannot read missing\n' missing
    plainly 'a refused program' 2 'si\n' '' 'refused C3: length is no multiple of 8\n' context
    # Words that bpfdb doesn't take it refuses itself, whatever stands behind them.
    for words in --frob '--frob plain.s' '--frob=3 plain.s' 'plain.s --frob 3' '-m context --frob plain.s first.s' '--step 5 plain.s' 'plain.s first.s' 'plain.s -m' \
        '--words=3 plain.s'; do
        # shellcheck disable=SC2086
        "$program" debug $words < /dev/null 2> wanted/err
        grep -q '^error: ' wanted/err || complain "tests/program/shell.sh: bpfdb takes $words"
        # shellcheck disable=SC2086
        plainly "no option: $words" 2 'si\n' '' "$(text wanted/err)" $words
    done
    if [ -c /dev/full ]; then
        printf 'si\nsi\n' | "$shell" > /dev/full 2> found/err
        echo $? > found/status
        : > found/out
        check 'bpfdb-shell: a full output' 2 '' 'cannot write output\n'
    fi

    for words in --help plain.s; do
        echo si | "$shell" "$words" >&- 2> found/err
        echo $? > found/status
        : > found/out
        check "bpfdb-shell $words: a closed output" 2 '' 'cannot write output\n'
    done
    # (a line without an end is refused when it ends, and takes no memory till then)
    (ulimit -v 400000 && { head -c 200000000 /dev/zero && printf '\nsi\n'; } | "$shell") > found/out 2> found/err
    echo $? > found/status
    check 'bpfdb-shell: a line of 200 MB' 0 'refused Q12: line too long\n1 forward; done; at 1: exit\n' ''

    "$shell" 0> other > found/out 2> found/err
    echo $? > found/status
    check "bpfdb-shell: input that can't be read" 2 '' 'cannot read input\n'
    "$shell" < "$top" > found/out 2> found/err
    echo $? > found/status
    check 'bpfdb-shell: a folder for input' 2 '' 'cannot read input\n'
    printf 'p $none\nsi\n' | "$shell" > found/out 2>&-
    echo $? > found/status
    : > found/err
    check 'bpfdb-shell: a closed standard error' 0 '1 forward; done; at 1: exit\n' ''

    # Each other name that help lists does what its command does.
    "$shell" --help | grep -o -E '[a-z-]+( [a-z]+)? \([a-z, -]+\)' |
        awk -F ' *[(]' '{ n = split($2, names, /[,) ]+/); for (i = 1; i < n; i++) print $1 "|" names[i] }' > names
    for column in 1 2; do
        cut -d '|' -f "$column" names | while read -r name; do
            printf '%s\n%s 1\n%s 0 2\n%s 0x2000001f8\nstepi 3\n' "$name" "$name" "$name" "$name"
        done | "$shell" -m context sum.s > "found/names-$column" 2>&1
    done
    same 'bpfdb-shell: each other name is its command' found/names-1 found/names-2
    [ "$(wc -l < names)" -ge 25 ] || complain 'bpfdb-shell --help lists no other names'

    # At a terminal a refusal of the program has the line of its slot, or says that FILE looks like a listing.
    printf 'mov r0, 0\nja end ; too far\nexit\nend:\n' > far.s
    printf 'mov r0, 0\nexit\n' > plain.txt
    printf 'int f(void) { return 0; }\n' > f.c
    printf 'ldmap r1, 0\nexit\n' > map.s
    : > script
    for row in 'far.s|refused C8 at slot 1: target is no instruction|far.s:2: ja end' \
        'plain.txt|refused C3: length is no multiple of 8|plain.txt looks like a listing: --listing' 'context|refused C3: length is no multiple of 8' \
        'f.c|refused C3: length is no multiple of 8|f.c looks like C: clang -target bpf -O2 -g -c f.c' \
        'map.s|refused C12 at slot 0: no such map or offset|map.s:1: ldmap r1, 0|the program has maps: --maps VxN,VxN (bytes of a value, entries); of an object clang -g tells them'; do
        HOME=$PWD ./terminal script "$shell" "${row%%|*}" > found/out 2> found/err
        echo $? > found/status
        check "bpfdb-shell ${row%%|*} at a terminal" 2 '' "$(echo "${row#*|}" | sed 's/|/\\n/g')\n"
    done

    # An object is taken with its maps; one that is refused ends it.
    python3 -c 'import sys; sys.stdout.buffer.write(bytes.fromhex(sys.stdin.read()))' < "$top/examples/overrun/object.hex" > overrun.o
    cp "$top/examples/overrun/overrun.c" .
    cp "$top/examples/overrun/context.bin" .
    # (patched OBJECT SECTION OLD NEW: that object with other bytes in a section)
    cat > patched.py <<'PYTHON'
import struct, sys
data = bytearray(open('overrun.o', 'rb').read())
start, = struct.unpack_from('<Q', data, 40)
count, names = struct.unpack_from('<HH', data, 60)
headers = [struct.unpack_from('<IIQQQQ', data, start + 64 * at) for at in range(count)]
name, old, new = (word.encode('latin-1').decode('unicode_escape').encode('latin-1') for word in sys.argv[2:])
for header in headers:
    at = headers[names][4] + header[0]
    if data[at:at + len(name) + 1] == name + b'\0':
        found = data.index(old, header[4], header[4] + header[5])
        data[found:found + len(new)] = new
open(sys.argv[1], 'wb').write(data)
PYTHON
    patched() {
        python3 patched.py "$@" || complain "tests/program/shell.sh: $1 isn't made"
    }
    habits shell-c.txt -m context.bin overrun.o
    for words in '--helper 6=0 --as-compiled' '--helper=6=0' '--stub 6=0'; do
        opened="$words -m context.bin overrun.o"
        habit '' 'b overrun.c:26' '> break 24 / ok'
    done
    # What the debug information names may be anything, and so may names of functions.
    patched named.o .strtab '\0copy' '\0c\33\n\233'
    opened=named.o
    habit '' 'info functions' '0: entry / 13: c\\x1b\\x0a\\x9b / 24: size_of'
    patched lined.o .BTF 'overrun.c' 'over\nun.c'
    opened=lined.o
    habit '' 'info line 1' '1: over\\x0aun.c:29 <entry+1>'
    mkdir sources
    opened=sources/overrun.o
    cp overrun.o sources
    sed '21s/.*/to\t[i] = \o33[8m\o302\o233\o342\o200\o256\o233;/' overrun.c > sources/overrun.c
    habit '' 'info line copy+2' '15: overrun.c:21 <copy+2>: to [i] = \\x1b[8m\\xc2\\x9b\\xe2\\x80\\xae\\x9b;'
    ln -s -f /proc/self/mem sources/overrun.c
    habit '' 'info line copy+2' '15: overrun.c:21 <copy+2>'
    rm sources/overrun.c
    python3 -c 'open("sources/overrun.c", "w").truncate(400 << 20)'
    count=$((count + 1))
    (failures=0; ulimit -v 400000; habit '' 'info line copy+2' '15: overrun.c:21 <copy+2>'; exit "$failures") || failures=$((failures + 1))
    rm -r sources
    patched nameless.o .symtab '\7\0\0\0\2\0\2\0' '\377\377\377\177\2\0\2\0'
    opened=nameless.o
    habit '' 'info functions' '0: entry / 24: size_of'
    if has_clang '`start` in bpfdb-shell, and lines without code'; then
        clang -g -O2 -target bpf -I "$parts/c" -c "$parts/c/counter.c"
        opened='-m context counter.o'
        habit start 'p $pc' '> info regs / $pc = 0x1 (1)'
        habit 'start; stepi 3; start' 'p $pc' '> info regs / $pc = 0x1 (1)'
        # A line without code of its own isn't another line; a breakpoint moves on.
        cp "$parts/gdb/verdict.c" .
        clang -g -O2 -target bpf -c verdict.c
        printf '\7\2' > kind
        near='bpfdb-shell: there is no instruction at verdict.c'
        plainly 'why not a line without code of its own' 0 'c\nwhynot verdict.c:8\nwhynot ./verdict.c:8\nwhynot verdict.c:1\nwhynot verdict.c:99\nwhynot other.c:8\nwhynot verdict.c:9\nb verdict.c:8\ni b\n' \
            '8 forward; end; exited at 8: r0 0x2\nit was reached 1 moves back\nok\nbreak 8\n' \
            "$near:8: the nearest are at verdict.c:7, verdict.c:9\nbpfdb-shell: there is no instruction at ./verdict.c:8: the nearest are at ./verdict.c:7, ./verdict.c:9\n"\
"$near:1: the nearest are at verdict.c:3\n$near:99: the nearest are at verdict.c:9\nbpfdb-shell: there is no instruction at other.c:8\n" -m kind verdict.o
        # A verdict by its name: the branch behind which it was out of reach, and the one that was made.
        plainly 'why not a verdict' 0 'c\nwhynot XDP_DROP\nwhynot XDP_PASS\nwhynot XDP_NONE\n' \
            '8 forward; end; exited at 8: r0 0x2\n-2 6: jeq r1, 0, L8; r1 = 0x0; jumped to 8; in verdict (verdict.c:7)\nat 6: jeq r1, 0, L8\n'\
'-1 r1 = 0x0; 5: and r1, 1; from r1; in verdict (verdict.c:7)\n-2 r1 = 0x2; 4: ldxb r1, [r1+1]; from 0x100000001:1; in verdict (verdict.c:7)\n'\
'left 0x100000001:1 = 0x2; byte 1 of the context; at the opening\nmade: -8 r0 = 0x2; 0: mov r0, 2; in verdict (verdict.c:3)\n'\
'each instruction that makes it ran\nrefused V5: no such place: XDP_NONE\n' '' -m kind verdict.o

        # An XDP program as the kernel loads it, whose entry's 13 slots come first, and which is joined to what answers its helpers: its packet is the first of
        # its protocol, and passes (2). Names and lines are right wherever its code lies.
        limiter
        for joined in mock.o bpfdb-linux.o; do
            printf 'b limit.c:22\nc\nbt\nc\nwhynot limit.c:32\norigin r0\nstart\ninfo symbol\nb bpf_map_update_elem\nc\nc\nbt\n' > script
            "$shell" --struct xdp --with "$joined" -m ipv6.bin limit.o < script 2> found/err > found/all
            echo $? > found/status
            grep -o -e 'in [a-z_]* (limit.c:.*' -e 'in _start$' -e 'exited at.*' -e '^[0-9]*: limit$' -e 'in bpf_map_update_elem' -e '^left r0.*' found/all |
                sed 's/^[0-9]*: //' > found/out
            check "bpfdb-shell: an XDP program with a hash, joined to $joined" 0 \
                'in is_known (limit.c:22)\nin limit (limit.c:33)\nin _start\nexited at 12: r0 0x2\nin limit (limit.c:33)\nlimit\nin bpf_map_update_elem\nin is_known (limit.c:22)\nin limit (limit.c:33)\nin _start\n' \
                'bpfdb-shell: there is no instruction at limit.c:32: the nearest are at limit.c:31, limit.c:33\n'
        done
    fi
    plainly 'an object' 0 'c\n' '105 forward; end; fault access 0x10077656d at 25\n' '' -m context.bin overrun.o
    # Where bpfdb is killed, it says so.
    printf '#!/bin/sh\nkill -9 $$\n' > killed
    chmod 755 killed
    (BPFDB=$PWD/killed failures=0; plainly 'bpfdb is killed' 2 'si\n' '' 'bpfdb-shell: bpfdb ended with status -9\n' context
        plainly 'bpfdb is killed, of an object' 2 'si\n' '' 'bpfdb-shell: bpfdb ended with status -9\n' overrun.o; exit "$failures") || failures=$((failures + 1))
    count=$((count + 2))
    # What comes by a pipe can be read but once, and origin needs it again.
    mkfifo pipe
    cat context.bin > pipe &
    plainly 'a context by a pipe' 0 'c\norigin r0\n' '105 forward; end; fault access 0x10077656d at 25\n-9 r0 = 0x77; 19: ldxb r0, [r0+0]; from 0x10000000c:1; in copy (overrun.c:21)\n'\
'left 0x10000000c:1 = 0x77; byte 12 of the context; at the opening\n' '' -m pipe overrun.o
    cat overrun.o > pipe &
    plainly 'an object by a pipe' 0 'b copy\nc\norigin r7\n' 'ok\n10 forward; break; at 13: jeq r3, 0, L23\nleft r7 = 0x0; at the opening\n' '' --mem=context.bin pipe
    rm pipe
    # (a Python that finds no folder for temporary files)
    mkdir full
    printf 'import tempfile\ntempfile.tempdir = "/nowhere"\n' > full/sitecustomize.py
    (failures=0 PYTHONPATH=$PWD/full; export PYTHONPATH; plainly 'an object, and no folder for temporary files' 0 'b copy\nc\n' \
        'ok\n10 forward; break; at 13: jeq r3, 0, L23\n' '' -m context.bin overrun.o; exit "$failures") || failures=$((failures + 1))
    count=$((count + 1))
    plainly 'a function of an object' 0 'b copy\nc\n' 'ok\n10 forward; break; at 13: jeq r3, 0, L23\n' '' -m context.bin overrun.o
    plainly 'an object, and a section that it has' 0 'c\n' '105 forward; end; fault access 0x10077656d at 25\n' '' \
        --section filter -m context.bin overrun.o
    plainly 'an object, and a section that it lacks' 2 'c\n' '' 'refused E8: no such code section: .text, filter\n' --section nothing overrun.o

    # Its words go on as they are, in their order: to debug, and those that load takes to load. With --maps an object is linked, since bpfdb takes
    # --maps of words alone.
    cat > noted <<'SCRIPT'
#!/bin/sh
[ "$2" != --help ] || exec "$REAL" "$@"
echo "$*" | sed 's|/dev/fd/[0-9]*|KEPT|' >> called
case $1 in
link) printf '\225\0\0\0\0\0\0\0' && printf -- '--maps 8x2\nmap 0: counters\ncalls answered by --helper: 1\n' >&2 ;;
*) exec "$REAL" "$@" ;;
esac
SCRIPT
    chmod 755 noted
    for row in \
        '-m context overrun.o|load --json -- KEPT|debug -m context --questions --json -- KEPT' \
        '--section filter overrun.o --steps 9|load --section filter --json -- KEPT|debug --section filter --steps 9 --questions --json -- KEPT' \
        '--steps=9 --no-linux overrun.o|load --no-linux --json -- KEPT|debug --steps=9 --no-linux --questions --json -- KEPT' \
        '--entry=entry --object -mcontext --section filter --maps=1x1 overrun.o|lines --entry=entry --object --section filter --json -- KEPT|link --entry=entry --section filter -- KEPT|load --maps=1x1 --json -- KEPT|debug -mcontext --maps=1x1 --questions --json -- KEPT' \
        '--helper 5=0,14=-1 --struct xdp --with mock.o overrun.o|load --helper 5=0,14=-1 --struct xdp --with mock.o --json -- KEPT|debug --helper 5=0,14=-1 --struct xdp --with mock.o --questions --json -- KEPT' \
        '--journal=1024 sum.s|load --json -- sum.s|debug --journal=1024 --questions --json -- sum.s' \
        '--listing -m context -- sum.s|load --listing --json -- sum.s|debug --listing -m context --questions --json -- sum.s' \
        '--entry entry context|load --entry entry --json -- context|debug --entry entry --questions --json -- context'; do
        : > called
        # (the words have no blanks)
        # shellcheck disable=SC2086
        BPFDB=$PWD/noted REAL=$program "$shell" ${row%%|*} < /dev/null > found/out 2> found/err
        echo "${row#*|}" | tr '|' '\n' > wanted/called
        same "bpfdb-shell ${row%%|*}: what it calls" wanted/called called
    done

    # README's picture is what a terminal shows.
    python3 "$top/docs/picture.py" --check > found/out 2> found/err
    echo $? > found/status
    check 'docs/session.svg' 0 '' ''

    # At a terminal of both sides: colours unless NO_COLOR is set, and completion of words.
    cat > both.py <<'PYTHON'
import os, pty, select, signal, sys
signal.alarm(60)
child, side = pty.fork()
if child == 0:
    os.execv(sys.argv[1], sys.argv[1:])
found = b''
def until(text):
    global found
    while text not in found and select.select([side], [], [], 20)[0]:
        try:
            part = os.read(side, 4096)
        except OSError:
            break
        if not part:
            break
        found += part
for typed in sys.stdin.read().splitlines():
    until(b'(bpfdb) ')
    sys.stdout.write(found.decode().replace('\r', ''))
    found = b''
    os.write(side, typed.encode().decode('unicode_escape').encode() + b'\n')
until(b'(no such text)')
sys.stdout.write(found.decode().replace('\r', ''))
sys.exit(os.waitstatus_to_exitcode(os.waitpid(child, 0)[1]))
PYTHON
    printf 'rev\\ts\\t\nset re\\tr0 7\nbreak lo\\t\nq\n' > script
    HOME=$PWD TERM=xterm NO_COLOR='' python3 both.py "$shell" -m context sum.s < script > found/all 2>&1
    echo $? > found/status
    grep -a -o -e 'refused Q4: no kept step' -e '\[2m> break 4' -e '.\[33mr0 0x0 -> 0x7' found/all | tr -d '\033' > found/out
    : > found/err
    check 'bpfdb-shell: colours and completion' 0 'refused Q4: no kept step\n[33mr0 0x0 -> 0x7\n[2m> break 4\n' ''
    printf 'help ori\\t\norig\\t$r1\\t\nsource comma\\t\nq\n' > values
    HOME=$PWD TERM=xterm NO_COLOR=1 python3 both.py "$shell" -m context sum.s < values 2>&1 | tr -d '\r' > found/all
    grep -a -x -e 'at 0: callf L3' -e 'sum.s:2: callf sum' -e 'origin .VALUE.: .*' -e 'bpfdb-shell: nothing has run yet.*' -e '1 forward; .*' found/all | cut -c 1-40 > found/out
    echo 0 > found/status
    check 'bpfdb-shell: where it stands at first, and completion of `origin`' 0 \
        'at 0: callf L3\nsum.s:2: callf sum\norigin [VALUE]: shows where a register o\nbpfdb-shell: nothing has run yet: each v\n1 forward; done; at 3: mov r0, 0\n' ''
    HOME=$PWD TERM=xterm NO_COLOR=1 python3 both.py "$shell" -m context sum.s < script > found/all 2>&1
    echo $? > found/status
    grep -a -o -e '.\[[0-9][0-9]*m' -e 'r0 0x0 -> 0x7' found/all > found/out
    check 'bpfdb-shell: no colours where NO_COLOR is set' 0 'r0 0x0 -> 0x7\n' ''

    # An interrupt ends neither a command of bpfdb nor the session, but what would come after the command.
    cat > interrupted.py <<'PYTHON'
import os, pty, select, signal, sys
signal.alarm(60)
child, side = pty.fork()
if child == 0:
    os.execv(sys.argv[1], sys.argv[1:])
found = b''
def until(text, again=b''):
    global found
    while text not in found:
        # (readline doesn't see an interrupt that comes between two looks at what is typed)
        if select.select([side], [], [], 1)[0]:
            found += os.read(side, 4096)
        else:
            os.write(side, again)
    sys.stdout.write(found.decode().replace('\r', ''))
    found = b''
until(b'(bpfdb) ')
os.write(side, b'typed')
until(b'typed')
os.write(side, b'\3')
until(b'(bpfdb) ', b'\3')
os.write(side, b'continue 3\n')
until(b'> continue\r\n')
os.write(side, b'\3')
until(b'(bpfdb) ')
os.write(side, b'info history\n')
until(b'(bpfdb) ')
os.write(side, b'q\n')
print('\nstatus', os.waitstatus_to_exitcode(os.waitpid(child, 0)[1]))
PYTHON
    printf 'mov r1, 0x40000000\nloop: add r1, -1\njne r1, 0, loop\nexit\n' > long.s
    HOME=$PWD TERM=xterm NO_COLOR=1 python3 interrupted.py "$shell" --steps 100000000 long.s > found/all 2> found/err
    grep -a -o -e "waiting for bpfdb's command to end" -e '[0-9]* forward; .*;' -e '.* of 65536 bytes' -e '^status .*' found/all > found/out
    echo $? > found/status
    # (an addition takes 16 bytes of the journal, a jump 7)
    check 'bpfdb-shell: an interrupt' 0 "waiting for bpfdb's command to end\n100000000 forward; limit;\n5698 moves, 0 commands, 65527 of 65536 bytes\nstatus 0\n" ''

    # It ends with its terminal, and bpfdb with it.
    cat > hangup.py <<'PYTHON'
import os, pty, signal, sys, time
signal.alarm(60)
child, side = pty.fork()
if child == 0:
    os.execv(sys.argv[1], sys.argv[1:])
found = b''
while b'(bpfdb) ' not in found:
    found += os.read(side, 4096)
def below(number):
    with open(f'/proc/{number}/task/{number}/children') as file:
        return file.read().split()
def runs(number):
    try:
        with open(f'/proc/{number}/stat') as file:
            return file.read().rpartition(')')[2].split()[0] != 'Z'
    except OSError:
        return False
debuggers = below(child)
os.close(side)
end = time.time() + 20
while (runs(child) or any(map(runs, debuggers))) and time.time() < end:
    time.sleep(0.02)
print(len(debuggers), runs(child), *map(runs, debuggers))
PYTHON
    HOME=$PWD TERM=xterm python3 hangup.py "$shell" > found/out 2> found/err
    echo $? > found/status
    check 'bpfdb-shell: the end of its terminal' 0 '1 False False\n' ''
fi

# Without python3 bpfdb debug itself reads the commands.
mkdir bare
for name in sh env; do ln -s "$(command -v "$name")" bare; done
printf 'stepi\nfrob\n' > script
PATH=$PWD/bare "$shell" < script > found/out 2> found/err
echo $? > found/status
check 'bpfdb-shell without python3' 0 '1 forward; done; at 1: exit\nrefused Q1: unknown command\n' 'bpfdb-shell: there is no python3, so this is bpfdb debug alone\n'
# (that says what an object is, where standard error is a terminal)
compile errors
bytes object 7f 45 4c 46 02 01 01 00
PATH=$PWD/bare ./errors "$shell" object < script > found/out 2> found/err
echo $? > found/status
check 'bpfdb-shell without python3: an object' 2 '' 'bpfdb-shell: there is no python3, so this is bpfdb debug alone\nrefused E1: no ELF file\n'
