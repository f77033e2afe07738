# bpfdb-convert: tests of uBPF and of bpf_conformance as a file of bpfdb's. Each form of an instruction has its words, what can't be a test of
# bpfdb's is named, and damaged files (tests/trials/conversions.py) are refused or keep what they say.

# convert ARGUMENT..: runs bpfdb-convert. What is found: its status, output and standard error.
convert() {
    "$top/share/bpfdb-convert" "$@" > found/out 2> found/err
    echo $? > found/status
}

# refusal TEXT CONTENT: a file of this content, as printf's %b reads it, is left out with this text, as `left_out_files` finds.
refusal() {
    refusals=$((refusals + 1))
    printf '%b' "$2" > "$(printf 'refused/%03d' "$refusals")"
    printf 'bpfdb-convert: refused/%03d: %s\n' "$refusals" "$1" >> lines
}

# left_out_files: the files of the rows so far are left out, each with its line.
left_out_files() {
    convert refused/*
    echo 2 > wanted/status
    : > wanted/out
    cp lines wanted/err
    compare 'bpfdb-convert of files that are left out'
    count=$((count + refusals - 1))
    [ "$refusals" -ge 60 ] || complain "bpfdb-convert: $refusals files that are left out"
}

# asm TEXT CONTENT: an assembly of this content, which begins in line 2, is left out with this text.
asm() {
    refusal "$1" "-- asm\n$2\n-- result\n0\n"
}

# passes NAME CONTENT: a file of this content becomes a test that passes, and where its result is another one, 0xbad, a test that fails.
passes() {
    printf '%b' "$2" > "$1"
    awk '/^--/ { inside = /result/ } inside && !/^--/ { $0 = "0xbad" } { print }' "$1" > "wrong-$1"
    convert "$1" "wrong-$1"
    [ "$(cat found/status)" = 0 ] && [ ! -s found/err ] || complain "bpfdb-convert $1"
    mv found/out passes.test
    : > script
    run test passes.test
    grep -v '^#' found/out > kept
    mv kept found/out
    check "bpfdb test of $1" 1 "1..2\nok 1 - $1\nnot ok 2 - wrong-$1\n" ''
}

# hex: the bytes that come in, in hexadecimal.
hex() {
    od -An -v -tx1 | tr -d ' \n'
}

if has python3 'bpfdb-convert'; then
    # Each form: its words, as an assembly and as words.
    sed '/^#/d' "$parts/tables/assemblies.txt" > rows
    mkdir forms words
    awk -F ' [|] ' '{
        printf "-- asm\n%s\n-- result\n0\n", $1 > ("forms/" NR)
        printf "-- raw\n" > ("words/" NR)
        for (i = 1; i < length($2); i += 16) {
            word = ""
            for (j = 14; j >= 0; j -= 2) word = word substr($2, i + j, 2)
            print "0x" word > ("words/" NR)
        }
        printf "-- result\n0\n" > ("words/" NR)
        close("forms/" NR); close("words/" NR)
    }' rows
    for kind in forms words; do
        convert $kind/*
        mv found/out $kind.test
        : > found/out
        check "bpfdb-convert of $kind" 0 '' ''
        number=0
        while IFS= read -r wanted; do
            number=$((number + 1)) count=$((count + 1))
            found=$("$program" test --show program --only "$kind/$number" $kind.test | hex)
            [ "$found" = "${wanted##* | }" ] || complain "bpfdb-convert of $kind '${wanted% | *}': $found, and not ${wanted##* | }"
        done < rows
        [ "$number" -ge 190 ] || complain "bpfdb-convert: $number $kind"
    done

    # Whole files: what comes out, and lines of sections, comments, and lines that end as on Windows.
    printf '# A comment -- and a remark\n-- asm\n# one\nstart: mov %%r0, 1 # two\n\nL7: jne %%r1, 0, +1\nja start\nja L7\nexit\n-- mem\n00 01\n0a\n-- c\nint i; i--; # a C\n-- no register offset\n-- result\n# three\n0x1 # four\n' > whole.data
    convert whole.data
    cat > whole.test <<'TEST'
-- name
whole.data
-- listing
start:
        mov r0, 1
L7:
        jne r1, 0, LL3
        ja start
LL3:
        ja L7
        exit
-- mem
00 01 0a
-- result
0x1
TEST
    check 'bpfdb-convert of a file with all that it may have' 0 "$(text whole.test)" ''
    sed 's/$/\r/' whole.data > crlf && mv crlf whole.data
    convert whole.data
    check 'bpfdb-convert of lines that end as on Windows' 0 "$(text whole.test)" ''
    printf -- '--raw\n0x95\n-- asm\nfrob\n--result\n0\n' > both.data
    convert both.data
    check 'bpfdb-convert of words beside an assembly' 0 '-- name\nboth.data\n-- words\n95 00 00 00 00 00 00 00\n-- result\n0\n' ''
    for memory in '00 ff 7f' '00ff7f' '0 0xff 7F' '00\nff 7f # a comment' '0: 00 ff 7f' '00000000: 00ff 7f'; do
        printf -- "-- asm\nexit\n-- mem\n$memory\n-- result\n0\n" > mem.data
        convert mem.data
        check "bpfdb-convert of the memory $memory" 0 '-- name\nmem.data\n-- listing\n        exit\n-- mem\n00 ff 7f\n-- result\n0\n' ''
    done
    rest='20 21 22 23 24 25 26 27  28 29 2a 2b 2c 2d 2e 2f'
    printf -- "-- asm\nexit\n-- mem\n0: $rest\n10: $rest\n-- result\n0\n" > mem.data
    convert mem.data
    check 'bpfdb-convert of a dump' 0 '-- name\nmem.data\n-- listing\n        exit\n-- mem\n20 21 22 23 24 25 26 27 28 29 2a 2b 2c 2d 2e 2f 20 21 22 23 24 25 26 27 28 29 2a 2b 2c 2d 2e 2f\n-- result\n0\n' ''

    # Tests that run: their results were worked out by hand.
    passes add.data '-- asm\nmov32 %r0, 0\nmov32 %r1, 2\nadd32 %r0, 1\nadd32 %r0, %r1\nexit\n-- result\n0x3\n'
    passes length.data '-- asm\nmov %r0, %r2\nexit\n-- mem\n01 02 03 04 05\n-- result\n5\n'
    passes load.data '-- asm\nldxdw %r0, [%r1+0x2]\nexit\n-- mem\naa bb\n11 22 33 44 55 66 77 88\ncc dd\n-- result\n0x8877665544332211\n'
    passes swap.data '-- asm\nldxw %r0, [%r1]\nbe32 %r0\nexit\n-- mem\n11 22 33 44\n-- result\n0x11223344\n'
    passes extended.data '-- asm\nldxbsx %r0, [%r1+1]\nexit\n-- mem\n00 80\n-- result\n0xffffffffffffff80\n'
    passes fetched.data '-- asm\nstdw [%r10-8], 40\nmov %r1, 2\nlock fetch_add [%r10-8], %r1\nldxdw %r0, [%r10-8]\nadd %r0, %r1\nexit\n-- result\n82\n'
    passes local.data '-- asm\nmov %r0, 1\ncall local twice\ncall local twice\nexit\ntwice:\nadd %r0, %r0\nexit\n-- result\n4\n'
    passes loop.data '-- asm\nmov %r0, 0\nmov %r1, 5\nadd %r0, %r1\nadd %r1, -1\njne %r1, 0, -3\nexit\n-- result\n15\n'
    passes wide.data '-- raw\n0x5566778800000018\n0x1122334400000000\n0x0000000000000095\n-- result\n0x1122334455667788\n'

    # What can't be a test of bpfdb's is named.
    mkdir refused
    : > lines
    refusals=0
    words="it wants an error in the words of uBPF"
    refusal "line 3: $words" '-- asm\nexit\n-- error\nFailed to load code: unknown opcode 0x06 at PC 0\n'
    refusal "line 3: $words" '-- raw\n0x6\n-- error pattern\nFailed .*\n-- result\n0\n'
    refusal 'line 5: it loads its program twice' '-- asm\nexit\n-- result\n0\n-- reload\n'
    refusal 'line 5: it unloads its program' '-- asm\nexit\n-- result\n0\n-- unload\n'
    refusal "line 1: section 'elf' is unknown" '-- elf\n-- result\n0\n'
    refusal "line 1: section 'mem @ other' is unknown" '-- mem @ other\n'
    refusal "line 3: section 'asm' is there twice" '-- asm\nexit\n-- asm\nexit\n-- result\n0\n'
    refusal "line 2: '--' stands within a line" '-- asm\n# -- raw\n-- result\n0\n'
    refusal 'it has no section asm and no section raw' '-- result\n0\n'
    refusal 'it has no section asm and no section raw' ''
    refusal 'it has no section result' '-- asm\nexit\n'
    refusal 'its program is empty' '-- asm\n# nothing\n-- result\n0\n'
    refusal 'its program is empty' '-- raw\n# nothing\n-- result\n0\n'
    refusal "line 2: '95' is no word, 0x and hexadecimal digits" '-- raw\n95\n-- result\n0\n'
    refusal "line 3: '0x10000000000000095' is no word, 0x and hexadecimal digits" '-- raw\n0x95\n0x10000000000000095\n-- result\n0\n'
    refusal 'line 2: it calls helper 5 of another machine' '-- raw\n0x0000000500000085\n0x95\n-- result\n0\n'
    refusal 'line 2: it calls by register, which bpfdb has not' '-- raw\n0x008d\n0x95\n-- result\n0\n'
    refusal "line 4: 'xyz' is no bytes" '-- asm\nexit\n-- mem\nxyz\n-- result\n0\n'
    refusal "line 4: '123' is no bytes" '-- asm\nexit\n-- mem\n123\n-- result\n0\n'
    refusal "line 5: its offset isn't 0x2" '-- asm\nexit\n-- mem\n0: 00 01\n10: 00\n-- result\n0\n'
    refusal 'line 4: it has more than bytes' '-- asm\nexit\n-- mem\n00: 6162  ab\n-- result\n0\n'
    refusal 'line 4: it has more than bytes' '-- asm\nexit\n-- mem\n00: 61 .\n-- result\n0\n'
    refusal 'its mem has no bytes' '-- asm\nexit\n-- mem\n-- result\n0\n'
    refusal 'line 3: its result is no number' '-- asm\nexit\n-- result\n'
    refusal 'line 3: its result is no number' '-- asm\nexit\n-- result\n0\n1\n'
    refusal "line 4: '-1' is out of range" '-- asm\nexit\n-- result\n-1\n'
    refusal "line 4: '010' is no number" '-- asm\nexit\n-- result\n010\n'
    refusal "line 4: '0x10000000000000000' is out of range" '-- asm\nexit\n-- result\n0x10000000000000000\n'

    # What would have other words in a listing is refused by its line.
    asm "line 2: 'frob' is no mnemonic" 'frob %r0'
    asm "line 3: 'ADD' is no mnemonic" 'exit\nADD %r0, 1'
    asm "line 2: 'lock sub' is no mnemonic" 'lock sub [%r1], %r2'
    asm "line 2: 'lock fetch_xchg' is no mnemonic" 'lock fetch_xchg [%r1], %r2'
    asm "line 2: 'movsx3232' is no mnemonic" 'movsx3232 %r1, %r2'
    asm "line 2: 'ldxdwsx' is no mnemonic" 'ldxdwsx %r1, [%r2]'
    asm "line 2: 'b:' is no mnemonic" 'a: b: exit'
    asm "line 2: 'mov' has 2 operands, and 1 are given" 'mov %r0'
    asm "line 2: 'exit' has 0 operands, and 1 are given" 'exit 0'
    asm "line 2: '%r11' is no register" 'neg %r11'
    asm "line 2: '%r01' is no register" 'neg %r01'
    asm "line 2: '%r11' is no number" 'mov %r0, %r11'
    asm "line 2: '010' is no number" 'mov %r0, 010'
    asm "line 2: '0X1' is no number" 'mov %r0, 0X1'
    asm "line 2: '- 1' is no number" 'mov %r0, - 1'
    asm "line 2: '4294967296' is out of range" 'mov %r0, 4294967296'
    asm "line 2: '-2147483649' is out of range" 'mov32 %r0, -2147483649'
    asm "line 2: '0x10000000000000000' is out of range" 'lddw %r0, 0x10000000000000000'
    asm "line 2: '-9223372036854775809' is out of range" 'lddw %r0, -9223372036854775809'
    asm "line 2: '+32768' is out of range" 'ldxb %r0, [%r1+32768]'
    asm "line 2: '+0xfff8' is out of range" 'ldxb %r0, [%r1+0xfff8]'
    asm "line 2: '-$(printf '%050d' 0 | tr 0 1)' is out of range" "ldxb %r0, [%r1-$(printf '%050d' 0 | tr 0 1)]"
    asm "line 2: '+-8' is no number" 'ldxb %r0, [%r1+-8]'
    asm "line 2: '%r1+8' is no place in memory" 'ldxb %r0, %r1+8'
    asm "line 2: it calls helper 3 of another machine" 'call 3'
    asm "line 2: it calls helper 0x40 of another machine" 'call 0x40'
    asm "line 2: it calls by register, which bpfdb has not" 'callx %r3'
    asm "line 2: it calls by register, which bpfdb has not" 'call %r3'
    asm "line 2: there is no label 'far'" 'ja far'
    asm "line 2: there is no label '4'" 'ja 4'
    asm "line 3: the label 'a' is there twice" 'a: exit\na: exit'
    asm "line 2: 'a.b' is no label of a listing" 'a.b: exit'
    asm "line 2: '+1' leads to slot 2, where no instruction begins" 'ja +1\nlddw %r0, 1\nexit'
    asm "line 2: '-2' leads to slot -1, where no instruction begins" 'ja -2\nexit'
    asm "line 2: '+2' leads to slot 3, where no instruction begins" 'ja +2\nexit'
    asm "line 2: '+32768' is out of range" 'ja +32768'
    left_out_files
    # (the label is as far away as a jump reaches, and one slot further)
    for distance in 32767 32768; do
        { printf -- '-- asm\nja far\n'; yes exit | head -n "$distance"; printf 'far: exit\n-- result\n0\n'; } > "$distance.data"
    done
    convert 32767.data 32768.data
    mv found/out far.test
    : > found/out
    check 'bpfdb-convert of far jumps' 2 '' "bpfdb-convert: 32768.data: line 2: 'far' is out of range\n"
    "$program" test far.test > found/out 2> found/err < /dev/null
    echo $? > found/status
    check 'bpfdb test of a far jump' 0 '1..1\nok 1 - 32767.data\n' ''

    # Files that are left out don't hold up the others; names that can't be those of a test are told by their bytes.
    printf -- '-- asm\nexit\n-- result\n0\n' > good.data
    convert good.data none.data 32768.data . good.data
    mv found/out both.test
    : > found/out
    check 'bpfdb-convert of good and bad files' 2 '' "bpfdb-convert: none.data: No such file or directory\nbpfdb-convert: 32768.data: line 2: 'far' is out of range\nbpfdb-convert: .: Is a directory\n"
    "$program" test both.test > found/out 2> found/err < /dev/null
    echo $? > found/status
    check 'bpfdb test of those that are left' 0 '1..2\nok 1 - good.data\nok 2 - good.data\n' ''
    odd=$(printf 'a#\033[1m\342\200\256\377b\nc')
    cp good.data "$odd"
    convert "$odd"
    check 'bpfdb-convert of an odd name' 0 '-- name\na\\x23\\x1b[1m\\xe2\\x80\\xae\\xffb\\x0ac\n-- listing\n        exit\n-- result\n0\n' ''
    convert -- -x.data
    check 'bpfdb-convert -- -x.data' 2 '' 'bpfdb-convert: -x.data: No such file or directory\n'
    convert
    check 'bpfdb-convert' 2 '' "bpfdb-convert: 'bpfdb-convert FILE..' is wanted; bpfdb-convert --help tells more\n"
    convert --frob good.data
    check 'bpfdb-convert --frob' 2 '' 'bpfdb-convert: there is no option --frob; bpfdb-convert --help shows those that there are\n'
    convert --help
    [ "$(cat found/status) $(head -n 1 found/out) $(wc -c < found/err)" = '0 usage: bpfdb-convert FILE.. 0' ] || complain 'bpfdb-convert --help'
    if [ -c /dev/full ]; then
        "$top/share/bpfdb-convert" good.data > /dev/full 2> found/err
        echo $? > found/status
        : > found/out
        check 'bpfdb-convert: a full output' 2 '' 'bpfdb-convert: cannot write output\n'
    fi
    "$top/share/bpfdb-convert" good.data >&- 2> found/err
    echo $? > found/status
    : > found/out
    check 'bpfdb-convert: no output' 2 '' 'bpfdb-convert: cannot write output\n'

    # (the interpreter itself: what a shell calls by its name may open a standard error where there is none)
    printf -- '-- asm\nfrob\n-- result\n0\n' > bad.data
    "$(python3 -c 'import sys; print(sys.executable)')" "$top/share/bpfdb-convert" bad.data good.data > found/out 2>&-
    echo $? > found/status
    : > found/err
    check 'bpfdb-convert: no standard error' 2 '-- name\ngood.data\n-- listing\n        exit\n-- result\n0\n' ''

    # Files of a megabyte, in 400 MB and 5 seconds of the processor: lines, one line, labels, words, bytes. They are taken (0), or left out (2).
    # large STATUS SECTION COMMAND: so much of what the command writes is the section.
    large() {
        {
            printf -- '-- %s\n' "$2"
            sh -c "$3" 2> /dev/null | head -c 1000000 | sed '$s/.*//'
            printf '\n'
            case $2 in mem | result) printf -- '-- asm\nexit\n' ;; esac
            [ "$2" = result ] || printf -- '-- result\n0\n'
        } > large.data
        (
            ulimit -v 400000
            ulimit -t 5
            convert large.data
        )
        count=$((count + 1))
        [ "$(cat found/status)" = "$1" ] && ! grep -q -e Traceback -e Memory found/err && return
        complain "bpfdb-convert of a megabyte: $3"
        head -c 300 found/err
    }
    large 0 asm "yes 'mov %r0, 1'"
    large 0 asm "yes 'jne %r0, 1, +0'"
    large 0 asm "seq 1 1000000 | sed 's/.*/n&: ja +0/'"
    large 0 asm "seq 1 1000000 | sed 's/.*/L&: ja L&/'"
    large 2 asm "yes '# a comment'"
    large 2 asm "yes 'a: mov %r0, 1'"
    large 2 asm "seq 1 1000000 | sed 's/.*/L&: ja L1/'"
    large 2 asm "yes 'mov %r0, 1;' | tr -d '\n'; echo; echo; echo frob"
    for byte in ' ' 9 , '[' : ';' '#' '\377'; do
        large 2 asm "tr '\\0' '$byte' < /dev/zero | head -c 900000; echo; echo; echo frob"
    done
    large 0 raw 'yes 0x95'
    large 0 mem 'yes 00'
    large 0 mem "awk 'BEGIN { for (i = 0; i < 100000; i++) printf \"%x: 00\\n\", i }'"
    large 2 mem 'seq 1 1000000'
    large 2 result 'yes 1'

    # Damaged files: a line, or a test whose program, context and result are those that another assembler finds in the file.
    python3 "$top/tests/trials/conversions.py" "$top/share" "$program" "$parts/tables/assemblies.txt" > told 2>&1 || complain 'tests/trials/conversions.py'
    grep -a -v '^[0-9]* trials$' told
    failures=$((failures + $(grep -a -c '^FAILED: ' told)))
    count=$((count + $(sed -n 's/^\([0-9]*\) trials$/\1/p' told)))
fi
