# bpfdb test --cover-info: what ran as a tracefile of lcov on standard output, and the report on standard error. By hand, as lcov and genhtml read it, for
# tests at random against a machine and a reader of another form (tests/trials/tracefiles.py), and for objects against other answers (tests/trials/sources.py).

# Worked out by hand from the listing: without bytes r2 is 0, so line 2 jumps to line 8; with two bytes it goes on to line 4, which goes on; with three line 4
# jumps. Line 9 jumps to the slot behind it: it has one way, and no branches. The wide load of line 3 is one instruction.
covered='-- listing\njlt r2, 2, short\nlddw r0, 5\njeq r2, 3, third\nja end\nthird: mov r0, 3\nend: exit\nshort: mov r0, 1\njne r2, 1, last\nlast: exit\n'
two='-- name\ntwo\n-- mem\n0000\n-- result\n5\n'
three='-- name\nthree\n-- mem\n000000\n-- result\n3\n'
none='-- name\nnone\n-- result\n1\n'

# traces NAME STATUS CONTENT RECORDS REPORT [ARGUMENT..]: a file of this content with --cover-info.
traces() {
    name=$1 status=$2 output=$4 errors=$5
    printf -- "$3" > covered.test
    shift 5
    row "bpfdb test --cover-info: $name" "$status" '' "$output" "$errors" test --cover-info covered.test "$@"
}
begun='TN:\nSF:covered.test\n'
traces 'one test' 0 "$covered$two" "${begun}DA:2,1\nBRDA:2,0,0,1\nBRDA:2,0,1,0\nDA:3,1\nDA:4,1\nBRDA:4,0,0,1\nBRDA:4,0,1,0\nDA:5,1\nDA:6,0\nDA:7,1\nDA:8,0\nDA:9,0\nDA:10,0\nLF:9\nLH:5\nBRF:4\nBRH:2\nend_of_record\n" '1..1\nok 1 - two\n'
traces 'two tests' 0 "$covered$two$none" "${begun}DA:2,1\nBRDA:2,0,0,1\nBRDA:2,0,1,1\nDA:3,1\nDA:4,1\nBRDA:4,0,0,1\nBRDA:4,0,1,0\nDA:5,1\nDA:6,0\nDA:7,1\nDA:8,1\nDA:9,1\nDA:10,1\nLF:9\nLH:8\nBRF:4\nBRH:3\nend_of_record\n" '1..2\nok 1 - two\nok 2 - none\n'
traces 'three tests, which run all' 0 "$covered$two$three$none" "${begun}DA:2,1\nBRDA:2,0,0,1\nBRDA:2,0,1,1\nDA:3,1\nDA:4,1\nBRDA:4,0,0,1\nBRDA:4,0,1,1\nDA:5,1\nDA:6,1\nDA:7,1\nDA:8,1\nDA:9,1\nDA:10,1\nLF:9\nLH:9\nBRF:4\nBRH:4\nend_of_record\n" '1..3\nok 1 - two\nok 2 - three\nok 3 - none\n'
last="${begun}DA:2,1\nBRDA:2,0,0,0\nBRDA:2,0,1,1\nDA:3,0\nDA:4,0\nBRDA:4,0,0,-\nBRDA:4,0,1,-\nDA:5,0\nDA:6,0\nDA:7,0\nDA:8,1\nDA:9,1\nDA:10,1\nLF:9\nLH:4\nBRF:4\nBRH:1\nend_of_record\n"
traces 'a test of a name alone' 0 "$covered$two$three$none" "$last" '1..1\nok 1 - none\n' --only none
traces 'a test that fails' 1 '# It fails.\n-- listing\nexit\n-- result\n1\n' "${begun}DA:3,1\nLF:1\nLH:1\nBRF:0\nBRH:0\nend_of_record\n" "1..1\nnot ok 1\n# the test in line 2\n# came: exited at 0: r0 0x0\n# wanted: result 1\n# debug: bpfdb-show '' 'covered.test'\n"
traces 'a step that faults ran' 0 '-- listing\nldxb r0, [r1+0]\nexit\n-- fault\naccess 0x0 at 0\n' "${begun}DA:2,1\nDA:3,0\nLF:2\nLH:1\nBRF:0\nBRH:0\nend_of_record\n" '1..1\nok 1\n'
traces 'the limit of steps' 0 '-- listing\nmov r1, 1\nja on\non: exit\n-- steps\n2\n-- limit\nat 2\n' "${begun}DA:2,1\nDA:3,1\nDA:4,0\nLF:3\nLH:2\nBRF:0\nBRH:0\nend_of_record\n" '1..1\nok 1\n'
traces 'lines without an instruction, and carriage returns' 0 '\n-- result\r\n4\r\n-- listing\r\n; A comment.\r\nlabel:\r\n\r\nagain: mov r0, 4\r\n   ; Another.\r\nexit ; The end.\r\n\r\n' "${begun}DA:8,1\nDA:10,1\nLF:2\nLH:2\nBRF:0\nBRH:0\nend_of_record\n" '1..1\nok 1\n'
traces 'a branch back' 0 '-- listing\nmov r0, 3\nagain: sub r0, 1\njne r0, 0, again\nexit\n-- result\n0\n' "${begun}DA:2,1\nDA:3,1\nDA:4,1\nBRDA:4,0,0,1\nBRDA:4,0,1,1\nDA:5,1\nLF:4\nLH:4\nBRF:2\nBRH:2\nend_of_record\n" '1..1\nok 1\n'
traces 'a program that is refused' 0 '-- words\n95\n-- refused\nC3\n' '' '1..1\nok 1\n'
traces 'a listing that is none' 0 '-- listing\nfrob\n-- refused\nA1\n' '' '1..1\nok 1\n'
words() {
    printf '# the program in line %s is no listing: it has no lines here\\n' "$1"
}
traces 'words' 0 '-- words\n9500000000000000\n-- result\n0\n' "$(words 1)" '1..1\nok 1\n'
traces 'programs of tests, behind that which the others share' 0 "${covered}-- name\na\n-- words\n9500000000000000\n-- result\n0\n-- name\nb\n-- listing\nmov r0, 1\nexit\n-- result\n1\n$none" "$last$(words 13)${begun}DA:20,1\nDA:21,1\nLF:2\nLH:2\nBRF:0\nBRH:0\nend_of_record\n" '1..3\nok 1 - a\nok 2 - b\nok 3 - none\n'
# Lines of a source that a section tells: without bytes slots 0, 3 and 4 run, and 1 and 2 don't.
places='-- listing\njlt r2, 2, short\nmov r0, 5\nexit\nshort: mov r0, 1\nexit\n-- lines\n'
file() {
    printf 'TN:\\nSF:%s\\n' "$1"
}
totals() {
    printf 'LF:%s\\nLH:%s\\nBRF:%s\\nBRH:%s\\nend_of_record\\n' "$1" "$2" "$3" "$4"
}
passes='1..1\nok 1\n'
jumped='BRDA:1,0,0,0\nBRDA:1,0,1,1\n'
traces 'files of a source, in the order of their names' 0 "${places}0 b.c:1 f\n1 b.c:8 f\n2 b.c:8 f\n3 a dir/a:c.c:3 -\n4 - f\n-- result\n1\n" "$(file 'a dir/a:c.c')DA:3,1\n$(totals 1 1 0 0)$(file b.c)DA:1,1\n${jumped}DA:8,0\n$(totals 2 1 2 1)" "$passes"
traces 'slots of a line, in any order' 0 "${places}4 x.c:10 f\n2 x.c:9 f\n3 x.c:9 f\n1 x.c:1 f\n0 x.c:1 f\n-- result\n1\n" "$(file x.c)DA:1,1\n${jumped}DA:9,1\nDA:10,1\n$(totals 3 3 2 1)" "$passes"
traces 'two jumps of a line' 0 '-- listing\njeq r2, 0, one\njeq r2, 1, one\nmov r0, 3\nexit\none: mov r0, 4\nexit\n-- lines\n0 x.c:5 f\n1 x.c:5 f\n2 x.c:6 f\n3 x.c:6 f\n4 x.c:7 f\n5 x.c:7 f\n-- name\na\n-- result\n4\n-- name\nb\n-- mem\n00\n-- result\n4\n' "$(file x.c)DA:5,1\nBRDA:5,0,0,1\nBRDA:5,0,1,1\nBRDA:5,1,0,0\nBRDA:5,1,1,1\nDA:6,0\nDA:7,1\n$(totals 3 2 4 3)" '1..2\nok 1 - a\nok 2 - b\n'
traces 'blank rows, blanks, other numbers, and a slot that is not there' 0 "${places}\n 0 x.c:1 f \r\n\r\n\t0x1 x.c:0x2 f\f2 x.c:2 f\n9 x.c:4 f\n-- result\n1\n" "$(file x.c)DA:1,1\n${jumped}DA:2,0\nDA:4,0\n$(totals 3 1 2 1)" "$passes"
traces 'a jump that did not run' 0 '-- listing\nmov r0, 1\nexit\njeq r2, 0, last\nmov r0, 2\nlast: exit\n-- lines\n2 x.c:3 f\n-- result\n1\n' "$(file x.c)DA:3,0\nBRDA:3,2,0,-\nBRDA:3,2,1,-\n$(totals 1 0 2 0)" "$passes"
traces 'the second slot of an instruction' 0 '-- listing\nlddw r0, 1\nexit\n-- lines\n1 x.c:3 f\n2 x.c:4 f\n-- result\n1\n' "$(file x.c)DA:3,0\nDA:4,1\n$(totals 2 1 0 0)" "$passes"
traces 'words with lines' 0 '-- words\n9500000000000000\n-- lines\n0 x.c:3 f\n-- result\n0\n' "$(file x.c)DA:3,1\n$(totals 1 1 0 0)" "$passes"
traces 'lines of no place' 0 "${places}0 - f\n1 - -\n-- result\n1\n" '' "$passes"
traces 'no lines at all' 0 "${places}-- result\n1\n" '' "$passes"
traces 'a name that steers' 0 "${places}0 a\033b.c:1 f\n-- result\n1\n" "$(file 'a\\x1bb.c')DA:1,1\n$jumped$(totals 1 1 2 1)" "$passes"
traces 'lines of the shared program alone' 0 "${places}0 s.c:1 f\n-- name\na\n-- words\n9500000000000000\n-- result\n0\n-- name\nb\n-- lines\n0 t.c:2 f\n-- result\n1\n" "$(file s.c)DA:1,1\n$jumped$(totals 1 1 2 1)$(words 11)" '1..2\nok 1 - a\nok 2 - b\n'
traces "lines of a test's own program alone" 0 "${covered}-- name\na\n-- words\n9500000000000000\n-- lines\n0 t.c:2 f\n-- result\n0\n$none" "$last$(file t.c)DA:2,1\n$(totals 1 1 0 0)" '1..2\nok 1 - a\nok 2 - none\n'
for each in 'x x.c:1 f' '-1 x.c:1 f' '18446744073709551616 x.c:1 f' 1 '1 f' '1 x.c:1' '1 x.c: f' '1 x.c:-1 f' '1 x.c:18446744073709551616 f' '1 :3 f' '1 x.c f' '0 x.c:1 f\n1'; do
    traces "a row that is none: $each" 2 "-- listing\nexit\n-- lines\n$each\n-- result\n0\n" '' 'refused T4 at line 3: malformed section\n'
done
traces 'lines twice' 2 "${places}-- lines\n-- result\n0\n" '' 'refused T3 at line 8: section given twice\n'
traces 'beside --cover' 0 "$covered$none" "$last" '1..1\nok 1 - none\n' --cover
traces 'a part of a test' 0 "$covered$none" '--steps=1000000\n' '' --show options
traces 'no test' 2 "$covered$none" '' 'refused T7: no test of this name: b\n' --only b
traces 'a file with a fault' 2 '-- listing\nexit\n' '' 'refused T6 at line 1: test without an expectation\n'
row 'bpfdb test --cover-info of a file that is not there' 2 '' '' 'cannot read missing\n' test --cover-info missing
# (a name that would end its line, or a record: it is spelled out, as other names are)
name=$(printf 'a\nend_of_record\nSF:b')
printf -- '-- listing\nexit\n-- result\n0\n' > "$name"
row 'bpfdb test --cover-info of a name with line feeds' 0 '' 'TN:\nSF:a\\x0aend_of_record\\x0aSF:b\nDA:2,1\nLF:1\nLH:1\nBRF:0\nBRH:0\nend_of_record\n' '1..1\nok 1\n' test --cover-info "$name"
if has_clang 'bpfdb test --cover-info of an object'; then
    printf 'int f(void *context) { return 2; }\n' > two.c
    clang -g -O2 -target bpf -c two.c -o two.o 2> found/err || complain "two.c: $(cat found/err)"
    here=$(pwd -P)
    traces 'an object' 0 '-- object two.o\n-- result\n2\n' "$(file "$here/two.c")DA:1,1\n$(totals 1 1 0 0)" "$passes"
    clang -O2 -target bpf -c two.c -o plain.o 2> found/err || complain "two.c: $(cat found/err)"
    traces 'an object without lines' 0 '-- object plain.o\n-- result\n2\n' '' "$passes"
    traces 'an object with maps of the test' 0 '-- object two.o\n-- maps\n8x1\n-- result\n2\n' "$(file "$here/two.c")DA:1,1\n$(totals 1 1 0 0)" "$passes"
    traces 'an object beside the lines of its test' 2 '-- object two.o\n-- lines\n0 x.c:1 f\n-- result\n2\n' '' 'refused T3 at line 2: section given twice\n'
    # A function with a branch each way, and one that is never called, as docs/TESTS.md shows it: the lines that each byte runs.
    cat > pick.c << 'END'
static __attribute__((noinline)) int pick(int n)
{
    if (n > 2)
        return 7;
    return n + 1;
}

int never(int n)
{
    return n;
}

int verdict(unsigned char *bytes)
{
    return pick(bytes[0]);
}
END
    clang -O0 -g -target bpf -c pick.c -o pick.o 2> found/err || complain "pick.c: $(cat found/err)"
    few='-- name\nfew\n-- mem\n01\n-- result\n2\n' many='-- name\nmany\n-- mem\n05\n-- result\n7\n'
    # runs NAME LINES TESTS: which lines of pick.c tests run.
    runs() {
        count=$((count + 1))
        printf -- "-- object pick.o\n-- entry verdict\n$3" > pick.test
        "$program" test --cover-info pick.test > cover.info 2> told || complain "pick.test: $1: $(cat told)"
        [ "$(sed -n 's/^DA://p' cover.info | tr '\n' ' ')" = "$2 " ] || complain "pick.test: $1: $(cat cover.info)"
    }
    runs few '1,1 3,1 4,0 5,1 6,1 8,0 10,0 13,1 15,1' "$few"
    runs many '1,1 3,1 4,1 5,0 6,1 8,0 10,0 13,1 15,1' "$many"
    runs both '1,1 3,1 4,1 5,1 6,1 8,0 10,0 13,1 15,1' "$few$many"
    # A program that takes a packet by the kernel's struct, before which stand words that are of no line of it: the same lines and branches as over a context.
    # By hand from packet.c at -O0, where each line has instructions of its own: with one byte it leaves from line 36, where it jumps one way; of two bytes
    # the first is compared at line 38, and the second at line 40 unless the first is 7; and each way ends at line 43. (The compiler chooses which way
    # jumps: so of each line the counts of its ways are held, in their order. A line that didn't run has hyphens.)
    short='-- name\nshort\n-- mem\n01\n-- result\n1\n' seven='-- name\nseven\n-- mem\n0709\n-- result\n2\n'
    nine='-- name\nnine\n-- mem\n0109\n-- result\n3\n' other='-- name\nother\n-- mem\n0120\n-- result\n32\n'
    # record FILE: its record in cover.info.
    record() {
        sed -n "/^SF:.*\/$1\$/,/^end_of_record\$/p" cover.info
    }
    # lists NAME FILE LINES WAYS TESTS: the lines and ways of a file that tests of the sections in $asked run.
    lists() {
        count=$((count + 1))
        printf -- "$asked$5" > packet.test
        "$program" test --cover-info packet.test > cover.info 2> told || complain "packet.test: $made: $1: $(cat told)"
        lines=$(record "$2" | sed -n 's/^DA://p' | tr '\n' ' ')
        ways=$(record "$2" | sed -n 's/^BRDA:\([0-9]*\),[0-9]*,[0-9]*,\(.*\)$/\1:\2/p' | sort | tr '\n' ' ')
        [ "$lines" = "$3 " ] && [ "$ways" = "$4" ] || complain "packet.test: $made: $1: of $2 $lines and $ways, and not $3 and $4"
    }
    # ways_of_packet: each set of tests.
    ways_of_packet() {
        lists short packet.c '32,1 34,1 35,1 36,1 37,1 38,0 39,0 40,0 41,0 42,0 43,1' '36:0 36:1 38:- 38:- 40:- 40:- ' "$short"
        lists seven packet.c '32,1 34,1 35,1 36,1 37,0 38,1 39,1 40,0 41,0 42,0 43,1' '36:0 36:1 38:0 38:1 40:- 40:- ' "$seven"
        lists nine packet.c '32,1 34,1 35,1 36,1 37,0 38,1 39,0 40,1 41,1 42,0 43,1' '36:0 36:1 38:0 38:1 40:0 40:1 ' "$nine"
        lists other packet.c '32,1 34,1 35,1 36,1 37,0 38,1 39,0 40,1 41,0 42,1 43,1' '36:0 36:1 38:0 38:1 40:0 40:1 ' "$other"
        lists all packet.c '32,1 34,1 35,1 36,1 37,1 38,1 39,1 40,1 41,1 42,1 43,1' '36:1 36:1 38:1 38:1 40:1 40:1 ' "$short$seven$nine$other"
    }
    clang -O0 -g -target bpf -c "$parts/tracefile/nine.c" -o nine.o 2> found/err || complain "nine.c: $(cat found/err)"
    for struct in OWN XDP TC; do
        case $struct in
        OWN) taken='' ;;
        XDP) taken='-- struct xdp\n' ;;
        TC) taken='-- struct tc\n' ;;
        esac
        # Alone; with bytes at the start, which it is given behind its code, so that a jump stands before it; and with a function of another object.
        for more in NONE SEED CALLS; do
            made="$struct $more"
            clang -O0 -g "-D$struct" "-D$more" -target bpf -c "$parts/tracefile/packet.c" -o packet.o 2> found/err || complain "packet.c: $made: $(cat found/err)"
            asked="-- object packet.o\n$taken"
            [ "$more" != CALLS ] || asked="$asked-- with nine.o\n"
            ways_of_packet
            [ "$more" != CALLS ] || {
                lists 'seven in the other object' nine.c '2,0' '' "$seven"
                lists 'nine in the other object' nine.c '2,1' '' "$nine"
            }
        done
        # At -O2 lines share instructions, but each byte is still read in its line.
        count=$((count + 1))
        clang -O2 -g "-D$struct" -target bpf -c "$parts/tracefile/packet.c" -o packet.o 2> found/err || complain "packet.c: $struct: $(cat found/err)"
        printf -- "-- object packet.o\n$taken$seven" > packet.test
        "$program" test --cover-info packet.test > cover.info 2> told || complain "packet.test: $struct at -O2: $(cat told)"
        [ "$(grep -e '^DA:3[68],' -e '^DA:40,' cover.info | tr '\n' ' ')" = 'DA:36,1 DA:38,1 DA:40,0 ' ] || complain "packet.test: $struct at -O2: $(cat cover.info)"
    done
    # Each line of its record, by what else bpfdb tells of it, as it is compiled each way; and with tests that have the object alone, whose records come twice.
    if has python3 'records of C'; then
        grep -v -e '^int never' pick.c | sed '8,11d' > whole.c
        for level in 0 1 2; do
            count=$((count + 1))
            clang "-O$level" -g -target bpf -c whole.c -o whole.o 2> found/err || complain "whole.c: $(cat found/err)"
            printf -- "-- object whole.o\n$few$many" > whole.test
            python3 "$top/tests/trials/sources.py" "$program" whole.o 01 05 > wanted.info 2> told || complain "whole.c at -O$level: $(cat told)"
            "$program" test --cover-info whole.test > cover.info 2> told && cmp -s wanted.info cover.info || complain "whole.test at -O$level: $(cat told cover.info)"
        done
        count=$((count + 1))
        printf -- "$few-- object whole.o\n$many-- object whole.o\n" > whole.test
        for each in 01 05; do
            python3 "$top/tests/trials/sources.py" "$program" whole.o "$each" || complain 'whole.c: a byte'
        done > wanted.info
        "$program" test --cover-info whole.test > cover.info 2> told && cmp -s wanted.info cover.info || complain "whole.test: $(cat told cover.info)"
    fi
    # What isn't asked for isn't made: without the option nothing is refused of an object whose list of lines is malformed.
    count=$((count + 1))
    damaged=$(python3 -c 'import sys; data = bytearray(open("two.o", "rb").read()); at = data.find(b"\x9f\xeb\x01\x00", data.find(b"\x9f\xeb\x01\x00") + 1); data[at + 16:at + 20] = b"\xff" * 4; open("bad.o", "wb").write(data)' 2>&1) || complain "bad.o: $damaged"
    printf -- '-- object bad.o\n-- result\n2\n' > bad.test
    "$program" test bad.test > told 2>&1 && [ "$(tail -n 1 told)" = 'ok 1' ] || complain "bad.test: $(cat told)"
    "$program" test --cover-info bad.test > told 2> found/err
    [ $? = 2 ] && [ ! -s told ] && grep -q '^refused E[0-9]*: .*(the object in line 1)$' found/err || complain "bad.test: $(cat told found/err)"
fi

# Where the output, or standard error, takes nothing.
if [ -c /dev/full ]; then
    printf -- "$covered$none" > covered.test
    "$program" test --cover-info covered.test > /dev/full 2> found/err
    echo $? > found/status
    : > found/out
    check 'bpfdb test --cover-info with a full output' 2 '' '1..1\nok 1 - none\ncannot write output\n'
    "$program" test --cover-info covered.test > found/out 2> /dev/full
    echo $? > found/status
    : > found/err
    check 'bpfdb test --cover-info with a full standard error' 2 '' ''
fi

# What lcov makes of it: rates that are known of the rows above, of a file with two records of the same name that come twice (their lines add up), and pages.
if has genhtml 'tracefiles by lcov'; then
    # rates NAME LINES BRANCHES: what genhtml tells of the tracefile cover.info.
    rates() {
        count=$((count + 1))
        genhtml --branch-coverage --output-directory pages cover.info > told 2>&1 || complain "genhtml: $1: $(cat told)"
        grep -q -F "($2 lines)" told && grep -q -F "($3 branches)" told || complain "genhtml: $1: $(cat told)"
    }
    "$program" test --cover-info covered.test > cover.info 2> /dev/null
    rates 'a program' '4 of 9' '1 of 4'
    printf -- "$covered$two$three" > covered.test
    "$program" test --cover-info --only two covered.test > cover.info 2> /dev/null
    "$program" test --cover-info --only three covered.test >> cover.info 2> /dev/null
    rates 'records of one file' '6 of 9' '3 of 4'
    printf -- "${covered}-- name\na\n-- words\n9500000000000000\n-- result\n0\n-- name\nb\n-- listing\nmov r0, 1\nexit\n-- result\n1\n$none" > covered.test
    "$program" test --cover-info covered.test > cover.info 2> /dev/null
    rates 'several programs of a file' '6 of 11' '1 of 4'
    if [ -f pick.o ]; then
        printf -- "-- object pick.o\n-- entry verdict\n$few" > pick.test
        "$program" test --cover-info pick.test > cover.info 2> /dev/null
        rates 'lines of C' '6 of 9' '1 of 2'
        page=$(find pages -name pick.c.gcov.html)
        grep -q 'lineNoCov.*return 7;' "$page" && grep -q 'lineCov.*return n + 1;' "$page" || complain "genhtml: no lines of C: $page"
        rm -f pick.test whole.test bad.test
    fi
    cp "$top"/examples/suite/*.test "$parts"/suites/*.test .
    for file in *.test; do
        "$program" test --cover-info "$file" > cover.info 2> /dev/null
        grep -q '^DA:' cover.info || continue
        lines=$(awk -F: '$1 == "LF" { found += $2 } $1 == "LH" { hit += $2 } END { print hit " of " found }' cover.info)
        branches=$(awk -F: '$1 == "BRF" { found += $2 } $1 == "BRH" { hit += $2 } END { print hit " of " found }' cover.info)
        case $branches in
        *' of 0')
            count=$((count + 1))
            genhtml --branch-coverage --output-directory pages cover.info > told 2>&1 && grep -q -F "($lines lines)" told || complain "genhtml: $file: $(cat told)"
            ;;
        *) rates "$file" "$lines" "$branches" ;;
        esac
    done
fi

# Tests at random.
if has python3 'tracefiles of tests at random'; then
    python3 "$top/tests/trials/tracefiles.py" "$program" . > told 2>&1 || complain 'tests/trials/tracefiles.py'
    grep -a -v '^[0-9]* trials$' told
    failures=$((failures + $(grep -a -c '^FAILED: ' told)))
    count=$((count + $(sed -n 's/^\([0-9]*\) trials$/\1/p' told)))
fi

# A program of 65,535 slots, 10,000 tests of one program and with one each, and 100,000 places of as many files: the tracefile costs what the file is long.
{
    printf -- '-- listing\n'
    yes 'mov r0, 1' | head -n 65534
    printf 'exit\n'
    awk 'BEGIN { for (i = 1; i <= 2; i++) print "-- name\nx\n-- result\n1" }'
} > covered.test
awk 'BEGIN {
    print "TN:\nSF:covered.test"
    for (i = 2; i <= 65536; i++) print "DA:" i ",1"
    print "LF:65535\nLH:65535\nBRF:0\nBRH:0\nend_of_record"
}' > wanted/out
printf '1..2\nok 1 - x\nok 2 - x\n' > wanted/err
echo 0 > wanted/status
: > script
(
    ulimit -t 3
    failures=0
    run test --cover-info covered.test
    compare 'bpfdb test --cover-info of 65,535 slots'
    {
        printf -- '-- listing\n'
        yes 'mov r0, 1' | head -n 20000
        printf 'exit\n'
        awk 'BEGIN { for (i = 1; i <= 10000; i++) print "-- name\nx\n-- listing\nexit\n-- result\n0" }'
    } > covered.test
    awk 'BEGIN {
        for (i = 1; i <= 10000; i++) print "TN:\nSF:covered.test\nDA:" 20000 + 6 * i ",1\nLF:1\nLH:1\nBRF:0\nBRH:0\nend_of_record"
    }' > wanted/out
    awk 'BEGIN { print "1..10000"; for (i = 1; i <= 10000; i++) print "ok " i " - x" }' > wanted/err
    run test --cover-info covered.test
    compare 'bpfdb test --cover-info of 10,000 programs'
    {
        printf -- '-- listing\nexit\n-- result\n0\n-- lines\n'
        awk 'BEGIN { for (i = 0; i < 100000; i++) print i * 7919 % 100000 " f" i * 7919 % 100000 ".c:1 f" }'
    } > covered.test
    awk 'BEGIN { for (i = 0; i < 100000; i++) print "f" i ".c" }' | LC_ALL=C sort | awk '{
        print "TN:\nSF:" $0 "\nDA:1," ($0 == "f0.c") "\nLF:1\nLH:" ($0 == "f0.c") "\nBRF:0\nBRH:0\nend_of_record"
    }' > wanted/out
    printf '1..1\nok 1\n' > wanted/err
    run test --cover-info covered.test
    compare 'bpfdb test --cover-info of 100,000 files'
    exit "$failures"
)
failures=$((failures + $?))
count=$((count + 3))
