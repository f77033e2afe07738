# Files of tests (docs/TESTS.md): each section from both sides, what tests share, lines that end with a carriage return, files that are
# refused, a long file, and many tests. Reports were worked out by hand from the page; they stand beside the files in suites/.
if "$program" help test > /dev/null 2>&1; then

# tested NAME STATUS FILE: the report on a file of tests, which it calls by its name alone, is the text of found/wanted.
tested() {
    : > script
    cp "$3" "$(basename "$3")" 2> /dev/null
    run test "$(basename "$3")"
    echo "$2" > wanted/status
    : > wanted/err
    compare "$1"
}

# passing FILE: the report on a file of tests that all pass.
passing() {
    sed -n '/^-- name/{n;p;}' "$1" | awk '{ name[NR] = $0 } END { print "1.." NR; for (i = 1; i <= NR; i++) print "ok " i " - " name[i] }'
}

# (a file beside which no report stands is a table: all of its tests pass, and one whose expectation is changed is seen)
for file in "$parts"/suites/*.test; do
    if [ -e "${file%.test}.out" ]; then
        cp "${file%.test}.out" wanted/out
    else
        for expected in 'C[0-9]* at slot 0' 0x200000001; do
            grep -q -x "$expected" "$file" || continue
            awk -v expected="^$expected\$" '!planted && $0 ~ expected { $0 = "B" $0; sub(/^B0x/, "1"); planted = 1 } { print }' "$file" > planted
            : > script
            run test planted
            count=$((count + 1))
            [ "$(cat found/status) $(grep -c '^not ok' found/out)" = '1 1' ] || complain "bpfdb test $(basename "$file") with another $expected"
        done
        passing "$file" > wanted/out
    fi
    status=0
    grep -q '^not ok' wanted/out && status=1
    tested "bpfdb test $(basename "$file")" "$status" "$file"
done

# The examples of files of tests.
for file in "$top"/examples/suite/*.test; do
    passing "$file" > wanted/out
    tested "bpfdb test examples/suite/$(basename "$file")" 0 "$file"
done

# Tests with maps of their own over one program, at random, and what they come to by a model that looks at the program's pieces from the front.
if command -v python3 > /dev/null; then
    python3 "$top/tests/trials/mapped.py" "$program" 500 > found/trials 2>&1 || complain "mapped.py: $(tail -n 20 found/trials)"
    count=$((count + $(sed -n 's/^500 files, \([0-9]*\) tests, .*/\1/p' found/trials)))
fi

# Files that are refused, before anything is run.
sed '/^#/d' "$parts/suites/refusals.txt" > rows
while IFS= read -r wanted; do
    printf '%b' "${wanted#* | }" > p
    row "bpfdb test: ${wanted#* | }" 2 '' '' "refused ${wanted%% | *}\n" test p
done < rows

# The most steps; one more is refused (suites/refusals.txt).
printf -- '-- listing\nexit\n-- steps\n1000000000\n-- result\n0\n' > p
printf '1..1\nok 1\n' > wanted/out
tested 'bpfdb test of the most steps' 0 p

# A cell of 256 bytes, the most, which the program reads and writes at their ends; one of 257 is refused.
bytes=$(awk 'BEGIN { for (i = 0; i < 256; i++) printf "%02x", i }')
{
    printf -- '-- maps\n256x2\n-- listing\nldmapval r1, 0, 256\nldxb r0, [r1+255]\nstb [r1+0], 1\nexit\n'
    printf -- '-- cells\n0 1 %s\n-- result\n255\n-- map-after\n0 1 01%s\n' "$bytes" "${bytes#00}"
} > p
printf '1..1\nok 1\n' > wanted/out
tested 'bpfdb test of a cell of 256 bytes' 0 p
for section in cells map-after; do
    printf -- '-- listing\nexit\n-- result\n0\n-- %s\n0 0 %s00\n' "$section" "$bytes" > p
    row "bpfdb test of $section with 257 bytes" 2 '' '' 'refused T4 at line 5: malformed section\n' test p
done

# A file of a megabyte: a listing with a long comment, and 10,000 tests.
{
    printf -- '-- listing\n;'
    head -c 1048576 /dev/zero | tr '\0' x
    printf '\nmov r0, 5\nexit\n-- result\n5\n'
} > long
printf '1..1\nok 1\n' > wanted/out
tested 'bpfdb test of a megabyte' 0 long
awk 'BEGIN {
    for (i = 1; i <= 10000; i++) printf "-- name\ntest %d\n-- listing\nmov r0, %d\nexit\n-- result\n%d\n", i, i, i
}' > many
awk 'BEGIN { print "1..10000"; for (i = 1; i <= 10000; i++) printf "ok %d - test %d\n", i, i }' > wanted/out
tested 'bpfdb test of 10,000 tests' 0 many

# Cells that tests share get their values once, so many lines and as many tests are done at once; and a line takes little memory.
head='-- maps\n1x1\n-- listing\nexit\n-- result\n0\n-- cells\n'
{
    printf -- "$head"
    yes '0 0 00' | head -n 20000
    awk 'BEGIN { for (i = 1; i <= 20000; i++) print "-- name\nx" }'
} > many
awk 'BEGIN { print "1..20000"; for (i = 1; i <= 20000; i++) print "ok " i " - x" }' > wanted/out
tested 'bpfdb test of 20,000 tests that share 20,000 cells' 0 many
# What they make of maps is kept for all tables, so tests that have other maps in turn, some of which lack a cell, take no longer.
{
    printf -- '-- listing\nexit\n-- result\n0\n-- cells\n'
    yes '0 0 00' | head -n 20000
    printf '0 1 00\n'
    awk 'BEGIN { for (i = 1; i <= 6000; i++) print "-- name\nx\n-- maps\n1x" (i % 3 + 1) }'
} > many
(
    ulimit -t 3
    failures=0
    : > script
    run test many
    [ "$(cat found/status) $(grep -c '^ok ' found/out) $(grep -c '^# came: refused Q14 at cell 0 1: ' found/out)" = '1 4000 2000' ] ||
        complain 'bpfdb test of 6,000 tests that share 20,001 cells and have three tables of maps in turn, one of which lacks a cell'
    exit "$failures"
)
failures=$((failures + $?))
count=$((count + 1))
# Nor do tests with 400 tables in turn: of 99 of them the first line whose cell they lack is another one each.
{
    printf -- '-- listing\nldmapval r1, 0, 3999\nldxb r0, [r1+0]\nldmapval r1, 1, 3600\nldxb r2, [r1+0]\nadd r0, r2\nexit\n-- result\n3\n-- cells\n1 3900 02\n'
    awk 'BEGIN { for (i = 0; i < 12000; i++) print (i >= 4000) " " i % 4000 " 0" (i >= 8000) + 1 }'
    awk 'BEGIN { for (i = 1; i <= 6000; i++) print "-- name\nx\n-- maps\n1x4000,1x" (i % 400 + 3697) }'
} > many
awk 'BEGIN { print "    204 3900"; for (i = 3901; i < 4000; i++) print "      1 " i }' > lacking
(
    ulimit -t 3
    failures=0
    : > script
    run test many
    sed -n 's/^# came: refused Q14 at cell 1 \([0-9]*\): .*/\1/p' found/out | sort -n | uniq -c | awk '{ printf "%7d %s\n", $1 / 15, $2 }' | cmp -s - lacking &&
        [ "$(cat found/status) $(grep -c '^ok ' found/out)" = '1 1455' ] ||
        complain 'bpfdb test of 6,000 tests that share 12,001 cells and have 400 tables of maps in turn, most of which lack a cell'
    exit "$failures"
)
failures=$((failures + $?))
count=$((count + 1))
# What is wrong of cells is found once for tests in a row that leave the same bytes, whether they pass or fail, in much less time than the
# lines take for each of them.
{
    printf -- "${head%-- cells*}-- map-after\n"
    yes '0 0 00' | head -n 20000
    awk 'BEGIN { for (i = 1; i <= 20000; i++) print "-- name\nx" }'
} > many
sed 's/^0 0 00$/0 0 01/' many > wrong
(
    ulimit -t 3
    failures=0
    tested 'bpfdb test of 20,000 tests that share 20,000 lines of map-after' 0 many
    : > script
    run test wrong
    [ "$(cat found/status) $(grep -c '^# more wrong cells: 19984$' found/out)" = '1 20000' ] ||
        complain 'bpfdb test of 20,000 tests that share 20,000 lines of map-after, none of which holds'
    exit "$failures"
)
failures=$((failures + $?))
count=$((count + 2))
# Bytes of a context, what is to be left of them, and lines about registers are read once, too.
spaces=$(head -c 200000 /dev/zero | tr '\0' ' ')
{
    printf -- '-- listing\nmov r0, r3\nexit\n-- mem\n%s07\n-- mem-after\n%s07\n-- result\n5\n-- regs\n' "$spaces" "$spaces"
    yes 'r3 = 4' | head -n 20000
    printf 'r3 = 5\n'
    awk 'BEGIN { for (i = 1; i <= 20000; i++) print "-- name\nx" }'
} > many
{
    printf -- '-- listing\nmov r0, r2\nexit\n-- result\n65536\n-- mem\n'
    head -c 131072 /dev/zero | tr '\0' 0
    awk 'BEGIN { for (i = 1; i <= 40000; i++) print "\n-- name\nx" }'
} > wide
awk 'BEGIN { print "1..40000"; for (i = 1; i <= 40000; i++) print "ok " i " - x" }' > most
(
    ulimit -t 3
    failures=0
    awk 'BEGIN { print "1..20000"; for (i = 1; i <= 20000; i++) print "ok " i " - x" }' > wanted/out
    tested 'bpfdb test of 20,000 tests that share a long mem, mem-after and regs' 0 many
    cp most wanted/out
    tested 'bpfdb test of 40,000 tests that share a context of 65,536 bytes' 0 wide
    exit "$failures"
)
failures=$((failures + $?))
count=$((count + 2))
# The report on the greatest context tells of its last byte, of one behind it, and of the first; where tests share it, of each that fails.
zeros=$(head -c 131072 /dev/zero | tr '\0' 0)
printf -- '-- listing\nadd r1, 65535\nstb [r1+0], 0xa5\nexit\n-- mem\n%s\n-- result\n0\n-- name\nthe last\n-- mem-after\n%s\n' "$zeros" "$zeros" > great
printf -- '-- name\none behind it\n-- mem-after\n%sa5 .1\n-- name\nnone\n-- mem-after\n-- name\nall\n-- mem-after\n%s5a\n' "${zeros#00}" "${zeros#00}" >> great
sed -i '$s/5a$/a5/' great
# unlike NUMBER NAME LINE LINES: the report on a test that leaves other bytes than are wanted.
unlike() {
    printf "not ok $1 - $2\n# the test in line $3\n# came: exited at 2: r0 0x0\n# wanted: result 0, and mem-after\n$4# debug: bpfdb-show '$2' 'great'\n"
}
{
    echo 1..4
    unlike 1 'the last' 9 '# byte 65535 came: 0x10000ffff: a5\n# byte 65535 wanted: 00\n'
    unlike 2 'one behind it' 13 '# byte 65536 came: none\n# byte 65536 wanted: .1\n# bytes of the context: 65536, of mem-after: 65537\n'
    unlike 3 none 17 '# byte 0 came: 0x100000000: 00\n# byte 0 wanted: none\n# bytes of the context: 65536, of mem-after: 0\n'
    echo 'ok 4 - all'
} > wanted/out
tested 'bpfdb test of a context of 65,536 bytes and of what is left of it' 1 great
{
    printf -- '-- listing\nadd r1, 65535\nstxb [r1+0], r3\nexit\n-- mem\n%s\n-- mem-after\n%sa5\n-- result\n0\n' "$zeros" "${zeros#00}"
    awk 'BEGIN { for (i = 1; i <= 2000; i++) printf "-- name\nx\n-- regs\nr3 = %d\n", i % 2 ? 165 : 90 }'
} > many
(
    ulimit -t 3
    failures=0
    : > script
    run test many
    [ "$(cat found/status) $(grep -c '^ok ' found/out) $(grep -c '^# byte 65535 came: 0x10000ffff: 5a$' found/out)" = '1 1000 1000' ] ||
        complain 'bpfdb test of 2,000 tests that share a context of 65,536 bytes and what is to be left of it, half of which leave another last byte'
    exit "$failures"
)
failures=$((failures + $?))
count=$((count + 1))
# So is what is expected, with its zeros and blanks, whether a test passes or fails, and so are maps.
zeros=$(head -c 200000 /dev/zero | tr '\0' 0)
{
    printf -- '-- listing\nexit\n-- maps\n%s1x1\n-- result\n%s%s\n' "$zeros" "$spaces" "$zeros"
    awk 'BEGIN { for (i = 1; i <= 20000; i++) print "-- name\nx" (i % 2 ? "" : "\n-- maps\n1x2") }'
} > many
{
    printf -- '-- listing\nldxb r0, [r3+0]\nexit\n-- fault\n%saccess\n' "$spaces"
    awk 'BEGIN { for (i = 1; i <= 20000; i++) print "-- name\nx" (i % 2 ? "" : "\n-- listing\nexit") }'
} > wide
(
    ulimit -t 3
    failures=0
    awk 'BEGIN { print "1..20000"; for (i = 1; i <= 20000; i++) print "ok " i " - x" }' > wanted/out
    tested 'bpfdb test of 20,000 tests that share a long result and long maps' 0 many
    : > script
    run test wide
    [ "$(cat found/status) $(grep -c '^# wanted: fault access$' found/out)" = '1 10000' ] ||
        complain 'bpfdb test of 20,000 tests that share a long fault, half of which end without one'
    exit "$failures"
)
failures=$((failures + $?))
count=$((count + 2))
{
    printf -- "$head"
    yes '0 0 00' | head -n 300000
} > cells
printf '1..1\nok 1\n' > wanted/out
(
    ulimit -v 40000
    failures=0
    tested 'bpfdb test of 300,000 cells in 40 MB of memory' 0 cells
    exit "$failures"
)
failures=$((failures + $?))
count=$((count + 1))

# What is shown of a test: the words of its program, its context, and the options and the script with which the debugger shows it.
# showing PART NAME TEXT: the part of a test of the file `shown.test` is this text.
showing() {
    row "bpfdb test --show $1 --only '$2'" 0 '' "$3" '' test --show "$1" --only "$2" shown.test
}
{
    printf -- '-- listing\nldxb r0, [r1+1]\nexit\n-- maps\n 4x3,2x2 \n-- name\na\n-- mem\n0a ff\n00\n-- steps\n0x10\n'
    printf -- '-- cells\n0 2 01020304\n\n1 0x1 FF 00\n-- result\n255\n'
    printf -- "-- name\nit's b\n-- words\n95 00\n-- refused\nC3\n-- name\nno listing\n-- asm\nexit\nfrob\n-- refused\nA1\n"
    printf -- '-- name\ntwice\n-- result\n0\n-- name\ntwice\n-- result\n0\n'
} > shown.test
showing program a '\0161\0020\0001\0000\0000\0000\0000\0000\0225\0000\0000\0000\0000\0000\0000\0000'
showing context a '\n\0377\0000'
showing options a '--maps=4x3,2x2\n--steps=16\n'
showing script a 'set cell 0 2 01020304\nset cell 1 1 ff00\ncontinue\n'
showing program "it's b" '\0225\0000'
showing context "it's b" ''
showing options "it's b" '--maps=4x3,2x2\n--steps=1000000\n'
showing script "it's b" 'continue\n'
showing context 'no listing' ''
{
    printf -- '-- listing\nmov r0, r3\nadd r0, r9\nexit\n-- maps\n1x1\n-- cells\n0 0 07\n-- regs\nr3 = 0x10\n\n r9=18446744073709551615\nr3 = 7\n-- result\n6\n'
} > registers
row 'bpfdb test --show script of registers' 0 '' 'set cell 0 0 07\nset reg r3 16\nset reg r9 18446744073709551615\nset reg r3 7\ncontinue\n' '' test --show script registers
"$program" test --show program registers > words
row 'bpfdb debug obeys the script of registers' 0 "$("$program" test --show script registers)\n" 'ok\nok\nok\nok\n3 forward; end; exited at 2: r0 0x6\n' '' debug --maps=1x1 words
row 'bpfdb test --show program of a listing that is none' 2 '' '' 'refused A1 at line 2: unknown mnemonic\n' test --show program --only 'no listing' shown.test
row 'bpfdb test --show of several tests' 2 '' '' 'refused T8: more than one test is asked for\n' test --show program shown.test
row 'bpfdb test --show of several tests of a name' 2 '' '' 'refused T8: more than one test is asked for\n' test --show context --only twice shown.test
row 'bpfdb test --show of no test' 2 '' '' 'refused T7: no test of this name: b\n' test --show program --only b shown.test
printf -- '-- listing\nexit\n-- result\n0\n' > alone
row 'bpfdb test --show of a file of one test' 0 '' '--steps=1000000\n' '' test --show options alone
printf -- '-- listing\nexit\n' > lacking
row 'bpfdb test --show of a file with a fault' 2 '' '' 'refused T6 at line 1: test without an expectation\n' test --show options lacking

# What ran (--cover): of the program that tests share over all of them, then of each test's own. (Worked out by hand: without bytes r2 is 0,
# so slot 0 jumps to 7; with two it goes on to 3, which goes on; with three slot 3 jumps. Slot 8 jumps to the slot behind it: it has one way.)
covered='-- listing\njlt r2, 2, short\nlddw r0, 5\njeq r2, 3, third\nja end\nthird: mov r0, 3\nend: exit\nshort: mov r0, 1\njne r2, 1, last\nlast: exit\n'
two='-- name\ntwo\n-- mem\n0000\n-- result\n5\n'
three='-- name\nthree\n-- mem\n000000\n-- result\n3\n'
none='-- name\nnone\n-- result\n1\n'
# covering NAME STATUS CONTENT OUTPUT ARGUMENT..: a file of this content with --cover.
covering() {
    name=$1 status=$2 output=$4
    printf -- "$3" > covered.test
    shift 4
    row "bpfdb test --cover: $name" "$status" '' "$output" '' test --cover covered.test "$@"
}
first='# cover of the program in line 1: '
covering 'one test' 0 "$covered$two" "1..1\nok 1 - two\n${first}5 of 9 instructions, 0 of 2 branches both ways\n# never jumped: 0: jlt r2, 2, L7\n# never jumped: 3: jeq r2, 3, L5\n# never ran: 5: mov r0, 3\n# never ran: 7: mov r0, 1\n# never ran: 8: jne r2, 1, L9\n# never ran: 9: exit\n"
covering 'two tests' 0 "$covered$two$none" "1..2\nok 1 - two\nok 2 - none\n${first}8 of 9 instructions, 1 of 2 branches both ways\n# never jumped: 3: jeq r2, 3, L5\n# never ran: 5: mov r0, 3\n"
covering 'a branch that always jumps' 0 "$covered$three" "1..1\nok 1 - three\n${first}5 of 9 instructions, 0 of 2 branches both ways\n# never jumped: 0: jlt r2, 2, L7\n# never went on: 3: jeq r2, 3, L5\n# never ran: 4: ja L6\n# never ran: 7: mov r0, 1\n# never ran: 8: jne r2, 1, L9\n# never ran: 9: exit\n"
covering 'three tests, which run all' 0 "$covered$two$three$none" "1..3\nok 1 - two\nok 2 - three\nok 3 - none\n${first}9 of 9 instructions, 2 of 2 branches both ways\n"
covering 'a test of a name alone' 0 "$covered$two$three$none" "1..1\nok 1 - none\n${first}4 of 9 instructions, 0 of 2 branches both ways\n# never went on: 0: jlt r2, 2, L7\n# never ran: 1: lddw r0, 0x5\n# never ran: 3: jeq r2, 3, L5\n# never ran: 4: ja L6\n# never ran: 5: mov r0, 3\n# never ran: 6: exit\n" --only none
covering 'a test that fails' 1 '-- listing\nexit\n-- result\n1\n' "1..1\nnot ok 1\n# the test in line 1\n# came: exited at 0: r0 0x0\n# wanted: result 1\n# debug: bpfdb-show '' 'covered.test'\n${first}1 of 1 instructions, 0 of 0 branches both ways\n"
covering 'a step that faults ran' 0 '-- listing\nldxb r0, [r1+0]\nexit\n-- fault\naccess 0x0 at 0\n' "1..1\nok 1\n${first}1 of 2 instructions, 0 of 0 branches both ways\n# never ran: 1: exit\n"
covering 'the limit of steps' 0 '-- listing\nmov r1, 1\nja on\non: exit\n-- steps\n2\n-- limit\nat 2\n' "1..1\nok 1\n${first}2 of 3 instructions, 0 of 0 branches both ways\n# never ran: 2: exit\n"
covering 'a program that is refused' 0 '-- words\n95\n-- refused\nC3\n' '1..1\nok 1\n'
covering 'a listing that is none' 0 '-- listing\nfrob\n-- refused\nA1\n' '1..1\nok 1\n'
covering 'maps that are none, of the first test and of the last' 0 '-- listing\nexit\n-- name\na\n-- maps\nx\n-- refused\nM5\n-- name\nb\n-- result\n0\n-- name\nc\n-- maps\ny\n-- refused\nM5\n' "1..3\nok 1 - a\nok 2 - b\nok 3 - c\n${first}1 of 1 instructions, 0 of 0 branches both ways\n"
covering 'cells, shared and of a test' 0 '-- maps\n1x1\n-- listing\nldmapval r1, 0, 0\nldxb r0, [r1+0]\njeq r0, 0, end\nadd r0, 1\nend: exit\n-- cells\n0 0 07\n-- name\nshared\n-- result\n8\n-- name\nown\n-- cells\n0 0 00\n-- result\n0\n' "1..2\nok 1 - shared\nok 2 - own\n# cover of the program in line 3: 5 of 5 instructions, 1 of 1 branches both ways\n"
covering 'cells of one test alone' 0 '-- maps\n1x1\n-- listing\nldmapval r1, 0, 0\nldxb r0, [r1+0]\njeq r0, 0, end\nadd r0, 1\nend: exit\n-- cells\n0 0 07\n-- name\nshared\n-- result\n8\n' "1..1\nok 1 - shared\n# cover of the program in line 3: 5 of 5 instructions, 0 of 1 branches both ways\n# never jumped: 3: jeq r0, 0, L5\n"
covering 'a cell that is none' 0 '-- listing\nexit\n-- cells\n0 0 07\n-- refused\nQ14\n' '1..1\nok 1\n'
covering 'programs of tests, behind that which the others share' 0 '-- name\na\n-- words\n9500000000000000\n-- result\n0\n-- name\nb\n-- listing\nmov r0, 1\nexit\n-- result\n1\n' '1..2\nok 1 - a\nok 2 - b\n# cover of the program in line 3: 1 of 1 instructions, 0 of 0 branches both ways\n# cover of the program in line 9: 2 of 2 instructions, 0 of 0 branches both ways\n'
covering 'a program of its own before one of the shared program' 0 "${covered}-- name\na\n-- words\n9500000000000000\n-- result\n0\n$none" "1..2\nok 1 - a\nok 2 - none\n${first}4 of 9 instructions, 0 of 2 branches both ways\n# never went on: 0: jlt r2, 2, L7\n# never ran: 1: lddw r0, 0x5\n# never ran: 3: jeq r2, 3, L5\n# never ran: 4: ja L6\n# never ran: 5: mov r0, 3\n# never ran: 6: exit\n# cover of the program in line 13: 1 of 1 instructions, 0 of 0 branches both ways\n"
covering 'registers, shared and of a test' 0 '-- listing\njeq r3, 5, end\nmov r0, 1\nend: exit\n-- regs\nr3 = 5\n-- name\nshared\n-- result\n0\n-- name\nown\n-- regs\nr3 = 4\n-- result\n1\n' "1..2\nok 1 - shared\nok 2 - own\n${first}3 of 3 instructions, 1 of 1 branches both ways\n"
covering 'registers of one test alone' 0 '-- listing\njeq r3, 5, end\nmov r0, 1\nend: exit\n-- regs\nr3 = 5\n-- result\n0\n' "1..1\nok 1\n${first}2 of 3 instructions, 0 of 1 branches both ways\n# never went on: 0: jeq r3, 5, L2\n# never ran: 1: mov r0, 1\n"
covering 'a function that is called' 0 '-- listing\ncallf f\nexit\nf: mov r0, 4\nexit\n-- result\n4\n' "1..1\nok 1\n${first}4 of 4 instructions, 0 of 0 branches both ways\n"
row 'bpfdb test --cover of no test' 2 '' '' 'refused T7: no test of this name: b\n' test --cover --only b covered.test
row 'bpfdb test --cover of a file with a fault' 2 '' '' 'refused T6 at line 1: test without an expectation\n' test --cover lacking
row 'bpfdb test --cover --show' 0 '' '--steps=1000000\n' '' test --cover --show options alone
row 'bpfdb test --cover of a file that is not there' 2 '' '' 'cannot read missing\n' test --cover missing
# (a program of 65,535 slots, and 10,000 tests of one program and with one each: the table costs what the file is long)
{
    printf -- '-- listing\n'
    yes 'mov r0, 1' | head -n 65534
    printf 'exit\n'
    awk 'BEGIN { for (i = 1; i <= 2; i++) print "-- name\nx\n-- result\n1" }'
} > many
printf '1..2\nok 1 - x\nok 2 - x\n%s65535 of 65535 instructions, 0 of 0 branches both ways\n' "$first" > wanted/out
covers_many() {
    : > script
    echo 0 > wanted/status
    : > wanted/err
    run test --cover many
    compare "$1"
}
(
    ulimit -t 3
    failures=0
    covers_many 'bpfdb test --cover of 65,535 slots'
    {
        printf -- '-- listing\n'
        yes 'mov r0, 1' | head -n 20000
        printf 'exit\n'
        awk 'BEGIN { for (i = 1; i <= 10000; i++) print "-- name\nx\n-- words\n9500000000000000\n-- result\n0" }'
    } > many
    awk 'BEGIN {
        print "1..10000"
        for (i = 1; i <= 10000; i++) print "ok " i " - x"
        for (i = 1; i <= 10000; i++) print "# cover of the program in line " 19999 + 6 * i ": 1 of 1 instructions, 0 of 0 branches both ways"
    }' > wanted/out
    covers_many 'bpfdb test --cover of 10,000 programs'
    exit "$failures"
)
failures=$((failures + $?))
count=$((count + 2))

# The line that a report gives for a test that failed: its name and its file's as a shell takes them, and what the shell makes of it.
mkdir bin
ln -s "$program" bin/bpfdb
ln -s "$top/share/bpfdb-show" bin/bpfdb-show
# typed NAME STATUS OUTPUT ERRORS LINE: what a shell makes of a line.
typed() {
    (PATH=$PWD/bin:$PATH && unset BPFDB && sh -c "$5" < script) > found/out 2> found/err
    echo $? > found/status
    check "$1" "$2" "$3" "$4"
}
: > script
cat > "the 'file'" << 'END'
-- listing
ldxb r0, [r1+2]
add r0, 1
exit
-- name
it's $a `b` -- "c"
-- mem
00 01 07
-- result
7
END
cat > wanted/out << 'END'
1..1
not ok 1 - it's $a `b` -- "c"
# the test in line 5
# came: exited at 2: r0 0x8
# wanted: result 7
# debug: bpfdb-show 'it'\''s $a `b` -- "c"' 'the '\''file'\'''
END
echo 1 > wanted/status
: > wanted/err
run test "the 'file'"
compare 'bpfdb test of names with quotes'
line=$(sed -n 's/^# debug: //p' found/out)
typed 'bpfdb-show of a test that failed' 0 'cat parts/script - | bpfdb debug --steps=1000000 -m parts/context parts/program\nbpfdb origin --steps=1000000 -m parts/context --script parts/script parts/program\n' '' "$line parts"
cp found/out lines
typed 'the line of bpfdb debug' 0 '3 forward; end; exited at 2: r0 0x8\n3 back; done; at 0: ldxb r0, [r1+2]\n' '' "echo undo | $(sed -n 1p lines)"
typed 'the line of bpfdb origin' 0 'exited at 2: r0 0x8\n-2 r0 = 0x8; 1: add r0, 1; from r0\n-3 r0 = 0x7; 0: ldxb r0, [r1+2]; from 0x100000002:1\nleft 0x100000002:1 = 0x7; byte 2 of the context; at the opening\n' '' "$(sed -n 2p lines)"
# (a character of the file's name that steers a terminal is told as `?`, so that the report stays a line a remark)
for octal in '\001' '\012' '\033' '\177' '\302\233' '\342\200\256'; do
    odd=$(printf "odd${octal}file")
    printf -- '-- listing\nexit\n-- result\n1\n' > "$odd"
    row "bpfdb test of a name with the bytes $octal" 1 '' "1..1\nnot ok 1\n# the test in line 1\n# came: exited at 0: r0 0x0\n# wanted: result 1\n# debug: bpfdb-show '' 'odd?file'\n" '' \
        test "$odd"
done
mkdir new
typed 'bpfdb-show into a new folder' 0 'context options program script\ncat F/script - | bpfdb debug --maps=4x3,2x2 --steps=16 -m F/context F/program\n' '' \
    'TMPDIR=new; export TMPDIR; bpfdb-show a shown.test > shown; echo $(ls new/*); sed -n "1s:new/bpfdb-show\.......:F:gp" shown'
typed 'bpfdb-show of no option' 2 '' "error: unexpected argument '--pages' found\n" 'TMPDIR=new bpfdb-show --pages shown.test new/pages'
printf -- '-- listing\nexit\n-- name\n --odd\n-- result\n0\n' > odd.test
typed 'bpfdb-show of a test whose name begins with hyphens' 0 'context options program script\n' '' 'bpfdb-show --odd odd.test new/odd > shown; echo $(cd new/odd && ls); rm -r new/odd'
typed 'bpfdb-show of no test' 2 '' 'refused T7: no test of this name: b\n' 'TMPDIR=new bpfdb-show b shown.test'
typed 'bpfdb-show without bpfdb' 2 '' 'cannot find nowhere\n' 'BPFDB=nowhere bpfdb-show a shown.test'
typed 'bpfdb-show with bpfdb beside it' 0 'context\noptions\nprogram\nscript\n' '' "PATH=\$(dirname \"\$(command -v sh)\"):/usr/bin:/bin; bin/bpfdb-show a shown.test near > shown && ls near"
typed 'what bpfdb-show leaves of no test' 0 '1\n' '' 'ls new | wc -l'
# Names of folders are words of the shell, whatever is in them; what a test file holds is none of its lines.
for dir in 'a\tb\041\c' "it's \"c\"" '-m' 'a
b
' '$(touch pwned)`touch pwned`;#'; do
    (PATH=$PWD/bin:$PATH && unset BPFDB && bpfdb-show a shown.test "$dir" > lines && sed 's/^bpfdb origin/echo; &/' lines | sh) > found/out 2> found/err < script
    echo $? > found/status
    check "bpfdb-show into '$dir'" 0 'ok\nok\n2 forward; end; exited at 1: r0 0xff\n\nexited at 1: r0 0xff\n-2 r0 = 0xff; 0: ldxb r0, [r1+1]; from 0x100000001:1\nleft 0x100000001:1 = 0xff; byte 1 of the context; at the opening\n' ''
done
printf -- '-- listing\nexit\n-- maps\n8x2\\047; touch pwned; \\047\n-- result\n0\n' > maps.test
typed 'bpfdb-show of a list of maps that is none' 2 '' 'refused M5: malformed map list\n' "bpfdb-show '' maps.test maps > shown; status=\$?; sh shown; exit \$status"
typed 'what a test file lets do' 0 '' '' '! [ -e pwned ] && ! [ -e maps ]'
# A folder that is there stays as it is, and of what fails none is left.
mkdir there
echo precious > there/program
typed 'bpfdb-show into a folder that is there' 0 '2\nprogram\nprecious\n' '' 'bpfdb-show a shown.test there 2> err; echo $?; ls there; cat there/program'
typed 'bpfdb-show of no test, into a folder' 0 '2\n' 'refused T7: no test of this name: b\n' 'bpfdb-show b shown.test none; echo $?; ! [ -e none ]'
if [ -c /dev/full ]; then
    typed 'bpfdb-show: a full output' 0 '2\n' 'cannot write output\n' 'bpfdb-show a shown.test full > /dev/full; echo $?; ! [ -e full ]'
fi
typed 'bpfdb-show of nothing' 2 '' 'usage: bpfdb-show NAME FILE [DIR]\n' 'bpfdb-show a'

fi
