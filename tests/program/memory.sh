# Memory: each request for it is refused in turn, alone and with all later ones, until a run meets no refusal. Then the
# program has said so on one line, by the number of what it couldn't do, if that has one, and its status is 2. So it is with bpfdb, and
# with a program that makes each public call of the libraries below the jobs that takes memory.

bytes endless 05 00 ff ff 00 00 00 00
bytes context 01 02 03 04 05 06 07 08
printf 'start: mov r0, 42\nexit\n' > program.s
bytes program b7 00 00 00 2a 00 00 00 EXIT
words=$text
: > script
kit=$(dirname "$(rt doc)")
"$kit/toolchain/bin/clang" -fuse-ld=lld -shared -fPIC -O1 -nostdlib -o refuse.so "$top/tests/refuse.c" ||
    complain "tests/refuse.c can't be compiled by the clang of the kit, $kit"

# (so many requests are tried at most; a run makes about a hundred)
most=1000

# refuse NUMBER ALL ARGUMENT..: runs the program with that request for memory refused, and where ALL isn't empty each later one.
refuse() {
    number=$1 all=$2
    shift 2
    if [ -n "$all" ]; then
        REFUSED=$number REFUSED_ALL=1 LD_PRELOAD=./refuse.so "$program" "$@" < script > found/out 2> found/err
    else
        REFUSED=$number LD_PRELOAD=./refuse.so "$program" "$@" < script > found/out 2> found/err
    fi
    found=$?
    echo $found > found/status
}

# The program's name, and the status by which it says that memory ran out before it came to what is tried, if it has one.
name=bpfdb
unreached=''

# lacks NAME: the last run wrote nothing but one line, which says that memory ran out. It is kept in the file `met`.
# (most tests are made here, so no other program is called for one that passes)
lacks() {
    if [ "$found" = "$unreached" ] && ! [ -s found/out ] && ! [ -s found/err ]; then
        count=$((count + 1))
        return
    fi
    line='' more=''
    { read -r line; read -r more; } < found/err
    case $line in
        'out of memory' | 'refused A7: out of memory' | 'refused C13: out of memory' | 'refused O2: out of memory' | \
            'refused J2: out of memory' | 'refused E26: out of memory' | 'refused E26: out of memory (--with)' | \
            'refused E26: out of memory (--with, object 2)' | 'refused E26: out of memory (the object in line 1)' | \
            'refused A7: out of memory (the other run)' | 'refused C13: out of memory (the other run)' | 'refused O2: out of memory (the other run)' | \
            'refused E26: out of memory (the other run)')
            echo "$line" >> met ;;
        *) line='out of memory' more=none ;;
    esac
    if [ "$found" = 2 ] && [ -z "$more" ] && ! [ -s found/out ]; then
        count=$((count + 1))
    else
        check "$1" 2 '' "$line\n"
    fi
}

# said NAME LINES: what the runs in which a request was refused said, in the file `met`, is LINES, each of them at least once.
said() {
    sort -u met > found/out
    printf '%b' "$2" | sort > wanted/out
    : > found/err
    : > wanted/err
    cp wanted/status found/status
    compare "$1: what is said of refused requests"
}

# is_whole: the last run came to what is wanted, which stands in the files `outcome` and `errors`, with the status that is wanted.
is_whole() {
    [ "$found" = "$status" ] && cmp -s outcome found/out && cmp -s errors found/err
}

# wants LINES STATUS OUTPUT ERRORS ARGUMENT..: the runs of this command line in which a request is refused say LINES, each of
# them at least once; the first run in which none is refused comes to what is said. (A list that is gathered from an
# iterator asks once more for room where that is refused, `collect` of the standard library: a run in which the first of both
# requests is refused alone comes to what is said, too.)
wants() {
    lines=$1 status=$2 output=$3 errors=$4
    shift 4
    : > met
    printf '%b' "$output" > outcome
    printf '%b' "$errors" > errors
    request=1
    while [ "$request" -le "$most" ]; do
        refuse "$request" '' "$@"
        is_whole || lacks "$name $*: request $request for memory refused"
        refuse "$request" all "$@"
        is_whole && break
        lacks "$name $*: requests for memory from $request on refused"
        request=$((request + 1))
    done
    check "$name $*: there is no request for memory after $((request - 1))" "$status" "$output" "$errors"
    refuse "$request" '' "$@"
    check "$name $*: request $request for memory, if there is one, refused" "$status" "$output" "$errors"
    said "$name $*" "$lines"
}

# packet BODY: a packet of gdb's with this body.
packet() {
    printf '$%s#%02x' "$1" "$(printf '%s' "$1" | od -An -v -tu1 | awk '{ for (i = 1; i <= NF; i++) sum += $i } END { print sum % 256 }')"
}

# hexadecimal TEXT: its bytes, in two digits each.
hexadecimal() {
    printf '%s' "$1" | od -An -v -tx1 | tr -d ' \n'
}

# Each subcommand, with and without a listing, and with its other ends; help; and a command line that is none.
plain='out of memory\n'
a7='refused A7: out of memory\n'
c13='refused C13: out of memory\n'
o2='refused O2: out of memory\n'
j2='refused J2: out of memory\n'
e26='refused E26: out of memory\n'
of_functions='refused E26: out of memory (--with)\n'
wants "$plain$c13$o2" 0 '0x2a\n' '' run -m context --maps 8x2 program
wants "$plain$a7$c13$o2" 0 '0x2a\n' '' run --listing program.s
wants "$plain$c13$o2$j2" 0 '' '' debug -m context --maps 8x2 --journal 1024 --steps 7 program
printf 'b70000002a0000009500000000000000 01\n' > script
wants "$plain" 0 '0x2a\n' '' batch --maps 8x2
: > script
for size in 2097152 16777216; do
    wants "$plain$c13$o2$j2" 0 '' '' debug --maps 8x2 --journal "$size" program
done
head -c 4096 /dev/zero > page
head -c 65536 /dev/zero > whole
for bytes_of_context in page whole; do
    wants "$plain$c13$o2$j2" 0 '' '' debug -m "$bytes_of_context" --maps 256x64 program
done
wants "$plain$a7$c13$o2$j2" 0 '' '' debug --listing program.s
printf 'ldxb r0, [r10-1]\nexit\n' > read.s
wants "$plain$a7$c13$o2$j2" 0 '' '' debug --strict --listing read.s
wants "$plain$a7$c13$o2$j2" 0 'exited at 1: r0 0x2a\n-2 r0 = 0x2a; 0: mov r0, 42\n' '' origin --listing program.s
wants "$plain$a7$c13$o2$j2" 0 'exited at 1: r0 0x2a\n-2 r0 = 0x2a; 0: mov r0, 42\nno other branch; at the opening\n' '' origin --branches --listing program.s
wants "$plain$c13$o2$j2" 0 'exited at 1: r0 0x2a\nleft 0x200000000:1 = 0x0; not written since the call\n' '' origin -m context --maps 8x2 --journal 1024 program 0x200000000
printf 'stepi\nset reg r0 7\nundo\nredo\n' > obeyed
wants "$plain$a7$c13$o2$j2" 0 'at 1: exit\n-1 r0 = 0x7; edit\n' '' origin --script obeyed --listing program.s
wants "$plain$c13$o2$j2" 0 'at 1: exit\n-1 r0 = 0x7; edit\n' '' origin -m context --maps 8x2 --journal 1024 --script obeyed program r0
printf 'stepi\nfinish\n' > refused
wants "$plain$c13$o2$j2" 2 '' 'refused Q9: outermost frame\n' origin --journal 1024 --script refused program
wants "$plain$a7$c13$o2$j2" 0 'exited at 1: r0 0x2a\nit was reached 2 moves back\n' '' whynot --listing program.s 0
wants "$plain$a7$c13$o2$j2" 0 'exited at 1: r0 0x2a\nit was reached 2 moves back\n' '' whynot --listing program.s start
wants "$plain$c13$o2$j2" 0 'at 1: exit\nit can still be reached\n' '' whynot -m context --maps 8x2 --journal 1024 --script obeyed program 1
others='refused C13: out of memory (the other run)\nrefused O2: out of memory (the other run)\n'
wants "$plain$c13$o2$others" 0 'same for 2 steps\nexited at 1: r0 0x2a\n' '' diff -m context --maps 8x2 program program
wants "$plain$a7$c13$o2${others}refused A7: out of memory (the other run)\n" 0 'same for 2 steps\nexited at 1: r0 0x2a\n' '' diff --listing program.s program.s
wants "$plain$c13$o2$others" 0 'same writes\n< exited at 1: r0 0x2a\n> exited at 1: r0 0x2a\n' '' diff --writes -m context --maps 8x2 program program
printf 'mov r0, 41\nexit\n' > less.s
# (the journal is that of where the values came from that differ)
otherwise='< 1 0: mov r0, 42; r0 = 0x2a\n> 1 0: mov r0, 41; r0 = 0x29\n< exited at 1: r0 0x2a\n> exited at 1: r0 0x29\n'
origins='< at 1: exit\n< -1 r0 = 0x2a; 0: mov r0, 42\n> at 1: exit\n> -1 r0 = 0x29; 0: mov r0, 41\n'
both="$plain$a7$c13$o2${others}refused A7: out of memory (the other run)\n"
wants "$both" 1 "r0 ends otherwise: 0x2a, 0x29\n$otherwise" '' diff --writes --alone --listing program.s less.s
wants "$both$j2" 1 "r0 ends otherwise: 0x2a, 0x29\n$otherwise$origins" '' diff --writes --listing program.s less.s
wants "$both" 1 "step 1 wrote otherwise\n$otherwise" '' diff --alone --listing program.s less.s
wants "$both$j2" 1 "step 1 wrote otherwise\n$otherwise$origins" '' diff --journal 1024 --listing program.s less.s
printf '1 0: mov r0, 42; r0 = 0x2a\n2 1: exit\nexited at 1: r0 0x2a\n' > there
wants "$plain$c13$o2" 0 'same for 2 steps\nexited at 1: r0 0x2a\n' '' diff -m context --maps 8x2 --trace there program
wants "$plain$a7$c13$o2" 0 'same for 2 steps\nexited at 1: r0 0x2a\n' '' diff --listing --trace there program.s
printf '%s\n' '- - - - - - - - - - - -' '1 42 - - - - - - - - - -' > there
wants "$plain$c13$o2" 0 'same for 2 steps\nexited at 1: r0 0x2a\n' '' diff --trace there program
wants "$plain$c13$o2" 0 '1 0: mov r0, 42; r0 = 0x2a\n2 1: exit\nexited at 1: r0 0x2a\n' '' trace -m context --maps 8x2 program
wants "$plain$c13$o2" 0 'exited at 1: r0 0x2a\n' '' trace --branches program
wants "$plain$c13$o2" 0 '1 0: mov r0, 42\n1 1: exit\nexited at 1: r0 0x2a\n' '' trace --profile program
wants "$plain$c13$o2" 0 '0x2a\n' '' run --strict -m context --maps 8x2 program
wants "$plain$c13$o2" 0 '1 0: mov r0, 42; r0 = 0x2a\n2 1: exit\nexited at 1: r0 0x2a\n' '' trace --strict program
printf 'mov r0, 42\nldxb r0, [r10-1]\nexit\n' > unread.s
wants "$plain$a7$c13$o2" 1 '1 0: mov r0, 42; r0 = 0x2a\nread of 0x2000001ff at 1: not written since the call\n' '' trace --strict --listing unread.s
wants "$plain$a7" 0 "$words" '' asm program.s
wants "$plain$a7" 0 '0 1 start\n1 2\n' '' lines program.s
wants "$plain$c13" 0 'mov r0, 42\nexit\n' '' disasm --maps 8x2 program
wants "$plain$a7$c13" 0 'mov r0, 42\nexit\n' '' disasm --listing program.s
wants "$plain$c13" 0 'ok 2 instructions in 2 slots\n' '' check --maps 8x2 program
wants "$plain$a7$c13" 0 'ok 2 instructions in 2 slots\n' '' check --listing program.s
object calls
bytes linked 85 10 00 00 06 00 00 00 bf 01 00 00 00 00 00 00 85 10 00 00 01 00 00 00 EXIT \
    bf 10 00 00 00 00 00 00 07 00 00 00 01 00 00 00 EXIT bf 10 00 00 00 00 00 00 27 00 00 00 03 00 00 00 EXIT
wants "$plain$e26" 0 "$text" '' link calls.o
wants "$plain$e26" 0 '' '' link -o taken calls.o
object point
object text
bytes stored \
    06 00 00 00 0b 00 00 00 18 62 00 00 00 00 00 00 00 00 00 00 00 00 00 00 7b 12 08 00 00 00 00 00 \
    18 61 00 00 00 00 00 00 00 00 00 00 18 00 00 00 79 12 00 00 00 00 00 00 bf 23 00 00 00 00 00 00 \
    07 03 00 00 08 00 00 00 7b 31 00 00 00 00 00 00 79 20 00 00 00 00 00 00 95 00 00 00 00 00 00 00 \
    18 63 00 00 00 00 00 00 00 00 00 00 00 00 00 00 18 04 00 00 01 00 00 00 00 00 00 00 00 00 00 00 \
    7b 43 00 00 00 00 00 00 18 04 00 00 02 00 00 00 00 00 00 00 00 00 00 00 7b 43 08 00 00 00 00 00 \
    18 04 00 00 03 00 00 00 00 00 00 00 00 00 00 00 7b 43 10 00 00 00 00 00 18 04 00 00 10 00 00 00 \
    00 00 00 00 03 00 00 00 7b 43 18 00 00 00 00 00 b7 03 00 00 00 00 00 00 b7 04 00 00 00 00 00 00 \
    06 00 00 00 e4 ff ff ff
wants "$plain$e26" 0 "$text" '--maps 8x5\nmap 0: .data\n' link point.o
# An object in one step: first it is linked, and then the job is done.
wants "$plain$e26$c13$o2" 0 '0x3\n' '' run --object point.o
wants "$plain$e26$c13" 0 'ok 22 instructions in 29 slots\n' '' check --object point.o
wants "$plain$e26$c13" 0 'mov r0, 7\nexit\n' '' disasm --object text.o
wants "$plain$e26" 0 '0 - entry\n1 - entry\n' '' lines --object text.o
wants "$plain$e26$c13$o2" 0 '1 0: mov r0, 7; r0 = 0x7\n2 1: exit\nexited at 1: r0 0x7\n' '' trace --object text.o
wants "$plain$e26$c13$o2$j2" 0 'exited at 1: r0 0x7\n-2 r0 = 0x7; 0: mov r0, 7\n' '' origin --object text.o
wants "$plain$e26$c13$o2${others}refused E26: out of memory (the other run)\n" 0 'same for 2 steps\nexited at 1: r0 0x7\n' '' diff --object --other-mem context text.o
wants "$plain$e26$c13$o2$j2" 0 'exited at 1: r0 0x7\nit was reached 2 moves back\n' '' whynot --object text.o 0
wants "$plain$e26$c13$o2$j2" 0 'exited at 1: r0 0x7\nit was reached 2 moves back\n' '' whynot --object text.o entry
wants "$plain$e26$c13$o2$j2" 0 '' '' debug --journal 1024 --object text.o
# Two objects as one: the code of both, and the records of maps.
if has_clang 'link --with where memory is refused'; then
    for source in program functions twice; do
        clang -g -O2 -target bpf -c "$parts/join/$source.c" -o $source.o 2> found/err || complain "$source.c: $(cat found/err)"
    done
    "$program" link --with functions.o --section cells program.o > linked 2> told || complain "cells: $(cat told)"
    wants "$plain$e26$of_functions" 0 "$(od -An -v -b linked | tr -d '\n' | sed 's/ /\\0/g')" "$(cat told)\n" link --with functions.o --section cells program.o
    "$program" lines --object --with functions.o --section cells program.o > table
    wants "$plain$e26$of_functions" 0 "$(text table)" '' lines --object --with functions.o --section cells program.o
    "$program" lines --object --with functions.o --with twice.o --section time program.o > table
    wants "$plain$e26${of_functions}refused E26: out of memory (--with, object 2)\n" 0 "$(text table)" '' \
        lines --object --with functions.o --with twice.o --section time program.o
fi
# Places in C, which are looked up before the run.
if has_clang 'trace --object where memory is refused'; then
    clang -g -O2 -target bpf -c "$parts/places/branches.c" -o branches.o 2> found/err || complain "branches.c: $(cat found/err)"
    for asked in trace 'trace --branches' 'trace --profile'; do
        # (words without blanks)
        # shellcheck disable=SC2086
        "$program" $asked --object --entry entry -m context branches.o > table
        # shellcheck disable=SC2086
        wants "$plain$e26$c13$o2" 0 "$(text table)" '' $asked --object --entry entry -m context branches.o
    done
    "$program" diff --alone --object --entry entry -m context --other-mem context branches.o > table
    wants "$plain$e26$c13$o2${others}refused E26: out of memory (the other run)\n" 0 "$(text table)" '' diff --alone --object --entry entry -m context --other-mem context branches.o
fi
# Programs in turn.
if has_clang 'link --entry where memory is refused'; then
    clang -g -O2 -target bpf -c "$parts/turns/pair.c" -o pair.o 2> found/err || complain "pair.c: $(cat found/err)"
    "$program" link --entry store --entry take@8 pair.o > linked 2> told || complain "store and take: $(cat told)"
    wants "$plain$e26" 0 "$(od -An -v -b linked | tr -d '\n' | sed 's/ /\\0/g')" "$(cat told)\n" link --entry store --entry take@8 pair.o
fi
# Entries of maps.
if has_clang 'link --entries where memory is refused'; then
    clang -g -O2 -target bpf -c "$parts/counts/sized.c" -o sized.o 2> found/err || complain "sized.c: $(cat found/err)"
    "$program" link --section prog/zero --entries zero=3 --entries few=2 sized.o > linked 2> told || complain "zero and few: $(cat told)"
    wants "$plain$e26" 0 "$(od -An -v -b linked | tr -d '\n' | sed 's/ /\\0/g')" "$(cat told)\n" link --section prog/zero --entries zero=3 --entries few=2 sized.o
fi
# A program of the kernel's for packets.
if has_clang 'link --struct where memory is refused'; then
    clang -g -O2 -target bpf -c "$parts/kernels/works.c" -o works.o 2> found/err || complain "works.c: $(cat found/err)"
    "$program" link --struct xdp --section xdp --entry negative works.o > linked 2> told || complain "negative: $(cat told)"
    wants "$plain$e26" 0 "$(od -An -v -b linked | tr -d '\n' | sed 's/ /\\0/g')" '' link --struct xdp --section xdp --entry negative works.o
fi
# A file of tests: where memory runs out, no test fails by it, and what was reported before stands.
printf -- '-- maps\n2x2\n-- listing\nmov r0, 2\nexit\n-- name\na\n-- result\n2\n' > two.test
printf -- '-- name\nb\n-- cells\n0 1 0102\n-- result\n3\n-- map-after\n0 0 0.01\n0 1 ..02\n' >> two.test
plan='1..2\n' one='ok 1 - a\n'
two='not ok 2 - b\n# the test in line 10\n# came: exited at 1: r0 0x2\n# wanted: result 3, and map-after\n'
cell='# cell 0 0 came: 0x300000000: 0000\n# cell 0 0 wanted: 0.01\n'
show="# debug: bpfdb-show 'b' 'two.test'\n"
# reports WHOLE [WORD]: of these tests with a word each request is refused, and what was reported by then stands; where the last one is made, all of it.
reports() {
    whole=$1
    shift
    : > met
    request=1 found=
    while [ "$found" != 1 ] && [ "$request" -le "$most" ]; do
        for all in '' all; do
            refuse "$request" "$all" test "$@" two.test
            if [ "$found" = 1 ]; then
                check "bpfdb test $*: request $request for memory refused, $all, and made again" 1 "$whole" ''
                continue
            fi
            lines=$(wc -l < found/out)
            echo "$lines lines" >> met
            case $lines in
                0) reported= ;;
                1) reported=$plan ;;
                2) reported=$plan$one ;;
                *) reported=$plan$one$two$cell$show ;;
            esac
            check "bpfdb test $*: request $request for memory refused, $all" 2 "$reported" "$plain"
        done
        request=$((request + 1))
    done
}
reports "$plan$one$two$cell$show"
said 'bpfdb test' '0 lines\n1 lines\n2 lines\n'
# Registers that are set, and a fault that is expected by its kind alone, or is any.
for kind in access ''; do
    printf -- '-- listing\nldxb r0, [r3+1]\nexit\n-- regs\nr3 = 8\n\nr4 = 1\n-- fault\n%s\n' "$kind" > kind.test
    : > met
    request=1 found=
    while [ "$found" != 0 ] && [ "$request" -le "$most" ]; do
        for all in '' all; do
            refuse "$request" "$all" test kind.test
            if [ "$found" = 0 ]; then
                check "bpfdb test of fault $kind: request $request for memory refused, $all, and made again" 0 '1..1\nok 1\n' ''
                continue
            fi
            lines=$(wc -l < found/out)
            echo "$lines lines" >> met
            reported=
            [ "$lines" = 0 ] || reported='1..1\n'
            check "bpfdb test of fault $kind: request $request for memory refused, $all" 2 "$reported" "$plain"
        done
        request=$((request + 1))
    done
    said "bpfdb test of fault $kind" '0 lines\n1 lines\n'
done
# With --cover there is no table, then, or all of it.
table='# cover of the program in line 3: 2 of 2 instructions, 0 of 0 branches both ways\n'
reports "$plan$one$two$cell$show$table" --cover
said 'bpfdb test --cover' '0 lines\n1 lines\n2 lines\n9 lines\n'
# covers STATUS RECORD PLAN FIRST OTHERS FILE: so it is with --cover-info, where the report stands on standard error, in these three parts, and behind it that
# memory ran out; then there is no tracefile, or else all of it.
covers() {
    ended=$1 record=$2 planned=$3 first=$4 others=$5 file=$6
    : > met
    request=1 found=
    while [ "$found" != "$ended" ] && [ "$request" -le "$most" ]; do
        for all in '' all; do
            refuse "$request" "$all" test --cover-info "$file"
            if [ "$found" = "$ended" ]; then
                check "bpfdb test --cover-info $file: request $request for memory refused, $all, and made again" "$ended" "$record" "$planned$first$others"
                continue
            fi
            lines=$(wc -l < found/err)
            echo "$lines lines" >> met
            case $lines in
                1) reported= ;;
                2) reported=$planned ;;
                3) reported=$planned$first ;;
                *) reported=$planned$first$others ;;
            esac
            check "bpfdb test --cover-info $file: request $request for memory refused, $all" 2 '' "$reported$plain"
        done
        request=$((request + 1))
    done
}
covers 1 'TN:\nSF:two.test\nDA:4,1\nDA:5,1\nLF:2\nLH:2\nBRF:0\nBRH:0\nend_of_record\n' "$plan" "$one" "$two$cell$show" two.test
said 'bpfdb test --cover-info' '10 lines\n1 lines\n2 lines\n3 lines\n'
# The same by the lines of a source, which are put in order.
printf -- '-- listing\nmov r0, 1\nexit\n-- lines\n0 b.c:2 f\n1 a.c:1 f\n-- result\n1\n' > lines.test
covers 0 'TN:\nSF:a.c\nDA:1,1\nLF:1\nLH:1\nBRF:0\nBRH:0\nend_of_record\nTN:\nSF:b.c\nDA:2,1\nLF:1\nLH:1\nBRF:0\nBRH:0\nend_of_record\n' '1..1\n' 'ok 1\n' '' lines.test
said 'bpfdb test --cover-info of lines' '1 lines\n2 lines\n3 lines\n'
wants "$plain" 0 'set cell 0 1 0102\ncontinue\n' '' test --show script --only b two.test
wants "$plain" 0 '--maps=2x2\n--steps=1000000\n' '' test --show options --only a two.test
wants "$plain" 0 'set reg r3 8\nset reg r4 1\ncontinue\n' '' test --show script kind.test
# Files that sections name, and a program that is linked.
printf 'abc' > bytes
printf -- '-- object point.o\n-- stub 5=1\n-- mem-file bytes\n-- result\n3\n' > named.test
"$program" link point.o > linked 2> told
wants "${plain}refused E26: out of memory (the object in line 1)\n" 0 "$(od -An -v -b linked | tr -d '\n' | sed 's/ /\\0/g')" '' test --show program named.test
wants "${plain}refused E26: out of memory (the object in line 1)\n" 0 'abc' '' test --show context named.test
wants "${plain}refused E26: out of memory (the object in line 1)\n" 0 'abc' '' test --cover-info --show context named.test
printf -- '-- listing\nexit\n-- packet %s 1\n-- result\n0\n' "$top/examples/xdp/packets.pcap" > named.test
wants "$plain" 0 '--steps=1000000\n' '' test --anywhere --show options named.test
wants "$plain" 2 '' 'cannot read missing\n' run missing
wants "$plain" 0 "$(text "$parts/help/bpfdb.txt")" '' --help
wants "$plain" 0 "$(version)" '' --version

# wants_usage TEXT ARGUMENT..: a command line that is none is told so, or that memory ran out, and the status is 2. (A request
# that is refused while clap looks for a similar word costs no more than its tip.)
wants_usage() {
    text=$1
    shift
    : > met
    request=1
    found=0
    while [ "$request" -le "$most" ]; do
        for all in all ''; do
            refuse "$request" "$all" "$@"
            read -r line < found/err
            [ "$line" = "error: $text" ] || lacks "bpfdb $*: request $request for memory refused"
            [ "$line" = 'out of memory' ] || check_usage "bpfdb $*: request $request for memory refused"
            [ "$all$line" = "allerror: $text" ] && break 2
        done
        request=$((request + 1))
    done
    [ -s met ] && [ "$request" -le "$most" ] || complain "bpfdb $*: requests for memory up to $request refused"
}
wants_usage "unrecognized subcommand 'rum'" rum program
wants_usage "unexpected argument '--frob' found" run --frob program
wants_usage "invalid value '0' for '--steps <N>': 0 is not in 1..=1000000000" run --steps 0 program

printf '$s#73' > script
wants "$plain$c13$o2$j2" 0 '+$T05thread:0;0a:0002000002000000;0b:0800000000000000;40:0100000000000000;#c9' '' gdb --maps 8x2 program
: > script

# Sessions: each request that can be refused is one before the first command, and then nothing is replied. A session that has begun
# makes none, also one whose moves go around the end of its journal.
others='r1=0x0 r2=0x0 r3=0x0 r4=0x0 r5=0x0 r6=0x0 r7=0x0 r8=0x0 r9=0x0 r10=0x200000200\n'
start="r0=0x0 ${others}at 0: mov r0, 42\n"
back='1 back; done; at 0: mov r0, 42\n'
end='2 forward; end; exited at 1: r0 0x2a\nrefused Q3: the machine has ended\n'
printf 'stepi\ninfo regs\nreverse-stepi\nredo\nundo\ninfo regs\nset reg r0 1\nundo\nredo 2\nundo\nstepi 5\nstepi\n' > script
wants "$plain$c13$o2$j2" 0 \
    "1 forward; done; at 1: exit\nr0=0x2a ${others}at 1: exit\n${back}1 redone; done; at 1: exit\n${back}${start}ok\n${back}1 redone; all; at 0: mov r0, 42\n$back$end" \
    '' debug program
printf 'stepi 10000\ninfo history\nreverse-stepi 9362\nredo 9363\n' > script
wants "$plain$c13$o2$j2" 0 \
    '10000 forward; done; at 0: ja L0\n9362 moves, 0 commands, 65534 of 65536 bytes\n9362 back; done; at 0: ja L0\n9362 redone; all; at 0: ja L0\n' '' debug endless

# A session takes no memory after its opening: as many requests with every command, refusals, lines that are too long and moves that are dropped, as with
# no command, whatever the journal's size; and the same of packets.

# requests FILE ARGUMENT..: how many requests for memory a run over this input makes.
requests() {
    input=$1
    shift
    REQUESTS=requests LD_PRELOAD=./refuse.so "$program" "$@" < "$input" > found/out 2> found/err
    cut -d ' ' -f 1 requests
}

# same_requests NAME MOST ARGUMENT..: the inputs `none` and `all` make as many requests, some and at most so many, and `all` is answered.
same_requests() {
    name_of_row=$1 at_most=$2
    shift 2
    fewest=$(requests none "$@")
    found_requests=$(requests all "$@")
    count=$((count + 1))
    [ "$fewest" = "$found_requests" ] && [ "$fewest" -gt 0 ] && [ "$fewest" -le "$at_most" ] && [ -s found/out ] ||
        complain "$name_of_row: $found_requests requests for memory, and $fewest without any input"
}

printf '%s\n' 'ldmap r1, 0' 'mov r2, r10' 'add r2, -8' 'mov r6, 3' 'loop: call 1' 'stxdw [r10-8], r6' 'callf f' 'atomic_fetch_add64 [r10-8], r6' 'add r6, -1' \
    'jne r6, 0, loop' 'mov r1, 7' 'call 64' 'exit' 'f: mov r0, 1' 'stb [r10-1], 1' 'exit' > each.s
{
    printf '%s\n' 'stepi 9' nexti finish 'break 2' 'break 2' continue 'watch 0x2000001f8' continue 'unwatch 0x2000001f8' 'delete 2' continue 'info regs' 'info frames' \
        'info breaks' 'info history' 'info trace' 'x 0x200000000 256' 'disas 0 256' 'last-write 0x2000001f8' reverse-stepi reverse-nexti rc reverse-continue reverse-finish \
        'redo 5' 'redo 1000' undo 'redo 1000' 'undo 3' 'set reg r3 7' 'set mem 0x200000000 0102' 'set cell 0 1 0102030405060708' 'set pc 4' 'undo 2' 'redo 2' frob 'stepi 0' 'set reg r10 1'
    head -c 5000 /dev/zero | tr '\0' z
    echo
    yes 'stepi 40
reverse-stepi 30
redo 20
set pc 4' | head -n 2000
    printf 'info history\nquit\n'
} > all
: > none
for size in 1024 65536; do
    same_requests "debug --journal $size" "$most" debug --listing --maps 8x2 --journal "$size" each.s
    cp found/out replies
    for word in forward back redone ok refused changed commands; do
        grep -q "$word" replies || complain "debug --journal $size: no reply has '$word'"
    done
done
{
    for body in '?' g s bs c bc p0 pb 'P0=0700000000000000' 'm2000001f8,8' 'M2000001f8,2:0102' 'Z0,10,1' 'Z2,2000001f8,4' c 'z2,2000001f8,4' 'z0,10,1' 'vCont?' 'vCont;s:1' \
        'qSupported:swbreak+' 'qXfer:features:read:target.xml:0,fff' Hg0 qAttached 'qRcmd,7374657069' 'qRcmd,756e646f' 'qRcmd,7265646f' 'qRcmd,66726f62' nothing; do
        packet "$body"
    done
    packet D
} > packets
mv packets all
for size in 1024 65536; do
    same_requests "gdb --journal $size" "$most" gdb --listing --maps 8x2 --journal "$size" each.s
done
: > script

# served WHAT LEAST ARGUMENT..: gdb's server with each request for memory refused in turn. It answers $whole; or $short, which it does in at least LEAST
# of the runs, and the session goes on; or its opening is refused.
served() {
    what=$1 least=$2
    shift 2
    : > met
    request=1 lacked=0
    while [ "$request" -le "$most" ]; do
        for how in '' all; do
            refuse "$request" "$how" "$@"
            case $found:$(cat found/out) in
                "0:$whole") count=$((count + 1)) ;;
                "0:$short") count=$((count + 1)) lacked=$((lacked + 1)) ;;
                *) lacks "$what: request $request for memory refused" ;;
            esac
        done
        [ "$(cat found/out)" != "$whole" ] || break
        request=$((request + 1))
    done
    check "$what: there is no request for memory after $((request - 1))" 0 "$whole" ''
    [ "$lacked" -ge "$least" ] || complain "$what: $lacked refused requests for its memory"
    : > script
}

# `monitor whynot` takes memory behind the opening. Where a request for it is refused the answer is Q15.
told='+$T05thread:0;0a:0002000002000000;0b:0800000000000000;40:0100000000000000;#c9+'
printf '%s' '$s#73$qRcmd,7768796e6f742030#d6$p0#a0$qRcmd,7265646f#fd$D#44' > script
whole="$told"'$O69742077617320726561636865642031206d6f766573206261636b0a#76$OK#9a+$2a00000000000000#33+$72656675736564205131333a206e6f7468696e6720746f207265646f0a#30+$OK#9a'
short="$told"'$O72656675736564205131353a206f7574206f66206d656d6f72790a#a8$OK#9a+$2a00000000000000#33+$72656675736564205131333a206e6f7468696e6720746f207265646f0a#30+$OK#9a'
served 'monitor whynot' 20 gdb --journal 1024 --listing program.s

# Names of an object do so, too: where a request for what is known of them is refused, or one for the text with them, they are left out.
if has_clang 'names in gdb where memory is refused'; then
    clang -g -O2 -target bpf -c "$parts/names/branch.c" -o branch.o 2> found/err || complain "branch.c: $(cat found/err)"
    { packet c; packet "qRcmd,$(hexadecimal 'origin 0x300000000:8')"; packet D; } > script
    stop='+'$(packet "O$(hexadecimal 'exited at 7: r0 0x7
')")$(packet 'T05replaylog:end;thread:0;0a:0002000002000000;0b:3800000000000000;40:0c00000000000000;')'+'
    store='-9 0x300000000:8 = 0x2; 17: stxdw [r3+0], r4; from r4' load='-10 r4 = 0x2; 15: lddw r4, 0x2'
    whole=$stop$(packet "O$(hexadecimal "$store; initial value of mode
$load
")")$(packet OK)'+'$(packet OK)
    short=$stop$(packet "O$(hexadecimal "$store
$load
")")$(packet OK)'+'$(packet OK)
    served 'names in gdb' 4 gdb --journal 1024 --object branch.o
    said 'names in gdb' "$plain$e26$c13$o2$j2"
fi

# The calls of the libraries, in crates/memory_calls: each answers by its own number, or by `out of memory` where it has none.
# `rt ci` builds that program too.
if ! [ -x "$top/crates/memory_calls/out/memory_calls" ]; then
    left_out 'memory that the calls of the libraries want' 'crates/memory_calls is not built'
    return
fi
tool=$program
program=$top/crates/memory_calls/out/memory_calls
name=memory_calls
unreached=3
: > script
bytes words 07 00 00 00 01 00 00 00 a5 00 fe ff 03 00 00 00 EXIT
words=$text
listing='L0:\nadd r0, 1\njlt r0, 3, L0\nexit\n'
wants "$c13" 0 "$words" '' check
wants "$a7" 0 "$words" '' assemble
wants "$plain" 0 "$listing" '' disassemble
wants "$o2" 0 '\01\07\03\04\05\06\07\010' '' memory
wants "$o2" 0 '\01\02\03\04\05\06\07\010' '' machine
wants "$o2" 0 '\011\012\07\07\07\07\07\07\07\07' '' restart
wants '' 0 '1024' '' list
wants "$j2" 0 '1024' '' ring
wants "$plain" 0 "$words" '' program
wants "$plain" 0 "$words" '' context
wants "$plain" 0 "$words" '' source
# replies CALL: scripts over a list of entries, whose pushes take memory: the runs in which a request is refused, alone (one) or with each
# later one (all), up to the first that meets no refusal. Each is a part of the file `told` that begins with its number and how.
replies() {
    : > told
    request=1
    while [ "$request" -le "$most" ]; do
        for all in one all; do
            refuse "$request" "${all#one}" "$1"
            if [ "$found" = "$unreached" ]; then
                lacks "memory_calls $1: request $request for memory refused"
                continue
            fi
            count=$((count + 1))
            [ "$found" = 0 ] && ! [ -s found/err ] || complain "memory_calls $1: request $request for memory refused: status $found"
            { echo "== $request $all"; cat found/out; } >> told
        done
        [ "$found" = 0 ] && cmp -s stated found/out && break
        request=$((request + 1))
    done
    [ "$request" -le "$most" ] || complain "memory_calls $1: requests for memory up to $most refused"
}

# hold CALL RULES: each run of the last sweep printed what the rules (of awk) make of how far its moves were kept.
hold() {
    awk -v call="$1" '
        function hexadecimal(n, text) {
            for (text = ""; n > 0; n = int(n / 16)) text = substr("0123456789abcdef", n % 16 + 1, 1) text
            return "0x" (text == "" ? "0" : text)
        }
        # is_kept(reply): whether the next line is this reply; else it has to be a refusal for want of memory, and then it is told once.
        function is_kept(reply) {
            if (lines[at + 1] == reply) { at++; kept++; if (refused && how == "all") wrong = 1; return 1 }
            say("refused Q15: out of memory")
            refused++
            return 0
        }
        # say(reply): the next line is this one.
        function say(reply) { if (lines[++at] != reply) { wrong = 1; if (wanted == "") wanted = reply } }
        # count_of(word): the number at the beginning of the next line, where the word stands behind it; else 0.
        function count_of(word, words) {
            split(lines[at + 1], words, " ")
            return words[2] == word ";" || words[2] == word ? words[1] + 0 : 0
        }
        '"$2"'
        function judge() {
            at = kept = refused = wrong = 0
            wanted = ""
            rules()
            if (at != count) wrong = 1
            if (refused > 1 && how == "one") wrong = 1
            met[refused > 0]++
            if (wrong) { printf "  request %s (%s): line %d: %s (wanted: %s)\n", request, how, at, lines[at], wanted; bad++ }
        }
        /^== / { if (request) judge(); request = $2; how = $3; count = 0; delete lines; next }
        { lines[++count] = $0 }
        END { judge(); exit bad > 0 || !met[0] || !met[1] }
    ' told > wrong || complain "memory_calls $1: what is answered where requests for memory are refused"
    head -n 10 wrong
}

# (of a run without refusals: two steps, of 16 and 5 bytes)
printf '2 forward; end; exited at 1: r0 0x2a\nr0=0x2a r1=0x0 r2=0x0 r3=0x0 r4=0x0 r5=0x0 r6=0x0 r7=0x0 r8=0x0 r9=0x0 r10=0x200000200\n' > stated
printf 'exited at 1: r0 0x2a\n2 moves, 1 commands, 21 of 1024 bytes\n' >> stated
: > script
replies answer
hold answer '
    function rules(k) {
        k = count_of("forward")
        place = k == 0 ? "at 0: mov r0, 42" : k == 1 ? "at 1: exit" : "exited at 1: r0 0x2a"
        if (k == 2) say("2 forward; end; " place)
        else { refused = 1; say(k == 1 ? "1 forward; memory; " place : "refused Q15: out of memory") }
        say("r0=" (k ? "0x2a" : "0x0") " r1=0x0 r2=0x0 r3=0x0 r4=0x0 r5=0x0 r6=0x0 r7=0x0 r8=0x0 r9=0x0 r10=0x200000200")
        say(place)
        say(k " moves, " (k > 0) " commands, " (k == 2 ? 21 : 16 * k) " of 1024 bytes")
    }'

# (of a hundred steps by turns of 16 and 7 bytes the newest that fit the journal are kept; fifty go back, and are made again)
printf '100 forward; done; at 0: add r0, 1\n89 moves, 0 commands, 1019 of 1024 bytes\n50 back; done; at 0: add r0, 1\n' > stated
printf '50 redone; done; at 0: add r0, 1\n89 moves, 0 commands, 1019 of 1024 bytes\n' >> stated
printf 'r0=0x32 r1=0x0 r2=0x0 r3=0x0 r4=0x0 r5=0x0 r6=0x0 r7=0x0 r8=0x0 r9=0x0 r10=0x200000200\nat 0: add r0, 1\n' >> stated
replies loop
hold loop '
    function place() { return newest % 2 ? "at 1: ja L0" : "at 0: add r0, 1" }
    function weighs(move) { return move % 2 ? 16 : 7 }
    function history() {
        say((newest - oldest + 1) " moves, " (oldest == 1 && newest > 0) " commands, " weight " of 1024 bytes")
    }
    function rules(moves, back, again) {
        newest = count_of("forward")
        oldest = 1
        weight = 0
        for (moves = 1; moves <= newest; moves++) weight += weighs(moves)
        while (weight > 1024) weight -= weighs(oldest++)
        if (newest < 100) refused = 1
        say(newest == 0 ? "refused Q15: out of memory" : newest " forward; " (newest < 100 ? "memory" : "done") "; " place())
        history()
        moves = newest - oldest + 1
        back = moves < 50 ? moves : 50
        for (; back > 0 && newest > moves + oldest - 1 - back; newest--) weight -= weighs(newest)
        say(back == 0 ? "refused Q4: no kept step" : back " back; " (back < 50 ? "start" : "done") "; " place())
        again = count_of("redone")
        for (moves = 1; moves <= again; moves++) weight += weighs(++newest)
        if (again < back) { refused++; if (how == "all" && refused > 1 && again > 0) wrong = 1 }
        if (back == 0) say("refused Q13: nothing to redo")
        else if (again == 0) say("refused Q15: out of memory")
        else say(again " redone; " (again == 50 ? "done" : again == back ? "all" : "memory") "; " place())
        history()
        say("r0=" hexadecimal(int((newest + 1) / 2)) " r1=0x0 r2=0x0 r3=0x0 r4=0x0 r5=0x0 r6=0x0 r7=0x0 r8=0x0 r9=0x0 r10=0x200000200")
        say(place())
    }'

# (edits of a register, of 2 bytes, of a cell of 8 and of pc, a call and a store of a byte: 14, 15, 21, 16, 519 and 17 bytes)
printf 'ok\nok\nok\n1 forward; done; at 2: stb [r10-8], 7\nok\n1 forward; done; at 3: exit\n6 moves, 6 commands, 602 of 1024 bytes\n' > stated
printf 'r0=0x0 r1=0x0 r2=0x0 r3=0x0 r4=0x0 r5=0x0 r6=0x1 r7=0x0 r8=0x0 r9=0x0 r10=0x200000600\nat 3: exit\n' >> stated
printf '0x200000000: 0102\n0x300000008: 0102030405060708\n' >> stated
replies edits
hold edits '
    function rules(register, bytes, cell, call, jump, store) {
        register = is_kept("ok")
        bytes = is_kept("ok")
        cell = is_kept("ok")
        call = is_kept("1 forward; done; at 2: stb [r10-8], 7")
        jump = is_kept("ok")
        store = is_kept("1 forward; done; at 3: exit")
        say(kept " moves, " kept " commands, " 14 * register + 15 * bytes + 21 * cell + 519 * call + 16 * jump + 17 * store " of 1024 bytes")
        say("r0=0x0 r1=0x0 r2=0x0 r3=0x0 r4=0x0 r5=0x0 r6=0x" register " r7=0x0 r8=0x0 r9=0x0 r10=0x200000" (call ? "6" : "2") "00")
        say(store ? "at 3: exit" : call || jump ? "at 2: stb [r10-8], 7" : "at 0: callf L2")
        say("0x200000000: " (bytes ? "0102" : "0000"))
        say("0x300000008: " (cell ? "0102030405060708" : "0000000000000000"))
    }'
program=$tool
