# The command line: each subcommand with each of its options in each of their forms, command lines that are none, and help.

# The subcommands, as help lists them.
subcommands=$(awk '/^Commands:/ { inside = 1; next } /^$/ { inside = 0 } inside && $1 != "help" { print $1 }' "$parts/help/bpfdb-short.txt")

# Programs: one gives the context's first byte, one its length, one never ends; and a listing that has a map.
bytes first 71 10 00 00 00 00 00 00 EXIT
bytes length bf 20 00 00 00 00 00 00 EXIT
bytes endless 05 00 ff ff 00 00 00 00
bytes context 2a 01 00
bytes mapped 18 61 00 00 00 00 00 00 00 00 00 00 07 00 00 00 79 10 00 00 00 00 00 00 EXIT
printf 'ldxb r0, [r1+0]\nexit' > first.s
printf 'ldmapval r3, 0, 4\nldxh r0, [r1]\nexit\n' > mapped.s
mapped='ldmapval r3, 0, 4\nldxh r0, [r1+0]\nexit\n'

# run
result '0x2a\n' run -m context first
result '0x2a\n' run -mcontext first
result '0x2a\n' run -m=context first
result '0x2a\n' run --mem context first
result '0x2a\n' run --mem=context first
result '0x2a\n' run first --mem context
result '0x3\n' run length --mem context
result '0x0\n' run length
stopped 'fault access 0x0 at 0' run first
result '0x2a\n' run -m context --listing first.s
result '0x12a\n' run --listing --maps 8x2 -m context --steps 1000000000 mapped.s
result '0x12a\n' run --maps=8x2 --steps=3 --mem=context mapped.s --listing
stopped 'step limit 1 reached at 1' run --steps 1 length
stopped 'step limit 2 reached at 0' run --steps=2 endless
stopped 'step limit 1000000 reached at 0' run endless
result '0x0\n' run -- length

# debug: the journal's size and the limit of steps show in replies.
session 'debug -m, --journal, --steps' 'stepi\ninfo history\nx 0x100000000 3\n' \
    '1 forward; done; at 1: exit\n1 moves, 1 commands, 16 of 1024 bytes\n0x100000000: 2a0100\n' \
    debug -m context --journal 1024 --steps 7 first
session 'debug --mem=, --journal=' 'stepi\ninfo history\n' \
    '1 forward; done; at 1: exit\n1 moves, 1 commands, 16 of 16777216 bytes\n' \
    debug --mem=context --journal=16777216 first
session 'debug --mem, no other option' 'info history\nstepi 2\n' \
    '0 moves, 0 commands, 0 of 65536 bytes\n2 forward; end; exited at 1: r0 0x2a\n' debug --mem context first
session 'debug -mPATH' 'stepi 2\n' '2 forward; end; exited at 1: r0 0x2a\n' debug -mcontext first
session 'debug --steps 7' 'continue\nstepi 9\n' '7 forward; limit; at 0: ja L0\n7 forward; limit; at 0: ja L0\n' \
    debug --steps 7 endless
session 'debug --steps=1' 'continue\n' '1 forward; limit; at 0: ja L0\n' debug --steps=1 endless
session 'debug endless' 'continue\n' '1000000 forward; limit; at 0: ja L0\n' debug endless
session 'debug --maps, --listing' 'disas 0 256\nset cell 0 1 0102030405060708\nx 0x300000008 8\n' \
    '0: ldmapval r3, 0, 4\n2: ldxh r0, [r1+0]\n3: exit\nok\n0x300000008: 0102030405060708\n' \
    debug --maps 8x2 --listing mapped.s
session 'debug --maps=' 'stepi\n' '1 forward; done; at 2: ldxdw r0, [r1+0]\n' debug --maps=8x1 mapped

# disasm, check, asm
result "$mapped" disasm --listing --maps 8x2 mapped.s
result "$mapped" disasm --maps=8x2 mapped.s --listing
result 'ldmapval r1, 0, 7\nldxdw r0, [r1+0]\nexit\n' disasm --maps 8x1 mapped
result 'ldxb r0, [r1+0]\nexit\n' disasm first
result 'ldxb r0, [r1+0]\nexit\n' disasm -- first
result 'ok 3 instructions in 4 slots\n' check --maps 8x2 --listing mapped.s
result 'ok 3 instructions in 4 slots\n' check mapped --maps=8x1
result 'ok 2 instructions in 2 slots\n' check first
result 'ok 1 instructions in 1 slots\n' check endless
# lines: each form of a line, of which a label may stand in one of its own; a wide load takes two slots, and a label behind all instructions stands at
# none.
printf '; a comment\n\nfirst:\nsecond: lddw r1, 7 ; and one here\n  third:\n\n\tmov r0, 1\nloop: add r0, 1\njlt r0, 3, loop\nexit\nlast:\n' > labels.s
result '0 4 first second\n2 7 third\n3 8 loop\n4 9\n5 10\n' lines labels.s
result '0 1\n1 2\n' lines -- first.s
result '0 1\n2 2\n3 3\n' lines mapped.s
: > empty.s
result '' lines empty.s
printf 'mov r0\n' > wrong.s
refused 'refused A2 at line 1: wrong operands' lines wrong.s
# test: a report, a test that fails, and a file with a fault
printf -- '-- listing\nmov r0, 2\nexit\n-- name\ntwo\n-- result\n2\n' > two.test
printf -- '-- listing\nmov r0, 2\nexit\n-- result\n3\n' > three.test
printf -- '-- listing\nexit\n' > lacking.test
result '1..1\nok 1 - two\n' test two.test
result '1..1\nok 1 - two\n' test -- two.test
row 'bpfdb test of a test that fails' 1 '' '1..1\nnot ok 1\n# the test in line 1\n# came: exited at 1: r0 0x2\n# wanted: result 3\n'"# debug: bpfdb-show '' 'three.test'\n" '' test three.test
refused 'refused T6 at line 1: test without an expectation' test lacking.test
# test --only: each test of the name, numbered from 1, in any order of words; one that begins alike isn't it. A file's fault comes first.
printf -- '-- listing\nmov r0, 2\nexit\n-- name\na\n-- result\n2\n-- name\nab\n-- result\n3\n-- name\na\n-- result\n4\n' > names.test
row 'bpfdb test --only of a name that stands twice' 1 '' '1..2\nok 1 - a\nnot ok 2 - a\n# the test in line 12\n# came: exited at 1: r0 0x2\n# wanted: result 4\n'"# debug: bpfdb-show 'a' 'names.test'\n" '' test --only a names.test
row 'bpfdb test --only of one name' 1 '' '1..1\nnot ok 1 - ab\n# the test in line 8\n# came: exited at 1: r0 0x2\n# wanted: result 3\n'"# debug: bpfdb-show 'ab' 'names.test'\n" '' test names.test --only=ab
result '1..1\nok 1 - two\n' test --only two two.test
row 'bpfdb test --only of no name' 1 '' '1..1\nnot ok 1\n# the test in line 1\n# came: exited at 1: r0 0x2\n# wanted: result 3\n'"# debug: bpfdb-show '' 'three.test'\n" '' test --only '' three.test
refused 'refused T7: no test of this name: abc' test --only abc names.test
refused 'refused T7: no test of this name: A' test --only A names.test
refused 'refused T7: no test of this name' test --only '' names.test
refused 'refused T7: no test of this name: b\x0a' test --only 'b
' names.test
refused 'refused T6 at line 1: test without an expectation' test --only two lacking.test

printf '%b' "$script_unread" > script
run asm first.s
cp first wanted/out
: > wanted/err
echo 0 > wanted/status
compare 'bpfdb asm first.s'

# Options that the subcommand doesn't have.
for absent in 'run --journal=65536' 'debug -j=65536' 'asm -m=context' 'asm --mem=context' 'asm --maps=8x2' 'asm --journal=65536' \
    'asm --steps=7' 'asm --listing' 'disasm -m=context' 'disasm --mem=context' 'disasm --journal=65536' 'disasm --steps=7' \
    'check -m=context' 'check --mem=context' 'check --journal=65536' 'check --steps=7' 'asm --section=a' 'asm --entry=a' 'asm --object' 'link --object' 'test --object' 'asm --with=a' 'test --with=a' 'debug --joined' 'debug -r' 'lines --relocatable' 'asm -o=a' 'disasm --output=a' \
    'link -m=context' 'link --mem=context' 'link --maps=8x2' 'link --journal=65536' 'link --steps=7' 'link --listing' \
    'run --from=7' 'run --count=7' 'run --branches' 'run --profile' 'debug --from=7' 'debug --count=7' 'debug --profile' 'trace --journal=65536' 'trace --registers=x86' \
    'origin --registers=x86' 'origin --alone' 'whynot --branches' 'run --branches' 'gdb --alone' 'whynot --registers=x86' 'run --lines=7' 'debug --lines=7' 'debug --addresses' 'gdb --lines=7' 'lines --lines=7' 'lines --listing' 'lines --maps=8x2' 'lines -m=context' 'lines --steps=7' 'lines --joined' 'run --registers=x86' 'debug --registers=x86' 'test --listing' 'test --maps=8x2' 'test --steps=7' 'diff --script=a' 'diff --branches' 'diff --dot' 'trace --trace=a' 'run --trace=a' 'debug --trace=a' 'run --other-mem=a' 'trace --other-mem=a' 'debug --other-mem=a' 'run --only=a' 'debug --only=a' 'run --cover' 'run --cover-info' 'trace --cover' 'gdb --strict' 'diff --strict' 'link --only=a' 'run --show=program' 'debug --show=script'
do
    subcommand=${absent%% *} option=${absent#* }
    name=${option%%=*}
    usage "unexpected argument '$name' found" "$subcommand" "$option" first
    case $option in
        *=*)
            usage "unexpected argument '$name' found" "$subcommand" "$name" "${option#*=}" first
            usage "unexpected argument '$name' found" "$subcommand" first "$name" "${option#*=}" ;;
    esac
done

# Other command lines that are none.
usage "unrecognized subcommand 'frob'" frob
usage "unrecognized subcommand 'frob'" frob first
usage "unrecognized subcommand 'frob'" help frob
usage "unrecognized subcommand 'frob'" help frob --help
usage "unrecognized subcommand 'RUN'" RUN first
usage "unrecognized subcommand ''" ''
usage "unexpected argument '--frob' found" --frob
usage "unexpected argument '\\\\x1b[31mred' found" run first "$(printf '\033[31mred')"
usage "unexpected argument '--steps' found" --steps 7 run first
usage "unexpected argument '-x' found" run -x first
usage "unexpected argument '--step' found" run --step 7 first
usage "unexpected argument '--Steps' found" run --Steps 7 first
usage "unexpected argument 'second' found" run first second
usage 'a value is none of those that its option takes' gdb --registers arm first
# Options that don't go together: FILE is one thing, an object has its own maps, and of a link is asked where FILE is an object.
of_objects="'--section', '--entry', '--entries', '--helper', '--fields', '--struct' and '--with' are of objects: without '--words', '--listing' and '--maps'"
for subcommand in run trace debug origin whynot diff gdb disasm check load; do
    what=''
    [ $subcommand != whynot ] || what=0
    [ $subcommand != diff ] || what=--other-mem=a
    # (what is asked about is a word without blanks, or none)
    usage "the argument '--listing' cannot be used with '--words'" $subcommand --words --maps 8x2 --listing first $what
    usage "the argument '--object' cannot be used with '--words'" $subcommand --object --words first $what
    usage "the argument '--object' cannot be used with '--words'" $subcommand --listing --words --section a --object first $what
    usage "the argument '--object' cannot be used with '--listing'" $subcommand --object --listing first $what
    usage "the argument '--object' cannot be used with '--listing'" $subcommand --listing --maps 8x2 --section a --object first $what
    usage "the argument '--object' cannot be used with '--maps <VxN,VxN>'" $subcommand --maps 8x2 --object first $what
    usage "the argument '--object' cannot be used with '--maps <VxN,VxN>'" $subcommand --object first $what --maps=
    for option in --section=a --section= --entry=a --helper=5=0 --as-compiled --fields=strict --struct=xdp --with=a; do
        usage "$of_objects" $subcommand $option --maps 8x2 first $what
        usage "$of_objects" $subcommand first $what --listing $option
        usage "$of_objects" $subcommand first $what $option --words
    done
    usage "the argument '--object' cannot be used multiple times" $subcommand --object --object first $what
    usage "unexpected value 'yes' for '--object' found; no more were expected" $subcommand --object=yes first $what
    usage "a value is required for '--section <NAME>' but none was supplied" $subcommand first $what --object --section
    usage "the argument '--helper <NAME=VALUE>' cannot be used multiple times" $subcommand --object --helper 1=0 --helper 1=0 first $what
done
usage 'a value is none of those that its option takes' test --show words two.test
for subcommand in $subcommands; do
    # (FILE of batch may be left out)
    [ "$subcommand" = batch ] || usage 'the following required arguments were not provided:' $subcommand
    case $subcommand in
        origin | whynot | diff) usage "unexpected argument 'third' found" $subcommand first second third ;;
        *) usage "unexpected argument 'second' found" $subcommand first second ;;
    esac
    usage "unexpected argument '--frob' found" $subcommand --frob first
done
for subcommand in run trace debug origin; do
    for number in 0 1000000001 18446744073709551615; do
        usage "invalid value '$number' for '--steps <N>': $number is not in 1..=1000000000" $subcommand --steps $number first
        usage "invalid value '$number' for '--steps <N>': $number is not in 1..=1000000000" $subcommand --steps=$number first
    done
    for number in x 0x10 1e3 1.5 ' 7' '7 '; do
        usage "invalid value '$number' for '--steps <N>': invalid digit found in string" $subcommand --steps "$number" first
    done
    usage "invalid value '-1' for '--steps <N>': invalid digit found in string" $subcommand --steps=-1 first
    usage "invalid value '18446744073709551616' for '--steps <N>': number too large to fit in target type" \
        $subcommand --steps 18446744073709551616 first
    usage "the argument '--steps <N>' cannot be used multiple times" $subcommand --steps 7 --steps 7 first
    usage "the argument '--mem <PATH>' cannot be used multiple times" $subcommand -m context --mem context first
    usage "a value is required for '--steps <N>' but none was supplied" $subcommand first --steps
    usage "a value is required for '--mem <PATH>' but none was supplied" $subcommand first -m
    usage "a value is required for '--mem <PATH>' but none was supplied" $subcommand first --mem
done
for subcommand in run trace debug origin disasm check; do
    usage "a value is required for '--maps <VxN,VxN>' but none was supplied" $subcommand first --maps
    usage "the argument '--maps <VxN,VxN>' cannot be used multiple times" $subcommand --maps 8x2 --maps 8x2 mapped
    usage "the argument '--listing' cannot be used multiple times" $subcommand --listing --listing first.s
    usage "unexpected value 'yes' for '--listing' found; no more were expected" $subcommand --listing=yes first.s
done
usage 'the following required arguments were not provided:' whynot first
usage "the argument '--alone' cannot be used multiple times" whynot --alone --alone first 0
usage "unexpected value 'yes' for '--alone' found; no more were expected" whynot --alone=yes first 0
for number in 0 1000000001 18446744073709551615; do
    usage "invalid value '$number' for '--lines <N>': $number is not in 1..=1000000000" origin --lines $number first
done
usage "invalid value '0x10' for '--lines <N>': invalid digit found in string" origin --lines=0x10 first
usage "invalid value '-1' for '--lines <N>': invalid digit found in string" origin --lines=-1 first
usage "a value is required for '--lines <N>' but none was supplied" origin first r0 --lines
usage "the argument '--lines <N>' cannot be used multiple times" origin --lines 7 --lines 7 first
usage "the argument '--addresses' cannot be used multiple times" origin --addresses --addresses first
usage "the argument '--branches' cannot be used multiple times" origin --branches --branches first
usage "unexpected value 'yes' for '--addresses' found; no more were expected" origin --addresses=yes first
usage "a value is required for '--section <NAME>' but none was supplied" link first --section
usage "the argument '--section <NAME>' cannot be used multiple times" link --section a --section a first
usage "a value is required for '--entry <NAME>' but none was supplied" link first --entry
# (several entries are programs of the object)
refused 'refused E1: no ELF file' link --entry a --entry a first
usage "a value is required for '--helper <NAME=VALUE>' but none was supplied" link first --helper
usage "the argument '--helper <NAME=VALUE>' cannot be used multiple times" link --helper 5=0 --helper 6=0 first
for number in 0x400 1k 1024.0; do
    usage "invalid value '$number' for '--journal <J>': invalid digit found in string" debug --journal $number first
done
usage "invalid value '-1' for '--journal <J>': invalid digit found in string" debug --journal=-1 first
usage "invalid value '18446744073709551616' for '--journal <J>': number too large to fit in target type" \
    debug --journal=18446744073709551616 first
usage "a value is required for '--journal <J>' but none was supplied" debug first --journal
usage "the argument '--journal <J>' cannot be used multiple times" debug --journal 1024 --journal 1024 first
refused 'the command line is not UTF-8 text' run "$(printf '\377')"

# control TEXT WORD SHOWN ARGUMENT..: the command line, which ends with the word as printf's %b reads it, is none. Its control bytes are shown as
# those of a name, line feeds too: the whole is what is said of the word that is typed as it is shown.
control() {
    text=$1 word=$(printf '%b.' "$2") shown=$3
    shift 3
    usage "$text" "$@" "$shown"
    cp message typed
    usage "$text" "$@" "${word%.}"
    same "bpfdb $* $shown: the same where it is typed so" typed message
}

control "unrecognized subcommand 'b\\\\x07'" 'b\a' 'b\x07'
control "unrecognized subcommand 'two\\\\x0alines\\\\x0a'" 'two\nlines\n' 'two\x0alines\x0a'
control "unrecognized subcommand 'two\\\\x0alines'" 'two\nlines' 'two\x0alines' help
control "unexpected argument '--two\\\\x0alines' found" '--two\nlines' '--two\x0alines'
control "unexpected argument '--two\\\\x0alines' found" '--two\nlines' '--two\x0alines' run first
control "unexpected argument '\\\\x0a\\\\x1b[31mred' found" '\n\033[31mred' '\x0a\x1b[31mred' run first
control "invalid value '7\\\\x0a7' for '--steps <N>': invalid digit found in string" '7\n7' '7\x0a7' run first --steps
control "invalid value '\\\\x0d\\\\x7f' for '--journal <J>': invalid digit found in string" '\r\0177' '\x0d\x7f' debug first --journal
control 'a value is none of those that its option takes' 'x86\n' 'x86\x0a' gdb first --registers

# help TEXT ARGUMENT..: the whole text of help is that of the file (tests/program/help.sh makes them).
help() {
    cp "$parts/help/$1.txt" wanted/out
    : > wanted/err
    echo 0 > wanted/status
    shift
    printf '%b' "$script_unread" > script
    run "$@"
    compare "bpfdb $*"
}

# The version.
result "$(version)" --version
result "$(version)" -V
usage "unexpected argument '--version' found" run --version first
usage "unexpected argument '--version' found" debug first --version
usage "unexpected value 'yes' for '--version' found; no more were expected" --version=yes

help bpfdb --help
help bpfdb help
help bpfdb help --help
help bpfdb help -h
help bpfdb help --help first
help bpfdb-short -h
for subcommand in $subcommands; do
    help $subcommand $subcommand --help
    help $subcommand help $subcommand
    help $subcommand help $subcommand --help
    help $subcommand help $subcommand -h
    help $subcommand-short $subcommand -h
    help $subcommand $subcommand --help first
    help $subcommand $subcommand missing --help
done

# What the texts of help show.
printf 'loop: add r0, 1\njlt r0, 3, loop\nexit\n' > count.s
bytes count.bin 07 00 00 00 01 00 00 00 a5 00 fe ff 03 00 00 00 EXIT
result '0x3\n' run --listing count.s
session 'the example of bpfdb --help' 'stepi 3\nreverse-stepi\nundo\n' \
    '3 forward; done; at 1: jlt r0, 3, L0\n1 back; done; at 0: add r0, 1\n2 back; done; at 0: add r0, 1\n' debug --listing count.s
session 'the example of bpfdb debug --help' 'break 1\ncontinue\nundo\n' \
    'ok\n1 forward; break; at 1: jlt r0, 3, L0\n1 back; done; at 0: add r0, 1\n' debug --journal 1048576 count.bin
result 'L0:\nadd r0, 1\njlt r0, 3, L0\nexit\n' disasm count.bin

# The programs beside it tell their help alone, in lines of 80 columns, and status 0.
for tool in conformance show dap page shell symbols; do
    case $tool in conformance | show) ;; *) has python3 "bpfdb-$tool --help" || continue ;; esac
    for word in -h --help; do
        BPFDB=$program "$top/share/bpfdb-$tool" "$word" < /dev/null > found/help 2> found/err
        echo $? > found/status
        head -n 1 found/help | cut -d ' ' -f 1-2 > found/out
        awk 'length > 80' found/help >> found/out
        check "bpfdb-$tool $word" 0 "usage: bpfdb-$tool\n" ''
    done
    [ ! -c /dev/full ] || {
        "$top/share/bpfdb-$tool" --help < /dev/null > /dev/full 2> found/err
        [ $? -ne 0 ] || complain "bpfdb-$tool --help to a full output"
        count=$((count + 1))
    }
done
# argparse knows no other options than help tells.
if has python3 'options of bpfdb-dap'; then
    "$top/share/bpfdb-dap" --help < /dev/null | grep -o -e '--[a-z]*' | sort -u > wanted/options
    { "$top/share/bpfdb-dap" --frob < /dev/null 2>&1 | sed '/error:/d' | grep -o -e '--[a-z]*'; echo --help; } | sort -u > found/options
    same "bpfdb-dap: options of its help" wanted/options found/options
fi
