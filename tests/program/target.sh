# What says which program of an object runs, in each subcommand that links one: over FILE with these options it answers as over the words that `link` makes with
# the same ones. The rows are made: each group of options below with each subcommand. By each clang that is installed.

# over MAPS SUBCOMMAND OPTIONS: what a subcommand answers over the words, and over the object, which `options` name; both are held against each other, without
# the names that an object alone has.
over() {
    maps=$1 subcommand=$2
    shift 2
    context='-m context'
    case $subcommand in *disasm | *check | *lines) context='' ;; esac
    # (words without blanks)
    # shellcheck disable=SC2086
    "$program" $subcommand $context $maps words ${what:+"$what"} < script > wanted/out 2> wanted/err
    echo $? > wanted/status
    # shellcheck disable=SC2086
    "$program" $subcommand $context --object $options "$object" ${what:+"$what"} < script > found/out 2> found/err
    echo $? > found/status
    sed -i 's/ ([^()]*)$//; s/; in [^;]*$//; s/ *; [a-z.]*\[.*$//' found/out wanted/out
    compare "$subcommand --object $options $object"
}

# each VALUE OPTIONS OBJECT: with these options the program of an object gives this value, and each subcommand answers as over its words.
each() {
    value=$1 options=$2 object=$3
    # shellcheck disable=SC2086
    "$program" link $options "$object" > words 2> told || complain "link $options $object: $(cat told)"
    maps=$(told_maps)
    # shellcheck disable=SC2086
    result "$value\n" run $maps -m context words
    # shellcheck disable=SC2086
    result "$value\n" run --object $options -m context "$object"
    what=''
    for subcommand in run trace 'trace --profile' debug origin 'origin --script script' 'diff --other-mem other --alone' 'diff --other-mem other --writes --alone' disasm check gdb; do
        over "$maps" "$subcommand"
    done
    what=0
    over "$maps" 'whynot --alone'
    # Its lines are of these words: each row is of one of their slots, and names one of the files.
    # shellcheck disable=SC2086
    "$program" lines --object $options "$object" > found/rows 2> found/err || complain "lines $options $object: $(cat found/err)"
    count=$((count + 1))
    awk -v slots="$(($(wc -c < words) / 8))" '$1 !~ /^[0-9]+$/ || $1 >= slots || NF < 3 { bad = 1 } END { exit bad || !NR }' found/rows || complain "lines $options $object: $(cat found/rows)"
}

# needs OPTION..: each subcommand takes FILE for an object then, and refuses it where FILE is said to be none.
needs() {
    for subcommand in run trace debug origin whynot diff disasm lines check gdb; do
        what=''
        [ "$subcommand" != whynot ] || what=0
        [ "$subcommand" != diff ] || what='--other-mem other'
        # shellcheck disable=SC2086
        refused 'refused E1: no ELF file' $subcommand "$@" words $what
        # shellcheck disable=SC2086
        [ "$subcommand" = lines ] || usage "'--section', '--entry', '--entries', '--helper', '--fields', '--struct' and '--with' are of objects: without '--words', '--listing' and '--maps'" $subcommand "$@" --words words $what
    done
}

printf '\005\006\007' > context
printf '\010\006' > other
printf 'stepi 3\ninfo registers\nreverse-stepi\ncontinue\nx 0x100000000 2\n' > script
find_compilers 'options of linking'
for compiler in $compilers; do
    for name in reads clock late packet; do
        "$compiler" -g -O2 -target bpf -c "$parts/target/$name.c" -o $name.o 2> found/err || complain "$compiler: $name.c: $(cat found/err)"
    done

    # 100 * 7, 100 * 9, 100 * 2, and 1 more with four entries; 5 + 2, 5 + 3, and 6 + 3 at the second byte; 5 * 16 + 3.
    each 0x2bc '--section first --with clock.o' reads.o
    each 0x2bc '--section first --with clock.o --with late.o' reads.o
    each 0x384 '--section first --with late.o --with clock.o' reads.o
    each 0xc8 '--section first --helper 5=2' reads.o
    each 0xc9 '--section first --helper ktime_get_ns=2 --entries few=4' reads.o
    each 0x2bd '--section first --with clock.o --entries few=4 --as-compiled --fields compiled' reads.o
    each 0x7 '--section second --entry two' reads.o
    each 0x8 '--section second --entry three' reads.o
    each 0x9 '--entry two --entry three@1' reads.o
    each 0x384 '--entry two --entry clock --with late.o' reads.o
    each 0x53 '--struct xdp' packet.o
    each 0x53 '' packet.o
    each 0x53 '--struct xdp --with clock.o --section xdp --entry first_byte' packet.o

    # What is refused is what `link` refuses, with the object whose fault it is.

    for subcommand in run trace debug origin 'whynot --alone' 'diff --other-mem other' disasm check gdb; do
        what=''
        [ "$subcommand" != 'whynot --alone' ] || what=0
        head -c 100 clock.o > cut.o
        # shellcheck disable=SC2086
        "$program" link --section first --with clock.o --with cut.o reads.o > /dev/null 2> wanted/err
        # shellcheck disable=SC2086
        "$program" $subcommand --object --section first --with clock.o --with cut.o reads.o $what < script > found/out 2> found/err
        echo $? > found/status
        echo 2 > wanted/status
        : > wanted/out
        compare "$subcommand with an object that is cut"
    done
    needs --with clock.o
    needs --struct xdp
done
