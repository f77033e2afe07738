# How many entries maps have, by link --entries, by each clang that is installed: what programs find (tests/program/counts/), what is refused, and the BTF of
# the object that is linked, held against another reader of it (tests/trials/counts.py).

# finds VALUE SECTION OPTIONS: what the program of a section of sized.o gives with these options, by link and where the object is linked first.
finds() {
    value=$1 section=$2
    shift 2
    "$program" link --section "$section" "$@" sized.o > words 2> told || complain "$section $*: $(cat told)"
    result "$value\n" run $(told_maps) words
    result "$value\n" run --object --section "$section" "$@" sized.o
}

find_compilers 'link --entries'
for compiler in $compilers; do
    for name in sized library; do
        "$compiler" -g -O2 -target bpf -c "$parts/counts/$name.c" -o $name.o 2> found/err || complain "$compiler: $name.c: $(cat found/err)"
    done

    # `few` and `many` have one type: what is told of one of them isn't told of the other.
    finds 0x5 prog/shared
    finds 0x7 prog/shared --entries few=5
    finds 0xd prog/shared --entries many=5
    finds 0xf prog/shared --entries few=5 --entries many=6
    finds 0xf prog/shared --entries many=0x5 --entries few=05 --entry shared@0 --entry shared
    finds 0x4 prog/shared --entries few=3
    finds 0x1 prog/shared --entries many=1
    "$program" link --section prog/shared --entries many=6 --entries few=5 sized.o > words 2> told
    count=$((count + 1))
    grep -q '^--maps 8x5,8x6$' told || complain "what is told of maps: $(cat told)"
    # `open` and `zero` have no entries without it.
    refused 'refused E52: entries not 1 to 4096: open' link --section prog/open sized.o
    refused 'refused E52: entries not 1 to 4096: zero' link --section prog/zero --entries open=1 sized.o
    finds 0xb prog/open --entries open=7
    finds 0xf prog/open --entries open=8
    finds 0x1 prog/zero --entries zero=1
    finds 0x3 prog/zero --entries zero=2 --entries open=9
    # A hash keeps its kind, its key of 8 bytes and its value of 20, and so the library finds it: with the entries that are told, up to 4294967295.
    refused 'refused E50: map is a hash, and no array: hash' link --section prog/hash --entries hash=5 sized.o
    for n in 1 77 4294967295; do
        "$program" link --section prog/hash --with library.o --entries hash=$n sized.o > words 2> told || complain "hash of $n: $(cat told)"
        result "$(printf '0x%x' $((1000000 + 80000 + 2000 + n + 1000000000 * (2000000 + 40000 + 800 + 4))))\n" run $(told_maps) words
        "$program" link -r --with library.o --entries hash=$n --section prog/hash sized.o > joined.o && "$program" link --section prog/hash joined.o > again 2> told
        count=$((count + 1))
        cmp -s words again || complain "hash of $n, joined: $(cat told)"
    done
    # What is wrong with another section of code doesn't count where one is named.
    printf '__attribute__((section("prog/off"), used)) long off(void) { asm volatile("r0 = 1"); __builtin_unreachable(); }\n#include "%s"\n' "$parts/counts/sized.c" > off.c
    "$compiler" -g -O2 -target bpf -c off.c 2> found/err || complain "$compiler: off.c: $(cat found/err)"
    refused 'refused E12: code section runs off its end' link --section prog/off --entries few=5 off.o
    "$program" link --section prog/shared --entries few=5 off.o > words 2> told || complain "off.o: $(cat told)"
    result '0x7\n' run $(told_maps) words
    refused 'refused E8: no such code section: .text, prog/shared, prog/open, prog/zero, prog/hash' link --section none --entries few=5 sized.o
    # Other subcommands.
    for words in 'debug' 'check' 'disasm' 'trace --profile' 'origin' 'lines' 'whynot'; do
        # (words without blanks)
        # shellcheck disable=SC2086
        "$program" $words --object --section prog/zero --entries zero=1 sized.o $([ "$words" != whynot ] || echo 0) < /dev/null > found/out 2> found/err || [ $? = 1 ] || complain "$words: $(cat found/err)"
        count=$((count + 1))
    done

    # What is refused: maps that aren't there, whose names the line has, and objects that tell nothing of maps.
    refused 'refused E45: map has no description in BTF: none' link --section prog/shared --entries none=5 sized.o
    refused 'refused E45: map has no description in BTF: fe' link --section prog/shared --entries few=5 --entries fe=5 sized.o
    refused 'refused E45: map has no description in BTF: shared' link --section prog/shared --entries shared=5 sized.o
    refused 'refused E45: map has no description in BTF' link --section prog/shared --entries =5 sized.o
    long=$(printf 'm%.0s' $(seq 256))
    "$program" link --section prog/shared --entries "$long=5" sized.o > words 2> told
    count=$((count + 1))
    grep -q '^refused E54: name of a map longer than 255 bytes: m*$' told || complain "a long name: $(cat told)"
    refused 'refused E52: entries not 1 to 4096: few' link --section prog/shared --entries few=4097 sized.o
    printf 'none' > none.o
    refused 'refused E1: no ELF file' link --entries few=5 none.o
    refused 'cannot read missing.o' link --entries few=5 missing.o
    "$compiler" -O2 -target bpf -c "$parts/counts/sized.c" -o plain.o
    refused 'refused E40: no BTF in the section .BTF' link --section prog/shared --entries few=5 plain.o

    # And what is said of the words.
    own="each '--entries <NAME=N>' names a map of its own, and N is a number, 1 to 4294967295"
    for word in '' = few few= few=0 few=x few=-1 few=+1 few=4294967296 few=0x100000000 few=1=1 'few= 1' few=99999999999999999999 few@5; do
        usage "$own" link --section prog/shared --entries "$word" sized.o
        usage "$own" run --object --entries many=5 --entries "$word" sized.o
    done
    usage "$own" link --section prog/shared --entries few=5 --entries many=5 --entries few=5 sized.o
    usage "'--section', '--entry', '--entries', '--helper', '--fields', '--struct' and '--with' are of objects: without '--words', '--listing' and '--maps'" run --words --entries few=5 words
    refused 'refused E1: no ELF file' run --entries few=5 words
    seventeen=$(for n in $(seq 17); do printf -- ' --entries m%s=1' "$n"; done)
    # shellcheck disable=SC2086
    usage "the argument '--entries <NAME=N>' is used more than 16 times" link --section prog/shared $seventeen sized.o

    # The BTF of what is linked, and of damaged objects.
    if has python3 'BTF of objects with other entries'; then
        python3 "$top/tests/trials/counts.py" "$program" sized.o > found/trial 2>&1 || complain "counts.py: $(tail -n 3 found/trial)"
        count=$((count + $(sed -n 's/^\([0-9]*\) held$/\1/p' found/trial || echo 0)))
    fi
done
