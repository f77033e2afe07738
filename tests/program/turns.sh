# Programs of an object in turn, by each clang that is installed: 'link --entry' that comes several times. What they give is worked out from
# tests/program/turns/pair.c: the context has the numbers 3 and 5, of 8 bytes each.

# entries NAME..: options that name these programs in turn, a single one with its place.
entries() {
    [ $# != 1 ] || case $1 in *@*) ;; *) set -- "$1@0" ;; esac
    printf -- ' --entry %s' "$@"
}

# in_turn VALUE NAME..: what programs of pair.o give, one after the other: by link, and where the object is linked first.
in_turn() {
    value=$1
    shift
    # (words without blanks)
    # shellcheck disable=SC2046
    "$program" link $(entries "$@") pair.o > words 2> told || complain "link of $*: $(cat told)"
    result "$value\n" run $(told_maps) -m context words
    # shellcheck disable=SC2046
    result "$value\n" run --object $(entries "$@") -m context pair.o
}

# lines_of FUNCTION OPTION..: the lines of C of a function of pair.o that is linked with these options, each once.
lines_of() {
    function=$1
    shift
    "$program" lines --object "$@" pair.o 2> told | awk -v name="$function" '$NF == name { sub(/^[0-9]* /, ""); print }' | uniq
}

# begins OPTIONS INSTRUCTIONS: the program of pair.o with these options begins with these instructions, whatever the labels.
begins() {
    # shellcheck disable=SC2086
    "$program" disasm --object $1 pair.o > found/out 2> found/err || complain "disasm $1: $(cat found/err)"
    printf '%s\n' "$2" > found/wanted
    grep -v ':$' found/out | head -n "$(wc -l < found/wanted)" | sed 's/callf L[0-9]*/callf/' > found/begin
    count=$((count + 1))
    cmp -s found/begin found/wanted || complain "calls of $1: $(cat found/begin)"
}

printf '\003\0\0\0\0\0\0\0\005\0\0\0\0\0\0\0' > context
compilers=''
! has python3 'programs in turn' || find_compilers 'programs in turn'
for compiler in $compilers; do
    for name in pair clock packets; do
        "$compiler" -g -O2 -target bpf -c "$parts/turns/$name.c" -o $name.o 2> found/err || complain "$compiler: $name.c: $(cat found/err)"
    done

    # 7, which `store` gives; 2 * 3 + 100 * 3 + 10000 * 16, and at 8 + 100 * 5 + 10000 * 8; 2 * 5 + 100 * 3 + 10000 * 16, where `store` is at 8; 41, 42 and 43
    # of `count`, which has data that aren't zero; 2 * 2 * 2 * 3. (2 * 3 + 100 of `call`.)
    in_turn 0x7 store
    in_turn 0x7 take store
    in_turn 0x27232 store take
    in_turn 0x13a7a store take@8
    in_turn 0x13a7a store take@0x8
    in_turn 0x13a7a store take@008
    in_turn 0x27236 store@8 take
    in_turn 0x6a store call
    in_turn 0x29 count
    in_turn 0x2b count count@16 count
    in_turn 0x18 store double_kept double_kept

    # The calls, instruction by instruction: r1 and r2 are those of the place, in the order of the options.
    begins '--entry store --entry take@8' 'mov r6, r1
mov r7, r2
mov r1, r6
mov r2, r7
add r1, 0
sub r2, 0
callf
mov r1, r6
mov r2, r7
add r1, 8
sub r2, 8
callf
exit'
    begins '--entry store@0xffff' 'mov r6, r1
mov r7, r2
mov r1, r6
mov r2, r7
add r1, 65535
sub r2, 65535
callf
exit'
    # Behind the context nothing can be read: `take` multiplies a length of -1 there, and its load faults. (How many bytes a context has is a run's matter.)
    "$program" run --object --entry store --entry take@65535 -m context pair.o > found/out 2> found/err
    echo $? > found/status
    count=$((count + 1))
    [ "$(cat found/status)" = 1 ] && grep -q '^fault access 0x10000ffff at ' found/err || complain "a place behind the context: $(cat found/out found/err)"

    # What they call is answered as ever: 100 * 2 + 1. `unused` isn't reached, so its call isn't asked for.
    "$program" link --with clock.o --entry begin --entry end pair.o > words 2> told || complain "link of begin end: $(cat told)"
    result '0xc9\n' run $(told_maps) words
    "$program" link -r --with clock.o --entry begin --entry end pair.o > joined.o && "$program" link joined.o > again 2> found/err || complain "joined: $(cat found/err)"
    count=$((count + 1))
    cmp -s words again && cmp -s told found/err || complain 'programs in turn in an object that is joined'
    # The other options of a link, and other subcommands. 41 + 1 of `count`, whose data are those of both calls; 7 - 1 of a constant.
    result '0x2a\n' run --object --section prog/two --entry count --entry count pair.o
    # (functions of a section that is named are looked for there alone, as one is)
    refused 'refused E31: no such function in the code section: count' link --section prog/one --entry store --entry count pair.o
    refused 'refused E8: no such code section: .text, prog/one, prog/two, prog/three, prog/timed, prog/timed too, prog/field, prog/fields' link --section none --entry store --entry take pair.o
    result '0x2b\n' run --object --section prog/two --entry take --entry count --entry count --entry count -m context pair.o
    result '0x6\n' run --object --helper 5=6 --entry begin@0 --entry store --entry unused -m context pair.o
    printf 'continue\ninfo regs\n' | "$program" debug --object --entry store --entry take -m context pair.o > found/out 2> found/err
    count=$((count + 1))
    grep -q '^r0=0x27232 ' found/out || complain "debug: $(cat found/out found/err)"
    "$program" trace --profile --object --entry count@0 --entry count pair.o > found/out 2> found/err || complain "trace: $(cat found/err)"
    "$program" origin --object --entry store --entry take -m context pair.o > found/out 2> found/err || complain "origin: $(cat found/err)"
    count=$((count + 2))
    grep -q '^left 0x100000000:8 = 0x3; byte 0 of the context; at the opening' found/out || complain "origin: $(cat found/out)"
    "$program" check --object --entry store --entry take pair.o > found/out 2> found/err || complain "check: $(cat found/err)"
    count=$((count + 1))
    grep -q '^ok [0-9]* instructions in [0-9]* slots$' found/out || complain "check: $(cat found/out)"
    # Of each instruction its function, and its line of C: those that it has where its section is linked alone. The calls have none.
    "$program" lines --object --entry store --entry take@8 pair.o > found/out 2> found/err || complain "lines: $(cat found/err)"
    count=$((count + 2))
    [ "$(awk '{ print $NF }' found/out | uniq | tr '\n' ' ')" = '- store take count plus call twice ' ] || complain "lines: $(cat found/out)"
    [ "$(awk '$NF == "-"' found/out | wc -l)" = 13 ] || complain "lines of the calls: $(cat found/out)"
    for row in 'store prog/one' 'take prog/two' 'count prog/two' 'call prog/two' 'twice prog/one' 'field prog/field' 'fields prog/fields'; do
        set -- $row
        lines_of "$1" --section "$2" --entry "$( [ "$1" = twice ] && echo store || echo "$1")" > found/wanted
        lines_of "$1" --entry store --entry take --entry field --entry fields > found/out
        [ -s found/wanted ] || complain "lines of $1 alone: $(cat told)"
        same "lines of $1 in turn" found/wanted found/out
    done
    # (by the source: the second line of each is told, and no other)
    count=$((count + 1))
    [ "$(lines_of fields --entry fields --entry store | sed 's/.*pair.c:\([0-9]*\) .*/\1/')" = "$(grep -n 'it->one + 10' "$parts/turns/pair.c" | cut -d : -f 1)" ] || complain "line of fields: $(lines_of fields --entry fields --entry store)"
    # One entry and no place make no turn: its section is the one in which it lies.
    "$program" link --section prog/one --entry store pair.o > found/wanted 2> told || complain "one entry: $(cat told)"
    "$program" link --entry store pair.o > found/out 2> told || complain "one entry, without its section: $(cat told)"
    same 'the section of one entry' found/wanted found/out
    "$program" link --section prog/two --entry count pair.o > words 2> told || complain "one entry: $(cat told)"
    count=$((count + 1))
    "$program" disasm --object --section prog/two --entry count pair.o | grep -q '^mov r6, r1$' && complain 'one entry is called'

    # Of the packet 03 05: 3 + 10 * 5.
    printf '\003\005' > packet
    "$program" link --struct xdp --entry one --entry two packets.o > words 2> told || complain "packets: $(cat told)"
    result '0x35\n' run $(told_maps) -m packet words

    # Relocations of fields are those of all programs, 1 and 2. The calls have thirteen slots before them: two, five for each, and an exit.
    slot=$("$program" link --fields strict --section prog/field pair.o 2>&1 | sed -n 's/^refused E36 at slot \([0-9]*\): .*/\1/p')
    refused "refused E36 at slot $((slot + 13)): relocations of fields, 3 in all: --fields compiled leaves them undone: prog/field" link --fields strict --entry field --entry fields pair.o
    "$program" link --entry field --entry fields pair.o > words 2> told || complain "fields: $(cat told)"
    count=$((count + 1))
    [ "$(cat told)" = 'fields left as compiled: 3' ] || complain "fields: $(cat told)"
    # 3 + 10 * 0 of `fields`, whose ints lie in the first 8 bytes; `field` before it has the second 8, 5.
    result '0x3\n' run -m context words
    "$program" link --entry fields --entry field@8 pair.o > words 2> told || complain "fields: $(cat told)"
    result '0x5\n' run -m context words
    # (where the first one has none, those of the others count, too)
    "$program" link --entry store --entry fields pair.o > words 2> told || complain "fields: $(cat told)"
    count=$((count + 1))
    grep -qx 'fields left as compiled: 2' told || complain "fields behind a program without any: $(cat told)"
    result '0x3\n' run $(told_maps) -m context words

    # Symbols of programs in turn, of the object itself and of the one that link writes of them: functions at which `lines` tells them.
    for words in '--entry store --entry take@8 pair.o' joined.o; do
        # shellcheck disable=SC2086
        case $words in joined.o) "$program" link -r --entry store --entry take@8 pair.o > joined.o || complain 'link -r of programs in turn' ;; esac
        # shellcheck disable=SC2086
        BPFDB=$program "$top/share/bpfdb-symbols" $words symbols 2> found/err || complain "symbols of $words: $(cat found/err)"
        python3 "$top/tests/trials/objects.py" functions symbols | grep -v -e ' _start$' -e ' _setup$' > found/functions
        # shellcheck disable=SC2086
        "$program" lines $words | awk '$3 != told && $3 != "-" { printf "%x %s\n", 8 * $1, $3 } { told = $3 }' > wanted/functions
        [ -s wanted/functions ] || complain "lines of $words"
        same "the functions of $words" wanted/functions found/functions
    done

    # Without debug information there is nothing to move but the code.
    "$compiler" -O2 -target bpf -c "$parts/turns/pair.c" -o pair.o
    in_turn 0x13a7a store take@8
    "$compiler" -g -O2 -target bpf -c "$parts/turns/pair.c" -o pair.o

    # What is refused: what is said of the words, of the programs, and of what they have.
    # (a word for each of sixteen programs, and then of seventeen)
    in_turn 0x38 $(yes count | head -n 16)
    for word in @x store@ store@x store@-1 store@65536 store@0x10000 store@8@8 store@99999999999; do
        usage "behind the '@' of '--entry <NAME>' a number is wanted, in bytes, at most 65535" link --entry "$word" pair.o
        usage "behind the '@' of '--entry <NAME>' a number is wanted, in bytes, at most 65535" link --entry take --entry "$word" pair.o
    done
    # shellcheck disable=SC2046
    usage "the argument '--entry <NAME>' is used more than 16 times" link $(entries $(yes count | head -n 17)) pair.o
    usage "'--section', '--entry', '--entries', '--helper', '--fields', '--struct' and '--with' are of objects: without '--words', '--listing' and '--maps'" run --listing --entry store --entry take words
    refused 'refused E1: no ELF file' run --entry store --entry take words
    refused 'refused E31: no such function in the code section: none' link --entry store --entry none pair.o
    refused 'refused E31: no such function in the code section: none' link --entry none@8 --entry nothing pair.o
    refused 'refused E31: no such function in the code section: kept' link --entry kept --entry store pair.o
    refused 'refused E31: no such function in the code section' link --entry '' --entry store pair.o
    refused 'refused E1: no ELF file' link --entry store --entry take context
    refused 'cannot read none.o' link --entry store --entry take none.o
    # Of two functions of one name, `store` and what was `count`, a section tells which.
    sed 's/count/store/g' pair.o > twins.o
    refused 'refused E30: more than one program in the code section: --entry NAME chooses one: store' link --entry take --entry store twins.o
    result '0x2a\n' run --object --section prog/two --entry store --entry store twins.o
    # An object whose `.BTF` doesn't have the name of the first one's section: the linker would find none of its lines and fields.
    sed 's|prog/one|prog/uno|g' pair.o > renamed.o
    cmp -s pair.o renamed.o && complain 'no section is renamed'
    python3 - pair.o renamed.o unnamed.o << 'PYTHON'
import struct
import sys

content, renamed = (open(name, 'rb').read() for name in sys.argv[1:3])
start, = struct.unpack_from('<Q', content, 40)
count, names = struct.unpack_from('<HH', content, 60)
of_names, = struct.unpack_from('<Q', content, start + 64 * names + 24)
size, = struct.unpack_from('<Q', content, start + 64 * names + 32)
open(sys.argv[3], 'wb').write(content[:of_names] + renamed[of_names:of_names + size] + content[of_names + size:])
PYTHON
    refused 'refused E53: malformed section .BTF.ext' link --entry store --entry take unnamed.o

    # Damaged objects.
    python3 "$top/tests/trials/turns.py" pair.o "$program" > found/trial 2>&1 || complain "turns.py: $(tail -n 3 found/trial)"
    count=$((count + $(sed -n 's/^\([0-9]*\) held$/\1/p' found/trial; echo + 0)))
done
