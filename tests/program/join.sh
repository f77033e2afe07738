# link --with and -r: objects as one, by each clang that is installed. What a program gives is worked out from its source
# (tests/program/join/); what stands in a joined object is held against another reader of objects (tests/trials/joins.py).

# gives VALUE SECTION OBJECT..: what the program of a section of program.o gives, where these objects are joined to it, the first one first.
gives() {
    value=$1 section=$2
    shift 2
    cp program.o joined.o
    with=
    for object in "$@"; do
        "$program" link -r --with "$object" --section "$section" joined.o > next.o 2> told || complain "$section with $object: $(cat told)"
        mv next.o joined.o
        with="$with --with $object"
    done
    "$program" link --section "$section" joined.o > words 2> told || complain "$section: $(cat told)"
    result "$value\n" run $(told_maps) words
    # (all of them at once is the same)
    # shellcheck disable=SC2086
    "$program" link -r --section "$section" $with program.o > next.o 2> found/err || complain "$section$with: $(cat found/err)"
    # shellcheck disable=SC2086
    "$program" link --section "$section" $with program.o > again 2> found/err || complain "$section$with: $(cat found/err)"
    count=$((count + 2))
    cmp -s next.o joined.o || complain "$section$with: another object than step by step"
    cmp -s again words && cmp -s found/err told || complain "$section$with: another program than step by step"
}

# answer VALUE SECTION OBJECT: what the program of a section of asks.o gives, where the functions of this object answer.
answer() {
    "$program" link --section "$2" --with "$3" asks.o > words 2> told || complain "$2 with $3: $(cat told)"
    result "$1\n" run words
}

find_compilers 'link --with'
for compiler in $compilers; do
    for name in program functions mock twice pointers fields asks answers; do
        "$compiler" -g -O2 -target bpf -c "$parts/join/$name.c" -o $name.o 2> found/err || complain "$compiler: $name.c: $(cat found/err)"
    done

    # 100 * 1 + 2; 100 * (1 + 10) + (2 + 20); 9; 42 + 1000; 41; 1000 * (27 + 4096) and 1 + 400 + 80 + 128: kind, sizes and entries of each map.
    gives 0x66 time functions.o
    gives 0x462 text functions.o
    gives 0x9 trace functions.o
    gives 0x412 extern functions.o
    gives 0x29 cells functions.o
    gives 0x3eebd9 kind functions.o
    gives 0x1f9 time mock.o functions.o
    gives 0x66 time functions.o mock.o
    # What a function calls is answered behind it: of `twice` 2 * 5; of `twice` behind that 2 * 1 and 2 * 2; behind all, it calls the kernel's helper itself.
    gives 0x3f2 time twice.o mock.o
    gives 0xcc time twice.o functions.o
    gives 0x1f9 time mock.o twice.o
    gives 0x198 time twice.o twice.o functions.o
    # Sixteen are the most, of which the first answers.
    fifteen=$(printf ' --with mock.o%.0s' 1 2 3 4 5 6 7 8 9 10 11 12 13 14 15)
    # (words without blanks)
    # shellcheck disable=SC2086
    "$program" link --section time $fifteen --with functions.o program.o > words 2> told || complain "sixteen objects: $(cat told)"
    result '0x1f9\n' run $(told_maps) words
    # shellcheck disable=SC2086
    usage "the argument '--with <OBJECT>' is used more than 16 times" link --section time $fifteen --with functions.o --with functions.o program.o
    "$program" link --section time --with twice.o program.o > words 2> told
    count=$((count + 1))
    grep -q '^refused E25 at slot [0-9]*: unknown helper 5 (bpf_ktime_get_ns): --with OBJECT or --helper 5=VALUE answers it: time, slot [0-9]*$' told ||
        complain "a function that asks for what nothing behind it has: $(cat told)"

    # In one step, and step by step: a call of FILE is answered, a call of the functions is the machine's.
    "$program" link --with functions.o --section trace program.o > words 2> told || complain "trace: $(cat told)"
    printf 'continue\ninfo trace\n' | "$program" debug $(told_maps) words > found/out
    count=$((count + 1))
    [ "$(tail -n 1 found/out)" = 'trace 2 0x6b 0x8' ] || complain "helper 64 in both objects: $(cat found/out)"
    "$program" link --with functions.o --section cells program.o > words 2> told || complain "maps: $(cat told)"
    "$program" link -r --with functions.o --section cells program.o > joined.o 2> found/err || complain "maps, joined: $(cat found/err)"
    cp told first
    "$program" link --section cells joined.o > again 2> told || complain "maps, linked again: $(cat told)"
    cmp -s words again && cmp -s first told || complain 'a joined object has another program'
    count=$((count + 1))
    # (an object that nothing is joined to would be copied, whatever it is; that of a packet's program isn't written)
    for word in -r --relocatable --joined; do
        usage "'--relocatable' needs '--with', '--entries', or several '--entry'" link $word program.o
    done
    usage "'--relocatable' needs '--with', '--entries', or several '--entry'" link -r --section cells --entry cells --helper 8=7 program.o
    # What is asked of the one program that would be linked isn't done of an object, and is refused by its name; so is what is asked of fields, where nothing is joined.
    for word in -r --joined; do
        usage "the argument '--relocatable' cannot be used with '--struct <KIND>'" link $word --struct xdp --with functions.o program.o
        usage "the argument '--relocatable' cannot be used with '--helper <NAME=VALUE>'" link $word --helper 8=7 --with functions.o program.o
        usage "the argument '--relocatable' cannot be used with one '--entry <NAME>'" link $word --entry cells --with functions.o program.o
        usage "the argument '--relocatable' cannot be used with '--fields <HOW>' without '--with'" link $word --fields strict --entries cells=4 program.o
    done
    usage "the argument '--relocatable' cannot be used multiple times" link -r --joined --with functions.o program.o
    refused 'refused E36 at slot 2: relocations of fields, 1 in all: --fields compiled leaves them undone: .text' link -r --fields strict --with functions.o fields.o
    # A file takes the object, and standard output nothing; the old word writes the same.
    result '' link -r -o written.o --with functions.o --section cells program.o
    same 'link -r -o' joined.o written.o
    "$program" link --joined --with functions.o --section cells program.o > old.o
    same 'link --joined' joined.o old.o

    # What is wanting, and what is wrong with either object.
    refused 'refused E25 at slot 0: unknown helper 8 (bpf_get_smp_processor_id): --with OBJECT or --helper 8=VALUE answers it: unanswered, slot 0' \
        link --with functions.o --section unanswered program.o
    # All symbols that are missing, each once and in the order of the code: those that the entry reaches and no object has.
    refused 'refused E19 at slot 0: symbol is not defined in the object: elsewhere, sum' link --section lacking --entry lacks_two program.o
    refused 'refused E19 at slot 0: symbol is not defined in the object: elsewhere, sum' link --with mock.o --section lacking --entry lacks_two program.o
    refused 'refused E19 at slot 0: symbol is not defined in the object: elsewhere' link --with functions.o --section lacking --entry lacks_two program.o
    "$program" link --section lacking --entry lacks_one program.o > words 2> told
    count=$((count + 1))
    grep -q '^refused E19 at slot [0-9]*: symbol is not defined in the object: sum$' told || complain "what the other function lacks: $(cat told)"
    # All helpers of the kernel that nothing answers, each once: the first that is called, and the others by their numbers. What is answered isn't among them, by a
    # function (5) or a stub; one that has no name stands there if it is the first.
    way='--with OBJECT or --helper'
    refused "refused E25 at slot 0: unknown helper 14 (bpf_get_current_pid_tgid), 5 (bpf_ktime_get_ns), 130 (bpf_ringbuf_output), 211 (bpf_cgrp_storage_delete): $way 14=VALUE answers it: several, slot 0" \
        link --section several program.o
    refused "refused E25 at slot 0: unknown helper 14 (bpf_get_current_pid_tgid), 130 (bpf_ringbuf_output), 211 (bpf_cgrp_storage_delete): $way 14=VALUE answers it: several, slot 0" \
        link --with functions.o --section several program.o
    "$program" link --section several --helper 14=0,5=0 program.o > words 2> told
    count=$((count + 1))
    grep -q "^refused E25 at slot [0-9]*: unknown helper 130 (bpf_ringbuf_output), 211 (bpf_cgrp_storage_delete): $way 130=VALUE answers it: several, slot [0-9]*$" told || complain "helpers behind stubs: $(cat told)"
    "$program" link --section several --helper 14=0,5=0,130=0,211=0 program.o > words 2> told
    count=$((count + 1))
    grep -q '^refused E25 at slot [0-9]*: unknown helper 1000: --helper 1000=VALUE answers it: several, slot [0-9]*$' told || complain "a helper without a name: $(cat told)"
    refused 'refused E8: no such code section: .text, time, text, trace, extern, cells, kind, unanswered, lacking, several' link --with functions.o --section none program.o
    printf 'none' > none.o
    refused 'refused E1: no ELF file' link --with functions.o none.o
    refused 'refused E1: no ELF file (--with)' link --with none.o --section time program.o
    refused 'cannot read missing.o' link --with missing.o --section time program.o
    # Of several objects the one is told that is wrong, behind those that are right; files are read first, in their order.
    refused 'refused E1: no ELF file (--with)' link --with none.o --with functions.o --section time program.o
    refused 'refused E1: no ELF file (--with, object 2)' link --with functions.o --with none.o --section time program.o
    refused 'refused E1: no ELF file (--with, object 3)' link --with mock.o --with functions.o --with none.o --section time program.o
    refused 'refused E39: addresses in the data of an object of functions (--with, object 2)' link --with mock.o --with pointers.o --section time program.o
    refused 'refused E1: no ELF file' link --with none.o --with functions.o none.o
    refused 'cannot read missing.o' link --with none.o --with missing.o --with lacking.o --section time program.o
    refused 'cannot read lacking.o' link --with lacking.o --with missing.o --section time program.o
    refused 'refused E25 at slot 0: unknown helper 8 (bpf_get_smp_processor_id): --with OBJECT or --helper 8=VALUE answers it: unanswered, slot 0' \
        link --with mock.o --with functions.o --section unanswered program.o
    refused 'refused E39: addresses in the data of an object of functions (--with)' link --with pointers.o --section time program.o
    refused 'refused E36 at slot 2: relocations of fields, 1 in all: --fields compiled leaves them undone: .text' link --fields strict --with functions.o fields.o
    "$program" link --with functions.o fields.o > words 2> told || complain "fields: $(cat told)"
    count=$((count + 1))
    [ "$(cat told)" = 'fields left as compiled: 1' ] || complain "what is told of fields: $(cat told)"

    # Damaged objects, and what stands in each part.
    if has python3 'joined objects'; then
        python3 "$top/tests/trials/joins.py" "$program" program.o functions.o > found/trial 2>&1 || complain "joins.py: $(tail -n 3 found/trial)"
        count=$((count + $(sed -n 's/^\([0-9]*\) held$/\1/p' found/trial || echo 0)))
        # Names that stand behind the end of their section of strings: `link` reads them where they stand, but a joined object has only those in the section.
        python3 -c '
import struct
data = bytearray(open("program.o", "rb").read())
table, names = struct.unpack_from("<Q", data, 40)[0], struct.unpack_from("<H", data, 62)[0]
struct.pack_into("<Q", data, table + 64 * names + 32, 1)
open("cut.o", "wb").write(data)'
        "$program" link --section time cut.o > words 2> told
        count=$((count + 2))
        grep -q '^refused E25 at slot [0-9]*: unknown helper 5 (bpf_ktime_get_ns)' told || complain "names behind their section: $(cat told)"
        "$program" link --section time --with functions.o cut.o > words 2> told
        grep -q '^refused E8: no such code section' told || complain "names behind their section, joined: $(cat told)"
        # Of two functions of a helper's name the one answers whose symbol stands last; one that begins inside of a slot answers nothing.
        python3 "$top/tests/trials/symbols.py" answers.o
        answer 0x9 named both.o
        answer 0x7 named turned.o
        refused 'refused E25 at slot 0: unknown helper 8 (bpf_get_smp_processor_id): --with OBJECT or --helper 8=VALUE answers it: inside, slot 0' \
            link --with inside.o --section inside asks.o
    fi
    # The same function is one where it is whole; and a function answers the last helper that has a name, too.
    answer 0x6 inside answers.o
    answer 0x3 latest answers.o
    # A function is asked before a stub, which answers the calls that are left.
    "$program" link --section inside --helper 8=1 --with answers.o asks.o > words 2> told || complain "a stub and a function: $(cat told)"
    result '0x6\n' run words
    count=$((count + 1))
    [ "$(cat told)" = 'calls answered by --helper: 0' ] || complain "a stub and a function: $(cat told)"
    "$program" link --section inside --helper 8=1 asks.o > words 2> told || complain "a stub: $(cat told)"
    result '0x1\n' run words
done
