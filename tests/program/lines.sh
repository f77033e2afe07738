# lines --object: the functions and lines of a linked program's slots. What stands in a line by hand is found by its instruction (tests/program/lines/: each has
# a number of its own); each slot of these and of other objects is held against another reader of symbols and BTF, and against DWARF (tests/trials/lines.py).

# tells_of TEXT FILE:LINE FUNCTION ARGUMENT..: the one instruction of the program with this text has this line and function.
tells_of() {
    text=$1 wanted=$2
    shift 2
    "$program" disasm --object "$@" > listing.s 2> found/err || complain "disasm --object $*: $(cat found/err)"
    tells_found "$@"
}

# joined_tells TEXT FILE:LINE FUNCTION ARGUMENT..: the same of a program that others are joined to.
joined_tells() {
    text=$1 wanted=$2
    shift 2
    "$program" link "$@" > words 2> told || complain "link $*: $(cat told)"
    # shellcheck disable=SC2046
    "$program" disasm $(told_maps) words > listing.s 2> found/err || complain "disasm of $*: $(cat found/err)"
    tells_found "$@"
}

tells_found() {
    "$program" lines listing.s > slots
    line=$(grep -n -F "$text" listing.s | cut -d: -f1)
    slot=$(awk -v line="$line" '$2 == line { print $1 }' slots)
    "$program" lines --object "$@" > found/out 2> found/err
    count=$((count + 1))
    found=$(sed -n "s/^$slot //p" found/out)
    case $found in
        "$wanted" | */"$wanted") ;;
        *) complain "$text of $*: slot $slot: $found, and not $wanted; $(cat found/err)" ;;
    esac
}

# held WHAT ARGUMENT..: what tests/trials/lines.py holds.
held() {
    python3 "$top/tests/trials/lines.py" "$program" "$@" > found/trial 2>&1 || complain "lines.py $*: $(tail -n 3 found/trial)"
    grep -q ' held$' found/trial && count=$((count + $(sed -n 's/^\([0-9]*\) held$/\1/p' found/trial)))
}

# Objects without BTF (tests/program/objects: the C of each stands in it): functions alone. The setup of data and the jump to it have no row: the code of data.o
# is at slot 1.
for name in calls text data; do
    object $name
done
result '0 - entry\n1 - entry\n2 - entry\n3 - entry\n4 - next\n5 - next\n6 - next\n7 - thrice\n8 - thrice\n9 - thrice\n' lines --object calls.o
result '0 - entry\n1 - entry\n' lines --object text.o
result '1 - entry\n3 - entry\n4 - entry\n' lines --object data.o
refused 'refused E8: no such code section: .text, prog' lines --object --section none calls.o
refused 'refused E31: no such function in the code section: entry' lines --object --entry none calls.o
printf 'none' > none.o
refused 'refused E1: no ELF file' lines --object none.o
refused 'refused A1 at line 1: unknown mnemonic' lines none.o
refused 'refused E1: no ELF file' lines --with calls.o none.o
refused 'refused E1: no ELF file' lines --section prog none.o

find_compilers 'lines --object'
for compiler in $compilers; do
    for level in 1 2; do
        "$compiler" -g -O$level -target bpf -c "$parts/lines/two.c" -o two.o 2> found/err || complain "$compiler: two.c: $(cat found/err)"
        # By hand: statements of both functions of the section, the first one before the entry; of one in .text, and of one that is inlined there, from the file
        # that is included. (The jump to the entry has no row.)
        tells_of 'mul r0, 3' 'two.c:8 first' --section prog --entry second two.o
        tells_of 'xor r7, 77' 'two.c:16 second' --section prog --entry second two.o
        tells_of 'xor r0, 33' 'more.h:11 added' --section prog --entry second two.o
        tells_of 'xor r0, 11' 'more.h:4 added' --section prog --entry second two.o
        tells_of 'xor r0, 33' 'more.h:11 added' --section .text two.o
        "$program" lines --object --entry second two.o > found/out
        count=$((count + 1))
        case $(head -n 1 found/out) in
            '1 '*/two.c:6' first') ;;
            *) complain "the first row of two.o: $(head -n 1 found/out)" ;;
        esac
        has python3 'lines of objects' || continue
        held whole two.o --entry=second
        [ $level = 1 ] || held turned two.o --entry=second
        if command -v llvm-objdump > found/which; then
            held dwarf two.o prog --entry=second
            held dwarf two.o .text
        fi
        for source in "$parts"/c/*.c; do
            "$compiler" -g -O$level -target bpf -c "$source" -o one.o 2> found/err || continue
            section=prog
            case $source in */line.c) section=filter ;; esac
            held whole one.o --section=$section
            command -v llvm-objdump > found/which && held dwarf one.o $section
        done
    done

    # Functions of another object, behind those of the program, each with the lines of its own object.
    for name in program functions mock twice; do
        "$compiler" -g -O2 -target bpf -c "$parts/join/$name.c" -o $name.o 2> found/err || complain "$compiler: $name.c: $(cat found/err)"
    done
    if has python3 'lines of joined objects'; then
        for section in time text trace cells; do
            held joined program.o functions.o --section=$section
        done
        # Of three and four objects each has its rows, in their order: those that answer, and those that answer nothing any more.
        for others in twice.o,functions.o functions.o,twice.o twice.o,mock.o,functions.o functions.o,twice.o,mock.o mock.o,mock.o; do
            for section in time text; do
                held joined program.o $others --section=$section
            done
        done
        held joined program.o twice.o,functions.o --section=cells
        held broken program.o twice.o,mock.o,functions.o --section=time
    fi
    # By hand: what stands in each, wherever it is joined. (What isn't reached is `exit`: so of `twice.o` behind another one that answers.)
    joined_tells 'mov r0, 5' 'mock.c:2 bpf_ktime_get_ns' --section time --with mock.o program.o
    joined_tells 'mov r0, 5' 'mock.c:2 bpf_ktime_get_ns' --section time --with mock.o --with twice.o program.o
    joined_tells 'mov r0, 5' 'mock.c:2 bpf_ktime_get_ns' --section time --with twice.o --with mock.o program.o
    joined_tells 'lsh r0, 1' 'twice.c:3 bpf_ktime_get_ns' --section time --with twice.o --with mock.o program.o
    joined_tells 'lsh r0, 1' 'twice.c:3 bpf_ktime_get_ns' --section time --with twice.o --with functions.o --with mock.o program.o
    joined_tells 'add r0, 1' 'functions.c:13 step' --section time --with twice.o --with functions.o --with mock.o program.o
    joined_tells ', 100' 'program.c:27 at_time' --section time --with twice.o --with functions.o --with mock.o program.o
    count=$((count + 1))
    "$program" lines --object --section time --with functions.o program.o > found/out 2> found/err
    grep -q '/join/program.c:[0-9]* [a-z_]*$' found/out && grep -q '/join/functions.c:[0-9]* bpf_ktime_get_ns$' found/out ||
        complain "lines --with functions.o: $(cat found/out found/err)"
    refused 'refused E1: no ELF file (--with)' lines --object --section time --with none.o program.o
    refused 'refused E1: no ELF file (--with, object 2)' lines --object --section time --with mock.o --with none.o program.o

    # The list of lines is read, and refused where it is cut off, as tests/trials/lines.py shows by each byte; names that would steer a terminal are shown.
    "$compiler" -g -O2 -target bpf -ffile-prefix-map="$parts/lines=$(printf 'a\033b c')" -c "$parts/lines/two.c" -o steers.o 2> found/err
    "$program" lines --object --entry second steers.o > found/out
    count=$((count + 1))
    grep -q '^2 .*/a\\x1bb c/two.c:8 first$' found/out || complain "a file's name that steers: $(sed -n 2p found/out)"
done
