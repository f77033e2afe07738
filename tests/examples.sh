#!/bin/sh
# The examples, through the built program (or the one that BPFDB names): each script gives its replies, each program assembles
# and disassembles to itself, the example of a test suite passes and can fail, and the examples in docs/COMMANDS.md, README.md, examples/README.md and
# examples/RECIPES.md, and docs/TESTS.md print what they show. What is wrong is a line each.
set -u
cd "$(dirname "$0")/.." || exit 1
[ -n "${BPFDB:-}" ] || sh tests/build.sh || exit 1
BPFDB=${BPFDB:-$PWD/crates/bpfdb/out/bpfdb}
export BPFDB
work=$(mktemp -d) || exit 1
trap 'rm -rf "$work"' EXIT
trap 'exit 130' HUP INT TERM
top=$PWD
. tests/machine.sh
LEFT_OUT=${LEFT_OUT:-$work/left-out}
export LEFT_OUT
count=0
: > "$work/faults"

# fault TEXT: says what is wrong; the run fails at its end.
fault() {
    printf 'FAILED: %s\n' "$1" | tee -a "$work/faults"
}

# first_difference WANTED FOUND: the first line in which two files differ.
first_difference() {
    awk '
        NR == FNR { wanted[FNR] = $0; n = FNR; next }
        { m = FNR }
        $0 != wanted[FNR] || FNR > n { printf "line %d is \"%s\", and not \"%s\"", FNR, $0, wanted[FNR]; told = 1; exit }
        END { if (!told) printf "it ends after line %d of %d", m, n }
    ' "$1" "$2"
}

# expect NAME STATUS OUTPUT ERRORS: holds the last run, which left status, out and err, against a status and two files.
expect() {
    [ "$status" = "$2" ] || fault "$1: the exit status is $status, and not $2"
    cmp -s "$3" "$work/out" || fault "$1: $(first_difference "$3" "$work/out")"
    cmp -s "$4" "$work/err" || fault "$1: standard error: $(first_difference "$4" "$work/err")"
}

# replies NAME: the script of an example, obeyed in its folder.
replies() {
    # (The arguments are words without quotes.)
    # shellcheck disable=SC2046
    "$BPFDB" debug $(cat arguments) < script > "$work/out" 2> "$work/err"
    status=$?
    expect "examples/$1/script" 0 replies /dev/null
}

# round NAME: the program's bytes, the listing that is made of them, and its bytes again.
round() {
    maps=$(sed -n 's/.*--maps \([^ ]*\).*/--maps \1/p' arguments)
    case $(cat arguments) in
    *program.s) "$BPFDB" asm program.s > "$work/bytes" || fault "examples/$1/program.s doesn't assemble" ;;
    *) cp program.bin "$work/bytes" || fault "examples/$1 has no program.bin" ;;
    esac
    # shellcheck disable=SC2086
    "$BPFDB" disasm $maps "$work/bytes" > "$work/listing" || fault "examples/$1 doesn't disassemble"
    "$BPFDB" asm "$work/listing" > "$work/again" || fault "examples/$1: its listing doesn't assemble"
    cmp -s "$work/bytes" "$work/again" || fault "examples/$1: its listing has other bytes"
}

# plain NAME STATUS OUTPUT ERRORS: a run of an example without a session; the texts are lines, or empty.
plain() {
    cd "$top/examples/$1" || exit 1
    # shellcheck disable=SC2046
    "$BPFDB" run $(cat arguments) > "$work/out" 2> "$work/err"
    status=$?
    printf '%s' "${3:+$3
}" > "$work/wanted-out"
    printf '%s' "${4:+$4
}" > "$work/wanted-err"
    expect "bpfdb run of examples/$1" "$2" "$work/wanted-out" "$work/wanted-err"
    cd "$top" || exit 1
}

# suite: the example of a test suite passes, and fails where the program is wrong.
suite() {
    sh examples/suite/test.sh > "$work/out" 2> "$work/err"
    status=$?
    expect 'examples/suite/test.sh' 0 /dev/null /dev/null
    sed 's/add r3, -1/add r3, -2/' examples/suite/program.s > "$work/wrong.s"
    sh examples/suite/test.sh "$work/wrong.s" > "$work/out" 2>&1 && fault 'examples/suite/test.sh passes a wrong program'
}

# shown PAGE SECTION: each command after '$ ' in a section of a page (in all of it, where the section is empty) prints the lines that follow it
# there, and 'cat FILE' shows a file that the commands after it take. They are run in one folder, in order, which has those of the examples firewall and xdp.
shown() {
    rm -rf "$work/shown"
    mkdir "$work/shown" "$work/shown/files" || exit 1
    cp -R "$top/examples/firewall" "$top/examples/xdp" "$work/shown/files" || exit 1
    awk -v section="## $2" -v work="$work/shown" '
        BEGIN { inside = section == "## " }
        /^## / { inside = section == "## " || $0 == section }
        /^```/ { block = !block; on = 0; next }
        inside && block && /^\$ / { on = 1; n++; print substr($0, 3) > (work "/command-" n); printf "" > (work "/text-" n); next }
        inside && block && on { print > (work "/text-" n) }
    ' "$1"
    n=1
    while [ -f "$work/shown/command-$n" ]; do
        command=$(cat "$work/shown/command-$n")
        case $command in
        'cat '*.c | 'cat '*.s | 'cat '*.test | 'cat '*.data | 'cat '*.awk | 'cat '*.py | 'cat '*.sh) cp "$work/shown/text-$n" "$work/shown/files/${command#cat }" ;;
        esac
        (cd "$work/shown/files" && PATH=$work/bin:$PATH && export PATH && unset BPFDB && sh "$work/shown/command-$n") > "$work/out" 2>&1
        cmp -s "$work/shown/text-$n" "$work/out" || fault "$1, '$2': '$command': $(first_difference "$work/shown/text-$n" "$work/out")"
        n=$((n + 1))
    done
    [ "$n" -gt 1 ] || fault "$1 has no examples in '$2'"
}

# object_of HEX: the bytes of an object, each of which stands as two hexadecimal digits.
object_of() {
    printf '%b' "$(awk '
        function value(i) { return index("0123456789abcdef", substr($0, i, 1)) - 1 }
        { for (i = 1; i < length($0); i += 2) printf "\\0%o", 16 * value(i) + value(i + 1) }
    ' "$1")"
}

# origins PAGE SECTION EXAMPLE: each command `bpfdb origin` or `bpfdb whynot`, and each that cuts a file for it, that a section of a page (all of it, where the section is empty) shows prints the lines
# that follow it there, in the folder of the example, where the program, and its object, also stand under the example's name. (Section - is the page up to its first.)
origins() {
    rm -rf "$work/origins"
    mkdir "$work/origins" || exit 1
    cp -R "$top/examples/$3" "$work/origins/files" || exit 1
    [ ! -f "$work/origins/files/program.bin" ] || cp "$work/origins/files/program.bin" "$work/origins/files/$3.bin"
    [ ! -f "$work/origins/files/object.hex" ] || object_of "$work/origins/files/object.hex" > "$work/origins/files/$3.o"
    awk -v section="## $2" -v work="$work/origins" '
        BEGIN { inside = section == "## " || section == "## -" }
        /^## / { inside = section == "## " || $0 == section }
        /^```/ { block = !block; on = 0; next }
        inside && block && /^\$ / { on = /^\$ (bpfdb (origin|whynot)|\{ head) /; if (on) { n++; print substr($0, 3) > (work "/command-" n); printf "" > (work "/text-" n) }; next }
        inside && block && on { print > (work "/text-" n) }
    ' "$1"
    n=1
    while [ -f "$work/origins/command-$n" ]; do
        (cd "$work/origins/files" && PATH=$work/bin:$PATH && export PATH && sh "$work/origins/command-$n") > "$work/out" 2>&1
        cmp -s "$work/origins/text-$n" "$work/out" || fault "$1, '$2': '$(cat "$work/origins/command-$n")': $(first_difference "$work/origins/text-$n" "$work/out")"
        n=$((n + 1))
    done
    [ "$n" -gt 1 ] || fault "$1 asks nowhere where a value came from in '$2'"
}

# pages: the examples of the manual, the recipes, and those on words and, where there is a clang for BPF, on C.
pages() {
    mkdir "$work/bin" || exit 1
    ln -s "$BPFDB" "$work/bin/bpfdb" || exit 1
    for name in conformance context convert show; do
        ln -s "$top/share/bpfdb-$name" "$work/bin" || exit 1
    done
    shown docs/COMMANDS.md EXAMPLES
    if has python3 'the recipes' && has xxd 'the recipes' && has prove 'the recipes' && has_libpcap 'the recipes'; then shown examples/RECIPES.md ''; fi
    if has python3 'the examples of docs/TESTS.md'; then shown docs/TESTS.md ''; fi
    origins README.md - overrun
    origins README.md 'A packet that should have been dropped' firewall
    for name in overrun fault records firewall; do
        origins examples/README.md "$name" "$name"
    done
    if has xxd 'the example from words'; then shown examples/README.md 'From words'; fi
    if has xxd 'the example from a filter' && has tcpdump 'the example from a filter'; then shown examples/README.md 'From a filter'; fi
    if has_clang 'the example from C'; then shown examples/README.md 'From C'; fi
}

for folder in examples/*/; do
    name=$(basename "$folder")
    # (the part `bugs` of the tests has the programs of that folder)
    [ "$name" != bugs ] || continue
    cd "$folder" || exit 1
    replies "$name"
    round "$name"
    cd "$top" || exit 1
    count=$((count + 1))
done
[ "$count" -ge 10 ] || fault "there are $count examples"
plain count 0 0x3 ''
plain checksum 0 0xb861 ''
plain counters 0 0x1 ''
plain fault 1 '' 'fault access 0x100000083 at 9'
plain firewall 0 0x2 ''
plain listen 0 0x0 ''
plain overrun 1 '' 'fault access 0x10077656d at 25'
plain records 1 '' 'fault access 0x10000000f at 0'
plain suite 0 0x1 ''
plain wrong-byte 0 0x0 ''
plain xdp 0 0x1 ''
suite
pages
tell_left_out "$work/left-out"
[ ! -s "$work/faults" ] || exit 1
echo "tests/examples.sh: $count examples passed"
