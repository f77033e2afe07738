# Places in C: of an object the lines of `trace --branches`, of `trace --profile` and of moves, of `origin` with its branches, of `whynot` and of `diff`, end with
# them, as those do that tell where a program stands; of those of `trace` the first, and each whose place is another one than that of the line before. By hand from the lines of
# tests/program/places/branches.c; and of other objects each line is held against what `lines` tells of its slot.

# places ARGUMENT..: the places of the branches that are told, a line each.
places() {
    "$program" "$@" > found/out 2> found/err || complain "$*: $(cat found/err)"
    sed -n 's/^-*[0-9]* [0-9]*: j.*; \(in .*\)$/\1/p' found/out
}

# stands PLACES ARGUMENT..: these are told, in this order, and each branch has one.
stands() {
    wanted=$1
    shift
    count=$((count + 1))
    [ "$(places "$@")" = "$wanted" ] || complain "$*: $(cat found/out)"
    [ "$(grep -c '^-*[0-9]* [0-9]*: j' found/out)" = "$(echo "$wanted" | wc -l)" ] || complain "$*: not each has a place: $(cat found/out)"
}

# moves WANTED ARGUMENT..: the lines of moves end so, in this order.
moves() {
    wanted=$1
    shift
    "$program" "$@" > found/out 2> found/err || complain "$*: $(cat found/err)"
    count=$((count + 1))
    [ "$(sed -n 's/^-[0-9]* .*; \([a-z0-9 :]*; in .*\)$/\1/p' found/out)" = "$wanted" ] || complain "$*: $(cat found/out)"
}

# held OBJECT OPTION..: each branch of a run, each step, each count, and each move of an answer, has the place that `lines` tells of its slot, or none where that tells none; a step none
# that is told of the step before, either.
held() {
    object=$1
    shift
    "$program" lines --object "$@" "$object" > rows 2> found/err || complain "lines of $object: $(cat found/err)"
    "$program" trace --branches --object --steps 20000 -m context "$@" "$object" > found/out 2> found/err
    count=$((count + 1))
    awk 'NR == FNR { slot = $1; name[slot] = $NF; sub(/^[0-9]* /, ""); sub(/ [^ ]*$/, ""); sub(/.*\//, ""); line[slot] = $0; next }
        !/^[0-9]+ [0-9]+: j/ { next }
        { slot = $2; sub(/:/, "", slot); wanted = line[slot] == "-" ? "" : "; in " name[slot] " (" line[slot] ")" }
        wanted == "" && /; in / || wanted != "" && substr($0, length - length(wanted) + 1) != wanted { print; exit 1 }' rows found/out > found/wrong \
        || complain "a place of $object $*: $(cat found/wrong)"
    branches=$(grep -c '^[0-9]* [0-9]*: j' found/out)
    for form in '' --profile; do
        # (a word)
        # shellcheck disable=SC2086
        "$program" trace $form --object --steps 2000 -m context "$@" "$object" > found/out 2> found/err
        count=$((count + 1))
        awk -v each="$form" 'NR == FNR { slot = $1; name[slot] = $NF; sub(/^[0-9]* /, ""); sub(/ [^ ]*$/, ""); sub(/.*\//, ""); line[slot] = $0; next }
            !/^[0-9]+ [0-9]+: / { next }
            { slot = $2; sub(/:/, "", slot); here = !(slot in line) || line[slot] == "-" ? "" : "; in " name[slot] " (" line[slot] ")"
                wanted = each == "" && here == before ? "" : here; before = here }
            wanted == "" && /; in / || wanted != "" && substr($0, length - length(wanted) + 1) != wanted { print; exit 1 }' rows found/out > found/wrong \
            || complain "a place of trace $form of $object $*: $(cat found/wrong)"
    done
    for asked in 'trace --count 1' 'trace --profile' 'origin --lines 1'; do
        # (words without blanks)
        # shellcheck disable=SC2086
        "$program" $asked --object --steps 2000 -m context "$@" "$object" > found/out 2> found/err
        count=$((count + 1))
        awk 'NR == FNR { slot = $1; name[slot] = $NF; sub(/^[0-9]* /, ""); sub(/ [^ ]*$/, ""); sub(/.*\//, ""); line[slot] = $0; next }
            !/^(at|exited|fault|step limit) / || !match($0, /at [0-9]+/) { next }
            { slot = substr($0, RSTART + 3, RLENGTH - 3); wanted = !(slot in line) || line[slot] == "-" ? "" : "; in " name[slot] " (" line[slot] ")"; told = 1 }
            wanted == "" && /; in / || wanted != "" && substr($0, length - length(wanted) + 1) != wanted { print; exit 1 }
            END { if (!told) print "nothing" }' rows found/out > found/wrong && [ ! -s found/wrong ] || complain "where $object $* stands, $asked: $(cat found/wrong)"
    done
    "$program" origin --addresses --branches --lines 200 --object --steps 20000 -m context "$@" "$object" > found/out 2> found/err
    count=$((count + 1))
    awk 'NR == FNR { slot = $1; name[slot] = $NF; sub(/^[0-9]* /, ""); sub(/ [^ ]*$/, ""); sub(/.*\//, ""); line[slot] = $0; next }
        !/^-[0-9]+ / { next }
        { match($0, /[ ;] ?[0-9]+: /); slot = substr($0, RSTART, RLENGTH); gsub(/[ ;:]/, "", slot)
            wanted = !(slot in line) || line[slot] == "-" ? "" : "; in " name[slot] " (" line[slot] ")" }
        wanted == "" && / \(.*:[0-9]*\)$/ || wanted != "" && substr($0, length - length(wanted) + 1) != wanted { print; exit 1 }' rows found/out > found/wrong \
        || complain "a move of $object $*: $(cat found/wrong)"
}

# 48 is above 33, and 77 is the second byte; 32 isn't above 33.
printf '0M\007\010\011' > context
printf ' M\007\010\011' > low
printf '0N\007\010\011' > other
find_compilers 'places of branches in C'
for compiler in $compilers; do
    for level in 1 2; do
        "$compiler" -g -O$level -target bpf -c "$parts/places/branches.c" -o branches.o 2> found/err || complain "$compiler: branches.c: $(cat found/err)"
        in_entry='in entry (branches.c:14)' in_kind='in kind (branches.c:7)'
        stands "$in_entry
$in_kind" trace --branches --object --entry entry -m context branches.o
        stands "$in_entry" trace --branches --object --entry entry -m low branches.o
        stands "$in_kind" trace --branches --object --entry kind -m other branches.o
        # The newest first: the branch of the function that made the value, and that of its caller.
        stands "$in_kind
$in_entry" origin --branches --object --entry entry -m context branches.o
        stands "$in_kind" whynot --alone --object --entry entry -m context branches.o branches.c:9
        stands "$in_kind" whynot --alone --object --entry entry -m other branches.o branches.c:8
        stands "$in_entry" whynot --alone --object --entry entry -m context branches.o branches.c:16
        stands "$in_entry" whynot --alone --object --entry entry -m low branches.o kind

        # Of programs in turn: the second one has its bytes from the second on.
        stands "$in_entry
$in_kind
$in_kind" trace --branches --object --entry entry --entry kind@1 -m context branches.o

        # So do other moves: 3 times the third byte, 7, and the branch by the second one, which whynot explains.
        moves "from r0; in kind (branches.c:8)
from 0x100000002:1; in kind (branches.c:8)" origin --object --entry entry -m context branches.o
        moves "went on; $in_kind
from 0x100000001:1; $in_kind" whynot --object --entry entry -m context branches.o branches.c:9
        count=$((count + 1))
        "$program" origin --json --object --entry entry -m context branches.o > found/out
        [ "$(grep -c '"from":\["[a-z0-9:]*"\],"function":"kind","file":"branches.c","line":8,"parts":\[' found/out)" = 2 ] || complain "origin as JSON: $(cat found/out)"

        # The steps of a trace have them where they change: in this order, the first one from the first line on that is shown.
        lines="$("$program" trace --object --entry entry -m context branches.o | sed -n 's/^[0-9]* .*; \(in .*\)$/\1/p')"
        count=$((count + 2))
        [ "$(echo "$lines" | uniq)" = "$lines" ] && [ "$(echo "$lines" | grep -x -e "$in_entry" -e "$in_kind" -e 'in kind (branches.c:8)' | uniq)" = "$in_entry
$in_kind
in kind (branches.c:8)" ] || complain "places of steps: $lines"
        "$program" trace --from 2 --count 1 --object --entry entry -m context branches.o > found/out
        head -n 1 found/out | grep -q '^2 [0-9]*: .*; in entry (branches.c:1[2-6])$' || complain "the first step that is shown: $(cat found/out)"
        # So does `diff`, of the lines of steps and of moves, of each run by its own object; and a trace is the same with places and without.
        "$program" diff --object --entry entry -m context --other-mem other branches.o > found/out 2> found/err
        count=$((count + 3))
        [ "$(grep -c '^[<>] [0-9]* [0-9]*: .*; in kind (branches.c:[789])$' found/out)" = 4 ] || complain "where two runs part: $(cat found/out found/err)"
        [ "$(grep -c '^[<>] -[0-9]* .*; in kind (branches.c:7)$' found/out)" = 2 ] || complain "where both values came from: $(cat found/out)"
        sed '1i // a line more' "$parts/places/branches.c" > moved.c
        sed 's/\* 3/* 5/' moved.c > other.c
        "$compiler" -g -O$level -target bpf -c other.c -o other.o 2> found/err || complain "$compiler: other.c: $(cat found/err)"
        "$program" diff --entry entry -m context branches.o other.o > found/out 2> found/err
        count=$((count + 1))
        { grep -q '^< [0-9]* [0-9]*: .*; in kind (branches.c:8)$' found/out && grep -q '^> [0-9]* [0-9]*: .*; in kind (other.c:9)$' found/out \
            && grep -q '^< -1 .*; in kind (branches.c:8)$' found/out && grep -q '^> -1 .*; in kind (other.c:9)$' found/out; } \
            || complain "two objects: $(cat found/out found/err)"
        "$program" trace --object --entry entry -m context branches.o > there
        sed 's/; in .*//' there > bare-there
        for trace in there bare-there; do
            count=$((count + 1))
            "$program" diff --object --entry entry -m context --trace $trace branches.o > found/out 2> found/err
            head -n 1 found/out | grep -q '^same for [0-9]* steps$' || complain "a run along its own trace, $trace: $(cat found/out found/err)"
        done
        # Other lines have none: of what is left, and of an edit.
        count=$((count + 2))
        "$program" origin --object --entry entry -m context branches.o | grep '^left ' | grep '; in ' && complain 'what is left has a place'
        end=$("$program" lines --object --entry entry branches.o | sed -n '$s/ .*//p')
        echo "set pc $end" > path
        "$program" whynot --object --entry entry --script path branches.o kind > found/out 2> found/err
        [ "$(tail -n 1 found/out)" = "-1 edit; then at $end" ] || complain "an edit: $(cat found/out found/err)"

        # As members of JSON, in the order of the line.
        "$program" trace --json --branches --object --entry entry -m context branches.o > found/out
        count=$((count + 1))
        [ "$(grep -c '"way":"[a-z ]*","function":"[a-z]*","file":"branches.c","line":[0-9]*,"parts":\[' found/out)" = 2 ] || complain "as JSON: $(cat found/out)"
        "$program" trace --json --profile --object --entry entry -m context branches.o > found/out
        count=$((count + 1))
        # (the jump to the entry is no line's)
        [ "$(grep '"kind":"ran"' found/out | sed 1d | grep -c -v '^{"kind":"ran","count":[0-9]*,"slot":[0-9]*,"insn":"[^;]*","function":"[a-z]*","file":"branches.c","line":[0-9]*,"parts":\[\]}$')" = 0 ] \
            || complain "a profile as JSON: $(cat found/out)"
        "$program" trace --json --object --entry entry -m context branches.o > found/out
        count=$((count + 1))
        grep -q '^{"kind":"step","step":2,"slot":[0-9]*,"insn":"[^;]*","function":"entry","file":"branches.c","line":1[2-6],"parts":\[' found/out || complain "a step as JSON: $(cat found/out)"
        "$program" whynot --json --alone --object --entry entry -m context branches.o branches.c:9 > found/out
        count=$((count + 1))
        grep -q '"function":"kind","file":"branches.c","line":7,"parts":\[' found/out || complain "whynot as JSON: $(cat found/out)"
    done

    # Without -g the lines are those of the words.
    "$compiler" -O2 -target bpf -c "$parts/places/branches.c" -o plain.o 2> found/err
    "$program" link --entry entry plain.o > words
    for asked in 'trace --branches' origin 'origin --branches'; do
        # (words without blanks)
        # shellcheck disable=SC2086
        tells 0 "$("$program" $asked -m context words)\n" $asked --object --entry entry -m context plain.o
    done

    # Lines that can't be read are left out, and that is said once; they are refused where they are asked about.
    if has python3 'places of damaged objects'; then
        python3 - branches.o broken.o << 'EOF'
import struct, sys
file = bytearray(open(sys.argv[1], 'rb').read())
headers, size, count, names = struct.unpack_from('<Q', file, 40)[0], *struct.unpack_from('<3H', file, 58)
sections = [struct.unpack_from('<2I4Q', file, headers + i * size) for i in range(count)]
name = lambda section: bytes(file[sections[names][4] + section[0]:]).split(b'\0')[0]
at = next(section[4] for section in sections if name(section) == b'.BTF.ext')
struct.pack_into('<I', file, at + 20, 1 << 30)
open(sys.argv[2], 'wb').write(file)
EOF
        "$program" lines --object --entry entry broken.o > found/out 2> wanted-line
        grep -q '^refused E53' wanted-line || complain "broken.o: $(cat wanted-line)"
        refused "$(cat wanted-line)" whynot --object --entry entry -m context broken.o branches.c:9
        refused "$(cat wanted-line)" load --entry entry broken.o
        for asked in trace 'trace --branches' 'trace --profile' 'trace --json' origin 'origin --branches' whynot 'diff --other-mem other' gdb run debug; do
            # (words without blanks)
            # shellcheck disable=SC2086
            "$program" $asked --object --entry entry -m context branches.o $([ "$asked" != whynot ] || echo 1) < /dev/null > wanted/out 2> wanted/err
            echo $? > wanted/status
            sed -i 's/; in [a-z]* (branches.c:[0-9]*)$//; s/,"function":"[a-z]*","file":"branches.c","line":[0-9]*//' wanted/out
            case $asked in debug) ;; *) echo "lines of C can't be read, and are left out: bpfdb lines says why" > wanted/err ;; esac
            : > script
            # shellcheck disable=SC2086
            run $asked --object --entry entry -m context broken.o $([ "$asked" != whynot ] || echo 1)
            compare "bpfdb $asked broken.o"
        done
    fi

    # Of other objects, by what `lines` tells: of one section, of programs in turn, and of a program that another object is joined to.
    printf '\003\0\0\0\0\0\0\0\005\0\0\0\0\0\0\0' > context
    held branches.o --entry entry
    held branches.o --entry entry --entry kind@1
    all=0
    for source in "$parts"/c/*.c; do
        "$compiler" -g -O2 -target bpf -c "$source" -o one.o 2> found/err || continue
        section=prog
        case $source in */line.c) section=filter ;; esac
        held one.o --section $section
        all=$((all + branches))
    done
    [ $all -gt 100 ] || complain "branches of tests/program/c: $all"
    for name in program functions; do
        "$compiler" -g -O2 -target bpf -c "$parts/join/$name.c" -o $name.o 2> found/err || complain "$compiler: $name.c: $(cat found/err)"
    done
    for section in time text trace cells; do
        "$program" link -r --section $section --with functions.o program.o > joined.o 2> found/err || complain "$section: $(cat found/err)"
        held joined.o --section $section
    done
    printf '0M\007\010\011' > context
done
