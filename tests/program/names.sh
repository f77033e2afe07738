# origin, whynot and diff --object: the names of places in maps (tests/program/names/). Some stand here by hand; each byte of each map of these and of other objects is held
# against another reader of symbols and BTF (tests/trials/names.py).

# held WHAT ARGUMENT..: what tests/trials/names.py holds.
held() {
    python3 "$top/tests/trials/names.py" "$program" "$@" > found/trial 2>&1 || complain "names.py $*: $(tail -n 3 found/trial)"
    grep -q ' held$' found/trial && count=$((count + $(sed -n 's/^\([0-9]*\) held$/\1/p' found/trial)))
}

# map_of NAME: the number of a map of the object that was linked last.
map_of() {
    sed -n "s/^map \([0-9]*\): $1\$/\1/p" told
}

# named MAP OFFSET NAME: the name of a byte of a map of $object, at the opening.
named() {
    address=$(printf '0x%x' $((0x300000000 + 0x100000 * $(map_of "$1") + $2)))
    "$program" origin --script empty --object "$object" "$address" > found/out 2> found/err
    count=$((count + 1))
    case $(tail -n 1 found/out) in
        "left $address:1 = "*"; at the opening; in $3") ;;
        *) complain "$1 at $2: $(cat found/out found/err), and not $3" ;;
    esac
}

: > empty
bytes four 04
bytes five 05 00
find_compilers 'origin --object'
for compiler in $compilers; do
    "$compiler" -g -O2 -target bpf -c "$parts/names/places.c" -o places.o 2> found/err || complain "$compiler: places.c: $(cat found/err)"
    object=places.o
    "$program" link places.o > words 2> told || complain "places.o: $(cat told)"
    # struct class has 80 bytes: packets at 0, flag at 8, limits (of 8 bytes each) at 12, state at 28, the union at 32, parts at 36, bits at 44, next at 48, and
    # matrix at 56.
    named classes 0 'classes[0].packets'
    named classes 240 'classes[3].packets'
    named classes 244 'classes[3].packets+4'
    named classes 248 'classes[3].flag'
    named classes 249 'classes[3].flag+1'
    named classes 252 'classes[3].limits[0].rate'
    named classes 256 'classes[3].limits[0].burst'
    named classes 260 'classes[3].limits[1].rate'
    named classes 266 'classes[3].limits[1].on'
    named classes 267 'classes[3].limits[1].on+1'
    named classes 268 'classes[3].state'
    named classes 273 'classes[3].word+1'
    named classes 276 'classes[3].parts[0].low'
    named classes 282 'classes[3].parts[1].high'
    # (bits from 0, 3 and 12 on)
    named classes 284 'classes[3].second'
    named classes 285 'classes[3].third'
    named classes 287 'classes[3].third+2'
    named classes 288 'classes[3].next'
    named classes 316 'classes[3].matrix[1][2]'
    named counters 16 'counters[2]'
    named counters 17 'counters[2]+1'
    named flows 12 'flows[1]'
    named flows 17 'flows[1]+5'
    named .data.one 12 'one.limits[0].rate'
    # What the program wrote and read: a name a line.
    "$program" origin --object places.o "$(printf '0x%x:4' $((0x300000000 + 260)))" > found/out 2> found/err
    count=$((count + 4))
    grep -q '^-[0-9]* 0x300000104:4 = 0xf; .*; from r[0-9]; in classes\[3\]\.limits\[1\]\.rate; in entry (places\.c:81)$' found/out || complain "a store: $(cat found/out found/err)"
    grep -q '^-[0-9]* r[0-9] = 0x7; .*; from 0x[0-9a-f]*:8; in seed; in entry (places\.c:81)$' found/out || complain "a load: $(cat found/out)"
    grep -q '^-[0-9]* r[0-9] = 0x5; .*; from 0x[0-9a-f]*:4; in level; in entry (places\.c:81)$' found/out || complain "a load: $(cat found/out)"
    grep -q '^-[0-9]* 0x[0-9a-f]*:8 = 0x3; .*; from r4; initial value of slow\.rate$' found/out || complain "what the setup stores: $(cat found/out)"
    # Stores of the program's own are no initial values, nor are edits; and so it is as JSON.
    count=$((count + 3))
    grep 'initial' found/out | grep -qv '; [0-9]*: stxdw \[r3+[0-9]*\], r4; from r4; initial value of [a-z]' && complain "initial values: $(cat found/out)"
    echo 'set mem 0x300000104 0f000000' > edit
    "$program" origin --script edit --object places.o 0x300000104:4 > found/out 2> found/err
    [ "$(sed -n '2p' found/out)" = '-1 0x300000104:4 = 0xf; edit; in classes[3].limits[1].rate' ] || complain "an edit: $(cat found/out found/err)"
    "$program" origin --json --object places.o "$(printf '0x%x:4' $((0x300000000 + 260)))" > found/out 2> found/err
    grep -q '^{"kind":"move",.*,"from":\["r4"\],"initial":"slow\.rate","parts":\[{"part":"0x[0-9a-f]*:8","value":"0x3"}\]}$' found/out || complain "an initial value as JSON: $(cat found/out)"
    # The shell asks with the object, and says where a line stands in C; where maps are given it has no names.
    if command -v python3 > /dev/null; then
        count=$((count + 2))
        printf 'continue\norigin 0x300000104:4\n' | BPFDB=$program python3 "$top/share/bpfdb-shell" places.o > found/out 2> found/err
        grep -q '^-[0-9]* 0x300000104:4 = 0xf; .*; in classes\[3\]\.limits\[1\]\.rate; in entry (places\.c:81)$' found/out || complain "the shell: $(cat found/out found/err)"
        # shellcheck disable=SC2046
        printf 'continue\norigin 0x300000104:4\n' | BPFDB=$program python3 "$top/share/bpfdb-shell" $(sed -n '1p' told) places.o > found/out 2> found/err
        grep -q '^-[0-9]* 0x300000104:4 = 0xf; [^;]*; from r[0-9] (places\.c:81)$' found/out || complain "the shell with maps: $(cat found/out found/err)"
    fi
    # `whynot` tells them of what a branch compared, and so does the shell, with the places of branches.
    "$compiler" -g -O2 -target bpf -c "$parts/names/branch.c" -o branch.o 2> found/err || complain "branch.c: $(cat found/err)"
    branch='^-[0-9]* [0-9]*: j[a-z]* r[0-9], 3, L[0-9]*; r[0-9] = 0x2; [a-z ]*[0-9]*; in entry (branch\.c:13)$'
    "$program" whynot --object branch.o drop > found/out 2> found/err
    count=$((count + 3))
    grep -q "$branch" found/out || complain "the branch: $(cat found/out found/err)"
    grep -q '^-[0-9]* r[0-9] = 0x2; .*; from 0x3[0-9a-f]*:8; in mode; in entry (branch\.c:13)$' found/out || complain "what it compared: $(cat found/out)"
    grep -q '^-[0-9]* 0x3[0-9a-f]*:8 = 0x2; .*; initial value of mode$' found/out || complain "what the setup gave that: $(cat found/out)"
    "$program" whynot --json --object branch.o drop > found/out 2> found/err
    count=$((count + 1))
    grep -q '^{"kind":"move",.*,"name":"mode","function":"entry","file":"branch.c","line":13,"parts":\[{"part":"r[0-9]","value":"0x2"}\]}$' found/out || complain "whynot as JSON: $(cat found/out found/err)"
    if command -v python3 > /dev/null; then
        count=$((count + 2))
        printf 'continue\nwhynot branch.c:8\n' | BPFDB=$program python3 "$top/share/bpfdb-shell" branch.o > found/out 2> found/err
        grep -q "$branch" found/out || complain "the branch in the shell: $(cat found/out found/err)"
        grep -q '; in mode; in entry (branch\.c:13)$' found/out || complain "what it compared, in the shell: $(cat found/out)"
    fi
    # So does `diff`, of the values in which two runs differ, of each run; without BTF by symbols. BTF that `link` refuses is refused as by `origin`.
    "$compiler" -g -O2 -target bpf -c "$parts/names/parted.c" -o parted.o 2> found/err || complain "parted.c: $(cat found/err)"
    "$program" diff --object -m four --other-mem five parted.o > found/out 2> found/err
    count=$((count + 4))
    grep -q '^< -1 0x300000018:8 = 0x1; [0-9]*: stxdw .*; from r[0-9]; in totals\[1\]\.length; in entry (parted\.c:9)$' found/out || complain "what a run gave a variable: $(cat found/out found/err)"
    grep -q '^> -1 0x300000018:8 = 0x2; [0-9]*: stxdw .*; from r[0-9]; in totals\[1\]\.length; in entry (parted\.c:9)$' found/out || complain "what the other run gave it: $(cat found/out)"
    "$program" diff --writes --object -m four --other-mem five parted.o > found/out 2> found/err
    grep -q '^< -1 0x300000000:8 = 0x4; [0-9]*: stxdw .*; from r[0-9]; in totals\[0\]\.first; in entry (parted\.c:10)$' found/out || complain "what a run left: $(cat found/out found/err)"
    grep -q '^> -1 0x300000000:8 = 0x5; [0-9]*: stxdw .*; from r[0-9]; in totals\[0\]\.first; in entry (parted\.c:10)$' found/out || complain "what the other run left: $(cat found/out)"
    "$program" diff --json --object -m four --other-mem five parted.o > found/out 2> found/err
    count=$((count + 1))
    grep -q '^{"kind":"move","side":"<","moves":1,.*,"name":"totals\[1\]\.length","function":"entry","file":"parted.c","line":9,"parts":\[{"part":"0x300000018:8","value":"0x1"}\]}$' found/out || complain "a name of a run as JSON: $(cat found/out found/err)"
    "$compiler" -O2 -target bpf -c "$parts/names/parted.c" -o parted-plain.o 2> found/err || complain "parted.c: $(cat found/err)"
    "$program" diff --object -m four --other-mem five parted-plain.o > found/out 2> found/err
    count=$((count + 1))
    [ "$(grep -c '^[<>] -1 0x300000018:8 = 0x[12]; [0-9]*: stxdw .*; from r[0-9]; in totals+24$' found/out)" = 2 ] || complain "names by symbols: $(cat found/out found/err)"
    if has python3 'names in an object that is damaged'; then
        python3 - parted.o damaged.o << 'EOF'
import struct, sys
file = bytearray(open(sys.argv[1], 'rb').read())
headers, size, count, names = struct.unpack_from('<Q', file, 40)[0], *struct.unpack_from('<3H', file, 58)
sections = [struct.unpack_from('<2I4Q', file, headers + i * size) for i in range(count)]
name = lambda section: bytes(file[sections[names][4] + section[0]:]).split(b'\0')[0]
at = next(section[4] for section in sections if name(section) == b'.BTF')
file[at + 2] = 2
open(sys.argv[2], 'wb').write(file)
EOF
        "$program" origin --object damaged.o > found/out 2> refusal
        [ "$(cat refusal)" = 'refused E41: BTF of another version than 1' ] || complain "damaged.o: $(cat refusal)"
        refused "$(cat refusal)" diff --object -m four --other-mem five damaged.o
        refused "$(cat refusal)" diff --alone --object -m four --other-mem five damaged.o
    fi
    # Limits, by hand from limits.c: among 1,024 members one is looked for, and among 1,025 none. A name that stands for a type is one of the 32 types that are
    # gone through, and so is the struct at their end: so behind 31 names its field is told, and behind 32 only how far the byte lies in it. The maps have the
    # numbers 0 to 8, and the sections behind them 9 and 10.
    "$compiler" -g -O2 -target bpf -c "$parts/names/limits.c" -o limits.o 2> found/err || complain "$compiler: limits.c: $(cat found/err)"
    object=limits.o
    "$program" link limits.o > words 2> told || complain "limits.o: $(cat told)"
    count=$((count + 1))
    [ "$(map_of plain_9) $(map_of .data.wide_1025)" = '8 10' ] || complain "maps of limits.o: $(cat told)"
    # (their numbers to the base 4: 5 is 011, and 1,000 is 33220)
    named wide_65 5 'wide_65[0].m011'
    named wide_65 64 'wide_65[0].last'
    named .data.wide_1024 1000 'wide_1024.m33220'
    named .data.wide_1024 1023 'wide_1024.m33333'
    named .data.wide_1025 0 'wide_1025'
    named .data.wide_1025 1024 'wide_1025+1024'
    named deep_9 4 'deep_9[0].second'
    named deep_31 4 'deep_31[0].second'
    named deep_32 4 'deep_32[0]+4'
    named plain_7 1 'plain_7[0]+1'
    named plain_8 1 'plain_8[0]+1'
    named plain_9 4 'plain_9[0].second'
    # As JSON a name is a member.
    "$program" origin --json --script empty --object places.o "$(printf '0x%x' $((0x300000000 + 260)))" > found/out 2> found/err
    count=$((count + 1))
    [ "$(tail -n 1 found/out)" = '{"kind":"left","since":"opening","name":"classes[3].limits[1].rate","parts":[{"part":"0x300000104:1","value":"0x0"}]}' ] ||
        complain "a name as JSON: $(cat found/out found/err)"
    # Without BTF the names are those of symbols, and without an object there are none.
    "$compiler" -O2 -target bpf -c "$parts/c/table.c" -o plain.o 2> found/err || complain "table.c: $(cat found/err)"
    held whole plain.o
    # shellcheck disable=SC2046
    "$program" origin --script empty $(sed -n '1p' told) words 0x300000000 > found/out 2> found/err
    count=$((count + 1))
    [ "$(tail -n 1 found/out)" = 'left 0x300000000:1 = 0x0; at the opening' ] || complain "raw words: $(cat found/out found/err)"
    has python3 'names of places in maps' || continue
    held whole places.o
    held turned places.o 7
    held whole limits.o
done
