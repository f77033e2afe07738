# Sections of tests that name files (docs/TESTS.md): objects with what is asked of their link, bytes of the context, packets of a capture. Verdicts
# follow from the sources (tests/program/named/) and from the packets' bytes; files of tests at random are held against a reader of another form
# (tests/trials/named.py), which puts words, maps and bytes in place by hand.

# tests STATUS WANTED CONTENT [ARGUMENT..]: the report on a file of this content.
tests() {
    status=$1 output=$2 content=$3
    shift 3
    printf -- "$content" > folder/t.test
    row "bpfdb test: $content" "$status" '' "$output" '' test "$@" folder/t.test
}

# fails LINE CONTENT [ARGUMENT..]: a file of this content is refused so.
fails() {
    wanted=$1 content=$2
    shift 2
    printf -- "$content" > folder/t.test
    row "bpfdb test: $content" 2 '' '' "$wanted\n" test "$@" folder/t.test
}

mkdir folder folder/below
cp "$top/examples/xdp/packets.pcap" folder/
printf 'abc' > folder/below/abc
printf 'def' > outside
: > folder/empty
printf 'ab' > 'folder/two words'

# The bytes of a file; r2 is their number, and r0 is 0.
tests 0 '1..1\nok 1\n' '-- words\n9500000000000000\n-- mem-file below/abc\n-- result\n0\n-- mem-after\n616263\n'
tests 0 '1..1\nok 1\n' '-- mem-file   two words \r\n\r\n-- listing\nmov r0, r2\nexit\n-- result\n2\n'
tests 0 '1..1\nok 1\n' '-- mem-file empty\n-- listing\nmov r0, r2\nexit\n-- result\n0\n'
tests 0 '1..1\nok 1\n' '-- mem-file ./below/./abc\n-- listing\nmov r0, r2\nexit\n-- result\n3\n'
# (it is shared as `-- mem` is, and a test's own one takes precedence; lines are those of the file)
tests 1 "1..3\nok 1 - a\nok 2 - b\nnot ok 3 - c\n# the test in line 14\n# came: exited at 1: r0 0x2\n# wanted: result 9\n# debug: bpfdb-show 'c' 'folder/t.test'\n" \
    '-- listing\nmov r0, r2\nexit\n-- mem-file below/abc\n-- name\na\n-- result\n3\n-- name\nb\n-- mem-file empty\n-- result\n0\n-- name\nc\n-- mem-file two words\n\n-- result\n9\n'

# A packet of a capture: 54 bytes of TCP to port 23, of TCP to port 80, and 42 of UDP (docs/CONTEXTS.md).
port='ldxb r0, [r1+37]\nexit\n'
tests 0 '1..3\nok 1 - 1\nok 2 - 2\nok 3 - 3\n' "-- listing\n$port-- name\n1\n-- packet packets.pcap 1\n-- result\n23\n-- name\n2\n-- packet packets.pcap 2\n-- result\n80\n-- name\n3\n-- packet packets.pcap 0x3\n-- result\n53\n"
# The same in the other order of bytes, with nanoseconds, and cut off in its last packet.
python3 - folder << 'END'
import struct, sys
raw = open(sys.argv[1] + '/packets.pcap', 'rb').read()
packets, at = [], 24
while at < len(raw):
    size = struct.unpack_from('<I', raw, at + 8)[0]
    packets.append(raw[at + 16:at + 16 + size])
    at += 16 + size
for name, order, magic in ('big', '>', 0xa1b2c3d4), ('nano', '<', 0xa1b23c4d), ('bignano', '>', 0xa1b23c4d):
    with open(f'{sys.argv[1]}/{name}.pcap', 'wb') as file:
        file.write(struct.pack(order + 'IHHIIII', magic, 2, 4, 0, 0, 65535, 1))
        for packet in packets:
            file.write(struct.pack(order + 'IIII', 1, 2, len(packet), len(packet) + 7) + packet)
open(sys.argv[1] + '/cut.pcap', 'wb').write(raw[:-1])
open(sys.argv[1] + '/none.pcap', 'wb').write(raw[:24])
open(sys.argv[1] + '/short.pcap', 'wb').write(raw[:23])
open(sys.argv[1] + '/ng.pcap', 'wb').write(bytes.fromhex('0a0d0d0a') + raw)
END
for capture in big nano bignano; do
    tests 0 '1..1\nok 1\n' "-- listing\n$port-- packet $capture.pcap 3\n-- result\n53\n"
    fails 'refused T12 at line 1: no such packet, or no capture in pcap'"'"'s own format' "-- packet $capture.pcap 4\n-- listing\nexit\n-- result\n0\n"
done
tests 0 '1..1\nok 1\n' "-- listing\n$port-- packet cut.pcap 2\n-- result\n80\n"
for packet in 'cut.pcap 3' 'none.pcap 1' 'short.pcap 1' 'ng.pcap 1' 'packets.pcap 0' 'packets.pcap 4' 'packets.pcap 18446744073709551615' 'empty 1' 'below/abc 1'; do
    fails 'refused T12 at line 3: no such packet, or no capture in pcap'"'"'s own format' "-- listing\nexit\n-- packet $packet\n-- result\n0\n"
done

# What is malformed, or not there.
for piece in '-- mem-file' '-- mem-file \n' '-- mem-file empty\n00\n' '-- mem-file empty\n-- section x\n' '-- packet packets.pcap\n' '-- packet packets.pcap x\n' '-- packet packets.pcap -1\n' \
    '-- packet packets.pcap 18446744073709551616\n' '-- packet\n' '-- packet packets.pcap 1\n#\n' '-- object\n' '-- object \t\n-- entry x\n' '-- object empty\nentry x\n' '-- object empty\n#\n' \
    '-- object empty\n-- section x\n-- section x\n' '-- object empty\n-- section x\n-- stub 5=1\n-- section y\n' '-- object empty\n-- as-compiled\n-- as-compiled\n' '-- object empty\n-- struct\n' \
    '-- object empty\n-- struct xdp_md\n' '-- object empty\n-- with\n' "-- object empty\n$(printf -- '-- with empty\\n%.0s' 1 2 3 4 5 6 7 8 9 10 11 12 13 14 15 16 17)" \
    "-- object empty\n$(printf -- '-- entry x\\n%.0s' 1 2 3 4 5 6 7 8 9 10 11 12 13 14 15 16 17)" \
    '-- object empty\n-- entry x@65536\n' '-- object empty\n-- entry x@\n' '-- object empty\n-- entry x\n-- entry y@-1\n' \
    '-- object empty\n-- entry \377\n' '-- object empty\n-- stub \377\n'; do
    fails 'refused T9 at line 4: malformed section of a file' "# \n-- result\n0\n$piece"
done
# (a file that is there, but outside of the folder, isn't read without --anywhere; and a name that leads out of it nowhere)
for name in ../outside "$PWD/outside" below/../../outside below/.. .. /; do
    fails 'refused T10 at line 1: file outside of the folder of the tests' "-- mem-file $name\n-- listing\nexit\n-- result\n0\n"
done
fails 'refused T10 at line 1: file outside of the folder of the tests' '-- object empty\n-- with ../outside\n-- result\n0\n'
# (objects that are joined are looked at first, each by itself)
fails 'refused T10 at line 1: file outside of the folder of the tests' '-- object\n-- with ../outside\n-- result\n0\n'
fails "refused T11 at line 1: file can't be read" '-- object ../outside\n-- with missing\n-- result\n0\n'
fails 'refused T10 at line 1: file outside of the folder of the tests' '-- object ../outside\n-- with empty\n-- result\n0\n'
for name in ../outside "$PWD/outside" below/../../outside; do
    tests 0 '1..1\nok 1\n' "-- mem-file $name\n-- listing\nldxb r0, [r1+0]\nexit\n-- result\n100\n" --anywhere
done
tests 0 '1..1\nok 1\n' '-- mem-file below/abc\n-- listing\nldxb r0, [r1+0]\nexit\n-- result\n97\n' --anywhere
for name in missing below/missing empty/abc below ..x; do
    fails "refused T11 at line 1: file can't be read" "-- mem-file $name\n-- listing\nexit\n-- result\n0\n"
done
fails "refused T11 at line 1: file can't be read" '-- mem-file \377\n-- listing\nexit\n-- result\n0\n'
# (the first section with a fault, of those that name files; these come before all others)
fails "refused T11 at line 3: file can't be read" '-- steps\nx\n-- mem-file missing\n-- packet\n'
fails 'refused T4 at line 3: malformed section' '-- mem-file below/abc\n\n-- steps\nx\n'
fails 'refused T3 at line 2: section given twice' '-- mem-file below/abc\n-- mem\n-- listing\nexit\n-- result\n0\n'
fails 'refused T2 at line 1: unknown section' '-- entry x\n-- listing\nexit\n-- result\n0\n'
fails 'refused T2 at line 3: unknown section' '-- result\n0\n-- stub 5=1\n-- listing\nexit\n'
fails 'refused T2 at line 1: unknown section' '-- objects empty\n'
fails 'refused E1: no ELF file (the object in line 1)' '-- object empty\n-- result\n0\n'
fails 'refused E1: no ELF file (the object in line 1)' "-- object empty\n$(printf -- '-- entry x\\n%.0s' 1 2 3 4 5 6 7 8 9 10 11 12 13 14 15 16)-- result\n0\n"
fails 'refused E32: malformed list of stubs (the object in line 2)' '\n-- object empty\n-- stub 5\n-- result\n0\n'
# (the other subcommands read no such names, and neither does a word of an option)
usage "unexpected argument '--anywhere' found" run --anywhere folder/empty

find_compilers 'sections of tests that name objects'
for compiler in $compilers; do
    for name in program mock other; do
        "$compiler" -g -O2 -target bpf -c "$parts/named/$name.c" -o folder/$name.o 2> found/err || complain "$compiler: $name.c: $(cat found/err)"
    done
    # The first byte; 100 and the number of bytes; a count in a map, of which the cell is one more; the time, answered by a constant or by another object.
    tests 0 '1..2\nok 1 - a\nok 2 - b\n' '-- object program.o\n-- section first\n-- name\na\n-- mem\n2a\n-- result\n42\n-- name\nb\n-- mem\n2b\n-- result\n43\n'
    tests 0 '1..1\nok 1\n' '-- object program.o\n--section two\n--entry second\n-- result\n2\n'
    tests 0 '1..1\nok 1\n' '-- object program.o\n-- entry first_of_two\n-- section two\n-- result\n1\n'
    tests 0 '1..1\nok 1\n' '-- object program.o\n-- section count\n-- cells\n0 0 0000000029000000\n-- result\n42\n-- map-after\n0 0 000000002a000000\n'
    tests 0 '1..1\nok 1\n' '-- object program.o\n-- section time\n-- stub ktime_get_ns=7\n-- result\n7\n'
    tests 0 '1..1\nok 1\n' '-- object program.o\n-- section time\n-- with mock.o\n-- result\n1000\n'
    # (sixteen objects are joined, the most, and the last of them answers the helper)
    tests 0 '1..1\nok 1\n' "-- object program.o\n-- section time\n$(printf -- '-- with other.o\\n%.0s' 1 2 3 4 5 6 7 8 9 10 11 12 13 14 15)-- with mock.o\n-- result\n1000\n"
    # Programs in turn of turns/pair.c over the numbers 3 and 5 of 8 bytes each: 2 * 3 + 100 * 3 + 10000 * 16, and over the second of them alone
    # 2 * 3 + 100 * 5 + 10000 * 8; 41, 42 and 43, whatever their context; and the time, which is 1000 or 7, once more than a hundred times.
    "$compiler" -g -O2 -target bpf -c "$parts/turns/pair.c" -o folder/pair.o 2> found/err || complain "$compiler: pair.c: $(cat found/err)"
    numbers='-- mem\n0300000000000000 0500000000000000\n'
    tests 0 '1..1\nok 1\n' "-- object pair.o\n-- entry store\n-- entry take\n$numbers-- result\n160306\n"
    tests 0 '1..1\nok 1\n' "-- object pair.o\n-- entry  store \n\n--entry take@8\r\n$numbers-- result\n80506\n"
    tests 0 '1..1\nok 1\n' "-- object pair.o\n-- entry take@0x8\n$numbers-- result\n80500\n"
    tests 0 '1..2\nok 1 - a\nok 2 - b\n' "-- object pair.o\n-- entry count\n-- entry count@16\n-- entry count\n$numbers-- name\na\n-- result\n43\n-- name\nb\n-- object pair.o\n-- entry count@0\n-- result\n41\n"
    tests 0 '1..1\nok 1\n' '-- object pair.o\n-- with mock.o\n-- entry begin\n-- entry end\n-- result\n101000\n'
    tests 0 '1..1\nok 1\n' '-- object pair.o\n-- entry begin\n-- stub 5=7\n-- entry end\n-- result\n707\n'
    fails 'refused E31: no such function in the code section: none (the object in line 1)' '-- object pair.o\n-- entry store\n-- entry none@8\n-- result\n0\n'
    fails 'refused E8: no such code section: .text, prog/one, prog/two, prog/three, prog/timed, prog/timed too, prog/field, prog/fields (the object in line 3)' '-- result\n0\n-- object pair.o\n-- section none\n-- entry store\n-- entry take\n'
    # Their lines are those that `lines` tells of the same program.
    "$program" link --entry store --entry take folder/pair.o > words 2> told || complain "$compiler: link of programs in turn: $(cat told)"
    {
        printf -- '-- words\n'
        od -An -v -tx1 words
        printf -- '-- maps\n%s\n-- lines\n' "$(sed -n 's/^--maps //p' told)"
        "$program" lines --object --entry store --entry take folder/pair.o
        printf -- '-- mem\n0300000000000000 0500000000000000\n-- result\n160306\n'
    } > folder/lines.test
    printf -- "-- object pair.o\n-- entry store\n-- entry take\n$numbers-- result\n160306\n" > folder/t.test
    "$program" test --cover-info folder/lines.test > found/wanted 2> found/err || complain "$compiler: lines of programs in turn: $(cat found/err)"
    "$program" test --cover-info folder/t.test > found/out 2> found/err || complain "$compiler: lines of programs in turn: $(cat found/err)"
    count=$((count + 1))
    { grep -q '^DA:[0-9]*,1$' found/out && cmp -s found/wanted found/out; } || complain "$compiler: lines of programs in turn: $(cat found/out)"
    # A test for each program of an object; behind each its own faults, in its own line.
    tests 1 "1..3\nok 1 - a\nnot ok 2 - b\n# the test in line 7\n# came: exited at 1: r0 0x1\n# wanted: result 9\n# debug: bpfdb-show 'b' 'folder/t.test'\nok 3 - c\n" \
        '-- name\na\n-- object program.o\n-- section count\n-- result\n1\n-- name\nb\n-- object program.o\n-- section two\n-- entry first_of_two\n-- result\n9\n-- name\nc\n-- object program.o\n-- section two\n-- entry second\n\n-- result\n2\n'
    fails 'refused E8: no such code section: first, two, count, time (the object in line 3)' '-- result\n0\n-- object program.o\n-- section nope\n'
    fails 'refused E30: more than one program in the code section: --entry NAME chooses one: first_of_two, second (the object in line 1)' '-- object program.o\n-- section two\n-- result\n0\n'
    fails 'refused E1: no ELF file (object 2 with the one in line 1)' '-- object program.o\n-- section time\n-- with mock.o\n-- with empty\n-- result\n0\n'
    fails 'refused T3 at line 3: section given twice' '-- object program.o\n-- section count\n-- maps\n4x2\n-- result\n0\n'
    fails 'refused T3 at line 4: section given twice' '-- listing\nexit\n\n-- object program.o\n-- section first\n-- result\n0\n'
    fails 'refused T6 at line 1: test without an expectation' '-- object program.o\n-- section count'
    # What is shown of such a test is what link makes of the object.
    printf -- '-- name\nx\n-- object program.o\n-- section count\n-- mem-file below/abc\n-- result\n1\n' > folder/t.test
    "$program" link --section count folder/program.o > words 2> told
    "$program" test --show program folder/t.test > shown 2> found/err
    count=$((count + 1))
    cmp -s words shown || complain "$compiler: bpfdb test --show program of an object"
    row "$compiler: bpfdb test --show options of an object" 0 '' "$(sed -n 's/^--maps /--maps=/p' told)\n--steps=1000000\n" '' test --show options folder/t.test
    row "$compiler: bpfdb test --show context of a file" 0 '' 'abc' '' test --show context folder/t.test
    # What the page shows, of the example xdp (which needs the headers of libbpf).
    if [ -e /usr/include/bpf/bpf_helpers.h ]; then
        sed -n '/^-- object xdp.o$/,/^```/p' "$top/docs/TESTS.md" | sed '/^```/d' > folder/page.test
        "$compiler" -O2 "-I/usr/include/$(uname -m)-linux-gnu" -g -target bpf -c "$top/examples/xdp/xdp.c" -o folder/xdp.o 2> found/err || complain "$compiler: xdp.c: $(cat found/err)"
        row "$compiler: docs/TESTS.md on xdp" 0 '' '1..2\nok 1 - telnet is dropped\nok 2 - http passes, and is counted\n' '' test folder/page.test
    else
        left_out 'docs/TESTS.md on xdp' 'there are no headers of libbpf'
    fi
    python3 "$top/tests/trials/named.py" "$program" folder > found/trials 2>&1 || complain "$compiler: $(tail -n 20 found/trials)"
    count=$((count + 1))
done

# Each file is read once and each program linked once, whatever names them.
if [ -n "$compilers" ]; then
    awk 'BEGIN { for (i = 1; i <= 10000; i++) print "-- name\nx\n-- object program.o\n-- section count\n-- packet packets.pcap " i % 3 + 1 "\n-- result\n1" }' > folder/many.test
    awk 'BEGIN { print "1..10000"; for (i = 1; i <= 10000; i++) print "ok " i " - x" }' > wanted/out
    (
        ulimit -t 4
        : > script
        echo 0 > wanted/status
        : > wanted/err
        run test folder/many.test
        compare 'bpfdb test of 10,000 objects and packets'
    ) || failures=$((failures + 1))
    count=$((count + 1))
fi
# More than 64 MiB, and more than 4,096 files, are refused.
head -c 1000000 /dev/zero > folder/million
awk 'BEGIN { for (i = 1; i <= 34; i++) print "-- name\nx\n-- mem-file million\n-- listing\nexit\n-- refused\nO1" }' > folder/long.test
row 'bpfdb test of 68 MB' 2 '' '' 'refused T13 at line 234: more than 4096 files, or 67108864 bytes with them\n' test folder/long.test
mkdir folder/files
(cd folder/files && seq 4097 | xargs touch)
seq 4097 | awk '{ print "-- name\nx\n-- mem-file files/" $1 "\n-- listing\nexit\n-- result\n0" }' > folder/files.test
row 'bpfdb test of 4,097 files' 2 '' '' 'refused T13 at line 28675: more than 4096 files, or 67108864 bytes with them\n' test folder/files.test
