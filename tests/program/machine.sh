# What each instruction, helper, call and edit does, row by row of the tables in tables/: the program is asked in sessions, a table in
# one, for what a step or an edit leaves, what its entry weighs, and whether going back gives the state before it. No expected value
# is the program's own: they were worked out from RFC 9669, docs/MACHINE.md and docs/JOURNAL.md.
tables=$parts/tables
library=$(cat "$parts/machine/plan.awk")
bytes eight f1 f2 f3 f4 f5 f6 f7 f8
bytes counted 01 02 03 04 05 06 07 08
bytes keys 01 00 00 00 02 00 00 00 ff ff ff ff 00 00 00 00

# rows TABLE COUNT: the rows of a table, of which there are so many, into the file `rows`.
rows() {
    table=$1
    grep -v '^#' "$tables/$table.txt" > rows
    count=$((count + $2))
    [ "$(wc -l < rows)" -eq "$2" ] || complain "$table: not $2 rows"
}

# play PLAN OPTION..: plays the rows of the file `rows` in one session: PLAN, in awk with machine/plan.awk, makes its program and its commands.
play() {
    plan=$1
    shift
    rm -f slots
    awk -v tables="$tables" "$library
$plan" rows > plan || complain "$table: awk"
    bytes program $(cat slots)
    cut -f 1 plan > script
    cut -f 3 plan | sort -u > asked
    ! grep -v -x -F -f asked rows || complain "$table: these rows aren't asked"
    "$program" debug "$@" program < script > replies 2> errors
    [ $? -eq 0 ] && [ ! -s errors ] || complain "$table: the session ended with: $(cat errors)"
    awk -v table="$table" -f "$parts/machine/judge.awk" plan > told || complain "$table: awk"
    cat told
    failures=$((failures + $(grep -c '^FAILED: ' told)))
}

# Arithmetic: a step of a word on r0 and r1.
arithmetic='
function result(word, a, b, expected,  slot) {
    slot = place(word " " EXIT " " EXIT)
    put(0, a)
    put(1, b)
    start(slot)
    take("running " slot + 1, weight("register"))
    r[0] = expected
    shown()
    back()
    clear()
}
{ split($2, w, " ") }
'
rows results32 56
play "$arithmetic"'{ result(word[w[1]], w[2], w[3], half($3)) }' -m eight
rows results64 56
play "$arithmetic"'{ sub(/^.c/, substr(word[w[1]], 1, 1) "f", word[w[1]]); result(word[w[1]], w[2], w[3], hex($3)) }' -m eight
rows negations 8
play "$arithmetic"'{ result(word[w[1]], w[2], 0, hex($3)) }' -m eight
rows moves 25
play "$arithmetic"'{ result(word[w[1]], 7, w[2], hex($3)) }' -m eight
rows swaps 9
play "$arithmetic"'{ result(word[w[1]], w[2], 0, hex($3)) }' -m eight

# Jumps: a step of a word that jumps or not.
jump='
function jump(slot, a, b, after) {
    put(0, a)
    put(1, b)
    start(slot)
    take("running " after, weight("jump"))
    shown()
    back()
    clear()
}
'
rows pairs 6
rows conditions 11
play "$jump"'
BEGIN { while ((getline line < (tables "/pairs.txt")) > 0) if (line !~ /^#/) { split(line, part, / \| /); pair[++pairs] = part[2] } }
{
    for (bits = 64; bits >= 32; bits -= 32) {
        slot = place((bits == 64 ? word[$2] : substr(word[$2], 1, 1) "e" substr(word[$2], 3)) " " EXIT " " EXIT)
        if (length($3) != pairs) want("info regs", "registers", "an answer for each pair")
        for (i = 1; i <= pairs; i++) {
            split(pair[i], w, " ")
            commands = 0
            opening()
            jump(slot, w[1], w[2], slot + (substr($3, i, 1) == "y" ? 2 : 1))
        }
    }
}' -m eight
rows jumps 57
play "$jump"'{ split($2, w, " "); slot = place(w[1] " " EXIT " " EXIT); jump(slot, 0, w[2], slot + $3) }' -m eight
rows targets 8
play "$jump"'{ slot = place(EXIT " " EXIT " " $2 " " EXIT " " EXIT " " EXIT); jump(slot + 2, 0, 0, slot + $3) }' -m eight

# Atomic operations: a step of a word on the eight bytes of the context, r0 and r2. `left` is told what becomes of the eight.
atomic='
function operation(imm, bits) { return (bits == 32 ? "c3210000" : "db210000") padded(value(hex(imm)), 2) "000000" }
function ready(word, old, r0, r2) {
    slot = place(word " " EXIT)
    memory_before = old
    edit("set mem 0x100000000 " old)
    put(0, r0)
    put(2, r2)
    start(slot)
}
function left(memory_after) {
    shown()
    bytes("0x100000000", memory_after)
    back()
    bytes("0x100000000", memory_before)
}
'
rows vectors 144
play "$atomic"'{
    split($1, kind, " ")
    split($2, w, " ")
    split($3, expected, " ")
    ready(operation(kind[1], kind[2]), memory(w[1]), 0, w[2])
    fetches = value(hex(kind[1])) % 2
    take("running " slot + 1, (fetches ? 25 : 16) + kind[2] / 8)
    r[2] = hex(expected[2])
    left(memory(expected[1]))
    clear()
}' -m eight
rows exchanges 18
play "$atomic"'{
    split($2, w, " ")
    split($3, expected, " ")
    ready(operation("0xf1", $1), memory(w[1]), w[2], w[3])
    take("running " slot + 1, $4 == "fetch" ? 25 + $1 / 8 : weight($4))
    r[0] = hex(expected[2])
    left(memory(expected[1]))
    clear()
}' -m eight
rows places 15
play "$atomic"'{
    split($3, expected, " ")
    ready($2, "0102030405060708", "0x100000002", "0x1122334455667788")
    take($5 == "end" ? "access " sum_of($2) " " slot : "running " slot + 1, weight($5))
    for (i = 0; i <= 2; i++) r[i] = expected[i + 1]
    left($4)
    kept($5, slot)
    clear()
}
function sum_of(word, offset) {
    offset = value(substr(word, 7, 2) substr(word, 5, 2))
    return offset < 32768 ? "0x1" padded(offset, 8) : "0x" padded(4294967296 + offset - 65536, 1)
}' -m eight

# Whole programs, and single loads and stores: their end, and r0 or the context then.
rows programs 25
play '{
    start(place($2))
    want("info regs", "registers", registers())
    want("continue", "status", "exited")
    want("info regs", "r0", hex($3))
    want("undo", "done", "done")
    clear()
}' -m eight
rows loads 10
play '{
    start(place($2 " " EXIT))
    take("running " at + 1, 16)
    r[0] = hex($3)
    shown()
    want("continue", "place", "exited " at + 1)
    want("info regs", "r0", hex($3))
    want("undo", "done", "done")
    back()
    clear()
}' -m eight
rows stores 8
play '{
    start(place($2 " " EXIT))
    take("running " at + 1, 16 + width[substr($2, 1, 2)])
    bytes("0x100000000", $3)
    shown()
    back()
    bytes("0x100000000", "f1f2f3f4f5f6f7f8")
    clear()
}
BEGIN { width["72"] = width["73"] = 1; width["6a"] = width["6b"] = 2; width["62"] = width["63"] = 4; width["7a"] = width["7b"] = 8 }' -m eight
rows faults 8
play '{
    start(place($2 " " EXIT))
    take("access " hex($3) " " at, weight("end"))
    shown()
    back()
    clear()
}' -m eight

# Programs step by step: the entry of each, and then back, where the registers are those before and what the entry keeps is there again.
stepwise='
function forward(entry) {
    n++
    asks[n] = row
    held[n] = entry
    want("info regs", "keep", n)
    want("info history", "mark", "")
    want("stepi", "steps", 1)
    want("info history", "weight", weight(entry))
}
function all_back() {
    for (; n > 0; n--) {
        row = asks[n]
        want("reverse-stepi", "done", "done")
        want("info regs", "kept", n)
        kept(held[n], 0)
    }
    row = "at opening"
    opening()
    commands = 0
    clear()
}
'
rows steps 15
play "$stepwise"'
{ place($1); forward($2) }
END {
    row = "at the end"
    want("info regs", "registers", "r0=0x7 r1=0x100000000 r2=0x544332205 r3=0x8877665544332211 r4=0x544332205 r5=0x0 r6=0x0 r7=0x0 r8=0x0 " \
        "r9=0x0 r10=0x200000200")
    want("info regs", "place", "exited 15")
    want("info frames", "reply", "depth 0")
    want("info trace", "reply", "trace 0")
    all_back()
}' -m eight
rows saved 13
play "$stepwise"'
{ place($1); forward($2) }
END {
    row = "at the end"
    want("info regs", "registers", "r0=0x20 r1=0x100000000 r2=0x8 r3=0x0 r4=0x0 r5=0x25 r6=0x16 r7=0x17 r8=0x18 r9=0x19 r10=0x200000200")
    want("info regs", "place", "exited 5")
    want("info frames", "reply", "depth 0")
    want("info trace", "reply", "trace 0")
    all_back()
}' -m counted
rows entered 9
play "$stepwise"'
BEGIN { place("8510000002000000 8510000001000000 9500000000000000 71a0ffff00000000 720affff07000000 9500000000000000") }
{ forward($1) }
END {
    row = "at the end"
    want("info regs", "r0", "0x0")
    all_back()
}' -m counted

# Calls: r10 and the number of frames at each step of a program that calls itself.
rows nested 6
play '
BEGIN { place("8510000001000000 9500000000000000 1501020000000000 07010000ffffffff 85100000fdffffff 9500000000000000") }
{
    split($2, counts, " ")
    put(1, $1)
    want("continue", "steps", counts[2])
    want("info regs", "status", $3)
    want("undo", "done", "done")
    want("info frames", "deepest", 0)
    for (i = 1; i <= counts[2]; i++) {
        want("info regs", "r10 of the depth", "yes")
        want("stepi", "steps", 1)
        want("info frames", "frames of the depth", "yes")
    }
    want("info frames", "greatest", counts[1])
    want("stepi", "reply", "refused Q3: the machine has ended")
    want("reverse-stepi " counts[2], "done", "done")
    want("info regs", "registers", registers())
    clear()
}' -m counted
rows frames 6
play '{
    slot = place($2)
    start(slot)
    n = split($3, expected, " ")
    want("continue", "status", n == 3 ? expected[1] " " expected[2] : expected[1])
    want("info regs", "r0", expected[n])
    want("undo", "done", "done")
    clear()
}' -m counted

# Map loads and helpers, in a machine with 0x77 in r0.
helper='
function outcome(text, weighs,  field, n, i, status) {
    n = split(text, field, " ")
    status = field[2]
    for (i = 3; i <= n; i++) status = status " " field[i]
    take(status " " (status == "running" ? at + 1 : at), status == "running" ? weighs : weight("end"))
    r[0] = field[1]
    shown()
    back()
    clear()
}
'
rows map_loads 6
play '{
    start(place($2 " " EXIT))
    put(0, "0x77")
    take("running " at + 2, 16)
    r[0] = $3
    shown()
    back()
    clear()
}
BEGIN { context = 16 }' -m keys --maps 8x2,1x3
rows lookups 19
play "$helper"'
BEGIN { context = 16; place("8500000001000000 " EXIT) }
{
    split($2, w, " ")
    put(0, "0x77")
    put(1, w[1])
    put(2, w[2])
    start(0)
    outcome($3, 16)
}' -m keys --maps 8x2,1x3
rows updates 20
play "$helper"'
BEGIN { context = 16; place("8500000002000000 " EXIT) }
{
    split($2, w, " ")
    split($3, v, " ")
    put(0, "0x77")
    put(1, w[1])
    put(2, w[2])
    put(3, v[1])
    put(4, v[2])
    start(0)
    outcome($4, $4 != "0x0 running" ? 16 : w[1] == "0x400000000" ? 31 : 24)
}' -m keys --maps 8x2,1x3
rows copies 7
play '
BEGIN { context = 16; place("8500000002000000 9500000000000000 7b65000000000000 0500fcff00000000") }
# store: stores a number by the program, which jumps to its beginning then.
function store(address, number) {
    start(2)
    put(5, address)
    put(6, number)
    want("stepi 2", "place", "running 0")
    commands++
}
{
    split($2, w, " ")
    store("0x300000000", "0x807060504030201")
    store("0x300000008", "0x100f0e0d0c0b0a09")
    put(0, "0x77")
    put(1, "0x400000000")
    put(2, w[1])
    put(3, w[2])
    start(0)
    bytes("0x300000000", "0102030405060708090a0b0c0d0e0f10")
    take("running 1", weight($4))
    r[0] = "0x0"
    shown()
    values = $3
    sub(" ", "", values)
    bytes("0x300000000", values)
    back()
    kept($4, 0)
    bytes("0x300000000", "0102030405060708090a0b0c0d0e0f10")
    clear()
    bytes("0x300000000", many("00", 16))
}' -m keys --maps 8x2,1x3

# Addresses: which have a byte, by `x` and `set mem`, and which the program may access, by a load and a store.
access='
BEGIN {
    place("7130000000000000 6930000000000000 6130000000000000 7930000000000000 7203000000000000 6a03000000000000 6203000000000000")
    place("7a03000000000000 " EXIT)
    slot_of[1] = 0; slot_of[2] = 1; slot_of[4] = 2; slot_of[8] = 3
}
# access: whether a load from an address, or a store to it, at a slot, ends the machine.
function access(slot, address, is_accessible) {
    start(slot)
    put(3, address)
    want("stepi", "place", is_accessible == "yes" ? "running " slot + 1 : "access " hex(address) " " slot)
    commands++
    clear()
    commands = 0
    opening()
}
function run(address, count, is_present, is_accessible,  command) {
    command = "x " hex(address) " " count
    if (is_present == "yes") bytes(hex(address), many("00", count)); else want(command, "reply", "refused Q6: address not present")
    command = "set mem " hex(address) " " many("5a", count)
    if (is_present == "yes") {
        edit(command)
        bytes(hex(address), many("5a", count))
    } else want(command, "reply", "refused Q6: address not present")
    clear()
    commands = 0
    access(slot_of[count], address, is_accessible)
    access(slot_of[count] + 4, address, is_accessible)
}
'
bytes zeros 00 00 00 00 00 00 00 00
rows runs 62
play "$access"'{ split($2, w, " "); split($3, is, " "); run(w[1], w[2], is[1], is[2]) }' -m zeros
rows map_runs 31
mv rows all
for maps in $(sed 's/ .*//' all | sort -u); do
    grep "^$maps | " all > rows
    play "$access"'{ split($3, w, " "); split($4, is, " "); run(w[1], w[2], is[1], is[2]) }' -m zeros --maps "$maps"
done

# Map i of sixteen has i + 1 bytes, and no more.
sixteen=1x1,1x2,1x3,1x4,1x5,1x6,1x7,1x8,1x9,1x10,1x11,1x12,1x13,1x14,1x15,1x16
table=sixteen
seq 0 15 > rows
echo 16 >> rows
count=$((count + 17))
play "$access"'
function byte(map, i) { return "0x300" substr("0123456789abcdef", map % 16 + 1, 1) padded(i, 5) }
$1 == 16 { run("0x301000000", 1, "no", "no") }
$1 < 16 {
    bytes(byte($1, 0), many("00", $1 + 1))
    want("x " byte($1, 0) " " $1 + 2, "reply", "refused Q6: address not present")
    run(byte($1, $1), 1, "yes", "yes")
    run(byte($1, $1 + 1), 1, "no", "no")
}' -m zeros --maps "$sixteen"

# What can be accessed at each depth; the eighth call ends the machine.
rows depths 8
play '
BEGIN { place("85100000ffffffff 9500000000000000 7130000000000000 9500000000000000") }
function access(address, letter) {
    want("set pc 2", "reply", "ok")
    want("set reg r3 " address, "reply", "ok")
    want("stepi", "place", letter == "y" ? "running 3" : "access " address " 2")
    want("undo 3", "done", "done")
}
{
    want("info frames", "depth", $1)
    for (i = 0; i < 8; i++) {
        access("0x20000" padded(1024 * i, 4), substr($2, i + 1, 1))
        access("0x20000" padded(1024 * i + 511, 4), substr($2, i + 1, 1))
    }
    access("0x100000007", substr($2, 9, 1))
    access("0x30000000f", substr($2, 10, 1))
    want("stepi", "place", $1 < 7 ? "running 0" : "depth 0")
}' -m zeros --maps 8x2

# A byte of its own for each region, written to all of its bytes one by one: then each region has its own, and
# no byte behind it.
rows regions 12
play '
BEGIN { place(EXIT) }
{
    split($2, w, " ")
    from[NR] = w[1]
    length_of[NR] = w[2]
    asks[NR] = row
    for (i = 0; i < w[2]; i++) want("set mem " moved(w[1], i) " " padded($1, 2), "reply", "ok")
}
function moved(address, i) { return substr(address, 1, 3) padded(value(address) + i, 8) }
END {
    for (n = 1; n <= NR; n++) {
        row = asks[n]
        for (i = 0; i < length_of[n]; i += 256)
            bytes(moved(from[n], i), many(padded(n, 2), length_of[n] - i < 256 ? length_of[n] - i : 256))
        want("x " moved(from[n], length_of[n]) " 1", "reply", "refused Q6: address not present")
    }
}' -m zeros --maps 8x2,1x1,3x5

# Edits in each status: what they answer, leave and weigh. Behind `mov r0, 5` and a wide instruction the machine stays at slot 3.
edits='
BEGIN {
    answer["read-only"] = "refused Q7: register not writable"
    answer["absent"] = "refused Q6: address not present"
    answer["no cell"] = "refused Q14: no such cell or wrong length"
    answer["no start"] = "refused Q8: no instruction starts there"
    place("b700000005000000 1803000011223344 0000000055667788 " last " " EXIT)
    row = "at slot 3"
    want("stepi 100", "place", status " 3")
}
# seen: all that can be seen of the machine is what the plan knows.
function seen() {
    shown()
    want("info regs", "place", where)
    want("info frames", "reply", "depth 0")
    want("info trace", "reply", "trace 0")
    bytes("0x100000000", region[1])
    bytes("0x200000000", substr(region[2], 1, 512))
    bytes("0x200000100", substr(region[2], 513))
    bytes("0x300000000", region[3])
    bytes("0x300100000", region[4])
}
# arrived: the machine as it is at slot 3.
function arrived() {
    opening()
    r[0] = "0x5"
    r[3] = "0x8877665544332211"
    where = status " 3"
    region[1] = "f1f2f3f4f5f6f7f8"
    region[2] = many("00", 512)
    region[3] = many("00", 16)
    region[4] = "00"
}
# write: bytes at an address are 5a. (The other frames are seen by the command itself.)
function write(address, count,  i, from) {
    from = value(address)
    i = substr(address, 3, 1)
    if (i == 3 && from >= 1048576) {
        i = 4
        from -= 1048576
    }
    if (i != 2 || from < 512) region[i] = written(region[i], from, many("5a", count))
}
{
    arrived()
    seen()
    n = split($2, w, " ")
    address = hex(w[2])
    if (w[1] == "register") { command = "set reg r" w[2] " " hex(w[3]); weighs = 14 }
    if (w[1] == "bytes") { command = "set mem " address " " many("5a", w[3]); weighs = 13 + w[3] }
    if (w[1] == "cell") { command = "set cell " hex(w[2]) " " hex(w[3]) " " many("5a", w[4]); weighs = 13 + w[4] }
    if (w[1] == "pc") { command = "set pc " hex(w[2]); weighs = 16 }
    want("info history", "mark", "")
    want(command, "reply", $3 == "done" ? "ok" : answer[$3])
    want("info history", "weight", $3 == "done" ? weighs : 0)
    if ($3 != "done") {
        seen()
        next
    }
    if (w[1] == "register") r[w[2]] = hex(w[3])
    if (w[1] == "cell") address = w[2] == 0 ? "0x30000000" 8 * w[3] : "0x300100000"
    if (w[1] == "pc") where = "running " w[2]
    else if (w[1] != "register") {
        write(address, w[n])
        bytes(address, many("5a", w[n]))
    }
    seen()
    want("undo", "steps", 1)
    arrived()
    seen()
    if (w[1] == "bytes" && substr(address, 3, 1) == 2) bytes(address, many("00", w[n]))
}
'
rows edits 73
play "BEGIN { status = \"running\"; last = \"0500ffff00000000\" }$edits" -m eight --maps 8x2,1x1
play "BEGIN { status = \"exited\"; last = EXIT }$edits" -m eight --maps 8x2,1x1
play "BEGIN { status = \"access 0x200000200\"; last = \"7a0a000007000000\" }$edits" -m eight --maps 8x2,1x1

# Machines at opening: r0 to r10 by the length of the context.
bytes program EXIT
grep -v '^#' "$tables/opened.txt" > rows
while read -r length bar expected; do
    head -c "$length" /dev/zero | tr '\0' '\7' > context
    session "opened: $length" 'info regs\n' "$(printf 'r%d=0x%x ' $(printf '%s\n' $expected | awk '{ print NR - 1, $1 }') | sed 's/ $//')\nat 0: exit\n" \
        debug -m context program
done < rows
[ "$(wc -l < rows)" -eq 4 ] || complain 'opened: not 4 rows'
at_opening='r0=0x0 r1=0x100000000 r2=0x8 r3=0x0 r4=0x0 r5=0x0 r6=0x0 r7=0x0 r8=0x0 r9=0x0 r10=0x200000200'
bytes program EXIT
session 'what a machine is at opening' 'info regs\ninfo frames\ninfo trace\nx 0x100000000 8\nx 0x200000000 256\nx 0x200000100 256\ndisas 0 256\n' \
    "$at_opening\nat 0: exit\ndepth 0\ntrace 0\n0x100000000: 0102030405060708\n0x200000000: $(printf '%0512d' 0)\n\
0x200000100: $(printf '%0512d' 0)\n0: exit\n" debug -m counted program
bytes program 79 a1 f8 ff 00 00 00 00 EXIT
q6='refused Q6: address not present\n'
session 'what can be read of a machine' 'info regs\ninfo frames\ninfo trace\ndisas 0 256\nx 0x100000006 2\nx 0x100000007 2\n' \
    "$at_opening\nat 0: ldxdw r1, [r10-8]\ndepth 0\ntrace 0\n0: ldxdw r1, [r10-8]\n1: exit\n0x100000006: f7f8\n$q6" debug -m eight program

# The longest context: its last byte, ab, is there and can be read, and no more.
{ head -c 65535 /dev/zero; printf '\253'; } > context
bytes program 71 30 00 00 00 00 00 00 EXIT
session 'the longest context' \
    'x 0x10000ffff 1\nx 0x100010000 1\nset reg r3 0x10000ffff\nstepi\nundo\nset reg r3 0x100010000\nstepi\n' \
    "0x10000ffff: ab\n${q6}ok\n1 forward; done; at 1: exit\n1 back; done; at 0: ldxb r0, [r3+0]\nok\n\
1 forward; end; fault access 0x100010000 at 0\n" debug -m context program
{ head -c 65536 /dev/zero; printf '\0'; } > context
refused 'refused O1: context too long' run -m context program

# A store and its entry, back and forth; a fault, and pc that is set again.
bytes program 7b 11 00 00 00 00 00 00 EXIT
session 'a store and its entry' 'stepi\ninfo history\nx 0x100000000 8\nreverse-stepi\nx 0x100000000 8\ninfo regs\n' \
    "1 forward; done; at 1: exit\n1 moves, 1 commands, 24 of 65536 bytes\n0x100000000: 0000000001000000\n\
1 back; done; at 0: stxdw [r1+0], r1\n0x100000000: 0102030405060708\n$at_opening\nat 0: stxdw [r1+0], r1\n" debug -m counted program
bytes program 7a 0a 00 00 07 00 00 00 EXIT
over='fault access 0x200000200 at 0\n'
session 'a fault and an edit of pc' 'stepi\ninfo history\ninfo frames\ninfo trace\nstepi\nset pc 0\ninfo regs\nstepi\nundo 3\n' \
    "1 forward; end; ${over}1 moves, 1 commands, 5 of 65536 bytes\ndepth 0\ntrace 0\nrefused Q3: the machine has ended\nok\n\
$at_opening\nat 0: stdw [r10+0], 7\n1 forward; end; ${over}3 back; done; at 0: stdw [r10+0], 7\n" debug -m eight program
bytes program c3 21 05 00 00 00 00 00 EXIT
session 'an atomic operation over the end' 'set reg r2 0\nstepi\n' "ok\n1 forward; end; fault access 0x100000005 at 0\n" debug -m counted program

# The eighth call: seven calls, whose entries weigh 519 bytes each, and the eighth faults.
bytes program 85 10 00 00 ff ff ff ff EXIT
zeros='r6=0x0 r7=0x0 r8=0x0 r9=0x0'
returns="returns to 1 $zeros\n"
session 'the eighth call' 'stepi 7\ninfo history\ninfo frames\ninfo regs\nstepi\ninfo history\ninfo regs\ninfo frames\ninfo trace\n' \
    "7 forward; done; at 0: callf L0\n7 moves, 1 commands, 3633 of 65536 bytes\n\
depth 7\n$returns$returns$returns$returns$returns$returns$returns${at_opening% *} r10=0x200001e00\nat 0: callf L0\n\
1 forward; end; fault depth at 0\n8 moves, 2 commands, 3638 of 65536 bytes\n${at_opening% *} r10=0x200001e00\nfault depth at 0\n\
depth 7\n$returns$returns$returns$returns$returns$returns${returns}trace 0\n" debug -m counted program

# Cells: both of a map, and the last one of the last map, where that has 4,096 values of 16 bytes.
bytes program EXIT
session 'two cells' 'set cell 0 0 0102030405060708\nset cell 0 1 090a0b0c0d0e0f10\nx 0x300000000 16\n' \
    'ok\nok\n0x300000000: 0102030405060708090a0b0c0d0e0f10\n' debug -m eight --maps 8x2 program
sevens=07070707070707070707070707070707
session 'the last cell' "set cell 15 4095 $sevens\ninfo history\nx 0x300f0fff0 16\nundo\nx 0x300f0fff0 16\n" \
    "ok\n1 moves, 1 commands, 29 of 65536 bytes\n0x300f0fff0: $sevens\n1 back; done; at 0: exit\n0x300f0fff0: $(printf '%032d' 0)\n" \
    debug --maps 1x1,1x1,1x1,1x1,1x1,1x1,1x1,1x1,1x1,1x1,1x1,1x1,1x1,1x1,1x1,16x4096 program

# The trace: 256 words, 2^32 and those that follow, each with an entry of 15 bytes; a further word isn't traced, and r0 is then -1.
table=traces
seq 1 257 > rows
count=$((count + 257))
play '
BEGIN { context = 16; place("8500000040000000 " EXIT) }
{
    number = $1 == 257 ? "0x7" : "0x1" padded($1 - 1, 8)
    start(0)
    put(0, "0x77")
    put(1, number)
    take("running 1", $1 == 257 ? weight("register") : weight("trace"))
    r[0] = $1 == 257 ? "0xffffffffffffffff" : "0x0"
    shown()
    if ($1 < 257) words = words " " number
    want("info trace", "reply", "trace " ($1 < 257 ? $1 : 256) words)
}
END {
    at = 0
    back()
    want("info trace", "reply", "trace 256" words)
    want("undo 3", "done", "done")
    want("reverse-stepi", "pc", 0)
    sub(" [^ ]*$", "", words)
    want("info trace", "reply", "trace 255" words)
}' -m keys --maps 8x2,1x3
