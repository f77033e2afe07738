# What the plans of tests/program/machine.sh share. A plan is a line for each command of a script, in four parts with tabs between them: the
# command, which part of its reply is looked at, the row that asks, and what is wanted. The program's bytes go to the file `slots`.
BEGIN {
    FS = " \\| "
    EXIT = "9500000000000000"
    while ((getline line < (tables "/words.txt")) > 0)
        if (line !~ /^#/) {
            split(line, part, / \| /)
            word[part[1]] = part[2]
        }
}

# A row begins with the machine as it is at opening.
{ row = $0; commands = 0; opening() }

# opening: r0 to r10 are those at opening, with a context of `context` bytes, or 8.
function opening(i) {
    for (i = 0; i < 10; i++) r[i] = "0x0"
    r[1] = "0x100000000"
    r[2] = hex(context ? context : 8)
    r[10] = "0x200000200"
    opened = registers()
}

# registers: r0 to r10, as `info regs` shows them.
function registers(i, text) {
    text = "r0=" r[0]
    for (i = 1; i <= 10; i++) text = text " r" i "=" r[i]
    return text
}

# place: puts slots, words of 16 hexadecimal digits, behind the program's others, and answers where the first one stands.
function place(words, first, n, i, one) {
    first = placed + 0
    n = split(words, one, " ")
    for (i = 1; i <= n; i++) {
        gsub(/../, "& ", one[i])
        printf "%s", one[i] > "slots"
    }
    placed += n
    return first
}

# want: a command, and what is wanted of its reply.
function want(command, part, wanted) {
    print command "\t" part "\t" row "\t" wanted
}

# edit: an edit that is made.
function edit(command) {
    want(command, "reply", "ok")
    commands++
}

# put: puts a number into a register.
function put(number, value) {
    r[number] = hex(value)
    edit("set reg r" number " " r[number])
}

# start: makes the instruction at a slot the next one.
function start(slot) {
    at = slot
    edit("set pc " slot)
}

# take: a step, after which the machine stands at a place, with an entry of a weight.
function take(after, weight) {
    before = registers()
    want("info history", "mark", "")
    want("stepi", "place", after)
    want("info history", "weight", weight)
}

# shown: the registers are those that the plan knows.
function shown() {
    want("info regs", "registers", registers())
}

# bytes: so many bytes at an address are these.
function bytes(address, text) {
    want("x " address " " length(text) / 2, "bytes", text)
}

# back: takes the step back; the registers and pc are those before it.
function back() {
    want("reverse-stepi", "pc", at)
    want("info regs", "registers", before)
}

# clear: takes all commands of the row back, which leaves the registers as at opening.
function clear() {
    if (commands) want("undo " commands, "done", "done")
    want("info regs", "registers", opened)
    want("info history", "reply", "0 moves, 0 commands, 0 of 65536 bytes")
}

# weight: what an entry weighs, by its text and the table of docs/JOURNAL.md.
function weight(entry, field, n) {
    n = split(entry, field, " ")
    if (field[1] == "register") return 16
    if (field[1] == "jump") return 7
    if (field[1] == "store") return 16 + length(field[n]) / 2
    if (field[1] == "fetch") return 25 + length(field[n]) / 2
    if (field[1] == "call") return 519
    if (field[1] == "return") return 39
    if (field[1] == "cell") return 23 + length(field[n]) / 2
    if (field[1] == "trace") return 15
    if (field[1] == "end") return 5
    return "none"
}

# kept: what an entry keeps is there again; its slot is counted from `base` on. A call enters frame 1.
function kept(entry, base, field, n, i, pair, old) {
    n = split(entry, field, " ")
    if (field[1] != "end") want("info regs", "pc", base + field[3])
    if (field[1] == "register") want("info regs", field[4], field[5])
    if (field[1] == "store") bytes(field[4], field[5])
    if (field[1] == "fetch") {
        want("info regs", field[4], field[5])
        bytes(field[6], field[7])
    }
    if (field[1] == "return") for (i = 6; i <= 9; i++) want("info regs", "r" i, field[i - 2])
    if (field[1] == "cell") {
        want("info regs", "r0", field[4])
        bytes(field[5], field[6])
    }
    if (field[1] == "trace") want("info regs", "r0", field[4])
    if (field[1] == "call") {
        old = many("00", 512)
        for (i = 4; i <= n; i++) {
            split(field[i], pair, ":")
            old = written(old, pair[1], padded(pair[2], 2))
        }
        bytes("0x200000400", substr(old, 1, 512))
        bytes("0x200000500", substr(old, 513))
    }
}

# many: a text, so many times.
function many(text, count, all) {
    while (count-- > 0) all = all text
    return all
}

# written: bytes with others in place of those from one on.
function written(old, from, new) {
    return substr(old, 1, 2 * from) new substr(old, 2 * from + 1 + length(new))
}

# padded: the hexadecimal digits of a number, at least so many.
function padded(number, least, text) {
    while (number > 0 || length(text) < least) {
        text = substr("0123456789abcdef", number % 16 + 1, 1) text
        number = int(number / 16)
    }
    return text
}

# hex: a number as bpfdb writes it: one in hexadecimal, one below 2^53, or behind `-` the two's complement of one up to 2^32.
function hex(number) {
    if (number ~ /^0x/) return number
    if (number ~ /^-/) return "0xffffffff" padded(4294967296 - substr(number, 2), 8)
    return "0x" padded(number + 0, 1)
}

# half: a number of 32 bits, or the low ones of a negative one.
function half(number) {
    if (number ~ /^-/) return "0x" padded(4294967296 - substr(number, 2), 1)
    return hex(number)
}

# value: the number of the last eight hexadecimal digits.
function value(text, i, sum) {
    sub(/^0x/, "", text)
    if (length(text) > 8) text = substr(text, length(text) - 7)
    for (i = 1; i <= length(text); i++) sum = 16 * sum + index("0123456789abcdef", substr(text, i, 1)) - 1
    return sum + 0
}

# memory: the eight bytes of a number, in order.
function memory(number, text, all) {
    text = substr(hex(number), 3)
    text = many("0", 16 - length(text)) text
    while (text != "") {
        all = all substr(text, length(text) - 1)
        text = substr(text, 1, length(text) - 2)
    }
    return all
}
