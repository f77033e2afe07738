# Each instruction by `run`, which takes steps in another way than a session does: a table of tests/program/tables/ is one program, which
# makes a row's numbers, runs its word and compares. It ends with 0, or with the number of the first row that doesn't hold.
tables=$parts/tables
library=$(cat "$parts/machine/plan.awk")
bytes counted f1 f2 f3 f4 f5 f6 f7 f8

# runs TABLE COUNT PLAN: the rows of a table, of which there are so many. PLAN, in awk with machine/plan.awk, calls `holds` for each of them.
runs() {
    grep -v '^#' "$tables/$1.txt" > rows
    [ "$(wc -l < rows)" -eq "$2" ] || complain "$1: not $2 rows"
    rm -f slots
    awk -v tables="$tables" "$library
$words
$3
END { place(\"b700000000000000 \" EXIT) }" rows > told || complain "$1: awk"
    bytes "$1" $(cat slots)
    result '0x0\n' run -m counted "$1"
}

words='
# wide: a number into a register, by a wide load.
function wide(number, content, eight) {
    eight = memory(content)
    return "180" number "0000" substr(eight, 1, 8) " 00000000" substr(eight, 9) " "
}

# class: a word with another class.
function class(word, digit) { return substr(word, 1, 1) digit substr(word, 3) }

# immediate: a word of the form K in place of X, with a number.
function immediate(word, number) {
    return padded(value("0x" substr(word, 1, 2)) - 8, 2) "0" substr(word, 4, 5) substr(memory(number), 1, 8)
}

# small: whether an imm says it, its sign extended.
function small(number) { return number ~ /^-?[0-9]+$/ && number < 2147483648 && number >= -2147483648 }

# holds: words that leave a number in r0, and that number.
function holds(text, expected) {
    place(text " " wide(9, expected) "1d90020000000000 b7000000" substr(memory(NR), 1, 8) " " EXIT)
}

# arithmetic: a word on r0 and r1, and with the number in its imm.
function arithmetic(word, a, b, expected) {
    holds(wide(0, a) wide(1, b) word, expected)
    if (small(b)) holds(wide(0, a) immediate(word, b), expected)
}
'

runs results32 56 '{ split($2, w, " "); arithmetic(word[w[1]], w[2], w[3], half($3)) }'
runs results64 56 '{ split($2, w, " "); arithmetic(class(word[w[1]], substr(word[w[1]], 2, 1) == "c" ? "f" : substr(word[w[1]], 2, 1)), w[2], w[3], hex($3)) }'
runs negations 8 '{ split($2, w, " "); holds(wide(0, w[2]) word[w[1]], hex($3)) }'
runs moves 25 '{ split($2, w, " "); holds(wide(0, 7) wide(1, w[2]) word[w[1]], hex($3)) }'
runs swaps 9 '{ split($2, w, " "); holds(wide(0, w[2]) word[w[1]], hex($3)) }'

# A condition of r0 and r1, and of r0 and a number; r4 tells whether it jumped.
runs conditions 11 '
BEGIN { while ((getline line < (tables "/pairs.txt")) > 0) if (line !~ /^#/) { split(line, part, / \| /); pair[++pairs] = part[2] } }
function condition(text, taken) { holds("b704000001000000 " text " b704000000000000 bf40000000000000", taken) }
{
    for (i = 1; i <= pairs; i++) {
        split(pair[i], w, " ")
        taken = substr($3, i, 1) == "y" ? "0x1" : "0x0"
        for (bits = 64; bits >= 32; bits -= 32) {
            text = class(word[$2], bits == 64 ? "d" : "e")
            condition(wide(0, w[1]) wide(1, w[2]) text, taken)
            condition(wide(0, w[1]) immediate(text, w[2]), taken)
        }
    }
}'
runs jumps 57 '{ split($2, w, " "); holds(wide(1, w[2]) "b702000008000000 b703000000000000 b700000002000000 " w[1] " b700000001000000", hex($3)) }'
runs loads 10 '{ holds(wide(1, "0x100000000") $2, hex($3)) }'
runs stores 8 '
{
    stored = ""
    for (i = 15; i > 0; i -= 2) stored = stored substr($3, i, 2)
    holds(wide(1, "0x100000000") wide(3, "0xf8f7f6f5f4f3f2f1") "7b31000000000000 b702000008000000 " $2 " 7910000000000000", "0x" stored)
}'
