# journal: tables of moves and of what is kept of them, asked by scripts of `bpfdb debug`.
#
# The rows stand in tests/program/tables/journal-NAME.txt. A row is put as questions, each one line of a script or more,
# and each is followed by a line `mark`, whose refusal parts the answers. What is wanted of an answer is a line of the
# session's file of wants: row, kind, answer, text.

asking='
    # prepare(): the values of digits.
    function prepare(   k) {
        for (k = 0; k < 16; k++) value[substr("0123456789abcdef", k + 1, 1)] = k
    }
    # number(digits): of hexadecimal digits.
    function number(digits,   sum, k) {
        for (k = 1; k <= length(digits); k++) sum = 16 * sum + value[substr(digits, k, 1)]
        return sum + 0
    }
    # octal(digits): the bytes, as printf reads them.
    function octal(digits,   text, k, byte) {
        for (k = 1; k < length(digits); k += 2) {
            byte = number(substr(digits, k, 2))
            text = text "\\0" int(byte / 64) int(byte / 8) % 8 byte % 8
        }
        return text
    }
    # open(program, context, further): a session of its own, with further arguments.
    function open(program, context, further) {
        if (session) { close(file ".script"); close(file ".wants") }
        file = sprintf("session%03d", ++session)
        answers = 0
        printf "%s", octal(program) > (file ".program")
        printf "%s", octal(context) > (file ".context")
        print further > (file ".further")
        close(file ".program")
        close(file ".context")
        close(file ".further")
    }
    # ask(lines): puts a question, and answers the number of its answer.
    function ask(lines) {
        print lines "\nmark" > (file ".script")
        return ++answers
    }
    # want(kind, answer, text): what is wanted of an answer.
    function want(kind, answer, text) {
        print row "\t" kind "\t" answer "\t" text > (file ".wants")
    }
    # look(): asks for all that the rows change of a state.
    function look() {
        return ask("info regs\ninfo frames\ninfo trace\nx 0x100000000 4\nx 0x100000004 4\nx 0x200000000 256\n" \
            "x 0x200000100 256\nx 0x200000400 256\nx 0x200000500 256\nx 0x300000000 8\nx 0x300000008 8")
    }
    # history(): asks how much is kept.
    function history() {
        return ask("info history")
    }
    # place(answer, pc, status, fault): wants that a machine stands there; a fault has an address or a token.
    function place(answer, pc, status, fault) {
        if (status == "running") want("line", answer, "at " pc ": ")
        else if (status == "exited") want("line", answer, "exited at " pc ": r0 ")
        else if (status == "depth") want("line", answer, "fault depth at " pc)
        else want("line", answer, "fault " status " 0x" fault " at " pc)
    }
    # more(kept, before, moves, commands, weight): wants that so much more is kept than before.
    function more(kept, before, moves, commands, weight) {
        want("more", kept, before " " moves " " commands " " weight)
    }
    # run_of(word): bytes in digits, or a byte so many times.
    function run_of(word,   parts, many, text) {
        if (split(word, parts, "*") == 1) return word
        for (many = parts[2]; many > 0; many--) text = text parts[1]
        return text
    }
    # zeros(text): the digits of an entry, also where it says how many zeros.
    function zeros(text,   words) {
        return split(text, words, " ") == 2 ? run_of("00*" words[1]) : text
    }
    # command(words): the line of a script that makes a move.
    function command(words,   word) {
        split(words, word, " ")
        if (word[1] == "step") return "stepi"
        if (word[1] == "steps") return "stepi " word[2]
        if (word[1] == "reg") return "set reg r" number(word[2]) " 0x" word[3]
        if (word[1] == "bytes") return "set mem 0x" word[2] " " run_of(word[3])
        if (word[1] == "cell") return "set cell 0x" word[2] " 0x" word[3] " " run_of(word[4])
        return "set pc 0x" word[2]
    }
    # old(answer, entry, bytes): wants that the state shows what the entry keeps; so many bytes are written.
    function old(answer, entry, bytes,   word, many) {
        many = split(entry, word, " ")
        if (word[1] == "edit" && word[2] == "register") want("has", answer, word[3] "=0x" word[4])
        else if (word[1] == "edit" && word[2] == "bytes") old_bytes(word[3], substr(entry, index(entry, word[3]) + length(word[3]) + 1), bytes)
        else if (word[1] == "edit") place(answer, word[3], word[4], word[5])
        else old_step(answer, word, many)
    }
    # old_bytes(address, text, bytes): asks for so many bytes, and wants those that the entry has.
    function old_bytes(address, text, bytes) {
        want("is", ask("x 0x" address " " bytes), "0x" address ": " zeros(text))
    }
    # old_step(answer, word, many): the same of the entry of a step, by its words.
    function old_step(answer, word, many) {
        if (many > 1) place(answer, word[2], "running")
        if (word[1] == "register" || word[1] == "fetch") want("has", answer, word[3] "=0x" word[4])
        if (word[1] == "trace") want("has", answer, "r0=0x" word[3])
        if (word[1] == "store" || word[1] == "fetch") old_bytes(word[many - 1], word[many], length(word[many]) / 2)
    }
    BEGIN {
        prepare()
        FS = " [|] "
    }
    /^# / { next }
    { row = $0 }
'

# (an edit of each machine is one session, whose state each edit leaves)
edits='
    # edit(words, wanted): makes an edit, takes it back, and wants its entry and its weight, or its refusal.
    function edit(words, wanted,   before, kept, parts, word) {
        before = look()
        kept = history()
        if (split(wanted, parts, "; ") == 2) {
            old(before, parts[1], length(run_of(word[split(words, word, " ")])) / 2)
            want("is", ask(command(words)), "ok")
            more(history(), kept, 1, 1, parts[2])
            want("begins", ask("undo"), "1 back; done; ")
        } else want("refused", ask(command(words)), wanted)
        want("as", look(), before)
        want("as", history(), kept)
    }
'

# The machines of the rows: what stands in the file journal-machines.txt is read before those of the other file.
machines='
    FILENAME ~ /machines/ {
        names[++count] = $1
        split($2, parts, "; ")
        steps[count] = parts[1]
        programs[count] = parts[2]
        entries[count] = $3
        next
    }
    { rows[++all] = row }
    # open_machine(k, further): a session over such a machine.
    function open_machine(k, further) {
        open(programs[k], "0102030405060708", "--maps 8x2 " further)
        if (steps[k] > 0) ask("stepi " steps[k])
    }
'

# Of each row of a session the first answer that isn't as wanted is told.
hold='
    # lines_of(text, lines): cuts a text at its line feeds.
    function lines_of(text, lines) {
        return split(text, lines, "\n")
    }
    # has_line(text, wanted): whether a line is so, or begins so where the wanted one ends with a blank.
    function has_line(text, wanted,   lines, k) {
        for (k = lines_of(text, lines); k > 0; k--) {
            if (lines[k] == wanted || wanted ~ / $/ && index(lines[k], wanted) == 1) return 1
        }
        return 0
    }
    # has_word(text, word): whether one of the words of the first line is so.
    function has_word(text, word) {
        sub(/\n.*/, "", text)
        return index(" " text " ", " " word " ") > 0
    }
    # is_more(text, wanted): whether so much more is kept than in another answer. A dash is any number of commands.
    function is_more(text, wanted,   w, now, then) {
        split(wanted, w, " ")
        if (split(text, now, " ") != 8 || split(answer[w[1]], then, " ") != 8 || now[7] != then[7]) return 0
        return now[1] - then[1] == w[2] && (w[3] == "-" || now[3] - then[3] == w[3]) && now[5] - then[5] == w[4]
    }
    # is_so(kind, text, wanted): whether an answer is as wanted.
    function is_so(kind, text, wanted) {
        if (kind == "is") return text == wanted
        if (kind == "as") return text == answer[wanted]
        if (kind == "begins") return index(text, wanted) == 1
        if (kind == "refused") return text ~ /^refused [A-Z][0-9]+: / && substr(text, index(text, ": ") + 2) == wanted
        if (kind == "line") return has_line(text, wanted)
        if (kind == "has") return has_word(text, wanted)
        return kind == "more" && is_more(text, wanted)
    }
    BEGIN {
        FS = "\t"
        while ((getline line < "found/out") > 0) {
            if (line == "refused Q1: unknown command") { answers++; joined = 0 }
            else answer[answers + 1] = joined++ ? answer[answers + 1] "\n" line : line
        }
    }
    !is_so($2, answer[$3], $4) && !told[$1]++ {
        print "FAILED: " table ": " $1
        print "  wanted (" $2 "): " ($2 == "as" ? answer[$4] : $4)
        print "  found: " answer[$3]
        if ($2 == "more") print "  before: " answer[substr($4, 1, index($4, " ") - 1)]
    }
'

# table NAME RULES FILE..: asks what the rules make of the rows of these files, and counts each row, of each machine.
table() {
    table=$1 rules=$2
    shift 2
    rm -f session*
    awk "$asking$rules" "$@"
    for asked in session*.script; do
        session=${asked%.script}
        printf '%b' "$(cat "$session.program")" > program
        printf '%b' "$(cat "$session.context")" > context
        mv "$asked" script
        # (what stands in this file are words without blanks)
        run debug -m context $(cat "$session.further") program
        awk -v table="$table" "$hold" "$session.wants" > wrong
        cat wrong
        failures=$((failures + $(grep -c '^FAILED: ' wrong)))
        : > wanted/out
        : > found/out
        check "$table: how $session ends" 0 '' ''
    done
    count=$((count + $(awk -F '\t' '!rows[$1]++ { sum++ } END { print sum + 0 }' session*.wants)))
}

tables=$parts/tables/journal

# Edits at the first, the last and one past the last byte of each region, in every status.
table edits "$machines$edits"'
    END {
        for (k = 1; k <= count; k++) {
            open_machine(k, "--journal 65536")
            for (n = 1; n <= all; n++) {
                row = names[k] ": " rows[n]
                split(rows[n], parts_of_row, " [|] ")
                edit(parts_of_row[1], parts_of_row[2])
            }
            row = names[k] ": pc 1"
            edit("pc 1", entries[k])
        }
    }
' "$tables-machines.txt" "$tables-edits.txt"

# Edits that are made one after another, and taken back. What the machine kept of its steps comes before them.
table 'edits that are taken back' "$machines"'
    END {
        for (k = 1; k <= count; k++) {
            for (n = 1; n <= all; n++) {
                open_machine(k, "--journal 1024")
                row = names[k] ": " rows[n]
                split(rows[n], parts_of_row, " [|] ")
                many = split(parts_of_row[1], moves, ", ")
                split(parts_of_row[2], wanted, ", ")
                before = look()
                kept = history()
                for (m = 1; m <= many; m++) {
                    split(wanted[m], word, " ")
                    if (moves[m] == "place") {
                        shown = look()
                        place(shown, word[2], word[3])
                        want("line", shown, "depth " word[4])
                    } else if (moves[m] == "counts") {
                        now = history()
                        more(now, kept, word[1], word[3], word[5])
                        want("has", now, word[7])
                    } else if (moves[m] == "all back") want("begins", ask("undo " word[1]), word[1] " back; done; ")
                    else want(wanted[m] == "ok" ? "is" : "refused", ask(command(moves[m])), wanted[m])
                }
                want("as", look(), before)
                want("as", history(), kept)
            }
        }
    }
' "$tables-machines.txt" "$tables-taken-back.txt"

# One row for each kind of entry that a step makes.
table steps '
    {
        split($2, parts, "; ")
        open($1 "9500000000000000", "0102030405060708", "--maps 8x2")
        before = look()
        kept = history()
        old(before, parts[1])
        want("begins", ask("stepi"), "1 forward; ")
        more(history(), kept, 1, 1, parts[2])
        want("begins", ask("reverse-stepi"), "1 back; done; ")
        want("as", look(), before)
        want("as", history(), kept)
    }
' "$tables-steps.txt"

# Whole runs, there and back and there again.
table runs '
    # ends(answer, status): wants that a machine has ended so.
    function ends(answer, status,   word) {
        split(status, word, " ")
        want("line", answer, status == "exited" ? "exited at " : "fault " word[1] (word[2] == "" ? "" : " 0x" word[2]) " at ")
    }
    {
        split($2, parts, "; ")
        open($1, "0102030405060708", "--maps 8x2 --journal 16777216")
        for (k = 1; k <= parts[1]; k++) {
            before[k] = look()
            want("begins", ask("stepi"), "1 forward; ")
        }
        last = look()
        ends(last, parts[2])
        want("is", ask("stepi"), "refused Q3: the machine has ended")
        for (k = parts[1]; k >= 1; k--) {
            want("begins", ask("reverse-stepi"), "1 back; done; ")
            want("as", look(), before[k])
        }
        want("is", ask("reverse-stepi"), "refused Q4: no kept step")
        for (k = 1; k <= parts[1]; k++) want("begins", ask("stepi"), "1 forward; ")
        want("as", look(), last)
    }
' "$tables-runs.txt"

# Programs with their registers, bytes and weights.
table 'worked rows' '
    # moves_of(moves, told): makes moves, and wants what they tell; answers how many there are.
    function moves_of(moves, told,   move, wanted, word, m, many) {
        many = split(moves, move, ", ")
        split(told, wanted, ", ")
        for (m = 1; m <= many; m++) {
            split(wanted[m], word, " ")
            if (word[2] == "steps") want("begins", ask(command(move[m])), word[1] " forward; ")
            else want("is", ask(command(move[m])), wanted[m])
        }
        return many
    }
    # registers(answer, text): wants r0, r1, r6 and r10.
    function registers(answer, text,   word) {
        split(text, word, " ")
        want("has", answer, "r0=0x" word[1])
        want("has", answer, "r1=0x" word[2])
        want("has", answer, "r6=0x" word[3])
        want("has", answer, "r10=0x" word[4])
    }
    {
        split($2, asked, "; ")
        cut = index($3, "; ")
        open(asked[1] "9500000000000000", asked[2], "--maps 8x2")
        before = look()
        kept = history()
        commands = moves_of(asked[4], substr($3, 1, cut - 1))
        seen = substr($3, cut + 2)
        shown = look()
        many = split(substr(seen, 1, index(seen, ":") - 1), word, " ")
        place(shown, word[2], word[3], word[4])
        want("line", shown, "depth " word[many])
        split(substr(seen, index(seen, ":") + 2), parts, ", ")
        registers(shown, parts[1])
        if (asked[2] != "") want("is", ask("x 0x100000000 " length(asked[2]) / 2), "0x100000000: " parts[2])
        more(history(), kept, asked[3], "-", parts[3])
        want("begins", ask("undo " commands), asked[3] " back; done; ")
        want("as", look(), before)
        want("as", history(), kept)
    }
' "$tables-worked.txt"

# The weights of what is kept, by going back over it.
table weights '
    {
        split($1, asked, "; ")
        open(asked[1], "", "--journal " asked[3])
        want("begins", ask("stepi " asked[2]), asked[2] " forward; ")
        many = split($2, weights, " ")
        for (k = 1; k <= many; k++) {
            kept = history()
            want("begins", ask("reverse-stepi"), "1 back; done; ")
            more(history(), kept, -1, "-", -weights[k])
        }
        want("is", ask("reverse-stepi"), "refused Q4: no kept step")
    }
' "$tables-weights.txt"

# Which sizes a journal has.
printf 'mov r0, 42\nexit\n' > answer.s
grep -v '^# ' "$tables-sizes.txt" > rows
while IFS='|' read -r size wanted; do
    size=${size% } wanted=${wanted# } kept=${wanted##*, }
    kept=${kept% kept}
    case $wanted in
        *bytes,*) row "a journal of $size bytes" 0 'info history\nundo\n' \
            "$kept moves, 0 commands, 0 of ${wanted%%,*}\nrefused Q5: fewer kept commands\n" '' debug --journal "$size" --listing answer.s ;;
        *) refused "refused $wanted" debug --journal "$size" --listing answer.s ;;
    esac
done < rows
