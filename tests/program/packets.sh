# What the part `remote` stands on: rows of packets and their answers, played to `bpfdb gdb`.
#
# A row is the body of a packet, the body of its answer, and the line or lines that gdb is to show before, if there are
# any, with bars between. A row that begins with `> ` is a line of a script (gdb's `monitor`) and its reply of one line, or
# OK.
# `{07*8192}` stands for as many times 07, `\n` in an answer, or between such lines, for a line feed. A row of a stop may leave out what comes
# with each, `thread:0;` and the registers behind it: then any will do, if the packet's sum is right.
# In a file of tests/program/packets/ a line `block NAME` begins a session of its own; lines without a bar say what it
# is opened with: `program` and `context`, in hexadecimal digits, and `registers`, `steps`, `journal` with their values.
# A line `rows NAME` begins rows that play where a block has the line `same NAME`. Lines that begin with `# ` are
# comments.

# Functions of awk.
packets='
    # prepare(): the codes of characters, and the values of digits.
    function prepare(   k) {
        for (k = 1; k < 127; k++) code[sprintf("%c", k)] = k
        for (k = 0; k < 16; k++) value[substr("0123456789abcdef", k + 1, 1)] = k
    }
    # expand(text): the text with each {07*8192} written out.
    function expand(text,   front, piece, star, many, all) {
        while (match(text, /\{[^{}*]*\*[0-9]+\}/)) {
            front = substr(text, 1, RSTART - 1)
            piece = substr(text, RSTART + 1, RLENGTH - 2)
            text = substr(text, RSTART + RLENGTH)
            star = index(piece, "*")
            all = ""
            for (many = substr(piece, star + 1) + 0; many > 0; many--) all = all substr(piece, 1, star - 1)
            text = front all text
        }
        return text
    }
    # packet(body): the packet of a body.
    function packet(body,   sum, k) {
        for (k = length(body); k > 0; k--) sum += code[substr(body, k, 1)]
        return "$" body "#" sprintf("%02x", sum % 256)
    }
    # hex(text): its bytes in digits.
    function hex(text,   digits, k) {
        for (k = 1; k <= length(text); k++) digits = digits sprintf("%02x", code[substr(text, k, 1)])
        return digits
    }
    # request_of(row): the packet that is sent.
    function request_of(row,   parts) {
        split(row, parts, "|")
        return packet(parts[1] ~ /^> / ? "qRcmd," hex(substr(parts[1], 3)) : expand(parts[1]))
    }
    # answer_of(row): what is then told.
    function answer_of(row,   parts, body) {
        split(row, parts, "|")
        gsub(/\\n/, "\n", parts[3])
        body = parts[1] ~ /^> / && parts[2] != "OK" ? hex(parts[2]) "0a" : expand(parts[2])
        gsub(/\\n/, "\n", body)
        return "+" (parts[3] == "" ? "" : packet("O" hex(parts[3]) "0a")) packet(body)
    }
    # next_answer(): what is told to the next packet, cut off the front of the text `left`.
    function next_answer(   n, found) {
        n = left ~ /^[+-]/
        while (substr(left, n + 1, 1) == "$" && index(substr(left, n + 1), "#")) {
            n += index(substr(left, n + 1), "#") + 2
        }
        if (n == 0) n = length(left)
        found = substr(left, 1, n)
        left = substr(left, n + 1)
        return found
    }
    # without_registers(told): it without what comes with each stop in its last packet, if that has its sum.
    function without_registers(told,   at, k, body) {
        while ((k = index(substr(told, at + 1), "$")) > 0) at += k
        body = substr(told, at + 1, length(told) - at - 3)
        if (at == 0 || packet(body) != substr(told, at)) return told
        if (! match(body, /thread:0;0a:[0-9a-f]+;0b:[0-9a-f]+;(40:[0-9a-f]+;)?$/)) return told
        return substr(told, 1, at - 1) packet(substr(body, 1, RSTART - 1))
    }
    # spelled(digits): the text that they spell.
    function spelled(digits,   text, k) {
        for (k = 1; k < length(digits); k += 2) {
            text = text sprintf("%c", 16 * value[substr(digits, k, 1)] + value[substr(digits, k + 1, 1)])
        }
        return text
    }
    # readable(told): its first bytes, and the text of the lines in it.
    function readable(told,   text, digits) {
        text = length(told) > 200 ? substr(told, 1, 200) " .. (" length(told) " bytes)" : told
        while (match(told, /\$O?[0-9a-f]*0a#/)) {
            digits = substr(told, RSTART + 1, RLENGTH - 4)
            sub(/^O/, "", digits)
            text = text " (" spelled(digits) ")"
            told = substr(told, RSTART + RLENGTH)
        }
        return text
    }
'

# play NAME ARGUMENT..: the rows of the file `rows` are played to one session, each of them counts.
play() {
    name=$1
    shift
    LC_ALL=C awk "$packets"'BEGIN { prepare(); ORS = "" } { print request_of($0) }' rows > script
    run "$@"
    LC_ALL=C awk -v name="$name" "$packets"'
        function complain(what, wanted, found) {
            print "FAILED: " name ": " what "\n  wanted: " readable(wanted) "\n  found:  " readable(found)
        }
        BEGIN {
            prepare()
            RS = "\001"
            getline left < "found/out"
            RS = "\n"
        }
        {
            wanted = answer_of($0)
            found = next_answer()
            if (wanted !~ /thread:0;/) found = without_registers(found)
            if (found != wanted) complain($0, wanted, found)
        }
        END { if (left != "") complain("the end", "", left) }
    ' rows > wrong
    cat wrong
    count=$((count + $(wc -l < rows)))
    failures=$((failures + $(grep -c '^FAILED: ' wrong)))
    : > wanted/out
    : > found/out
    check "$name: how it ends" 0 '' ''
}

# requests NAME ARGUMENT..: the same of the rows of standard input.
requests() {
    cat > rows
    play "$@"
}

# blocks FILE: writes of each block its rows, its settings, and the bytes of its program and its context, as printf's %b
# reads them.
blocks() {
    LC_ALL=C awk "$packets"'
        # octal(digits): the bytes, as printf reads them.
        function octal(digits,   text, k, byte) {
            gsub(/ /, "", digits)
            for (k = 1; k < length(digits); k += 2) {
                byte = 16 * value[substr(digits, k, 1)] + value[substr(digits, k + 1, 1)]
                text = text "\\0" int(byte / 64) int(byte / 8) % 8 byte % 8
            }
            return text
        }
        # put(row): one more row of the block, or of the rows that more blocks have.
        function put(row) {
            if (list != "") common[list] = common[list] row "\n"
            else print row > (block ".rows")
        }
        BEGIN { prepare() }
        /^# / || $0 == "" { next }
        index($0, "|") { put($0); next }
        $1 == "rows" { list = $2 }
        $1 == "same" { printf "%s", common[$2] > (block ".rows") }
        $1 == "block" {
            block = "block" (++blocks)
            list = ""
            print substr($0, 7) > (block ".name")
        }
        $1 == "program" || $1 == "context" { printf "%s", octal(expand(substr($0, 9))) > (block "." $1) }
        $1 == "registers" || $1 == "steps" || $1 == "journal" { print $1, $2 > (block ".settings") }
    ' "$1"
}

# setting NAME DEFAULT: what the present block says of it.
setting() {
    said=$(sed -n "s/^$1 //p" "$block.settings" 2> /dev/null)
    echo "--$1 ${said:-$2}"
}

# play_blocks FILE: each block of a file of packets in a session of its own.
play_blocks() {
    rm -f block*
    blocks "$1"
    for named in block*.name; do
        block=${named%.name}
        mv "$block.rows" rows
        printf '%b' "$(cat "$block.program")" > program
        : > context
        [ ! -e "$block.context" ] || printf '%b' "$(cat "$block.context")" > context
        # (the settings are words without blanks)
        play "$(cat "$named")" gdb $(setting registers bpf) $(setting steps 1000) $(setting journal 4096) -m context program
    done
}

# streams_of FILE: the rows of a file of streams, each with what is told to it, in a session of its own each.
streams_of() {
    LC_ALL=C awk "$packets"'!/^# / { print expand($0) }' "$1" > rows
    while IFS='|' read -r stream told; do
        row "a stream: $(printf '%.60s' "$stream")" 0 "$stream" "$told" '' gdb --registers bpf --listing answer.s
    done < rows
}

# cuts_of FILE STREAM: each beginning of a stream, and what is told to it: that of the last row whose count of bytes is not more.
cuts_of() {
    grep -v '^# ' "$1" > rows
    for length in $(seq 0 "$(printf '%s' "$2" | wc -c)"); do
        told=$(awk -F '|' -v length_of="$length" '$1 <= length_of { told = $2 } END { print told }' rows)
        row "the first $length bytes of a stream" 0 "$(printf "%.${length}s" "$2")" "$told" '' gdb --registers bpf --listing answer.s
    done
}

# registers_of FILE: of each machine of the file the registers that its description names, with their numbers.
registers_of() {
    grep -v '^# ' "$1" > rows
    while IFS='|' read -r machine registers; do
        printf '$qXfer:features:read:target.xml:0,3fff#b0' > script
        run gdb --registers "$machine" --listing answer.s
        awk '
            # between(line, front): what stands behind a text up to the next quote, "" where the text is not there.
            function between(line, front,   at) {
                at = index(line, front)
                if (at == 0) return ""
                line = substr(line, at + length(front))
                return substr(line, 1, index(line, "\"") - 1)
            }
            between($0, "<reg name=\"") != "" {
                if (between($0, "regnum=\"") != "") text = text " " between($0, "regnum=\"")
                text = text " " between($0, "<reg name=\"")
            }
            END { printf "%s", substr(text, 2) }
        ' found/out > found/registers
        mv found/registers found/out
        check "the registers of $machine" 0 "$registers" ''
    done < rows
}
