# Reads a plan and, from the file `replies`, what its commands were answered, and tells each row that isn't as wanted, once.
BEGIN { FS = "\t" }

{
    second = ""
    if ((getline first < "replies") <= 0) first = "no reply"
    if ($1 == "info regs") getline second < "replies"
    lines = $1 == "info frames" ? substr(first, 7) : 0
    while (lines-- > 0 && (getline line < "replies") > 0) first = first "; " line
    found = part($2)
    if ($2 == "mark" || $2 == "keep" || found == $4 || $3 == told) next
    told = $3
    print "FAILED: " table ": " $3
    print "  " $1 ": " $4 " (" $2 ") is wanted, and " found " is found (" first (second == "" ? "" : "; " second) ")"
}

END { if ((getline line < "replies") > 0) print "FAILED: " table ": more replies than commands: " line }

# part: the part of a reply that is looked at. A mark is what a journal weighs before a step; a reply that is kept is held against a later one.
function part(name, field, n, i) {
    if (name == "reply") return first
    if (name == "registers") return first
    if (name == "place" || name == "status" || name == "pc") return place_of(name)
    if (name == "bytes") return index(first, ": ") ? substr(first, index(first, ": ") + 2) : first
    if (name ~ /^r[0-9]+$/) {
        n = split(first, field, " ")
        for (i = 1; i <= n; i++) if (index(field[i], name "=") == 1) return substr(field[i], length(name) + 2)
    }
    if (name == "mark" || name == "weight") {
        split(first, field, " ")
        n = field[5] - marked
        marked = field[5]
        return n
    }
    if (name == "r10 of the depth") return first ~ (" r10=" sprintf("0x2%08x", 512 + 1024 * depth) "$") ? "yes" : "no"
    if (name ~ /^(deepest|greatest|frames of the depth)$/) {
        n = split(first, field, "; ")
        depth = substr(field[1], 7)
        if (name == "deepest") greatest = depth
        if (depth > greatest + 0) greatest = depth
        if (name != "frames of the depth") return greatest
        return depth == n - 1 ? "yes" : "no"
    }
    if (name == "done") {
        split(first, field, "; ")
        return field[2]
    }
    if (name == "steps") {
        split(first, field, " ")
        return field[1]
    }
    if (name == "depth") {
        split(first, field, "; ")
        return substr(field[1], 7)
    }
    if (name == "keep") {
        held[$4] = first second
        return $4
    }
    if (name == "kept") return first second == held[$4] ? $4 : first
    return "?"
}

# place_of: where a machine stands: its status and its pc, or one of the two.
function place_of(name, text, n, field) {
    text = second
    if (text == "") {
        n = split(first, field, "; ")
        text = field[n]
    }
    n = split(text, field, " ")
    status = "?"
    pc = field[n]
    if (field[1] == "at") { status = "running"; pc = field[2] }
    if (field[1] == "exited") { status = "exited"; pc = field[3] }
    if (field[1] == "fault") { status = field[2]; if (n == 5) status = status " " field[3] }
    sub(/:$/, "", pc)
    if (name == "status") return status
    if (name == "pc") return pc
    return status " " pc
}
