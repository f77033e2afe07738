#!/bin/sh
# The man pages: docs/bpfdb.1, made from docs/COMMANDS.md, and those of the programs beside bpfdb, made from their --help and from the paragraphs of
# the pages that begin with their names. 'docs/man.sh' writes them anew; 'docs/man.sh --check' fails where one differs. (Those of
# programs in python3 stay as they are where there is none.)
#
# Of Markdown it knows what the manual has: '## ' and '### ' headings, tables, blocks between lines of three backquotes, paragraphs, and
# words between backquotes or stars. A row of a table becomes an item: its first cell is the tag, its second the text; the cells
# behind them, where there are more than two columns, follow with the names of their columns.
set -u
cd "$(dirname "$0")/.." || exit 1
LC_ALL=C
export LC_ALL
work=$(mktemp -d) || exit 1
trap 'rm -rf "$work"' EXIT
trap 'exit 130' HUP INT TERM

cat > "$work/roff.awk" <<'AWK'
# A text as roff reads it literally.
function literal(text) {
    gsub(/\\/, "\\e", text)
    gsub(/-/, "\\-", text)
    return text
}
# A line of text: one that begins with a stop or an apostrophe is no request.
function line(text) {
    print (text ~ /^[.\047]/ ? "\\&" : "") text
}
# A text with its words between backquotes in bold, and those between stars in italics; a link is its text.
function inline(text,    parts, n, i, out) {
    while (match(text, /\[[^][]*\]\([^)]*\)/)) {
        n = index(substr(text, RSTART), "](")
        text = substr(text, 1, RSTART - 1) substr(text, RSTART + 1, n - 2) substr(text, RSTART + RLENGTH)
    }
    n = split(text, parts, "`")
    for (i = 1; i <= n; i++) {
        if (i % 2) {
            parts[i] = literal(parts[i])
            while (match(parts[i], /\*[a-z ]+\*/))
                parts[i] = substr(parts[i], 1, RSTART - 1) "\\fI" substr(parts[i], RSTART + 1, RLENGTH - 2) "\\fR" \
                    substr(parts[i], RSTART + RLENGTH)
            out = out parts[i]
        } else out = out "\\fB" literal(parts[i]) "\\fR"
    }
    return out
}
# The cells of a row, without the blanks around them.
function cut(row, cells,    n, i) {
    sub(/^\| */, "", row)
    sub(/ *\|$/, "", row)
    n = split(row, cells, / *\| */)
    return n
}
function paragraph() {
    if (!inside) print ".PP"
    inside = 1
}
function heading(macro, text) {
    text = literal(text)
    gsub(/"/, "\\(dq", text)
    print macro " \"" text "\""
    inside = 1
}
AWK

# manual: docs/COMMANDS.md in roff's man macros.
manual() {
    cat > "$work/manual.awk" <<'AWK'
NR == 1 { print ".\\\" Made by docs/man.sh from docs/COMMANDS.md."; print ".TH BPFDB 1 \"\" \"bpfdb\" \"User commands\""; next }
/^```/ {
    block = !block
    if (block) print ".PP\n.RS 4\n.nf"; else print ".fi\n.RE"
    inside = 0
    next
}
block { line(literal($0)); next }
/^## / { heading(".SH", substr($0, 4)); body = 1; next }
!body { next }
/^### / { heading(".SS", substr($0, 5)); next }
/^\|-/ { next }
/^\|/ && !table { columns = cut($0, names); table = 1; next }
/^\|/ {
    cut($0, cells)
    print ".TP"
    line(inline(cells[1]))
    line(inline(cells[2]))
    for (i = 3; i <= columns; i++) if (cells[i] != "") { print ".br"; line(inline(names[i] ": " cells[i])) }
    next
}
/^$/ { inside = 0; table = 0; next }
{ paragraph(); line(inline($0)) }
AWK
    awk -f "$work/roff.awk" -f "$work/manual.awk" docs/COMMANDS.md
}

# tools: 'NAME|WHAT IT IS|WHAT ITS HELP LISTS|PAGE' of each program beside bpfdb.
tools() {
    cat <<'TOOLS'
shell|bpfdb at a prompt, in the words of gdb|COMMANDS|docs/COMMANDS.md
page|a run of a BPF program as one page of HTML|OPTIONS|docs/PAGE.md
dap|BPF programs in editors, with steps back|OPTIONS|docs/EDITORS.md
symbols|what gdb reads of an object or a listing|OPTIONS|docs/GDB.md
context|the bytes that a BPF program gets by r1|OPTIONS|docs/CONTEXTS.md
show|a test of bpfdb as files, or as a page|OPTIONS|docs/TESTS.md
events|what a BPF program sent out|OPTIONS|docs/LINUX.md
convert|tests of uBPF as a file of tests of bpfdb|OPTIONS|docs/TESTS.md
conformance|bpfdb as a plugin of bpf_conformance|OPTIONS|examples/RECIPES.md
TOOLS
}

# told NAME PAGE: the paragraphs of a page that begin with the name of a program, a line each.
told() {
    awk -v name="\`bpfdb-$1" '
        # (one that leads to a block ends here)
        function end() { sub(/:$/, ".", text); if (text != "") print text; text = "" }
        /^```/ { code = !code }
        !NF { end(); first = 1; next }
        !code && first && index($0, name) == 1 && substr($0, length(name) + 1, 1) ~ /[` ]/ { text = $0; first = 0; next }
        { first = 0 }
        text != "" { text = text " " $0 }
        END { end() }
    ' "$2"
}

cat > "$work/tool.awk" <<'AWK'
FILENAME ~ /help$/ { lines[++count] = $0; next }
{ told[++paragraphs] = $0 }
END {
    sub(/^usage: /, "", lines[1])
    print ".\\\" Made by docs/man.sh from the help of bpfdb-" name " and from the pages."
    print ".TH BPFDB-" toupper(name) " 1 \"\" \"bpfdb\" \"User commands\""
    print ".SH \"NAME\"\nbpfdb\\-" name " \\- " literal(title)
    print ".SH \"SYNOPSIS\"\n.nf"
    for (at = 1; at == 1 || lines[at] ~ /^ /; at++) {
        sub(/^ +/, "", lines[at])
        line("\\fB" literal(lines[at]) "\\fR")
    }
    print ".fi\n.SH \"DESCRIPTION\""
    for (; at <= count && lines[at] != ""; at++) line(literal(lines[at]))
    for (i = 1; i <= paragraphs; i++) { print ".PP"; line(inline(told[i])) }
    print ".SH \"" list "\""
    inside = 1
    for (at++; at <= count; at++) {
        if (lines[at] == "") inside = 0
        # (what a line of a list is about stands before two blanks)
        else if (lines[at] ~ /^(  )?[^ ]([^ ]| [^ ])*  +[^ ]/) {
            match(lines[at], /[^ ]  +[^ ]/)
            tag = substr(lines[at], 1, RSTART)
            sub(/^ +/, "", tag)
            print ".TP"
            line("\\fB" literal(tag) "\\fR")
            line(literal(substr(lines[at], RSTART + RLENGTH - 1)))
            inside = 1
        } else {
            if (!inside) print ".PP"
            inside = 1
            sub(/^ +/, "", lines[at])
            line(literal(lines[at]))
        }
    }
    print ".SH \"SEE ALSO\""
    sub(/^docs\//, "", page)
    print "\\fBbpfdb\\fR(1); \\fB" page "\\fR in \\fBshare/doc/bpfdb\\fR."
}
AWK

# tool NAME TITLE LIST PAGE: the man page of a program, by its help and by what its page tells of it.
tool() {
    told "$1" "$4" > "$work/told"
    [ -s "$work/told" ] || { echo "docs/man.sh: $4 has no paragraph that begins with bpfdb-$1" >&2; return 1; }
    "share/bpfdb-$1" --help < /dev/null > "$work/help" || return
    awk -v name="$1" -v title="$2" -v list="$3" -v page="$4" -f "$work/roff.awk" -f "$work/tool.awk" "$work/help" "$work/told"
}

# hold FILE: a man page is what was made, or becomes so.
hold() {
    if [ "$mode" != --check ]; then
        cmp -s "$work/page" "$1" || cp "$work/page" "$1"
    elif ! cmp -s "$work/page" "$1"; then
        echo "docs/man.sh: $1 differs from the pages and from help ('docs/man.sh' writes it anew)"
        status=1
    fi
}

mode=${1:-} status=0
manual > "$work/page" || exit 1
hold docs/bpfdb.1
tools > "$work/tools"
while IFS='|' read -r name title list page; do
    ! head -n 1 "share/bpfdb-$name" | grep -q python3 || command -v python3 > /dev/null || continue
    [ "$name" != shell ] || command -v python3 > /dev/null || continue
    tool "$name" "$title" "$list" "$page" > "$work/page" || exit 1
    hold "docs/bpfdb-$name.1"
done < "$work/tools"
exit "$status"
