#!/bin/sh
# The table of crates in docs/ARCHITECTURE.md, made from crates.txt and from the first sentence of each crate, and
# the code in docs/CALLING.md with the crates that it uses, and the definitions in docs/HEADLINE.md; and the tables of commands in README.md, in the
# help of `bpfdb debug` and in share/bpfdb/habits.py, made from docs/commands.txt, with what refusals mean, of docs/COMMANDS.md; and the contents
# of docs/COMMANDS.md, made from its headings. 'docs/tables.sh' writes them anew; 'docs/tables.sh --check' fails
# where a page and the files differ, and 'docs/tables.sh --files' prints a page with a row of each file, by its first sentence. How many definitions the headline rests on is counted by docs/rests.py, where there is a python3.
#
# A table stands between the lines '<!-- docs/tables.sh: NAME -->' and '<!-- docs/tables.sh: end -->' of a page, a whole file of
# code between such lines with 'code FILE' for NAME, and definitions of a file of specs/ with 'definitions FILE NAME..'. A file of
# specs/ whose first sentence begins with the word Scaffolding stands in a table of its own.
set -u
cd "$(dirname "$0")/.." || exit 1
LC_ALL=C
export LC_ALL
work=$(mktemp -d) || exit 1
trap 'rm -rf "$work"' EXIT
trap 'exit 130' HUP INT TERM
: > "$work/faults"

# fault TEXT: says what is wrong with a file; the run fails at its end.
fault() {
    echo "docs/tables.sh: $1" | tee -a "$work/faults" >&2
}

# crates: the names of the crates, in the order of crates.txt.
crates() {
    sed 's/#.*//; s/:.*//' crates.txt | awk 'NF { print $1 }'
}

# uses CRATE: the libraries that it uses, as crates.txt lists them.
uses() {
    sed 's/#.*//' crates.txt | awk -v crate="$1" -F: '$1 ~ "^[ \t]*" crate "([ \t]|$)" {
        n = split($2, names, " ")
        for (i = 1; i <= n; i++) printf "%s`%s`", (i > 1 ? ", " : ""), names[i]
    }'
}

# sentence FILE: the first sentence of the comment at the file's head, without its full stop. Where that says only that no
# public contract cites the file, the next one stands for it.
sentence() {
    awk '
        !/^(\/\/!?|--)( |$)/ { exit }
        { sub(/^(\/\/!?|--) ?/, ""); text = text (text == "" ? "" : " ") $0 }
        { sub(/^Scaffolding: no public contract cites [a-z ]*\. /, "Scaffolding: ", text) }
        match(text " ", /\. /) { print substr(text, 1, RSTART - 1); found = 1; exit }
        END { if (!found) exit 1 }
    ' "$1" | sed 's/|/\\|/g'
}

# names FOLDER ENDING: the files below a folder that are rows of a table, without folder and ending, in order.
names() {
    [ -d "$1" ] || return 0
    (cd "$1" && find . -name "*$2" -type f) | sed "s|^\./||; s|\\$2\$||" | grep -v -x -e lib -e Lib | sort
}

# rows FOLDER ENDING: 'NAME<tab>SENTENCE' for each of these files. (Deeper files of proofs/ belong to a function each.)
rows() {
    names "$1" "$2" | case $1 in */proofs) grep -v / ;; *) cat ;; esac | while read -r name; do
        text=$(sentence "$1/$name$2")
        [ -n "$text" ] || fault "$1/$name$2: the comment at its head begins with no sentence"
        printf '%s\t%s\n' "$name" "$text"
    done
}

# table TITLE: a table of the rows that come in, if there are any.
table() {
    awk -F '\t' -v title="$1" '
        NR == 1 { printf "| %s | |\n|---|---|\n", title }
        { printf "| `%s` | %s |\n", $1, $2 }
        END { if (NR) print "" }
    '
}

# list_crates: the table of crates, each with the first sentence of its root file and the libraries that it uses.
list_crates() {
    printf '| Crate | What it is | Uses |\n|---|---|---|\n'
    for crate in $(crates); do
        root=crates/$crate/src/lib.rt
        [ -f "$root" ] || root=crates/$crate/src/main.rt
        [ -f "$root" ] || fault "crates.txt lists $crate, but there is no $root"
        printf '| `%s` | %s | %s |\n' "$crate" "$(sentence "$root" 2> /dev/null)" "$(uses "$crate")"
    done
}

# list_files: for each crate the tables of its code, definitions, scaffolding and lemmas.
list_files() {
    for crate in $(crates); do
        printf '### %s\n\n' "$crate"
        rows "crates/$crate/src" .rt | table Code
        rows "crates/$crate/specs" .antt > "$work/specs"
        awk -F '\t' '$2 !~ /^Scaffolding/' "$work/specs" | table Definitions
        awk -F '\t' -v OFS='\t' '$2 ~ /^Scaffolding/ {
            if (sub(/^Scaffolding *[:,.] */, "", $2)) $2 = toupper(substr($2, 1, 1)) substr($2, 2)
            print $1, $2
        }' "$work/specs" | table Scaffolding
        rows "crates/$crate/proofs" .antt | table Lemmas
    done
}

# stands_apart: no definition outside the scaffolding, and no other crate, may name a file of the scaffolding.
stands_apart() {
    for crate in $(crates); do
        rows "crates/$crate/specs" .antt | awk -F '\t' '$2 ~ /^Scaffolding/ { print $1 }' > "$work/scaffolding"
        while read -r name; do
            path=Rattle.$crate.specs.$(echo "$name" | tr / .)
            find crates -path '*/out' -prune -o -type f \( -name '*.rt' -o -name '*.antt' \) -print |
                grep -e '/specs/' -e '/src/' | grep -v -e "^crates/$crate/src/" -e '/specs/Lib.antt$' |
                xargs grep -l -F -e "$path." -e "$path;" /dev/null | while read -r file; do
                case $file in
                "crates/$crate/specs/"*) sentence "$file" | grep -q '^Scaffolding' && continue ;;
                esac
                fault "$file names $path, which is scaffolding"
            done
        done < "$work/scaffolding"
    done
}

# groups: the commands of docs/commands.txt by their groups, 'GROUP<tab>COMMAND, COMMAND ..' each, without the words that follow a command.
groups() {
    awk -F ' *[|] *' '
        /^#/ || NF < 4 { next }
        { sub(/ [[A-Z].*/, "", $2) }
        !($1 in text) { order[++count] = $1; text[$1] = $2; next }
        { text[$1] = text[$1] ", " $2 }
        END { for (i = 1; i <= count; i++) print order[i] "\t" text[order[i]] }
    ' docs/commands.txt
}

# list_commands: README's table of them.
list_commands() {
    printf '| | Commands |\n|---|---|\n'
    groups | sed 's/, /`, `/g; s/ or /` or `/g' | awk -F '\t' '{ printf "| %s | `%s` |\n", $1, $2 }'
}

# help_commands: the table of them in help, of lines of at most 80 columns.
help_commands() {
    groups | awk -F '\t' '{
        line = sprintf("  %-15s", $1)
        n = split($2, names, ", ")
        for (i = 1; i <= n; i++) {
            word = names[i] (i < n ? "," : "")
            if (length(line) + length(word) > 80) { sub(/ +$/, "", line); print line; line = sprintf("%17s", "") }
            line = line word " "
        }
        sub(/ +$/, "", line)
        print line
    }'
}

# with_help FILE: a text of help, or its source, with that table in the place of the one that it has.
with_help() {
    awk -v table="$work/help" '
        /^  forward  / { inside = 1; while ((getline line < table) > 0) print line }
        !inside { print }
        /^  end  +quit$/ { inside = 0 }
    ' "$1"
}

# refusals: of a session's refusals 'NUMBER | WHAT TO DO' each, by the manual.
refusals() {
    sed -n "s/^| \([QV][0-9]*\) | [^|]* | \([^|]*\) |\$/\1 | \2/p" docs/COMMANDS.md | tr '`' "'"
}

# with_rows FILE: a script with the rows of docs/commands.txt, and with refusals, between its marks.
with_rows() {
    awk -v work="$work" '
        /^# docs\/tables\.sh: end$/ { if (inside) print "\"\"\""; inside = 0 }
        !inside { print }
        /^# docs\/tables\.sh: shell$/ {
            inside = 1
            print "COMMANDS = \"\"\""
            while ((getline line < "docs/commands.txt") > 0) if (line !~ /^#/) print line
        }
        /^# docs\/tables\.sh: refusals$/ {
            inside = 1
            print "REFUSALS = \"\"\""
            while ((getline line < (work "/refusals")) > 0) print line
        }
    ' "$1"
}

# contents FILE: a list of the headings of a page below its title, each a link; those of the third level stand behind the one above them.
contents() {
    awk '
        function linked(text,    slug) {
            slug = tolower(text)
            gsub(/[^a-z0-9_ -]/, "", slug)
            gsub(/ /, "-", slug)
            return "[" text "](#" slug ")"
        }
        function wrap(text,    words, n, i, line) {
            n = split(text, words, "\t")
            line = "- " words[1] (n > 1 ? ":" : "")
            for (i = 2; i <= n; i++) {
                words[i] = words[i] (i < n ? "," : "")
                # (a line ends within a link, too, as elsewhere on the pages)
                m = split(words[i], parts, " ")
                for (j = 1; j <= m; j++) {
                    if (length(line) + 1 + length(parts[j]) > 100) { print line; line = " " }
                    line = line " " parts[j]
                }
            }
            print line
        }
        /^```/ { code = !code }
        code { next }
        /^## / { if (text != "") wrap(text); text = linked(substr($0, 4)) }
        /^### / { text = text "\t" linked(substr($0, 5)) }
        END { wrap(text) }
    ' "$1"
}

# hold MODE FILE: the file is as $work/page, or becomes so.
hold() {
    if [ "${1:-}" = --check ]; then
        diff "$2" "$work/page" > "$work/diff" && return
        fault "$2 differs from the files ('docs/tables.sh' writes its tables anew):"
        cat "$work/diff" >&2
    else
        # (cat keeps the file's mode)
        cmp -s "$2" "$work/page" || cat "$work/page" > "$2"
    fi
}

# page FILE: the page with its tables as they are to be.
page() {
    awk -v work="$work" '
        # those of the repository that so many crates stand on, themselves included, in the order of crates.txt
        function closure(names,    wanted, n, words, i, j, m, below, text) {
            n = split(names, words, " ")
            for (i = 1; i <= n; i++) wanted[words[i]] = 1
            for (i = count; i >= 1; i--) if (wanted[order[i]]) {
                m = split(uses[order[i]], below, " ")
                for (j = 1; j <= m; j++) wanted[below[j]] = 1
            }
            for (i = 1; i <= count; i++) if (wanted[order[i]]) text = text (text == "" ? "" : " ") order[i]
            return text
        }
        BEGIN {
            while ((getline line < "crates.txt") > 0) {
                sub(/#.*/, "", line)
                if (split(line, words, ":") > 1) { order[++count] = words[1]; uses[words[1]] = words[2] }
            }
        }
        /^<!-- docs\/tables\.sh: end -->$/ { inside = 0 }
        !inside { print }
        /^<!-- docs\/tables\.sh: (crates|files|commands|contents) -->$/ {
            inside = 1
            while ((getline line < (work "/" $3)) > 0) print line
            close(work "/" $3)
        }
        # (where nothing was counted the rows stay as they are)
        /^<!-- docs\/tables\.sh: rests -->$/ {
            while ((getline line < (work "/rests")) > 0) { inside = 1; print line }
            close(work "/rests")
        }
        # the definitions of these names in a file, each with the comment above it; between two of them is an empty line
        function define(file, names,    text, block, line, n, words, i) {
            n = split(names, words, " ")
            while ((getline line < file) > 0) {
                if (line !~ /^ *$/) { block = block line "\n"; continue }
                keep_block(block, n, words, text)
                block = ""
            }
            close(file)
            keep_block(block, n, words, text)
            for (i = 1; i <= n; i++) {
                if (!(i in text)) { print file " defines no " words[i] > (work "/missing"); continue }
                printf "%s%s", (i > 1 ? "\n" : ""), text[i]
            }
        }
        function keep_block(block, n, words, text,    i) {
            for (i = 1; i <= n; i++)
                if (("\n" block) ~ ("\n *((abbrev|unfoldable|opaque|pub|data|record) )+" words[i] "[ :]")) text[i] = block
        }
        /^<!-- docs\/tables\.sh: definitions [^ ]+ [^>]*-->$/ {
            inside = 1
            names = $0
            sub(/^.*definitions [^ ]+ /, "", names)
            sub(/ -->$/, "", names)
            print "```"
            define($4, names)
            print "```"
        }
        /^<!-- docs\/tables\.sh: code [^ ]+ -->$/ {
            inside = 1
            crates = ""
            while ((getline line < $4) > 0) if (line ~ /^use / && line !~ /^use std::/) {
                split(line, words, /[ :]+/)
                crates = crates " " words[2]
            }
            close($4)
            print "Its line of `crates.txt`: `yours:" crates "`. The folders to copy: `" closure(crates) "`.\n"
            print "```rust"
            while ((getline line < $4) > 0) print line
            close($4)
            print "```"
        }
        END { if (inside) exit 1 }
    ' "$1" || fault "$1: a table has no end"
}

list_crates > "$work/crates"
{ echo; list_files; } > "$work/files"
if [ "${1:-}" = --files ]; then
    printf '# Each file\n\n'
    printf "Beside these files, each crate's \`src/lib.rt\` (or \`main.rt\`) is its table of contents, and \`proofs/\` has a\n"
    printf 'folder for each function whose proof the checker could not find alone.\n'
    cat "$work/files"
    [ ! -s "$work/faults" ]
    exit
fi
list_commands > "$work/commands"
help_commands > "$work/help"
refusals > "$work/refusals"
contents docs/COMMANDS.md > "$work/contents"
stands_apart
! command -v python3 > /dev/null || python3 docs/rests.py bpfdb_jobs.Done.Debugs > "$work/rests" || fault 'docs/rests.py'
for file in README.md docs/COMMANDS.md docs/ARCHITECTURE.md docs/CALLING.md docs/HEADLINE.md; do
    page "$file" > "$work/page"
    hold "${1:-}" "$file"
done
for file in crates/bpfdb_cli/src/help.rt tests/program/help/debug.txt; do
    with_help "$file" > "$work/page"
    hold "${1:-}" "$file"
done
with_rows share/bpfdb/habits.py > "$work/page"
hold "${1:-}" share/bpfdb/habits.py
[ ! -f "$work/missing" ] || fault "docs/HEADLINE.md: $(cat "$work/missing")"
[ ! -s "$work/faults" ]
