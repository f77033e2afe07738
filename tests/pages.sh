#!/bin/sh
# What README.md and docs/ say of the repository, held against it: the tables and the tags of flat codes made from the files, the files, headings, functions,
# clauses and definitions that a page names, the sessions that README and examples/README.md show, the C of docs/GDB.md, the commands and refusals of
# the manual and its man page, the man pages of all programs, the commands, options and widths of help, the wrong bodies of must-fail/, and the toolchain
# that README and `bpfdb --version` name.
set -u
cd "$(dirname "$0")/.." || exit 1
. tests/machine.sh
work=$(mktemp -d) || exit 1
LEFT_OUT=${LEFT_OUT:-$work/left-out}
trap 'rm -rf "$work"' EXIT
trap 'exit 130' HUP INT TERM
: > "$work/faults"

# fault TEXT: says what a page has wrong; the run fails at its end.
fault() {
    echo "tests/pages.sh: $1" | tee -a "$work/faults"
}

# spread: each 'a/{b,c}' that comes in, as the lines 'a/b' and 'a/c'.
spread() {
    awk '{
        if (!match($0, /\{[^}]*\}/)) { print; next }
        n = split(substr($0, RSTART + 1, RLENGTH - 2), parts, ",")
        for (i = 1; i <= n; i++) print substr($0, 1, RSTART - 1) parts[i] substr($0, RSTART + RLENGTH)
    }'
}

# quoted: what stands between backquotes on the lines that come in, a line each.
quoted() {
    awk -F '`' '{ for (i = 2; i <= NF; i += 2) print $i }'
}

# files: each file of the repository that a page may name.
files() {
    find . \( -name out -o -name .git \) -prune -o -type f -print | sed 's|^\./||'
}

# names_of_files: each name of a file between backquotes on a page is one, or the end of one's path.
names_of_files() {
    files > "$work/files"
    for page in README.md CHANGELOG.md docs/*.md examples/*.md; do
        quoted < "$page" | grep -E '^[^ ]*\.(rt|antt|md|sh|txt)$' | spread | sort -u | while read -r name; do
            awk -v name="$name" '
                $0 == name || substr($0, length($0) - length(name)) == "/" name { found = 1 }
                END { exit !found }
            ' "$work/files" || fault "$page names $name, and no file is called so"
        done
    done
}

# slugs PAGE: the name by which a link finds each heading of a page.
slugs() {
    awk '/^```/ { code = !code } !code && /^#+ / { sub(/^#+ /, ""); print tolower($0) }' "$1" | sed 's/[^a-z0-9_ -]//g; s/ /-/g'
}

# links: each link to a page or a heading of the repository leads to one.
links() {
    for page in README.md CHANGELOG.md docs/*.md examples/*.md; do
        awk '/^```/ { code = !code } !code' "$page" | grep -o '](\([^)]*\))' | sed 's/^](//; s/)$//' | grep -v '^https\{0,1\}:' | sort -u |
            while IFS='#' read -r file heading; do
                target=$page
                [ -z "$file" ] || target=$(dirname "$page")/$file
                if [ ! -e "$target" ]; then
                    fault "$page links to $file, which is no file"
                elif [ -n "$heading" ]; then
                    slugs "$target" | grep -q -x -e "$heading" || fault "$page links to '$heading' of $target, which has no such heading"
                fi
            done
    done
}

# clauses CRATE: 'FUNCTION LABEL' for each labelled clause of the crate, 'RECORD LABEL' for each field and each case of its definitions, and
# 'NAME' for each function, type, definition and case.
clauses() {
    find "crates/$1/src" -name '*.rt' -exec awk '
        match($0, /(fn|struct|enum|trait|type|const) [A-Za-z_0-9]+/) && !/^ *\/\// {
            split(substr($0, RSTART, RLENGTH), words, " ")
            name = words[2]
            print name
        }
        match($0, /ensures\*? [a-z_]+ \{/) {
            split(substr($0, RSTART, RLENGTH), words, " ")
            print name, words[2]
        }
    ' {} +
    find "crates/$1/specs" -name '*.antt' -exec awk '
        match($0, /pub record [A-Za-z_0-9]+/) { name = substr($0, RSTART + 11, RLENGTH - 11); print name }
        match($0, /pub data [A-Za-z_0-9]+/) { name = substr($0, RSTART + 9, RLENGTH - 9); print name }
        match($0, /abbrev pub [A-Za-z_0-9]+/) { print substr($0, RSTART + 11, RLENGTH - 11) }
        match($0, /^ +[A-Z][A-Za-z]+ : /) { split(substr($0, RSTART, RLENGTH), words, " "); print name, words[1]; print words[1] }
        match($0, /^ +pub [a-z_]+ :/) { split(substr($0, RSTART, RLENGTH), words, " "); print name, words[2] }
    ' {} +
}

# contracts: each function and clause in the second column of the tables under '### CRATE' in '## What is proved' of docs/PROMISES.md.
contracts() {
    awk -F ' *\\| *' '
        /^## / { inside = $0 ~ /What is proved/ }
        /^### / { crate = substr($0, 5) }
        inside && NF > 3 && $3 ~ /`/ {
            n = split($3, parts, ";")
            for (i = 1; i <= n; i++) {
                labels = parts[i] ~ /^ *`[^`]*`:/
                m = split(parts[i], names, "`")
                owner = ""
                for (j = 2; j <= m; j += 2) {
                    name = names[j]
                    sub(/.*::/, "", name)
                    if (owner == "" || !labels) { owner = name; print crate, name } else print crate, owner, name
                }
            }
        }
    ' docs/PROMISES.md | while read -r crate name; do
        [ -f "$work/clauses-$crate" ] || clauses "$crate" > "$work/clauses-$crate"
        grep -q -x "$name" "$work/clauses-$crate" || fault "docs/PROMISES.md names the contract '$name' of $crate, which has none"
    done
}

# definitions: each definition in the table of docs/ARCHITECTURE.md stands in one of the files beside it.
definitions() {
    awk -F ' *\\| *' '/^## / { inside = $0 ~ /Where each definition stands/ } inside && NF > 4 && $4 ~ /`/ { print $3 "|" $4 }' \
        docs/ARCHITECTURE.md | while IFS='|' read -r names places; do
        echo "$places" | tr -d '`' | spread | sed 's|^|crates/|; s|$|.antt|' > "$work/places"
        while read -r place; do
            [ -f "$place" ] || fault "docs/ARCHITECTURE.md names $place, which is no file"
        done < "$work/places"
        for name in $(echo "$names" | quoted); do
            xargs grep -q -E "^ *((abbrev|unfoldable|opaque|pub|data|record) )*$name( |$)" /dev/null < "$work/places" 2> /dev/null ||
                fault "docs/ARCHITECTURE.md says that $name is defined in $places"
        done
    done
}

# session: README's session has the commands of tests/session/script and the replies of tests/session/replies; and each line of the one in gdb
# stands in docs/GDB.md, each of the one about a packet in docs/XDP.md, in the same order.
session() {
    awk '/^\$ bpfdb debug / { inside = 1; next } /^```$/ { inside = 0 } inside' README.md > "$work/session"
    sed -n 's/^> //p' "$work/session" | cmp -s - tests/session/script || fault "README.md's session has other commands than tests/session/script"
    grep -v '^> ' "$work/session" | cmp -s - tests/session/replies || fault "README.md's session has other replies than tests/session/replies"
    awk '/^## / { exit } /^```$/ { inside = 0 } /^\(gdb\) source / { inside = 1 } inside' README.md > "$work/session"
    stands_in docs/GDB.md || fault "README.md's session in gdb isn't the one of docs/GDB.md"
    awk '/^## / { packet = /^## A packet / } /^```$/ { inside = !inside; next } packet && inside && !/^\$ cd /' README.md > "$work/session"
    stands_in docs/XDP.md || fault "README.md's session about a packet isn't the one of docs/XDP.md"
}

# stands_in PAGE: whether each line of the file `session` stands on the page, in the same order.
stands_in() {
    awk 'NR == FNR { line[++count] = $0; next } $0 == line[at + 1] { at++ } END { exit count == 0 || at < count }' "$work/session" "$1"
}

# examples: a session that examples/README.md shows under '## NAME' has the commands and the replies of examples/NAME.
examples() {
    shown=0
    for folder in examples/*/; do
        name=$(basename "$folder")
        awk -v name="$name" '
            /^## / { inside = $0 == "## " name }
            /^```/ { block = !block; shell = 0; next }
            /^\$ / { shell = 1 }
            inside && block && !shell
        ' examples/README.md > "$work/session"
        [ -s "$work/session" ] || continue
        sed -n 's/^> //p' "$work/session" | cmp -s - "${folder}script" || fault "examples/README.md has other commands than ${folder}script"
        grep -v '^> ' "$work/session" | cmp -s - "${folder}replies" || fault "examples/README.md has other replies than ${folder}replies"
        shown=$((shown + 1))
    done
    [ "$shown" -gt 0 ] || fault "examples/README.md shows no session"
}

# listing: the C that docs/GDB.md shows is the end of the example's file.
listing() {
    awk '/^```/ { if (inside) exit; inside = 1; next } inside' docs/GDB.md > "$work/shown"
    [ -s "$work/shown" ] && tail -n "$(wc -l < "$work/shown")" examples/overrun/overrun.c | cmp -s - "$work/shown" ||
        fault 'docs/GDB.md shows another program than examples/overrun/overrun.c'
}

# grammar: the commands of bpfdb_commands's tables, a line each.
grammar() {
    awk -F '"' '
        /^(settings|infos|commands) =$/ { table = substr($0, 1, length($0) - 2) }
        /^$/ { table = "" }
        table != "" && NF == 3 { names[table, ++count[table]] = $2; more[table, count[table]] = $3 }
        END {
            for (i = 1; i <= count["commands"]; i++) {
                inner = match(more["commands", i], /one_of [a-z]+/) ? substr(more["commands", i], RSTART + 7, RLENGTH - 7) : ""
                if (inner == "") print names["commands", i]
                else for (j = 1; j <= count[inner]; j++) print names["commands", i], names[inner, j]
            }
        }
    ' crates/bpfdb_script/specs/Commands.antt
}

# commands: those of the grammar are the rows of docs/COMMANDS.md and the lines of docs/commands.txt, in the same order. (docs/tables.sh makes
# of the latter the tables of README, of help and of bpfdb-shell.)
commands() {
    grammar > "$work/commands"
    [ -s "$work/commands" ] || fault 'crates/bpfdb_script/specs/Commands.antt has no commands'
    awk -F ' *\\| *' '/^## / { inside = $0 == "## COMMANDS" } inside && NF > 3 && $2 ~ /`/ { print $2 }' docs/COMMANDS.md |
        quoted | sed 's/ *\[*[A-Z].*//' | cmp -s "$work/commands" - ||
        fault "docs/COMMANDS.md has other commands than crates/bpfdb_script/specs/Commands.antt, or another order"
    sed '/^#/d' docs/commands.txt | awk -F ' *[|] *' '{ sub(/ [[A-Z].*/, "", $2); gsub(/ or /, "\n", $2); print $2 }' |
        cmp -s "$work/commands" - ||
        fault "docs/commands.txt has other commands than crates/bpfdb_script/specs/Commands.antt, or another order"
}

# same_words PAGE NAME: fails where the words of $work/found, which PAGE has, aren't those of $work/sorted.
same_words() {
    diff "$work/sorted" "$work/found" > "$work/diff" && return
    fault "$1 has other $2 ('>') than bpfdb ('<'):"
    cat "$work/diff"
}

# options: those that the command line is made of are the rows of docs/COMMANDS.md, and the items of help and of the man page; and each
# subcommand's help has those that are said to be for it.
options() {
    {
        # (but for an older word that asks for nothing, which help leaves out)
        sed -n 's/.* long = Some (codes "\([a-z-]*\)").*/--\1/p' crates/bpfdb_cli/specs/CommandLine.antt | grep -v -x -e --as-compiled
        sed -n 's/.*\(ShortText\|RenamedFlag\)(.\([a-zA-Z]\)[^a-z].*/-\2/p' crates/bpfdb_cli/src/options.rt
        printf '%s\n' -h --help -V --version
    } | sort -u > "$work/sorted"
    awk -F ' *\\| *' '/^## / { inside = $0 == "## OPTIONS" } inside && NF > 3 && $2 ~ /`/ { print $2 }' docs/COMMANDS.md |
        quoted | sed 's/ .*//' | sort -u > "$work/found"
    same_words docs/COMMANDS.md options
    cat tests/program/help/*.txt | awk '/^Options:/ { inside = 1 } /^[A-Z]/ && !/^Options:/ { inside = 0 } inside' |
        grep -o -E '^ +(-[a-zA-Z], )?--[a-z-]+' | tr -d ' ' | tr ',' '\n' | sort -u > "$work/found"
    same_words 'tests/program/help' options
    sed -n '/^\.SH "OPTIONS"/,/^\.SH "COMMANDS"/p' docs/bpfdb.1 | grep '^.fB' | sed 's/\\f[BR]//g; s/\\-/-/g' |
        grep -o -E '(^|, )--?[a-zA-Z][a-zA-Z-]*' | tr -d ', ' | sort -u > "$work/found"
    same_words docs/bpfdb.1 options
    awk -F ' *\\| *' '/^## / { inside = $0 == "## OPTIONS" } inside && $2 ~ /`--/ {
        match($2, /--[a-z-]+/)
        n = split($4, names, ", ")
        for (i = 1; i <= n; i++) if (names[i] ~ /^[a-z]+$/ && names[i] != "each") print names[i], substr($2, RSTART, RLENGTH)
    }' docs/COMMANDS.md | sort > "$work/sorted"
    for text in tests/program/help/*.txt; do
        case $text in */bpfdb.txt | *-short.txt) continue ;; esac
        awk -v name="$(basename "$text" .txt)" '/^Options:/ { inside = 1 } inside && match($0, /^ +(-[a-z], )?--[a-z-]+/) {
            match($0, /--[a-z-]+/)
            if (substr($0, RSTART, RLENGTH) != "--help") print name, substr($0, RSTART, RLENGTH)
        }' "$text"
    done | sort > "$work/found"
    same_words 'tests/program/help' 'options of subcommands'
}

# refusals: each number and text of the crates' refusals is a row of docs/COMMANDS.md, and no other is. Of variants of one number the first counts.
refusals() {
    # (want of memory has the text that the checker's has; a long row is one line)
    memory=$(sed -n 's/.*LoadFault::Memory => ([0-9]*, "\([^"]*\)").*/\1/p' crates/bpf_isa/src/fault.rt)
    cat crates/bpf_*/src/fault.rt crates/suite_files/src/fault.rt crates/bpfdb_script/src/refusal.rt |
        sed "s/[A-Za-z]*::[A-Za-z]*Memory\.text()/\"$memory\"/; /=> ($/{N;N;N;s/(\n */(/;s/\n */ /g;s/, ),/),/}" | awk -v tested="$(grep -c '^| T1 ' docs/COMMANDS.md)" '
        BEGIN {
            letter["LoadFault"] = letter["PieceFault"] = letter["WordFault"] = "C"
            letter["LineFault"] = letter["AsmFault"] = "A"
            letter["MapFault"] = "M"; letter["LinkFault"] = letter["RelocationFault"] = letter["BtfFault"] = letter["UseFault"] = "E"; letter["OpenFault"] = letter["OpeningFault"] = "O"; letter["JournalFault"] = "J"; letter["Refusal"] = "Q"; letter["WhatFault"] = letter["GoalFault"] = "V"
            # (those of test files count from when the page has them)
            if (tested) letter["SectionFault"] = letter["NamedFault"] = "T"
        }
        { gsub(/\(_\)/, ""); sub(/ \{ \.\. \}/, ""); gsub(/ \| [A-Za-z]+::[A-Za-z]+/, "") }
        match($0, /[A-Za-z]+::[A-Za-z]+ => \([0-9]+, "[^"]*"\),$/) {
            split(substr($0, RSTART, RLENGTH - 3), parts, / => \(|, "/)
            split(parts[1], name, "::")
            if (name[1] in letter) print letter[name[1]] parts[2], substr($0, RSTART + length(parts[1] parts[2]) + 8, RLENGTH - length(parts[1] parts[2]) - 11)
        }
    ' > "$work/unsorted"
    # (a name that no test has is a job's, not a test file's; so is that of no place)
    sed -n 's/.*b"refused \([TV][0-9]*\): \([^":\\]*\).*/\1 \2/p' crates/bpfdb_faults/src/line.rt crates/bpf_lines/src/debug_info.rt >> "$work/unsorted"
    sort -u "$work/unsorted" > "$work/numbers"
    sed -n 's/^| \([CAMEOJQTV][0-9]*\) | \([^|]*\) |.*/\1 \2/p' docs/COMMANDS.md | sort > "$work/rows"
    diff "$work/numbers" "$work/rows" > "$work/diff" && [ -s "$work/numbers" ] && return
    fault "docs/COMMANDS.md has other refusals ('>') than the crates ('<'):"
    cat "$work/diff"
}

# widths: no line of a page is wider than 100 columns, but for tables, code, a command by itself, and the lines
# that tables.sh writes into CALLING.
widths() {
    for page in README.md CHANGELOG.md docs/*.md examples/*.md; do
        LC_ALL=C awk -v page="$page" '
            /^ *```/ { code = !code }
            code || /^[|<]/ || /^    / || /^Its line of `crates.txt`/ || /^ *`[^`]*`[.:]?$/ { next }
            { gsub(/[\200-\277]/, "") }
            length > 100 { print page ":" FNR }
        ' "$page"
    done | while read -r place; do
        fault "$place is wider than 100 columns"
    done
}

# helps: no line of the help of bpfdb, of its subcommands, or of a program beside it is wider than 80 columns.
helps() {
    mkdir "$work/helps"
    cp tests/program/help/*.txt "$work/helps"
    for program in share/bpfdb-*; do
        [ -f "$program" ] && [ -x "$program" ] || continue
        "$program" --help < /dev/null > "$work/helps/$(basename "$program")" 2> "$work/err" || fault "$program --help: $(cat "$work/err")"
    done
    for text in "$work/helps"/*; do
        LC_ALL=C awk -v name="$(basename "$text")" '{ gsub(/[\200-\277]/, "") } length > 80 { print name ":" FNR }' "$text"
    done | while read -r place; do
        fault "help: $place is wider than 80 columns"
    done
}

# libraries: README names each library of the toolchain that crates.txt lists.
libraries() {
    sed 's/#.*//; /:/!d; s/:.*//; s/ .*//' crates.txt > "$work/own"
    sed 's/#.*//; s/.*://' crates.txt | tr ' ' '\n' | grep . | sort -u | grep -v -x -F -f "$work/own" | while read -r library; do
        awk '/^- / || !NF { inside = /^- Trusted:/ } inside' README.md | quoted | grep -q -x "$library" ||
            fault "README.md doesn't name $library among what is trusted"
    done
}

# helpers: docs/LINUX.md names each helper of share/bpfdb-linux.c, and in its table no other.
helpers() {
    sed -n 's/^HELPER .*[ *]\(bpf_[a-z0-9_]*\)(.*/\1/p; s/^\(READ[A-Z_]*\|NO_SOCKET\)(\(.*\))$/\2/p' share/bpfdb-linux/*.c | sort > "$work/helpers"
    [ -s "$work/helpers" ] || fault 'share/bpfdb-linux has no helpers'
    awk '/^## / { inside = $0 == "## Helpers" } inside && /^\|/' docs/LINUX.md | quoted | grep -x 'bpf_[a-z0-9_]*' | sort | diff "$work/helpers" - > "$work/differ" ||
        fault "docs/LINUX.md has other helpers than share/bpfdb-linux: $(grep '^[<>]' "$work/differ" | tr '\n' ' ')"
}

# manuals: each man page is shown without a warning, and where a program beside bpfdb has no man page that is a fault.
manuals() {
    for program in share/bpfdb-*; do
        [ -f "$program" ] && [ -x "$program" ] || continue
        [ -f "docs/$(basename "$program").1" ] || fault "$program has no man page"
    done
    has groff 'man pages as they are shown' || return 0
    for manual in docs/*.1; do
        groff -man -ww -K utf8 -T utf8 -Z "$manual" 2>&1 > /dev/null | grep . && fault "$manual is shown with warnings"
    done
}

# toolchain: README.md and `bpfdb --version` name the same one, and `bpfdb --version` the changelog's version. What proofs rest on is its logic: that is the one
# that `rt version` names, in whichever kit it comes.
toolchain() {
    kit=$(sed -n 's/.*`\(rattle-kit-[^ `]* logic [^`]*\)`.*/\1/p' README.md | head -n 1)
    here=$(rt version)
    [ "${kit#* }" = "${here#* }" ] || fault "README.md names the toolchain '$kit', and here is $here"
    version=$(sed -n 's/^## \([0-9][0-9.]*\).*/\1/p' CHANGELOG.md | head -n 1)
    grep -q -F "\"$version ($kit)\"" crates/bpfdb_cli/src/help.rt ||
        fault "crates/bpfdb_cli/src/help.rt tells another version than $version ($kit)"
    others=$(files | grep -v -x -e README.md -e crates/bpfdb_cli/src/help.rt -e 'tests/.*' | xargs grep -l 'rattle-kit-' /dev/null)
    [ -z "$others" ] || fault "more pages than README.md name the toolchain: $others"
}

# edits: each text that an edit of must-fail/ takes the place of stands exactly once in its file. (One that can't be made counts for nothing,
# and rt ci doesn't say so.)
edits() {
    awk '
        function text_of(path, line, text) {
            while ((getline line < path) > 0) text = text line "\n"
            close(path)
            return text
        }
        FNR == 1 { split("", texts); folder = FILENAME; sub(/(must-fail|wrong-bodies)\/.*/, "", folder) }
        /^file: / { path = folder substr($0, 7); if (!(path in texts)) texts[path] = text_of(path) }
        /^old: / { old = substr($0, 6) }
        /^new: / {
            at = index(texts[path], old)
            rest = substr(texts[path], at + length(old))
            if (at && !index(rest, old)) texts[path] = substr(texts[path], 1, at - 1) substr($0, 6) rest
            else print FILENAME
        }
    ' crates/*/must-fail/*.edit crates/*/wrong-bodies/*.edit | sort -u | while read -r edit; do
        fault "$edit can't be made: a text that it names does not stand exactly once in its file"
    done
}

sh docs/tables.sh --check || fault 'tables of files'
! command -v python3 > /dev/null || python3 docs/flats.py --check || fault 'tags of flat codes'
names_of_files
links
contracts
definitions
session
examples
listing
commands
options
widths
helps
libraries
refusals
edits
sh docs/man.sh --check || fault 'the man pages'
! grep -n '](' docs/*.1 || fault 'a man page has links of Markdown'
helpers
manuals
sh docs/editors.sh --check || fault 'what shells and editors know'
toolchain
tell_left_out "$work/left-out"
[ ! -s "$work/faults" ]
