#!/bin/sh
# What shells and editors know of bpfdb: the completion of its command line (share/completion/: bash, zsh, fish), made from the tables of
# subcommands and options of docs/COMMANDS.md, and of those of bpfdb-page and bpfdb-dap, made from their help (that of bpfdb-context stands here); and the words of listings (share/editors/: Vim, and the TextMate grammar that VS Code reads),
# made from the table of instructions of docs/LISTING.md. 'docs/editors.sh' writes them anew; 'docs/editors.sh --check' fails where one differs.
set -u
cd "$(dirname "$0")/.." || exit 1
LC_ALL=C
export LC_ALL
work=$(mktemp -d) || exit 1
trap 'rm -rf "$work"' EXIT
trap 'exit 130' HUP INT TERM

# A cell of a table as plain words, for awk: a link is its text, and one between brackets of its own, which leads on, is nothing.
plain='function plain(text,    n) {
    gsub(/ \(\[[^][]*\]\([^)]*\)\)/, "", text)
    while (match(text, /\[[^][]*\]\([^)]*\)/)) {
        n = index(substr(text, RSTART), "](")
        text = substr(text, 1, RSTART - 1) substr(text, RSTART + 1, n - 2) substr(text, RSTART + RLENGTH)
    }
    gsub(/[`"]/, "", text)
    return text
}'

# jobs: 'NAME<tab>WHAT IT DOES' for each subcommand, in a line of a list.
jobs() {
    awk -F ' *\\| *' "$plain"'
        /^\| Subcommand / { inside = 1; next }
        !/^\|/ { inside = 0 }
        inside && $2 ~ /`/ {
            does = plain($3)
            sub(/; .*/, "", does)
            while (length(does) > 72 && sub(/, [^,]*$/, "", does)) continue
            print plain($2) "\t" does
        }
    ' docs/COMMANDS.md
}

# options: 'LONG<tab>SHORT<tab>VALUE<tab>MEANING<tab>FOR<tab>WORDS' for each option: its names without hyphens, what it takes (empty if it
# takes nothing), a line on it, the subcommands that have it ('each' if all do, 'bpfdb alone' if none does), and the words that it may take.
options() {
    awk -F ' *\\| *' -v OFS='\t' "$plain"'
        /^## / { inside = $0 == "## OPTIONS" }
        inside && $2 ~ /`-/ {
            long = short = value = words = ""
            n = split($2, names, "`")
            for (i = 2; i <= n; i += 2) {
                split(names[i], parts, " ")
                if (parts[1] ~ /^--/) { long = substr(parts[1], 3); value = parts[2] } else short = substr(parts[1], 2)
            }
            n = split($3, names, "`")
            for (i = 2; i <= n; i += 2) if (names[i] ~ /^[a-z0-9]+$/) { words = words (words == "" ? "" : " ") names[i]; count[long]++ }
            if (count[long] < 2) words = ""
            meaning = plain($3)
            sub(/[.:,] .*|\.$|, .*/, "", meaning)
            print long, short, value, meaning, $4, words
        }
    ' docs/COMMANDS.md
}

# own_options NAME FILE: the same of a program beside bpfdb, by the help that stands in a file, for the subcommand NAME. What the help has of bpfdb's
# own options is left out.
own_options() {
    awk -v name="$1" -v OFS='\t' '
        function end(    n, names, i, parts, long, short, value, words) {
            n = split(tag, names, ", ")
            for (i = 1; i <= n; i++) {
                split(names[i], parts, " ")
                value = parts[2]
                if (parts[1] ~ /^--/) long = substr(parts[1], 3); else short = substr(parts[1], 2)
            }
            if (match(text, /: [a-z0-9]+ or [a-z0-9]+$/)) {
                words = substr(text, RSTART + 2)
                sub(/ or /, " ", words)
            }
            sub(/[.:,;(] *.*/, "", text)
            sub(/ +$/, "", text)
            if (long != "" && long != "help") print long, short, value, text, name, words
            tag = text = ""
        }
        /"""usage: / { inside = 1; next }
        inside && /^$/ { end(); lists = !lists && !listed; listed = 1; next }
        inside && /"""$/ { end(); exit }
        inside && lists && /^  -/ {
            end()
            match($0, /[^ ]  +[^ ]/)
            tag = substr($0, 3, RSTART - 2)
            text = substr($0, RSTART + RLENGTH - 1)
            next
        }
        inside && lists { sub(/^ +/, ""); text = text " " $0 }
    ' "$2"
}

# What bpfdb-shell and bpfdb-page have of these options, for awk: those of debug but for the form of replies, which it asks for itself; and, beside its own, those of run without which it makes its page.
taken='function of_shell(long, jobs) { return long !~ /^(json|questions)$/ && jobs ~ /(^|, )(debug|each)(,|$)/ }
function of_page(long, jobs) { return jobs ~ /(^|, )(run|each)(,|$)/ && long != "json" }'

# of_jobs: '    JOB) WORDS' lines: for each subcommand, for bpfdb-shell, bpfdb-page and bpfdb-dap, the options that it has, as bash takes them.
of_jobs() {
    awk -F '\t' "$taken"'
        NR == FNR { order[++count] = $1; next }
        {
            names = ($2 == "" ? "" : " -" $2) " --" $1
            n = split($5, jobs, ", ")
            for (i = 1; i <= n; i++) has[jobs[i]] = has[jobs[i]] names
            if ($5 == "each") next
            if (of_shell($1, $5)) has["shell"] = has["shell"] names
            if (of_page($1, $5)) has["page"] = has["page"] names
        }
        END {
            order[++count] = "shell"
            order[++count] = "page"
            order[++count] = "dap"
            for (i = 1; i <= count; i++) printf "    %s) words=\"%s\" ;;\n", order[i], substr(has[order[i]] has["each"], 2)
        }
    ' "$work/jobs" "$work/options"
}

# names: the function that asks bpfdb which names in a file an option may take: code sections, functions and tests. (Of a name that isn't there bpfdb
# says which there are; names of tests stand in their report.)
names() {
    cat << 'TEXT'
_bpfdb_names() {
    case $1 in
    --section) "$bpfdb" link "--section=?" -- "$file" 2>&1 > /dev/null | sed -n "s/^refused E8: no such code section: //p" | sed "s/, /\n/g" ;;
    --entry)
        "$bpfdb" link ${section:+"--section=$section"} "--entry=?" -- "$file" 2>&1 > /dev/null |
            sed -n "s/^refused E31: no such function in the code section: //p; s/^refused E9: .* chooses one: //p" | sed "s/, /\n/g"
        ;;
    --only) timeout 2 "$bpfdb" test -- "$file" < /dev/null 2> /dev/null | sed -n "s/^\(not \)\{0,1\}ok [0-9]* - //p" | awk "!seen[\$0]++" ;;
    esac
}
TEXT
}

# bash: the completion of bash.
bash() {
    cat << 'TEXT'
# Completion of bpfdb, bpfdb-shell, bpfdb-page, bpfdb-dap and bpfdb-context for bash, made by docs/editors.sh.
TEXT
    names
    cat << 'TEXT'
_bpfdb_of_file() {
    local bpfdb=${BPFDB:-bpfdb} file='' section='' before='' each word=$2
    [ "${COMP_WORDS[0]##*/}" != bpfdb ] || bpfdb=${COMP_WORDS[0]}
    for each in "${COMP_WORDS[@]:1}"; do
        [ "$each" != = ] || continue
        each=${each/#\~/$HOME}
        [ "$before" != --section ] || section=$each
        [ ! -f "$each" ] || file=$each
        before=$each
    done
    [ -n "$file" ] || return
    word=${word#[\"\']}
    word=${word//\\/}
    # (names are anything, so that nothing may expand them)
    while IFS= read -r each; do
        [ "${each#"$word"}" = "$each" ] && [ -n "$word" ] || COMPREPLY+=("$each")
    done < <(_bpfdb_names "$1")
}
_bpfdb() {
    local word=${COMP_WORDS[COMP_CWORD]} job=${COMP_WORDS[1]} first=1 before=${COMP_WORDS[COMP_CWORD - 1]} words
    [ "${COMP_WORDS[0]##*/}" = bpfdb ] || { job=${COMP_WORDS[0]##*bpfdb-} first=0; }
    # (the shell takes --option=value for three words)
    [ "$word" != = ] || { word=''; before='='; COMP_CWORD=$((COMP_CWORD + 1)); }
    [ "$before" != = ] || before=${COMP_WORDS[COMP_CWORD - 2]}
    COMPREPLY=()
    case $before in
TEXT
    awk -F '\t' '$3 != "" && !seen[$1]++ {
        names = ($2 == "" ? "" : "-" $2 " | ") "--" $1
        if ($6 != "") done = "mapfile -t COMPREPLY < <(compgen -W \"" $6 "\" -- \"$word\")"
        else if ($1 ~ /^(section|entry|only)$/) done = "_bpfdb_of_file --" $1 " \"$word\""
        else done = $3 ~ /^(PATH|FILE|PAGE|OBJECT)$/ ? "mapfile -t COMPREPLY < <(compgen -f -- \"$word\")" : ":"
        printf "    %s) %s; return ;;\n", names, done
    }' "$work/options"
    echo '    esac'
    printf '    if [ "$COMP_CWORD" -eq "$first" ]; then\n'
    printf '        mapfile -t COMPREPLY < <(compgen -W "%s" -- "$word")\n        return\n    fi\n' \
        "$(cut -f 1 "$work/jobs" | paste -s -d ' ') help $(awk -F '\t' '$5 == "each" || $5 == "bpfdb alone" { printf "%s--%s", sep, $1; sep = " " }' "$work/options")"
    printf '    case $job in\n'
    of_jobs
    printf '    help) words="%s" ;;\n' "$(cut -f 1 "$work/jobs" | paste -s -d ' ')"
    cat << 'TEXT'
    *) return ;;
    esac
    case $word in
    -*) mapfile -t COMPREPLY < <(compgen -W "$words" -- "$word") ;;
    *) [ "$job" != dap ] || return; if [ "$job" = help ]; then mapfile -t COMPREPLY < <(compgen -W "$words" -- "$word"); else mapfile -t COMPREPLY < <(compgen -f -- "$word"); fi ;;
    esac
}
complete -o filenames -F _bpfdb bpfdb bpfdb-shell bpfdb-page bpfdb-dap
_bpfdb_context() {
    local word=${COMP_WORDS[COMP_CWORD]} form='' at
    COMPREPLY=()
    for ((at = 1; at < COMP_CWORD; at++)); do
        case ${COMP_WORDS[at]} in packet | hex | struct) form=${COMP_WORDS[at]} ;; esac
    done
    case ${COMP_WORDS[COMP_CWORD - 1]},$word,$form in
    -o,* | --output,* | *,[!-]*,packet | *,,packet | *,[!-]*,struct | *,,struct) mapfile -t COMPREPLY < <(compgen -f -- "$word") ;;
    *,-*,*) mapfile -t COMPREPLY < <(compgen -W "-o --output -h --help" -- "$word") ;;
    *,*,) mapfile -t COMPREPLY < <(compgen -W "packet hex struct" -- "$word") ;;
    esac
}
complete -o filenames -F _bpfdb_context bpfdb-context
TEXT
}

# zsh: the completion of zsh.
zsh() {
    cat << 'TEXT'
#compdef bpfdb bpfdb-shell bpfdb-page bpfdb-dap bpfdb-context
# Completion of bpfdb, bpfdb-shell, bpfdb-page, bpfdb-dap and bpfdb-context for zsh, made by docs/editors.sh.
TEXT
    names
    cat << 'TEXT'
_bpfdb_of_file() {
    local bpfdb=${BPFDB:-bpfdb} file section before each
    local -a found
    for each in "${(@Q)words[2,-1]}"; do
        each=${each/#\~/$HOME}
        [[ $before != --section ]] || section=$each
        [[ $each != --section=* ]] || section=${each#--section=}
        [[ ! -f $each ]] || file=$each
        before=$each
    done
    [[ -n $file ]] || return
    found=("${(@f)$(_bpfdb_names $1)}")
    compadd -a found
}
_bpfdb_options() {
    case $1 in
TEXT
    awk -F '\t' "$taken"'
        NR == FNR { order[++count] = $1; next }
        {
            action = $6 != "" ? "(" $6 ")" : $3 ~ /^(PATH|FILE|PAGE|OBJECT)$/ ? "_files" : $1 ~ /^(section|entry|only)$/ ? " _bpfdb_of_file --" $1 : " "
            spec = "[" $4 "]" ($3 == "" ? "" : ":" $3 ":" action)
            one = $2 == "" ? "\"" ($1 == "with" ? "*" : "") "--" $1 ($3 == "" ? "" : "=") spec "\"" : "\"(-" $2 " --" $1 ")\"{-" $2 ",--" $1 "}\"" spec "\""
            n = split($5, jobs, ", ")
            for (i = 1; i <= n; i++) has[jobs[i]] = has[jobs[i]] " " one
            if ($5 == "each") next
            if (of_shell($1, $5)) has["shell"] = has["shell"] " " one
            if (of_page($1, $5)) has["page"] = has["page"] " " one
        }
        END {
            order[++count] = "shell"
            order[++count] = "page"
            printf "    dap) _arguments%s%s ;;\n", has["dap"], has["each"]
            for (i = 1; i <= count; i++) printf "    %s) _arguments%s%s \"*:file:_files\" ;;\n", order[i], has[order[i]], has["each"]
            printf "    alone) _arguments%s%s ;;\n", has["bpfdb alone"], has["each"]
        }
    ' "$work/jobs" "$work/options"
    cat << 'TEXT'
    help) _bpfdb_jobs ;;
    esac
}
_bpfdb_jobs() {
    local -a jobs
    jobs=(
TEXT
    awk -F '\t' '{ printf "        \"%s:%s\"\n", $1, $2 }' "$work/jobs"
    cat << 'TEXT'
        "help:describes a subcommand"
    )
    _describe subcommand jobs
}
_bpfdb() {
    if [[ $service == bpfdb-context ]]; then
        _arguments "(-o --output)"{-o,--output}"[The file to write]:CTX:_files" "(-h --help)"{-h,--help}"[Writes help to standard output]" \
            "1:form:(packet hex struct)" "*:file:_files"
    elif [[ $service == bpfdb-* ]]; then
        _bpfdb_options ${service#bpfdb-}
    elif (( CURRENT == 2 )); then
        if [[ $PREFIX == -* ]]; then _bpfdb_options alone; else _bpfdb_jobs; fi
    else
        local job=$words[2]
        shift words
        (( CURRENT-- ))
        _bpfdb_options $job
    fi
}
_bpfdb "$@"
TEXT
}

# fish: the completion of fish.
fish() {
    cat << 'TEXT'
# Completion of bpfdb, bpfdb-shell, bpfdb-page, bpfdb-dap and bpfdb-context for fish, made by docs/editors.sh.
function __bpfdb_of_file
    set -l words (commandline -opc)
    set -l bpfdb bpfdb
    set -q BPFDB; and set bpfdb $BPFDB
    string match -q -r '(^|/)bpfdb$' -- $words[1]; and set bpfdb $words[1]
    set -l file
    set -l section
    set -l before
    # (a file may stand behind the word that is typed, too)
    for each in $words[2..-1] (commandline -o)
        test "$before" = --section; and set section --section=$each
        string match -q -- '--section=*' $each; and set section $each
        set each (string replace -r '^~' $HOME -- $each)
        test -f "$each"; and set file $each
        set before $each
    end
    test -n "$file"; or return
    switch $argv[1]
        case section
            $bpfdb link '--section=?' -- $file 2>&1 >/dev/null | string replace -f -r '^refused E8: no such code section: ' '' | string split ', '
        case entry
            $bpfdb link $section '--entry=?' -- $file 2>&1 >/dev/null | string replace -f -r '^refused (E31: no such function in the code section|E9: .* chooses one): ' '' | string split ', '
        case only
            timeout 2 $bpfdb test -- $file </dev/null 2>/dev/null | string replace -f -r '^(not )?ok [0-9]* - ' ''
    end
end
TEXT
    awk -F '\t' '{ printf "complete -c bpfdb -n __fish_use_subcommand -f -a %s -d \"%s\"\n", $1, $2 }' "$work/jobs"
    echo 'complete -c bpfdb -n __fish_use_subcommand -f -a help -d "describes a subcommand"'
    awk -F '\t' "$taken"'
        NR == FNR { next }
        {
            names = ($2 == "" ? "" : " -s " $2) " -l " $1
            takes = $3 == "" ? "" : $6 != "" ? " -x -a \"" $6 "\"" : $3 ~ /^(PATH|FILE|PAGE|OBJECT)$/ ? " -r -F" : $1 ~ /^(section|entry|only)$/ ? " -x -a \"(__bpfdb_of_file " $1 ")\"" : " -x"
            if ($5 ~ /^(page|dap)$/) { printf "complete -c bpfdb-%s%s%s -d \"%s\"\n", $5, names, takes, $4; next }
            jobs = $5
            gsub(/,/, "", jobs)
            where = jobs == "each" ? "" : jobs == "bpfdb alone" ? " -n __fish_use_subcommand" : " -n \"__fish_seen_subcommand_from " jobs "\""
            printf "complete -c bpfdb%s%s%s -d \"%s\"\n", where, names, takes, $4
            if (of_shell($1, $5)) printf "complete -c bpfdb-shell%s%s -d \"%s\"\n", names, takes, $4
            if (of_page($1, $5)) printf "complete -c bpfdb-page%s%s -d \"%s\"\n", names, takes, $4
            if (jobs == "each") printf "complete -c bpfdb-dap -f%s%s -d \"%s\"\n", names, takes, $4
        }
    ' "$work/jobs" "$work/options"
    cat << 'TEXT'
complete -c bpfdb-context -n "not __fish_seen_subcommand_from packet hex struct" -f -a packet -d "of a packet of a capture"
complete -c bpfdb-context -n "not __fish_seen_subcommand_from packet hex struct" -f -a hex -d "of bytes in hexadecimal"
complete -c bpfdb-context -n "not __fish_seen_subcommand_from packet hex struct" -f -a struct -d "of structs by the types of an object"
complete -c bpfdb-context -s o -l output -r -F -d "The file to write"
complete -c bpfdb-context -s h -l help -d "Writes help to standard output"
TEXT
}

# mnemonics: those of the table of instructions, in its order.
mnemonics() {
    awk -F ' *\\| *' '/^## / { inside = $0 == "## Instructions" } inside && $2 ~ /^\{/ { gsub(/`/, "", $3); split($3, words, " "); print words[1] }' \
        docs/LISTING.md | awk '!seen[$0]++'
}

# vim: the syntax file of Vim.
vim() {
    cat << 'TEXT'
" Listings of bpfdb for Vim, made by docs/editors.sh: copy to ~/.vim/syntax/bpfdb.vim, and ':set filetype=bpfdb'.
if exists("b:current_syntax")
    finish
endif
syntax case match
syntax match bpfdbComment ";.*$"
syntax match bpfdbLabel "^\s*\zs[A-Za-z_][A-Za-z_0-9]*:"
syntax match bpfdbNumber "-\=\<\(0x[0-9a-fA-F]\+\|[0-9]\+\)\>"
syntax keyword bpfdbRegister r0 r1 r2 r3 r4 r5 r6 r7 r8 r9 r10
TEXT
    mnemonics | paste -s -d ' ' | fold -s -w 110 | sed 's/^/syntax keyword bpfdbMnemonic /; s/ $//'
    cat << 'TEXT'
highlight default link bpfdbComment Comment
highlight default link bpfdbLabel Label
highlight default link bpfdbNumber Number
highlight default link bpfdbRegister Identifier
highlight default link bpfdbMnemonic Statement
setlocal commentstring=;\ %s
let b:current_syntax = "bpfdb"
TEXT
}

# grammar: the TextMate grammar.
grammar() {
    cat << TEXT
{
  "name": "bpfdb listing",
  "scopeName": "source.bpfdb",
  "patterns": [
    { "name": "comment.line.semicolon.bpfdb", "match": ";.*\$" },
    { "name": "entity.name.label.bpfdb", "match": "^\\\\s*[A-Za-z_][A-Za-z_0-9]*:" },
    { "name": "keyword.mnemonic.bpfdb", "match": "\\\\b($(mnemonics | paste -s -d '|'))\\\\b(?!:)" },
    { "name": "variable.language.register.bpfdb", "match": "\\\\br(10|[0-9])\\\\b" },
    { "name": "constant.numeric.bpfdb", "match": "-?\\\\b(0x[0-9a-fA-F]+|[0-9]+)\\\\b" }
  ]
}
TEXT
}

# hold NAME MADE: the file of share/ is this one, or becomes so.
hold() {
    if [ "$mode" != --check ]; then
        cmp -s "share/$1" "$2" || cp "$2" "share/$1"
    elif ! cmp -s "share/$1" "$2"; then
        echo "docs/editors.sh: share/$1 differs from the pages ('docs/editors.sh' writes it anew)" >&2
        status=1
    fi
}

mode=${1:-} status=0
jobs > "$work/jobs"
options > "$work/options"
own_options page share/bpfdb-page > "$work/page"
own_options dap share/bpfdb/serving.py > "$work/dap"
cat "$work/page" "$work/dap" >> "$work/options"
mnemonics > "$work/mnemonics"
for list in jobs options page dap mnemonics; do
    [ -s "$work/$list" ] || { echo "docs/editors.sh: the pages have no $list" >&2; exit 1; }
done
# (a shell shows a description beside its option, on one line)
awk -F '\t' 'length($4) > 80 || $4 ~ /[][]|\(#/ { print "docs/editors.sh: no short words say what --" $1 " is: " $4; status = 1 } END { exit status }' \
    "$work/options" >&2 || exit 1
bash > "$work/made" && hold completion/bpfdb.bash "$work/made"
zsh > "$work/made" && hold completion/_bpfdb "$work/made"
fish > "$work/made" && hold completion/bpfdb.fish "$work/made"
vim > "$work/made" && hold editors/bpfdb.vim "$work/made"
grammar > "$work/made" && hold editors/vscode/bpfdb.tmLanguage.json "$work/made"
exit "$status"
