# Completion of bpfdb, bpfdb-shell, bpfdb-page, bpfdb-dap and bpfdb-context for bash, made by docs/editors.sh.
_bpfdb_names() {
    case $1 in
    --section) "$bpfdb" link "--section=?" -- "$file" 2>&1 > /dev/null | sed -n "s/^refused E8: no such code section: //p" | sed "s/, /\n/g" ;;
    --entry)
        "$bpfdb" link ${section:+"--section=$section"} "--entry=?" -- "$file" 2>&1 > /dev/null |
            sed -n "s/^refused E31: no such function in the code section: //p; s/^refused E9: .* chooses one: //p" | sed "s/, /\n/g"
        ;;
    --only) timeout 2 "$bpfdb" test -- "$file" < /dev/null 2> /dev/null | sed -n "s/^\(not \)\{0,1\}ok [0-9]* - //p" | awk "!seen[\$0]++" ;;
    esac
}
_bpfdb_of_file() {
    local bpfdb=${BPFDB:-bpfdb} file='' section='' before='' each word=$2
    [ "${COMP_WORDS[0]##*/}" != bpfdb ] || bpfdb=${COMP_WORDS[0]}
    for each in "${COMP_WORDS[@]:1}"; do
        [ "$each" != = ] || continue
        each=${each/#\~/$HOME}
        [ "$before" != --section ] || section=$each
        [ ! -f "$each" ] || file=$each
        before=$each
    done
    [ -n "$file" ] || return
    word=${word#[\"\']}
    word=${word//\\/}
    # (names are anything, so that nothing may expand them)
    while IFS= read -r each; do
        [ "${each#"$word"}" = "$each" ] && [ -n "$word" ] || COMPREPLY+=("$each")
    done < <(_bpfdb_names "$1")
}
_bpfdb() {
    local word=${COMP_WORDS[COMP_CWORD]} job=${COMP_WORDS[1]} first=1 before=${COMP_WORDS[COMP_CWORD - 1]} words
    [ "${COMP_WORDS[0]##*/}" = bpfdb ] || { job=${COMP_WORDS[0]##*bpfdb-} first=0; }
    # (the shell takes --option=value for three words)
    [ "$word" != = ] || { word=''; before='='; COMP_CWORD=$((COMP_CWORD + 1)); }
    [ "$before" != = ] || before=${COMP_WORDS[COMP_CWORD - 2]}
    COMPREPLY=()
    case $before in
    -m | --mem) mapfile -t COMPREPLY < <(compgen -f -- "$word"); return ;;
    --packet) :; return ;;
    --maps) :; return ;;
    --regs) :; return ;;
    --journal) :; return ;;
    --steps) :; return ;;
    --from) :; return ;;
    --count) :; return ;;
    --registers) mapfile -t COMPREPLY < <(compgen -W "x86 riscv bpf" -- "$word"); return ;;
    --section) _bpfdb_of_file --section "$word"; return ;;
    --entry) _bpfdb_of_file --entry "$word"; return ;;
    --entries) :; return ;;
    --helper) :; return ;;
    --script) mapfile -t COMPREPLY < <(compgen -f -- "$word"); return ;;
    --fields) :; return ;;
    --struct) :; return ;;
    --with) mapfile -t COMPREPLY < <(compgen -f -- "$word"); return ;;
    -o | --output) mapfile -t COMPREPLY < <(compgen -f -- "$word"); return ;;
    --lines) :; return ;;
    --other-mem) mapfile -t COMPREPLY < <(compgen -f -- "$word"); return ;;
    --other-packet) :; return ;;
    --trace) mapfile -t COMPREPLY < <(compgen -f -- "$word"); return ;;
    --only) _bpfdb_of_file --only "$word"; return ;;
    --show) mapfile -t COMPREPLY < <(compgen -W "program context options script" -- "$word"); return ;;
    --title) :; return ;;
    --port) :; return ;;
    --over) mapfile -t COMPREPLY < <(compgen -W "gdb bpfdb" -- "$word"); return ;;
    esac
    if [ "$COMP_CWORD" -eq "$first" ]; then
        mapfile -t COMPREPLY < <(compgen -W "run trace debug origin whynot diff asm disasm lines check load link gdb test batch help --help --version" -- "$word")
        return
    fi
    case $job in
    run) words="-m --mem --packet --maps --regs --steps --strict --words --listing --object --section --entry --entries --helper --fields --struct --with --no-linux --faithful --json -h --help" ;;
    trace) words="-m --mem --packet --maps --regs --steps --from --count --branches --profile --calls --strict --words --listing --object --section --entry --entries --helper --fields --struct --with --no-linux --faithful --json -h --help" ;;
    debug) words="-m --mem --packet --maps --regs --journal --steps --strict --words --listing --object --section --entry --entries --helper --fields --struct --with --no-linux --faithful --json --questions -h --help" ;;
    origin) words="-m --mem --packet --maps --regs --journal --steps --branches --strict --words --listing --object --section --entry --entries --helper --script --fields --struct --with --no-linux --faithful --lines --addresses --json --dot -h --help" ;;
    whynot) words="-m --mem --packet --maps --regs --journal --steps --strict --words --listing --object --section --entry --entries --helper --script --fields --struct --with --no-linux --faithful --lines --addresses --alone --json -h --help" ;;
    diff) words="-m --mem --packet --maps --regs --journal --steps --words --listing --object --section --entry --entries --helper --fields --struct --with --no-linux --faithful --lines --addresses --alone --other-mem --other-packet --trace --writes --json -h --help" ;;
    asm) words="-h --help" ;;
    disasm) words="--maps --words --listing --object --section --entry --entries --helper --fields --struct --with --no-linux --faithful --json -h --help" ;;
    lines) words="--object --section --entry --entries --helper --fields --struct --with --no-linux --faithful --json -h --help" ;;
    check) words="--maps --words --listing --object --section --entry --entries --helper --fields --struct --with --no-linux --faithful --json -h --help" ;;
    load) words="--maps --words --listing --object --section --entry --entries --helper --fields --struct --with --no-linux --faithful --json -h --help" ;;
    link) words="--section --entry --entries --helper --fields --struct --with --no-linux --faithful -r --relocatable -o --output -h --help" ;;
    gdb) words="-m --mem --packet --maps --regs --journal --steps --words --listing --object --registers --section --entry --entries --helper --fields --struct --with --no-linux --faithful -h --help" ;;
    test) words="--only --show --cover --cover-info --anywhere --json -h --help" ;;
    batch) words="--maps --steps -h --help" ;;
    shell) words="-m --mem --packet --maps --regs --journal --steps --strict --words --listing --object --section --entry --entries --helper --fields --struct --with --no-linux --faithful -h --help" ;;
    page) words="-m --mem --packet --maps --regs --steps --strict --words --listing --object --section --entry --entries --helper --fields --struct --with --no-linux --faithful -o --output --from --count --title -h --help" ;;
    dap) words="--port --over -h --help" ;;
    help) words="run trace debug origin whynot diff asm disasm lines check load link gdb test batch" ;;
    *) return ;;
    esac
    case $word in
    -*) mapfile -t COMPREPLY < <(compgen -W "$words" -- "$word") ;;
    *) [ "$job" != dap ] || return; if [ "$job" = help ]; then mapfile -t COMPREPLY < <(compgen -W "$words" -- "$word"); else mapfile -t COMPREPLY < <(compgen -f -- "$word"); fi ;;
    esac
}
complete -o filenames -F _bpfdb bpfdb bpfdb-shell bpfdb-page bpfdb-dap
_bpfdb_context() {
    local word=${COMP_WORDS[COMP_CWORD]} form='' at
    COMPREPLY=()
    for ((at = 1; at < COMP_CWORD; at++)); do
        case ${COMP_WORDS[at]} in packet | hex | struct) form=${COMP_WORDS[at]} ;; esac
    done
    case ${COMP_WORDS[COMP_CWORD - 1]},$word,$form in
    -o,* | --output,* | *,[!-]*,packet | *,,packet | *,[!-]*,struct | *,,struct) mapfile -t COMPREPLY < <(compgen -f -- "$word") ;;
    *,-*,*) mapfile -t COMPREPLY < <(compgen -W "-o --output -h --help" -- "$word") ;;
    *,*,) mapfile -t COMPREPLY < <(compgen -W "packet hex struct" -- "$word") ;;
    esac
}
complete -o filenames -F _bpfdb_context bpfdb-context
