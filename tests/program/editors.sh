# What shells complete of bpfdb's command line, and what editors show of a listing: of each shell and editor that is installed here.

# completed WANTED WORD..: what bash makes of the last word of a command line, by the function that is for its first one.
completed() {
    wanted=$1
    shift
    bash -c '. "$1"; shift; COMP_WORDS=("$@") COMP_CWORD=$(($# - 1)); function=$(complete -p "$1" | sed "s/.* -F \([^ ]*\).*/\1/"); $function; printf "%s\n" "${COMPREPLY[@]}"' \
        bash "$top/share/completion/bpfdb.bash" "$@" > found/out 2> found/err
    echo $? > found/status
    check "bash: $*" 0 "$wanted" ''
}

: > program.bin
mkdir bin
ln -s "$program" bin/bpfdb
PATH=$PWD/bin:$PATH
bytes overrun.o $(sed 's/../& /g' "$top/examples/overrun/object.hex")
# (a section whose name a shell would obey: `id`;x in the place of filter)
bytes hostile.o $(sed 's/66696c746572/6069 64603b78/g; s/ //g; s/../& /g' "$top/examples/overrun/object.hex")
# (programs in two sections)
object two
cp "$top/examples/suite/program.test" named.test
if has bash 'completion in bash'; then
    completed 'run\n' bpfdb ru
    completed 'debug\ndiff\ndisasm\n' bpfdb d
    completed 'debug\n' bpfdb debug
    completed 'help\n' bpfdb he
    completed '--version\n' bpfdb --v
    completed '--maps\n' bpfdb run --ma
    completed '--steps\n--strict\n--struct\n' bpfdb run --st
    completed '\n' bpfdb run --journal
    completed '--journal\n--json\n' bpfdb debug --j
    completed '--section\n' bpfdb link --sec
    completed '\n' bpfdb link --maps
    completed 'x86\nriscv\nbpf\n' bpfdb gdb --registers ''
    completed '\n' bpfdb run --steps ''
    completed 'program.bin\n' bpfdb run -m prog
    completed 'program.bin\n' bpfdb check prog
    completed 'lines\nload\nlink\n' bpfdb help l
    completed '--addresses\n' bpfdb origin --ad
    completed '--journal\n' bpfdb-shell --j
    completed '--section\n' bpfdb-shell --sec
    completed '--regs\n' bpfdb-shell --reg
    completed 'program.bin\n' bpfdb-shell prog
    completed '--object\n--output\n' bpfdb-page --o
    completed '--journal\n' bpfdb-shell --jou
    completed '\n' bpfdb-page --jou
    completed '--struct\n' bpfdb-page --stru
    completed '--with\n' bpfdb-shell --wit
    completed 'program.bin\n' bpfdb-page -o prog
    completed '--port\n--over\n-h\n--help\n' bpfdb-dap -
    completed 'gdb\nbpfdb\n' bpfdb-dap --over ''
    completed '\n' bpfdb-dap prog
    # Values: words of an option, and names that stand in the file.
    completed 'program\ncontext\noptions\nscript\n' bpfdb test --show ''
    completed 'riscv\n' bpfdb gdb --registers = r
    completed 'x86\nriscv\nbpf\n' bpfdb gdb --registers =
    completed '.text\nfilter\n' bpfdb link overrun.o --section ''
    completed 'filter\n' bpfdb-shell overrun.o --section f
    completed 'filter\n' bpfdb-page overrun.o --section = f
    completed '`id`;x\n' bpfdb link hostile.o --section '\`'
    completed 'entry\n' bpfdb link overrun.o --entry ''
    completed 'copy\nsize_of\n' bpfdb link --section .text overrun.o --entry ''
    completed 'first\nsecond\n' bpfdb run two.o --entry ''
    completed 'a short header is dropped\n' bpfdb test named.test --only "'a sh"
    completed '\n' bpfdb test program.bin --only ''
    completed '\n' bpfdb link --section ''
    completed 'packet\n' bpfdb-context -o other pa
    completed 'packet\nhex\nstruct\n' bpfdb-context ''
    completed '--output\n' bpfdb-context --o
    completed 'program.bin\n' bpfdb-context -o prog
    completed 'program.bin\n' bpfdb-context -o other packet prog
    completed 'program.bin\n' bpfdb-context struct prog
    completed '\n' bpfdb-context hex prog
fi
if has fish 'completion in fish'; then
    for row in 'bpfdb ru|run' 'bpfdb run --ma|--maps' 'bpfdb run --jo|' 'bpfdb debug --jo|--journal' 'bpfdb gdb --registers ri|riscv' 'bpfdb-shell --jo|--journal' 'bpfdb-page --ti|--title' 'bpfdb-dap --over b|bpfdb' \
        'bpfdb test --show sc|script' 'bpfdb link overrun.o --section f|filter' 'bpfdb link --section .text overrun.o --entry s|size_of' 'bpfdb run two.o --entry s|second' \
        'bpfdb link hostile.o --section \`|`id`;x' 'bpfdb test named.test --only a\ sh|a short header is dropped' \
        'bpfdb-context pac|packet' 'bpfdb-context --ou|--output' 'bpfdb-context struct pac|'; do
        HOME=$PWD fish --no-config -c "source '$top/share/completion/bpfdb.fish'; complete -C '${row%|*}'" 2> found/err | sed 's/\t.*//' > found/out
        echo 0 > found/status
        check "fish: ${row%|*}" 0 "${row#*|}$([ -z "${row#*|}" ] || printf '%s' '\n')" ''
    done
fi
# offered NAME..: the options that the file of bash offers for a subcommand or for a program beside bpfdb.
offered() {
    sed -n "s/^    $1) words=\"\(-.*\)\" ;;/\1/p" "$top/share/completion/bpfdb.bash" | tr ' ' '\n'
}

# takes NAME COMMAND WORD..: each option that is offered there is one that this command takes, whatever it says of a value and of FILE. One that it doesn't
# take it calls unexpected, or unknown.
takes() {
    name=$1
    shift
    offered "$name" > options
    count=$((count + 1))
    [ "$(wc -l < options)" -gt 2 ] || complain "completion: no options of $name"
    for option in $(cat options) --unheard-of; do
        "$@" "$option" < /dev/null > found/out 2>&1
        if [ "$option" = --unheard-of ]; then
            grep -q -i 'unexpected\|unrecognized\|no option' found/out || complain "$*: takes $option"
        elif grep -i 'unexpected\|unrecognized\|no option' found/out; then
            complain "$*: $option is offered, and refused"
        fi
    done
}

for job in run trace debug origin whynot diff disasm lines check link gdb test batch; do
    takes "$job" "$program" "$job"
done
if has python3 'what bpfdb-shell, bpfdb-page and bpfdb-dap take'; then
    BPFDB=$program
    export BPFDB
    for name in shell page dap; do
        takes "$name" "$top/share/bpfdb-$name"
    done
fi
# The files of zsh and fish offer the same.
for name in shell page dap; do
    offered "$name" | sort > wanted/options
    sed -n "s/^    $name) //p" "$top/share/completion/_bpfdb" | grep -o -e '{-[a-zA-Z],--[a-z-]*}' -e '"\**--[a-z-]*' | tr -d '{}"*' | tr ',' '\n' | sort > found/options
    same "zsh: the options of bpfdb-$name" wanted/options found/options
    sed -n "s/^complete -c bpfdb-$name //p" "$top/share/completion/bpfdb.fish" | grep -o -e '-s [a-zA-Z] ' -e '-l [a-z-]* ' | sed 's/-s /-/; s/-l /--/; s/ $//' | sort > found/options
    same "fish: the options of bpfdb-$name" wanted/options found/options
done
if has zsh 'the completion file of zsh'; then
    zsh -f -n "$top/share/completion/_bpfdb" > found/out 2> found/err
    echo $? > found/status
    check 'zsh: the syntax of its file' 0 '' ''
fi

# Each mnemonic of the listing of all forms is a word of both syntax files.
sed 's/;.*//; s/^ *[A-Za-z_][A-Za-z_0-9]*://' "$parts/listings/forms.s" | awk 'NF { print $1 }' | sort -u > wanted/words
sed -n 's/^syntax keyword bpfdbMnemonic //p' "$top/share/editors/bpfdb.vim" | tr ' ' '\n' | sort -u > found/words
same 'Vim: the mnemonics' wanted/words found/words
sed -n 's/.*keyword.mnemonic.*b(\(add[^)]*\)).*/\1/p' "$top/share/editors/vscode/bpfdb.tmLanguage.json" | tr '|' '\n' | sort -u > found/words
same 'TextMate: the mnemonics' wanted/words found/words
if has python3 'the JSON of editors'; then
    for name in bpfdb.tmLanguage.json package.json; do
        python3 -m json.tool "$top/share/editors/vscode/$name" > /dev/null 2> found/err
        echo $? > found/status
        : > found/out
        check "VS Code: $name is JSON" 0 '' ''
    done
fi
if has vim 'colours in Vim'; then
    printf 'loop: add r0, -1 ; loop\n' > one.listing
    cat > show.vim <<'VIM'
execute 'source' $SYNTAX
let names = []
for column in [1, 7, 11, 15, 18]
    call add(names, synIDattr(synID(1, column, 1), 'name'))
endfor
call writefile(names, 'found/out')
quit!
VIM
    SYNTAX=$top/share/editors/bpfdb.vim vim -N -u NONE -i NONE -es -c 'syntax on' -S show.vim one.listing < /dev/null > found/err 2>&1
    echo $? > found/status
    check 'Vim: what is what in a line' 0 'bpfdbLabel\nbpfdbMnemonic\nbpfdbRegister\nbpfdbNumber\nbpfdbComment\n' ''
fi
