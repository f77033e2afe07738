# What FILE is, by its first bytes and its name: the same as where it is said, and refused by name where that doesn't go together.
printf 'start: mov r0, 7\nexit\n' > seven.s
"$program" asm seven.s > seven.bin
cp seven.s seven
cp seven.s seven.S
cp seven.bin words.s
cp seven.bin words.o
for name in calls text data; do
    object $name
done
cp text.o text.s
cp text.o text
printf '\001' > letter

# alike WORDS: of these words, which name FILE last, comes what comes where `$said` says what FILE is.
alike() {
    # shellcheck disable=SC2086
    run $1
    for file in status out err; do
        cp found/$file wanted/
    done
    # shellcheck disable=SC2086
    run ${1%% *} $said ${1#* }
    compare "$1, beside $said"
}
printf 'stepi\nundo\n' > script
for words in 'run F' 'trace F' 'debug F' 'origin F' 'whynot --alone F 0' 'diff --other-mem letter F' 'disasm F' 'check F' 'load F' 'lines F' 'gdb F'; do
    for file in text.o text.s text calls.o data.o; do
        said=--object
        alike "$(echo "$words" | sed "s/F/$file/")"
    done
    case $words in lines*) continue ;; esac
    said=--listing
    alike "$(echo "$words" | sed 's/F/seven.s/')"
    said=--words
    for file in seven.bin words.s words.o; do
        alike "$(echo "$words" | sed "s/F/$file/")"
    done
done

# A listing's name ends in .s, of any folder, and is read as one from a pipe of another name where that is said.
mkdir folder.s
cp seven.s folder.s/seven
cp seven.s .s
result '0x7\n' run seven.s
result '0x7\n' run .s
result '0x7\n' run ./.s
result '0x7\n' run seven.bin
result '0x7\n' run words.s
result '0x7\n' run --listing seven
result '0x7\n' run --listing folder.s/seven
for name in seven seven.S folder.s/seven; do
    refused 'refused C3: length is no multiple of 8' run $name
done
refused 'refused C3: length is no multiple of 8' run --words seven.s
{ cat seven.s && printf '\0'; } > zero.s
refused 'refused C3: length is no multiple of 8' run zero.s
refused 'refused A6 at line 3: byte outside ASCII text' run --listing zero.s
: > empty.s
refused 'refused C1: empty program' run empty.s
printf 'frob\n' > wrong.s
refused 'refused A1 at line 1: unknown mnemonic' run wrong.s
refused 'refused A1 at line 1: unknown mnemonic' lines wrong.s
result '0 1 start\n1 2\n' lines seven
result '{"kind":"line","slot":0,"function":"entry"}\n{"kind":"line","slot":1,"function":"entry"}\n' lines --json text

# An object begins as one; words don't, and each of bpfdb's own has a byte that is zero.
bytes short 7f 45 4c
refused 'refused C3: length is no multiple of 8' run short
bytes magic 7f 45 4c 46
refused 'refused E1: no ELF file' run magic
refused 'refused E1: no ELF file' lines magic
refused 'refused C3: length is no multiple of 8' run --words magic
bytes begun 7f 45 4c 46 02 01 01 00
refused 'refused C6 at slot 0: unused field is not zero' run --words begun
refused 'refused A6 at line 1: byte outside ASCII text' run --listing begun
refused 'refused E1: no ELF file' link seven.s
refused 'refused A6 at line 1: byte outside ASCII text' asm begun

# From a pipe, once: what FILE is shows in what was read.
for file in text.o seven.bin; do
    "$program" check $file > wanted/out
    : > wanted/err
    echo 0 > wanted/status
    # shellcheck disable=SC2002
    cat $file | "$program" check /dev/stdin > found/out 2> found/err
    echo $? > found/status
    compare "check of $file from a pipe"
done

# Something that is asked of an object alone says that FILE is one, and maps beside an object are refused: by the words, where they say it, and else by FILE.
refused 'refused E1: no ELF file' run --section a seven.s
refused 'refused E31: no such function in the code section: entry' run --entry none text.o
for subcommand in run trace debug origin disasm check load gdb; do
    refused 'refused F1: an object has maps of its own: leave --maps out' $subcommand --maps 8x2 text.o
    refused 'refused F1: an object has maps of its own: leave --maps out' $subcommand --maps= text.s
done
refused 'refused F1: an object has maps of its own: leave --maps out' whynot --maps 8x2 text.o 0
refused 'refused F1: an object has maps of its own: leave --maps out' diff --maps 8x2 --other-mem letter text.o
refused 'refused F1: an object has maps of its own: leave --maps out' run --json --maps 8x2 text.o
refused 'cannot read missing' run --maps 8x2 -m missing text.o

# Two programs are looked at each by itself; both are objects, or none of them is.
for pair in 'seven.s seven.bin' 'seven.bin seven.s' 'seven.s seven.s' 'words.s words.o'; do
    # shellcheck disable=SC2086
    result 'same for 2 steps\nexited at 1: r0 0x7\n' diff $pair
done
refused 'refused C3: length is no multiple of 8 (the other run)' diff seven.s seven
refused 'refused C3: length is no multiple of 8 (the other run)' diff --words seven.bin seven.s
refused 'refused C3: length is no multiple of 8 (the other run)' diff --writes seven.bin zero.s
result 'same for 2 steps\nexited at 1: r0 0x7\n' diff --listing seven.s seven
refused 'refused A6 at line 1: byte outside ASCII text (the other run)' diff --listing seven.s seven.bin
for pair in 'text.o seven.s' 'seven.s text.o' 'text.s seven.bin'; do
    # shellcheck disable=SC2086
    refused 'refused F2: one of FILE and OTHER is an object, and the other is none' diff $pair
    # shellcheck disable=SC2086
    refused 'refused F2: one of FILE and OTHER is an object, and the other is none' diff --writes --alone $pair
done

# `batch` reads words, and nothing else.
printf -- '-\n' > script
run batch seven.bin
check 'batch of words' 0 '0x7\n' ''
run batch begun
check 'batch of an object' 0 'refused C6 at slot 0: unused field is not zero\n' ''

# What is too long for a source can't be read, and words that long are too long for a program. (The files have holes.)
cp text.o long.o
cp seven.bin long.bin
truncate -s 67108865 long.o long.bin
refused 'cannot read long.o' check long.o
refused 'cannot read long.o' lines long.o
refused 'refused C2: program too long' check long.bin
refused 'refused C2: program too long' check --words long.o
truncate -s 67108864 long.o long.bin
result 'ok 2 instructions in 2 slots\n' check long.o
refused 'refused C2: program too long' check long.bin
refused 'refused C2: program too long' check /dev/zero
