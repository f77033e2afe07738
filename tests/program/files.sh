# FILE and PATH: names that can't be read, names that are odd, devices without end, pipes, and one file for both.

bytes program b7 00 00 00 2a 00 00 00 EXIT
bytes first 71 10 00 00 00 00 00 00 EXIT
bytes eight 01 02 03 04 05 06 07 08
printf 'mov r0, 42\nexit\n' > program.s
mkdir folder

# unreadable NAME: it can't be read, as FILE of each subcommand nor as PATH.
unreadable() {
    for subcommand in run trace debug gdb origin asm disasm lines check link; do
        refused "cannot read $1" $subcommand "$1"
    done
    for subcommand in run trace debug disasm check; do
        refused "cannot read $1" $subcommand --listing "$1"
    done
    refused "cannot read $1" run -m "$1" program
    refused "cannot read $1" debug --mem="$1" program
}

unreadable missing
unreadable folder
unreadable .
unreadable ''
unreadable 'no such file'
unreadable program/inside
unreadable ' '
unreadable missing/é
long_name=$(printf '%0300d' 0)
unreadable "$long_name"
ln -s loop_of_links loop_of_links
unreadable loop_of_links
cp program secret
chmod 000 secret
# (who is root may read it)
[ -r secret ] || unreadable secret

# What would end a line, steer a terminal or turn its direction in a name is shown as `\xNN`, byte by byte: control characters (those of
# two bytes, too), marks of direction, and the character that stands for bytes that are none; all others as they are.
while IFS='|' read -r shown name; do
    name=$(printf '%b' "$name")
    for subcommand in run trace debug gdb origin asm disasm lines check link; do
        printf 'stepi\n' > script
        run $subcommand -- "$name"
        printf 'cannot read %s\n' "$shown" > line
        check_line "$subcommand of a file named $shown"
    done
    run debug -m "$name" program
    check_line "debug -m with a file named $shown"
done <<'ROWS'
two\x0alines|two\nlines
\x1b[31mred|\033[31mred
a\x01b\x1fc\x7fd|a\001b\037c\0177d
\x09\x0d.|\t\r.
\\x0a|\\\\x0a
é~ \x0b|é~ \v
\xc2\x9b1m\xc2\x85|\0302\02331m\0302\0205
a\xe2\x80\xaeb\xe2\x81\xa6\xe2\x81\xa9|a\0342\0200\0256b\0342\0201\0246\0342\0201\0251
\xe2\x80\x8e\xe2\x80\x8f\xd8\x9c\xe2\x80\xaa.|\0342\0200\0216\0342\0200\0217\0330\0234\0342\0200\0252.
À–“𝄞” \xef\xbf\xbd|\0303\0200–“\0360\0235\0204\0236” \0357\0277\0275
ROWS

# Names that are odd, and can be read.
for odd in 'two words' -m --listing run 'a=b' ';' é '*' "$(printf 'two\nlines')"; do
    cp program "./$odd"
    result '0x2a\n' run -- "$odd"
    result '0x2a\n' run "./$odd"
    result '0x2a\n' run -m "./$odd" program
done
result '0x2a\n' run run
result '0x2a\n' run 'two words'
result '0x2a\n' run "$PWD/program"
result '0x1\n' run --mem=eight first

# Empty files.
: > empty
refused 'refused C1: empty program' run empty
refused 'refused C1: empty program' check --listing empty
result '' asm empty
result '0x2a\n' run -m empty program

# FILE and PATH are one.
result '0x71\n' run -m first first
session 'FILE and PATH are one' 'x 0x100000000 16\nx 0x100000000 17\n' \
    '0x100000000: 71100000000000009500000000000000\nrefused Q6: address not present\n' debug -m first first
refused 'refused A6 at line 1: byte outside ASCII text' run --listing -m program program

# Devices: one without bytes, and one without end, of which no more is read than what shows that it is too long.
for subcommand in run trace debug disasm check; do
    refused 'refused C1: empty program' $subcommand /dev/null
    refused 'refused C2: program too long' $subcommand /dev/zero
    refused 'cannot read /dev/zero' $subcommand --listing /dev/zero
done
result '' asm /dev/null
refused 'cannot read /dev/zero' asm /dev/zero
refused 'refused T5 at line 1: test without a program' test /dev/null
refused 'cannot read /dev/zero' test /dev/zero
result '0x2a\n' run -m /dev/null program
refused 'refused O1: context too long' run -m /dev/zero program
refused 'refused O1: context too long' debug -m /dev/zero program
refused 'refused C2: program too long' run -m /dev/zero /dev/zero
refused 'refused A6 at line 1: byte outside ASCII text' run --listing -m /dev/zero program
head -c 67108864 /dev/zero | tr '\0' ';' > longest.s
result '' asm longest.s
printf ';' >> longest.s
refused 'cannot read longest.s' asm longest.s
rm longest.s

# refused_in_60_mb LINE ARGUMENT..: refused so, where the program may have no more memory than that.
refused_in_60_mb() {
    count=$((count + 1))
    (
        failures=0
        ulimit -v 60000
        refused "$@"
        exit "$failures"
    ) || failures=$((failures + 1))
}

# (what may be a listing or an object is read as far as one may go)
refused_in_60_mb 'refused C2: program too long' run --words /dev/zero
refused_in_60_mb 'out of memory' run /dev/zero
refused_in_60_mb 'refused O1: context too long' debug -m /dev/zero program
refused_in_60_mb 'out of memory' asm /dev/zero
refused_in_60_mb 'out of memory' check --listing /dev/zero

# Pipes. (A writer waits for a reader; 10 seconds at most, should there be none.)
mkfifo pipe

# pour COMMANDS: what they print goes into the pipe.
pour() {
    timeout 10 sh -c "{ $1; } > pipe" &
}

pour 'cat program'
result '0x2a\n' run pipe
wait
pour 'cat program.s'
result 'mov r0, 42\nexit\n' disasm --listing pipe
wait
pour 'cat eight'
result '0x1\n' run -m pipe first
wait
pour 'cat program; sleep 1; printf x'
refused 'refused C3: length is no multiple of 8' check pipe
wait
printf 'stepi\n' > script
cat program | "$program" check /dev/stdin > found/out 2> found/err
echo $? > found/status
check 'bpfdb check /dev/stdin' 0 'ok 2 instructions in 2 slots\n' ''
cat program | "$program" debug /dev/stdin > found/out 2> found/err
echo $? > found/status
check 'bpfdb debug /dev/stdin: no script is left' 0 '' ''
