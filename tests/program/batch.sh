# Batches: each line of standard input is a case, and is answered by a line. What a case comes to is that of RFC 9669 and of the manual.

bytes program 71 10 01 00 00 00 00 00 EXIT
bytes context 01 02 fe

# The line, the answer: by hand.
: > lines
: > answers
while IFS='|' read -r line answer; do
    printf '%b\n' "$line" >> lines
    printf '%s\n' "$answer" >> answers
done <<'ROWS'
b70000002a0000009500000000000000|0x2a
B7000000FFFFFFFF9500000000000000|0xffffffffffffffff
|refused C1: empty program
 \t|refused C1: empty program
95|refused C3: length is no multiple of 8
71100100000000009500000000000000 0102|0x2
\t 71100100000000009500000000000000 \t 01FE \r|0xfe
71100100000000009500000000000000 01|fault access 0x100000001 at 0
71100100000000009500000000000000|fault access 0x1 at 0
bf200000000000009500000000000000 00000a|0x3
bf100000000000009500000000000000|0x0
bf100000000000009500000000000000 00|0x100000000
0500ffff00000000|step limit 9 reached at 0
07000000010000000500feff00000000|step limit 9 reached at 1
85100000ffffffff9500000000000000|fault depth at 0
85000000010000009500000000000000|fault token 0x0 at 0
b7000000010000009500000000000000ff00000000000000|refused C4 at slot 2: unknown instruction
b70000000100000005000500000000009500000000000000|refused C8 at slot 1: target is no instruction
b700000001000000|refused C10 at slot 0: program runs off its end
850000007b0000009500000000000000|refused C11 at slot 0: unknown helper
18520000000000000000000000000000b7000000010000009500000000000000|0x1
18520000010000000000000000000000b7000000010000009500000000000000|refused C12 at slot 0: no such map or offset
9500000000000000 0g|refused B2: not hexadecimal
9500000000000000 000|refused B2: not hexadecimal
95000000000000000|refused B2: not hexadecimal
exit|refused B2: not hexadecimal
9500000000000000 00 00|refused B2: not hexadecimal
-- 00|refused B2: not hexadecimal
0x95|refused B2: not hexadecimal
-|refused C1: empty program
9500000000000000|0x0
ROWS
row 'batch: a row a line' 0 "$(text lines)" "$(text answers)" '' batch --maps 8x2 --steps 9
row 'batch: nothing' 0 '' '' '' batch
row 'batch: a line feed' 0 '\n' 'refused C1: empty program\n' '' batch
row 'batch: a last line without a line feed' 0 '9500000000000000\n9500000000000000' '0x0\n0x0\n' '' batch
row 'batch: an input in front of a byte that is none' 0 'b70000002a0000009500000000000000\0000\n95' 'refused B2: not hexadecimal\nrefused C3: length is no multiple of 8\n' '' batch

# FILE's program is that of a minus sign; no case sees what another left in memory, whether it has the words of the case before or not.
row 'batch: the program of FILE' 0 '- 0105\n-\n- 0106\n9500000000000000 00\n- 0107\n-\n' \
    '0x5\nfault access 0x1 at 0\n0x6\n0x0\n0x7\nfault access 0x1 at 0\n' '' batch program
row 'batch: a refused program of FILE' 0 '-\n-\n9500000000000000\n' \
    'refused C3: length is no multiple of 8\nrefused C3: length is no multiple of 8\n0x0\n' '' batch context
# r0 = the double word at the context, which becomes 7, plus that of a map's first cell, which becomes 7 as well
counter=79100000000000007a010000070000001861000000000000000000000000000079120000000000007a010000070000000f200000000000009500000000000000
zeros=0000000000000000
row 'batch: new memory for each case' 0 "$counter $zeros\n$counter $zeros\n$counter 0100000000000000\n9500000000000000\n$counter $zeros\n" \
    '0x0\n0x0\n0x1\n0x0\n0x0\n' '' batch --maps 8x1
# a frame's bytes are zero, whatever the case before left there
stack=79a0f8ff000000007a0af8ff070000009500000000000000
row 'batch: a new frame for each case' 0 "$stack\n$stack\n$stack\n" '0x0\n0x0\n0x0\n' '' batch

# Lines as long as a line may be, and longer; the longest program and the longest context.
printf '%02097152d\n%02097153d\n%03000000d\n95' 0 0 0 > script
run batch
check 'batch: long lines' 0 'refused C2: program too long\nrefused B1: line too long\nrefused B1: line too long\nrefused C3: length is no multiple of 8\n' ''
{
    yes b700000001000000 | head -n 65534 | tr -d '\n'
    printf '9500000000000000 '
    yes 00 | head -n 65536 | tr -d '\n'
    printf '\nbf20000000000000%s ' 9500000000000000
    yes 00 | head -n 65536 | tr -d '\n'
    printf '\n9500000000000000 '
    yes 00 | head -n 65537 | tr -d '\n'
    printf '\n'
} > script
run batch
check 'batch: the longest program and context' 0 '0x1\n0x10000\nrefused O1: context too long\n' ''

# Each answer comes before the next line is read.
mkfifo asked told
"$program" batch < asked > told 2> found/err &
process=$!
exec 6> asked 7< told
: > found/out
for number in 1 2 3; do
    printf 'b70000000%s0000009500000000000000\n' "$number" >&6
    IFS= read -r answer <&7
    echo "$answer" >> found/out
done
exec 6>&-
wait "$process"
echo $? > found/status
exec 7<&-
check 'batch: through pipes, a case at a time' 0 '0x1\n0x2\n0x3\n' ''

# Lines whose line feeds stand around every place where input is read on, by blanks behind a case; and a byte a read.
: > script
: > answers
at=0
for size in 8191 1 8190 2 8191 8192 8193 16383 16384 16385 3; do
    at=$((at + 1))
    if [ "$size" -lt 40 ]; then
        printf '%*s\n' "$((size - 1))" '' >> script
        echo 'refused C1: empty program' >> answers
    else
        printf 'b7000000%02x0000009500000000000000%*s\r\n' "$at" "$((size - 34))" '' >> script
        printf '0x%x\n' "$at" >> answers
    fi
done
run batch
check 'batch: line feeds around the places where input is read on' 0 "$(text answers)" ''
dd bs=1 if=script 2> /dev/null | "$program" batch > found/out 2> found/err
echo $? > found/status
check 'batch: a byte a write' 0 "$(text answers)" ''

# Refused maps; input that can't be read, output that can't be written, and a FILE that isn't there.
refused 'refused M1: value size not 1 to 256' batch --maps 0x1
refused 'cannot read missing' batch missing
usage "unexpected argument '--listing' found" batch --listing program
usage "unexpected argument 'two' found" batch one two
"$program" batch < . > found/out 2> found/err
echo $? > found/status
check "batch: input that can't be read" 2 '' 'cannot read input\n'
printf '95\n' > script
"$program" batch < script >&- 2> found/err
echo $? > found/status
: > found/out
check 'batch: a closed output' 2 '' 'cannot write output\n'
if [ -c /dev/full ]; then
    "$program" batch < script > /dev/full 2> found/err
    echo $? > found/status
    check 'batch: a full output' 2 '' 'cannot write output\n'
fi

# The same as `run` of each program by itself, over cases at random: words and contexts of a generator of its own.
awk 'BEGIN {
    seed = 12345
    for (i = 0; i < 200; i++) {
        words = ""
        for (k = 0; k < 3; k++) {
            seed = (seed * 1103515245 + 12345) % 2147483648
            pick = int(seed / 65536) % 6
            seed = (seed * 1103515245 + 12345) % 2147483648
            byte = int(seed / 65536) % 256
            if (pick == 0) words = words sprintf("b7000000%02x000000", byte)
            if (pick == 1) words = words sprintf("07000000%02x000000", byte)
            if (pick == 2) words = words sprintf("7110%02x0000000000", byte % 8)
            if (pick == 3) words = words sprintf("1500%02x00%02x000000", k < 2, byte)
            if (pick == 4) words = words sprintf("27000000%02x000000", byte)
            if (pick == 5) words = words sprintf("%02x00000000000000", byte)
        }
        print words "9500000000000000 " substr("0123456789abcdef", 1, 2 * (byte % 5))
    }
}' > script
run batch
cp found/out found/answers
while read -r words memory; do
    printf '%b' "$(echo "$words" | sed 's/../& /g' | awk '{ for (i = 1; i <= NF; i++) { d = index("0123456789abcdef", substr($i, 1, 1)) * 16 + index("0123456789abcdef", substr($i, 2, 1)) - 17; printf "\\0%o", d } }')" > one
    printf '%b' "$(echo "$memory" | sed 's/../& /g' | awk '{ for (i = 1; i <= NF; i++) { d = index("0123456789abcdef", substr($i, 1, 1)) * 16 + index("0123456789abcdef", substr($i, 2, 1)) - 17; printf "\\0%o", d } }')" > memory
    "$program" run -m memory one 2>&1
done < script > each
same 'batch: what run says of each' each found/answers
