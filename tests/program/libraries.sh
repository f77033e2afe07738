# libraries: what bpfdb has no word for, and memory_calls is asked: questions of a line each (crates/memory_calls/src/questions.rt), each way to step,
# sessions whose pushes are refused for want of memory, and where a machine stands behind a read or a write that failed.
calls=${MEMORY_CALLS:-$top/crates/memory_calls/out/memory_calls}
if ! [ -x "$calls" ]; then
    left_out 'what only the libraries are asked' 'crates/memory_calls is not built'
    return
fi
tables=$parts/tables
kit=$(dirname "$(rt doc)")
for library in refuse faults; do
    "$kit/toolchain/bin/clang" -fuse-ld=lld -shared -fPIC -O1 -nostdlib -o $library.so "$top/tests/$library.c" ||
        complain "tests/$library.c can't be compiled by the clang of the kit, $kit"
done

# ask NAME COUNT: puts the questions of the file `asked`, of which there are so many, and holds the answers against the file `wanted/rows`.
ask() {
    "$calls" questions < asked > found/rows 2> found/err || complain "$1: status $?, $(cat found/err)"
    count=$((count + $2))
    [ "$(wc -l < asked)" -eq "$2" ] && [ "$(wc -l < wanted/rows)" -eq "$2" ] || complain "$1: not $2 questions"
    same_rows "$1"
}

# same_rows NAME: what was found is what is wanted, row by row.
same_rows() {
    cmp -s found/rows wanted/rows && return
    complain "$1"
    paste -d '\n' asked wanted/rows found/rows | awk 'NR % 3 == 1 { asked = $0 } NR % 3 == 2 { wanted = $0 } NR % 3 == 0 && $0 != wanted { print "  " asked ": " $0 " (wanted: " wanted ")" }' | head -n 10
}

# words: the rows of the file `rows`, `name | word | what it does`, as questions, and their answers: a text, and `; ` before each thing that it does.
words() {
    sed 's/^[^|]* | \([0-9a-f ]*\) | .*/\1/; s/ //g; s/^/word /' rows > asked
    sed 's/^\([^|]*\) | [0-9a-f ]* | /\1; /; s/; -$//; s/, writes /; writes /; s/, to /; to /; s/, stops$/; stops/' rows > wanted/rows
}

# Each instruction in each form: its text, and what it does. Of words that lead far the text isn't asked.
grep -v '^#' "$tables/instructions.txt" > rows
words
ask 'instructions' 174
grep -v '^#' "$tables/far-words.txt" > rows
words
sed 's/^[^;]*; //' wanted/rows > wanted/effects
"$calls" questions < asked | sed 's/^[^;]*; //' > found/rows
mv wanted/effects wanted/rows
count=$((count + 9))
[ "$(wc -l < wanted/rows)" -eq 9 ] || complain 'words that lead far: not 9'
same_rows 'words that lead far'
# Each opcode with zeros behind it: 116 are known.
awk 'BEGIN { for (n = 0; n < 256; n++) printf "word %02x000000000000000000000000000000\n", n }' > asked
"$calls" questions < asked > found/rows
count=$((count + 1))
[ "$(wc -l < found/rows)" -eq 256 ] && [ "$(grep -c -x C4 found/rows)" -eq 140 ] && [ "$(grep -c -x 'C[0-9]*' found/rows)" -eq 140 ] ||
    complain "opcodes: $(grep -c -x C4 found/rows) are unknown, and $(grep -c -x 'C[0-9]*' found/rows) are refused"

# Long runs of bytes, and what a reader of a listing's fault looks for.
grep -v '^#' "$tables/long-runs.txt" | tee rows | sed 's/ | [^|]* | / /; s/ | .*//; s/^none//; s/^/run /' > asked
sed 's/.* | //' rows > wanted/rows
ask 'long runs' 18
grep -v '^#' "$tables/fault-details.txt" | tee rows | sed 's/^.* => //' > wanted/rows
sed 's/ => [^>]*$//' rows | while IFS='~' read -r first lines last; do
    printf 'listing %s%s%s\n' "${first:+$first|}" "$(yes 'exit|' | head -n "$lines" | tr -d '\n')" "$last"
done > asked
ask 'details of faults' 9

# Each way to step, from each of three on: the program of tables/steps.txt to its end.
bytes program b7 00 00 00 05 00 00 00 18 03 00 00 11 22 33 44 00 00 00 00 55 66 77 88 7b 31 00 00 00 00 00 00 63 01 04 00 00 00 00 00 \
    6a 0a fe ff ff ff ff ff 72 0a 00 fe 09 00 00 00 73 01 00 00 00 00 00 00 79 14 00 00 00 00 00 00 15 04 01 00 00 00 00 00 \
    15 05 00 00 00 00 00 00 05 00 00 00 00 00 00 00 bf 42 00 00 00 00 00 00 87 00 00 00 00 00 00 00 b4 00 00 00 07 00 00 00 EXIT
bytes context f1 f2 f3 f4 f5 f6 f7 f8
ended='r0=0x7 r1=0x100000000 r2=0x544332205 r3=0x8877665544332211 r4=0x544332205 r5=0x0 r6=0x0 r7=0x0 r8=0x0 r9=0x0 r10=0x200000200\nexited at 15: r0 0x7\n'
echo 'info regs' > script
for first in 0 1 2; do
    for steps in 15 16; do
        "$calls" session list program context '' 1024 1000 $steps $first < script > found/out 2> found/err
        echo $? > found/status
        [ $steps = 15 ] && check "steps, the first in way $first" 0 "$ended" '' || check "steps, the first in way $first: one too many" 3 '' ''
    done
done

# What a session makes of pushes that are refused for want of memory: those of tables/narrow.txt, and packets.
bytes program 07 00 00 00 01 00 00 00 05 00 fe ff 00 00 00 00

# last_request WAY: how many requests for memory are made up to the last one that the file `script` comes to.
last_request() {
    REQUESTS=requests LD_PRELOAD=./refuse.so "$calls" session "$1" program - '' 65536 1000000 < script > taken 2>&1
    cut -d ' ' -f 1 requests
}

# narrow WAY NAME ROOM: plays the script with the requests behind the number $last refused, but where ROOM is a word and a block was given back.
narrow() {
    REQUESTS=requests REFUSED=$((last + 1)) REFUSED_ALL=1 REFUSED_ROOM=$3 LD_PRELOAD=./refuse.so "$calls" session "$1" program - '' 65536 1000000 \
        < script > found/out 2> found/err
    echo $? > found/status
    compare "$2"
}
awk '
    /^#/ || $0 == "" { next }
    /^(pushes|entries) / {
        split($0, half, " [|] ?")
        split($0, word, "[ ,]+")
        print ++number, word[1], word[2], word[3] > "sections"
        printf "" > (number ".first")
        many = split(half[2], command, ", ")
        for (i = 1; i <= many; i++) print command[i] > (number ".first")
        next
    }
    { bar = index($0, "|") }
    bar > 1 { print substr($0, 1, bar - 1) > (number ".script") }
    { print substr($0, bar + 1) > (number ".replies") }
' "$tables/narrow.txt"
[ "$(wc -l < sections)" -eq 5 ] || complain 'narrow: not 5 sections'
echo 0 > wanted/status
: > wanted/err
while read -r number kind most refusals; do
    cp "$number.first" script
    last=$(last_request list)
    cp "$number.script" script
    cp "$number.replies" wanted/out
    narrow list "narrow: $kind $most" "${kind#pushes}"
    [ "$(cut -d ' ' -f 2 requests)" = "$refusals" ] || complain "narrow: $kind $most: $(cut -d ' ' -f 2 requests) pushes are refused, and not $refusals"
done < sections
grep -v '^#' "$tables/narrow-packets.txt" > rows
[ "$(wc -l < rows)" -eq 22 ] || complain 'narrow packets: not 22 rows'
# (an edit and three steps)
printf '$P1=0700000000000000#c5$s#73$s#73$s#73' > script
last=$(last_request list-gdb)
cut -d '|' -f 1 rows | tr -d '\n' > script
cut -d '|' -f 2 rows | tr -d '\n' > wanted/out
narrow list-gdb 'narrow packets' ''

# Where a machine stands behind a read or a write that failed: mov r0, 42; exit.
bytes program b7 00 00 00 2a 00 00 00 EXIT

# failing WAY CALL DESCRIPTOR NUMBER: plays the script, whose bytes pass one a call; the call of that number fails.
failing() {
    FAULT_CALL=$2 FAULT_DESCRIPTOR=$3 FAULT_NUMBER=$4 FAULT_PIECE=1 FAULT_KIND=fail LD_PRELOAD=./faults.so "$calls" session "$1" program - '' 65536 1000000 \
        < script > found/out 2> found/err 9> met
    echo $? > found/status
}
# (a read of the second line: the reply to the first stands, and no other byte)
printf 'stepi\ninfo regs\n' > script
failing list read 0 11
check 'a read that fails in a line' 2 '1 forward; done; at 1: exit\n' 'cannot read input at 1: r0 0x2a\n'
printf 'stepi\ninfo regs\nreverse-stepi\n' > script
failing list write 1 11
check 'a write that fails in a reply' 2 '1 forward;' 'cannot write output at 1: r0 0x2a\n'
# (a step, what gdb understands, the rest of the program, and the way back: the first packet has five bytes)
printf '$s#73$qSupported:swbreak+#8b$c#63$bs#d5' > script
size=$(wc -c < script)
for number in $(seq "$((size + 1))"); do
    failing list-gdb read 0 "$number"
    count=$((count + 1))
    [ "$number" -le 5 ] && stands='0: r0 0x0' || stands='1: r0 0x2a'
    [ "$(cat found/status found/err)" = "2
cannot read input at $stands" ] || complain "packets whose read $number fails: $(cat found/status found/err)"
done
