# rings: the bytes of a ring, and a ring beside a list, where an entry goes around the end of the block. memory_calls plays each row of tables/rings.txt at each
# place at which the end can cut its entry, and at the three behind these: first its first commands, then edits of bytes that change none, which fill the
# journal up to that place, then its last command, whose last move is taken back and made again. The ring's bytes are told behind each of these three
# (crates/memory_calls/src/sessions.rt), and held against the entries of the row; all replies are those over a list.

calls=${MEMORY_CALLS:-$top/crates/memory_calls/out/memory_calls}
if ! [ -x "$calls" ]; then
    left_out 'the bytes of rings' 'crates/memory_calls is not built'
    return
fi
size=1024
bytes context 01 02 03 04 05 06 07 08

# (Of each row: its program, and of each place a script; what is wanted of all is in the file `wanted/bytes`.)
awk -v size=$size '
    # times(word): the digits of `00*8`, also among others.
    function times(word,   parts, many, text) {
        if (split(word, parts, "*") == 1) return word
        for (many = parts[2]; many > 0; many--) text = text parts[1]
        return text
    }
    # digits(words): without blanks.
    function digits(words,   word, many, k, text) {
        many = split(words, word, " ")
        for (k = 1; k <= many; k++) text = text times(word[k])
        return text
    }
    # number(n): in two bytes, the lower one first.
    function number(n) { return sprintf("%02x%02x", n % 256, int(n / 256)) }
    # keep(entry): one more entry.
    function keep(entry) { kept[++count] = entry; weight += length(entry) / 2 }
    # told(name): what is wanted of the entries that fit into the journal, the newest of all.
    function told(   k, text, sum) {
        for (k = count; k > dropped && sum + length(kept[k]) / 2 <= size; k--) sum += length(kept[k]) / 2
        dropped = k
        for (k++; k <= count; k++) text = text kept[k]
        print "bytes " text > "wanted/bytes"
    }
    # fill(most): edits of bytes, each of 14 to 269 in the journal, until it holds so many.
    function fill(most,   left, next_one) {
        while ((left = most - weight) >= 14) {
            next_one = left > 282 ? 269 : left > 269 ? left - 14 : left
            print "set mem 0x200000000 " times("00*" (next_one - 13)) > script
            keep(number(next_one) "8b0000000002000000" times("00*" (next_one - 13)) number(next_one))
        }
        if (left) print "row " row ", place " gap ": " left " bytes are left"
    }
    # put(list): keeps the entries of a list.
    function put(list,   entry, many, k) {
        many = split(list, entry, ",")
        for (k = 1; k <= many; k++) keep(digits(entry[k]))
    }
    # look(): asks for the bytes, and for what the rows change of a state.
    function look() { print "\ninfo history\ninfo regs\nx 0x100000000 8\nlast-write 0x100000000" > script }
    # play(commands, first, entries): a script, and what is wanted of it.
    function play(commands, first, entries,   word, many, k, last) {
        script = row "." gap ".script"
        count = weight = dropped = 0
        many = split(commands, word, ", ")
        for (k = 1; k < many; k++) print word[k] > script
        put(first)
        fill(size - gap - front)
        last = word[many]
        if (split(last, word, " ") == 5) last = word[1] " " word[2] " " word[3] " " word[4] " " times(word[5])
        print last > script
        put(entries)
        look()
        told()
        print (last ~ /^stepi/ ? "reverse-stepi" : "undo") > script
        look()
        last = kept[count--]
        told()
        print "redo" > script
        look()
        keep(last)
        told()
        print "reverse-stepi 9\ninfo history\nundo 9\ninfo history\ninfo regs" > script
        close(script)
    }
    /^#/ { next }
    {
        row++
        split($0, part, / *[|] */)
        print part[2] "9500000000000000" > (row ".program")
        # (the last entry is the one that is cut; in front of it go those of the command that made it)
        many = split(part[5], entry, ",")
        cut = length(digits(entry[many])) / 2
        front = 0
        for (k = 1; k < many; k++) front += length(digits(entry[k])) / 2
        for (gap = 0; gap < cut + 3; gap++) {
            play(part[3], part[4], part[5])
            print row, gap > "places"
        }
    }
' "$parts/tables/rings.txt" > found/unfilled
[ ! -s found/unfilled ] || complain "$(head -n 3 found/unfilled)"

played=0
: > found/err
while read -r row gap; do
    [ "$row" = "$played" ] || { bytes program $(sed 's/../& /g' "$row.program"); played=$row; }
    for way in ring-bytes list; do
        {
            echo "== row $row, place $gap"
            "$calls" session $way program context 256x2 $size 1000000 < "$row.$gap.script" || complain "memory_calls session $way, row $row, place $gap: status $?"
        } >> found/$way 2>> found/err
    done
done < places
[ ! -s found/err ] || complain "$(head -n 3 found/err)"

# (The lines of rings are parted by the rows and places to which they belong.)
awk 'NR == FNR { wanted[++rows] = $0; next } FNR % 4 == 1 { place = $0; next } $0 != wanted[++row] { print "FAILED: the bytes of a ring, " place; print "  wanted: " wanted[row]; print "  found: " $0 } END { print row > "rows" }' \
    wanted/bytes - <<FOUND > judged
$(grep -E '^(bytes|==) ' found/ring-bytes)
FOUND
[ "$(cat rows)" -eq "$(wc -l < wanted/bytes)" ] || complain 'as many bytes of rings as are wanted'
head -n 30 judged
failures=$((failures + $(grep -c '^FAILED: ' judged)))
count=$((count + $(wc -l < wanted/bytes)))
grep -v '^bytes ' found/ring-bytes > found/ring
same 'each entry goes around the end: a ring and a list' found/list found/ring
[ "$(wc -l < places)" -ge 2500 ] || complain 'places of entries'

# What a marked fetch leaves, as docs/JOURNAL.md shows it; and what a full ring of a program without end begins with where the oldest entries were dropped: a jump.
bytes program db 11 00 00 01 00 00 00 EXIT
bytes context 01 00 00 00 00 00 00 00
printf 'stepi\n\n' > script
"$calls" session ring-bytes program context '' 65536 1000000 < script > found/out 2> found/err
echo $? > found/status
fetched='21008600000100000000010000000000000001000000080100000000000000'2100
check 'a fetch leaves its bytes' 0 "1 forward; done; at 1: exit\nbytes $fetched\n" ''
bytes program 07 00 00 00 01 00 00 00 05 00 fe ff 00 00 00 00
printf 'stepi 100\n\n' > script
"$calls" session ring-bytes program - '' $size 1000000 < script > found/out 2> found/err
echo $? > found/status
cut -c 1-20 found/out > found/begins
printf '%s\n' '100 forward; done; a' 'bytes 07000201000700' > wanted/begins
same 'dropped entries leave no bytes' wanted/begins found/begins
