# What listings are assembled to, and how programs are listed, row by row: tables/listings.txt, long-listings.txt, bytes.txt and canonical.txt; and the texts of
# tables/instructions.txt, each to its word.
tables=$parts/tables

# table NAME COUNT: the rows of a table, of which there are so many, into the file `rows`: what stands before the arrow, and behind it in `wanted/rows`.
table() {
    grep -v '^#' "$tables/$1.txt" > rows
    sed 's/^.* => //' rows > wanted/rows
    sed 's/ => [^>]*$//' rows > inputs
    [ "$(wc -l < rows)" -eq "$2" ] || complain "$1: not $2 rows"
}

# judge: holds the answers of the file `found/rows` against the rows.
judge() {
    count=$((count + $(wc -l < rows)))
    paste -d '\n' found/rows wanted/rows rows | awk '
        NR % 3 == 1 { found = $0 }
        NR % 3 == 2 { wanted = $0 }
        NR % 3 == 0 && found != wanted { print "FAILED: " $0; print "  found: " found }
    ' > judged
    [ "$(wc -l < found/rows)" -eq "$(wc -l < rows)" ] || complain 'as many answers as rows'
    cat judged
    failures=$((failures + $(grep -c '^FAILED: ' judged)))
}

# answer FILE: what `asm` makes of a listing: its words in hexadecimal, - for none; or the number and the line of its fault. What else there is of status,
# output and errors is told as it is.
answer() {
    "$program" asm "$1" > found/out 2> found/err
    status=$?
    line=$(cat found/err)
    case $status/$line in
    0/) [ -s found/out ] && od -An -v -tx1 found/out | tr -d ' \n' || printf '%s' - ;;
    2/'refused A'[1-8]' at line '*': '*)
        fault=${line#refused }
        number=${fault%% *} fault=${fault#* at line }
        [ ! -s found/out ] && [ "${fault#*: }" = "$(fault_text "$number")" ] && printf '%s %s' "$number" "${fault%%: *}" || printf '%s' "$line" ;;
    *) printf '%s' "$status $line" ;;
    esac
    echo
}

# fault_text NUMBER: the text of a fault of that number, by docs/LISTING.md.
fault_text() {
    case $1 in
    A1) echo 'unknown mnemonic' ;;
    A2) echo 'wrong operands' ;;
    A3) echo 'number out of range' ;;
    A4) echo 'label defined twice' ;;
    A5) echo 'unknown label' ;;
    A6) echo 'byte outside ASCII text' ;;
    A8) echo 'too many slots' ;;
    esac
}

table listings 207
while IFS= read -r listing; do
    printf '%b' "$listing" | tr '|' '\n' > p
    answer p
done < inputs > found/rows
judge

# (of a long one just the ends are written)
table long-listings 16
while IFS='~' read -r first lines last; do
    { [ -z "$first" ] || echo "$first"; yes exit | head -n "$lines"; printf '%s' "$last"; } > p
    answer p | sed 's/^\([0-9a-f]\{16\}\).*\([0-9a-f]\{16\}\)$/\1..\2/'
done < inputs > found/rows
judge

# Each mnemonic in each form: the text of an instruction in slot 0, which a label names, and its word; what follows is `exit`.
sed -n 's/^\([^/|]*\) | \([0-9a-f]*\) | .*/\1 => \29500000000000000/p' "$tables/instructions.txt" > rows
sed 's/^.* => //' rows > wanted/rows
sed 's/ => [^>]*$//' rows > inputs
[ "$(wc -l < rows)" -eq 174 ] || complain 'instructions: not 174 rows'
while IFS= read -r instruction; do
    printf 'L0: %s\nexit' "$instruction" > p
    answer p
done < inputs > found/rows
judge

# Each of the 256 bytes at the places where its class matters.
bytes_known=0
while read -r from to fault listing; do
    [ "$from" != '#' ] || continue
    byte=$from
    while [ "$byte" -le "$to" ]; do
        printf '%b' "${listing%%\?*}\\0$(printf '%o' "$byte")${listing#*\?}" > p
        "$program" asm p > found/out 2> found/err
        status=$? line=''
        read -r line < found/err
        case $fault:$status:$line in
            0:0: | [1-8]:2:"refused A$fault at line "[12]': '*) ;;
            *) complain "$listing with the byte $byte: $line" ;;
        esac
        byte=$((byte + 1)) bytes_known=$((bytes_known + 1))
    done
done < "$tables/bytes.txt"
count=$((count + bytes_known))
[ "$bytes_known" -eq $((7 * 256)) ] || complain 'not each of the 256 bytes at each place'

table canonical 3
while IFS= read -r listing; do
    printf '%s' "$listing" | tr '|' '\n' > p
    "$program" asm p > words
    "$program" disasm --maps 8x2,8x2,8x2 words 2>&1 | tr '\n' '|'
    echo
done < inputs > found/rows
judge
