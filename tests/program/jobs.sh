# What command lines come to, row by row: tables/jobs.txt, tables/sessions.txt and tables/command-lines.txt.

# digits FILE: writes standard input, hexadecimal digits, to a file as bytes.
digits() {
    printf '%b' "$(sed 's/../\\x&/g' | awk '
        function value(c) { return index("0123456789abcdef", c) - 1 }
        { for (i = 3; i <= length($0); i += 4) printf "\\0%o", value(substr($0, i, 1)) * 16 + value(substr($0, i + 1, 1)) }
    ')" > "$1"
}

# rows FILE: the rows of a table, without the lines at its head.
rows() {
    sed '/^#/d' "$parts/tables/$1"
}

# hexadecimal: what comes in, as digits.
hexadecimal() {
    od -An -v -tx1 | tr -d ' \n'
}

# job LINE WANTED: does a row's job over the file `p`. What comes of it is status, output and errors, each line ended by `;`.
job() {
    printf 'stepi\n' > script
    # (a command line's words are parted by blanks)
    run $1
    {
        printf '%s ' "$(cat found/status)"
        case $1 in
        asm* | link*) hexadecimal < found/out ;;
        *) tr '\n' ';' < found/out ;;
        esac
        printf ' '
        tr '\n' ';' < found/err
    } > found/told
    printf '%s' "$2" > wanted/told
    told "bpfdb $1: $2"
}

# told NAME: holds the file found/told against what is wanted.
told() {
    count=$((count + 1))
    cmp -s wanted/told found/told && return
    complain "$1"
    diff wanted/told found/told
}

# (a row's file is what follows its second bar, up to an empty line)
rows jobs.txt | awk 'BEGIN { RS = ""; FS = "\n" } {
    n = index($1, "|"); rest = substr($1, n + 1); m = index(rest, "|")
    print substr($1, 1, n - 1) > ("line-" NR); print substr(rest, 1, m - 1) > ("wanted-" NR)
    printf "%s", substr(rest, m + 1) > ("file-" NR)
    for (i = 2; i <= NF; i++) printf "\n%s", $i > ("file-" NR)
}'
number=1
while [ -f "line-$number" ]; do
    line=$(cat "line-$number")
    case $line in
    asm* | *--listing*) cp "file-$number" p ;;
    *) digits p < "file-$number" ;;
    esac
    job "$line" "$(cat "wanted-$number")"
    number=$((number + 1))
done

# Sessions: `;` between lines, `/` for `; ` in a reply.
rows sessions.txt > sessions
while IFS='|' read -r words context script replies; do
    printf '%s' "$words" | digits p
    printf '%s' "$context" | digits c
    printf '%s\n' "$script" | tr ';' '\n' > script
    printf '%s' "$replies" | tr ';' '\n' | sed 's|/|; |g' > wanted/out
    echo 0 > wanted/status
    : > wanted/err
    run debug -m c p
    compare "the session $words"
done < sessions

# Command lines.
bytes w 71 10 00 00 00 00 00 00 05 00 ff ff 00 00 00 00
bytes c 2a 01 00
bytes ./-p EXIT
printf 'ldxb r0, [r1+0]\nexit\n' > p
rows command-lines.txt > lines
while IFS='|' read -r line script status output; do
    printf '%s' "$script" | tr '/' '\n' > script
    run $line
    { cat found/status; cat found/out; } | hexadecimal > found/told
    {
        echo "$status"
        case $line in
        asm\ p) bytes asm.bin 71 10 00 00 00 00 00 00 EXIT; cat asm.bin ;;
        gdb*) printf '%s' "$output" ;;
        *) printf '%s' "${output:+$output/}" | tr '/' '\n' ;;
        esac
    } | hexadecimal > wanted/told
    told "bpfdb $line"
done < lines
