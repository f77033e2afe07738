# What each part of tests/program.sh stands on: how a test is run, what it is held against, and how a failure is told.
count=0
failures=0

# begin PART: the tests of this part, in a folder of their own, so that the names of their files are short.
begin() {
    mkdir "$work/$1" "$work/$1/found" "$work/$1/wanted" || exit 1
    cd "$work/$1" || exit 1
    . "$parts/$1.sh"
}

# complain NAME: counts a test that failed and says so.
complain() {
    failures=$((failures + 1))
    echo "FAILED: $1"
}

# run ARGUMENT..: runs the program on the file `script`. What is found: its status, output and standard error.
run() {
    "$program" "$@" < script > found/out 2> found/err
    echo $? > found/status
}

# check NAME STATUS OUTPUT ERRORS: holds the last run against what was wanted; the texts are as printf's %b reads them.
check() {
    echo "$2" > wanted/status
    printf '%b' "$3" > wanted/out
    printf '%b' "$4" > wanted/err
    compare "$1"
}

# check_line NAME: the last run wrote nothing but the line of the file `line`, to standard error, and its status is 2.
check_line() {
    echo 2 > wanted/status
    : > wanted/out
    cp line wanted/err
    compare "$1"
}

# agree FILE: what was found in it is what was wanted. (Where both are empty no other program is called.)
agree() {
    if [ -s "wanted/$1" ] || [ -s "found/$1" ]; then
        cmp -s "wanted/$1" "found/$1"
    fi
}

# compare NAME: holds what was found against what was wanted.
compare() {
    count=$((count + 1))
    agree status && agree out && agree err && return 0
    complain "$1"
    for file in status out err; do
        agree $file && continue
        echo "  $file ('<' wanted, '>' found):"
        diff -a "wanted/$file" "found/$file"
    done
    return 1
}

# row NAME STATUS SCRIPT OUTPUT ERRORS [ARGUMENT..]: runs the program with the arguments on the script, and checks it.
row() {
    printf '%b' "$3" > script
    name=$1 status=$2 output=$4 errors=$5
    shift 5
    run "$@"
    check "$name" "$status" "$output" "$errors"
}

# What a row without a name is about: its command line. Its script has a command that would be answered.
script_unread='stepi\n'

# result OUTPUT ARGUMENT..: the command line gives this output, and status 0.
result() {
    output=$1
    shift
    row "bpfdb $*" 0 "$script_unread" "$output" '' "$@"
}

# stopped LINE ARGUMENT..: a run that doesn't reach the program's end: status 1, and this line on standard error.
stopped() {
    line=$1
    shift
    row "bpfdb $*" 1 "$script_unread" '' "$line\n" "$@"
}

# refused LINE ARGUMENT..: the command line is answered by this line on standard error alone, and status 2.
refused() {
    line=$1
    shift
    row "bpfdb $*" 2 "$script_unread" '' "$line\n" "$@"
}

# usage TEXT ARGUMENT..: the command line is none of bpfdb's: status 2, and on standard error `error: TEXT`, perhaps more,
# and where to find help.
usage() {
    text=$1
    shift
    printf '%b' "$script_unread" > script
    run "$@"
    check_usage "bpfdb $*"
}

# check_usage NAME: the last run was told that its command line is none, by $text.
check_usage() {
    cp found/err message
    { head -n 1 message; tail -n 1 message; } > found/err
    check "$1" 2 '' "error: $text\nFor more information, try '--help'.\n" || cat message
}

# tells STATUS OUTPUT ARGUMENT..: the answer and the status; nothing is on standard error, and the script stays unread.
tells() {
    status=$1 output=$2
    shift 2
    row "bpfdb $*" "$status" "$script_unread" "$output" '' "$@"
}

# session NAME SCRIPT REPLIES ARGUMENT..: the script is answered by these replies.
session() {
    name=$1 script=$2 replies=$3
    shift 3
    row "$name" 0 "$script" "$replies" '' "$@"
}

# version: the line of `bpfdb --version`: the version of the changelog, and the toolchain that README names.
version() {
    printf 'bpfdb %s (%s)\\n' "$(sed -n 's/^## \([0-9][0-9.]*\).*/\1/p' "$top/CHANGELOG.md" | head -n 1)" \
        "$(sed -n 's/.*`\(rattle-kit-[^`]*\)`.*/\1/p' "$top/README.md" | head -n 1)"
}

# listing NAME LINE: writes a listing; the line is as printf's %b reads it, with `;` between instructions.
listing() {
    printf '%b\n' "$2" | tr ';' '\n' > "$1"
}

# object NAME: the object of tests/program/objects/NAME.txt, in the file NAME.o.
object() {
    bytes "$1.o" $(sed '/^#/d; s/../& /g' "$parts/objects/$1.txt")
}

# limiter: an XDP program with a hash, as the kernel loads it; functions that answer its helpers, from a file that is named from here on; those of Linux; and
# a packet of IPv6.
limiter() {
    cp "$parts/doors/limit.c" "$parts/doors/mock.c" "$top/examples/firewall/ipv6.bin" .
    clang -g -O1 -fstack-size-section -target bpf -c limit.c
    clang -g -O1 -fdebug-prefix-map="$PWD"=. -target bpf -c mock.c
    clang -g -O2 -mcpu=v3 -target bpf -I"$top/share" -c "$top/share/bpfdb-linux.c"
}

# told_maps: the option for the maps in what `link` told.
told_maps() {
    sed -n '/^--maps /p' told
}

# text FILE: the lines of a file, as printf's %b reads them.
text() {
    sed 's/\\/\\\\/g; s/$/\\n/' "$1" | tr -d '\n'
}

# bytes FILE BYTE..: writes bytes, each as two hexadecimal digits; EXIT stands for the eight of `exit`. They are left in
# $text as printf's %b reads them.
bytes() {
    file=$1 text=
    shift
    for byte in "$@"; do
        case $byte in
            EXIT) text="$text\\0225\\00\\00\\00\\00\\00\\00\\00" ;;
            *) text="$text\\0$((0x$byte / 64))$((0x$byte / 8 % 8))$((0x$byte % 8))" ;;
        esac
    done
    printf '%b' "$text" > "$file"
}

# commands_of PAGE SECTIONS FOLDER: each command after '$ ' in the page's sections of these names (an expression of awk) is the file command-N of a new
# folder, and the lines below it are text-N.
commands_of() {
    mkdir "$3" || exit 1
    awk -v sections="^## ($2)$" -v folder="$3" '
        /^## / { inside = $0 ~ sections }
        /^```/ { block = !block; next }
        inside && block && /^\$ / { n++; print substr($0, 3) > (folder "/command-" n); printf "" > (folder "/text-" n); next }
        inside && block { print > (folder "/text-" n) }
    ' "$top/$1"
}

# same NAME FILE FILE: two files have the same bytes.
same() {
    count=$((count + 1))
    cmp -s "$2" "$3" && return 0
    complain "$1"
    od -An -v -tx1 "$2" > wanted/bytes
    od -An -v -tx1 "$3" > found/bytes
    echo "  bytes ('<' of $2, '>' of $3):"
    diff wanted/bytes found/bytes | head -n 10
    return 1
}

# compile NAME: a program of tests/trials, by the clang of the kit, with the kit's own files of the C library.
compile() {
    kit=$(dirname "$(rt doc)")
    library=$kit/toolchain/lib
    "$kit/toolchain/bin/clang" -fuse-ld=lld -O1 -nostdlib -ffreestanding -fno-stack-protector -o "$1" "$top/tests/trials/$1.c" \
        "$library/Scrt1.o" "$library/crti.o" "$library/libc.so.6" "$library/crtn.o" -Wl,-dynamic-linker,/lib64/ld-linux-x86-64.so.2 ||
        complain "tests/trials/$1.c can't be compiled by the clang of the kit, $kit"
}

# spread NAME WORD..: a program of trials in as many processes as there are processors, each in a folder of its own, with these words: the
# program to try, the number of the process from 0 on, how many processes there are, and what else it takes. What fails is told,
# and counted.
spread() {
    trial=$PWD/$1 processes=$(nproc)
    shift
    for process in $(seq 0 $((processes - 1))); do
        mkdir "$process" || exit 1
        (cd "$process" && exec "$trial" "$program" "$process" "$processes" "$@" > told 2>&1) &
        started="$started $!"
    done
    for process in $started; do
        wait "$process"
        [ $? -le 1 ] || complain "$trial ended with status $?"
    done
    started=''
    cat [0-9]*/told | grep -a -v '^[0-9]* trials'
    count=$((count + $(cat [0-9]*/told | awk '/^[0-9]+ trials/ { sum += $1 } END { print sum + 0 }')))
    failures=$((failures + $(cat [0-9]*/told | grep -a -c '^FAILED: ')))
}
