# Transcripts: sessions command by command, each with its reply, over both kinds of journals. They stand in tests/program/transcripts/, a file a
# kind, with an empty line between two. A line that begins with `#` is a comment. What a transcript begins with says what is debugged:
#
#     program WORD ..    slots as 16 hexadecimal digits, WORD*N for N of the same; more such lines go on
#     context BYTES      the context, two digits a byte
#     maps LIST          --maps
#     journal SIZE       --journal, where it isn't 65536
#     steps N            --steps, where it isn't 1000000
#     before N           so many steps are taken before the session, which begins with an empty journal
#     again              it also holds where the session is closed after each command, and opened again over what that gave
#     unended            behind the last command there is no line feed
#
# Then each row is a command, a bar and the reply. Further lines of a reply stand behind a bar alone, and a command without a reply has no
# bar. `{N*C}` in a command stands for C bytes of the number N. What begins with `part NAME` is rows alone; a row `rows NAME` stands for them.
#
# bpfdb plays them over a ring: whole, and with calls to the system that read and write one byte, and seven. memory_calls plays them over
# a list (crates/memory_calls/src/sessions.rt), and what bpfdb has no word for over a ring, too.

calls=${MEMORY_CALLS:-$top/crates/memory_calls/out/memory_calls}
[ -x "$calls" ] || echo "transcripts: lists are left out, since there is no $calls"
kit=$(dirname "$(rt doc)")
"$kit/toolchain/bin/clang" -fuse-ld=lld -shared -fPIC -O1 -nostdlib -o interrupt.so "$top/tests/interrupt.c" ||
    complain "tests/interrupt.c can't be compiled by the clang of the kit, $kit"

# divide FILE: writes the files of each transcript N of the file: N.program and N.context (bytes as digits), N.script, N.replies, N.rows (the row
# of each line of the replies), and into `list` a line: N, what begins it (`-` for none), and its comment.
divide() {
    LC_ALL=C awk '
        # write_bytes(text, file): with each {N*C} as the bytes that it stands for. (A string may not hold a zero byte.)
        function write_bytes(text, file, words) {
            while (match(text, /[{][0-9]+[*][0-9]+[}]/)) {
                split(substr(text, RSTART + 1, RLENGTH - 2), words, "*")
                printf "%s", substr(text, 1, RSTART - 1) > file
                for (; words[2] > 0; words[2]--) printf "%c", words[1] + 0 > file
                text = substr(text, RSTART + RLENGTH)
            }
            printf "%s", text > file
        }
        # digits(text): with a blank behind each two of them.
        function digits(text) {
            gsub(/../, "& ", text)
            return text
        }
        # open(): the files of one more transcript, and what holds where it does not say it.
        function open() {
            number++
            row = 0
            maps = again = unended = "-"
            journal = 65536
            steps = 1000000
            before = 0
            for (kind in kinds) printf "" > (number "." kind)
        }
        # shut(): ends a transcript or a part, if there is one.
        function shut() {
            if (is_open && part == "") {
                if (row && unended == "-") print "" > (number ".script")
                for (kind in kinds) close(number "." kind)
                print number, maps, journal, steps, before, again, row, title > "list"
            }
            is_open = is_begun = 0
            part = title = ""
        }
        # take(line): a row, or one more line of a reply.
        function take(line, bar, command) {
            bar = index(line, "|")
            command = bar ? substr(line, 1, bar - 1) : line
            if (command != "") {
                if (row++) print "" > (number ".script")
                write_bytes(command, number ".script")
                last = command
            }
            if (!bar) return
            print substr(line, bar + 1) > (number ".replies")
            print row ": " last > (number ".rows")
        }
        # insert(name): the rows of a part.
        function insert(name, lines, count, i) {
            count = split(parts[name], lines, "\n")
            if (count < 2) { print "there is no part " name > "faults"; return }
            for (i = 1; i < count; i++) take(lines[i])
        }
        # slots(first): the bytes of the slots from that word of the line on.
        function slots(first, i, words) {
            for (i = first; i <= NF; i++) {
                if (split($i, words, "*") < 2) words[2] = 1
                for (; words[2] > 0; words[2]--) print digits(words[1]) > (number ".program")
            }
        }
        BEGIN { split("program context script replies rows", names, " "); for (i in names) kinds[names[i]] }
        $0 == "" { shut(); next }
        /^#/ { if (title == "") title = substr($0, 3); next }
        !is_open && $1 == "part" { is_open = 1; part = $2; next }
        part != "" { parts[part] = parts[part] $0 "\n"; next }
        !is_open { open(); is_open = 1 }
        is_begun { if ($1 == "rows") insert($2); else take($0); next }
        $1 == "program" { slots(2); next }
        $1 == "context" { print digits($2) > (number ".context"); next }
        $1 == "maps" { maps = $2; next }
        $1 == "journal" { journal = $2; next }
        $1 == "steps" { steps = $2; next }
        $1 == "before" { before = $2; next }
        $1 == "again" { again = $1; next }
        $1 == "unended" { unended = $1; next }
        { is_begun = 1; if ($1 == "rows") insert($2); else take($0) }
        END { shut() }
    ' "$1"
}

# hold NAME: the last run came to the replies of the transcript. Else it is told which row is the first that differs.
hold() {
    compare "$table.txt, transcript $number ($title): $1" && return
    awk -v rows="$number.rows" '
        { found[NR] = $0 }
        END {
            while ((getline reply < "wanted/out") > 0) {
                getline row < rows
                if (reply != found[++line]) { print "  the first row that differs is " row; exit }
            }
            print "  what is wanted has all that differs behind its last row"
        }
    ' found/out
}

# ringed ARGUMENT..: bpfdb plays the transcript, whole and in pieces.
ringed() {
    run debug "$@" program
    hold 'bpfdb'
    for piece in 1 7; do
        env SHORT=$piece LD_PRELOAD=./interrupt.so "$program" debug "$@" program < script > found/out 2> found/err
        echo $? > found/status
        hold "bpfdb, in pieces of $piece"
    done
}

# called WAY: memory_calls plays the transcript so.
called() {
    "$calls" session "$1" program "$context" "${maps#-}" "$journal" "$steps" "$before" < script > found/out 2> found/err
    echo $? > found/status
    hold "memory_calls, $1"
}

# play: plays the transcript of these settings in each way that holds for it.
play() {
    bytes program $(cat "$number.program")
    context=-
    set -- --journal "$journal" --steps "$steps"
    [ "$maps" = - ] || set -- --maps "$maps" "$@"
    if [ -s "$number.context" ]; then
        bytes context $(cat "$number.context")
        context=context
        set -- -m context "$@"
    fi
    cp "$number.script" script
    cp "$number.replies" wanted/out
    [ "$before" != 0 ] || ringed "$@"
    [ -x "$calls" ] || return
    called list
    [ "$before" = 0 ] || called ring
    [ "$again" = - ] || { called list-again; called ring-again; }
}

echo 0 > wanted/status
: > wanted/err
for table in commands sessions calls redo shown stops maps journals lines refusals; do
    : > list
    divide "$parts/transcripts/$table.txt"
    [ -s list ] || complain "$table.txt: there are no transcripts"
    while read -r number maps journal steps before again rows title; do
        play
    done < list
done
[ ! -e faults ] || complain "$(cat faults)"

# random_script SEED MOST: 240 random commands with counts up to MOST, each followed by a look at the history. A seed determines them.
random_script() {
    awk -v seed="$1" -v most="$2" '
        # (the generator of Park and Miller, whose products a double holds)
        function below(bound) {
            seed = seed * 16807 % 2147483647
            return int(seed / 2147483647 * bound)
        }
        function up_to(greatest) { return 1 + below(greatest) }
        # An address that the program writes to, one that edits alone change, or one that is not there.
        function address() { return addresses[up_to(8)] }
        # Some bytes, mostly eight.
        function digits(text, i) {
            for (i = below(8) ? 8 : up_to(7); i > 0; i--) text = text sprintf("%02x", below(256))
            return text
        }
        function forward(kind) {
            kind = below(8)
            return kind < 3 ? goals[kind + 1] : "stepi " up_to(most)
        }
        function back(kind) {
            kind = below(8)
            if (kind < 3) return targets[kind + 1]
            return kind < 5 ? "undo " up_to(3) : "reverse-stepi " up_to(most)
        }
        # An edit of a register, of bytes, of a cell or of pc. Now and then there is no such place.
        function edit(kind) {
            kind = below(6)
            if (kind == 0) return "set reg r" below(11) " " below(8)
            if (kind == 1) return "set reg r8 0x100000000"
            if (kind == 2) return "set mem " address() " " digits()
            if (kind == 3) return "set cell 0 " below(3) " " digits()
            return "set pc " below(30)
        }
        # What shows something, or sets or removes a stop.
        function shown(kind) {
            kind = below(12)
            if (kind < 2) return (kind ? "delete " : "break ") below(28)
            if (kind < 4) return (kind == 2 ? "watch " : "unwatch ") address()
            if (kind < 7) return "info " views[kind - 3]
            if (kind == 7) return "x " address() " " up_to(16)
            return kind < 10 ? "last-write " address() : "info history"
        }
        BEGIN {
            split("0x100000000 0x100000004 0x2000001f8 0x2000001f4 0x2000005ff 0x300000000 0x300000008 0x400000000", addresses, " ")
            split("continue nexti finish", goals, " ")
            split("reverse-continue reverse-nexti reverse-finish", targets, " ")
            split("regs frames trace", views, " ")
            for (i = 0; i < 240; i++) {
                kind = below(7)
                if (kind == 0) print edit()
                else if (kind < 3) print back()
                else if (kind == 3) print "redo " up_to(most)
                else if (kind == 4) print shown()
                else print forward()
                print "info history"
            }
        }
    '
}

# agrees JOURNAL STEPS SEED MOST: a random script is answered alike over a ring and over a list, also where the session is closed after each
# command and opened again.
agrees() {
    journal=$1 steps=$2
    random_script "$3" "$4" > script
    for way in '' -again; do
        for keeper in list ring; do
            "$calls" session "$keeper$way" program context 8x2 "$journal" "$steps" < script > found/$keeper 2> found/err ||
                complain "memory_calls session $keeper$way: status $?, $(cat found/err)"
        done
        same "random script $3 with counts up to $4, a journal of $journal and --steps $steps: list$way and ring$way" found/list found/ring
        [ -n "$way" ] || mv found/ring found/first
    done
    run debug -m context --maps 8x2 --journal "$journal" --steps "$steps" program
    same "random script $3 with counts up to $4, a journal of $journal and --steps $steps: bpfdb and memory_calls" found/out found/first
    [ "$(wc -l < found/first)" -ge 480 ] || complain "random script $3: fewer replies than commands"
}

# A loop whose steps make each kind of entry. A store to where r8 is goes wrong at first; at slot 24 it exits, once r9 is 5. A round leaves
# entries of some 970 bytes: so a small journal holds one, and the block of a greater ring, which is given 4,096 bytes more each time that it is
# full, grows.
bytes program 07 00 00 00 01 00 00 00 bf 06 00 00 00 00 00 00 7b 0a f8 ff 00 00 00 00 63 6a f4 ff 00 00 00 00 6b 0a f2 ff 00 00 00 00 \
    73 0a f1 ff 00 00 00 00 7a 0a f8 fe 07 00 00 00 db 6a f8 ff 01 00 00 00 c3 6a f4 ff 00 00 00 00 85 10 00 00 0f 00 00 00 \
    45 00 01 00 07 00 00 00 63 08 00 00 00 00 00 00 bf a2 00 00 00 00 00 00 07 02 00 00 e8 ff ff ff 62 0a e8 ff 01 00 00 00 \
    18 51 00 00 00 00 00 00 00 00 00 00 00 00 00 00 bf a3 00 00 00 00 00 00 07 03 00 00 e8 fe ff ff b7 04 00 00 00 00 00 00 \
    85 00 00 00 02 00 00 00 bf 01 00 00 00 00 00 00 85 00 00 00 40 00 00 00 55 09 e8 ff 05 00 00 00 EXIT \
    b7 07 00 00 03 00 00 00 73 7a ff ff 00 00 00 00 EXIT
bytes context 01 02 03 04 05 06 07 08
if [ -x "$calls" ]; then
    for seed in $(seq 102); do
        agrees $((1024 + seed % 17)) 100 "$seed" 20
    done
    agrees 8192 1000 1001 400
    agrees 65536 1000 1002 400
fi
