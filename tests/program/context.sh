# Contexts: what bpfdb-context writes, tells and refuses. Fields lie where the compiler has them: tests/program/context/fields.c reads them, by 'bpfdb run'. Captures are
# written here by their format's description, and tcpdump says what is in them. Damaged input is that of tests/trials/contexts.py.

# context STATUS OUTPUT ERRORS WORD..: bpfdb-context on these words, and the file `script` as its input, ends so; what is refused leaves the file
# that was there, and no other.
context() {
    wanted_status=$1 wanted_output=$2 wanted_errors=$3
    shift 3
    [ "$wanted_status" = 0 ] || echo before > made/context
    "$top/share/bpfdb-context" "$@" < script > found/out 2> found/err
    echo $? > found/status
    check "bpfdb-context $*" "$wanted_status" "$wanted_output" "$wanted_errors" || return
    [ "$wanted_status" = 0 ] || [ "$(cat made/*)" = before ] || complain "bpfdb-context $*: what it refuses changes the file"
    [ "$(ls -A made)" = context ] || complain "bpfdb-context $*: it leaves files: $(ls -A made)"
}

# holds NAME BYTE..: the last context has these bytes.
holds() {
    name=$1
    shift
    bytes wanted/context "$@"
    same "$name: the bytes" wanted/context made/context
}

# refuses ERRORS GROUP..: these structs of fields.o are refused.
refuses() {
    line=$1
    shift
    context 2 '' "bpfdb-context: fields.o: $line\n" -o made/context struct fields.o "$@"
}

# groups WITHOUT: the words that make the structs of fields.c, without the line of that number of `settings`, are in the file `words`, a line each.
groups() {
    awk -v without="$1" '
        BEGIN { group["whole"] = "whole:whole next=&second inner=&inner"; group["second"] = "second:whole"; group["inner"] = "inner:inner" }
        NR != without { name = $1; sub(/^[a-z]+ /, ""); group[name] = group[name] " " $0 }
        END { print group["whole"]; print group["second"]; print group["inner"] }
    ' "$parts/context/settings" > words
}

# read_back WITHOUT: what the program answers of these structs is found.
read_back() {
    groups "$1"
    set --
    while IFS= read -r word; do
        set -- "$@" "$word"
    done < words
    "$top/share/bpfdb-context" -o made/context struct fields.o "$@" > told 2> found/err && run run -m made/context fields.bin
}

# linked NAME: that program of fields.c.
linked() {
    "$program" link --section "in_$1" fields.o > "$1.bin" 2> said || complain "bpfdb link --section in_$1: $(cat said)"
}

# known NAME: what the compiler knows, in decimal.
known() {
    linked "$1"
    printf '%d' "$("$program" run "$1.bin")"
}

# of_capture NAME NUMBER BYTE..: the file NAME has the global head of a capture of the old format, and packets (head and bytes) behind it.
of_capture() {
    name=$1
    shift
    bytes "$name" d4 c3 b2 a1 02 00 04 00 00 00 00 00 00 00 00 00 00 00 04 00 01 00 00 00 "$@"
}

# shown_packet CAPTURE N: the bytes of a packet in hexadecimal digits, as tcpdump shows them.
shown_packet() {
    tcpdump -n -t -xx -r "$1" 2> /dev/null | awk -v wanted="$2" '
        /^[^\t]/ { number++ }
        /^\t0x/ && number == wanted { sub(/^\t0x[0-9a-f]*: */, ""); gsub(/ /, ""); print }
    ' | tr -d '\n'
}

# page_in FOLDER PAGE: each command that a page shows after '$ ' prints what follows it there, one after the other in a shell that begins in the folder.
page_in() {
    mkdir page_commands page_wanted page_found
    awk '
        /^```/ { block = !block; next }
        block && /^\$ / { n++; print substr($0, 3) > ("page_commands/" n); printf "" > ("page_wanted/" n); next }
        block && n { print > ("page_wanted/" n) }
    ' "$2"
    found=$PWD/page_found commands=$PWD/page_commands
    (
        PATH=$PWD/bin:$PATH
        cd "$1" || exit 1
        for n in $(ls "$commands" | sort -n); do
            eval "$(cat "$commands/$n")" > "$found/$n" 2>&1 < /dev/null
        done
    )
    for n in $(ls page_commands | sort -n); do
        same "$2: $(cat "page_commands/$n")" "page_wanted/$n" "page_found/$n"
    done
    [ "$(ls page_commands | wc -l)" -gt 20 ] || complain "$2 shows too few commands"
}

tool=bpfdb-context
if has python3 "$tool"; then
    mkdir made
    : > script
    : > made/context

    # The command line.
    more='; bpfdb-context --help tells more'
    context 2 '' "bpfdb-context: 'bpfdb-context -o CTX packet, hex or struct ..' is wanted$more\n"
    context 2 '' "bpfdb-context: 'bpfdb-context -o CTX packet, hex or struct ..' is wanted$more\n" -o made/context
    context 2 '' "bpfdb-context: 'bpfdb-context -o CTX hex TEXT..' is wanted$more\n" hex 01
    context 2 '' "bpfdb-context: 'bpfdb-context -o CTX hex TEXT..' is wanted$more\n" hex 01 -o
    context 2 '' "bpfdb-context: 'bpfdb-context -o CTX hex TEXT..' is wanted$more\n" hex 01 -o ''
    context 2 '' "bpfdb-context: 'bpfdb-context -o CTX hex TEXT..' is wanted$more\n" -o made/context hex
    context 2 '' "bpfdb-context: 'bpfdb-context -o CTX packet CAPTURE N' is wanted$more\n" -o made/context packet one
    context 2 '' "bpfdb-context: 'bpfdb-context -o CTX packet CAPTURE N' is wanted$more\n" -o made/context packet one 1 2
    context 2 '' "bpfdb-context: 'bpfdb-context -o CTX struct OBJECT 'NAME:TYPE FIELD=VALUE ..'..' is wanted$more\n" -o made/context struct one.o
    context 2 '' "bpfdb-context: 'frame' is none of packet, hex, struct\n" -o made/context frame
    context 2 '' "bpfdb-context: 'fr\\\\x1bame\\\\x0a.' is none of packet, hex, struct\n" -o made/context "$(printf 'fr\033ame\n.')"
    context 2 '' 'bpfdb-context: -o is given twice\n' -o made/context --output made/other hex 01
    context 2 '' 'bpfdb-context: there is no option --maps; bpfdb-context --help shows those that there are\n' --maps -o made/context hex 01
    "$top/share/bpfdb-context" --help > found/out 2> found/err
    echo $? > found/status
    head -n 1 found/out > found/first && mv found/first found/out
    check 'bpfdb-context --help' 0 'usage: bpfdb-context -o CTX packet CAPTURE N\n' ''

    # Bytes.
    for form in '-o made/context' '-omade/context' '-o=made/context' '--output made/context' '--output=made/context'; do
        # shellcheck disable=SC2086
        context 0 '' '' $form hex 01fF 80
        holds "$form" 01 ff 80
    done
    context 0 '' '' hex -o made/context -- '0a 0B	0c
0d' '' 0e
    holds 'blanks between bytes' 0a 0b 0c 0d 0e
    context 0 '' '' -o made/context hex ''
    holds 'no bytes'
    printf '00 01\r\n\n02\t03 04\n' > script
    context 0 '' '' -o made/context hex -
    holds 'bytes of standard input' 00 01 02 03 04
    no='is no bytes, each of two hexadecimal digits'
    printf '00 01\n02 3\n' > script
    context 2 '' "bpfdb-context: standard input, line 2: '3' $no\n" -o made/context hex -
    printf '00 \377\033' > script
    context 2 '' "bpfdb-context: standard input, line 1: '\\\\xff\\\\x1b' $no\n" -o made/context hex -
    : > script
    context 2 '' "bpfdb-context: hex: '012' $no\n" -o made/context hex 00 012
    context 2 '' "bpfdb-context: hex: '0x01' $no\n" -o made/context hex 0x01
    context 2 '' "bpfdb-context: hex: '-' $no\n" -o made/context hex 01 -
    context 2 '' "bpfdb-context: hex: '٠١' $no\n" -o made/context hex '٠١'
    head -c 65536 /dev/zero | od -An -v -tx1 > script
    context 0 '' '' -o made/context hex -
    head -c 65536 /dev/zero > wanted/context
    same 'the longest context' wanted/context made/context
    echo 00 >> script
    context 2 '' 'bpfdb-context: the context has 65537 bytes, and at most 65536 are taken\n' -o made/context hex -
    : > script
    "$top/share/bpfdb-context" -o made/context hex - <&- > found/out 2> found/err
    echo $? > found/status
    check 'bpfdb-context without an input' 2 '' 'bpfdb-context: standard input: Bad file descriptor\n'

    # The file, and what can't be written.
    (umask 027 && "$top/share/bpfdb-context" -o made/context hex 01)
    [ "$(ls -l made/context | cut -c 1-10)" = -rw-r----- ] || complain 'bpfdb-context: the mode of its file'
    ln -s made/context linked
    context 0 '' '' -o linked hex 02
    holds 'through a link' 02
    [ -L linked ] || complain 'bpfdb-context takes a link away'
    context 2 '' 'bpfdb-context: made: Is a directory\n' -o made hex 01
    context 2 '' 'bpfdb-context: none/context: No such file or directory\n' -o none/context hex 01
    "$top/share/bpfdb-context" -o /dev/stdout hex 4142 | cat > found/out
    : > found/err
    echo 0 > found/status
    check 'bpfdb-context to a pipe' 0 AB ''
    "$top/share/bpfdb-context" -o /dev/stdout hex 4142 > found/out 2> found/err
    check 'bpfdb-context to standard output' 0 AB ''
    if [ -c /dev/full ]; then
        context 2 '' 'bpfdb-context: /dev/full: No space left on device\n' -o /dev/full hex 01
    fi
    (ulimit -f 1 && context 2 '' 'bpfdb-context: made/context: File too large\n' -o made/context hex "$(head -c 2000 /dev/zero | od -An -v -tx1)"; exit "$failures") || failures=$((failures + 1))
    count=$((count + 1))

    # Captures: two packets, of which the second wasn't captured as a whole; and one of the new format, with a packet in each kind of its blocks.
    first='00 00 00 00 00 00 00 00 04 00 00 00 04 00 00 00 0a 0b 0c 0d'
    # shellcheck disable=SC2086
    of_capture two.pcap $first 01 00 00 00 00 00 00 00 03 00 00 00 09 00 00 00 01 02 03
    # shellcheck disable=SC2086
    of_capture cut.pcap $first 01 00 00 00 00 00 00 00 03 00 00 00 09 00 00 00 01 02
    # shellcheck disable=SC2086
    of_capture head.pcap $first 01 00 00 00
    of_capture none.pcap
    of_capture empty.pcap 00 00 00 00 00 00 00 00 00 00 00 00 00 00 00 00
    bytes cooked.pcap d4 c3 b2 a1 02 00 04 00 00 00 00 00 00 00 00 00 00 00 04 00 14 01 00 00 00 00 00 00 00 00 00 00 01 00 00 00 01 00 00 00 77
    bytes big.pcap a1 b2 c3 d4 00 02 00 04 00 00 00 00 00 00 00 00 00 04 00 00 00 00 00 01 00 00 00 00 00 00 00 00 00 00 00 02 00 00 00 02 88 99
    bytes new.pcapng 0a 0d 0d 0a 1c 00 00 00 4d 3c 2b 1a 01 00 00 00 ff ff ff ff ff ff ff ff 1c 00 00 00 \
        01 00 00 00 14 00 00 00 01 00 00 00 00 00 04 00 14 00 00 00 \
        06 00 00 00 24 00 00 00 00 00 00 00 00 00 00 00 00 00 00 00 03 00 00 00 03 00 00 00 11 12 13 00 24 00 00 00 \
        03 00 00 00 14 00 00 00 02 00 00 00 21 22 00 00 14 00 00 00 \
        02 00 00 00 24 00 00 00 00 00 00 00 00 00 00 00 00 00 00 00 01 00 00 00 05 00 00 00 31 00 00 00 24 00 00 00
    {
        of_capture long.head 00 00 00 00 00 00 00 00 01 00 01 00 01 00 01 00
        cat long.head
        head -c 65537 /dev/zero
    } > long.pcap
    if has_libpcap 'packets of captures'; then
        context 0 'packet 1 at 0: 0x100000000, 4 bytes, Ethernet\n' '' -o made/context packet two.pcap 1
        holds two.pcap 0a 0b 0c 0d
        context 0 'packet 2 at 0: 0x100000000, 3 of 9 bytes, Ethernet\n' '' -o made/context packet two.pcap 02
        holds two.pcap 01 02 03
        context 0 'packet 1 at 0: 0x100000000, 2 bytes, Ethernet\n' '' -o made/context packet big.pcap 1
        holds big.pcap 88 99
        context 0 'packet 1 at 0: 0x100000000, 1 bytes, Linux cooked v2\n' '' -o made/context packet cooked.pcap 1
        holds cooked.pcap 77
        context 0 'packet 1 at 0: 0x100000000, 0 bytes, Ethernet\n' '' -o made/context packet empty.pcap 1
        holds empty.pcap
        context 0 'packet 1 at 0: 0x100000000, 3 bytes, Ethernet\n' '' -o made/context packet new.pcapng 1
        holds new.pcapng 11 12 13
        context 0 'packet 2 at 0: 0x100000000, 2 bytes, Ethernet\n' '' -o made/context packet new.pcapng 2
        holds new.pcapng 21 22
        context 0 'packet 3 at 0: 0x100000000, 1 of 5 bytes, Ethernet\n' '' -o made/context packet new.pcapng 3
        holds new.pcapng 31
        cp two.pcap script
        context 0 'packet 1 at 0: 0x100000000, 4 bytes, Ethernet\n' '' -o made/context packet /dev/stdin 1
        holds 'a capture on standard input' 0a 0b 0c 0d
        : > script
        # What comes after the packet isn't looked at.
        context 0 'packet 1 at 0: 0x100000000, 4 bytes, Ethernet\n' '' -o made/context packet cut.pcap 1
        context 2 '' 'bpfdb-context: cut.pcap: packet 2: truncated dump file; tried to read 3 captured bytes, only got 2\n' -o made/context packet cut.pcap 2
        context 2 '' 'bpfdb-context: head.pcap: packet 2: truncated dump file; tried to read 16 header bytes, only got 4\n' -o made/context packet head.pcap 2
        context 2 '' 'bpfdb-context: two.pcap: there is no packet 3: the capture has 2\n' -o made/context packet two.pcap 3
        context 2 '' 'bpfdb-context: none.pcap: there is no packet 1: the capture has 0\n' -o made/context packet none.pcap 1
        echo 'This is no capture, but a text of more than 24 bytes.' > script
        context 2 '' 'bpfdb-context: script: no capture: unknown file format\n' -o made/context packet script 1
        : > script
        context 2 '' 'bpfdb-context: the context has 65537 bytes, and at most 65536 are taken\n' -o made/context packet long.pcap 1
        for number in 0 00 -- x 1x '' 1.5 +1; do
            [ "$number" != -- ] || continue
            context 2 '' "bpfdb-context: '$number' is no number of a packet: they count from 1\n" -o made/context packet two.pcap "$number"
        done
        cp two.pcap made/context
        "$top/share/bpfdb-context" -o made/context packet "$PWD/made/context" 1 > found/out 2> found/err
        echo $? > found/status
        check 'bpfdb-context over its capture' 2 '' 'bpfdb-context: made/context: it is read, and would be lost\n'
        same 'the capture that would be lost' two.pcap made/context
        context 2 '' 'bpfdb-context: no\\x1bne: No such file or directory\n' -o made/context packet "$(printf 'no\033ne')" 1
        context 2 '' 'bpfdb-context: .: Is a directory\n' -o made/context packet . 1
        if has tcpdump 'captures as tcpdump reads them'; then
            cp "$top/examples/xdp/packets.pcap" .
            for capture in two.pcap new.pcapng packets.pcap; do
                number=0
                while number=$((number + 1)) && shown=$(shown_packet "$capture" "$number") && [ -n "$shown" ]; do
                    "$top/share/bpfdb-context" -o made/context packet "$capture" "$number" > found/out 2> found/err
                    od -An -v -tx1 made/context | tr -d ' \n' > found/packet
                    printf '%s' "$shown" > wanted/packet
                    same "packet $number of $capture" wanted/packet found/packet
                done
                [ "$number" -ge 3 ] || complain "tcpdump shows no packets of $capture"
            done
        fi
        # Cut and damaged captures are read or refused by a line.
        python3 "$top/tests/trials/contexts.py" captures "$top/share" new.pcapng two.pcap > found/damaged 2>&1
        echo '500 trials and more' > wanted/damaged
        same 'damaged captures' wanted/damaged found/damaged
    fi
    mkdir without
    printf 'import ctypes\ndef absent(name, *words, **more):\n    raise OSError(name)\nctypes.CDLL = absent\n' > without/sitecustomize.py
    PYTHONPATH=$PWD/without context 2 '' 'bpfdb-context: two.pcap: there is no libpcap, which reads captures: it is in the package libpcap0.8 of Debian\n' \
        -o made/context packet two.pcap 1
    PYTHONPATH=$PWD/without context 0 '' '' -o made/context hex 01
    # Structs of types that are made here: bit fields of both forms (a 5, b 17, c 33 or -31: in bits 0 to 2, 3 to 7, 10 to 15), and a type of each kind.
    python3 "$top/tests/trials/contexts.py" kinds kinds.o
    context 0 'o at 0: 0x100000000, 4 bytes\nn at 8: 0x100000008, 4 bytes\n' '' -o made/context struct kinds.o 'o:old a=5 b=17 c=33' 'n:struct new a=5 b=17 c=-31'
    holds 'bit fields' 8d 84 00 00 00 00 00 00 8d 84 00 00
    context 0 'a at 0: 0x100000000, 48 bytes\n' '' -o made/context struct kinds.o 'a:all small=-1 is=1 large=-1 tagged=2 right=3 to=&a.bytes[1] bytes="xy"'
    holds 'a type of each kind' ff ff ff ff 01 00 00 00 ff ff ff ff ff ff ff ff 02 00 00 00 03 00 00 00 21 00 00 00 01 00 00 00 78 79 00 00 00 00 00 00 \
        00 00 00 00 00 00 00 00
    context 0 'n at 0: 0x100000000, 0 bytes\nm at 0: 0x100000000, 0 bytes\no at 0: 0x100000000, 4 bytes\n' '' -o made/context struct kinds.o n:none m:none o:old
    holds 'structs of no bytes' 00 00 00 00
    context 2 '' 'bpfdb-context: kinds.o: elsewhere is only declared there, without its fields\n' -o made/context struct kinds.o 'e:elsewhere'
    context 2 '' 'bpfdb-context: kinds.o: there is no type union old\n' -o made/context struct kinds.o 'o:union old'
    context 2 '' 'bpfdb-context: kinds.o: void has no size\n' -o made/context struct kinds.o 'n:nothing'
    context 2 '' 'bpfdb-context: kinds.o: a function has no size\n' -o made/context struct kinds.o 'c:call'
    context 2 '' "bpfdb-context: kinds.o: a.ratio is a floating-point number, and can't be given\n" -o made/context struct kinds.o 'a:all ratio=1'
    context 2 '' 'bpfdb-context: kinds.o: b has no field b: there is none\n' -o made/context struct kinds.o 'b:none b=1'
    context 2 '' 'bpfdb-context: kinds.o: x has no field x: there are fie\\x1bld\n' -o made/context struct kinds.o "$(printf 'x:od\033d x=1')"
    context 2 '' 'bpfdb-context: kinds.o: there is no type o\\x1b: the nearest is od\\x1bd\n' -o made/context struct kinds.o "$(printf 'x:o\033')"
    context 2 '' 'bpfdb-context: nothing.o: No such file or directory\n' -o made/context struct nothing.o s:s
    context 2 '' 'bpfdb-context: script: no ELF file\n' -o made/context struct script s:s
    # Wrong types are refused by name, and what is damaged by a line.
    python3 "$top/tests/trials/contexts.py" refusals "$top/share" > found/refusals 2>&1
    echo '24 trials' > wanted/refusals
    same 'wrong types' wanted/refusals found/refusals
    python3 "$top/tests/trials/contexts.py" objects "$top/share" kinds.o 'a:all small=-1 is=1 to=&o bytes="xy"' 'o:old a=5' 'n:new c=1' > found/damaged 2>&1
    echo '500 trials and more' > wanted/damaged
    same 'damaged objects' wanted/damaged found/damaged

    if has_clang 'structs as the compiler lays them out'; then
        clang -g -O1 -target bpf -c "$parts/context/fields.c" -o fields.o 2> found/err || complain "fields.c: $(cat found/err)"
        linked fields
        linked others

        # Each field is where the compiler reads it; and where one isn't given, the program says which.
        read_back 0
        check 'fields as the compiler reads them' 0 '0x0\n' ''
        whole=$(known size_of_whole) inner=$(known size_of_inner)
        second=$(((whole + 7) / 8 * 8))
        third=$((second + second))
        printf 'whole at 0: 0x100000000, %d bytes\nsecond at %d: 0x%x, %d bytes\ninner at %d: 0x%x, %d bytes\n' "$whole" \
            $second $((4294967296 + second)) "$whole" $third $((4294967296 + third)) "$inner" > wanted/told
        same 'the places of structs' wanted/told told
        for without in $(seq "$(wc -l < "$parts/context/settings")"); do
            read_back "$without"
            check "fields without '$(sed -n "${without}p" "$parts/context/settings")'" 0 "$(printf '0x%x' "$without")\n" ''
        done
        context 0 'words at 0: 0x100000000, 40 bytes\nplain at 40: 0x100000028, 48 bytes\npath at 88: 0x100000058, 8 bytes\nmode at 96: 0x100000060, 4 bytes\nport at 104: 0x100000068, 2 bytes\n' '' \
            -o made/context struct fields.o 'words:word[5] [0]=3 [1]=&plain [2]=&path [3]=&mode [4]=&port' 'plain:struct plain[3] [1].first=21 [1].second=-1' 'path:char[8] ="/etc"' 'mode:enum mode =1' \
            ' port:port_number	=80 '
        run run -m made/context others.bin
        check 'arrays, texts and numbers as the compiler reads them' 0 '0x0\n' ''
        for name in odd bits either colour; do
            size=$(known "size_of_$name")
            context 0 "s at 0: 0x100000000, $size bytes\n" '' -o made/context struct fields.o "s:$name"
        done
        place=$(known place_of_name)
        context 0 "w at 0: 0x100000000, $whole bytes\n" '' -o made/context struct fields.o 'w:whole next=&w.list[2].name'
        od -An -v -tx1 made/context | tr -d ' \n' > found/bytes
        grep -q "$(printf '%08x' $((place - 4294967296)) | sed 's/\(..\)\(..\)\(..\)\(..\)/\4\3\2\1/')01000000" found/bytes || complain 'the address of a field'

        refuses "w has no field cuont: the nearest is count" 'w:whole cuont=1'
        refuses 'i has no field prot: there are name, port, level' 'i:inner prot=1'
        refuses 'w.list[1].level is no struct, and has no field x' 'w:whole list[1].level.x=1'
        refuses 'there is no type whoel: the nearest is whole' 'w:whoel'
        refuses 'there is no type union plain: the nearest is either' 'w:union plain'
        refuses 'two structs are called w' 'w:whole' 'w:inner'
        refuses "w: 'count': FIELD=VALUE is wanted" 'w:whole count'
        refuses "w: 'text=\"a': FIELD=VALUE is wanted" 'w:whole text="a'
        refuses "w: 'text=\"a\"b': FIELD=VALUE is wanted" 'w:whole text="a"b'
        for group in '' w w: :whole 'w :whole' 'w: whole' 'w:whole[x]' 'w:whole[-1]' '2:whole' 'w:whole=1'; do
            refuses "'$group': NAME:TYPE FIELD=VALUE .. is wanted" "$group"
        done
        for path in . a. .a 'a..b' 'a[' 'a[]' 'a[x]' 'a[-1]' 'a]' 'a[1]b' 'a&b'; do
            refuses "w: '$path' is no field: as a, a.b or a.b[2].c it is wanted" "w:whole $path=1"
        done
        refuses 'w is a struct, of which a field is wanted: there are count, low, same, letter, list, next, raw, inner, ..' 'w:whole =1'
        refuses 'w.either is a union, of which a field is wanted: there are whole, bytes' 'w:whole either=1'
        refuses 'w.grid[1] is an array of 3, of which an element is wanted' 'w:whole grid[1]=1'
        refuses 'w.list has no element 3: it has 3' 'w:whole list[3].port=1'
        refuses 'w.list has no element 9999999999: it has 3' 'w:whole list[9999999999].port=1'
        refuses 'w.tail has no element 0: it has 0' 'w:whole tail[0]=1'
        refuses 'w.count is no array, and has no element 0' 'w:whole count[0]=1'
        refuses 'w.count is no struct, and has no field x' 'w:whole count.x=1'
        refuses 'w.next is no struct, and has no field count' 'w:whole next.count=1'
        refuses 'b.a is no array, and has no element 0' 'b:bits a[0]=1'
        for row in 'count 4294967296 32' 'count -2147483649 32' 'low 65536 16' 'low -32769 16' 'letter 256 8' 'letter -129 8' 'list[0].port 0x10000 16' \
            'next 18446744073709551616 64' 'next -9223372036854775809 64' 'bits.a 8 3' 'bits.a -5 3' 'bits.c 32 5' 'bits.c -17 5' 'bits.wide 0x10000000000 40' 'bits.alone 2 1' 'mode 0x100000000 32'; do
            # shellcheck disable=SC2086
            set -- $row
            refuses "w.$1: $2 doesn't fit $3 bits" "w:whole $1=$2"
        done
        for value in 2 -1 '&w'; do
            refuses "w.is_on: $value doesn't fit a _Bool" "w:whole is_on=$value"
        done
        refuses "w.count: &w doesn't fit 32 bits" 'w:whole count=&w'
        for value in ten 0x 1x --1 +1 1.5 0b1 "'a'" 0xg; do
            refuses "w.count: $value is neither a number nor &NAME nor a text in quotes" "w:whole count=$value"
        done
        refuses 'w.next: &v: there is no struct of this name: w, i' 'w:whole next=&v' i:inner
        refuses 'w.next: &: there is no struct of this name: w' 'w:whole next=&'
        refuses 'w.next: w.bits.a is a bit field, and has no address' 'w:whole next=&w.bits.a'
        refuses 'w has no field cuont: the nearest is count' 'w:whole next=&w.cuont'
        refuses 'w.count is no array of char, and "1" no value of it' 'w:whole count="1"'
        refuses 'w.list is no array of char, and "1" no value of it' 'w:whole list="1"'
        refuses 'w.text has 12 bytes, and "thirteen byte" has 13' 'w:whole text="thirteen byte"'
        refuses 'w.exact has 4 bytes, and "\\x00\\x00\\x00\\x00\\x00" has 5' 'w:whole exact="\x00\x00\x00\x00\x00"'
        refuses '"\\q": \\q is none of \\", \\\\, \\n, \\t, \\r, \\0 and \\xNN' 'w:whole text="\q"'
        refuses '"\\x1": \\x is none of \\", \\\\, \\n, \\t, \\r, \\0 and \\xNN' 'w:whole text="\x1"'
        refuses 'w.count is given twice' 'w:whole count=1 count=1'
        refuses 'w.letter has bits of w.same, which has a value already' 'w:whole same=1 letter=1'
        refuses 'w.text[11] has bits of w.text, which has a value already' 'w:whole text="" text[11]=1'
        refuses 'w.either.whole has bits of w.either.bytes[3], which has a value already' 'w:whole either.bytes[3]=1 either.whole=0'
        context 0 "w at 0: 0x100000000, $whole bytes\n" '' -o made/context struct fields.o 'w:whole either.bytes[0]=1 either.bytes[1]=1 bits.a=0 bits.b=0 bits.c=0 bits.alone=1'
        context 0 's at 0: 0x100000000, 65536 bytes\n' '' -o made/context struct fields.o 's:char[65536]'
        refuses 'with t the context has 65537 bytes, and at most 65536 are taken' 's:char[65535]' 't:char'
        refuses 'with s the context has 999999999 bytes, and at most 65536 are taken' 's:char[999999999]'
        "$top/share/bpfdb-context" -o made/context struct fields.o w:whole >&- 2> found/err
        echo $? > found/status
        : > found/out
        check 'bpfdb-context without an output' 2 '' 'bpfdb-context: cannot write output\n'
        "$top/share/bpfdb-context" -o /dev/stdout struct fields.o i:inner > found/binary 2> found/out
        echo $? > found/status
        : > found/err
        check 'where standard output gets the context' 0 "i at 0: 0x100000000, $inner bytes\n" ''
        [ "$(wc -c < found/binary)" -eq "$inner" ] || complain 'bpfdb-context: standard output has more than the context'

        # A struct of 10,000 fields, of which the last 2,000 are set: its fields are read once, not once for each. (5 s of a processor are ten times what it
        # takes; where each looked through the fields before it, it took more than two minutes.)
        awk 'BEGIN {
            print "struct wide {"
            for (i = 0; i < 10000; i++) print "\tunsigned short field_" i ";"
            print "};\nint entry(struct wide *wide) { return wide->field_9999; }"
        }' > wide.c
        clang -g -O1 -target bpf -c wide.c
        (ulimit -t 5; context 0 'w at 0: 0x100000000, 20000 bytes\n' '' -o made/context struct wide.o \
            "w:wide$(awk 'BEGIN { for (i = 8000; i < 10000; i++) printf " field_%d=%d", i, i }')"; exit "$failures") || failures=$((failures + 1))
        count=$((count + 1))
        python3 -c 'import struct, sys; sys.stdout.buffer.write(b"".join(struct.pack("<H", i if i >= 8000 else 0) for i in range(10000)))' > wanted/context
        same '2,000 of 10,000 fields' wanted/context made/context

        # What the page shows, as a user types it.
        mkdir bin
        ln -s "$program" bin/bpfdb
        ln -s "$top/share/bpfdb-context" bin
        cp -R "$top/examples" .
        page_in examples "$top/docs/CONTEXTS.md"
        clang -g -O2 -target bpf -c examples/listen/listen.c -o listen.o
        context 0 'arguments at 0: 0x100000000, 16 bytes\nsocket at 16: 0x100000010, 16 bytes\ninet at 32: 0x100000020, 4 bytes\n' '' -o made/context struct listen.o \
            'arguments:u64[2] [0]=&socket [1]=128' 'socket:socket type=1 sk=&inet' 'inet:inet_sock sk.__sk_common.skc_family=2 inet_sport=0x5000'
        same 'examples/listen/context.bin' "$top/examples/listen/context.bin" made/context
        python3 "$top/tests/trials/contexts.py" objects "$top/share" listen.o 'socket:socket type=1 sk=&inet.sk' 'inet:inet_sock inet_sport=1' > found/damaged 2>&1
        same 'damaged objects of clang' wanted/damaged found/damaged
    fi
fi
