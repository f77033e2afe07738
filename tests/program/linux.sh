# share/bpfdb-linux.c, Linux' helpers and kinds of maps as BPF: each test of tests/program/linux/*.c is a program that is linked with it, by each clang
# that is installed, and whose result is 0 where all that it wants holds. What it wants follows from bpf-helpers(7) and the kernel's sources.

# built COMPILER SOURCE OBJECT: compiles a file for BPF; the library's own compiles without a warning.
built() {
    "$1" -Wall -Wextra -Werror -Wno-unused-parameter -I"$top/share" -target bpf -mcpu=v3 -O2 -g -c -o "$3" "$2" 2> found/clang && return
    complain "$1 $2: $(cat found/clang)"
    return 1
}

# linked_with FILE ENTRY OBJECT..: links the test of this name with these objects, the first of which answers first: `words`, and the options of their
# maps in $maps (words without blanks).
linked_with() {
    file=$1 entry=$2
    shift 2
    with=
    for object in "$@"; do
        with="$with --with $object"
    done
    # (words without blanks)
    # shellcheck disable=SC2086
    "$program" link --section test --entry "$entry" $with "$file" > words 2> told || {
        complain "$file: link $entry: $(cat told)"
        return 1
    }
    maps=$(grep '^--maps ' told)
}

# comes_to NAME WANTED: what the program of `words` gives on the file `context`.
comes_to() {
    count=$((count + 1))
    "$program" run $maps -m context words > found/out 2>&1
    [ "$(cat found/out)" = "$2" ] || complain "$1: $(cat found/out), and not $2"
}

# sent NAME WANTED: what the program of `words` sends out.
sent() {
    count=$((count + 1))
    printf '%b' "$2" > wanted/out
    # (which number the map of what was sent has is link's own choice)
    BPFDB=$program "$top/share/bpfdb-events" $maps -m context words 2>&1 | sed 's/ at 0x300[0-9a-f]0/ at /' > found/out
    cmp -s wanted/out found/out || {
        complain "$1"
        diff wanted/out found/out
    }
}

# events_of NAME STATUS OUTPUT ERRORS ARGUMENT..: what bpfdb-events says of this command line.
events_of() {
    name=$1 status=$2 output=$3 errors=$4
    shift 4
    BPFDB=$program "$top/share/bpfdb-events" "$@" > found/out 2> found/err
    echo $? > found/status
    check "$name" "$status" "$output" "$errors"
}

# What bpfdb-events prints of a map that is laid out as share/bpfdb-linux.h says: here a listing writes it, in map 1 of two. It has 48 bytes: a record of
# map 2 and three bytes for processor 5.
if has python3 'bpfdb-events'; then
    cat > sent.s <<'LISTING'
        ldmapval r1, 1, 0
        lddw r2, 0x74756f6264667062
        stxdw [r1+0], r2
        stw [r1+8], 40
        stw [r1+16], 3
        stw [r1+20], 2
        sth [r1+24], 1
        stw [r1+28], 5
        stw [r1+32], 0x030201
        mov r0, 0
        exit
LISTING
    said='map 2: perf of processor 5, 3 bytes at 0x300100020: 010203\n'
    events_of 'a record' 0 "$said" '' --listing --maps 8x2,16x4096 sent.s
    events_of 'a record, and its options in other places' 0 "$said" '' sent.s --listing --maps=8x2,16x4096 --steps 20
    for words in --help '--listing --maps 8x2,16x4096 sent.s'; do
        # (words without quotes)
        # shellcheck disable=SC2086
        BPFDB=$program "$top/share/bpfdb-events" $words >&- 2> found/err
        echo $? > found/status
        : > found/out
        check "bpfdb-events $words: a closed output" 2 '' 'bpfdb-events: cannot write output\n'
    done
    sed '/exit/i \        stw [r1+12], 2' sent.s > lost.s
    { printf 'bpfdb-events: ' && "$program" debug --frob sent.s --maps 8x2,16x4096 fault.s 2>&1; } > said
    grep -q "error: unexpected argument '--frob' found" said || complain 'tests/program/linux.sh: bpfdb takes --frob'
    events_of 'no option' 2 '' "$(text said)" --frob sent.s --maps 8x2,16x4096 fault.s
    events_of 'records without room' 0 "$said" 'bpfdb-events: 2 records had no room\n' --listing --maps 8x2,8x6 lost.s
    sed '/exit/i \        ldxb r0, [r0+0]' sent.s > fault.s
    events_of 'records before a fault' 1 "$said" 'bpfdb-events: fault access 0x0 at 12\n' --listing --maps 8x2,8x6 fault.s
    events_of 'records before the limit' 1 "$said" 'bpfdb-events: the limit of steps is reached: --steps\n' --listing --steps 9 --maps 8x2,8x6 sent.s
    # (what is in use is no more than the map has, a record's data no more than is in use; and what isn't known is told by its number)
    sed 's/stw \[r1+8\], 40/stw [r1+8], -1/; s/stw \[r1+16\], 3/stw [r1+16], 100/' sent.s > cut.s
    events_of 'a record that is cut' 0 'map 2: perf of processor 5, 8 bytes at 0x300100020: 0102030000000000\n' '' --listing --maps 8x2,8x5 cut.s
    sed 's/sth \[r1+24\], 1/sth [r1+24], 99/' sent.s > kind.s
    events_of 'a record of no kind' 0 'map 2: kind 99, 3 bytes at 0x300100020: 010203\n' '' --listing --maps 8x2,8x6 kind.s
    sed 's/sth \[r1+24\], 1/sth [r1+24], 3/; s/0x030201/0x070a41/' sent.s > text.s
    # (c3 b6 is the letter that follows in UTF-8)
    sed 's/0x070a41/0x41b6c3/' text.s > letter.s
    PYTHONIOENCODING=ascii events_of 'a text that is no ASCII' 0 'trace, 3 bytes at 0x300100020: \0303\0266A\n' '' --listing --maps 8x2,8x6 letter.s
    events_of 'a text that steers' 0 'trace, 3 bytes at 0x300100020: A\\x0a\\x07\n' '' --listing --maps 8x2,8x6 text.s
    printf 'mov r0, 1\nexit\n' > none.s
    events_of 'no record' 0 '' '' --listing --maps 8x2 none.s
    events_of 'no maps' 2 '' 'bpfdb-events: --maps is wanted, as link told it: what was sent lies in a map\n' --listing none.s
    events_of 'no file' 2 '' "bpfdb-events: 'bpfdb-events FILE' is wanted; bpfdb-events --help tells more\n" --maps 8x2
    bytes overrun.o $(sed 's/../& /g' "$top/examples/overrun/object.hex")
    events_of 'an object that sends nothing' 1 '' 'bpfdb-events: fault access 0x10077656d at 25\n' -m "$top/examples/overrun/context.bin" --object overrun.o
    bytes firewall.o $(sed 's/../& /g' "$top/examples/firewall/object.hex")
    for words in '' '--maps 8x5' '--maps=8x6'; do
        # (words without quotes)
        # shellcheck disable=SC2086
        events_of "an object with maps: '$words'" 0 '' '' $words -m "$top/examples/firewall/context.bin" firewall.o
    done
    mkfifo pipe
    cat "$top/examples/overrun/context.bin" > pipe &
    events_of 'a context by a pipe' 1 '' 'bpfdb-events: fault access 0x10077656d at 25\n' -m pipe overrun.o
    rm pipe
    events_of 'an object that is refused' 2 '' 'bpfdb-events: refused E8: no such code section: .text, filter\n' --section nothing overrun.o
    events_of 'a file that is none' 2 '' 'bpfdb-events: cannot read nowhere\n' --maps 8x2 nowhere
    events_of 'maps that are none' 2 '' 'bpfdb-events: refused M5: malformed map list\n' --listing --maps 8 none.s
    BPFDB=nowhere "$top/share/bpfdb-events" --listing --maps 8x2 none.s > found/out 2> found/err
    echo $? > found/status
    check 'no bpfdb' 2 '' 'bpfdb-events: cannot find nowhere\n'
    # An interrupt ends bpfdb with it. (Shells let what they start behind them ignore one.)
    printf 'loop: ja loop\n' > endless.s
    printf '#!/bin/sh\necho $$ > number\nexec "$REAL" "$@"\n' > noted
    chmod 755 noted
    count=$((count + 1))
    BPFDB=$PWD/noted REAL=$program timeout -s INT 2 env --default-signal=INT "$top/share/bpfdb-events" --listing --maps 8x2 --steps 1000000000 endless.s > found/out 2>&1
    ! kill "$(cat number)" 2> /dev/null || complain 'bpfdb-events leaves bpfdb behind where it is interrupted'
    count=$((count + 1))
    "$top/share/bpfdb-events" --maps 8x2 --help | grep '^usage: bpfdb-events' > /dev/null || complain 'help of bpfdb-events'
fi

if ! "$program" link --help | grep -q -e --with; then
    left_out 'the library of Linux' 'link has no --with'
elif has_clang 'the library of Linux'; then
    architecture=-I/usr/include/$(uname -m)-linux-gnu
    versions=
    for compiler in clang $(seq -f 'clang-%g' 14 40); do
        echo | "$compiler" -target bpf -x c -c -o /dev/null - 2> /dev/null || continue
        version=$("$compiler" --version | sed -n '1s/.*version \([0-9.]*\).*/\1/p')
        case " $versions " in *" $version "*) continue ;; esac
        versions="$versions $version"
        built "$compiler" "$top/share/bpfdb-linux.c" library.o
        for name in tables tries queues reads world events stacks storage numbers dynptrs packets headers interfaces tunnels sockets; do
            source=$parts/linux/$name.c
            built "$compiler" "$source" "$name.o" || continue
            case $name in packets | headers | interfaces) most=60 ;; *) most=16 ;; esac
            bytes context $(seq 0 59 | awk -v most=$most '$1 < most { printf "%02x ", $1 }')
            for entry in $(sed -n 's/^\(OWN_\)\{0,1\}TEST(\([a-z_]*\))$/\2/p' "$source"); do
                linked_with "$name.o" "$entry" library.o && comes_to "$name, $entry, $compiler" 0x0
            done
        done

        # A packet of 60 bytes, by the kernel's own struct: whoever made that has told the library nothing of its length.
        bytes context $(seq 0 59 | awk '{ printf "%02x ", $1 }')
        built "$compiler" "$parts/kernels/grown.c" grown.o
        "$program" link --with library.o grown.o > words 2> told || complain "grown.o: $(cat told)"
        maps=$(grep '^--maps ' told)
        comes_to "a packet that is to grow, $compiler" 0x3c000016

        # Programs that change an skb, as objects for the kernel: by --struct each gives on these frames of `packets.py layouts 1` (two of IPv4, one of IPv6, two
        # with tags) what Linux 6.1 gives. (tests/kernel.sh has them by bpfdb.h, on all frames.)
        if ! printf '#include <linux/bpf.h>\n#include <bpf/bpf_helpers.h>\n' | "$compiler" $architecture -target bpf -x c -fsyntax-only - 2> /dev/null; then
            left_out "what becomes of an skb, $compiler" 'there are no headers of the kernel and of libbpf (linux-libc-dev and libbpf-dev)'
        elif has python3 'what becomes of an skb'; then
            python3 "$top/tests/kernel/packets.py" layouts 1 > frames
            "$compiler" $architecture -target bpf -mcpu=v3 -O2 -g -c -o skb.o "$top/tests/kernel/packets.c" || complain "$compiler packets.c"
            while IFS='|' read -r entry results; do
                "$program" link --struct tc --section tc --entry "$entry" --with library.o skb.o > words 2> told || complain "$entry: link --struct: $(cat told)"
                maps=$(grep '^--maps ' told)
                set -- 0 1 8 21 24
                for result in $results; do
                    # (each of 110 bytes, behind two that say so)
                    tail -c +$((112 * $1 + 3)) frames | head -c 110 > context
                    comes_to "$entry, frame $1, $compiler" "$result"
                    shift
                done
            done <<'ROWS'
ends|0x1df1e5ed 0x3074ce91 0x450aeeb4 0x46e876c2 0x19bd546d
room|0x4843465f 0x6c4912e5 0x5f1a6c42 0x7b0aade9 0x1a9dedee
tags|0x72d2561a 0x63acf6dc 0x85a757b 0x91c0f1e 0xd3e6b1e
translated|0x905d4f7 0x70355c36 0x30b9bbd6 0x31fc65cc 0x4d14377
relative|0xf2 0x48fb79f2 0xf2 0x48fb79f2 0xf2
typed|0x11600 0x11600 0x0 0x10000 0x31600
congested|0x31e1f7af 0x242d0c44 0x6ceef72e 0x62 0x62
levels|0x6155cd64 0x5876de55 0x4723ece2 0x17af8b56 0x6f19cf3f
hashed|0x1b929600 0x33002000 0x79ad500 0x6990f2c0 0x28441380
tunnelled|0x645e256 0x5c2a1b18 0x4c720784 0x5020593a 0x4030a2c0
neighbour|0x2 0x7 0x7 0x2 0x7
ROWS
        fi

        # Each row is a test of events.c, and what it sends out.
        bytes context $(seq 0 15 | awk '{ printf "%02x ", $1 }')
        while IFS='|' read -r entry output; do
            linked_with events.o "$entry" library.o && sent "$entry, $compiler" "$output"
        done <<'ROWS'
perf_buffer|map 0: perf of processor 0, 5 bytes at 0020: 0102030405\nmap 0: perf of processor 0, 3 bytes at 0038: 010203\nmap 1: perf of processor 2, 1 byte at 0050: 01\n
perf_buffer_with_a_packet|map 1: perf of processor 0, 5 bytes at 0020: aabb000102\nmap 1: perf of processor 0, 1 byte at 0038: aa\nmap 1: perf of processor 0, 1 byte at 0050: aa\n
ring_buffer|map 2: ring, 3 bytes at 0020: 070809\nmap 2: ring, 2 bytes at 0038: 0044\nmap 2: ring, 1 byte at 0050, discarded: 00\nmap 2: ring, 1 byte at 0068, neither submitted nor discarded: 55\n
texts|trace, 5 bytes at 0020: hello\ntrace, 17 bytes at 0038: -1 4294967295 ff\ntrace, 40 bytes at 0060: -1 18446744073709551615 ffffffffffffffff\ntrace, 18 bytes at 0098:    42|42   |-0042|\ntrace, 9 bytes at 00c0: 100 of x%\ntrace, 6 bytes at 00e0: ABC +5\ntrace, 16 bytes at 00f8: 0000000000001234\ntrace, 0 bytes at 0118: \ntrace, 18 bytes at 0128:       ab|cd      |\ntrace, 6 bytes at 0150: kernel\ntrace, 4 bytes at 0168: user\ntrace, 17 bytes at 0180: 0000000000000001 \ntrace, 10 bytes at 01a8: 1 2 3 four\n
keys_and_pointers|key, 16 bytes at 0020: 88776655443322114000000001000000\nkey again, 0 bytes at 0040: \npointer, 8 bytes at 0050: ffffffff05000000\n
signals|signal, 4 bytes at 0020: 09000000\nsignal, 4 bytes at 0038: 40000000\n
packet_to_an_interface|packet to interface 3, 5 bytes at 0020: 0102030405\npacket to interface 4, 5 bytes at 0038: 0102030405\n
file_of_an_iterator|file, 9 bytes at 0020: name pid\nfile, 11 bytes at 0040: init     1\nfile, 3 bytes at 0060: x\\x00\nfile, 0 bytes at 0078: \n
ROWS
        # (of the joined object the maps needn't be given)
        "$program" link -r --section test -o words --with library.o events.o 2> told || complain "events.o: link -r: $(cat told)"
        maps='--section test --entry ring_buffer'
        sent "ring_buffer, joined, $compiler" 'map 2: ring, 3 bytes at 0020: 070809\nmap 2: ring, 2 bytes at 0038: 0044\nmap 2: ring, 1 byte at 0050, discarded: 00\nmap 2: ring, 1 byte at 0068, neither submitted nor discarded: 55\n'

        # (and the object itself takes the words of bpfdb that join it to the library)
        cp events.o words
        maps='--section test --entry ring_buffer --with library.o'
        sent "ring_buffer with the library, $compiler" 'map 2: ring, 3 bytes at 0020: 070809\nmap 2: ring, 2 bytes at 0038: 0044\nmap 2: ring, 1 byte at 0050, discarded: 00\nmap 2: ring, 1 byte at 0068, neither submitted nor discarded: 55\n'

        # Random calls, as the context says them, on maps of each kind with keys, on a queue and a stack: what comes of each is a model's, apart from the code.
        if has python3 'random calls of helpers'; then
            built "$compiler" "$parts/linux/steered.c" steered.o && linked_with steered.o steered library.o && for seed in 1 2 3 4 5; do
                python3 "$parts/linux/model.py" "$seed" context > wanted/calls
                BPFDB=$program "$top/share/bpfdb-events" --steps 10000000 $maps -m context words 2>&1 | sed 's/.*: //' > found/calls
                same "random calls of helpers, seed $seed, $compiler" wanted/calls found/calls
            done
        fi

        # A mock of one's own goes before the library: the first call answers 42, later ones 43.
        built "$compiler" "$parts/linux/mock.c" mock.o
        built "$compiler" "$parts/linux/mocked.c" mocked.o
        linked_with mocked.o mocked mock.o library.o && comes_to "a mock before the library, $compiler" 0x2b0000002a
        linked_with mocked.o mocked library.o mock.o && comes_to "a mock behind the library, $compiler" 0x4d2000004d2

        # How many steps a look takes among so many entries: what a run with 10 of them takes more than one with none, at most so many each.
        built "$compiler" "$parts/linux/steps.c" steps.o
        linked_with steps.o steps library.o || continue
        for row in '10 100' '1000 100' '10000 150'; do
            set -- $row
            bytes context $(printf '%08x' "$1" | sed 's/\(..\)\(..\)\(..\)\(..\)/\4 \3 \2 \1/') 00 00 00 00
            without=$(echo continue | "$program" debug --steps 100000000 $maps -m context words)
            bytes context $(printf '%08x' "$1" | sed 's/\(..\)\(..\)\(..\)\(..\)/\4 \3 \2 \1/') 0a 00 00 00
            with=$(echo continue | "$program" debug --steps 100000000 $maps -m context words)
            count=$((count + 1))
            case $without,$with in
            *' r0 0x0',*' r0 0xa') ;;
            *) complain "looks among $1 entries, $compiler: $without, $with" ;;
            esac
            each=$(((${with%% *} - ${without%% *}) / 10))
            [ "$each" -le "$2" ] || complain "a look among $1 entries, $compiler: $each steps"
        done
    done

    # What docs/LINUX.md shows at a shell, as clang 14 compiles it: 'cat FILE' is a file that the commands after it take.
    architecture=-I/usr/include/$(uname -m)-linux-gnu
    if has_clang_14 'what docs/LINUX.md shows' && has_headers 'what docs/LINUX.md shows' && has python3 'what docs/LINUX.md shows'; then
        # A program of tc that prints, and one of XDP that counts in a hash, by bpfdb.h: with the packet of the example `firewall`, and 12 bytes more.
        { cat "$top/examples/firewall/context.bin"; head -c 12 /dev/zero; } > context
        clang $architecture -I"$top/share" -include bpfdb.h -DBPFDB_TC=classify -g -O2 -target bpf -c -o tc.o "$parts/headers/classifier.c"
        sed 's/MAP_TYPE_ARRAY/MAP_TYPE_HASH/' "$top/examples/xdp/xdp.c" > hash.c
        clang $architecture -I"$top/share" -include bpfdb.h -DBPFDB_XDP=filter -g -O2 -target bpf -c -o xdp.o hash.c
        built clang "$top/share/bpfdb-linux.c" library.o
        for row in 'tc 0x2' 'xdp 0x2'; do
            set -- $row
            "$program" link --section "$1" --entry bpfdb --with library.o "$1.o" > words 2> told || complain "$1 with the library: $(cat told)"
            maps=$(grep '^--maps ' told)
            comes_to "$1 with bpfdb.h and the library" "$2"
            [ "$1" = xdp ] || sent 'what a program of tc prints' 'trace, 8 bytes at 0020: 70 bytes\n'
        done
        mkdir bin typed installed-here
        ln -s "$program" bin/bpfdb
        ln -s "$top/share/bpfdb-events" "$top/share/bpfdb-context" "$top/share/bpfdb-shell" bin
        built clang "$top/share/bpfdb-linux.c" installed-here/bpfdb-linux.o
        cp "$top/share/bpfdb-linux.h" "$top/share/bpfdb-map.h" installed-here
        commands_of docs/LINUX.md 'An event that is wrong|Two programs in turn|The world|An installed tool' shown
        [ -f shown/command-6 ] || complain 'docs/LINUX.md shows too few commands'
        for command in $(seq 1 99); do
            [ -f "shown/command-$command" ] || break
            line=$(cat "shown/command-$command")
            case $line in
            'cat '*) cp "shown/text-$command" "typed/${line#cat }" ;;
            *)
                if [ "$line" = 'python3 cut.py' ] && [ ! -e /usr/sbin/bashreadline ]; then
                    left_out 'the installed tool in docs/LINUX.md' 'there is no bashreadline (libbpf-tools)'
                    break
                fi
                sed -i "s|/usr/local/share/bpfdb|$PWD/installed-here|" "shown/command-$command"
                (cd typed && PATH=$PWD/../bin:$PATH BPFDB=$program BPFDB_LINUX=$PWD/../installed-here/bpfdb-linux.o sh "../shown/command-$command") > found/out 2>&1
                # (the end of a long line is left out there)
                sed 's/\(d20400006c73202d6c00\)[0-9a-f]*$/\1../' found/out > found/cut
                same "docs/LINUX.md: $line" "shown/text-$command" found/cut
                ;;
            esac
        done
    fi

    # Each program of libbpf-tools, xdp-tools and libxdp, where these packages are installed (INSTALLED names other files): it is linked with the library,
    # ends on a context whose words are addresses within it, and so do all of an object in turn, each at a place of its own. Those for XDP get a packet.
    # ends_on WHAT OPTION.. FILE: links an object with the library; what comes of it ends.
    ends_on() {
        what=$1
        shift
        count=$((count + 1))
        "$program" link --with library.o "$@" > words 2> told &&
            "$program" run --steps 1000000 $(grep '^--maps ' told) -m context words > told 2>&1 || complain "$what: $(cat told)"
    }
    # by_section SECTION: of a program of this section, its context and what `link` needs for it.
    by_section() {
        cp room context
        packet=
        case $1 in
        xdp*)
            cp "$top/examples/firewall/context.bin" context
            packet='--struct xdp'
            ;;
        esac
    }
    files=$(ls ${INSTALLED:-/usr/lib/*/bpf/*.o /usr/sbin/xdp-* /usr/sbin/xdpdump} 2> /dev/null)
    # (names without blanks)
    [ ! -e /var/lib/dpkg/info/libbpf-tools.list ] || files="$files $(grep '^/usr/sbin/.' /var/lib/dpkg/info/libbpf-tools.list)"
    if [ -z "$files" ]; then
        left_out 'programs of libbpf-tools and xdp-tools' 'they are not installed'
    elif has python3 'programs of libbpf-tools and xdp-tools'; then
        mkdir installed
        python3 "$parts/linux/objects.py" installed $files > programs
        [ -s programs ] || complain 'no program in the objects that are installed'
        bytes room $(seq 512 | sed 's/.*/00 00 00 00 01 00 00 00/')
        while read -r object section entry; do
            by_section "$section"
            # (options and names have no blanks within)
            ends_on "$object, $entry" --section "$section" --entry "$entry" "installed/$object"
        done < programs
        awk '
            { of = $1 " " ($2 ~ /^xdp/ ? "xdp" : "room"); names[of] = names[of] " " $3 ($2 ~ /^xdp/ ? "" : "@" 8 * n[of]); n[of]++ }
            END { for (of in n) if (n[of] > 1 && n[of] <= 16) print of names[of] }
        ' programs > several
        while read -r object section names; do
            by_section "$section"
            ends_on "$object, $section, in turn" $packet $(printf -- '--entry %s ' $names) "installed/$object"
        done < several
    fi
fi
