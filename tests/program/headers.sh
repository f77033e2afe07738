# Programs for XDP and tc as users of libbpf write them, compiled with share/bpfdb.h and the headers of the kernel and of libbpf, by each clang that is
# installed: verdicts on packets, which were worked out from the packets' bytes by hand; what docs/XDP.md says of fields, sections and headers; and what is
# refused. The firewall and the counter are the examples `firewall` and `xdp`, the others stand in tests/program/headers/.

# Debian has <asm/types.h> there.
architecture=-I/usr/include/$(uname -m)-linux-gnu

# with COMPILER OPTION.. FILE: compiles a file with the header, to program.o.
with() {
    compiler=$1
    shift
    # (the header is named by its folder and name, as docs/XDP.md has it)
    "$compiler" -Wall -Werror -I"$top/share" -include bpfdb.h $architecture -g -target bpf -c -o program.o "$@" 2> found/clang ||
        complain "$compiler $*: $(cat found/clang)"
}

# linked NAME WANTED ARGUMENT..: links program.o to `words`, and what is told of that is this (a pattern of the shell).
linked() {
    name=$1 wanted=$2
    shift 2
    "$program" link "$@" program.o > words 2> told || complain "$name: link $*: status $?"
    count=$((count + 1))
    case $(grep -v '^map [0-9]*: ' told) in
    $wanted) mv words "$name.words" && mv told "$name.told" ;;
    *) complain "$name: link $*: $(cat told)" ;;
    esac
}

# verdict WHAT NAME WANTED [BYTES INDEX]: the result of NAME.words on the packet. Of the first bytes of map 0 then just the value of this index
# is 1, of 8 bytes each, and none where that is empty.
verdict() {
    # (what is told of maps are two words without blanks)
    printf 'continue\nx 0x300000000 %d\n' "${4:-1}" | "$program" debug $(sed -n '/^--maps/p' "$2.told") -m packet "$2.words" > shown 2>&1
    found=$(sed -n '1s/.* r0 //p' shown)
    count=$((count + 1))
    [ "$found" = "$3" ] || complain "$2 on $1: $found, and not $3"
    [ $# -eq 5 ] || return
    wanted=$(awk -v place="$5" -v bytes="$4" 'BEGIN { for (i = 0; i < bytes / 8; i++) printf "%s00000000000000", i "" == place ? "01" : "00" }')
    count=$((count + 1))
    [ "$(sed -n '2s/.*: //p' shown)" = "$wanted" ] || complain "$2 on $1: the map is $(sed -n 2p shown)"
}

# packet_of DIGITS: the file `packet`.
packet_of() {
    bytes packet $(printf '%s' "$1" | sed 's/../& /g')
}

# refused_link NAME WANTED ARGUMENT..: program.o isn't linked, and this line says why, from the slot on (whose number clang's version decides).
refused_link() {
    name=$1 wanted=$2
    shift 2
    printf '%b' "$script_unread" > script
    run link "$@" program.o
    sed -i 's/ at slot [0-9]*:/:/; s/slot [0-9]*$/slot/' found/err
    check "$name" 2 '' "refused $wanted\n"
}

# unfit WANTED OPTION.. FILE: clang refuses this, and says what is wanted.
unfit() {
    wanted=$1
    shift
    count=$((count + 1))
    ! clang -I"$top/share" -include bpfdb.h -target bpf -fsyntax-only "$@" 2> found/clang && grep -q -F -e "$wanted" found/clang ||
        complain "clang $*: $(cat found/clang)"
}

if has_clang 'programs with the headers of libbpf'; then
    # Where there are no headers it is told which are wanted. (Here clang looks for those that it brings nowhere else.)
    mkdir -p few/linux
    : > few/linux/bpf.h
    echo 'int f(void);' > f.c
    unfit 'bpfdb.h: which program? -DBPFDB_XDP=NAME or -DBPFDB_TC=NAME' f.c
    unfit 'bpfdb.h: which program? -DBPFDB_XDP=NAME or -DBPFDB_TC=NAME' -DBPFDB_XDP=f -DBPFDB_TC=f f.c
    unfit 'linux-libc-dev' -nostdinc -DBPFDB_XDP=f f.c
    unfit 'bpfdb.h: add -I/usr/include/$(uname -m)-linux-gnu' -nostdinc -isystem few -DBPFDB_XDP=f f.c

    if has_headers 'programs with the headers of libbpf'; then
        # A line for each packet: its name, the verdicts of the firewall, of the counter and of the classifier (-1 is 0xffffffffffffffff), the protocol that is
        # counted, and its bytes. XDP_DROP is 1 and XDP_PASS 2; TC_ACT_UNSPEC is -1, TC_ACT_OK 0, TC_ACT_RECLASSIFY 1 and TC_ACT_SHOT 2.
        #
        # The firewall drops TCP to 21, 22, 23 and 3389, behind one tag of a VLAN too, where all of the header of TCP is there, which it takes for the 20 bytes
        # behind the first 20 of IPv4. The counter drops what is cut off in the headers of Ethernet or IPv4, and TCP to 23 without a tag.
        ethernet='020000000001020000000002'
        from_to='0a0000010a000002'
        tcp_end='00000001000000005002200000000000'
        while IFS='|' read -r name of_firewall of_counter of_classifier protocol digits; do
            case $name in '#'* | '') continue ;; esac
            digits=$(printf '%s' "$digits" | sed "s/ETH/$ethernet/; s/ADDR/$from_to/; s/TCPEND/$tcp_end/; s/ //g")
            echo "$name|$of_firewall|$of_counter|$of_classifier|$protocol|$digits"
        done > packets <<'PACKETS'
TCP to 23|0x1|0x1|0x1|6|ETH 0800 4500002800010000 4006 0000 ADDR 3039 0017 TCPEND
TCP to 22|0x1|0x2|0x1|6|ETH 0800 4500002800010000 4006 0000 ADDR 3039 0016 TCPEND
TCP to 21|0x1|0x2|0x1|6|ETH 0800 4500002800010000 4006 0000 ADDR 3039 0015 TCPEND
TCP to 3389|0x1|0x2|0x1|6|ETH 0800 4500002800010000 4006 0000 ADDR 3039 0d3d TCPEND
TCP to 20|0x2|0x2|0x1|6|ETH 0800 4500002800010000 4006 0000 ADDR 3039 0014 TCPEND
TCP to 24|0x2|0x2|0x1|6|ETH 0800 4500002800010000 4006 0000 ADDR 3039 0018 TCPEND
TCP to 3388|0x2|0x2|0x1|6|ETH 0800 4500002800010000 4006 0000 ADDR 3039 0d3c TCPEND
TCP to 3390|0x2|0x2|0x1|6|ETH 0800 4500002800010000 4006 0000 ADDR 3039 0d3e TCPEND
TCP to 5888, which is 23 with its bytes swapped|0x2|0x2|0x1|6|ETH 0800 4500002800010000 4006 0000 ADDR 3039 1700 TCPEND
TCP from 23 to 80|0x2|0x2|0x1|6|ETH 0800 4500002800010000 4006 0000 ADDR 0017 0050 TCPEND
TCP to 23, of 61 bytes|0x1|0x1|0x2|6|ETH 0800 4500002f00010000 4006 0000 ADDR 3039 0017 TCPEND 61626364656667
TCP to 80, of 60 bytes|0x2|0x2|0x1|6|ETH 0800 4500002e00010000 4006 0000 ADDR 3039 0050 TCPEND 616263646566
TCP to 23, a byte less than its header|0x2|0x2|0x1|6|ETH 0800 4500002800010000 4006 0000 ADDR 3039 0017 00000001000000005002200000 0000
TCP to 23, behind an option of IPv4|0x2|0x2|0x1|6|ETH 0800 4600002c00010000 4006 0000 ADDR 07040400 3039 0017 TCPEND
UDP to 23|0x2|0x2|0x1|17|ETH 0800 4500002800010000 4011 0000 ADDR 3039 0017 TCPEND
ICMP|0x2|0x2|0x1|1|ETH 0800 4500001c00010000 4001 0000 ADDR 0800f7ff00000000
TCP to 22, in VLAN 10|0x1|0x2|0x0||ETH 8100 000a 0800 4500002800010000 4006 0000 ADDR 3039 0016 TCPEND
TCP to 80, in VLAN 10|0x2|0x2|0x0||ETH 8100 000a 0800 4500002800010000 4006 0000 ADDR 3039 0050 TCPEND
TCP to 22, in two VLANs|0x2|0x2|0x0||ETH 8100 000a 8100 000b 0800 4500002800010000 4006 0000 ADDR 3039 0016 TCPEND
ARP in VLAN 10|0x2|0x2|0x0||ETH 8100 000a 0806 0001080006040001 020000000002 0a000001 000000000000 0a000002
ARP|0x2|0x2|0x0||ETH 0806 0001080006040001 020000000002 0a000001 000000000000 0a000002
IPv6, TCP to 23|0x2|0x2|0x0||ETH 86dd 6000000000140640 00000000000000000000000000000001 00000000000000000000000000000002 3039 0017 TCPEND
IPv4 that ends a byte early|0x2|0x1|0x1||ETH 0800 4500002800010000 4006 0000 0a0000010a0000
Ethernet alone, of IPv4|0x2|0x1|0x1||ETH 0800
Ethernet that ends a byte early|0x2|0x1|0xffffffffffffffff||ETH 08
nothing|0x2|0x1|0xffffffffffffffff||
PACKETS
        sed -i '/a byte less than its header/s/..$//' packets

        compilers= versions=
        for compiler in clang $(seq -f 'clang-%g' 12 40); do
            echo | "$compiler" -target bpf -x c -c -o /dev/null - 2> /dev/null || continue
            version=$("$compiler" --version | sed -n '1s/.*version \([0-9.]*\).*/\1/p')
            case " $versions " in *" $version "*) continue ;; esac
            versions="$versions $version"
            compilers="$compilers $compiler"
        done
        for compiler in $compilers; do
            for level in '-O1' '-O2' '-O2 -mcpu=v3'; do
                # (options have no blanks within)
                with $compiler $level -DBPFDB_XDP=firewall "$top/examples/firewall/firewall.c"
                linked firewall '--maps 8x5*' --section xdp --entry bpfdb
                with $compiler $level -DBPFDB_XDP=filter "$top/examples/xdp/xdp.c"
                linked counter '--maps 8x256' --section xdp --entry bpfdb
                with $compiler $level -DBPFDB_TC=classify "$parts/headers/classifier.c"
                linked classifier '*calls answered by --helper: 1' --section tc --entry bpfdb --helper 6=0
                while IFS='|' read -r name of_firewall of_counter of_classifier protocol digits; do
                    packet_of "$digits"
                    verdict "$name, $compiler $level" firewall "$of_firewall" 40 "$((of_firewall))"
                    verdict "$name, $compiler $level" counter "$of_counter" 256 "$protocol"
                    verdict "$name, $compiler $level" classifier "$of_classifier"
                done < packets
            done

            # Each field: of 60 and 14 bytes (0x3c, 0x0e) that are IPv4, which is 0x0800 in the order of the network, and of 13, which have no protocol.
            with $compiler -O2 -DBPFDB_XDP=of_xdp "$parts/headers/fields.c"
            linked fields '' --section xdp --entry bpfdb
            packet_of "$(sed -n 's/^TCP to 80, of 60 bytes|.*|//p' packets)"
            verdict "60 bytes, $compiler" fields 0x0
            with $compiler -O2 -DBPFDB_TC=of_tc -DBPFDB_SECTION=tc/ingress "$parts/headers/fields.c"
            linked fields '--maps 8x2' --section tc/ingress --entry bpfdb
            for length in 60 14 13; do
                head -c "$length" packet > few.bytes
                case $length in 60) wanted=003c000008000000 ;; 14) wanted=000e000008000000 ;; 13) wanted=000d000000000000 ;; esac
                count=$((count + 1))
                printf 'continue\nx 0x300000000 8\n' | "$program" debug --maps 8x2 -m few.bytes fields.words | sed -n 's/.* r0 //p; s/^0x300000000: //p' > shown
                [ "$(tr '\n' ' ' < shown)" = "0x0 $wanted " ] || complain "the fields of $length bytes, $compiler: $(cat shown)"
            done

            # Below 0x600 is a length in place of a type: for that Linux has ETH_P_802_2, 4, and where ffff is next ETH_P_802_3, 1.
            for row in '0600 000e000006000000' '05ff 000e000000040000' '0026ff 000f000000040000' '0026ffff 0010000000010000' '0026fffe 0010000000040000'; do
                packet_of "$ethernet${row% *}"
                count=$((count + 1))
                printf 'continue\nx 0x300000000 8\n' | "$program" debug --maps 8x2 -m packet fields.words | sed -n 's/.* r0 //p; s/^0x300000000: //p' > shown
                [ "$(tr '\n' ' ' < shown)" = "0x0 ${row#* } " ] || complain "the protocol before ${row% *}, $compiler: $(cat shown)"
            done

            # The struct takes nothing of the program's frame. (Twice 54 is 0x6c.)
            with $compiler -O2 -DBPFDB_TC=whole_frame "$parts/headers/frame.c"
            linked frame '' --section tc --entry bpfdb
            packet_of "$(sed -n 's/^TCP to 23|.*|//p' packets)"
            verdict "54 bytes, $compiler" frame 0x6c

            # vmlinux.h, whose structs of packets have relocations of fields.
            with $compiler -O2 -DBPFDB_VMLINUX -I"$parts/headers" -DBPFDB_XDP=no_arp "$parts/headers/relocated.c"
            linked relocated 'fields left as compiled: 1' --section xdp --entry bpfdb
            for row in 'ARP 0x1' 'ICMP 0x2' 'Ethernet alone, of IPv4 0x2' 'nothing 0x0'; do
                packet_of "$(sed -n "s/^${row% *}|.*|//p" packets)"
                verdict "${row% *}, $compiler" relocated "${row##* }"
            done

            # Other sections: the entry lies in that of the program.
            packet_of "$(sed -n 's/^TCP to 23|.*|//p' packets)"
            for section in xdp.frags xdp/cpumap classifier; do
                sed "s|SEC(\"xdp\")|SEC(\"$section\")|" "$top/examples/xdp/xdp.c" > elsewhere.c
                with $compiler -O2 -DBPFDB_XDP=filter -DBPFDB_SECTION=$section elsewhere.c
                linked elsewhere '--maps 8x256' --section $section --entry bpfdb
                verdict "TCP to 23, $section, $compiler" elsewhere 0x1
                with $compiler -O2 -DBPFDB_XDP=filter elsewhere.c
                refused_link "an entry in another section than $section, $compiler" 'E21: call of no function of the program: filter' --section xdp --entry bpfdb
            done

            # What is refused: what bpfdb can't have, and names that are wrong.
            with $compiler -O2 -DBPFDB_XDP=filer "$top/examples/xdp/xdp.c"
            refused_link "a name that no program has, $compiler" 'E19: symbol is not defined in the object: filer' --section xdp --entry bpfdb
            refused_link "without an entry, $compiler" 'E30: more than one program in the code section: --entry NAME chooses one: bpfdb, filter' --section xdp
            with $compiler -O2 -DBPFDB_TC=classify "$parts/headers/classifier.c"
            refused_link "bpf_printk, $compiler" 'E25: unknown helper 6 (bpf_trace_printk): --with OBJECT or --helper 6=VALUE answers it: tc, slot' --section tc --entry bpfdb
            sed 's/MAP_TYPE_ARRAY/MAP_TYPE_HASH/' "$top/examples/xdp/xdp.c" > elsewhere.c
            with $compiler -O2 -DBPFDB_XDP=filter elsewhere.c
            refused_link "a hash, $compiler" 'E50: map is a hash, and no array: counts' --section xdp --entry bpfdb
            sed 's/MAP_TYPE_ARRAY/MAP_TYPE_PERCPU_ARRAY/' "$top/examples/xdp/xdp.c" > elsewhere.c
            with $compiler -O2 -DBPFDB_XDP=filter elsewhere.c
            linked elsewhere '--maps 8x256' --section xdp --entry bpfdb
            verdict "TCP to 23, a map of processors, $compiler" elsewhere 0x1 256 6
        done
        unfit "conflicting types for 'filter'" $architecture -DBPFDB_TC=filter "$top/examples/xdp/xdp.c"
        sed 's/^int filter/static int filter/' "$top/examples/xdp/xdp.c" > elsewhere.c
        unfit "static declaration of 'filter' follows non-static declaration" $architecture -DBPFDB_XDP=filter elsewhere.c
        unfit "redefinition of 'xdp_md'" $architecture -I"$parts/headers" -DBPFDB_XDP=no_arp "$parts/headers/relocated.c"

        # Without the header `link` refuses them with --struct none, and takes them as they are, by their types: the verdicts are those of the header.
        kernels="E55: entry takes the kernel's own struct of a packet: --struct, in tests -- struct, gives it one of the machine's"
        for row in "firewall xdp $top/examples/firewall/firewall.c" "filter xdp $top/examples/xdp/xdp.c" "classify tc $parts/headers/classifier.c"; do
            # (no name here has a blank within)
            set -- $row
            clang $architecture -g -O2 -target bpf -c -o program.o "$3"
            stub=--helper=6=0
            refused_link "$1 without the header" "$kernels: $1" --section "$2" --struct none $stub
            linked "bare-$1" '*' --section "$2" $stub
        done
        while IFS='|' read -r name of_firewall of_counter of_classifier protocol digits; do
            packet_of "$digits"
            verdict "$name, as it is" bare-firewall "$of_firewall" 40 "$((of_firewall))"
            verdict "$name, as it is" bare-filter "$of_counter" 256 "$protocol"
            verdict "$name, as it is" bare-classify "$of_classifier"
        done < packets

        # What docs/XDP.md shows at a shell, in a copy of the example.
        mkdir bin
        ln -s "$program" bin/bpfdb
        sed -n '/^```$/,/^```$/p' "$top/docs/XDP.md" |
            awk '/^```$/ { block = !block; on = 0; next } block && /^\$ (clang|bpfdb) / { on = 1; print; next } /^[$(]/ { on = 0 } !block { on = 0 } on' > shown
        [ "$(grep -c '^\$ ' shown)" -ge 3 ] || complain 'docs/XDP.md shows too few commands'
        cp -R "$top/examples/firewall" typed
        sed -n 's/^\$ //p' shown | sed "s|/usr/local/share/bpfdb|$top/share|" > commands
        (cd typed && PATH=../bin:$PATH && . ../commands) > found/out 2>&1
        echo $? > found/status
        : > found/err
        check 'docs/XDP.md: its commands' 0 "$(grep -v '^\$ ' shown | sed 's/$/\\n/' | tr -d '\n')" ''
        if has python3 'packets of a capture'; then
            # TCP to 23, TCP to 80, and UDP.
            for row in '1 0x1 6' '2 0x2 6' '3 0x2 17'; do
                set -- $row
                "$top/share/bpfdb-context" -o packet packet "$top/examples/xdp/packets.pcap" "$1" > told 2>&1 || { left_out 'packets of a capture' "$(cat told)"; break; }
                verdict "packet $1 of packets.pcap" firewall "$2" 40 "$(($2))"
                verdict "packet $1 of packets.pcap" counter "$2" 256 "$3"
            done
        fi
    fi
fi
