# link --struct: programs for XDP and tc as the kernel takes them, compiled by each clang that is installed with the kernel's own structs
# (tests/program/kernels/), on packets. Verdicts were worked out from the packets' bytes by hand; what is refused, and why, stands beside its name.

# bytes_of DIGITS: the file `packet`.
bytes_of() {
    bytes packet $(printf '%s' "$1" | sed 's/ //g; s/../& /g')
}

# gives VALUE NAME: the program of this name, for the struct $struct, gives this on `packet`.
gives() {
    "$program" link --struct "$struct" --section "$struct" --entry "$2" works.o > words 2> told || complain "$compiler $level: $2: $(cat told)"
    result "$1\n" run $(told_maps) -m packet words
}

# unfit LINE NAME: the program of this name isn't taken, and this line says why, from the slot on (whose number clang's version decides).
unfit() {
    printf '%b' "$script_unread" > script
    run link --struct "$struct" --section "$struct" --entry "$2" refused.o
    sed -i 's/ at slot [0-9]*:/:/; s/slot [0-9]*$/slot/' found/err
    check "$compiler $level: $2" 2 '' "refused $1, slot\n"
}

ethernet='020000000001020000000002'
tcp_end='00000001000000005002200000000000'
no_field="E56: access to no field of the packet's struct"
mixed="E57: access to the packet's struct on some ways, to something else on others"
arithmetic="E58: arithmetic on the address of the packet's struct"
escapes="E59: address of the packet's struct is stored, passed or returned"
kernels="refused E55: entry takes the kernel's own struct of a packet: --struct, in tests -- struct, gives it one of the machine's"

find_compilers 'link --struct'
for compiler in $compilers; do
    for level in '-O1' '-O2' '-O2 -mcpu=v3'; do
        # (options have no blanks within)
        for name in works refused; do
            "$compiler" -g $level -target bpf -c "$parts/kernels/$name.c" -o $name.o 2> found/err || complain "$compiler: $name.c: $(cat found/err)"
        done

        # TCP to 23 behind an option of IPv4, of 58 bytes: XDP_DROP, 1. The first byte is 2, so `called` is 1002 + 2002 + 58; of 0x0800 it is
        # TC_ACT_SHOT, 2. `stores` is 7 + 20 + 300 + 4000 + 58 + 0 + 300 % 256 + 0.
        struct=xdp
        bytes_of "$ethernet 0800 4600002c00010000 4006 0000 0a0000010a000002 07040400 3039 0017 $tcp_end"
        gives 0x1 firewall
        gives 0x3a length
        gives 0x2 spilled
        gives 0xbf6 called
        gives 0x4d exchanged
        gives 0x422 beside
        gives 0x44 walked
        gives 0x111b sorted
        gives 0xfffffffffffffffb negative
        gives 0x2 unread
        struct=tc
        gives 0x2 classify
        gives 0x800 protocol
        gives 0x114d stores

        # TCP to 80, of 54 bytes; then UDP, which isn't for XDP_DROP either, and which TC_ACT_OK, 0, is for; ARP; and nothing.
        struct=xdp
        bytes_of "$ethernet 0800 4500002800010000 4006 0000 0a0000010a000002 3039 0050 $tcp_end"
        gives 0x2 firewall
        gives 0x36 length
        bytes_of "$ethernet 0800 4500002800010000 4011 0000 0a0000010a000002 3039 0017 $tcp_end"
        gives 0x2 firewall
        struct=tc
        gives 0x0 classify
        bytes_of "$ethernet 0806 0001080006040001"
        gives 0xffffffffffffffff classify
        gives 0x806 protocol

        # Programs in turn get one struct, whatever the ones before have left in registers, in r2 too, by which the length was told: here 14 and 8 bytes.
        for names in 'spilled length' 'called firewall spilled length' 'length length'; do
            # (names without blanks)
            "$program" link --struct xdp $(printf -- '--entry %s ' $names) works.o > words 2> told || complain "$compiler $level: $names: $(cat told)"
            result '0x16\n' run -m packet words
        done

        # A length in place of a type: 0x05ff is one, 0x0600 is none. Of 802.3 it is 4, ETH_P_802_2, or 1 where ffff follows.
        bytes_of "$ethernet 05ff 4242"
        gives 0x4 protocol
        bytes_of "$ethernet 05ff ffff"
        gives 0x1 protocol
        bytes_of "$ethernet 05ff ff"
        gives 0x4 protocol
        bytes_of "$ethernet 0600 ffff"
        gives 0x600 protocol
        bytes_of "$ethernet 08"
        gives 0x0 protocol
        bytes_of ''
        gives 0x0 protocol
        gives 0xffffffffffffffff classify
        struct=xdp
        gives 0x0 length
        gives 0x1 negative
        gives 0xffffffffffffffff spilled

        unfit "$no_field: xdp" part
        unfit "$no_field: xdp" behind
        unfit "$no_field: xdp" stored_field
        unfit "$mixed: xdp" mixed
        unfit "$mixed: xdp" walks
        unfit "$arithmetic: xdp" indexed
        unfit "$arithmetic: xdp" or_of
        unfit "$escapes: xdp" keeps
        unfit "$escapes: xdp" passes
        unfit "$escapes: xdp" as_flags
        unfit "$escapes: xdp" returns
        unfit "$escapes: xdp" through_frame
        unfit "$escapes: xdp" through_address
        unfit "$escapes: xdp" loads_copy
        unfit "$escapes: xdp" stores_over
        unfit "$escapes: xdp" chosen
        unfit "$escapes: xdp" chosen_other
        unfit "$no_field: .text" in_text
        struct=tc
        unfit "$no_field: tc" socket
        unfit "$no_field: tc" stored_len

        # Without the option the entry's type says which of the structs it takes, and with `none` such an entry is refused, whatever it does with it.
        for row in 'xdp firewall' 'xdp unread' 'tc classify'; do
            # (no name here has a blank within)
            set -- $row
            "$program" link --struct "$1" --section "$1" --entry "$2" works.o > wanted/out 2> wanted/err
            run link --section "$1" --entry "$2" works.o
            echo 0 > wanted/status
            compare "$compiler $level: $2 by its type"
            refused "$kernels: $2" link --struct none --section "$1" --entry "$2" works.o
        done
        refused "$kernels: classify" run --object --struct none --section tc --entry classify works.o
    done

    # What isn't compiled with -g says nothing of its entry, and is taken with the option, too.
    "$compiler" -O2 -target bpf -c "$parts/kernels/works.c" -o plain.o 2> found/err || complain "$compiler: works.c: $(cat found/err)"
    count=$((count + 1))
    "$program" link --section xdp --entry firewall plain.o > words 2> told && [ -s words ] || complain "an object without BTF: $(cat told)"
    level=-O2
    cp plain.o works.o
    struct=xdp
    bytes_of "$ethernet 0800 4600002c00010000 4006 0000 0a0000010a000002 07040400 3039 0017 $tcp_end"
    gives 0x1 firewall
done

if [ -n "$compilers" ]; then
    # A word that is none of the three.
    usage "a value is none of those that its option takes" link --struct skb works.o
fi
