# A packet of a capture as the context: -m CAPTURE --packet N. Captures are written here by their format's description; what the program gives is the number of bytes,
# times 256, and the first of them.

# head_of LINK: the bytes of the global head of a capture whose numbers begin with the lowest byte and whose packets have this link type (two bytes).
head_of() {
    echo "d4 c3 b2 a1 02 00 04 00 00 00 00 00 00 00 00 00 00 00 04 00 $1 00 00"
}

# of_capture NAME BYTE..: a capture of Ethernet, and packets (head and bytes) behind its head.
of_capture() {
    name=$1
    shift
    # (words without blanks)
    # shellcheck disable=SC2046
    bytes "$name" $(head_of '01 00') "$@"
}

# alike SUBCOMMAND ..: it answers on a packet of a capture as on a file of its bytes.
alike() {
    run "$@" -m packet
    mv found/out found/err found/status wanted
    run "$@" -m two.pcap --packet 1
    compare "$* --packet 1"
}

listing first.s 'mov r0, r2;lsh r0, 8;jeq r2, 0, none;ldxb r1, [r1+0];or r0, r1;none: exit'
one='00 00 00 00 00 00 00 00 04 00 00 00 04 00 00 00 0a 0b 0c 0d'
bytes packet 0a 0b 0c 0d
# Two packets, of which the second wasn't captured as a whole; the same cut off within it, within its head, and behind the global head; and of a packet without bytes.
# shellcheck disable=SC2086
of_capture two.pcap $one 01 00 00 00 00 00 00 00 03 00 00 00 09 00 00 00 01 02 03
# shellcheck disable=SC2086
of_capture cut.pcap $one 01 00 00 00 00 00 00 00 03 00 00 00 09 00 00 00 01 02
# shellcheck disable=SC2086
of_capture head.pcap $one 01 00 00 00
of_capture none.pcap
of_capture empty.pcap 00 00 00 00 00 00 00 00 00 00 00 00 00 00 00 00
head -c 23 none.pcap > short.pcap
result '0x40a\n' run -m two.pcap --packet 1 first.s
result '0x40a\n' run --packet=1 --mem two.pcap first.s
row 'a packet that was captured in part' 0 '' '0x301\n' 'of packet 2 3 of 9 bytes were captured\n' run -m two.pcap --packet 2 first.s
result '0x0\n' run -m empty.pcap --packet 1 first.s
result '0x40a\n' run -m cut.pcap --packet 1 first.s
result '0x40a\n' run -m head.pcap --packet 1 first.s

# Numbers that begin with the highest byte; and times of nanoseconds in both orders. What else the link type's number has isn't of the link type.
bytes big.pcap a1 b2 c3 d4 00 02 00 04 00 00 00 00 00 00 00 00 00 04 00 00 00 00 00 01 00 00 00 00 00 00 00 00 00 00 00 02 00 00 00 02 88 99
bytes bigger.pcap a1 b2 3c 4d 00 02 00 04 00 00 00 00 00 00 00 00 00 04 00 00 00 00 00 01 00 00 00 00 00 00 00 00 00 00 00 02 00 00 00 03 77 99
bytes finer.pcap 4d 3c b2 a1 02 00 04 00 00 00 00 00 00 00 00 00 00 00 04 00 01 00 00 24 00 00 00 00 00 00 00 00 01 00 00 00 01 00 00 00 66
result '0x288\n' run -m big.pcap --packet 1 first.s
row 'nanoseconds, the highest byte first' 0 '' '0x277\n' 'of packet 1 2 of 3 bytes were captured\n' run -m bigger.pcap --packet 1 first.s
result '0x166\n' run -m finer.pcap --packet 1 first.s

# All of a capture is the context as it was, and a note says so; of what is no capture nothing is said.
whole='the context is a whole capture: --packet N takes one of its packets\n'
row 'a whole capture' 0 '' '0x2aa1\n' "$whole" run -m big.pcap first.s
row 'the start of one' 0 '' '0x17d4\n' "$whole" run -m short.pcap first.s
bytes new.pcapng 0a 0d 0d 0a 1c 00 00 00 4d 3c 2b 1a 01 00 00 00 ff ff ff ff ff ff ff ff 1c 00 00 00
row 'a whole capture in pcapng' 0 '' '0x1c0a\n' "$whole" run -m new.pcapng first.s
bytes other a1 b2 c3 d5 00
result '0x5a1\n' run -m other first.s

# What is refused.
refused 'refused P1: no capture in pcap'"'"'s own format (other)' run -m other --packet 1 first.s
: > nothing
refused 'refused P1: no capture in pcap'"'"'s own format (nothing)' run -m nothing --packet 1 first.s
refused 'refused P2: the capture is in pcapng: tcpdump -r OLD -w NEW writes it in pcap'"'"'s own format (new.pcapng)' run -m new.pcapng --packet 1 first.s
# linked LINK NAME: packets of this link type (two bytes) are refused by name.
linked() {
    # shellcheck disable=SC2046,SC2086
    bytes link.pcap $(head_of "$1") $one
    refused "refused P3: packets of the capture don't begin with a header of Ethernet: $2 (link.pcap)" run -m link.pcap --packet 1 first.s
}
linked '00 00' 'BSD loopback (link type 0)'
linked '09 00' 'PPP (link type 9)'
linked '65 00' 'Raw IP (link type 101)'
linked '69 00' '802.11 (link type 105)'
linked '6c 00' 'OpenBSD loopback (link type 108)'
linked '71 00' 'Linux cooked v1 (link type 113)'
linked '7f 00' '802.11 plus radiotap header (link type 127)'
linked 'e4 00' 'Raw IPv4 (link type 228)'
linked 'e5 00' 'Raw IPv6 (link type 229)'
linked 'ef 00' 'Linux netfilter log messages (link type 239)'
linked 'fd 00' 'Linux netlink (link type 253)'
linked '14 01' 'Linux cooked v2 (link type 276)'
linked '02 00' 'something else (link type 2)'
refused 'refused P4: no such packet: the capture has 2 (two.pcap)' run -m two.pcap --packet 3 first.s
refused 'refused P4: no such packet: the capture has 2 (two.pcap)' run -m two.pcap --packet 1000000000 first.s
refused 'refused P4: no such packet: the capture has 0 (none.pcap)' run -m none.pcap --packet 1 first.s
refused "refused P5: the capture is cut off before the packet's end: whole packets: 1 (cut.pcap)" run -m cut.pcap --packet 2 first.s
refused "refused P5: the capture is cut off before the packet's end: whole packets: 1 (cut.pcap)" run -m cut.pcap --packet 3 first.s
refused "refused P5: the capture is cut off before the packet's end: whole packets: 1 (head.pcap)" run -m head.pcap --packet 2 first.s
refused "refused P5: the capture is cut off before the packet's end: whole packets: 0 (short.pcap)" run -m short.pcap --packet 1 first.s
# A packet of 65,536 bytes is a context, and one of 65,537 none; a capture that isn't there.
of_capture long.head 00 00 00 00 00 00 00 00 01 00 01 00 01 00 01 00
{ cat long.head; head -c 65537 /dev/zero; } > long.pcap
refused 'refused O1: context too long' run -m long.pcap --packet 1 first.s
of_capture long.head 00 00 00 00 00 00 00 00 00 00 01 00 00 00 01 00
{ cat long.head; head -c 65536 /dev/zero; } > long.pcap
result '0x1000000\n' run -m long.pcap --packet 1 first.s
refused 'cannot read absent' run -m absent --packet 1 first.s
# FILE comes first, then its contexts, and these before what else is refused.
refused 'cannot read absent' run -m two.pcap --packet 3 absent
printf 'no words' > ragged
refused 'refused P4: no such packet: the capture has 2 (two.pcap)' run -m two.pcap --packet 3 --words ragged
needs="'--packet <N>' needs '--mem <PATH>', and '--other-packet <N>' needs '--other-mem <PATH>'"
for subcommand in run trace debug origin whynot gdb; do
    what=''
    [ $subcommand != whynot ] || what=0
    # (what is asked about is a word without blanks, or none)
    usage "$needs" $subcommand --packet 1 first.s $what
    usage "invalid value '0' for '--packet <N>': 0 is not in 1..=1000000000" $subcommand -m two.pcap --packet 0 first.s $what
    usage "invalid value 'xdp' for '--packet <N>': invalid digit found in string" $subcommand -m two.pcap --packet xdp first.s $what
    refused 'refused P4: no such packet: the capture has 2 (two.pcap)' $subcommand -m two.pcap --packet 3 first.s $what
    usage "unexpected argument '--other-packet' found" $subcommand -m two.pcap --other-packet 1 first.s $what
done
usage "$needs" diff --packet 1 --other-mem two.pcap first.s
usage "$needs" diff -m two.pcap --other-packet 1 first.s first.s
usage "unexpected argument '--packet' found" check --packet 1 first.s

# Each subcommand takes it.
printf 'stepi 4\ninfo regs\nreverse-stepi\nx 0x100000000 4\ncontinue\n' > script
for subcommand in run 'run --strict' trace 'trace --branches' 'trace --profile --json' debug origin 'origin --json' gdb; do
    # shellcheck disable=SC2086
    alike $subcommand first.s
done
alike whynot first.s none
printf 'QStartNoAckMode\n' > script
alike gdb first.s
# Both sides of a comparison, each by itself.
printf '\001\002\003' > second
run diff first.s -m packet --other-mem second
mv found/out found/status wanted
echo 'of packet 2 3 of 9 bytes were captured' > wanted/err
run diff first.s -m two.pcap --packet 1 --other-mem two.pcap --other-packet 2
compare 'two packets of a capture'
run diff first.s -m packet --other-mem second
mv found/out found/status found/err wanted
run diff first.s -m two.pcap --packet 1 --other-mem second
compare 'a packet and a file'
run diff first.s -m second --other-mem packet
mv found/out found/status found/err wanted
run diff first.s -m second --other-mem two.pcap --other-packet 1
compare 'a file and a packet'
refused 'refused P4: no such packet: the capture has 2 (two.pcap)' diff -m packet --other-mem two.pcap --other-packet 3 first.s
refused 'refused P1: no capture in pcap'"'"'s own format (other)' diff -m other --packet 1 --other-mem two.pcap --other-packet 3 first.s
row 'two whole captures' 0 '' "$("$program" diff first.s -m big.pcap --other-mem big.pcap 2> found/err)\n" \
    "$whole"'the context is a whole capture: --other-packet N takes one of its packets\n' diff first.s -m big.pcap --other-mem big.pcap

# Damaged captures cost no more than their length: lengths up to 2^32 - 1, and a million packets without bytes, of which the last is asked for, and one more.
# shellcheck disable=SC2086
of_capture great.pcap $one 00 00 00 00 00 00 00 00 ff ff ff ff ff ff ff ff 01
refused "refused P5: the capture is cut off before the packet's end: whole packets: 1 (great.pcap)" run -m great.pcap --packet 2 first.s
{ cat none.pcap; head -c 16000000 /dev/zero; } > many.pcap
result '0x0\n' run -m many.pcap --packet 1000000 first.s
refused 'refused P4: no such packet: the capture has 1000000 (many.pcap)' run -m many.pcap --packet 1000001 first.s

# Doors take the words: the page and the shell, whose memory is that of the packet.
if has python3 'doors on a packet of a capture'; then
    cp "$program" bpfdb
    PATH=$PWD:$PATH "$top/share/bpfdb-page" -o page.html -m two.pcap --packet 1 first.s > found/out 2> found/err
    count=$((count + 1))
    { grep -q '"opening":{"size":4,' page.html && grep -q '<title>first.s on packet 1 of two.pcap<' page.html; } || complain "bpfdb-page: $(cat found/err)"
    printf 'x 0x100000000 4\nquit\n' > script
    PATH=$PWD:$PATH "$top/share/bpfdb-shell" -m two.pcap --packet 1 first.s < script > found/out 2> found/err
    count=$((count + 1))
    grep -q -x '0x100000000: 0a0b0c0d' found/out || complain "bpfdb-shell: $(cat found/out found/err)"
fi
