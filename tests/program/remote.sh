# gdb: packets, as gdb sends them, and the answers; connections that end, and that fail. Most rows stand in
# tests/program/packets/.
. "$parts/packets.sh"

# packet BODY: the packet of a body.
packet() {
    printf '$%s#%02x' "$1" "$(printf '%s' "$1" | od -An -v -tu1 | awk '{ for (i = 1; i <= NF; i++) sum += $i } END { print sum % 256 }')"
}

# answered NAME STATUS OUTPUT ERRORS: holds what a connection is answered that has no rows, and whose status is the last one.
answered() {
    echo $? > found/status
    check "$@"
}

# The sums of these are of the bodies, by hand.
printf 'mov r0, 42\nexit\n' > answer.s
row 'a step, the way back, and the end' 0 '$s#73$bs#d5$bs#d5$D#44' '+$T05thread:0;0a:0002000002000000;0b:0800000000000000;40:0100000000000000;#c9+$T05thread:0;0a:0002000002000000;0b:0000000000000000;40:0000000000000000;#c0+$T05replaylog:begin;thread:0;0a:0002000002000000;0b:0000000000000000;40:0000000000000000;#09+$OK#9a' '' gdb --listing answer.s
row 'nothing' 0 '' '' '' gdb --listing answer.s
row 'a damaged packet, and one behind it' 0 '$s#00$?#3f' '-+$T00thread:0;0a:0002000002000000;0b:0000000000000000;40:0000000000000000;#bb' '' gdb --listing answer.s
row 'sums that are none' 0 '$?#3g$?#g3$?##3f$?#3f' '---+$T00thread:0;0a:0002000002000000;0b:0000000000000000;40:0000000000000000;#bb' '' gdb --listing answer.s
row 'the last answer again' 0 '$s#73-' '+$T05thread:0;0a:0002000002000000;0b:0800000000000000;40:0100000000000000;#c9$T05thread:0;0a:0002000002000000;0b:0800000000000000;40:0100000000000000;#c9' '' gdb --listing answer.s
row 'noise' 0 'noise#3f+\003$?#3f++' '+$T00thread:0;0a:0002000002000000;0b:0000000000000000;40:0000000000000000;#bb' '' gdb --listing answer.s
row 'nothing is answered behind the end of a connection' 0 '$D#44$?#3f' '+$OK#9a' '' gdb --listing answer.s
row 'the end without an answer' 0 '$k#6b$?#3f' '+' '' gdb --listing answer.s
row 'no more acknowledgements' 0 '$QStartNoAckMode#b0$?#3f$?#00' '+$OK#9a$T00thread:0;0a:0002000002000000;0b:0000000000000000;40:0000000000000000;#bb-' '' gdb --listing answer.s
row 'a limit of steps' 0 '$c#63' '+$O6c696d6974206f6620312073746570733a20636f6e74696e756520676f6573206f6e0a#ba$T02thread:0;0a:0002000002000000;0b:0800000000000000;40:0100000000000000;#c6' '' gdb --listing --steps 1 answer.s
for cut in '$' '$?' '$?#' '$?#3'; do
    row "a packet that is cut: $cut" 0 "\$s#73$cut" '+$T05thread:0;0a:0002000002000000;0b:0800000000000000;40:0100000000000000;#c9' '' gdb --listing answer.s
done
{ printf '$'; head -c 16385 /dev/zero | tr '\0' 'p'; printf '#70$?#3f'; } > script
run gdb --listing answer.s
check 'a packet that is too long' 0 '-+$T00thread:0;0a:0002000002000000;0b:0000000000000000;40:0000000000000000;#bb' ''
printf 'frob\n' > wrong.s
row 'a refused listing' 2 '$?#3f' '' 'refused A1 at line 1: unknown mnemonic\n' gdb --listing wrong.s
row 'a refused journal' 2 '$?#3f' '' 'refused J1: journal size out of range\n' gdb --journal 1 --listing answer.s

# The tables: sessions, streams of bytes, beginnings of a stream, and descriptions of machines.
for name in requests refusals numbers statuses stops conditions ends watches frames lengths machines origin whynot; do
    play_blocks "$parts/packets/$name.txt"
done
streams_of "$parts/packets/streams.txt"
cuts_of "$parts/packets/cuts.txt" '$s#73$qSupported:swbreak+#8b$c#63$bs#d5'
registers_of "$parts/packets/descriptions.txt"

# Where values came from: what gdb is shown, in packets or in one, is what `origin` tells behind the same lines, up to 500 lines of moves and 32,768 bytes.
# monitor LINE: the packet of a line.
monitor() { packet "qRcmd,$(printf '%s' "$1" | od -An -v -tx1 | tr -d ' \n')"; }
# shows LINE ARGUMENT..: what gdb is shown for it behind the lines of the file `said`.
shows() {
    { while read -r line; do monitor "$line"; done < said; monitor "$1"; } > script
    shift
    run gdb --registers bpf "$@"
    tr '$' '\n' < found/out | sed -n 's/^O\([0-9a-f]*\)#..$/\1/p' |
        LC_ALL=C awk "$packets"'BEGIN { prepare(); ORS = "" } { print spelled($0) }' > found/shown
    : > script
}
listing sum.s 'ldxb r0, [r1+0];ldxb r2, [r1+1];add r0, r2;stxb [r10-1], r0;mov r2, 9;exit'
printf '\052\001' > two
for lines in 'stepi' 'stepi 3\nset reg r2 7\nstepi' 'continue\nundo\nredo' 'continue\nreverse-stepi 2' 'set mem 0x100000001 ff\nstepi 4\nundo 2\nstepi 3'; do
    printf "$lines\n" > said
    for what in '' r0 r2 0x2000001ff 0x2000001f8:8 0x100000000:2 0x200000000:256; do
        shows "origin${what:+ $what}" -m two --listing sum.s
        run origin -m two --script said --listing sum.s $what
        sed 1d found/out > wanted/shown
        same "what is shown of origin $what behind $lines" wanted/shown found/shown
    done
done
printf 'continue\n' > said
listing many.s 'loop: add r0, 1;jlt r0, 600, loop;exit'
shows origin --listing many.s
awk 'BEGIN { for (i = 600; i > 100; i--) printf "-%d r0 = 0x%x; 0: add r0, 1; from r0\n", 1203 - 2 * i, i; print "cut: there are more lines" }' > wanted/shown
same 'an answer of more than 500 lines of moves' wanted/shown found/shown
{ echo 'ldxdw r0, [r1+0]'; for at in $(seq 8 8 1976); do printf 'ldxdw r2, [r1+%d]\nadd r0, r2\n' "$at"; done; echo exit; } > loads.s
head -c 1984 /dev/zero > zeros
shows origin -m zeros --listing loads.s
echo 'cut: the answer has more than 32768 bytes' > wanted/shown
same 'an answer of more than 32,768 bytes' wanted/shown found/shown

# Why slots were not come to: what gdb is shown is what `whynot` tells behind the same lines, but for where the machine stands, with the same limits.
listing turns.s 'ldxb r0, [r1+0];jeq r0, 42, on;ja out;on: ldxb r2, [r1+1];jlt r2, r0, less;mov r0, 7;out: exit;less: callf f;exit;f: sub r0, r2;jgt r0, 40, out;exit'
for lines in 'stepi' 'stepi 2' 'continue' 'continue\nreverse-stepi 3' 'continue\nundo\nredo' 'stepi 2\nset pc 6\nstepi' 'set mem 0x100000000 2b\ncontinue' 'stepi 3\nset reg r2 99\ncontinue'; do
    printf "$lines\n" > said
    for what in 0 1 2 3 5 6 7 8 9 11 0,2 3,5 5,8,11; do
        shows "whynot $what" -m two --listing turns.s
        run whynot -m two --script said --listing turns.s $what
        sed 1d found/out > wanted/shown
        same "what is shown of whynot $what behind $lines" wanted/shown found/shown
    done
done
printf 'continue\n' > said
shows 'whynot 0' --listing many.s
awk 'BEGIN {
    print "-2 1: jlt r0, 600, L0; r0 = 0x258; went on\nat 1: jlt r0, 600, L0"
    for (i = 600; i > 100; i--) printf "-%d r0 = 0x%x; 0: add r0, 1; from r0\n", 1201 - 2 * i, i
    print "cut: there are more lines"
}' > wanted/shown
same 'why a slot was not come to, in more than 500 lines of moves' wanted/shown found/shown
{ sed '$d' loads.s; echo 'jeq r0, 0, out'; echo 'mov r0, 1'; echo 'out: exit'; } > far.s
slots=$(wc -l < far.s)
shows "whynot $((slots - 2))" -m zeros --listing far.s
echo 'cut: the answer has more than 32768 bytes' > wanted/shown
same 'why a slot was not come to, in more than 32,768 bytes' wanted/shown found/shown

# The session is left as it was: what other lines print is the same, whether slots are asked about between them or not. A move that is dropped is dropped in both.
printf '%s\n' stepi 'stepi 3' 'info history' 'reverse-stepi 2' 'info history' redo 'set reg r2 9' 'stepi 2' 'break 7' undo 'info history' 'redo 1' 'set mem 0x2000001f8 0102' \
    continue 'info regs' 'info breaks' 'delete 7' 'continue' 'info history' 'reverse-continue' 'watch 0x2000001f8' 'undo 2' 'info history' 'redo 2' 'redo 3' 'info history' \
    'stepi 40' reverse-nexti 'info frames' 'reverse-stepi 25' 'info history' 'redo 5' 'redo 1000' 'set pc 1' 'stepi 9' 'undo 3' 'info history' 'redo' 'info regs' 'x 0x200000000 64' > said
for journal in 1024 4096; do
    for listing in turns.s many.s; do
        while read -r line; do monitor "$line"; done < said > script
        run gdb --registers bpf --journal $journal -m two --listing $listing
        mv found/out wanted/lines
        while read -r line; do monitor "$line"; monitor 'whynot 1'; monitor 'whynot 0,2'; monitor 'whynot x'; monitor 'whynot 2'; done < said > script
        run gdb --registers bpf --journal $journal -m two --listing $listing
        [ "$(tr '+' '\n' < found/out | grep -c '^\$O[0-9a-f]*#..\(\$O[0-9a-f]*#..\)*\$OK#9a$')" = $((4 * $(wc -l < said))) ] ||
            complain "slots that are asked about between lines, of $listing"
        tr '+' '\n' < found/out | grep -v '^\$O[0-9a-f]*#..' | tr '\n' '+' | sed 's/+$//' > found/lines
        same "what lines print between which slots are asked about, of $listing, with a journal of $journal bytes" wanted/lines found/lines
    done
done

# The whole stream behind it: a long program, whose memory is taken and given back each time.
{ echo 'jeq r1, 0, out'; yes 'mov r0, 1' | head -n 30000; echo 'out: exit'; } > long-way.s
printf 'stepi\n' > said
{ monitor stepi; for _ in 1 2 3 4 5 6 7 8 9 10 11 12 13 14 15 16 17 18 19 20; do monitor 'whynot 15000'; done; monitor 'whynot 30001'; } > script
run gdb --registers bpf --listing long-way.s
[ "$(tr '$' '\n' < found/out | grep -c '^O[^K]')" = 21 ] || complain 'why a slot was not come to, asked twenty times of a long program'

# The numbers of errors are those of refusals, in hexadecimal, 02 where a request's arguments are wrong.
requests 'registers' gdb --registers bpf --listing answer.s <<'ROWS'
g|000000000000000000000000000000000000000000000000000000000000000000000000000000000000000000000000000000000000000000000000000000000000000000000000000000000000000000020000020000000000000000000000
p0|0000000000000000
pa|0002000002000000
pb|0000000000000000
p17|xxxxxxxxxxxxxxxx
p|E02
pg|E02
P0=2a00000000000000|OK
p0|2a00000000000000
P9=ffffffffffffffff|OK
p9|ffffffffffffffff
Pa=0000000000000000|E07
pa|0002000002000000
Pb=0800000000000000|OK
pb|0800000000000000
Pb=0400000000000000|E02
Pb=1000000000000000|E08
pb|0800000000000000
P0=2a|E02
P0|E02
P17=0000000000000000|E02
p0|2a00000000000000
ROWS
requests 'memory' gdb --listing answer.s <<'ROWS'
m0,8|b70000002a000000
m8,20|9500000000000000
m10,1|E06
m2000001fe,4|0000
m200000200,1|E06
mffffffffffffffff,1|E06
m2000001f8,0|E06
m2000001f8|E02
M2000001f8,2:0703|OK
m2000001f8,4|07030000
M2000001ff,2:0000|E06
M0,1:00|E06
M2000001f8,2:07|E02
M2000001f8,1:0|E02
m2000001f8,4|07030000
ROWS
requests 'stops' gdb --listing answer.s <<'ROWS'
Z0,8,1|OK
Z0,8,1|E0b
Z0,10,1|E08
Z0,4,1|E02
Z0,8|E02
c|T05
pb|0800000000000000
z0,8,1|OK
z0,8,1|E0b
Z2,2000001f8,2|OK
Z2,2000001f9,1|E0b
Z2,200000000,3|E0a
Z2,10,1|E06
Z2,200000000,5|E02
z2,2000001f8,2|OK
z2,2000001f8,1|E0b
ROWS
printf 'stw [r10-8], 7\nldxb r0, [r0+0]\nexit\n' > watched.s
requests 'ways to go on, a watch, a fault and the end' gdb --listing watched.s <<'ROWS'
vCont?|vCont;c;C;s;S;r
Z2,2000001f8,2|OK
vCont;c:1|T05watch:00000002000001f8;
vCont;s:1|T0b|fault access 0x0 at 1
S0b|T00|fault access 0x0 at 1
bs|T05
bc|T05watch:00000002000001f8;
pb|0000000000000000
z2,2000001f8,2|OK
P0=f801000002000000|OK
C05|T05replaylog:end;|exited at 2: r0 0x7
c|T05replaylog:end;|exited at 2: r0 0x7
?|T00
bc|T05replaylog:begin;
vCont;t|E02
ROWS
requests 'what is not known' gdb --listing answer.s <<'ROWS'
|
vMustReplyEmpty|
qC|
qfThreadInfo|
X0,0:|
Z3,8,1|
Z4,8,1|
R00|
!|
i|
bx|
ROWS
requests 'what gdb expects, and lines of a script' gdb --listing answer.s <<'ROWS'
Hg0|OK
qAttached|1
qRcmd,7265672072|726566757365642051313a20756e6b6e6f776e20636f6d6d616e640a
qRcmd,7|E02
qRcmd,7g|E02
qRcmd,73657420726567207230203961|726566757365642051323a2077726f6e6720617267756d656e740a
qRcmd,73657420726567207230203961g|E02
qRcmd,|OK
vKill;1|OK
ROWS

# The line `help` lists the commands, but for quit, whose place in gdb is gdb's own, and the line `origin`.
packet qRcmd,68656c70 > script
run gdb --registers bpf --listing answer.s
sed 's/^+\$//; s/#..$//' found/out | LC_ALL=C awk "$packets"'BEGIN { prepare(); ORS = "" } { print spelled($0) }' > found/help
awk -F ' *[|] *' '!/^#/ && $2 != "quit" { print $2 ": " $4 }' "$top/docs/commands.txt" > wanted/help
echo "origin [WHAT]: shows where a register or ADDRESS:COUNT got its value; left out r0, or a bad access's address" >> wanted/help
echo "whynot SLOT,..: tells the latest kept branch after which these slots were out of reach" >> wanted/help
same 'help lists the commands' wanted/help found/help

# Lines of 30 bytes and of the digits of their slots: 256 are 8,338 bytes, and 8,192 fit a packet. 251 are 8,173.
{ yes 'stdw [r10-256], -2147483648' | head -n 256; echo exit; } > long.s
requests 'a reply that is too long' gdb --listing long.s <<'ROWS'
qRcmd,6469736173203020323536|E10
?|T00
ROWS
packet qRcmd,6469736173203020323531 > script
run gdb --listing long.s
[ "$(wc -c < found/out)" = $((1 + 2 * 8173 + 4)) ] || complain 'a reply that is nearly too long'

# A connection that ends has status 0, one that fails status 2.
: > found/out
"$program" gdb --listing answer.s < . > found/out 2> found/err
answered 'input that is none' 2 '' 'cannot read input\n'
"$program" gdb --listing answer.s <&- > found/out 2> found/err
answered 'closed input' 0 '' ''
printf '$?#3f' > script
: > found/out
if [ -c /dev/full ]; then
    "$program" gdb --listing answer.s < script > /dev/full 2> found/err
    answered 'an output that is full' 2 '' 'cannot write output\n'
fi
"$program" gdb --listing answer.s < script >&- 2> found/err
answered 'a closed output' 2 '' 'cannot write output\n'
mkfifo pipe
: < pipe &
exec 5> pipe
wait
"$program" gdb --listing answer.s < script >&5 2> found/err
answered 'an output whose reader has left' 2 '' 'cannot write output\n'
exec 5>&-
