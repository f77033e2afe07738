# Runs that are told step by step. What each kind of step writes was worked out by hand from docs/MACHINE.md, docs/JOURNAL.md and
# docs/COMMANDS.md.

# traced NAME STATUS OUTPUT ARGUMENT..: a run of `trace` over the listing `p` gives this output, and nothing else.
traced() {
    name=$1 status=$2 output=$3
    shift 3
    row "$name" "$status" "$script_unread" "$output" '' trace --listing "$@" p
}

# Each kind of step: arithmetic, loads, stores, a wide load, atomic operations, jumps, a call, a return, the helper trace, and an exit. Frame 0 ends at
# 0x200000200, frame 1 begins at 0x200000400. A place is told whether its value changed or not (slots 0 and 22).
bytes context 01 02 03
cat > p <<'LISTING'
        mov r0, 0
        mov r6, -2
        ldxb r3, [r1+1]
        lddw r5, 0x1234
        stxdw [r10-8], r3
        stb [r10-1], 7
        mov r4, 5
        atomic_fetch_add64 [r10-8], r4
        atomic_add64 [r10-8], r6
        mov r0, 1
        atomic_cmpxchg64 [r10-8], r6
        atomic_cmpxchg64 [r10-8], r6
        jeq r3, 2, on
        exit
on:     callf f
        mov r1, 7
        call 64
        stxdw [r10-8], r6
        jne r3, 2, on
        exit
f:      mov r7, 9
        exit
LISTING
cat > all <<'LINES'
1 0: mov r0, 0; r0 = 0x0
2 1: mov r6, -2; r6 = 0xfffffffffffffffe
3 2: ldxb r3, [r1+1]; r3 = 0x2
4 3: lddw r5, 0x1234; r5 = 0x1234
5 5: stxdw [r10-8], r3; 0x2000001f8:8 = 0x2
6 6: stb [r10-1], 7; 0x2000001ff:1 = 0x7
7 7: mov r4, 5; r4 = 0x5
8 8: atomic_fetch_add64 [r10-8], r4; r4 = 0x700000000000002; 0x2000001f8:8 = 0x700000000000007
9 9: atomic_add64 [r10-8], r6; 0x2000001f8:8 = 0x700000000000005
10 10: mov r0, 1; r0 = 0x1
11 11: atomic_cmpxchg64 [r10-8], r6; r0 = 0x700000000000005
12 12: atomic_cmpxchg64 [r10-8], r6; r0 = 0x700000000000005; 0x2000001f8:8 = 0xfffffffffffffffe
13 13: jeq r3, 2, L15
14 15: callf L21; 0x200000400:512
15 21: mov r7, 9; r7 at depth 1 = 0x9
16 22: exit
17 16: mov r1, 7; r1 = 0x7
18 17: call 64; r0 = 0x0; word 0 = 0x7
19 18: stxdw [r10-8], r6; 0x2000001f8:8 = 0xfffffffffffffffe
20 19: jne r3, 2, L15
21 20: exit
exited at 20: r0 0x0
LINES
traced 'a line for each kind of step' 0 "$(text all)" -m context
traced 'the last step is the limit' 0 "$(text all)" -m context --steps 21
traced 'as many as there are' 0 "$(text all)" -m context --from 1 --count 21

# Which steps are shown: those of the list above from one on, and so many.
sed -n '5,7p; 22p' all > some
traced 'from 5, three' 0 "$(text some)" -m context --from 5 --count 3
sed -n '20,22p' all > some
traced 'from 20, five' 0 "$(text some)" -m context --from 20 --count 5
sed -n '21,22p' all > some
traced 'from the last' 0 "$(text some)" -m context --from 21
sed -n '22p' all > some
traced 'from behind the last' 0 "$(text some)" -m context --from 22
traced 'from far behind the last' 0 "$(text some)" -m context --from 1000000000 --count 1000000000

# At the limit of steps. No step behind it is shown.
{ sed -n '1,3p' all; echo 'step limit 3 reached at 3'; } > some
traced 'the limit of steps' 1 "$(text some)" -m context --steps 3
sed -n '3,4p' some > last
traced 'the limit, from 3' 1 "$(text last)" -m context --steps 3 --from 3 --count 9
traced 'the limit, from behind it' 1 'step limit 3 reached at 3\n' -m context --steps 3 --from 4

# How often each ran; what never ran has a line, and the second slot of a wide load none.
cat > counts <<'LINES'
1 0: mov r0, 0
1 1: mov r6, -2
1 2: ldxb r3, [r1+1]
1 3: lddw r5, 0x1234
1 5: stxdw [r10-8], r3
1 6: stb [r10-1], 7
1 7: mov r4, 5
1 8: atomic_fetch_add64 [r10-8], r4
1 9: atomic_add64 [r10-8], r6
1 10: mov r0, 1
1 11: atomic_cmpxchg64 [r10-8], r6
1 12: atomic_cmpxchg64 [r10-8], r6
1 13: jeq r3, 2, L15
0 14: exit
1 15: callf L21
1 16: mov r1, 7
1 17: call 64
1 18: stxdw [r10-8], r6
1 19: jne r3, 2, L15
1 20: exit
1 21: mov r7, 9
1 22: exit
exited at 20: r0 0x0
LINES
traced 'a profile' 0 "$(text counts)" -m context --profile
traced 'a profile shows all steps' 0 "$(text counts)" -m context --profile --from 9 --count 1
sed 's/^1/0/; s/^0 \([0-2]: \)/1 \1/; s/^exited.*/step limit 3 reached at 3/' counts > some
traced 'a profile at the limit' 1 "$(text some)" -m context --steps 3 --profile

# Faults of each kind: the step has a line, writes nothing, and counts.
printf 'mov r2, 0\nldxb r0, [r2+5]\nexit\n' > p
traced 'a fault of an access' 1 '1 0: mov r2, 0; r2 = 0x0\n2 1: ldxb r0, [r2+5]\nfault access 0x5 at 1\n'
traced 'a profile of a fault' 1 '1 0: mov r2, 0\n1 1: ldxb r0, [r2+5]\n0 2: exit\nfault access 0x5 at 1\n' --profile
printf 'call 1\nexit\n' > p
traced 'a fault of a token' 1 '1 0: call 1\nfault token 0x0 at 0\n'
printf 'f: callf f\nexit\n' > p
traced 'a fault of the depth' 1 '7 0: callf L0; 0x200001c00:512\n8 0: callf L0\nfault depth at 0\n' --from 7

# A loop: three rounds, and the jump out of it.
printf 'loop: add r0, 1\njlt r0, 3, loop\nexit\n' > p
traced 'a loop' 0 '1 0: add r0, 1; r0 = 0x1\n2 1: jlt r0, 3, L0\n3 0: add r0, 1; r0 = 0x2\n4 1: jlt r0, 3, L0\n5 0: add r0, 1; r0 = 0x3\n6 1: jlt r0, 3, L0\n'\
'7 2: exit\nexited at 2: r0 0x3\n'
traced 'a profile of a loop' 0 '3 0: add r0, 1\n3 1: jlt r0, 3, L0\n1 2: exit\nexited at 2: r0 0x3\n' --profile

# Helpers over maps: update writes the cell and r0, or r0 alone; lookup r0.
cat > p <<'LISTING'
ldmap r1, 0
stw [r10-4], 1
mov r2, r10
add r2, -4
stdw [r10-16], 42
mov r3, r10
add r3, -16
mov r4, 1
call 2
mov r4, 0
call 2
call 1
exit
LISTING
traced 'helpers' 0 '9 9: call 2; r0 = 0xffffffffffffffef\n10 10: mov r4, 0; r4 = 0x0\n11 11: call 2; r0 = 0x0; 0x300000008:8 = 0x2a\n'\
'12 12: call 1; r0 = 0x300000008\n13 13: exit\nexited at 13: r0 0x300000008\n' --maps 8x2 --from 9

# Values of five, six and seven bytes are numbers, too.
printf 'ldmap r1, 0\nmov r2, r10\nadd r2, -4\nlddw r3, 0x807060504030201\nstxdw [r10-16], r3\nmov r3, r10\nadd r3, -16\ncall 2\nexit\n' > p
traced 'a value of five bytes' 0 '8 9: call 2; r0 = 0x0; 0x300000000:5 = 0x504030201\n9 10: exit\nexited at 10: r0 0x0\n' --maps 5x1 --from 8
traced 'a value of six bytes' 0 '8 9: call 2; r0 = 0x0; 0x300000000:6 = 0x60504030201\n9 10: exit\nexited at 10: r0 0x0\n' --maps 6x1 --from 8
traced 'a value of seven bytes' 0 '8 9: call 2; r0 = 0x0; 0x300000000:7 = 0x7060504030201\n9 10: exit\nexited at 10: r0 0x0\n' --maps 7x1 --from 8

# The limit in a slot above 255.
{ yes 'mov r0, 1' | head -n 599; echo exit; } > p
traced 'the limit at a slot above 255' 1 '258 257: mov r0, 1; r0 = 0x1\nstep limit 258 reached at 258\n' --steps 258 --from 258
traced 'the limit at a slot above 511' 1 'step limit 513 reached at 513\n' --steps 513 --from 514
{ yes '1 %: mov r0, 1' | head -n 512; yes '0 %: mov r0, 1' | head -n 87; echo '0 %: exit'; } | awk '{ sub("%", NR - 1); print }' > some
echo 'step limit 512 reached at 512' >> some
traced 'a profile at the limit at a slot above 255' 1 "$(text some)" --steps 512 --profile

# Conditional jumps alone: of 32 bits, of two registers, of one with itself, of r10, to the next instruction, in a called function, of bits. Other jumps, calls
# and returns are none. Frame 0 ends at 0x200000200.
cat > p <<'LISTING'
        mov r0, 0
        lddw r6, 0x100000005
        jeq32 r6, 5, a
        exit
a:      jne r6, r6, a
        jsgt r10, r0, b
        exit
b:      jlt r0, 1, c
c:      callf f
        jset r0, 6, d
        exit
d:      ja e
e:      exit
f:      mov r6, -1
        jslt r6, 0, g
        exit
g:      mov r0, 4
        exit
LISTING
cat > branches <<'LINES'
3 3: jeq32 r6, 5, L5; r6 = 0x100000005; jumped
4 5: jne r6, r6, L5; r6 = 0x100000005; r6 = 0x100000005; went on
5 6: jsgt r10, r0, L8; r10 = 0x200000200; r0 = 0x0; jumped
6 8: jlt r0, 1, L9; r0 = 0x0; went on
9 15: jslt r6, 0, L17; r6 = 0xffffffffffffffff; jumped
12 10: jset r0, 6, L12; r0 = 0x4; jumped
exited at 13: r0 0x4
LINES
traced 'branches' 0 "$(text branches)" --branches
sed -n '2,4p; 7p' branches > some
traced 'branches among steps 4 to 6' 0 "$(text some)" --branches --from 4 --count 3
traced 'no branch among steps 7 and 8' 0 'exited at 13: r0 0x4\n' --branches --from 7 --count 2
{ sed -n '1,3p' branches; echo 'step limit 5 reached at 8'; } > some
traced 'branches at the limit' 1 "$(text some)" --branches --steps 5
printf 'mov r2, 0\njne r2, 1, on\nexit\non: ldxb r0, [r2+5]\nexit\n' > p
traced 'branches of a fault' 1 '2 1: jne r2, 1, L3; r2 = 0x0; jumped\nfault access 0x5 at 3\n' --branches
traced 'a profile shows more than branches' 1 '1 0: mov r2, 0\n1 1: jne r2, 1, L3\n0 2: exit\n1 3: ldxb r0, [r2+5]\n0 4: exit\nfault access 0x5 at 3\n' --branches --profile
usage "unexpected value 'yes' for '--branches' found; no more were expected" trace --branches=yes words

# They follow from all lines of a trace: what the registers held that a conditional jump names, and the slot of the next line.
cat > branches.awk <<'AWK'
function place(word,    r) { r = substr(word, 2) + 0; return r > 5 && r < 10 ? r "@" depth : r }
function held(word) { return word == "r10" ? sprintf("0x%x", 8589935104 + 1024 * depth) : place(word) in value ? value[place(word)] : "0x0" }
function shown(word) { return word ~ /^r/ ? "; " word " = " held(word) : "" }
BEGIN { if (len) { value[1] = "0x100000000"; value[2] = sprintf("0x%x", len) } }
{
    count = split($0, parts, "; ")
    if (pending != "") print pending ($2 + 0 == from + 1 ? "; went on" : "; jumped")
    pending = ""
}
!/^[0-9]+ [0-9]+: / { print; next }
{
    from = $2 + 0
    words = split(parts[1], word, /,? /)
    if (word[3] ~ /^j/ && word[3] !~ /^ja/) pending = parts[1] shown(word[4]) shown(word[5])
    for (i = 2; i <= count; i++) {
        split(parts[i], side, " = ")
        if (side[1] ~ /^r/) { split(side[1], name, " "); value[place(name[1])] = side[2] }
    }
    if (word[3] == "callf") { depth++; for (r = 6; r < 10; r++) value[r "@" depth] = (r "@" (depth - 1)) in value ? value[r "@" (depth - 1)] : "0x0" }
    if (word[3] == "exit") depth--
}
AWK
for example in checksum count counters firewall listen overrun records xdp; do
    # shellcheck disable=SC2046
    set -- $(cat "$top/examples/$example/arguments")
    cp "$top/examples/$example"/* .
    len=0
    [ ! -f context.bin ] || len=$(wc -c < context.bin)
    "$program" trace "$@" > whole
    found=$?
    awk -v len="$len" -f branches.awk whole > some
    row "branches of the example $example follow from its trace" "$found" "$script_unread" "$(text some)" '' trace --branches "$@"
    rm -f context.bin program.bin
done

# Without --listing the program is raw words.
bytes words b7 00 00 00 2a 00 00 00 EXIT
row 'bpfdb trace words' 0 "$script_unread" '1 0: mov r0, 42; r0 = 0x2a\n2 1: exit\nexited at 1: r0 0x2a\n' '' trace words

# A million steps, of which the last ones are shown.
printf 'loop: add r0, 1\nja loop\n' > p
traced 'the last of a million' 1 '999999 0: add r0, 1; r0 = 0x7a120\n1000000 1: ja L0\nstep limit 1000000 reached at 0\n' --from 999999
traced 'a profile of a million' 1 '500000 0: add r0, 1\n500000 1: ja L0\nstep limit 1000000 reached at 0\n' --profile

# Numbers of steps are those of --steps.
for option in '--from <K>' '--count <N>'; do
    word=${option%% *}
    for number in 0 1000000001; do
        usage "invalid value '$number' for '$option': $number is not in 1..=1000000000" trace "$word" "$number" words
    done
    usage "invalid value 'x' for '$option': invalid digit found in string" trace "$word" x words
    usage "the argument '$option' cannot be used multiple times" trace "$word" 7 "$word" 7 words
    usage "a value is required for '$option' but none was supplied" trace words "$word"
    usage "unexpected argument '$word' found" run "$word" 7 words
done
usage "unexpected value 'yes' for '--profile' found; no more were expected" trace --profile=yes words
