# Refusals of a job: each number with its text, through each subcommand that can answer it; and which comes first.

bytes program b7 00 00 00 2a 00 00 00 EXIT
printf 'mov r0, 42\nexit\n' > program.s

# on_all LINE ARGUMENT..: refused so by each subcommand that takes a program.
on_all() {
    line=$1
    shift
    for subcommand in run debug disasm check; do
        refused "$line" $subcommand "$@"
    done
}

# M: map lists.
m1='refused M1: value size not 1 to 256'
m2='refused M2: entries not 1 to 4096'
m3='refused M3: map larger than 65536 bytes'
m4='refused M4: more than 16 maps'
m5='refused M5: malformed map list'
for maps in 0x1 257x1 257x4097 99999999999x1 8x2,0x1 0x0; do
    on_all "$m1" --maps $maps program
done
for maps in 1x4097 8x0 8x99999999999 8x2,256x4097; do
    on_all "$m2" --maps $maps program
done
for maps in 256x257 17x4096 8x2,256x257; do
    on_all "$m3" --maps $maps program
done
sixteen=1x1,1x1,1x1,1x1,1x1,1x1,1x1,1x1,1x1,1x1,1x1,1x1,1x1,1x1,1x1,1x1
on_all "$m4" --maps $sixteen,1x1 program
for maps in '' , 8 8x x2 8x2, ,8x2 8x2,,8x2 8X2 8x2x2 '8x2 ' ' 8x2' '8 x2' 8x-2 8x+2 '8*2' 8x2a 0x1, "$sixteen,1x1,"; do
    on_all "$m5" --maps="$maps" program
done
on_all "$m5" --maps=-8x2 program
for maps in 256x256 1x4096 16x4096 008x0002 $sixteen; do
    result 'ok 2 instructions in 2 slots\n' check --maps $maps program
done

# The table of lists: the maps, or the fault. Of a map that there is the last cell can be set, and neither the one behind it nor one of another length.
while IFS='|' read -r list answer; do
    case $list in '#'*) continue ;; esac
    list=${list% } answer=${answer# }
    case $answer in
        M1) refused "$m1" check --maps="$list" program ;;
        M2) refused "$m2" check --maps="$list" program ;;
        M3) refused "$m3" check --maps="$list" program ;;
        M4) refused "$m4" check --maps="$list" program ;;
        M5) refused "$m5" check --maps="$list" program ;;
        *)
            script='' replies='' map=0 none='refused Q14: no such cell or wrong length\n'
            for shape in $answer; do
                cell=$(printf "%0$((2 * ${shape%x*}))d" 0) entries=${shape#*x} other=00
                [ "${shape%x*}" -eq 1 ] || other=${cell#00}
                [ "$other" != 00 ] || other=0000
                script="${script}set cell $map $((entries - 1)) $cell\nset cell $map $entries $cell\nset cell $map 0 $other\n" replies="${replies}ok\n$none$none"
                map=$((map + 1))
            done
            session "maps of $list" "${script}set cell $map 0 00\n" "$replies$none" debug --maps "$list" program
            ;;
    esac
done < "$parts/tables/map-lists.txt"

# C: programs. Each line has the answer, and the bytes.
while IFS='|' read -r answer hex; do
    bytes refused $hex
    on_all "refused C$answer" refused
done <<'ROWS'
1: empty program|
3: length is no multiple of 8|95
3: length is no multiple of 8|EXIT 00
3: length is no multiple of 8|ff ff ff ff ff ff ff ff ff
4 at slot 0: unknown instruction|ff 00 00 00 00 00 00 00 EXIT
4 at slot 0: unknown instruction|00 00 00 00 00 00 00 00 EXIT
4 at slot 0: unknown instruction|85 20 00 00 00 00 00 00 EXIT
4 at slot 0: unknown instruction|bf 00 07 00 00 00 00 00 EXIT
4 at slot 0: unknown instruction|d4 00 00 00 08 00 00 00 EXIT
4 at slot 0: unknown instruction|db 11 00 00 02 00 00 00 EXIT
4 at slot 0: unknown instruction|18 10 00 00 00 00 00 00 00 00 00 00 00 00 00 00 EXIT
5 at slot 0: register above 10|b7 0b 00 00 00 00 00 00 EXIT
5 at slot 0: register above 10|bf b0 00 00 00 00 00 00 EXIT
5 at slot 0: register above 10|b7 bc 00 00 00 00 00 00 EXIT
6 at slot 0: unused field is not zero|b7 00 08 00 00 00 00 00 EXIT
6 at slot 0: unused field is not zero|b7 10 00 00 00 00 00 00 EXIT
6 at slot 0: unused field is not zero|95 00 00 00 01 00 00 00
6 at slot 0: unused field is not zero|18 00 00 00 00 00 00 00 01 00 00 00 00 00 00 00 EXIT
7 at slot 0: write to r10|b7 0a 00 00 00 00 00 00 ff ff ff ff ff ff ff ff
7 at slot 0: write to r10|db aa 00 00 01 00 00 00 EXIT
8 at slot 0: target is no instruction|05 00 01 00 00 00 00 00 18 00 00 00 00 00 00 00 00 00 00 00 00 00 00 00 EXIT
8 at slot 0: target is no instruction|05 00 00 00 00 00 00 00
8 at slot 0: target is no instruction|05 00 fe ff 00 00 00 00
8 at slot 0: target is no instruction|85 10 00 00 05 00 00 00 EXIT
8 at slot 0: target is no instruction|06 00 00 00 ff ff ff 7f EXIT
9 at slot 0: wide instruction cut off|18 00 00 00 01 00 00 00
9 at slot 1: wide instruction cut off|EXIT 18 00 00 00 01 00 00 00
10 at slot 0: program runs off its end|07 00 00 00 01 00 00 00
10 at slot 0: program runs off its end|15 00 ff ff 00 00 00 00
10 at slot 1: program runs off its end|EXIT 85 00 00 00 01 00 00 00
11 at slot 0: unknown helper|85 00 00 00 03 00 00 00 EXIT
11 at slot 0: unknown helper|85 00 00 00 00 00 00 00 EXIT
11 at slot 0: unknown helper|85 00 00 00 ff ff ff ff EXIT
12 at slot 0: no such map or offset|18 50 00 00 00 00 00 00 00 00 00 00 00 00 00 00 EXIT
12 at slot 0: no such map or offset|18 60 00 00 00 00 00 00 00 00 00 00 00 00 00 00 EXIT
4 at slot 2: unknown instruction|18 00 00 00 00 00 00 00 00 00 00 00 00 00 00 00 ff 00 00 00 00 00 00 00 EXIT
11 at slot 0: unknown helper|85 00 00 00 03 00 00 00 ff 00 00 00 00 00 00 00
4 at slot 0: unknown instruction|bf bb 07 00 01 00 00 00 EXIT
ROWS
bytes map_1 18 50 00 00 01 00 00 00 00 00 00 00 00 00 00 00 EXIT
bytes byte_15 18 60 00 00 00 00 00 00 00 00 00 00 0f 00 00 00 EXIT
bytes byte_16 18 60 00 00 00 00 00 00 00 00 00 00 10 00 00 00 EXIT
c12='refused C12 at slot 0: no such map or offset'
on_all "$c12" --maps 8x2 map_1
on_all "$c12" --maps 8x2 byte_16
result 'ok 2 instructions in 3 slots\n' check --maps 8x2 byte_15
result 'ok 2 instructions in 3 slots\n' check --maps 8x2,1x1 map_1

# A: listings, through asm and each subcommand that takes one. Each line has the answer, and the listing as printf's %b
# reads it.
while IFS='|' read -r answer listing; do
    printf '%b' "$listing" > refused.s
    refused "refused A$answer" asm refused.s
    on_all "refused A$answer" --listing refused.s
done <<'ROWS'
1 at line 1: unknown mnemonic|frob r0
1 at line 1: unknown mnemonic|MOV r0, 1
1 at line 2: unknown mnemonic|mov r0, 1\nmov: frob
2 at line 1: wrong operands|mov r0
2 at line 1: wrong operands|mov r0, [r1]
2 at line 1: wrong operands|mov r0, 1, 2
2 at line 1: wrong operands|mov R0, 1
2 at line 1: wrong operands|mov r11, 1
2 at line 1: wrong operands|mov r0, +1
2 at line 1: wrong operands|exit 1
2 at line 1: wrong operands|call -1
2 at line 3: wrong operands|\n\nja
3 at line 1: number out of range|mov r0, 4294967296
3 at line 1: number out of range|mov r0, -2147483649
3 at line 1: number out of range|ldxb r0, [r1+32768]
3 at line 1: number out of range|ldxb r0, [r1-32769]
3 at line 1: number out of range|lddw r0, 18446744073709551616
3 at line 1: number out of range|call 4294967296
4 at line 2: label defined twice|a:\na: frob
5 at line 1: unknown label|jeq r0, 1, far
5 at line 1: unknown label|ja far
5 at line 2: unknown label|exit\ncallf Exit
6 at line 1: byte outside ASCII text|mov r0, \0377
6 at line 1: byte outside ASCII text|\00mov r0, 1
6 at line 2: byte outside ASCII text|; caf\0303\0251\ncaf\0303\0251: exit
1 at line 2: unknown mnemonic|jeq r0, 1, far\nfrob
6 at line 1: byte outside ASCII text|frob \0177\nfrob
ROWS
yes exit | head -n 65536 > long.s
refused 'refused A8 at line 65536: too many slots' asm long.s
on_all 'refused A8 at line 65536: too many slots' --listing long.s

# That there are too many slots is told of a line only where nothing else is wrong with it, but before later lines and labels that no line has. Each line has
# the answer, a first line, how many lines `exit` follow, and a last line.
while IFS='|' read -r answer first lines last; do
    { [ -z "$first" ] || echo "$first"; yes exit | head -n "$lines"; printf '%b' "$last"; } > long.s
    refused "refused A$answer" asm long.s
done <<'ROWS'
6 at line 65536: byte outside ASCII text||65535|exit \0177
4 at line 65537: label defined twice|x:|65535|x: exit
1 at line 65536: unknown mnemonic||65535|frob
2 at line 65536: wrong operands||65535|mov r0
3 at line 65536: number out of range||65535|mov r0, 4294967296
3 at line 65535: number out of range||65534|lddw r0, 18446744073709551616
8 at line 65535: too many slots||65534|lddw r0, 0
8 at line 65536: too many slots|ja far|65535|
8 at line 65536: too many slots||65536|frob
ROWS
{ echo 'ja far'; yes exit | head -n 32768; echo 'far: exit'; } > far.s
refused 'refused A3 at line 1: number out of range' asm far.s
on_all 'refused A6 at line 1: byte outside ASCII text' --listing program

# O and J, where there is a machine, and a journal.
head -c 65537 /dev/zero > long
head -c 65536 /dev/zero > longest
o1='refused O1: context too long'
j1='refused J1: journal size out of range'
for subcommand in run debug; do
    refused "$o1" $subcommand -m long program
    refused "$o1" $subcommand --mem=long --listing program.s
done
bytes length bf 20 00 00 00 00 00 00 EXIT
result '0x10000\n' run -m longest length
session 'debug -m longest' 'x 0x10000ffff 1\nx 0x10000ffff 2\n' \
    '0x10000ffff: 00\nrefused Q6: address not present\n' debug -m longest program
for size in 0 1 1023 16777217 18446744073709551615; do
    refused "$j1" debug --journal $size program
done
printf 'stepi\nquit\n' > script
for size in 1024 16777216; do
    session "debug --journal $size" 'info history\n' "0 moves, 0 commands, 0 of $size bytes\n" debug --journal $size program
done

# unread ARGUMENT..: a refused job leaves all of the script to who reads on.
unread() {
    {
        "$program" "$@" 2> found/err
        echo $? > found/status
        cat
    } < script > found/out
    check "bpfdb $*: the script is left" 2 'stepi\nquit\n' "$line\n"
}
printf 'stepi\nquit\n' > script
bytes refused 05 00 00 00 00 00 00 00
line=$j1
unread debug --journal 1023 program
line=$o1
unread debug -m long program
line='refused C8 at slot 0: target is no instruction'
unread debug refused
line='refused A6 at line 1: byte outside ASCII text'
unread debug --listing program
line=$m1
unread debug --maps 0x1 program
line='cannot read missing'
unread debug missing

# Which comes first, where two apply: usage, FILE, PATH, M, A, C, O, J.
usage "invalid value '0' for '--steps <N>': 0 is not in 1..=1000000000" run --steps 0 missing
usage "unexpected argument '--journal' found" run --journal 1023 missing
for subcommand in run debug; do
    refused 'cannot read absent' $subcommand -m missing absent
    refused 'cannot read missing' $subcommand -m missing --maps 0x1 program
    refused 'cannot read missing' $subcommand -m missing refused
    refused "$m1" $subcommand --maps 0x1 --listing -m long program
    refused 'refused A6 at line 1: byte outside ASCII text' $subcommand --listing -m long program
    refused 'refused C8 at slot 0: target is no instruction' $subcommand -m long refused
done
for subcommand in disasm check; do
    refused 'cannot read missing' $subcommand --maps 0x1 missing
    refused "$m1" $subcommand --maps 0x1 --listing program
    refused "$m1" $subcommand --maps 0x1 refused
done
printf 'call 3\nfrob\n' > refused.s
on_all 'refused A1 at line 2: unknown mnemonic' --listing refused.s
refused "$o1" debug -m long --journal 1023 program
refused 'refused C8 at slot 0: target is no instruction' debug --journal 1023 refused
head -c 524281 /dev/zero > too_long
on_all 'refused C2: program too long' too_long
head -c 524280 /dev/zero > zeros
on_all 'refused C4 at slot 0: unknown instruction' zeros
