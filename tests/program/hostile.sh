# Programs that are made to hurt: accesses at the edges of each region at each depth, in each width, around 2^64; helpers whose keys,
# values and tokens are wrong, overlap or straddle; calls without end; and each opcode with each register. What is wanted is worked
# out from the tables of docs/MACHINE.md and docs/COMMANDS.md.

printf '\021\042\063\104\125\146\167\210' > context

# obeyed NAME ARGUMENT..: the file `script` is answered by the file `stated`. (Of a difference the first lines are shown.)
obeyed() {
    count=$((count + 1))
    name=$1
    shift
    run "$@"
    [ "$(cat found/status)" = 0 ] && [ ! -s found/err ] && cmp -s stated found/out && return 0
    complain "$name: status $(cat found/status) $(cat found/err)"
    diff stated found/out | head -n 8
    cp script "$work/$name-script"
}

# Slots 0 and 1 call slot 1, so a step goes a depth down. Each access stands in a slot of its own.
{
    printf 'callf f\nf: callf f\nexit\n'
    for size in b h w dw sb sh sw; do
        echo "ldx$size r0, [r1+0]"
    done
    for size in b h w dw; do
        printf 'st%s [r1+0], 7\nstx%s [r1+0], r2\n' $size $size
    done
    for operation in add or and xor fetch_add fetch_or fetch_and fetch_xor xchg cmpxchg; do
        printf 'atomic_%s32 [r1+0], r2\natomic_%s64 [r1+0], r2\n' $operation $operation
    done
    echo exit
} > accesses.s

# The context has the bytes 11 22 .. 88, and so have the first 8 of each other region; its last 8, where it has more, are 81 92 .. f8.
# The one of one byte has 11.
maps=8x2,1x1,256x256,1x1,17x3
awk -v listing=accesses.s '
    function hexadecimal(n, text) {
        for (text = ""; n > 0; n = int(n / 16)) text = substr("0123456789abcdef", n % 16 + 1, 1) text
        return text == "" ? "0" : text
    }
    function address(n) { return n < 0 ? "0xffffffffffffffff" : "0x" hexadecimal(n) }
    function ask(command, reply) { print command > "script"; print reply > "stated" }
    function region(first, size, depth) {
        start[++regions] = first; sizes[regions] = size; from[regions] = depth
    }
    # stands(r, offset): the byte there, as two digits, where it is one of the first or the last 8.
    function stands(r, offset) {
        if (offset < 8) return substr("1122334455667788", 2 * offset + 1, 2)
        return substr("8192a3b4c5d6e7f8", 2 * (offset - sizes[r] + 8) + 1, 2)
    }
    # run(r, offset, width): bytes in order of address. number: the same as a number without leading zeros.
    function run(r, offset, width, text, i) {
        for (i = 0; i < width; i++) text = text stands(r, offset + i)
        return text
    }
    function number(text, signed, turned, i) {
        for (i = length(text) - 1; i > 0; i -= 2) turned = turned substr(text, i, 2)
        if (signed && substr(turned, 1, 1) ~ /[89a-f]/) return "0x" substr("ffffffffffffffff", 1, 16 - length(turned)) turned
        sub(/^0+/, "", turned)
        return "0x" (turned == "" ? "0" : turned)
    }
    # access(r, offset, line, depth): an access by the instruction of that line, at an offset in region r, and what it leaves.
    function access(r, offset, line, depth, width, good, at, slot, shown) {
        width = widths[line]
        slot = line
        at = address(start[r] + offset)
        good = depth >= from[r] && offset >= 0 && offset + width <= sizes[r]
        ask("set reg r1 " at, "ok")
        ask("set pc " slot, "ok")
        if (!good) {
            ask("stepi", "1 forward; end; fault access " at " at " slot)
            ask("undo 3", "3 back; done; at 1: callf L1")
            return
        }
        ask("stepi", "1 forward; done; at " slot + 1 ": " texts[line + 1])
        if (texts[line] ~ /^ldx/) {
            ask("info regs", "r0=" number(run(r, offset, width), texts[line] ~ /^ldxs/) " r1=" at \
                " r2=0x8 r3=0x0 r4=0x0 r5=0x0 r6=0x0 r7=0x0 r8=0x0 r9=0x0 r10=" address(8589935104 + 1024 * depth) \
                "\nat " slot + 1 ": " texts[line + 1])
        } else if (texts[line] ~ /^(st|atomic_xchg)/) {
            shown = substr((texts[line] ~ /, 7$/ ? "07" : "08") "00000000000000", 1, 2 * width)
            ask("x " at " " width, at ": " shown)
        }
        ask("undo 3", "3 back; done; at 1: callf L1")
        ask("x " at " " width, at ": " run(r, offset, width))
    }
    BEGIN {
        while ((getline line < listing) > 0) texts[lines++] = line
        for (i = 3; i < lines - 1; i++) {
            name = texts[i]
            sub(/ .*/, "", name)
            widths[i] = name ~ /64$|dw$/ ? 8 : name ~ /32$|w$/ ? 4 : name ~ /h$/ ? 2 : 1
        }
        region(4294967296, 8, 0)
        for (i = 0; i < 8; i++) region(8589934592 + 1024 * i, 512, i)
        n = split("16 1 65536 1 51", bytes, " ")
        for (i = 1; i <= n; i++) region(12884901888 + 1048576 * (i - 1), bytes[i], 0)
        for (r = 2; r <= regions; r++) {
            if (sizes[r] > 8) ask("set mem " address(start[r] + sizes[r] - 8) " 8192a3b4c5d6e7f8", "ok")
            ask("set mem " address(start[r]) " " (sizes[r] < 8 ? "11" : "1122334455667788"), "ok")
        }
        for (depth = 0; depth <= 7; depth++) {
            if (depth) {
                ask("stepi", "1 forward; done; at 1: callf L1")
                # (the call has made its frame zero)
                r = depth + 2
                ask("x " address(start[r]) " 1", address(start[r]) ": 00")
                ask("x " address(start[r] + sizes[r] - 8) " 8", address(start[r] + sizes[r] - 8) ": 0000000000000000")
                ask("set mem " address(start[r] + sizes[r] - 8) " 8192a3b4c5d6e7f8", "ok")
                ask("set mem " address(start[r]) " 1122334455667788", "ok")
            } else ask("set pc 1", "ok")
            for (r = 1; r <= regions; r++) {
                ask("x " address(start[r]) " 1", address(start[r]) ": 11")
                for (i = 3; i < lines - 1; i++) {
                    width = widths[i]
                    access(r, -1, i, depth)
                    access(r, -width, i, depth)
                    access(r, 0, i, depth)
                    if (sizes[r] > width) access(r, sizes[r] - width, i, depth)
                    access(r, sizes[r] - width + 1, i, depth)
                    access(r, sizes[r], i, depth)
                }
            }
            # (addresses that are no region at all)
            for (i = 3; i < lines - 1; i++) {
                n = split("0x0 0x1 0xffffffff 0x200000200 0x1ffffffff 0x2fffffffe 0x400000000 0x7fffffffffffffff " \
                    "0x8000000000000000 0xfffffffffffffff8 0xfffffffffffffff9 0xfffffffffffffffe 0xffffffffffffffff", odd, " ")
                for (j = 1; j <= n; j++) {
                    ask("set reg r1 " odd[j], "ok")
                    ask("set pc " i, "ok")
                    ask("stepi", "1 forward; end; fault access " odd[j] " at " i)
                    ask("undo 3", "3 back; done; at 1: callf L1")
                }
            }
        }
        ask("stepi", "1 forward; end; fault depth at 1")
        ask("undo 23", "23 back; done; at 0: callf L1")
    }
'
obeyed 'accesses at the edges of each region' debug -m context --maps $maps --listing accesses.s

# Helpers. A key and a value stand at the edges of each region; where one of them is tried the other is far from there.
printf 'callf f\nf: callf f\nexit\ncall 1\ncall 2\ncall 64\nexit\n' > helpers.s
head -c 600 /dev/zero > context
awk '
    function hexadecimal(n, text) {
        for (text = ""; n > 0; n = int(n / 16)) text = substr("0123456789abcdef", n % 16 + 1, 1) text
        return text == "" ? "0" : text
    }
    function address(n) { return "0x" hexadecimal(n) }
    function ask(command, reply) { print command > "script"; print reply > "stated" }
    function move(command) { ask(command, "ok"); moves++ }
    function region(first, size, depth) {
        start[++regions] = first; sizes[regions] = size; from[regions] = depth
    }
    function is_good(r, offset, width) { return depth >= from[r] && offset >= 0 && offset + width <= sizes[r] }
    # little(key): its four bytes in order of address. pattern(n): n bytes.
    function little(key, text, i) {
        for (i = 0; i < 4; i++) { text = text two(key % 256); key = int(key / 256) }
        return text
    }
    function two(n) { return (n < 16 ? "0" : "") hexadecimal(n) }
    function pattern(n, text, i) {
        for (i = 0; i < n; i++) text = text two((3 * i + 1) % 256)
        return text
    }
    # step(slot, answer, next): the step at a slot, with r1 to r4 set, and what it leaves: r0, or a fault.
    function step(slot, r1, r2, r3, r4, answer) {
        move("set reg r1 " r1)
        move("set reg r2 " r2)
        move("set reg r3 " r3)
        move("set reg r4 " r4)
        move("set pc " slot)
        moves++
        if (answer ~ /^fault/) ask("stepi", "1 forward; end; " answer " at " slot)
        else {
            ask("stepi", "1 forward; done; at " slot + 1 ": " names[slot + 1])
            ask("info regs", "r0=" answer " r1=" r1 " r2=" r2 " r3=" r3 " r4=" r4 " r5=0x0 r6=0x0 r7=0x0 r8=0x0 r9=0x0 r10=" \
                address(8589935104 + 1024 * depth) "\nat " slot + 1 ": " names[slot + 1])
        }
    }
    function back() {
        ask("undo " moves, moves " back; done; at 1: callf L1")
        moves = 0
    }
    function cell(map, key) { return 12884901888 + 1048576 * map + values[map] * key }
    # keys(r, offset): lookups and updates with the key at an offset in region r.
    function keys(r, offset, map, k, n, list, at, there, free) {
        at = start[r] + offset
        free = address(r == 1 ? 8589934656 : 4294967360)
        for (map = 0; map < maps; map++) {
            there = is_good(r, offset, 4)
            n = split("0 " (entries[map] - 1) " " entries[map] " 4294967295", list, " ")
            for (k = 1; k <= (there ? n : 1); k++) {
                if (there) move("set mem " address(at) " " little(list[k]))
                step(3, address(17179869184 + map), address(at), "0x0", "0x0", !there ? "fault access " address(at) : \
                    list[k] < entries[map] ? address(cell(map, list[k])) : "0x0")
                back()
                if (there) move("set mem " address(at) " " little(list[k]))
                move("set mem " free " " pattern(values[map]))
                step(4, address(17179869184 + map), address(at), free, "0x0", !there ? "fault access " address(at) : \
                    list[k] < entries[map] ? "0x0" : "0xfffffffffffffff9")
                if (there && list[k] < entries[map])
                    ask("x " address(cell(map, list[k])) " " values[map], address(cell(map, list[k])) ": " pattern(values[map]))
                back()
            }
        }
    }
    # values_at(r, offset, map): updates with the value at an offset in region r, and with each flag.
    function values_at(r, offset, map, f, n, list, at, there, free, key, wrong) {
        at = start[r] + offset
        free = address(r == 1 ? 8589934608 : 4294967312)
        there = is_good(r, offset, values[map])
        n = split("0x0 0x2 0x1 0x3 0xffffffffffffffff", list, " ")
        for (key = entries[map] - 1; key <= entries[map]; key++) {
            for (f = 1; f <= n; f++) {
                if (there) move("set mem " address(at) " " pattern(values[map]))
                move("set mem " free " " little(key))
                wrong = f > 3 ? "0xffffffffffffffea" : f == 3 ? "0xffffffffffffffef" : key == entries[map] ? "0xfffffffffffffff9" : ""
                step(4, address(17179869184 + map), free, address(at), list[f], \
                    wrong != "" ? wrong : there ? "0x0" : "fault access " address(at))
                if (there && wrong == "")
                    ask("x " address(cell(map, key)) " " values[map], address(cell(map, key)) ": " pattern(values[map]))
                back()
            }
        }
    }
    BEGIN {
        names[4] = "call 2"; names[5] = "call 64"; names[6] = "exit"
        region(4294967296, 600, 0)
        for (i = 0; i < 8; i++) region(8589934592 + 1024 * i, 512, i)
        maps = split("8 1 256 1 17", list, " ")
        split("2 1 256 1 3", others, " ")
        for (i = 0; i < maps; i++) {
            values[i] = list[i + 1]
            entries[i] = others[i + 1]
            region(12884901888 + 1048576 * i, values[i] * entries[i], 0)
        }
        ask("set pc 1", "ok")
        for (depth = 0; depth <= 7; depth++) {
            if (depth) ask("stepi", "1 forward; done; at 1: callf L1")
            if (depth != 0 && depth != 3 && depth != 7) continue
            n = split("0x0 0x3ffffffff 0x400000005 0x400000010 0x300000000 0x100000000 0x7fffffffffffffff 0xffffffffffffffff", odd, " ")
            for (i = 1; i <= n; i++) {
                for (slot = 3; slot <= 4; slot++) {
                    step(slot, odd[i], "0xffffffffffffffff", "0xffffffffffffffff", "0x7", "fault token " odd[i])
                    back()
                    step(slot, "0x400000000", odd[i] == "0x100000000" ? "0xfffffffffffffffe" : odd[i] == "0x300000000" ? "0x1" : odd[i], \
                        "0xffffffffffffffff", "0x7", \
                        "fault access " (odd[i] == "0x100000000" ? "0xfffffffffffffffe" : odd[i] == "0x300000000" ? "0x1" : odd[i]))
                    back()
                }
            }
            for (r = 1; r <= regions; r++) {
                if (r > 3 && r < 9 && r != depth + 2) continue
                keys(r, -1); keys(r, 0); keys(r, -4); keys(r, sizes[r] - 4); keys(r, sizes[r] - 3); keys(r, sizes[r])
                for (map = 0; map < maps; map++) {
                    v = values[map]
                    values_at(r, -1, map); values_at(r, 0, map); values_at(r, -v, map)
                    values_at(r, sizes[r] - v, map); values_at(r, sizes[r] - v + 1, map); values_at(r, sizes[r], map)
                }
            }
        }
    }
'
obeyed 'helpers at the edges of each region' debug -m context --maps $maps --listing helpers.s

# A value that overlaps the cell that it is for, in front and behind; and a key inside the value, and inside the cell.
session 'values and keys that overlap their cell' "set cell 0 0 0102030405060708\nset cell 0 1 090a0b0c0d0e0f10\n\
set reg r1 0x400000000\nset reg r2 0x100000000\nset reg r3 0x300000004\nset reg r4 0\nset pc 4\nstepi\nx 0x300000000 16\nundo 2\n\
set mem 0x100000000 01000000\nset pc 4\nstepi\nx 0x300000000 16\nundo 2\nset reg r2 0x300000000\nset mem 0x300000000 01000000\nset pc 4\n\
stepi\nx 0x300000000 16\nundo 3\nset reg r2 0x300000008\nset mem 0x300000008 01000000\nset reg r3 0x300000008\nset pc 4\nstepi\n\
x 0x300000000 16\nset pc 3\nstepi\n" \
    "ok\nok\nok\nok\nok\nok\nok\n1 forward; done; at 5: call 64\n0x300000000: 05060708090a0b0c090a0b0c0d0e0f10\n2 back; done; at 0: callf L1\n\
ok\nok\n1 forward; done; at 5: call 64\n0x300000000: 010203040506070805060708090a0b0c\n2 back; done; at 0: callf L1\n\
ok\nok\nok\n1 forward; done; at 5: call 64\n0x300000000: 010000000506070805060708090a0b0c\n3 back; done; at 0: callf L1\n\
ok\nok\nok\nok\n1 forward; done; at 5: call 64\n0x300000000: 0102030405060708010000000d0e0f10\nok\n1 forward; done; at 4: call 2\n" \
    debug -m context --maps 8x2 --listing helpers.s
bytes update 18 51 00 00 00 00 00 00 00 00 00 00 00 00 00 00 bf a2 00 00 00 00 00 00 07 02 00 00 f8 ff ff ff \
    18 63 00 00 00 00 00 00 00 00 00 00 04 00 00 00 85 00 00 00 02 00 00 00 EXIT
session 'a cell whose value is half of the cell before it' "set cell 0 0 0102030405060708\nset cell 0 1 090a0b0c0d0e0f10\n\
set mem 0x2000001f8 01000000\ncontinue\nx 0x300000000 16\ninfo history\nundo\nx 0x300000000 16\n" \
    "ok\nok\nok\n6 forward; end; exited at 7: r0 0x0\n0x300000000: 010203040506070805060708090a0b0c\n\
9 moves, 4 commands, 159 of 65536 bytes\n6 back; done; at 0: ldmap r1, 0\n0x300000000: 0102030405060708090a0b0c0d0e0f10\n" \
    debug --maps 8x2 update
cell=$(printf '%0512d' 0)
session 'cells in the smallest journal' "set cell 0 0 $cell\nset cell 0 0 $cell\nset cell 0 0 $cell\nset cell 0 0 $cell\ninfo history\n" \
    'ok\nok\nok\nok\n3 moves, 3 commands, 807 of 1024 bytes\n' debug --maps 256x2 --journal 1024 update

# The trace takes 256 words, and no more.
printf 'mov r6, 258\nloop: mov r1, r6\ncall 64\nadd r6, -1\njne r6, 0, loop\nexit\n' > trace.s
result '0xffffffffffffffff\n' run --listing trace.s
{
    printf '1034 forward; end; exited at 5: r0 0xffffffffffffffff\ntrace 256'
    awk 'BEGIN { for (i = 258; i > 2; i--) printf " 0x%x", i; print "" }'
    printf '1034 back; done; at 0: mov r6, 258\ntrace 0\n'
} > stated
printf 'continue\ninfo trace\nundo\ninfo trace\n' > script
obeyed 'a trace of 258 words' debug --journal 1048576 --listing trace.s

# Calls that return at the greatest depth, calls one deeper, and calls without end.
printf 'callf f\nexit\nf: add r0, 1\njge r0, 7, out\ncallf f\nout: exit\n' > seven.s
sed 's/7/8/' seven.s > eight.s
session 'seven calls' 'continue\ninfo history\nundo\ninfo frames\n' "29 forward; end; exited at 1: r0 0x7\n29 moves, 1 commands, 4072 of 65536 bytes\n\
29 back; done; at 0: callf L2\ndepth 0\n" debug --listing seven.s
session 'eight calls' 'continue\nundo\ninfo frames\n' '22 forward; end; fault depth at 4\n22 back; done; at 0: callf L2\ndepth 0\n' \
    debug --listing eight.s
stopped 'fault depth at 4' run --listing eight.s
printf 'callf f\nexit\nf: callf g\ncallf g\nexit\ng: exit\n' > many.s
printf 'loop: callf f\nja loop\nf: exit\n' > forever.s
result '0x0\n' run --listing many.s
printf 'callf f\ncallf g\nexit\nf: stb [r10-8], 7\nexit\ng: ldxdw r0, [r10-8]\nexit\n' > left.s
result '0x0\n' run --listing left.s
session 'what a function left' 'stepi 4\nx 0x2000005f8 8\nlast-write 0x2000005f8\nreverse-stepi\nx 0x2000005f8 8\nlast-write 0x2000005f8\n' \
    "4 forward; done; at 5: ldxdw r0, [r10-8]\n0x2000005f8: 0000000000000000\nchanged 1 moves back: 0x7 to 0x0\n\
1 back; done; at 1: callf L5\n0x2000005f8: 0700000000000000\nchanged 2 moves back: 0x0 to 0x7\n" debug --listing left.s
stopped 'step limit 1000000 reached at 2' run --listing forever.s
session 'calls that return without end' 'stepi 65000\ninfo history\nreverse-stepi 1000000000\ninfo frames\n' \
    '65000 forward; done; at 1: ja L0\n347 moves, 0 commands, 65533 of 65536 bytes\n347 back; start; at 0: callf L2\ndepth 0\n' \
    debug --listing forever.s

# Each opcode with each number in one of its register fields, and no other byte: what `check` says of it is what the second machine
# (tests/trials/model.h) says, which is written by RFC 9669 and the manual alone. 116 opcodes are instructions where all else is zero.
compile words
spread words
[ "$(cat [0-9]*/plain | wc -l)" = 116 ] || complain 'the opcodes that are instructions where all else is zero: not 116'
