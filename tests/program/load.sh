# What `load` tells: the size that `check` tells, the maps with their addresses and names, and the rows of `lines`; and nothing is run.
printf 'loop: add r0, 1\njlt r0, 3, loop\nexit\n' > count.s
"$program" asm count.s > count.bin
result 'ok 3 instructions in 3 slots\n0 1 loop\n1 2\n2 3\n' load count.s
result 'ok 3 instructions in 3 slots\n' load count.bin
result 'ok 3 instructions in 3 slots\nmap 0: 8x2 at 0x300000000\n0 1 loop\n1 2\n2 3\n' load --maps 8x2 count.s
result 'ok 3 instructions in 3 slots\nmap 0: 8x2 at 0x300000000\nmap 1: 256x256 at 0x300100000\nmap 2: 1x4096 at 0x300200000\n' load --maps 8x2,256x256,1x4096 count.bin
sixteen=$(yes 1x1 | head -n 16 | paste -s -d , -)
"$program" load --maps "$sixteen" count.bin > found/rows 2> found/err
count=$((count + 1))
[ "$(tail -n 1 found/rows)" = 'map 15: 1x1 at 0x300f00000' ] && [ "$(wc -l < found/rows)" = 17 ] || complain "load of sixteen maps: $(tail -n 1 found/rows)"
printf 'again: ja again\n' > endless.s
result 'ok 1 instructions in 1 slots\n0 1 again\n' load endless.s

# As JSON.
result '{"kind":"ok","instructions":3,"slots":3}\n{"kind":"map","map":0,"value":8,"entries":2,"address":"0x300000000"}\n{"kind":"line","slot":0,"line":1,"labels":["loop"]}\n{"kind":"line","slot":1,"line":2,"labels":[]}\n{"kind":"line","slot":2,"line":3,"labels":[]}\n' load --json --maps 8x2 count.s

# What is refused is what `check` and `lines` refuse.
refused 'refused M1: value size not 1 to 256' load --maps 0x2 count.s
refused 'refused A6 at line 1: byte outside ASCII text' load --listing count.bin
refused 'refused C3: length is no multiple of 8' load --words count.s
printf 'mov r0, r0\n' > open.s
refused 'refused C10 at slot 0: program runs off its end' load open.s
refused 'cannot read missing' load missing
usage "unexpected argument '-m' found" load -m count.s count.s
usage "unexpected argument '--steps' found" load --steps 7 count.s
for name in calls text two; do
    object $name
done
result 'ok 2 instructions in 2 slots\n0 - entry\n1 - entry\n' load text.o
refused 'refused E9: more than one code section: --entry NAME chooses one: first, second' load two.o
refused 'refused E8: no such code section: a, b' load --section c two.o

# Of objects with maps, by each compiler: the map of `.maps` and those of sections of data (of whole words of 8 bytes) are named, at their addresses; in front
# stands what `check` prints, behind what `lines` prints.
find_compilers load
for compiler in $compilers; do
    "$compiler" -g -O2 -target bpf -c "$parts/load/maps.c" -o maps.o 2> found/err || complain "$compiler: maps.c: $(cat found/err)"
    for options in '' '--section prog' '--entry entry' '--entries flows=9' '--fields compiled'; do
        entries=5
        [ "$options" != '--entries flows=9' ] || entries=9
        # shellcheck disable=SC2086
        { "$program" check $options maps.o && printf 'map 0: 8x%s at 0x300000000 flows\nmap 1: 8x1 at 0x300100000 .rodata\nmap 2: 8x1 at 0x300200000 .bss\n' $entries && "$program" lines $options maps.o; } > wanted/out
        : > wanted/err
        echo 0 > wanted/status
        # shellcheck disable=SC2086
        run load $options maps.o
        compare "load $options of maps.c, by $compiler"
    done
    run load --json maps.o
    count=$((count + 1))
    grep -q -x '{"kind":"map","map":2,"value":8,"entries":1,"address":"0x300200000","name":".bss"}' found/out || complain "load --json of maps.c, by $compiler: $(cat found/out)"

    # The addresses are where the maps' bytes are.
    printf 'continue\nx 0x300100000 3\nx 0x300200000 4\n' > script
    "$program" debug maps.o < script > found/out 2> found/err
    count=$((count + 1))
    { grep -q -x '0x300100000: 010203' found/out && grep -q -x '0x300200000: 01000000' found/out; } || complain "addresses of maps.c, by $compiler: $(cat found/out)"
done

# A name in an object is data: what would steer a terminal is spelled out. (The name of flows, of which the first byte is changed.)
for compiler in $compilers; do
    "$compiler" -g -O2 -target bpf -c "$parts/load/maps.c" -o maps.o 2> found/err || complain "$compiler: maps.c: $(cat found/err)"
    LC_ALL=C sed 's/flows/\x1blows/g' maps.o > steering.o
    "$program" load steering.o > found/out 2> found/err
    count=$((count + 1))
    grep -q -x 'map 0: 8x5 at 0x300000000 \\x1blows' found/out || complain "a name that steers a terminal, by $compiler: $(cat found/out found/err)"
done
