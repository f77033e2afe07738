# --object: what a subcommand does of an object in one step is what it does of the words to which `link` links it, with the maps that `link` tells. (The objects
# stand in tests/program/objects; the part `objects` holds refusals of `run --object` against those of `link`.)

for name in calls maps arrays typed text two data point programs; do
    object $name
done
bytes overrun.o $(sed 's/../& /g' "$top/examples/overrun/object.hex")
printf 'c' > letter
printf '\002\000\000\000' > two_key
printf '\350\003\000\000' > far_key
printf 'stepi 2\nreverse-stepi\nundo\ncontinue\n' > going

# Worked by hand in the part `objects`: the results of the words that `link` makes of these.
result '0x1\n' run --object calls.o
result '0x300000001\n' run -m letter --object calls.o
result '0x300000001\n' run --mem=letter --object --section prog calls.o
result '0x300000001\n' run --object --section=prog -m letter -- calls.o
result '0x0\n' run --object -m two_key arrays.o
result '0x1\n' run -m far_key --object arrays.o
result '0x2\n' run -m two_key --object typed.o
result '0x3\n' run --object data.o
result '0x3\n' run --object point.o
result '0x7\n' run --object text.o
result '0x1\n' run --object --section a two.o
result '0x2\n' run --object --section b two.o
result '0x1\n' run --object --helper 2=7,1=0 -m two_key arrays.o
result 'ok 13 instructions in 15 slots\n' check --object arrays.o
result 'ok 22 instructions in 29 slots\n' check --object point.o
result 'ok 13 instructions in 13 slots\n' check --object --entry first programs.o
refused 'refused E25 at slot 8: unknown helper 5 (bpf_ktime_get_ns): --with OBJECT or --helper 5=VALUE answers it: prog, slot 7' check --object --entry second programs.o
result 'ok 14 instructions in 14 slots\n' check --object --entry second --helper 5=7 programs.o
session 'debug --object' 'stepi 13\nx 0x300000000 8\nundo\n' \
    '13 forward; done; at 1: ldmapval r2, 0, 0\n0x300000000: 0100000000000000\n13 back; done; at 0: ja32 L12\n' debug --object point.o

# alike SUBCOMMAND OPTIONS LINK OBJECT [WHAT]: the subcommand with these options does of the object, linked with the options LINK, what it does of the linked words.
# (Of an object there is more in the lines of moves, and in those of where a program stands: the name of a place in a map, which the part `names` looks at, and
# where the line stands in C, which `places` does.)
alike() {
    subcommand=$1 options=$2 asked=$3 object=$4
    shift 4
    "$program" link $asked $object > linked.bin 2> told || complain "link $asked $object: $(cat told)"
    # (what is told of maps comes first; a line of calls or fields isn't an option)
    "$program" $subcommand $options $(grep '^--maps ' told) linked.bin "$@" < script > wanted/out 2> wanted/err
    echo $? > wanted/status
    run $subcommand $options --object $asked $object "$@"
    case $subcommand in
    run | origin | trace | whynot) sed -i 's/; in [^;]*$//; s/; initial value of [^;]*$//' found/out found/err ;;
    esac
    compare "bpfdb $subcommand $options --object $asked $object $*"
}

cp going script
while IFS='|' read -r asked object; do
    for options in run 'run --steps 3' 'run -m two_key' trace 'trace --branches -m letter' 'trace --profile' 'trace --from 3 --count 2' debug \
        'debug -m letter --journal 1024' origin 'origin --lines 2' 'origin --script going -m two_key' disasm check; do
        alike "${options%% *}" "${options#"${options%% *}"}" "$asked" "$object"
    done
    alike origin '' "$asked" "$object" r1
    alike origin --addresses "$asked" "$object" 0x200000000:8
    alike origin '' "$asked" "$object" frob
    alike whynot '' "$asked" "$object" 1
    alike whynot '--alone --script going' "$asked" "$object" 0,2
    alike whynot '' "$asked" "$object" 70000
done <<'ROWS'
|calls.o
--section .text|calls.o
|arrays.o
--helper 1=7|arrays.o
|typed.o
|data.o
|point.o
|text.o
--section b|two.o
--entry first|programs.o
--entry second --helper 5=-1|programs.o
--fields compiled|overrun.o
|overrun.o
ROWS
# (gdb's packets: a step, the registers, a step back, what the monitor shows, and leaving)
printf '+$s#73+$g#67+$bs#d5+$D#44+' > script
for object in calls.o arrays.o typed.o point.o; do
    alike gdb '' '' $object
    alike gdb '--registers bpf -m letter --journal 1024' '' $object
done

# Without the sizes of maps in the object there are no maps, as with the words alone; sizes out of range are refused as those of --maps are.
refused 'refused C12 at slot 1: no such map or offset' run --object maps.o
refused 'refused C12 at slot 1: no such map or offset' disasm --object maps.o
{ head -c 192 arrays.o; printf '\000'; tail -c +194 arrays.o; } > sizeless.o
{ head -c 193 arrays.o; printf '\002'; tail -c +195 arrays.o; } > long.o
for subcommand in run trace debug origin gdb check disasm; do
    refused 'refused M1: value size not 1 to 256' $subcommand --object sizeless.o
    refused 'refused M1: value size not 1 to 256' $subcommand --object long.o
done
refused 'refused M1: value size not 1 to 256' whynot --object sizeless.o 0

# Each subcommand refuses an object as `link` does, before its context, its journal and its script are looked at; and where FILE is none.
printf 'frob\n' > wrong
head -c 65537 /dev/zero > large
head -c 63 calls.o > cut.o
printf 'mov r0, 42\nexit\n' > program.s
bytes program b7 00 00 00 2a 00 00 00 EXIT
for subcommand in run trace debug origin gdb check disasm; do
    refused 'refused E9: more than one code section: --entry NAME chooses one: first, second' $subcommand --object two.o
    refused 'refused E8: no such code section: a, b' $subcommand --object --section c two.o
    refused 'refused E32: malformed list of stubs' $subcommand --object --helper a two.o
    refused 'refused E1: no ELF file' $subcommand --object cut.o
    refused 'refused E1: no ELF file' $subcommand --object program
    refused 'refused E1: no ELF file' $subcommand --object program.s
    refused 'cannot read missing' $subcommand --object missing
    refused 'cannot read /dev/zero' $subcommand --object /dev/zero
done
refused 'refused E1: no ELF file' whynot --object program.s 0
refused 'refused E9: more than one code section: --entry NAME chooses one: first, second' whynot --object two.o frob
refused 'refused E9: more than one code section: --entry NAME chooses one: first, second' run -m letter --object two.o
refused 'refused E9: more than one code section: --entry NAME chooses one: first, second' run -m large --object two.o
refused 'refused O1: context too long' run -m large --object text.o
refused 'refused E9: more than one code section: --entry NAME chooses one: first, second' debug --journal 7 --object two.o
refused 'refused J1: journal size out of range' debug --journal 7 --object text.o
refused 'refused E9: more than one code section: --entry NAME chooses one: first, second' origin --script wrong --object two.o
refused 'refused Q1: unknown command' origin --script wrong --object text.o

# Each line has an object, what is changed of it (places and bytes, in hexadecimal), and the fault. These are of the tests of the library.
while IFS='|' read -r name changes told; do
    cp "$name.o" changed.o
    for change in $changes; do
        bytes piece $(printf '%s' "${change#*=}" | sed 's/../& /g')
        dd if=piece of=changed.o bs=1 seek="${change%%=*}" conv=notrunc 2> /dev/null
    done
    refused "refused $told" link changed.o
    refused "refused $told" run --object changed.o
    refused "refused $told" check --object changed.o
done <<'ROWS'
calls|0=00|E1: no ELF file
calls|4=01|E2: not of 64 bits
calls|5=02|E3: not little-endian
calls|16=0200|E4: no relocatable object
calls|18=3e00|E5: not for BPF
calls|60=0700|E6: malformed section table
calls|607=01|E10: malformed code section
calls|608=18|E12: code section runs off its end
calls|736=8f|E13: malformed symbol table
maps|512=13|E14: more than one section of maps
calls|644=04|E16: malformed relocation table
data|624=ff02|E28: malformed data section
ROWS

# Nothing is told of maps, of calls and of fields, and where standard error fails that changes nothing.
"$program" run --object --helper 2=7,1=0 -m two_key arrays.o > found/out 2> /dev/full
echo $? > found/status
: > found/err
check 'bpfdb run --object --helper, and standard error is full' 0 '0x1\n' ''
"$program" run --object point.o > /dev/full 2> found/err
echo $? > found/status
: > found/out
check 'bpfdb run --object, and the output is full' 2 '' 'cannot write output\n'
