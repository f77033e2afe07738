# link: objects that clang 14 made, the words that come of them, and what is refused. The objects stand in tests/program/objects, in hexadecimal
# digits, each behind the C that it was made of by `clang -O2 -target bpf -fno-addrsig -fno-asynchronous-unwind-tables -c`.

for name in calls maps arrays typed text two extern data point programs shapes fields; do
    object $name
done

. "$parts/linked.sh"

# Each shorter beginning of an object is refused: its table of sections lies at the end. Of the objects that differ from it in a byte some are linked, and the others
# refused in a line. (The bytes are five characters each, as printf's %b reads them.)
for name in calls maps arrays; do
    before='' linked=0 cut=0 flipped=0
    behind=$(od -An -v -to1 $name.o | tr -d '\n' | sed 's/ /\\0/g')
    while [ -n "$behind" ]; do
        byte=${behind%"${behind#?????}"} behind=${behind#?????}
        printf '%b' "$before" > changed.o
        "$program" link changed.o > found/out 2> found/err
        status=$? line='' more=''
        { read -r line; read -r more; } < found/err
        wanted='refused E6: malformed section table'
        [ "$cut" -ge 64 ] || wanted='refused E1: no ELF file'
        cut=$((cut + 1)) count=$((count + 2))
        [ "$status:$line:$more" = "2:$wanted:" ] && ! [ -s found/out ] || complain "link of the first $((cut - 1)) bytes of $name.o: $line"
        printf '%b' "$before\\0$(printf '%03o' $((0377 - ${byte#?})))$behind" > changed.o
        "$program" link changed.o > found/out 2> found/err
        status=$? line='' more=''
        { read -r line; read -r more; } < found/err
        case $status:$line:$more in
            0:*) linked=$((linked + 1)) ;;
            2:'refused E'*:) flipped=$((flipped + 1)) ;;
            *) complain "link of $name.o, where byte $((cut - 1)) is another: $line" ;;
        esac
        before=$before$byte
    done
    [ "$linked" -gt 0 ] && [ "$flipped" -gt 0 ] && [ $((linked + flipped)) -eq "$cut" ] || complain "objects that differ from $name.o in a byte"
done

# The tables of BTF. The name of the map that shapes.o loads is at 1621, its section .BTF at 184, of 1,310 bytes; the name of the section of code of fields.o at
# 985, its section .BTF.ext at 624. Each name has 8 bytes.

# edited NAME PLACE TEXT START EDIT..: the object with the text for the name at that place, and these edits of the section that starts there, - for none.
edited() {
    edited=$1 named=$2 text=$(printf '%s' "$3" | od -An -v -tx1 | tr -d ' \n')0000000000000000 start=$4
    shift 4
    text=${text%"${text#????????????????}"}
    for edit in "$@"; do
        shift
        [ "$edit" = - ] || set -- "$@" "$((${edit%%=*} + start))=${edit#*=}"
    done
    changed "$edited" "$named=$text" "$@"
    : > script
    run link ${strictly:-} changed.o
    count=$((count + 1))
    more=''
    { read -r line; read -r more; } < found/err
}
while IFS='|' read -r name edits answer; do
    case $name in '#'*) continue ;; esac
    name=${name% } answer=${answer# }
    edited shapes 1621 "$name" 184 $edits
    case $(cat found/status):$line:$more in
        "0:--maps $answer:map 0: $name") ;;
        2:"refused ${answer%% *}: ${answer#* }": | 2:"refused ${answer%% *}: ${answer#* }: "*:) [ ! -s found/out ] ;;
        *) false ;;
    esac || { complain "a map of BTF: $name |$edits| $answer"; cat found/err; }
done < "$parts/tables/map-types.txt"
while IFS='|' read -r name edits answer; do
    case $name in '#'*) continue ;; esac
    name=${name% } answer=${answer# }
    strictly='--fields strict'
    edited fields 985 "$name" 624 $edits
    strictly=
    case $answer in
        0@0) wanted=0:: ;;
        E*) wanted="2:refused ${answer%% *}: ${answer#* }:" ;;
        *) wanted="2:refused E36 at slot $((${answer#*@} / 8)): relocations of fields, ${answer%@*} in all: --fields compiled leaves them undone: $name:" ;;
    esac
    [ "$(cat found/status):$line:$more" = "$wanted" ] || { complain "relocations of fields: $name |$edits| $answer"; cat found/err; }
done < "$parts/tables/field-relocations.txt"

# Each shorter beginning of that section is refused: below 24 bytes it is none, and then its strings, which lie at the end, are cut off. (Its size is at 1872.) Of the
# sections that differ from it in a byte some give the map a shape.
before=$(od -An -v -to1 -N 184 shapes.o | tr -d '\n' | sed 's/ /\\0/g')
behind=$(od -An -v -to1 -j 184 shapes.o | tr -d '\n' | sed 's/ /\\0/g')
size=0 shaped=0
while [ "$size" -lt 1310 ]; do
    { head -c 1872 shapes.o; printf '%b' "\\0$(printf '%o' $((size % 256)))\\0$(printf '%o' $((size / 256)))"; tail -c +1875 shapes.o; } > changed.o
    "$program" link changed.o > found/out 2> found/err
    status=$? line='' more=''
    { read -r line; read -r more; } < found/err
    wanted='refused E42: malformed header of BTF'
    [ "$size" -ge 24 ] || wanted='refused E40: no BTF in the section .BTF'
    [ "$status:$line:$more" = "2:$wanted:" ] && ! [ -s found/out ] || complain "link where .BTF has $size bytes: $line"
    byte=${behind%"${behind#?????}"} behind=${behind#?????}
    printf '%b' "$before\\0$(printf '%03o' $((0377 - ${byte#?})))$behind" > changed.o
    "$program" link changed.o > found/out 2> found/err
    case $?:$(head -n 1 found/err) in
        0:--maps*) shaped=$((shaped + 1)) ;;
        2:'refused E'*) ;;
        *) complain "link where byte $size of .BTF is another" ;;
    esac
    before=$before$byte size=$((size + 1)) count=$((count + 2))
done
[ "$shaped" -gt 0 ] && [ "$shaped" -lt 1310 ] || complain "sections of BTF that differ in a byte: $shaped give a shape"

# unlinked LINE ARGUMENT..: an object that `link` refuses by this line; so does `run --object`.
unlinked() {
    line=$1
    shift
    refused "$line" link "$@"
    refused "$line" run --object "$@"
}

# The words, and the words as they are run. Each line has the arguments, and the words.
while IFS='|' read -r arguments words; do
    bytes words $(printf '%s' "$words" | tr -d ' ' | sed 's/../& /g')
    # (the arguments are words without blanks)
    result "$text" link $arguments
done <<'ROWS'
calls.o|8510000006000000 bf01000000000000 8510000001000000 9500000000000000 bf10000000000000 0700000001000000 9500000000000000 bf10000000000000 2700000003000000 9500000000000000
--section prog calls.o|8510000006000000 bf01000000000000 8510000001000000 9500000000000000 bf10000000000000 0700000001000000 9500000000000000 bf10000000000000 2700000003000000 9500000000000000
calls.o --section=.text|bf10000000000000 0700000001000000 9500000000000000 9500000000000000 9500000000000000 9500000000000000
--section= text.o|b700000007000000 9500000000000000
--section a two.o|b700000001000000 9500000000000000
--section=b -- two.o|b700000002000000 9500000000000000
ROWS

# Each call of the program is one of the context's address: three times that, and one more.
"$program" link calls.o > calls
printf 'c' > context
result '0x1\n' run calls
result '0x300000001\n' run -m context calls
"$program" link maps.o > maps
refused 'refused C12 at slot 1: no such map or offset' check maps
result 'ok 13 instructions in 15 slots\n' check --maps 8x2,4x256 maps

# An object that defines its maps as arrays tells them, and the words run with just that: under the key 2 there is an entry in the second map alone, under
# 1000 in neither.
bytes words $(printf '%s' 'bf16000000000000 1851000001000000 0000000000000000 bf62000000000000 8500000001000000 bf07000000000000 1851000000000000 0000000000000000 bf62000000000000 8500000001000000 bf01000000000000 b700000001000000 1d17010000000000 b700000000000000 9500000000000000' | tr -d ' ' | sed 's/../& /g')
row 'bpfdb link arrays.o' 0 "$script_unread" "$text" '--maps 8x2,16x256\nmap 0: counts\nmap 1: names\n' link arrays.o
"$program" link arrays.o > arrays 2> told
refused 'refused C12 at slot 1: no such map or offset' check arrays
result 'ok 13 instructions in 15 slots\n' check $(told_maps) arrays
printf '\002\000\000\000' > context
result '0x0\n' run $(told_maps) -m context arrays
printf '\350\003\000\000' > context
result '0x1\n' run $(told_maps) -m context arrays

text_of_arrays=$text
# The shapes of maps in `.maps` come from BTF, in the order of their places, in which clang lays them out as the code uses them first: the second map of the
# source is number 0. Where the places are the other way round, so are the numbers; without BTF the words are the same, and nothing is told.
bytes words $(printf '%s' "bf17000000000000 1851000000000000 0000000000000000 bf72000000000000 8500000001000000 b706000001000000 b708000001000000 5500010000000000 b708000000000000 1851000001000000 0000000000000000 bf72000000000000 8500000001000000 5500010000000000 b706000000000000 6706000001000000 4f86000000000000 bf60000000000000 9500000000000000" | tr -d ' ' | sed 's/../& /g')
row 'bpfdb link typed.o' 0 "$script_unread" "$text" '--maps 8x2,16x256\nmap 0: totals\nmap 1: counts\n' link typed.o
{ head -c 1784 typed.o; printf '\000'; tail -c +1786 typed.o; } > untyped.o
result "$text" link untyped.o
"$program" link typed.o > typed 2> told
printf '\001\000\000\000' > context
result '0x3\n' run $(told_maps) -m context typed
printf '\002\000\000\000' > context
result '0x2\n' run $(told_maps) -m context typed
{ head -c 1240 typed.o; printf '\040'; tail -c +1242 typed.o | head -c 23; printf '\000'; tail -c +1266 typed.o; } > swapped.o
"$program" link swapped.o > swapped 2> told
result '0x2\n' run $(told_maps) -m context swapped
[ "$(tail -n 2 told)" = 'map 0: counts
map 1: totals' ] || complain 'names of maps that changed places'
[ "$(head -n 1 told)" = '--maps 16x256,8x2' ] || complain 'what is told of maps that changed places'

# Each line has what is changed of typed.o, a place and bytes in octal, and what is told: at each limit of the sizes, and a map that is no array, or too large;
# then BTF that is damaged, and sections of it that don't lie in the file or are two.
while IFS='|' read -r place octal told; do
    count_of=$(printf "$octal" | wc -c)
    { head -c "$place" typed.o; printf "$octal"; tail -c +$((place + count_of + 1)) typed.o; } > changed.o
    case $told in
        --maps*) row "bpfdb link typed.o, with $octal at $place" 0 "$script_unread" "$text" "$told\nmap 0: totals\nmap 1: counts\n" link changed.o ;;
        *) unlinked "refused $told" changed.o ;;
    esac
done <<'ROWS'
352|\002|--maps 8x2,16x256
352|\001|E50: map is a hash, and no array: totals
352|\033|E50: map is a ring buffer, and no array: totals
352|\026|E50: map is a queue, and no array: totals
352|\013|E50: map is an LPM trie, and no array: totals
352|\143|E50: map is of unknown kind, and no array: totals
404|\005|E50: map is a per-CPU hash, and no array: counts
404|\011|E50: map is an LRU hash, and no array: counts
596|\000\020|--maps 8x2,16x4096
596|\001\020|E52: entries not 1 to 4096: counts
596|\000\000|E52: entries not 1 to 4096: counts
620|\000\001|--maps 8x2,256x256
620|\001\001|E52: value size not 1 to 256: counts
620|\000\000|E52: value size not 1 to 256: counts
440|\010|E51: keys of an array are not of 4 bytes: totals
548|\136|E45: map has no description in BTF: totals
280|\000|E40: no BTF in the section .BTF
282|\002|E41: BTF of another version than 1
284|\027|E42: malformed header of BTF
292|\374\001|E44: BTF has a type that is cut off
311|\037|E43: BTF has a type of unknown kind
1810|\001|E40: no BTF in the section .BTF
1528|\102|E40: no BTF in the section .BTF
ROWS
# (of sizes that are both out of range the value's is told, which is M1 of the list of maps)
for octal in '\000\000' '\001\020'; do
    { head -c 596 typed.o; printf "$octal"; tail -c +599 typed.o | head -c 22; printf '\001\001'; tail -c +623 typed.o; } > changed.o
    unlinked 'refused E52: value size not 1 to 256: counts' changed.o
done
# (a name with control bytes, in the table of names, from 1338 on)
{ head -c 1338 typed.o; printf '\033['; tail -c +1341 typed.o; } > changed.o
unlinked 'refused E45: map has no description in BTF: \\x1b[tals' changed.o
# (so have bytes that are no character of UTF-8)
{ head -c 1338 typed.o; printf '\233m'; tail -c +1341 typed.o; } > changed.o
unlinked 'refused E45: map has no description in BTF: \\x9bmtals' changed.o
{ head -c 1338 typed.o; printf '\342\200'; tail -c +1341 typed.o; } > changed.o
unlinked 'refused E45: map has no description in BTF: \\xe2\\x80tals' changed.o

text=$text_of_arrays

# Where standard error fails the words came, and the status is 2; where the output fails no maps are told.
"$program" link arrays.o > found/out 2> /dev/full
echo $? > found/status
: > found/err
check 'bpfdb link arrays.o, and standard error is full' 2 "$text" ''
"$program" link arrays.o > /dev/full 2> found/err
echo $? > found/status
: > found/out
check 'bpfdb link arrays.o, and the output is full' 2 '' 'cannot write output\n'

# With -o a file takes the words, in place of what it held, and standard output nothing; what is told stays. A link that fails leaves the file as it was, or
# makes none.
"$program" link arrays.o > /dev/null 2> told
told=$(text told)
for words in '-o taken' -otaken --output=taken; do
    seq 1000 > taken
    # (words without blanks but for the option's own)
    # shellcheck disable=SC2086
    row "bpfdb link $words" 0 "$script_unread" '' "$told" link arrays.o $words
    printf '%b' "$text" > words
    same "bpfdb link $words: the file" words taken
done
"$program" link -o taken arrays.o > /dev/full 2> found/err || complain 'link -o, and the output is full'
cp arrays.o itself.o
row 'bpfdb link -o of FILE itself' 0 "$script_unread" '' "$told" link -o itself.o itself.o
same 'bpfdb link -o of FILE itself: the file' words itself.o
printf 'as it was' > kept
cp kept taken
refused 'refused E8: no such code section: prog' link -o taken --section none arrays.o
refused 'cannot read missing.o' link -o taken --with missing.o arrays.o
same 'bpfdb link -o of a link that fails' kept taken
refused 'refused E8: no such code section: prog' link -o untaken --section none arrays.o
[ ! -e untaken ] || complain 'link -o of a link that fails makes a file'
refused 'cannot write missing/taken' link -o missing/taken arrays.o
refused 'cannot write .' link -o . arrays.o
refused 'cannot write ' link -o '' arrays.o
refused 'cannot write /dev/full' link --output /dev/full arrays.o
refused 'cannot write missing/\\x1b[31m' link -o "missing/$(printf '\033[31m')" arrays.o
rm taken
"$program" link -o taken arrays.o 2> /dev/full > found/out
echo $? > found/status
: > found/err
check 'bpfdb link -o, and standard error is full' 2 '' ''
same 'bpfdb link -o, and standard error is full: the file' words taken
usage "a value is required for '--output <PATH>' but none was supplied" link arrays.o -o
usage "the argument '--output <PATH>' cannot be used multiple times" link -o taken --output taken arrays.o
text=$text_of_arrays

# What bpfdb can't have. Of sizes that are out of range the option is told, and then refused (the first map has values of no byte); of a map that is no array
# none is (the type of the first is that of a hash).
{ head -c 192 arrays.o; printf '\000'; tail -c +194 arrays.o; } > sizeless.o
row 'bpfdb link sizeless.o' 0 "$script_unread" "$text" '--maps 0x2,16x256\nmap 0: counts\nmap 1: names\n' link sizeless.o
refused 'refused M1: value size not 1 to 256' check --maps 0x2,16x256 arrays
{ head -c 184 arrays.o; printf '\001'; tail -c +186 arrays.o; } > hash.o
result "$text" link hash.o

# What is refused. In the last one the first byte of the code is an opcode that there is not.
: > empty
head -c 63 calls.o > cut.o
unlinked 'refused E1: no ELF file' empty
unlinked 'refused E1: no ELF file' cut.o
unlinked 'refused E1: no ELF file' /dev/null
unlinked 'cannot read /dev/zero' /dev/zero
# A section or a function that isn't there, or isn't chosen: the sections or the programs that there are, in the order of the tables, and no empty one, no function
# of .text and no static one that couldn't be meant.
unlinked 'refused E8: no such code section: .text, prog' --section frob calls.o
unlinked 'refused E8: no such code section: .text, prog' --section text calls.o
unlinked 'refused E9: more than one code section: --entry NAME chooses one: first, second' two.o
unlinked 'refused E30: more than one program in the code section: --entry NAME chooses one: first, second' programs.o
unlinked 'refused E31: no such function in the code section: twice, first, second' --entry third programs.o
# (`second` calls helper 5, which isn't there; behind the jump to it that is a slot later than in the section. `first` doesn't come there, so it is linked: what isn't
# reached is `exit`, and its calls aren't answered)
clock='unknown helper 5 (bpf_ktime_get_ns): --with OBJECT or --helper 5=VALUE answers it: prog, slot 7'
unlinked "refused E25 at slot 8: $clock" --section=prog --entry=second programs.o
unlinked "refused E25 at slot 8: $clock" --entry second --helper 4=0,6=0 programs.o
bytes words $(printf '%s' 'bf21000000000000 8510000002000000 0700000001000000 9500000000000000 bf10000000000000 6700000001000000 9500000000000000 9500000000000000 9500000000000000 9500000000000000 9500000000000000 9500000000000000 9500000000000000' | tr -d ' ' | sed 's/../& /g')
row 'bpfdb link --entry first' 0 "$script_unread" "$text" '' link --entry first programs.o
row 'bpfdb link --entry first --helper 5=7' 0 "$script_unread" "$text" 'calls answered by --helper: 0\n' link --entry first --helper 5=7 programs.o
# The number of the helper is at 124. The first and the last that have a name (in the kernel's header), and those beside them; 1, 2 and 64 are there.
while IFS='|' read -r octal helper; do
    { head -c 124 programs.o; printf "$octal"; tail -c +129 programs.o; } > changed.o
    # (a function of another object answers a helper by its name)
    case $helper in *' '*) way='--with OBJECT or --helper' ;; *) way=--helper ;; esac
    unlinked "refused E25 at slot 8: unknown helper $helper: $way ${helper%% *}=VALUE answers it: prog, slot 7" --entry second changed.o
done <<'ROWS'
\0\0\0\0|0
\003\0\0\0|3 (bpf_map_delete_elem)
\006\0\0\0|6 (bpf_trace_printk)
\007\0\0\0|7 (bpf_get_prandom_u32)
\016\0\0\0|14 (bpf_get_current_pid_tgid)
\031\0\0\0|25 (bpf_perf_event_output)
\077\0\0\0|63 (bpf_msg_pull_data)
\101\0\0\0|65 (bpf_xdp_adjust_tail)
\203\0\0\0|131 (bpf_ringbuf_reserve)
\265\0\0\0|181 (bpf_loop)
\322\0\0\0|210 (bpf_cgrp_storage_get)
\323\0\0\0|211 (bpf_cgrp_storage_delete)
\324\0\0\0|212
\005\001\0\0|261
\377\377\377\377|4294967295
ROWS
# A call by BTF id (src_reg 2) of the number 5 is no call of helper 5, and bpfdb doesn't have it: no stub answers it.
{ head -c 121 programs.o; printf '\040'; tail -c +123 programs.o; } > changed.o
for list in 5=7 4=0,5=0; do
    unlinked 'refused E25 at slot 8: unknown instruction: prog, slot 7' --entry second --helper "$list" changed.o
done
unlinked 'refused E25 at slot 8: unknown instruction: prog, slot 7' --entry second changed.o
# The symbol that isn't defined; a control byte of it is shown as such.
unlinked 'refused E19 at slot 1: symbol is not defined in the object: elsewhere' extern.o
place=$(LC_ALL=C grep -obUa elsewhere extern.o | sed 's/:.*//')
{ head -c "$place" extern.o; printf '\033[1m'; tail -c +$((place + 5)) extern.o; } > changed.o
unlinked 'refused E19 at slot 1: symbol is not defined in the object: \\x1b[1mwhere' changed.o
long_name=$(printf '%0255d' 0)
unlinked 'refused E8: no such code section: .text, prog' --section "$long_name" calls.o
unlinked 'refused E7: section name longer than 255 bytes' --section "${long_name}0" calls.o
unlinked 'refused E7: section name longer than 255 bytes' --section "${long_name}0" empty
{ head -c 64 text.o; printf '\377'; tail -c +66 text.o; } > unknown.o
unlinked 'refused E25 at slot 0: unknown instruction: .text, slot 0' unknown.o

# Lists of stubs that are none, before all else. The first item with a fault is told: a helper that is answered already comes before what stands behind it. At each
# limit of the numbers a list is taken (and `programs.o`, whose helper isn't in it, refused for that).
for list in '' , 5 5= =0 5=0, ,5=0 5:0 5=0,,6=0 '5 =0' '5= 0' '5=0 ' 5=+0 +5=0 -5=0 5=- 5=--1 5=0x 5==0 5=0=0 5=a 5=0,a=0 '5=0;6=0' get_prandom_u3=0 get_prandom_u322=0 \
    bpf_=0 bpf_bpf_ktime_get_ns=0 BPF_ktime_get_ns=0 ktime_get_ns ktime_get_ns= 'ktime_get_ns =0' ' ktime_get_ns=0' unspec=0 ktime_get_ns=ktime_get_ns; do
    unlinked 'refused E32: malformed list of stubs' --helper="$list" programs.o
done
for list in 4294967296=0 5=2147483648 5=-2147483649 5=18446744073709551616 99999999999999999999999=0 5=0xffffffff 5=0,6=2147483648; do
    unlinked 'refused E33: helper or value of a stub out of range' --helper "$list" programs.o
done
for list in 5=0,5=0 5=0,0x5=1 5=0,6=0,05=0 5=0,5=0,a 0=0,0=0 5=0,ktime_get_ns=1 ktime_get_ns=0,bpf_ktime_get_ns=0 get_prandom_u32=0,7=0; do
    unlinked 'refused E34: two stubs of one helper' --helper "$list" programs.o
done
sixteen=$(seq -s , 101 116 | sed 's/,/=0,/g')=0
unlinked 'refused E35: more than 16 stubs' --helper "$sixteen,117=0" programs.o
unlinked 'refused E34: two stubs of one helper' --helper "$sixteen,116=0" programs.o
unlinked 'refused E32: malformed list of stubs' --helper a empty
for list in "$sixteen" 4294967295=0 0=0 4=2147483647 4=-2147483648 4=-0 4=0x7fffffff 4=-0x80000000 0004=0000 \
    map_lookup_elem=0 bpf_cgrp_storage_delete=0 ktime_get_boot_ns=0; do
    unlinked "refused E25 at slot 8: $clock" --entry second --helper "$list" programs.o
done

# Calls of helpers that a list answers are `mov r0, VALUE`: in `second` that of helper 5. What is told follows the maps.
while IFS='|' read -r list value; do
    bytes words $(printf '%s' "0600000007000000 9500000000000000 9500000000000000 9500000000000000 9500000000000000 bf10000000000000 6700000001000000 9500000000000000 b7000000$value bf06000000000000 b701000005000000 85100000f9ffffff 0f60000000000000 9500000000000000" | tr -d ' ' | sed 's/../& /g')
    row "bpfdb link --helper $list" 0 "$script_unread" "$text" 'calls answered by --helper: 1\n' link --entry second --helper "$list" programs.o
done <<'ROWS'
5=7|07000000
5=-1|ffffffff
6=3,5=0x7fffffff|ffffff7f
ktime_get_ns=7|07000000
trace_printk=3,bpf_ktime_get_ns=-1|ffffffff
5=-2147483648|00000080
ROWS
"$program" link --entry second --helper 5=7 programs.o > found/out 2> /dev/full
echo $? > found/status
: > found/err
bytes words $(printf '%s' '0600000007000000 9500000000000000 9500000000000000 9500000000000000 9500000000000000 bf10000000000000 6700000001000000 9500000000000000 b700000007000000 bf06000000000000 b701000005000000 85100000f9ffffff 0f60000000000000 9500000000000000' | tr -d ' ' | sed 's/../& /g')
check 'bpfdb link --helper, and standard error is full' 2 "$text" ''

# The slot that is told of a relocation is one of the program that would come out: slots of `.text` count behind those of the section. In deep.o, which clang 14
# made by -O2, `entry` has two slots, and the first one of `next` refers to data:
#     static int count;
#     __attribute__((noinline)) int next(void) { return ++count; }
#     __attribute__((section("prog"))) int entry(void) { return next(); }
bytes deep.o $(sed 's/../& /g' <<'OBJECT'
7f454c460201010000000000000000000100f7000100000000000000000000000000000000000000780100000000000000000000400000000000400008000100
18010000000000000000000000000000611000000000000007000000010000006301000000000000950000000000000085100000ffffffff9500000000000000
0000000000000000000000000000000000000000000000002a0000000400f1ff0000000000000000000000000000000016000000010006000000000000000000
04000000000000000000000003000600000000000000000000000000000000001100000012000200000000000000000030000000000000000100000012000400
000000000000000010000000000000000000000000000000010000000300000000000000000000000a0000000400000000656e747279002e72656c2e74657874
006e65787400636f756e74002e627373002e72656c70726f6700646565702e63002e737472746162002e73796d74616200000000000000000000000000000000
00000000000000000000000000000000000000000000000000000000000000000000000000000000000000000000000000000000000000003100000003000000
00000000000000000000000000000000300100000000000041000000000000000000000000000000010000000000000000000000000000000b00000001000000
06000000000000000000000000000000400000000000000030000000000000000000000000000000080000000000000000000000000000000700000009000000
40000000000000000000000000000000100100000000000010000000000000000700000002000000080000000000000010000000000000002500000001000000
06000000000000000000000000000000700000000000000010000000000000000000000000000000080000000000000000000000000000002100000009000000
40000000000000000000000000000000200100000000000010000000000000000700000004000000080000000000000010000000000000001c00000008000000
03000000000000000000000000000000800000000000000004000000000000000000000000000000040000000000000000000000000000003900000002000000
0000000000000000000000000000000080000000000000009000000000000000010000000400000008000000000000001800000000000000
OBJECT
)
# Its data are zeros at the start: they become a map, the only one, and so the load is one of its first byte. The section has 4 bytes; with a fifth there are
# values of 8 bytes, and one of them.
bytes words $(printf '%s' '8510000001000000 9500000000000000 1861000000000000 0000000000000000 6110000000000000 0700000001000000 6301000000000000 9500000000000000' | tr -d ' ' | sed 's/../& /g')
row 'bpfdb link deep.o' 0 "$script_unread" "$text" '--maps 8x1\nmap 0: .bss\n' link deep.o
"$program" link deep.o > deep 2> told
result '0x1\n' run $(told_maps) deep
refused 'refused C12 at slot 2: no such map or offset' check deep

# check_told LINE: that is what `link` left in the file `told`, but for the names of maps.
check_told() {
    count=$((count + 1))
    [ "$(grep -v '^map [0-9]*: ' told)" = "$1" ] || complain "what is told of maps: $1"
}

# check_names NAME..: those of the maps 0 and on, there.
check_names() {
    count=$((count + 1))
    [ "$(sed -n 's/^map //p' told)" = "$(printf '%s\n' "$@" | awk '{ print NR - 1 ": " $0 }')" ] || complain "names of maps: $*, and not $(sed -n '/^map/p' told)"
}

# What is told of calls follows the maps, also where nothing calls the helper; each call is counted, and none but that helper's is answered: the two of arrays.o
# are of helper 1, and with r0 = 0 neither key is found.
"$program" link --helper 5=0 arrays.o > arrays 2> told
check_told '--maps 8x2,16x256
calls answered by --helper: 0'
"$program" link --helper 2=7,1=0 arrays.o > arrays 2> told
check_told '--maps 8x2,16x256
calls answered by --helper: 2'
printf '\002\000\000\000' > context
result '0x1\n' run --maps 8x2,16x256 -m context arrays
text=$text_of_arrays
# A name is shown as any other text of an object: what would steer a terminal or isn't seen is spelled out, and so are bytes that are no character; a map whose symbol has
# no name (its place is the end of the file) has no line. The rows have the place of a symbol's name or of a byte of names in arrays.o.
while IFS='|' read -r place octal names; do
    count_of=$(printf "$octal" | wc -c)
    { head -c "$place" arrays.o; printf "$octal"; tail -c +$((place + count_of + 1)) arrays.o; } > changed.o
    row "bpfdb link arrays.o, with $octal at $place" 0 "$script_unread" "$text" "--maps 8x2,16x256\n$names\n" link changed.o
done <<'ROWS'
425|\033|map 0: counts\nmap 1: \\x1bames
425|\233|map 0: counts\nmap 1: \\x9bames
425|\342\200\256|map 0: counts\nmap 1: \\xe2\\x80\\xaees
425|\302\255|map 0: counts\nmap 1: \\xc2\\xadmes
425|\342\200\213|map 0: counts\nmap 1: \\xe2\\x80\\x8bes
425|\342\200\252|map 0: counts\nmap 1: \\xe2\\x80\\xaaes
425|\357\270\217|map 0: counts\nmap 1: \\xef\\xb8\\x8fes
425|\342\200\224|map 0: counts\nmap 1: —es
425|\303\244|map 0: counts\nmap 1: ämes
425|a b |map 0: counts\nmap 1: a b s
320|\377\377\377\377|map 0: counts
ROWS

# The line of the page on programs from C takes the maps, and says nothing of calls.
mkdir bin
ln -s "$program" bin/bpfdb
cp arrays.o filter.o
recipe=$(sed -n 's/^ *`\(bpfdb run .*\)`$/\1/p' "$top/examples/README.md")
(PATH=$PWD/bin:$PATH && sh -c "$recipe --helper 2=7,1=0 -m context") > found/out 2> found/err
echo $? > found/status
check "$recipe" 0 '0x1\n' ''

# Data that aren't zeros at the start: the program stores them before its entry, which is slot 1, and needs no option but `--maps`. (In point.o the second
# variable is the address of the last of three numbers, which is 3.)
"$program" link data.o > data 2> told
check_told '--maps 8x1'
check_names .data
result '0x3\n' run $(told_maps) data
"$program" link point.o > point 2> told
check_told '--maps 8x5'
result 'ok 22 instructions in 29 slots\n' check $(told_maps) point
printf 'context' > context
result '0x3\n' run $(told_maps) -m context point
result '0x3\n' run $(told_maps) point

# At the entry the data stand in their map, and all else is as at the opening. The setup of point.o takes ja32, ldmapval, lddw and stxdw for each of its four
# numbers, two moves and ja32; that of data.o has one number.
zeros='r3=0x0 r4=0x0 r5=0x0 r6=0x0 r7=0x0 r8=0x0 r9=0x0 r10=0x200000200'
session 'the setup of point.o' 'stepi 13\ninfo regs\nx 0x300000000 40\nx 0x100000000 7\nx 0x200000000 8\ninfo frames\n' \
    "13 forward; done; at 1: ldmapval r2, 0, 0\nr0=0x0 r1=0x100000000 r2=0x7 $zeros\nat 1: ldmapval r2, 0, 0\n\
0x300000000: 01000000000000000200000000000000030000000000000010000000030000000000000000000000\n\
0x100000000: 636f6e74657874\n0x200000000: 0000000000000000\ndepth 0\n" debug $(told_maps) -m context point
session 'the setup of data.o' 'stepi 7\ninfo regs\nx 0x300000000 8\n' \
    "7 forward; done; at 1: ldmapval r1, 0, 0\nr0=0x0 r1=0x0 r2=0x0 $zeros\nat 1: ldmapval r1, 0, 0\n0x300000000: 0300000000000000\n" debug --maps 8x1 data

# deep.o has the size of its data at 792, and what the load adds to their address at 68: the map's shape, where the size is at a limit of it, and the place.
sized() {
    { head -c 792 deep.o; printf "$2"; tail -c +797 deep.o; } > sized.o
    "$program" link sized.o > sized 2> told
    check_told "$1"
}
sized '--maps 8x1' '\007\000\000\000'
sized '--maps 8x2' '\010\000\000\000'
sized '--maps 8x4096' '\377\177\000\000'
sized '--maps 16x2049' '\000\200\000\000'
sized '--maps 16x4096' '\360\377\000\000'
sized '--maps 16x4096' '\000\000\001\000'
result 'ok 7 instructions in 8 slots\n' check $(told_maps) sized
sized 'refused E27: data longer than 65536 bytes' '\001\000\001\000'
sized '--maps 8x1' '\000\000\000\000'
{ head -c 68 deep.o; printf '\003'; tail -c +70 deep.o; } > added.o
bytes words $(printf '%s' '8510000001000000 9500000000000000 1861000000000000 0000000003000000 6110000000000000 0700000001000000 6301000000000000 9500000000000000' | tr -d ' ' | sed 's/../& /g')
row 'bpfdb link added.o' 0 "$script_unread" "$text" '--maps 8x1\nmap 0: .bss\n' link added.o
{ head -c 68 deep.o; printf '\010'; tail -c +70 deep.o; } > added.o
unlinked 'refused E25 at slot 2: no such map or offset: .text, slot 0' added.o

# Each line has an object, a place of it and the byte that stands there instead, in octal, and what is told. The calls of calls.o are at the slots 0 and 2, the
# wide loads of maps.o at 1 and 6, and 14 is its last slot. In the last line its entry is the second half of a wide load, so that the jump before the code has a
# target that is none: slot 0 comes from no section. Behind the text stands the name of the relocation's symbol: that of a section, as `.bss` in deep.o and `.data`
# in point.o, has none.
while IFS='|' read -r name place byte told; do
    { head -c "$place" "$name.o"; printf "\\$byte"; tail -c +$((place + 2)) "$name.o"; } > changed.o
    unlinked "refused $told" changed.o
done <<'ROWS'
calls|288|040|E17: relocation at no slot, or out of order
calls|300|006|E18 at slot 0: relocation against no symbol
calls|316|006|E18 at slot 2: relocation against no symbol
deep|284|006|E18 at slot 2: relocation against no symbol
deep|284|004|E23 at slot 2: reference to data that is no map: next
deep|76|001|E24 at slot 2: relocation of a map at no empty wide load
calls|316|000|E19 at slot 2: symbol is not defined in the object
calls|312|002|E20 at slot 2: unknown relocation: next
calls|132|005|E21 at slot 2: call of no function of the program: next
calls|128|267|E22 at slot 2: relocation of a call at no call: next
calls|312|001|E23 at slot 2: reference to data that is no map: next
maps|76|001|E24 at slot 1: relocation of a map at no empty wide load: second
maps|116|001|E24 at slot 6: relocation of a map at no empty wide load: first
maps|344|160|E24 at slot 14: relocation of a map at no empty wide load: second
point|372|005|E29: address in data of what is no data: entry
point|372|006|E29: address in data of what is no data
point|368|003|E29: address in data of what is no data
maps|280|020|E25 at slot 3: unknown instruction: prog, slot 2
ROWS

# What is linked at a limit, and refused beyond it. What grows stands behind the object, at its end, and the header of its section has another offset and size.

# moved NAME PLACE BYTES: the object NAME with these bytes, as printf has them, for an offset and a size at a place of it.
moved() {
    head -c "$2" "$1.o"
    printf "$3"
    tail -c +$(($2 + 17)) "$1.o"
}

# exits COUNT: so many instructions `exit`.
exits() {
    yes "$(printf '\225\1\1\1\1\1\1')" | tr '\1\n' '\0\0' | head -c $((8 * $1))
}

# linked NAME OBJECT: the link of an object gives what is in the file `words`, and says nothing.
linked() {
    cp words wanted/out
    : > wanted/err
    echo 0 > wanted/status
    : > script
    run link "$2"
    compare "$1"
}

# A code section of 65,535 slots, and of one more.
exits 65535 > words
{ moved text 344 '\300\001\0\0\0\0\0\0\370\377\007\0\0\0\0\0'; exits 65535; } > long.o
linked 'link of a section of 65,535 slots' long.o
{ moved text 344 '\300\001\0\0\0\0\0\0\0\0\010\0\0\0\0\0'; exits 65536; } > long.o
unlinked 'refused E11: program too long' long.o

# The same with those of `.text`, 65,531 behind the four of the section that calls it, and one more: its own six, and `exit`.
tail -c +65 calls.o | head -c 48 > six
bytes four 85 10 00 00 06 00 00 00 bf 01 00 00 00 00 00 00 85 10 00 00 01 00 00 00 EXIT
{ cat four six; exits 65525; } > words
{ moved calls 536 '\0\003\0\0\0\0\0\0\330\377\007\0\0\0\0\0'; cat six; exits 65525; } > long.o
linked 'link of 65,535 slots, of which 65,531 are of .text' long.o
{ moved calls 536 '\0\003\0\0\0\0\0\0\340\377\007\0\0\0\0\0'; cat six; exits 65526; } > long.o
unlinked 'refused E11: program too long' long.o

# A map that no code refers to is none, however many symbols name one: the object's own two are all, with fourteen symbols more, and with fifteen.
# symbols COUNT: the object's symbols, and the fifth so many times more.
symbols() {
    tail -c +201 maps.o | head -c 144
    for _ in $(seq "$1"); do
        tail -c +297 maps.o | head -c 24
    done
}
bytes words $(printf '%s' 'bf16000000000000 1851000000000000 0000000000000000 bf62000000000000 8500000001000000 bf07000000000000 1851000001000000 0000000000000000 bf62000000000000 8500000001000000 bf01000000000000 b700000001000000 1d17010000000000 b700000000000000 9500000000000000' | tr -d ' ' | sed 's/../& /g')
{ moved maps 856 '\200\003\0\0\0\0\0\0\340\001\0\0\0\0\0\0'; symbols 14; } > many.o
linked 'link of fourteen symbols of maps' many.o
{ moved maps 856 '\200\003\0\0\0\0\0\0\370\001\0\0\0\0\0\0'; symbols 15; } > many.o
linked 'link of fifteen symbols of maps' many.o

# A table of 0xfeff sections, and of 0xff00, a number that names no section. The object's own four are followed by empty ones.
bytes words b7 00 00 00 07 00 00 00 EXIT
{ head -c 60 text.o; printf '\377\376'; tail -c +63 text.o; head -c $((64 * (0xfeff - 4))) /dev/zero; } > sections.o
linked 'link of an object of 65,279 sections' sections.o
{ head -c 60 text.o; printf '\000\377'; tail -c +63 text.o; head -c $((64 * (0xff00 - 4))) /dev/zero; } > sections.o
unlinked 'refused E6: malformed section table' sections.o

# Twenty calls of the first slot of `.text`, each with a relocation of its own: call I, of slot I, is 20 - I slots before it. Nothing calls the second function there.
twenty=$(seq 0 19)
{
    for _ in $twenty; do printf '\205\020\0\0\377\377\377\377'; done
    exits 1
} > called
for i in $twenty; do
    printf '%b' "\\0$(printf '%o' $((8 * i)))\\0\\0\\0\\0\\0\\0\\0\\012\\0\\0\\0\\02\\0\\0\\0"
done > relocations
{
    for i in $twenty; do printf '%b' "\\0205\\020\\0\\0\\0$(printf '%o' $((20 - i)))\\0\\0\\0"; done
    exits 1
    head -c 24 six
    exits 3
} > words
moved calls 600 '\0\003\0\0\0\0\0\0\250\0\0\0\0\0\0\0' > one.o
{ moved one 664 '\250\003\0\0\0\0\0\0\100\001\0\0\0\0\0\0'; cat called relocations; } > twenty.o
linked 'link of twenty relocations' twenty.o

# An object of a megabyte: what stands behind its tables is passed over.
bytes words b7 00 00 00 07 00 00 00 EXIT
{ cat text.o; head -c 1000000 /dev/zero; } > large.o
linked 'link of an object of a megabyte' large.o

# Objects with bytes changed: what isn't reached from the entry is taken out, so words that are linked lead to nothing that was.
if has python3 'what linking takes out'; then
    python3 "$top/tests/trials/reach.py" "$program" 300 calls.o maps.o arrays.o typed.o programs.o deep.o > found/reach 2>&1
    sed '$d' found/reach
    told=$(sed -n '$s/^\([0-9]*\) trials, \([0-9]*\) failed$/\1 \2/p' found/reach)
    [ "${told:-0 0}" != '0 0' ] || { complain 'tests/trials/reach.py comes to no end'; tail -n 1 found/reach; told='0 0'; }
    count=$((count + ${told% *})) failures=$((failures + ${told#* }))
fi

# A file of C, where there is a clang for BPF: the sum of the context's bytes, by a function of its own.
cat > sum.c <<'C'
__attribute__((noinline)) unsigned long sum(const unsigned char *bytes, unsigned long count) {
    unsigned long total = 0;
    for (unsigned long i = 0; i < count; i++)
        total += bytes[i];
    return total;
}
__attribute__((section("prog"))) unsigned long entry(const unsigned char *bytes, unsigned long count) { return sum(bytes, count); }
C
if has_clang 'link of files of C'; then
    # Sixteen maps to which code refers, and seventeen; and of seventeen that are there sixteen.
    for most in 16 17; do
        for used in 16 17; do
            [ "$used" -le "$most" ] || continue
            {
                echo 'struct map { unsigned kind, key, value, entries; };'
                for i in $(seq "$most"); do
                    echo "struct map map$i __attribute__((section(\"maps\"), used)) = {2, 4, 8, 1};"
                done
                echo '__attribute__((section("prog"))) long entry(void) { long sum = 0; void *at;'
                for i in $(seq "$used"); do
                    echo "at = &map$i; __asm__ volatile(\"\" : \"+r\"(at)); sum += (long)at;"
                done
                echo 'return sum; }'
            } > maps17.c
            clang -O1 -target bpf -c -o "maps$most$used.o" maps17.c
        done
    done
    for name in maps1616 maps1716; do
        "$program" link "$name.o" > words17 2> told
        [ "$(head -n 1 told)" = "--maps $(seq -s , 16 | sed 's/[0-9][0-9]*/8x1/g')" ] || complain "what is told of $name.o"
    done
    unlinked 'refused E15: more than 16 maps' maps1717.o
    clang -O1 -target bpf -c -o sum.o sum.c
    "$program" link sum.o > sum
    printf '\001\002\375' > context
    result '0x100\n' run -m context sum
    result '0x0\n' run sum
    cat > keys.c <<'C'
struct bpf_map_def { unsigned int type, key_size, value_size, max_entries, map_flags; };
__attribute__((section("maps"))) struct bpf_map_def counts = { 2, 4, 8, 2, 0 }, names = { 2, 4, 16, 256, 0 };
static void *(*lookup)(void *, const void *) = (void *)1;
__attribute__((section("prog"))) int entry(const void *key) { return (lookup(&names, key) ? 2 : 0) + (lookup(&counts, key) ? 1 : 0); }
C
    clang -O2 -target bpf -c -o keys.o keys.c
    "$program" link keys.o > keys 2> told
    for key in 001 002 377; do
        printf "\\$key\\000\\000\\000" > context
        result "$([ $key = 001 ] && echo 0x3 || echo 0x2)\n" run $(told_maps) -m context keys
    done
    # Of several sections with code the one is linked in which the entry lies, if it lies in one: a variable is no function, and two functions of a name in two
    # sections are none of either.
    cat > homes.c <<'C'
__attribute__((section("a"))) int first(void) { return 1; }
__attribute__((section("b"))) int second(void) { return 2; }
static __attribute__((section("a"), noinline, used)) int a_twice(void) { return 3; }
static __attribute__((section("b"), noinline, used)) int b_twice(void) { return 4; }
__attribute__((section("c"))) int variable = 5;
C
    clang -O1 -target bpf -c -o homes.o homes.c
    LC_ALL=C sed 's/b_twice/a_twice/' homes.o > twice.o
    for row in 1:first:a 2:second:b 3:a_twice:a 4:b_twice:b; do
        entry=${row#*:} section=${row##*:}
        entry=${entry%:*}
        result "0x${row%%:*}\n" run --entry "$entry" homes.o
        result "0x${row%%:*}\n" run --entry "$entry" --section "$section" homes.o
    done
    for row in variable:homes.o third:homes.o :homes.o a_twice:twice.o; do
        refused 'refused E9: more than one code section: --entry NAME chooses one: first, second' run --entry "${row%:*}" "${row#*:}"
    done
    result '0x4\n' run --section b --entry a_twice twice.o
    # Without an entry the programs are told of all sections, in the order of the symbols: neither functions that are static nor those of .text, nor data.
    cat > programs_of.c <<'C'
__attribute__((section("a"))) int first(void) { return 1; }
static __attribute__((section("a"), noinline, used)) int hidden(void) { return 2; }
__attribute__((noinline)) int called(void) { return 3; }
__attribute__((section("b"))) int second(void) { return called(); }
__attribute__((section("b"), weak)) int third(void) { return 4; }
__attribute__((section("a"))) int fourth(void) { return 5; }
__attribute__((section("c"))) int variable = 5;
C
    clang -O1 -target bpf -c -o programs_of.o programs_of.c
    refused 'refused E9: more than one code section: --entry NAME chooses one: first, second, third, fourth' run programs_of.o
    refused 'refused E9: more than one code section: --entry NAME chooses one: first, second, third, fourth' run --entry variable programs_of.o
    result '0x5\n' run --entry fourth programs_of.o
    # (of seventeen the first sixteen)
    for k in 1 2 3 4 5 6 7 8 9 10 11 12 13 14 15 16 17; do echo "__attribute__((section(\"s$k\"))) int f$k(void) { return $k; }"; done > many.c
    clang -O1 -target bpf -c -o many.o many.c
    refused "refused E9: more than one code section: --entry NAME chooses one: $(seq -f 'f%g' -s ', ' 16), .." run many.o
    result '0x11\n' run --entry f17 many.o
    refused 'refused E31: no such function in the code section: b_twice, second' run --section b --entry first homes.o
    # Of two programs in a section the one that is asked for runs; without a name both are refused.
    cat > entries.c <<'C'
__attribute__((section("prog"))) int first(void) { return 1; }
__attribute__((section("prog"))) int second(void) { return 2; }
C
    clang -O1 -target bpf -c -o entries.o entries.c
    unlinked 'refused E30: more than one program in the code section: --entry NAME chooses one: first, second' entries.o
    # Of sixteen functions all are told, and of more the first sixteen.
    {
        for i in $(seq 16); do echo "__attribute__((section(\"prog\"))) int f$i(void) { return $i; }"; done
    } > many.c
    sixteen_names=$(seq -s ' ' 16 | sed 's/ /, f/g; s/^/f/')
    clang -O1 -target bpf -c -o many.o many.c
    unlinked "refused E30: more than one program in the code section: --entry NAME chooses one: $sixteen_names" many.o
    echo '__attribute__((section("prog"))) int f17(void) { return 17; }' >> many.c
    clang -O1 -target bpf -c -o many.o many.c
    unlinked "refused E30: more than one program in the code section: --entry NAME chooses one: $sixteen_names, .." many.o
    echo '__attribute__((section("prog"))) int f18(void) { return 18; }' >> many.c
    clang -O1 -target bpf -c -o many.o many.c
    unlinked "refused E30: more than one program in the code section: --entry NAME chooses one: $sixteen_names, .." many.o
    # A name of 255 bytes is told whole, and of a longer one as many. A map's name may have as many, too.
    for more in '' y; do
        symbol=x$(printf '%0254d' 0)
        printf 'int %s(void); __attribute__((section("prog"))) int entry(void) { return %s(); }\n' "$symbol$more" "$symbol$more" > long.c
        clang -O1 -target bpf -c -o long.o long.c
        unlinked "refused E19 at slot 0: symbol is not defined in the object: $symbol" long.o
        cat > long.c <<C
struct { int (*type)[2]; unsigned *key; long *value; int (*max_entries)[3]; } $symbol$more __attribute__((section(".maps")));
static void *(*lookup)(void *, const void *) = (void *)1;
__attribute__((section("prog"))) long entry(const void *key) { return lookup(&$symbol$more, key) != 0; }
C
        clang -g -O2 -target bpf -c -o long.o long.c
        case $more in
            '') "$program" link long.o > long 2> told; check_told '--maps 8x3'; check_names "$symbol" ;;
            *) unlinked "refused E54: name of a map longer than 255 bytes: $symbol" long.o ;;
        esac
    done
    for entry in first second; do
        "$program" link --entry $entry entries.o > entries
        result "$([ $entry = first ] && echo 0x1 || echo 0x2)\n" run entries
    done
    # A program may have a name of 255 bytes; a longer one names none, though there is such a function.
    for more in '' y; do
        symbol=x$(printf '%0254d' 0)
        printf '__attribute__((section("prog"))) int %s(void) { return 1; }\n__attribute__((section("prog"))) int z(void) { return 2; }\n' "$symbol$more" > long.c
        clang -O1 -target bpf -c -o long.o long.c
        case $more in
            '') "$program" link --entry "$symbol" long.o > long 2> told; result '0x1\n' run long ;;
            *) unlinked "refused E31: no such function in the code section: $symbol, z" --entry "$symbol$more" long.o ;;
        esac
        "$program" link --entry z long.o > long
        result '0x2\n' run long
    done
    # Relocations of fields (CO-RE): they are refused by how many there are and where the first is, in the section or in `.text`, unless fields are to stay.
    cat > core.c <<'C'
struct thing { int first, second; long third; } __attribute__((preserve_access_index));
static __attribute__((noinline)) long other(struct thing *t) { return t->third + t->first; }
__attribute__((section("here"))) long from_here(struct thing *t) { return t->second; }
__attribute__((section("both"))) long from_both(struct thing *t) { return t->second + other(t); }
__attribute__((section("there"))) long from_there(struct thing *t) { return other(t) + 1; }
__attribute__((section("none"))) long from_none(long *t) { return t[1]; }
C
    clang -g -O2 -target bpf -c -o core.o core.c
    printf '\001\0\0\0\002\0\0\0\005\0\0\0\0\0\0\0' > context
    while IFS='|' read -r section many slot first told; do
        [ "$many" = 0 ] ||
            unlinked "refused E36 at slot $slot: relocations of fields, $many in all: --fields compiled leaves them undone: $first" --fields strict --section $section core.o
        "$program" link --fields compiled --section=$section core.o > core 2> left || complain "$section isn't linked as compiled"
        [ "$(cat left)" = "$([ "$many" = 0 ] || echo "fields left as compiled: $many")" ] || complain "what is told of the fields of $section"
        result "$told\n" run -m context core
    done <<'ROWS'
here|1|0|here|0x2
both|3|0|both|0x8
there|2|3|.text|0x7
.text|2|0|.text|0x6
none|0|||0x5
ROWS
    "$program" link --section none core.o > core 2> left && [ ! -s left ] || complain 'code without relocations of fields, in an object that has some'
    # A damaged list is refused, and of each byte that is turned something is told.
    place=$(LC_ALL=C grep -obUa "$(printf '\237\353')" core.o | LC_ALL=C sed -n '2s/:.*//p')
    { head -c "$place" core.o; printf '\0'; tail -c +$((place + 2)) core.o; } > changed.o
    unlinked 'refused E53: malformed section .BTF.ext' --section none changed.o
    for at in $(seq "$place" $((place + 200))); do
        { head -c "$at" core.o; printf '\377'; tail -c +$((at + 2)) core.o; } > changed.o
        "$program" link --fields strict --section both changed.o > core 2> left
        [ $? -eq 2 ] || [ ! -s left ] || complain "an object with byte $at turned"
    done
    # Data are maps after the object's own.
    echo 'static int count; __attribute__((section("prog"))) int entry(void) { return ++count; }' > zeros.c
    echo 'static const char names[] = "bpfdb"; __attribute__((section("prog"))) int entry(const void *at, unsigned long size) { return names[size & 3]; }' > constants.c
    clang -O1 -target bpf -c -o zeros.o zeros.c
    "$program" link zeros.o > zeros 2> told
    result '0x1\n' run $(told_maps) zeros
    cat > both.c <<'C'
struct bpf_map_def { unsigned int type, key_size, value_size, max_entries, map_flags; };
__attribute__((section("maps"))) struct bpf_map_def counts = { 2, 4, 8, 2, 0 };
static void *(*lookup)(void *, const void *) = (void *)1;
static long first, sums[5];
__attribute__((section("prog"))) long entry(const unsigned char *bytes, unsigned long count) {
    unsigned int key = 1;
    long *value = lookup(&counts, &key);
    if (!value) return -1;
    for (unsigned long i = 0; i < count; i++) { sums[i % 5] += bytes[i]; first++; }
    *value = first;
    return sums[0] * 1000 + sums[4] * 100 + first + *value;
}
C
    printf '\001\002\003\004\005\006' > context
    for level in 1 2; do
        clang -O$level -target bpf -c -o both.o both.c
        "$program" link both.o > both 2> told
        check_told '--maps 8x2,8x7'
        check_names counts .bss
        result '0x1d58\n' run $(told_maps) -m context both
    done
    clang -O1 -target bpf -c -o constants.o constants.c
    "$program" link constants.o > constants 2> told
    printf 'abc' > context
    result '0x64\n' run $(told_maps) -m context constants
    # A static function of the section before the entry is none; the entry is reached by a jump, or from the setup.
    for first in 'static __attribute__((noinline, used, section("prog"))) long twice(long n) { return 2 * n; }' \
        'static volatile long two = 2; static __attribute__((noinline, used, section("prog"))) long twice(long n) { return two * n; }'; do
        printf '%s\n' "$first" '__attribute__((section("prog"))) long entry(void *at, unsigned long size) { return twice(size) + 1; }' > second.c
        for level in 0 1 2; do
            clang -O$level -target bpf -c -o second.o second.c
            "$program" link second.o > second 2> told
            result '0x7\n' run $(told_maps) -m context second
        done
    done
    # An address of a function is none of data, in code and in data.
    printf '%s\n' 'static __attribute__((noinline)) long f(long n) { return n + 1; }' \
        '__attribute__((section("prog"))) long entry(void *at, unsigned long size) { long (*volatile call)(long) = f; return call(size); }' > address.c
    printf '%s\n' 'static __attribute__((noinline)) long f(long n) { return n + 1; }' 'static long (*volatile call)(long) = f;' \
        '__attribute__((section("prog"))) long entry(void *at, unsigned long size) { return call(size); }' > table.c
    clang -O2 -target bpf -c -o address.o address.c
    clang -O2 -target bpf -c -o table.o table.c
    unlinked 'refused E23 at slot 1: reference to data that is no map' address.o
    unlinked 'refused E29: address in data of what is no data' table.o
    # (that of one known outside has its name)
    for name in address table; do
        sed 's/^static __/__/' $name.c > named.c
        clang -O2 -target bpf -c -o $name.o named.c
    done
    unlinked 'refused E23 at slot 1: reference to data that is no map: f' address.o
    unlinked 'refused E29: address in data of what is no data: f' table.o
    # Sixteen sections of data, one for each variable, and a seventeenth.
    for most in 16 17; do
        {
            for i in $(seq "$most"); do echo "static volatile long v$i = $i;"; done
            echo '__attribute__((section("prog"))) long entry(void) { return 0'
            for i in $(seq "$most"); do echo " + v$i"; done
            echo '; }'
        } > sections.c
        clang -O2 -fdata-sections -target bpf -c -o "sections$most.o" sections.c
    done
    "$program" link sections16.o > sections 2> told
    result '0x88\n' run $(told_maps) sections
    unlinked 'refused E15: more than 16 maps' sections17.o
    # Programs of C, whose results are those of this machine, at each level and for each processor, by each clang that is installed, of one version once.
    if has cc 'results of files of C'; then
        printf 'abc 12 zz9!' > context
        compilers= versions=
        for compiler in clang $(seq -f 'clang-%g' 10 40); do
            "$compiler" -O1 -target bpf -c -o sum.o sum.c 2> /dev/null || continue
            version=$("$compiler" --version | sed -n '1s/.*version \([0-9.]*\).*/\1/p')
            case " $versions " in *" $version "*) continue ;; esac
            versions="$versions $version"
            compilers="$compilers $compiler"
        done
        tried=0 compiled=0
        for source in "$top"/tests/program/c/*.c; do
            name=$(basename "$source" .c)
            [ "$name" != native ] || continue
            cc -w -O1 -fwrapv -o "native-$name" "$source" "$top/tests/program/c/native.c"
            wanted=$("./native-$name" < context)
            for compiler in $compilers; do
                for level in 0 1 2 s; do
                    for cpu in v1 v2 v3 v4; do
                        tried=$((tried + 1))
                        # clang 14 knows no v4, and others may refuse what they can't put into BPF.
                        "$compiler" -w -fwrapv -fno-builtin -O$level -mcpu=$cpu -target bpf -c -o c.o "$source" 2> /dev/null || continue
                        compiled=$((compiled + 1))
                        "$program" link c.o > c 2> told || complain "$name.c isn't linked: $compiler -O$level, $cpu"
                        result "$wanted\n" run $(told_maps) -m context c
                    done
                done
            done
        done
        echo "objects: of $tried compiles of C, clang$versions did $compiled; each was linked, and its result held against this machine's"
        [ "$compiled" -ge $((tried / 2)) ] || complain "clang compiled only $compiled of $tried"
    fi
fi
