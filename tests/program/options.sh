# Each option that says which program runs and on what, in each subcommand, by tables: an option has a value that changes the answer, or is refused by name.
# Where something runs the result is worked out by hand; where nothing does it is what the words give that `link` makes with the option; and without the
# option the answer is another one. Each row is made of a table, and each is tried once more with a program that leaves the option out in silence
# (`forgetful`): a row that holds there, too, shows nothing, and fails. Then each subcommand's help is held against the tables: an option that isn't in them fails.

# OPTION|FILE|BASE|SETTING|RESULT|WRONG|REFUSAL|SAME: the option with the words BASE over FILE. With SETTING it gives RESULT, a number or what standard error
# says; WRONG is refused. In the subcommands SAME, SETTING changes nothing that they tell.
settings() {
    cat << 'TABLE'
-m|mem.s||-m=context|0x5|-m=missing|cannot read missing\n|
--packet|mem.s|-m=two.pcap|--packet=2|0x9|--packet=3|refused P4: no such packet: the capture has 2 (two.pcap)\n|
--maps|map.s||--maps=8x4|0x1|--maps=8x|refused M5: malformed map list\n|
--regs|regs.s||--regs=r3=0x5|0x5|--regs=r10=5|refused O5: r10 is not writable\n|
--section|programs.o||--section=one|0xb|--section=none|refused E8: no such code section: one, several, time, map, xdp\n|
--entry|programs.o|--section=several|--entry=three|0x21|--entry=none|refused E31: no such function in the code section: two, three\n|
--with|programs.o|--entry=now|--with=clock.o|0x7|--with=text|refused E1: no ELF file (--with)\n|
--helper|programs.o|--entry=now|--helper=5=2|0x2|--helper=a|refused E32: malformed list of stubs\n|
--stub|programs.o|--entry=now|--stub=ktime_get_ns=3|0x3|--stub=5|refused E32: malformed list of stubs\n|
--entries|programs.o|--entry=has_three|--entries=few=4|0x1|--entries=none=4|refused E45: map has no description in BTF: none\n|disasm lines check
--struct|packet.o||--struct=xdp|0x53|--struct=xdr|value|
--fields|fields.o||--fields=strict|refused E36 at slot 0: relocations of fields, 1 in all: --fields compiled leaves them undone: enter\n|--fields=free|value|
--no-linux|programs.o|--entry=now|--no-linux|refused E25 at slot 0: unknown helper 5 (bpf_ktime_get_ns): --with OBJECT or --helper 5=VALUE answers it: time, slot 0\n|--no-linux=no|flag|
--faithful|programs.o|--entry=routed|--faithful|other than Linux: bpf_fib_lookup finds no route: 4\nrefused F4: what it calls answers otherwise than in Linux: leave --faithful out\n|--faithful=no|flag|
TABLE
}

# OPTION..|SUBCOMMAND..|WHY: options that subcommands don't take, and why.
lacking() {
    cat << 'TABLE'
-m --packet --regs|disasm lines check load link|nothing runs
-m --packet --regs --section --entry --with --helper --stub --entries --struct --fields --no-linux --faithful|asm|FILE is a listing, and nothing runs
--maps|asm|the words of a listing hang on no map
--maps|lines link|a listing's lines hang on no map, and an object has its own
-m --packet --maps --regs --section --entry --with --helper --stub --entries --struct --fields --no-linux --faithful|test|FILE says it of each test
-m --packet|batch|each case has its own
--regs --section --entry --with --helper --stub --entries --struct --fields --no-linux --faithful|batch|each case is words
TABLE
}

# The options of help that say nothing of that: how much runs, how the answer is told, what FILE is, and what else is read.
others='--steps --strict --from --count --branches --profile --calls --questions --journal --words --listing --object --script --lines --addresses --alone --registers
    --json --dot --other-mem --other-packet --trace --writes --only --show --cover --cover-info --anywhere --relocatable --output --help'

running='run trace debug origin whynot diff gdb'

# is_among WORD WORD..: whether the first word is one of the others.
is_among() {
    for one in $(echo "$*" | cut -s -d ' ' -f 2-); do
        [ "$one" = "$1" ] && return
    done
    return 1
}

# asked SUBCOMMAND WORD..: runs the program over FILE, of which the words say how.
asked() {
    subcommand=$1
    shift
    script='continue\n' other=''
    case $subcommand in
        debug) set -- debug "$@" "$file" ;;
        gdb) script='$c#63+$p0#a0+'; set -- gdb "$@" "$file" ;;
        whynot) set -- whynot --alone "$@" "$file" 0 ;;
        diff) set -- diff --alone --other-mem=other "$@" "$file" ;;
        batch) script='-\n'; set -- batch "$@" words.bin ;;
        *) set -- "$subcommand" "$@" "$file" ;;
    esac
    printf '%b' "$script" > script
    run "$@"
}

# came SUBCOMMAND: the result that the last run tells.
came() {
    case $1 in
        run | batch) cat found/out ;;
        gdb) sed -n 's/.*\$\([0-9a-f]\{16\}\)#..$/\1/p' found/out ;;
        *) sed -n 's/.*exited at [0-9]*: r0 \(0x[0-9a-f]*\).*/\1/p' found/out | head -n 1 ;;
    esac
}

# told_by SUBCOMMAND RESULT: how a subcommand tells a result.
told_by() {
    case $1 in
        gdb) printf '%016x\n' "$2" | sed 's/\(..\)\(..\)\(..\)\(..\)\(..\)\(..\)\(..\)\(..\)/\8\7\6\5\4\3\2\1/' ;;
        *) echo "$2" ;;
    esac
}

# gives SUBCOMMAND RESULT: the last run of one that runs FILE tells this result.
gives() {
    [ "$(came "$1")" = "$(told_by "$1" "$2")" ]
}

# linked: the words to which FILE is linked with $base and $setting, and their maps.
linked() {
    # shellcheck disable=SC2086
    "$program" link $base $setting "$file" > words 2> told
}

# sized: what tells of a program stands without names and without lines.
sized() {
    sed -n 's/^\(ok .*\)/\1/p; s/^\(map [0-9]*: [0-9x]* at 0x[0-9a-f]*\).*/\1/p' "$1"
}

# as_words SUBCOMMAND: the last run of one that runs nothing tells of FILE what it tells of the words.
as_words() {
    # shellcheck disable=SC2046
    case $1 in
        link) "$program" run $(told_maps) $context words 2>&1 | grep -q -x "$result" ;;
        lines) "$program" check $(told_maps) words 2>&1 | grep -q -x "ok .* in $(($(tail -n 1 found/out | cut -d ' ' -f 1) + 1)) slots" ;;
        disasm) "$program" disasm $(told_maps) words 2>&1 | cmp -s - found/out ;;
        *) "$program" "$1" $(told_maps) words > wanted/sized 2>&1 && [ -n "$(sized found/out)" ] && [ "$(sized wanted/sized)" = "$(sized found/out)" ] ;;
    esac
}

# as_by_hand SUBCOMMAND: the same of a listing, which nothing links: that has eight instructions in nine slots, and a map of 8x4.
as_by_hand() {
    case $1 in
        check) grep -q -x 'ok 8 instructions in 9 slots' found/out ;;
        load) [ "$(sized found/out)" = 'ok 8 instructions in 9 slots
map 0: 8x4 at 0x300000000' ] ;;
        disasm) [ "$(grep -c . found/out)" = 9 ] ;;
    esac
}

# is_obeyed SUBCOMMAND: the setting makes the result in a subcommand, and without it the answer is another one.
is_obeyed() {
    # shellcheck disable=SC2086
    asked "$1" $base $runs
    cat found/out found/err found/status > without
    # shellcheck disable=SC2086
    asked "$1" $base $setting $runs
    cat found/out found/err found/status > with
    is_among "$1" $same || ! cmp -s with without || return 1
    case $result in
        0x*)
            [ "$(cat found/status)" = 0 ] || [ "$1" = diff ] || return 1
            if is_among "$1" $running batch; then gives "$1" "$result"; else
                case $file in
                    *.o) linked && as_words "$1" ;;
                    *) as_by_hand "$1" ;;
                esac
            fi
            ;;
        *) printf '%b' "$result" | cmp -s - found/err && [ "$(cat found/status)" = 2 ] && [ ! -s found/out ] ;;
    esac
}

# is_refused SUBCOMMAND: the wrong setting is refused by name.
is_refused() {
    # shellcheck disable=SC2086
    asked "$1" $base $wrong $runs
    case $refusal in
        value) grep -q -x 'error: a value is none of those that its option takes' found/err ;;
        flag) grep -q -x "error: unexpected value 'no' for '$option' found; no more were expected" found/err ;;
        *) printf '%b' "$refusal" | cmp -s - found/err ;;
    esac && [ "$(cat found/status)" = 2 ]
}

# made KIND SUBCOMMAND: a row, which holds for the program, and doesn't for one that leaves the option out.
made() {
    count=$((count + 1))
    if ! "$1" "$2"; then
        complain "$2 $base $setting $file: $1: $(head -c 300 found/out) $(head -c 300 found/err)"
        return
    fi
    # (where nothing that is told changes, a setting shows nothing)
    [ "$1" = is_obeyed ] && is_among "$2" $same && return
    whole=$program program=$PWD/forgetful
    export whole option
    ! "$1" "$2" || complain "$2 $base $setting $file: $1 holds where $option is left out"
    program=$whole
}

# forgetful: bpfdb without the option.
cat > forgetful << 'PROGRAM'
#!/bin/sh
for word in "$@"; do
    shift
    case $word in "$option" | "$option="*) ;; *) set -- "$@" "$word" ;; esac
done
exec "$whole" "$@"
PROGRAM
chmod +x forgetful

bytes context 05 06 07
bytes other 06
# A capture of two packets, 08 and 09 0a (pcap: the low byte first, Ethernet).
bytes two.pcap d4 c3 b2 a1 02 00 04 00 00 00 00 00 00 00 00 00 00 00 04 00 01 00 00 00 \
    00 00 00 00 00 00 00 00 01 00 00 00 01 00 00 00 08 00 00 00 00 00 00 00 00 02 00 00 00 02 00 00 00 09 0a
printf 'ldxb r0, [r1+0]\nexit\n' > mem.s
printf 'mov r0, r3\nexit\n' > regs.s
# 1 where the map has more than three entries.
printf 'stw [r10-4], 3\nmov r2, r10\nsub r2, 4\nldmap r1, 0\ncall 1\njeq r0, 0, none\nmov r0, 1\nnone: exit\n' > map.s
"$program" asm map.s > words.bin
echo none > text
find_compilers 'options of objects'
for compiler in ${compilers%% *}; do
    "$compiler" -g -O2 -target bpf -c "$parts/options/programs.c" && "$compiler" -g -O2 -target bpf -c "$parts/options/clock.c" && "$compiler" -g -O2 -target bpf -c "$parts/options/fields.c" &&
        "$compiler" -O2 -target bpf -c "$parts/options/packet.c" && "$compiler" -target bpf -mcpu=v3 -O2 -g -c "$top/share/bpfdb-linux.c" -o library.o || complain "$compiler"
done

settings > table
while IFS='|' read -r option file base setting result wrong refusal same; do
    case $file in *.o) [ -n "$compilers" ] || continue ;; esac
    context='' runs=''
    case $option in --no-linux | --faithful) BPFDB_LINUX="$PWD/library.o" ;; *) BPFDB_LINUX='' ;; esac
    [ "$option" != --struct ] || context=-m=context
    for subcommand in $running disasm lines check load link asm test batch; do
        lacks=$(lacking | while IFS='|' read -r options subcommands why; do
            # shellcheck disable=SC2086
            ! is_among "$option" $options || ! is_among $subcommand $subcommands || echo "$why"
        done)
        if [ -n "$lacks" ]; then
            usage "unexpected argument '$option' found" $subcommand "$setting" "$file"
            continue
        fi
        # (of an object nothing but its own maps, of a listing none is linked; the context is of what runs)
        runs=''
        ! is_among $subcommand $running || runs=$context
        made is_obeyed $subcommand
        made is_refused $subcommand
    done
done < table
BPFDB_LINUX=''

# Each option of each subcommand's help is one of these, and each that stands here for a subcommand is in its help (an older name isn't).
for subcommand in $running disasm lines check load link asm test batch; do
    "$program" $subcommand --help | sed -n 's/^ *\(-m\), --mem .*/\1/p; s/^ *\(-[a-z], \)\{0,1\}\(--[a-z][a-z-]*\).*/\2/p' | grep -v -x -e --mem > found/options
    while read -r option; do
        count=$((count + 1))
        # shellcheck disable=SC2086
        is_among "$option" $others || cut -d '|' -f 1 table | grep -q -x -e "$option" || complain "$subcommand $option stands in no table of options.sh"
    done < found/options
    for option in $(cut -d '|' -f 1 table); do
        count=$((count + 1))
        lacks=$(lacking | while IFS='|' read -r options subcommands why; do
            # shellcheck disable=SC2086
            ! is_among "$option" $options || ! is_among $subcommand $subcommands || echo "$why"
        done)
        [ "$option" = --stub ] || [ -n "$lacks" ] || grep -q -x -e "$option" found/options || complain "$subcommand has no $option"
    done
done
