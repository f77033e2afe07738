# bpfdb-symbols: which objects it takes, and which it refuses by name. The objects stand in tests/program/objects and examples/overrun.
# What gdb makes of its files is for `gdb`. Large and damaged objects are those of tests/trials/objects.py.

# convert ARGUMENT..: runs bpfdb-symbols. What is found: its status, output and standard error.
convert() {
    "$top/share/bpfdb-symbols" "$@" > found/out 2> found/err
    echo $? > found/status
}

# converted ARGUMENT..: the object is taken.
converted() {
    convert "$@"
    check "bpfdb-symbols $*" 0 '' ''
}

# refused_object TEXT OBJECT [OPTION..]: the object is refused by this text, and no file is written.
refused_object() {
    text=$1 input=$2
    shift 2
    convert "$@" "$input" none.sym
    check "bpfdb-symbols $* $input" 2 '' "bpfdb-symbols: $input: $text\n"
    [ ! -e none.sym ] || complain "bpfdb-symbols $* $input writes a file"
}

# changed NAME OFFSET BYTE: the object calls.o with another byte at a place, which is in octal digits.
changed() {
    { head -c "$2" calls.o; printf '%b' "\\0$3"; tail -c +$(($2 + 2)) calls.o; } > "$1.o"
}

# field FILE OFFSET: the number of eight bytes at a place.
field() {
    od -An -tu8 -j "$2" -N 8 "$1" | tr -d ' '
}

# holds FILE SECTION..: the file of symbols has these sections, each with its address, and the tables of names behind them.
holds() {
    file=$1
    shift
    printf '%s\n' '0 ' "$@" '0 .symtab' '0 .strtab' '0 .shstrtab' > wanted/sections
    python3 "$objects" sections "$file" > found/sections
    same "the sections of $file" wanted/sections found/sections
}

# large KIND COUNT: the object that grows with a count is taken in 200 MB and 3 seconds of the processor.
large() {
    python3 "$objects" "$1" "$2" large.o
    (
        ulimit -v 200000
        ulimit -t 3
        convert large.o large.sym
    )
    check "bpfdb-symbols: an object with many $1" 0 '' ''
}

objects=$top/tests/trials/objects.py
export BPFDB=$program
if has python3 'bpfdb-symbols'; then
    for name in calls two text data programs; do
        object $name
    done
    bytes overrun.o $(sed 's/../& /g' "$top/examples/overrun/object.hex")

    refused_object 'No such file or directory' nothing.o
    refused_object 'refused E1: no ELF file' "$top/README.md"
    PYTHONOPTIMIZE=2 "$top/share/bpfdb-symbols" overrun.o without > found/out 2> found/err
    echo $? > found/status
    check 'bpfdb-symbols: a Python without texts of documentation' 0 '' ''
    "$top/share/bpfdb-symbols" "$(printf 'no\033]0;T\007\342\200\256')" without > found/out 2> found/err
    echo $? > found/status
    check 'bpfdb-symbols: a name that a terminal would obey' 2 '' 'bpfdb-symbols: no\\x1b]0;T\\x07\\xe2\\x80\\xae: No such file or directory\n'
    cp overrun.o kept.o
    "$top/share/bpfdb-symbols" kept.o ./kept.o > found/out 2> found/err
    echo $? > found/status
    check 'bpfdb-symbols: its own object' 2 '' 'bpfdb-symbols: kept.o: it is read, and would be lost\n'
    same 'bpfdb-symbols leaves its object' overrun.o kept.o
    if [ -c /dev/full ]; then
        "$top/share/bpfdb-symbols" overrun.o /dev/full > found/out 2> found/err
        echo $? > found/status
        check 'bpfdb-symbols: a full output' 2 '' 'bpfdb-symbols: /dev/full: No space left on device\n'
    fi
    : > empty.o
    refused_object 'refused E1: no ELF file' empty.o
    head -c 63 calls.o > cut.o
    refused_object 'refused E1: no ELF file' cut.o
    changed narrow 4 001
    refused_object 'refused E2: not of 64 bits' narrow.o
    changed big 5 002
    refused_object 'refused E3: not little-endian' big.o
    changed linked 16 002
    refused_object 'refused E4: no relocatable object' linked.o
    changed other 18 076
    refused_object 'refused E5: not for BPF' other.o
    changed table 58 077
    refused_object 'refused E6: malformed section table' table.o
    refused_object 'refused E9: more than one code section: --entry NAME chooses one: first, second' two.o
    refused_object 'refused E8: no such code section: a, b' two.o --section c
    length=$(wc -c < overrun.o)
    for size in 64 1000 $((length / 2)) $((length - 1)); do
        head -c "$size" overrun.o > cut.o
        refused_object 'refused E6: malformed section table' cut.o
    done
    convert overrun.o /nothing/overrun.sym
    check 'bpfdb-symbols into no folder' 2 '' 'bpfdb-symbols: /nothing/overrun.sym: No such file or directory\n'
    convert --registers bpf overrun.o none.sym
    grep -q "invalid choice: 'bpf'" found/err || complain 'bpfdb-symbols --registers bpf'

    # What isn't its own goes to `link`, which refuses what it doesn't take; and there are two files.
    for words in '--frob' '--steps 5' '--section' 'other'; do
        # shellcheck disable=SC2086
        "$program" link overrun.o $words < /dev/null > /dev/null 2> wanted/err
        grep -q '^error: ' wanted/err || complain "tests/program/symbols.sh: bpfdb takes $words"
        # shellcheck disable=SC2086
        convert overrun.o none.sym $words
        check "bpfdb-symbols $words" 2 '' "$(text wanted/err)"
    done
    convert overrun.o
    check 'bpfdb-symbols of one file' 2 '' 'bpfdb-symbols: OBJECT and OUTPUT are wanted\n'

    # What is damaged is refused by a line.
    python3 "$objects" damaged "$top/share/bpfdb-symbols" overrun.o > found/damaged
    : > wanted/damaged
    same 'what bpfdb-symbols says of damaged objects' wanted/damaged found/damaged

    # Memory and time grow as an object does: with names, which `link` takes in any length, with maps, and with data, of which `link` takes few.
    large maps 16000
    large names 5000
    "$program" link large.o > large.bin 2> found/err || complain 'bpfdb link: an object with many names'
    python3 "$objects" data 8000 large.o
    refused_object 'refused E15: more than 16 maps' large.o

    # A program (2) for x86-64 (62), or for RISC-V of 64 bits (243).
    cp overrun.o before
    converted overrun.o overrun.sym
    same 'bpfdb-symbols leaves the object' before overrun.o
    [ "$(field overrun.sym 16)" = $((2 + 65536 * 62 + 4294967296)) ] || complain 'bpfdb-symbols: a program for x86-64'
    converted --registers riscv overrun.o overrun.sym
    [ "$(field overrun.sym 16)" = $((2 + 65536 * 243 + 4294967296)) ] || complain 'bpfdb-symbols: a program for RISC-V'
    converted --section b two.o two.sym
    converted --section .text calls.o calls.sym
    converted calls.o calls.sym

    # The file has what is in the program of that entry, what `link` puts before and behind its code, and the entry's address. (Slot 5 of data.o's
    # program is where its slot 0 leads, and slot 8 of that of programs.o is the first of the second function.)
    holds calls.sym '20 .text' '0 prog'
    holds two.sym '0 b'
    converted data.o data.sym
    holds data.sym '8 prog' '300000000 .data' '0 _start' '28 _setup'
    [ "$(field data.sym 24)" = 8 ] || complain 'bpfdb-symbols data.o: the entry'
    converted --entry second --helper 5=0 programs.o programs.sym
    holds programs.sym '8 prog' '0 _start'
    [ "$(field programs.sym 24)" = 64 ] || complain 'bpfdb-symbols --entry second programs.o: the entry'
    [ "$(field calls.sym 24)" = 0 ] || complain 'bpfdb-symbols calls.o: the entry'
    converted overrun.o overrun.sym
    holds overrun.sym '68 .text' '0 filter' '0 .debug_loclists' '0 .debug_abbrev' '0 .debug_info' '0 .debug_rnglists' \
        '0 .debug_str_offsets' '0 .debug_str' '0 .debug_addr' '0 .debug_line' '0 .debug_line_str'

    # Of a listing: what bpfdb refuses is refused, and the file begins with its header of 64 bytes and the program's words. Without the program
    # nothing is known of a listing, or of an object.
    cp "$parts/gdb/sum.s" .
    printf 'exit\nmove r0, 1\n' > bad.s
    : > empty.s
    refused_object 'cannot read nothing.s' nothing.s --listing
    refused_object 'refused A1 at line 2: unknown mnemonic' bad.s --listing
    refused_object 'refused A6 at line 1: byte outside ASCII text' calls.o --listing
    for registers in x86 riscv; do
        converted --listing --registers $registers sum.s $registers.sym
        "$program" asm sum.s > words
        tail -c +65 $registers.sym | head -c "$(wc -c < words)" > begun
        same "bpfdb-symbols --listing --registers $registers has the words" words begun
    done
    [ "$(field x86.sym 16)" = $((2 + 65536 * 62 + 4294967296)) ] || complain 'bpfdb-symbols --listing: a program for x86-64'
    [ "$(field riscv.sym 16)" = $((2 + 65536 * 243 + 4294967296)) ] || complain 'bpfdb-symbols --listing: a program for RISC-V'
    converted --listing empty.s empty.sym
    PATH=/usr/bin:/bin BPFDB= convert --listing sum.s none.sym
    check 'bpfdb-symbols without bpfdb' 2 '' 'bpfdb-symbols: there is no program bpfdb\n'

    # The object that the clang which is here makes of the same C, where it knows BPF, has the same fault.
    if has_clang 'bpfdb-symbols of objects that are compiled here'; then
        clang -g -O1 -fstack-size-section -target bpf -c -o compiled.o "$top/examples/overrun/overrun.c"
        converted compiled.o compiled.sym
        "$program" link compiled.o > compiled.bin
        "$program" run -m "$top/examples/overrun/context.bin" compiled.bin 2>&1 | grep -q '^fault access 0x10077656d at ' ||
            complain 'examples/overrun/overrun.c, compiled here, has another fault'

        # Variables in the stack lie elsewhere than clang says. Without the sizes of stacks that is said, and where there is none nothing is.
        clang -g -O1 -target bpf -c -o sizeless.o "$top/examples/overrun/overrun.c"
        convert sizeless.o sizeless.sym
        check 'bpfdb-symbols sizeless.o' 0 '' 'bpfdb-symbols: sizeless.o: variables in the stack will be shown wrong: compile with -fstack-size-section\n'
        printf '__attribute__((section("prog"))) int entry(int *p) { return *p + 3; }\n' > stackless.c
        clang -g -O1 -target bpf -c -o stackless.o stackless.c
        converted stackless.o stackless.sym

        # Of a place in a list that is said, too.
        printf 'static void *(*f)(void *) = (void *)1; __attribute__((section("prog"))) void *entry(void) { int n = 3; return f(&n); }\n' > listed.c
        clang -g -O1 -target bpf -c -o listed.o listed.c
        convert listed.o listed.sym
        check 'bpfdb-symbols listed.o' 0 '' 'bpfdb-symbols: listed.o: variables in the stack will be shown wrong: compile with -fstack-size-section\n'
        clang -g -gz -O1 -target bpf -c -o packed.o stackless.c
        refused_object 'compressed debug information: compile with -gz=none' packed.o

        # Two names of one map are one map, and the map behind it has the number 1: what is linked tells it, and the first map of data has the number 2.
        cat > aliases.c <<'C'
struct map { unsigned type, key_size, value_size, max_entries, flags; };
struct map first __attribute__((section("maps"))) = { 2, 4, 8, 3 }, last __attribute__((section("maps"))) = { 2, 4, 8, 3 };
extern struct map again __attribute__((alias("first")));
static long data = 5;
__attribute__((section("prog"))) long entry(void) { data++; return (long)&last + (long)&first; }
C
        clang -O1 -target bpf -c -o aliases.o aliases.c
        converted aliases.o aliases.sym
        holds aliases.sym '8 prog' '400000000 maps' '300200000 .data' '0 _start' '60 _setup'

        # Maps and data have the numbers that they have in the program: those to which another one refers have none.
        cat > apart.c <<'C'
struct map { unsigned type, key_size, value_size, max_entries, flags; };
struct map other __attribute__((section("maps"))) = { 2, 4, 8, 3 }, own __attribute__((section("maps"))) = { 2, 4, 8, 3 };
static volatile long data __attribute__((section(".data.other"))) = 5, mine __attribute__((section(".data.own"))) = 6;
__attribute__((section("prog"))) long entry(void) { mine++; return (long)&own; }
__attribute__((section("prog/other"))) long second(void) { data++; return (long)&other; }
C
        clang -g -O1 -target bpf -c -o apart.o apart.c
        refused_object 'refused E9: more than one code section: --entry NAME chooses one: entry, second' apart.o
        converted --section prog apart.o apart.sym
        python3 "$objects" sections apart.sym | grep -v ' .debug' > found/sections
        printf '%s\n' '0 ' '8 prog' '400000000 maps' '300100000 .data.own' '0 _start' '48 _setup' '0 .symtab' '0 .strtab' '0 .shstrtab' > wanted/sections
        same 'the sections of apart.sym' wanted/sections found/sections
        # (without its name the section is the one in which the entry lies)
        converted --section prog/other --entry second apart.o named.sym
        converted --entry second apart.o apart.sym
        python3 "$objects" sections apart.sym | grep ' prog' > found/sections
        echo '8 prog/other' > wanted/sections
        same 'the section of an entry' wanted/sections found/sections
        cmp -s apart.sym named.sym || complain 'an entry has other symbols with its section than without'
        count=$((count + 1))

        # What the link asks for is said to it: helpers that a constant answers, and entries of maps.
        printf 'static long (*f)(void) = (void *)14; __attribute__((section("prog"))) long entry(void) { return f(); }\n' > stubbed.c
        clang -O1 -target bpf -c -o stubbed.o stubbed.c
        refused_object 'refused E25 at slot 0: unknown helper 14 (bpf_get_current_pid_tgid): --with OBJECT or --helper 14=VALUE answers it: prog, slot 0' stubbed.o
        converted --helper 14=3 stubbed.o stubbed.sym
        clang -g -O1 -fstack-size-section -target bpf -c -o sized.o "$parts/counts/sized.c" 2> found/err
        refused_object 'refused E52: entries not 1 to 4096: open' sized.o --section prog/open
        converted --section prog/open --entries open=3 --entries few=1 sized.o sized.sym

        # A program that takes the kernel's struct of a packet stands behind the slots that give it that.
        printf 'struct xdp_md { unsigned data, data_end; };\n__attribute__((section("prog"))) int entry(struct xdp_md *ctx) { return ctx->data_end - ctx->data; }\n' > taken.c
        clang -g -O1 -fstack-size-section -target bpf -c -o taken.o taken.c
        converted --struct xdp taken.o taken.sym
        python3 "$objects" sections taken.sym | grep -v ' .debug' > found/sections
        printf '%s\n' '0 ' '68 prog' '0 _start' '0 .symtab' '0 .strtab' '0 .shstrtab' > wanted/sections
        same 'the sections of taken.sym' wanted/sections found/sections
        od -A n -t x1 -j 24 -N 8 taken.sym > found/begin
        echo ' 68 00 00 00 00 00 00 00' > wanted/begin
        same 'the entry of taken.sym' wanted/begin found/begin

        # What is joined to an object lies behind its code, with functions and lines of its own; the object's functions are found wherever they lie. (The
        # entry of a packet has 13 slots, and of the kernel's struct of tc 26; the library is one function of 2 instructions.)
        cat > mock.c <<'C'
long bpf_ktime_get_ns(void)
{
	return 7;
}
C
        cat > timed.c <<'C'
struct __sk_buff { unsigned len; };
static long (*now)(void) = (void *)5;
static __attribute__((noinline)) long twice(long n) { return n * now(); }
__attribute__((section("prog"))) int entry(struct __sk_buff *ctx) { return twice(ctx->len); }
C
        clang -g -O1 -target bpf -c mock.c
        clang -g -O1 -fstack-size-section -target bpf -c timed.c
        converted --struct tc --with=mock.o timed.o timed.sym
        python3 "$objects" functions timed.sym > found/functions
        { echo '0 _start' && "$program" lines --struct tc --with mock.o timed.o | awk '$3 != told { printf "%x %s\n", 8 * $1, $3 } { told = $3 }'; } > wanted/functions
        same 'the functions of timed.sym' wanted/functions found/functions
        [ "$(field timed.sym 24)" = $((8 * 26)) ] || complain 'bpfdb-symbols timed.o: the entry'

        # gdb obeys scripts and looks for files that sections of some names tell of. So they are left out, and data of such a name have another.
        cat > scripts.c <<'C'
asm(".pushsection .debug_gdb_scripts, \"MS\", @progbits, 1\n.byte 4\n.asciz \"x.py\\nprint(1)\"\n.popsection");
asm(".pushsection .gnu_debuglink\n.asciz \"x.debug\"\n.popsection");
static volatile int data __attribute__((section(".gdb_index"))) = 3;
__attribute__((section("prog"))) int entry(void) { return data; }
C
        clang -O1 -target bpf -c -o scripts.o scripts.c
        converted scripts.o scripts.sym
        holds scripts.sym '8 prog' '300000000 .data' '0 _start' '28 _setup'
    fi
fi
