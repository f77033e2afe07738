# A real gdb over `bpfdb gdb`: sessions, held against transcripts, where there is a gdb of version 13 or later, and python3 for bpfdb-symbols.
#
# A transcript is a session as a terminal shows it, without its empty lines: what is typed stands behind '(gdb) ', the answer in the lines
# that follow. The transcripts stand in tests/program/gdb/, and docs/GDB.md has one. In those of the interface for editors, which ends each
# answer by a line '(gdb)', what is typed stands behind '> '.

# transcript GDB FILE: what is typed in a transcript is answered by the lines that stand there.
transcript() {
    sed '/^$/d' "$2" > wanted/lines
    # (each command is told by `echo` before it is obeyed)
    awk '
        !/^\(gdb\) / { next }
        { typed = substr($0, 7); told = typed; gsub(/\\/, "\\\\", told) }
        { printf "echo (gdb) %s\\n\n%s\n", told, typed }
    ' "$2" | installed > typed
    talk "$1" -ex 'set prompt' -ex 'set width 0' -ex 'set confirm off' -ex "set substitute-path /usr/local/share/bpfdb $top/share"
    hold "$1: $2"
}

# editor GDB FILE: the same of the interface for editors. The folders of files are left out of its answers.
editor() {
    grep -v '^> ' "$2" > wanted/lines
    sed -n 's/^> //p' "$2" | installed > typed
    talk "$1" --interpreter=mi
    sed -i 's|fullname="[^"]*/|fullname="|g; /^&"source /d' found/lines
    hold "$1, as an editor: $2"
}

# installed: what comes in, with the folder of this repository for that of bpfdb-gdb.py where it is installed.
installed() {
    sed "/^source /s|/usr/local/share/bpfdb/|$top/share/|"
}

# talk GDB OPTION..: gdb on what is typed. It finds the program as bpfdb, and the folder for temporary files has a blank in its name.
talk() {
    gdb=$1
    shift
    HOME=$PWD TMPDIR="$PWD/a b" PATH=$PWD/bin:$PATH LC_ALL=C DEBUGINFOD_URLS='' timeout 120 "$gdb" -nx -q "$@" < typed 2>&1 | sed 's/ *$//; /^$/d' > found/lines
}

# hold NAME: holds the lines found against those that are wanted.
hold() {
    count=$((count + 1))
    cmp -s wanted/lines found/lines && return
    complain "$1"
    echo "  ('<' wanted, '>' found):"
    diff -a wanted/lines found/lines
}

# serves GDB WHAT: whether there is such a gdb, and of version 13 or later; without it WHAT is left out.
serves() {
    "$1" -nx -batch -ex 'python import gdb.disassembler' > /dev/null 2>&1 && return
    left_out "$2" "there is no $1 of version 13 or later"
    return 1
}

# compiled NAME [OPTION..]: makes the object of a file of C for sessions.
compiled() {
    name=$1
    shift
    cp "$sessions/$name.c" .
    clang -g "$@" -O1 -fstack-size-section -target bpf -c "$name.c"
}

# of_parts OPTION: a session over an object with more sections and functions than a program has, compiled with this option.
of_parts() {
    compiled parts "$1"
    "$program" link --section taken --entry second parts.o > parts.bin 2> found/err
    BPFDB=$program "$top/share/bpfdb-symbols" --section taken --entry second parts.o parts.sym
    transcript gdb "$sessions/parts.txt"
}

# of_producer NAME WANTED OPTION: of an object that has this producer gdb is told that one.
of_producer() {
    clang -g "$3" -O1 -fstack-size-section -target bpf -c overrun.c -o produced.o
    python3 "$top/tests/trials/objects.py" produced produced.o produced.o "$1"
    BPFDB=$program "$top/share/bpfdb-symbols" produced.o produced.sym
    gdb -nx -batch -ex 'python print(gdb.lookup_global_symbol("entry").symtab.producer)' produced.sym > found/lines 2>&1
    echo "$2" > wanted/lines
    hold "gdb: the producer '$1' with $3"
}

# window LAYOUT: gdb's window of instructions, at a terminal, has those of BPF before the first step, and going back works there.
window() {
    count=$((count + 1))
    printf 'source %s\nbpf-load overrun.o -m context.bin\nlayout %s\ncontinue\nreverse-stepi 2\nprint $moves\nkill\nquit\n' "$top/share/bpfdb-gdb.py" "$1" > typed
    PATH=$PWD/bin:$PATH LC_ALL=C TERM=xterm DEBUGINFOD_URLS='' timeout 60 python3 -c 'import pty, sys; pty.spawn(sys.argv[1:])' \
        gdb -nx -q -ex 'set confirm off' -ex 'set style enabled off' < typed > found/window 2>&1
    grep -aq 'ldxdw r1, \[r1+8\]' found/window || complain "layout $1 shows other instructions"
    grep -aq '\$1 = 103' found/window || complain "layout $1: two steps back of 105 aren't taken"
}

# story NUMBER PAGE: the session of this number that a page shows in gdb, with an end.
story() {
    awk -v wanted="$1" '
        /^```/ { if (count == wanted && inside) exit; inside = 0; getline; if (/^\(gdb\) /) { inside = 1; count++ } }
        inside && count == wanted
    ' "$top/docs/$2"
    printf '(gdb) kill\n[Inferior 1 (Remote target) killed]\n'
}

if has python3 'sessions in gdb'; then
    mkdir bin
    ln -s "$program" bin/bpfdb
    mkdir 'a b'
    printf 'loop: add r0, 1\njlt r0, 3, loop\nstxdw [r10-8], r0\nexit\n' > count.s
    printf 'mov r1, 1\nldxdw r0, [r1+0]\nexit\n' > access.s
    printf 'callf f\nexit\nf: callf f\nexit\n' > deep.s
    printf 'loop: add r0, 1\nja loop\n' > loop.s
    object calls
    "$program" link calls.o > calls.bin
    BPFDB=$program "$top/share/bpfdb-symbols" calls.o calls.sym
    cp "$top/examples/overrun/overrun.c" "$top/examples/overrun/context.bin" .
    bytes overrun.o $(sed 's/../& /g' "$top/examples/overrun/object.hex")
    "$program" link overrun.o > overrun.bin
    same 'examples/overrun/program.bin is linked from its object' "$top/examples/overrun/program.bin" overrun.bin
    BPFDB=$program "$top/share/bpfdb-symbols" overrun.o overrun.sym
    BPFDB=$program "$top/share/bpfdb-symbols" --registers riscv overrun.o overrun.riscv
    for number in 1 2 3; do
        story $number GDB.md > story$number.txt
        [ "$(wc -l < story$number.txt)" -gt 2 ] || complain "docs/GDB.md shows no session $number"
    done
    story 1 XDP.md > firewall.txt
    [ "$(wc -l < firewall.txt)" -gt 2 ] || complain 'docs/XDP.md shows no session'
    bytes firewall.o $(sed 's/../& /g' "$top/examples/firewall/object.hex")
    "$program" link firewall.o > firewall.bin 2> told
    same 'examples/firewall/program.bin is linked from its object' "$top/examples/firewall/program.bin" firewall.bin

    # Names that gdb takes apart at blanks and quotes.
    cp overrun.o 'a b/over run.o'
    cp overrun.o "it's one.o"
    cp context.bin 'a b/con text.bin'
    cp "$parts/gdb/sum.s" 'a b/my sum.s'

    sessions=$parts/gdb
    if serves gdb 'sessions in gdb'; then
        for name in steps stops ends edits faults calls commands limits source sections traps bare load names habits origin whynot windows own; do
            transcript gdb "$sessions/$name.txt"
        done
        transcript gdb story1.txt
        window asm
        window split

        # Listings: the program's functions are what it calls.
        cp "$sessions/sum.s" .
        printf 'exit\nmove r0, 1\n' > bad.s
        printf '\001\002\003' > three.bin
        transcript gdb "$sessions/listing.txt"
        cp "$top/examples/fault/program.s" "$top/examples/fault/context.bin" .
        transcript gdb story2.txt
        cp "$top/examples/firewall/firewall.c" "$top/examples/firewall/context.bin" .
        transcript gdb firewall.txt
        transcript gdb story3.txt
        cp "$top/examples/overrun/context.bin" .

        # Where the commands end at a fault, without `kill` or `detach`, gdb ends bpfdb.
        printf 'target remote | bpfdb gdb --listing access.s; echo "$?" > ended\ncontinue\n' > typed
        talk gdb
        for _ in 1 2 3 4 5 6 7 8 9 10; do [ -s ended ] || sleep 0.5; done
        echo 0 > wanted/ended
        same 'the end of commands at a fault' wanted/ended ended
        if has_clang 'maps and odd names in gdb'; then
            for name in flows sized data odd; do compiled $name; done
            transcript gdb "$sessions/maps.txt"
            transcript gdb "$sessions/odd.txt"
            cp "$parts/c/local.c" .
            clang -g -O0 -fstack-size-section -mcpu=v3 -I "$parts/c" -target bpf -c local.c -o unoptimized.o
            transcript gdb "$sessions/unoptimized.txt"
            # (code of -O2, and a function of it whose variables stay in memory)
            clang -g -O2 -fstack-size-section -target bpf -c overrun.c -o optimized.o
            sed 's/((noinline)) void copy/((noinline, optnone)) void copy/' overrun.c > kept.c
            clang -g -O2 -fstack-size-section -target bpf -c kept.c
            transcript gdb "$sessions/optimized.txt"
            # (a program that takes the kernel's struct of a packet, which has 13 bytes)
            cp "$sessions/taken.c" .
            clang -g -O1 -fstack-size-section -target bpf -c taken.c
            transcript gdb "$sessions/taken.txt"
            # (one with a hash, as the kernel loads it, to which functions are joined that answer its helpers)
            limiter
            # (and one that has lines by BTF alone)
            clang -g -O1 -fdebug-prefix-map="$PWD"=. -target bpf -c limit.c -o named.o
            LC_ALL=C sed 's/\.debug_/.other_/g' named.o > bare.o
            transcript gdb "$sessions/limit.txt"
            # (programs in turn, of several sections)
            compiled turns
            transcript gdb "$sessions/turns.txt"
            cp "$sessions/verdict.c" .
            clang -g -O2 -target bpf -c verdict.c
            printf '\7\2' > kind
            transcript gdb "$sessions/verdict.txt"
            for version in -gdwarf-4 -gdwarf-5; do
                of_producer 'Deb clang version 9' 'clang version 9' $version
                for name in 'clang version 9 b' 'No a clang version 9' 'D-b clang version 9'; do of_producer "$name" "$name" $version; done
            done
            of_parts -gdwarf-4
            of_parts -gdwarf-5
        fi
        editor gdb "$sessions/editor.txt"
    fi
    if serves gdb-multiarch 'sessions in gdb for RISC-V'; then
        transcript gdb-multiarch "$sessions/riscv.txt"
    fi
fi
