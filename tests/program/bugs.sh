# The bugs of examples/bugs, as examples/README.md shows them. The five of C alone: each session finds the line of its bug in at most four commands, the first
# of which is bpfdb-shell, and its lines are those that the shell prints at a terminal, but for what it sends, where it stands, and which registers changed.
# The six of XDP and tc: each command prints the lines below it. That the kernel gives the same verdicts is for tests/kernel.sh.

# session FILE: what a terminal shows, without these.
session() {
    sed 's/(bpfdb) //g' "$1" | grep -v -e '^$' -e '^> ' -e "^'help' lists" -e '^--maps ' -e '^map [0-9]*: ' -e '^at 0: ' -e '^[a-z]*\.c:[0-9]* <' -e '^r[0-9]* 0x[0-9a-f]* -> '
}

# bug NAME LINE COMMANDS: the session on this program takes so many commands, and its answers name this line.
bug() {
    count=$((count + 1))
    sed -n "s/^\\\$ bpfdb-shell //p" "sessions/$1" > words
    sed -n 's/^(bpfdb) //p' "sessions/$1" > script
    grep -v -e '^\$ ' -e '^(bpfdb) ' "sessions/$1" > wanted/out
    [ "$(($(wc -l < script) + 1))" -eq "$3" ] && [ "$3" -le 4 ] || complain "examples/README.md: $1.c takes other than $3 commands"
    grep -q -F "($1.c:$2)" wanted/out || complain "examples/README.md: the session of $1.c doesn't name line $2"
    # (words without blanks)
    # shellcheck disable=SC2046
    HOME=$PWD NO_COLOR=1 BPFDB=$program ./terminal script "$top/share/bpfdb-shell" $(cat words) > found/all 2>&1
    session found/all > found/out
    same "examples/README.md: the session of $1.c" wanted/out found/out
}

# five_bugs: those of the section '## bugs'.
five_bugs() {
    compile terminal
    cp "$top"/examples/bugs/* .
    mkdir sessions
    awk '
        /^## / { inside = $0 == "## bugs" }
        /^```/ { block = !block; name = ""; next }
        inside && block && /^\$ clang / { print substr($0, 3) > "compile" }
        inside && block && /^\$ bpfdb-shell / { name = $NF; sub(/\.o$/, "", name) }
        inside && block && name != "" { print > ("sessions/" name) }
    ' "$top/examples/README.md"
    sh compile > found/err 2>&1 || complain "examples/README.md: $(cat compile): $(cat found/err)"
    bug service 21 3
    bug limits 29 4
    bug payload 14 3
    bug oversize 18 3
    bug classes 22 3
    [ "$(ls sessions | wc -l)" -eq 5 ] || complain 'examples/README.md shows other than five bugs'
}

# verdict_of NAME: what a run of the object of this name prints on the page.
verdict_of() {
    grep -l "^bpfdb run .* $1\.o\$" shown/command-* | sed 's/command-/text-/' | xargs cat
}

# way NAME LINE COMMANDS: it takes so many commands from the wrong verdict of this program to the line, which is then mended, and the verdict is another.
way() {
    count=$((count + 1))
    [ "$(grep -l -e "-m $1\.packet .*$1\.o" shown/command-* | wc -l)" -eq "$3" ] || complain "examples/README.md: $1.c takes other than $3 commands"
    grep -q "^sed '$2s/.*' $1\.c | " shown/command-* || complain "examples/README.md: no mend of line $2 of $1.c"
    verdict_of "$1" > wrong
    verdict_of "$1-mended" > right
    [ "$(cat wrong right | grep -c -x '0x[0-9a-f]* [A-Z_]*')" -eq 2 ] && ! cmp -s wrong right || complain "examples/README.md: the verdicts of $1.c"
}

# right NAME VERDICT LINE..: why the program did not answer the right verdict, by its name, without where it stands.
right() {
    count=$((count + 1))
    (cd typed && BPFDB_LINUX=../bpfdb-linux.o "$program" whynot --alone -m "$1.packet" "$1.o" "$2") 2> found/err | tail -n +2 > found/out
    [ "$(cat found/out)" = "$3${4:+$(printf '\n%s' "$4")}" ] || complain "whynot $2 of $1.c: $(cat found/out found/err)"
}

# six_bugs: those of the section '## bugs of XDP and tc', whose commands are typed in order in one folder.
six_bugs() {
    mkdir bin typed
    ln -s "$program" bin/bpfdb
    ln -s "$top/share/bpfdb-context" bin
    cp "$top"/examples/bugs/* typed
    clang -target bpf -mcpu=v3 -O2 -g -c "$top/share/bpfdb-linux.c" -o bpfdb-linux.o 2> found/err || complain "share/bpfdb-linux.c: $(cat found/err)"
    commands_of examples/README.md 'bugs of XDP and tc' shown
    for command in $(seq "$(ls shown/command-* | wc -l)"); do
        (cd typed && PATH=$PWD/../bin:$PATH BPFDB_LINUX=../bpfdb-linux.o && export BPFDB_LINUX && unset BPFDB && sh "../shown/command-$command") > found/out 2>&1
        same "examples/README.md: $(cat "shown/command-$command")" "shown/text-$command" found/out
    done
    way tunnel 34 3
    way relay 35 2
    way precedence 23 2
    way stations 33 4
    way offers 19 2
    way router 14 3
    right relay TC_ACT_OK 'made: -32 r0 = 0x0; 26: mov r0, 0; in relay (relay.c:24)' \
        '-6 52: jne r1, 167772165, L54; r1 = 0x500000a; jumped to 54; in relay (relay.c:35)'
    right precedence TC_ACT_SHOT '-5 49: jge r3, r1, L60; r3 = 0x5dc; r1 = 0x50; jumped to 60; in precedence (precedence.c:46)'
    right stations XDP_PASS '-6 49: jeq r0, 0, L53; r0 = 0x0; jumped to 53; in admit (stations.c:62)'
    right offers XDP_DROP '-5 34: jne r4, 8, L51; r4 = 0xa888; jumped to 51; in offers (offers.c:50)'
    # (each instruction that makes the value ran, and another one came in its place)
    right tunnel XDP_DROP 'made: -7 r0 = 0x1; 41: mov r0, 1; in tunnel (tunnel.c:37)' \
        'overwritten: -6 42: jeq r1, 2314, L44; r1 = 0x33c6; went on'
    right router TC_ACT_OK 'made: -75 r6 at depth 1 = 0x0; 27: mov r6, 0; in guard (router.c:35)' \
        'overwritten: -8 56: jne r1, 33022, L63; r1 = 0x0; jumped to 63; in guard (router.c:30)'
}

if has_clang_14 'the bugs of examples/bugs' && has python3 'the bugs of examples/bugs'; then
    five_bugs
    if has_headers 'the bugs of XDP and tc'; then six_bugs; fi
fi
