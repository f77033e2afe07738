# bpfdb-dap, by an editor of the tests (dap/client.py), over bpfdb alone and, where there is one, over gdb: README's story and docs/GDB.md's at lines
# of C, steps there and back, breakpoints, edits (dap/stories.py), what no editor should send, and what happens around it (dap/hostile.py), and names
# of an object, of files and in requests that would be commands (dap/hostile_names.py; dap/boundary.py looks for where such could pass). Each
# message is held against the protocol's own declarations, where Debian's package node-vscode-debugprotocol is installed. And Emacs by its dap-mode.

TOP=$top BPFDB=$program
export TOP BPFDB

# play NAME SCRIPT WORD..: begins a script of the editor in Python, beside others.
play() {
    told=found/$1 script=$2
    shift 2
    python3 -B "$parts/dap/$script.py" "$@" > "$told" 2>&1 &
    started="$started $!"
}

# tell_of NAME..: what these scripts told, whose last lines count.
tell_of() {
    for name in "$@"; do
        sed '$d' "found/$name"
        told=$(sed -n '$s/^\([0-9]*\) trials, \([0-9]*\) failed$/\1 \2/p' "found/$name")
        [ -n "$told" ] || { complain "tests/program/dap: $name came to no end"; tail -n 1 "found/$name"; told='0 0'; }
        count=$((count + ${told% *})) failures=$((failures + ${told#* }))
    done
}

if has python3 'bpfdb-dap'; then
    if has node "VS Code's extension"; then
        node "$parts/dap/vscode.js" > found/out 2> found/err
        echo $? > found/status
        check "VS Code's extension" 0 'registered\nasked\nanswered\n' ''
    fi
    python3 -c 'import sys; sys.stdout.buffer.write(bytes.fromhex(sys.stdin.read()))' < "$top/examples/overrun/object.hex" > overrun.o
    cp "$top/examples/overrun/overrun.c" "$top/examples/overrun/context.bin" "$top/examples/fault/program.s" .
    cp "$top/examples/fault/context.bin" fault.bin
    python3 -c 'import sys; sys.stdout.buffer.write(bytes.fromhex(sys.stdin.read()))' < "$top/examples/firewall/object.hex" > firewall.o
    cp "$top/examples/firewall/firewall.c" .
    cp "$top/examples/firewall/context.bin" packet.bin
    cp "$top/examples/firewall/ipv6.bin" .
    printf 'mov r0, 0\nloop: add r0, 1\nja loop\n' > endless.s
    printf 'mov r0, 0\nloop: add r0, 1\njlt r0, 450000, loop\nexit\n' > loop.s
    printf 'mov r0, 0\nloop: add r0, 1\nja loop\nexit\n' > words.s
    printf 'stb [r10-1], 5\nldxh r0, [r10-2]\nexit\n' > stack.s
    "$program" asm words.s > words.bin
    printf 'mov r1, 5\ncall 64\nmov r1, 6\ncall 64\nmov r0, 0\nldmap r1, 0\nldmap r1, 1\nexit\n' > traces.s
    printf 'stepi 2\nquit\nstepi\n' > script
    printf 'mov r0, 0\nja end ; too far\nexit\nend:\n' > far.s
    printf 'frob r0\n' > wrong.s
    if has_clang 'long lines, lines without code, and code of -O0, in bpfdb-dap'; then
        clang -g -O1 -target bpf -c "$parts/c/line.c"
        clang -g -O0 -fstack-size-section -mcpu=v3 -target bpf -c "$parts/c/local.c"
        cp "$parts/gdb/verdict.c" .
        clang -g -O2 -target bpf -c verdict.c
        printf '\7\2' > kind
        limiter
    fi
    [ -f /usr/share/nodejs/@vscode/debugprotocol/lib/debugProtocol.d.ts ] ||
        left_out "the protocol's declarations" 'there is no node-vscode-debugprotocol'
    played='alone hostile boundary'
    play alone stories bpfdb
    play hostile hostile
    play boundary boundary
    if gdb -nx -batch -ex 'python import gdb.disassembler' > /dev/null 2>&1; then
        play gdb stories gdb
        played="$played gdb"
        if has_clang 'names that would steer'; then
            mkdir hostile_names
            (cd hostile_names && exec python3 -B "$parts/dap/hostile_names.py") > found/names 2>&1 &
            started="$started $!" played="$played names"
        fi
    else
        left_out 'bpfdb-dap over gdb' 'there is no gdb of version 13 or later'
    fi
    if ls -d /usr/share/emacs/site-lisp/elpa-src/dap-mode-* > /dev/null 2>&1 && has emacs "Emacs's dap-mode"; then
        HOME=$PWD timeout 100 emacs --batch -Q -l "$parts/dap/emacs.el" 2>&1 |
            grep -E '^(entry|firewall|stepBack|continue|back|begin|next|ok|[0-9]+ (back|moves))[ ,]?' > found/out
        echo 0 > found/status
        : > found/err
        check "Emacs: README's two sessions by bpfdb-dap.el" 0 'entry entry:29
stepBack t
continue size_of:26
back size_of:26
back entry:34
back entry:34
begin entry:29
next entry:31
2 back; done; at 0: mov r2, r1, entry:29
0 moves, 0 commands, 0 of 4194304 bytes, entry:29
firewall firewall:61
continue firewall:54
ok, firewall:54
continue _start:13
19 back; done; at 44: ldxh r1, [r1+22], firewall:54
begin _start:1
' ''
    else
        left_out "Emacs's dap-mode" 'there is no elpa-dap-mode'
    fi
    # (the numbers of processes, and names, are without blanks)
    # shellcheck disable=SC2086
    wait $started
    started=''
    # shellcheck disable=SC2086
    tell_of $played
fi
