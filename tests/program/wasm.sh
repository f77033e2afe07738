# bpfdb as WebAssembly: the parts below it, each by itself, and where `make wasm` has made it (or BPFDB_WASM names the folder that has it) the module: rows of other parts
# through node, calls from JavaScript, standard input as it comes, and the page in a browser. WASM_PARTS names the parts whose rows are played.

rows=${WASM_PARTS:-session results usage}
wasm=${BPFDB_WASM:-$top/out/wasm}

# total FILE: adds the trials that a script of tests/trials told, and tells what failed.
total() {
    grep -a -v '^[0-9]* trials, [0-9]* failed$' "$1"
    tail -n 1 "$1" | grep -q '^[0-9]* trials, [0-9]* failed$' || complain "$1 came to no end"
    count=$((count + $(sed -n 's/^\([0-9]*\) trials, .*/\1/p' "$1" | awk '{ sum += $1 } END { print sum + 0 }')))
    failures=$((failures + $(grep -a -c '^FAILED: ' "$1")))
}

# The heap, the arithmetic and the rewriting for pointers of 32 bits.
parts_alone() {
    kit=$(dirname "$(rt doc)")
    here=$top/share/wasm
    (
        work=$PWD/parts
        mkdir parts && . "$here/tools.sh" && rewritten "$parts/wasm/pointers.ll" parts/pointers.ll && compiled -O2 -x ir parts/pointers.ll &&
            compiled_parts && linked parts.wasm --export-all
    ) > made 2>&1 || { complain 'the parts of share/wasm are not compiled'; cat made; }
    node "$top/tests/trials/wasm-parts.mjs" "$PWD/parts.wasm" > told-parts 2>&1
    total told-parts
    # What isn't known stops the rewriting with its line.
    while read -r line; do
        printf 'define void @f(ptr %%a0) {\n  %s\n}\n' "$line" > unknown.ll
        python3 "$here/rewrite.py" unknown.ll rewritten.ll layout triple > found/out 2> found/err
        echo $? > found/status
        printf '%s\n' "unknown.ll:2: what this means with pointers of 32 bits is not known:   $line" > wanted/err
        echo 1 > wanted/status
        : > wanted/out
        compare "rewrite.py: $line"
    done <<'LINES'
store <2 x ptr> %r1, ptr %a0, align 16
store { i8, { ptr, i8 } } %r1, ptr %a0, align 8
%r1 = load { i8, [2 x ptr] }, ptr %a0, align 8
%r1 = load volatile ptr, ptr %a0, align 8
%r1 = cmpxchg ptr %a0, ptr %r2, ptr %r3 acq_rel monotonic
%r1 = atomicrmw add ptr %a0, i64 1 seq_cst
call void @g(ptr byval(i64) %a0)
%r1 = call i64 asm "nop", "=r"()
%r1 = addrspacecast ptr %a0 to ptr addrspace(1)
%r1 = load ptr, ptr addrspace(1) %a0, align 8
%r1 = va_arg ptr %a0, ptr
LINES
}

# serve: one process of node answers for all rows: a program in the place of bpfdb asks it.
serve() {
    mkdir asked && mkfifo asked/asked || exit 1
    compile asks
    mv asks bpfdb
    node "$top/tests/trials/wasm.mjs" "$wasm/bpfdb.mjs" "$PWD/asked" > served 2>&1 &
    started=$!
}

# rows_of PART: the rows of a part of these tests, with bpfdb in node.
rows_of() {
    BPFDB=$PWD/bpfdb sh "$top/tests/program.sh" "$1" > "told-$1" 2>&1
    grep -a -v -E '^(left out: |tests of the program: )' "told-$1"
    set -- "$1" $(sed -n 's/^tests of the program: \([0-9]*\), of which \([0-9]*\) failed$/\1 \2/p' "told-$1")
    [ $# -eq 3 ] || { complain "$1 through node came to no end"; return; }
    count=$((count + $2))
    failures=$((failures + $3))
}

# as_command: what is the command's own: a process of node for each.
as_command() {
    printf 'mov r0, 2\nexit\n' > two.s
    : > script
    program_before=$program
    printf '#!/bin/sh\nexec node "%s" "$@"\n' "$wasm/bpfdb.mjs" > by-node
    chmod +x by-node
    program=$PWD/by-node
    session "README's session through node" "$(text "$top/tests/session/script")" "$(text "$top/tests/session/replies")" \
        debug -m "$top/examples/overrun/context.bin" "$top/examples/overrun/program.bin"
    row 'a status' 2 '' '' 'cannot read none\n' run none
    row 'a folder' 2 '' '' 'cannot read .\n' run .
    for memory in 3 2049 64k ''; do
        BPFDB_MEMORY=$memory run --version
        check "BPFDB_MEMORY=$memory" 2 '' 'BPFDB_MEMORY is not a number of MiB from 4 to 2048\n'
    done
    BPFDB_MEMORY=5 run origin --journal 16777216 --listing two.s
    check 'little memory' 2 '' 'refused J2: out of memory\n'
    if [ -c /dev/full ]; then
        "$program" run --listing two.s > /dev/full 2> found/err
        echo $? > found/status
        : > found/out
        check 'output that is full' 2 '' 'cannot write output\n'
    fi
    # What several write to one file stands there in turn, on both streams.
    { "$program" run --listing two.s; "$program" run none; "$program" run --listing two.s; } < script > found/out 2>&1
    echo $? > found/status
    : > found/err
    check 'several, to one file' 0 '0x2\ncannot read none\n0x2\n' ''
    program=$program_before
}

# as_it_comes: each line of standard input is answered before the next one is there, also where the pipe doesn't wait.
as_it_comes() {
    python3 - node "$wasm/bpfdb.mjs" debug --listing two.s > found/out 2> found/err <<'TALK'
import os
import subprocess
import sys

for waits in (True, False):
    its, mine = os.pipe()
    os.set_blocking(its, waits)
    child = subprocess.Popen(sys.argv[1:], stdin=its, stdout=subprocess.PIPE)
    os.close(its)
    for line in ('stepi', 'reverse-stepi', 'info history'):
        os.write(mine, f'{line}\n'.encode())
        print(child.stdout.readline().decode(), end='', flush=True)
    os.close(mine)
    print(child.wait(), flush=True)
TALK
    echo $? > found/status
    each='1 forward; done; at 1: exit\n1 back; done; at 0: mov r0, 2\n0 moves, 0 commands, 0 of 65536 bytes\n0\n'
    check 'standard input as it comes' 0 "$each$each" ''
}

# built_again: what is made of the program's module once more has the same bytes. (Clang takes over a minute for it.)
built_again() {
    if ! (cd "$top" && wasm_is_new) || [ "$wasm" != "$top/out/wasm" ]; then
        left_out 'bpfdb.wasm, built again' 'its module is not that of these sources'
        return
    fi
    (umask 077 && TZ=Asia/Tokyo sh "$top/share/wasm/build.sh" "$(dirname "$(rt doc)")" "$wasm/module.bc" "$wasm/about" "$(head -n 1 "$wasm/about")" "$PWD/again") > told-again 2>&1 ||
        { complain 'bpfdb.wasm is not built again'; cat told-again; return; }
    for name in wasm mjs html; do
        same "bpfdb.$name, built again" "$wasm/bpfdb.$name" "again/bpfdb.$name"
    done
}

if has node 'bpfdb as WebAssembly' && has python3 'bpfdb as WebAssembly'; then
    parts_alone
    if [ ! -e "$wasm/bpfdb.wasm" ]; then
        left_out 'bpfdb.wasm through node and in a browser' 'make wasm has not made it'
    else
        node "$top/tests/trials/wasm-calls.mjs" "$wasm/bpfdb.mjs" "$top/examples" > told-calls 2>&1
        total told-calls
        as_command
        as_it_comes
        built_again
        serve
        for part in $rows; do
            rows_of "$part"
        done
        echo end > asked/asked
        wait "$started"
        started=''
        if has chromium 'the page of bpfdb as WebAssembly'; then
            BPFDB=$program python3 "$top/tests/trials/wasm-pages.py" "$wasm/bpfdb.html" "$top" > told-page 2>&1
            total told-page
        fi
    fi
fi
