# make dist, over a copy of the repository with a commit of its own. It takes the program of this repository, so where BPFDB names another one
# it isn't tested.

# handed_on: what make dist made works where it is unpacked.
handed_on() {
    name=$(cd made && echo bpfdb-*-x86_64-linux.tar.gz)
    name=${name%.tar.gz}
    tar -x -z -f "made/$name.tar.gz"
    BPFDB=$PWD/$name/bin/bpfdb sh "$name/share/doc/bpfdb/examples/suite/test.sh" > found/out 2> found/err
    echo $? > found/status
    check 'make dist: the suite of the archive' 0 '' ''
    "$name/bin/bpfdb" --version > found/out
    { echo "commit $commit"; echo 'gate: 7 passed, 0 failed'; cat found/out; } > wanted/build
    same 'make dist: what was built' wanted/build "$name/share/doc/bpfdb/BUILD"
    # What README at the top says to type works there as it stands.
    if has python3 'the commands of the README of the archive'; then
        sed -n 's/^    //p' "$name/README" > typed
        (HOME=$PWD && cd "$name" && sh ../typed < /dev/null) > found/out 2> found/err
        echo $? > found/status
        check 'make dist: what README of the archive says to type' 0 "$(cd "$top/examples/overrun" && "$program" origin -m context.bin program.bin | sed 's/$/\\n/' | tr -d '\n')" \
            'fault access 0x10077656d at 25\n'
        [ -s run.html ] || complain 'make dist: README of the archive makes no page'
        [ "$(wc -l < typed)" -eq 6 ] || complain 'make dist: README of the archive has other commands'
    fi
    (cd made && sha256sum -c --quiet SHA256SUMS) > found/out 2>&1 || complain 'make dist: SHA256SUMS'
    if has dpkg-deb 'the Debian package'; then
        dpkg-deb -x made/bpfdb_*_amd64.deb deb
        BPFDB=$PWD/deb/usr/bin/bpfdb sh deb/usr/share/doc/bpfdb/examples/suite/test.sh > found/out 2> found/err
        echo $? > found/status
        check 'make dist: the suite of the Debian package' 0 '' ''
        { grep -x -e 'License: Apache-2.0' -e 'Copyright: 2026 the bpfdb authors' deb/usr/share/doc/bpfdb/copyright | sort -u
            dpkg-deb -f made/bpfdb_*_amd64.deb Suggests; } > found/out
        : > found/err
        check 'make dist: what the Debian package says' 0 'Copyright: 2026 the bpfdb authors\nLicense: Apache-2.0\nbinutils, clang, gdb, libbpf-dev, libpcap0.8, linux-libc-dev\n' ''
    fi
}

# no_wasm: the last make dist said that bpfdb as WebAssembly is left out.
no_wasm() {
    count=$((count + 1))
    grep -q -x 'There is no bpfdb for browsers and node, or an older one, so none is handed on: make wasm' told || complain 'make dist says nothing of bpfdb as WebAssembly, which is left out'
}

# dist FOLDER [UMASK]: make dist into a folder; what it says last is found.
dist() {
    (cd copy && umask "${2:-022}" && sh tests/dist.sh "$1") > told 2> found/err
    echo $? > found/status
    tail -n 1 told > found/out
}

if [ -n "${BPFDB:-}" ] && [ "$BPFDB" != "$top/crates/bpfdb/out/bpfdb" ]; then
    left_out 'make dist' 'BPFDB names the program'
elif ! git -C "$top" rev-parse HEAD > /dev/null 2>&1; then
    left_out 'make dist' 'this is no clone'
else
    mkdir copy
    git -C "$top" ls-files -z | (cd "$top" && tar -c -f - --ignore-failed-read --null -T - 2> /dev/null) | tar -x -f - -C copy
    (
        cd copy && git init -q . && git add -A &&
            git -c user.name=tests -c user.email=tests@localhost commit -q -m 'for a test' && mkdir -p out crates/bpfdb/out
    ) || complain 'make dist: no copy'
    cp "$program" copy/crates/bpfdb/out
    commit=$(git -C copy rev-parse HEAD)
    dist "$PWD/made"
    check 'make dist before the gate has passed' 1 "FAILED: the gate hasn't passed at this commit: make test\n" ''
    printf '%s\n7 passed, 0 failed\n' "$commit" > copy/out/passed
    dist "$PWD/made"
    [ "$(cat found/status)" = 0 ] || { complain 'make dist'; cat told found/err; }
    no_wasm
    handed_on
    # bpfdb as WebAssembly goes with it, where it is newer than what it is made of.
    mkdir -p copy/out/wasm
    for name in wasm mjs html; do echo "$name" > "copy/out/wasm/bpfdb.$name"; done
    for row in 'bpfdb.html bpfdb.mjs bpfdb.wasm |share/page/page.js' '|share/wasm/heap.c'; do
        touch "copy/${row#*|}"
        dist "$PWD/made"
        sed -n 's/.*  \(bpfdb\.[a-z]*\)$/\1/p' made/SHA256SUMS | tr '\n' ' ' > found/out
        echo 0 > found/status
        check "make dist: bpfdb as WebAssembly, with ${row#*|} changed since" 0 "${row%|*}" ''
        [ -n "${row%|*}" ] || no_wasm
    done
    for mask in 077 002; do
        dist "$PWD/again" "$mask"
        same "make dist under umask $mask" made/SHA256SUMS again/SHA256SUMS
    done
    echo >> copy/README.md
    dist "$PWD/made"
    check 'make dist of a tree that differs' 1 'FAILED: the tree differs from its commit:  M README.md\n' ''
fi
