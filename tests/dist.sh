#!/bin/sh
# `make dist`: what is handed on of a built program, in the folder out/dist (or the one that is named): an archive, a Debian package where there is
# dpkg-deb, bpfdb as WebAssembly where `make wasm` has made it of these sources, and their SHA256SUMS. In it are the program, its shell, the tools for gdb, for contexts and for pages, man pages, the pages for users, the examples, the
# license, the changelog, in the archive a README at its top, and a file BUILD with the commit and the last line of the gate, which `make test` leaves in out/passed. A tree
# that differs from its commit, or whose commit the gate hasn't passed, gives none. The same commit gives the same bytes, under any umask.
set -u
umask 022
cd "$(dirname "$0")/.." || exit 1
. tests/machine.sh
to=${1:-out/dist}
work=$(mktemp -d) || exit 1
trap 'rm -rf "$work"' EXIT
trap 'exit 130' HUP INT TERM

# fail TEXT: ends this with a line.
fail() {
    echo "FAILED: $1"
    exit 1
}

commit=$(git rev-parse HEAD 2> /dev/null) || fail 'this is no clone of the repository, so there is no commit to name'
[ -z "$(git status --porcelain)" ] || fail "the tree differs from its commit: $(git status --porcelain | head -n 1)"
[ "$(sed -n 1p out/passed 2> /dev/null)" = "$commit" ] || fail "the gate hasn't passed at this commit: make test"
program=crates/bpfdb/out/bpfdb
[ -x "$program" ] || fail "there is no $program: make run"
version=$(sed -n 's/^## \([0-9][0-9.]*\).*/\1/p' CHANGELOG.md | head -n 1)
name=bpfdb-$version-x86_64-linux
SOURCE_DATE_EPOCH=$(git show -s --format=%ct HEAD)
export SOURCE_DATE_EPOCH

# told: what the file BUILD says.
told() {
    echo "commit $commit"
    echo "gate: $(sed -n 2p out/passed)"
    "$program" --version
}

# readme: what stands at the top of the archive. (Its commands are those of a test.)
readme() {
    cat << README
bpfdb $version runs BPF programs forwards and backwards. You need Linux on x86-64
with glibc 2.34 or later; python3 for bpfdb-shell, bpfdb-page and most programs
beside them. Nothing has to be installed.
In this folder:

    PATH=\$PWD/bin:\$PATH
    cd share/doc/bpfdb/examples/overrun
    bpfdb run -m context.bin program.bin

This program faults at a bad address. Where did the address come from?

    bpfdb origin -m context.bin program.bin
    bpfdb-shell -m context.bin program.bin
    bpfdb-page -o \$HOME/run.html -m context.bin program.bin

The second is a prompt, for 'continue', 'reverse-stepi 2' and 'origin r1'; the
third writes the whole run as a page for a browser. share/doc/bpfdb/README.md
goes on from there, and GDB.md beside it has the session in gdb. The manual is
'man -M share/man bpfdb'.

To install it, copy bin and share to /usr/local. share/doc/bpfdb/BUILD says what
was built and proved. License: Apache-2.0 (share/doc/bpfdb/LICENSE).
README
}

# copyright: what a Debian package says of its license.
copyright() {
    cat << COPYRIGHT
Format: https://www.debian.org/doc/packaging-manuals/copyright-format/1.0/
Upstream-Name: bpfdb

Files: *
Copyright: $(sed -n 's/.*Copyright \([0-9].*\)\.$/\1/p' README.md)
License: Apache-2.0

License: Apache-2.0
 On Debian systems the text of this license is the file
 /usr/share/common-licenses/Apache-2.0. It is LICENSE beside this file, too.
COPYRIGHT
}

# package: the Debian package of the tree $work/deb.
package() {
    mkdir "$work/deb/DEBIAN"
    cat > "$work/deb/DEBIAN/control" << CONTROL
Package: bpfdb
Version: $version
Architecture: amd64
Maintainer: the bpfdb authors <bpfdb@localhost>
Section: devel
Priority: optional
Depends: libc6 (>= 2.34)
Recommends: python3
Suggests: binutils, clang, gdb, libbpf-dev, libpcap0.8, linux-libc-dev
Description: runs BPF programs forwards and backwards
 A debugger for BPF programs (RFC 9669) that goes back exactly, with a checker,
 an assembler, a disassembler, a linker and an interpreter. Its code is proved.
CONTROL
    dpkg-deb --root-owner-group -Zxz --build "$work/deb" "$to/bpfdb_${version}_amd64.deb" > "$work/said" 2>&1 || {
        cat "$work/said"
        fail 'dpkg-deb makes no package'
    }
}

rm -rf "$to"
mkdir -p "$to" || exit 1
make -s install DESTDIR="$work/tree" PREFIX="/$name" > /dev/null || fail 'make install'
told > "$work/tree/$name/share/doc/bpfdb/BUILD"
readme > "$work/tree/$name/README"
tar -c --sort=name --mtime="@$SOURCE_DATE_EPOCH" --owner=0 --group=0 --numeric-owner -C "$work/tree" "$name" | gzip -n > "$to/$name.tar.gz" || fail 'tar'
if command -v dpkg-deb > /dev/null; then
    make -s install DESTDIR="$work/deb" PREFIX=/usr > /dev/null || fail 'make install'
    told > "$work/deb/usr/share/doc/bpfdb/BUILD"
    copyright > "$work/deb/usr/share/doc/bpfdb/copyright"
    package
else
    echo 'There is no dpkg-deb here, so no Debian package is made.'
fi
if wasm_is_new; then
    cp out/wasm/bpfdb.wasm out/wasm/bpfdb.mjs out/wasm/bpfdb.html "$to" || exit 1
else
    echo 'There is no bpfdb for browsers and node, or an older one, so none is handed on: make wasm'
fi
(cd "$to" && sha256sum bpfdb* > SHA256SUMS)
echo "In $to, of commit $commit:"
cat "$to/SHA256SUMS"
