#!/bin/sh
# `make wasm`: bpfdb as WebAssembly, in the folder out/wasm, of the module of LLVM that the toolchain makes of the proved program. It proves and builds the program where that
# is not done yet; bpfdb itself is proved once more for its module, which is kept. The module carries a text that says of what it was made, and what is proved.
set -u
umask 022
cd "$(dirname "$0")/.." || exit 1
to=out/wasm
module=$to/module.bc verdict=$to/verdict
mkdir -p "$to" || exit 1

# about: what the module says of itself.
about() {
    echo "$version"
    cat "$verdict"
    cat << 'ABOUT'

Proved: the program in Rattle, as the line above says, by the contracts that docs/PROMISES.md tells. It is the same proof as for the program for Linux.
Trusted besides, and only tested: what makes WebAssembly of the proved program. That is the rewriting of its module of LLVM for pointers of 32 bits
(share/wasm/rewrite.py), clang's compiler for WebAssembly, the heap and the calls in C (share/wasm/*.c), the scripts of node or of the page, and the engine that runs it.
ABOUT
}

sh tests/build.sh "$module" "$verdict" || exit 1
kit=$(dirname "$(rt doc)")
version="bpfdb $(sed -n 's/^## \([0-9][0-9.]*\).*/\1/p' CHANGELOG.md | head -n 1)"
about > "$to/about"
echo 'Compiling it for WebAssembly: one to two minutes.'
sh share/wasm/build.sh "$kit" "$module" "$to/about" "$version" "$to" || exit 1
ls -l "$to/bpfdb.wasm" "$to/bpfdb.mjs" "$to/bpfdb.html"
