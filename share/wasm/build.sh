#!/bin/sh
# bpfdb.wasm, bpfdb.mjs and bpfdb.html of a module of LLVM that was made for x86-64: build.sh KIT MODULE ABOUT VERSION TO. KIT is the toolchain's folder, whose clang and
# linker are called; ABOUT is a text that the module carries. The same module gives the same bytes.
set -u
kit=$1 module=$2 about=$3 version=$4 to=$5
here=$(cd "$(dirname "$0")" && pwd) || exit 1
work=$(mktemp -d) || exit 1
trap 'rm -rf "$work"' EXIT
trap 'exit 130' HUP INT TERM
. "$here/tools.sh"

# fail TEXT: ends this with a line.
fail() {
    echo "FAILED: $1" >&2
    exit 1
}

clang -x ir "$module" -S -emit-llvm -O3 -Xclang -disable-llvm-passes -o "$work/x86-64.ll" || fail "clang does not read $module"
rewritten "$work/x86-64.ll" "$work/bpfdb.ll" || fail "$module is not rewritten"
rm "$work/x86-64.ll"
compiled -O3 -Xclang -fmerge-functions -x ir "$work/bpfdb.ll" || fail "clang does not compile what was rewritten"
compiled_parts || fail 'clang does not compile the files in C'
linked "$work/linked.wasm" --gc-sections --strip-all || fail 'the module is not linked'
mkdir -p "$to" && python3 "$here/assemble.py" "$work/linked.wasm" "$about" "$version" "$to"
