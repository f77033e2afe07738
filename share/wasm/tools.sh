# What compiles for WebAssembly, read by '.' where `kit` is the toolchain's folder and `work` one for what is made: by build.sh, and by the tests of its parts.

# What each engine has since 2022, by clang's names.
machine='--target=wasm32-unknown-unknown -mbulk-memory -msign-ext -mnontrapping-fptoint'
# The stack, what memory there is at the beginning, and the most: no address has its highest bit. (host.mjs names the last two, too.)
memory='-z stack-size=1048576 --initial-memory=4194304 --max-memory=2147483648'

# clang WORD..: the toolchain's, by its own settings alone.
clang() {
    "$kit/toolchain/bin/clang" --no-default-config -no-canonical-prefixes -fno-crash-diagnostics "$@"
}

# rewritten FROM TO: a module of LLVM for x86-64, as a text, for this machine. (How values lie in its memory is what clang says.)
rewritten() {
    # (the words of machine have no quotes)
    # shellcheck disable=SC2086
    layout=$(clang $machine -S -emit-llvm -x c -o - /dev/null | sed -n 's/^target datalayout = "\(.*\)"$/\1/p') &&
        python3 "$here/rewrite.py" "$1" "$2" "$layout" wasm32-unknown-unknown
}

# compiled OPTION.. FILE: an object of a file, under its name in the folder for work.
compiled() {
    for file in "$@"; do :; done
    # shellcheck disable=SC2086
    clang $machine -ffunction-sections -fdata-sections "$@" -c -o "$work/$(basename "$file").o"
}

# compiled_parts: objects of the files in C.
compiled_parts() {
    for part in heap calls wide; do
        compiled -O2 -ffreestanding -fno-builtin -Wall -Wextra -Werror -x c "$here/$part.c" || return 1
    done
}

# linked TO OPTION..: a module of all objects in the folder for work. (The linker is the same program as clang, under another name.)
linked() {
    [ -e "$work/wasm-ld" ] || ln -s "$kit/toolchain/bin/clang" "$work/wasm-ld" || return 1
    # shellcheck disable=SC2086
    "$work/wasm-ld" -m wasm32 --no-entry --import-memory --stack-first $memory --fatal-warnings -o "$@" "$work"/*.o
}
