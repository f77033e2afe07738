#!/bin/sh
# Proves and builds crates/bpfdb/out/bpfdb, unless it stands there and is newer than each source
# that it is made of, as after rt ci. It is rt ci that proves, over a copy that has only the crates below the program, without wrong bodies:
# where the toolchain keeps what rt ci proved on this machine, that is taken over. Over one's own checks `rt run` in the crate's folder is
# quicker. A line says which crate is proved, and how many are left.
# With words MODULE and VERDICT it also keeps the program's module of LLVM, and the line that says that it is proved (tests/module.py): bpfdb itself is proved once
# more for that.
set -u
cd "$(dirname "$0")/.." || exit 1
. tests/machine.sh
crate=bpfdb
program=crates/$crate/out/$crate
crates=$(below "$crate")
module=${1:-} verdict=${2:-}

# sources: the files that the program is made of, those of the crates' folders out, must-fail and wrong-bodies left out.
sources() {
    for name in $crates; do
        find "crates/$name" \( -name out -o -name must-fail -o -name wrong-bodies \) -prune -o -type f -print
    done
}

# is_new FILE: it stands there, and no source is newer.
is_new() {
    [ -e "$1" ] && [ -z "$(sources | xargs -I FILE find FILE -newer "$1")" ]
}

if is_new "$program" && { [ -z "$module" ] || { is_new "$module" && [ -e "$verdict" ]; }; }; then
    exit 0
fi
command -v rt > /dev/null || { echo "FAILED: there is no 'rt', the command of the Rattle toolchain (README.md says where it comes from)." >&2; exit 1; }
logs=out/build
rm -rf "$logs"
mkdir -p "$logs" || exit 1
# (rt ci takes a copy within another repository for a part of that one)
copy=$(mktemp -d) || exit 1
trap 'rm -rf "$copy"' EXIT
trap 'exit 130' HUP INT TERM

# make_copy: the crates' lines of crates.txt, HANDLES, and the sources.
make_copy() {
    for name in $crates; do
        grep -E "^$name( [^:]*)?:" crates.txt
    done > "$copy/crates.txt"
    cp HANDLES "$copy"
    sources > "$logs/sources"
    tar -c -f - -T "$logs/sources" | tar -x -f - -C "$copy"
}

# progress: of what rt ci says a line for each crate, with how many functions are proved and how long it took since the beginning.
progress() {
    awk -v count="$(echo "$crates" | wc -l)" -v began="$(date +%s)" '
        match($0, /logic=proved functions=[0-9]+/) { functions = substr($0, RSTART + 23, RLENGTH - 23) }
        /^rt: [a-z_0-9]+ proved$/ {
            "date +%s" | getline now
            close("date +%s")
            printf "%2d of %d %s: %d functions proved, after %d s\n", ++done, count, $2, functions, now - began
            fflush()
            functions = 0
        }
    '
}

make_copy || { echo "FAILED: the sources can't be copied to $copy."; exit 1; }
alone
echo "Proving $(echo "$crates" | wc -l) crates once, and building $crate. From nothing that takes 25 to 50 minutes on four processors, about an hour on two."
{
    (cd "$copy" && rt ci 2>&1)
    echo $? > "$logs/status"
} < /dev/null | tee "$logs/log" | progress
if [ "$(cat "$logs/status")" != 0 ]; then
    grep -v '^statements ' "$logs/log" | tail -n 20
    echo "FAILED: $crate isn't proved and built. $logs/log has what the prover said."
    exit 1
fi
mkdir -p "crates/$crate/out" && cp "$copy/$program" "$program.new" && mv "$program.new" "$program"
if [ -n "$module" ]; then
    rm -f "$module" "$verdict"
    echo "Proving $crate once more, for its module."
    if ! python3 tests/module.py "$copy/crates/$crate" "$module" "$verdict" > "$logs/module" 2>&1; then
        rm -f "$module"
        cat "$logs/module"
        echo "FAILED: there is no module of $crate."
        exit 1
    fi
fi
