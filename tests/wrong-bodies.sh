#!/bin/sh
# Tries the wrong bodies of every crate, or of those that are named: each edit of must-fail/ and wrong-bodies/ has to be refused by the prover.
# It works on a copy, with the proofs of libraries that earlier checks left in out/rlib, two crates at a time. A wrong body takes some
# 30 seconds, and a crate's first one as long as its whole proof.
set -u
cd "$(dirname "$0")/.." || exit 1
. tests/machine.sh
copy=$(mktemp -d) || exit 1
trap 'rm -rf "$copy"' EXIT
trap 'exit 130' HUP INT TERM
log=out/wrong-bodies
mkdir -p "$log" "$copy/crates" || exit 1
cp crates.txt HANDLES "$copy"

# copied CRATE: the crate with what is proved of it, and all its wrong bodies as edits of must-fail/.
copied() {
    mkdir -p "$copy/crates/$1/out" "$copy/crates/$1/must-fail"
    for part in src specs proofs; do
        [ ! -d "crates/$1/$part" ] || cp -R "crates/$1/$part" "$copy/crates/$1"
    done
    [ ! -d "crates/$1/out/rlib" ] || cp -a "crates/$1/out/rlib" "$copy/crates/$1/out"
    find "crates/$1" -path '*/out' -prune -o -name '*.edit' -print | while read -r edit; do
        cp "$edit" "$copy/crates/$1/must-fail"
    done
    rmdir "$copy/crates/$1/must-fail" 2> /dev/null
}

names=$(sed 's/#.*//; /:/!d; s/[ :].*//' crates.txt)
for crate in $names; do
    copied "$crate"
done
[ $# -gt 0 ] || set -- $(cd "$copy/crates" && ls -d */must-fail | sed 's|/.*||')
for crate in "$@"; do
    [ -d "$copy/crates/$crate/must-fail" ] || { echo "FAILED: $crate has no wrong bodies, or there is no such crate"; exit 1; }
    rm -f "$log/$crate"
done
# (what stands below is proved first, lowest first: two that prove the same crate at once would write the same files)
lower=$(for name in "$@"; do below "$name" | grep -v -x "$name"; done)
for crate in $names; do
    case " $(echo $lower) " in
    *" $crate "*) (cd "$copy/crates/$crate" && rt lib) > "$log/$crate.lib" 2>&1 || { tail -n 3 "$log/$crate.lib"; echo "FAILED: $crate isn't proved"; exit 1; } ;;
    esac
done
began=$(date +%s)
printf '%s\n' "$@" | xargs -P 2 -I CRATE sh -c "cd '$copy' && rt must-fail CRATE > '$PWD/$log/CRATE' 2>&1; echo \"status \$?\" >> '$PWD/$log/CRATE'"
refused=0
failed=0
for crate in "$@"; do
    grep '^must-fail ' "$log/$crate" | grep -v ': refused, as it must be' && failed=$((failed + 1))
    grep -q -x 'status 0' "$log/$crate" || { tail -n 3 "$log/$crate"; failed=$((failed + 1)); }
    refused=$((refused + $(grep -c ': refused, as it must be' "$log/$crate")))
done
echo "wrong bodies: $refused refused, in $(duration $(($(date +%s) - began))); the words of each are in $log"
[ "$failed" -eq 0 ]
