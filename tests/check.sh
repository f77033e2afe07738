#!/bin/sh
# The tests of a built program alone: of the one that BPFDB names, or of crates/bpfdb/out/bpfdb. Nothing is proved.
set -u
BPFDB=${BPFDB:-}
case $BPFDB in
'' | /*) ;;
*) BPFDB=$PWD/$BPFDB ;;
esac
cd "$(dirname "$0")/.." || exit 1
built=$PWD/crates/bpfdb/out/bpfdb
[ -n "$BPFDB" ] || ! [ -x "$built" ] || BPFDB=$built
if [ -z "$BPFDB" ]; then
    echo 'There is no program to test. `make run` proves and builds one; make check BPFDB=PROGRAM tests another, as one from an archive of `make dist`.'
    exit 1
fi
if ! [ -x "$BPFDB" ]; then
    echo "There is no program $BPFDB."
    exit 1
fi
export BPFDB
sh tests/program.sh || exit 1
sh tests/examples.sh
