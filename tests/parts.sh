#!/bin/sh
# Makes the parts of Linux's library by clang: parts.sh FOLDER [OPTION..], with further options for clang. FOLDER gets an object of each helper of
# share/bpfdb-linux, as share/bpfdb-linux.c says. The parts have no types of variables: bpfdb takes lines and names of functions from them alone.
set -u
mkdir -p "$1" && folder=$(cd "$1" && pwd) || exit 1
shift
cd "$(dirname "$0")/../share" || exit 1
count=$(getconf _NPROCESSORS_ONLN 2> /dev/null) || count=1
part() {
    printf -- '-DBPFDB_PART=%s %s -o %s\n' "$1" "${2:-}" "'$folder/$1.o'"
}
{
    for name in $(sed -n 's/^HELPER .*[ *]\(bpf_[a-z0-9_]*\)(.*/\1/p; s/^\(READ[A-Z_]*\|NO_SOCKET\)(\(.*\))$/\2/p' bpfdb-linux/*.c); do
        case $name in
        bpf_map_lookup_elem) part "$name" -DBPFDB_SHARED ;;
        *) part "$name" ;;
        esac
    done
} | xargs -P "$count" -L 1 clang -target bpf -mcpu=v3 -O2 -gline-tables-only "$@" -c bpfdb-linux.c
