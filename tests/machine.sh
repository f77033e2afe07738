# What this machine has room for, what it lacks, and which crates a program stands on: read by '.' in other scripts of this folder.

# memory: the gigabytes that are free, and no more than this process may take.
memory() {
    free=$(awk '/^MemAvailable/ { print int($2 / 1048576) }' /proc/meminfo)
    limit=$(cat /sys/fs/cgroup/memory.max 2> /dev/null)
    case $limit in
    '' | max) ;;
    *) [ "$((limit / 1073741824))" -ge "$free" ] || free=$((limit / 1073741824)) ;;
    esac
    echo "$free"
}

# room: how many checks it does side by side: one a processor, and 4 GB for each. (A check of this repository takes 2 GB, the greatest 4.2.)
room() {
    checks=$(nproc)
    [ "$(($(memory) / 4))" -ge "$checks" ] || checks=$(($(memory) / 4))
    [ "$checks" -ge 1 ] || checks=1
    echo "$checks"
}

# alone: rt ci sets more memory aside for a check than it takes, and then leaves processors idle. Where there is room for a check a
# processor, each processor is to have one.
alone() {
    [ "$(room)" -eq "$(nproc)" ] || return
    RT_JOBS=$(nproc)
    export RT_JOBS
}

# duration SECONDS: as '34 min 12 s'.
duration() {
    if [ "$1" -ge 60 ]; then
        echo "$(($1 / 60)) min $(($1 % 60)) s"
    else
        echo "$1 s"
    fi
}

# below CRATE: the crate and each of the repository that it stands on, a line each, in the order of crates.txt, which is lowest first.
below() {
    sed 's/#.*//' crates.txt | awk -v crate="$1" -F: '
        NF > 1 { split($1, words, " "); order[++count] = words[1]; uses[words[1]] = $2 }
        END {
            wanted[crate] = 1
            for (i = count; i >= 1; i--) {
                if (!wanted[order[i]]) continue
                n = split(uses[order[i]], names, " ")
                for (j = 1; j <= n; j++) wanted[names[j]] = 1
            }
            for (i = 1; i <= count; i++) if (wanted[order[i]]) print order[i]
        }
    '
}

# wasm_is_new: `make wasm` has made bpfdb as WebAssembly of these sources.
wasm_is_new() {
    [ -z "$(find crates share/wasm CHANGELOG.md examples -newer out/wasm/bpfdb.html -type f ! -path '*/out/*' 2>&1)" ]
}

# left_out WHAT WHY: this isn't tested here. It is kept in the file LEFT_OUT, of the script that was called first, which tells it at its end.
left_out() {
    echo "left out: $1: $2" >> "$LEFT_OUT"
}

# has COMMAND WHAT: whether there is this command; without it WHAT is left out.
has() {
    command -v "$1" > /dev/null && return
    left_out "$2" "there is no $1"
    return 1
}

# has_clang WHAT: whether there is a clang for BPF; without it WHAT is left out.
has_clang() {
    echo | clang -target bpf -x c -c -o /dev/null - 2> /dev/null && return
    left_out "$1" 'there is no clang for BPF'
    return 1
}

# has_clang_14 WHAT: whether clang is of version 14, by whose slots the pages show what it makes; without it WHAT is left out.
has_clang_14() {
    has_clang "$1" || return
    clang --version | grep -q 'version 14\.' && return
    left_out "$1" 'there is no clang 14'
    return 1
}

# has_headers WHAT: whether clang finds the headers of the kernel and of libbpf; without them WHAT is left out.
has_headers() {
    echo '#include <bpf/bpf_helpers.h>' | clang "-I/usr/include/$(uname -m)-linux-gnu" -include linux/bpf.h -target bpf -x c -fsyntax-only - 2> /dev/null && return
    left_out "$1" 'there are no headers of the kernel and of libbpf (linux-libc-dev and libbpf-dev)'
    return 1
}

# find_compilers WHAT: `compilers` are those of C for BPF that are here, clang and clang-19; without clang none, and WHAT is left out.
find_compilers() {
    compilers=''
    has_clang "$1" || return 0
    compilers=clang
    ! command -v clang-19 > /dev/null || compilers='clang clang-19'
}

# has_libpcap WHAT: whether python3 finds the library that reads captures; without it WHAT is left out.
has_libpcap() {
    for name in libpcap.so.0.8 libpcap.so.1; do
        python3 -c "import ctypes; ctypes.CDLL('$name')" 2> /dev/null && return
    done
    left_out "$1" 'there is no libpcap'
    return 1
}

# tell_left_out FILE: what was left out, where it was kept in this file.
tell_left_out() {
    [ "$LEFT_OUT" != "$1" ] || [ ! -e "$1" ] || sort "$1"
}
