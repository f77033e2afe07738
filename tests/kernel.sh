#!/bin/sh
# share/bpfdb-linux.c and share/bpfdb.h held against a kernel: the same sources, compiled for the kernel and for bpfdb, on the same bytes. Where bpf(2) is
# allowed that is the present kernel, as root. With --qemu, or where it isn't, it is the kernel in the file KERNEL (without it the last /boot/vmlinuz-*), which
# starts in qemu without hardware of its own, in a few minutes. Each difference is a line; what is lacking is told in one, and the status is 0.
#
# In the kernel tests/kernel/runner.c runs programs by BPF_PROG_TEST_RUN: the tests of tests/program/linux/*.c, whose result is 0 (of bpfdb the part `linux` of
# tests/program.sh tries them); the random calls of model.py; programs for XDP and tc on packets, whose results, packets and maps become tests of bpfdb; and
# the bugs of XDP and tc in examples/README.md, whose verdicts are those of the page (the part `bugs` holds bpfdb's against it).
set -u
cd "$(dirname "$0")/.." || exit 1
case ${1-} in
'' | --qemu) ;;
*)
    echo 'usage: [KERNEL=VMLINUZ] sh tests/kernel.sh [--qemu]' >&2
    exit 2
    ;;
esac
top=$PWD
work=$(mktemp -d) || exit 1
trap 'rm -rf "$work"' EXIT
trap 'exit 130' HUP INT TERM
plan=$work/plan
mkdir "$plan"
headers="-I/usr/include/$(uname -m)-linux-gnu"
for_bpf="clang -target bpf -mcpu=v3 -O2 -g $headers"
count=0
failures=0

# without WHY: all of this is left out.
without() {
    echo "left out: programs in a kernel: $1"
    exit 0
}

# complain TEXT: counts what differs and says so.
complain() {
    failures=$((failures + 1))
    echo "FAILED: $1"
}

printf '#include <linux/bpf.h>\n#include <bpf/bpf_helpers.h>\n' | $for_bpf -x c -fsyntax-only - 2> /dev/null ||
    without 'there is no clang for BPF with the headers of the kernel and of libbpf (clang, linux-libc-dev, libbpf-dev)'
command -v python3 > /dev/null || without 'there is no python3'
cc -Wall -Wextra -O2 -static -o "$work/runner" tests/kernel/runner.c -lbpf -lelf -lz 2> "$work/told" ||
    without "the runner isn't linked (gcc, libbpf-dev, libelf-dev, zlib1g-dev): $(grep -m 1 . "$work/told")"
if [ "${1-}" = --qemu ] || [ "$(id -u)" != 0 ] || ! "$work/runner" --allowed; then
    for file in /boot/vmlinuz-*; do
        newest=$file
    done
    kernel=${KERNEL:-$newest}
    [ -f "$kernel" ] || without 'bpf(2) is for root where it is allowed, and no file KERNEL has a kernel for qemu'
    for command in qemu-system-x86_64 cpio gzip; do
        command -v "$command" > /dev/null || without "there is no $command"
    done
fi
[ -n "${BPFDB:-}" ] || sh tests/build.sh || exit 1
program=${BPFDB:-$top/crates/bpfdb/out/bpfdb}

# compiled WHERE OPTION.. FILE: compiles for BPF.
compiled() {
    where=$1
    shift
    $for_bpf -I"$top/share" -c -o "$where" "$@" 2> "$work/told" || complain "clang $*: $(cat "$work/told")"
}

# Each test of the library whose result the kernel gives, too, on the context 0 to 15.
awk 'BEGIN { printf "\\020\\000"; for (i = 0; i < 16; i++) printf "\\%03o", i }' | xargs -0 printf > "$plan/context"
for name in tables tries queues reads world events stacks storage numbers dynptrs; do
    source=tests/program/linux/$name.c
    compiled "$plan/$name.o" -DFOR_KERNEL=16 "$source"
    sed -n "s/^TEST(\([a-z_]*\))\$/$name.o \1 context/p" "$source" >> "$plan/plan"
done
tests=$(wc -l < "$plan/plan")

# Random calls on maps.
compiled "$plan/steered.o" -DFOR_KERNEL=8 tests/program/linux/steered.c
for seed in 1 2 3 4 5; do
    python3 tests/program/linux/model.py $seed "$work/calls-$seed" > "$work/wanted-$seed"
    python3 tests/kernel/steered.py inputs "$work/calls-$seed" > "$plan/calls-$seed"
    echo "steered.o steered calls-$seed" >> "$plan/plan"
done

# Programs for XDP and tc: source, function, XDP or TC, inputs, where what is left of a packet lies, and whether the library is linked in.
python3 tests/kernel/packets.py frames 1 > "$plan/frames"
python3 tests/kernel/packets.py calls 1 > "$plan/calls"
python3 tests/kernel/packets.py layouts 1 > "$plan/layouts"
{
    echo 'examples/firewall/firewall.c firewall XDP frames front alone'
    echo 'examples/xdp/xdp.c filter XDP frames front alone'
    echo 'tests/program/headers/classifier.c classify TC frames front with'
    # (a program's kind stands in the line before it)
    awk '
        /SEC\("xdp"\)/ { kind = "XDP" }
        /SEC\("tc"\)/ { kind = "TC" }
        # (those behind this line have frames that change, of which their results tell)
        /^enum \{ ROOM/ { changes = 1 }
        /^int [a-z_]*\(struct/ {
            name = $2
            sub(/\(.*/, "", name)
            inputs = changes ? "layouts" : name == "length" || name == "told" ? "frames" : "calls"
            place = changes ? "nowhere" : name == "head" || name == "metadata" ? "back" : "front"
            print "tests/kernel/packets.c", name, kind, inputs, place, "with"
        }
        /^REDIRECT_BY\(/ { sub(/REDIRECT_BY\(/, ""); sub(/\)/, ""); print "tests/kernel/packets.c to_" $0 " XDP calls front with" }
        /^READ_BY\(/ { sub(/READ_BY\(/, ""); sub(/,.*/, ""); print "tests/kernel/packets.c read_" $0 " TC calls nowhere with" }
    ' tests/kernel/packets.c
} > "$work/programs"
while read -r source entry kind inputs place library; do
    name=$(basename "$source" .c)
    [ -f "$plan/$name.o" ] || compiled "$plan/$name.o" "$source"
    echo "$name.o $entry $inputs" >> "$plan/plan"
done < "$work/programs"

# The bugs: a line `OBJECT PACKET VERDICT` for each run that the page shows, of what its commands made of the sources.
cp -R examples/bugs "$work/bugs"
awk -v folder="$work" '
    /^## / { inside = $0 == "## bugs of XDP and tc" }
    /^```/ { block = !block; next }
    inside && block && /^\$ (for|sed) / { print substr($0, 3) > (folder "/bugs/commands") }
    inside && block && /^\$ bpfdb run / { object = $NF; packet = $(NF - 1); getline; print object, packet, $0 > (folder "/verdicts") }
' examples/README.md
(cd "$work/bugs" && PATH=$top/share:$PATH && sh commands) > "$work/told" 2>&1
[ ! -s "$work/told" ] || complain "the bugs of examples/README.md: $(cat "$work/told")"
while read -r object packet verdict; do
    size=$(wc -c < "$work/bugs/$packet")
    { printf '%b' "\\0$(printf '%03o' $((size % 256)))\\0$(printf '%03o' $((size / 256)))"; cat "$work/bugs/$packet"; } > "$plan/$packet"
    cp "$work/bugs/$object" "$plan"
    echo "$object $(sed -n 's/^int \([a-z]*\)(struct .*/\1/p' "$work/bugs/${packet%.packet}.c") $packet $verdict" >> "$work/bugs/plan"
done < "$work/verdicts"
cut -d ' ' -f 1-3 "$work/bugs/plan" >> "$plan/plan"
[ "$failures" -eq 0 ] || exit 1

# The kernel's own answers.
if [ -z "${kernel-}" ]; then
    "$work/runner" "$plan" > "$work/runs"
else
    mkdir "$work/root" "$work/root/dev" "$work/root/proc" "$work/root/sys"
    cp "$work/runner" "$work/root/init"
    cp -R "$plan" "$work/root"
    (cd "$work/root" && find . | cpio -o -H newc --quiet | gzip -1) > "$work/initrd"
    timeout 1200 qemu-system-x86_64 -accel tcg -cpu max -m 2048 -smp 1 -nographic -no-reboot -kernel "$kernel" -initrd "$work/initrd" \
        -append 'console=ttyS0 quiet panic=-1 mitigations=off' < /dev/null 2>&1 | tr -d '\r' |
        sed -n 's/^.*\(kernel [0-9]\)/\1/; /^kernel [0-9]/,/^done$/p' > "$work/runs"
fi
if [ "$(tail -n 1 "$work/runs")" != done ]; then
    complain "the kernel came to no end: $(tail -n 1 "$work/runs")"
    exit 1
fi
sed '/^done$/d' "$work/runs" | awk -v folder="$work" '
    NR == 1 { next }
    /^# / { file = folder "/" $2 "-" $3 "-" $4 ".runs"; printf "" > file; next }
    { print > file }
'

# What it said, against what is wanted.
while read -r object entry inputs; do
    found=$(cat "$work/$object-$entry-$inputs.runs")
    [ "$found" = '= 0' ] || complain "$object, $entry: $found"
    count=$((count + 1))
done <<PLAN
$(head -n "$tests" "$plan/plan")
PLAN
for seed in 1 2 3 4 5; do
    python3 tests/kernel/steered.py results "$work/calls-$seed" "$work/wanted-$seed" < "$work/steered.o-steered-calls-$seed.runs" > "$work/told" 2>&1
    count=$((count + $(sed -n '$s/^[0-9]*$/&/p' "$work/told" | grep . || echo 0)))
    [ "$(wc -l < "$work/told")" = 1 ] || complain "random calls, seed $seed: $(head -n 3 "$work/told")"
done
while read -r object entry packet verdict; do
    found=$(cut -d ' ' -f 1-2 "$work/$object-$entry-$packet.runs")
    [ "$found" = "= $((verdict))" ] || complain "$object of examples/README.md: $found, and not $verdict"
    count=$((count + 1))
done < "$work/bugs/plan"
compiled "$work/library.o" share/bpfdb-linux.c
while read -r source entry kind inputs place library; do
    section=xdp
    [ "$kind" = XDP ] || section=tc
    linked=
    [ "$library" = alone ] || linked="--with $work/library.o"
    compiled "$work/program.o" -include bpfdb.h "-DBPFDB_$kind=$entry" "$source"
    # (the folder of work has no blanks: mktemp made it)
    "$program" link --section $section --entry bpfdb $linked "$work/program.o" > "$work/words" 2> "$work/told" || complain "$entry: $(cat "$work/told")"
    maps=$(sed -n 's/^--maps //p' "$work/told")
    # (cells are held against each other where the machine's maps are the program's own)
    python3 tests/kernel/packets.py tests "$plan/$inputs" "$work/words" "${maps:--}" $place < "$work/$(basename "$source" .c).o-$entry-$inputs.runs" \
        > "$work/tests" 2> "$work/told" || complain "$entry: $(cat "$work/told")"
    "$program" test "$work/tests" > "$work/report" 2>&1
    count=$((count + $(grep -c '^ok' "$work/report")))
    ! grep -q -v '^ok\|^1\.\.' "$work/report" || complain "$entry: $(grep -v '^ok\|^1\.\.' "$work/report" | head -n 5)"
done < "$work/programs"
echo "$(head -n 1 "$work/runs"): $count results as in bpfdb; $failures differ"
[ "$failures" -eq 0 ]
