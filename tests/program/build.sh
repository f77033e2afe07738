# How `make run` proves and builds (tests/build.sh), with an `rt` in the toolchain's place that proves all crates at once, or all but one.
mkdir bin copy copy/tests copy/crates || exit 1
cp "$top/tests/build.sh" "$top/tests/machine.sh" copy/tests
cp "$top/crates.txt" "$top/HANDLES" copy
sed 's/#.*//; /:/!d; s/[ :].*//' copy/crates.txt | while read -r crate; do
    mkdir -p "copy/crates/$crate/src" "copy/crates/$crate/must-fail" "copy/crates/$crate/wrong-bodies"
    touch "copy/crates/$crate/src/lib.rt" "copy/crates/$crate/must-fail/x.edit" "copy/crates/$crate/wrong-bodies/y.edit"
done
cat > bin/rt <<'RT'
#!/bin/sh
[ "$*" = ci ] || exit 2
find . -type f | sort > "$ORDER"
sed 's/[ :].*//' crates.txt | while read -r crate; do
    echo "== $crate"
    if [ "$crate" = "$WRONG" ]; then
        echo 'not proved, for the test'
        echo "rt: $crate NOT PROVED"
        break
    fi
    echo 'logic=proved functions=3 sum=0'
    echo "rt: $crate proved"
done
[ -z "$WRONG" ] || exit 1
mkdir -p crates/bpfdb/out && touch crates/bpfdb/out/bpfdb && chmod 755 crates/bpfdb/out/bpfdb
RT
chmod 755 bin/rt

# build WRONG STATUS: tests/build.sh over an `rt` that doesn't prove the crate WRONG ends with this status.
build() {
    : > order
    (cd copy && ORDER=$work/build/order WRONG=$1 PATH=$work/build/bin:$PATH sh tests/build.sh) > found/out 2> found/err
    echo $? > found/status
    cp found/out told
    tail -n 1 told | sed 's/, after [0-9]* s$//' > found/out
    echo "$2" > wanted/status
    : > wanted/err
}

# Each crate below bpfdb, and nothing of others, of wrong bodies and of crates of tests, is given to `rt ci`.
build '' 0
count_of_crates=$(sed -n 's/^Proving \([0-9]*\) crates once.*/\1/p' told)
echo "$count_of_crates of $count_of_crates bpfdb: 3 functions proved" > wanted/out
compare 'make run: the last line'
{
    echo ./HANDLES
    for crate in $(sed -n '/^memory_calls:/d; /_laws:/d; s/^\([a-z_]*\):.*/\1/p' "$top/crates.txt"); do
        echo "./crates/$crate/src/lib.rt"
    done
    echo ./crates.txt
} | sort > wanted/order
sort order > found/order
same 'make run: what is proved' wanted/order found/order
[ -x copy/crates/bpfdb/out/bpfdb ] || complain 'make run builds no program'

# The second time there is nothing to do, also where a crate has changed on which the program does not stand; a source that changed is proved.
sleep 0.1
touch copy/crates/memory_calls/src/lib.rt
build '' 0
: > wanted/out
compare 'make run, the second time'
: > wanted/order
same 'make run, the second time: nothing is proved' wanted/order order
touch copy/crates/bpf_isa/src/lib.rt
build '' 0
[ -s order ] || complain 'make run, after a change: nothing is proved'

# A crate that isn't proved is named at the end.
rm -r copy/crates/bpfdb/out
build bpf_machine 1
echo "FAILED: bpfdb isn't proved and built. out/build/log has what the prover said." > wanted/out
compare 'make run: a crate that is not proved'
grep -q -x 'not proved, for the test' told || complain "make run doesn't show what the prover said"
[ ! -e copy/crates/bpfdb/out/bpfdb ] || complain 'make run builds a program that is not proved'

# The module for `make wasm` is what the toolchain hands to its clang, and is kept just where its last line says that the crate is proved, over nothing that was kept
# before. (A toolchain in its place tells $VERDICT and $STATUS.)
mkdir -p kit/bin kit/toolchain/bin kit/toolchain/lib
touch kit/page kit/toolchain/bin/clang kit/toolchain/bin/ld.lld
cat > kit/bin/rtlib.py <<'LIBRARY'
import os
KIT = os.path.dirname(os.path.dirname(os.path.realpath(__file__)))
RATTLE = f'{KIT}/bin/rattle'


def root_above(folder):
    return folder


class Crate:
    def __init__(self, folder, root, known):
        self.folder = folder

    def words(self, flags, keeps):
        return ['--crate-name', 'bpfdb'] if not keeps else []
LIBRARY
cat > kit/bin/rattle <<'RATTLE'
#!/bin/sh
[ "$1 $2 $3 $4 $6" = 'build --crate-name bpfdb --toolchain -o' ] || exit 2
cd "$(dirname "$7")" && echo 'a module' > module.bc && "$5/bin/clang" -c -x ir module.bc -o "$7" && echo "$VERDICT"
exit "$STATUS"
RATTLE
sed 's/^\[ "\$\*" = ci \] || exit 2$/[ "$*" != doc ] || { echo "$KIT\/page"; exit; }/' bin/rt > rt && cat rt > bin/rt && chmod 755 kit/bin/rattle
if has python3 'the module of bpfdb'; then
    cp "$top/tests/module.py" copy/tests
    words='logic=proved functions=3 target=x sum=0 native=nat,char,string logic-built=trusted libraries-built=trusted statements=trusted'
    for row in "0|0|$words" "1|0|$words incremental=trusted" "1|0|logic=open functions=3" "1|1|$words"; do
        rm -rf copy/crates/bpfdb/out copy/module copy/verdict
        rest=${row#*|}
        (
            cd copy && STATUS=${rest%%|*} VERDICT=${rest#*|} KIT=$work/build/kit ORDER=$work/build/order WRONG='' PATH=$work/build/bin:$PATH \
                sh tests/build.sh module verdict
        ) > told 2> found/err
        echo $? > found/status
        cat copy/module copy/verdict > found/out 2> /dev/null
        if [ "${row%%|*}" = 0 ]; then printf 'a module\n%s\n' "$words"; fi > wanted/out
        echo "${row%%|*}" > wanted/status
        : > wanted/err
        compare "the module, where the toolchain says: ${rest#*|}, ${rest%%|*}"
    done
    rm -rf copy/crates/bpfdb/out
fi

# make check, where there is no program, or not the one that BPFDB names.
cp "$top/tests/check.sh" copy/tests
for row in "There is no program to test. \`make run\` proves and builds one; make check BPFDB=PROGRAM tests another, as one from an archive of \`make dist\`.|" \
    "There is no program /nothing/bpfdb.|/nothing/bpfdb"; do
    (cd copy && BPFDB=${row#*|} sh tests/check.sh) > found/out 2> found/err
    echo $? > found/status
    check "make check without a program${row#*|}" 1 "${row%|*}\n" ''
done

# What rows of the gate need is installed in CI alone, and by root alone; what can't be is told, and is no failure. (Here all is there but fish, gdb
# and the headers of libbpf, and fish can't be installed.)
cp "$top/tests/needs.sh" copy/tests
mkdir bare
for name in dirname mkdir sh timeout; do ln -s "$(command -v "$name")" bare; done
for name in $(sed -n "/<<'PROGRAMS'/,/^PROGRAMS/s/^\([^ ]*\) .*/\1/p" copy/tests/needs.sh); do ln -s sh "bare/$name"; done
rm bare/fish bare/gdb
mkdir -p bare/include/linux
: > bare/include/linux/bpf.h
printf '#!/bin/sh\necho "$IDENTITY"\n' > bare/id
cat > bare/apt-get <<'APT'
#!/bin/sh
while [ "$1" != --no-install-recommends ]; do shift; done
shift
echo "$*" >> "$CALLED"
case $* in *fish*) exit 100 ;; esac
APT
chmod 755 bare/id bare/apt-get
for row in '|0|' 'true|1000|' "true|0|tests/needs.sh: not installed: fish (out/needs.log says why)\n"; do
    : > called
    rest=${row#*|}
    PATH=$PWD/bare INCLUDE=$PWD/bare/include CI=${row%%|*} IDENTITY=${rest%%|*} CALLED=$PWD/called sh copy/tests/needs.sh > found/out 2> found/err
    echo $? > found/status
    check "tests/needs.sh, CI=${row%%|*}, as user ${rest%%|*}" 0 "${rest#*|}" ''
    if [ -n "${rest#*|}" ]; then printf 'update\ninstall fish gdb libbpf-dev\ninstall fish\ninstall gdb\ninstall libbpf-dev\n'; fi > wanted/called
    same "tests/needs.sh, CI=${row%%|*}, as user ${rest%%|*}: what is installed" wanted/called called
done

# What is left out is told at the end of the script that was called first.
(
    . "$top/tests/machine.sh"
    for LEFT_OUT in "$PWD/own" "$PWD/other"; do
        has no-such-program 'what it does' || has sh 'a shell' || echo "there is no sh"
        tell_left_out "$PWD/own"
    done
) > found/out
echo 'left out: what it does: there is no no-such-program' > wanted/out
same 'what is left out is told once' wanted/out found/out

# make try of what is no file says so at once.
for file in nothing "$top/docs"; do
    env -u MAKEFLAGS make -s -C "$top" try FILE="$file" > found/out 2> found/all
    echo $? > found/status
    head -n 1 found/all > found/err
    check "make try FILE=$file" 2 '' "cannot read $file\n"
done

# At a terminal make try takes the commands that are typed, up to Ctrl-D. (An `rt` in the toolchain's place shows what it is given.)
compile terminal
mkdir try
cat > try/rt <<'RT'
#!/bin/sh
cat
echo run=ended >&2
RT
chmod 755 try/rt
printf 'stepi\ninfo regs\n' > script
: > some.bin
PATH=$PWD/try:$PATH ./terminal script "$(command -v sh)" "$top/tests/try.sh" debug some.bin > found/out 2> found/err
echo $? > found/status
check 'make try at a terminal' 0 'stepi\ninfo regs\n' \
    'Type the commands, and then Ctrl-D: the replies come together, when bpfdb is compiled.\nCompiling bpfdb without its proofs: a minute or two. `make run` proves it.\n'

# It says that it works, and behind the session of README what to type next. (Here a second stands for ten, and an `rt` for the toolchain's that
# waits until that was said, and answers each command by a line.)
cat > try/sleep <<'SLEEP'
#!/bin/sh
exec "$SLEEP" 1
SLEEP
cat > try/rt <<'RT'
#!/bin/sh
until grep -q 'after 20 s' "$TOLD"; do "$SLEEP" 0.1; done
sed 's/^/answered /'
echo run=ended >&2
RT
chmod 755 try/sleep
SLEEP=$(command -v sleep) TOLD=$PWD/found/err PATH=$PWD/try:$PATH timeout 60 sh "$top/tests/try.sh" > found/out 2> found/err < /dev/null
echo $? > found/status
sed -i '/ 30 s$/d; /^  /d' found/err
check 'make try says that it works' 0 "$(sed 's/.*/> &\\nanswered &\\n/' "$top/tests/session/script" | tr -d '\n')" \
    'Compiling bpfdb without its proofs: a minute or two. `make run` proves it.\nstill at work, after 10 s\nstill at work, after 20 s\n\nWhat to type next:\n'
