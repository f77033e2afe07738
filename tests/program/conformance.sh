# bpfdb-conformance, the plugin of the bpf_conformance project: words in hexadecimal in, r0 in hexadecimal out.

# plugin STATUS INPUT OUTPUT ERRORS WORD..: the plugin on a line of standard input.
plugin() {
    status=$1 output=$3 errors=$4 typed=$2
    shift 4
    printf '%b' "$typed" | BPFDB=$program "$top/share/bpfdb-conformance" "$@" > found/out 2> found/err
    echo $? > found/status
    check "bpfdb-conformance $* < '$typed'" "$status" "$output" "$errors"
}

exits='95 00 00 00 00 00 00 00'
answer="b7 00 00 00 2a 00 00 00 $exits"
loads="71 10 01 00 00 00 00 00 $exits"
length="bf 20 00 00 00 00 00 00 $exits"
endless='05 00 ff ff 00 00 00 00'
plugin 0 "$answer\n" '2a\n' ''
plugin 0 "$answer" '2a\n' '' ''
plugin 0 'b7000000ffffffff9500000000000000\n' 'ffffffffffffffff\n' ''
plugin 0 'B7000000FFFFFFFF9500000000000000\r\n' 'ffffffffffffffff\n' ''
plugin 0 "$loads\n" '2\n' '' '01 02'
plugin 0 "$loads\n" 'fe\n' '' 01FE
plugin 0 "$length\n" '3\n' '' '00 0a 25'
plugin 0 "$length\n" '0\n' '' ''
plugin 0 '' '2a\n' '' --program "$answer"
plugin 0 '' '2\n' '' '01 02' --program "$loads"
plugin 0 '' '2\n' '' '01 02' --program "$loads" --debug
plugin 0 "$answer\n" '2a\n' '' '' --debug
plugin 1 "$loads\n" '' 'fault access 0x1 at 0\n' ''
plugin 1 "$endless\n" '' 'step limit 7 reached at 0\n' '' --steps 7
plugin 2 "$endless $exits ff 00 00 00 00 00 00 00\n" '' 'refused C4 at slot 2: unknown instruction\n'
plugin 2 '95 00\n' '' 'refused C3: length is no multiple of 8\n'
plugin 2 'exit\n' '' "bpfdb-conformance: program isn't hexadecimal digits\n"
plugin 2 "$answer\n" '' "bpfdb-conformance: memory has half a byte\n" 012
plugin 2 '' '' 'bpfdb-conformance: there is no program\n'
plugin 2 '' '' 'bpfdb-conformance: --program needs the words of a program\n' --program

# bpfdb lies beside it where it isn't on the PATH, and is missed by name.
mkdir beside
cp "$top/share/bpfdb-conformance" beside
for row in '0|2a\n|' '2||bpfdb-conformance: cannot find beside/bpfdb\n'; do
    [ "${row%%|*}" = 2 ] || ln -s "$program" beside/bpfdb
    (unset BPFDB && PATH=/usr/bin:/bin beside/bpfdb-conformance --program "$answer") > found/out 2> found/err
    echo $? > found/status
    text=${row#*|}
    check 'bpfdb-conformance: bpfdb beside it, or nowhere' "${row%%|*}" "${text%|*}" "${text#*|}"
    rm -f beside/bpfdb
done

# What can't be written is no answer.
if [ -c /dev/full ]; then
    BPFDB=$program "$top/share/bpfdb-conformance" --program "$answer" > /dev/full 2> found/err
    echo $? > found/status
    : > found/out
    check 'bpfdb-conformance: a full output' 2 '' 'bpfdb-conformance: cannot write output\n'
fi
printf '%b' "$answer\n" | BPFDB=$program "$top/share/bpfdb-conformance" > found/out 2>&-
echo $? > found/status
: > found/err
check 'bpfdb-conformance: a closed standard error' 0 '2a\n' ''
memory=$(awk 'BEGIN { for (i = 0; i < 20000; i++) printf "00" }')
(trap '' XFSZ && ulimit -f 8 && BPFDB=$program "$top/share/bpfdb-conformance" "$memory" --program "$length") > found/out 2> found/err
echo $? > found/status
check 'bpfdb-conformance: a file that is cut' 2 '' 'bpfdb-conformance: cannot write memory\n'
plugin 0 "$length\n" '4e20\n' '' "$memory"
