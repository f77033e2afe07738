# Calls of a run (`trace --calls`): which are told, with what, and what they returned. The lines were worked out by hand from docs/COMMANDS.md and
# docs/MACHINE.md: frame 0 ends at 0x200000200 and frame 1 at 0x200000600, a map's token is 0x400000000 and its number, and its values follow 0x300000000.

# called NAME STATUS OUTPUT ARGUMENT..: a run of `trace --calls` over the listing `p` gives this output, and nothing else.
called() {
    name=$1 status=$2 output=$3
    shift 3
    row "$name" "$status" "$script_unread" "$output" '' trace --calls --listing "$@" p
}

# Each helper, from the program and from a function of it: of a listing a local call isn't told. Of the stack four bytes are left behind the key, and eight or
# more elsewhere.
cat > p <<'LISTING'
        stw [r10-4], 1
        stdw [r10-16], 0x1234
        mov r2, r10
        add r2, -4
        mov r3, r10
        add r3, -16
        mov r4, 0
        ldmap r1, 0
        call 2
        callf f
        exit
f:      ldmap r1, 0
        stdw [r10-8], 7
        mov r2, r10
        add r2, -8
        call 1
        mov r1, r0
        call 64
        exit
LISTING
cat > all <<'LINES'
9 9: bpf_map_update_elem(0x400000000, 0x2000001fc=01000000, 0x2000001f0=3412000000000000, 0x0) = 0x0
15 17: bpf_map_lookup_elem(0x400000000, 0x2000005f8=0700000000000000) = 0x0
17 19: trace(0x0) = 0x0
exited at 11: r0 0x0
LINES
called 'each helper' 0 "$(text all)" --maps 8x2
"$program" asm p > words
row 'each helper, called by words' 0 "$script_unread" "$(text all)" '' trace --calls --maps 8x2 words
sed -n '1p' all > some
echo 'step limit 14 reached at 17' >> some
called 'calls up to the limit' 1 "$(text some)" --maps 8x2 --steps 14
sed -n '1,2p' all > some
echo 'step limit 15 reached at 18' >> some
called 'a call that is the last step' 1 "$(text some)" --maps 8x2 --steps 15
called 'calls of all steps' 0 "$(text all)" --maps 8x2 --from 16 --count 1

# A helper that faults doesn't return: the first key's address is none, and then the token.
printf 'ldmap r1, 0\nmov r2, 5\ncall 1\nexit\n' > p
called 'a call that faults' 1 '3 3: bpf_map_lookup_elem(0x400000000, 0x5) = no return\nfault access 0x5 at 3\n' --maps 8x2
printf 'mov r1, 9\ncall 2\nexit\n' > p
called 'a call without a map' 1 '2 1: bpf_map_update_elem(0x9, 0x0, 0x0, 0x0) = no return\nfault token 0x9 at 1\n' --maps 8x2

# An address at the end of the stack has nothing behind it, and one between two frames, neither.
printf 'mov r1, r10\ncall 64\nadd r1, -3\ncall 64\nadd r1, -1\ncall 64\nexit\n' > p
called 'bytes behind arguments' 0 '2 1: trace(0x200000200) = 0x0\n4 3: trace(0x2000001fd) = 0x0\n6 5: trace(0x2000001fc=00000000) = 0x0\nexited at 6: r0 0x0\n'

# A million steps, of which every fourth one calls.
printf 'mov r1, 1\nloop: mov r0, 0\nadd r2, 1\ncall 64\nja loop\n' > p
"$program" trace --calls --listing --steps 1000001 p > found/out
count=$((count + 1))
[ "$(wc -l < found/out)" = 250001 ] && [ "$(tail -n 2 found/out)" = '1000000 3: trace(0x1) = 0xffffffffffffffff
step limit 1000001 reached at 1' ] || complain "calls of a million steps: $(tail -n 2 found/out)"

# It goes with none that tells otherwise.
for option in --branches --profile --strict; do
    usage "the argument '--calls' cannot be used with '$option'" trace --calls "$option" --listing p
done
usage "unexpected argument '--calls' found" run --calls words
