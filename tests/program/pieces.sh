# pieces: a run of steps leaves what as many steps leave that are taken one at a time. A run keeps common steps a piece of 42 at a time; a single
# step is kept by itself. So both sessions are asked the same: the registers, how many moves come back, and the registers then. `redo` of many moves
# leaves what as many times `redo` leave, likewise.

# (loops that do nothing rare; calls and helpers between; stores of each width, which watches see; a fault and an end within a piece)
cat > plain.s << 'END'
lddw r1, 100000
loop: add r0, 1
stxdw [r10-8], r0
ldxdw r2, [r10-8]
lsh r2, 3
ja on
on: jlt r2, r1, loop
exit
END
cat > rare.s << 'END'
mov r6, 40
mov r7, 0
loop: callf inner
add r7, r0
stxb [r10-1], r7
stxh [r10-4], r7
stxw [r10-8], r7
atomic_add64 [r10-16], r7
add r6, -1
jne r6, 0, loop
mov r0, r7
exit
inner: mov r0, r6
mul r0, 3
xor r0, 0x55
exit
END
cat > fault.s << 'END'
mov r1, r10
loop: stb [r1-1], 7
add r1, -1
ja loop
END

# asked PROGRAM JOURNAL LINES: a session's answers to lines that end in questions.
asked() {
    printf '%s\n' "$3" 'info regs' 'info frames' 'x 0x200000100 256' 'reverse-stepi 100000' 'info regs' 'x 0x200000100 256' |
        "$program" debug --listing --journal "$2" "$1" 2>&1
}

# singles COUNT: as many lines that take a step.
singles() {
    yes 'stepi' | head -n "$1"
}

# alike NAME PROGRAM JOURNAL COUNT [FIRST]: one run, and as many single steps, behind the same first line.
alike() {
    count=$((count + 1))
    asked "$2" "$3" "${5:-info breaks}
stepi $4" | tail -n +3 > run
    asked "$2" "$3" "${5:-info breaks}
$(singles "$4")" | tail -n +$(($4 + 2)) > single
    if ! cmp -s run single || ! [ -s run ]; then
        failures=$((failures + 1))
        echo "FAILED pieces: $1"
        diff single run | head -n 10
    fi
}

for steps in 1 2 41 42 43 44 83 84 85 86 126 127 200; do
    alike "plain, $steps steps" plain.s 65536 "$steps"
    alike "plain, $steps steps, what is dropped" plain.s 1024 "$steps"
    alike "rare, $steps steps" rare.s 65536 "$steps"
    alike "rare, $steps steps, what is dropped" rare.s 1024 "$steps"
done
for journal in 1025 1026 1027 1028 1029 1030 1031 1032 1033 1034 1035 1036 1037 1038 1039 1040 2047; do
    alike "plain, a journal of $journal" plain.s "$journal" 150
    alike "rare, a journal of $journal" rare.s "$journal" 150
done
for steps in 100 500 766 767 768 800; do
    alike "a fault behind $steps" fault.s 4096 "$steps"
done

# again NAME PROGRAM JOURNAL LINES COUNT: behind these lines, one `redo` of so many moves, and as many of one.
again() {
    count=$((count + 1))
    asked "$2" "$3" "$4
redo $5
info history" | tail -n +$(($(printf '%s\n' "$4" | wc -l) + 2)) > run
    asked "$2" "$3" "$4
$(yes redo | head -n "$5")
info history" | tail -n +$(($(printf '%s\n' "$4" | wc -l) + 1 + $5)) > single
    if ! cmp -s run single || ! [ -s run ]; then
        failures=$((failures + 1))
        echo "FAILED pieces: $1"
        diff single run | head -n 10
    fi
}

# (one command undone in part and whole; several commands, edits between them, a breakpoint in the loop, a journal that dropped moves)
for moves in 1 2 41 42 43 84 85 120; do
    for journal in 1024 4096 65536; do
        again "plain, $moves redone, J = $journal" plain.s "$journal" 'stepi 150
reverse-stepi 1000' "$moves"
        again "rare, $moves redone, J = $journal" rare.s "$journal" 'stepi 150
reverse-stepi 1000' "$moves"
        again "plain, commands, $moves redone, J = $journal" plain.s "$journal" 'stepi 50
set reg r3 7
stepi 3
stepi
stepi 60
set mem 0x2000000f8 0102
stepi 44
undo 2
reverse-stepi 120
undo' "$moves"
        again "plain, a breakpoint, $moves redone, J = $journal" plain.s "$journal" 'break 3
continue
continue
stepi 130
watch 0x2000000f8
reverse-stepi 130' "$moves"
    done
done

# Going back: moves between which nothing has to be looked at are taken back together, and one that is looked for, or is marked, an edit, a
# store where bytes are watched, or lies around the end of a block, by itself.

# back NAME PROGRAM JOURNAL LINES COMMAND: behind these lines, a command that goes back, and as many single steps back as it tells; then what
# was taken back is made again.
back() {
    count=$((count + 1))
    skipped=$(printf '%s\n' "$4" | wc -l)
    asked "$2" "$3" "$4
$5
info history
redo 60
info history" | tail -n +$((skipped + 1)) > run
    moves=$(sed -n '1s/ back;.*//p' run)
    asked "$2" "$3" "$4
$(yes reverse-stepi | head -n "$moves")
info history
redo 60
info history" | tail -n +$((skipped + moves)) > single
    sed -i '1s/.*at /at /' run single
    if ! cmp -s run single || ! [ -s run ]; then
        failures=$((failures + 1))
        echo "FAILED pieces: $1"
        diff single run | head -n 10
    fi
}

# first_at NAME PROGRAM JOURNAL LINES SLOT: `reverse-continue` goes back to the latest state at a slot: to the first of as many single steps
# back that is there.
first_at() {
    count=$((count + 1))
    skipped=$(printf '%s\n' "$4" | wc -l)
    told=$(asked "$2" "$3" "$4
reverse-continue" | sed -n "$((skipped + 1))s/ back;.*//p")
    met=$(asked "$2" "$3" "$4
$(yes reverse-stepi | head -n 400)" | tail -n +$((skipped + 1)) | grep -n "; at $5:" | head -n 1 | cut -d: -f1)
    if [ "${told:-none}" != "${met:-no}" ]; then
        failures=$((failures + 1))
        echo "FAILED pieces: $1: told ${told:-nothing}, but ${met:-none} by single steps"
    fi
}

back 'rare, undone' rare.s 65536 'stepi 20
stepi
stepi 130' 'undo 2'
for journal in 1024 1031 4096 65536; do
    for moves in 1 2 5 41 99 150; do
        back "plain, $moves back, J = $journal" plain.s "$journal" 'stepi 150' "reverse-stepi $moves"
        back "rare, $moves back, J = $journal" rare.s "$journal" 'stepi 150' "reverse-stepi $moves"
        back "plain, $moves back, watched, J = $journal" plain.s "$journal" 'stepi 30
watch 0x2000000f8
stepi 3
break 5
stepi 100' "reverse-stepi $moves"
        back "plain, $moves back, then made again, J = $journal" plain.s "$journal" 'stepi 150
reverse-stepi 120
redo 40
reverse-stepi 7
redo 3' "reverse-stepi $moves"
    done
    back "plain, undone, J = $journal" plain.s "$journal" 'stepi 120
stepi 30' undo
    back "plain, continued back, J = $journal" plain.s "$journal" 'stepi 150' reverse-continue
    back "plain, watched back, J = $journal" plain.s "$journal" 'stepi 150
watch 0x2000000f9' reverse-continue
    back "rare, watched back, J = $journal" rare.s "$journal" 'stepi 150
watch 0x2000000ff' reverse-continue
    for slot in 2 3 4 5 7; do
        first_at "plain, back to a breakpoint at $slot, J = $journal" plain.s "$journal" "stepi 150
break $slot" "$slot"
    done
    for slot in 2 5 9 14; do
        first_at "rare, back to a breakpoint at $slot, J = $journal" rare.s "$journal" "stepi 150
break $slot" "$slot"
    done
done
