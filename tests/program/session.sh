# Sessions of the program that is built in, which is debugged where the command line has no word: mov r0, 42 and exit; and README's.

exit_at_1='1 forward; done; at 1: exit\n'
mov_at_0='1 back; start; at 0: mov r0, 42\n'
q1='refused Q1: unknown command\n'
q2='refused Q2: wrong argument\n'
q12='refused Q12: line too long\n'

session 'the first session' "$(text "$top/crates/bpfdb/stdin")" "$(text "$top/crates/bpfdb/stdout")"
session "README's session" "$(text "$top/tests/session/script")" "$(text "$top/tests/session/replies")" \
    debug -m "$top/examples/overrun/context.bin" "$top/examples/overrun/program.bin"
session 'an empty script' '' ''
session 'quit without a line feed' 'quit' ''
session 'nothing behind quit is obeyed' 'stepi\nquit\nstepi\n' "$exit_at_1"
session 'blanks, empty lines and a last line without a line feed' \
    'stepi\r\n\n \t\nquit now\nreverse-stepi 0x2' "$exit_at_1$q2$mov_at_0"
session 'bytes that are no text' '\0377\nstepi\0000\nset\n' "$q1$q1$q2"
session 'breakpoints and the ways back to them' \
    'break 1\ncontinue\ninfo breaks\nset reg r3 0x10\ninfo history\nundo\nrc\ndelete 1\ninfo breaks\ncontinue\nundo\n' \
    "ok\n1 forward; break; at 1: exit\nbreak 1\nok\n2 moves, 2 commands, 30 of 65536 bytes\n1 back; done; at 1: exit\n\
1 back; start; at 0: mov r0, 42\nok\nnone\n2 forward; end; exited at 1: r0 0x2a\n2 back; done; at 0: mov r0, 42\n"
session 'what is shown' 'disas 0 9\nx 0x200000000 4\nx 0x200000000 257\nx 0x100000000 1\ninfo frames\ninfo trace\n' \
    "0: mov r0, 42\n1: exit\n0x200000000: 00000000\n${q2}refused Q6: address not present\ndepth 0\ntrace 0\n"
session 'commands that there are none of' 'next\nstep\nprint r0\nframe\n' "$q1$q1$q1$q1"

head -c 100000 /dev/zero > script
run
check 'a line of 100,000 zero bytes' 0 "$q12" ''

# Many commands: there and back 5,000 times.
awk 'BEGIN { for (i = 0; i < 5000; i++) print "stepi\nreverse-stepi" }' > script
run
check 'ten thousand commands' 0 "$(awk 'BEGIN { for (i = 0; i < 5000; i++)
    printf "1 forward; done; at 1: exit\\n1 back; done; at 0: mov r0, 42\\n" }')" ''

# Moves that go back, come again or are looked at many at once: a function of 202 steps, entered by step 2 and left by step 204. Its loop's
# `add` are the even steps from 4 on.
cat > deep.s << 'END'
mov r6, 0
callf f
add r6, 1
exit
f: mov r1, 100
loop: add r1, -1
jne r1, 0, loop
exit
END
at_call='at 1: callf L4\n'
at_jne='at 6: jne r1, 0, L5\n'
session 'reverse-finish out of a loop, and redo back into it' 'stepi 150\nreverse-finish\nredo 149\nreverse-finish\n' \
    "150 forward; done; ${at_jne}149 back; done; ${at_call}149 redone; done; ${at_jne}149 back; done; $at_call" debug --listing deep.s
session 'reverse-finish of moves of two commands, past a breakpoint and with a watch' \
    'stepi 100\nstepi 50\nbreak 5\nwatch 0x200000000\nreverse-finish\n' \
    "100 forward; done; ${at_jne}50 forward; done; ${at_jne}ok\nok\n149 back; done; $at_call" debug --listing deep.s
session 'reverse-nexti over a call with a loop' 'stepi 205\nreverse-nexti\nreverse-nexti\nredo 203\nreverse-nexti\nreverse-nexti\nreverse-nexti\n' \
    "205 forward; done; at 3: exit\n1 back; done; at 2: add r6, 1\n203 back; done; ${at_call}203 redone; done; at 2: add r6, 1\n\
203 back; done; ${at_call}1 back; done; at 0: mov r6, 0\nrefused Q4: no kept step\n" debug --listing deep.s
session 'redo of three commands keeps where each began' 'stepi 20\nstepi 20\nstepi 20\nreverse-stepi 60\nredo 60\ninfo history\nundo\nundo 2\n' \
    "20 forward; done; ${at_jne}20 forward; done; ${at_jne}20 forward; done; ${at_jne}60 back; done; at 0: mov r6, 0\n\
60 redone; done; ${at_jne}60 moves, 3 commands, 1211 of 65536 bytes\n20 back; done; ${at_jne}40 back; done; at 0: mov r6, 0\n" debug --listing deep.s

# Watched bytes in the frames of calls, at their edges, and beside them. Frame 1 has the addresses from 0x200000400 to 0x2000005ff, frame 2 those
# from 0x200000800 to 0x2000009ff. A call makes the bytes of the frame that it enters zero.
cat > frames.s << 'END'
mov r6, 3
loop: callf f
add r6, -1
jne r6, 0, loop
exit
f: stb [r10-1], 1
stb [r10-512], 1
exit
END
first='at 5: stb [r10-1], 1\n'
second='at 6: stb [r10-512], 1\n'
third='at 7: exit\n'
ended='end; exited at 4: r0 0x0\n'
session 'a watch on the last byte of a frame that calls enter' 'watch 0x2000005ff\ncontinue\ncontinue\ncontinue\ncontinue\ncontinue\ncontinue\nrc\nrc\n' \
    "ok\n3 forward; watch; ${second}5 forward; watch; ${first}1 forward; watch; ${second}5 forward; watch; ${first}1 forward; watch; ${second}\
5 forward; ${ended}6 back; watch; ${first}1 back; watch; at 1: callf L5\n" debug --listing frames.s
session 'a watch on its first byte' 'watch 0x200000400\ncontinue\ncontinue\ncontinue\ncontinue\ncontinue\ncontinue\n' \
    "ok\n4 forward; watch; ${third}4 forward; watch; ${first}2 forward; watch; ${third}4 forward; watch; ${first}2 forward; watch; ${third}\
4 forward; $ended" debug --listing frames.s
history='20 moves, 1 commands, 1866 of 65536 bytes\n'
back='20 back; done; at 0: mov r6, 3\n'
session 'a watch on the last byte of the frame below' 'watch 0x2000001ff\ncontinue\ninfo history\nundo\n' \
    "ok\n20 forward; $ended$history$back" debug --listing frames.s
session 'a watch on the first byte of the frame above' 'watch 0x200000800\ncontinue\ninfo history\nundo\n' \
    "ok\n20 forward; $ended$history$back" debug --listing frames.s
session 'watches on both sides of a frame' 'watch 0x2000001ff\nwatch 0x200000800\ncontinue\ninfo history\nundo\n' \
    "ok\nok\n20 forward; $ended$history$back" debug --listing frames.s
cat > nested.s << 'END'
callf g
exit
g: callf f
stb [r10-1], 9
callf f
exit
f: stb [r10-1], 7
stb [r10-512], 7
exit
END
session 'a watch on a frame below one that calls enter' 'watch 0x2000005ff\ncontinue\ncontinue\nrc\nrc\n' \
    'ok\n6 forward; watch; at 4: callf L6\n6 forward; end; exited at 1: r0 0x0\n7 back; watch; at 3: stb [r10-1], 9\n5 back; start; at 0: callf L2\n' \
    debug --listing nested.s
session 'a watch on the frame of the inner one of two calls' 'watch 0x2000009ff\ncontinue\ncontinue\ncontinue\ncontinue\n' \
    'ok\n3 forward; watch; at 7: stb [r10-512], 7\n4 forward; watch; at 6: stb [r10-1], 7\n1 forward; watch; at 7: stb [r10-512], 7\n'\
'4 forward; end; exited at 1: r0 0x0\n' debug --listing nested.s

# A byte that is written by step 2, and 148 moves later looked for; an edit of a register, one of the byte and one of another between them.
cat > writes.s << 'END'
mov r1, 7
stxb [r10-1], r1
mov r2, 100
loop: add r2, -1
jne r2, 0, loop
exit
END
session 'last-write over moves that wrote no byte' \
    'stepi 150\nlast-write 0x2000001ff\nset reg r3 1\nstepi 2\nlast-write 0x2000001ff\nlast-write 0x2000001fe\nset mem 0x2000001ff 09\nstepi\nlast-write 0x2000001ff\n' \
    '150 forward; done; at 4: jne r2, 0, L3\nchanged 149 moves back: 0x0 to 0x7\nok\n2 forward; done; at 4: jne r2, 0, L3\n'\
'changed 152 moves back: 0x0 to 0x7\nnot changed in 153 kept moves\nok\n1 forward; done; at 3: add r2, -1\nchanged 2 moves back: 0x7 to 0x9\n' \
    debug --listing writes.s
