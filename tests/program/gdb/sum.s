; Adds up the bytes of the context, each by a call.
        mov r6, 0
        mov r7, r1
        mov r8, r2
loop:   jeq r8, 0, done
        mov r1, r7
        callf one
        add r6, r0
        add r7, 1
        add r8, -1
        ja loop
done:   mov r0, r6
        lddw r1, 7
        exit

one:
        ldxb r0, [r1+0]
        exit
