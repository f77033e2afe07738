; Copies the name at the context's start to the stack, and answers the context's last byte.
; It trusts that a name has at most 7 letters and a zero byte.
        stxdw [r10-8], r1       ; the context's address is kept at r10-8
        mov r3, r10
        add r3, -16             ; the name goes to the 8 bytes below it
copy:   ldxb r4, [r1+0]
        stxb [r3+0], r4
        add r1, 1
        add r3, 1
        jne r4, 0, copy
        ldxdw r1, [r10-8]
        ldxb r0, [r1+15]
        exit
