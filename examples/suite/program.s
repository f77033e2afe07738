; Lowers the time to live of an IPv4 header, the byte at 8, by 1.
; r0 is 1; or 0, and nothing is changed, where the header is too short or the time to live is 0 or 1.
        jlt r2, 20, drop
        ldxb r3, [r1+8]
        jle r3, 1, drop
        add r3, -1
        stxb [r1+8], r3
        mov r0, 1
        exit
drop:   mov r0, 0
        exit
