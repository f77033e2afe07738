; The sum of the context's bytes.
; r1 points at them, r2 is their number.
        mov r0, 0
loop:   jeq r2, 0, done     ; no byte is left
        ldxb r3, [r1+0]
        add r0, r3
        add r1, 1
        add r2, -1
        ja loop
done:   exit
