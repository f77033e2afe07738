; Counts packets by the first byte of the context, modulo 4, in map 0: four counters of 8 bytes.
        ldxb r6, [r1+0]
        and r6, 3
        stxw [r10-4], r6        ; the key
        ldmap r1, 0
        mov r2, r10
        add r2, -4
        call 1                  ; lookup: r0 is the counter's address, or 0
        jeq r0, 0, done
        mov r1, 1
        atomic_add64 [r0+0], r1
        ldxdw r0, [r0+0]
done:   exit
