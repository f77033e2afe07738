; Adds up the numbers of the records in the context. A record is a byte with its length, a byte with its number, and perhaps more
; bytes, which are passed over. A length of 0 ends the list.
next:   ldxb r3, [r1+0]         ; the record's length
        jeq r3, 0, done
        ldxb r4, [r1+1]         ; its number
        add r0, r4
        add r1, r3
        ja next
done:   exit
