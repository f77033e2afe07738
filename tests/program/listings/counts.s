; How often the context's first byte was seen: a map of 256 counts (--maps 8x256).
start:	ldxb	r6, [ r1 ]
	stxw	[ r10 - 4 ] , r6	; the key
	ldmap r1, 0x0
	mov r2, r10
	add r2, -4
	call 1			; look the value up
	jeq r0, 0, none
	lddw r1, 0x1
	atomic_fetch_add64 [r0], r1
	mov r0, r1
	callf twice
	exit

twice:	lsh r0, 0x1
none:	exit
