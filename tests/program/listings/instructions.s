; Every instruction in every form, run: each result is held against the one that the formulas of RFC 9669 give, which was worked
; out by hand and stands beside it. At the end r0 is 1 where all are as they should be, else the number of the first group with
; another result, which r9 holds. (--maps 8x256)

; lddw, against the same number made of its halves.
        mov r9, 2
        lddw r0, 0x8877665544332211
        mov32 r1, 0x88776655            ; r1 = 0x88776655
        lsh r1, 32                      ; r1 = 0x8877665500000000
        mov32 r2, 0x44332211            ; r2 = 0x44332211
        or r1, r2                       ; r1 = 0x8877665544332211
        jeq r0, r1, wide
        mov r0, 2
        exit
wide:   jne r0, r1, fail

; ja, ja32
        mov r9, 3
        ja near
        mov r0, 3
        exit
near:   ja32 far
        mov r0, 3
        exit

; The operands of what follows: r6 is negative and has 5 in its low half, r7 is 3, and r8 has 3 in its low half.
far:    lddw r6, 0xfffffffe00000005     ; -2^33 + 5
        mov r7, 3
        lddw r8, 0x700000003

; mov
        mov r9, 4
        mov r0, r6                      ; r0 = 0xfffffffe00000005
        jne r0, r6, fail
        jeq r0, 5, fail
        mov r0, -2                      ; r0 = 2^64 - 2
        lddw r5, 0xfffffffffffffffe
        jne r0, r5, fail
        mov32 r0, r6                    ; r0 = 5
        jne r0, 5, fail
        mov32 r0, -2                    ; r0 = 2^32 - 2
        lddw r5, 0xfffffffe
        jne r0, r5, fail

; add
        mov r9, 5
        mov r0, r6
        add r0, r7                      ; r0 = -2^33 + 5 + 3
        lddw r5, 0xfffffffe00000008
        jne r0, r5, fail
        add r0, -6                      ; r0 = -2^33 + 8 - 6
        lddw r5, 0xfffffffe00000002
        jne r0, r5, fail
        mov r0, r6
        add32 r0, r8                    ; r0 = 5 + 3
        jne r0, 8, fail
        add32 r0, -9                    ; r0 = (8 - 9) mod 2^32
        lddw r5, 0xffffffff
        jne r0, r5, fail

; sub
        mov r9, 6
        mov r0, r6
        sub r0, r7                      ; r0 = -2^33 + 5 - 3
        lddw r5, 0xfffffffe00000002
        jne r0, r5, fail
        sub r0, 3                       ; r0 = -2^33 + 2 - 3
        lddw r5, 0xfffffffdffffffff
        jne r0, r5, fail
        mov r0, r6
        sub32 r0, r8                    ; r0 = 5 - 3
        jne r0, 2, fail
        sub32 r0, 3                     ; r0 = (2 - 3) mod 2^32
        lddw r5, 0xffffffff
        jne r0, r5, fail

; mul
        mov r9, 7
        mov r0, r6
        mul r0, r7                      ; r0 = -6 * 2^32 + 15
        lddw r5, 0xfffffffa0000000f
        jne r0, r5, fail
        mul r0, -2                      ; r0 = 12 * 2^32 - 30
        lddw r5, 0xbffffffe2
        jne r0, r5, fail
        mov r0, r6
        mul32 r0, r8                    ; r0 = 5 * 3
        jne r0, 15, fail
        mul32 r0, -2                    ; r0 = -30 mod 2^32
        lddw r5, 0xffffffe2
        jne r0, r5, fail

; div: of 0xfffffffe by 3 it is 0x55555554, and 2 are left; of 2 * 2^32 + 5 it is 0xaaaaaaac. By 0 it is 0.
        mov r9, 8
        mov r0, r6
        div r0, r7                      ; r0 = 0x55555554aaaaaaac
        lddw r5, 0x55555554aaaaaaac
        jne r0, r5, fail
        mov r0, r6
        div r0, 16                      ; r0 = 0x0fffffffe0000000
        lddw r5, 0x0fffffffe0000000
        jne r0, r5, fail
        div r0, 0                       ; r0 = 0
        jne r0, 0, fail
        mov r0, -1
        div r0, -1                      ; r0 = (2^64 - 1) / (2^64 - 1)
        jne r0, 1, fail
        mov r0, r6
        div32 r0, r8                    ; r0 = 5 / 3
        jne r0, 1, fail
        mov r0, -5
        div32 r0, 16                    ; r0 = 0xfffffffb / 16
        jne r0, 0x0fffffff, fail

; sdiv: towards 0
        mov r9, 9
        mov r0, r6
        sdiv r0, r7                     ; r0 = -8589934587 / 3 = -2863311529 = -0xaaaaaaa9
        lddw r5, 0xffffffff55555557
        jne r0, r5, fail
        mov r0, -7
        sdiv r0, 2                      ; r0 = -3
        jne r0, -3, fail
        lddw r0, 0x5fffffff9            ; the low half is -7
        sdiv32 r0, r8                   ; r0 = -2 mod 2^32
        lddw r5, 0xfffffffe
        jne r0, r5, fail
        mov r0, 7
        sdiv32 r0, -2                   ; r0 = -3 mod 2^32
        lddw r5, 0xfffffffd
        jne r0, r5, fail

; mod: by 0 it is the dividend
        mov r9, 10
        mov r0, r6
        mod r0, r7                      ; r0 = 0xfffffffe00000005 - 3 * 0x55555554aaaaaaac
        jne r0, 1, fail
        mov r0, r6
        mod r0, 16                      ; r0 = 5
        jne r0, 5, fail
        mod r0, 0                       ; r0 = 5
        jne r0, 5, fail
        mod r0, -1                      ; r0 = 5 mod (2^64 - 1)
        jne r0, 5, fail
        mov r0, r6
        mod32 r0, r8                    ; r0 = 5 mod 3
        jne r0, 2, fail
        mov r0, -5
        mod32 r0, 16                    ; r0 = 0xfffffffb mod 16
        jne r0, 11, fail

; smod: with the sign of the dividend
        mov r9, 11
        mov r0, r6
        mov r1, 4
        smod r0, r1                     ; r0 = -8589934587 + 4 * 2147483646
        jne r0, -3, fail
        mov r0, 7
        smod r0, -4                     ; r0 = 7 - 4
        jne r0, 3, fail
        lddw r0, 0x5fffffff9            ; the low half is -7
        smod32 r0, r8                   ; r0 = (-7 + 6) mod 2^32
        lddw r5, 0xffffffff
        jne r0, r5, fail
        mov r0, -7
        smod32 r0, 4                    ; r0 = (-7 + 4) mod 2^32
        lddw r5, 0xfffffffd
        jne r0, r5, fail

; or: 0xfffffffe and 7 give 0xffffffff, 5 and 3 give 7
        mov r9, 12
        mov r0, r6
        or r0, r8                       ; r0 = 0xffffffff00000007
        lddw r5, 0xffffffff00000007
        jne r0, r5, fail
        mov r0, r7
        or r0, -16                      ; r0 = 0xfffffffffffffff3
        jne r0, -13, fail
        mov r0, r6
        or32 r0, r8                     ; r0 = 7
        jne r0, 7, fail
        or32 r0, -16                    ; r0 = 0xfffffff7
        lddw r5, 0xfffffff7
        jne r0, r5, fail

; and: 0xfffffffe and 7 give 6, 5 and 3 give 1
        mov r9, 13
        mov r0, r6
        and r0, r8                      ; r0 = 0x600000001
        lddw r5, 0x600000001
        jne r0, r5, fail
        mov r0, r6
        and r0, -4                      ; r0 = 0xfffffffe00000004
        lddw r5, 0xfffffffe00000004
        jne r0, r5, fail
        mov r0, r6
        and32 r0, r8                    ; r0 = 1
        jne r0, 1, fail
        mov r0, -1
        and32 r0, -4                    ; r0 = 0xfffffffc
        lddw r5, 0xfffffffc
        jne r0, r5, fail

; xor: 0xfffffffe and 7 give 0xfffffff9, 5 and 3 give 6
        mov r9, 14
        mov r0, r6
        xor r0, r8                      ; r0 = 0xfffffff900000006
        lddw r5, 0xfffffff900000006
        jne r0, r5, fail
        xor r0, -1                      ; r0 = 0x6fffffff9
        lddw r5, 0x6fffffff9
        jne r0, r5, fail
        mov r0, r6
        xor32 r0, r8                    ; r0 = 6
        jne r0, 6, fail
        xor32 r0, -1                    ; r0 = 0xfffffff9
        lddw r5, 0xfffffff9
        jne r0, r5, fail

; Shifts by r1: 100 is 36 mod 64 and 4 mod 32.
        mov r1, 100

; lsh
        mov r9, 15
        mov r0, r6
        lsh r0, r1                      ; r0 = 5 * 2^36
        lddw r5, 0x5000000000
        jne r0, r5, fail
        mov r0, r6
        lsh r0, 4                       ; r0 = 0xffffffe000000050
        lddw r5, 0xffffffe000000050
        jne r0, r5, fail
        mov r0, r6
        lsh32 r0, r1                    ; r0 = 5 * 2^4
        jne r0, 0x50, fail
        lsh32 r0, 25                    ; r0 = 0x50 * 2^25 = 5 * 2^29
        lddw r5, 0xa0000000
        jne r0, r5, fail

; rsh
        mov r9, 16
        mov r0, r6
        rsh r0, r1                      ; r0 = 0xfffffffe / 2^4
        jne r0, 0x0fffffff, fail
        mov r0, r6
        rsh r0, 4                       ; r0 = 0x0fffffffe0000000
        lddw r5, 0x0fffffffe0000000
        jne r0, r5, fail
        mov r0, -5
        rsh32 r0, r1                    ; r0 = 0xfffffffb / 2^4
        jne r0, 0x0fffffff, fail
        rsh32 r0, 24                    ; r0 = 0xf
        jne r0, 15, fail

; arsh
        mov r9, 17
        mov r0, r6
        arsh r0, r1                     ; r0 = -1, the floor of -8589934587 / 2^36
        jne r0, -1, fail
        mov r0, r6
        arsh r0, 4                      ; r0 = 0xffffffffe0000000
        lddw r5, 0xffffffffe0000000
        jne r0, r5, fail
        mov r0, -5
        arsh32 r0, r1                   ; r0 = -1 mod 2^32
        lddw r5, 0xffffffff
        jne r0, r5, fail
        lddw r0, 0x180000010
        arsh32 r0, 4                    ; r0 = 0xf8000001
        lddw r5, 0xf8000001
        jne r0, r5, fail

; neg
        mov r9, 18
        mov r0, r6
        neg r0                          ; r0 = 2^33 - 5
        lddw r5, 0x1fffffffb
        jne r0, r5, fail
        mov r0, r6
        neg32 r0                        ; r0 = -5 mod 2^32
        lddw r5, 0xfffffffb
        jne r0, r5, fail

; movsx: the top bit of 81, of 8281 and of 84838281 is 1
        mov r9, 19
        lddw r1, 0x0706050484838281
        movsx8 r0, r1                   ; r0 = 0x81 - 2^8
        jne r0, -127, fail
        movsx16 r0, r1                  ; r0 = 0x8281 - 2^16
        jne r0, -32127, fail
        movsx32 r0, r1                  ; r0 = 0xffffffff84838281
        lddw r5, 0xffffffff84838281
        jne r0, r5, fail
        movsx8_32 r0, r1                ; r0 = 0xffffff81
        lddw r5, 0xffffff81
        jne r0, r5, fail
        movsx16_32 r0, r1               ; r0 = 0xffff8281
        lddw r5, 0xffff8281
        jne r0, r5, fail

; le, be, swap: of 2, 4 or 8 bytes; the others are then 0
        mov r9, 20
        lddw r1, 0x0807060504030201
        mov r0, r1
        le16 r0                         ; r0 = 0x0201
        jne r0, 0x0201, fail
        mov r0, r1
        le32 r0                         ; r0 = 0x04030201
        jne r0, 0x04030201, fail
        mov r0, r1
        le64 r0                         ; r0 = r1
        jne r0, r1, fail
        mov r0, r1
        be16 r0                         ; r0 = 0x0102
        jne r0, 0x0102, fail
        mov r0, r1
        be32 r0                         ; r0 = 0x01020304
        jne r0, 0x01020304, fail
        mov r0, r1
        be64 r0                         ; r0 = 0x0102030405060708
        lddw r5, 0x0102030405060708
        jne r0, r5, fail
        mov r0, r1
        swap16 r0                       ; r0 = 0x0102
        jne r0, 0x0102, fail
        mov r0, r1
        swap32 r0                       ; r0 = 0x01020304
        jne r0, 0x01020304, fail
        mov r0, r1
        swap64 r0                       ; r0 = 0x0102030405060708
        jne r0, r5, fail

; Jumps of 64 bits. Without sign r6 > r7 = 3 and r7 < -1, with sign r6 < r7 and r7 > -1. r5 is r6, and r8 has the low half of r7.
        mov r5, r6

; jeq, jne
        mov r9, 21
        jeq r5, r6, jeq1
        ja fail
jeq1:   jeq r8, r7, fail
        jeq r7, 3, jeq2
        ja fail
jeq2:   jeq r8, 3, fail
        jne r8, r7, jne1
        ja fail
jne1:   jne r5, r6, fail
        jne r8, 3, jne2
        ja fail
jne2:   jne r7, 3, fail

; jgt
        mov r9, 22
        jgt r6, r7, jgt1
        ja fail
jgt1:   jgt r5, r6, fail
        jgt r7, r6, fail
        jgt r6, 3, jgt2
        ja fail
jgt2:   jgt r7, 3, fail
        jgt r7, -1, fail

; jge
        mov r9, 23
        jge r6, r7, jge1
        ja fail
jge1:   jge r5, r6, jge2
        ja fail
jge2:   jge r7, r6, fail
        jge r6, 3, jge3
        ja fail
jge3:   jge r7, 3, jge4
        ja fail
jge4:   jge r7, -1, fail

; jlt
        mov r9, 24
        jlt r6, r7, fail
        jlt r5, r6, fail
        jlt r7, r6, jlt1
        ja fail
jlt1:   jlt r6, 3, fail
        jlt r7, 3, fail
        jlt r7, -1, jle
        ja fail

; jle
jle:    mov r9, 25
        jle r6, r7, fail
        jle r5, r6, jle1
        ja fail
jle1:   jle r7, r6, jle2
        ja fail
jle2:   jle r6, 3, fail
        jle r7, 3, jle3
        ja fail
jle3:   jle r7, -1, jsgt
        ja fail

; jsgt
jsgt:   mov r9, 26
        jsgt r6, r7, fail
        jsgt r5, r6, fail
        jsgt r7, r6, jsgt1
        ja fail
jsgt1:  jsgt r6, 3, fail
        jsgt r7, 3, fail
        jsgt r7, -1, jsge
        ja fail

; jsge
jsge:   mov r9, 27
        jsge r6, r7, fail
        jsge r5, r6, jsge1
        ja fail
jsge1:  jsge r7, r6, jsge2
        ja fail
jsge2:  jsge r6, 3, fail
        jsge r7, 3, jsge3
        ja fail
jsge3:  jsge r7, -1, jslt
        ja fail

; jslt
jslt:   mov r9, 28
        jslt r6, r7, jslt1
        ja fail
jslt1:  jslt r5, r6, fail
        jslt r7, r6, fail
        jslt r6, 3, jslt2
        ja fail
jslt2:  jslt r7, 3, fail
        jslt r7, -1, fail

; jsle
        mov r9, 29
        jsle r6, r7, jsle1
        ja fail
jsle1:  jsle r5, r6, jsle2
        ja fail
jsle2:  jsle r7, r6, fail
        jsle r6, 3, jsle3
        ja fail
jsle3:  jsle r7, 3, jsle4
        ja fail
jsle4:  jsle r7, -1, fail

; jset: r8 has a bit of r1 in its high half, r6 none of 2, and one of the high half that the number's sign makes.
        mov r9, 30
        lddw r1, 0x400000000
        jset r8, r1, jset1
        ja fail
jset1:  jset r7, r1, fail
        jset r6, -2147483648, jset2
        ja fail
jset2:  jset r6, 2, fail

; Jumps of 32 bits. The low half of r4 is -5, and those of r8 and r7 are 3. Without sign r4 > r8 and r8 < -5, with sign r4 < r8
; and r8 > -5; and r4 < r8 where all 64 bits count.
        lddw r4, 0x1fffffffb

; jeq32, jne32
        mov r9, 31
        jeq32 r8, r7, jeq3
        ja fail
jeq3:   jeq32 r4, r7, fail
        jeq32 r8, 3, jeq4
        ja fail
jeq4:   jeq32 r4, 3, fail
        jne32 r4, r7, jne3
        ja fail
jne3:   jne32 r8, r7, fail
        jne32 r4, 3, jne4
        ja fail
jne4:   jne32 r8, 3, fail

; jgt32
        mov r9, 32
        jgt32 r4, r8, jgt3
        ja fail
jgt3:   jgt32 r8, r7, fail
        jgt32 r8, r4, fail
        jgt32 r4, 3, jgt4
        ja fail
jgt4:   jgt32 r8, 3, fail
        jgt32 r8, -5, fail

; jge32
        mov r9, 33
        jge32 r4, r8, jge5
        ja fail
jge5:   jge32 r7, r8, jge6
        ja fail
jge6:   jge32 r8, r4, fail
        jge32 r4, 3, jge7
        ja fail
jge7:   jge32 r8, 3, jge8
        ja fail
jge8:   jge32 r8, -5, fail

; jlt32
        mov r9, 34
        jlt32 r4, r8, fail
        jlt32 r7, r8, fail
        jlt32 r8, r4, jlt2
        ja fail
jlt2:   jlt32 r4, 3, fail
        jlt32 r8, 3, fail
        jlt32 r8, -5, jle32
        ja fail

; jle32
jle32:  mov r9, 35
        jle32 r4, r8, fail
        jle32 r8, r7, jle4
        ja fail
jle4:   jle32 r8, r4, jle5
        ja fail
jle5:   jle32 r4, 3, fail
        jle32 r8, 3, jle6
        ja fail
jle6:   jle32 r8, -5, jsgt32
        ja fail

; jsgt32
jsgt32: mov r9, 36
        jsgt32 r4, r8, fail
        jsgt32 r8, r7, fail
        jsgt32 r8, r4, jsgt2
        ja fail
jsgt2:  jsgt32 r4, 3, fail
        jsgt32 r8, 3, fail
        jsgt32 r8, -5, jsge32
        ja fail

; jsge32
jsge32: mov r9, 37
        jsge32 r4, r8, fail
        jsge32 r7, r8, jsge4
        ja fail
jsge4:  jsge32 r8, r4, jsge5
        ja fail
jsge5:  jsge32 r4, 3, fail
        jsge32 r8, 3, jsge6
        ja fail
jsge6:  jsge32 r8, -5, jslt32
        ja fail

; jslt32
jslt32: mov r9, 38
        jslt32 r4, r8, jslt3
        ja fail
jslt3:  jslt32 r7, r8, fail
        jslt32 r8, r4, fail
        jslt32 r4, 3, jslt4
        ja fail
jslt4:  jslt32 r8, 3, fail
        jslt32 r8, -5, fail

; jsle32
        mov r9, 39
        jsle32 r4, r8, jsle5
        ja fail
jsle5:  jsle32 r8, r7, jsle6
        ja fail
jsle6:  jsle32 r8, r4, fail
        jsle32 r4, 3, jsle7
        ja fail
jsle7:  jsle32 r8, 3, jsle8
        ja fail
jsle8:  jsle32 r8, -5, fail

; jset32: r8 has a bit of r1 in its high half alone, r4 has the lowest bit and not that of 4.
        mov r9, 40
        jset32 r8, r1, fail
        jset32 r8, r7, jset3
        ja fail
jset3:  jset32 r4, 1, jset4
        ja fail
jset4:  jset32 r4, 4, fail

; Loads, of the bytes 11 22 33 44 55 66 77 88.
        mov r9, 41
        lddw r1, 0x8877665544332211
        stxdw [r10-16], r1
        ldxdw r0, [r10-16]              ; r0 = r1
        jne r0, r1, fail
        ldxb r0, [r10-16]               ; r0 = 0x11
        jne r0, 0x11, fail
        ldxh r0, [r10-15]               ; r0 = 0x3322
        jne r0, 0x3322, fail
        ldxw r0, [r10-14]               ; r0 = 0x66554433
        jne r0, 0x66554433, fail
        ldxsb r0, [r10-9]               ; r0 = 0x88 - 2^8
        jne r0, -120, fail
        ldxsh r0, [r10-10]              ; r0 = 0x8877 - 2^16
        jne r0, -30601, fail
        ldxsw r0, [r10-12]              ; r0 = 0xffffffff88776655
        lddw r5, 0xffffffff88776655
        jne r0, r5, fail

; Stores of numbers, one over the other.
        mov r9, 42
        stb [r10-16], -2                ; fe 22 33 44 55 66 77 88
        ldxdw r0, [r10-16]
        lddw r5, 0x88776655443322fe
        jne r0, r5, fail
        sth [r10-15], -3                ; fe fd ff 44 55 66 77 88
        ldxdw r0, [r10-16]
        lddw r5, 0x8877665544fffdfe
        jne r0, r5, fail
        stw [r10-13], -4                ; fe fd ff fc ff ff ff 88
        ldxdw r0, [r10-16]
        lddw r5, 0x88fffffffcfffdfe
        jne r0, r5, fail
        stdw [r10-16], -5               ; fb ff ff ff ff ff ff ff
        ldxdw r0, [r10-16]
        jne r0, -5, fail

; Stores of registers, one over the other.
        mov r9, 43
        stxb [r10-16], r1               ; 11 ff ff ff ff ff ff ff
        ldxdw r0, [r10-16]
        lddw r5, 0xffffffffffffff11
        jne r0, r5, fail
        stxh [r10-15], r1               ; 11 11 22 ff ff ff ff ff
        ldxdw r0, [r10-16]
        lddw r5, 0xffffffffff221111
        jne r0, r5, fail
        stxw [r10-13], r1               ; 11 11 22 11 22 33 44 ff
        ldxdw r0, [r10-16]
        lddw r5, 0xff44332211221111
        jne r0, r5, fail
        stxdw [r10-16], r1              ; 11 22 33 44 55 66 77 88
        ldxdw r0, [r10-16]
        jne r0, r1, fail

; Atomic operations of r8 on r7, which stands at r10-8: high halves 0xff and 0xf, low halves 0xa and 0xc.
        lddw r7, 0xf0000000c
        lddw r8, 0xff0000000a

; atomic_add: 0xf + 0xff = 0x10e, 0xc + 0xa = 0x16
        mov r9, 44
        stxdw [r10-8], r7
        atomic_add64 [r10-8], r8
        ldxdw r0, [r10-8]               ; r0 = 0x10e00000016
        lddw r5, 0x10e00000016
        jne r0, r5, fail
        stxdw [r10-8], r7
        atomic_add32 [r10-8], r8
        ldxdw r0, [r10-8]               ; r0 = 0xf00000016
        lddw r5, 0xf00000016
        jne r0, r5, fail

; atomic_or: 0xf or 0xff = 0xff, 0xc or 0xa = 0xe
        mov r9, 45
        stxdw [r10-8], r7
        atomic_or64 [r10-8], r8
        ldxdw r0, [r10-8]               ; r0 = 0xff0000000e
        lddw r5, 0xff0000000e
        jne r0, r5, fail
        stxdw [r10-8], r7
        atomic_or32 [r10-8], r8
        ldxdw r0, [r10-8]               ; r0 = 0xf0000000e
        lddw r5, 0xf0000000e
        jne r0, r5, fail

; atomic_and: 0xf and 0xff = 0xf, 0xc and 0xa = 8
        mov r9, 46
        stxdw [r10-8], r7
        atomic_and64 [r10-8], r8
        ldxdw r0, [r10-8]               ; r0 = 0xf00000008
        lddw r5, 0xf00000008
        jne r0, r5, fail
        stxdw [r10-8], r8
        atomic_and32 [r10-8], r7
        ldxdw r0, [r10-8]               ; r0 = 0xff00000008
        lddw r5, 0xff00000008
        jne r0, r5, fail

; atomic_xor: 0xf xor 0xff = 0xf0, 0xc xor 0xa = 6
        mov r9, 47
        stxdw [r10-8], r7
        atomic_xor64 [r10-8], r8
        ldxdw r0, [r10-8]               ; r0 = 0xf000000006
        lddw r5, 0xf000000006
        jne r0, r5, fail
        stxdw [r10-8], r7
        atomic_xor32 [r10-8], r8
        ldxdw r0, [r10-8]               ; r0 = 0xf00000006
        lddw r5, 0xf00000006
        jne r0, r5, fail

; Those that fetch: the same, and r1 is what stood there, of 32 bits 0xc.
; atomic_fetch_add
        mov r9, 48
        stxdw [r10-8], r7
        mov r1, r8
        atomic_fetch_add64 [r10-8], r1  ; r1 = r7
        jne r1, r7, fail
        ldxdw r0, [r10-8]               ; r0 = 0x10e00000016
        lddw r5, 0x10e00000016
        jne r0, r5, fail
        stxdw [r10-8], r7
        mov r1, r8
        atomic_fetch_add32 [r10-8], r1  ; r1 = 0xc
        jne r1, 0xc, fail
        ldxdw r0, [r10-8]               ; r0 = 0xf00000016
        lddw r5, 0xf00000016
        jne r0, r5, fail

; atomic_fetch_or
        mov r9, 49
        stxdw [r10-8], r7
        mov r1, r8
        atomic_fetch_or64 [r10-8], r1   ; r1 = r7
        jne r1, r7, fail
        ldxdw r0, [r10-8]               ; r0 = 0xff0000000e
        lddw r5, 0xff0000000e
        jne r0, r5, fail
        stxdw [r10-8], r7
        mov r1, r8
        atomic_fetch_or32 [r10-8], r1   ; r1 = 0xc
        jne r1, 0xc, fail
        ldxdw r0, [r10-8]               ; r0 = 0xf0000000e
        lddw r5, 0xf0000000e
        jne r0, r5, fail

; atomic_fetch_and
        mov r9, 50
        stxdw [r10-8], r7
        mov r1, r8
        atomic_fetch_and64 [r10-8], r1  ; r1 = r7
        jne r1, r7, fail
        ldxdw r0, [r10-8]               ; r0 = 0xf00000008
        lddw r5, 0xf00000008
        jne r0, r5, fail
        stxdw [r10-8], r8
        mov r1, r7
        atomic_fetch_and32 [r10-8], r1  ; r1 = 0xa
        jne r1, 0xa, fail
        ldxdw r0, [r10-8]               ; r0 = 0xff00000008
        lddw r5, 0xff00000008
        jne r0, r5, fail

; atomic_fetch_xor
        mov r9, 51
        stxdw [r10-8], r7
        mov r1, r8
        atomic_fetch_xor64 [r10-8], r1  ; r1 = r7
        jne r1, r7, fail
        ldxdw r0, [r10-8]               ; r0 = 0xf000000006
        lddw r5, 0xf000000006
        jne r0, r5, fail
        stxdw [r10-8], r7
        mov r1, r8
        atomic_fetch_xor32 [r10-8], r1  ; r1 = 0xc
        jne r1, 0xc, fail
        ldxdw r0, [r10-8]               ; r0 = 0xf00000006
        lddw r5, 0xf00000006
        jne r0, r5, fail

; atomic_xchg
        mov r9, 52
        stxdw [r10-8], r7
        mov r1, r8
        atomic_xchg64 [r10-8], r1       ; r1 = r7
        jne r1, r7, fail
        ldxdw r0, [r10-8]               ; r0 = r8
        jne r0, r8, fail
        stxdw [r10-8], r7
        mov r1, r8
        atomic_xchg32 [r10-8], r1       ; r1 = 0xc
        jne r1, 0xc, fail
        ldxdw r0, [r10-8]               ; r0 = 0xf0000000a
        lddw r5, 0xf0000000a
        jne r0, r5, fail

; atomic_cmpxchg: r0 is what stood there, and r8 is stored where r0 was that. Of 32 bits its high half doesn't count.
        mov r9, 53
        stxdw [r10-8], r7
        mov r0, 0xc
        atomic_cmpxchg64 [r10-8], r8    ; r0 = r7, and nothing is stored
        jne r0, r7, fail
        ldxdw r1, [r10-8]               ; r1 = r7
        jne r1, r7, fail
        atomic_cmpxchg64 [r10-8], r8    ; r0 = r7
        jne r0, r7, fail
        ldxdw r1, [r10-8]               ; r1 = r8
        jne r1, r8, fail
        stxdw [r10-8], r7
        lddw r0, 0xf0000000d
        atomic_cmpxchg32 [r10-8], r8    ; r0 = 0xc, and nothing is stored
        jne r0, 0xc, fail
        ldxdw r1, [r10-8]               ; r1 = r7
        jne r1, r7, fail
        lddw r0, 0x70000000c
        atomic_cmpxchg32 [r10-8], r8    ; r0 = 0xc
        jne r0, 0xc, fail
        ldxdw r1, [r10-8]               ; r1 = 0xf0000000a
        lddw r5, 0xf0000000a
        jne r1, r5, fail

; callf, and exit from the function: r6 comes back, r0 stays, and so does what was stored by an address of this frame.
        mov r9, 54
        mov r1, r10
        mov r6, 6
        callf double
        jne r0, 12, fail
        jne r6, 6, fail
        jne r1, r10, fail
        ldxdw r0, [r10-8]
        jne r0, 7, fail

; ldmap, ldmapval: the token of map 0, and the address of its byte 15.
        mov r9, 55
        ldmap r1, 0
        lddw r5, 0x400000000
        jne r1, r5, fail
        ldmapval r0, 0, 15
        lddw r5, 0x30000000f
        jne r0, r5, fail

; call 2: cell 3 gets the bytes at r10-16.
        mov r9, 56
        stw [r10-4], 3
        mov r2, r10
        add r2, -4
        mov r3, r10
        add r3, -16
        mov r4, 0
        mov r0, 5
        call 2                          ; r0 = 0
        jne r0, 0, fail
        mov r4, 1
        call 2                          ; r0 = -17
        jne r0, -17, fail

; call 1: the address of cell 3, where the bytes are; 0 of cell 256.
        mov r9, 57
        call 1                          ; r0 = 0x300000000 + 8 * 3
        lddw r5, 0x300000018
        jne r0, r5, fail
        ldxdw r0, [r0]                  ; r0 = 0x8877665544332211
        lddw r5, 0x8877665544332211
        jne r0, r5, fail
        stw [r10-4], 256
        call 1                          ; r0 = 0
        jne r0, 0, fail

; call 64: 0xabc is traced.
        mov r9, 58
        mov r0, 5
        mov r1, 0xabc
        call 64                         ; r0 = 0
        jne r0, 0, fail

        mov r0, 1
        exit

fail:   mov r0, r9
        exit

; Twice r6. The number 7 is stored below r1.
double: mov r0, r6                      ; r0 = 6
        add r0, r6                      ; r0 = 12
        mov r6, 1
        stdw [r1-8], 7
        exit
