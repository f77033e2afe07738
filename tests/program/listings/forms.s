; Every mnemonic, in one of its forms or both, with numbers at their ends. It isn't meant to run. (--maps 8x2)
  add r0, r1
  add r0, -2147483648
  add32 r0, 0xffffffff
  sub r1, r2
  sub32 r1, 2147483647
  mul r2, 3
  mul32 r2, r3
  div r3, r4
  div32 r3, 7
  sdiv r4, -7
  sdiv32 r4, r5
  or r5, r6
  or32 r5, 0x7F
  and r6, 255
  and32 r6, r7
  lsh r7, r8
  lsh32 r7, 31
  rsh r8, 63
  rsh32 r8, r9
  neg r9
  neg32 r9
  mod r0, r10
  mod32 r0, 10
  smod r1, 10
  smod32 r1, r10
  xor r2, r2
  xor32 r2, -1
  mov r3, 4294967295
  mov32 r3, r10
  movsx8 r1, r2
  movsx16 r1, r2
  movsx32 r1, r2
  movsx8_32 r1, r2
  movsx16_32 r1, r2
  arsh r4, 66
  arsh32 r4, r1
  le16 r1
  le32 r1
  le64 r1
  be16 r1
  be32 r1
  be64 r1
  swap16 r1
  swap32 r1
  swap64 r1
a:jeq r0, r1, a
  jeq32 r0, 1, b
b:
c:jgt r0, 0x80000000, c
  jgt32 r0, r1, end
  jge r0, r1, a
  jge32 r0, 2, b
  jset r0, 3, c
  jset32 r0, r1, end
  jne r0, r1, a
  jne32 r0, 4, b
  jsgt r0, -5, c
  jsgt32 r0, r1, end
  jsge r0, r1, a
  jsge32 r0, -6, b
  jlt r0, 7, c
  jlt32 r0, r1, end
  jle r0, r1, a
  jle32 r0, 8, b
  jslt r0, -9, c
  jslt32 r0, r1, end
  jsle r0, r1, a
  jsle32 r0, -10, b
  ja end
  ja32 a
  call 1
  call 2
  call 64
  callf b
  ldxw r1, [r2]
  ldxh r1, [r2+1]
  ldxb r1, [r2-1]
  ldxdw r1, [r10-512]
  ldxsw r1, [r2+32767]
  ldxsh r1, [r2-32768]
  ldxsb r1, [r2+0x10]
  stw [r1], -1
  sth [r1+2], 65535
  stb [r1-2], 0xff
  stdw [r10-8], -2147483648
  stxw [r1], r2
  stxh [r1+2], r3
  stxb [r1-2], r4
  stxdw [r10-8], r5
  atomic_add32 [r1], r2
  atomic_add64 [r1+8], r2
  atomic_or32 [r1], r2
  atomic_or64 [r1+8], r2
  atomic_and32 [r1], r2
  atomic_and64 [r1+8], r2
  atomic_xor32 [r1], r2
  atomic_xor64 [r1+8], r2
  atomic_fetch_add32 [r1], r2
  atomic_fetch_add64 [r1+8], r2
  atomic_fetch_or32 [r1], r2
  atomic_fetch_or64 [r1+8], r2
  atomic_fetch_and32 [r1], r2
  atomic_fetch_and64 [r1+8], r2
  atomic_fetch_xor32 [r1], r2
  atomic_fetch_xor64 [r1+8], r2
  atomic_xchg32 [r1], r2
  atomic_xchg64 [r1+8], r2
  atomic_cmpxchg32 [r1], r2
  atomic_cmpxchg64 [r1-8], r2
  lddw r1, -1
  lddw r2, 0x8000000000000000
  lddw r3, 18446744073709551615
  ldmap r1, 0
  ldmapval r2, 0, 15
end:exit
