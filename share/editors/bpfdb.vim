" Listings of bpfdb for Vim, made by docs/editors.sh: copy to ~/.vim/syntax/bpfdb.vim, and ':set filetype=bpfdb'.
if exists("b:current_syntax")
    finish
endif
syntax case match
syntax match bpfdbComment ";.*$"
syntax match bpfdbLabel "^\s*\zs[A-Za-z_][A-Za-z_0-9]*:"
syntax match bpfdbNumber "-\=\<\(0x[0-9a-fA-F]\+\|[0-9]\+\)\>"
syntax keyword bpfdbRegister r0 r1 r2 r3 r4 r5 r6 r7 r8 r9 r10
syntax keyword bpfdbMnemonic add add32 sub sub32 mul mul32 div div32 sdiv sdiv32 or or32 and and32 lsh lsh32 rsh rsh32 neg neg32 mod mod32
syntax keyword bpfdbMnemonic smod smod32 xor xor32 mov mov32 movsx8 movsx16 movsx32 movsx8_32 movsx16_32 arsh arsh32 le16 le32 le64 be16
syntax keyword bpfdbMnemonic be32 be64 swap16 swap32 swap64 ja ja32 jeq jeq32 jgt jgt32 jge jge32 jset jset32 jne jne32 jsgt jsgt32 jsge
syntax keyword bpfdbMnemonic jsge32 call callf exit jlt jlt32 jle jle32 jslt jslt32 jsle jsle32 stxw stxh stxb stxdw stw sth stb stdw ldxw
syntax keyword bpfdbMnemonic ldxh ldxb ldxdw ldxsw ldxsh ldxsb atomic_add32 atomic_add64 atomic_or32 atomic_or64 atomic_and32 atomic_and64
syntax keyword bpfdbMnemonic atomic_xor32 atomic_xor64 atomic_fetch_add32 atomic_fetch_add64 atomic_fetch_or32 atomic_fetch_or64
syntax keyword bpfdbMnemonic atomic_fetch_and32 atomic_fetch_and64 atomic_fetch_xor32 atomic_fetch_xor64 atomic_xchg32 atomic_xchg64
syntax keyword bpfdbMnemonic atomic_cmpxchg32 atomic_cmpxchg64 lddw ldmap ldmapval
highlight default link bpfdbComment Comment
highlight default link bpfdbLabel Label
highlight default link bpfdbNumber Number
highlight default link bpfdbRegister Identifier
highlight default link bpfdbMnemonic Statement
setlocal commentstring=;\ %s
let b:current_syntax = "bpfdb"
