/* What the programs of this folder share: an entry takes the context's bytes and how many there are. */
typedef unsigned char u8;
typedef unsigned short u16;
typedef unsigned int u32;
typedef unsigned long u64;
#ifdef __bpf__
#define ENTRY __attribute__((section("prog")))
#else
#define ENTRY
#endif
#define NOINLINE __attribute__((noinline))
ENTRY long entry(const u8 *bytes, u64 count);
