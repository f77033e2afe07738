/* A program over bytes that are its context, or over a packet, of which a struct of the kernel's tells it. tests/program/tracefile.sh says which lines run. */
typedef unsigned char u8;
typedef unsigned int u32;
#define SEC(name) __attribute__((section(name), used))
#define bpf_get_prandom_u32 ((u32 (*)(void))7)
#if defined XDP
struct xdp_md { u32 data, data_end; };
#define BYTES (struct xdp_md *context)
#elif defined TC
struct __sk_buff { u32 before[19], data, data_end; };
#define BYTES (struct __sk_buff *context)
#endif
#ifdef BYTES
#define BEGIN (u8 *)(long)context->data
#define END (u8 *)(long)context->data_end
#else
#define BYTES (u8 *context, unsigned long size)
#define BEGIN context
#define END context + size
#endif
#ifdef SEED
static volatile u32 seven = 7;
#else
#define seven 7
#endif
#ifdef CALLS
#define NINE bpf_get_prandom_u32()
#else
#define NINE 9
#endif

SEC("code") int program BYTES
{
    u8 *byte = BEGIN;
    u8 *end = END;
    if (byte + 2 > end)
        return 1;
    if (byte[0] == seven)
        return 2;
    if (byte[1] == NINE)
        return 3;
    return byte[1];
}
