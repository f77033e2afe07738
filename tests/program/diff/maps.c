/* Arrays of one entry that are written to: each macro makes another build of it. */
struct {
    int (*type)[2];
    unsigned *key;
    unsigned long *value;
    int (*max_entries)[2];
} early __attribute__((section(".maps"))), late __attribute__((section(".maps")))
#if defined MORE || defined UNWRITTEN
    , other __attribute__((section(".maps")))
#endif
;

#ifdef TURNED
#define FIRST late
#define SECOND early
#else
#define FIRST early
#define SECOND late
#endif
#ifndef STORED
#define STORED 7
#endif

static long (*update)(void *map, const void *key, const void *value, unsigned long flags) = (void *)2;

__attribute__((section("prog"))) unsigned entry(unsigned char *packet, unsigned long length)
{
    unsigned key = 0;
    unsigned long value = length;

    update(&FIRST, &key, &value, 0);
    value = STORED;
    update(&SECOND, &key, &value, 0);
#ifdef MORE
    value = 8;
    update(&other, &key, &value, 0);
#endif
    return 0;
}
