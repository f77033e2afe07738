/* The primes below 256, by a sieve of bits. */
#include "entry.h"
static u64 sieve[4] = { ~0ul, ~0ul, ~0ul, ~0ul };
long entry(const u8 *bytes, u64 count) {
    u64 sum = 0;
    for (u32 i = 2; i < 256; i++) {
        if (!(sieve[i / 64] >> i % 64 & 1))
            continue;
        sum = sum * 3 + i;
        for (u32 j = i * i; j < 256; j += i)
            sieve[j / 64] &= ~(1ul << j % 64);
    }
    return sum ^ sieve[0] ^ sieve[1] ^ sieve[2] ^ sieve[3] ^ count;
}
