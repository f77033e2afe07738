/* Numbers that look random (xorshift), with a state that the program keeps. */
#include "entry.h"
static u64 state = 88172645463325252ul;
static NOINLINE u64 next(void) {
    state ^= state << 13;
    state ^= state >> 7;
    state ^= state << 17;
    return state;
}
long entry(const u8 *bytes, u64 count) {
    u64 sum = 0;
    for (u64 i = 0; i < count; i++) {
        state += bytes[i];
        sum += next() >> (bytes[i] & 31);
    }
    return sum;
}
