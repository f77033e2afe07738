/* A machine of states, as a table of bytes. */
#include "entry.h"
enum { SPACE, DIGIT, LETTER, OTHER };
static const u8 next[4][4] = { { 0, 1, 2, 3 }, { 0, 1, 3, 3 }, { 0, 2, 2, 3 }, { 0, 3, 3, 3 } };
static u32 seen[4];
static NOINLINE int kind(u8 c) { return c == ' ' ? SPACE : c >= '0' && c <= '9' ? DIGIT : c >= 'a' && c <= 'z' ? LETTER : OTHER; }
long entry(const u8 *bytes, u64 count) {
    u8 state = 0;
    for (u64 i = 0; i < count; i++) {
        state = next[state][kind(bytes[i])];
        seen[state]++;
    }
    return seen[0] | seen[1] << 8 | seen[2] << 16 | (long)seen[3] << 24;
}
