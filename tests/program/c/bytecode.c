/* A machine with a stack, whose program is a table of bytes. */
#include "entry.h"
enum { PUSH, ADD, MUL, DUP, SWAP, BYTE, END };
static const u8 code[] = { PUSH, 3, BYTE, 0, ADD, DUP, MUL, PUSH, 250, SWAP, ADD, BYTE, 2, MUL, END };
long entry(const u8 *bytes, u64 count) {
    u64 stack[8], high = 0;
    for (u32 at = 0; at < sizeof code;) {
        u8 op = code[at++];
        if (op == PUSH) {
            stack[high++ & 7] = code[at++];
        } else if (op == BYTE) {
            u8 i = code[at++];
            stack[high++ & 7] = i < count ? bytes[i] : 1;
        } else if (op == DUP) {
            stack[high & 7] = stack[(high - 1) & 7];
            high++;
        } else if (op == SWAP) {
            u64 top = stack[(high - 1) & 7];
            stack[(high - 1) & 7] = stack[(high - 2) & 7];
            stack[(high - 2) & 7] = top;
        } else if (op == ADD) {
            high--;
            stack[(high - 1) & 7] += stack[high & 7];
        } else if (op == MUL) {
            high--;
            stack[(high - 1) & 7] *= stack[high & 7];
        } else {
            return stack[(high - 1) & 7];
        }
    }
    return -1;
}
