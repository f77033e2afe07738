/* The entry of a program on this machine, over the bytes of standard input. */
#include <stdio.h>
#include "entry.h"
int main(void) {
    static u8 bytes[65536];
    u64 count = fread(bytes, 1, sizeof bytes, stdin);
    printf("0x%lx\n", entry(count ? bytes : 0, count));
    return 0;
}
