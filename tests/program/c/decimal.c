/* Numbers in decimal: read from text, and written to it. */
#include "entry.h"
static NOINLINE u32 written(u64 number, u8 *text) {
    u8 back[20];
    u32 n = 0;
    do {
        back[n++] = '0' + number % 10;
        number /= 10;
    } while (number);
    for (u32 i = 0; i < n; i++)
        text[i] = back[n - 1 - i];
    return n;
}
static NOINLINE u64 sum_of_numbers(const u8 *bytes, u64 count) {
    u64 sum = 0, number = 0;
    for (u64 i = 0; i < count; i++) {
        if (bytes[i] >= '0' && bytes[i] <= '9') {
            number = number * 10 + (bytes[i] - '0');
        } else {
            sum += number;
            number = 0;
        }
    }
    return sum + number;
}
long entry(const u8 *bytes, u64 count) {
    u8 text[20];
    u32 n = written(sum_of_numbers(bytes, count) * 987654321, text);
    u64 sum = n;
    for (u32 i = 0; i < n; i++)
        sum = sum * 11 + text[i];
    return sum;
}
