/* Numbers that are sorted in place. */
#include "entry.h"
static int numbers[12] = { 44, -7, 12, 9, 0, 31, 31, -80, 5, 100, 2, 1 };
long entry(const u8 *bytes, u64 count) {
    long sum = 0;
    numbers[4] = count;
    for (int i = 1; i < 12; i++)
        for (int j = i; j > 0 && numbers[j] < numbers[j - 1]; j--) {
            int n = numbers[j];
            numbers[j] = numbers[j - 1];
            numbers[j - 1] = n;
        }
    for (int i = 0; i < 12; i++)
        sum = sum * 5 + numbers[i];
    return sum;
}
