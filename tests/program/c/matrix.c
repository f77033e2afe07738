/* Two dimensions, and a result that is written. */
#include "entry.h"
static const int left[3][3] = { { 1, 2, 3 }, { 4, 5, 6 }, { 7, 8, 10 } };
static int right[3][3] = { { 2, 0, 1 }, { 0, 1, 0 }, { 1, 0, -2 } }, product[3][3];
long entry(const u8 *bytes, u64 count) {
    long sum = 0;
    right[1][1] += count;
    for (int i = 0; i < 3; i++)
        for (int j = 0; j < 3; j++) {
            product[i][j] = 0;
            for (int k = 0; k < 3; k++)
                product[i][j] += left[i][k] * right[k][j];
            sum = sum * 7 + product[i][j];
        }
    return sum;
}
