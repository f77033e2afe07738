/* A list whose links are addresses in data, one of them in the middle of another variable. */
#include "entry.h"
struct node { long value; struct node *next; const u16 *at; };
static const u16 numbers[6] = { 10, 20, 30, 40, 50, 60 };
static struct node third = { 3, 0, numbers + 5 }, second = { 2, &third, &numbers[1] }, first = { 1, &second, numbers };
long entry(const u8 *bytes, u64 count) {
    long sum = 0;
    first.value += count;
    for (struct node *node = &first; node; node = node->next)
        sum = sum * 1000 + node->value * *node->at;
    return sum;
}
