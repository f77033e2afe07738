/* A list, whose nodes lie in a table and name one another by address. */
#include "entry.h"
struct node {
    u64 value;
    struct node *next;
};
static struct node nodes[16];
static struct node *head;
static NOINLINE void put(struct node *node, u64 value) {
    struct node **at = &head;
    while (*at && (*at)->value < value)
        at = &(*at)->next;
    node->value = value;
    node->next = *at;
    *at = node;
}
long entry(const u8 *bytes, u64 count) {
    for (u32 i = 0; i < 16; i++)
        put(&nodes[i], i < count ? bytes[i] * 3 % 101 : i * 37 % 101);
    u64 sum = 0;
    for (struct node *node = head; node; node = node->next)
        sum = sum * 13 + node->value;
    return sum;
}
