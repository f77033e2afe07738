/* An array of five values of eight bytes, beside a variable and a table of constants. */
struct {
    int (*type)[2];
    unsigned *key;
    unsigned long *value;
    int (*max_entries)[5];
} flows __attribute__((section(".maps")));

unsigned seen;
const volatile unsigned char steps[3] = { 1, 2, 3 };

static unsigned long *(*lookup)(void *, const void *) = (void *)1;

__attribute__((section("prog"))) unsigned entry(void *packet, unsigned long length)
{
    unsigned key = length;
    unsigned long *value = lookup(&flows, &key);

    seen += steps[length & 1];
    return value ? seen : 0;
}
