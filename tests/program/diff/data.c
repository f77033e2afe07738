/* An array of variables that is written to: each macro makes another build of it. */
#ifndef MANY
#define MANY 2
#endif

volatile unsigned long counted[MANY];

__attribute__((section("prog"))) unsigned entry(unsigned char *packet, unsigned long length)
{
    counted[0] = 7;
    counted[1] = length;
#ifdef LAST
    counted[MANY - 1] = LAST;
#endif
    return 0;
}
