/* Two functions of a section, a static one in .text, data, and a file that is included: each statement of the program's stands in a line of its own. */
#include "more.h"

int seen = 5;

__attribute__((section("prog"), noinline)) long first(long n)
{
    n *= 3;
    seen = n;
    return n;
}

__attribute__((section("prog"))) long second(long n)
{
    long sum = added(n);
    asm volatile("%0 ^= 77" : "+r"(sum));
    sum += first(n);
    return sum;
}
