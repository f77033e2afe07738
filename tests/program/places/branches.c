/* Two functions with a branch each; tests/program/places.sh knows their lines. */
typedef unsigned char byte;
#define PROG __attribute__((section("prog"), noinline))

PROG unsigned long kind(byte *p)
{
	if (p[1] == 77)
		return p[2] * 3;
	return p[3] + 5;
}

PROG unsigned long entry(byte *p)
{
	if (p[0] > 33)
		return kind(p);
	return p[4] ^ 9;
}
