/* Numbers out of texts, as strtol and strtoul of C read them, but for what they refuse. */
#include "linux.h"

#define SIGNED(TEXT, FLAGS, TAKEN, NUMBER) do { \
		long read = 9; \
		WANT(strtol(TEXT, sizeof(TEXT) - 1, FLAGS, &read) == (TAKEN) && read == (NUMBER)); \
	} while (0)
#define UNSIGNED(TEXT, FLAGS, TAKEN, NUMBER) do { \
		unsigned long read = 9; \
		WANT(strtoul(TEXT, sizeof(TEXT) - 1, FLAGS, &read) == (TAKEN) && read == (NUMBER)); \
	} while (0)

TEST(signed_numbers)
{
	SIGNED("123", 0, 3, 123);
	SIGNED(" \t\n-45 6", 10, 6, -45);
	SIGNED("0x1fg", 0, 4, 0x1f);
	SIGNED("0x1f", 16, 4, 0x1f);
	SIGNED("1F", 16, 2, 0x1f);
	SIGNED("0755", 0, 4, 0755);
	SIGNED("0755", 10, 4, 755);
	SIGNED("78", 8, 1, 7);
	SIGNED("0", 0, 1, 0);
	/* (behind 0x there has to be a digit, else it is the 0 of base 8; of base 16 it is none at all) */
	SIGNED("0xg", 0, 1, 0);
	SIGNED("0xg", 16, -EINVAL, 0);
	SIGNED("-0", 0, 2, 0);
	SIGNED("9223372036854775807", 10, 19, 0x7fffffffffffffff);
	SIGNED("9223372036854775808", 10, -ERANGE, 0);
	SIGNED("-9223372036854775808", 10, 20, (long)(1ull << 63));
	SIGNED("-9223372036854775809", 10, -ERANGE, 0);
	SIGNED("18446744073709551616", 10, -ERANGE, 0);
	SIGNED("  ", 0, -EINVAL, 0);
	SIGNED("-", 0, -EINVAL, 0);
	SIGNED("+1", 0, -EINVAL, 0);
	SIGNED("x", 0, -EINVAL, 0);
	SIGNED("1", 2, -EINVAL, 0);
	SIGNED("1", 32, -EINVAL, 0);
	SIGNED("1", 1ull << 32, -EINVAL, 0);
	return 0;
}

/* (The kernel's verifier wants a byte at least.) */
OWN_TEST(number_of_no_text)
{
	SIGNED("", 0, -EINVAL, 0);
	UNSIGNED("", 0, -EINVAL, 0);
	return 0;
}

TEST(unsigned_numbers)
{
	UNSIGNED("123\n", 0, 3, 123);
	UNSIGNED("  0xffffffffffffffff", 0, 20, ~0ul);
	UNSIGNED("18446744073709551615", 10, 20, ~0ul);
	UNSIGNED("18446744073709551616", 10, -ERANGE, 0);
	UNSIGNED("0x10000000000000000", 16, -ERANGE, 0);
	UNSIGNED("-1", 10, -EINVAL, 0);
	UNSIGNED("8", 8, -EINVAL, 0);
	UNSIGNED("1", 64, -EINVAL, 0);
	/* (of a number's digits 63 are read) */
	UNSIGNED("0000000000000000000000000000000000000000000000000000000000000012", 10, 63, 1);
	return 0;
}
