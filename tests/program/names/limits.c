/* What lies at the limits of names: structs of 65, 1,024 and 1,025 members, types behind nine, 31 and 32 names, and nine maps, of which the last holds a
   number. What each byte is called is written out in tests/program/names.sh. */
typedef unsigned char u8;
typedef unsigned int u32;

static void *(*bpf_map_lookup_elem)(void *map, const void *key) = (void *)1;

/* The name of a member is its number, to the base 4. */
#define OF_4(n) u8 n##0, n##1, n##2, n##3;
#define OF_16(n) OF_4(n##0) OF_4(n##1) OF_4(n##2) OF_4(n##3)
#define OF_64(n) OF_16(n##0) OF_16(n##1) OF_16(n##2) OF_16(n##3)
#define OF_256(n) OF_64(n##0) OF_64(n##1) OF_64(n##2) OF_64(n##3)
#define OF_1024(n) OF_256(n##0) OF_256(n##1) OF_256(n##2) OF_256(n##3)

struct of_65 { OF_64(m) u8 last; };
struct of_1024 { OF_1024(m) };
struct of_1025 { OF_1024(m) u8 last; };

/* The number of a name says how many names stand before the struct. */
typedef struct { u32 first, second; } n1;
typedef n1 n2; typedef n2 n3; typedef n3 n4; typedef n4 n5; typedef n5 n6; typedef n6 n7; typedef n7 n8; typedef n8 n9;
typedef n9 n10; typedef n10 n11; typedef n11 n12; typedef n12 n13; typedef n13 n14; typedef n14 n15; typedef n15 n16; typedef n16 n17;
typedef n17 n18; typedef n18 n19; typedef n19 n20; typedef n20 n21; typedef n21 n22; typedef n22 n23; typedef n23 n24; typedef n24 n25;
typedef n25 n26; typedef n26 n27; typedef n27 n28; typedef n28 n29; typedef n29 n30; typedef n30 n31; typedef n31 n32;

#define MAP(name, of) struct { int (*type)[2]; int (*max_entries)[1]; u32 *key; of *value; } name __attribute__((section(".maps")))
MAP(wide_65, struct of_65);
MAP(deep_9, n9);
MAP(deep_31, n31);
MAP(deep_32, n32);
MAP(plain_5, u32);
MAP(plain_6, u32);
MAP(plain_7, u32);
MAP(plain_8, u32);
MAP(plain_9, n1);

/* (larger than a value of a map may be) */
struct of_1024 wide_1024 __attribute__((section(".data.wide_1024")));
struct of_1025 wide_1025 __attribute__((section(".data.wide_1025")));

#define USE(map) found += bpf_map_lookup_elem(&map, &key) != 0
__attribute__((section("prog"), used)) u32 entry(void *context)
{
	u32 key = 0, found = 0;

	USE(wide_65);
	USE(deep_9);
	USE(deep_31);
	USE(deep_32);
	USE(plain_5);
	USE(plain_6);
	USE(plain_7);
	USE(plain_8);
	USE(plain_9);
	return found + wide_1024.m00000 + wide_1025.m00000;
}
