/* Reads the fields of structs as the compiler has laid them out: answers 0 where all are as tests/program/context/settings says, else the number of its first line
   that isn't so. The other sections answer what sizes and places the compiler knows. */
#include "fields.h"
#define PROGRAM(NAME) __attribute__((section("in_" #NAME))) long NAME
#define IS(NUMBER, FIELD, WANTED) if ((FIELD) != (WANTED)) return NUMBER
#define BYTES(A, B, C, D, E, F, G, H) ((word)(A) | (B) << 8 | (C) << 16 | (word)(D) << 24 | (word)(E) << 32 | (word)(F) << 40 | (word)(G) << 48 | (word)(H) << 56)
#define AT(TEXT, I) ((word)(unsigned char)(TEXT)[I])
#define WORD(TEXT, I) BYTES(AT(TEXT, I), AT(TEXT, I + 1), AT(TEXT, I + 2), AT(TEXT, I + 3), AT(TEXT, I + 4), AT(TEXT, I + 5), AT(TEXT, I + 6), AT(TEXT, I + 7))

PROGRAM(fields)(struct whole *whole) {
    IS(1, whole->count, -2);
    IS(2, whole->low, -32768);
    IS(3, whole->same, 0x7fffffff);
    IS(4, whole->next->letter, -1);
    IS(5, whole->list[0].port, 0x1234);
    IS(6, whole->list[2].level, -128);
    IS(7, WORD(whole->list[1].name, 0), BYTES('a', ' ', '"', 'b', '"', '\\', '\n', 0xff));
    IS(7, WORD(whole->list[1].name, 8), BYTES('=', 'c', 0, 0, 0, 0, 0, 0));
    IS(8, whole->next->count, 11);
    IS(9, (unsigned long)whole->raw, 0xffffffff80000000);
    IS(10, whole->inner->level, 5);
    IS(11, (unsigned long)whole->call, 64);
    IS(12, whole->mode, ON);
    IS(13, whole->other_mode, FAR_OFF);
    IS(14, whole->wide_mode, WIDE);
    IS(15, whole->is_on, 1);
    IS(16, whole->grid[1][2], 255);
    IS(17, whole->grid[0][1], 7);
    IS(18, whole->least, (long long)1 << 63);
    IS(19, whole->most, 0xffffffffffffffff);
    IS(20, whole->either.bytes[3], 0x89);
    IS(21, whole->named.x, 10);
    IS(22, whole->named.z.y, 65535);
    IS(23, whole->colours[1].blue, 200);
    IS(24, whole->odd.number, 0x01020304);
    IS(25, whole->odd.far, -5);
    IS(26, WORD(whole->text, 0), BYTES('t', 'w', 'e', 'l', 'v', 'e', ' ', 'b'));
    IS(26, WORD(whole->text, 4), BYTES('v', 'e', ' ', 'b', 'y', 't', 'e', 's'));
    IS(27, whole->exact[0] << 24 | whole->exact[1] << 16 | whole->exact[2] << 8 | whole->exact[3], 0x01090d0a);
    IS(28, whole->deep.deepest, 0x11223344);
    IS(29, whole->deep.at, 12);
    IS(30, whole->bits.a, 5);
    IS(31, whole->bits.b, 100);
    IS(32, whole->bits.c, -16);
    IS(33, whole->bits.wide, 0x123456789a);
    IS(34, whole->bits.rest, 0xabcdef);
    IS(35, whole->bits.alone, 1);
    IS(36, whole->plain.second, 77);
    IS(37, whole->lists[1].first, whole->next);
    IS(38, whole->last, 4294967295);
    return 0;
}

PROGRAM(others)(word *words) {
    struct plain *plain = (struct plain *)words[1];
    const char *text = (const char *)words[2];
    IS(1, words[0], 3);
    IS(2, plain[1].first, 21);
    IS(3, plain[1].second, -1);
    IS(4, WORD(text, 0), BYTES('/', 'e', 't', 'c', 0, 0, 0, 0));
    IS(5, *(enum mode *)words[3], ON);
    IS(6, *(port_number *)words[4], 80);
    return 0;
}

PROGRAM(size_of_whole)(void) { return sizeof(struct whole); }
PROGRAM(size_of_inner)(void) { return sizeof(struct inner); }
PROGRAM(size_of_odd)(void) { return sizeof(struct odd); }
PROGRAM(size_of_bits)(void) { return sizeof(struct bits); }
PROGRAM(size_of_either)(union either *either) { return sizeof(union either) + 0 * either->whole; }
PROGRAM(size_of_colour)(colour *colour) { return sizeof(*colour); }
PROGRAM(place_of_name)(void) { return 0x100000000 + __builtin_offsetof(struct whole, list[2].name); }
