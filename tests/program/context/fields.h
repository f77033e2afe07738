/* Structs of each shape that fields have. Of all but `plain` the compiler asks for relocations of fields, as for structs of the kernel. */
enum mode { OFF, ON, FAR_OFF = -3 };
enum wide_mode { WIDE = 0xffffffff };
typedef unsigned short port_number;
typedef int (*callback)(int);
typedef struct { unsigned char red, green, blue; } colour;
typedef unsigned long long word;

struct plain { int first; long long second; };

#pragma clang attribute push(__attribute__((preserve_access_index)), apply_to = record)
union either { unsigned whole; unsigned char bytes[4]; };
struct inner { char name[16]; port_number port; signed char level; };
struct odd { char before; int number; long long far; } __attribute__((packed));
struct deep { struct { struct { short at; struct { union { int deepest; char letter; }; }; }; }; };
struct bits { unsigned a : 3, b : 7; signed c : 5; unsigned long long wide : 40, rest : 24; unsigned char alone : 1; };
struct whole {
    int count;
    struct {
        short low;
        union { int same; char letter; };
    };
    struct inner list[3];
    struct whole *next;
    const void *volatile *raw;
    struct inner *const inner;
    callback call;
    enum mode mode, other_mode;
    enum wide_mode wide_mode;
    _Bool is_on, is_off;
    const volatile unsigned char grid[2][3];
    long long least;
    unsigned long long most;
    union either either;
    struct { int x; struct { port_number y; } z; } named;
    colour colours[2];
    struct odd odd;
    char text[12];
    unsigned char exact[4];
    double ratio;
    struct deep deep;
    struct bits bits;
    struct plain plain;
    struct { struct whole *first; } lists[2];
    unsigned int last;
    char tail[];
};
#pragma clang attribute pop
