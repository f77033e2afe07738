/* Records with names, searched by name. */
#include "entry.h"
struct record {
    const char *name;
    int worth;
};
static const struct record records[] = { { "abc", 12 }, { "12", -7 }, { "zz9!", 400 }, { "", 1 } };
static NOINLINE int same(const char *name, const u8 *bytes, u64 count) {
    for (u64 i = 0; i < count; i++) {
        if (name[i] == 0 || (u8)name[i] != bytes[i])
            return 0;
    }
    return name[count] == 0;
}
static NOINLINE int worth(const u8 *bytes, u64 count) {
    for (u32 i = 0; i < sizeof records / sizeof *records; i++) {
        if (same(records[i].name, bytes, count))
            return records[i].worth;
    }
    return -1000;
}
long entry(const u8 *bytes, u64 count) {
    long sum = 0;
    u64 first = 0;
    for (u64 i = 0; i <= count; i++) {
        if (i == count || bytes[i] == ' ') {
            sum = sum * 2 + worth(bytes + first, i - first);
            first = i + 1;
        }
    }
    return sum;
}
