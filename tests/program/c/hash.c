/* A table of hashes with open places, and a sum of FNV. */
#include "entry.h"
struct place {
    u32 key;
    u32 value;
};
static struct place places[32];
static NOINLINE u32 hash(u32 key) {
    u32 h = 2166136261u;
    for (int i = 0; i < 4; i++)
        h = (h ^ (key >> 8 * i & 0xff)) * 16777619u;
    return h;
}
static NOINLINE struct place *found(u32 key) {
    for (u32 i = 0; i < 32; i++) {
        struct place *place = &places[(hash(key) + i) & 31];
        if (place->key == key || place->key == 0)
            return place;
    }
    return 0;
}
long entry(const u8 *bytes, u64 count) {
    for (u64 i = 0; i < count; i++) {
        struct place *place = found(bytes[i] % 20 + 1);
        if (place) {
            place->key = bytes[i] % 20 + 1;
            place->value += i + 1;
        }
    }
    u64 sum = 0;
    for (u32 i = 0; i < 32; i++)
        sum = sum * 5 + places[i].key * places[i].value;
    return sum;
}
