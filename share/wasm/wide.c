// Arithmetic of 128 bits that clang calls for: products, and shifts by a number that it doesn't know. (A shift by 64 is no call.)
typedef unsigned __int128 wide;
typedef __UINT64_TYPE__ half;

static half low(wide value) {
    return (half)value;
}

static half high(wide value) {
    return (half)(value >> 64);
}

static wide joined(half high, half low) {
    return (wide)high << 64 | low;
}

// The product of two halves, by halves of halves: no sum of these exceeds 64 bits.
static wide product(half a, half b) {
    const half mask = 0xffffffff;
    half lows = (a & mask) * (b & mask);
    half first = (a >> 32) * (b & mask) + (lows >> 32);
    half second = (a & mask) * (b >> 32) + (first & mask);
    return joined((a >> 32) * (b >> 32) + (first >> 32) + (second >> 32), second << 32 | (lows & mask));
}

wide __multi3(wide a, wide b) {
    wide lows = product(low(a), low(b));
    return joined(high(lows) + high(a) * low(b) + low(a) * high(b), low(lows));
}

wide __lshrti3(wide value, int count) {
    if (count >= 64)
        return high(value) >> (count - 64);
    if (count == 0)
        return value;
    return joined(high(value) >> count, low(value) >> count | high(value) << (64 - count));
}

wide __ashlti3(wide value, int count) {
    if (count >= 64)
        return joined(low(value) << (count - 64), 0);
    if (count == 0)
        return value;
    return joined(high(value) << count | low(value) >> (64 - count), low(value) << count);
}
