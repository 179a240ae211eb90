/* Products, quotients and shifts of 128-bit numbers for the program in the page, which WebAssembly does not have: the
   functions that the compiler calls for them, by numbers of 64 bits alone. It writes most quotients out, and calls one that
   rounds toward 0. */
/* The toolchain's clang has no headers. */
typedef __UINT64_TYPE__ uint64_t;
typedef __INT64_TYPE__ int64_t;
typedef __int128 wide;

/* The least significant half comes first. */
union halves {
    wide whole;
    uint64_t half[2];
};

static wide joined(uint64_t low, uint64_t high) { return (union halves){.half = {low, high}}.whole; }

static uint64_t low_of(wide number) { return (union halves){.whole = number}.half[0]; }

static uint64_t high_of(wide number) { return (union halves){.whole = number}.half[1]; }

/* The upper half of a product of two halves. */
static uint64_t carried(uint64_t one, uint64_t other) {
    uint64_t least = (one & 0xFFFFFFFF) * (other & 0xFFFFFFFF);
    uint64_t first = (one >> 32) * (other & 0xFFFFFFFF) + (least >> 32);
    uint64_t second = (one & 0xFFFFFFFF) * (other >> 32) + (first & 0xFFFFFFFF);
    return (one >> 32) * (other >> 32) + (first >> 32) + (second >> 32);
}

wide __multi3(wide one, wide other) {
    uint64_t low = low_of(one), by = low_of(other);
    return joined(low * by, carried(low, by) + low * high_of(other) + high_of(one) * by);
}

wide __ashlti3(wide number, int by) {
    uint64_t low = low_of(number), high = high_of(number);
    if (by >= 64) return joined(0, low << (by - 64));
    return by ? joined(low << by, high << by | low >> (64 - by)) : number;
}

wide __lshrti3(wide number, int by) {
    uint64_t low = low_of(number), high = high_of(number);
    if (by >= 64) return joined(high >> (by - 64), 0);
    return by ? joined(low >> by | high << (64 - by), high >> by) : number;
}

wide __ashrti3(wide number, int by) {
    uint64_t low = low_of(number);
    int64_t high = (int64_t)high_of(number);
    if (by >= 64) return joined((uint64_t)(high >> (by - 64)), (uint64_t)(high >> 63));
    return by ? joined(low >> by | (uint64_t)high << (64 - by), (uint64_t)(high >> by)) : number;
}

/* Of numbers from 0 on, bit by bit. */
static wide quotient(wide number, wide by) {
    uint64_t low = low_of(number), high = high_of(number), left_low = 0, left_high = 0;
    uint64_t by_low = low_of(by), by_high = high_of(by);
    for (int bit = 0; bit < 128; bit++) {
        left_high = left_high << 1 | left_low >> 63;
        left_low = left_low << 1 | high >> 63;
        high = high << 1 | low >> 63;
        low <<= 1;
        if (left_high > by_high || (left_high == by_high && left_low >= by_low)) {
            left_high -= by_high + (left_low < by_low);
            left_low -= by_low;
            low |= 1;
        }
    }
    return joined(low, high);
}

wide __divti3(wide number, wide by) {
    wide size = quotient(number < 0 ? -number : number, by < 0 ? -by : by);
    return (number < 0) != (by < 0) ? -size : size;
}
