/* What the compiler asks of its library for numbers of 128 bits, by numbers of 64. */

typedef unsigned long half;
typedef unsigned __int128 wide;
union parts {
    wide all;
    struct {
        half low, high;
    };
};

static wide joined(half high, half low) { return (union parts){.low = low, .high = high}.all; }

wide __ashlti3(wide number, int by) {
    union parts it = {number};
    if (by == 0)
        return number;
    return by < 64 ? joined(it.high << by | it.low >> (64 - by), it.low << by) : joined(it.low << (by - 64), 0);
}

wide __lshrti3(wide number, int by) {
    union parts it = {number};
    if (by == 0)
        return number;
    return by < 64 ? joined(it.high >> by, it.low >> by | it.high << (64 - by)) : joined(0, it.high >> (by - 64));
}

/* The product of two halves, by four products of 32 bits. */
static wide product_of_halves(half first, half second) {
    const half lower = 0xffffffff;
    half low = (first & lower) * (second & lower), one = (first >> 32) * (second & lower);
    half two = (first & lower) * (second >> 32), high = (first >> 32) * (second >> 32);
    half middle = (low >> 32) + (one & lower) + (two & lower);
    return joined(high + (one >> 32) + (two >> 32) + (middle >> 32), middle << 32 | (low & lower));
}

wide __multi3(wide first, wide second) {
    union parts one = {first}, two = {second}, low = {product_of_halves(one.low, two.low)};
    return joined(low.high + one.low * two.high + one.high * two.low, low.low);
}

/* Long division, bit by bit: `rest` keeps what is left of the bits of the dividend that were brought down. */
wide __udivti3(wide dividend, wide divisor) {
    union parts over = {dividend}, under = {divisor};
    if (over.high == 0 && under.high == 0)
        return joined(0, over.low / under.low);
    half high = 0, low = 0, answer_high = 0, answer_low = 0;
    for (int bit = 127; bit >= 0; bit--) {
        half carry = high >> 63;
        high = high << 1 | low >> 63;
        low = low << 1 | ((bit < 64 ? over.low >> bit : over.high >> (bit - 64)) & 1);
        if (carry || high > under.high || (high == under.high && low >= under.low)) {
            high -= under.high + (low < under.low);
            low -= under.low;
            if (bit < 64)
                answer_low |= (half)1 << bit;
            else
                answer_high |= (half)1 << (bit - 64);
        }
    }
    return joined(answer_high, answer_low);
}
