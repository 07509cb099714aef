/*
 * Numbers to doubles and doubles to numbers, by integers only: no result depends on the rounding mode, on the locale, on options such
 * as -ffast-math, or on the strtod and the printf of the C library.
 */
#include <mpslp.h>

/* A double is an integer below 2^53 times a power of two. In its bits the sign is followed by 11 bits of the exponent. */
enum { FRACTION_BITS = 52, DIGIT_BITS = 53, LEAST_TWOS = -1074, MOST_BITS = 1024, ALL_EXPONENT_BITS = 0x7ff };

#define HIDDEN_BIT ((uint64_t)1 << FRACTION_BITS)
#define SIGN_BIT ((uint64_t)1 << 63)
#define INFINITE ((uint64_t)ALL_EXPONENT_BITS << FRACTION_BITS)

static uint64_t bits_of(double value) {
    uint64_t bits;
    memcpy(&bits, &value, sizeof bits);
    return bits;
}

static double double_of(uint64_t bits) {
    double value;
    memcpy(&value, &bits, sizeof value);
    return value;
}

/* ---- large integers */

/*
 * `len` limbs of 32 bits, the lowest first, and whether a fraction was cut off. The largest ones are a mantissa of 127 bits times
 * 10^MOST_TENS, and one that is divided by 10^-LEAST_TENS.
 */
enum { ROOM = 40 };

typedef struct {
    uint32_t limbs[ROOM];
    int len;
    bool is_cut;
} large;

static void drop_zeros(large *it) {
    while (it->len != 0 && it->limbs[it->len - 1] == 0) it->len--;
}

static large large_of(uint64_t high, uint64_t low) {
    large made = { { (uint32_t)low, (uint32_t)(low >> 32), (uint32_t)high, (uint32_t)(high >> 32) }, 4, false };
    drop_zeros(&made);
    return made;
}

/* The lowest 64 bits. */
static uint64_t low_bits(const large *it) {
    return (it->len > 1 ? (uint64_t)it->limbs[1] << 32 : 0) | (it->len > 0 ? it->limbs[0] : 0);
}

static int count_bits(const large *it) {
    int bits = 0;
    if (it->len == 0) return 0;
    while (it->limbs[it->len - 1] >> bits > 1) bits++;
    return (it->len - 1) * 32 + bits + 1;
}

static void multiply(large *it, uint32_t factor) {
    uint64_t carry = 0;
    for (int i = 0; i < it->len; i++) {
        carry += (uint64_t)it->limbs[i] * factor;
        it->limbs[i] = (uint32_t)carry;
        carry >>= 32;
    }
    if (carry != 0) it->limbs[it->len++] = (uint32_t)carry;
}

static void divide(large *it, uint32_t divisor) {
    uint64_t left = 0;
    for (int i = it->len; i-- > 0;) {
        left = left << 32 | it->limbs[i];
        it->limbs[i] = (uint32_t)(left / divisor);
        left %= divisor;
    }
    it->is_cut |= left != 0;
    drop_zeros(it);
}

static void shift_left(large *it, int bits) {
    const int words = bits / 32;
    for (int i = it->len; i-- > 0;) it->limbs[i + words] = it->limbs[i];
    memset(it->limbs, 0, (size_t)words * sizeof it->limbs[0]);
    if (it->len != 0) it->len += words;
    multiply(it, (uint32_t)1 << bits % 32);
}

static void shift_right(large *it, int bits) {
    const int words = bits / 32 < it->len ? bits / 32 : it->len;
    for (int i = 0; i < words; i++) it->is_cut |= it->limbs[i] != 0;
    it->len -= words;
    memmove(it->limbs, it->limbs + words, (size_t)it->len * sizeof it->limbs[0]);
    divide(it, (uint32_t)1 << bits % 32);
}

static void shift(large *it, int bits) {
    if (bits < 0) shift_right(it, -bits);
    else shift_left(it, bits);
}

/* The largest power of five in a limb. */
enum { FIVES_OF_LIMB = 13 };

static uint32_t power_of_five(int exponent) {
    uint32_t power = 1;
    while (exponent-- > 0) power *= 5;
    return power;
}

/* Takes the largest power of five that a limb has room for out of `*fives`. */
static uint32_t take_fives(int *fives) {
    const int taken = *fives < FIVES_OF_LIMB ? *fives : FIVES_OF_LIMB;
    *fives -= taken;
    return power_of_five(taken);
}

/* Multiplies by 2^twos and 10^tens, and cuts off the fraction of the result. */
static void scale(large *it, int twos, int tens) {
    int fives = tens < 0 ? -tens : tens;
    if (tens < 0) shift(it, twos + tens);
    while (fives != 0) {
        const uint32_t power = take_fives(&fives);
        if (tens < 0) divide(it, power);
        else multiply(it, power);
    }
    if (tens >= 0) shift(it, twos + tens);
}

/* ---- numbers to doubles */

/* A mantissa of 1 is infinite with a larger exponent, and one of 2^127 is nearest to 0 with a smaller one. */
enum { MOST_TENS = 309, LEAST_TENS = -363 };

/* The bits of the double that is nearest to an integer, which is not 0, times 2^twos. */
static uint64_t nearest(large it, int twos) {
    const int top = count_bits(&it) + twos;
    const int last = top - DIGIT_BITS < LEAST_TWOS ? LEAST_TWOS : top - DIGIT_BITS;
    uint64_t twice;
    if (top > MOST_BITS) return INFINITE;
    shift(&it, twos - last + 1);
    twice = low_bits(&it);
    /* If rounding up makes one more digit, or the first one of a double with all its digits, the exponent is raised by it. */
    return ((uint64_t)(last - LEAST_TWOS) << FRACTION_BITS) + (twice >> 1) + (twice & 1 & (it.is_cut | twice >> 1));
}

/* The bits of the double that is nearest to a finite number without its sign. */
static uint64_t nearest_to_size(uint64_t high, uint64_t low, int32_t exponent) {
    large size = large_of(high, low);
    int places;
    if (size.len == 0 || exponent < LEAST_TENS) return 0;
    if (exponent > MOST_TENS) return INFINITE;
    /* So many binary places that 64 digits of the quotient are left. */
    places = exponent < 0 ? exponent * -10 / 3 + 67 : 0;
    scale(&size, places, exponent);
    return nearest(size, -places);
}

/* Whether sums, products and quotients are rounded to the nearest double: then 1 plus or minus 2^-55 is 1. */
static bool rounds_to_nearest(void) {
    volatile double little = 2.7755575615628914e-17;
    return 1 + little == 1 - little;
}

double mpslp_nearest_double(mpslp_number number) {
    uint64_t low = number.low, high = (uint64_t)number.high, size;
    if (number.infinity != 0) return double_of(number.infinity < 0 ? INFINITE | SIGN_BIT : INFINITE);
    if (mpslp_is_short(number) && rounds_to_nearest()) return mpslp_short_to_double(number);
    if (number.high < 0) {
        low = ~low + 1;
        high = ~high + (low == 0);
    }
    size = nearest_to_size(high, low, number.exponent);
    return double_of(number.high < 0 ? size | SIGN_BIT : size);
}

/* ---- doubles to numbers */

/* A finite double above 0: `digits` times 2^twos. */
typedef struct {
    uint64_t digits;
    int twos;
} binary;

static binary binary_of(uint64_t size) {
    const int exponent = (int)(size >> FRACTION_BITS);
    const uint64_t fraction = size & (HIDDEN_BIT - 1);
    const binary found = { exponent == 0 ? fraction : fraction | HIDDEN_BIT, LEAST_TWOS + (exponent == 0 ? 0 : exponent - 1) };
    return found;
}

/* A decimal without a sign. */
typedef struct {
    uint64_t high, low;
    int exponent;
} decimal;

/* 10^36, which has 37 digits, is TOO_HIGH * 2^64 + TOO_LOW. 5^53 is larger, and so is 2^120. */
#define TOO_HIGH UINT64_C(54210108624275221)
#define TOO_LOW UINT64_C(12919594847110692864)
enum { MOST_FIVES = 52, MOST_TWOS = 119 };

/* Sets the exact decimal of a double, unless it has more than 36 digits. */
static bool set_exact(binary value, decimal *exact) {
    large mantissa;
    for (; value.digits % 2 == 0; value.digits /= 2) value.twos++;
    exact->exponent = value.twos < 0 ? value.twos : 0;
    for (; value.twos > 0 && value.digits % 5 == 0; value.digits /= 5) {
        value.twos--;
        exact->exponent++;
    }
    if (value.twos < -MOST_FIVES || value.twos > MOST_TWOS) return false;
    mantissa = large_of(0, value.digits);
    /* Digits times 2^-n are digits times 5^n, times 10^-n. */
    if (value.twos < 0) scale(&mantissa, value.twos, -value.twos);
    else shift_left(&mantissa, value.twos);
    exact->low = low_bits(&mantissa);
    shift_right(&mantissa, 64);
    exact->high = low_bits(&mantissa);
    return mantissa.len <= 2 && (exact->high < TOO_HIGH || (exact->high == TOO_HIGH && exact->low < TOO_LOW));
}

/* A value in units of a power of ten, without its fraction, and whether it has one. */
typedef struct {
    uint64_t units;
    bool has_fraction;
} scaled;

static scaled scaled_of(uint64_t digits, int twos, int tens) {
    large it = large_of(0, digits);
    scaled found;
    scale(&it, twos, tens);
    found.units = low_bits(&it);
    found.has_fraction = it.is_cut;
    return found;
}

/* The decimals that are read as a double: those between two others, and these too if the double is even. */
typedef struct {
    scaled lower, middle, upper;
    bool has_ends;
} interval;

/* `tens` is the power of ten by which all three are multiplied. */
static interval interval_of(binary value, int tens) {
    /* Halves of the distances to the doubles above and below. The one below a power of two is nearer. */
    const uint64_t middle = value.digits * 4, above = 2, below = value.digits == HIDDEN_BIT && value.twos > LEAST_TWOS ? 1 : 2;
    const int twos = value.twos - 2;
    const interval found = { scaled_of(middle - below, twos, tens), scaled_of(middle, twos, tens), scaled_of(middle + above, twos, tens),
                             value.digits % 2 == 0 };
    return found;
}

static bool is_within(const interval *all, uint64_t units) {
    const scaled *lower = &all->lower, *upper = &all->upper;
    const bool is_above = units > lower->units || (units == lower->units && !lower->has_fraction && all->has_ends);
    const bool is_below = units < upper->units || (units == upper->units && (upper->has_fraction || all->has_ends));
    return is_above && is_below;
}

/* Whether the upper one of two neighbouring multiples of `unit` is nearer to the middle, or is the even one of two that are as near. */
static bool is_upper_nearer(const scaled *middle, uint64_t lower, uint64_t unit) {
    const uint64_t twice = (middle->units - lower) * 2;
    return twice > unit || (twice == unit && (middle->has_fraction || lower / unit % 2 != 0));
}

/* The decimal with the fewest digits in an interval, in its units, and of those the nearest to the middle. */
static uint64_t fewest_digits(const interval *all) {
    uint64_t unit = 1, lower;
    while (all->middle.units / unit >= 10) unit *= 10;
    for (;; unit /= 10) {
        lower = all->middle.units / unit * unit;
        if (is_within(all, lower) || is_within(all, lower + unit)) break;
    }
    if (!is_within(all, lower + unit)) return lower;
    if (!is_within(all, lower)) return lower + unit;
    return is_upper_nearer(&all->middle, lower, unit) ? lower + unit : lower;
}

/* The floor of n * log10(2), for numbers n of the size of exponents of doubles. */
static int tens_of_twos(int n) { return n < 0 ? -((-n * 30103 + 99999) / 100000) : n * 30103 / 100000; }

/* The decimal with the fewest digits that is read as a double. */
static decimal shortest(binary value) {
    const large digits = large_of(0, value.digits);
    /* In these units a double has 18 or 19 digits. 17 are enough for each, so there is one by which the nearest of them is found. */
    const int tens = 17 - tens_of_twos(count_bits(&digits) - 1 + value.twos);
    const interval all = interval_of(value, tens);
    decimal found = { 0, fewest_digits(&all), -tens };
    for (; found.low % 10 == 0; found.low /= 10) found.exponent++;
    return found;
}

static mpslp_number number_of(const decimal *size, bool is_negative) {
    mpslp_number made = { size->low, (int64_t)size->high, size->exponent, 0 };
    if (is_negative) {
        made.low = ~size->low + 1;
        made.high = -(int64_t)size->high - (size->low != 0);
    }
    return made;
}

bool mpslp_from_double(double value, mpslp_decimal wanted, mpslp_number *number) {
    const uint64_t bits = bits_of(value), size = bits & ~SIGN_BIT;
    const mpslp_number infinite = { 0, 0, 0, bits == size ? 1 : -1 };
    decimal found = { 0, 0, 0 };
    if (size > INFINITE) return false;
    if (size == INFINITE) {
        *number = infinite;
        return true;
    }
    if (size != 0) {
        if (wanted != MPSLP_EXACT) found = shortest(binary_of(size));
        else if (!set_exact(binary_of(size), &found)) return false;
    }
    *number = number_of(&found, bits != size);
    return true;
}
