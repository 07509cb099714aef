/*
 * numbers COUNT: makes numbers of COUNT random doubles, and doubles of COUNT random numbers, in each rounding mode. Compares with
 * strtod, which is called in the mode to nearest. Compares bits, so that it can be compiled with -ffast-math. Prints what differs,
 * and returns 1 if anything does.
 */
#include "mpslp.h"

#include <fenv.h>

static const int modes[] = { FE_TONEAREST, FE_UPWARD, FE_DOWNWARD, FE_TOWARDZERO };

enum { MODES = sizeof modes / sizeof modes[0] };

static uint64_t state = 88172645463325252u;

static uint64_t draw(void) {
    state ^= state << 13;
    state ^= state >> 7;
    state ^= state << 17;
    return state * 2685821657736338717u;
}

static uint64_t bits_of(double value) {
    uint64_t bits;
    memcpy(&bits, &value, sizeof bits);
    return bits;
}

static double double_of(uint64_t bits) {
    double value;
    memcpy(&value, &bits, sizeof value);
    return value;
}

static const uint64_t sign = (uint64_t)1 << 63, infinite = (uint64_t)0x7ff << 52;

static int differences = 0;

static void check(bool is_so, const char *what, uint64_t bits, mpslp_number number, int mode) {
    if (is_so || ++differences > 20) return;
    printf("%s: double %016llx, number %016llx %016llx e%ld, mode %d\n", what, (unsigned long long)bits, (unsigned long long)number.high,
           (unsigned long long)number.low, (long)number.exponent, mode);
}

static bool is_equal(mpslp_number one, mpslp_number other) {
    return one.low == other.low && one.high == other.high && one.exponent == other.exponent && one.infinity == other.infinity;
}

/* The bits of the double that strtod reads of a finite number. */
static uint64_t read_bits(mpslp_number number) {
    char text[MPSLP_NUMBER_ROOM];
    mpslp_number_text(number, text);
    return bits_of(strtod(text, NULL));
}

/* The double of a number has these bits in each mode. */
static void check_read(uint64_t bits, mpslp_number number) {
    for (int mode = 0; mode < MODES; mode++) {
        fesetround(modes[mode]);
        check(bits_of(mpslp_to_double(number, NULL)) == bits, "to_double", bits, number, modes[mode]);
    }
    fesetround(FE_TONEAREST);
}

/* printf's %e of a double, as a number. */
static void check_printed(uint64_t bits) {
    char text[MPSLP_DOUBLE_ROOM];
    mpslp_number number = { 0, 0, 0, 0 };
    snprintf(text, sizeof text, "%.16e", double_of(bits));
    check(mpslp_read_double(text, &number), "read_double", bits, number, 0);
    check((bits_of(mpslp_text_to_double(number)) | (bits & sign)) == bits, "text_to_double", bits, number, 0);
}

/* Makes a number in each mode, and checks that it is the same one. */
static bool make(uint64_t bits, mpslp_decimal wanted, mpslp_number *number) {
    const bool is_made = mpslp_from_double(double_of(bits), wanted, number);
    mpslp_number other = *number;
    for (int mode = 1; mode < MODES; mode++) {
        fesetround(modes[mode]);
        check(mpslp_from_double(double_of(bits), wanted, &other) == is_made && is_equal(other, *number), "from_double", bits, other, modes[mode]);
    }
    fesetround(FE_TONEAREST);
    return is_made;
}

static void check_double(uint64_t bits) {
    mpslp_number number = { 0, 0, 0, 0 };
    bool is_exact;
    check_printed(bits);
    check(make(bits, MPSLP_SHORTEST, &number), "no shortest decimal", bits, number, 0);
    /* -0 becomes 0. */
    if (bits == sign) bits = 0;
    check(read_bits(number) == bits, "shortest", bits, number, 0);
    check_read(bits, number);
    if (!make(bits, MPSLP_EXACT, &number)) return;
    check(bits_of(mpslp_to_double(number, &is_exact)) == bits && is_exact, "exact", bits, number, 0);
    check(read_bits(number) == bits, "exact", bits, number, 0);
    check_read(bits, number);
}

static uint64_t drawn_double(void) {
    /* Any bits; few digits; an integer; the neighbours of a power of two. */
    const uint64_t any = draw();
    switch (draw() % 4) {
    case 0: return any;
    case 1: return any & (sign | infinite | (uint64_t)0xff << 44);
    case 2: return bits_of((double)(int64_t)(any >> draw() % 63));
    default: return (any & (sign | infinite)) + draw() % 3 - 1;
    }
}

static mpslp_number drawn_number(void) {
    mpslp_number number = { 0, 0, 0, 0 };
    const unsigned bits = draw() % 127;
    number.low = draw() >> (bits < 64 ? 63 - bits : 0);
    number.high = bits < 64 ? 0 : (int64_t)(draw() >> (127 - bits));
    if (draw() % 2) number.high = ~number.high;
    number.exponent = draw() % 4 ? (int32_t)(draw() % 45) - 22 : (int32_t)(draw() % 800) - 420;
    return number;
}

/* Numbers whose exponents are at the ends. Nothing overflows, and `is_exact` is right. */
static void check_ends(void) {
    static const int32_t exponents[] = { INT32_MAX, INT32_MAX - 1, 1 << 20, 1100, 310, 309, 308, -360, -364, -1100, -(1 << 20), INT32_MIN + 1, INT32_MIN };
    static const mpslp_number mantissas[] = { { 1, 0, 0, 0 }, { 2, 0, 0, 0 },         { UINT64_MAX, INT64_MAX, 0, 0 }, { UINT64_MAX, -1, 0, 0 },
                                              { 5, 0, 0, 0 }, { 0, INT64_MIN, 0, 0 }, { 0, (int64_t)1 << 62, 0, 0 },   { 0, 0, 0, 0 } };
    for (size_t i = 0; i < sizeof exponents / sizeof exponents[0]; i++)
        for (size_t k = 0; k < sizeof mantissas / sizeof mantissas[0]; k++) {
            mpslp_number number = mantissas[k];
            const bool is_zero = number.low == 0 && number.high == 0;
            bool is_exact = !is_zero;
            uint64_t bits;
            number.exponent = exponents[i];
            bits = is_zero ? 0 : read_bits(number);
            check_read(bits, number);
            mpslp_to_double(number, &is_exact);
            check(is_exact == is_zero, "is_exact", bits, number, 0);
        }
}

/* Infinities and NaN. */
static void check_special(void) {
    const mpslp_number before = { 1, 2, 3, 0 }, plus = { 0, 0, 0, 1 }, minus = { 0, 0, 0, -1 };
    mpslp_number number = before;
    bool is_exact = false;
    for (int wanted = MPSLP_SHORTEST; wanted <= MPSLP_EXACT; wanted++) {
        number = before;
        check(!make(infinite + 1, (mpslp_decimal)wanted, &number) && is_equal(number, before), "NaN", infinite + 1, number, 0);
        check(!make(~(uint64_t)0, (mpslp_decimal)wanted, &number) && is_equal(number, before), "NaN", ~(uint64_t)0, number, 0);
        check(make(infinite, (mpslp_decimal)wanted, &number) && is_equal(number, plus), "infinity", infinite, number, 0);
        check(make(sign | infinite, (mpslp_decimal)wanted, &number) && is_equal(number, minus), "infinity", sign | infinite, number, 0);
    }
    check(bits_of(mpslp_to_double(plus, &is_exact)) == infinite && is_exact, "infinity", infinite, plus, 0);
    is_exact = false;
    check(bits_of(mpslp_to_double(minus, &is_exact)) == (sign | infinite) && is_exact, "infinity", sign | infinite, minus, 0);
}

int main(int count, char **words) {
    const long most = count == 2 ? strtol(words[1], NULL, 10) : 0;
    if (most <= 0) return 3;
    check_special();
    check_ends();
    check_double(0);
    check_double(sign);
    for (uint64_t exponent = 0; exponent < 2047; exponent++)
        for (uint64_t near = 0; near < 3; near++)
            if ((exponent << 52) + near != 0) check_double((exponent << 52) + near - 1);
    for (long i = 0; i < most; i++) {
        const uint64_t bits = drawn_double();
        const mpslp_number number = drawn_number();
        if ((bits & infinite) != infinite) check_double(bits);
        check_read(number.low == 0 && number.high == 0 ? 0 : read_bits(number), number);
    }
    return differences != 0;
}
