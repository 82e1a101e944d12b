// Known results of the arithmetic on doubles, for the program `test_arithmetic`: C's own fma, round, floor and ceil, on
// cases chosen below. Each case is 33 bytes on standard output: the number of a function, its three operands and its
// result, as the bit patterns of doubles, the highest byte first. With the argument `text` it writes lines of hex.
// tools/README.md says how it is built and run. Exit status: 0 with the cases, 1 where they cannot be written, 2 where it
// was called wrongly.
#include <math.h>
#include <stdint.h>
#include <stdio.h>
#include <string.h>

enum { MUL_ADD, ROUND, FLOOR, CEIL, WITHIN_ONE_ULP, BITS, IS_FINITE, IS_POSITIVE };

static const uint64_t NAN_BITS = 0x7ff8000000000000; // the one pattern that a NaN result is written as
static const uint64_t SIGN = 0x8000000000000000;
static const uint64_t FIELD = 0x10000000000000; // the weight of the exponent's field

static int text;
static int cases;

static uint64_t bits(double x) {
    uint64_t b;
    memcpy(&b, &x, 8);
    return x != x ? NAN_BITS : b;
}

static double value(uint64_t b) {
    double x;
    memcpy(&x, &b, 8);
    return x;
}

static void word(uint64_t b) {
    if (text)
        printf(" %016llx", (unsigned long long)b);
    else
        for (int i = 56; i >= 0; i -= 8)
            putchar(b >> i & 255);
}

static void put(int function, uint64_t a, uint64_t b, uint64_t c, uint64_t result) {
    if (text)
        printf("%d %d", cases, function);
    else
        putchar(function);
    word(a), word(b), word(c), word(result);
    if (text)
        putchar('\n');
    cases++;
}

// xorshift64: the same cases at each run
static uint64_t state = 88172645463325252;
static uint64_t next(void) {
    state ^= state << 13;
    state ^= state >> 7;
    state ^= state << 17;
    return state;
}

// a double with the exponent's field `field` and a fraction that is random, almost full or almost empty
static double with_field(uint64_t field) {
    uint64_t r = next(), fraction = r % FIELD;
    if (r >> 60 == 1)
        fraction = FIELD - 1 - fraction % 4;
    if (r >> 60 == 2)
        fraction = fraction % 4;
    if (r >> 60 == 3)
        fraction &= ~0xffffffffull;
    return value((next() & SIGN) | field * FIELD | fraction);
}

static uint64_t field_of(double x) { return bits(x) / FIELD % 2048; }

static uint64_t within(int64_t n, int64_t least, int64_t most) { return n < least ? least : n > most ? most : n; }

static void mul_add(double a, double b, double c) { put(MUL_ADD, bits(a), bits(b), bits(c), bits(fma(a, b, c))); }

static void mul_adds(void) {
    // zeros, infinities, NaN, in each place
    double s[] = {0.0, -0.0, -1.5, INFINITY, -INFINITY, NAN};
    for (int i = 0; i < 216; i++)
        mul_add(s[i / 36], s[i / 6 % 6], s[i % 6]);
    for (int i = 0; i < 40; i++) { // any fields
        double a = with_field(next() % 2047), b = with_field(next() % 2047), c = with_field(next() % 2047);
        mul_add(a, b, c);
    }
    for (int i = 0; i < 60; i++) { // the third near the product: every distance of the two
        double a = with_field(1000 + next() % 46), b = with_field(1000 + next() % 46);
        mul_add(a, b, with_field(within((int64_t)field_of(a) + (int64_t)field_of(b) - 1023 + i * 2 - 60, 0, 2046)));
    }
    for (int i = 0; i < 60; i++) { // cancellation: the rounded product taken off, and one or two ulps beside it
        double a = with_field(800 + next() % 400), b = with_field(800 + next() % 400);
        mul_add(a, b, -value(bits(a * b) + i % 5 % 3));
    }
    for (int i = 0; i < 40; i++) { // subnormal products and sums
        double a = with_field(next() % 40 + 480), b = with_field(1023 - 480 + next() % 24);
        mul_add(a, b, i % 2 ? with_field(0) : with_field(next() % 4));
    }
    for (int i = 0; i < 40; i++) { // about the largest double
        double a = with_field(1500 + next() % 3), b = with_field(2046 - 1500 + 1022 + next() % 3);
        mul_add(a, b, i % 2 ? with_field(2046) : with_field(1990 + next() % 57));
    }
    mul_add(0.1, 10.0, -1.0);
    mul_add(1.0 + 0x1p-27, 1.0 + 0x1p-27, -(1.0 + 0x1p-26)); // 2^-54 alone: a product and a sum give 0
    mul_add(0x1p-537, 0x1p-538, 0.0);                         // half of the smallest double
    mul_add(0x1p-537, 0x1.8p-538, 0.0);
    mul_add(0x1.fffffffffffffp1023, 1.0, 0x1p969); // just below, and at, what is infinite
    mul_add(0x1.fffffffffffffp1023, 1.0, 0x1p970);
}

// the answer as a whole number: 0 has no sign there, and of a NaN or an infinity there is none
static double whole(double x, double nearest) { return isfinite(x) ? nearest + 0.0 : NAN; }

static void roundings(double x) {
    put(ROUND, bits(x), 0, 0, bits(whole(x, round(x))));
    put(FLOOR, bits(x), 0, 0, bits(whole(x, floor(x))));
    put(CEIL, bits(x), 0, 0, bits(whole(x, ceil(x))));
}

static void both_signs(double x) { roundings(x), roundings(-x); }

// x and its neighbours
static void around(double x) { both_signs(nextafter(x, 0)), both_signs(x), both_signs(nextafter(x, INFINITY)); }

static void all_roundings(void) {
    double s[] = {0.5, 1, 1.5, 2.5, 255.5, 2147483647, 2147483647.5, 2147483648, 0x1p51 + 0.5, 0x1p52 - 0.5, 0x1p52};
    for (int i = 0; i < 11; i++)
        around(s[i]);
    double t[] = {0, 0x1p-1074, 0x1.fffffffffffffp-1023, 0x1p-1022, 0.25, 3.75, 0x1p53, 0x1p62, 0x1p63, 1e300, INFINITY};
    for (int i = 0; i < 11; i++)
        both_signs(t[i]);
    roundings(NAN);
    for (int i = 0; i < 16; i++)
        roundings(with_field(1020 + next() % 60));
}

// places in the order of the doubles, as gdsr's `ordered_bits` has them
static uint64_t ordered(uint64_t b) { return b & SIGN ? ~b : b | SIGN; }

static void step(uint64_t a, uint64_t b) {
    uint64_t x = ordered(bits(value(a))), y = ordered(bits(value(b)));
    put(WITHIN_ONE_ULP, a, b, 0, x == y || x + 1 == y || y + 1 == x);
}

static void steps(void) {
    double s[] = {0.0, -0.0, 0x1p-1074, -0x1p-1074, 1.0, -1.0, 3.0, 0x1.fffffffffffffp1023, INFINITY, -INFINITY, NAN};
    for (int i = 0; i < 11; i++)
        for (int d = 0; d < 3; d++) {
            step(bits(s[i]), bits(s[i]) + d);
            step(bits(s[i]) + d, bits(s[i]));
        }
    step(bits(0.0), bits(-0.0)), step(bits(-0.0), bits(0.0)), step(bits(0x1p-1074), bits(-0.0));
    step(bits(1.0), bits(-1.0)), step(bits(NAN), bits(INFINITY));
}

static void patterns(void) {
    uint64_t s[] = {0x0000000000000000, 0x8000000000000000, 0x0000000000000001, 0x800fffffffffffff, 0x0010000000000000,
        0x3ff0000000000000, 0xc005bf0a8b145769, 0x7fefffffffffffff, 0x7ff0000000000000, 0xfff0000000000000,
        0x7ff0000000000001, 0x7ff8000000000000, 0x7fffffffffffffff, 0xfff0000000000001, 0xfff8000000000000,
        0xffffffffffffffff, 0x0123456789abcdef, 0xfedcba9876543210};
    for (int i = 0; i < 18; i++) {
        double x = value(s[i]);
        put(BITS, s[i], 0, 0, bits(x));
        put(IS_FINITE, s[i], 0, 0, isfinite(x) != 0);
        put(IS_POSITIVE, s[i], 0, 0, isfinite(x) && x > 0);
    }
}

int main(int count, char **words) {
    text = count == 2 && strcmp(words[1], "text") == 0;
    if (count > 1 && !text) {
        fprintf(stderr, "known_results: it takes `text` or no word\n");
        return 2;
    }
    mul_adds();
    all_roundings();
    steps();
    patterns();
    if (fflush(stdout) || ferror(stdout)) {
        fprintf(stderr, "known_results: the cases cannot be written to standard output\n");
        return 1;
    }
    return 0;
}
