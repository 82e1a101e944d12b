// Nanoseconds of the conversion of one coordinate and of mul_add, as proved and as C has them, in one run. bench/run.sh builds and runs it.
// Both sides are called through a function that the compiler does not see into, once for each number; their results are compared.
#include <float.h>
#include <math.h>
#include <stdint.h>
#include <stdio.h>
#include <string.h>
#include <time.h>

extern uint64_t bench_arithmetic_convert(double value, double units, double d);
extern double bench_arithmetic_mul_add(double a, double b, double c);

enum { NUMBERS = 4096, TURNS = 500, RUNS = 9 };

// above the 32 bits of a database value: a report entry is due, or there is no value (crates/bench_arithmetic)
static const uint64_t DUE = 0x100000000, REFUSED = 0x200000000;

static uint64_t bits(double x) {
    uint64_t b;
    memcpy(&b, &x, 8);
    return b;
}

static uint64_t ordered(double x) { return bits(x) >> 63 ? ~bits(x) : bits(x) | 1ull << 63; }

static int one_step(double x, double y) { return ordered(x) - ordered(y) + 1 <= 2; }

// what bench_arithmetic_convert answers, with C's round and floor
__attribute__((noinline)) static uint64_t c_convert(double value, double units, double d) {
    if (!(0 < units && units <= DBL_MAX))
        return REFUSED;
    double p = value * units, s = p / d;
    if (!(fabs(s) < 0x1p52))
        return REFUSED;
    double nearest = round(s);
    double whole = one_step(s, nearest) ? nearest : floor(s);
    if (whole < INT32_MIN || whole > INT32_MAX)
        return REFUSED;
    int32_t q = (int32_t)whole;
    int due = !one_step(s, q) && 0 < fabs(p - q * d);
    return (due ? DUE : 0) + (uint32_t)q;
}

__attribute__((noinline)) static double c_mul_add(double a, double b, double c) { return fma(a, b, c); }

static double v[NUMBERS], a[NUMBERS], b[NUMBERS], c[NUMBERS];

static double now(void) {
    struct timespec t;
    clock_gettime(CLOCK_MONOTONIC, &t);
    return t.tv_sec * 1e9 + t.tv_nsec;
}

static uint64_t conversions(uint64_t (*f)(double, double, double), double *best) {
    uint64_t sum = 0;
    double start = now();
    for (int t = 0; t < TURNS; t++)
        for (int i = 0; i < NUMBERS; i++)
            sum = sum * 3 + f(v[i], 1e-6, 1e-9);
    *best = fmin(*best, (now() - start) / TURNS / NUMBERS);
    return sum;
}

static uint64_t mul_adds(double (*f)(double, double, double), double *best) {
    uint64_t sum = 0;
    double start = now();
    for (int t = 0; t < TURNS; t++)
        for (int i = 0; i < NUMBERS; i++)
            sum = sum * 3 + bits(f(a[i], b[i], c[i]));
    *best = fmin(*best, (now() - start) / TURNS / NUMBERS);
    return sum;
}

static uint64_t state = 88172645463325252;
static double unit(void) { // from -1 to 1
    state ^= state << 13;
    state ^= state >> 7;
    state ^= state << 17;
    return (double)(int64_t)state / 0x1p63;
}

int main(void) {
    for (int i = 0; i < NUMBERS; i++) {
        v[i] = i % 2 ? unit() * 1e6 : round(unit() * 1e9) * 0.001; // micrometres, off the grid of nanometres and on it, in turn
        a[i] = unit() * 1e3, b[i] = unit(), c[i] = unit() * 1e3;
    }
    double times[4] = {DBL_MAX, DBL_MAX, DBL_MAX, DBL_MAX};
    int same = 1;
    for (int r = 0; r < RUNS; r++) {
        same &= conversions(bench_arithmetic_convert, times) == conversions(c_convert, times + 1);
        same &= mul_adds(bench_arithmetic_mul_add, times + 2) == mul_adds(c_mul_add, times + 3);
    }
    printf("one conversion: %.1f ns, in C %.1f ns\n", times[0], times[1]);
    printf("mul_add: %.1f ns, C's fma %.1f ns\n", times[2], times[3]);
    printf("results %s\n", same ? "equal" : "DIFFER");
    return !same;
}
