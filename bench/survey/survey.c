// Nanoseconds for a place of a pitch survey of 65,536 places, as proved and by the same loop in C, in one run. bench/survey/run.sh builds and runs it.
// Both sides are called for whole rows, in turn, and their counts are compared.
#include "../../exports/c/ravenvanity.h"
#include <float.h>
#include <math.h>
#include <stdio.h>
#include <string.h>
#include <time.h>

enum { TURNS = 20, RUNS = 15 };

struct counts {
    uint32_t clean, due, refused;
};

static uint64_t ordered(double x) {
    uint64_t b;
    memcpy(&b, &x, 8);
    return b >> 63 ? ~b : b | 1ull << 63;
}

static int one_step(double x, double y) { return ordered(x) - ordered(y) + 1 <= 2; }

// gdsr's convert_physical, of which the survey asks only which answer it is
static uint32_t *place(struct counts *counts, uint8_t policy, double d, double p) {
    double s = p / d;
    if (!isfinite(p) || !isfinite(s))
        return &counts->refused;
    double q = round(s);
    if (policy != 0 && !one_step(s, q)) {
        if (policy == 3)
            return &counts->refused;
        q = policy == 1 ? floor(s) : ceil(s);
    }
    if (q < INT32_MIN || q > INT32_MAX)
        return &counts->refused;
    q += 0.0; // -0 to +0
    return fabs(p - q * d) > 0 && !one_step(s, q) ? &counts->due : &counts->clean;
}

__attribute__((noinline)) static void c_survey(struct counts *counts, uint8_t policy, double d, double pitch, uint32_t n) {
    memset(counts, 0, sizeof *counts);
    for (uint32_t i = 0; i < n; i++)
        ++*place(counts, policy, d, i * pitch);
}

static double now(void) {
    struct timespec t;
    clock_gettime(CLOCK_MONOTONIC, &t);
    return t.tv_sec * 1e9 + t.tv_nsec;
}

static void row(const char *what, uint8_t policy, double d, double pitch, int *same) {
    double proved = DBL_MAX, c = DBL_MAX;
    struct counts a, b;
    for (int r = 0; r < RUNS; r++) {
        double start = now();
        for (int t = 0; t < TURNS; t++)
            ravenvanity_survey_pitch(&a.clean, &a.due, &a.refused, policy, d, pitch, RAVENVANITY_MAX_PLACES);
        double between = now();
        for (int t = 0; t < TURNS; t++)
            c_survey(&b, policy, d, pitch, RAVENVANITY_MAX_PLACES);
        double end = now(), places = (double)TURNS * RAVENVANITY_MAX_PLACES;
        proved = fmin(proved, (between - start) / places);
        c = fmin(c, (end - between) / places);
        *same &= memcmp(&a, &b, sizeof a) == 0;
    }
    printf("%-42s %5.1f ns, in C %5.1f ns, ratio %.2f   (%u clean, %u due, %u refused)\n", what, proved, c, proved / c, a.clean, a.due, a.refused);
}

int main(void) {
    int same = 1;
    row("on the grid, nearest", 0, 1e-9, 1.28e-7, &same);
    row("on the grid, strict", 3, 1e-9, 1.28e-7, &same);
    row("off the grid, nearest", 0, 1e-9, 1.2345e-7, &same);
    row("off the grid, floor", 1, 1e-9, 1.2345e-7, &same);
    row("off the grid, strict", 3, 1e-9, 1.2345e-7, &same);
    row("from half of the row on beyond 32 bits", 0, 1e-9, 6.5535e-5, &same);
    printf("counts %s\n", same ? "equal" : "DIFFER");
    return !same;
}
