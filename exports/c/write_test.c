// A test of ravenvanity_write.h, of the lines of ravenvanity_report.h, that measuring and writing agree, of what boxes, flags,
// plex numbers and properties are written as, of the limits of text types and properties, and that infinite values are refused
// without an invalid operation, and an array far off without an overflow. Prints nothing on standard output; status 1 where something is not as it must be.
#include "ravenvanity_report.h"
#include "ravenvanity_sheet.h"
#include <math.h>
#include <stdbool.h>
#include <stdint.h>
#include <stdio.h>
#include <stdlib.h>
#include <string.h>
#include <xmmintrin.h>

static bool memory_left = true;

static void *failing_malloc(size_t length) {
    return memory_left ? malloc(length) : NULL;
}

#define malloc failing_malloc
#include "ravenvanity_write.h"
#undef malloc

#define COUNT(array) (sizeof(array) / sizeof(array)[0])

static int missed;

static void hold(const char *what, bool right) {
    if (right)
        return;
    fprintf(stderr, "write_test: %s\n", what);
    missed++;
}

// ---- lines

static void hold_text(const char *wanted, size_t length, const char *text) {
    if (length == strlen(wanted) && strcmp(text, wanted) == 0)
        return;
    fprintf(stderr, "write_test: \"%s\" is not \"%s\"\n", text, wanted);
    missed++;
}

static void test_entry(const char *wanted, struct ravenvanity_entry entry) {
    char words[RAVENVANITY_WORDS_ROOM];
    hold_text(wanted, ravenvanity_entry_words(&entry, words, sizeof words), words);
}

static const struct ravenvanity_entry ENTRY = {
    .cell = RAVENVANITY_NO_CELL, .kind = RAVENVANITY_KIND_REFERENCE, .field = RAVENVANITY_FIELD_COLUMN_ENDPOINT,
    .affected = 4, .physical = 42.5, .database = 45, .error = 2.5,
};
static const char ENTRY_WORDS[] = "element 0 (reference): 4 values affected, worst column endpoint x: p 42.5, q 45, error 2.5 above";

static void test_entries(void) {
    test_entry(ENTRY_WORDS, ENTRY);
    test_entry("cell 7, element 4294967295 (polygon): 1 value affected, worst point 65535 y: p -1.5, q -2147483648, error 0.5 below",
               (struct ravenvanity_entry){7, UINT32_MAX, 1, 0, 1, 65535, 1, -1.5, INT32_MIN, -0.5});
    test_entry("cell 0, element 2 (path): 0 values affected, worst begin extension: p nan, q 0, error inf above",
               (struct ravenvanity_entry){0, 2, 2, 2, 2, 0, 0, NAN, 0, INFINITY});
    test_entry("element 0 (box): 10 values affected, worst point 2 y: p 42.5, q 45, error 2.5 above",
               (struct ravenvanity_entry){RAVENVANITY_NO_CELL, 0, 6, 0, 1, 2, 10, 42.5, 45, 2.5});
    static const uint8_t unknown[] = {0, 7, 17, 54}; // the last two as sheets have kinds with flags and plex numbers
    for (size_t k = 0; k < sizeof unknown; k++)
        test_entry("element 0 (unknown kind): 0 values affected, worst unknown field unknown axis: p -0, q 0, error inf below",
                   (struct ravenvanity_entry){RAVENVANITY_NO_CELL, 0, unknown[k], 9, 3, 1, 0, -0.0, 0, -INFINITY});
}

static void test_side(const char *wanted, double error) {
    struct ravenvanity_entry entry = ENTRY;
    entry.error = error;
    hold_text(wanted, strlen(ravenvanity_side(&entry)), ravenvanity_side(&entry));
    char line[RAVENVANITY_WORDS_ROOM], size[RAVENVANITY_DOUBLE_ROOM];
    ravenvanity_double_words(fabs(error), size);
    snprintf(line, sizeof line, "element 0 (reference): 4 values affected, worst column endpoint x: p 42.5, q 45, error %s %s",
             size, wanted);
    test_entry(line, entry);
}

// The magnitude has no sign. An error of 0 or NaN, which the proved writer never gives, is on no side.
static void test_sides(void) {
    test_side("above", 2.5);
    test_side("below", -2.5);
    test_side("above", 4.9406564584124654e-324);
    test_side("below", -4.9406564584124654e-324);
    test_side("above", INFINITY);
    test_side("below", -INFINITY);
    test_side("unknown side", 0.0);
    test_side("unknown side", -0.0);
    test_side("unknown side", NAN);
}

// Into rooms up to that of the whole: what is behind them stays.
static void test_sizes(void) {
    const size_t whole = sizeof ENTRY_WORDS;
    hold("no room", ravenvanity_entry_words(&ENTRY, NULL, 0) == whole - 1);
    for (size_t size = 0; size <= whole; size++) {
        char words[sizeof ENTRY_WORDS + 1], wanted[sizeof ENTRY_WORDS + 1];
        memset(words, '#', sizeof words);
        memset(wanted, '#', sizeof wanted);
        memcpy(wanted, ENTRY_WORDS, size);
        if (size > 0)
            wanted[size - 1] = '\0';
        hold("the length that is needed", ravenvanity_entry_words(&ENTRY, words, size) == whole - 1);
        hold("a text cut short", memcmp(words, wanted, sizeof words) == 0);
    }
}

static void test_double(const char *wanted, double value) {
    char words[RAVENVANITY_DOUBLE_ROOM];
    ravenvanity_double_words(value, words);
    hold_text(wanted, strlen(words), words);
}

static void test_doubles(void) {
    test_double("0", 0);
    test_double("0.1", 0.1);
    test_double("100000000000000", 1e14);
    test_double("3.99999999999183e-10", 3.99999999999183e-10);  // 15 digits
    test_double("2.999999999999431e-10", 2.999999999999431e-10); // 16
    test_double("0.30000000000000004", 0.1 + 0.2);               // 17
    test_double("-1.7976931348623157e+308", -1.7976931348623157e308);
    test_double("4.94065645841247e-324", 4.9406564584124654e-324);
}

static void test_line(const char *where, uint8_t number, size_t block) {
    char wanted[RAVENVANITY_WORDS_ROOM], line[RAVENVANITY_WORDS_ROOM];
    snprintf(wanted, sizeof wanted, "%s: %s", where, ravenvanity_refusal_words(number));
    hold_text(wanted, ravenvanity_refusal_line(number, block, line, sizeof line), line);
}

static void test_library_line(const char *where, uint8_t number, size_t cell, size_t block) {
    char wanted[RAVENVANITY_WORDS_ROOM], line[RAVENVANITY_WORDS_ROOM];
    snprintf(wanted, sizeof wanted, "%s: %s", where, ravenvanity_refusal_words(number));
    hold_text(wanted, ravenvanity_library_refusal_line(number, cell, block, line, sizeof line), line);
}

static void test_lines(void) {
    char line[RAVENVANITY_WORDS_ROOM];
    hold_text("refusal 21: the output is too short for what is to be written", ravenvanity_refusal_line(21, 0, line, sizeof line), line);
    test_line("refusal 18, block 2", 18, 2);
    test_line("refusal 26, block 1", 26, 1);
    test_line("refusal 27, block 2", 27, 2);
    test_line("refusal 5, block 0", 5, 0);
    test_line("refusal 6, block 0", 6, 0);
    test_line("refusal 7, block 0", 7, 0);
    test_library_line("refusal 18, cell 0, block 1", 18, 0, 1);
    test_library_line("refusal 27, cell 1, block 1", 27, 1, 1);
    test_library_line("refusal 4, cell 3", 4, 3, 0);
    test_library_line("refusal 6, cell 1, block 0", 6, 1, 0);
    test_library_line("refusal 6", 6, RAVENVANITY_NO_CELL, 0);
    test_library_line("refusal 23", 23, RAVENVANITY_NO_CELL, 0);
    char cut[8] = "#######";
    size_t needed = ravenvanity_refusal_line(33, 0, cut, 5);
    hold("a refusal cut short", memcmp(cut, "refu\0##", 8) == 0);
    hold("the length of a refusal", needed == strlen("refusal 33: ") + strlen(ravenvanity_refusal_words(33)));
    for (unsigned number = 0; number < 256; number++)
        hold("RAVENVANITY_WORDS_ROOM",
             ravenvanity_library_refusal_line((uint8_t)number, SIZE_MAX, SIZE_MAX, NULL, 0) < RAVENVANITY_WORDS_ROOM);
}

// ---- writing

static void add_node(struct ravenvanity_sheet *sheet, double x) {
    const double xy[2] = {x, 0};
    ravenvanity_add_node(sheet, 1, 0, ravenvanity_doubles(xy, 1, 1));
}

// A cell of two nodes.
static struct ravenvanity_sheet nodes_sheet(double first, double second) {
    struct ravenvanity_sheet sheet = ravenvanity_new_sheet();
    ravenvanity_start_cell(&sheet, "A", NULL);
    add_node(&sheet, first);
    add_node(&sheet, second);
    hold("a cell sheet", ravenvanity_finish(&sheet) == RAVENVANITY_NO_FAULT);
    return sheet;
}

static struct ravenvanity_sheet cell_sheet(double x) {
    return nodes_sheet(1, x);
}

// A library of an empty cell, and one of a node at x.
static struct ravenvanity_sheet library_sheet(double x) {
    struct ravenvanity_sheet sheet = ravenvanity_new_sheet();
    ravenvanity_start_library(&sheet, "L", 0.001, NULL);
    ravenvanity_start_cell(&sheet, "A", NULL);
    ravenvanity_start_cell(&sheet, "B", NULL);
    add_node(&sheet, x);
    hold("a library sheet", ravenvanity_finish(&sheet) == RAVENVANITY_NO_FAULT);
    return sheet;
}

// A library of two cells of a node each.
static struct ravenvanity_sheet cells_sheet(double first, double second) {
    struct ravenvanity_sheet sheet = ravenvanity_new_sheet();
    ravenvanity_start_library(&sheet, "L", 0.001, NULL);
    ravenvanity_start_cell(&sheet, "A", NULL);
    add_node(&sheet, first);
    ravenvanity_start_cell(&sheet, "B", NULL);
    add_node(&sheet, second);
    hold("a library sheet", ravenvanity_finish(&sheet) == RAVENVANITY_NO_FAULT);
    return sheet;
}

typedef struct ravenvanity_written writer(const uint8_t *, size_t, uint8_t, double);

static struct ravenvanity_written written(writer *write, struct ravenvanity_sheet sheet, uint8_t policy) {
    struct ravenvanity_written to = write(sheet.bytes, sheet.length, policy, 1);
    ravenvanity_free(&sheet);
    return to;
}

// The bytes end with those of an ENDSTR or an ENDLIB, and the entries have their length.
static void accepted(const char *what, struct ravenvanity_written to, uint8_t end, size_t entries, size_t entry_length) {
    hold(what, to.bytes != NULL && !to.no_memory && to.number == 0 && to.block == 0);
    hold(what, to.length > 4 && memcmp(to.bytes + to.length - 4, (uint8_t[]){0, 4, end, 0}, 4) == 0);
    hold(what, to.report != NULL && to.entries == entries && to.report_length == entries * entry_length);
    hold(what, to.greatest == (entries == 0 ? 0 : 0.5));
    ravenvanity_free_written(&to);
    hold(what, to.bytes == NULL && to.length == 0);
    ravenvanity_free_written(&to);
}

static void refused(const char *what, struct ravenvanity_written to, uint8_t number, size_t cell, size_t block) {
    hold(what, !to.no_memory && to.number == number && to.cell == cell && to.block == block);
    hold(what, to.bytes == NULL && to.report == NULL && to.length + to.report_length + to.entries == 0 && to.greatest == 0);
    ravenvanity_free_written(&to);
}

static void test_accepted(void) {
    accepted("a cell", written(ravenvanity_write_new_cell, cell_sheet(1.5), RAVENVANITY_NEAREST), 7, 1, 33);
    accepted("a cell without a report", written(ravenvanity_write_new_cell, cell_sheet(2), RAVENVANITY_STRICT), 7, 0, 33);
    accepted("a library", written(ravenvanity_write_new_library, library_sheet(1.5), RAVENVANITY_FLOOR), 4, 1, 37);
    accepted("a library without a report", written(ravenvanity_write_new_library, library_sheet(2), RAVENVANITY_STRICT), 4, 0, 37);
    struct ravenvanity_written to = written(ravenvanity_write_new_library, library_sheet(1.5), RAVENVANITY_FLOOR);
    struct ravenvanity_entry entry;
    size_t at = 0;
    hold("an entry", ravenvanity_next_library_entry(to.report, to.report_length, &at, &entry));
    test_entry("cell 1, element 0 (node): 1 value affected, worst point 0 x: p 1.5, q 1, error 0.5 below", entry);
    hold("no more entries", !ravenvanity_next_library_entry(to.report, to.report_length, &at, &entry));
    ravenvanity_free_written(&to);
}

static void test_refused(void) {
    refused("a strict cell", written(ravenvanity_write_new_cell, cell_sheet(1.5), RAVENVANITY_STRICT), 18, RAVENVANITY_NO_CELL, 2);
    refused("a strict library", written(ravenvanity_write_new_library, library_sheet(1.5), RAVENVANITY_STRICT), 18, 1, 1);
    refused("policy 4", written(ravenvanity_write_new_library, library_sheet(1.5), 4), 1, RAVENVANITY_NO_CELL, 0);
    struct ravenvanity_sheet none = ravenvanity_new_sheet();
    refused("no cell sheet", written(ravenvanity_write_new_cell, none, RAVENVANITY_NEAREST), 4, RAVENVANITY_NO_CELL, 0);
    refused("no library sheet", written(ravenvanity_write_new_library, none, RAVENVANITY_NEAREST), 23, RAVENVANITY_NO_CELL, 0);
}

static void no_room(const char *what, struct ravenvanity_written to) {
    hold(what, to.no_memory);
    to.no_memory = false;
    refused(what, to, 0, RAVENVANITY_NO_CELL, 0);
}

// A refusal takes no memory.
static void test_memory(void) {
    memory_left = false;
    no_room("a cell without memory", written(ravenvanity_write_new_cell, cell_sheet(1.5), RAVENVANITY_NEAREST));
    no_room("a library without memory", written(ravenvanity_write_new_library, library_sheet(1.5), RAVENVANITY_NEAREST));
    test_refused();
    memory_left = true;
}

// ---- measuring and writing agree

enum { ROOM = 1024, PATTERN = 0xa5 };

static uint8_t lent_out[ROOM], lent_report[ROOM];

struct answer {
    uint8_t number;
    size_t cell, block, length, entries; // of a cell's sheet the cell is RAVENVANITY_NO_CELL
    double greatest;
};

// What stands in the places of answers before a call.
static const struct answer UNANSWERED = {99, RAVENVANITY_NO_CELL, 99, 99, 99, 99};

// A sheet under a policy, with d = 1.
struct job {
    const char *what;
    bool library;
    struct ravenvanity_sheet sheet;
    uint8_t policy;
};

static size_t entry_length(const struct job *job) {
    return job->library ? RAVENVANITY_LIBRARY_ENTRY_LENGTH : RAVENVANITY_ENTRY_LENGTH;
}

static struct answer measured(const struct job *job) {
    struct answer a = UNANSWERED;
    const struct ravenvanity_sheet *of = &job->sheet;
    if (job->library)
        a.number = ravenvanity_measure_library(of->bytes, of->length, &a.cell, &a.block, &a.length, &a.entries, &a.greatest,
                                               job->policy, 1);
    else
        a.number = ravenvanity_measure_cell(of->bytes, of->length, &a.block, &a.length, &a.entries, &a.greatest, job->policy, 1);
    return a;
}

// Lends so many bytes of each room, which are filled before.
static struct answer written_into(const struct job *job, size_t out, size_t report) {
    memset(lent_out, PATTERN, ROOM);
    memset(lent_report, PATTERN, ROOM);
    struct answer a = UNANSWERED;
    const struct ravenvanity_sheet *of = &job->sheet;
    if (job->library)
        a.number = ravenvanity_write_library(of->bytes, of->length, lent_out, out, lent_report, report, &a.cell, &a.block,
                                             &a.length, &a.entries, &a.greatest, job->policy, 1);
    else
        a.number = ravenvanity_write_cell(of->bytes, of->length, lent_out, out, lent_report, report, &a.block, &a.length,
                                          &a.entries, &a.greatest, job->policy, 1);
    return a;
}

// What writing must answer, by what was measured and how much is lent.
static struct answer agreed(const struct job *job, struct answer measured, size_t out, size_t report) {
    struct answer none = {0, RAVENVANITY_NO_CELL, 0, 0, 0, 0};
    if (measured.number == 0 && out < measured.length)
        none.number = RAVENVANITY_REFUSAL_OUTPUT_SHORT;
    else if (measured.number == 0 && report < measured.entries * entry_length(job))
        none.number = RAVENVANITY_REFUSAL_REPORT_SHORT;
    return none.number != 0 ? none : measured;
}

static bool same(struct answer a, struct answer b) {
    return a.number == b.number && a.cell == b.cell && a.block == b.block && a.length == b.length && a.entries == b.entries &&
           memcmp(&a.greatest, &b.greatest, sizeof a.greatest) == 0;
}

// These bytes at a room's start, and behind them what it was filled with.
static bool holds(const uint8_t *room, const uint8_t *bytes, size_t length) {
    for (size_t k = length; k < ROOM; k++)
        if (room[k] != PATTERN)
            return false;
    return length == 0 || memcmp(room, bytes, length) == 0;
}

static void hold_lent(const struct job *job, struct answer measured, const struct ravenvanity_written *whole, size_t out,
                      size_t report) {
    const struct answer wanted = agreed(job, measured, out, report);
    hold(job->what, same(written_into(job, out, report), wanted));
    hold(job->what, holds(lent_out, whole->bytes, wanted.length));
    hold(job->what, holds(lent_report, whole->report, wanted.entries * entry_length(job)));
}

// Lent nothing, a byte less than was measured, as much, a byte more, and all there is; each with each.
static void hold_agreement(struct job job, struct answer wanted) {
    const struct answer of = measured(&job);
    hold(job.what, same(of, wanted));
    writer *write = job.library ? ravenvanity_write_new_library : ravenvanity_write_new_cell;
    struct ravenvanity_written whole = write(job.sheet.bytes, job.sheet.length, job.policy, 1);
    const size_t n = of.length, m = of.entries * entry_length(&job);
    const size_t outs[] = {0, n - (n > 0), n, n + 1, ROOM}, reports[] = {0, m - (m > 0), m, m + 1, ROOM};
    for (size_t k = 0; k < COUNT(outs); k++)
        for (size_t j = 0; j < COUNT(reports); j++)
            hold_lent(&job, of, &whole, outs[k], reports[j]);
    ravenvanity_free_written(&whole);
    ravenvanity_free(&job.sheet);
}

// In a library that is refused, cell 0 has an entry.
static void test_agreement(void) {
    const uint8_t nearest = RAVENVANITY_NEAREST;
    const size_t none = RAVENVANITY_NO_CELL;
    hold_agreement((struct job){"a cell of two entries agrees", false, nodes_sheet(1.25, 1.5), nearest},
                   (struct answer){0, none, 0, 102, 2, 0.5});
    hold_agreement((struct job){"a cell without entries agrees", false, nodes_sheet(1, 2), RAVENVANITY_STRICT},
                   (struct answer){0, none, 0, 102, 0, 0});
    hold_agreement((struct job){"a library of two entries agrees", true, cells_sheet(1.5, 1.25), nearest},
                   (struct answer){0, 0, 0, 204, 2, 0.5});
    hold_agreement((struct job){"a library without entries agrees", true, cells_sheet(1, 2), RAVENVANITY_STRICT},
                   (struct answer){0, 0, 0, 204, 0, 0});
    hold_agreement((struct job){"a refused cell agrees", false, nodes_sheet(1.5, NAN), nearest},
                   (struct answer){17, none, 2, 0, 0, 0});
    hold_agreement((struct job){"a refused library agrees", true, cells_sheet(1.5, NAN), nearest},
                   (struct answer){17, 1, 1, 0, 0, 0});
    hold_agreement((struct job){"policy 4 agrees", true, cells_sheet(1.5, NAN), 4}, (struct answer){1, none, 0, 0, 0, 0});
}

// ---- boxes

// A cell of one box: x and y of its first corner, and x and y of its second.
static struct ravenvanity_written written_box(uint64_t layer, uint64_t box_type, const double corners[4]) {
    struct ravenvanity_sheet sheet = ravenvanity_new_sheet();
    ravenvanity_start_cell(&sheet, "A", NULL);
    ravenvanity_add_box(&sheet, layer, box_type, ravenvanity_double_xy(corners[0], corners[1], 1),
                        ravenvanity_double_xy(corners[2], corners[3], 1));
    hold("a box's cell sheet", ravenvanity_finish(&sheet) == RAVENVANITY_NO_FAULT);
    return written(ravenvanity_write_new_cell, sheet, RAVENVANITY_NEAREST);
}

// The second corner is left of the first and below it, and stays there.
static void test_box_bytes(void) {
    static const uint8_t wanted[] = {
        0, 4, 0x2d, 0, 0, 6, 0x0d, 2, 0, 255, 0, 6, 0x2e, 2, 0, 255, 0, 44, 0x10, 3, // BOX, LAYER, BOXTYPE, XY
        0, 0, 0, 1, 0, 0, 0, 2, 0, 0, 0, 0, 0, 0, 0, 2, 0, 0, 0, 0, 0, 0, 0, 0, 0, 0, 0, 1, 0, 0, 0, 0,
        0, 0, 0, 1, 0, 0, 0, 2, 0, 4, 0x11, 0, 0, 4, 7, 0, // the first point once more, ENDEL, ENDSTR
    };
    const size_t head = 28 + 6; // BGNSTR, STRNAME
    struct ravenvanity_written to = written_box(255, 255, (const double[]){1, 2, 0, 0});
    hold("a box's bytes", to.length == head + sizeof wanted && memcmp(to.bytes + head, wanted, sizeof wanted) == 0);
    hold("a box on the grid", to.entries == 0);
    ravenvanity_free_written(&to);
}

static void test_box_entry(const char *wanted, const double corners[4]) {
    struct ravenvanity_written to = written_box(1, 0, corners);
    struct ravenvanity_entry entry;
    size_t at = 0;
    if (ravenvanity_next_entry(to.report, to.report_length, &at, &entry))
        test_entry(wanted, entry);
    else
        hold(wanted, false);
    ravenvanity_free_written(&to);
}

// Each coordinate counts in every point where it stands; the first of the greatest errors is told.
static void test_box_entries(void) {
    test_box_entry("element 0 (box): 3 values affected, worst point 0 x: p 1.5, q 2, error 0.5 above", (const double[]){1.5, 0, 0, 0});
    test_box_entry("element 0 (box): 3 values affected, worst point 0 y: p 1.5, q 2, error 0.5 above", (const double[]){0, 1.5, 0, 0});
    test_box_entry("element 0 (box): 2 values affected, worst point 1 x: p 1.5, q 2, error 0.5 above", (const double[]){0, 0, 1.5, 0});
    test_box_entry("element 0 (box): 2 values affected, worst point 2 y: p 1.5, q 2, error 0.5 above", (const double[]){0, 0, 0, 1.5});
    test_box_entry("element 0 (box): 5 values affected, worst point 0 y: p 1.25, q 1, error 0.25 below",
                   (const double[]){0, 1.25, -1.25, 0});
    test_box_entry("element 0 (box): 10 values affected, worst point 2 y: p 1.5, q 2, error 0.5 above",
                   (const double[]){1.25, 1.25, 1.25, 1.5});
}

static void refused_box(const char *what, struct ravenvanity_written to, uint8_t number) {
    refused(what, to, number, RAVENVANITY_NO_CELL, 1);
}

// The layer, the type, and then x1, y1, x2, y2.
static void test_box_refusals(void) {
    const double none[4] = {NAN, NAN, NAN, NAN}, over = 2147483648;
    refused_box("a box's layer 256", written_box(256, 0, none), 9);
    refused_box("a box's type 256", written_box(0, 256, none), 9);
    refused_box("x1 before y1", written_box(1, 0, (const double[]){over, NAN, 0, 0}), 19);
    refused_box("y1 before x2", written_box(1, 0, (const double[]){over - 1, over, NAN, 0}), 19);
    refused_box("x2 before y2", written_box(1, 0, (const double[]){0, over - 1, over, NAN}), 19);
    refused_box("y2", written_box(1, 0, (const double[]){0, 0, over - 1, NAN}), 17);
}

// ---- flags and plex numbers

typedef void adder(struct ravenvanity_sheet *);

static const double OFF_GRID[] = {0.5, 0, 4, 0, 4, 4};

static void add_polygon(struct ravenvanity_sheet *sheet) {
    ravenvanity_add_polygon(sheet, 1, 0, ravenvanity_closed(ravenvanity_doubles(OFF_GRID, 3, 1)));
}

static void add_path(struct ravenvanity_sheet *sheet) {
    ravenvanity_add_path(sheet, ravenvanity_new_path(1, 0, ravenvanity_doubles(OFF_GRID, 2, 1)));
}

static void add_text(struct ravenvanity_sheet *sheet) {
    ravenvanity_add_text(sheet, ravenvanity_new_text(1, 0, "VDD", ravenvanity_double_xy(0.5, 0, 1)));
}

static void add_off_grid_node(struct ravenvanity_sheet *sheet) {
    add_node(sheet, 0.5);
}

static void add_reference(struct ravenvanity_sheet *sheet) {
    ravenvanity_add_reference(sheet, ravenvanity_new_reference("B", ravenvanity_double_xy(0.5, 0, 1)));
}

static void add_array(struct ravenvanity_sheet *sheet) {
    struct ravenvanity_reference array = ravenvanity_new_reference("B", ravenvanity_double_xy(0.5, 0, 1));
    array.columns = 4;
    array.column_spacing = ravenvanity_double_xy(10.5, 0, 1);
    ravenvanity_add_reference(sheet, array);
}

static void add_box(struct ravenvanity_sheet *sheet) {
    ravenvanity_add_box(sheet, 1, 0, ravenvanity_double_xy(0.5, 0, 1), ravenvanity_double_xy(4, 4, 1));
}

// A cell of one element; flags and a plex number that are NULL are not there.
static struct ravenvanity_written written_with(adder *add, const uint64_t *flags, const int64_t *plex) {
    struct ravenvanity_sheet sheet = ravenvanity_new_sheet();
    ravenvanity_start_cell(&sheet, "A", NULL);
    add(&sheet);
    if (flags != NULL)
        ravenvanity_set_flags(&sheet, *flags);
    if (plex != NULL)
        ravenvanity_set_plex(&sheet, *plex);
    hold("a cell sheet with flags and a plex number", ravenvanity_finish(&sheet) == RAVENVANITY_NO_FAULT);
    return written(ravenvanity_write_new_cell, sheet, RAVENVANITY_NEAREST);
}

// These bytes behind the element's first record are all that is written besides what is without them; the report is the same.
static void hold_options(const char *what, struct ravenvanity_written plain, struct ravenvanity_written to, const uint8_t *bytes,
                         size_t length) {
    const size_t first = 28 + 6 + 4; // BGNSTR, STRNAME, the first record
    hold(what, plain.bytes != NULL && to.bytes != NULL && to.length == plain.length + length);
    if (to.bytes != NULL && to.length == plain.length + length) {
        hold(what, memcmp(to.bytes, plain.bytes, first) == 0 && memcmp(to.bytes + first, bytes, length) == 0);
        hold(what, memcmp(to.bytes + first + length, plain.bytes + first, plain.length - first) == 0);
        hold(what, to.entries == 1 && plain.entries == 1 && memcmp(to.report, plain.report, RAVENVANITY_ENTRY_LENGTH) == 0);
    }
    ravenvanity_free_written(&plain);
    ravenvanity_free_written(&to);
}

static void test_options_of(const char *what, adder *add) {
    static const uint8_t elflags[] = {0, 6, 0x26, 1, 0, 3}, plex[] = {0, 8, 0x2f, 3, 0xff, 0xff, 0xff, 0xfe};
    static const uint8_t both[] = {0, 6, 0x26, 1, 0, 0, 0, 8, 0x2f, 3, 0, 0, 0, 0};
    const uint64_t three = 3, no_flags = 0;
    const int64_t below = -2, zero = 0;
    hold_options(what, written_with(add, NULL, NULL), written_with(add, &three, NULL), elflags, sizeof elflags);
    hold_options(what, written_with(add, NULL, NULL), written_with(add, NULL, &below), plex, sizeof plex);
    hold_options(what, written_with(add, NULL, NULL), written_with(add, &no_flags, &zero), both, sizeof both);
}

static void test_options(void) {
    test_options_of("a polygon with flags or a plex number", add_polygon);
    test_options_of("a path with flags or a plex number", add_path);
    test_options_of("a text with flags or a plex number", add_text);
    test_options_of("a node with flags or a plex number", add_off_grid_node);
    test_options_of("a reference with flags or a plex number", add_reference);
    test_options_of("an array with flags or a plex number", add_array);
    test_options_of("a box with flags or a plex number", add_box);
}

static void add_layer_256(struct ravenvanity_sheet *sheet) {
    ravenvanity_add_node(sheet, 256, 0, ravenvanity_doubles(OFF_GRID, 1, 1));
}

static void refused_flags(uint64_t flags, uint8_t number) {
    refused("flags before a layer", written_with(add_layer_256, &flags, NULL), number, RAVENVANITY_NO_CELL, 1);
}

static void test_flags_refusals(void) {
    refused_flags(3, 9);
    refused_flags(4, 26);
    refused_flags(0x0100, 26);
    refused_flags(0x8000, 26);
    refused_flags(65535, 26);
}

// ---- limits of text types and properties

static char LONG[65536];

// An attribute, and a value of so many bytes.
struct property {
    uint64_t attribute;
    size_t length;
};

static void add_properties(struct ravenvanity_sheet *sheet, const struct property *properties, size_t count) {
    memset(LONG, 'v', sizeof LONG);
    for (size_t k = 0; k < count; k++)
        ravenvanity_add_property_bytes(sheet, properties[k].attribute, LONG, properties[k].length);
}

// A cell of a node, and behind it, in block 2, an element with these properties.
static struct ravenvanity_written written_properties(adder *add, const struct property *properties, size_t count) {
    struct ravenvanity_sheet sheet = ravenvanity_new_sheet();
    ravenvanity_start_cell(&sheet, "A", NULL);
    add_node(&sheet, 1);
    add(&sheet);
    add_properties(&sheet, properties, count);
    hold("a cell sheet with properties", ravenvanity_finish(&sheet) == RAVENVANITY_NO_FAULT);
    return written(ravenvanity_write_new_cell, sheet, RAVENVANITY_NEAREST);
}

// These bytes before ENDEL and ENDSTR are all that is written besides what is without properties.
static void hold_properties(const char *what, struct ravenvanity_written plain, struct ravenvanity_written to,
                            const uint8_t *bytes, size_t length) {
    const size_t end = 4 + 4;
    hold(what, plain.bytes != NULL && to.bytes != NULL && to.length == plain.length + length);
    if (to.bytes != NULL && to.length == plain.length + length) {
        hold(what, memcmp(to.bytes, plain.bytes, plain.length - end) == 0);
        hold(what, memcmp(to.bytes + plain.length - end, bytes, length) == 0);
    }
    ravenvanity_free_written(&plain);
    ravenvanity_free_written(&to);
}

// An empty value, one that is padded, and the longest; the least attribute, the greatest, and one twice.
static void test_properties_at_limits(const char *what, adder *add) {
    static const struct property properties[] = {{1, 0}, {127, 125}, {127, 126}};
    uint8_t bytes[6 + 4 + 6 + 4 + 126 + 6 + 4 + 126] = {0, 6, 0x2b, 2, 0, 1, 0, 4, 0x2c, 6};
    static const uint8_t head[] = {0, 6, 0x2b, 2, 0, 127, 0, 130, 0x2c, 6};
    for (size_t k = 0, at = 10; k < 2; k++, at += 136) {
        memcpy(bytes + at, head, sizeof head);
        memset(bytes + at + sizeof head, 'v', 126);
    }
    bytes[10 + sizeof head + 125] = 0;
    hold_properties(what, written_properties(add, NULL, 0), written_properties(add, properties, 3), bytes, sizeof bytes);
}

static void refused_properties(const char *what, adder *add, struct property first, struct property second, uint8_t number) {
    const struct property properties[] = {first, second};
    refused(what, written_properties(add, properties, 2), number, RAVENVANITY_NO_CELL, 2);
}

// One property after the other, of each the attribute, then the value.
static void test_properties_above_limits(const char *what, adder *add) {
    const struct property good = {1, 1};
    static const uint64_t attributes[] = {0, 128, 255, 256, 257, 32768, 65535};
    for (size_t k = 0; k < COUNT(attributes); k++)
        refused_properties(what, add, good, (struct property){attributes[k], 126}, 27);
    static const size_t lengths[] = {127, 128, 382, 65530, 65531, 65535};
    for (size_t k = 0; k < COUNT(lengths); k++)
        refused_properties(what, add, good, (struct property){127, lengths[k]}, 10);
    refused_properties(what, add, (struct property){0, 127}, good, 27);
    refused_properties(what, add, (struct property){1, 127}, (struct property){0, 0}, 10);
    refused_properties(what, add, (struct property){128, 0}, (struct property){1, 127}, 27);
}

static void add_at_no_place(struct ravenvanity_sheet *sheet) {
    add_node(sheet, NAN);
}

static void add_flags_of_4(struct ravenvanity_sheet *sheet) {
    add_node(sheet, NAN);
    ravenvanity_set_flags(sheet, 4);
}

static void test_properties(void) {
    static const struct {
        const char *what;
        adder *add;
    } elements[] = {
        {"a polygon's properties", add_polygon},
        {"a path's properties", add_path},
        {"a text's properties", add_text},
        {"a node's properties", add_off_grid_node},
        {"a reference's properties", add_reference},
        {"an array's properties", add_array},
        {"a box's properties", add_box},
    };
    for (size_t k = 0; k < COUNT(elements); k++) {
        test_properties_at_limits(elements[k].what, elements[k].add);
        test_properties_above_limits(elements[k].what, elements[k].add);
    }
    const struct property faulty = {0, 127};
    refused_properties("a place before properties", add_at_no_place, faulty, faulty, 17);
    refused_properties("flags before properties", add_flags_of_4, faulty, faulty, 26);

    struct ravenvanity_sheet sheet = ravenvanity_new_sheet();
    ravenvanity_start_library(&sheet, "L", 0.001, NULL);
    ravenvanity_start_cell(&sheet, "A", NULL);
    ravenvanity_start_cell(&sheet, "B", NULL);
    add_node(&sheet, 1);
    add_properties(&sheet, &faulty, 1);
    hold("a library sheet with a property", ravenvanity_finish(&sheet) == RAVENVANITY_NO_FAULT);
    refused("an attribute of 0 in a library", written(ravenvanity_write_new_library, sheet, RAVENVANITY_NEAREST), 27, 1, 1);
}

// A cell of one text, of so many bytes.
static struct ravenvanity_written written_text(uint64_t layer, uint64_t text_type, size_t length, double x) {
    memset(LONG, 'v', sizeof LONG);
    struct ravenvanity_text text = ravenvanity_new_text(layer, text_type, "", ravenvanity_double_xy(x, 0, 1));
    text.string = LONG;
    text.length = length;
    struct ravenvanity_sheet sheet = ravenvanity_new_sheet();
    ravenvanity_start_cell(&sheet, "A", NULL);
    ravenvanity_add_text(&sheet, text);
    hold("a text's cell sheet", ravenvanity_finish(&sheet) == RAVENVANITY_NO_FAULT);
    return written(ravenvanity_write_new_cell, sheet, RAVENVANITY_NEAREST);
}

static void refused_text(const char *what, struct ravenvanity_written to, uint8_t number) {
    refused(what, to, number, RAVENVANITY_NO_CELL, 1);
}

// The layer, the type, the string, and then the place.
static void test_text_types(void) {
    accepted("a text of type 255", written_text(255, 255, 512, 1), 7, 0, 33);
    refused_text("a text of type 256", written_text(255, 256, 512, 1), 9);
    refused_text("a text of type 65,535", written_text(255, 65535, 512, 1), 9);
    refused_text("a text's layer and type 256", written_text(256, 256, 513, NAN), 9);
    refused_text("a text's type before its string", written_text(255, 256, 513, NAN), 9);
    refused_text("a text's string before its place", written_text(255, 255, 513, NAN), 10);
}

// An infinite value is refused by comparing it: no operation is invalid, which a caller may have made fatal.
static void test_infinities(void) {
    int32_t least, greatest;
    uint32_t clean, due, off;
    _MM_SET_EXCEPTION_STATE(0);
    hold("an infinite end", ravenvanity_convert_bounds(&least, &greatest, RAVENVANITY_NEAREST, 1e-9, -INFINITY, INFINITY) == RAVENVANITY_REFUSAL_NOT_FINITE);
    hold("an infinite quotient", ravenvanity_convert_bounds(&least, &greatest, RAVENVANITY_NEAREST, 1e-9, 1e300, 1e300) == RAVENVANITY_REFUSAL_NOT_FINITE);
    hold("an infinite pitch", ravenvanity_survey_pitch(&clean, &due, &off, RAVENVANITY_NEAREST, 1e-9, INFINITY, 2) == RAVENVANITY_REFUSAL_NOT_FINITE);
    refused_text("an infinite place", written_text(255, 255, 1, INFINITY), RAVENVANITY_REFUSAL_NOT_FINITE);
    hold("an invalid operation", (_MM_GET_EXCEPTION_STATE() & _MM_EXCEPT_INVALID) == 0);
}

// Where an array's x is refused its y is not worked out, whose quotient would overflow.
static void test_overflow(void) {
    struct ravenvanity_reference array = ravenvanity_new_reference("B", ravenvanity_double_xy(1e10, 1e300, 1));
    array.columns = 2;
    array.column_spacing = ravenvanity_double_xy(1, 0, 1);
    struct ravenvanity_sheet sheet = ravenvanity_new_sheet();
    ravenvanity_start_cell(&sheet, "A", NULL);
    ravenvanity_add_reference(&sheet, array);
    hold("an array's cell sheet", ravenvanity_finish(&sheet) == RAVENVANITY_NO_FAULT);
    size_t block, length, entries;
    double greatest;
    _MM_SET_EXCEPTION_STATE(0);
    hold("an array far off", ravenvanity_measure_cell(sheet.bytes, sheet.length, &block, &length, &entries, &greatest, RAVENVANITY_NEAREST, 1e-9) == RAVENVANITY_REFUSAL_OUT_OF_RANGE);
    hold("an overflow", (_MM_GET_EXCEPTION_STATE() & _MM_EXCEPT_OVERFLOW) == 0);
    ravenvanity_free(&sheet);
}

int main(void) {
    test_entries();
    test_sides();
    test_sizes();
    test_doubles();
    test_lines();
    test_accepted();
    test_refused();
    test_memory();
    test_agreement();
    test_box_bytes();
    test_box_entries();
    test_box_refusals();
    test_options();
    test_flags_refusals();
    test_properties();
    test_text_types();
    test_infinities();
    test_overflow();
    return missed != 0;
}
