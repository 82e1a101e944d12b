// Writes document 01's array, into buffers of its own, then a cell of polygons, a path, a text and a box, then a library: makes
// the sheet, writes, and reads the report. Tells refusals in words. Then asks where a length that is known within bounds may come
// to lie, and how many places of a row a pitch disturbs.
#include "ravenvanity.h"
#include "ravenvanity_report.h"
#include "ravenvanity_sheet.h"
#include "ravenvanity_write.h"
#include <inttypes.h>
#include <stdio.h>
#include <stdlib.h>

// ---- sheets

// Document 01's: origin (0.5, 0), spacing (10.5, 0), 4 columns, 1 row.
static void add_array(struct ravenvanity_sheet *sheet) {
    struct ravenvanity_reference array = ravenvanity_new_reference("B", ravenvanity_double_xy(0.5, 0, 1));
    array.columns = 4;
    array.column_spacing = ravenvanity_double_xy(10.5, 0, 1);
    ravenvanity_add_reference(sheet, array);
}

// Polygons of one plex, a text and a box, the die's area, which is template data, in micrometres, a path in nanometres.
static void add_shapes(struct ravenvanity_sheet *sheet) {
    static const double squares[][8] = {{0, 0, 2, 0, 2, 2, 0, 2}, {3, 0, 5.0004, 0, 5.0004, 2, 3, 2}};
    for (size_t k = 0; k < sizeof squares / sizeof squares[0]; k++) {
        ravenvanity_add_polygon(sheet, 1, 0, ravenvanity_closed(ravenvanity_doubles(squares[k], 4, 1e-6)));
        ravenvanity_set_plex(sheet, 1);
    }

    static const int32_t wire[] = {0, 1000, 5000, 1000, 5000, 4000};
    struct ravenvanity_path path = ravenvanity_new_path(2, 0, ravenvanity_integers(wire, 3, 1e-9));
    path.path_type = RAVENVANITY_ROUND;
    path.width = ravenvanity_double(0.1803, 1e-6);
    ravenvanity_add_path(sheet, path);

    struct ravenvanity_text text = ravenvanity_new_text(63, 0, "VDD", ravenvanity_double_xy(1, 1, 1e-6));
    text.vertical = RAVENVANITY_MIDDLE;
    text.horizontal = RAVENVANITY_CENTRE;
    ravenvanity_add_text(sheet, text);
    ravenvanity_add_property(sheet, 1, "power");

    ravenvanity_add_box(sheet, 235, 0, ravenvanity_double_xy(0, 0, 1e-6), ravenvanity_double_xy(6.0002, 4, 1e-6));
    ravenvanity_set_flags(sheet, RAVENVANITY_TEMPLATE);
}

static struct ravenvanity_sheet finished(struct ravenvanity_sheet sheet) {
    if (ravenvanity_finish(&sheet) != RAVENVANITY_NO_FAULT) {
        fprintf(stderr, "no sheet: %s, in block %zu\n", ravenvanity_fault_words(sheet.fault), sheet.fault_block);
        exit(1);
    }
    return sheet;
}

static struct ravenvanity_sheet cell_of(const char *name, void (*add)(struct ravenvanity_sheet *)) {
    struct ravenvanity_sheet sheet = ravenvanity_new_sheet();
    ravenvanity_start_cell(&sheet, name, NULL);
    add(&sheet);
    return finished(sheet);
}

// Named L, with a user unit of a thousandth: an empty cell B, and A with the array of it.
static struct ravenvanity_sheet library(void) {
    struct ravenvanity_sheet sheet = ravenvanity_new_sheet();
    ravenvanity_start_library(&sheet, "L", 0.001, NULL);
    ravenvanity_start_cell(&sheet, "B", NULL);
    ravenvanity_start_cell(&sheet, "A", NULL);
    add_array(&sheet);
    return finished(sheet);
}

// ---- answers

static void print_hex(const uint8_t *bytes, size_t length) {
    for (size_t k = 0; k < length; k++)
        printf("%02x", bytes[k]);
    printf("\n");
}

static void print_accepted(const char *what, size_t length, size_t entries, double greatest) {
    char words[RAVENVANITY_DOUBLE_ROOM];
    ravenvanity_double_words(greatest, words);
    printf("%s: %zu bytes, %zu report %s, greatest error %s\n", what, length, entries, entries == 1 ? "entry" : "entries", words);
}

typedef bool next_entry(const uint8_t *, size_t, size_t *, struct ravenvanity_entry *);

static void print_entries(const uint8_t *report, size_t length, next_entry *next) {
    struct ravenvanity_entry entry;
    char words[RAVENVANITY_WORDS_ROOM];
    for (size_t at = 0; next(report, length, &at, &entry);) {
        ravenvanity_entry_words(&entry, words, sizeof words);
        puts(words);
    }
}

static void print_refusal(const char *what, uint8_t number, size_t block) {
    char line[RAVENVANITY_WORDS_ROOM];
    ravenvanity_refusal_line(number, block, line, sizeof line);
    printf("%s: %s\n", what, line);
}

static void print_library_refusal(const char *what, uint8_t number, size_t cell, size_t block) {
    char line[RAVENVANITY_WORDS_ROOM];
    ravenvanity_library_refusal_line(number, cell, block, line, sizeof line);
    printf("%s: %s\n", what, line);
}

// ---- writing

static void no_memory(void) {
    fprintf(stderr, "there is no memory\n");
    exit(1);
}

// What was written, which is then freed.
static void print_written(const char *what, struct ravenvanity_written written, next_entry *next) {
    if (written.no_memory)
        no_memory();
    print_accepted(what, written.length, written.entries, written.greatest);
    print_hex(written.bytes, written.length);
    print_hex(written.report, written.report_length);
    print_entries(written.report, written.report_length, next);
    ravenvanity_free_written(&written);
}

static void write_cell(const char *what, const struct ravenvanity_sheet *sheet, uint8_t policy, double d) {
    struct ravenvanity_written written = ravenvanity_write_new_cell(sheet->bytes, sheet->length, policy, d);
    if (written.number == 0)
        print_written(what, written, ravenvanity_next_entry);
    else
        print_refusal(what, written.number, written.block);
}

static void write_library(const char *what, const struct ravenvanity_sheet *sheet, uint8_t policy, double d) {
    struct ravenvanity_written written = ravenvanity_write_new_library(sheet->bytes, sheet->length, policy, d);
    if (written.number == 0)
        print_written(what, written, ravenvanity_next_library_entry);
    else
        print_library_refusal(what, written.number, written.cell, written.block);
}

// One byte more, since no pointer that is lent may be NULL and malloc(0) may be.
static uint8_t *room_for(size_t length) {
    uint8_t *room = malloc(length + 1);
    if (room == NULL)
        no_memory();
    return room;
}

// Into buffers of its own, as a caller may who has the memory already: with so many bytes less than it takes.
static void write_lent(const char *what, const struct ravenvanity_sheet *sheet, size_t less, size_t report_less) {
    size_t block, length, entries;
    double greatest;
    uint8_t number =
        ravenvanity_measure_cell(sheet->bytes, sheet->length, &block, &length, &entries, &greatest, RAVENVANITY_NEAREST, 1);
    size_t report_length = entries * RAVENVANITY_ENTRY_LENGTH;
    uint8_t *out = room_for(length), *report = room_for(report_length);
    if (number == 0)
        number = ravenvanity_write_cell(sheet->bytes, sheet->length, out, length - less, report, report_length - report_less,
                                        &block, &length, &entries, &greatest, RAVENVANITY_NEAREST, 1);
    if (number == 0) {
        print_accepted(what, length, entries, greatest);
        print_hex(out, length);
        print_hex(report, report_length);
        print_entries(report, report_length, ravenvanity_next_entry);
    } else {
        print_refusal(what, number, block);
    }
    free(out), free(report);
}

// ---- lengths within bounds, and the pitch survey

static void print_bounds(const char *what, double lower, double upper) {
    int32_t least, greatest;
    uint8_t number = ravenvanity_convert_bounds(&least, &greatest, RAVENVANITY_NEAREST, 1, lower, upper);
    if (number == 0)
        printf("%s: %" PRId32 " to %" PRId32 "\n", what, least, greatest);
    else
        print_refusal(what, number, 0);
}

static void print_survey(const char *what, double pitch, uint32_t n) {
    uint32_t clean, due, refused;
    uint8_t number = ravenvanity_survey_pitch(&clean, &due, &refused, RAVENVANITY_NEAREST, 1, pitch, n);
    if (number == 0)
        printf("%s: %" PRIu32 " clean, %" PRIu32 " due, %" PRIu32 " refused\n", what, clean, due, refused);
    else
        print_refusal(what, number, 0);
}

int main(void) {
    struct ravenvanity_sheet sheet = cell_of("A", add_array);
    write_lent("array", &sheet, 0, 0);
    write_lent("a byte less", &sheet, 1, 0);
    write_lent("a byte less of report", &sheet, 0, 1);
    ravenvanity_free(&sheet);

    sheet = cell_of("SHAPES", add_shapes);
    write_cell("shapes", &sheet, RAVENVANITY_NEAREST, 1e-9);
    write_cell("shapes, strict", &sheet, RAVENVANITY_STRICT, 1e-9);
    ravenvanity_free(&sheet);

    sheet = library();
    write_library("library", &sheet, RAVENVANITY_NEAREST, 1);
    write_library("library, strict", &sheet, RAVENVANITY_STRICT, 1);
    ravenvanity_free(&sheet);

    print_bounds("10.25 to 10.75", 10.25, 10.75);
    print_bounds("10.75 to 10.25", 10.75, 10.25);
    print_survey("4 places of 10.5", 10.5, 4);
    print_survey("0 places of 10.5", 10.5, 0);
    return 0;
}
