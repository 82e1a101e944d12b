/* Refusals in words, and report entries one by one. A convenience, outside the proof; docs/FORMAT.md, sections 6 and 7, has both.
 *
 *     struct ravenvanity_entry entry;
 *     char words[RAVENVANITY_WORDS_ROOM];
 *     for (size_t at = 0; ravenvanity_next_entry(report, report_length, &at, &entry);) {
 *         ravenvanity_entry_words(&entry, words, sizeof words);
 *         puts(words);
 *     }
 */
#ifndef RAVENVANITY_REPORT_H
#define RAVENVANITY_REPORT_H

#include "ravenvanity.h"
#include <inttypes.h>
#include <stdbool.h>
#include <stdio.h>
#include <stdlib.h>
#include <string.h>

#define RAVENVANITY_DOUBLE_ROOM 32
#define RAVENVANITY_WORDS_ROOM 512 /* enough for every entry and every refusal */

/* What a refusal means, by the number that a function returned. */
static inline const char *ravenvanity_refusal_words(uint8_t number) {
    switch (number) {
    case RAVENVANITY_REFUSAL_POLICY: return "the policy is above 3";
    case RAVENVANITY_REFUSAL_DATABASE_UNIT: return "the database unit d is not finite and positive";
    case RAVENVANITY_REFUSAL_SHEET_SIZE: return "the sheet is over 16,777,216 bytes";
    case RAVENVANITY_REFUSAL_PAIRS: return "the pairs are ill-formed: count outside 1 to 16,384, a pair missing, an offset that is not where the block before ends, a length of 0, or a last block that does not end with the sheet";
    case RAVENVANITY_REFUSAL_FORM: return "the block is ill-formed: too short, too long, a code that is unknown (element kind, coordinate kind, path type, presentation, reflection), an integer whose four upper bytes are not zero, a coordinate absent where it may not be, or absent but not zero bytes";
    case RAVENVANITY_REFUSAL_STAMP: return "a stamp is no date and time of the years 1 to 9999, and the twelve numbers are not all zero";
    case RAVENVANITY_REFUSAL_NAME: return "a structure name is not 1 to 32 of A-Z a-z 0-9 _ ? $: in block 0 the cell's own, else the called one";
    case RAVENVANITY_REFUSAL_POINT_COUNT: return "the point count: a polygon has 4 to 8,191, a path 2 to 8,191, a node 1 to 50";
    case RAVENVANITY_REFUSAL_LAYER_OR_TYPE: return "a layer or type is above 255";
    case RAVENVANITY_REFUSAL_STRING_LENGTH: return "a string is too long: a text has at most 512 bytes, a property value at most 126";
    case RAVENVANITY_REFUSAL_COLUMNS_OR_ROWS: return "columns or rows are outside 1 to 32,767";
    case RAVENVANITY_REFUSAL_SPACING: return "more than one column without a column spacing, or more than one row without a row spacing";
    case RAVENVANITY_REFUSAL_MAGNIFICATION: return "the magnification is 0 or below (minus infinity is 14)";
    case RAVENVANITY_REFUSAL_REAL: return "magnification or degrees are not finite, or no eight-byte real equals them: below 2^-260 in size and not 0, or from 2^252";
    case RAVENVANITY_REFUSAL_SINE_OR_COSINE: return "an array's sine or cosine is not within -1 to 1";
    case RAVENVANITY_REFUSAL_SOURCE_UNIT: return "a coordinate's unit is not finite and positive";
    case RAVENVANITY_REFUSAL_NOT_FINITE: return "a physical value, or its quotient by d, is not finite";
    case RAVENVANITY_REFUSAL_OFF_GRID: return "a value is off the grid and the policy is strict";
    case RAVENVANITY_REFUSAL_OUT_OF_RANGE: return "a database value is beyond signed 32 bits";
    case RAVENVANITY_REFUSAL_NOT_CLOSED: return "a polygon's first and last point differ after conversion";
    case RAVENVANITY_REFUSAL_OUTPUT_SHORT: return "the output is too short for what is to be written";
    case RAVENVANITY_REFUSAL_REPORT_SHORT: return "the report is too short for the entries, 33 bytes each, of a library 37";
    case RAVENVANITY_REFUSAL_LIBRARY_FORM: return "the library's pairs are ill-formed, as a cell's in 4, or its block 0 is not a name, a user unit and twelve stamp numbers and no byte more";
    case RAVENVANITY_REFUSAL_LIBRARY_UNITS: return "the user unit is not finite and positive, or no eight-byte real equals it or d: below 2^-260, or from 2^252";
    case RAVENVANITY_REFUSAL_LIBRARY_NAME: return "the library's name is over 65,530 bytes";
    case RAVENVANITY_REFUSAL_FLAGS: return "an element's flags are above 3";
    case RAVENVANITY_REFUSAL_ATTRIBUTE: return "a property's attribute is outside 1 to 127";
    case RAVENVANITY_REFUSAL_BOUNDS: return "the lower end is above the upper, or the policy is strict and the ends are not equal";
    case RAVENVANITY_REFUSAL_SURVEY_COUNT: return "the number of places is not 1 to 65,536";
    default: return "no refusal";
    }
}

/* ---- whole lines, without their end. As by snprintf: the length that they need is returned, and where size is not above it,
 * the text is cut short; text may be NULL where size is 0 */

/* For the next two alone: block 0 is told where it is the head of a cell. */
static inline size_t ravenvanity_refusal_told(uint8_t number, const char *in_cell, bool of_cell, size_t block, char *text,
                                              size_t size) {
    bool of_head = number == RAVENVANITY_REFUSAL_FORM || number == RAVENVANITY_REFUSAL_STAMP || number == RAVENVANITY_REFUSAL_NAME;
    char in_block[32] = "";
    if (block > 0 || (of_cell && of_head))
        snprintf(in_block, sizeof in_block, ", block %zu", block);
    return (size_t)snprintf(text, size, "refusal %d%s%s: %s", number, in_cell, in_block, ravenvanity_refusal_words(number));
}

/* A refusal of a cell, of bounds or of a survey, of which the last two have block 0: the number, the block, and the words. */
static inline size_t ravenvanity_refusal_line(uint8_t number, size_t block, char *text, size_t size) {
    return ravenvanity_refusal_told(number, "", true, block, text, size);
}

/* A refusal of a library, with its cell; the cell is RAVENVANITY_NO_CELL outside one. */
static inline size_t ravenvanity_library_refusal_line(uint8_t number, size_t cell, size_t block, char *text, size_t size) {
    char in_cell[32] = "";
    if (cell != RAVENVANITY_NO_CELL)
        snprintf(in_cell, sizeof in_cell, ", cell %zu", cell);
    return ravenvanity_refusal_told(number, in_cell, cell != RAVENVANITY_NO_CELL, block, text, size);
}

enum ravenvanity_field {
    RAVENVANITY_FIELD_POINT = 0,
    RAVENVANITY_FIELD_WIDTH = 1,
    RAVENVANITY_FIELD_BEGIN_EXTENSION = 2,
    RAVENVANITY_FIELD_END_EXTENSION = 3,
    RAVENVANITY_FIELD_ORIGIN = 4,
    RAVENVANITY_FIELD_COLUMN_SPACING = 5, /* turned, and so is the next */
    RAVENVANITY_FIELD_ROW_SPACING = 6,
    RAVENVANITY_FIELD_COLUMN_ENDPOINT = 7, /* the far corner after all columns */
    RAVENVANITY_FIELD_ROW_ENDPOINT = 8     /* the far corner after all rows */
};

enum ravenvanity_axis {
    RAVENVANITY_AXIS_X = 0,
    RAVENVANITY_AXIS_Y = 1,
    RAVENVANITY_AXIS_NONE = 2
};

/* What was rounded in one element: of the values that count the one whose error is the largest in magnitude. */
struct ravenvanity_entry {
    size_t cell;       /* of a library: the cell's number, from 0; of a cell's own report RAVENVANITY_NO_CELL */
    uint32_t index;    /* the element's, from 0: its block's number less 1 */
    uint8_t kind;      /* of enum ravenvanity_kind, not raised by flags or a plex number */
    uint8_t field;     /* of enum ravenvanity_field */
    uint8_t axis;      /* of enum ravenvanity_axis */
    uint16_t place;    /* of a point its place in its list, of a box among its five points, from 0; else 0 */
    uint32_t affected; /* how many values of the element count, those of a box's corners in each point where they stand */
    double physical;   /* p */
    int32_t database;  /* q */
    double error;      /* q * d - p with its sign: above 0 where the database value lies above; never 0, may be infinite */
};

static inline const char *ravenvanity_kind_name(uint8_t kind) {
    switch (kind) {
    case RAVENVANITY_KIND_POLYGON: return "polygon";
    case RAVENVANITY_KIND_PATH: return "path";
    case RAVENVANITY_KIND_TEXT: return "text";
    case RAVENVANITY_KIND_NODE: return "node";
    case RAVENVANITY_KIND_REFERENCE: return "reference";
    case RAVENVANITY_KIND_BOX: return "box";
    default: return "unknown kind";
    }
}

static inline const char *ravenvanity_field_name(uint8_t field) {
    switch (field) {
    case RAVENVANITY_FIELD_POINT: return "point";
    case RAVENVANITY_FIELD_WIDTH: return "width";
    case RAVENVANITY_FIELD_BEGIN_EXTENSION: return "begin extension";
    case RAVENVANITY_FIELD_END_EXTENSION: return "end extension";
    case RAVENVANITY_FIELD_ORIGIN: return "origin";
    case RAVENVANITY_FIELD_COLUMN_SPACING: return "turned column spacing";
    case RAVENVANITY_FIELD_ROW_SPACING: return "turned row spacing";
    case RAVENVANITY_FIELD_COLUMN_ENDPOINT: return "column endpoint";
    case RAVENVANITY_FIELD_ROW_ENDPOINT: return "row endpoint";
    default: return "unknown field";
    }
}

/* Empty where there is none. */
static inline const char *ravenvanity_axis_name(uint8_t axis) {
    switch (axis) {
    case RAVENVANITY_AXIS_X: return "x";
    case RAVENVANITY_AXIS_Y: return "y";
    case RAVENVANITY_AXIS_NONE: return "";
    default: return "unknown axis";
    }
}

/* On which side of the physical value the database value lies: "above" where the error is above 0, "below" where it is
 * below 0, and "unknown side" where it is 0 or a NaN, which the proved writer never gives. */
static inline const char *ravenvanity_side(const struct ravenvanity_entry *entry) {
    return entry->error > 0 ? "above" : entry->error < 0 ? "below" : "unknown side";
}

/* ---- for the functions below alone */

static inline uint64_t ravenvanity_number_at(const uint8_t *from, int bytes) {
    uint64_t number = 0;
    for (int k = 0; k < bytes; k++)
        number = number << 8 | from[k];
    return number;
}

static inline double ravenvanity_double_at(const uint8_t *from) {
    uint64_t bits = ravenvanity_number_at(from, 8);
    double value;
    memcpy(&value, &bits, sizeof value);
    return value;
}

static inline int32_t ravenvanity_signed_at(const uint8_t *from) {
    uint32_t bits = (uint32_t)ravenvanity_number_at(from, 4);
    int32_t value;
    memcpy(&value, &bits, sizeof value);
    return value;
}

static inline struct ravenvanity_entry ravenvanity_entry_at(const uint8_t *from) {
    struct ravenvanity_entry entry;
    entry.cell = RAVENVANITY_NO_CELL;
    entry.index = (uint32_t)ravenvanity_number_at(from, 4);
    entry.kind = from[4];
    entry.field = from[5];
    entry.axis = from[6];
    entry.place = (uint16_t)ravenvanity_number_at(from + 7, 2);
    entry.affected = (uint32_t)ravenvanity_number_at(from + 9, 4);
    entry.physical = ravenvanity_double_at(from + 13);
    entry.database = ravenvanity_signed_at(from + 21);
    entry.error = ravenvanity_double_at(from + 25);
    return entry;
}

/* Where the next of these bytes start, *at behind them; or NULL where fewer are left. */
static inline const uint8_t *ravenvanity_take(const uint8_t *report, size_t length, size_t *at, size_t bytes) {
    if (*at > length || length - *at < bytes)
        return NULL;
    const uint8_t *from = report + *at;
    *at += bytes;
    return from;
}

/* ---- report entries */

/* Takes the entry that starts at byte *at of a cell's report and moves *at behind it. False where no whole entry is left:
 * then nothing changes, and *at is the report's length unless the bytes from there on are no whole entry. */
static inline bool ravenvanity_next_entry(const uint8_t *report, size_t length, size_t *at, struct ravenvanity_entry *entry) {
    const uint8_t *from = ravenvanity_take(report, length, at, RAVENVANITY_ENTRY_LENGTH);
    if (from == NULL)
        return false;
    *entry = ravenvanity_entry_at(from);
    return true;
}

/* The same of a library's report. */
static inline bool ravenvanity_next_library_entry(const uint8_t *report, size_t length, size_t *at, struct ravenvanity_entry *entry) {
    const uint8_t *from = ravenvanity_take(report, length, at, RAVENVANITY_LIBRARY_ENTRY_LENGTH);
    if (from == NULL)
        return false;
    *entry = ravenvanity_entry_at(from + 4);
    entry->cell = ravenvanity_number_at(from, 4);
    return true;
}

/* ---- and in words */

/* By the first of 15, 16 and 17 digits that reads back as the same, with the locale's point, in RAVENVANITY_DOUBLE_ROOM bytes. */
static inline void ravenvanity_double_words(double value, char *text) {
    for (int digits = 15; digits <= 17; digits++) {
        snprintf(text, RAVENVANITY_DOUBLE_ROOM, "%.*g", digits, value);
        if (strtod(text, NULL) == value)
            return;
    }
}

/* The entry in one line, as ravenvanity_refusal_line has a refusal. */
static inline size_t ravenvanity_entry_words(const struct ravenvanity_entry *entry, char *text, size_t size) {
    char cell[32] = "", place[16] = "", physical[RAVENVANITY_DOUBLE_ROOM], error[RAVENVANITY_DOUBLE_ROOM];
    if (entry->cell != RAVENVANITY_NO_CELL)
        snprintf(cell, sizeof cell, "cell %zu, ", entry->cell);
    if (entry->field == RAVENVANITY_FIELD_POINT)
        snprintf(place, sizeof place, " %d", entry->place);
    ravenvanity_double_words(entry->physical, physical);
    ravenvanity_double_words(entry->error > 0 ? entry->error : 0 - entry->error, error); /* the side has a word of its own */
    return (size_t)snprintf(
        text, size, "%selement %" PRIu32 " (%s): %" PRIu32 " %s affected, worst %s%s%s%s: p %s, q %" PRId32 ", error %s %s",
        cell, entry->index, ravenvanity_kind_name(entry->kind), entry->affected, entry->affected == 1 ? "value" : "values",
        ravenvanity_field_name(entry->field), place, entry->axis == RAVENVANITY_AXIS_NONE ? "" : " ",
        ravenvanity_axis_name(entry->axis), physical, entry->database, error, ravenvanity_side(entry));
}

#endif
