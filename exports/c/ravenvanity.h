/* The proved GDSII writer of cells and libraries, lengths within bounds, and the pitch survey: document 01 has the cell
 * sheet, the refusals and the report entry, document 02 the library sheet, the sign of an entry's error, boxes, flags and plex
 * numbers, the manual's limits of text types and properties, the bounds and the survey (its requests 1, 2, 3, 5, 6, 11 and 12).
 * docs/FORMAT.md has both sheets, what is written and the report entries byte by byte. ravenvanity_sheet.h makes sheets,
 * ravenvanity_write.h takes the memory for what is written, and ravenvanity_report.h reads reports and tells refusals in words;
 * none of the three is proved.
 *
 * No pointer may be NULL, not even with length 0; the sheet, the two buffers and the answers must not overlap.
 * Nothing else is asked of a caller: every sheet, number and length has an answer. Nothing is kept between calls, no
 * memory is taken, and threads may call at the same time.
 *
 * policy: one of enum ravenvanity_policy. d: the database unit.
 * The two for cells return 0 where the cell is accepted, else the refusal's number, 1 to 22, 26 or 27 of enum
 * ravenvanity_refusal. All four answers are always written:
 *     accepted: *block = 0, *length and *entries of the structure and the report, *greatest error (0 if none)
 *     refused:  *block (0 if none), *length = 0, *entries = 0, *greatest = 0
 * The two for libraries return 0 or a number from 1 to 27, and have a fifth answer, the cell that is refused:
 *     accepted: *cell = 0 and *block = 0, *length and *entries of the file and the report, *greatest error (0 if none)
 *     refused:  *cell, from 0, and *block in its sheet, or RAVENVANITY_NO_CELL and 0 outside a cell; the others are 0
 * An entry's error has a sign, the greatest error has none: it is the largest magnitude among the entries' errors.
 */
#ifndef RAVENVANITY_H
#define RAVENVANITY_H

#include <stddef.h>
#include <stdint.h>

#ifdef __cplusplus
extern "C" {
#endif

#define RAVENVANITY_ENTRY_LENGTH 33
#define RAVENVANITY_LIBRARY_ENTRY_LENGTH 37
#define RAVENVANITY_NO_CELL 4294967295
#define RAVENVANITY_MAX_SHEET 16777216
#define RAVENVANITY_MAX_PLACES 65536

enum ravenvanity_policy {
    RAVENVANITY_NEAREST = 0,
    RAVENVANITY_FLOOR = 1,
    RAVENVANITY_CEILING = 2,
    RAVENVANITY_STRICT = 3
};

/* Named as in crates/refusal. */
enum ravenvanity_refusal {
    RAVENVANITY_REFUSAL_POLICY = 1,
    RAVENVANITY_REFUSAL_DATABASE_UNIT = 2,
    RAVENVANITY_REFUSAL_SHEET_SIZE = 3,
    RAVENVANITY_REFUSAL_PAIRS = 4,
    RAVENVANITY_REFUSAL_FORM = 5,
    RAVENVANITY_REFUSAL_STAMP = 6,
    RAVENVANITY_REFUSAL_NAME = 7,
    RAVENVANITY_REFUSAL_POINT_COUNT = 8,
    RAVENVANITY_REFUSAL_LAYER_OR_TYPE = 9,
    RAVENVANITY_REFUSAL_STRING_LENGTH = 10,
    RAVENVANITY_REFUSAL_COLUMNS_OR_ROWS = 11,
    RAVENVANITY_REFUSAL_SPACING = 12,
    RAVENVANITY_REFUSAL_MAGNIFICATION = 13,
    RAVENVANITY_REFUSAL_REAL = 14,
    RAVENVANITY_REFUSAL_SINE_OR_COSINE = 15,
    RAVENVANITY_REFUSAL_SOURCE_UNIT = 16,
    RAVENVANITY_REFUSAL_NOT_FINITE = 17,
    RAVENVANITY_REFUSAL_OFF_GRID = 18,
    RAVENVANITY_REFUSAL_OUT_OF_RANGE = 19,
    RAVENVANITY_REFUSAL_NOT_CLOSED = 20,
    RAVENVANITY_REFUSAL_OUTPUT_SHORT = 21,
    RAVENVANITY_REFUSAL_REPORT_SHORT = 22,
    RAVENVANITY_REFUSAL_LIBRARY_FORM = 23,
    RAVENVANITY_REFUSAL_LIBRARY_UNITS = 24,
    RAVENVANITY_REFUSAL_LIBRARY_NAME = 25,
    RAVENVANITY_REFUSAL_FLAGS = 26,
    RAVENVANITY_REFUSAL_ATTRIBUTE = 27,
    RAVENVANITY_REFUSAL_BOUNDS = 32,
    RAVENVANITY_REFUSAL_SURVEY_COUNT = 33
};

/* The kinds of elements, on sheets and in report entries. On a sheet the kind is raised by RAVENVANITY_WITH_FLAGS where flags
 * follow it and by RAVENVANITY_WITH_PLEX where a plex number does; a report entry has it without. */
enum ravenvanity_kind {
    RAVENVANITY_KIND_POLYGON = 1,
    RAVENVANITY_KIND_PATH = 2,
    RAVENVANITY_KIND_TEXT = 3,
    RAVENVANITY_KIND_NODE = 4,
    RAVENVANITY_KIND_REFERENCE = 5,
    RAVENVANITY_KIND_BOX = 6
};

#define RAVENVANITY_WITH_FLAGS 16
#define RAVENVANITY_WITH_PLEX 32

/* What writing takes: a report of *entries * RAVENVANITY_ENTRY_LENGTH bytes and an output of *length are enough. */
uint8_t ravenvanity_measure_cell(const uint8_t *sheet, size_t sheet_length,
                                 size_t *block, size_t *length, size_t *entries, double *greatest,
                                 uint8_t policy, double d);

/* Writes the structure to the start of out and the entries to the start of report; the bytes after them stay, and
 * where the cell is refused all bytes of both. 21: out is too short; 22: report is too short. */
uint8_t ravenvanity_write_cell(const uint8_t *sheet, size_t sheet_length,
                               uint8_t *out, size_t out_length,
                               uint8_t *report, size_t report_length,
                               size_t *block, size_t *length, size_t *entries, double *greatest,
                               uint8_t policy, double d);

/* What writing a library takes: a report of *entries * RAVENVANITY_LIBRARY_ENTRY_LENGTH bytes and an output of *length are
 * enough. A library sheet has the pairs of a cell sheet; its block 0 holds the name, the user unit and the stamps, and
 * every further block is a cell sheet, in the order of the structures. Names may repeat. Refusals, in this order:
 *     1  policy above 3                               2  d not finite and positive
 *     3  sheet over RAVENVANITY_MAX_SHEET bytes      23  pairs or block 0 ill-formed
 *     6  the library's stamps                        24  user unit not finite and positive, or it or d not encodable
 *    25  name over 65,530 bytes
 * then those of each cell, 4 to 20, 26 and 27, one cell after the other. The first seven are outside a cell, and so
 * are 21 and 22. */
uint8_t ravenvanity_measure_library(const uint8_t *sheet, size_t sheet_length,
                                    size_t *cell, size_t *block, size_t *length, size_t *entries, double *greatest,
                                    uint8_t policy, double d);

/* Writes the whole file, from HEADER to ENDLIB, to the start of out and the entries to the start of report, each of them
 * a cell's number in 4 bytes and the cell's own entry; the bytes after them stay, and where the library is refused all
 * bytes of both. After every cell, 21: out is too short; then 22: report is too short. */
uint8_t ravenvanity_write_library(const uint8_t *sheet, size_t sheet_length,
                                  uint8_t *out, size_t out_length,
                                  uint8_t *report, size_t report_length,
                                  size_t *cell, size_t *block, size_t *length, size_t *entries, double *greatest,
                                  uint8_t policy, double d);

/* The least and the greatest database value over all doubles from lower to upper, both included, in physical units.
 * Returns 0 where there is a range: each of the two values is that of some double in it, and every double in it is
 * accepted with a value from *least to *greatest. Else the refusal's number, and *least = *greatest = 0:
 *     1  policy above 3                            2  d not finite and positive
 *    17  an end, or its quotient by d, not finite  32  lower above upper, or strict with unequal ends
 *    18  an end off the grid under strict          19  an end beyond signed 32 bits
 * in the order 1, 2, 17 of an end, 32, then the lower end's 17 of the quotient, 18, 19, then the upper's. */
uint8_t ravenvanity_convert_bounds(int32_t *least, int32_t *greatest,
                                   uint8_t policy, double d, double lower, double upper);

/* How many places of a row a pitch disturbs. Place i, from 0 to n - 1, is i times the pitch, one product of doubles, in
 * physical units. Returns 0 with the number of places that are converted with no report entry due (*clean), that are
 * converted with one due (*due), and that are refused (*refused); together they make n. Else the refusal's number, and all
 * three are 0:
 *     1  policy above 3                            2  d not finite and positive
 *    33  n outside 1 to RAVENVANITY_MAX_PLACES     17  the pitch not finite
 * in the order 1, 2, 33, 17. */
uint8_t ravenvanity_survey_pitch(uint32_t *clean, uint32_t *due, uint32_t *refused,
                                 uint8_t policy, double d, double pitch, uint32_t n);

#ifdef __cplusplus
}
#endif

#endif
