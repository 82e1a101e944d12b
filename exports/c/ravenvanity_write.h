/* Measures, takes the memory, and writes. A convenience, outside the proof.
 *
 *     struct ravenvanity_written written = ravenvanity_write_new_cell(sheet.bytes, sheet.length, RAVENVANITY_NEAREST, 1e-9);
 *     if (written.bytes != NULL)
 *         ... written.bytes, written.length, written.report, written.report_length ...
 *     else if (written.no_memory)
 *         ... no allocation, and no refusal ...
 *     else
 *         ... written.number, written.cell, written.block ...
 *     ravenvanity_free_written(&written);
 */
#ifndef RAVENVANITY_WRITE_H
#define RAVENVANITY_WRITE_H

#include "ravenvanity.h"
#include <stdbool.h>
#include <stdlib.h>
#include <string.h>

/* Where nothing is written, both pointers are NULL, and the lengths, the entries and the greatest error are 0. */
struct ravenvanity_written {
    bool no_memory;     /* the allocation failed, of what is accepted: the number is 0 */
    uint8_t number;     /* the refusal's, or 0 */
    size_t cell, block; /* where it is refused, as the proved functions answer; of a cell's sheet the cell is RAVENVANITY_NO_CELL */
    uint8_t *bytes;     /* the structure or the file; NULL where it is not written */
    size_t length;
    uint8_t *report; /* in the same allocation, behind the bytes */
    size_t report_length, entries;
    double greatest; /* error, without a sign; 0 if none */
};

/* ---- for the functions below alone */

static inline struct ravenvanity_written ravenvanity_nothing_written(void) {
    struct ravenvanity_written written;
    memset(&written, 0, sizeof written);
    written.cell = RAVENVANITY_NO_CELL;
    return written;
}

/* A sheet that came to nothing is NULL and 0, and no pointer that is lent may be NULL. */
static inline const uint8_t *ravenvanity_lent(const uint8_t *sheet) {
    static const uint8_t none = 0;
    return sheet == NULL ? &none : sheet;
}

/* Whether there is something to write, and room for it. What is accepted has a byte at least. */
static inline bool ravenvanity_take_room(struct ravenvanity_written *written, size_t entry_length) {
    if (written->number != 0)
        return false;
    size_t report_length = written->entries * entry_length;
    uint8_t *bytes = (uint8_t *)malloc(written->length + report_length);
    if (bytes == NULL) {
        *written = ravenvanity_nothing_written();
        written->no_memory = true;
        return false;
    }
    written->bytes = bytes;
    written->report = bytes + written->length;
    written->report_length = report_length;
    return true;
}

/* ---- writing. policy: one of enum ravenvanity_policy. d: the database unit. What was measured is enough: where writing is
 * tried its number is 0, by writing-agrees in crates/cell/proofs and crates/library/proofs */

static inline struct ravenvanity_written ravenvanity_write_new_cell(const uint8_t *sheet, size_t sheet_length, uint8_t policy,
                                                                    double d) {
    struct ravenvanity_written to = ravenvanity_nothing_written();
    sheet = ravenvanity_lent(sheet);
    to.number = ravenvanity_measure_cell(sheet, sheet_length, &to.block, &to.length, &to.entries, &to.greatest, policy, d);
    if (ravenvanity_take_room(&to, RAVENVANITY_ENTRY_LENGTH))
        to.number = ravenvanity_write_cell(sheet, sheet_length, to.bytes, to.length, to.report, to.report_length, &to.block,
                                           &to.length, &to.entries, &to.greatest, policy, d);
    return to;
}

static inline struct ravenvanity_written ravenvanity_write_new_library(const uint8_t *sheet, size_t sheet_length, uint8_t policy,
                                                                       double d) {
    struct ravenvanity_written to = ravenvanity_nothing_written();
    sheet = ravenvanity_lent(sheet);
    to.number = ravenvanity_measure_library(sheet, sheet_length, &to.cell, &to.block, &to.length, &to.entries, &to.greatest,
                                            policy, d);
    if (ravenvanity_take_room(&to, RAVENVANITY_LIBRARY_ENTRY_LENGTH))
        to.number = ravenvanity_write_library(sheet, sheet_length, to.bytes, to.length, to.report, to.report_length, &to.cell,
                                              &to.block, &to.length, &to.entries, &to.greatest, policy, d);
    return to;
}

/* Frees the bytes and the report, also where nothing is written, and leaves nothing written. */
static inline void ravenvanity_free_written(struct ravenvanity_written *written) {
    free(written->bytes);
    *written = ravenvanity_nothing_written();
}

#endif
