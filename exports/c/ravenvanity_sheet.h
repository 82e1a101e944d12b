/* Makes cell sheets and library sheets. A convenience, outside the proof; docs/FORMAT.md, sections 1 to 3, has what it writes.
 *
 *     struct ravenvanity_sheet sheet = ravenvanity_new_sheet();
 *     ravenvanity_start_cell(&sheet, "TOP", NULL);
 *     for (size_t k = 0; k < count; k++)
 *         ravenvanity_add_polygon(&sheet, layer, data_type, ravenvanity_doubles(polygon[k].xy, polygon[k].points, 1e-6));
 *     if (ravenvanity_finish(&sheet) != RAVENVANITY_NO_FAULT)
 *         puts(ravenvanity_fault_words(sheet.fault));
 *     else
 *         ... sheet.bytes, sheet.length ...
 *     ravenvanity_free(&sheet);
 *
 * What a sheet cannot hold is a fault, and so is a turned array without its sine and cosine: the first fault is kept, every
 * call after it does nothing, and ravenvanity_finish tells it. What a sheet can hold and a structure cannot, a layer or type
 * above 255 for instance, is for the proved functions to refuse.
 */
#ifndef RAVENVANITY_SHEET_H
#define RAVENVANITY_SHEET_H

#include "ravenvanity.h"
#include <stdbool.h>
#include <stdlib.h>
#include <string.h>

#define RAVENVANITY_MAX_BLOCKS 16384

enum ravenvanity_fault {
    RAVENVANITY_NO_FAULT,
    RAVENVANITY_FAULT_MEMORY,
    RAVENVANITY_FAULT_TURN,
    RAVENVANITY_FAULT_SHEET_SIZE,
    RAVENVANITY_FAULT_BLOCKS,
    RAVENVANITY_FAULT_POINTS,
    RAVENVANITY_FAULT_PROPERTIES,
    RAVENVANITY_FAULT_STRING,
    RAVENVANITY_FAULT_NUMBER,
    RAVENVANITY_FAULT_CODE,
    RAVENVANITY_FAULT_ABSENT,
    RAVENVANITY_FAULT_SINE
};

static inline const char *ravenvanity_fault_words(enum ravenvanity_fault fault) {
    switch (fault) {
    case RAVENVANITY_NO_FAULT: return "no fault";
    case RAVENVANITY_FAULT_MEMORY: return "there is no memory";
    case RAVENVANITY_FAULT_TURN: return "a call out of turn: a library comes first, an element after its cell, its flags, plex number and properties after the element, and nothing after the end";
    case RAVENVANITY_FAULT_SHEET_SIZE: return "the sheet is over 16,777,216 bytes";
    case RAVENVANITY_FAULT_BLOCKS: return "more than 16,383 elements of a cell, or cells of a library";
    case RAVENVANITY_FAULT_POINTS: return "more than 65,535 points";
    case RAVENVANITY_FAULT_PROPERTIES: return "more than 65,535 properties";
    case RAVENVANITY_FAULT_STRING: return "a string of more than 65,535 bytes";
    case RAVENVANITY_FAULT_NUMBER: return "a layer, type, attribute or flags above 65,535, columns or rows above 32 bits, or an integer coordinate or a plex number beyond signed 32 bits";
    case RAVENVANITY_FAULT_CODE: return "an unknown path type, presentation or coordinate kind";
    case RAVENVANITY_FAULT_ABSENT: return "a coordinate is absent where it may not be";
    case RAVENVANITY_FAULT_SINE: return "an array with degrees that are not 0 and without their sine and cosine, which ravenvanity_turn gives it";
    }
    return "unknown fault";
}

/* ---- coordinates and points */

enum ravenvanity_coordinate_kind {
    RAVENVANITY_INTEGER = 0,
    RAVENVANITY_DOUBLE = 1,
    RAVENVANITY_ABSENT = 2
};

/* Value times unit is physical, in the same measure as the database unit. */
struct ravenvanity_coordinate {
    enum ravenvanity_coordinate_kind kind;
    int64_t integer; /* of RAVENVANITY_INTEGER the value; wide, so that one beyond 32 bits is seen */
    double number;   /* of RAVENVANITY_DOUBLE the value */
    double unit;
};

struct ravenvanity_point {
    struct ravenvanity_coordinate x, y;
};

static inline struct ravenvanity_coordinate ravenvanity_integer(int64_t value, double unit) {
    struct ravenvanity_coordinate coordinate = {RAVENVANITY_INTEGER, value, 0, unit};
    return coordinate;
}

static inline struct ravenvanity_coordinate ravenvanity_double(double value, double unit) {
    struct ravenvanity_coordinate coordinate = {RAVENVANITY_DOUBLE, 0, value, unit};
    return coordinate;
}

static inline struct ravenvanity_coordinate ravenvanity_absent(void) {
    struct ravenvanity_coordinate coordinate = {RAVENVANITY_ABSENT, 0, 0, 0};
    return coordinate;
}

static inline struct ravenvanity_point ravenvanity_xy(struct ravenvanity_coordinate x, struct ravenvanity_coordinate y) {
    struct ravenvanity_point point = {x, y};
    return point;
}

static inline struct ravenvanity_point ravenvanity_integer_xy(int64_t x, int64_t y, double unit) {
    return ravenvanity_xy(ravenvanity_integer(x, unit), ravenvanity_integer(y, unit));
}

static inline struct ravenvanity_point ravenvanity_double_xy(double x, double y, double unit) {
    return ravenvanity_xy(ravenvanity_double(x, unit), ravenvanity_double(y, unit));
}

static inline struct ravenvanity_point ravenvanity_no_spacing(void) {
    return ravenvanity_xy(ravenvanity_absent(), ravenvanity_absent());
}

/* Points in one of three arrays of the caller's, who keeps it until the element is added. */
struct ravenvanity_points {
    const int32_t *integers; /* x and y of each point in turn, all in one unit */
    const double *doubles;   /* the same */
    const struct ravenvanity_point *points;
    size_t count; /* of points */
    double unit;
    bool closed; /* the first once more at the end */
};

static inline struct ravenvanity_points ravenvanity_integers(const int32_t *xy, size_t count, double unit) {
    struct ravenvanity_points points = {xy, NULL, NULL, count, unit, false};
    return points;
}

static inline struct ravenvanity_points ravenvanity_doubles(const double *xy, size_t count, double unit) {
    struct ravenvanity_points points = {NULL, xy, NULL, count, unit, false};
    return points;
}

/* Points each of whose coordinates has a kind and a unit of its own. */
static inline struct ravenvanity_points ravenvanity_mixed(const struct ravenvanity_point *xy, size_t count) {
    struct ravenvanity_points points = {NULL, NULL, xy, count, 0, false};
    return points;
}

/* These points and the first once more, for a polygon whose array does not repeat it. */
static inline struct ravenvanity_points ravenvanity_closed(struct ravenvanity_points points) {
    points.closed = true;
    return points;
}

/* ---- elements with optional parts: the plain one is made here, and its fields may be changed before it is added */

enum ravenvanity_path_type {
    RAVENVANITY_SQUARE = 0,
    RAVENVANITY_ROUND = 1,
    RAVENVANITY_OVERLAP = 2,
    RAVENVANITY_NO_PATH_TYPE = 255
};

struct ravenvanity_path {
    uint64_t layer, data_type;
    enum ravenvanity_path_type path_type;                                /* plain: none */
    struct ravenvanity_coordinate width, begin_extension, end_extension; /* plain: absent */
    struct ravenvanity_points points;
};

static inline struct ravenvanity_path ravenvanity_new_path(uint64_t layer, uint64_t data_type,
                                                           struct ravenvanity_points points) {
    struct ravenvanity_coordinate absent = ravenvanity_absent();
    struct ravenvanity_path path = {layer, data_type, RAVENVANITY_NO_PATH_TYPE, absent, absent, absent, points};
    return path;
}

struct ravenvanity_transform {
    bool reflection;               /* plain: none */
    double magnification, degrees; /* plain: 1 and 0 */
};

enum ravenvanity_vertical { RAVENVANITY_TOP = 0, RAVENVANITY_MIDDLE = 1, RAVENVANITY_BOTTOM = 2 };
enum ravenvanity_horizontal { RAVENVANITY_LEFT = 0, RAVENVANITY_CENTRE = 1, RAVENVANITY_RIGHT = 2 };

struct ravenvanity_text {
    uint64_t layer, data_type;
    enum ravenvanity_vertical vertical;     /* plain: top */
    enum ravenvanity_horizontal horizontal; /* plain: left */
    struct ravenvanity_transform transform;
    struct ravenvanity_point origin;
    const char *string;
    size_t length; /* of the string, which may hold any bytes; plain: up to its zero byte */
};

static inline struct ravenvanity_text ravenvanity_new_text(uint64_t layer, uint64_t data_type, const char *string,
                                                           struct ravenvanity_point origin) {
    struct ravenvanity_text text = {layer,        data_type, RAVENVANITY_TOP, RAVENVANITY_LEFT,
                                    {false, 1, 0}, origin,    string,          strlen(string)};
    return text;
}

struct ravenvanity_reference {
    const char *name;       /* of the cell that is called */
    uint64_t columns, rows; /* plain: 1 and 1 */
    struct ravenvanity_transform transform;
    bool turned;         /* sine and cosine are given */
    double sine, cosine; /* of the degrees, by which an array's spacings are turned; plain: 0 and 1 */
    struct ravenvanity_point origin;
    struct ravenvanity_point column_spacing, row_spacing; /* plain: absent */
};

static inline struct ravenvanity_reference ravenvanity_new_reference(const char *name, struct ravenvanity_point origin) {
    struct ravenvanity_point none = ravenvanity_no_spacing();
    struct ravenvanity_reference reference = {name, 1, 1, {false, 1, 0}, false, 0, 1, origin, none, none};
    return reference;
}

/* An array that is turned has its sine and cosine on the sheet: the last bit of a machine's own is not fixed, and two shops
 * that are to get the same bytes must send the same two doubles. */
static inline void ravenvanity_turn(struct ravenvanity_reference *reference, double degrees, double sine, double cosine) {
    reference->transform.degrees = degrees;
    reference->turned = true;
    reference->sine = sine;
    reference->cosine = cosine;
}

/* ---- the sheet */

/* Where the blocks of a sheet start, before its pairs are put in front of them. */
struct ravenvanity_blocks {
    size_t *starts;
    size_t count, room;
};

struct ravenvanity_sheet {
    uint8_t *bytes; /* with length, after ravenvanity_finish, the sheet */
    size_t length, room;
    enum ravenvanity_fault fault;
    size_t fault_cell, fault_block; /* what was being made at the fault; no library's cell: RAVENVANITY_NO_CELL */
    struct ravenvanity_blocks library, cell;
    size_t properties; /* where the last element's property count stands; 0 if there is none */
};

static inline struct ravenvanity_sheet ravenvanity_new_sheet(void) {
    struct ravenvanity_sheet sheet;
    memset(&sheet, 0, sizeof sheet);
    sheet.fault_cell = RAVENVANITY_NO_CELL;
    return sheet;
}

/* Frees a sheet, also one with a fault, and makes it a new one. */
static inline void ravenvanity_free(struct ravenvanity_sheet *sheet) {
    free(sheet->bytes);
    free(sheet->library.starts);
    free(sheet->cell.starts);
    *sheet = ravenvanity_new_sheet();
}

/* ---- for the functions below alone */

static inline void ravenvanity_fail(struct ravenvanity_sheet *sheet, enum ravenvanity_fault fault) {
    if (sheet->fault != RAVENVANITY_NO_FAULT)
        return;
    sheet->fault = fault;
    if (sheet->library.count > 1) /* the first is the library's head */
        sheet->fault_cell = sheet->library.count - 2;
    if (sheet->cell.count > 0)
        sheet->fault_block = sheet->cell.count - 1;
}

/* Whether there is room for so many bytes more. */
static inline bool ravenvanity_grow(struct ravenvanity_sheet *sheet, size_t more) {
    if (sheet->fault != RAVENVANITY_NO_FAULT)
        return false;
    if (more > RAVENVANITY_MAX_SHEET - sheet->length) {
        ravenvanity_fail(sheet, RAVENVANITY_FAULT_SHEET_SIZE);
        return false;
    }
    if (more <= sheet->room - sheet->length)
        return true;
    size_t room = 2 * sheet->length + more;
    uint8_t *bytes = (uint8_t *)realloc(sheet->bytes, room);
    if (bytes == NULL) {
        ravenvanity_fail(sheet, RAVENVANITY_FAULT_MEMORY);
        return false;
    }
    sheet->bytes = bytes;
    sheet->room = room;
    return true;
}

static inline void ravenvanity_put(struct ravenvanity_sheet *sheet, unsigned bytes, uint64_t number) {
    if (!ravenvanity_grow(sheet, bytes))
        return;
    for (unsigned k = bytes; k-- > 0;)
        sheet->bytes[sheet->length++] = (uint8_t)(number >> 8 * k);
}

/* A number that may be too great for its 2 or 4 bytes. */
static inline void ravenvanity_put_fitting(struct ravenvanity_sheet *sheet, unsigned bytes, uint64_t number,
                                           enum ravenvanity_fault fault) {
    if (number >> 8 * bytes != 0)
        ravenvanity_fail(sheet, fault);
    else
        ravenvanity_put(sheet, bytes, number);
}

static inline void ravenvanity_put_double(struct ravenvanity_sheet *sheet, double value) {
    uint64_t bits;
    memcpy(&bits, &value, sizeof bits);
    ravenvanity_put(sheet, 8, bits);
}

static inline void ravenvanity_put_string(struct ravenvanity_sheet *sheet, const void *bytes, size_t length) {
    ravenvanity_put_fitting(sheet, 2, length, RAVENVANITY_FAULT_STRING);
    if (length == 0 || !ravenvanity_grow(sheet, length))
        return;
    memcpy(sheet->bytes + sheet->length, bytes, length);
    sheet->length += length;
}

static inline void ravenvanity_put_stamps(struct ravenvanity_sheet *sheet, const uint16_t *stamps) {
    for (int k = 0; k < 12; k++)
        ravenvanity_put(sheet, 2, stamps == NULL ? 0 : stamps[k]);
}

/* A code from 0 to 2. */
static inline void ravenvanity_put_code(struct ravenvanity_sheet *sheet, unsigned code) {
    if (code > 2)
        ravenvanity_fail(sheet, RAVENVANITY_FAULT_CODE);
    else
        ravenvanity_put(sheet, 1, code);
}

static inline void ravenvanity_put_coordinate(struct ravenvanity_sheet *sheet, struct ravenvanity_coordinate coordinate) {
    ravenvanity_put_code(sheet, coordinate.kind);
    if (coordinate.kind == RAVENVANITY_INTEGER) {
        if (coordinate.integer < INT32_MIN || coordinate.integer > INT32_MAX)
            ravenvanity_fail(sheet, RAVENVANITY_FAULT_NUMBER);
        ravenvanity_put(sheet, 8, (uint32_t)coordinate.integer);
        ravenvanity_put_double(sheet, coordinate.unit);
    } else if (coordinate.kind == RAVENVANITY_DOUBLE) {
        ravenvanity_put_double(sheet, coordinate.number);
        ravenvanity_put_double(sheet, coordinate.unit);
    } else {
        ravenvanity_put(sheet, 8, 0);
        ravenvanity_put(sheet, 8, 0);
    }
}

/* Both coordinates absent, or neither. */
static inline void ravenvanity_put_spacing(struct ravenvanity_sheet *sheet, struct ravenvanity_point spacing) {
    if ((spacing.x.kind == RAVENVANITY_ABSENT) != (spacing.y.kind == RAVENVANITY_ABSENT))
        ravenvanity_fail(sheet, RAVENVANITY_FAULT_ABSENT);
    ravenvanity_put_coordinate(sheet, spacing.x);
    ravenvanity_put_coordinate(sheet, spacing.y);
}

static inline void ravenvanity_put_point(struct ravenvanity_sheet *sheet, struct ravenvanity_point point) {
    if (point.x.kind == RAVENVANITY_ABSENT)
        ravenvanity_fail(sheet, RAVENVANITY_FAULT_ABSENT);
    ravenvanity_put_spacing(sheet, point);
}

static inline struct ravenvanity_point ravenvanity_point_of(const struct ravenvanity_points *points, size_t k) {
    if (points->integers != NULL)
        return ravenvanity_integer_xy(points->integers[2 * k], points->integers[2 * k + 1], points->unit);
    if (points->doubles != NULL)
        return ravenvanity_double_xy(points->doubles[2 * k], points->doubles[2 * k + 1], points->unit);
    return points->points[k];
}

static inline void ravenvanity_put_points(struct ravenvanity_sheet *sheet, struct ravenvanity_points points) {
    bool again = points.closed && points.count > 0;
    if (points.count > UINT16_MAX) /* here, so that one more is no overflow */
        ravenvanity_fail(sheet, RAVENVANITY_FAULT_POINTS);
    ravenvanity_put_fitting(sheet, 2, points.count + again, RAVENVANITY_FAULT_POINTS);
    for (size_t k = 0; k < points.count && sheet->fault == RAVENVANITY_NO_FAULT; k++)
        ravenvanity_put_point(sheet, ravenvanity_point_of(&points, k));
    if (again)
        ravenvanity_put_point(sheet, ravenvanity_point_of(&points, 0));
}

static inline void ravenvanity_put_transform(struct ravenvanity_sheet *sheet, struct ravenvanity_transform transform) {
    ravenvanity_put(sheet, 1, transform.reflection);
    ravenvanity_put_double(sheet, transform.magnification);
    ravenvanity_put_double(sheet, transform.degrees);
}

static inline void ravenvanity_start_block(struct ravenvanity_sheet *sheet, struct ravenvanity_blocks *blocks) {
    if (blocks->count == RAVENVANITY_MAX_BLOCKS)
        ravenvanity_fail(sheet, RAVENVANITY_FAULT_BLOCKS);
    if (sheet->fault != RAVENVANITY_NO_FAULT)
        return;
    if (blocks->count == blocks->room) {
        size_t room = 2 * blocks->room + 16;
        size_t *starts = (size_t *)realloc(blocks->starts, room * sizeof *starts);
        if (starts == NULL) {
            ravenvanity_fail(sheet, RAVENVANITY_FAULT_MEMORY);
            return;
        }
        blocks->starts = starts;
        blocks->room = room;
    }
    blocks->starts[blocks->count++] = sheet->length;
}

/* Puts the pairs of the blocks, which reach to the end, in front of them. */
static inline void ravenvanity_put_pairs(struct ravenvanity_sheet *sheet, struct ravenvanity_blocks *blocks) {
    size_t count = blocks->count, pairs = 4 + 8 * count, end = sheet->length;
    if (count == 0 || !ravenvanity_grow(sheet, pairs))
        return;
    size_t start = blocks->starts[0];
    memmove(sheet->bytes + start + pairs, sheet->bytes + start, end - start);
    sheet->length = start;
    ravenvanity_put(sheet, 4, count);
    for (size_t k = 0; k < count; k++) {
        size_t next = k + 1 < count ? blocks->starts[k + 1] : end;
        ravenvanity_put(sheet, 4, pairs + blocks->starts[k] - start);
        ravenvanity_put(sheet, 4, next - blocks->starts[k]);
    }
    sheet->length = end + pairs;
    blocks->count = 0;
}

static inline void ravenvanity_start_element(struct ravenvanity_sheet *sheet, enum ravenvanity_kind kind) {
    if (sheet->cell.count == 0)
        ravenvanity_fail(sheet, RAVENVANITY_FAULT_TURN);
    ravenvanity_start_block(sheet, &sheet->cell);
    ravenvanity_put(sheet, 1, kind);
}

static inline void ravenvanity_put_layer(struct ravenvanity_sheet *sheet, uint64_t layer, uint64_t data_type) {
    ravenvanity_put_fitting(sheet, 2, layer, RAVENVANITY_FAULT_NUMBER);
    ravenvanity_put_fitting(sheet, 2, data_type, RAVENVANITY_FAULT_NUMBER);
}

/* No properties yet. */
static inline void ravenvanity_end_element(struct ravenvanity_sheet *sheet) {
    sheet->properties = sheet->length;
    ravenvanity_put(sheet, 2, 0);
}

/* Whether there is an element for what is to be added to it. */
static inline bool ravenvanity_in_element(struct ravenvanity_sheet *sheet) {
    if (sheet->properties == 0)
        ravenvanity_fail(sheet, RAVENVANITY_FAULT_TURN);
    return sheet->fault == RAVENVANITY_NO_FAULT;
}

/* Flags or a plex number of the element that was added last, behind its kind, which is raised: flags come first. */
static inline void ravenvanity_set_option(struct ravenvanity_sheet *sheet, uint8_t raise, unsigned bytes, uint32_t number) {
    size_t start = sheet->cell.starts[sheet->cell.count - 1], at = start + 1;
    uint8_t kind = sheet->bytes[start];
    if (raise == RAVENVANITY_WITH_PLEX && (kind & RAVENVANITY_WITH_FLAGS) != 0)
        at += 2;
    if ((kind & raise) == 0) {
        if (!ravenvanity_grow(sheet, bytes))
            return;
        memmove(sheet->bytes + at + bytes, sheet->bytes + at, sheet->length - at);
        sheet->bytes[start] = kind | raise;
        sheet->properties += bytes;
        sheet->length += bytes;
    }
    size_t end = sheet->length;
    sheet->length = at;
    ravenvanity_put(sheet, bytes, number);
    sheet->length = end;
}

static inline void ravenvanity_add_shape(struct ravenvanity_sheet *sheet, enum ravenvanity_kind kind, uint64_t layer,
                                         uint64_t data_type, struct ravenvanity_points points) {
    ravenvanity_start_element(sheet, kind);
    ravenvanity_put_layer(sheet, layer, data_type);
    ravenvanity_put_points(sheet, points);
    ravenvanity_end_element(sheet);
}

/* ---- heads. Stamps are twelve numbers, or NULL for zero */

/* A library's name may hold any bytes. */
static inline void ravenvanity_start_library_bytes(struct ravenvanity_sheet *sheet, const void *name, size_t length,
                                                   double user_unit, const uint16_t *stamps) {
    if (sheet->length != 0)
        ravenvanity_fail(sheet, RAVENVANITY_FAULT_TURN);
    ravenvanity_start_block(sheet, &sheet->library);
    ravenvanity_put_string(sheet, name, length);
    ravenvanity_put_double(sheet, user_unit);
    ravenvanity_put_stamps(sheet, stamps);
}

static inline void ravenvanity_start_library(struct ravenvanity_sheet *sheet, const char *name, double user_unit,
                                             const uint16_t *stamps) {
    ravenvanity_start_library_bytes(sheet, name, strlen(name), user_unit, stamps);
}

/* After ravenvanity_start_library the next of its cells; else the sheet is a cell sheet, and this its one cell. */
static inline void ravenvanity_start_cell(struct ravenvanity_sheet *sheet, const char *name, const uint16_t *stamps) {
    if (sheet->length != 0 && sheet->library.count == 0)
        ravenvanity_fail(sheet, RAVENVANITY_FAULT_TURN);
    ravenvanity_put_pairs(sheet, &sheet->cell);
    sheet->properties = 0;
    if (sheet->library.count != 0)
        ravenvanity_start_block(sheet, &sheet->library);
    ravenvanity_start_block(sheet, &sheet->cell);
    ravenvanity_put_string(sheet, name, strlen(name));
    ravenvanity_put_stamps(sheet, stamps);
}

/* ---- elements, of the cell that was started last */

/* Points are added as they stand: a polygon's last is its first once more, by itself or by ravenvanity_closed. */
static inline void ravenvanity_add_polygon(struct ravenvanity_sheet *sheet, uint64_t layer, uint64_t data_type,
                                           struct ravenvanity_points points) {
    ravenvanity_add_shape(sheet, RAVENVANITY_KIND_POLYGON, layer, data_type, points);
}

static inline void ravenvanity_add_node(struct ravenvanity_sheet *sheet, uint64_t layer, uint64_t data_type,
                                        struct ravenvanity_points points) {
    ravenvanity_add_shape(sheet, RAVENVANITY_KIND_NODE, layer, data_type, points);
}

/* The corners stay as they are given, and are not put in order: of (x1, y1) and (x2, y2) the points that are written are
 * (x1, y1) (x2, y1) (x2, y2) (x1, y2) (x1, y1). */
static inline void ravenvanity_add_box(struct ravenvanity_sheet *sheet, uint64_t layer, uint64_t box_type,
                                       struct ravenvanity_point first, struct ravenvanity_point second) {
    ravenvanity_start_element(sheet, RAVENVANITY_KIND_BOX);
    ravenvanity_put_layer(sheet, layer, box_type);
    ravenvanity_put_point(sheet, first);
    ravenvanity_put_point(sheet, second);
    ravenvanity_end_element(sheet);
}

static inline void ravenvanity_add_path(struct ravenvanity_sheet *sheet, struct ravenvanity_path path) {
    ravenvanity_start_element(sheet, RAVENVANITY_KIND_PATH);
    ravenvanity_put_layer(sheet, path.layer, path.data_type);
    if (path.path_type == RAVENVANITY_NO_PATH_TYPE)
        ravenvanity_put(sheet, 1, RAVENVANITY_NO_PATH_TYPE);
    else
        ravenvanity_put_code(sheet, path.path_type);
    ravenvanity_put_coordinate(sheet, path.width);
    ravenvanity_put_coordinate(sheet, path.begin_extension);
    ravenvanity_put_coordinate(sheet, path.end_extension);
    ravenvanity_put_points(sheet, path.points);
    ravenvanity_end_element(sheet);
}

static inline void ravenvanity_add_text(struct ravenvanity_sheet *sheet, struct ravenvanity_text text) {
    ravenvanity_start_element(sheet, RAVENVANITY_KIND_TEXT);
    ravenvanity_put_layer(sheet, text.layer, text.data_type);
    ravenvanity_put_code(sheet, text.vertical);
    ravenvanity_put_code(sheet, text.horizontal);
    ravenvanity_put_transform(sheet, text.transform);
    ravenvanity_put_point(sheet, text.origin);
    ravenvanity_put_string(sheet, text.string, text.length);
    ravenvanity_end_element(sheet);
}

static inline void ravenvanity_add_reference(struct ravenvanity_sheet *sheet, struct ravenvanity_reference reference) {
    ravenvanity_start_element(sheet, RAVENVANITY_KIND_REFERENCE);
    bool single = reference.columns == 1 && reference.rows == 1;
    if (!single && !reference.turned && reference.transform.degrees != 0)
        ravenvanity_fail(sheet, RAVENVANITY_FAULT_SINE);
    ravenvanity_put_string(sheet, reference.name, strlen(reference.name));
    ravenvanity_put_fitting(sheet, 4, reference.columns, RAVENVANITY_FAULT_NUMBER);
    ravenvanity_put_fitting(sheet, 4, reference.rows, RAVENVANITY_FAULT_NUMBER);
    ravenvanity_put_transform(sheet, reference.transform);
    ravenvanity_put_double(sheet, reference.sine);
    ravenvanity_put_double(sheet, reference.cosine);
    ravenvanity_put_point(sheet, reference.origin);
    ravenvanity_put_spacing(sheet, reference.column_spacing);
    ravenvanity_put_spacing(sheet, reference.row_spacing);
    ravenvanity_end_element(sheet);
}

/* ---- what every kind of element may have: of the element that was added last */

/* The flags of the manual (ELFLAGS), which may be taken together. */
enum ravenvanity_flag {
    RAVENVANITY_TEMPLATE = 1,
    RAVENVANITY_EXTERNAL = 2
};

/* Flags that the element has are replaced. The proved functions refuse those above 3. */
static inline void ravenvanity_set_flags(struct ravenvanity_sheet *sheet, uint64_t flags) {
    if (!ravenvanity_in_element(sheet))
        return;
    if (flags > UINT16_MAX)
        ravenvanity_fail(sheet, RAVENVANITY_FAULT_NUMBER);
    else
        ravenvanity_set_option(sheet, RAVENVANITY_WITH_FLAGS, 2, (uint32_t)flags);
}

/* The plex number (PLEX), by which elements are grouped. One that the element has is replaced. */
static inline void ravenvanity_set_plex(struct ravenvanity_sheet *sheet, int64_t plex) {
    if (!ravenvanity_in_element(sheet))
        return;
    if (plex < INT32_MIN || plex > INT32_MAX)
        ravenvanity_fail(sheet, RAVENVANITY_FAULT_NUMBER);
    else
        ravenvanity_set_option(sheet, RAVENVANITY_WITH_PLEX, 4, (uint32_t)plex);
}

/* One more property; its value may hold any bytes. The proved functions refuse an attribute outside 1 to 127 and a value of more
 * than 126 bytes. */
static inline void ravenvanity_add_property_bytes(struct ravenvanity_sheet *sheet, uint64_t attribute, const void *value,
                                                  size_t length) {
    if (!ravenvanity_in_element(sheet))
        return;
    uint8_t *count = sheet->bytes + sheet->properties;
    if (count[0] == 255 && count[1] == 255) {
        ravenvanity_fail(sheet, RAVENVANITY_FAULT_PROPERTIES);
        return;
    }
    count[1]++;
    if (count[1] == 0)
        count[0]++;
    ravenvanity_put_fitting(sheet, 2, attribute, RAVENVANITY_FAULT_NUMBER);
    ravenvanity_put_string(sheet, value, length);
}

static inline void ravenvanity_add_property(struct ravenvanity_sheet *sheet, uint64_t attribute, const char *value) {
    ravenvanity_add_property_bytes(sheet, attribute, value, strlen(value));
}

/* ---- the end */

/* Puts the pairs in. Where it returns RAVENVANITY_NO_FAULT, sheet->bytes and sheet->length are the sheet; else the length is 0. */
static inline enum ravenvanity_fault ravenvanity_finish(struct ravenvanity_sheet *sheet) {
    if (sheet->length == 0)
        ravenvanity_fail(sheet, RAVENVANITY_FAULT_TURN);
    ravenvanity_put_pairs(sheet, &sheet->cell);
    ravenvanity_put_pairs(sheet, &sheet->library);
    sheet->properties = 0;
    if (sheet->fault != RAVENVANITY_NO_FAULT)
        sheet->length = 0; /* no part of a sheet goes out as one */
    return sheet->fault;
}

#endif
