// A test of ravenvanity_sheet.h. Prints, in hex, the sheet of exports/sheet_test.cell and that of tools/samples/format.library;
// exports/sheet_test.hex has what the text form gives. Then misuses the builder: status 1 where it does not tell the fault.
#include <math.h>
#include <stdbool.h>
#include <stdint.h>
#include <stdio.h>
#include <stdlib.h>

// Fails from this call on; -1 is never.
static long calls_left = -1;

static void *failing_realloc(void *bytes, size_t length) {
    if (calls_left == 0)
        return NULL;
    if (calls_left > 0)
        calls_left--;
    return realloc(bytes, length);
}

#define realloc failing_realloc
#include "ravenvanity_sheet.h"
#undef realloc

static const double NM = 1e-9, UM = 1e-6;

// ---- the cell of sheet_test.cell

static void add_shapes(struct ravenvanity_sheet *sheet) {
    static const double polygon[][2] = {{-0.5, 0.25}, {10, 0.25}, {10, -5.125}, {-0.5, 0.25}};
    ravenvanity_add_polygon(sheet, 1, 2, ravenvanity_doubles(&polygon[0][0], 4, UM));
    ravenvanity_add_property(sheet, 1, "net \"VDD\"");
    ravenvanity_add_property(sheet, 65535, "");
    static const int32_t open[] = {INT32_MIN, INT32_MAX, 300, -1, 0, 0};
    ravenvanity_add_polygon(sheet, 255, 0, ravenvanity_closed(ravenvanity_integers(open, 3, NM)));

    struct ravenvanity_point node[] = {
        ravenvanity_xy(ravenvanity_double(0.1003, UM), ravenvanity_integer(100, NM)),
        ravenvanity_xy(ravenvanity_integer(-100, NM), ravenvanity_double(-0.0, UM)),
    };
    ravenvanity_add_node(sheet, 3, 4, ravenvanity_mixed(node, 2));
    ravenvanity_add_property(sheet, 7, "odd");
}

static void add_paths(struct ravenvanity_sheet *sheet) {
    static const int32_t up[] = {0, 0, 0, 4000}, step[] = {0, 0, 1, 1};
    static const double wire[] = {0, 0, 12.345, 0};
    ravenvanity_add_path(sheet, ravenvanity_new_path(5, 6, ravenvanity_integers(up, 2, NM)));

    struct ravenvanity_path path = ravenvanity_new_path(5, 6, ravenvanity_doubles(wire, 2, UM));
    path.path_type = RAVENVANITY_SQUARE;
    path.width = ravenvanity_integer(180, NM);
    path.begin_extension = ravenvanity_double(0.25, UM);
    path.end_extension = ravenvanity_integer(-90, NM);
    ravenvanity_add_path(sheet, path);
    ravenvanity_add_property(sheet, 0, "all");

    path = ravenvanity_new_path(5, 6, ravenvanity_integers(step, 2, NM));
    path.path_type = RAVENVANITY_ROUND;
    path.width = ravenvanity_double(-0.18, UM);
    ravenvanity_add_path(sheet, path);

    path = ravenvanity_new_path(5, 6, ravenvanity_integers(step, 2, NM));
    path.path_type = RAVENVANITY_OVERLAP;
    path.begin_extension = ravenvanity_integer(10, NM);
    ravenvanity_add_path(sheet, path);

    path = ravenvanity_new_path(5, 6, ravenvanity_integers(step, 2, NM));
    path.end_extension = ravenvanity_integer(10, NM);
    ravenvanity_add_path(sheet, path);
}

static void add_texts(struct ravenvanity_sheet *sheet) {
    ravenvanity_add_text(sheet, ravenvanity_new_text(63, 65535, "VDD", ravenvanity_double_xy(1.25, 2.5, UM)));

    static const char bytes[] = "a zero byte: \0, and \xb5";
    struct ravenvanity_text text = ravenvanity_new_text(64, 0, bytes, ravenvanity_integer_xy(-7, 8, NM));
    text.length = sizeof bytes - 1;
    text.vertical = RAVENVANITY_MIDDLE;
    text.horizontal = RAVENVANITY_RIGHT;
    text.transform.reflection = true;
    text.transform.magnification = 0.5;
    text.transform.degrees = 359.75;
    ravenvanity_add_text(sheet, text);
    ravenvanity_add_property_bytes(sheet, 2, "\0\xff", 2);

    text = ravenvanity_new_text(65, 1, "", ravenvanity_integer_xy(0, 0, NM));
    text.vertical = RAVENVANITY_BOTTOM;
    text.horizontal = RAVENVANITY_CENTRE;
    ravenvanity_add_text(sheet, text);
}

static void add_references(struct ravenvanity_sheet *sheet) {
    struct ravenvanity_point origin = ravenvanity_xy(ravenvanity_double(2.7, UM), ravenvanity_integer(-100, NM));
    ravenvanity_add_reference(sheet, ravenvanity_new_reference("VIA", origin));

    struct ravenvanity_reference reference = ravenvanity_new_reference("VIA_2", ravenvanity_double_xy(0.5, 0.5, UM));
    reference.columns = 3;
    reference.rows = 2;
    reference.column_spacing = ravenvanity_double_xy(0.25, 0, UM);
    reference.row_spacing = ravenvanity_integer_xy(0, 250, NM);
    reference.transform.reflection = true;
    reference.transform.magnification = 2;
    ravenvanity_turn(&reference, 30, 0.49999999999999994, 0.8660254037844387);
    ravenvanity_add_reference(sheet, reference);
    ravenvanity_add_property(sheet, 1, "an array");

    reference = ravenvanity_new_reference("VIA", ravenvanity_integer_xy(0, 0, NM));
    reference.columns = 32767;
    reference.column_spacing = ravenvanity_integer_xy(7, -7, NM);
    ravenvanity_add_reference(sheet, reference);

    reference = ravenvanity_new_reference("VIA", ravenvanity_integer_xy(0, 0, NM));
    reference.rows = 32767;
    reference.row_spacing = ravenvanity_integer_xy(0, 7, NM);
    ravenvanity_add_reference(sheet, reference);
}

static void add_boxes(struct ravenvanity_sheet *sheet) {
    ravenvanity_add_box(sheet, 235, 0, ravenvanity_integer_xy(0, 0, NM), ravenvanity_double_xy(5, 4, UM));

    struct ravenvanity_point right = ravenvanity_xy(ravenvanity_double(1.5, UM), ravenvanity_integer(INT32_MAX, NM));
    struct ravenvanity_point left = ravenvanity_xy(ravenvanity_integer(INT32_MIN, NM), ravenvanity_double(-0.25, UM));
    ravenvanity_add_box(sheet, 65535, 1, right, left);
    ravenvanity_add_property(sheet, 1, "die");
    ravenvanity_add_property(sheet, 2, "area");
    ravenvanity_add_box(sheet, 0, 65535, left, left);
}

// Flags and plex number in either order, before and after properties, and set again.
static void add_with_options(struct ravenvanity_sheet *sheet) {
    static const int32_t xy[] = {0, 0, 1, 0, 1, 1};
    const struct ravenvanity_point origin = ravenvanity_integer_xy(0, 0, NM);
    ravenvanity_add_polygon(sheet, 2, 0, ravenvanity_closed(ravenvanity_integers(xy, 3, NM)));
    ravenvanity_set_flags(sheet, 0);
    ravenvanity_set_plex(sheet, 0);

    ravenvanity_add_node(sheet, 2, 0, ravenvanity_integers(xy, 1, NM));
    ravenvanity_set_plex(sheet, -1);

    ravenvanity_add_path(sheet, ravenvanity_new_path(2, 0, ravenvanity_integers(xy, 2, NM)));
    ravenvanity_set_plex(sheet, INT32_MAX);
    ravenvanity_set_flags(sheet, RAVENVANITY_TEMPLATE | RAVENVANITY_EXTERNAL);

    ravenvanity_add_text(sheet, ravenvanity_new_text(2, 0, "VSS", origin));
    ravenvanity_set_flags(sheet, 65535);

    struct ravenvanity_reference reference = ravenvanity_new_reference("VIA", origin);
    ravenvanity_add_reference(sheet, reference);
    ravenvanity_set_plex(sheet, 7);
    ravenvanity_set_plex(sheet, INT32_MIN);

    reference.columns = 2;
    reference.column_spacing = ravenvanity_integer_xy(7, 0, NM);
    ravenvanity_add_reference(sheet, reference);
    ravenvanity_set_flags(sheet, RAVENVANITY_EXTERNAL);
    ravenvanity_set_flags(sheet, RAVENVANITY_TEMPLATE);

    ravenvanity_add_box(sheet, 2, 0, origin, ravenvanity_integer_xy(1, 1, NM));
    ravenvanity_add_property(sheet, 1, "before");
    ravenvanity_set_plex(sheet, -1);
    ravenvanity_set_flags(sheet, RAVENVANITY_EXTERNAL);
    ravenvanity_set_plex(sheet, 16777216);
    ravenvanity_add_property(sheet, 2, "after");
}

static struct ravenvanity_sheet cell_sheet(void) {
    static const uint16_t stamps[12] = {2024, 2, 29, 12, 0, 1, 2024, 3, 1, 8, 30, 15};
    struct ravenvanity_sheet sheet = ravenvanity_new_sheet();
    ravenvanity_start_cell(&sheet, "ALL_KINDS?$", stamps);
    add_shapes(&sheet);
    add_paths(&sheet);
    add_texts(&sheet);
    add_references(&sheet);
    add_boxes(&sheet);
    add_with_options(&sheet);
    return sheet;
}

// ---- the library of tools/samples/format.library

static struct ravenvanity_sheet library_sheet(void) {
    static const uint16_t stamps[12] = {2024, 2, 29, 12, 0, 0, 2024, 2, 29, 12, 30, 0};
    struct ravenvanity_sheet sheet = ravenvanity_new_sheet();
    ravenvanity_start_library(&sheet, "LIB", 0.001, NULL);
    ravenvanity_start_cell(&sheet, "VIA", NULL);
    struct ravenvanity_point place = ravenvanity_xy(ravenvanity_double(0.1003, UM), ravenvanity_integer(100, NM));
    ravenvanity_add_node(&sheet, 5, 0, ravenvanity_mixed(&place, 1));
    ravenvanity_start_cell(&sheet, "TOP", stamps);
    place = ravenvanity_xy(ravenvanity_double(2.7004, UM), ravenvanity_integer(-100, NM));
    struct ravenvanity_reference via = ravenvanity_new_reference("VIA", place);
    ravenvanity_turn(&via, 90, 1, 0);
    ravenvanity_add_reference(&sheet, via);
    return sheet;
}

// ---- misuse

static int missed;

static void miss(const char *what, const char *got) {
    fprintf(stderr, "sheet_test: %s: %s\n", what, got);
    missed++;
}

// Ends the sheet, whose fault must be this one.
static void expect(const char *what, enum ravenvanity_fault fault, struct ravenvanity_sheet *sheet) {
    if (ravenvanity_finish(sheet) != fault)
        miss(what, ravenvanity_fault_words(sheet->fault));
    if ((sheet->length == 0) != (sheet->fault != RAVENVANITY_NO_FAULT))
        miss(what, "a fault and no fault have each their length");
    ravenvanity_free(sheet);
}

static struct ravenvanity_sheet started(void) {
    struct ravenvanity_sheet sheet = ravenvanity_new_sheet();
    ravenvanity_start_cell(&sheet, "A", NULL);
    return sheet;
}

static const int32_t ORIGIN[2] = {0, 0};

static void add_node(struct ravenvanity_sheet *sheet) {
    ravenvanity_add_node(sheet, 1, 0, ravenvanity_integers(ORIGIN, 1, NM));
}

static void test_points(void) {
    double *xy = (double *)calloc(2 * 65536, sizeof *xy);
    if (xy == NULL) {
        miss("points", "there is no memory");
        return;
    }
    struct ravenvanity_sheet sheet = started();
    ravenvanity_add_polygon(&sheet, 1, 0, ravenvanity_doubles(xy, 65535, NM));
    ravenvanity_add_polygon(&sheet, 1, 0, ravenvanity_closed(ravenvanity_doubles(xy, 65534, NM)));
    ravenvanity_add_polygon(&sheet, 1, 0, ravenvanity_closed(ravenvanity_doubles(xy, 0, NM)));
    expect("65,535 points", RAVENVANITY_NO_FAULT, &sheet);
    sheet = started();
    ravenvanity_add_polygon(&sheet, 1, 0, ravenvanity_doubles(xy, 65536, NM));
    expect("65,536 points", RAVENVANITY_FAULT_POINTS, &sheet);
    sheet = started();
    ravenvanity_add_polygon(&sheet, 1, 0, ravenvanity_closed(ravenvanity_doubles(xy, 65535, NM)));
    expect("65,535 points and one more", RAVENVANITY_FAULT_POINTS, &sheet);
    sheet = started();
    ravenvanity_add_polygon(&sheet, 1, 0, ravenvanity_closed(ravenvanity_doubles(xy, SIZE_MAX, NM)));
    expect("SIZE_MAX points and one more", RAVENVANITY_FAULT_POINTS, &sheet);
    free(xy);
}

static char LONG[65537];

static void test_strings(void) {
    memset(LONG, 'A', 65536);
    struct ravenvanity_sheet sheet = started();
    ravenvanity_add_text(&sheet, ravenvanity_new_text(1, 0, LONG, ravenvanity_integer_xy(0, 0, NM)));
    expect("a text of 65,536 bytes", RAVENVANITY_FAULT_STRING, &sheet);
    sheet = started();
    add_node(&sheet);
    ravenvanity_add_property(&sheet, 1, LONG);
    expect("a value of 65,536 bytes", RAVENVANITY_FAULT_STRING, &sheet);
    sheet = ravenvanity_new_sheet();
    ravenvanity_start_library(&sheet, LONG, 1, NULL);
    expect("a library's name of 65,536 bytes", RAVENVANITY_FAULT_STRING, &sheet);
    sheet = ravenvanity_new_sheet();
    ravenvanity_start_cell(&sheet, LONG, NULL);
    expect("a cell's name of 65,536 bytes", RAVENVANITY_FAULT_STRING, &sheet);
    sheet = started();
    ravenvanity_add_reference(&sheet, ravenvanity_new_reference(LONG, ravenvanity_integer_xy(0, 0, NM)));
    expect("a called name of 65,536 bytes", RAVENVANITY_FAULT_STRING, &sheet);
    sheet = ravenvanity_new_sheet();
    ravenvanity_start_library(&sheet, LONG + 1, 1, NULL);
    expect("a library's name of 65,535 bytes", RAVENVANITY_NO_FAULT, &sheet);
}

// A sheet of so many bytes.
static struct ravenvanity_sheet filled(size_t bytes) {
    struct ravenvanity_sheet sheet = started();
    add_node(&sheet);
    for (int k = 0; k < 255; k++)
        ravenvanity_add_property(&sheet, 1, LONG + 1);
    // 20 of pairs, 27 of the head, 43 of the node, 255 properties of 65,539, and a last one that fills the sheet
    ravenvanity_add_property(&sheet, 1, LONG + 65536 - (bytes - 20 - 27 - 43 - 255 * 65539 - 4));
    return sheet;
}

static void test_counts(void) {
    for (int over = 0; over < 2; over++) {
        struct ravenvanity_sheet sheet = started();
        add_node(&sheet);
        for (int k = 0; k < 65535 + over; k++)
            ravenvanity_add_property(&sheet, 1, "");
        expect("properties", over ? RAVENVANITY_FAULT_PROPERTIES : RAVENVANITY_NO_FAULT, &sheet);
        sheet = started();
        for (int k = 0; k < 16383 + over; k++)
            add_node(&sheet);
        expect("elements", over ? RAVENVANITY_FAULT_BLOCKS : RAVENVANITY_NO_FAULT, &sheet);
        sheet = ravenvanity_new_sheet();
        ravenvanity_start_library(&sheet, "L", 1, NULL);
        for (int k = 0; k < 16383 + over; k++)
            ravenvanity_start_cell(&sheet, "A", NULL);
        expect("cells", over ? RAVENVANITY_FAULT_BLOCKS : RAVENVANITY_NO_FAULT, &sheet);
        sheet = filled(16777216 + over);
        expect("a sheet of 16,777,216 bytes", over ? RAVENVANITY_FAULT_SHEET_SIZE : RAVENVANITY_NO_FAULT, &sheet);
    }
}

// The box's corners are a fault too, and come after.
static void expect_layer(const char *what, uint64_t layer, uint64_t type) {
    struct ravenvanity_sheet sheet = started();
    ravenvanity_add_node(&sheet, layer, type, ravenvanity_integers(ORIGIN, 1, NM));
    expect(what, RAVENVANITY_FAULT_NUMBER, &sheet);
    sheet = started();
    ravenvanity_add_box(&sheet, layer, type, ravenvanity_no_spacing(), ravenvanity_no_spacing());
    expect(what, RAVENVANITY_FAULT_NUMBER, &sheet);
}

static void expect_box(const char *what, enum ravenvanity_fault fault, struct ravenvanity_point first,
                       struct ravenvanity_point second) {
    struct ravenvanity_sheet sheet = started();
    ravenvanity_add_box(&sheet, 1, 0, first, second);
    expect(what, fault, &sheet);
}

// Each of a box's four coordinates in turn, among three that are no fault.
static void expect_corner(const char *what, enum ravenvanity_fault fault, struct ravenvanity_coordinate coordinate) {
    const struct ravenvanity_coordinate one = ravenvanity_integer(1, NM);
    for (int k = 0; k < 4; k++) {
        struct ravenvanity_coordinate four[4] = {one, one, one, one};
        four[k] = coordinate;
        expect_box(what, fault, ravenvanity_xy(four[0], four[1]), ravenvanity_xy(four[2], four[3]));
    }
}

static void expect_reference(const char *what, enum ravenvanity_fault fault, struct ravenvanity_reference reference) {
    struct ravenvanity_sheet sheet = started();
    ravenvanity_add_reference(&sheet, reference);
    expect(what, fault, &sheet);
}

static void test_numbers(void) {
    expect_layer("layer 65,536", 65536, 0);
    expect_layer("layer -1", (uint64_t)-1, 0);
    expect_layer("type 65,536", 0, 65536);
    struct ravenvanity_sheet sheet = started();
    add_node(&sheet);
    ravenvanity_add_property(&sheet, 65536, "");
    expect("attribute 65,536", RAVENVANITY_FAULT_NUMBER, &sheet);
    struct ravenvanity_reference reference = ravenvanity_new_reference("A", ravenvanity_integer_xy(0, 0, NM));
    reference.columns = UINT64_C(1) << 32;
    expect_reference("2^32 columns", RAVENVANITY_FAULT_NUMBER, reference);
    reference.columns = UINT32_MAX;
    expect_reference("2^32 - 1 columns", RAVENVANITY_NO_FAULT, reference);
    reference.rows = UINT64_C(1) << 32;
    expect_reference("2^32 rows", RAVENVANITY_FAULT_NUMBER, reference);
    reference = ravenvanity_new_reference("A", ravenvanity_integer_xy(0, INT64_C(1) << 31, NM));
    expect_reference("the integer 2^31", RAVENVANITY_FAULT_NUMBER, reference);
    reference = ravenvanity_new_reference("A", ravenvanity_integer_xy(INT64_C(-2147483649), 0, NM));
    expect_reference("the integer -2^31 - 1", RAVENVANITY_FAULT_NUMBER, reference);
}

static void test_absent(void) {
    struct ravenvanity_coordinate one = ravenvanity_integer(1, NM), none = ravenvanity_absent();
    expect_reference("no origin", RAVENVANITY_FAULT_ABSENT, ravenvanity_new_reference("A", ravenvanity_no_spacing()));
    expect_reference("half an origin", RAVENVANITY_FAULT_ABSENT, ravenvanity_new_reference("A", ravenvanity_xy(one, none)));
    struct ravenvanity_reference reference = ravenvanity_new_reference("A", ravenvanity_xy(one, one));
    reference.column_spacing = ravenvanity_xy(one, none);
    expect_reference("half a column spacing", RAVENVANITY_FAULT_ABSENT, reference);
    reference.column_spacing = ravenvanity_no_spacing();
    reference.row_spacing = ravenvanity_xy(none, one);
    expect_reference("half a row spacing", RAVENVANITY_FAULT_ABSENT, reference);
    struct ravenvanity_point point = ravenvanity_no_spacing();
    struct ravenvanity_sheet sheet = started();
    ravenvanity_add_node(&sheet, 1, 0, ravenvanity_mixed(&point, 1));
    expect("no point", RAVENVANITY_FAULT_ABSENT, &sheet);
}

static void test_sines(void) {
    struct ravenvanity_reference reference = ravenvanity_new_reference("A", ravenvanity_integer_xy(0, 0, NM));
    reference.transform.degrees = 30;
    expect_reference("a single reference at 30 degrees", RAVENVANITY_NO_FAULT, reference);
    reference.columns = 2;
    expect_reference("an array at 30 degrees without a sine", RAVENVANITY_FAULT_SINE, reference);
    reference.transform.degrees = NAN;
    expect_reference("an array at no degrees without a sine", RAVENVANITY_FAULT_SINE, reference);
    reference.transform.degrees = -0.0;
    expect_reference("an array at -0 degrees", RAVENVANITY_NO_FAULT, reference);
    ravenvanity_turn(&reference, 90, 1, 0);
    expect_reference("an array at 90 degrees", RAVENVANITY_NO_FAULT, reference);
}

static void test_codes(void) {
    struct ravenvanity_sheet sheet = started();
    struct ravenvanity_path path = ravenvanity_new_path(1, 0, ravenvanity_integers(ORIGIN, 1, NM));
    path.path_type = (enum ravenvanity_path_type)4;
    ravenvanity_add_path(&sheet, path);
    expect("path type 4", RAVENVANITY_FAULT_CODE, &sheet);
    struct ravenvanity_text text = ravenvanity_new_text(1, 0, "A", ravenvanity_integer_xy(0, 0, NM));
    text.vertical = (enum ravenvanity_vertical)3;
    sheet = started();
    ravenvanity_add_text(&sheet, text);
    expect("vertical 3", RAVENVANITY_FAULT_CODE, &sheet);
    text.vertical = RAVENVANITY_TOP;
    text.horizontal = (enum ravenvanity_horizontal)3;
    sheet = started();
    ravenvanity_add_text(&sheet, text);
    expect("horizontal 3", RAVENVANITY_FAULT_CODE, &sheet);
    struct ravenvanity_reference reference = ravenvanity_new_reference("A", ravenvanity_integer_xy(0, 0, NM));
    reference.origin.y.kind = (enum ravenvanity_coordinate_kind)3;
    expect_reference("coordinate kind 3", RAVENVANITY_FAULT_CODE, reference);
}

static void test_boxes(void) {
    expect_corner("a corner at 2^31 - 1", RAVENVANITY_NO_FAULT, ravenvanity_integer(INT32_MAX, NM));
    expect_corner("a corner at 2^31", RAVENVANITY_FAULT_NUMBER, ravenvanity_integer(INT64_C(1) << 31, NM));
    expect_corner("a corner at -2^31", RAVENVANITY_NO_FAULT, ravenvanity_integer(INT32_MIN, NM));
    expect_corner("a corner at -2^31 - 1", RAVENVANITY_FAULT_NUMBER, ravenvanity_integer(INT64_C(-2147483649), NM));
    expect_corner("half a corner", RAVENVANITY_FAULT_ABSENT, ravenvanity_absent());
    struct ravenvanity_coordinate unknown = ravenvanity_double(1, NM);
    unknown.kind = (enum ravenvanity_coordinate_kind)3;
    expect_corner("a corner of coordinate kind 3", RAVENVANITY_FAULT_CODE, unknown);
    struct ravenvanity_point none = ravenvanity_no_spacing(), wide = ravenvanity_integer_xy(INT64_C(1) << 31, 0, NM);
    expect_box("no first corner, and the second at 2^31", RAVENVANITY_FAULT_ABSENT, none, wide);
    expect_box("the first corner at 2^31, and no second", RAVENVANITY_FAULT_NUMBER, wide, none);
    expect_box("no second corner", RAVENVANITY_FAULT_ABSENT, ravenvanity_integer_xy(1, 1, NM), none);
}

static void expect_flags(const char *what, enum ravenvanity_fault fault, struct ravenvanity_sheet sheet, uint64_t flags) {
    ravenvanity_set_flags(&sheet, flags);
    expect(what, fault, &sheet);
}

static void expect_plex(const char *what, enum ravenvanity_fault fault, struct ravenvanity_sheet sheet, int64_t plex) {
    ravenvanity_set_plex(&sheet, plex);
    expect(what, fault, &sheet);
}

static struct ravenvanity_sheet with_node(void) {
    struct ravenvanity_sheet sheet = started();
    add_node(&sheet);
    return sheet;
}

static void test_options(void) {
    expect_flags("flags 65,535", RAVENVANITY_NO_FAULT, with_node(), 65535);
    expect_flags("flags 65,536", RAVENVANITY_FAULT_NUMBER, with_node(), 65536);
    expect_flags("flags -1", RAVENVANITY_FAULT_NUMBER, with_node(), (uint64_t)-1);
    expect_plex("plex 2^31 - 1", RAVENVANITY_NO_FAULT, with_node(), INT32_MAX);
    expect_plex("plex 2^31", RAVENVANITY_FAULT_NUMBER, with_node(), INT64_C(1) << 31);
    expect_plex("plex -2^31", RAVENVANITY_NO_FAULT, with_node(), INT32_MIN);
    expect_plex("plex -2^31 - 1", RAVENVANITY_FAULT_NUMBER, with_node(), INT64_C(-2147483649));
    expect_flags("flags before their element", RAVENVANITY_FAULT_TURN, started(), 65536);
    expect_plex("a plex number before its element", RAVENVANITY_FAULT_TURN, started(), INT64_C(1) << 31);
    expect_flags("flags that fill the sheet", RAVENVANITY_NO_FAULT, filled(16777216 - 2), 1);
    expect_flags("flags beyond the sheet", RAVENVANITY_FAULT_SHEET_SIZE, filled(16777216 - 1), 1);
    expect_plex("a plex number that fills the sheet", RAVENVANITY_NO_FAULT, filled(16777216 - 4), 1);
    expect_plex("a plex number beyond the sheet", RAVENVANITY_FAULT_SHEET_SIZE, filled(16777216 - 3), 1);
    expect_plex("a plex number beyond the sheet without its pairs", RAVENVANITY_FAULT_SHEET_SIZE, filled(16777216 + 20), 1);
}

static void test_turns(void) {
    struct ravenvanity_sheet sheet = ravenvanity_new_sheet();
    expect("nothing", RAVENVANITY_FAULT_TURN, &sheet);
    add_node(&sheet);
    expect("an element before its cell", RAVENVANITY_FAULT_TURN, &sheet);
    add_boxes(&sheet);
    expect("boxes before their cell", RAVENVANITY_FAULT_TURN, &sheet);
    sheet = started();
    ravenvanity_add_property(&sheet, 1, "");
    expect("a property before its element", RAVENVANITY_FAULT_TURN, &sheet);
    sheet = started();
    ravenvanity_start_cell(&sheet, "B", NULL);
    expect("a second cell of a cell sheet", RAVENVANITY_FAULT_TURN, &sheet);
    sheet = started();
    ravenvanity_start_library(&sheet, "L", 1, NULL);
    expect("a library after a cell", RAVENVANITY_FAULT_TURN, &sheet);
    ravenvanity_start_library(&sheet, "L", 1, NULL);
    add_node(&sheet);
    expect("an element of a library", RAVENVANITY_FAULT_TURN, &sheet);
    sheet = library_sheet();
    ravenvanity_start_cell(&sheet, "B", NULL);
    ravenvanity_add_property(&sheet, 1, "");
    expect("a property of the cell before", RAVENVANITY_FAULT_TURN, &sheet);
    sheet = library_sheet();
    ravenvanity_start_cell(&sheet, "B", NULL);
    expect_flags("flags of the cell before", RAVENVANITY_FAULT_TURN, sheet, 1);
}

static void test_end(void) {
    struct ravenvanity_sheet sheet = library_sheet();
    if (ravenvanity_finish(&sheet) != RAVENVANITY_NO_FAULT || ravenvanity_finish(&sheet) != RAVENVANITY_NO_FAULT)
        miss("two ends", ravenvanity_fault_words(sheet.fault));
    ravenvanity_add_property(&sheet, 1, "");
    expect("a property after the end", RAVENVANITY_FAULT_TURN, &sheet);
    sheet = cell_sheet();
    ravenvanity_finish(&sheet);
    expect_plex("a plex number after the end", RAVENVANITY_FAULT_TURN, sheet, 1);
    sheet = library_sheet();
    ravenvanity_finish(&sheet);
    ravenvanity_start_cell(&sheet, "A", NULL);
    expect("a cell after the end", RAVENVANITY_FAULT_TURN, &sheet);
    sheet = cell_sheet();
    ravenvanity_finish(&sheet);
    add_node(&sheet);
    expect("an element after the end", RAVENVANITY_FAULT_TURN, &sheet);
}

static void test_place(void) {
    struct ravenvanity_sheet sheet = library_sheet();
    add_node(&sheet);
    ravenvanity_add_property(&sheet, 65536, "");
    add_node(&sheet);
    if (sheet.fault_cell != 1 || sheet.fault_block != 2)
        miss("the place of a fault", "not cell 1, block 2");
    ravenvanity_free(&sheet);
}

// Every allocation fails once; then none is left to fail.
static void test_memory(struct ravenvanity_sheet (*make)(void)) {
    long calls = 0;
    for (bool failed = true; failed; calls++) {
        calls_left = calls;
        struct ravenvanity_sheet sheet = make();
        failed = ravenvanity_finish(&sheet) != RAVENVANITY_NO_FAULT;
        if (failed && sheet.fault != RAVENVANITY_FAULT_MEMORY)
            miss("no memory", ravenvanity_fault_words(sheet.fault));
        ravenvanity_free(&sheet);
    }
    calls_left = -1;
    if (calls < 4)
        miss("no memory", "too few allocations for a test");
}

static void print_sheet(struct ravenvanity_sheet sheet) {
    if (ravenvanity_finish(&sheet) != RAVENVANITY_NO_FAULT)
        miss("a sheet", ravenvanity_fault_words(sheet.fault));
    for (size_t k = 0; k < sheet.length; k++)
        printf("%02x", sheet.bytes[k]);
    printf("\n");
    ravenvanity_free(&sheet);
}

int main(void) {
    print_sheet(cell_sheet());
    print_sheet(library_sheet());
    test_points();
    test_strings();
    test_counts();
    test_numbers();
    test_absent();
    test_sines();
    test_codes();
    test_boxes();
    test_options();
    test_turns();
    test_end();
    test_place();
    test_memory(cell_sheet);
    test_memory(library_sheet);
    return missed != 0;
}
