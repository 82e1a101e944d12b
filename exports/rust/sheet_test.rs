//! A test of ravenvanity_sheet.rs. Prints, in hex, the sheet of exports/sheet_test.cell and that of tools/samples/format.library;
//! exports/sheet_test.hex has what the text form gives. Then makes what a sheet cannot hold: a panic where the fault is not told.
mod ravenvanity;
mod ravenvanity_sheet;

use ravenvanity_sheet::*;

const NM: f64 = 1e-9;
const UM: f64 = 1e-6;

// ---- the cell of sheet_test.cell

fn add_shapes(cell: &mut Cell) {
    let polygon = doubles(&[[-0.5, 0.25], [10.0, 0.25], [10.0, -5.125], [-0.5, 0.25]], UM);
    cell.add(Polygon::new(1, 2, polygon)).property(1, "net \"VDD\"").property(65535, "");
    cell.add(Polygon::new(255, 0, closed(integers(&[[i32::MIN, i32::MAX], [300, -1], [0, 0]], NM))));
    let node = vec![
        Point::new(Coordinate::double(0.1003, UM), Coordinate::integer(100, NM)),
        Point::new(Coordinate::integer(-100, NM), Coordinate::double(-0.0, UM)),
    ];
    cell.add(Node::new(3, 4, node)).property(7, "odd");
}

fn add_paths(cell: &mut Cell) {
    cell.add(Path::new(5, 6, integers(&[[0, 0], [0, 4000]], NM)));
    let all = Path {
        path_type: Some(PathType::Square),
        width: Some(Coordinate::integer(180, NM)),
        begin_extension: Some(Coordinate::double(0.25, UM)),
        end_extension: Some(Coordinate::integer(-90, NM)),
        ..Path::new(5, 6, doubles(&[[0.0, 0.0], [12.345, 0.0]], UM))
    };
    cell.add(all).property(0, "all");
    let step = Path::new(5, 6, integers(&[[0, 0], [1, 1]], NM));
    let ten = Some(Coordinate::integer(10, NM));
    cell.add(Path { path_type: Some(PathType::Round), width: Some(Coordinate::double(-0.18, UM)), ..step.clone() });
    cell.add(Path { path_type: Some(PathType::Overlap), begin_extension: ten, ..step.clone() });
    cell.add(Path { end_extension: ten, ..step });
}

fn add_texts(cell: &mut Cell) {
    cell.add(Text::new(63, 65535, "VDD", Point::double(1.25, 2.5, UM)));
    let all = Text {
        vertical: Vertical::Middle,
        horizontal: Horizontal::Right,
        transform: Transform { reflection: true, magnification: 0.5, degrees: 359.75 },
        ..Text::new(64, 0, b"a zero byte: \0, and \xb5", Point::integer(-7, 8, NM))
    };
    cell.add(all).property(2, b"\0\xff");
    let empty = Text::new(65, 1, "", Point::integer(0, 0, NM));
    cell.add(Text { vertical: Vertical::Bottom, horizontal: Horizontal::Centre, ..empty });
}

fn add_references(cell: &mut Cell) {
    let origin = Point::new(Coordinate::double(2.7, UM), Coordinate::integer(-100, NM));
    cell.add(Reference::new("VIA", origin));
    let all = Reference {
        columns: 3,
        rows: 2,
        transform: Transform { reflection: true, magnification: 2.0, degrees: 30.0 },
        turn: Some(Turn { sine: 0.49999999999999994, cosine: 0.8660254037844387 }),
        column_spacing: Some(Point::double(0.25, 0.0, UM)),
        row_spacing: Some(Point::integer(0, 250, NM)),
        ..Reference::new("VIA_2", Point::double(0.5, 0.5, UM))
    };
    cell.add(all).property(1, "an array");
    let via = Reference::new("VIA", Point::integer(0, 0, NM));
    cell.add(Reference { columns: 32767, column_spacing: Some(Point::integer(7, -7, NM)), ..via.clone() });
    cell.add(Reference { rows: 32767, row_spacing: Some(Point::integer(0, 7, NM)), ..via });
}

fn add_boxes(cell: &mut Cell) {
    cell.add(GdsBox::new(235, 0, Point::integer(0, 0, NM), Point::double(5.0, 4.0, UM)));
    let right = Point::new(Coordinate::double(1.5, UM), Coordinate::integer(i32::MAX, NM));
    let left = Point::new(Coordinate::integer(i32::MIN, NM), Coordinate::double(-0.25, UM));
    cell.add(GdsBox::new(65535, 1, right, left)).property(1, "die").property(2, "area");
    cell.add(GdsBox::new(0, 65535, left, left));
}

/// Flags and plex number in either order, before and after properties, and set again.
fn add_with_options(cell: &mut Cell) {
    let points = |count| integers(&[[0, 0], [1, 0], [1, 1]][..count], NM);
    let origin = Point::integer(0, 0, NM);
    cell.add(Polygon::new(2, 0, closed(points(3)))).flags(0).plex(0);
    cell.add(Node::new(2, 0, points(1))).plex(-1);
    cell.add(Path::new(2, 0, points(2))).plex(i32::MAX).flags(flag::TEMPLATE | flag::EXTERNAL);
    cell.add(Text::new(2, 0, "VSS", origin)).flags(65535);
    let via = Reference::new("VIA", origin);
    cell.add(via.clone()).plex(7).plex(i32::MIN);
    let array = Reference { columns: 2, column_spacing: Some(Point::integer(7, 0, NM)), ..via };
    cell.add(array).flags(flag::EXTERNAL).flags(flag::TEMPLATE);
    let gds_box = cell.add(GdsBox::new(2, 0, origin, Point::integer(1, 1, NM))).property(1, "before");
    gds_box.plex(-1).flags(flag::EXTERNAL).plex(16_777_216).property(2, "after");
}

fn cell() -> Cell {
    let mut cell = Cell::new("ALL_KINDS?$");
    cell.stamps = [2024, 2, 29, 12, 0, 1, 2024, 3, 1, 8, 30, 15];
    add_shapes(&mut cell);
    add_paths(&mut cell);
    add_texts(&mut cell);
    add_references(&mut cell);
    add_boxes(&mut cell);
    add_with_options(&mut cell);
    cell
}

// ---- the library of tools/samples/format.library

fn library() -> Library {
    let mut via = Cell::new("VIA");
    via.add(Node::new(5, 0, vec![Point::new(Coordinate::double(0.1003, UM), Coordinate::integer(100, NM))]));
    let mut top = Cell::new("TOP");
    top.stamps = [2024, 2, 29, 12, 0, 0, 2024, 2, 29, 12, 30, 0];
    let origin = Point::new(Coordinate::double(2.7004, UM), Coordinate::integer(-100, NM));
    let transform = Transform { degrees: 90.0, ..Transform::default() };
    top.add(Reference { transform, turn: Some(Turn { sine: 1.0, cosine: 0.0 }), ..Reference::new("VIA", origin) });
    let mut library = Library::new("LIB", 0.001);
    library.add(via);
    library.add(top);
    library
}

// ---- what a sheet cannot hold

fn node() -> Node {
    Node::new(1, 0, integers(&[[0, 0]], NM))
}

/// The fault of a cell A with one element, which is block 1.
fn fault_of(change: impl FnOnce(&mut Element)) -> Option<Cause> {
    let mut cell = Cell::new("A");
    change(cell.add(node()));
    let fault = cell.sheet().err()?;
    assert_eq!(fault, Fault { cause: fault.cause, cell: None, block: 1 });
    Some(fault.cause)
}

fn test_element() {
    let points = |count| integers(&vec![[0, 0]; count], NM);
    let of_points = |points| fault_of(|element| element.body = Polygon::new(1, 0, points).into());
    assert_eq!(of_points(points(65_535)), None);
    assert_eq!(of_points(points(65_536)), Some(Cause::Points));
    assert_eq!(of_points(closed(points(65_534))), None);
    assert_eq!(of_points(closed(points(65_535))), Some(Cause::Points));
    assert_eq!(of_points(closed(points(0))), None);
    let property = || Property { attribute: 1, value: Vec::new() };
    assert_eq!(fault_of(|element| element.properties = vec![property(); 65_535]), None);
    assert_eq!(fault_of(|element| element.properties = vec![property(); 65_536]), Some(Cause::Properties));
    let long = |length| "A".repeat(length);
    let origin = Point::integer(0, 0, NM);
    assert_eq!(fault_of(|element| _ = element.property(1, long(65_535))), None);
    assert_eq!(fault_of(|element| _ = element.property(1, long(65_536))), Some(Cause::String));
    assert_eq!(fault_of(|element| element.body = Text::new(1, 0, long(65_536), origin).into()), Some(Cause::String));
    assert_eq!(fault_of(|element| element.body = Reference::new(long(65_536), origin).into()), Some(Cause::String));
}

/// Its layer, type and corners always fit.
fn test_boxes() {
    let of_box = |properties| {
        let origin = Point::integer(0, 0, NM);
        fault_of(|element| *element = Element { properties, ..Element::new(GdsBox::new(1, 0, origin, origin)) })
    };
    let property = |length| Property { attribute: 1, value: vec![b'A'; length] };
    assert_eq!(of_box(vec![property(0); 65_535]), None);
    assert_eq!(of_box(vec![property(0); 65_536]), Some(Cause::Properties));
    assert_eq!(of_box(vec![property(65_535)]), None);
    assert_eq!(of_box(vec![property(65_536)]), Some(Cause::String));
}

/// They always fit. A fault of their element is told as without them.
fn test_options() {
    assert_eq!(fault_of(|element| _ = element.flags(u16::MAX).plex(i32::MIN)), None);
    let long = "A".repeat(65_536);
    assert_eq!(fault_of(|element| _ = element.flags(0).plex(i32::MAX).property(1, long)), Some(Cause::String));
}

fn test_turns() {
    let turned = |columns, degrees, turn| {
        let transform = Transform { degrees, ..Transform::default() };
        let reference = Reference { columns, transform, turn, ..Reference::new("B", Point::integer(0, 0, NM)) };
        fault_of(|element| element.body = reference.into())
    };
    assert_eq!(turned(1, 30.0, None), None);
    assert_eq!(turned(2, 30.0, None), Some(Cause::Sine));
    assert_eq!(turned(2, f64::NAN, None), Some(Cause::Sine));
    assert_eq!(turned(2, -0.0, None), None);
    assert_eq!(turned(2, 90.0, Some(Turn { sine: 1.0, cosine: 0.0 })), None);
}

fn test_cell() {
    let outside = |cause| Some(Fault { cause, cell: None, block: 0 });
    assert_eq!(Cell::new("A".repeat(65_536)).sheet().err(), outside(Cause::String));
    let of_elements = |count| {
        let mut cell = Cell::new("A");
        (0..count).for_each(|_| _ = cell.add(node()));
        cell.sheet().err()
    };
    assert_eq!(of_elements(16_383), None);
    assert_eq!(of_elements(16_384), outside(Cause::Blocks));
    let of_bytes = |bytes: usize| {
        let mut cell = Cell::new("A");
        let element = cell.add(node());
        (0..255).for_each(|_| _ = element.property(1, "A".repeat(65_535)));
        // 20 of pairs, 27 of the head, 43 of the node, 255 properties of 65,539, and a last one that fills the sheet
        element.property(1, "A".repeat(bytes - 20 - 27 - 43 - 255 * 65_539 - 4));
        cell.sheet().map(|sheet| sheet.len())
    };
    assert_eq!(of_bytes(16_777_216), Ok(16_777_216));
    assert_eq!(of_bytes(16_777_217).err(), outside(Cause::SheetSize));
}

fn test_library() {
    let outside = |cause| Some(Fault { cause, cell: None, block: 0 });
    assert_eq!(Library::new("A".repeat(65_535), 1.0).sheet().err(), None);
    assert_eq!(Library::new("A".repeat(65_536), 1.0).sheet().err(), outside(Cause::String));
    let of_cells = |count| {
        let mut library = Library::new("L", 1.0);
        library.cells = vec![Cell::new("A"); count];
        library.sheet().err()
    };
    assert_eq!(of_cells(16_383), None);
    assert_eq!(of_cells(16_384), outside(Cause::Blocks));
    let mut library = library();
    library.cells[1].add(node()).property(1, "A".repeat(65_536));
    let fault = library.sheet().expect_err("a string that is too long");
    assert_eq!(fault.to_string(), "cell 1, block 2: a string of more than 65,535 bytes");
}

fn print(sheet: Result<Vec<u8>, Fault>) {
    let hex: String = sheet.expect("a sheet").iter().map(|byte| format!("{byte:02x}")).collect();
    println!("{hex}");
}

fn main() {
    print(cell().sheet());
    print(library().sheet());
    test_element();
    test_boxes();
    test_options();
    test_turns();
    test_cell();
    test_library();
}
