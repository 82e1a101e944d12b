//! A test of the entries of ravenvanity_report.rs, their words and their side, of the limits of text types and properties, and
//! that measuring and writing agree. Prints nothing; a panic where something is wrong.
mod ravenvanity;
mod ravenvanity_report;
mod ravenvanity_sheet;

use ravenvanity::{Accepted, LibraryRefusal, Policy, Refusal, kind, refusal};
use ravenvanity_report::{Entry, axis, field};
use ravenvanity_sheet::{Cell, Element, Library, Node, Point, Text};
use std::fmt::Debug;

/// The smallest double above 0.
const LEAST: f64 = f64::from_bits(1);

const ENTRY: Entry = Entry {
    cell: None,
    index: 0,
    kind: kind::REFERENCE,
    field: field::COLUMN_ENDPOINT,
    axis: axis::X,
    place: 0,
    affected: 4,
    physical: 42.5,
    database: 45,
    error: 2.5,
};

fn test_entry(wanted: &str, entry: Entry) {
    assert_eq!(entry.to_string(), wanted);
}

fn test_entries() {
    test_entry("element 0 (reference): 4 values affected, worst column endpoint x: p 42.5, q 45, error 2.5 above", ENTRY);
    let point = Entry { cell: Some(7), index: u32::MAX, kind: kind::POLYGON, field: field::POINT, axis: axis::Y, ..ENTRY };
    test_entry(
        "cell 7, element 4294967295 (polygon): 1 value affected, worst point 65535 y: p -1.5, q -2147483648, error 0.5 below",
        Entry { place: 65535, affected: 1, physical: -1.5, database: i32::MIN, error: -0.5, ..point },
    );
    let corner = Entry { kind: kind::BOX, field: field::POINT, axis: axis::Y, place: 2, affected: 10, ..ENTRY };
    test_entry("element 0 (box): 10 values affected, worst point 2 y: p 42.5, q 45, error 2.5 above", corner);
    let length = Entry { cell: Some(0), index: 2, kind: kind::PATH, field: field::BEGIN_EXTENSION, axis: axis::NONE, ..ENTRY };
    test_entry(
        "cell 0, element 2 (path): 0 values affected, worst begin extension: p NaN, q 0, error inf above",
        Entry { affected: 0, physical: f64::NAN, database: 0, error: f64::INFINITY, ..length },
    );
    // the last two as sheets have kinds with flags and plex numbers
    for kind in [0, 7, 17, 54] {
        let unknown = Entry { kind, field: 9, axis: 3, place: 1, affected: 0, ..ENTRY };
        test_entry(
            "element 0 (unknown kind): 0 values affected, worst unknown field unknown axis: p -0.0, q 0, error inf below",
            Entry { physical: -0.0, database: 0, error: f64::NEG_INFINITY, ..unknown },
        );
    }
}

fn test_side(side: &str, size: &str, error: f64) {
    let entry = Entry { error, ..ENTRY };
    assert_eq!(entry.side(), side, "{error:?}");
    let words = "element 0 (reference): 4 values affected, worst column endpoint x: p 42.5, q 45, error";
    test_entry(&format!("{words} {size} {side}"), entry);
}

/// The magnitude has no sign. An error of 0 or NaN, which the proved writer never gives, is on no side.
fn test_sides() {
    test_side("above", "2.5", 2.5);
    test_side("below", "2.5", -2.5);
    test_side("above", "5e-324", LEAST);
    test_side("below", "5e-324", -LEAST);
    test_side("above", "inf", f64::INFINITY);
    test_side("below", "inf", f64::NEG_INFINITY);
    test_side("unknown side", "0.0", 0.0);
    test_side("unknown side", "0.0", -0.0);
    test_side("unknown side", "NaN", f64::NAN);
}

// ---- limits of text types and properties

fn node(x: f64) -> Node {
    Node::new(1, 0, vec![Point::double(x, 0.0, 1.0)])
}

/// Of a cell of a node, and behind it, in block 2, an element: the refusal's number, which must be of this block.
fn number_of(element: Element) -> Option<u8> {
    let mut cell = Cell::new("A");
    cell.add(node(1.0));
    cell.elements.push(element);
    let refusal = ravenvanity::written(Policy::Nearest, 1.0, &cell.sheet().expect("a sheet")).err()?;
    assert_eq!(refusal.block, 2, "{refusal}");
    Some(refusal.number)
}

/// A node at x with an attribute and a value of so many bytes each.
fn of_properties(x: f64, properties: &[(u16, usize)]) -> Element {
    let mut element = Element::new(node(x));
    for (attribute, length) in properties {
        element.property(*attribute, vec![b'v'; *length]);
    }
    element
}

/// One property after the other, of each the attribute, then the value; both after the place.
fn test_properties() {
    let number = |properties: &[(u16, usize)]| number_of(of_properties(1.0, properties));
    assert_eq!(number(&[(1, 0), (127, 125), (127, 126)]), None);
    for attribute in [0, 128, 255, 256, 257, 32768, 65535] {
        assert_eq!(number(&[(1, 126), (attribute, 126)]), Some(27), "attribute {attribute}");
    }
    for length in [127, 128, 382, 65530, 65531, 65535] {
        assert_eq!(number(&[(1, 126), (127, length)]), Some(10), "a value of {length} bytes");
    }
    assert_eq!(number(&[(0, 127)]), Some(27));
    assert_eq!(number(&[(1, 127), (0, 0)]), Some(10));
    assert_eq!(number(&[(128, 0), (1, 127)]), Some(27));
    assert_eq!(number_of(of_properties(f64::NAN, &[(0, 127)])), Some(17));
    let mut flagged = of_properties(f64::NAN, &[(0, 127)]);
    flagged.flags(4);
    assert_eq!(number_of(flagged), Some(26));
}

/// The layer, the type, the string, and then the place.
fn test_text_types() {
    let number = |layer, text_type, length, x| {
        number_of(Element::new(Text::new(layer, text_type, vec![b't'; length], Point::double(x, 0.0, 1.0))))
    };
    assert_eq!(number(255, 255, 512, 1.0), None);
    assert_eq!(number(255, 256, 512, 1.0), Some(9));
    assert_eq!(number(255, 65535, 512, 1.0), Some(9));
    assert_eq!(number(256, 256, 513, f64::NAN), Some(9));
    assert_eq!(number(255, 256, 513, f64::NAN), Some(9));
    assert_eq!(number(255, 255, 513, f64::NAN), Some(10));
}

fn test_refusals() {
    let words = "a property's attribute is outside 1 to 127";
    assert_eq!(Refusal { number: 27, block: 2 }.to_string(), format!("refusal 27, block 2: {words}"));
    let mut library = Library::new("L", 0.001);
    let mut cell = Cell::new("B");
    cell.add(node(1.0)).property(0, "");
    library.add(Cell::new("A"));
    library.add(cell);
    let sheet = library.sheet().expect("a sheet");
    let refusal = ravenvanity::library_written(Policy::Nearest, 1.0, &sheet).expect_err("an attribute of 0");
    assert_eq!(refusal, LibraryRefusal { number: 27, cell: Some(1), block: 1 });
    assert_eq!(refusal.to_string(), format!("refusal 27, cell 1, block 1: {words}"));
}

// ---- measuring and writing agree

const ROOM: usize = 1024;
const PATTERN: u8 = 0xa5;

/// A cell of nodes.
fn nodes(name: &str, xs: &[f64]) -> Cell {
    let mut cell = Cell::new(name);
    for x in xs {
        cell.add(node(*x));
    }
    cell
}

/// A library of two cells of a node each.
fn cells(first: f64, second: f64) -> Library {
    let mut library = Library::new("L", 0.001);
    library.add(nodes("A", &[first]));
    library.add(nodes("B", &[second]));
    library
}

/// No bytes, one less than was measured, as many, one more, and all there are.
fn lengths(measured: usize) -> [usize; 5] {
    [0, measured.saturating_sub(1), measured, measured + 1, ROOM]
}

/// The bytes at a room's start, and behind them what it was filled with.
fn hold_room(room: &[u8], bytes: &[u8]) {
    assert_eq!(&room[..bytes.len()], bytes);
    assert!(room[bytes.len()..].iter().all(|byte| *byte == PATTERN));
}

/// Writing by what was measured, into rooms of which all these lengths are lent, each with each. `whole` is what is written and
/// its report, each empty in a refusal; `short` is the refusal of 21 or 22.
fn hold_agreement<R: Copy + Debug + PartialEq>(
    measured: Result<Accepted, R>,
    whole: [Vec<u8>; 2],
    short: impl Fn(u8) -> R,
    write: impl Fn(&mut [u8], &mut [u8]) -> Result<Accepted, R>,
) {
    let needed = [whole[0].len(), whole[1].len()];
    for (out, report) in lengths(needed[0]).iter().flat_map(|out| lengths(needed[1]).map(|report| (*out, report))) {
        let wanted = match measured {
            Ok(_) if out < needed[0] => Err(short(refusal::OUTPUT_SHORT)),
            Ok(_) if report < needed[1] => Err(short(refusal::REPORT_SHORT)),
            _ => measured,
        };
        let mut rooms = [[PATTERN; ROOM]; 2];
        let [out_room, report_room] = &mut rooms;
        assert_eq!(write(&mut out_room[..out], &mut report_room[..report]), wanted, "lent {out} and {report}");
        for (room, bytes) in rooms.iter().zip(&whole) {
            hold_room(room, if wanted.is_ok() { bytes } else { &[] });
        }
    }
}

fn cell_agrees(policy: impl Into<u8>, cell: Cell, wanted: Result<Accepted, Refusal>) {
    let (policy, sheet) = (policy.into(), cell.sheet().expect("a sheet"));
    let measured = ravenvanity::measure_cell(policy, 1.0, &sheet);
    assert_eq!(measured, wanted);
    let whole = ravenvanity::written(policy, 1.0, &sheet).map(|(out, report, _)| [out, report]).unwrap_or_default();
    let short = |number| Refusal { number, block: 0 };
    hold_agreement(measured, whole, short, |out, report| ravenvanity::write_cell(policy, 1.0, &sheet, out, report));
}

fn library_agrees(policy: impl Into<u8>, library: Library, wanted: Result<Accepted, LibraryRefusal>) {
    let (policy, sheet) = (policy.into(), library.sheet().expect("a sheet"));
    let measured = ravenvanity::measure_library(policy, 1.0, &sheet);
    assert_eq!(measured, wanted);
    let whole = ravenvanity::library_written(policy, 1.0, &sheet).map(|(out, report, _)| [out, report]).unwrap_or_default();
    let short = |number| LibraryRefusal { number, cell: None, block: 0 };
    hold_agreement(measured, whole, short, |out, report| ravenvanity::write_library(policy, 1.0, &sheet, out, report));
}

/// In a library that is refused, cell 0 has an entry.
fn test_agreement() {
    let taken = |length, entries, greatest| Accepted { length, entries, greatest };
    cell_agrees(Policy::Nearest, nodes("A", &[1.25, 1.5]), Ok(taken(102, 2, 0.5)));
    cell_agrees(Policy::Strict, nodes("A", &[1.0, 2.0]), Ok(taken(102, 0, 0.0)));
    cell_agrees(Policy::Nearest, nodes("A", &[1.5, f64::NAN]), Err(Refusal { number: 17, block: 2 }));
    library_agrees(Policy::Nearest, cells(1.5, 1.25), Ok(taken(204, 2, 0.5)));
    library_agrees(Policy::Strict, cells(1.0, 2.0), Ok(taken(204, 0, 0.0)));
    library_agrees(Policy::Nearest, cells(1.5, f64::NAN), Err(LibraryRefusal { number: 17, cell: Some(1), block: 1 }));
    library_agrees(4, cells(1.5, f64::NAN), Err(LibraryRefusal { number: 1, cell: None, block: 0 }));
}

fn main() {
    test_entries();
    test_sides();
    test_properties();
    test_text_types();
    test_refusals();
    test_agreement();
}
