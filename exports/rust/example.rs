//! Writes document 01's array, then a cell of polygons, a path, a text and a box, then a library, and reads the reports. Tells
//! refusals in words. Then asks where a length that is known within bounds may come to lie, and how many places of a row a pitch
//! disturbs.
mod ravenvanity;
mod ravenvanity_report;
mod ravenvanity_sheet;

use ravenvanity::{Accepted, Policy, refusal};
use ravenvanity_report::{Entry, entries, library_entries};
use ravenvanity_sheet::*;
use std::error::Error;

// ---- cells

/// Document 01's: origin (0.5, 0), spacing (10.5, 0), 4 columns, 1 row.
fn array() -> Cell {
    let single = Reference::new("B", Point::double(0.5, 0.0, 1.0));
    let mut cell = Cell::new("A");
    cell.add(Reference { columns: 4, column_spacing: Some(Point::double(10.5, 0.0, 1.0)), ..single });
    cell
}

/// Polygons of one plex, a text and a box, the die's area, which is template data, in micrometres, a path in nanometres.
fn shapes() -> Cell {
    let squares = [[[0.0, 0.0], [2.0, 0.0], [2.0, 2.0], [0.0, 2.0]], [[3.0, 0.0], [5.0004, 0.0], [5.0004, 2.0], [3.0, 2.0]]];
    let mut cell = Cell::new("SHAPES");
    for square in &squares {
        cell.add(Polygon::new(1, 0, closed(doubles(square, 1e-6)))).plex(1);
    }
    let wire = Path::new(2, 0, integers(&[[0, 1000], [5000, 1000], [5000, 4000]], 1e-9));
    cell.add(Path { path_type: Some(PathType::Round), width: Some(Coordinate::double(0.1803, 1e-6)), ..wire });
    let text = Text::new(63, 0, "VDD", Point::double(1.0, 1.0, 1e-6));
    cell.add(Text { vertical: Vertical::Middle, horizontal: Horizontal::Centre, ..text }).property(1, "power");
    cell.add(GdsBox::new(235, 0, Point::double(0.0, 0.0, 1e-6), Point::double(6.0002, 4.0, 1e-6))).flags(flag::TEMPLATE);
    cell
}

/// Named L, with a user unit of a thousandth: an empty cell B, and A with the array of it.
fn library() -> Library {
    let mut library = Library::new("L", 0.001);
    library.add(Cell::new("B"));
    library.add(array());
    library
}

// ---- writing

fn hex(bytes: &[u8]) -> String {
    bytes.iter().map(|byte| format!("{byte:02x}")).collect()
}

fn print(what: &str, bytes: &[u8], report: &[u8], accepted: Accepted, entries: impl Iterator<Item = Entry>) {
    let word = if accepted.entries == 1 { "entry" } else { "entries" };
    println!("{what}: {} bytes, {} report {word}, greatest error {:?}", accepted.length, accepted.entries, accepted.greatest);
    println!("{}", hex(bytes));
    println!("{}", hex(report));
    entries.for_each(|entry| println!("{entry}"));
}

fn write_cell(what: &str, sheet: &[u8], policy: Policy, d: f64) {
    match ravenvanity::written(policy, d, sheet) {
        Ok((structure, report, accepted)) => print(what, &structure, &report, accepted, entries(&report)),
        Err(refusal) => println!("{what}: {refusal}"),
    }
}

fn write_library(what: &str, sheet: &[u8], policy: Policy, d: f64) {
    match ravenvanity::library_written(policy, d, sheet) {
        Ok((file, report, accepted)) => print(what, &file, &report, accepted, library_entries(&report)),
        Err(refusal) => println!("{what}: {refusal}"),
    }
}

/// Into an output that lacks a byte, as a caller who lends buffers of their own may.
fn write_cell_short(what: &str, sheet: &[u8], policy: Policy, d: f64) -> Result<(), ravenvanity::Refusal> {
    let accepted = ravenvanity::measure_cell(policy, d, sheet)?;
    let mut out = vec![0; accepted.length - 1];
    let mut report = vec![0; accepted.entries * ravenvanity::ENTRY_LENGTH];
    match ravenvanity::write_cell(policy, d, sheet, &mut out, &mut report) {
        Err(refused) if refused.number == refusal::OUTPUT_SHORT => println!("{what}: {refused}"),
        answer => println!("{what}: {answer:?}"),
    }
    Ok(())
}

// ---- lengths within bounds, and the pitch survey

fn print_bounds(what: &str, lower: f64, upper: f64) {
    match ravenvanity::convert_bounds(Policy::Nearest, 1.0, lower, upper) {
        Ok(range) => println!("{what}: {} to {}", range.least, range.greatest),
        Err(refusal) => println!("{what}: {refusal}"),
    }
}

fn print_survey(what: &str, pitch: f64, n: u32) {
    match ravenvanity::survey_pitch(Policy::Nearest, 1.0, pitch, n) {
        Ok(counts) => println!("{what}: {} clean, {} due, {} refused", counts.clean, counts.due, counts.refused),
        Err(refusal) => println!("{what}: {refusal}"),
    }
}

fn main() -> Result<(), Box<dyn Error>> {
    let sheet = array().sheet()?;
    write_cell("array", &sheet, Policy::Nearest, 1.0);
    write_cell_short("a byte less", &sheet, Policy::Nearest, 1.0)?;

    let sheet = shapes().sheet()?;
    write_cell("shapes", &sheet, Policy::Nearest, 1e-9);
    write_cell("shapes, strict", &sheet, Policy::Strict, 1e-9);

    let sheet = library().sheet()?;
    write_library("library", &sheet, Policy::Nearest, 1.0);
    write_library("library, strict", &sheet, Policy::Strict, 1.0);
    write_library("half of the library's sheet", &sheet[..sheet.len() / 2], Policy::Nearest, 1.0);

    print_bounds("10.25 to 10.75", 10.25, 10.75);
    print_bounds("10.75 to 10.25", 10.75, 10.25);
    print_survey("4 places of 10.5", 10.5, 4);
    print_survey("0 places of 10.5", 10.5, 0);
    Ok(())
}
