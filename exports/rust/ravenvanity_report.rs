//! Refusals in words, and report entries one by one. A convenience, outside the proof; docs/FORMAT.md, sections 6 and 7, has both.
//!
//! ```ignore
//! match ravenvanity::written(Policy::Nearest, 1e-9, &sheet) {
//!     Ok((structure, report, _)) => entries(&report).for_each(|entry| println!("{entry}")),
//!     Err(refusal) => println!("{refusal}"),
//! }
//! ```
#![allow(dead_code)] // a program uses what it needs of this

use super::ravenvanity::{ENTRY_LENGTH, LIBRARY_ENTRY_LENGTH, LibraryRefusal, Refusal, kind, refusal};
use std::fmt;

/// What a refusal means, by its number.
#[rustfmt::skip] // a line for each
pub fn refusal_words(number: u8) -> &'static str {
    match number {
        refusal::POLICY => "the policy is above 3",
        refusal::DATABASE_UNIT => "the database unit d is not finite and positive",
        refusal::SHEET_SIZE => "the sheet is over 16,777,216 bytes",
        refusal::PAIRS => "the pairs are ill-formed: count outside 1 to 16,384, a pair missing, an offset that is not where the block before ends, a length of 0, or a last block that does not end with the sheet",
        refusal::FORM => "the block is ill-formed: too short, too long, a code that is unknown (element kind, coordinate kind, path type, presentation, reflection), an integer whose four upper bytes are not zero, a coordinate absent where it may not be, or absent but not zero bytes",
        refusal::STAMP => "a stamp is no date and time of the years 1 to 9999, and the twelve numbers are not all zero",
        refusal::NAME => "a structure name is not 1 to 32 of A-Z a-z 0-9 _ ? $: in block 0 the cell's own, else the called one",
        refusal::POINT_COUNT => "the point count: a polygon has 4 to 8,191, a path 2 to 8,191, a node 1 to 50",
        refusal::LAYER_OR_TYPE => "a layer or type is above 255",
        refusal::STRING_LENGTH => "a string is too long: a text has at most 512 bytes, a property value at most 126",
        refusal::COLUMNS_OR_ROWS => "columns or rows are outside 1 to 32,767",
        refusal::SPACING => "more than one column without a column spacing, or more than one row without a row spacing",
        refusal::MAGNIFICATION => "the magnification is 0 or below (minus infinity is 14)",
        refusal::REAL => "magnification or degrees are not finite, or no eight-byte real equals them: below 2^-260 in size and not 0, or from 2^252",
        refusal::SINE_OR_COSINE => "an array's sine or cosine is not within -1 to 1",
        refusal::SOURCE_UNIT => "a coordinate's unit is not finite and positive",
        refusal::NOT_FINITE => "a physical value, or its quotient by d, is not finite",
        refusal::OFF_GRID => "a value is off the grid and the policy is strict",
        refusal::OUT_OF_RANGE => "a database value is beyond signed 32 bits",
        refusal::NOT_CLOSED => "a polygon's first and last point differ after conversion",
        refusal::OUTPUT_SHORT => "the output is too short for what is to be written",
        refusal::REPORT_SHORT => "the report is too short for the entries, 33 bytes each, of a library 37",
        refusal::LIBRARY_FORM => "the library's pairs are ill-formed, as a cell's in 4, or its block 0 is not a name, a user unit and twelve stamp numbers and no byte more",
        refusal::LIBRARY_UNITS => "the user unit is not finite and positive, or no eight-byte real equals it or d: below 2^-260, or from 2^252",
        refusal::LIBRARY_NAME => "the library's name is over 65,530 bytes",
        refusal::FLAGS => "an element's flags are above 3",
        refusal::ATTRIBUTE => "a property's attribute is outside 1 to 127",
        refusal::BOUNDS => "the lower end is above the upper, or the policy is strict and the ends are not equal",
        refusal::SURVEY_COUNT => "the number of places is not 1 to 65,536",
        _ => "no refusal",
    }
}

/// The number, where it stands if it stands anywhere, and the words. Block 0 is told where it is the head.
fn tell(f: &mut fmt::Formatter, number: u8, cell: Option<usize>, block: Option<usize>) -> fmt::Result {
    write!(f, "refusal {number}")?;
    if let Some(cell) = cell {
        write!(f, ", cell {cell}")?;
    }
    let of_head = matches!(number, refusal::FORM | refusal::STAMP | refusal::NAME);
    if let Some(block) = block.filter(|block| *block > 0 || of_head) {
        write!(f, ", block {block}")?;
    }
    write!(f, ": {}", refusal_words(number))
}

impl fmt::Display for Refusal {
    fn fmt(&self, f: &mut fmt::Formatter) -> fmt::Result {
        tell(f, self.number, None, Some(self.block))
    }
}

impl fmt::Display for LibraryRefusal {
    fn fmt(&self, f: &mut fmt::Formatter) -> fmt::Result {
        tell(f, self.number, self.cell, self.cell.map(|_| self.block))
    }
}

impl std::error::Error for Refusal {}

impl std::error::Error for LibraryRefusal {}

/// The fields of a report entry.
pub mod field {
    pub const POINT: u8 = 0;
    pub const WIDTH: u8 = 1;
    pub const BEGIN_EXTENSION: u8 = 2;
    pub const END_EXTENSION: u8 = 3;
    pub const ORIGIN: u8 = 4;
    /// Turned.
    pub const COLUMN_SPACING: u8 = 5;
    /// Turned.
    pub const ROW_SPACING: u8 = 6;
    /// The far corner after all columns.
    pub const COLUMN_ENDPOINT: u8 = 7;
    /// The far corner after all rows.
    pub const ROW_ENDPOINT: u8 = 8;
}

/// The axes of a report entry.
pub mod axis {
    pub const X: u8 = 0;
    pub const Y: u8 = 1;
    pub const NONE: u8 = 2;
}

pub fn kind_name(number: u8) -> &'static str {
    match number {
        kind::POLYGON => "polygon",
        kind::PATH => "path",
        kind::TEXT => "text",
        kind::NODE => "node",
        kind::REFERENCE => "reference",
        kind::BOX => "box",
        _ => "unknown kind",
    }
}

pub fn field_name(number: u8) -> &'static str {
    match number {
        field::POINT => "point",
        field::WIDTH => "width",
        field::BEGIN_EXTENSION => "begin extension",
        field::END_EXTENSION => "end extension",
        field::ORIGIN => "origin",
        field::COLUMN_SPACING => "turned column spacing",
        field::ROW_SPACING => "turned row spacing",
        field::COLUMN_ENDPOINT => "column endpoint",
        field::ROW_ENDPOINT => "row endpoint",
        _ => "unknown field",
    }
}

/// Empty where there is none.
pub fn axis_name(number: u8) -> &'static str {
    match number {
        axis::X => "x",
        axis::Y => "y",
        axis::NONE => "",
        _ => "unknown axis",
    }
}

/// What was rounded in one element: of the values that count the one whose error is the largest in magnitude.
#[derive(Clone, Copy, Debug, PartialEq)]
pub struct Entry {
    /// Of a library: the cell's number, from 0.
    pub cell: Option<usize>,
    /// The element's, from 0: its block's number less 1.
    pub index: u32,
    /// One of those in `ravenvanity::kind`, not raised by flags or a plex number.
    pub kind: u8,
    /// One of those in `field`.
    pub field: u8,
    /// One of those in `axis`.
    pub axis: u8,
    /// Of a point its place in its list, of a box among its five points, from 0; else 0.
    pub place: u16,
    /// How many values of the element count, those of a box's corners in each point where they stand.
    pub affected: u32,
    /// p
    pub physical: f64,
    /// q
    pub database: i32,
    /// q * d - p with its sign: above 0 where the database value lies above; never 0, may be infinite.
    pub error: f64,
}

impl Entry {
    /// On which side of the physical value the database value lies: `above` where the error is above 0, `below` where it is
    /// below 0, and `unknown side` where it is 0 or a NaN, which the proved writer never gives.
    pub fn side(&self) -> &'static str {
        if self.error > 0.0 {
            "above"
        } else if self.error < 0.0 {
            "below"
        } else {
            "unknown side"
        }
    }
}

impl fmt::Display for Entry {
    fn fmt(&self, f: &mut fmt::Formatter) -> fmt::Result {
        if let Some(cell) = self.cell {
            write!(f, "cell {cell}, ")?;
        }
        let values = if self.affected == 1 { "value" } else { "values" };
        write!(f, "element {} ({}): {} {values} affected, ", self.index, kind_name(self.kind), self.affected)?;
        write!(f, "worst {}", field_name(self.field))?;
        if self.field == field::POINT {
            write!(f, " {}", self.place)?;
        }
        if self.axis != axis::NONE {
            write!(f, " {}", axis_name(self.axis))?;
        }
        write!(f, ": p {:?}, q {}, error {:?} {}", self.physical, self.database, self.error.abs(), self.side())
    }
}

/// The bytes of `entry` from `at` on.
fn part<const N: usize>(entry: &[u8], at: usize) -> [u8; N] {
    std::array::from_fn(|k| entry[at + k])
}

/// The entry of these `ENTRY_LENGTH` bytes.
fn entry_of(bytes: &[u8]) -> Entry {
    Entry {
        cell: None,
        index: u32::from_be_bytes(part(bytes, 0)),
        kind: bytes[4],
        field: bytes[5],
        axis: bytes[6],
        place: u16::from_be_bytes(part(bytes, 7)),
        affected: u32::from_be_bytes(part(bytes, 9)),
        physical: f64::from_be_bytes(part(bytes, 13)),
        database: i32::from_be_bytes(part(bytes, 21)),
        error: f64::from_be_bytes(part(bytes, 25)),
    }
}

/// The entries of a cell's report. Bytes at its end that are no whole entry are passed over.
pub fn entries(report: &[u8]) -> impl Iterator<Item = Entry> + '_ {
    report.chunks_exact(ENTRY_LENGTH).map(entry_of)
}

/// The entries of a library's report, in the same way.
pub fn library_entries(report: &[u8]) -> impl Iterator<Item = Entry> + '_ {
    report.chunks_exact(LIBRARY_ENTRY_LENGTH).map(|bytes| {
        let (cell, own) = bytes.split_at(LIBRARY_ENTRY_LENGTH - ENTRY_LENGTH);
        Entry { cell: Some(u32::from_be_bytes(part(cell, 0)) as usize), ..entry_of(own) }
    })
}
