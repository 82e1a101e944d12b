//! The proved GDSII writer of cells and libraries, lengths within bounds and the pitch survey, for Rust. Document 01 has the
//! cell sheet, the refusals and the report entry, document 02 the library sheet, the sign of an entry's error, boxes, flags and
//! plex numbers, the manual's limits of text types and properties, the bounds and the survey (its requests 1, 2, 3, 5, 6, 11 and
//! 12). docs/FORMAT.md has both sheets, what is written and the report entries byte by byte. `ravenvanity_sheet.rs` makes sheets,
//! and `ravenvanity_report.rs` reads reports and tells refusals in words; neither is proved. The borrow checker sees to what the
//! C interface asks: no null pointer and no overlap.
#![allow(dead_code)] // a program uses what it needs of this

/// The bytes of one report entry.
pub const ENTRY_LENGTH: usize = 33;

/// The bytes of one entry of a library's report: the cell's number in four, then the cell's own entry.
pub const LIBRARY_ENTRY_LENGTH: usize = 37;

/// The most bytes of a sheet.
pub const MAX_SHEET: usize = 16_777_216;

/// The most places of a pitch survey.
pub const MAX_PLACES: u32 = 65_536;

/// What stands for no cell where a library is refused outside its cells.
const NO_CELL: usize = 4_294_967_295;

/// How values are brought to the grid. The functions take one of these or its number.
#[derive(Clone, Copy, Debug, PartialEq, Eq)]
#[repr(u8)]
pub enum Policy {
    Nearest = 0,
    Floor = 1,
    Ceiling = 2,
    Strict = 3,
}

impl From<Policy> for u8 {
    fn from(policy: Policy) -> u8 {
        policy as u8
    }
}

/// The numbers of refusals, named as in crates/refusal.
pub mod refusal {
    pub const POLICY: u8 = 1;
    pub const DATABASE_UNIT: u8 = 2;
    pub const SHEET_SIZE: u8 = 3;
    pub const PAIRS: u8 = 4;
    pub const FORM: u8 = 5;
    pub const STAMP: u8 = 6;
    pub const NAME: u8 = 7;
    pub const POINT_COUNT: u8 = 8;
    pub const LAYER_OR_TYPE: u8 = 9;
    pub const STRING_LENGTH: u8 = 10;
    pub const COLUMNS_OR_ROWS: u8 = 11;
    pub const SPACING: u8 = 12;
    pub const MAGNIFICATION: u8 = 13;
    pub const REAL: u8 = 14;
    pub const SINE_OR_COSINE: u8 = 15;
    pub const SOURCE_UNIT: u8 = 16;
    pub const NOT_FINITE: u8 = 17;
    pub const OFF_GRID: u8 = 18;
    pub const OUT_OF_RANGE: u8 = 19;
    pub const NOT_CLOSED: u8 = 20;
    pub const OUTPUT_SHORT: u8 = 21;
    pub const REPORT_SHORT: u8 = 22;
    pub const LIBRARY_FORM: u8 = 23;
    pub const LIBRARY_UNITS: u8 = 24;
    pub const LIBRARY_NAME: u8 = 25;
    pub const FLAGS: u8 = 26;
    pub const ATTRIBUTE: u8 = 27;
    pub const BOUNDS: u8 = 32;
    pub const SURVEY_COUNT: u8 = 33;
}

/// The kinds of elements, on sheets and in report entries. On a sheet the kind is raised by `WITH_FLAGS` where flags follow it
/// and by `WITH_PLEX` where a plex number does; a report entry has it without.
pub mod kind {
    pub const POLYGON: u8 = 1;
    pub const PATH: u8 = 2;
    pub const TEXT: u8 = 3;
    pub const NODE: u8 = 4;
    pub const REFERENCE: u8 = 5;
    pub const BOX: u8 = 6;
    pub const WITH_FLAGS: u8 = 16;
    pub const WITH_PLEX: u8 = 32;
}

/// A refusal's number, one of those in `refusal`, and the block it is about (0 if none).
#[derive(Clone, Copy, Debug, PartialEq, Eq)]
pub struct Refusal {
    pub number: u8,
    pub block: usize,
}

/// The number of a library's refusal, and the cell, counted from 0, and block it is about: none and 0 outside a cell.
#[derive(Clone, Copy, Debug, PartialEq, Eq)]
pub struct LibraryRefusal {
    pub number: u8,
    pub cell: Option<usize>,
    pub block: usize,
}

/// What an accepted cell or library takes.
#[derive(Clone, Copy, Debug, PartialEq)]
pub struct Accepted {
    /// Bytes of the structure or the file.
    pub length: usize,
    /// Entries of the report, `ENTRY_LENGTH` or `LIBRARY_ENTRY_LENGTH` bytes each.
    pub entries: usize,
    /// The greatest error, without a sign; 0 if none.
    pub greatest: f64,
}

/// The least and the greatest database value of a range.
#[derive(Clone, Copy, Debug, PartialEq, Eq)]
pub struct Range {
    pub least: i32,
    pub greatest: i32,
}

/// How many places of a row are converted with no report entry due, are converted with one due, and are refused.
#[derive(Clone, Copy, Debug, PartialEq, Eq)]
pub struct Counts {
    pub clean: u32,
    pub due: u32,
    pub refused: u32,
}

unsafe extern "C" {
    fn ravenvanity_measure_cell(
        sheet: *const u8,
        sheet_length: usize,
        block: &mut usize,
        length: &mut usize,
        entries: &mut usize,
        greatest: &mut f64,
        policy: u8,
        d: f64,
    ) -> u8;
    fn ravenvanity_write_cell(
        sheet: *const u8,
        sheet_length: usize,
        out: *mut u8,
        out_length: usize,
        report: *mut u8,
        report_length: usize,
        block: &mut usize,
        length: &mut usize,
        entries: &mut usize,
        greatest: &mut f64,
        policy: u8,
        d: f64,
    ) -> u8;
    fn ravenvanity_measure_library(
        sheet: *const u8,
        sheet_length: usize,
        cell: &mut usize,
        block: &mut usize,
        length: &mut usize,
        entries: &mut usize,
        greatest: &mut f64,
        policy: u8,
        d: f64,
    ) -> u8;
    fn ravenvanity_write_library(
        sheet: *const u8,
        sheet_length: usize,
        out: *mut u8,
        out_length: usize,
        report: *mut u8,
        report_length: usize,
        cell: &mut usize,
        block: &mut usize,
        length: &mut usize,
        entries: &mut usize,
        greatest: &mut f64,
        policy: u8,
        d: f64,
    ) -> u8;
    fn ravenvanity_convert_bounds(least: &mut i32, greatest: &mut i32, policy: u8, d: f64, lower: f64, upper: f64) -> u8;
    fn ravenvanity_survey_pitch(clean: &mut u32, due: &mut u32, refused: &mut u32, policy: u8, d: f64, pitch: f64, n: u32) -> u8;
}

fn answer(number: u8, block: usize, accepted: Accepted) -> Result<Accepted, Refusal> {
    if number == 0 { Ok(accepted) } else { Err(Refusal { number, block }) }
}

/// What writing the sheet's cell takes.
pub fn measure_cell(policy: impl Into<u8>, d: f64, sheet: &[u8]) -> Result<Accepted, Refusal> {
    let policy = policy.into();
    let mut block = 0;
    let mut to = Accepted { length: 0, entries: 0, greatest: 0.0 };
    // SAFETY: each pointer is of a live reference or slice, with the slice's length, and none overlap.
    let number = unsafe {
        ravenvanity_measure_cell(
            sheet.as_ptr(),
            sheet.len(),
            &mut block,
            &mut to.length,
            &mut to.entries,
            &mut to.greatest,
            policy,
            d,
        )
    };
    answer(number, block, to)
}

/// Writes the structure to the start of `out` and the entries to the start of `report`; the bytes after them stay, and
/// in a refusal all bytes of both.
pub fn write_cell(policy: impl Into<u8>, d: f64, sheet: &[u8], out: &mut [u8], report: &mut [u8]) -> Result<Accepted, Refusal> {
    let policy = policy.into();
    let mut block = 0;
    let mut to = Accepted { length: 0, entries: 0, greatest: 0.0 };
    // SAFETY: as above; the two buffers are lent alone.
    let number = unsafe {
        ravenvanity_write_cell(
            sheet.as_ptr(),
            sheet.len(),
            out.as_mut_ptr(),
            out.len(),
            report.as_mut_ptr(),
            report.len(),
            &mut block,
            &mut to.length,
            &mut to.entries,
            &mut to.greatest,
            policy,
            d,
        )
    };
    answer(number, block, to)
}

/// Measures, takes the memory, and writes: the structure, the entries and what they took.
pub fn written(policy: impl Into<u8>, d: f64, sheet: &[u8]) -> Result<(Vec<u8>, Vec<u8>, Accepted), Refusal> {
    let policy = policy.into();
    let accepted = measure_cell(policy, d, sheet)?;
    let mut out = vec![0; accepted.length];
    let mut report = vec![0; accepted.entries * ENTRY_LENGTH];
    write_cell(policy, d, sheet, &mut out, &mut report)?;
    Ok((out, report, accepted))
}

fn library_answer(number: u8, place: [usize; 2], accepted: Accepted) -> Result<Accepted, LibraryRefusal> {
    let [cell, block] = place;
    let cell = if cell == NO_CELL { None } else { Some(cell) };
    if number == 0 { Ok(accepted) } else { Err(LibraryRefusal { number, cell, block }) }
}

/// What writing the library takes. Block 0 of its sheet holds the name, the user unit and the stamps, every further block is
/// a cell sheet.
pub fn measure_library(policy: impl Into<u8>, d: f64, sheet: &[u8]) -> Result<Accepted, LibraryRefusal> {
    let policy = policy.into();
    let (mut cell, mut block) = (0, 0);
    let mut to = Accepted { length: 0, entries: 0, greatest: 0.0 };
    // SAFETY: each pointer is of a live reference or slice, with the slice's length, and none overlap.
    let number = unsafe {
        ravenvanity_measure_library(
            sheet.as_ptr(),
            sheet.len(),
            &mut cell,
            &mut block,
            &mut to.length,
            &mut to.entries,
            &mut to.greatest,
            policy,
            d,
        )
    };
    library_answer(number, [cell, block], to)
}

/// Writes the file, from HEADER to ENDLIB, to the start of `out` and the entries to the start of `report`; the bytes after them
/// stay, and in a refusal all bytes of both.
pub fn write_library(
    policy: impl Into<u8>,
    d: f64,
    sheet: &[u8],
    out: &mut [u8],
    report: &mut [u8],
) -> Result<Accepted, LibraryRefusal> {
    let policy = policy.into();
    let (mut cell, mut block) = (0, 0);
    let mut to = Accepted { length: 0, entries: 0, greatest: 0.0 };
    // SAFETY: as above; the two buffers are lent alone.
    let number = unsafe {
        ravenvanity_write_library(
            sheet.as_ptr(),
            sheet.len(),
            out.as_mut_ptr(),
            out.len(),
            report.as_mut_ptr(),
            report.len(),
            &mut cell,
            &mut block,
            &mut to.length,
            &mut to.entries,
            &mut to.greatest,
            policy,
            d,
        )
    };
    library_answer(number, [cell, block], to)
}

/// Measures, takes the memory, and writes: the file, the entries and what they took.
pub fn library_written(policy: impl Into<u8>, d: f64, sheet: &[u8]) -> Result<(Vec<u8>, Vec<u8>, Accepted), LibraryRefusal> {
    let policy = policy.into();
    let accepted = measure_library(policy, d, sheet)?;
    let mut out = vec![0; accepted.length];
    let mut report = vec![0; accepted.entries * LIBRARY_ENTRY_LENGTH];
    write_library(policy, d, sheet, &mut out, &mut report)?;
    Ok((out, report, accepted))
}

/// The least and the greatest database value over all doubles from `lower` to `upper`, both included, in physical units.
/// Both are the value of some double in the range, and no double in it is refused. Refusals: 1, 2, 17, 18, 19, and 32 where
/// the lower end is above the upper or the policy is strict and the ends are not equal.
pub fn convert_bounds(policy: impl Into<u8>, d: f64, lower: f64, upper: f64) -> Result<Range, Refusal> {
    let policy = policy.into();
    let mut range = Range { least: 0, greatest: 0 };
    // SAFETY: both pointers are of live fields, which do not overlap.
    let number = unsafe { ravenvanity_convert_bounds(&mut range.least, &mut range.greatest, policy, d, lower, upper) };
    if number == 0 { Ok(range) } else { Err(Refusal { number, block: 0 }) }
}

/// How many places of a row a pitch disturbs: place i, from 0 to n - 1, is i times the pitch, one product of doubles. The
/// three counts make n. Refusals: 1, 2, 33 where n is not 1 to 65,536, and 17 where the pitch is not finite.
pub fn survey_pitch(policy: impl Into<u8>, d: f64, pitch: f64, n: u32) -> Result<Counts, Refusal> {
    let policy = policy.into();
    let mut counts = Counts { clean: 0, due: 0, refused: 0 };
    // SAFETY: the pointers are of live fields, which do not overlap.
    let number =
        unsafe { ravenvanity_survey_pitch(&mut counts.clean, &mut counts.due, &mut counts.refused, policy, d, pitch, n) };
    if number == 0 { Ok(counts) } else { Err(Refusal { number, block: 0 }) }
}
