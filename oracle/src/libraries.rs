//! Times of gdsr (one thread, report on) and of the proved writer on the same libraries, in one run: see docs/BENCHMARK.md.
//! gdsr is timed from its library in memory to the file and the report, both in memory (`write_library_with_options`), the
//! proved writer from the sheet to the same. gdsr sorts cells and entries by name; the names stand in that order.
#[allow(dead_code)]
mod answer;
mod call;
#[allow(dead_code)]
mod layout;
#[allow(dead_code)]
mod random;
#[cfg(proved)]
#[path = "../../exports/rust/ravenvanity.rs"]
#[allow(dead_code)]
mod ravenvanity;
#[allow(dead_code)]
mod sheet;
#[allow(dead_code)]
mod side;
#[allow(dead_code)]
mod timing;

use answer::{GdsrCell, GdsrLibrary};
use layout::{D, filled, integer, micrometres, mixed_element, nanometres, off_grid, small_polygon};
use random::Random;
use sheet::{Element, Head, LibraryHead};
use std::hint::black_box;
use timing::{ROUNDS, time};

// ---- the libraries

struct Given {
    library: GdsrLibrary,
    sheet: Vec<u8>,
    cells: usize,
}

fn cell(number: usize, elements: &[Element]) -> (GdsrCell, Vec<u8>) {
    let head = Head { name: format!("C{number:05}").into_bytes(), stamps: [0; 12] };
    let mut blocks = vec![sheet::head_block(&head)];
    blocks.extend(elements.iter().map(sheet::element_block));
    let mut pairs = answer::Pairs::default();
    let elements = elements.iter().map(|element| answer::gdsr_element(element, &mut pairs).expect("an angle")).collect();
    (answer::gdsr_cell(&head, elements).expect("stamps"), sheet::sheet_of(&blocks))
}

fn given(cells: impl ExactSizeIterator<Item = Vec<Element>>) -> Given {
    let head = LibraryHead { name: b"LIBRARY".to_vec(), user_unit: 1e-3, stamps: [0; 12] };
    let count = cells.len();
    let (mut of_gdsr, mut blocks) = (Vec::new(), vec![sheet::library_head_block(&head)]);
    for (number, elements) in cells.enumerate() {
        let (cell, block) = cell(number, &elements);
        of_gdsr.push(cell);
        blocks.push(block);
    }
    let library = answer::gdsr_library(&head, of_gdsr).expect("stamps");
    Given { library, sheet: sheet::sheet_of(&blocks), cells: count }
}

/// So many cells that share the greatest sheet.
fn shared(count: usize, mut element: impl FnMut(usize) -> Element) -> Given {
    let head = 2 + 7 + 8 + 24;
    let share = (sheet::MAX_SHEET - 4 - 8 * (1 + count) - head) / count;
    given((0..count).map(|_| filled(share, &mut element)))
}

/// So many cells of 4 polygons each: the most pairs that a sheet has leave room for no more.
fn of_one_size(random: &mut Random, count: usize) -> Given {
    given((0..count).map(|_| (0..4).map(|_| small_polygon(random, off_grid)).collect()))
}

// ---- the two writers

fn by_gdsr(given: &Given) {
    black_box(black_box(&given.library).write(D, 0)).expect("accepted");
}

#[cfg(proved)]
mod proved {
    use super::*;

    pub struct Room {
        pub out: Vec<u8>,
        pub report: Vec<u8>,
        pub greatest: f64,
    }

    pub fn room(given: &Given) -> Room {
        let accepted = ravenvanity::measure_library(0, D, &given.sheet).expect("accepted");
        let report = vec![0; accepted.entries * ravenvanity::LIBRARY_ENTRY_LENGTH];
        Room { out: vec![0; accepted.length], report, greatest: 0.0 }
    }

    /// As a user does: measures, takes the memory, and writes.
    pub fn measure_and_write(given: &Given) {
        black_box(ravenvanity::library_written(0, D, black_box(&given.sheet))).expect("accepted");
    }

    pub fn write(given: &Given, room: &mut Room) {
        let answer = ravenvanity::write_library(0, D, black_box(&given.sheet), &mut room.out, &mut room.report);
        room.greatest = black_box(answer).expect("accepted").greatest;
    }

    pub fn measure(given: &Given) {
        black_box(ravenvanity::measure_library(0, D, black_box(&given.sheet))).expect("accepted");
    }

    /// The two write the same, gdsr's errors with their signs.
    pub fn check(given: &Given, room: &Room) {
        let Ok(answer::Answer::Accepted { bytes, entries, greatest }) = given.library.answer(D, 0) else {
            panic!("gdsr refuses a library of the benchmark");
        };
        let same = bytes == room.out && entries == room.report && greatest == room.greatest.to_bits();
        assert!(same, "the two writers differ");
    }
}

// ---- timing

#[cfg(proved)]
fn compare(what: &str, given: &Given) {
    let mut room = proved::room(given);
    proved::write(given, &mut room);
    proved::check(given, &room);
    let times = time(&mut [
        &mut || by_gdsr(given),
        &mut || proved::measure_and_write(given),
        &mut || proved::write(given, &mut room),
        &mut || proved::measure(given),
    ]);
    let (bytes, entries) = (given.sheet.len(), room.report.len() / ravenvanity::LIBRARY_ENTRY_LENGTH);
    println!("{what}, {} cells: sheet of {bytes} bytes, file of {}, {entries} entries", given.cells, room.out.len());
    for (name, at) in [("gdsr", 0), ("proved, measured first", 1), ("proved", 2)] {
        let each = times[at].least() * 1e3 / given.cells as f64;
        println!("  {name:23} {} ms; the least is {each:.2} µs for a cell", times[at].shown());
    }
    println!("  {:23} {} ms", "of that, measuring", times[3].shown());
    let [first, alone] = [1, 2].map(|at| times[at].least() / times[0].least());
    println!("  measured first to gdsr {}; least to least {first:.2}", times[1].ratio_to(&times[0]));
    println!("  proved to gdsr         {}; least to least {alone:.2}", times[2].ratio_to(&times[0]));
}

#[cfg(not(proved))]
fn compare(what: &str, given: &Given) {
    let times = time(&mut [&mut || by_gdsr(given)]);
    println!("{what}, {} cells: sheet of {} bytes", given.cells, given.sheet.len());
    println!("  gdsr {} ms, the least {:.3}", times[0].shown(), times[0].least());
}

fn main() {
    call::no_words("libraries");
    let mut random = Random::of_case(1, 0);
    println!("milliseconds of one call: the median of {ROUNDS} rounds, with the least and the greatest");
    compare("polygons of 5 points, doubles off the grid", &shared(1_000, |_| small_polygon(&mut random, off_grid)));
    compare("polygons of 5 points, whole nanometres in micrometres", &shared(1_000, |_| small_polygon(&mut random, micrometres)));
    compare("polygons of 5 points, whole nanometres as doubles", &shared(1_000, |_| small_polygon(&mut random, nanometres)));
    compare("polygons of 5 points, integers", &shared(1_000, |_| small_polygon(&mut random, integer)));
    compare("mixed elements", &shared(1_000, |at| mixed_element(&mut random, at)));
    for count in [125, 250, 500, 1_000, 16_383] {
        compare("4 polygons of 5 points each", &of_one_size(&mut random, count));
    }
}
