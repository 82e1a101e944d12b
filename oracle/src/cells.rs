//! Times of gdsr (one thread, report on) and of the proved writer on the same cells, in one run: see docs/BENCHMARK.md.
//! gdsr is timed from its cell in memory to bytes and report, the proved writer from the sheet to bytes and report.
#[allow(dead_code)]
mod answer;
mod call;
#[allow(dead_code)]
mod layout;
#[allow(dead_code)]
mod random;
#[cfg(proved)]
#[path = "../../exports/rust/ravenvanity.rs"]
#[allow(dead_code)]
mod ravenvanity;
#[allow(dead_code)]
mod sheet;
#[allow(dead_code)]
mod side;
#[allow(dead_code)]
mod timing;

use answer::GdsrCell;
use layout::{
    D, far_off_grid, filled, gds_box, integer, long_polygon, mixed_element, nanometres, off_grid, small_polygon, text,
    turned_array,
};
use random::Random;
use sheet::{Coordinate, Element, Head, Options};
use std::hint::black_box;
use timing::{ROUNDS, time};

// ---- the cells

struct Given {
    cell: GdsrCell,
    sheet: Vec<u8>,
}

fn given(elements: &[Element]) -> Given {
    let head = Head { name: b"TOP".to_vec(), stamps: [0; 12] };
    let mut blocks = vec![sheet::head_block(&head)];
    blocks.extend(elements.iter().map(sheet::element_block));
    let mut pairs = answer::Pairs::default();
    let elements = elements.iter().map(|element| answer::gdsr_element(element, &mut pairs).expect("an angle")).collect();
    Given { cell: answer::gdsr_cell(&head, elements).expect("stamps"), sheet: sheet::sheet_of(&blocks) }
}

// ---- the two writers

fn by_gdsr(given: &Given) {
    let cell = black_box(&given.cell);
    black_box(gdsr::write_one_cell(&cell.cell, D, answer::policy_of(0), cell.timestamps)).expect("accepted");
}

fn by_gdsr_without_report(given: &Given) {
    let cell = black_box(&given.cell);
    black_box(gdsr::write_one_cell_without_report(&cell.cell, D, answer::policy_of(0), cell.timestamps)).expect("accepted");
}

#[cfg(proved)]
mod proved {
    use super::*;

    pub struct Room {
        pub out: Vec<u8>,
        pub report: Vec<u8>,
        pub greatest: f64,
    }

    pub fn room(given: &Given) -> Room {
        let accepted = ravenvanity::measure_cell(0, D, &given.sheet).expect("accepted");
        let report = vec![0; accepted.entries * ravenvanity::ENTRY_LENGTH];
        Room { out: vec![0; accepted.length], report, greatest: 0.0 }
    }

    pub fn write(given: &Given, room: &mut Room) {
        let answer = ravenvanity::write_cell(0, D, black_box(&given.sheet), &mut room.out, &mut room.report);
        room.greatest = black_box(answer).expect("accepted").greatest;
    }

    pub fn measure(given: &Given) {
        black_box(ravenvanity::measure_cell(0, D, black_box(&given.sheet))).expect("accepted");
    }

    /// The two write the same, gdsr's errors with their signs.
    pub fn check(given: &Given, room: &Room) {
        let answer::Answer::Accepted { bytes, entries, greatest } = answer::gdsr_answer(&given.cell, D, 0) else {
            panic!("gdsr refuses a cell of the benchmark");
        };
        let same = bytes == room.out && entries == room.report && greatest == room.greatest.to_bits();
        assert!(same, "the two writers differ");
    }
}

// ---- timing

#[cfg(proved)]
fn compare(what: &str, elements: &[Element]) {
    let given = given(elements);
    let mut room = proved::room(&given);
    proved::write(&given, &mut room);
    proved::check(&given, &room);
    let times = time(&mut [
        &mut || by_gdsr(&given),
        &mut || by_gdsr_without_report(&given),
        &mut || proved::write(&given, &mut room),
        &mut || proved::measure(&given),
    ]);
    let bytes = given.sheet.len();
    println!("{what}: sheet of {bytes} bytes, structure of {}, {} entries", room.out.len(), room.report.len() / 33);
    println!(
        "  gdsr                 {} ms, {:.2} ns for a byte of the sheet",
        times[0].shown(),
        times[0].nanoseconds_a_byte(bytes)
    );
    println!("  gdsr without report  {} ms", times[1].shown());
    println!(
        "  proved               {} ms, {:.2} ns for a byte of the sheet",
        times[2].shown(),
        times[2].nanoseconds_a_byte(bytes)
    );
    println!("  of that, measuring   {} ms", times[3].shown());
    println!("  proved to gdsr {}; to gdsr without report {}", times[2].ratio_to(&times[0]), times[2].ratio_to(&times[1]));
}

#[cfg(not(proved))]
fn compare(what: &str, elements: &[Element]) {
    let given = given(elements);
    let times = time(&mut [&mut || by_gdsr(&given), &mut || by_gdsr_without_report(&given)]);
    println!("{what}: sheet of {} bytes", given.sheet.len());
    println!("  gdsr                 {} ms", times[0].shown());
    println!("  gdsr without report  {} ms", times[1].shown());
}

fn main() {
    call::no_words("cells");
    let mut random = Random::of_case(1, 0);
    println!("milliseconds of one call: the median of {ROUNDS} rounds, with the least and the greatest");
    let mut long = |what: &str, coordinate: fn(&mut Random, usize) -> Coordinate| {
        compare(&format!("a polygon of 8,191 points, {what}"), &long_polygon(|number| coordinate(&mut random, number)));
    };
    long("doubles off the grid", |random, _| far_off_grid(random));
    long("doubles on the grid", |random, _| nanometres(random));
    long("integers in the database unit", |random, _| integer(random));
    long(
        "integers, from the middle on doubles off the grid",
        |random, number| {
            if number < 8191 { integer(random) } else { far_off_grid(random) }
        },
    );
    long(
        "integers and doubles off the grid in turn",
        |random, number| {
            if number % 2 == 0 { integer(random) } else { far_off_grid(random) }
        },
    );
    let small: Vec<Element> = (0..10_000).map(|_| small_polygon(&mut random, off_grid)).collect();
    compare("10,000 polygons of 5 points", &small);
    let boxes: Vec<Element> = (0..10_000).map(|_| gds_box(&mut random)).collect();
    compare("10,000 boxes, corners off the grid", &boxes);
    let both = Options { flags: Some(1), plex: Some(7) };
    let grouped: Vec<Element> = boxes.iter().map(|plain| Element { options: both, ..plain.clone() }).collect();
    compare("the same boxes with flags and a plex number, which gdsr is not given", &grouped);
    let arrays: Vec<Element> = (0..5_000).map(|_| turned_array(&mut random)).collect();
    compare("5,000 turned arrays", &arrays);
    let texts: Vec<Element> = (0..2_000).map(|_| text(&mut random)).collect();
    compare("2,000 texts with 3 properties each", &texts);
    for part in [8, 4, 2, 1] {
        let mixed = filled(sheet::MAX_SHEET / part, |at| mixed_element(&mut random, at));
        compare(&format!("mixed elements, 1/{part} of the greatest sheet"), &mixed);
    }
}
