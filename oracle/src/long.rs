//! Cells and libraries that are too long for a run of many: sheets about the greatest length, the pair count at its limits, and
//! the longest library names.
use crate::input::{Input, Job};
use crate::sheet::{self, Body, Coordinate, Element, Head, LibraryHead, MAX_SHEET, Options, Property};

fn head() -> Vec<u8> {
    sheet::head_block(&Head { name: b"A".to_vec(), stamps: [0; 12] })
}

fn library_head(length: usize) -> Vec<u8> {
    sheet::library_head_block(&LibraryHead { name: vec![b'L'; length], user_unit: 1.0, stamps: [0; 12] })
}

fn node(properties: Vec<Property>) -> Vec<u8> {
    let points = vec![[Coordinate::Double { value: 0.5, unit: 1.0 }; 2]];
    let body = Body::Shape { kind: 4, layer: 1, data_type: 1, points };
    sheet::element_block(&Element { options: Options::default(), body, properties })
}

fn property(length: usize) -> Property {
    Property { attribute: 127, value: vec![b'p'; length] }
}

fn cell(nodes: Vec<Vec<u8>>) -> Vec<u8> {
    sheet::sheet_of(&[vec![head()], nodes].concat())
}

fn input(job: Job, sheet: Vec<u8>) -> Input {
    Input { job, policy: 0, d: 1.0, sheet, damaged: false }
}

/// A cell of these nodes, or a library of this cell.
fn of_nodes(job: Job, nodes: Vec<Vec<u8>>) -> Input {
    let cell = cell(nodes);
    input(job, if job == Job::Cell { cell } else { sheet::sheet_of(&[library_head(1), cell]) })
}

/// So many pairs, of which the head has one.
fn of_pairs(job: Job, count: usize) -> Input {
    let (first, block) = if job == Job::Cell { (head(), node(vec![])) } else { (library_head(1), cell(vec![node(vec![])])) };
    let mut blocks = vec![block; count];
    blocks[0] = first;
    input(job, sheet::sheet_of(&blocks))
}

/// Properties that take so many bytes of a sheet, more than 130, each value as long as it may be but for the last two.
fn properties_of(mut bytes: usize) -> Vec<Property> {
    let mut properties = Vec::new();
    while bytes > 260 {
        properties.push(property(126));
        bytes -= 130;
    }
    properties.push(property(bytes / 2 - 4));
    properties.push(property(bytes - bytes / 2 - 4));
    properties
}

/// A sheet of so many bytes: three nodes, since one has at most 65,535 properties.
fn filled(job: Job, length: usize) -> Input {
    let nodes = |bytes| [bytes, 5_500_000, 5_500_000].map(|bytes| node(properties_of(bytes))).to_vec();
    let least = of_nodes(job, nodes(131)).sheet.len();
    of_nodes(job, nodes(131 + length - least))
}

/// A sheet of so many bytes: one node, whose values are longer than they may be.
fn filled_by_long_values(job: Job, length: usize) -> Input {
    let mut properties = vec![property(65_400); 255];
    properties.push(property(50_000));
    let short = of_nodes(job, vec![node(properties.clone())]).sheet.len();
    properties.push(property(length - short - 4));
    of_nodes(job, vec![node(properties)])
}

/// With what each is.
pub fn inputs() -> Vec<(String, Input)> {
    let mut inputs = Vec::new();
    for job in [Job::Cell, Job::Library] {
        for count in [16_383, 16_384, 16_385] {
            inputs.push((format!("{}: {count} pairs", job.several()), of_pairs(job, count)));
        }
        for length in [MAX_SHEET - 1, MAX_SHEET, MAX_SHEET + 1] {
            inputs.push((format!("{}: a sheet of {length} bytes", job.several()), filled(job, length)));
            let long = filled_by_long_values(job, length);
            inputs.push((format!("{}: a sheet of {length} bytes, values too long", job.several()), long));
        }
    }
    for length in [65_529, 65_530, 65_531, 65_535] {
        let sheet = sheet::sheet_of(&[library_head(length), cell(vec![node(properties_of(260))])]);
        inputs.push((format!("libraries: a name of {length} bytes"), input(Job::Library, sheet)));
    }
    inputs
}
