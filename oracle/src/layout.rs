//! The elements of the benchmarks.
use crate::random::Random;
use crate::sheet::{self, Body, Coordinate, Element, Options, Place, Property, Turn};

pub const D: f64 = 1e-9;
const MICRO: f64 = 1e-6;

fn within(random: &mut Random, reach: f64) -> Coordinate {
    Coordinate::Double { value: random.unit() * reach, unit: MICRO }
}

pub fn off_grid(random: &mut Random) -> Coordinate {
    within(random, 1e3)
}

/// The same of a greater layout.
pub fn far_off_grid(random: &mut Random) -> Coordinate {
    within(random, 1e5)
}

fn whole(random: &mut Random) -> i32 {
    random.below(2_000_001) as i32 - 1_000_000
}

/// Whole nanometres, given in micrometres: the quotient by d is at times two steps from them, and an entry due.
pub fn micrometres(random: &mut Random) -> Coordinate {
    Coordinate::Double { value: f64::from(whole(random)) / 1e3, unit: MICRO }
}

/// Whole nanometres, given in nanometres.
pub fn nanometres(random: &mut Random) -> Coordinate {
    Coordinate::Double { value: f64::from(whole(random)), unit: D }
}

pub fn integer(random: &mut Random) -> Coordinate {
    Coordinate::Integer { value: whole(random), unit: D }
}

fn closed(count: usize, mut coordinate: impl FnMut() -> Coordinate) -> Vec<Place> {
    let mut points: Vec<Place> = (1..count).map(|_| [coordinate(), coordinate()]).collect();
    points.push(points[0]);
    points
}

/// Without properties, and without flags and plex number, which gdsr has not.
fn plain(body: Body) -> Element {
    Element { options: Options::default(), body, properties: vec![] }
}

fn polygon(points: Vec<Place>) -> Element {
    plain(Body::Shape { kind: 1, layer: 1, data_type: 2, points })
}

/// Of 8,191 points; which coordinate stands where goes by its number, from 0.
pub fn long_polygon(mut coordinate: impl FnMut(usize) -> Coordinate) -> Vec<Element> {
    let mut number = 0;
    let points = closed(8191, || {
        number += 1;
        coordinate(number - 1)
    });
    vec![polygon(points)]
}

/// Of 5 points.
pub fn small_polygon(random: &mut Random, coordinate: fn(&mut Random) -> Coordinate) -> Element {
    polygon(closed(5, || coordinate(random)))
}

/// Its corners off the grid, the second anywhere beside the first.
pub fn gds_box(random: &mut Random) -> Element {
    let mut corner = || [off_grid(random), off_grid(random)];
    plain(Body::Box { layer: 7, box_type: 8, first: corner(), second: corner() })
}

pub fn turned_array(random: &mut Random) -> Element {
    let angle = random.unit() * 3.0;
    let (sine, cosine) = angle.sin_cos();
    let degrees = gdsr::Radians::new(angle).to_degrees().value();
    let mut place = |reach| [within(random, reach), within(random, reach)];
    let (origin, spacings) = (place(1e3), [Some(place(10.0)), Some(place(10.0))]);
    let counts = [2 + random.below(100) as u32, 2 + random.below(100) as u32];
    let turn = Turn { reflection: false, magnification: 1.5, degrees };
    plain(Body::Reference { name: b"CALLED".to_vec(), counts, turn, pair: [sine, cosine], origin, spacings })
}

pub fn text(random: &mut Random) -> Element {
    let property = |attribute| Property { attribute, value: b"a value of a property".to_vec() };
    let turn = Turn { reflection: true, magnification: 2.0, degrees: 90.0 };
    let origin = [off_grid(random), off_grid(random)];
    let body = Body::Text { layer: 3, text_type: 4, presentation: [1, 2], turn, origin, value: b"a label of a pin".to_vec() };
    Element { properties: vec![property(1), property(2), property(3)], ..plain(body) }
}

fn path(random: &mut Random) -> Element {
    let width = Some(Coordinate::Double { value: 0.25, unit: MICRO });
    let points = (0..20).map(|_| [integer(random), integer(random)]).collect();
    plain(Body::Path { layer: 5, data_type: 6, path_type: Some(1), lengths: [width, None, None], points })
}

pub fn mixed_element(random: &mut Random, index: usize) -> Element {
    match index % 9 {
        0 => text(random),
        1 => turned_array(random),
        2 | 3 => path(random),
        4 => small_polygon(random, off_grid),
        5 => gds_box(random),
        6 => polygon(closed(120, || integer(random))),
        _ => polygon(closed(120, || off_grid(random))),
    }
}

/// Elements until the sheet of a cell would be longer than this.
pub fn filled(length: usize, mut element: impl FnMut(usize) -> Element) -> Vec<Element> {
    let mut elements = Vec::new();
    // the count, the head's pair and the longest head
    let mut used = 4 + 8 + 58;
    loop {
        let next = element(elements.len());
        used += 8 + sheet::element_block(&next).len();
        if used > length {
            return elements;
        }
        elements.push(next);
    }
}
