//! Cells at the limits that gdsr has not (document 02, request 6) and above them, alone and beside other faults, in every kind
//! of element, and the same in libraries. What must come out is written here by hand.
use crate::input::{Input, Job};
use crate::sheet::{self, Body, Coordinate, Element, Options, Place, Property, Turn};

/// A cell or a library, and the number and the block of its refusal, or none where it is accepted.
pub struct Case {
    pub what: String,
    pub given: Input,
    pub refusal: Option<(u8, usize)>,
}

const PLAIN: Turn = Turn { reflection: false, magnification: 1.0, degrees: 0.0 };

fn metres(value: f64) -> Coordinate {
    Coordinate::Double { value, unit: 1.0 }
}

/// A place whose x is refused by 17 where it is not finite.
fn at(x: f64) -> Place {
    [metres(x), metres(2.0)]
}

fn text(layer: u16, text_type: u16, length: usize, x: f64) -> Body {
    Body::Text { layer, text_type, presentation: [0, 0], turn: PLAIN, origin: at(x), value: vec![b't'; length] }
}

/// Each kind of element, of references both, with this x in its first point.
fn bodies(x: f64) -> [(&'static str, Body); 7] {
    let points = |count| (0..count).map(|place| if place == 0 { at(x) } else { at(1.0) }).collect();
    let reference = |counts, spacings| Body::Reference {
        name: b"B".to_vec(),
        counts,
        turn: PLAIN,
        pair: [0.0, 1.0],
        origin: at(x),
        spacings,
    };
    [
        ("a polygon", Body::Shape { kind: 1, layer: 255, data_type: 255, points: points(4) }),
        ("a path", Body::Path { layer: 1, data_type: 0, path_type: None, lengths: [None; 3], points: points(2) }),
        ("a text", text(255, 255, 512, x)),
        ("a node", Body::Shape { kind: 4, layer: 1, data_type: 0, points: points(1) }),
        ("a reference", reference([1, 1], [None; 2])),
        ("an array", reference([2, 3], [Some(at(4.0)), Some(at(5.0))])),
        ("a box", Body::Box { layer: 1, box_type: 0, first: at(x), second: at(3.0) }),
    ]
}

/// Attributes with the lengths of their values, and the number of the refusal, 0 for none.
const PROPERTIES: [(&[(u16, usize)], u8); 24] = [
    (&[(1, 0)], 0),
    (&[(1, 125), (2, 126), (126, 1), (127, 126)], 0),
    (&[(127, 126), (127, 126)], 0),
    (&[(0, 0)], 27),
    (&[(128, 126)], 27),
    (&[(255, 1)], 27),
    (&[(256, 1)], 27),
    (&[(257, 1)], 27),
    (&[(32_767, 1)], 27),
    (&[(32_769, 1)], 27),
    (&[(65_535, 1)], 27),
    (&[(1, 127)], 10),
    (&[(127, 128)], 10),
    (&[(1, 382)], 10),
    (&[(1, 65_530)], 10),
    (&[(1, 65_531)], 10),
    (&[(1, 65_535)], 10),
    // both in one property, and in two
    (&[(0, 127)], 27),
    (&[(128, 65_531)], 27),
    (&[(1, 127), (0, 0)], 10),
    (&[(0, 0), (1, 127)], 27),
    (&[(1, 127), (128, 127)], 10),
    (&[(127, 126), (128, 126), (1, 127)], 27),
    (&[(127, 126), (1, 127), (0, 65_531)], 10),
];

fn element(body: Body, properties: &[(u16, usize)]) -> Element {
    let property = |(attribute, length): &(u16, usize)| Property { attribute: *attribute, value: vec![b'p'; *length] };
    Element { options: Options::default(), body, properties: properties.iter().map(property).collect() }
}

fn flagged(flags: u16, element: Element) -> Element {
    Element { options: Options { flags: Some(flags), plex: Some(7) }, ..element }
}

/// Elements from block 1 on, and the refusal.
type Cell = (String, Vec<Element>, Option<(u8, usize)>);

fn of_properties(cells: &mut Vec<Cell>) {
    for (properties, number) in PROPERTIES {
        let mut cell = |what: String, of: Vec<Element>, refusal| cells.push((format!("{what} with {properties:?}"), of, refusal));
        for (what, body) in bodies(1.0) {
            let plain = element(body.clone(), &[(1, 126)]);
            let with = element(body, properties);
            let refused = |block| (number > 0).then_some((number, block));
            cell(what.to_string(), vec![with.clone()], refused(1));
            cell(format!("after another, {what}"), vec![plain, with.clone()], refused(2));
            cell(format!("with flags of 3, {what}"), vec![flagged(3, with.clone())], refused(1));
            cell(format!("with flags of 4, {what}"), vec![flagged(4, with)], Some((26, 1)));
        }
        for (what, body) in bodies(f64::NAN) {
            cell(format!("at no place, {what}"), vec![element(body, properties)], Some((17, 1)));
        }
    }
}

fn of_texts(cells: &mut Vec<Cell>) {
    let mut cell = |what: &str, of: Vec<Element>, refusal| cells.push((what.to_string(), of, refusal));
    let plain = |text_type| element(text(1, text_type, 1, 1.0), &[]);
    for text_type in [0, 254, 255] {
        cell(&format!("a text of type {text_type}"), vec![plain(text_type)], None);
    }
    for text_type in [256, 257, 511, 32_767, 32_768, 65_535] {
        cell(&format!("a text of type {text_type}"), vec![plain(text_type)], Some((9, 1)));
    }
    let (faulty, node) = (&[(0, 127)], || element(bodies(1.0)[3].1.clone(), &[]));
    cell("layer and type 256", vec![element(text(256, 256, 513, 1.0), faulty)], Some((9, 1)));
    cell("type 256 and 513 bytes", vec![element(text(255, 256, 513, 1.0), faulty)], Some((9, 1)));
    cell("type 255 and 513 bytes", vec![element(text(255, 255, 513, f64::NAN), faulty)], Some((10, 1)));
    cell("type 256 at no place", vec![element(text(255, 256, 512, f64::NAN), faulty)], Some((9, 1)));
    cell("type 256 with flags of 4", vec![flagged(4, plain(256))], Some((26, 1)));
    cell("a property and then type 256", vec![element(text(1, 255, 1, 1.0), faulty), plain(256)], Some((27, 1)));
    cell("type 256 and then a property", vec![node(), plain(256), element(text(1, 255, 1, 1.0), faulty)], Some((9, 2)));
    let mut turned = plain(256);
    if let Body::Text { turn, .. } = &mut turned.body {
        turn.magnification = 0.0;
    }
    cell("type 256 and magnification 0", vec![turned], Some((9, 1)));
    let none = Body::Shape { kind: 4, layer: 1, data_type: 0, points: vec![] };
    cell("no points and then type 256", vec![element(none, faulty), plain(256)], Some((8, 1)));
}

/// The cell's sheet, and a library whose second cell it is: the first is empty.
fn sheets(elements: &[Element]) -> [(Job, Vec<u8>); 2] {
    let head = |name: &[u8]| sheet::head_block(&sheet::Head { name: name.to_vec(), stamps: [0; 12] });
    let mut blocks = vec![head(b"A")];
    blocks.extend(elements.iter().map(sheet::element_block));
    let cell = sheet::sheet_of(&blocks);
    let library = sheet::LibraryHead { name: b"L".to_vec(), user_unit: 1.0, stamps: [0; 12] };
    let library = sheet::sheet_of(&[sheet::library_head_block(&library), sheet::sheet_of(&[head(b"B")]), cell.clone()]);
    [(Job::Cell, cell), (Job::Library, library)]
}

pub fn cases() -> Vec<Case> {
    let mut cells = Vec::new();
    of_properties(&mut cells);
    of_texts(&mut cells);
    let mut cases = Vec::new();
    for (what, elements, refusal) in cells {
        for (job, sheet) in sheets(&elements) {
            let given = Input { job, policy: 0, d: 1.0, sheet, damaged: false };
            cases.push(Case { what: format!("{}: {what}", job.several()), given, refusal });
        }
    }
    cases
}
