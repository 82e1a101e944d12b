//! What a writer answers, and what gdsr answers for a cell or a library.
use crate::sheet::{self, Body, Coordinate, Options, Place};
use crate::side;
use gdsr::{
    GdsError, GdsQuantization, GdsRoundingPolicy, GdsTimestampPolicy, GdsWriteOptions, Point, Property, Radians, Turn, Unit,
};
use std::collections::BTreeMap;

#[derive(Clone, Debug, PartialEq, Eq)]
pub enum Answer {
    /// `cell` is a library's, and none outside its cells.
    Refused { number: u8, cell: Option<usize>, block: usize },
    /// The structure or the file, the entries one after the other, and the bits of the greatest error.
    Accepted { bytes: Vec<u8>, entries: Vec<u8>, greatest: u64 },
}

pub fn refused(number: u8, block: usize) -> Answer {
    Answer::Refused { number, cell: None, block }
}

// ---- the cell as gdsr has it

fn unit(coordinate: Coordinate) -> Unit {
    match coordinate {
        Coordinate::Integer { value, unit } => Unit::integer(value, unit),
        Coordinate::Double { value, unit } => Unit::float(value, unit),
    }
}

fn point(place: Place) -> Point {
    Point::new(unit(place[0]), unit(place[1]))
}

fn points(places: &[Place]) -> Vec<Point> {
    places.iter().map(|place| point(*place)).collect()
}

/// Angles whose `to_degrees` is this.
pub fn angles_of(degrees: f64) -> Vec<f64> {
    if degrees.is_nan() || degrees.is_infinite() || degrees == 0.0 {
        return vec![degrees];
    }
    let near = degrees / (180.0 / std::f64::consts::PI);
    (-4..=4)
        .map(|steps| crate::random::stepped(near, steps))
        .filter(|angle| Radians::new(*angle).to_degrees().value().to_bits() == degrees.to_bits())
        .collect()
}

fn same_pair(a: &[f64; 2], b: &[f64; 2]) -> bool {
    a.map(f64::to_bits) == b.map(f64::to_bits)
}

/// The sines and cosines that a cell asks of gdsr.
#[derive(Default)]
pub struct Pairs {
    /// Pairs that are not gdsr's own may be set in the place of those.
    pub any: bool,
    pub set: Vec<(u64, [f64; 2])>,
}

impl Pairs {
    /// Whether gdsr, given this angle, takes this pair.
    fn takes(&mut self, angle: f64, pair: &[f64; 2]) -> bool {
        if let Some((_, set)) = self.set.iter().find(|(bits, _)| *bits == angle.to_bits()) {
            return same_pair(set, pair);
        }
        let (sine, cosine) = angle.sin_cos();
        let own = same_pair(&[sine, cosine], pair);
        if own || self.any {
            self.set.push((angle.to_bits(), *pair));
        }
        own || self.any
    }
}

fn string(bytes: &[u8]) -> Result<String, &'static str> {
    String::from_utf8(bytes.to_vec()).map_err(|_| "a string is not UTF-8")
}

fn turn(turn: &sheet::Turn, angle: Option<f64>) -> Result<Turn, &'static str> {
    Ok(Turn {
        magnification: turn.magnification,
        angle: angle.ok_or("no angle has these degrees, sine and cosine")?,
        x_reflection: turn.reflection,
    })
}

fn properties(element: &sheet::Element) -> Result<Vec<Property>, &'static str> {
    element.properties.iter().map(|property| Ok(Property::new(property.attribute, string(&property.value)?))).collect()
}

fn without_options(element: &sheet::Element, pairs: &mut Pairs) -> Result<gdsr::Element, &'static str> {
    let properties = properties(element)?;
    Ok(match &element.body {
        Body::Shape { kind: 1, layer, data_type, points: places } => {
            gdsr::polygon(*layer, *data_type, points(places), properties)
        }
        Body::Shape { layer, data_type, points: places, .. } => gdsr::node(*layer, *data_type, points(places), properties),
        Body::Path { layer, data_type, path_type, lengths, points: places } => {
            gdsr::path(*layer, *data_type, *path_type, lengths.map(|length| length.map(unit)), points(places), properties)
        }
        Body::Text { layer, text_type, presentation, turn: given, origin, value } => {
            let turn = turn(given, angles_of(given.degrees).first().copied())?;
            gdsr::text(*layer, *text_type, *presentation, &turn, point(*origin), string(value)?, properties)
        }
        Body::Reference { name, counts, turn: given, pair, origin, spacings } => {
            let single = *counts == [1, 1];
            let angle = angles_of(given.degrees).into_iter().find(|angle| single || pairs.takes(*angle, pair));
            let turn = turn(given, angle)?;
            let spacings = spacings.map(|spacing| spacing.map(point));
            gdsr::reference(string(name)?, *counts, &turn, point(*origin), spacings, properties)
        }
        Body::Box { layer, box_type, first, second } => {
            gdsr::gds_box(*layer, *box_type, [point(*first), point(*second)], properties)
        }
    })
}

/// An element as gdsr has it, and beside it the options, which gdsr has not.
pub struct GdsrElement {
    element: gdsr::Element,
    options: Options,
}

/// The element as gdsr has it, or why it has none.
pub fn gdsr_element(element: &sheet::Element, pairs: &mut Pairs) -> Result<GdsrElement, &'static str> {
    Ok(GdsrElement { element: without_options(element, pairs)?, options: element.options })
}

// ---- options in what gdsr has written

/// The codes of BOUNDARY, PATH, SREF, AREF, TEXT, NODE and BOX, one of which is the first record of each element.
const FIRST_RECORDS: [u8; 7] = [0x08, 0x09, 0x0a, 0x0b, 0x0c, 0x15, 0x2d];

/// The records ELFLAGS and PLEX, by the manual.
fn put_options(stream: &mut Vec<u8>, options: &Options) {
    if let Some(flags) = options.flags {
        stream.extend([0x00, 0x06, 0x26, 0x01]);
        stream.extend(flags.to_be_bytes());
    }
    if let Some(plex) = options.plex {
        stream.extend([0x00, 0x08, 0x2f, 0x03]);
        stream.extend(plex.to_be_bytes());
    }
}

/// A structure or a file of gdsr with each element's options after its first record: the elements stand in this order.
fn with_options<'a>(stream: &[u8], options: impl IntoIterator<Item = &'a Options>) -> Vec<u8> {
    let mut options = options.into_iter();
    let mut with = Vec::with_capacity(stream.len());
    let mut rest = stream;
    while let [high, low, code, ..] = rest {
        let (record, after) = rest.split_at(usize::from(u16::from_be_bytes([*high, *low])));
        with.extend(record);
        if FIRST_RECORDS.contains(code) {
            put_options(&mut with, options.next().expect("options of each element"));
        }
        rest = after;
    }
    assert!(rest.is_empty() && options.next().is_none(), "gdsr's records are not those of the elements");
    with
}

// ---- gdsr's answers in document 01's numbers

/// The refusal's number, by the message.
pub fn number_of(error: &GdsError) -> u8 {
    let text = error.to_string();
    let says = |part: &str| text.contains(part);
    if says("Database units must be") {
        2
    } else if says("timestamps") {
        6
    } else if says("Structure name") {
        7
    } else if says("exceeds the maximum of 8191") || says("must have at least") || says("Node must have between") {
        8
    } else if says("error: Layer") || says("error: Data type") {
        9
    } else if says("String length") || says("String record of") {
        10
    } else if says("Column count") || says("Row count") {
        11
    } else if says("require column spacing") || says("require row spacing") {
        12
    } else if says("must be positive") {
        13
    } else if says("cannot be encoded as GDS REAL8") || says("'magnification': value") {
        14
    } else if says("source units must be") {
        16
    } else if says("is not finite") || says("cannot be represented using database unit") {
        17
    } else if says("is off the") {
        18
    } else if says("outside the GDS i32 range") {
        19
    } else if says("shape is not closed") {
        20
    } else {
        panic!("a message of gdsr with no number: {text}")
    }
}

pub fn policy_of(number: u8) -> GdsRoundingPolicy {
    match number {
        0 => GdsRoundingPolicy::Nearest,
        1 => GdsRoundingPolicy::Floor,
        2 => GdsRoundingPolicy::Ceil,
        _ => GdsRoundingPolicy::ErrorIfOffGrid,
    }
}

/// Field, axis and place of gdsr's name for a field.
fn field_of(name: &str) -> (u8, u8, u16) {
    let axis = match name.as_bytes()[name.len() - 1] {
        b'x' => 0,
        b'y' => 1,
        _ => 2,
    };
    let place = || name[6..].split(']').next().and_then(|digits| digits.parse().ok()).expect("a place");
    match name {
        "width" => (1, 2, 0),
        "begin_extension" => (2, 2, 0),
        "end_extension" => (3, 2, 0),
        _ if name.starts_with("point[") => (0, axis, place()),
        _ if name.starts_with("origin") => (4, axis, 0),
        _ if name.starts_with("spacing_x.rotated_") => (5, axis, 0),
        _ if name.starts_with("spacing_y.rotated_") => (6, axis, 0),
        _ if name.starts_with("aref_endpoint[1].") => (7, axis, 0),
        _ if name.starts_with("aref_endpoint[2].") => (8, axis, 0),
        _ => panic!("a field of gdsr with no number: {name}"),
    }
}

/// The entry as a writer with this d puts it: gdsr's error is a magnitude, the field of the entry has a sign.
fn put_entry(entries: &mut Vec<u8>, entry: &GdsQuantization, d: f64) {
    let kind = match entry.element_type() {
        "polygon" => 1,
        "path" => 2,
        "text" => 3,
        "node" => 4,
        "reference" => 5,
        "box" => 6,
        other => panic!("an element kind of gdsr with no number: {other}"),
    };
    let (field, axis, place) = field_of(entry.field());
    let (p, q) = (entry.physical_value(), entry.database_value());
    entries.extend((entry.element_index() as u32).to_be_bytes());
    entries.extend([kind, field, axis]);
    entries.extend(place.to_be_bytes());
    entries.extend((entry.affected_field_count() as u32).to_be_bytes());
    entries.extend(p.to_be_bytes());
    entries.extend(q.to_be_bytes());
    entries.extend(side::signed(entry.physical_error(), p, q, d).to_be_bytes());
}

/// A cell as gdsr has it, with its stamps, and beside it the options of its elements.
pub struct GdsrCell {
    pub cell: gdsr::Cell,
    pub timestamps: gdsr::GdsTimestamps,
    options: Vec<Options>,
}

pub fn gdsr_cell(head: &sheet::Head, elements: Vec<GdsrElement>) -> Result<GdsrCell, GdsError> {
    let timestamps = gdsr::timestamps(&head.stamps)?;
    let name = String::from_utf8_lossy(&head.name);
    let mut cell = gdsr::Cell::new(&name);
    let options = elements.iter().map(|element| element.options).collect();
    for element in elements {
        cell.add(element.element);
    }
    Ok(GdsrCell { cell, timestamps, options })
}

/// The first block that gdsr refuses alone: it refuses elements in turn.
fn first_refused(given: &GdsrCell, d: f64, policy: u8) -> usize {
    let mut alone = gdsr::Cell::new(given.cell.name());
    let refuses = |cell: &gdsr::Cell| gdsr::write_one_cell(cell, d, policy_of(policy), given.timestamps).is_err();
    if refuses(&alone) {
        return 0;
    }
    for (index, element) in given.cell.iter_elements().enumerate() {
        alone.add(element.clone());
        if refuses(&alone) {
            return index + 1;
        }
        alone.remove_element(0);
    }
    panic!("gdsr refuses the cell and none of its elements")
}

/// gdsr's answer, with the options in the structure.
pub fn gdsr_answer(given: &GdsrCell, d: f64, policy: u8) -> Answer {
    match gdsr::write_one_cell(&given.cell, d, policy_of(policy), given.timestamps) {
        Err(error) => refused(number_of(&error), first_refused(given, d, policy)),
        Ok((bytes, report)) => {
            let mut entries = Vec::new();
            for entry in report.affected_locations() {
                put_entry(&mut entries, entry, d);
            }
            let greatest = report.max_physical_quantization_error().to_bits();
            Answer::Accepted { bytes: with_options(&bytes, &given.options), entries, greatest }
        }
    }
}

// ---- libraries

/// The file's own records before its structures, or the number of the refusal. The name is given apart, since it may be no UTF-8.
pub fn gdsr_library_head(name: &str, head: &sheet::LibraryHead, d: f64) -> Result<Vec<u8>, u8> {
    let timestamps = gdsr::timestamps(&head.stamps).map_err(|error| number_of(&error))?;
    gdsr::write_library_head(name, head.user_unit, d, timestamps).map_err(|error| {
        let text = error.to_string();
        if text.contains("User units") || text.contains("Database units") {
            24
        } else if text.contains("String record of") {
            25
        } else {
            panic!("a message of gdsr with no number: {text}")
        }
    })
}

/// A library as gdsr has it: it keeps its cells by their names, and so the options of their elements stand beside it.
pub struct GdsrLibrary {
    library: gdsr::Library,
    user_unit: f64,
    options: BTreeMap<String, Vec<Options>>,
}

pub fn gdsr_library(head: &sheet::LibraryHead, cells: Vec<GdsrCell>) -> Result<GdsrLibrary, GdsError> {
    let mut library = gdsr::Library::new(&String::from_utf8_lossy(&head.name));
    library.set_timestamps(gdsr::timestamps(&head.stamps)?);
    let mut of_cells = BTreeMap::new();
    for GdsrCell { mut cell, timestamps, options } in cells {
        cell.set_timestamps(timestamps);
        of_cells.insert(cell.name().to_string(), options);
        library.add_cell(cell);
    }
    Ok(GdsrLibrary { library, user_unit: head.user_unit, options: of_cells })
}

impl GdsrLibrary {
    /// The whole file with its report: the structures in the order of their names, on one thread.
    pub fn write(&self, d: f64, policy: u8) -> Result<(Vec<u8>, gdsr::GdsConversionReport), GdsError> {
        let options = GdsWriteOptions::new(policy_of(policy)).with_timestamp_policy(GdsTimestampPolicy::Preserve);
        gdsr::write_library_with_options(&self.library, self.user_unit, d, options)
    }

    /// The answer with the options in the file, each entry with its cell's place in the order of names; or the number of the
    /// refusal.
    pub fn answer(&self, d: f64, policy: u8) -> Result<Answer, u8> {
        let (bytes, report) = self.write(d, policy).map_err(|error| number_of(&error))?;
        let mut names: Vec<&str> = self.library.cells().keys().map(String::as_str).collect();
        names.sort_unstable();
        let mut entries = Vec::new();
        for entry in report.affected_locations() {
            let cell = names.binary_search(&entry.cell_name()).expect("a cell of the library");
            entries.extend((cell as u32).to_be_bytes());
            put_entry(&mut entries, entry, d);
        }
        let greatest = report.max_physical_quantization_error().to_bits();
        let bytes = with_options(&bytes, self.options.values().flatten());
        Ok(Answer::Accepted { bytes, entries, greatest })
    }
}
