//! Makes cell sheets and library sheets. A convenience, outside the proof; docs/FORMAT.md, sections 1 to 3, has what it writes.
//!
//! ```ignore
//! let mut cell = Cell::new("TOP");
//! for xy in &polygons {
//!     cell.add(Polygon::new(layer, data_type, doubles(xy, 1e-6)));
//! }
//! let sheet = cell.sheet()?;
//! ```
//!
//! What a sheet cannot hold is a fault, and so is a turned array without its sine and cosine. What a sheet can hold and a
//! structure cannot, a layer or type above 255 for instance, is for the proved functions to refuse.
#![allow(dead_code)] // a program uses what it needs of this

use super::ravenvanity::{MAX_SHEET, kind};
use std::fmt;

/// The most blocks of a sheet: a head, and elements or cells.
pub const MAX_BLOCKS: usize = 16_384;

// ---- faults

/// Why there is no sheet.
#[derive(Clone, Copy, Debug, PartialEq, Eq)]
pub enum Cause {
    SheetSize,
    Blocks,
    Points,
    Properties,
    String,
    Sine,
}

/// Why there is no sheet, and where: of a library the cell, from 0, and of a cell the block, 0 outside its elements.
#[derive(Clone, Copy, Debug, PartialEq, Eq)]
pub struct Fault {
    pub cause: Cause,
    pub cell: Option<usize>,
    pub block: usize,
}

impl fmt::Display for Cause {
    fn fmt(&self, f: &mut fmt::Formatter) -> fmt::Result {
        f.write_str(match self {
            Cause::SheetSize => "the sheet is over 16,777,216 bytes",
            Cause::Blocks => "more than 16,383 elements of a cell, or cells of a library",
            Cause::Points => "more than 65,535 points",
            Cause::Properties => "more than 65,535 properties",
            Cause::String => "a string of more than 65,535 bytes",
            Cause::Sine => "an array with degrees that are not 0 and without their sine and cosine",
        })
    }
}

impl fmt::Display for Fault {
    fn fmt(&self, f: &mut fmt::Formatter) -> fmt::Result {
        if let Some(cell) = self.cell {
            write!(f, "cell {cell}, ")?;
        }
        write!(f, "block {}: {}", self.block, self.cause)
    }
}

impl std::error::Error for Fault {}

// ---- coordinates and points

/// Value times unit is physical, in the same measure as the database unit.
#[derive(Clone, Copy, Debug, PartialEq)]
pub enum Coordinate {
    Integer { value: i32, unit: f64 },
    Double { value: f64, unit: f64 },
}

impl Coordinate {
    pub fn integer(value: i32, unit: f64) -> Self {
        Self::Integer { value, unit }
    }

    pub fn double(value: f64, unit: f64) -> Self {
        Self::Double { value, unit }
    }
}

#[derive(Clone, Copy, Debug, PartialEq)]
pub struct Point {
    pub x: Coordinate,
    pub y: Coordinate,
}

impl Point {
    pub fn new(x: Coordinate, y: Coordinate) -> Self {
        Self { x, y }
    }

    pub fn integer(x: i32, y: i32, unit: f64) -> Self {
        Self::new(Coordinate::integer(x, unit), Coordinate::integer(y, unit))
    }

    pub fn double(x: f64, y: f64, unit: f64) -> Self {
        Self::new(Coordinate::double(x, unit), Coordinate::double(y, unit))
    }
}

/// Points in one unit.
pub fn integers(xy: &[[i32; 2]], unit: f64) -> Vec<Point> {
    xy.iter().map(|[x, y]| Point::integer(*x, *y, unit)).collect()
}

/// Points in one unit.
pub fn doubles(xy: &[[f64; 2]], unit: f64) -> Vec<Point> {
    xy.iter().map(|[x, y]| Point::double(*x, *y, unit)).collect()
}

/// These points and the first once more, for a polygon that does not repeat it.
pub fn closed(mut points: Vec<Point>) -> Vec<Point> {
    points.extend(points.first().copied());
    points
}

// ---- elements

/// Points stand as they are: the last is the first once more, by itself or by `closed`.
#[derive(Clone, Debug, PartialEq)]
pub struct Polygon {
    pub layer: u16,
    pub data_type: u16,
    pub points: Vec<Point>,
}

impl Polygon {
    pub fn new(layer: u16, data_type: u16, points: Vec<Point>) -> Self {
        Self { layer, data_type, points }
    }
}

#[derive(Clone, Debug, PartialEq)]
pub struct Node {
    pub layer: u16,
    pub data_type: u16,
    pub points: Vec<Point>,
}

impl Node {
    pub fn new(layer: u16, data_type: u16, points: Vec<Point>) -> Self {
        Self { layer, data_type, points }
    }
}

/// The corners stay as they are given, and are not put in order: of (x1, y1) and (x2, y2) the points that are written are
/// (x1, y1) (x2, y1) (x2, y2) (x1, y2) (x1, y1).
#[derive(Clone, Copy, Debug, PartialEq)]
pub struct GdsBox {
    pub layer: u16,
    pub box_type: u16,
    pub first: Point,
    pub second: Point,
}

impl GdsBox {
    pub fn new(layer: u16, box_type: u16, first: Point, second: Point) -> Self {
        Self { layer, box_type, first, second }
    }
}

#[derive(Clone, Copy, Debug, PartialEq, Eq)]
#[repr(u8)]
pub enum PathType {
    Square = 0,
    Round = 1,
    Overlap = 2,
}

#[derive(Clone, Debug, PartialEq)]
pub struct Path {
    pub layer: u16,
    pub data_type: u16,
    pub path_type: Option<PathType>,
    pub width: Option<Coordinate>,
    pub begin_extension: Option<Coordinate>,
    pub end_extension: Option<Coordinate>,
    pub points: Vec<Point>,
}

impl Path {
    /// With no path type, width or extension.
    pub fn new(layer: u16, data_type: u16, points: Vec<Point>) -> Self {
        Self { layer, data_type, path_type: None, width: None, begin_extension: None, end_extension: None, points }
    }
}

#[derive(Clone, Copy, Debug, PartialEq)]
pub struct Transform {
    pub reflection: bool,
    pub magnification: f64,
    pub degrees: f64,
}

impl Default for Transform {
    fn default() -> Self {
        Self { reflection: false, magnification: 1.0, degrees: 0.0 }
    }
}

#[derive(Clone, Copy, Debug, PartialEq, Eq)]
#[repr(u8)]
pub enum Vertical {
    Top = 0,
    Middle = 1,
    Bottom = 2,
}

#[derive(Clone, Copy, Debug, PartialEq, Eq)]
#[repr(u8)]
pub enum Horizontal {
    Left = 0,
    Centre = 1,
    Right = 2,
}

#[derive(Clone, Debug, PartialEq)]
pub struct Text {
    pub layer: u16,
    pub data_type: u16,
    pub vertical: Vertical,
    pub horizontal: Horizontal,
    pub transform: Transform,
    pub origin: Point,
    pub string: Vec<u8>,
}

impl Text {
    /// At the top left, with no transform.
    pub fn new(layer: u16, data_type: u16, string: impl Into<Vec<u8>>, origin: Point) -> Self {
        let (vertical, horizontal, transform) = (Vertical::Top, Horizontal::Left, Transform::default());
        Self { layer, data_type, vertical, horizontal, transform, origin, string: string.into() }
    }
}

/// Sine and cosine of the degrees. They stand on the sheet, since the last bit of a machine's own is not fixed, and two shops that
/// are to get the same bytes must send the same two doubles.
#[derive(Clone, Copy, Debug, PartialEq)]
pub struct Turn {
    pub sine: f64,
    pub cosine: f64,
}

#[derive(Clone, Debug, PartialEq)]
pub struct Reference {
    /// Of the cell that is called.
    pub name: Vec<u8>,
    pub columns: u32,
    pub rows: u32,
    pub transform: Transform,
    /// By which an array's spacings are turned; an array whose degrees are not 0 must have it.
    pub turn: Option<Turn>,
    pub origin: Point,
    pub column_spacing: Option<Point>,
    pub row_spacing: Option<Point>,
}

impl Reference {
    /// A single one with no transform.
    pub fn new(name: impl Into<Vec<u8>>, origin: Point) -> Self {
        Self {
            name: name.into(),
            columns: 1,
            rows: 1,
            transform: Transform::default(),
            turn: None,
            origin,
            column_spacing: None,
            row_spacing: None,
        }
    }
}

#[derive(Clone, Debug, PartialEq)]
pub enum Body {
    Polygon(Polygon),
    Path(Path),
    Text(Text),
    Node(Node),
    Reference(Reference),
    GdsBox(GdsBox),
}

impl Body {
    fn kind(&self) -> u8 {
        match self {
            Body::Polygon(_) => kind::POLYGON,
            Body::Path(_) => kind::PATH,
            Body::Text(_) => kind::TEXT,
            Body::Node(_) => kind::NODE,
            Body::Reference(_) => kind::REFERENCE,
            Body::GdsBox(_) => kind::BOX,
        }
    }
}

macro_rules! body_from {
    ($($kind:ident)*) => {
        $(impl From<$kind> for Body {
            fn from(body: $kind) -> Self {
                Self::$kind(body)
            }
        })*
    };
}

body_from!(Polygon Path Text Node Reference GdsBox);

#[derive(Clone, Debug, PartialEq, Eq)]
pub struct Property {
    /// From 1 to 127; the proved functions refuse others.
    pub attribute: u16,
    /// Any bytes; the proved functions refuse more than 126.
    pub value: Vec<u8>,
}

/// The flags of the manual (ELFLAGS), which may be taken together.
pub mod flag {
    pub const TEMPLATE: u16 = 1;
    pub const EXTERNAL: u16 = 2;
}

#[derive(Clone, Debug, PartialEq)]
pub struct Element {
    pub body: Body,
    /// Of those in `flag` one, both or none; the proved functions refuse others.
    pub flags: Option<u16>,
    /// The plex number (PLEX), by which elements are grouped.
    pub plex: Option<i32>,
    pub properties: Vec<Property>,
}

impl Element {
    /// With no flags, plex number or property.
    pub fn new(body: impl Into<Body>) -> Self {
        Self { body: body.into(), flags: None, plex: None, properties: Vec::new() }
    }

    /// Sets the flags.
    pub fn flags(&mut self, flags: u16) -> &mut Self {
        self.flags = Some(flags);
        self
    }

    /// Sets the plex number.
    pub fn plex(&mut self, plex: i32) -> &mut Self {
        self.plex = Some(plex);
        self
    }

    /// Adds a property, and may be called again at once for the next.
    pub fn property(&mut self, attribute: u16, value: impl Into<Vec<u8>>) -> &mut Self {
        self.properties.push(Property { attribute, value: value.into() });
        self
    }
}

// ---- cells and libraries

/// Two dates and times, year, month, day, hour, minute, second each; or all zero.
pub type Stamps = [u16; 12];

#[derive(Clone, Debug, PartialEq)]
pub struct Cell {
    pub name: Vec<u8>,
    pub stamps: Stamps,
    pub elements: Vec<Element>,
}

impl Cell {
    /// With zero stamps and no element.
    pub fn new(name: impl Into<Vec<u8>>) -> Self {
        Self { name: name.into(), stamps: [0; 12], elements: Vec::new() }
    }

    /// Adds an element, whose flags, plex number and properties may be given at once.
    pub fn add(&mut self, body: impl Into<Body>) -> &mut Element {
        self.elements.push(Element::new(body));
        let last = self.elements.len() - 1;
        &mut self.elements[last]
    }

    /// The cell sheet.
    pub fn sheet(&self) -> Result<Vec<u8>, Fault> {
        self.sheet_as(None)
    }

    /// The same, for a library's cell of this number.
    fn sheet_as(&self, cell: Option<usize>) -> Result<Vec<u8>, Fault> {
        let at = |block| move |cause| Fault { cause, cell, block };
        let mut blocks = Blocks::default();
        put_string(&mut blocks.bytes, &self.name).map_err(at(0))?;
        put_stamps(&mut blocks.bytes, &self.stamps);
        blocks.end();
        for (k, element) in self.elements.iter().enumerate() {
            put_element(&mut blocks.bytes, element).map_err(at(k + 1))?;
            blocks.end();
        }
        blocks.sheet().map_err(at(0))
    }
}

#[derive(Clone, Debug, PartialEq)]
pub struct Library {
    pub name: Vec<u8>,
    pub user_unit: f64,
    pub stamps: Stamps,
    pub cells: Vec<Cell>,
}

impl Library {
    /// With zero stamps and no cell.
    pub fn new(name: impl Into<Vec<u8>>, user_unit: f64) -> Self {
        Self { name: name.into(), user_unit, stamps: [0; 12], cells: Vec::new() }
    }

    /// Adds a cell.
    pub fn add(&mut self, cell: Cell) {
        self.cells.push(cell);
    }

    /// The library sheet.
    pub fn sheet(&self) -> Result<Vec<u8>, Fault> {
        let outside = |cause| Fault { cause, cell: None, block: 0 };
        let mut blocks = Blocks::default();
        put_string(&mut blocks.bytes, &self.name).map_err(outside)?;
        put_double(&mut blocks.bytes, self.user_unit);
        put_stamps(&mut blocks.bytes, &self.stamps);
        blocks.end();
        for (k, cell) in self.cells.iter().enumerate() {
            blocks.bytes.extend(cell.sheet_as(Some(k))?);
            blocks.end();
        }
        blocks.sheet().map_err(outside)
    }
}

// ---- bytes

/// A sheet's blocks one after the other, and where each ends, while there are no pairs in front of them.
#[derive(Default)]
struct Blocks {
    bytes: Vec<u8>,
    ends: Vec<usize>,
}

impl Blocks {
    fn end(&mut self) {
        self.ends.push(self.bytes.len());
    }

    fn sheet(self) -> Result<Vec<u8>, Cause> {
        let pairs = 4 + 8 * self.ends.len();
        if self.ends.len() > MAX_BLOCKS {
            return Err(Cause::Blocks);
        }
        if pairs + self.bytes.len() > MAX_SHEET {
            return Err(Cause::SheetSize);
        }
        let mut sheet = Vec::with_capacity(pairs + self.bytes.len());
        let put = |sheet: &mut Vec<u8>, number: usize| sheet.extend((number as u32).to_be_bytes());
        put(&mut sheet, self.ends.len());
        let mut start = 0;
        for end in self.ends {
            put(&mut sheet, pairs + start);
            put(&mut sheet, end - start);
            start = end;
        }
        sheet.extend(self.bytes);
        Ok(sheet)
    }
}

fn put_count(bytes: &mut Vec<u8>, count: usize, cause: Cause) -> Result<(), Cause> {
    bytes.extend(u16::try_from(count).map_err(|_| cause)?.to_be_bytes());
    Ok(())
}

fn put_string(bytes: &mut Vec<u8>, string: &[u8]) -> Result<(), Cause> {
    put_count(bytes, string.len(), Cause::String)?;
    bytes.extend(string);
    Ok(())
}

fn put_double(bytes: &mut Vec<u8>, value: f64) {
    bytes.extend(value.to_be_bytes());
}

fn put_stamps(bytes: &mut Vec<u8>, stamps: &Stamps) {
    for number in stamps {
        bytes.extend(number.to_be_bytes());
    }
}

/// None is absent.
fn put_coordinate(bytes: &mut Vec<u8>, coordinate: Option<Coordinate>) {
    match coordinate {
        Some(Coordinate::Integer { value, unit }) => {
            bytes.extend([0; 5]); // the kind, and the upper half of the value, also of a negative one
            bytes.extend(value.to_be_bytes());
            put_double(bytes, unit);
        }
        Some(Coordinate::Double { value, unit }) => {
            bytes.push(1);
            put_double(bytes, value);
            put_double(bytes, unit);
        }
        None => {
            bytes.push(2);
            bytes.extend([0; 16]);
        }
    }
}

/// None is absent.
fn put_point(bytes: &mut Vec<u8>, point: Option<Point>) {
    put_coordinate(bytes, point.map(|point| point.x));
    put_coordinate(bytes, point.map(|point| point.y));
}

fn put_points(bytes: &mut Vec<u8>, points: &[Point]) -> Result<(), Cause> {
    put_count(bytes, points.len(), Cause::Points)?;
    for point in points {
        put_point(bytes, Some(*point));
    }
    Ok(())
}

/// The kind, raised by what follows it: flags and then the plex number.
fn put_kind(bytes: &mut Vec<u8>, element: &Element) {
    let raised = |by, there: bool| if there { by } else { 0 };
    let with_flags = raised(kind::WITH_FLAGS, element.flags.is_some());
    let with_plex = raised(kind::WITH_PLEX, element.plex.is_some());
    bytes.push(element.body.kind() + with_flags + with_plex);
    bytes.extend(element.flags.map(u16::to_be_bytes).iter().flatten());
    bytes.extend(element.plex.map(i32::to_be_bytes).iter().flatten());
}

fn put_layer(bytes: &mut Vec<u8>, layer: u16, data_type: u16) {
    bytes.extend(layer.to_be_bytes());
    bytes.extend(data_type.to_be_bytes());
}

fn put_transform(bytes: &mut Vec<u8>, transform: &Transform) {
    bytes.push(u8::from(transform.reflection));
    put_double(bytes, transform.magnification);
    put_double(bytes, transform.degrees);
}

fn put_path(bytes: &mut Vec<u8>, path: &Path) -> Result<(), Cause> {
    put_layer(bytes, path.layer, path.data_type);
    bytes.push(path.path_type.map_or(255, |path_type| path_type as u8));
    for length in [path.width, path.begin_extension, path.end_extension] {
        put_coordinate(bytes, length);
    }
    put_points(bytes, &path.points)
}

fn put_text(bytes: &mut Vec<u8>, text: &Text) -> Result<(), Cause> {
    put_layer(bytes, text.layer, text.data_type);
    bytes.extend([text.vertical as u8, text.horizontal as u8]);
    put_transform(bytes, &text.transform);
    put_point(bytes, Some(text.origin));
    put_string(bytes, &text.string)
}

fn put_reference(bytes: &mut Vec<u8>, reference: &Reference) -> Result<(), Cause> {
    put_string(bytes, &reference.name)?;
    bytes.extend(reference.columns.to_be_bytes());
    bytes.extend(reference.rows.to_be_bytes());
    put_transform(bytes, &reference.transform);
    let array = (reference.columns, reference.rows) != (1, 1);
    if array && reference.turn.is_none() && reference.transform.degrees != 0.0 {
        return Err(Cause::Sine);
    }
    let turn = reference.turn.unwrap_or(Turn { sine: 0.0, cosine: 1.0 });
    put_double(bytes, turn.sine);
    put_double(bytes, turn.cosine);
    put_point(bytes, Some(reference.origin));
    put_point(bytes, reference.column_spacing);
    put_point(bytes, reference.row_spacing);
    Ok(())
}

fn put_element(bytes: &mut Vec<u8>, element: &Element) -> Result<(), Cause> {
    put_kind(bytes, element);
    match &element.body {
        Body::Polygon(polygon) => {
            put_layer(bytes, polygon.layer, polygon.data_type);
            put_points(bytes, &polygon.points)?;
        }
        Body::Node(node) => {
            put_layer(bytes, node.layer, node.data_type);
            put_points(bytes, &node.points)?;
        }
        Body::Path(path) => put_path(bytes, path)?,
        Body::Text(text) => put_text(bytes, text)?,
        Body::Reference(reference) => put_reference(bytes, reference)?,
        Body::GdsBox(gds_box) => {
            put_layer(bytes, gds_box.layer, gds_box.box_type);
            put_point(bytes, Some(gds_box.first));
            put_point(bytes, Some(gds_box.second));
        }
    }
    put_count(bytes, element.properties.len(), Cause::Properties)?;
    for property in &element.properties {
        bytes.extend(property.attribute.to_be_bytes());
        put_string(bytes, &property.value)?;
    }
    Ok(())
}
