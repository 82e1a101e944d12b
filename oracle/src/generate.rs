//! Makes inputs: a policy, a database unit and a sheet, whole or damaged.
use crate::input::{Input, Job};
use crate::random::{Random, stepped};
use crate::sheet::{
    Body, Coordinate, Element, Head, LibraryHead, Options, Place, Property, Turn, body_start, element_block, head_block, head_of,
    kind_of, library_head_block, sheet_of,
};
use gdsr::Radians;

/// What a cell's numbers are made from.
struct Maker<'a> {
    random: &'a mut Random,
    d: f64,
    /// So many of a thousand choices are beyond a limit or otherwise to be refused.
    wild: usize,
    /// Numbers on the grid alone, as strict asks.
    on_grid: bool,
    /// Numbers far from the ends of 32 bits, so that libraries of several cells are accepted, too.
    near: bool,
    /// Arrays with sines and cosines of no angle.
    any_pair: bool,
    /// The last coordinate that was made anew.
    last: Option<Coordinate>,
    /// Elements of the cell have flags and plex numbers.
    options: bool,
}

const TINY: f64 = f64::from_bits(1);

/// As far from zero on the other side: nearest deviates as far there, with the other sign.
fn mirrored(coordinate: Coordinate) -> Coordinate {
    match coordinate {
        Coordinate::Integer { value, unit } => Coordinate::Integer { value: value.wrapping_neg(), unit },
        Coordinate::Double { value, unit } => Coordinate::Double { value: -value, unit },
    }
}

impl Maker<'_> {
    fn is_wild(&mut self) -> bool {
        let wild = self.wild;
        self.random.often(wild)
    }

    // ---- coordinates

    fn bad_unit(&mut self) -> f64 {
        self.random.pick(&[0.0, -0.0, -1.0, -1e-9, f64::NAN, f64::INFINITY, f64::NEG_INFINITY, -TINY])
    }

    fn good_unit(&mut self) -> f64 {
        let d = self.d;
        let near = stepped(d, self.random.pick(&[-1, 1]));
        let any = 2f64.powi(self.random.below(2001) as i32 - 1000);
        let far = if self.random.often(300) { any } else { d };
        let unit = self.random.pick(&[d, far, 1.0, 1e-9, 1e-6, d * 2.0, d / 2.0, d * 3.0, d * 1000.0, d / 1000.0, near]);
        if unit.is_finite() && unit > 0.0 { unit } else { d }
    }

    /// What value / d is to be, about.
    fn scaled(&mut self) -> f64 {
        let whole = match self.random.below(6) {
            0 => self.random.between(0, 3) as f64,
            1 => self.random.between(0, 100_000) as f64,
            2 => self.random.between(0, 2_147_483_000) as f64,
            3 => (1_u64 << self.random.below(31)) as f64,
            4 => 2_147_483_647.0 - self.random.below(3) as f64,
            _ => self.random.between(0, 1_000) as f64,
        };
        let whole = if self.random.often(500) { -whole } else { whole };
        if self.on_grid {
            return whole;
        }
        match self.random.below(8) {
            0..=2 => whole,
            3 => whole + 0.5,
            4 => whole - 0.5,
            5 => whole + self.random.pick(&[0.25, -0.25, 0.75, 0.1, -0.3, 0.001]),
            6 => whole * self.random.unit(),
            _ => self.random.unit(),
        }
    }

    fn limit(&mut self) -> f64 {
        let limit = self.random.pick(&[2_147_483_647.0, -2_147_483_648.0, 2_147_483_648.0, -2_147_483_649.0]);
        limit + self.random.pick(&[0.0, 0.25, 0.5, 0.75, -0.25, -0.5, -0.75, 1.0, -1.0])
    }

    /// A double that is not of the ordinary.
    fn odd_double(&mut self) -> f64 {
        let odd = [
            TINY,
            -TINY,
            TINY * 2.0,
            f64::MIN_POSITIVE,
            -f64::MIN_POSITIVE,
            0.0,
            -0.0,
            1e300,
            -1e300,
            f64::MAX,
            f64::MIN,
            f64::NAN,
            f64::INFINITY,
            f64::NEG_INFINITY,
            4_503_599_627_370_496.5,
            0.499_999_999_999_999_94,
            -0.499_999_999_999_999_94,
        ];
        match self.random.below(4) {
            0 => f64::from_bits(self.random.next()),
            1 => f64::from_bits(self.random.next() >> 12),
            _ => self.random.pick(&odd),
        }
    }

    fn double(&mut self) -> Coordinate {
        let unit = self.good_unit();
        let scaled = if self.is_wild() || self.random.often(10) { self.limit() } else { self.scaled() };
        let value = scaled * self.d / unit;
        let steps =
            if self.on_grid { self.random.pick(&[0, 0, 0, 0, 1, -1]) } else { self.random.pick(&[0, 0, 0, 1, -1, 2, -2, 3]) };
        Coordinate::Double { value: stepped(value, steps), unit }
    }

    fn integer(&mut self) -> Coordinate {
        let unit = if self.on_grid || self.random.often(600) { self.d } else { self.good_unit() };
        let value = match self.random.below(5) {
            0 => self.random.pick(&[i32::MAX, i32::MIN, i32::MAX - 1, i32::MIN + 1, 0, 1, -1]),
            1 => self.random.next() as i32,
            _ => self.random.below(200_001) as i32 - 100_000,
        };
        Coordinate::Integer { value, unit }
    }

    fn tiny_double(&mut self) -> Coordinate {
        let value = self.random.pick(&[0.0, -0.0, TINY, -TINY, TINY * 2.0, -2.0 * TINY, self.d / 2.0, -self.d / 2.0, self.d]);
        Coordinate::Double { value, unit: 1.0 }
    }

    fn near_coordinate(&mut self) -> Coordinate {
        let whole = self.random.below(200_001) as i32 - 100_000;
        if self.random.often(300) {
            return Coordinate::Integer { value: whole, unit: self.d };
        }
        let beside = if self.on_grid { 0.0 } else { self.random.pick(&[0.0, 0.5, -0.5, 0.25, -0.3, 0.001]) };
        let unit = self.good_unit();
        let value = (f64::from(whole) + beside) * self.d / unit;
        Coordinate::Double { value: stepped(value, self.random.pick(&[0, 0, 0, 1, -1])), unit }
    }

    /// Whether there are q whose q × d is beyond the doubles.
    fn is_huge(&self) -> bool {
        self.d > f64::MAX / 2_147_483_648.0
    }

    /// About the last places of a huge grid, on either side: the next place may be beyond the doubles.
    fn far_double(&mut self) -> Coordinate {
        let (last, any) = (stepped(f64::MAX, -(self.random.below(3) as i64)), f64::MAX * self.random.unit());
        let value = self.random.pick(&[last, 1.7e308, any, any]);
        Coordinate::Double { value: if self.random.often(500) { -value } else { value }, unit: 1.0 }
    }

    /// On a huge grid other coordinates are mostly refused.
    fn huge_coordinate(&mut self) -> Coordinate {
        match self.random.below(40) {
            0 => self.double(),
            1..=4 => self.tiny_double(),
            5..=9 => Coordinate::Integer { value: self.random.next() as i32, unit: self.d },
            _ if self.on_grid => Coordinate::Double { value: self.random.pick(&[0.0, self.d, -self.d]), unit: 1.0 },
            _ => self.far_double(),
        }
    }

    fn coordinate(&mut self) -> Coordinate {
        if self.is_wild() {
            return match self.random.below(3) {
                0 => Coordinate::Double { value: self.odd_double(), unit: self.good_unit() },
                1 => Coordinate::Double { value: self.random.unit(), unit: self.bad_unit() },
                _ => Coordinate::Integer { value: self.random.next() as i32, unit: self.bad_unit() },
            };
        }
        if let Some(last) = self.last
            && self.random.often(80)
        {
            return mirrored(last);
        }
        let made = match self.random.below(20) {
            _ if self.near => self.near_coordinate(),
            _ if self.is_huge() => self.huge_coordinate(),
            0 if !self.on_grid => self.tiny_double(),
            1..=7 => self.integer(),
            _ => self.double(),
        };
        self.last = Some(made);
        made
    }

    fn place(&mut self) -> Place {
        [self.coordinate(), self.coordinate()]
    }

    // ---- lists and strings

    fn points(&mut self, least: usize, greatest: usize) -> Vec<Place> {
        let count = if self.is_wild() {
            self.random.pick(&[least - 1, least, greatest, greatest + 1, 0])
        } else if self.random.often(4) {
            self.random.pick(&[greatest, greatest - 1])
        } else {
            self.random.between(least, (least + 8).min(greatest))
        };
        let mut points: Vec<Place> = if count <= 60 {
            (0..count).map(|_| self.place()).collect()
        } else {
            // long lists repeat a few points, so that most of them are accepted
            let wild = std::mem::replace(&mut self.wild, 0);
            let few: Vec<Place> = (0..9).map(|_| self.place()).collect();
            self.wild = wild;
            (0..count).map(|i| few[i % few.len()]).collect()
        };
        if self.random.often(300) {
            self.front_in_unit(&mut points);
        }
        points
    }

    /// Makes integers in the database unit, which pass unchanged, of the first points or of all.
    fn front_in_unit(&mut self, points: &mut [Place]) {
        let count = self.random.between(0, points.len());
        for coordinate in points[..count].iter_mut().flatten() {
            *coordinate = Coordinate::Integer { value: self.random.below(200_001) as i32 - 100_000, unit: self.d };
        }
    }

    fn closed(&mut self, mut points: Vec<Place>) -> Vec<Place> {
        let Some(first) = points.first().copied() else {
            return points;
        };
        let last = points.len() - 1;
        if self.is_wild() || self.random.often(10) {
            return points;
        }
        points[last] = first;
        if let Coordinate::Double { value, unit } = first[0]
            && self.random.often(100)
        {
            // ends that differ before conversion, and may still agree after it
            points[last][0] = Coordinate::Double { value: stepped(value, self.random.pick(&[1, -1, 5])), unit };
        }
        points
    }

    fn name(&mut self) -> Vec<u8> {
        const LETTERS: &[u8] = b"ABCXYZabcxyz0123456789_?$";
        let length = if self.is_wild() {
            self.random.pick(&[0, 1, 31, 32, 33, 40])
        } else {
            let length = self.random.between(1, 9);
            self.random.pick(&[length, length, length, 31, 32])
        };
        let mut name: Vec<u8> = (0..length).map(|_| self.random.pick(LETTERS)).collect();
        if self.is_wild() && length > 0 {
            let at = self.random.below(length);
            name[at] = self.random.pick(b" -.@[`{/:>#\0\x7f");
        }
        if self.random.often(self.wild / 4) {
            name.extend("é".as_bytes());
        }
        name
    }

    /// Of any length up to this, odd or even, and seldom a byte more.
    fn string(&mut self, greatest: usize) -> Vec<u8> {
        let length = if self.is_wild() {
            self.random.pick(&[greatest - 1, greatest, greatest + 1])
        } else {
            match self.random.below(12) {
                0 => 0,
                1 => 1,
                2 if greatest < 1000 => greatest,
                3 if greatest < 1000 => greatest - 1,
                _ => self.random.between(0, 20),
            }
        };
        self.utf8(length)
    }

    /// UTF-8 of this length, with zero bytes at times.
    fn utf8(&mut self, length: usize) -> Vec<u8> {
        let mut text = Vec::new();
        while text.len() < length {
            let letter = self.random.pick(&["a", "B", "7", " ", "é", "Ω", "𝄞", "\0", "\n"]);
            text.extend(if text.len() + letter.len() <= length { letter } else { "z" }.as_bytes());
        }
        text
    }

    /// Whether a property is beyond a limit: seldom also where nothing else is wild, since properties come last.
    fn is_beyond(&mut self) -> bool {
        let beyond = self.wild.max(5);
        self.random.often(beyond)
    }

    /// An attribute that the manual has not, at times with a low byte that it has.
    fn no_attribute(&mut self) -> u16 {
        match self.random.below(4) {
            0 => self.random.next() as u16 | 128,
            _ => self.random.pick(&[0, 0, 128, 128, 129, 255, 256, 257, 383, 0x7f00, 0x8001, 65_535]),
        }
    }

    fn attribute(&mut self) -> u16 {
        if self.is_beyond() {
            return self.no_attribute();
        }
        match self.random.below(3) {
            0 => self.random.pick(&[1, 2, 126, 127]),
            _ => self.random.between(1, 127) as u16,
        }
    }

    /// At most so many bytes; a short limit is often met.
    fn tame_string(&mut self, greatest: usize) -> Vec<u8> {
        let wild = std::mem::replace(&mut self.wild, 0);
        let string = self.string(greatest);
        self.wild = wild;
        string
    }

    /// Above the manual's limit, gdsr's being far above.
    fn too_long_value(&mut self) -> Vec<u8> {
        if self.random.often(200) {
            return self.long_string();
        }
        let length = self.random.pick(&[127, 127, 127, 128, 129, 253, 254, 255, 256, 382, 512, 513, 1000]);
        self.utf8(length)
    }

    fn value(&mut self) -> Vec<u8> {
        if self.is_beyond() { self.too_long_value() } else { self.tame_string(126) }
    }

    /// At times with an attribute and a value beyond their limits, in one property or in two.
    fn properties(&mut self) -> Vec<Property> {
        let count = if self.random.often(700) { 0 } else { self.random.between(1, 4) };
        let mut properties: Vec<Property> =
            (0..count).map(|_| Property { attribute: self.attribute(), value: self.value() }).collect();
        if count > 0 && self.is_beyond() {
            let [one, other] = [self.random.below(count), self.random.below(count)];
            properties[one].attribute = self.no_attribute();
            properties[other].value = self.too_long_value();
        }
        properties
    }

    fn long_string(&mut self) -> Vec<u8> {
        vec![b'v'; self.random.pick(&[65_529, 65_530, 65_531, 65_535])]
    }

    /// A library's name, which its record limits: seldom at the limit, since it is long.
    fn library_name(&mut self) -> Vec<u8> {
        if self.is_wild() || self.random.often(6) { self.long_string() } else { self.tame_string(65_530) }
    }

    fn number(&mut self) -> u16 {
        if self.is_wild() {
            return self.random.pick(&[254, 255, 256, 257, 32768, 65535]);
        }
        match self.random.below(4) {
            0 => self.random.pick(&[0, 1, 254, 255]),
            _ => self.random.below(256) as u16,
        }
    }

    fn text_type(&mut self) -> u16 {
        // texts are few, so more of them are beyond the limit
        if self.random.often((2 * self.wild).max(10)) {
            return self.random.pick(&[256, 256, 256, 257, 511, 512, 0x7fff, 0x8000, 0x80ff, 0xff00, 65_535]);
        }
        match self.random.below(4) {
            0 => self.random.pick(&[0, 1, 254, 255]),
            _ => self.random.below(256) as u16,
        }
    }

    // ---- turns

    fn angle(&mut self) -> f64 {
        use std::f64::consts::PI;
        if self.is_wild() {
            return match self.random.below(3) {
                0 => self.odd_double(),
                1 => stepped(2f64.powi(252) / 57.295_779_513_082_32, self.random.below(9) as i64 - 4),
                _ => stepped(2f64.powi(-260) / 57.295_779_513_082_32, self.random.below(9) as i64 - 4),
            };
        }
        match self.random.below(8) {
            0..=2 => 0.0,
            3 => -0.0,
            4 => PI / 2.0 * (self.random.below(9) as f64 - 4.0),
            5 => PI / 12.0 * (self.random.below(49) as f64 - 24.0),
            6 => self.random.unit() * 2.0 * PI,
            _ => self.random.unit() * self.random.pick(&[1e-9, 1.0, 1e5, 1e-100, 1e20]),
        }
    }

    fn magnification(&mut self) -> f64 {
        if self.is_wild() {
            let near = stepped(self.random.pick(&[2f64.powi(252), 2f64.powi(-260)]), self.random.below(5) as i64 - 2);
            let odd = self.odd_double();
            return self.random.pick(&[near, odd, 0.0, -0.0, -1.0, f64::NEG_INFINITY, -1e300, f64::NAN]);
        }
        let near_one = stepped(1.0, self.random.below(3) as i64 - 1);
        let any = (self.random.unit() * 300.0).exp2();
        self.random.pick(&[1.0, 1.0, 1.0, 2.0, 0.5, 0.1, 16.0, 15.999, near_one, any.clamp(1e-70, 1e70)])
    }

    fn turn(&mut self) -> (Turn, f64) {
        let angle = self.angle();
        let degrees = Radians::new(angle).to_degrees().value();
        let turn = Turn { reflection: self.random.often(300), magnification: self.magnification(), degrees };
        (turn, angle)
    }

    // ---- elements

    fn shape(&mut self, kind: u8) -> Body {
        let points = if kind == 1 {
            let points = self.points(4, 8191);
            self.closed(points)
        } else {
            self.points(1, 50)
        };
        Body::Shape { kind, layer: self.number(), data_type: self.number(), points }
    }

    fn path(&mut self) -> Body {
        let path_type = self.random.pick(&[None, Some(0), Some(1), Some(2)]);
        let mut length = || if self.random.often(500) { None } else { Some(()) };
        let present = [length(), length(), length()];
        let lengths = present.map(|length| length.map(|()| self.coordinate()));
        Body::Path { layer: self.number(), data_type: self.number(), path_type, lengths, points: self.points(2, 8191) }
    }

    fn text(&mut self) -> Body {
        let presentation = [self.random.below(3) as u8, self.random.below(3) as u8];
        let (turn, _) = self.turn();
        Body::Text {
            layer: self.number(),
            text_type: self.text_type(),
            presentation,
            turn,
            origin: self.place(),
            value: self.string(512),
        }
    }

    fn count(&mut self) -> u32 {
        if self.is_wild() {
            return self.random.pick(&[0, 1, 2, 32_767, 32_768, 65_536, u32::MAX, 1 << 31]);
        }
        match self.random.below(6) {
            0 | 1 => 1,
            2 => self.random.pick(&[2, 3, 32_767, 32_766, 16_384]),
            3 => self.random.between(1, 32_767) as u32,
            _ => self.random.between(1, 20) as u32,
        }
    }

    /// A spacing whose endpoints mostly stay within 32 bits.
    fn spacing(&mut self, count: u32) -> Place {
        if self.random.often(50) {
            return self.place();
        }
        let reach = 1_000_000_000.0 / f64::from(count.clamp(1, 40_000));
        let mut axis = || {
            let scaled = match self.random.below(4) {
                0 => 0.0,
                1 => (reach * self.random.unit()).round(),
                2 => (reach * self.random.unit()).round() + 0.5,
                _ => reach * self.random.unit(),
            };
            let scaled = if self.on_grid { scaled.round() } else { scaled };
            let unit = self.good_unit();
            if self.random.often(200) {
                return Coordinate::Integer { value: scaled as i32, unit: self.d };
            }
            Coordinate::Double { value: scaled * self.d / unit, unit }
        };
        [axis(), axis()]
    }

    /// One that is needed is absent only to be refused.
    fn spacings(&mut self, counts: [u32; 2]) -> [Option<Place>; 2] {
        counts.map(|count| {
            let absent = if count > 1 { self.is_wild() } else { self.random.often(500) };
            if absent { None } else { Some(self.spacing(count)) }
        })
    }

    /// A near origin, so that endpoints mostly stay within 32 bits.
    fn array_origin(&mut self) -> Place {
        if self.random.often(200) { self.place() } else { self.spacing(100_000) }
    }

    /// The angle's pair; where any will do, at times another; seldom one that is refused.
    fn pair(&mut self, own: [f64; 2]) -> [f64; 2] {
        if self.random.often(self.wild) {
            let beyond = self.random.pick(&[stepped(1.0, 1), -stepped(1.0, 1), 2.0, -1e300, f64::NAN, f64::INFINITY, 1.0]);
            return if self.random.often(500) { [beyond, own[1]] } else { [own[0], beyond] };
        }
        if !self.any_pair || self.random.often(300) {
            return own;
        }
        let mut number = || {
            let any = self.random.unit();
            let small = any * 2f64.powi(-(self.random.below(1074) as i32));
            self.random.pick(&[0.0, -0.0, 1.0, -1.0, 0.5, -0.25, 0.6, 0.8, stepped(1.0, -1), TINY, small, any, any, any])
        };
        [number(), number()]
    }

    /// An origin and spacings in which the two products of a turn, or an endpoint's product and sum, cancel to their last bits.
    fn cancelling(&mut self, counts: [u32; 2], pair: [f64; 2]) -> (Place, [Option<Place>; 2]) {
        let metres = |value| Coordinate::Double { value, unit: 1.0 };
        let [sine, cosine] = pair;
        let mut turned = [0.0; 2];
        let spacings = [0, 1].map(|at| {
            let reach = 100_000_000 / counts[at].clamp(1, 40_000) as usize;
            let size = (1 + self.random.below(reach)) as f64 * self.d;
            let off = size * self.random.unit();
            let [a, b] = match self.random.below(3) {
                0 => [sine * size, cosine * size],
                1 => [cosine * size, -sine * size],
                _ => [size, off],
            };
            if at == 0 {
                turned = [a.mul_add(cosine, -(b * sine)), a.mul_add(sine, b * cosine)];
            }
            Some([metres(a), metres(b)])
        });
        let back = turned.map(|step| -step * f64::from(counts[0]));
        let steps = self.random.pick(&[0, 0, 1, -1]);
        let origin =
            if self.random.often(500) { back.map(|value| metres(stepped(value, steps))) } else { [metres(0.0), metres(0.0)] };
        (origin, spacings)
    }

    /// An origin and spacings on a huge grid whose endpoints are doubles. Where the grid has the endpoints, q × d may be beyond
    /// the doubles, or only its distance from p.
    fn far_array(&mut self, counts: [u32; 2]) -> (Place, [Option<Place>; 2]) {
        let metres = |value| Coordinate::Double { value, unit: 1.0 };
        let mut far = || [f64::MAX * self.random.unit(), f64::MAX * self.random.unit()];
        let origin = far();
        let spacings = counts.map(|count| {
            let (count, end) = (f64::from(count.max(1)), far());
            Some([0, 1].map(|axis| metres(end[axis] / count - origin[axis] / count)))
        });
        (origin.map(metres), spacings)
    }

    /// An array whose first product lies exactly between two doubles, so that the least second product decides the rounding.
    fn between_doubles(&mut self) -> Body {
        let metres = |value| Coordinate::Double { value, unit: 1.0 };
        let (first, second) = (67_108_865.0, 134_217_729.0 / 268_435_456.0);
        let size = self.d * 2f64.powi(self.random.below(30) as i32 - 26);
        let least = self.random.unit() * 2f64.powi(-(self.random.below(1074) as i32));
        let degrees = Radians::new(self.random.unit()).to_degrees().value();
        let part = self.d * self.random.unit();
        let other = self.random.pick(&[0.0, self.d, part, size]);
        let pair = self.random.pick(&[[least, second], [second, least], [-second, least], [least, -second], [0.0, second]]);
        let spacing = self.random.pick(&[[first * size, other], [other, first * size], [-first * size, other]]);
        Body::Reference {
            name: b"B".to_vec(),
            counts: [1, self.random.between(2, 5) as u32],
            turn: Turn { reflection: false, magnification: 1.0, degrees },
            pair,
            origin: [metres(0.0), metres(0.0)],
            spacings: [Some(spacing.map(metres)), Some([metres(0.0), metres(0.0)])],
        }
    }

    fn reference(&mut self) -> Body {
        if self.any_pair && self.random.often(60) {
            return self.between_doubles();
        }
        let single = self.random.often(300);
        let mut counts = if single { [1, 1] } else { [self.count(), self.count()] };
        let (turn, angle) = self.turn();
        let (sine, cosine) = angle.sin_cos();
        let pair = self.pair([sine, cosine]);
        let special = self.random.often(if self.is_huge() { 800 } else { 250 });
        let (origin, spacings) = match (single, special) {
            (true, _) => (self.place(), self.spacings(counts)),
            (_, true) if self.is_huge() => self.far_array(counts),
            (_, true) => self.cancelling(counts, pair),
            _ if self.random.often(150) => {
                // the two spacings, and maybe the two endpoints, deviate as far to either side
                counts[1] = counts[0];
                let spacing = self.spacing(counts[0]);
                (self.array_origin(), [Some(spacing), Some(spacing.map(mirrored))])
            }
            _ => (self.array_origin(), self.spacings(counts)),
        };
        Body::Reference { name: self.name(), counts, turn, pair, origin, spacings }
    }

    /// The same or a little beside, as a double: conversion may bring the two to one place.
    fn beside(&mut self, coordinate: Coordinate) -> Coordinate {
        let (value, unit) = match coordinate {
            Coordinate::Integer { value, unit } => (f64::from(value), unit),
            Coordinate::Double { value, unit } => (value, unit),
        };
        let part = if self.on_grid { 0.0 } else { self.random.pick(&[0.0, 0.0, 0.1, -0.1, 0.25, -0.25, 0.5]) };
        let value = stepped(value + part * self.d / unit, self.random.pick(&[0, 0, 1, -1, 3]));
        Coordinate::Double { value, unit }
    }

    /// Each coordinate of a corner by itself; or the other corner's, a little beside it, or mirrored, at times in both alike.
    fn corners(&mut self) -> [Place; 2] {
        let one = self.place();
        let sort = self.random.below(6);
        let sorts = [sort, if self.random.often(300) { sort } else { self.random.below(6) }];
        let other = [0, 1].map(|axis| match sorts[axis] {
            0 => one[axis],
            1 => self.beside(one[axis]),
            2 => mirrored(one[axis]),
            _ => self.coordinate(),
        });
        if self.random.often(500) { [one, other] } else { [other, one] }
    }

    fn gds_box(&mut self) -> Body {
        let [first, second] = self.corners();
        Body::Box { layer: self.number(), box_type: self.number(), first, second }
    }

    fn flags(&mut self) -> u16 {
        // few elements have flags, so more of them are beyond the limit
        if self.random.often(4 * self.wild) {
            return self.random.pick(&[4, 5, 7, 0x0100, 0x0103, 0x4000, 0x8000, 0xc000, 65_535]);
        }
        self.random.below(4) as u16
    }

    fn plex(&mut self) -> i32 {
        match self.random.below(3) {
            0 => self.random.pick(&[0, 1, -1, i32::MAX, i32::MAX - 1, i32::MIN, i32::MIN + 1]),
            // about the 24 bits of the manual
            1 => self.random.pick(&[0x00ff_ffff, 0x0100_0000, 0x0100_0001, -0x00ff_ffff, -0x0100_0000, 0x007f_ffff, 0x0080_0000]),
            _ => self.random.next() as i32,
        }
    }

    /// Flags, a plex number or both, in a fifth of the elements.
    fn options(&mut self) -> Options {
        if !self.options || !self.random.often(200) {
            return Options::default();
        }
        let (flags, plex) = self.random.pick(&[(true, false), (false, true), (true, true)]);
        Options { flags: flags.then(|| self.flags()), plex: plex.then(|| self.plex()) }
    }

    fn element(&mut self) -> Element {
        let body = match self.random.below(7) {
            0 => self.shape(1),
            1 => self.path(),
            2 => self.text(),
            3 => self.shape(4),
            4 => self.gds_box(),
            _ => self.reference(),
        };
        Element { options: self.options(), body, properties: self.properties() }
    }

    fn stamp(&mut self) -> [u16; 6] {
        let year = match self.random.below(3) {
            0 => self.random.pick(&[1, 4, 100, 400, 1900, 2000, 2024, 2100, 9999]),
            _ => self.random.between(1, 9999),
        } as u16;
        let mut stamp = [
            year,
            self.random.between(1, 12) as u16,
            self.random.between(1, 28) as u16,
            self.random.between(0, 23) as u16,
            self.random.between(0, 59) as u16,
            self.random.between(0, 59) as u16,
        ];
        if self.random.often(300) {
            // the ends of months, February's above all
            stamp[1] = self.random.pick(&[2, 2, 2, 4, 6, 9, 11, 1, 12]);
            stamp[2] = if self.is_wild() { self.random.between(28, 32) as u16 } else { 28 };
        }
        if self.is_wild() {
            let at = self.random.below(6);
            stamp[at] = self.random.pick(&[0, 10_000, 13, 32, 24, 60, 59, 32_767, 32_768, 65_535]);
        }
        stamp
    }

    fn stamps(&mut self) -> [u16; 12] {
        let mut stamps = [0; 12];
        if self.random.often(600) {
            stamps[..6].copy_from_slice(&self.stamp());
            stamps[6..].copy_from_slice(&self.stamp());
            if self.random.often(self.wild / 4) {
                stamps[..6].fill(0);
            }
        }
        stamps
    }

    fn head(&mut self) -> Head {
        let stamps = self.stamps();
        Head { name: self.name(), stamps }
    }

    /// The head and so many elements, in half of the cells with options.
    fn cell(&mut self, count: usize) -> Vec<Vec<u8>> {
        self.options = self.random.often(500);
        let mut blocks = vec![head_block(&self.head())];
        for _ in 0..count {
            blocks.push(element_block(&self.element()));
        }
        blocks
    }

    // ---- libraries

    fn user_unit(&mut self) -> f64 {
        if self.is_wild() {
            return match self.random.below(3) {
                0 => self.bad_unit(),
                1 => self.odd_double(),
                _ => end_of_reals(self.random),
            };
        }
        match self.random.below(8) {
            0 => self.random.pick(&[2f64.powi(-260), stepped(2f64.powi(252), -1)]),
            1 => encodable(self.random),
            _ => self.random.pick(&[1e-3, 1e-6, 1.0, 0.1, 2.0, 1e-9, self.d]),
        }
    }

    fn library_head(&mut self) -> LibraryHead {
        let stamps = self.stamps();
        LibraryHead { name: self.library_name(), user_unit: self.user_unit(), stamps }
    }

    /// A few cells, in half of the libraries by their names, at times with a name twice. Only one part of the library is wild:
    /// block 0, or a cell.
    fn library(&mut self, count: usize) -> (LibraryHead, Vec<Vec<Vec<u8>>>) {
        let wild = std::mem::replace(&mut self.wild, 0);
        let wild_part = self.random.between(0, count);
        let part = |maker: &mut Self, at| maker.wild = if at == wild_part { wild } else { 0 };
        part(self, 0);
        let head = self.library_head();
        let mut cells: Vec<Vec<Vec<u8>>> = Vec::new();
        for at in 1..=count {
            part(self, at);
            let elements = self.random.pick(&[0, 1, 1, 1, 2, 2, 3, 5]);
            cells.push(self.cell(elements));
        }
        if count > 1 && self.random.often(100) {
            cells[count - 1][0] = cells[0][0].clone();
        }
        if self.random.often(500) {
            cells.sort_by_key(|blocks| head_of(&blocks[0]).map(|head| head.name));
        }
        (head, cells)
    }
}

/// About the least and the greatest double that an eight-byte real holds.
fn end_of_reals(random: &mut Random) -> f64 {
    stepped(random.pick(&[2f64.powi(-260), 2f64.powi(252)]), random.below(5) as i64 - 2)
}

/// A positive double that an eight-byte real holds.
fn encodable(random: &mut Random) -> f64 {
    let size = random.below(512) as i32 - 260;
    (1.0 + random.unit().abs() / 2.0) * 2f64.powi(size)
}

// ---- damage

/// One fault in the blocks, whose pairs then fit again, or in the bytes of the sheet.
fn damage(random: &mut Random, blocks: &mut Vec<Vec<u8>>) -> Vec<u8> {
    let k = random.below(blocks.len());
    let length = blocks[k].len();
    match random.below(14) {
        0 => blocks[k].push(random.next() as u8),
        1 => blocks[k].truncate(length - 1),
        2 => blocks[k].truncate(random.below(length)),
        3 => blocks[k][0] = random.pick(&[0, 1, 2, 3, 4, 5, 6, 7, 16, 23, 32, 39, 48, 55, 255]),
        4 | 5 => blocks[k][random.below(length)] ^= 1 << random.below(8),
        6 => blocks[k][random.below(length)] = random.pick(&[0, 1, 2, 3, 127, 128, 255]),
        7 => {
            blocks[k].remove(random.below(length));
        }
        8 => blocks[k].insert(random.below(length), random.next() as u8),
        9 => {
            let other = blocks[random.below(blocks.len())].clone();
            blocks.push(other);
        }
        10 => without_coordinate(random, &mut blocks[k]),
        11 => raised(random, &mut blocks[k]),
        _ => return damaged_bytes(random, sheet_of(blocks)),
    }
    sheet_of(blocks)
}

/// An absent coordinate in an element's points, origin or corners, where none may be absent; a head has none.
fn without_coordinate(random: &mut Random, block: &mut [u8]) {
    let (kind, start) = (kind_of(block[0]), body_start(block[0]));
    let body = &mut block[start..];
    let two = |at: usize| usize::from(u16::from_be_bytes([body[at], body[at + 1]]));
    let (first, count) = match kind {
        1 | 4 => (6, 2 * two(4)),
        2 => (58, 2 * two(56)),
        3 => (23, 2),
        5 => (43 + two(0), 2),
        6 => (4, 4),
        _ => return,
    };
    if count > 0 {
        let at = first + 17 * random.below(count);
        body[at] = 2;
        body[at + 1..at + 17].fill(0);
    }
}

/// A kind byte that says other options, or that is above all: and nothing else, the block cut within its options, or options
/// that fit the byte.
fn raised(random: &mut Random, block: &mut Vec<u8>) {
    let start = body_start(block[0]);
    block[0] ^= random.pick(&[16, 32, 48, 64, 128]);
    let wanted = body_start(block[0]);
    match random.below(3) {
        0 => block.truncate(random.between(1, wanted)),
        1 => {
            let bytes: Vec<u8> = (1..wanted).map(|_| random.pick(&[0, 0, 0, 1, 2, 3, 4, 128, 255])).collect();
            block.splice(1..start, bytes);
        }
        _ => {}
    }
}

fn damaged_bytes(random: &mut Random, mut sheet: Vec<u8>) -> Vec<u8> {
    match random.below(5) {
        0 => sheet.truncate(random.below(sheet.len())),
        1 => sheet.push(random.next() as u8),
        2 => {
            let at = random.below(sheet.len().min(40));
            sheet[at] ^= 1 << random.below(8);
        }
        3 => {
            let at = random.below(sheet.len());
            sheet[at] = random.next() as u8;
        }
        _ => {
            let pairs = u32::from_be_bytes([sheet[0], sheet[1], sheet[2], sheet[3]]) as i64;
            let count = random.pick(&[0, pairs - 1, pairs + 1, 16_384, 16_385, 0xffff_ffff, 0x2000_0000]);
            sheet[..4].copy_from_slice(&(count as u32).to_be_bytes());
        }
    }
    sheet
}

// ---- whole inputs

fn no_database_unit(random: &mut Random) -> f64 {
    random.pick(&[0.0, -0.0, -1.0, f64::NAN, f64::INFINITY, f64::NEG_INFINITY])
}

fn database_unit(random: &mut Random) -> f64 {
    if random.often(8) {
        return no_database_unit(random);
    }
    match random.below(12) {
        0..=3 => 1.0,
        4 | 5 => 1e-9,
        6 => 1e-6,
        7 => random.pick(&[2f64.powi(-30), 1e-3, 0.1, 3.0, 1e-10]),
        8 => random.pick(&[TINY, TINY * 3.0, f64::MIN_POSITIVE, f64::MIN_POSITIVE / 2.0, stepped(f64::MIN_POSITIVE, 1)]),
        9 => {
            let any = f64::MAX * random.unit().abs();
            random.pick(&[1e300, f64::MAX, f64::MAX / 1.5, f64::MAX / 2.0, 2f64.powi(1023), 1e250, 1e308, 1e308, any])
        }
        10 => f64::from_bits(random.next() >> 1).abs().clamp(TINY, f64::MAX),
        _ => random.unit().abs().max(1e-12),
    }
}

/// The database unit of a library: it must be encodable, too.
fn library_database_unit(random: &mut Random) -> f64 {
    if random.often(8) {
        return no_database_unit(random);
    }
    match random.below(16) {
        0 => database_unit(random),
        1 => end_of_reals(random),
        2 => encodable(random),
        3..=6 => 1e-9,
        7 => random.pick(&[2f64.powi(-30), 1e-3, 0.1, 3.0, 1e-6]),
        _ => 1.0,
    }
}

fn policy(random: &mut Random) -> u8 {
    if random.often(4) { random.pick(&[4, 5, 128, 255]) } else { random.below(4) as u8 }
}

fn maker(random: &mut Random, policy: u8, d: f64, any_pair: bool) -> Maker<'_> {
    let wild = random.pick(&[0, 0, 0, 0, 0, 12, 12, 40, 250]);
    let on_grid = random.often(if policy == 3 { 850 } else { 150 });
    let d = if d.is_finite() && d > 0.0 { d } else { 1.0 };
    Maker { random, d, wild, on_grid, near: false, any_pair, last: None, options: false }
}

pub fn input(random: &mut Random, any_pair: bool) -> Input {
    let policy = policy(random);
    let d = database_unit(random);
    let mut maker = maker(random, policy, d, any_pair);
    let count = match maker.random.below(40) {
        0 => maker.random.between(20, 60),
        1..=9 => maker.random.between(3, 8),
        _ => maker.random.between(0, 3),
    };
    let mut blocks = maker.cell(count);
    let damaged = random.often(200);
    let sheet = if damaged { damage(random, &mut blocks) } else { sheet_of(&blocks) };
    Input { job: Job::Cell, policy, d, sheet, damaged }
}

/// A library; where it is damaged, then a cell's sheet or the library's own.
pub fn library_input(random: &mut Random) -> Input {
    let policy = policy(random);
    let d = library_database_unit(random);
    let mut maker = maker(random, policy, d, false);
    maker.near = maker.random.often(700);
    let count = match maker.random.below(40) {
        0 => maker.random.between(20, 60),
        1..=9 => maker.random.between(3, 8),
        10 | 11 => 0,
        _ => maker.random.between(1, 3),
    };
    let (head, mut cells) = maker.library(count);
    let damaged = random.often(200);
    let damaged_cell = if damaged && count > 0 && random.often(500) { Some(random.below(count)) } else { None };
    let mut blocks = vec![library_head_block(&head)];
    for (number, cell) in cells.iter_mut().enumerate() {
        blocks.push(if damaged_cell == Some(number) { damage(random, cell) } else { sheet_of(cell) });
    }
    let sheet = if damaged && damaged_cell.is_none() { damage(random, &mut blocks) } else { sheet_of(&blocks) };
    Input { job: Job::Library, policy, d, sheet, damaged }
}
