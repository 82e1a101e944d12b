//! What to expect of a writer for an input: gdsr's answer, or that of a check which the documents add.
use crate::answer::{
    Answer, GdsrCell, GdsrElement, Pairs, angles_of, gdsr_answer, gdsr_cell, gdsr_element, gdsr_library, gdsr_library_head,
    number_of, policy_of, refused,
};
use crate::input::{Input, Job};
use crate::pairs;
use crate::sheet::{self, Body, Coordinate, Turn};
use std::collections::BTreeMap;
use std::ops::RangeInclusive;

/// The manual has two flags, of the values 1 and 2.
const MAX_FLAGS: u16 = 3;

/// Limits of the manual that gdsr has not (document 02, request 6). A value's bytes are counted without padding.
const MAX_TEXT_TYPE: u16 = 255;
const ATTRIBUTES: RangeInclusive<u16> = 1..=127;
const MAX_VALUE: usize = 126;

/// Where an expected answer comes from.
pub enum Expected {
    /// gdsr's answer.
    Gdsr(Answer),
    /// A check that the documents add, with no counterpart in gdsr; what stands before it was gdsr's.
    Added(Answer),
    /// A limit of the manual that gdsr has not, so that it accepts the cell or refuses it otherwise; what comes before the limit
    /// was gdsr's.
    Limit(Answer),
    /// The block, and everything before it passes in gdsr, but gdsr cannot be given the block itself.
    NoCounterpart { cell: Option<usize>, block: usize, why: &'static str },
}

impl Expected {
    /// The same of a library's cell.
    fn in_cell(self, number: usize) -> Self {
        let placed = |answer| match answer {
            Answer::Refused { number: refusal, block, .. } => Answer::Refused { number: refusal, cell: Some(number), block },
            accepted => accepted,
        };
        match self {
            Self::Gdsr(answer) => Self::Gdsr(placed(answer)),
            Self::Added(answer) => Self::Added(placed(answer)),
            Self::Limit(answer) => Self::Limit(placed(answer)),
            Self::NoCounterpart { block, why, .. } => Self::NoCounterpart { cell: Some(number), block, why },
        }
    }
}

/// How many cases each limit that gdsr has not was met in, by its number.
#[derive(Default)]
pub struct PassedOver(BTreeMap<u8, usize>);

impl PassedOver {
    pub fn add(&mut self, number: u8) {
        *self.0.entry(number).or_default() += 1;
    }

    /// Of all three numbers, also where there is none.
    pub fn words(&self) -> String {
        let of = |number| format!("{} by {number}", self.0.get(&number).copied().unwrap_or_default());
        [9, 10, 27].map(of).join(", ")
    }
}

// ---- cells

/// An array that document 01 refuses by 15 at the latest, with the pair of its degrees in the place of its own.
fn beyond_one(element: &sheet::Element) -> Option<sheet::Element> {
    let mut with_own = element.clone();
    match &mut with_own.body {
        Body::Reference { counts, pair, turn, .. } if *counts != [1, 1] && pair.iter().any(|x| !(-1.0..=1.0).contains(x)) => {
            let (sine, cosine) = angles_of(turn.degrees).first()?.sin_cos();
            *pair = [sine, cosine];
            Some(with_own)
        }
        _ => None,
    }
}

/// "15 after 14": what comes before it is gdsr's, with any pair.
fn refused_by_15(with_own: &sheet::Element, d: f64, policy: u8, k: usize) -> Expected {
    let head = sheet::Head { name: b"A".to_vec(), stamps: [0; 12] };
    match gdsr_element(with_own, &mut Pairs::default()) {
        Err(why) => Expected::NoCounterpart { cell: None, block: k, why },
        Ok(element) => {
            let alone = gdsr_cell(&head, vec![element]).expect("no stamps");
            match gdsr_answer(&alone, d, policy) {
                Answer::Refused { number: number @ (7 | 11..=14), .. } => Expected::Gdsr(refused(number, k)),
                _ => Expected::Added(refused(15, k)),
            }
        }
    }
}

/// The number of the first limit that gdsr has not and the element is beyond: a text's type comes directly after its layer, the
/// properties after all else, one after the other, of each the attribute, then the value.
fn limit_of(element: &sheet::Element) -> Option<u8> {
    if matches!(element.body, Body::Text { text_type, .. } if text_type > MAX_TEXT_TYPE) {
        return Some(9);
    }
    element.properties.iter().find_map(|property| {
        if !ATTRIBUTES.contains(&property.attribute) {
            Some(27)
        } else if property.value.len() > MAX_VALUE {
            Some(10)
        } else {
            None
        }
    })
}

/// What of an element beyond such a limit is left to gdsr: all that is checked before, and what it refuses by the same number.
fn left_to_gdsr(mut element: sheet::Element, number: u8) -> sheet::Element {
    if number == 10 {
        // gdsr asks for their lengths alone, and has a limit of its own
        element.properties.iter_mut().for_each(|property| property.value.fill(b'x'));
    } else {
        element.properties.clear();
    }
    if number == 9
        && let Body::Text { turn, origin, value, .. } = &mut element.body
    {
        // the layer alone is checked before
        *turn = Turn { reflection: false, magnification: 1.0, degrees: 0.0 };
        *origin = [Coordinate::Double { value: 0.0, unit: 1.0 }; 2];
        value.clear();
    }
    element
}

/// The elements up to the first that is ill-formed, that has other flags than the manual's or that gdsr cannot be given; or up to
/// and with the first that is beyond a limit that gdsr has not, of which gdsr is given what is left to it.
fn elements_until(blocks: &[&[u8]], d: f64, policy: u8, pairs: &mut Pairs) -> (Vec<GdsrElement>, Option<Expected>) {
    let mut elements = Vec::new();
    for (k, block) in blocks.iter().enumerate().skip(1) {
        let Some(element) = sheet::element_of(block) else {
            return (elements, Some(Expected::Added(refused(5, k))));
        };
        if element.options.flags.is_some_and(|flags| flags > MAX_FLAGS) {
            return (elements, Some(Expected::Added(refused(26, k))));
        }
        if let Some(with_own) = beyond_one(&element) {
            return (elements, Some(refused_by_15(&with_own, d, policy, k)));
        }
        let limit = limit_of(&element);
        let element = if let Some(number) = limit { left_to_gdsr(element, number) } else { element };
        match gdsr_element(&element, pairs) {
            Ok(element) => elements.push(element),
            Err(why) => return (elements, Some(Expected::NoCounterpart { cell: None, block: k, why })),
        }
        if let Some(number) = limit {
            return (elements, Some(Expected::Limit(refused(number, k))));
        }
    }
    (elements, None)
}

fn empty_cell_is_refused(d: f64) -> bool {
    let zero = gdsr::timestamps(&[0; 12]).expect("all zero");
    gdsr::write_one_cell(&gdsr::Cell::new("A"), d, policy_of(0), zero).is_err()
}

/// The cell as far as gdsr can be given it, and what to expect, where gdsr accepts that, at the block where it cannot; or a
/// refusal before its elements.
fn cell_until(given: &[u8], d: f64, policy: u8, pairs: &mut Pairs) -> Result<(GdsrCell, Option<Expected>), Expected> {
    let blocks = sheet::blocks_of(given).ok_or(Expected::Added(refused(4, 0)))?;
    let head = sheet::head_of(blocks[0]).ok_or(Expected::Added(refused(5, 0)))?;
    let (elements, stop) = elements_until(&blocks, d, policy, pairs);
    let cell = gdsr_cell(&head, elements).map_err(|error| Expected::Gdsr(refused(number_of(&error), 0)))?;
    if String::from_utf8(head.name).is_err() {
        return Err(Expected::Added(refused(7, 0)));
    }
    Ok((cell, stop))
}

/// From a cell's 4 on.
fn expected_cell(given: &[u8], d: f64, policy: u8, any_pair: bool) -> Expected {
    let mut pairs = Pairs { any: any_pair, ..Pairs::default() };
    let (cell, stop) = match cell_until(given, d, policy, &mut pairs) {
        Ok(until) => until,
        Err(expected) => return expected,
    };
    let answer = pairs::with(pairs.set, || gdsr_answer(&cell, d, policy));
    match (answer, stop) {
        (Answer::Accepted { .. }, Some(stop)) => stop,
        (answer, _) => Expected::Gdsr(answer),
    }
}

// ---- libraries

/// The name as gdsr can be given it, and whether it is the sheet's: the checks ask for its length alone.
fn library_name(head: &sheet::LibraryHead) -> (String, bool) {
    let name = String::from_utf8(head.name.clone());
    let own = name.is_ok();
    (name.unwrap_or_else(|_| "x".repeat(head.name.len())), own)
}

/// From the library's 23 on: the file's own records, and each cell as it is alone.
fn expected_library(given: &[u8], d: f64, policy: u8, any_pair: bool) -> Expected {
    let Some(blocks) = sheet::blocks_of(given) else {
        return Expected::Added(refused(23, 0));
    };
    let Some(head) = sheet::library_head_of(blocks[0]) else {
        return Expected::Added(refused(23, 0));
    };
    let (name, own) = library_name(&head);
    let mut bytes = match gdsr_library_head(&name, &head, d) {
        Ok(bytes) => bytes,
        Err(number) => return Expected::Gdsr(refused(number, 0)),
    };
    let (mut entries, mut greatest) = (Vec::new(), 0.0_f64);
    for (number, block) in blocks[1..].iter().enumerate() {
        match expected_cell(block, d, policy, any_pair) {
            Expected::Gdsr(Answer::Accepted { bytes: structure, entries: of_cell, greatest: error }) => {
                bytes.extend(structure);
                for entry in of_cell.chunks(Job::Cell.entry_length()) {
                    entries.extend((number as u32).to_be_bytes());
                    entries.extend(entry);
                }
                greatest = greatest.max(f64::from_bits(error));
            }
            other => return other.in_cell(number),
        }
    }
    if !own {
        return Expected::NoCounterpart { cell: None, block: 0, why: "the library's name is not UTF-8" };
    }
    bytes.extend(gdsr::write_library_tail().expect("no limit"));
    Expected::Gdsr(Answer::Accepted { bytes, entries, greatest: greatest.to_bits() })
}

/// gdsr's answer for the whole file, of a refusal the number alone, where its head passes and gdsr can be given every cell
/// with the names in ascending order, none twice: gdsr sorts by them and keeps one cell of a name.
pub fn whole_file(given: &Input) -> Option<Result<Answer, u8>> {
    let blocks = sheet::blocks_of(&given.sheet)?;
    let head = sheet::library_head_of(blocks[0])?;
    let (name, own) = library_name(&head);
    if !own || gdsr_library_head(&name, &head, given.d).is_err() {
        return None;
    }
    let mut cells: Vec<GdsrCell> = Vec::new();
    for block in &blocks[1..] {
        let Ok((cell, None)) = cell_until(block, given.d, given.policy, &mut Pairs::default()) else {
            return None;
        };
        if cells.last().is_some_and(|last| last.cell.name() >= cell.cell.name()) {
            return None;
        }
        cells.push(cell);
    }
    Some(gdsr_library(&head, cells).ok()?.answer(given.d, given.policy))
}

// ---- both

/// `any_pair`: arrays with sines and cosines that are not gdsr's own are compared, too.
pub fn expected(given: &Input, any_pair: bool) -> Expected {
    let Input { job, policy, d, sheet, .. } = given;
    if *policy > 3 {
        return Expected::Added(refused(1, 0));
    }
    if empty_cell_is_refused(*d) {
        return Expected::Gdsr(refused(2, 0));
    }
    if sheet.len() > sheet::MAX_SHEET {
        return Expected::Added(refused(3, 0));
    }
    match job {
        Job::Cell => expected_cell(sheet, *d, *policy, any_pair),
        Job::Library => expected_library(sheet, *d, *policy, any_pair),
    }
}
