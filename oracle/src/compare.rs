//! gdsr against the proved writer, case by case.
use crate::answer::Answer;
use crate::expected::{Expected, PassedOver, expected, whole_file};
use crate::generate::{input, library_input};
use crate::input::{Input, Job, hex};
use crate::limits::{self, Case};
use crate::long;
use crate::random::Random;
use crate::ravenvanity::{self, Accepted, LibraryRefusal, Refusal};
use crate::sheet::{self, Body, Coordinate, Options, Place};
use crate::side;
use std::collections::BTreeMap;

/// What a buffer holds before, so that a byte that should stay is seen to.
fn before(length: usize, salt: u8) -> Vec<u8> {
    (0..length).map(|i| (i as u8).wrapping_mul(31) ^ (i >> 8) as u8 ^ salt).collect()
}

struct Written {
    answer: Result<Accepted, LibraryRefusal>,
    out: Vec<u8>,
    report: Vec<u8>,
}

/// A cell's refusal as a library's: the cell stays unnamed.
fn unnamed(refusal: Refusal) -> LibraryRefusal {
    LibraryRefusal { number: refusal.number, cell: None, block: refusal.block }
}

fn measure(given: &Input) -> Result<Accepted, LibraryRefusal> {
    match given.job {
        Job::Cell => ravenvanity::measure_cell(given.policy, given.d, &given.sheet).map_err(unnamed),
        Job::Library => ravenvanity::measure_library(given.policy, given.d, &given.sheet),
    }
}

fn write(given: &Input, out: usize, report: usize) -> Written {
    let mut out = before(out, 0x5a);
    let mut report = before(report, 0xa5);
    let answer = match given.job {
        Job::Cell => ravenvanity::write_cell(given.policy, given.d, &given.sheet, &mut out, &mut report).map_err(unnamed),
        Job::Library => ravenvanity::write_library(given.policy, given.d, &given.sheet, &mut out, &mut report),
    };
    Written { answer, out, report }
}

fn untouched(written: &Written) -> bool {
    written.out == before(written.out.len(), 0x5a) && written.report == before(written.report.len(), 0xa5)
}

/// The answer with the bytes it stands for; or what is wrong with the buffers.
fn answer_of(written: &Written, entry_length: usize) -> Result<Answer, String> {
    match written.answer {
        Err(LibraryRefusal { number, cell, block }) if untouched(written) => Ok(Answer::Refused { number, cell, block }),
        Err(refusal) => Err(format!("{refusal:?} with a touched buffer")),
        Ok(accepted) => {
            let reported = accepted.entries.saturating_mul(entry_length);
            if accepted.length > written.out.len() || reported > written.report.len() {
                return Err(format!("{accepted:?} beyond its buffers"));
            }
            let rest = written.out[accepted.length..] == before(written.out.len(), 0x5a)[accepted.length..]
                && written.report[reported..] == before(written.report.len(), 0xa5)[reported..];
            if !rest {
                return Err("a byte after the structure, the file or the entries changed".to_string());
            }
            Ok(Answer::Accepted {
                bytes: written.out[..accepted.length].to_vec(),
                entries: written.report[..reported].to_vec(),
                greatest: accepted.greatest.to_bits(),
            })
        }
    }
}

/// The proved writer's answer with buffers of these lengths; or what is wrong with them.
pub fn answer_in(given: &Input, out: usize, report: usize) -> Result<Answer, String> {
    answer_of(&write(given, out, report), given.job.entry_length())
}

/// More than any output and report of this sheet take: an element with an entry has 51 bytes of it or more.
fn room(given: &Input) -> (usize, usize) {
    let length = given.sheet.len();
    (4 * length + 64, given.job.entry_length() * (length / 51) + 7)
}

fn expect_refusal(given: &Input, out: usize, report: usize, number: u8) -> Result<(), String> {
    let written = write(given, out, report);
    let wanted = Err(LibraryRefusal { number, cell: None, block: 0 });
    if written.answer == wanted && untouched(&written) {
        return Ok(());
    }
    Err(format!("buffers of {out} and {report}: {:?}, expected {number}", written.answer))
}

/// Measuring, and buffers that fit exactly or are one byte short, where the proved writer alone has something to say.
fn own_checks(given: &Input, answer: &Answer) -> Result<(), String> {
    let measured = measure(given);
    match answer {
        Answer::Refused { number, cell, block } => {
            if measured != Err(LibraryRefusal { number: *number, cell: *cell, block: *block }) {
                return Err(format!("measuring gives {measured:?}"));
            }
            if answer_in(given, 0, 0)? != *answer {
                return Err("without buffers the refusal is another".to_string());
            }
        }
        Answer::Accepted { bytes, entries, greatest } => {
            let (length, reported) = (bytes.len(), entries.len());
            let same = measured.is_ok_and(|accepted| {
                accepted.length == length
                    && accepted.entries * given.job.entry_length() == reported
                    && accepted.greatest.to_bits() == *greatest
            });
            if !same {
                return Err(format!("measuring gives {measured:?}"));
            }
            if answer_in(given, length, reported)? != *answer {
                return Err("buffers that fit exactly give another answer".to_string());
            }
            if let Some(entry) = entries.chunks(given.job.entry_length()).find(|entry| !side::is_right(entry, given.d)) {
                return Err(format!("the error of an entry has not the sign of q × d - p: {}", hex(entry)));
            }
            expect_refusal(given, length - 1, reported, 21)?;
            if reported > 0 {
                expect_refusal(given, length, reported - 1, 22)?;
                expect_refusal(given, length - 1, reported - 1, 21)?;
            }
        }
    }
    Ok(())
}

fn short(answer: &Answer) -> String {
    match answer {
        Answer::Refused { number, cell: None, block } => format!("no {number} {block}"),
        Answer::Refused { number, cell: Some(cell), block } => format!("no {number}, cell {cell}, {block}"),
        Answer::Accepted { bytes, entries, greatest } => {
            format!("ok {}, {} bytes of entries, {greatest:016x}", bytes.len(), entries.len())
        }
    }
}

/// Where two lists of bytes first differ, and what follows there.
fn first_difference(what: &str, wanted: &[u8], proved: &[u8]) -> String {
    let at = wanted.iter().zip(proved).take_while(|(a, b)| a == b).count();
    if at == wanted.len() && at == proved.len() {
        return String::new();
    }
    let part = |bytes: &[u8]| hex(&bytes[at..bytes.len().min(at + 33)]);
    format!("\n  {what} from byte {at} on: expected {}, proved {}", part(wanted), part(proved))
}

fn difference(wanted: &Answer, proved: &Answer, from: &str) -> String {
    let mut text = format!("expected ({from}): {}\n  proved: {}", short(wanted), short(proved));
    if let (Answer::Accepted { bytes: a, entries: e, .. }, Answer::Accepted { bytes: b, entries: f, .. }) = (wanted, proved) {
        text += &first_difference("output", a, b);
        text += &first_difference("entries", e, f);
    }
    text
}

/// What a case counts as, the answer as it must be, where that can be told, and whether gdsr's own is passed over for a limit.
struct Judged {
    kind: String,
    answer: Option<Answer>,
    limit: bool,
}

/// The case, or the mismatch.
fn judge(given: &Input, any_pair: bool) -> Result<Judged, String> {
    let (out, report) = room(given);
    let proved = answer_in(given, out, report)?;
    own_checks(given, &proved)?;
    let (wanted, from, limit) = match expected(given, any_pair) {
        Expected::Gdsr(answer) => (answer, "gdsr", false),
        Expected::Added(answer) => (answer, "added by the documents", false),
        Expected::Limit(answer) => (answer, "a limit that gdsr has not", true),
        Expected::NoCounterpart { cell: of, block, why } => {
            // what comes before the block passes; what is outside a library's cells comes before them
            return match proved {
                Answer::Refused { cell, block: k, .. } if (cell, k) < (of, block) => {
                    Err(format!("all before block {block} passes in gdsr; proved: {}", short(&proved)))
                }
                _ => Ok(Judged { kind: format!("not compared: {why}"), answer: None, limit: false }),
            };
        }
    };
    if proved != wanted {
        return Err(difference(&wanted, &proved, from));
    }
    let place = if matches!(wanted, Answer::Refused { cell: Some(_), .. }) { " in a cell" } else { "" };
    let kind = match &wanted {
        Answer::Refused { number, .. } => format!("refused {number:2}{place}, {from}"),
        Answer::Accepted { entries, .. } if entries.is_empty() => "accepted, no entry".to_string(),
        Answer::Accepted { .. } => "accepted, with entries".to_string(),
    };
    Ok(Judged { kind, answer: Some(wanted), limit })
}

/// Whether gdsr, given the whole library, answers the same, where it can be given it; or the mismatch.
fn judge_whole(given: &Input) -> Result<Option<&'static str>, String> {
    let (out, report) = room(given);
    let proved = answer_in(given, out, report)?;
    if matches!(proved, Answer::Refused { cell: None, .. }) {
        return Ok(None);
    }
    match (whole_file(given), &proved) {
        (None, _) => Ok(None),
        (Some(Ok(answer)), proved) if answer == *proved => Ok(Some("accepted")),
        (Some(Ok(answer)), proved) => Err(difference(&answer, proved, "gdsr, the whole file")),
        (Some(Err(number)), Answer::Refused { number: own, .. }) if *own == number => Ok(Some("refused")),
        (Some(Err(number)), proved) => Err(format!("gdsr refuses the whole file by {number}; proved: {}", short(proved))),
    }
}

/// The sheet of the cell that is given, or those of the library's cells.
fn cell_sheets(given: &Input) -> Vec<&[u8]> {
    match given.job {
        Job::Cell => vec![&given.sheet],
        Job::Library => sheet::blocks_of(&given.sheet).unwrap_or_default().into_iter().skip(1).collect(),
    }
}

/// The kind bytes of a cell's blocks; 0 for the head.
fn kind_bytes_of(cell: &[u8]) -> Vec<u8> {
    let blocks = sheet::blocks_of(cell).unwrap_or_default();
    blocks.iter().enumerate().map(|(k, block)| if k == 0 { 0 } else { block[0] }).collect()
}

const fn is_box(kind_byte: u8) -> bool {
    sheet::kind_of(kind_byte) == 6
}

const fn is_raised(kind_byte: u8) -> bool {
    sheet::kind_of(kind_byte) != kind_byte
}

/// What the accepted cells or libraries hold.
#[derive(Default)]
struct Held {
    by_policy: [usize; 4],
    cells: usize,
    by_kind: [usize; 7],
    arrays: usize,
    /// Elements with flags alone, with a plex number alone, and with both.
    flags: usize,
    plex: usize,
    both: usize,
    /// Texts of type 255, attributes of 1 and of 127, values of 125 and of 126 bytes.
    at_limits: [usize; 5],
    /// Lists whose points are all integers in the database unit; and lists whose first ones are, but not all.
    all_pass: usize,
    front_passes: usize,
    /// Entries whose q × d is below and above p, and how many of them have an infinite error.
    sides: [usize; 2],
    infinite: [usize; 2],
}

impl Held {
    fn add(&mut self, given: &Input, entries: &[u8]) {
        self.by_policy[usize::from(given.policy & 3)] += 1;
        for cell in cell_sheets(given) {
            self.add_cell(cell, given.d);
        }
        for entry in entries.chunks(given.job.entry_length()) {
            let (_, _, error) = side::fields(entry);
            let above = usize::from(error > 0.0);
            self.sides[above] += 1;
            self.infinite[above] += usize::from(error.is_infinite());
        }
    }

    fn add_cell(&mut self, given: &[u8], d: f64) {
        self.cells += 1;
        for block in sheet::blocks_of(given).unwrap_or_default().iter().skip(1) {
            let element = sheet::element_of(block).expect("a block of an accepted cell");
            self.by_kind[usize::from(element.body.kind())] += 1;
            self.add_options(&element.options);
            self.add_limits(&element);
            match element.body {
                Body::Reference { counts, .. } => self.arrays += usize::from(counts != [1, 1]),
                Body::Shape { points, .. } | Body::Path { points, .. } => self.add_list(&points, d),
                _ => {}
            }
        }
    }

    fn add_options(&mut self, options: &Options) {
        match (options.flags, options.plex) {
            (Some(_), Some(_)) => self.both += 1,
            (Some(_), None) => self.flags += 1,
            (None, Some(_)) => self.plex += 1,
            (None, None) => {}
        }
    }

    fn add_limits(&mut self, element: &sheet::Element) {
        let [types, first, last, below, at] = &mut self.at_limits;
        *types += usize::from(matches!(element.body, Body::Text { text_type: 255, .. }));
        for property in &element.properties {
            *first += usize::from(property.attribute == 1);
            *last += usize::from(property.attribute == 127);
            *below += usize::from(property.value.len() == 125);
            *at += usize::from(property.value.len() == 126);
        }
    }

    fn add_list(&mut self, points: &[Place], d: f64) {
        let passes = |coordinate: &Coordinate| matches!(coordinate, Coordinate::Integer { unit, .. } if *unit == d);
        let passing = points.iter().take_while(|point| point.iter().all(passes)).count();
        if passing == points.len() {
            self.all_pass += 1;
        } else if passing > 0 {
            self.front_passes += 1;
        }
    }

    fn print(&self, job: Job) {
        let [nearest, floor, ceiling, strict] = self.by_policy;
        println!("  accepted by policy: nearest {nearest}, floor {floor}, ceiling {ceiling}, strict {strict}");
        let [_, polygons, paths, texts, nodes, references, boxes] = self.by_kind;
        if job == Job::Library {
            println!("  in accepted libraries: {} cells", self.cells);
        }
        println!(
            "  in accepted cells: {polygons} polygons, {paths} paths, {texts} texts, {nodes} nodes, {boxes} boxes, {references} references, {} of them arrays",
            self.arrays
        );
        let (flags, plex, both) = (self.flags, self.plex, self.both);
        println!("  elements with options: {flags} with flags alone, {plex} with a plex number alone, {both} with both");
        let [types, first, last, below, at] = self.at_limits;
        println!(
            "  at limits: {types} texts of type 255, {first} attributes of 1, {last} of 127, {below} values of 125 bytes, {at} of 126"
        );
        println!(
            "  lists of points: {} all integers in the database unit, {} with such points in front of others",
            self.all_pass, self.front_passes
        );
        let ([below, above], [far_below, far_above]) = (self.sides, self.infinite);
        println!("  entries: {below} with q × d below p, {above} above; infinite of them {far_below} and {far_above}");
    }
}

/// Cells with a block of one sort, by the kind byte, all of them and the accepted ones, and the refusals at such a block by
/// their number.
#[derive(Default)]
struct Sort {
    cells: usize,
    accepted: usize,
    refused: BTreeMap<u8, usize>,
}

impl Sort {
    fn add(&mut self, given: &Input, answer: Option<&Answer>, is_of: fn(u8) -> bool) {
        let cells: Vec<Vec<u8>> = cell_sheets(given).into_iter().map(kind_bytes_of).collect();
        let with_one = cells.iter().filter(|bytes| bytes.iter().any(|byte| is_of(*byte))).count();
        self.cells += with_one;
        match answer {
            Some(Answer::Accepted { .. }) => self.accepted += with_one,
            Some(Answer::Refused { number, cell, block }) => {
                let byte = cells.get(cell.unwrap_or(0)).and_then(|bytes| bytes.get(*block));
                if byte.is_some_and(|byte| is_of(*byte)) {
                    *self.refused.entry(*number).or_default() += 1;
                }
            }
            None => {}
        }
    }

    fn print(&self, what: &str) {
        println!("  cells with {what}: {}, of them {} accepted", self.cells, self.accepted);
        let refused: Vec<String> = self.refused.iter().map(|(number, count)| format!(", {count} by {number}")).collect();
        println!("  refused at {what}: {} in all{}", self.refused.values().sum::<usize>(), refused.concat());
    }
}

/// What the cases of a run came to.
#[derive(Default)]
struct Tally {
    counts: BTreeMap<String, usize>,
    /// Libraries that gdsr was given whole, too.
    whole: BTreeMap<&'static str, usize>,
    held: Held,
    boxes: Sort,
    raised: Sort,
    passed_over: PassedOver,
    mismatches: usize,
    damaged: usize,
    bytes: usize,
}

impl Tally {
    /// The mismatch, if there is one.
    fn add(&mut self, given: &Input, any_pair: bool) -> Result<(), String> {
        self.damaged += usize::from(given.damaged);
        self.bytes += given.sheet.len();
        let Judged { kind, answer, limit } = judge(given, any_pair)?;
        if given.job == Job::Library
            && let Some(what) = judge_whole(given)?
        {
            *self.whole.entry(what).or_default() += 1;
        }
        if let Some(Answer::Accepted { entries, .. }) = &answer {
            self.held.add(given, entries);
        }
        self.boxes.add(given, answer.as_ref(), is_box);
        self.raised.add(given, answer.as_ref(), is_raised);
        if let Some(Answer::Refused { number, .. }) = answer
            && limit
        {
            self.passed_over.add(number);
        }
        *self.counts.entry(kind).or_default() += 1;
        Ok(())
    }

    fn print(&self, job: Job) {
        for (kind, count) in &self.counts {
            println!("  {count:8} {kind}");
        }
        let all: usize = self.held.by_policy.iter().sum();
        let with_entries = self.counts.get("accepted, with entries").copied().unwrap_or_default();
        println!("  a byte less than they take: 21 in the {all} accepted, 22 in the {with_entries} with entries");
        if job == Job::Library {
            let of = |what| self.whole.get(what).copied().unwrap_or_default();
            println!("  by gdsr as whole files, too: {} accepted, {} refused", of("accepted"), of("refused"));
        }
        println!("  refused by a limit that gdsr has not, its own answer passed over: {}", self.passed_over.words());
        self.held.print(job);
        self.boxes.print("a box");
        self.raised.print("a kind byte raised by 16, 32 or both");
        println!("  {} of the sheets were damaged; {} bytes of sheets in all", self.damaged, self.bytes);
    }
}

pub fn run(job: Job, seed: u64, cases: std::ops::Range<u64>, any_pair: bool) -> bool {
    let pairs = if any_pair { "any" } else { "gdsr's own" };
    let (first, last) = (cases.start, cases.end.saturating_sub(1));
    println!("seed {seed}, {} {first} to {last}, arrays with {pairs} sines and cosines", job.several());
    let count = cases.end - cases.start;
    let mut tally = Tally::default();
    for index in cases {
        let mut random = Random::of_case(seed, index);
        let given = match job {
            Job::Cell => input(&mut random, any_pair),
            Job::Library => library_input(&mut random),
        };
        if let Err(what) = tally.add(&given, any_pair) {
            tally.mismatches += 1;
            println!("MISMATCH seed {seed} index {index}\n  input {}\n  {what}", given.hex());
        }
    }
    tally.print(job);
    println!("{count} {}, {} mismatches", job.several(), tally.mismatches);
    tally.mismatches == 0
}

/// The case of the list, where what is expected is what the list has, too; or what is not as it must be.
fn judge_case(case: &Case) -> Result<Judged, String> {
    let cell = (case.given.job == Job::Library).then_some(1);
    let listed = case.refusal.map(|(number, block)| Answer::Refused { number, cell, block });
    let same = match expected(&case.given, false) {
        Expected::Gdsr(Answer::Accepted { .. }) => listed.is_none(),
        Expected::Gdsr(answer) | Expected::Added(answer) | Expected::Limit(answer) => listed == Some(answer),
        Expected::NoCounterpart { .. } => false,
    };
    if same { judge(&case.given, false) } else { Err(format!("what is expected is not what the list has: {:?}", case.refusal)) }
}

/// The list of cells at the limits that gdsr has not, and above them.
pub fn run_limits() -> bool {
    let cases = limits::cases();
    let mut counts: BTreeMap<String, usize> = BTreeMap::new();
    let mut mismatches = 0;
    for case in &cases {
        match judge_case(case) {
            Ok(judged) => *counts.entry(judged.kind).or_default() += 1,
            Err(text) => {
                mismatches += 1;
                println!("MISMATCH {}: {text}", case.what);
            }
        }
    }
    for (kind, count) in &counts {
        println!("  {count:8} {kind}");
    }
    println!("{} cases at limits that gdsr has not, {mismatches} mismatches", cases.len());
    mismatches == 0
}

/// Sheets about the greatest length, the pair count at its limits, and the longest records: too long for the run of many.
pub fn run_long() -> bool {
    let mut good = true;
    for (what, given) in long::inputs() {
        match judge(&given, false) {
            Ok(judged) => println!("  {what}: {}", judged.kind),
            Err(text) => {
                good = false;
                println!("MISMATCH {what}: {}", &text[..text.len().min(300)]);
            }
        }
    }
    good
}
