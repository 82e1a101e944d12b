//! What a writer is given: a policy, a database unit and the sheet of a cell or of a library.

#[derive(Clone, Copy, Debug, PartialEq, Eq)]
pub enum Job {
    Cell,
    Library,
}

impl Job {
    /// The bytes of a report entry; in a library's the cell's number stands in front.
    pub const fn entry_length(self) -> usize {
        match self {
            Self::Cell => 33,
            Self::Library => 37,
        }
    }

    /// Output and report of the stored cases.
    pub const fn buffers(self) -> (usize, usize) {
        match self {
            Self::Cell => (16_384, 8_192),
            Self::Library => (65_536, 16_384),
        }
    }

    pub const fn several(self) -> &'static str {
        match self {
            Self::Cell => "cells",
            Self::Library => "libraries",
        }
    }
}

pub struct Input {
    pub job: Job,
    pub policy: u8,
    pub d: f64,
    pub sheet: Vec<u8>,
    pub damaged: bool,
}

impl Input {
    /// Policy byte, d, sheet; none where the first two are not whole.
    pub fn of_bytes(job: Job, bytes: &[u8]) -> Option<Self> {
        let (policy, rest) = bytes.split_first()?;
        let (d, sheet) = rest.split_first_chunk()?;
        let d = f64::from_bits(u64::from_be_bytes(*d));
        Some(Self { job, policy: *policy, d, sheet: sheet.to_vec(), damaged: false })
    }

    pub fn hex(&self) -> String {
        format!("{:02x}{:016x}{}", self.policy, self.d.to_bits(), hex(&self.sheet))
    }
}

pub fn hex(bytes: &[u8]) -> String {
    bytes.iter().map(|byte| format!("{byte:02x}")).collect()
}

/// None where a digit is none, or has no second.
pub fn unhex(digits: &str) -> Option<Vec<u8>> {
    let value = |digit: u8| char::from(digit).to_digit(16).map(|value| value as u8);
    let (pairs, []) = digits.as_bytes().as_chunks() else { return None };
    pairs.iter().map(|[high, low]| Some(value(*high)? << 4 | value(*low)?)).collect()
}
