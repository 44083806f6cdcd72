//! The calls that read a strip back, and what each must return and leave in the slices lent to it.

use strips::{ROW_NUMBERS, Strip};

/// The place of another implementation of the four calls. What is returned and written is its own.
pub trait StripReads {
    fn counts(&self, strip: &[u8], values: &mut [u64]) -> u32;
    fn key_count(&self, strip: &[u8], kind: u32, track: u32, values: &mut [u64]) -> u32;
    fn key(&self, strip: &[u8], kind: u32, track: u32, place: usize, values: &mut [u64]) -> u32;
    fn keys(&self, strip: &[u8], first: usize, rows: &mut [u32], values: &mut [u64]) -> u32;
}

/// One of them, with what it asks for.
#[derive(Debug, Clone, Copy, PartialEq, Eq, PartialOrd, Ord, Hash)]
pub enum StripRead {
    Counts,
    KeyCount { kind: u32, track: u32 },
    Key { kind: u32, track: u32, place: usize },
    Keys { first: usize },
}

pub const STRIP_READS: [&str; 4] = ["strip_counts", "strip_key_count", "strip_key", "strip_keys"];

impl StripRead {
    /// Its place among `STRIP_READS`.
    pub fn number(self) -> usize {
        match self {
            Self::Counts => 0,
            Self::KeyCount { .. } => 1,
            Self::Key { .. } => 2,
            Self::Keys { .. } => 3,
        }
    }

    /// Makes the call; the first three take no rows.
    pub fn made(self, other: &impl StripReads, strip: &[u8], rows: &mut [u32], values: &mut [u64]) -> u32 {
        match self {
            Self::Counts => other.counts(strip, values),
            Self::KeyCount { kind, track } => other.key_count(strip, kind, track, values),
            Self::Key { kind, track, place } => other.key(strip, kind, track, place, values),
            Self::Keys { first } => other.keys(strip, first, rows, values),
        }
    }
}

/// A strip that was read, with the rows of all its keys; or its refusal.
#[derive(Debug, Clone, PartialEq, Eq)]
pub struct ReadBack {
    pub read: Result<Strip, u8>,
    rows: Vec<[u32; ROW_NUMBERS]>,
}

impl ReadBack {
    pub fn of(strip: &[u8]) -> Self {
        let read = strips::read(strip);
        let rows = read.as_ref().map_or(Vec::new(), Strip::rows);
        Self { read, rows }
    }

    pub fn rows(&self) -> &[[u32; ROW_NUMBERS]] {
        &self.rows
    }

    /// The numbers that a call answers, or the refusal's number.
    pub fn answer(&self, call: StripRead) -> Result<Vec<u64>, u8> {
        const ABSENT: u8 = 19;
        let strip = self.read.as_ref().map_err(|number| *number)?;
        match call {
            StripRead::Counts => Ok(strip.counts().map(|count| count as u64).to_vec()),
            StripRead::KeyCount { kind, track } => Ok(vec![strip.key_count(kind, track).ok_or(ABSENT)? as u64]),
            StripRead::Key { kind, track, place } => {
                Ok(strip.key(kind, track, place).ok_or(ABSENT)?.map(u64::from).to_vec())
            }
            StripRead::Keys { .. } => Ok(vec![self.rows.len() as u64]),
        }
    }

    /// The rows that a call writes into a slice of so many places: whole ones from the first asked for on.
    pub fn written(&self, call: StripRead, places: usize) -> &[u32] {
        let StripRead::Keys { first } = call else { return &[] };
        let rows = self.rows.get(first..).unwrap_or(&[]);
        rows[..rows.len().min(places / ROW_NUMBERS)].as_flattened()
    }
}

/// As the reader of the crate `strips` answers them, which reads the strip anew for each.
pub struct Reader;

impl Reader {
    fn numbers(strip: &[u8], call: StripRead, values: &mut [u64]) -> u32 {
        match ReadBack::of(strip).answer(call) {
            Ok(numbers) => {
                values.iter_mut().zip(numbers).for_each(|(place, number)| *place = number);
                0
            }
            Err(number) => number.into(),
        }
    }
}

impl StripReads for Reader {
    fn counts(&self, strip: &[u8], values: &mut [u64]) -> u32 {
        Self::numbers(strip, StripRead::Counts, values)
    }

    fn key_count(&self, strip: &[u8], kind: u32, track: u32, values: &mut [u64]) -> u32 {
        Self::numbers(strip, StripRead::KeyCount { kind, track }, values)
    }

    fn key(&self, strip: &[u8], kind: u32, track: u32, place: usize, values: &mut [u64]) -> u32 {
        Self::numbers(strip, StripRead::Key { kind, track, place }, values)
    }

    fn keys(&self, strip: &[u8], first: usize, rows: &mut [u32], values: &mut [u64]) -> u32 {
        let call = StripRead::Keys { first };
        let read = ReadBack::of(strip);
        let written = read.written(call, rows.len());
        rows[..written.len()].copy_from_slice(written);
        Self::numbers(strip, call, values)
    }
}
