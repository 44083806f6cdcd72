//! Every check of a case made on another implementation.

use std::collections::BTreeMap;
use std::fmt;

use calls::checks::{Section, checks};
use calls::{Answer, Call, Check, Other, Read};
use generate::{Case, Kind};

use crate::expected::{Expected, Summary};
use crate::strips::Strips;

/// What stands in a lent slice before a call.
pub const BEFORE: u8 = 0xa5;
pub const BEFORE_NUMBER: u64 = 0xa5a5_a5a5_a5a5_a5a5;

/// A second call in so many checks is made with a shorter slice.
const SHORTER_EVERY: u64 = 4;

/// How much of a case is compared.
#[derive(Debug, Clone, Copy, PartialEq, Eq)]
pub enum Extent {
    /// Every check, and the strip call with all slices of `strips`.
    Whole,
    /// The summary, one in so many of the other checks, and the strip call with longer slices and with one other choice in turn.
    Sampled(u64),
}

pub struct Comparison {
    extent: Extent,
    /// Checks that were met, made or not.
    met: u64,
    cases: u64,
    calls: u64,
    by_call: BTreeMap<Call, u64>,
    by_status: BTreeMap<u32, u64>,
    /// Numbers and bytes written and returned, those that must stay as they were among them.
    compared: u64,
    strips: Strips,
    differences: u64,
    /// Those of the shortest sections, with the length.
    shortest: Vec<(usize, String)>,
    numbers: Vec<u64>,
    bytes: Vec<u8>,
}

impl Comparison {
    pub fn new(extent: Extent) -> Self {
        Self {
            extent,
            met: 0,
            cases: 0,
            calls: 0,
            by_call: BTreeMap::new(),
            by_status: BTreeMap::new(),
            compared: 0,
            strips: Strips::default(),
            differences: 0,
            shortest: Vec::new(),
            numbers: Vec::new(),
            bytes: Vec::new(),
        }
    }

    pub fn case(&mut self, number: u64, case: &Case, expected: &Result<Expected, String>, other: &impl Other) {
        self.cases += 1;
        let expected = match expected {
            Ok(expected) => expected,
            Err(contradiction) => return self.differs(number, case, contradiction.clone()),
        };
        let mut first = true;
        each_check(case, expected, number as usize, sampled(case.section.len()), |check| {
            let summary = std::mem::replace(&mut first, false);
            if !self.made(summary) {
                return;
            }
            let whole = self.check(case, &check, usize::MAX, other);
            let shorter = self.calls.is_multiple_of(SHORTER_EVERY).then(|| {
                let room = self.calls / SHORTER_EVERY % 6;
                self.check(case, &check, room as usize, other)
            });
            if let Some(found) = whole.or(shorter.flatten()) {
                self.differs(number, case, found);
            }
        });
        if let Some(strip) = &expected.strip {
            for found in self.strips.case(case, strip, expected.work_places(), self.extent, other) {
                self.differs(number, case, found);
            }
        }
    }

    /// A summary is a case's first check.
    fn made(&mut self, summary: bool) -> bool {
        self.met += 1;
        match self.extent {
            Extent::Whole => true,
            Extent::Sampled(every) => summary || self.met.is_multiple_of(every),
        }
    }

    pub fn differences(&self) -> u64 {
        self.differences
    }

    fn differs(&mut self, number: u64, case: &Case, found: String) {
        self.differences += 1;
        self.shortest.push((case.section.len(), format!("case {number}, {} bytes: {found}", case.section.len())));
        self.shortest.sort();
        self.shortest.truncate(10);
    }

    /// `room` is one of a few lengths from nothing on, or more than is needed.
    fn check(&mut self, case: &Case, check: &Check, room: usize, other: &impl Other) -> Option<String> {
        self.calls += 1;
        *self.by_call.entry(check.call).or_default() += 1;
        let Check { call, arguments, answer } = check;
        let (section, start) = (&case.section, case.start);
        let (lent, found) = match answer {
            Answer::Numbers(status, numbers) => {
                *self.by_status.entry(*status).or_default() += 1;
                self.numbers.clear();
                self.numbers.resize(lent(numbers.len(), room), BEFORE_NUMBER);
                let found = other.numbers(*call, section, start, *arguments, &mut self.numbers);
                let returned = (found != *status).then(|| format!("status {found} instead of {status}"));
                (self.numbers.len(), returned.or_else(|| wrong_place(&self.numbers, numbers, BEFORE_NUMBER)))
            }
            Answer::Bytes(bytes) => {
                self.bytes.clear();
                self.bytes.resize(lent(bytes.len(), room), BEFORE);
                let found = other.bytes(*call, section, start, *arguments, &mut self.bytes);
                let length = bytes.len() as u64;
                let returned = (found != length).then(|| format!("length {found} instead of {length}"));
                (self.bytes.len(), returned.or_else(|| wrong_place(&self.bytes, bytes, BEFORE)))
            }
        };
        self.compared += 1 + lent as u64;
        Some(format!("{} {arguments:?}, {lent} lent: {}", call.name(), found?))
    }
}

/// The first place that holds neither the answer nor, behind it, what it held before.
fn wrong_place<T: Copy + PartialEq + fmt::Display>(found: &[T], answer: &[T], before: T) -> Option<String> {
    let expected = answer.iter().copied().chain(std::iter::repeat(before));
    let mut places = found.iter().copied().zip(expected).enumerate();
    let (place, (found, expected)) = places.find(|(_, (found, expected))| found != expected)?;
    Some(format!("[{place}] {found} instead of {expected}"))
}

/// How many places are lent where `need` are needed: nothing, one, half, one too few, just enough, one more, or many more.
pub fn lent(need: usize, room: usize) -> usize {
    match room {
        0 => 0,
        1 => 1,
        2 => need / 2,
        3 => need.saturating_sub(1),
        4 => need,
        5 => need + 1,
        _ => need + 8,
    }
}

/// Which numbers of a list are asked for: all, or in a long section the first, the last and some between.
pub fn sampled(section: usize) -> impl Fn(usize) -> Vec<usize> {
    const SOME: usize = 16;
    move |length| {
        if section < 1 << 16 || length <= 3 * SOME {
            return (0..length).collect();
        }
        let between = (1..=SOME).map(|n| SOME + (length - 2 * SOME) * n / (SOME + 1));
        (0..SOME).chain(between).chain(length - SOME..length).collect()
    }
}

/// The checks of a case.
pub fn each_check(
    case: &Case,
    expected: &Expected,
    turn: usize,
    sampled: impl Fn(usize) -> Vec<usize>,
    hand: impl FnMut(Check),
) {
    let section = match case.kind {
        Kind::Model => Section::Model,
        Kind::Camera => Section::Camera,
        Kind::Light => Section::Light,
    };
    let read = match (&expected.read, case.kind) {
        (Err(refusal), _) => Read::Refused(section, refusal),
        (Ok(Summary::Model(model)), _) => Read::Model(model, &expected.texts),
        (Ok(Summary::Track(track)), Kind::Camera) => Read::Camera(track),
        (Ok(Summary::Track(track)), _) => Read::Light(track),
    };
    checks(&case.section, &read, turn, sampled, hand);
}

impl fmt::Display for Comparison {
    fn fmt(&self, f: &mut fmt::Formatter<'_>) -> fmt::Result {
        for (call, times) in &self.by_call {
            writeln!(f, "{:42}{times:>12} calls", call.name())?;
        }
        for (status, times) in &self.by_status {
            writeln!(f, "answered {status:2}{:31}{times:>12} calls", "")?;
        }
        if let Extent::Sampled(every) = self.extent {
            writeln!(f, "{} calls to make, of which the summaries and one in {every} were made", self.met)?;
        }
        writeln!(f, "{} cases, {} calls, {} numbers and bytes compared", self.cases, self.calls, self.compared)?;
        write!(f, "{}", self.strips)?;
        self.shortest.iter().try_for_each(|(_, text)| writeln!(f, "{text}"))?;
        writeln!(f, "{} differences", self.differences)
    }
}
