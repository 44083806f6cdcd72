//! The strip call of a case made on another implementation, with slices of several lengths.

use std::collections::BTreeMap;
use std::fmt;

use answers::{Refusal, Strip};
use calls::strip::left;
use calls::{Other, Slices};
use generate::Case;

use crate::compare::Extent;

/// The output's length: so many bytes besides the strip's, or besides those of all that is handed as section.
#[derive(Clone, Copy)]
pub enum Output {
    OfStrip(isize),
    OfSection(isize),
}
use Output::{OfSection, OfStrip};

/// How many places are lent besides those needed, in the first and second work slice, and the output. Fewer than none are
/// none.
pub const ROOMS: [(&str, [isize; 2], Output); 10] = [
    ("longer", [7, 5], OfStrip(9)),
    ("just enough", [0, 0], OfStrip(0)),
    ("first one too short", [-1, 0], OfStrip(0)),
    ("second one too short", [0, -1], OfStrip(0)),
    ("output one too short", [2, 3], OfStrip(-1)),
    ("all one too short", [-1, -1], OfStrip(-1)),
    ("no output", [0, 1], OfStrip(isize::MIN)),
    ("no places", [isize::MIN; 2], OfStrip(isize::MIN)),
    ("output as long as the section", [0, 0], OfSection(0)),
    ("output one shorter than the section", [0, 0], OfSection(-1)),
];

/// More values than any answer has.
pub const MOST_VALUES: u64 = 8;

/// How many places are lent in the first and second work slice and the output. `need` is A + B of a section that is read.
pub fn lent(room: usize, section: &[u8], strip: &Result<Strip, Refusal>, need: Option<usize>) -> [usize; 3] {
    let (_, places, output) = ROOMS[room];
    let [first, second] = places.map(|more| need.unwrap_or(0).saturating_add_signed(more));
    let output = match output {
        OfStrip(more) => strip.as_ref().map_or(0, |strip| strip.bytes.len()).saturating_add_signed(more),
        OfSection(more) => section.len().saturating_add_signed(more),
    };
    [first, second, output]
}

#[derive(Default)]
pub struct Strips {
    calls: u64,
    by_room: [BTreeMap<u32, u64>; ROOMS.len()],
    compared: u64,
}

impl Strips {
    /// The differences found. `need` is A + B of a section that is read.
    pub fn case(
        &mut self,
        case: &Case,
        expected: &Result<Strip, Refusal>,
        need: Option<usize>,
        extent: Extent,
        other: &impl Other,
    ) -> Vec<String> {
        let rooms: Vec<usize> = match extent {
            Extent::Whole => (0..ROOMS.len()).collect(),
            Extent::Sampled(_) => vec![0, 1 + (self.calls as usize / 2) % (ROOMS.len() - 1)],
        };
        rooms.into_iter().filter_map(|room| self.call(case, expected, need, room, other)).collect()
    }

    fn call(
        &mut self,
        case: &Case,
        expected: &Result<Strip, Refusal>,
        need: Option<usize>,
        room: usize,
        other: &impl Other,
    ) -> Option<String> {
        self.calls += 1;
        let name = ROOMS[room].0;
        let [first, second, output] = lent(room, &case.section, expected, need);
        let values = if room == 0 { MOST_VALUES } else { self.calls % MOST_VALUES };
        let before = Slices {
            first: before(first, self.calls).collect(),
            second: before(second, self.calls + 1).collect(),
            output: before(output, self.calls).map(|number| number as u8).collect(),
            values: before(values as usize, self.calls).map(|number| u64::from(number) << 40).collect(),
        };
        let expected = left(expected, need, &before);
        *self.by_room[room].entry(expected.status).or_default() += 1;
        let mut found = before;
        let status = other.strip(&case.section, case.start, &mut found);
        self.compared += 1 + (first + second + output) as u64 + values;
        let slices = expected.slices;
        let differs = (status != expected.status)
            .then(|| format!("status {status} instead of {}", expected.status))
            .or_else(|| differs("first", &found.first, &slices.first))
            .or_else(|| differs("second", &found.second, &slices.second))
            .or_else(|| differs("output", &found.output, &slices.output))
            .or_else(|| differs("values", &found.values, &slices.values));
        Some(format!("limdroven_strip, {name}: {}", differs?))
    }
}

/// What stands in a lent slice before a call: all ones, rising numbers, or numbers of no order that are never 0.
fn before(length: usize, turn: u64) -> impl Iterator<Item = u16> {
    let number = move |place: usize| match turn % 3 {
        0 => u16::MAX,
        1 => (place as u16).wrapping_add(1),
        _ => (place as u16).wrapping_mul(40_503).wrapping_add(turn as u16) | 0x101,
    };
    (0..length).map(number)
}

fn differs<T: PartialEq + fmt::Display>(name: &str, found: &[T], expected: &[T]) -> Option<String> {
    let mut places = found.iter().zip(expected).enumerate();
    let (place, (found, expected)) = places.find(|(_, (found, expected))| found != expected)?;
    Some(format!("{name} [{place}] {found} instead of {expected}"))
}

impl fmt::Display for Strips {
    fn fmt(&self, f: &mut fmt::Formatter<'_>) -> fmt::Result {
        for ((name, ..), answers) in ROOMS.iter().zip(&self.by_room) {
            writeln!(f, "limdroven_strip, {name}: {answers:?}")?;
        }
        writeln!(f, "{} strip calls, {} numbers and bytes compared", self.calls, self.compared)
    }
}
