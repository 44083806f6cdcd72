//! A sample of strip calls, written for `crates/replay`. The format is in this folder's README.

use std::collections::BTreeMap;
use std::fmt::Write as _;

use answers::{Kind, Refusal, Strip};
use calls::Slices;
use calls::strip::{Left, left};
use generate::Case;

use crate::compare::{BEFORE, BEFORE_NUMBER};
use crate::expected::expected;
use crate::strip_cases;
use crate::strips::{MOST_VALUES, ROOMS, lent};
use crate::vector_file::{
    LONGEST_SECTION, ROOM_FOR_BYTES, ROOM_FOR_NUMBERS, ROOM_FOR_PLACES, Sample, Vector, Written, bytes, u16_bytes,
};

const FILE: &str = "strips";
const BROKEN: &str = "strips_broken";
const SEED: u64 = 1;
const CASES: u64 = 40_000;
/// The longest generated section that is taken where it is refused; more of the accepted ones are taken.
const LONGEST_REFUSED: usize = 1_000;
/// What stands in a work slice before a call.
const BEFORE_PLACE: u16 = 0xa5a5;
/// The numbers that a program may meet: all but 9, 16 and 19.
const NUMBERS: [u32; 18] = [0, 1, 2, 3, 4, 5, 6, 7, 8, 10, 11, 12, 13, 14, 15, 17, 18, 20];

/// One call, and whether it is written otherwise than it must come out.
#[derive(Clone)]
pub struct Call {
    left: Left,
    wrong: bool,
}

/// What the call must give where the slices are long enough: 0 or the refusal's number, with its kind.
type Outcome = (u8, Option<Kind>);

pub fn written() -> Sample {
    let sample = sample();
    let vectors: Vec<Vector<Call>> = sample.iter().map(|(_, vector)| vector.clone()).collect();
    let broken = broken(&vectors);
    let file = bytes(&vectors);
    let stdout = said(FILE, &vectors) + &said(BROKEN, &broken);
    let told = told(&sample, file.len());
    Sample { data: [(FILE, file), (BROKEN, bytes(&broken))], stdout, told }
}

/// Sections by hand, then from each family some of each outcome, with and without bytes before them.
pub fn sample() -> Vec<(Outcome, Vector<Call>)> {
    let by_hand = strip_cases::cases();
    let mut sample: Vec<_> = by_hand.iter().enumerate().map(|(turn, case)| vector("by hand", turn, case)).collect();
    let mut taken = BTreeMap::new();
    for number in 0..CASES {
        let (family, case) = generate::case(SEED, number);
        if case.section.len() > LONGEST_SECTION || case.kind != generate::Kind::Model {
            continue;
        }
        let (outcome, vector) = vector(family, sample.len(), &case);
        let (longest, most) = if outcome.0 == 0 { (LONGEST_SECTION, 3) } else { (LONGEST_REFUSED, 1) };
        let times = taken.entry((family, outcome, case.start > 0)).or_insert(0);
        if case.section.len() <= longest && *times < most {
            *times += 1;
            sample.push((outcome, vector));
        }
    }
    sample
}

fn vector(family: &'static str, turn: usize, case: &Case) -> (Outcome, Vector<Call>) {
    let expected = expected(case).expect("the Rust does not contradict the walk");
    let strip = expected.strip.as_ref().expect("a model section");
    let need = expected.work_places();
    let checks = (0..ROOMS.len()).map(|room| call(&case.section, strip, need, room, turn)).collect();
    let outcome = strip.as_ref().map_or_else(|refusal| (refusal.number, refusal.kind), |_| (0, None));
    (outcome, Vector { family, start: case.start, section: case.section.clone(), checks })
}

/// `need` is A + B of a section that is read. Eight values are lent or, from call to call, none to seven.
fn call(section: &[u8], strip: &Result<Strip, Refusal>, need: Option<usize>, room: usize, turn: usize) -> Call {
    let [first, second, output] = lent(room, section, strip, need);
    let values = if room == 0 { MOST_VALUES } else { (turn + room) as u64 % MOST_VALUES };
    let before = Slices {
        first: vec![BEFORE_PLACE; first],
        second: vec![BEFORE_PLACE; second],
        output: vec![BEFORE; output],
        values: vec![BEFORE_NUMBER; values as usize],
    };
    Call { left: left(strip, need, &before), wrong: false }
}

impl Written for Call {
    fn written(&self, _: usize) -> Vec<u8> {
        let Left { status, slices: Slices { first, second, output, values } } = &self.left;
        assert!(first.len().max(second.len()) <= ROOM_FOR_PLACES && output.len() <= ROOM_FOR_BYTES);
        assert!(values.len() <= ROOM_FOR_NUMBERS);
        let [first_held, second_held] = [first, second].map(|places| held(places, BEFORE_PLACE));
        let (output_held, values_held) = (held(output, BEFORE), held(values, BEFORE_NUMBER));
        let mut out = u16_bytes(*status as usize).to_vec();
        let lent = [first.len(), second.len(), output.len(), values.len()];
        for (lent, held) in lent.into_iter().zip([first_held, second_held, output_held, values_held]) {
            out.extend(u16_bytes(lent));
            out.extend(u16_bytes(held));
        }
        first[..first_held].iter().for_each(|place| out.extend(place.to_le_bytes()));
        second[..second_held].iter().for_each(|place| out.extend(place.to_le_bytes()));
        out.extend(&output[..output_held]);
        values[..values_held].iter().for_each(|number| out.extend(number.to_le_bytes()));
        out
    }
}

/// How many places there are up to the last that the call changes.
fn held<T: PartialEq>(after: &[T], before: T) -> usize {
    after.iter().rposition(|place| *place != before).map_or(0, |last| last + 1)
}

/// One accepted section again and again, each time with one number of its first call changed: what is returned, a place
/// of either work slice, a byte of the strip, a value, and a place behind the strip.
fn broken(vectors: &[Vector<Call>]) -> Vec<Vector<Call>> {
    let changes: [fn(&mut Left); 6] = [
        |left| left.status = 18,
        |left| left.slices.first[0] ^= 1,
        |left| left.slices.second[1] ^= 1,
        |left| left.slices.output[4] ^= 1,
        |left| left.slices.values[1] += 1,
        |left| *left.slices.output.last_mut().expect("longer") ^= 1,
    ];
    let accepted = |vector: &&Vector<Call>| {
        let Left { status, slices } = &vector.checks[0].left;
        *status == 0 && slices.values[1] > 1 && slices.values[2] > 0
    };
    let one = vectors.iter().find(accepted).expect("an accepted section with records reached and loose");
    let changed = |change: fn(&mut Left)| {
        let mut vector = one.clone();
        change(&mut vector.checks[0].left);
        vector.checks[0].wrong = true;
        vector
    };
    changes.map(changed).to_vec()
}

/// What the program is to write.
fn said(file: &str, vectors: &[Vector<Call>]) -> String {
    let calls: Vec<&Call> = vectors.iter().flat_map(|vector| &vector.checks).collect();
    let mut out = format!("{file}:\nsections {}\nchecks {}\n", vectors.len(), calls.len());
    for number in NUMBERS {
        let row = if number == 0 { "accepted".into() } else { format!("refused {number}") };
        let of = || calls.iter().filter(|call| call.left.status == number);
        let wrong = of().filter(|call| call.wrong).count();
        writeln!(out, "{row}: {} wrong {wrong}", of().count()).expect("a string");
    }
    out
}

fn told(sample: &[(Outcome, Vector<Call>)], length: usize) -> String {
    let mut out = String::new();
    let mut families: BTreeMap<&str, usize> = BTreeMap::new();
    sample.iter().for_each(|(_, vector)| *families.entry(vector.family).or_default() += 1);
    for (family, sections) in families {
        writeln!(out, "{family:26}{sections:>5} sections").expect("a string");
    }
    for ((number, kind), sections) in outcomes(sample) {
        let kind = kind.map(|kind| format!("{kind:?}").to_lowercase()).unwrap_or_default();
        writeln!(out, "{number:2} {kind:23}{sections:>5} sections").expect("a string");
    }
    let starts = sample.iter().filter(|(_, vector)| vector.start > 0).count();
    writeln!(out, "{starts} sections with a start, {length} bytes").expect("a string");
    out
}

/// How many sections there are of each outcome.
pub fn outcomes(sample: &[(Outcome, Vector<Call>)]) -> BTreeMap<Outcome, usize> {
    let mut outcomes = BTreeMap::new();
    sample.iter().for_each(|(outcome, _)| *outcomes.entry(*outcome).or_default() += 1);
    outcomes
}
