//! A sample of look-ups, written for `crates/replay`. The format is in this folder's README.

use std::collections::BTreeMap;
use std::fmt::Write as _;

use generate::assets::Case;

use crate::asset_cases;
use crate::assets::{Answer, expected, told};
use crate::vector_file::{Sample, Vector, Written, bytes, u16_bytes};

const FILE: &str = "assets";
const BROKEN: &str = "assets_broken";
const SEED: u64 = 1;
const CASES: u64 = 20_000;
/// The longest list that is taken from the generated ones; 16 is not replayed.
const LONGEST_LIST: usize = 400;
const NUMBERS: [u32; 3] = [0, 21, 22];

/// A list for the path, and what is to come of it.
#[derive(Clone)]
pub struct LookUp {
    list: Vec<u8>,
    returned: u32,
    value: u64,
    /// Written otherwise than it must come out.
    wrong: bool,
}

pub fn written() -> Sample {
    let vectors = sample();
    let broken = broken(&vectors);
    let file = bytes(&vectors);
    let stdout = said(FILE, &vectors) + &said(BROKEN, &broken);
    let told = told_of(&vectors, file.len());
    Sample { data: [(FILE, file), (BROKEN, bytes(&broken))], stdout, told }
}

/// Those by hand, then of each sort of path with each family of lists one of each outcome.
pub fn sample() -> Vec<Vector<LookUp>> {
    let mut sample: Vec<_> = asset_cases::cases().iter().map(|(case, _)| vector(case)).collect();
    let mut taken = BTreeMap::new();
    for number in 0..CASES {
        let case = generate::assets::case(SEED, number);
        if case.list.len() > LONGEST_LIST {
            continue;
        }
        let vector = vector(&case);
        let LookUp { returned, value, .. } = vector.checks[0];
        let times = taken.entry((case.sorts, returned, value == u64::MAX)).or_insert(0);
        if *times < 2 {
            *times += 1;
            sample.push(vector);
        }
    }
    sample
}

fn answer(case: &Case) -> Answer {
    expected(case).expect("the Rust does not contradict document 02")
}

fn vector(case: &Case) -> Vector<LookUp> {
    let (returned, value) = told(&answer(case));
    let look_up = LookUp { list: case.list.clone(), returned, value: value.unwrap_or(0), wrong: false };
    Vector { family: case.sorts[1], start: 0, section: case.path.clone(), checks: vec![look_up] }
}

impl Written for LookUp {
    fn written(&self, _: usize) -> Vec<u8> {
        let mut out = u16_bytes(self.returned as usize).to_vec();
        out.extend(self.value.to_le_bytes());
        out.extend(u16_bytes(self.list.len()));
        out.extend(&self.list);
        out
    }
}

/// A number made another, made none and made a refusal, none made a number, and each refusal made the other or none.
fn broken(vectors: &[Vector<LookUp>]) -> Vec<Vector<LookUp>> {
    type Of = fn(&LookUp) -> bool;
    type Change = (Of, fn(&mut LookUp));
    let number: Of = |look_up| look_up.returned == 0 && look_up.value != u64::MAX;
    let none: Of = |look_up| look_up.returned == 0 && look_up.value == u64::MAX;
    let changes: [Change; 7] = [
        (number, |look_up| look_up.value += 1),
        (number, |look_up| look_up.value = u64::MAX),
        (number, |look_up| look_up.returned = 22),
        (none, |look_up| look_up.value = 0),
        (|look_up| look_up.returned == 21, |look_up| look_up.returned = 22),
        (|look_up| look_up.returned == 22, |look_up| look_up.returned = 21),
        (|look_up| look_up.returned == 22, |look_up| (look_up.returned, look_up.value) = (0, u64::MAX)),
    ];
    let changed = |(of, change): Change| {
        let mut vector = vectors.iter().find(|vector| of(&vector.checks[0])).expect("one of each").clone();
        change(&mut vector.checks[0]);
        vector.checks[0].wrong = true;
        vector
    };
    changes.map(changed).to_vec()
}

/// What the program is to write.
fn said(file: &str, vectors: &[Vector<LookUp>]) -> String {
    let all = || vectors.iter().flat_map(|vector| &vector.checks);
    let mut out = format!("{file}:\nsections {}\nchecks {}\n", vectors.len(), all().count());
    for number in NUMBERS {
        let row = if number == 0 { "answered".into() } else { format!("refused {number}") };
        let of = || all().filter(|look_up| look_up.returned == number);
        let wrong = of().filter(|look_up| look_up.wrong).count();
        writeln!(out, "{row}: {} wrong {wrong}", of().count()).expect("a string");
    }
    out
}

/// What the sample holds, so that a lack is seen.
fn told_of(vectors: &[Vector<LookUp>], length: usize) -> String {
    let mut out = String::new();
    for (family, look_ups) in families(vectors) {
        writeln!(out, "{family:26}{look_ups:>5} look-ups").expect("a string");
    }
    writeln!(out, "{} look-ups, {length} bytes", vectors.len()).expect("a string");
    out
}

/// How many look-ups there are of each family of lists.
pub fn families(vectors: &[Vector<LookUp>]) -> BTreeMap<&'static str, usize> {
    let mut families = BTreeMap::new();
    vectors.iter().for_each(|vector| *families.entry(vector.family).or_default() += 1);
    families
}
