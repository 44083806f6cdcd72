//! A sample of the readers' answers in the Rust, written for `crates/replay`. The format is in this folder's README.

use std::collections::{BTreeMap, BTreeSet};
use std::fmt::Write as _;

use calls::call::CALLS;
use calls::{Answer, Call, Check};
use generate::{Case, Kind};

use crate::compare::{each_check, lent};
use crate::expected::{Expected, expected};
use crate::vector_file::{LONGEST_SECTION, ROOM_FOR_BYTES, ROOM_FOR_NUMBERS, Sample, Written, bytes, u16_bytes};

const FILE: &str = "readers";
const BROKEN: &str = "readers_broken";
const SEED: u64 = 1;
const MOST_BYTES: usize = 290_000;

type Vector = crate::vector_file::Vector<Check>;

pub fn written() -> Sample {
    let vectors = sample();
    let broken = [broken(&vectors)];
    let file = bytes(&vectors);
    let stdout = said(FILE, &vectors, 0) + &said(BROKEN, &broken, 1);
    let told = told(&vectors, file.len());
    Sample { data: [(FILE, file), (BROKEN, bytes(&broken))], stdout, told }
}

/// Sections by hand, then from each family some of each kind and outcome.
fn sample() -> Vec<Vector> {
    let zeros = |kind, length: usize| Case { kind, label: String::new(), section: vec![0; length], start: 0 };
    let mut by_hand = vec![zeros(Kind::Model, 340), zeros(Kind::Model, 339), zeros(Kind::Model, 0)];
    by_hand.extend([119, 118].map(|length| zeros(Kind::Camera, length)));
    by_hand.extend([65, 64].map(|length| zeros(Kind::Light, length)));
    for count in [-1, 65_535, 65_536] {
        let mut case = zeros(Kind::Model, 340);
        case.section[260..264].copy_from_slice(&i32::to_le_bytes(count));
        by_hand.push(case);
    }
    let mut vectors: Vec<Vector> = by_hand.iter().map(|case| vector("by hand", 0, case)).collect();
    let mut bytes: usize = vectors.iter().map(|vector| vector.bytes().len()).sum();
    let mut taken = BTreeMap::new();
    for number in 0.. {
        let (family, case) = generate::case(SEED, number);
        if case.section.len() > LONGEST_SECTION {
            continue;
        }
        let vector = vector(family, number as usize, &case);
        let Answer::Numbers(outcome, _) = vector.checks[0].answer else { unreachable!("a summary comes first") };
        let times = taken.entry((family, case.kind as u8, outcome, case.start > 0)).or_insert(0);
        let length = vector.bytes().len();
        let most = if outcome == 0 { 1 } else { 2 };
        if *times == most || length > MOST_BYTES / 16 {
            continue;
        }
        if bytes + length > MOST_BYTES || number > 100_000 {
            break;
        }
        *times += 1;
        bytes += length;
        vectors.push(vector);
    }
    vectors
}

fn vector(family: &'static str, turn: usize, case: &Case) -> Vector {
    let expected: Expected = expected(case).expect("the Rust does not contradict the walk");
    let mut checks = Vec::new();
    each_check(case, &expected, turn, |length| (0..length).collect(), |check| checks.push(check));
    Vector { family, start: case.start, section: case.section.clone(), checks }
}

impl Written for Check {
    /// Every fourth check lends a slice that is too short, just long enough or one longer; the others lend more.
    fn written(&self, turn: usize) -> Vec<u8> {
        let Check { call, arguments, answer } = self;
        let room = |need| lent(need, if turn % 4 == 3 { turn / 4 % 6 } else { usize::MAX });
        let (room, returned, answer): (usize, usize, Vec<Vec<u8>>) = match answer {
            Answer::Numbers(status, numbers) => {
                let room = room(numbers.len());
                assert!(room <= ROOM_FOR_NUMBERS);
                (room, *status as usize, numbers.iter().map(|number| number.to_le_bytes().to_vec()).collect())
            }
            Answer::Bytes(bytes) => {
                let room = room(bytes.len());
                assert!(room <= ROOM_FOR_BYTES);
                (room, bytes.len(), bytes.iter().map(|byte| vec![*byte]).collect())
            }
        };
        let held = room.min(answer.len());
        let mut out = vec![*call as u8, u8::from(arguments.include_index)];
        [room, returned, held].into_iter().for_each(|number| out.extend(u16_bytes(number)));
        out.extend(arguments.number.to_le_bytes());
        out.extend(arguments.entry.to_le_bytes());
        out.extend(answer[..held].concat());
        out
    }
}

/// One section's checks, with one number of the summary changed.
fn broken(vectors: &[Vector]) -> Vector {
    let whole = vectors.iter().filter(|vector| vector.family == "sound");
    let one = whole.min_by_key(|vector| vector.bytes().len()).expect("a sound section");
    let mut checks = one.checks.clone();
    let Answer::Numbers(_, numbers) = &mut checks[0].answer else { unreachable!("a summary comes first") };
    numbers[20] += 1;
    Vector { family: one.family, start: one.start, section: one.section.clone(), checks }
}

/// What the program is to write.
fn said(file: &str, vectors: &[Vector], wrong: usize) -> String {
    let checks = || vectors.iter().flat_map(|vector| &vector.checks);
    let answered = |number| {
        let of = |check: &&Check| matches!(check.answer, Answer::Numbers(status, _) if status == number);
        checks().filter(of).count()
    };
    let mut out = format!("{file}:\nsections {}\nchecks {}\n", vectors.len(), checks().count());
    let bytes = checks().filter(|check| check.call.answers_bytes()).count();
    let rows = [("read", answered(0)), ("refused 1", answered(1)), ("refused 2", answered(2))];
    let more = [("refused 19", answered(19)), ("refused 20", answered(20)), ("bytes", bytes)];
    for (row, times) in rows.into_iter().chain(more) {
        let wrong = if row == "read" { wrong } else { 0 };
        writeln!(out, "{row}: {times} wrong {wrong}").expect("a string");
    }
    out
}

/// What the sample holds, so that a lack is seen.
fn told(vectors: &[Vector], length: usize) -> String {
    let mut out = String::new();
    let mut families: BTreeMap<&str, usize> = BTreeMap::new();
    vectors.iter().for_each(|vector| *families.entry(vector.family).or_default() += 1);
    families
        .iter()
        .for_each(|(family, sections)| writeln!(out, "{family:26}{sections:>5} sections").expect("a string"));
    let checks = || vectors.iter().flat_map(|vector| &vector.checks);
    for call in CALLS {
        let of = |check: &&Check| check.call == call;
        let outcomes: BTreeSet<u32> = checks().filter(of).filter_map(|check| status(&check.answer)).collect();
        writeln!(out, "{:42}{:>5} checks {outcomes:?}", Call::name(call), checks().filter(of).count())
            .expect("a string");
    }
    let starts = vectors.iter().filter(|vector| vector.start > 0).count();
    let has_nan = |check: &&Check| check.floats().iter().any(|bits| f32::from_bits(*bits as u32).is_nan());
    let nans = checks().filter(has_nan).count();
    writeln!(out, "{starts} sections with a start, {nans} checks with a NaN, {length} bytes").expect("a string");
    out
}

fn status(answer: &Answer) -> Option<u32> {
    match answer {
        Answer::Numbers(status, _) => Some(*status),
        Answer::Bytes(_) => None,
    }
}
