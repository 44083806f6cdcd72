//! A sample of strips read back, written for `crates/replay`. The format is in this folder's README.

use std::collections::BTreeMap;
use std::fmt::Write as _;

use calls::{ReadBack, StripRead};
use strips::ROW_NUMBERS;

use crate::strip_read_cases;
use crate::strip_reads::case;
use crate::vector_file::{ROOM_FOR_ROWS, Sample, Vector, Written, bytes, u16_bytes};

const FILE: &str = "strip_reads";
const BROKEN: &str = "strip_reads_broken";
const SEED: u64 = 1;
const STRIPS: u64 = 30_000;
/// The longest strip that is taken from the generated ones, and the lengths of which some are taken each.
const LONGEST: usize = 4_000;
const LENGTHS: [usize; 3] = [100, 500, LONGEST];
/// 16 is not replayed.
const NUMBERS: [u32; 5] = [0, 19, 23, 24, 25];

/// A call, and what is to come of it.
#[derive(Clone)]
pub struct Check {
    call: StripRead,
    returned: u32,
    numbers: Vec<u32>,
    /// How many places are lent for rows, and what is written into them.
    room: usize,
    rows: Vec<u32>,
    /// Written otherwise than it must come out.
    wrong: bool,
}

pub fn written() -> Sample {
    let vectors = sample();
    let broken = broken(&vectors);
    let file = bytes(&vectors);
    let stdout = said(FILE, &vectors) + &said(BROKEN, &broken);
    let told = told(&vectors, file.len());
    Sample { data: [(FILE, file), (BROKEN, bytes(&broken))], stdout, told }
}

/// Those by hand, then of each family some that are accepted and some of each refusal, short and longer ones.
pub fn sample() -> Vec<Vector<Check>> {
    let by_hand = strip_read_cases::cases();
    let mut sample: Vec<_> = by_hand.iter().map(|(strip, _)| vector("by hand", strip)).collect();
    let mut taken = BTreeMap::new();
    for number in 0..STRIPS {
        let case = case(SEED, number).expect("no contradiction");
        if case.strip.len() > LONGEST {
            continue;
        }
        let vector = vector(case.family, &case.strip);
        let length = LENGTHS.iter().position(|most| case.strip.len() <= *most);
        let refused = vector.checks[0].returned;
        let times = taken.entry((case.family, refused, length)).or_insert(0);
        if *times < if refused == 0 { 3 } else { 2 } {
            *times += 1;
            sample.push(vector);
        }
    }
    sample
}

fn vector(family: &'static str, strip: &[u8]) -> Vector<Check> {
    let read = ReadBack::of(strip);
    let checks = asked(&read).into_iter().map(|(call, room)| check(&read, call, room)).collect();
    Vector { family, start: 0, section: strip.to_vec(), checks }
}

fn check(read: &ReadBack, call: StripRead, room: usize) -> Check {
    let (returned, numbers) = match read.answer(call) {
        Ok(numbers) => (0, numbers.iter().map(|number| u32::try_from(*number).expect("32 bits")).collect()),
        Err(number) => (number.into(), Vec::new()),
    };
    Check { call, returned, numbers, room, rows: read.written(call, room).to_vec(), wrong: false }
}

/// Every call; of tracks and keys some that are there and some that are not; rows with places more than needed, from one key on or
/// another, and with places that hold no whole row.
fn asked(read: &ReadBack) -> Vec<(StripRead, usize)> {
    let all = read.rows().len();
    let mut calls = vec![StripRead::Counts];
    let mut keys: Vec<[u32; 3]> = read.rows().iter().map(|[kind, track, place, ..]| [*kind, *track, *place]).collect();
    keys = if all < 4 { keys } else { vec![keys[0], keys[1], keys[all / 2], keys[all - 1]] };
    for [kind, track, place] in keys {
        calls.push(StripRead::KeyCount { kind, track });
        calls.push(StripRead::Key { kind, track, place: place as usize });
    }
    for kind in [0, 1] {
        let tracks = read.read.as_ref().map_or(0, |strip| strip.counts()[kind as usize]) as u32;
        let keys = |track: u32| read.read.as_ref().ok().and_then(|strip| strip.key_count(kind, track)).unwrap_or(0);
        calls.push(StripRead::KeyCount { kind, track: tracks });
        calls.push(StripRead::Key { kind, track: tracks.saturating_sub(1), place: keys(tracks.saturating_sub(1)) });
        calls.push(StripRead::Key { kind, track: u32::MAX, place: usize::MAX });
    }
    let mut asked: Vec<(StripRead, usize)> = calls.into_iter().map(|call| (call, 0)).collect();
    // Of a longer strip, so that the file stays short, the last few.
    let first = if all > 8 { all - 4 } else { 0 };
    let whole = (all - first) * ROW_NUMBERS + 5;
    let rows = [(first, whole), (0, 15), (1, 33), (all.saturating_sub(1), 17), (all, 16), (usize::MAX, 31), (0, 0)];
    asked.extend(rows.map(|(first, room)| (StripRead::Keys { first }, room)));
    asked
}

impl Written for Check {
    fn written(&self, _: usize) -> Vec<u8> {
        assert!(self.room <= ROOM_FOR_ROWS);
        let (kind, track, number) = match self.call {
            StripRead::Counts => (0, 0, 0),
            StripRead::KeyCount { kind, track } => (kind, track, 0),
            StripRead::Key { kind, track, place } => (kind, track, place),
            StripRead::Keys { first } => (0, 0, first),
        };
        let mut out = vec![self.call.number() as u8, kind as u8];
        out.extend(track.to_le_bytes());
        out.extend((number as u64).to_le_bytes());
        out.extend(u16_bytes(self.returned as usize));
        out.push(self.numbers.len() as u8);
        out.extend(u16_bytes(self.room));
        out.extend(u16_bytes(self.rows.len()));
        self.numbers.iter().chain(&self.rows).for_each(|number| out.extend(number.to_le_bytes()));
        out
    }
}

/// Of each call a number made another, a place of the rows and one behind them, an answer made a refusal, and each refusal made another or
/// none.
fn broken(vectors: &[Vector<Check>]) -> Vec<Vector<Check>> {
    type Of = fn(&Check) -> bool;
    type Change = (Of, fn(&mut Check));
    let bone: Of = |check| check.numbers.len() == 13 && matches!(check.call, StripRead::Key { kind: 0, .. });
    let morph: Of = |check| check.numbers.len() == 13 && matches!(check.call, StripRead::Key { kind: 1, .. });
    let rows: Of = |check| check.rows.len() > ROW_NUMBERS && check.room > check.rows.len();
    let changes: [Change; 18] = [
        (|check| check.call == StripRead::Counts && check.returned == 0, |check| check.numbers[0] += 1),
        (|check| check.call == StripRead::Counts && check.returned == 0, |check| check.numbers[1] += 1),
        (|check| check.call.number() == 1 && check.returned == 0, |check| check.numbers[0] += 1),
        (bone, |check| check.numbers[0] ^= 1),
        (bone, |check| check.numbers[1] ^= 8),
        (bone, |check| check.numbers[2] ^= 1 << 31),
        (bone, |check| check.numbers[8] ^= 1),
        (bone, |check| check.numbers[9] ^= 1),
        (bone, |check| check.numbers[12] ^= 1 << 24),
        (morph, |check| check.numbers[2] ^= 1),
        (rows, |check| check.numbers[0] += 1),
        (rows, |check| *check.rows.last_mut().expect("a row") ^= 1),
        (rows, |check| check.rows.push(0)),
        (|check| check.call.number() == 2 && check.returned == 0, |check| check.returned = 19),
        (|check| check.returned == 19, |check| check.returned = 25),
        (|check| check.returned == 23, |check| check.returned = 25),
        (|check| check.returned == 24, |check| check.returned = 23),
        (|check| check.returned == 25, |check| check.returned = 24),
    ];
    let changed = |(of, change): Change| {
        let short = |vector: &&Vector<Check>| vector.checks.iter().any(of) && vector.checks.len() < 40;
        let mut vector = vectors.iter().find(short).expect("one of each").clone();
        let mut check = vector.checks.iter().find(|check| of(check)).expect("found").clone();
        change(&mut check);
        check.wrong = true;
        if check.returned != 0 {
            check.numbers.clear();
        }
        vector.checks = vec![check];
        vector
    };
    changes.map(changed).to_vec()
}

/// What the program is to write.
fn said(file: &str, vectors: &[Vector<Check>]) -> String {
    let all = || vectors.iter().flat_map(|vector| &vector.checks);
    let mut out = format!("{file}:\nsections {}\nchecks {}\n", vectors.len(), all().count());
    for number in NUMBERS {
        let row = if number == 0 { "answered".into() } else { format!("refused {number}") };
        let of = || all().filter(|check| check.returned == number);
        let wrong = of().filter(|check| check.wrong).count();
        writeln!(out, "{row}: {} wrong {wrong}", of().count()).expect("a string");
    }
    out
}

/// What the sample holds, so that a lack is seen.
fn told(vectors: &[Vector<Check>], length: usize) -> String {
    let mut out = String::new();
    for ((family, refused), strips) in outcomes(vectors) {
        let refused = if refused == 0 { "accepted".into() } else { format!("refused {refused}") };
        writeln!(out, "{family:20} {refused:12}{strips:>5} strips").expect("a string");
    }
    let keys: usize = vectors.iter().map(|vector| ReadBack::of(&vector.section).rows().len()).sum();
    let checks: usize = vectors.iter().map(|vector| vector.checks.len()).sum();
    writeln!(out, "{} strips, {keys} keys, {checks} checks, {length} bytes", vectors.len()).expect("a string");
    out
}

/// How many strips there are of each family and outcome: 0, or the refusal's number.
pub fn outcomes(vectors: &[Vector<Check>]) -> BTreeMap<(&'static str, u32), usize> {
    let mut outcomes = BTreeMap::new();
    vectors.iter().for_each(|vector| *outcomes.entry((vector.family, vector.checks[0].returned)).or_default() += 1);
    outcomes
}
