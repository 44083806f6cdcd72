//! Strips read back: what is asked of each, and the library's four calls held against the reader of the crate `strips`.

use std::fmt;

use ::strips::ROW_NUMBERS;
use answers::{Clip, build, clip, model, strip};
use calls::strip_reads::{ReadBack, STRIP_READS, StripRead, StripReads};
use generate::prng::Prng;
use generate::sound::{self, Sizes};
use generate::strips::Case;

use crate::compare::BEFORE_NUMBER;

/// What stands in a place of the rows before a call.
pub const BEFORE_ROW: u32 = 0xa5a5_a5a5;

/// How many keys a strip has, or the refusal's number.
pub type Keys = Result<usize, u8>;

/// One in so many strips is built by the Rust from a generated section.
const BUILT_EVERY: u64 = 16;
const BUILT: &str = "built";
/// Streams of random numbers beside those of `generate`.
const SECTION: u64 = 8;
const ASKED: u64 = 9;

/// An error tells that a strip of the builder is not read as it was built.
pub fn case(seed: u64, number: u64) -> Result<Case, String> {
    let built = number / BUILT_EVERY;
    if number % BUILT_EVERY == BUILT_EVERY - 1 {
        built_case(seed, built)
    } else {
        Ok(generate::strips::case(seed, number - built))
    }
}

/// The strip of a section that the Rust builds.
fn built_case(seed: u64, number: u64) -> Result<Case, String> {
    let prng = &Prng::new(seed, SECTION, number);
    let sizes = Sizes { constraints: 0, parents: 0, additional_models: 0, ..Sizes::any(prng) };
    let section = sound::model(prng, sizes, |_| Vec::new()).write().bytes;
    let clip = build(&model::summary(&section, 0).expect("a sound section")).expect("a sound section");
    let strip = strip::bytes(&clip);
    let read = ::strips::read(&strip).map_err(|number| format!("a strip of the builder is refused {number}"))?;
    if same_values(&clip, &read) {
        Ok(Case { family: BUILT, strip })
    } else {
        Err(format!("read as {read:?}, built as {clip:?}"))
    }
}

/// "Equal frames, curves and float values": 0 and -0 are equal values.
pub fn same_values(clip: &Clip, read: &::strips::Strip) -> bool {
    let floats = |one: &[u32], other: &[u32]| {
        one.iter().zip(other).all(|(one, other)| f32::from_bits(*one) == f32::from_bits(*other))
    };
    let bone = |built: &clip::BoneKey, read: &::strips::BoneKey| {
        built.frame == read.frame
            && built.curves == read.curves
            && floats(&built.translation, &read.translation)
            && floats(&built.orientation, &read.orientation)
    };
    let morph = |built: &clip::MorphKey, read: &::strips::MorphKey| {
        built.frame == read.frame && floats(&[built.weight], &[read.weight])
    };
    same_tracks(&clip.bones, &read.bones, bone) && same_tracks(&clip.morphs, &read.morphs, morph)
}

fn same_tracks<A, B>(built: &[Vec<A>], read: &[Vec<B>], same: impl Fn(&A, &B) -> bool) -> bool {
    let same_keys = |(built, read): (&Vec<A>, &Vec<B>)| {
        built.len() == read.len() && built.iter().zip(read).all(|(built, read)| same(built, read))
    };
    built.len() == read.len() && built.iter().zip(read).all(same_keys)
}

/// One call, with how many places are lent for rows and for values.
#[derive(Debug, Clone, Copy)]
pub struct Asked {
    pub call: StripRead,
    pub rows: usize,
    pub values: usize,
}

const SEVERAL: usize = 16;
/// How many values are lent in turn.
const LENT: [usize; 8] = [SEVERAL, 13, 14, 12, 2, 1, 3, 0];
/// Of a longer strip fewer calls are made.
const LONG: usize = 20_000;

/// All four calls with places enough, and with numbers that are not there or places too few.
pub fn asked(read: &ReadBack, length: usize, number: u64) -> Vec<Asked> {
    let prng = &Prng::new(number, ASKED, 0);
    let all = read.rows().len();
    let whole = Asked { call: StripRead::Keys { first: 0 }, rows: all * ROW_NUMBERS + 40, values: SEVERAL };
    let with = |call| Asked { call, rows: 0, values: prng.pick(&LENT) };
    let mut others = vec![
        with(present_count(prng, read)),
        with(present_key(prng, read)),
        with(absent_count(prng, read)),
        with(absent_key(prng, read)),
        some_keys(prng, all),
        some_keys(prng, all),
    ];
    if length > LONG {
        others = vec![others[number as usize % others.len()]];
    }
    [vec![with(StripRead::Counts), whole], others].concat()
}

/// Of a strip that is refused, the first track and key.
fn present_key(prng: &Prng, read: &ReadBack) -> StripRead {
    match read.rows() {
        [] => StripRead::Key { kind: prng.below(2) as u32, track: 0, place: 0 },
        rows => {
            let [kind, track, place, ..] = rows[prng.pick(&[0, rows.len() - 1, prng.below(rows.len())])];
            StripRead::Key { kind, track, place: place as usize }
        }
    }
}

fn present_count(prng: &Prng, read: &ReadBack) -> StripRead {
    let StripRead::Key { kind, track, .. } = present_key(prng, read) else { unreachable!("a key") };
    StripRead::KeyCount { kind, track }
}

/// A kind that is none, or a track behind the last one.
fn absent_track(prng: &Prng, read: &ReadBack) -> [u32; 2] {
    let (kind, there) = (prng.below(2), prng.below(2) as u32);
    let tracks = read.read.as_ref().map_or(0, |strip| strip.counts()[kind]) as u32;
    let kinds = [2, 3, 255, 256, 1 << 16, 1 << 31, u32::MAX];
    let behind = [tracks, tracks + 1, tracks + 256, tracks + (1 << 16), 65_535.max(tracks), 1 << 31, u32::MAX];
    if prng.one_in(3) { [prng.pick(&kinds), there] } else { [kind as u32, prng.pick(&behind)] }
}

fn absent_count(prng: &Prng, read: &ReadBack) -> StripRead {
    let [kind, track] = absent_track(prng, read);
    StripRead::KeyCount { kind, track }
}

fn absent_key(prng: &Prng, read: &ReadBack) -> StripRead {
    let StripRead::Key { kind, track, .. } = present_key(prng, read) else { unreachable!("a key") };
    let keys = read.read.as_ref().ok().and_then(|strip| strip.key_count(kind, track)).unwrap_or(0);
    let behind = [keys, keys + 1, keys + (1 << 16), keys + (1 << 32), 1 << 31, 1 << 63, usize::MAX];
    if prng.one_in(2) {
        return StripRead::Key { kind, track, place: prng.pick(&behind) };
    }
    let [kind, track] = absent_track(prng, read);
    StripRead::Key { kind, track, place: prng.pick(&[0, 0, 1, usize::MAX]) }
}

/// From any key on, or none, into whole rows, none, or some of a row.
fn some_keys(prng: &Prng, all: usize) -> Asked {
    const HUGE: [usize; 6] = [usize::MAX, usize::MAX / 16, usize::MAX / 16 + 1, 1 << 28, 1 << 32, 1 << 60];
    let first = match prng.below(8) {
        0 => prng.pick(&HUGE),
        1 => prng.pick(&[all, all + 1]),
        2 => all.saturating_sub(1),
        3..5 => prng.below(all + 1),
        _ => prng.pick(&[0, 1]),
    };
    let left = all.saturating_sub(first) * ROW_NUMBERS;
    let some = prng.below(all + 2) * ROW_NUMBERS;
    let rows = [0, 1, 15, 16, 17, 31, 32, 33, left.saturating_sub(1), left, left + 1, left + 15, some, some + 7];
    Asked { call: StripRead::Keys { first }, rows: prng.pick(&rows), values: prng.pick(&LENT) }
}

#[derive(Default)]
pub struct Comparison {
    strips: u64,
    /// By the call and the number returned.
    calls: [[u64; MOST_NUMBER + 1]; STRIP_READS.len()],
    compared: u64,
    differences: u64,
    /// Those of the shortest strips, with the length.
    shortest: Vec<(usize, String)>,
    rows: Vec<u32>,
}

const MOST_NUMBER: usize = 25;

impl Comparison {
    pub fn case(&mut self, number: u64, strip: &[u8], read: &ReadBack, other: &impl StripReads) {
        self.strips += 1;
        for Asked { call, rows, values } in asked(read, strip.len(), number) {
            let mut space = std::mem::take(&mut self.rows);
            space.clear();
            space.resize(rows, BEFORE_ROW);
            let mut lent = [BEFORE_NUMBER; SEVERAL];
            let returned = call.made(other, strip, &mut space, &mut lent[..values]);
            let found = self.check(read, call, returned, &space, &lent[..values]);
            self.rows = space;
            if let Some(found) = found {
                return self.differs(number, strip, &format!("{call:?}, {rows} and {values} lent: {found}"));
            }
        }
    }

    fn check(
        &mut self,
        read: &ReadBack,
        call: StripRead,
        returned: u32,
        rows: &[u32],
        values: &[u64],
    ) -> Option<String> {
        let answer = read.answer(call);
        let (number, numbers) = answer.map_or_else(|number| (number.into(), Vec::new()), |numbers| (0, numbers));
        self.calls[call.number()][number as usize] += 1;
        self.compared += (1 + rows.len() + values.len()) as u64;
        if returned != number {
            return Some(format!("returned {returned} instead of {number}"));
        }
        let written = read.written(call, rows.len());
        first_other("values", values, &numbers, BEFORE_NUMBER)
            .or_else(|| first_other("rows", rows, written, BEFORE_ROW))
    }

    fn differs(&mut self, number: u64, strip: &[u8], found: &str) {
        self.differences += 1;
        self.shortest.push((strip.len(), format!("strip {number}: {found}: {}", shown(strip))));
        self.shortest.sort();
        self.shortest.truncate(10);
    }

    pub fn differences(&self) -> u64 {
        self.differences
    }
}

/// The first place that is not as it must be: as many as there are of the answer, then as before.
fn first_other<T: Copy + PartialEq + fmt::Display>(name: &str, lent: &[T], answer: &[T], before: T) -> Option<String> {
    let (held, kept) = lent.split_at(answer.len().min(lent.len()));
    if held == &answer[..held.len()] && kept.iter().all(|place| *place == before) {
        return None;
    }
    let expected = answer.iter().copied().chain(std::iter::repeat(before));
    let mut places = lent.iter().zip(expected).enumerate();
    let (place, (found, expected)) = places.find(|(_, (found, expected))| *found != expected)?;
    Some(format!("{name}[{place}] {found} instead of {expected}"))
}

/// The strip's bytes, as far as they are short.
pub fn shown(strip: &[u8]) -> String {
    let more = if strip.len() > 200 { format!(".. {} bytes", strip.len()) } else { String::new() };
    let hex: String = strip.iter().take(200).map(|byte| format!("{byte:02x}")).collect();
    format!("{hex}{more}")
}

impl fmt::Display for Comparison {
    fn fmt(&self, f: &mut fmt::Formatter<'_>) -> fmt::Result {
        for (name, calls) in STRIP_READS.iter().zip(&self.calls) {
            let met = calls.iter().enumerate().filter(|(_, times)| **times > 0);
            met.into_iter().try_for_each(|(number, times)| writeln!(f, "{name:16} returned {number:2} {times:>12}"))?;
        }
        let calls: u64 = self.calls.iter().flatten().sum();
        writeln!(f, "{} strips, {calls} calls, {} numbers compared", self.strips, self.compared)?;
        self.shortest.iter().try_for_each(|(_, text)| writeln!(f, "{text}"))?;
        writeln!(f, "{} differences", self.differences)
    }
}
