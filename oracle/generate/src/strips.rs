//! Strips to be read back, made from a seed.

use crate::prng::Prng;
use crate::strip_bytes::{Key, Strip, Track};
use crate::strip_faults;
use crate::strip_faults::{any_key, just_written, miscounted, never_written, unknown_map};
use crate::strip_frames::{distinct, number_of_keys, repeat};
use crate::strip_keys::{LONGEST_SMALL, any, of_both_kinds, small, with_frames};
use crate::strip_limits::at_a_limit;

#[derive(Debug, Clone, PartialEq, Eq)]
pub struct Case {
    pub family: &'static str,
    pub strip: Vec<u8>,
}

/// Makes a strip with the family's turn, which counts its strips under the seed.
type Make = fn(&Prng, seed: u64, turn: u64) -> Vec<u8>;

/// The families, each with its share of the strips.
const FAMILIES: [(&str, u64, Make); 13] = [
    ("sound", 3, |prng, _, _| any(prng).write()),
    ("truncated", 3, truncated),
    ("damaged byte", 5, damaged),
    ("never written", 5, a_key_never_written),
    ("just written", 2, a_key_just_written),
    ("unknown map", 2, a_key_of_unknown_map),
    ("another map", 1, a_key_of_another_map),
    ("frames in any order", 2, |prng, _, _| in_any_order(prng, false)),
    ("repeated frame", 3, |prng, _, _| in_any_order(prng, true)),
    ("miscounted", 2, a_wrong_count),
    ("left over", 1, left_over),
    ("several refusals", 4, several_refusals),
    ("any bytes", 1, any_bytes),
];
const SHARES: u64 = 34;

/// One in so many strips is at a limit, besides the shares: they are long.
const LIMIT_EVERY: u64 = 4_000;
/// Streams of random numbers beside those of sections, paths and lists.
const ANY: u64 = 5;
const SMALL: u64 = 6;

pub fn case(seed: u64, number: u64) -> Case {
    let prng = &Prng::new(seed, ANY, number);
    if number % LIMIT_EVERY == LIMIT_EVERY - 1 {
        return Case { family: "at a limit", strip: at_a_limit(prng, number / LIMIT_EVERY) };
    }
    let number = number - number / LIMIT_EVERY;
    let (round, mut share) = (number / SHARES, number % SHARES);
    for (family, shares, make) in FAMILIES {
        if share < shares {
            return Case { family, strip: make(prng, seed, round * shares + share) };
        }
        share -= shares;
    }
    unreachable!("SHARES is the sum of the shares")
}

fn small_strip(seed: u64, number: u64) -> Vec<u8> {
    small(&Prng::new(seed, SMALL, number)).write()
}

/// Each truncation of a small strip in turn.
fn truncated(_: &Prng, seed: u64, turn: u64) -> Vec<u8> {
    const SPAN: u64 = LONGEST_SMALL as u64 + 1;
    let mut strip = small_strip(seed, turn / SPAN);
    strip.truncate((turn % SPAN) as usize % (strip.len() + 1));
    strip
}

/// A small strip has so many turns, as a byte can be changed in so many ways.
const CHANGES: u64 = 255;
/// A strip of so many bytes has each of them changed in each way; longer ones are changed anywhere.
const WHOLLY_DAMAGED: u64 = 48;

/// Each change of each byte of a small strip in turn.
fn damaged(prng: &Prng, seed: u64, turn: u64) -> Vec<u8> {
    const SPAN: u64 = WHOLLY_DAMAGED * CHANGES;
    let mut strip = small_strip(seed, turn / SPAN);
    let length = strip.len() as u64;
    let (place, change) = match turn % SPAN {
        turn if turn < length * CHANGES && length <= WHOLLY_DAMAGED => (turn / CHANGES, 1 + turn % CHANGES),
        _ => (prng.below(strip.len()) as u64, 1 + prng.below(255) as u64),
    };
    strip[place as usize] ^= change as u8;
    // Of a short strip, when all is done, two bytes are changed.
    if length <= WHOLLY_DAMAGED && turn % SPAN >= length * CHANGES {
        let place = prng.below(strip.len());
        strip[place] ^= prng.pick(&[1, 128, 2, 255]);
    }
    strip
}

/// A sound strip with one of its keys changed.
fn with_a_key(prng: &Prng, turn: u64, change: fn(&Prng, &mut Key, bool, usize)) -> Vec<u8> {
    let mut strip = of_both_kinds(prng);
    // Bones have more fields.
    let bones = turn % 8 < 6;
    let turn = if bones { turn / 8 * 6 + turn % 8 } else { turn / 8 * 2 + turn % 8 - 6 };
    let key = any_key(prng, &mut strip, bones).expect("a key of each kind");
    change(prng, key, bones, turn as usize);
    strip.write()
}

fn a_key_never_written(prng: &Prng, _: u64, turn: u64) -> Vec<u8> {
    with_a_key(prng, turn, never_written)
}

fn a_key_just_written(prng: &Prng, _: u64, turn: u64) -> Vec<u8> {
    with_a_key(prng, turn, just_written)
}

/// One in two of these keys has also what the builder never writes, or nothing behind its map.
fn a_key_of_unknown_map(prng: &Prng, _: u64, turn: u64) -> Vec<u8> {
    with_a_key(prng, turn, |prng, key, bones, turn| {
        match prng.below(4) {
            0 => never_written(prng, key, bones, turn),
            1 => key.fields = Default::default(),
            _ => (),
        }
        unknown_map(key, bones, turn);
    })
}

/// One that says fewer fields than follow, more, or others.
fn a_key_of_another_map(prng: &Prng, _: u64, turn: u64) -> Vec<u8> {
    with_a_key(prng, turn, |prng, key, bones, turn| {
        key.map = (turn % if bones { 16 } else { 2 }) as u8;
        if prng.one_in(4) {
            key.frame |= 1 << 31;
        }
    })
}

/// Between other tracks one whose frames come in one order or another; others may have the same frames.
fn in_any_order(prng: &Prng, repeated: bool) -> Vec<u8> {
    let bones = prng.one_in(2);
    let mut strip = if prng.one_in(2) { any(prng) } else { Strip::default() };
    let mut frames = distinct(prng, number_of_keys(prng));
    let again = with_frames(prng, &frames, bones);
    if repeated {
        repeat(prng, &mut frames);
    }
    let bare = |frames: &[u32]| Track::of(frames.iter().copied().map(Key::bare).collect());
    let track = if prng.one_in(2) { bare(&frames) } else { with_frames(prng, &frames, bones) };
    let tracks = strip.of_kind(bones);
    tracks.insert(prng.below(tracks.len() + 1), track);
    if prng.one_in(3) {
        tracks.insert(prng.below(tracks.len() + 1), again);
    }
    if prng.one_in(4) {
        strip_faults::any(prng, &mut strip);
    }
    let mut strip = strip.write();
    if prng.one_in(6) {
        strip.truncate(strip.len() - 1 - prng.below(strip.len().min(12)));
    }
    strip
}

fn a_wrong_count(prng: &Prng, _: u64, _: u64) -> Vec<u8> {
    let mut strip = any(prng);
    miscounted(prng, &mut strip);
    strip.write()
}

/// From one byte to a whole strip.
fn left_over(prng: &Prng, _: u64, _: u64) -> Vec<u8> {
    let mut strip = any(prng);
    strip.behind = match prng.below(4) {
        0 => vec![0],
        1 => any(prng).write(),
        _ => {
            let bytes = 1 + prng.below(8);
            prng.bytes(bytes)
        }
    };
    strip.write()
}

fn several_refusals(prng: &Prng, _: u64, _: u64) -> Vec<u8> {
    let mut strip = if prng.one_in(4) { any(prng) } else { of_both_kinds(prng) };
    for _ in 0..2 + prng.below(3) {
        strip_faults::any(prng, &mut strip);
    }
    let mut strip = strip.write();
    if prng.one_in(3) {
        strip.truncate(prng.below(strip.len()));
    }
    strip
}

/// Counts of a few tracks and keys, and any bytes; or bytes alone.
fn any_bytes(prng: &Prng, _: u64, _: u64) -> Vec<u8> {
    let length = if prng.one_in(2) { 0 } else { prng.below(60) };
    let bytes = prng.bytes(length);
    if prng.one_in(3) {
        return bytes;
    }
    let count = |prng: &Prng| [prng.below(3) as u8, 0];
    let key = |prng: &Prng| [prng.below(4) as u8, 0, 0, 0, prng.pick(&[0, 0, 0, 1, 2, prng.below(18) as u8])];
    [&count(prng)[..], &count(prng), &count(prng), &key(prng), &bytes].concat()
}

#[cfg(test)]
mod tests {
    use std::collections::{BTreeMap, BTreeSet, HashSet};

    use ::strips::read;

    use super::*;

    const STRIPS: u64 = 80_000;

    fn cases() -> impl Iterator<Item = Case> {
        (0..STRIPS).map(|number| case(1, number))
    }

    #[test]
    fn shares_are_summed() {
        assert_eq!(FAMILIES.iter().map(|(_, shares, _)| shares).sum::<u64>(), SHARES);
    }

    #[test]
    fn a_case_comes_back() {
        for number in 0..2_000 {
            assert_eq!(case(7, number), case(7, number));
        }
    }

    #[test]
    fn small_strips_are_truncated_everywhere() {
        let prng = &Prng::new(0, 0, 0);
        for number in 0..40 {
            let whole = small_strip(3, number);
            let span = LONGEST_SMALL as u64 + 1;
            let cut: BTreeSet<usize> = (0..span).map(|turn| truncated(prng, 3, number * span + turn).len()).collect();
            assert!(cut.into_iter().eq(0..=whole.len()));
        }
    }

    /// Each byte of a short strip is changed to each other byte; there are longer ones.
    #[test]
    fn small_strips_are_damaged_everywhere() {
        let prng = &Prng::new(0, 0, 0);
        let span = WHOLLY_DAMAGED * CHANGES;
        let mut wholly = 0;
        for number in 0..24 {
            let whole = small_strip(3, number);
            let strips: HashSet<Vec<u8>> = (0..span).map(|turn| damaged(prng, 3, number * span + turn)).collect();
            let changes = (0..whole.len()).flat_map(|place| (1..=255).map(move |change| (place, change)));
            let mut others = changes.map(|(place, change)| {
                let mut strip = whole.clone();
                strip[place] ^= change;
                strip
            });
            wholly += usize::from(others.all(|other| strips.contains(&other)));
        }
        assert!((12..24).contains(&wholly), "{wholly}");
    }

    /// What a family's strips are refused with, or none.
    #[test]
    fn every_refusal_is_met() {
        let mut met: BTreeMap<&str, BTreeMap<Option<u8>, usize>> = BTreeMap::new();
        for Case { family, strip } in cases() {
            *met.entry(family).or_default().entry(read(&strip).err()).or_default() += 1;
        }
        let several = |family: &str, number: Option<u8>| {
            assert!(met[family].get(&number).is_some_and(|times| *times > 9), "{family}: {number:?} {:?}", met[family]);
        };
        for family in [
            "truncated",
            "damaged byte",
            "another map",
            "repeated frame",
            "miscounted",
            "several refusals",
            "any bytes",
        ] {
            [None, Some(23), Some(24), Some(25)]
                .into_iter()
                .filter(|number| family != "truncated" || number.is_none_or(|n| n == 23))
                .for_each(|number| several(family, number));
        }
        assert!(met["sound"].keys().eq(&[None]) && met["left over"].keys().eq(&[Some(23)]));
        assert!(met["unknown map"].keys().eq(&[Some(24)]));
        [None, Some(25)].into_iter().for_each(|number| several("just written", number));
        [None, Some(25)].into_iter().for_each(|number| several("never written", number));
    }

    /// A sound strip is the one that document 01's rule gives for its keys, written by itself in the crate `strips`.
    #[test]
    fn sound_strips_are_written_again() {
        for number in 0..4_000 {
            let strip = any(&Prng::new(1, 1, number)).write();
            assert_eq!(read(&strip).expect("sound").written(), strip);
        }
    }

    /// Every map that there is not, of bones and of morphs.
    #[test]
    fn every_unknown_map_is_met() {
        let mut maps = BTreeSet::new();
        for turn in 0..4_000 {
            let mut strip = Strip { bones: vec![bare_track()], morphs: vec![bare_track()], ..Strip::default() };
            let bones = turn % 2 == 0;
            let key = any_key(&Prng::new(1, 1, turn), &mut strip, bones).expect("a key");
            unknown_map(key, bones, turn as usize / 2);
            maps.insert((bones, key.map));
            assert_eq!(read(&strip.write()), Err(24));
        }
        let all = (16..=255).map(|map| (true, map)).chain((2..=255).map(|map| (false, map)));
        assert!(maps.into_iter().eq(all.collect::<BTreeSet<_>>()));
    }

    fn bare_track() -> Track {
        Track::of(vec![Key::bare(0)])
    }

    /// Repeated frames behind as many different ones as any that 4 KB hold, in any order.
    #[test]
    fn long_tracks_repeat_a_frame() {
        let mut met = BTreeSet::new();
        for number in 0..60_000 {
            let prng = &Prng::new(1, 2, number);
            let mut frames = distinct(prng, number_of_keys(prng));
            let all: HashSet<u32> = frames.iter().copied().collect();
            assert!(all.len() == frames.len() && frames.iter().all(|frame| *frame <= i32::MAX as u32));
            let rising = frames.is_sorted();
            let falling = frames.iter().rev().is_sorted();
            repeat(prng, &mut frames);
            if frames.len() > 1 {
                let mut before = HashSet::new();
                let again = frames.iter().position(|frame| !before.insert(*frame)).expect("a repeated frame");
                let size = [0, 100, 1_000, 1_026, 2_050].iter().rposition(|size| again > *size);
                met.insert((size, again + 1 == frames.len(), rising, falling));
            }
        }
        let sizes: BTreeSet<_> = met.iter().map(|(size, ..)| size).collect();
        assert_eq!(sizes.len(), 5);
        assert!(met.len() > 25, "{met:?}");
    }
}
