//! Strips at the limits of counts, sums and length, and one step above them; and long tracks whose frames do not rise.

use ::strips::{LENGTH_LIMIT, MOST_ADDITIONAL};

use crate::prng::Prng;
use crate::strip_bytes::{Key, Strip, Track};
use crate::strip_frames::{distinct, repeat};
use crate::strip_keys::{any, key, with_frames};

const MOST_COUNT: usize = u16::MAX as usize;

const KINDS: u64 = 29;

pub fn at_a_limit(prng: &Prng, turn: u64) -> Vec<u8> {
    let bones = prng.one_in(2);
    let mut strip = any(prng);
    let tracks = strip.of_kind(bones);
    let first = 1 + prng.below(MOST_ADDITIONAL - 1);
    let more = prng.below(first);
    match turn % KINDS {
        0 => *tracks = of_additional(&[MOST_ADDITIONAL]),
        1 => *tracks = of_additional(&[first, MOST_ADDITIONAL - first]),
        2 => *tracks = of_additional(&[first, MOST_ADDITIONAL + 1 - first]),
        3 => *tracks = of_additional(&[MOST_ADDITIONAL, 0, 0]),
        4 => *tracks = of_additional(&[0, MOST_ADDITIONAL, 1]),
        5 => *tracks = of_additional(&[217; 302]),
        6 => *tracks = of_additional(&[&[217; 302][..], &[1]].concat()),
        7 => {
            strip.bones = of_additional(&[first, MOST_ADDITIONAL - first]);
            strip.morphs = of_additional(&[more, MOST_ADDITIONAL - more]);
        }
        8 => {
            strip.bones = of_additional(&[MOST_ADDITIONAL]);
            strip.morphs = of_additional(&[MOST_ADDITIONAL, 1]);
        }
        // The sum before a later 24 or 23, and these before the sum.
        9 => {
            *tracks = of_additional(&[first, MOST_ADDITIONAL + 1 - first, 0]);
            tracks[2].keys[0].map = 255;
        }
        10 => {
            *tracks = of_additional(&[first, MOST_ADDITIONAL + 1 - first]);
            tracks[1].keys.last_mut().expect("keys").map = 255;
        }
        11 => {
            strip = Strip { bones: of_additional(&[first, MOST_ADDITIONAL + 1 - first, 0]), ..Strip::default() };
            return cut(prng, strip.write(), 1, 7);
        }
        12 => {
            strip = Strip { morphs: of_additional(&[first, MOST_ADDITIONAL + 1 - first]), ..Strip::default() };
            return cut(prng, strip.write(), 1, 5);
        }
        13 => {
            *tracks = of_additional(&[first, MOST_ADDITIONAL + 1 - first]);
            strip.behind = vec![0];
        }
        14 => *tracks = of_additional(&[0; MOST_COUNT]),
        15 => *tracks = of_additional(&[1; MOST_COUNT]),
        16 => *tracks = of_additional(&[&[1; MOST_COUNT - 1][..], &[0]].concat()),
        // Without keys in the track before the sum, and in the last one.
        17 => {
            *tracks = of_additional(&[MOST_ADDITIONAL, 1]);
            tracks.insert(0, Track::default());
        }
        18 => {
            *tracks = of_additional(&[MOST_ADDITIONAL, 0]);
            tracks[1].keys.clear();
        }
        19 => return long(vec![0; 4], LENGTH_LIMIT),
        20 => return long(vec![0; 4], LENGTH_LIMIT + 1),
        21 => return long(strip.write(), LENGTH_LIMIT),
        22 => return long(strip.write(), LENGTH_LIMIT + 1 + prng.below(2)),
        23 => return vec![prng.pick(&[1, 255]); LENGTH_LIMIT + prng.below(2)],
        24 => longest(prng, &mut strip),
        25 => *tracks = vec![any_order(prng, MOST_COUNT, bones, false)],
        26 => *tracks = vec![any_order(prng, MOST_COUNT, bones, true)],
        kind => {
            let keys = prng.pick(&[2_047, 2_048, 2_049, 4_097, 8_192, 5_000 + prng.below(60_000)]);
            *tracks = vec![any_order(prng, keys, bones, kind == 28)];
        }
    }
    strip.write()
}

/// Tracks with so many keys besides the first, all plain, with frames that rise.
fn of_additional(additional: &[usize]) -> Vec<Track> {
    let track = |more: &usize| Track::of((0..=*more as u32).map(Key::bare).collect());
    additional.iter().map(track).collect()
}

fn any_order(prng: &Prng, keys: usize, bones: bool, repeated: bool) -> Track {
    let mut frames = distinct(prng, keys);
    if repeated {
        repeat(prng, &mut frames);
    }
    if prng.one_in(4) {
        with_frames(prng, &frames, bones)
    } else {
        Track::of(frames.into_iter().map(Key::bare).collect())
    }
}

/// As many keys as there can be, in one track and in as many as there can be.
fn longest(prng: &Prng, strip: &mut Strip) {
    for bones in [true, false] {
        let rising = |keys: usize| Track::of((0..keys as u32).map(|frame| key(prng, frame, bones)).collect());
        let mut tracks = vec![rising(MOST_ADDITIONAL + 1)];
        tracks.resize_with(MOST_COUNT, || rising(1));
        *strip.of_kind(bones) = tracks;
    }
}

/// A few bytes fewer.
fn cut(prng: &Prng, mut strip: Vec<u8>, least: usize, most: usize) -> Vec<u8> {
    strip.truncate(strip.len() - least - prng.below(most - least + 1));
    strip
}

/// So many bytes, those behind the strip left over.
fn long(mut strip: Vec<u8>, length: usize) -> Vec<u8> {
    strip.resize(length, 0);
    strip
}

#[cfg(test)]
mod tests {
    use ::strips::read;

    use super::*;

    /// Of each kind the answer that it is made for.
    #[test]
    fn each_kind() {
        let expected: [Option<u8>; KINDS as usize] = [
            None,
            None,
            Some(25),
            None,
            Some(25),
            None,
            Some(25),
            None,
            Some(25),
            Some(25),
            Some(24),
            Some(25),
            Some(23),
            Some(25),
            None,
            Some(25),
            None,
            Some(25),
            Some(25),
            Some(23),
            Some(16),
            Some(23),
            Some(16),
            None,
            None,
            None,
            Some(25),
            None,
            Some(25),
        ];
        for (turn, expected) in (0..).zip(expected) {
            for round in 0..3 {
                let strip = at_a_limit(&Prng::new(1, 0, turn + KINDS * round), turn);
                if turn == 23 {
                    assert!(strip.len() >= LENGTH_LIMIT && read(&strip).is_err());
                } else {
                    assert_eq!(read(&strip).err(), expected, "{turn}");
                }
            }
        }
    }
}
