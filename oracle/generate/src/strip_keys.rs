//! Sound strips: those that the builder may have made.

use crate::prng::Prng;
use crate::section::{Bone, Morph};
use crate::strip_bytes::{Key, Strip, Track};
use crate::strip_frames::distinct;
use crate::values::Pose;

/// At most so many bytes long: `small`.
pub const LONGEST_SMALL: usize = 160;

/// Few tracks of few keys.
pub fn small(prng: &Prng) -> Strip {
    let few = |prng: &Prng| 1 + prng.below(4) / 2;
    loop {
        let strip = Strip {
            bones: (0..prng.below(3)).map(|_| track(prng, few(prng), true)).collect(),
            morphs: (0..prng.below(3)).map(|_| track(prng, few(prng), false)).collect(),
            ..Strip::default()
        };
        if strip.write().len() <= LONGEST_SMALL {
            return strip;
        }
    }
}

pub fn any(prng: &Prng) -> Strip {
    let tracks = |prng: &Prng| match prng.below(64) {
        0 => 6 + prng.below(40),
        1..8 => 3 + prng.below(3),
        _ => prng.below(3),
    };
    let keys = |prng: &Prng| match prng.below(64) {
        0 => 12 + prng.below(80),
        1..8 => 4 + prng.below(8),
        _ => 1 + prng.below(3),
    };
    Strip {
        bones: (0..tracks(prng)).map(|_| track(prng, keys(prng), true)).collect(),
        morphs: (0..tracks(prng)).map(|_| track(prng, keys(prng), false)).collect(),
        ..Strip::default()
    }
}

/// With a track of each kind at least.
pub fn of_both_kinds(prng: &Prng) -> Strip {
    let mut strip = any(prng);
    for bones in [true, false] {
        let tracks = strip.of_kind(bones);
        if tracks.is_empty() {
            tracks.push(track(prng, 1 + prng.below(3), bones));
        }
    }
    strip
}

pub fn track(prng: &Prng, keys: usize, bones: bool) -> Track {
    with_frames(prng, &distinct(prng, keys), bones)
}

/// In one track of two most fields are plain.
pub fn with_frames(prng: &Prng, frames: &[u32], bones: bool) -> Track {
    let one_in = prng.pick(&[1, 5]);
    let key = |frame: &u32| if prng.one_in(one_in) { key(prng, *frame, bones) } else { Key::bare(*frame) };
    Track::of(frames.iter().map(key).collect())
}

pub fn key(prng: &Prng, frame: u32, bones: bool) -> Key {
    if bones { Key::bone(frame, &Bone::sound(prng)) } else { Key::morph(frame, Morph::sound(prng).weight) }
}
