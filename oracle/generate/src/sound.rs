//! Sound sections: those that are read and built.

use std::collections::HashSet;

use crate::prng::Prng;
use crate::section::{Model, Record, Track, Tracks};
use crate::values::{self, Pose};

/// How many of each a model section has.
#[derive(Debug, Clone, Copy, Default)]
pub struct Sizes {
    pub bones: usize,
    pub morphs: usize,
    pub constraints: usize,
    pub parents: usize,
    pub additional_bones: usize,
    pub additional_morphs: usize,
    pub additional_models: usize,
    /// One additional bone or morph record in so many is loose.
    pub loose_in: usize,
}

impl Sizes {
    pub fn any(prng: &Prng) -> Self {
        Self::each(|| size(prng))
    }

    pub fn small(prng: &Prng) -> Self {
        Self::each(|| prng.below(3))
    }

    /// Some tracks, and records for their chains.
    pub fn chained(prng: &Prng) -> Self {
        Self {
            bones: 1 + prng.below(4),
            morphs: 1 + prng.below(4),
            additional_bones: 2 + prng.below(8),
            additional_morphs: 2 + prng.below(8),
            ..Self::small(prng)
        }
    }

    fn each(mut size: impl FnMut() -> usize) -> Self {
        Self {
            bones: size(),
            morphs: size(),
            constraints: size(),
            parents: size(),
            additional_bones: size(),
            additional_morphs: size(),
            additional_models: size(),
            loose_in: 6,
        }
    }
}

/// 0, 1 or many.
fn size(prng: &Prng) -> usize {
    match prng.below(100) {
        0..20 => 0,
        20..45 => 1,
        45..90 => 2 + prng.below(4),
        90..99 => 6 + prng.below(35),
        _ => 41 + prng.below(360),
    }
}

pub fn model(prng: &Prng, sizes: Sizes, name: fn(&Prng) -> Vec<u8>) -> Model {
    let Sizes { bones, morphs, constraints, parents, .. } = sizes;
    let record_length = 2 + constraints + 8 * parents;
    Model {
        number: prng.next() as u8,
        name: name(prng),
        english_name: name(prng),
        path: values::path(prng),
        ignored: prng.next() as u8,
        bone_names: (0..bones).map(|_| name(prng)).collect(),
        morph_names: (0..morphs).map(|_| name(prng)).collect(),
        constraint_bones: (0..constraints).map(|_| prng.i32()).collect(),
        outside_parents: (0..parents).map(|_| prng.i32()).collect(),
        display: bytes(prng),
        expansion: name(prng),
        scroll: bytes(prng),
        bones: tracks(prng, bones, sizes.additional_bones, sizes.loose_in),
        morphs: tracks(prng, morphs, sizes.additional_morphs, sizes.loose_in),
        models: records(prng, sizes.additional_models, record_length),
        states: prng.bytes(31 * bones + 4 * morphs + constraints + 16 * parents),
        ending: bytes(prng),
    }
}

pub fn camera(prng: &Prng, additional: usize) -> Track {
    Track { records: records(prng, additional, 66), state: prng.bytes(37) }
}

pub fn light(prng: &Prng, additional: usize) -> Track {
    Track { records: records(prng, additional, 25), state: prng.bytes(24) }
}

fn bytes<const N: usize>(prng: &Prng) -> [u8; N] {
    prng.bytes(N).try_into().expect("N bytes")
}

/// One initial record and some additional ones, of any links and any bytes: nothing is built from them.
fn records(prng: &Prng, additional: usize, length: usize) -> Tracks<Vec<u8>> {
    let record = |_| Record {
        index: prng.i32(),
        frame: prng.i32(),
        previous: prng.i32(),
        next: prng.i32(),
        payload: prng.bytes(length),
    };
    Tracks { initial: vec![record(0)], additional: (0..additional).map(record).collect() }
}

/// Tracks with their chains; one record in `loose_in` is loose, and each where there is no track.
pub fn tracks<P: Pose>(prng: &Prng, count: usize, additional: usize, loose_in: usize) -> Tracks<P> {
    let initial = |prng: &Prng| Record {
        index: 0,
        frame: prng.pick(&[0, 0, 0, 1, 7, i32::MAX]),
        previous: prng.pick(&[0, 0, 1, -1, i32::MIN]),
        next: 0,
        payload: P::sound(prng),
    };
    let mut tracks = Tracks { initial: (0..count).map(|_| initial(prng)).collect(), additional: Vec::new() };
    let mut frames: Vec<HashSet<i32>> = tracks.initial.iter().map(|key| HashSet::from([key.frame])).collect();
    let mut last = vec![None; count];
    for (position, index) in indices(prng, count, additional).into_iter().enumerate() {
        if count == 0 || prng.one_in(loose_in) {
            tracks.additional.push(loose(prng, index));
            continue;
        }
        let track = prng.below(count);
        let before = match last[track].replace(position) {
            None => {
                tracks.initial[track].next = index;
                track as i32
            }
            Some(before) => {
                let before: &mut Record<P> = &mut tracks.additional[before];
                before.next = index;
                before.index
            }
        };
        let frame = new_frame(prng, &mut frames[track]);
        let payload = P::sound(prng);
        tracks.additional.push(Record { index, frame, previous: before, next: 0, payload });
    }
    tracks
}

/// A record with both links 0; its frame and pose are not looked at.
pub fn loose<P: Pose>(prng: &Prng, index: i32) -> Record<P> {
    Record { index, frame: prng.i32(), previous: 0, next: 0, payload: P::any(prng) }
}

/// Different indices not below the count: without gaps, with gaps, or anywhere.
fn indices(prng: &Prng, count: usize, additional: usize) -> Vec<i32> {
    let mut indices: Vec<i32> = (count as i32..).take(additional).collect();
    match prng.below(3) {
        0 => (),
        1 => {
            let mut gap = 0;
            for index in &mut indices {
                gap += prng.below(4) as i32;
                *index += gap;
            }
        }
        _ => {
            let mut taken: HashSet<i32> = indices.iter().copied().collect();
            for index in &mut indices {
                let far = prng.pick(&[i32::MAX, prng.i32() & i32::MAX, 100_000 + prng.below(9) as i32]);
                if far >= count as i32 && taken.insert(far) {
                    *index = far;
                }
            }
        }
    }
    indices
}

fn new_frame(prng: &Prng, taken: &mut HashSet<i32>) -> i32 {
    let mut frame = match prng.below(8) {
        0 => prng.pick(&[0, 1, i32::MAX, i32::MAX - 1]),
        1 => prng.i32() & i32::MAX,
        2 => prng.below(40) as i32,
        _ => taken.len() as i32 * 3,
    };
    while !taken.insert(frame) {
        frame = prng.i32() & i32::MAX;
    }
    frame
}
