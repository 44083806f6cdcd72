//! Sections of a given number of additional records for measuring: MMD's own order, other orders, and hostile ones.

use crate::prng::Prng;
use crate::section::{Bone, Model, Morph, Payload, Record, Tracks};

/// How many tracks the additional records belong to.
#[derive(Debug, Clone, Copy, PartialEq, Eq)]
pub enum Count {
    Exactly(usize),
    /// One track more than there are additional records, so that each has one key but the last.
    OneEach,
}

/// Which records a track's chain goes through.
#[derive(Debug, Clone, Copy, PartialEq, Eq)]
pub enum Chains {
    Consecutive,
    Interleaved,
    /// One track's, in any order.
    AnyOrder,
}

#[derive(Debug, Clone, Copy, PartialEq, Eq)]
pub enum Frames {
    Rising,
    Falling,
    Scattered,
    /// Scattered over all frames that there can be.
    FarApart,
    Equal,
    /// The last key has the first one's frame.
    FallingThenFirst,
    RisingThenFirst,
}

#[derive(Debug, Clone, Copy, PartialEq, Eq)]
pub enum File {
    InOrder,
    Reversed,
    Shuffled,
}

/// What is wrong with the records, at the end of the last track's chain where it concerns a chain.
#[derive(Debug, Clone, Copy, PartialEq, Eq)]
pub enum Fault {
    Nothing,
    /// The last record leads to the chain's first record.
    CycleToFirst,
    /// The last record leads to itself.
    CycleToLast,
    WrongPrevious,
    MissingLink,
    /// All records have the same index.
    AllIndicesEqual,
    /// The last record has the first one's index.
    LastIndexRepeats,
    /// The tracks reach nothing, and each record leads to the next.
    NoneReached,
    /// The tracks reach nothing, and both links of each record are 0.
    AllLoose,
    /// The last key's weight or translation is not finite.
    NotFinite,
}

#[derive(Debug, Clone, Copy)]
pub struct Shape {
    pub name: &'static str,
    pub morphs: bool,
    pub tracks: Count,
    pub chains: Chains,
    /// The distance from one index to the next, the first being the count.
    pub gap: usize,
    pub frames: Frames,
    pub file: File,
    pub fault: Fault,
}

/// One track of bones as MMD writes it.
const MMD: Shape = Shape {
    name: "1 track",
    morphs: false,
    tracks: Count::Exactly(1),
    chains: Chains::Consecutive,
    gap: 1,
    frames: Frames::Rising,
    file: File::InOrder,
    fault: Fault::Nothing,
};
/// With as many additional records as there can be, the last index is just below 2^31.
const FAR: usize = 32_767;
const TRACKS_300: Shape = Shape { tracks: Count::Exactly(300), chains: Chains::Interleaved, ..MMD };
const TRACKS_3000: Shape = Shape { tracks: Count::Exactly(3_000), chains: Chains::Interleaved, ..MMD };

/// Sections that are accepted.
pub const ACCEPTED: [Shape; 16] = [
    MMD,
    Shape { name: "1 track, scattered frames", frames: Frames::Scattered, ..MMD },
    Shape { name: "1 track, shuffled", file: File::Shuffled, ..MMD },
    Shape { name: "1 track, shuffled, scattered frames", file: File::Shuffled, frames: Frames::Scattered, ..MMD },
    Shape { name: "1 track, links in any order", chains: Chains::AnyOrder, ..MMD },
    Shape { name: "1 track, frames far apart", frames: Frames::FarApart, ..MMD },
    Shape { name: "1 track, indices far apart", gap: FAR, ..MMD },
    Shape { name: "1 track, shuffled, indices far apart", gap: FAR, file: File::Shuffled, ..MMD },
    Shape { name: "300 tracks, consecutive", chains: Chains::Consecutive, ..TRACKS_300 },
    Shape { name: "300 tracks, interleaved", ..TRACKS_300 },
    Shape { name: "300 tracks, shuffled", file: File::Shuffled, ..TRACKS_300 },
    Shape {
        name: "300 tracks, shuffled, scattered frames",
        file: File::Shuffled,
        frames: Frames::Scattered,
        ..TRACKS_300
    },
    Shape { name: "3000 tracks, interleaved", ..TRACKS_3000 },
    Shape { name: "3000 tracks, shuffled", file: File::Shuffled, ..TRACKS_3000 },
    Shape { name: "morphs: 100 tracks, interleaved", morphs: true, tracks: Count::Exactly(100), ..TRACKS_300 },
    Shape {
        name: "morphs: 100 tracks, shuffled",
        morphs: true,
        tracks: Count::Exactly(100),
        file: File::Shuffled,
        ..TRACKS_300
    },
];

/// Sections that someone may have written to take time.
pub const HOSTILE: [Shape; 18] = [
    Shape { name: "frames falling", frames: Frames::Falling, ..MMD },
    Shape { name: "frames falling, shuffled", frames: Frames::Falling, file: File::Shuffled, ..MMD },
    Shape { name: "frames falling, last repeats", frames: Frames::FallingThenFirst, ..MMD },
    Shape { name: "frames rising, last repeats", frames: Frames::RisingThenFirst, ..MMD },
    Shape { name: "all frames equal", frames: Frames::Equal, ..MMD },
    Shape { name: "indices falling in the file", file: File::Reversed, ..MMD },
    Shape { name: "one key in each track", tracks: Count::OneEach, ..MMD },
    Shape { name: "one key in each track, shuffled", tracks: Count::OneEach, file: File::Shuffled, ..MMD },
    Shape { name: "cycle to the first record", fault: Fault::CycleToFirst, ..MMD },
    Shape { name: "cycle to the first record, shuffled", fault: Fault::CycleToFirst, file: File::Shuffled, ..MMD },
    Shape { name: "cycle to the last record", fault: Fault::CycleToLast, ..MMD },
    Shape { name: "wrong previous link at the end", fault: Fault::WrongPrevious, ..MMD },
    Shape { name: "missing link at the end", fault: Fault::MissingLink, ..MMD },
    Shape { name: "all indices equal", fault: Fault::AllIndicesEqual, ..MMD },
    Shape { name: "last index repeats the first", fault: Fault::LastIndexRepeats, ..MMD },
    Shape { name: "none reached", fault: Fault::NoneReached, ..MMD },
    Shape { name: "all loose", fault: Fault::AllLoose, ..MMD },
    Shape { name: "not finite at the end", fault: Fault::NotFinite, ..MMD },
];

impl Shape {
    /// Records in file order with consecutive indices, chains along them, frames rising, nothing wrong.
    pub fn as_mmd_writes(&self) -> bool {
        let in_order = self.file == File::InOrder && self.chains != Chains::AnyOrder;
        self.gap == 1 && in_order && self.frames == Frames::Rising && self.fault == Fault::Nothing
    }

    /// The section with so many additional records.
    pub fn section(&self, additional: usize) -> Vec<u8> {
        let prng = &Prng::new(1, 2, additional as u64);
        let tracks = match self.tracks {
            Count::Exactly(tracks) => tracks,
            Count::OneEach => additional + 1,
        };
        let (bones, morphs) = if self.morphs { (0, tracks) } else { (tracks, 0) };
        let (more_bones, more_morphs) = if self.morphs { (0, additional) } else { (additional, 0) };
        let name = |number: usize| format!("track {number}").into_bytes();
        let whole = Model {
            number: 0,
            name: b"model".to_vec(),
            english_name: b"model".to_vec(),
            path: [0; 256],
            ignored: 0,
            bone_names: (0..bones).map(name).collect(),
            morph_names: (0..morphs).map(name).collect(),
            constraint_bones: Vec::new(),
            outside_parents: Vec::new(),
            display: [0; 22],
            expansion: Vec::new(),
            scroll: [0; 8],
            bones: self.records(prng, bones, more_bones, bone),
            morphs: self.records(prng, morphs, more_morphs, morph),
            models: Tracks {
                initial: vec![Record { index: 0, frame: 0, previous: 0, next: 0, payload: vec![0; 2] }],
                additional: Vec::new(),
            },
            states: vec![0; 31 * bones + 4 * morphs],
            ending: [0; 7],
        };
        whole.write().bytes
    }

    fn records<P: Payload>(
        &self,
        prng: &Prng,
        tracks: usize,
        additional: usize,
        payload: impl Fn(&Prng, bool) -> P,
    ) -> Tracks<P> {
        let mut keys: Vec<Vec<usize>> = vec![Vec::new(); tracks];
        for position in 0..additional {
            let track = match self.chains {
                Chains::Consecutive | Chains::AnyOrder => position * tracks / additional,
                Chains::Interleaved => position % tracks,
            };
            keys[track].push(position);
        }
        if self.chains == Chains::AnyOrder {
            keys.iter_mut().for_each(|chain| prng.shuffle(chain));
        }
        let index = |position: usize| (tracks + self.gap * position) as i32;
        let linked = !matches!(self.fault, Fault::NoneReached | Fault::AllLoose);
        let mut initial = Vec::new();
        let mut records: Vec<Option<Record<P>>> = (0..additional).map(|_| None).collect();
        for (track, chain) in keys.iter().enumerate() {
            let frames = self.frames(prng, chain.len() + 1);
            let next = |place: usize| chain.get(place).filter(|_| linked).map_or(0, |position| index(*position));
            let whole = payload(prng, true);
            initial.push(Record { index: 0, frame: frames[0], previous: 0, next: next(0), payload: whole });
            for (place, position) in chain.iter().enumerate() {
                let before = if place == 0 { track as i32 } else { index(chain[place - 1]) };
                let last = track + 1 == tracks && place + 1 == chain.len();
                let finite = !(last && self.fault == Fault::NotFinite);
                records[*position] = Some(Record {
                    index: index(*position),
                    frame: frames[place + 1],
                    previous: if linked { before } else { 0 },
                    next: next(place + 1),
                    payload: payload(prng, finite),
                });
            }
        }
        let mut additional: Vec<Record<P>> = records.into_iter().map(|record| record.expect("in a chain")).collect();
        self.spoil(&mut additional);
        match self.file {
            File::InOrder => (),
            File::Reversed => additional.reverse(),
            File::Shuffled => prng.shuffle(&mut additional),
        }
        Tracks { initial, additional }
    }

    /// The fault, among records in the order of the chain.
    fn spoil<P>(&self, records: &mut [Record<P>]) {
        let Some(first) = records.first().map(|record| record.index) else { return };
        let all = records.len();
        let last = &mut records[all - 1];
        match self.fault {
            Fault::Nothing | Fault::AllLoose | Fault::NotFinite => (),
            Fault::CycleToFirst => last.next = first,
            Fault::CycleToLast => last.next = last.index,
            Fault::WrongPrevious => last.previous = i32::MAX,
            Fault::MissingLink => last.next = i32::MAX,
            Fault::LastIndexRepeats => last.index = first,
            Fault::AllIndicesEqual => records.iter_mut().for_each(|record| record.index = first),
            Fault::NoneReached => records.iter_mut().for_each(|record| record.next = record.index + 1),
        }
    }

    /// The frames of a track's keys, in chain order.
    fn frames(&self, prng: &Prng, keys: usize) -> Vec<i32> {
        let mut frames: Vec<i32> = (0..keys as i32).map(|key| 3 * key).collect();
        match self.frames {
            Frames::Rising => (),
            Frames::Falling | Frames::FallingThenFirst => frames.reverse(),
            Frames::Scattered => prng.shuffle(&mut frames),
            Frames::FarApart => {
                prng.shuffle(&mut frames);
                frames.iter_mut().for_each(|frame| *frame *= i32::MAX / (3 * keys as i32));
            }
            Frames::Equal => frames.fill(0),
            Frames::RisingThenFirst => (),
        }
        if matches!(self.frames, Frames::FallingThenFirst | Frames::RisingThenFirst) {
            frames[keys - 1] = frames[0];
        }
        frames
    }
}

const ONE: u32 = 0x3f80_0000;
const HALF: u32 = 0x3f00_0000;
const QUARTER: u32 = 0x3e80_0000;
const INFINITE: u32 = 0x7f80_0000;
const PLAIN_CURVES: [u8; 16] = [20, 20, 107, 107, 20, 20, 107, 107, 20, 20, 107, 107, 20, 20, 107, 107];

/// One key in four moves its bone, seven in eight turn it, one in two has curves of its own. An orientation's first component is between a
/// quarter and one, so that no square is subnormal.
fn bone(prng: &Prng, finite: bool) -> Bone {
    let turned = [QUARTER + (prng.u32() >> 8), 0, HALF, HALF];
    let moved = [ONE, prng.u32() >> 3, HALF];
    let translation = if prng.one_in(4) { moved } else { [0; 3] };
    Bone {
        interpolation: if prng.one_in(2) { [64; 16] } else { PLAIN_CURVES },
        translation: if finite { translation } else { [INFINITE; 3] },
        orientation: if prng.one_in(8) { [0, 0, 0, ONE] } else { turned },
        flags: [0; 2],
    }
}

/// Three weights in four are not 0.
fn morph(prng: &Prng, finite: bool) -> Morph {
    let weight = if prng.one_in(4) { 0 } else { prng.u32() >> 3 };
    Morph { weight: if finite { weight } else { INFINITE }, selected: 0 }
}
