//! Model sections by hand for the strip call: document 01's, the same with morphs, and more of each refusal. Each is labelled
//! with the number that it is to give, 0 where it is accepted.

use generate::section::{Bone, Model, Morph, Record, Tracks};
use generate::{Case, Kind};

const ONE: u32 = 0x3f80_0000;
const NAN: u32 = 0x7fc0_0000;
const INFINITY: u32 = 0x7f80_0000;
const MINUS_ZERO: u32 = 0x8000_0000;
const PLAIN_CURVES: [u8; 16] = [20, 20, 107, 107, 20, 20, 107, 107, 20, 20, 107, 107, 20, 20, 107, 107];
const PLAIN_BONE: Bone =
    Bone { interpolation: PLAIN_CURVES, translation: [0; 3], orientation: [0, 0, 0, ONE], flags: [0; 2] };
const PLAIN_MORPH: Morph = Morph { weight: 0, selected: 0 };

/// Frame, previous link and next link of an initial record.
type Initial = [i32; 3];
/// Index, frame, previous link and next link of an additional record.
type Additional = [i32; 4];

/// Bytes of no section before one.
const BEFORE: [u8; 5] = [255, 1, 0, 128, 7];

pub fn cases() -> Vec<Case> {
    let mut cases = unread();
    for (number, (initial, additional)) in linked() {
        cases.push(bones(number, tracks(&initial, &additional, PLAIN_BONE)));
        cases.push(morphs(number, tracks(&initial, &additional, PLAIN_MORPH)));
    }
    cases.extend(poses());
    cases.extend(weights());
    cases.push(every_map());
    cases.push(both_kinds());
    let started: Vec<Case> = cases.iter().skip(1).step_by(7).map(started).collect();
    cases.extend(started);
    cases
}

fn case(number: u8, section: Vec<u8>, start: u64) -> Case {
    Case { kind: Kind::Model, label: number.to_string(), section, start }
}

/// The case's section, from another start.
fn started(case: &Case) -> Case {
    let section = [&BEFORE, case.section.as_slice()].concat();
    Case { section, start: case.start.saturating_add(BEFORE.len() as u64), ..case.clone() }
}

/// Zero bytes that are too few, started behind their end, or with a count that is negative, at the limit or above it.
fn unread() -> Vec<Case> {
    let mut cases = vec![case(0, vec![0; 340], 0)];
    cases.extend([339, 307, 259, 0].map(|length| case(1, vec![0; length], 0)));
    cases.extend([1, 340, 341, 1 << 32, u64::MAX].map(|start| case(1, vec![0; 340], start)));
    // Where the counts stand: bones, morphs, additional bones, additional morphs.
    for (place, limit) in [(260, 65_535), (264, 65_535), (307, 65_534), (311, 65_534)] {
        let counts = [(2, -1), (2, i32::MIN), (1, limit), (20, limit + 1), (20, i32::MAX)];
        cases.extend(counts.map(|(number, count)| counted(number, place, count)));
    }
    // Constraints, outside parents, additional model records.
    cases.extend([268, 272, 329].map(|place| counted(2, place, -1)));
    cases
}

fn counted(number: u8, place: usize, count: i32) -> Case {
    let mut section = vec![0; 340];
    section[place..place + 4].copy_from_slice(&count.to_le_bytes());
    case(number, section, 0)
}

/// The records of one kind.
type Records = (Vec<Initial>, Vec<Additional>);

/// Records of either kind, with plain poses or weights, and the number that they are to give.
fn linked() -> Vec<(u8, Records)> {
    let one = |next: i32, additional: &[Additional]| (vec![[0, 0, next]], additional.to_vec());
    let two =
        |nexts: [i32; 2], additional: &[Additional]| (nexts.map(|next| [0, 3, next]).to_vec(), additional.to_vec());
    vec![
        (0, one(0, &[])),
        (0, one(1, &[[1, 1, 0, 0]])),
        (0, one(0, &[[1, 1, 0, 0]])),
        (0, (vec![], vec![[9, -1, 0, 0], [0, 0, 0, 0]])),
        // two tracks out of order with equal frames
        (0, two([4, 2], &[[7, 8, 4, 0], [2, 1, 1, 3], [i32::MAX, -5, 0, 0], [4, 1, 0, 7], [3, 8, 2, 0]])),
        (3, one(1, &[[-1, 1, 0, 0]])),
        (3, one(1, &[[1, 1, 0, 0], [i32::MIN, 1, 0, 0]])),
        (4, one(1, &[[0, 1, 0, 0]])),
        (4, two([2, 3], &[[2, 1, 0, 0], [3, 1, 1, 0], [1, 0, 0, 0]])),
        // before the repeated index
        (4, one(2, &[[2, 1, 0, 0], [0, 1, 0, 0], [0, 1, 0, 0]])),
        (5, one(1, &[[1, 1, 0, 0], [1, 2, 0, 0]])),
        (5, one(3, &[[3, 1, 0, 0], [5, 1, 0, 0], [4, 2, 0, 0], [5, 2, 0, 0], [3, 1, 0, 0]])),
        (6, one(9, &[[1, 1, 0, 0]])),
        // to a track's number
        (6, two([1, 0], &[[2, 1, 0, 0]])),
        (6, one(-1, &[[1, 1, 0, 0]])),
        (6, one(1, &[[1, 1, 0, i32::MIN]])),
        // to itself, to a record two before
        (7, one(1, &[[1, 1, 0, 1]])),
        (7, two([0, 3], &[[3, 1, 1, 4], [4, 2, 3, 5], [5, 3, 4, 3]])),
        (8, one(1, &[[1, 1, 5, 0]])),
        (8, one(1, &[[1, 1, -1, 0]])),
        // to a record of another track
        (8, two([2, 2], &[[2, 1, 0, 0]])),
        (10, (vec![[-1, 0, 0]], vec![])),
        (10, one(1, &[[1, i32::MIN, 0, 0]])),
        // with the initial record, between records
        (11, one(1, &[[1, 0, 0, 0]])),
        (11, two([0, 2], &[[2, 6, 1, 3], [3, 7, 2, 4], [4, 6, 3, 0]])),
        // either link alone, several records
        (15, one(0, &[[1, 1, 0, 7]])),
        (15, one(0, &[[1, 1, 7, 0]])),
        (15, two([2, 0], &[[2, 1, 0, 0], [5, 1, 6, 0], [6, 1, 0, 5], [7, 1, 0, 0], [8, 1, -1, 1]])),
    ]
}

/// Poses that are refused, poses at the limit, and poses that are plain but for their bits.
fn poses() -> Vec<Case> {
    let [less, small] = [0x3980_0000, 0x3a00_0000]; // 2^-12, 2^-11
    let poses = [
        (12, Bone { translation: [0, INFINITY, 0], ..PLAIN_BONE }),
        (12, Bone { translation: [NAN, 0, 0], orientation: [0; 4], ..PLAIN_BONE }),
        (13, Bone { orientation: [0; 4], ..PLAIN_BONE }),
        (13, Bone { orientation: [less, less, 0, 0], ..PLAIN_BONE }),
        (13, Bone { orientation: [0, 0, NAN, ONE], ..PLAIN_BONE }),
        (0, Bone { orientation: [small, 0, 0, 0], ..PLAIN_BONE }),
        (0, Bone { translation: [MINUS_ZERO; 3], orientation: [MINUS_ZERO, 0, 0, ONE], ..PLAIN_BONE }),
        (0, Bone { interpolation: [127, 128, 129, 255].repeat(4).try_into().expect("16 bytes"), ..PLAIN_BONE }),
    ];
    let of = |(number, bone)| at_each_place(number, PLAIN_BONE, bone).map(|(number, tracks)| bones(number, tracks));
    poses.into_iter().flat_map(of).collect()
}

fn weights() -> Vec<Case> {
    let of = |(number, weight)| {
        let morph = Morph { weight, ..PLAIN_MORPH };
        at_each_place(number, PLAIN_MORPH, morph).map(|(number, tracks)| morphs(number, tracks))
    };
    let weights = [(14, INFINITY), (14, NAN), (14, INFINITY | MINUS_ZERO), (0, ONE), (0, MINUS_ZERO), (0, 1)];
    weights.into_iter().flat_map(of).collect()
}

/// A track of two keys and a loose record: the payload at the first key, at the second, and at the loose record, where it is
/// not looked at.
fn at_each_place<P: Clone>(number: u8, plain: P, payload: P) -> [(u8, Tracks<P>); 3] {
    [0, 1, 2].map(|place| {
        let mut tracks = tracks(&[[4, 0, 3]], &[[2, 4, 0, 0], [3, 5, 0, 0]], plain.clone());
        match place {
            0 => tracks.initial[0].payload = payload.clone(),
            1 => tracks.additional[1].payload = payload.clone(),
            _ => tracks.additional[0].payload = payload.clone(),
        }
        (if place < 2 { number } else { 0 }, tracks)
    })
}

/// A bone whose sixteen keys have all maps.
fn every_map() -> Case {
    let records: Vec<Additional> = (1..16).map(|index| [index, 3 * index, index - 1, (index + 1) % 16]).collect();
    let mut tracks = tracks(&[[0, 0, 1]], &records, PLAIN_BONE);
    for (record, map) in tracks.additional.iter_mut().zip(1_u8..) {
        let Bone { interpolation, translation, orientation, .. } = &mut record.payload;
        let bit = |bit: u8| map >> bit & 1 == 1;
        translation[2] = if bit(0) { ONE } else { MINUS_ZERO };
        orientation[usize::from(map) % 4] = if bit(1) { ONE + 1 } else { orientation[usize::from(map) % 4] };
        interpolation[usize::from(map) % 12] = if bit(2) { map + 120 } else { interpolation[usize::from(map) % 12] };
        interpolation[15] = if bit(3) { map + 120 } else { 107 };
    }
    bones(0, tracks)
}

/// Two tracks of either kind with records out of order, some loose.
fn both_kinds() -> Case {
    let records: [Additional; 5] =
        [[9, 2, 0, 0], [6, 8, 3, 0], [5, -1, 0, 0], [3, 2, 1, 6], [i32::MAX, i32::MIN, 0, 0]];
    let initial: [Initial; 2] = [[0, 0, 9], [i32::MAX, -4, 3]];
    let bones = tracks(&initial, &records, PLAIN_BONE);
    let mut morphs = tracks(&initial, &records, PLAIN_MORPH);
    let weights = morphs.initial.iter_mut().chain(&mut morphs.additional);
    weights.zip([0, 1, ONE, MINUS_ZERO, NAN, 0x7f7f_ffff]).for_each(|(morph, weight)| morph.payload.weight = weight);
    model(0, bones, morphs)
}

fn tracks<P: Clone>(initial: &[Initial], additional: &[Additional], payload: P) -> Tracks<P> {
    let record = |[index, frame, previous, next]: Additional| {
        let payload = payload.clone();
        Record { index, frame, previous, next, payload }
    };
    Tracks {
        initial: initial.iter().map(|[frame, previous, next]| record([0, *frame, *previous, *next])).collect(),
        additional: additional.iter().copied().map(record).collect(),
    }
}

fn bones(number: u8, bones: Tracks<Bone>) -> Case {
    model(number, bones, tracks(&[], &[], PLAIN_MORPH))
}

fn morphs(number: u8, morphs: Tracks<Morph>) -> Case {
    model(number, tracks(&[], &[], PLAIN_BONE), morphs)
}

/// Nameless bones and morphs; all else is 0.
fn model(number: u8, bones: Tracks<Bone>, morphs: Tracks<Morph>) -> Case {
    let initial = Record { index: 0, frame: 0, previous: 0, next: 0, payload: vec![0; 2] };
    let model = Model {
        number: 0,
        name: vec![],
        english_name: vec![],
        path: [0; 256],
        ignored: 0,
        bone_names: vec![vec![]; bones.initial.len()],
        morph_names: vec![vec![]; morphs.initial.len()],
        constraint_bones: vec![],
        outside_parents: vec![],
        display: [0; 22],
        expansion: vec![],
        scroll: [0; 8],
        states: vec![0; 31 * bones.initial.len() + 4 * morphs.initial.len()],
        bones,
        morphs,
        models: Tracks { initial: vec![initial], additional: vec![] },
        ending: [0; 7],
    };
    case(number, model.write().bytes, 0)
}
