//! Small model sections, written by the section writer of the differential runs.

use generate::section::{Bone, Model, Morph, Record, Tracks};

/// Index, frame, previous link and next link; an initial record's index is not written.
pub type Links = [i32; 4];

pub fn plain_bone() -> Bone {
    let interpolation = [20, 20, 107, 107].repeat(4).try_into().expect("16 bytes");
    Bone { interpolation, translation: [0; 3], orientation: [0, 0, 0, 1_f32.to_bits()], flags: [0; 2] }
}

pub fn plain_morph() -> Morph {
    Morph { weight: 0, selected: 0 }
}

pub fn record<P>([index, frame, previous, next]: Links, payload: P) -> Record<P> {
    Record { index, frame, previous, next, payload }
}

pub fn tracks<P: Clone>(initial: &[Links], additional: &[Links], payload: &P) -> Tracks<P> {
    let records = |links: &[Links]| links.iter().map(|links| record(*links, payload.clone())).collect();
    Tracks { initial: records(initial), additional: records(additional) }
}

/// Plain poses throughout.
pub fn bones(initial: &[Links], additional: &[Links]) -> Tracks<Bone> {
    tracks(initial, additional, &plain_bone())
}

/// Weights of 0.
pub fn morphs(initial: &[Links], additional: &[Links]) -> Tracks<Morph> {
    tracks(initial, additional, &plain_morph())
}

/// Nameless; all else is 0.
pub fn section(bones: Tracks<Bone>, morphs: Tracks<Morph>) -> Vec<u8> {
    let (bone_count, morph_count) = (bones.initial.len(), morphs.initial.len());
    let model = Model {
        number: 0,
        name: vec![],
        english_name: vec![],
        path: [0; 256],
        ignored: 0,
        bone_names: vec![vec![]; bone_count],
        morph_names: vec![vec![]; morph_count],
        constraint_bones: vec![],
        outside_parents: vec![],
        display: [0; 22],
        expansion: vec![],
        scroll: [0; 8],
        bones,
        morphs,
        models: tracks(&[[0; 4]], &[], &vec![0; 2]),
        states: vec![0; 31 * bone_count + 4 * morph_count],
        ending: [0; 7],
    };
    model.write().bytes
}
