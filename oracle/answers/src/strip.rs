//! Document 01's strip call, worked out from the Rust's clip: the strip's bytes, reached and loose, and the work slices.
//! The Rust itself knows none of these. Sections are within the limits of document 01.

use std::collections::HashMap;

use mmd_anim_format::pmm::PmmDocumentModelSummary;

use crate::clip::{BoneKey, Clip, MorphKey, build};
use crate::refusal::Refusal;

#[derive(Debug, Clone, PartialEq, Eq)]
pub struct Strip {
    pub bytes: Vec<u8>,
    pub reached: u64,
    pub loose: u64,
    /// The first work slice: record positions by rising index, bones then morphs.
    pub positions: Vec<u16>,
    /// The second work slice: for each record its track number plus 1, or 0 if loose.
    pub tracks: Vec<u16>,
}

pub fn strip(summary: &PmmDocumentModelSummary) -> Result<Strip, Refusal> {
    let clip = build(summary)?;
    let bones = Chained {
        first: each(&summary.initial_bone_keyframe_summaries, |s| s.next_keyframe_index),
        index: each(&summary.bone_keyframe_summaries, |s| s.index.expect("additional")),
        next: each(&summary.bone_keyframe_summaries, |s| s.next_keyframe_index),
    };
    let morphs = Chained {
        first: each(&summary.initial_morph_keyframe_summaries, |s| s.next_keyframe_index),
        index: each(&summary.morph_keyframe_summaries, |s| s.index.expect("additional")),
        next: each(&summary.morph_keyframe_summaries, |s| s.next_keyframe_index),
    };
    let keys = clip.bones.iter().map(Vec::len).chain(clip.morphs.iter().map(Vec::len));
    let reached: usize = keys.map(|keys| keys - 1).sum();
    Ok(Strip {
        bytes: bytes(&clip),
        reached: reached as u64,
        loose: (bones.index.len() + morphs.index.len() - reached) as u64,
        positions: [bones.positions(), morphs.positions()].concat(),
        tracks: [bones.tracks(), morphs.tracks()].concat(),
    })
}

fn each<S>(list: &[S], of: fn(&S) -> i32) -> Vec<i32> {
    list.iter().map(of).collect()
}

pub fn bytes(clip: &Clip) -> Vec<u8> {
    let mut out = Vec::new();
    count(clip.bones.len(), &mut out);
    count(clip.morphs.len(), &mut out);
    for track in &clip.bones {
        count(track.len(), &mut out);
        track.iter().for_each(|key| bone(key, &mut out));
    }
    for track in &clip.morphs {
        count(track.len(), &mut out);
        track.iter().for_each(|key| morph(key, &mut out));
    }
    out
}

fn count(n: usize, out: &mut Vec<u8>) {
    out.extend(u16::try_from(n).expect("within the limits").to_le_bytes());
}

const PLAIN_CURVE: [u8; 4] = [20, 20, 107, 107];

fn bone(key: &BoneKey, out: &mut Vec<u8>) {
    let [position @ .., rotation] = key.curves;
    let fields = [
        (plain(&key.translation, &[0.0; 3]), words(&key.translation)),
        (plain(&key.orientation, &[0.0, 0.0, 0.0, 1.0]), words(&key.orientation)),
        (position == [PLAIN_CURVE; 3], position.concat()),
        (rotation == PLAIN_CURVE, rotation.to_vec()),
    ];
    write(key.frame, &fields, out);
}

fn morph(key: &MorphKey, out: &mut Vec<u8>) {
    write(key.frame, &[(plain(&[key.weight], &[0.0]), words(&[key.weight]))], out);
}

/// Equal as floats: a negative zero is plain where zero is.
fn plain(bits: &[u32], values: &[f32]) -> bool {
    bits.iter().zip(values).all(|(bits, value)| f32::from_bits(*bits) == *value)
}

fn words(bits: &[u32]) -> Vec<u8> {
    bits.iter().flat_map(|word| word.to_le_bytes()).collect()
}

/// The frame, the map of the fields that are not plain, and those fields.
fn write(frame: u32, fields: &[(bool, Vec<u8>)], out: &mut Vec<u8>) {
    out.extend(frame.to_le_bytes());
    let bits = fields.iter().enumerate().map(|(bit, (plain, _))| u8::from(!plain) << bit);
    out.push(bits.sum());
    for (_, field) in fields.iter().filter(|(plain, _)| !plain) {
        out.extend(field);
    }
}

/// The links of an accepted section's records of one kind.
struct Chained {
    first: Vec<i32>,
    index: Vec<i32>,
    next: Vec<i32>,
}

impl Chained {
    fn positions(&self) -> Vec<u16> {
        let mut positions: Vec<u16> = (0..=u16::MAX).take(self.index.len()).collect();
        positions.sort_by_key(|position| self.index[usize::from(*position)]);
        positions
    }

    fn tracks(&self) -> Vec<u16> {
        let at: HashMap<i32, usize> = self.index.iter().copied().zip(0..).collect();
        let mut tracks = vec![0; self.index.len()];
        for (number, first) in self.first.iter().enumerate() {
            let mut link = *first;
            while link != 0 {
                tracks[at[&link]] = number as u16 + 1;
                link = self.next[at[&link]];
            }
        }
        tracks
    }
}
