//! What the calls for C answer of a strip that was read, in their numbers.

use crate::{BoneKey, MorphKey, Strip};

/// Frame, map, and a bone's translation, orientation and curves, or a morph's weight and zeros.
pub const KEY_NUMBERS: usize = 13;
/// Kind, track and place before these.
pub const ROW_NUMBERS: usize = 16;

const BONE: u32 = 0;
const MORPH: u32 = 1;

impl Strip {
    /// Bones, morphs.
    pub fn counts(&self) -> [usize; 2] {
        [self.bones.len(), self.morphs.len()]
    }

    /// None where 19 is to be answered.
    pub fn key_count(&self, kind: u32, track: u32) -> Option<usize> {
        let track = usize::try_from(track).ok()?;
        match kind {
            BONE => self.bones.get(track).map(Vec::len),
            MORPH => self.morphs.get(track).map(Vec::len),
            _ => None,
        }
    }

    /// None where 19 is to be answered.
    pub fn key(&self, kind: u32, track: u32, place: usize) -> Option<[u32; KEY_NUMBERS]> {
        let track = usize::try_from(track).ok()?;
        match kind {
            BONE => self.bones.get(track)?.get(place).map(bone_numbers),
            MORPH => self.morphs.get(track)?.get(place).map(morph_numbers),
            _ => None,
        }
    }

    /// All keys in the strip's order.
    pub fn rows(&self) -> Vec<[u32; ROW_NUMBERS]> {
        let mut rows = Vec::with_capacity(self.key_total());
        each(&self.bones, |track, place, key| rows.push(row([BONE, track, place], bone_numbers(key))));
        each(&self.morphs, |track, place, key| rows.push(row([MORPH, track, place], morph_numbers(key))));
        rows
    }
}

fn each<K>(tracks: &[Vec<K>], mut hand: impl FnMut(u32, u32, &K)) {
    for (track, keys) in (0..).zip(tracks) {
        (0..).zip(keys).for_each(|(place, key)| hand(track, place, key));
    }
}

fn row(which: [u32; 3], numbers: [u32; KEY_NUMBERS]) -> [u32; ROW_NUMBERS] {
    let mut row = [0; ROW_NUMBERS];
    row[..3].copy_from_slice(&which);
    row[3..].copy_from_slice(&numbers);
    row
}

fn bone_numbers(key: &BoneKey) -> [u32; KEY_NUMBERS] {
    let [x, y, z] = key.translation;
    let [i, j, k, w] = key.orientation;
    let [of_x, of_y, of_z, of_rotation] = key.curves.map(u32::from_le_bytes);
    [key.frame, key.map.into(), x, y, z, i, j, k, w, of_x, of_y, of_z, of_rotation]
}

fn morph_numbers(key: &MorphKey) -> [u32; KEY_NUMBERS] {
    let mut numbers = [0; KEY_NUMBERS];
    numbers[..3].copy_from_slice(&[key.frame, key.map.into(), key.weight]);
    numbers
}
