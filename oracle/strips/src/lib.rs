//! Strips read back, written from document 02's words (T-02) and, for the strip itself, document 01's.

mod bytes;
mod key;
mod rows;

pub use key::{BoneKey, MorphKey, PLAIN_CURVE, PLAIN_ORIENTATION};
pub use rows::{KEY_NUMBERS, ROW_NUMBERS};

use std::collections::HashSet;

use bytes::Left;
use key::Key;

pub const LENGTH_LIMIT: usize = 16_777_215;
/// Of one kind, besides each track's first key.
pub const MOST_ADDITIONAL: usize = 65_534;

/// The keys of each track as they stand, absent fields as their plain values.
#[derive(Debug, Clone, PartialEq, Eq, Default)]
pub struct Strip {
    pub bones: Vec<Vec<BoneKey>>,
    pub morphs: Vec<Vec<MorphKey>>,
}

/// What the strip holds, or the refusal's number: 16, 23, 24 or 25.
pub fn read(strip: &[u8]) -> Result<Strip, u8> {
    if strip.len() > LENGTH_LIMIT {
        return Err(16);
    }
    let mut left = Left(strip);
    let bone_count = left.u16()?;
    let morph_count = left.u16()?;
    let bones = tracks(&mut left, bone_count)?;
    let morphs = tracks(&mut left, morph_count)?;
    if !left.0.is_empty() {
        return Err(23);
    }
    Ok(Strip { bones, morphs })
}

fn tracks<K: Key>(left: &mut Left, count: u16) -> Result<Vec<Vec<K>>, u8> {
    let mut tracks = Vec::new();
    let mut additional = 0;
    for _ in 0..count {
        let track: Vec<K> = track(left)?;
        additional += track.len().checked_sub(1).ok_or(25)?;
        if additional > MOST_ADDITIONAL {
            return Err(25);
        }
        tracks.push(track);
    }
    Ok(tracks)
}

fn track<K: Key>(left: &mut Left) -> Result<Vec<K>, u8> {
    let mut keys = Vec::new();
    let mut frames = HashSet::new();
    for _ in 0..left.u16()? {
        let key = K::read(left)?;
        if !frames.insert(key.frame()) {
            return Err(25);
        }
        keys.push(key);
    }
    Ok(keys)
}

impl Strip {
    /// The strip of these keys by document 01's rule: a bit stands unless its fields are plain, whatever the map says.
    pub fn written(&self) -> Vec<u8> {
        fn put<K: Key>(out: &mut Vec<u8>, tracks: &[Vec<K>]) {
            for track in tracks {
                out.extend((track.len() as u16).to_le_bytes());
                track.iter().for_each(|key| key.write(out));
            }
        }
        let mut out = (self.bones.len() as u16).to_le_bytes().to_vec();
        out.extend((self.morphs.len() as u16).to_le_bytes());
        put(&mut out, &self.bones);
        put(&mut out, &self.morphs);
        out
    }

    pub fn key_total(&self) -> usize {
        self.bones.iter().map(Vec::len).chain(self.morphs.iter().map(Vec::len)).sum()
    }
}
