//! Strips described and written. A count, a map or a field may be another than the keys ask for.

use crate::section::Bone;

#[derive(Debug, Clone, Default)]
pub struct Strip {
    pub bones: Vec<Track>,
    pub morphs: Vec<Track>,
    /// Instead of the numbers of tracks: bones, morphs.
    pub counts: [Option<u16>; 2],
    /// Bytes left over.
    pub behind: Vec<u8>,
}

#[derive(Debug, Clone, Default)]
pub struct Track {
    pub keys: Vec<Key>,
    /// Instead of the number of keys.
    pub count: Option<u16>,
}

/// The fields in the order of the bits; one that does not follow is empty.
#[derive(Debug, Clone, Default)]
pub struct Key {
    pub frame: u32,
    pub map: u8,
    pub fields: [Vec<u8>; 4],
}

pub const ONE: u32 = 0x3f80_0000;
pub const PLAIN_CURVES: [u8; 16] = [20, 20, 107, 107, 20, 20, 107, 107, 20, 20, 107, 107, 20, 20, 107, 107];
pub const PLAIN_ORIENTATION: [u32; 4] = [0, 0, 0, ONE];

/// Whether floats differ from their plain values, by which 0 and -0 are equal.
fn other(bits: &[u32], plain: &[u32]) -> bool {
    bits.iter().zip(plain).any(|(bits, plain)| f32::from_bits(*bits) != f32::from_bits(*plain))
}

pub fn words(bits: &[u32]) -> Vec<u8> {
    bits.iter().flat_map(|word| word.to_le_bytes()).collect()
}

impl Key {
    pub fn bare(frame: u32) -> Self {
        Self { frame, ..Self::default() }
    }

    /// With the fields that are not plain.
    pub fn bone(frame: u32, Bone { interpolation, translation, orientation, .. }: &Bone) -> Self {
        let mut key = Self::bare(frame);
        let curves = interpolation.map(|byte| byte.min(127));
        if other(translation, &[0; 3]) {
            key.present(0, words(translation));
        }
        if other(orientation, &PLAIN_ORIENTATION) {
            key.present(1, words(orientation));
        }
        for (bit, bytes) in [(2, 0..12), (3, 12..16)] {
            if curves[bytes.clone()] != PLAIN_CURVES[bytes.clone()] {
                key.present(bit, curves[bytes].to_vec());
            }
        }
        key
    }

    pub fn morph(frame: u32, weight: u32) -> Self {
        let mut key = Self::bare(frame);
        if other(&[weight], &[0]) {
            key.present(0, words(&[weight]));
        }
        key
    }

    /// A field follows, whatever it is.
    pub fn present(&mut self, bit: usize, field: Vec<u8>) {
        self.map |= 1 << bit;
        self.fields[bit] = field;
    }
}

impl Track {
    pub fn of(keys: Vec<Key>) -> Self {
        Self { keys, count: None }
    }

    fn write(&self, out: &mut Vec<u8>) {
        let keys = || u16::try_from(self.keys.len()).expect("keys that 16 bits count");
        out.extend(self.count.unwrap_or_else(keys).to_le_bytes());
        for key in &self.keys {
            out.extend(key.frame.to_le_bytes());
            out.push(key.map);
            key.fields.iter().for_each(|field| out.extend(field));
        }
    }
}

impl Strip {
    pub fn write(&self) -> Vec<u8> {
        let mut out = Vec::new();
        for (tracks, count) in [&self.bones, &self.morphs].into_iter().zip(self.counts) {
            let tracks = || u16::try_from(tracks.len()).expect("tracks that 16 bits count");
            out.extend(count.unwrap_or_else(tracks).to_le_bytes());
        }
        self.bones.iter().chain(&self.morphs).for_each(|track| track.write(&mut out));
        out.extend(&self.behind);
        out
    }

    pub fn of_kind(&mut self, bones: bool) -> &mut Vec<Track> {
        if bones { &mut self.bones } else { &mut self.morphs }
    }
}
