//! Strips read back: how many tracks a strip has and which keys they hold. Document 02, T-02.

use std::fmt;

use crate::numbers::{Numbers, answered, answers};
use crate::raw;
use crate::refusal::{Kind, Refusal};

/// The number, from 0, of a bone's track.
#[derive(Debug, Clone, Copy, PartialEq, Eq, PartialOrd, Ord, Hash)]
pub struct BoneIndex(pub u32);

/// The number, from 0, of a morph's track.
#[derive(Debug, Clone, Copy, PartialEq, Eq, PartialOrd, Ord, Hash)]
pub struct MorphIndex(pub u32);

/// A track of a strip. In the strip's order the bones' tracks come before those of the morphs.
#[derive(Debug, Clone, Copy, PartialEq, Eq, PartialOrd, Ord, Hash)]
pub enum TrackIndex {
    Bone(BoneIndex),
    Morph(MorphIndex),
}

impl TrackIndex {
    pub fn kind(self) -> Kind {
        match self {
            Self::Bone(_) => Kind::Bone,
            Self::Morph(_) => Kind::Morph,
        }
    }

    /// Among the tracks of its kind.
    pub fn number(self) -> u32 {
        match self {
            Self::Bone(BoneIndex(number)) | Self::Morph(MorphIndex(number)) => number,
        }
    }

    /// The kind's number in the calls.
    fn kind_number(self) -> u32 {
        match self.kind() {
            Kind::Bone => 0,
            Kind::Morph => 1,
        }
    }
}

impl From<BoneIndex> for TrackIndex {
    fn from(bone: BoneIndex) -> Self {
        Self::Bone(bone)
    }
}

impl From<MorphIndex> for TrackIndex {
    fn from(morph: MorphIndex) -> Self {
        Self::Morph(morph)
    }
}

impl fmt::Display for TrackIndex {
    fn fmt(&self, formatter: &mut fmt::Formatter<'_>) -> fmt::Result {
        write!(formatter, "{} track {}", self.kind(), self.number())
    }
}

answers! {
    /// How many tracks a strip has of each kind.
    pub struct StripCounts {
        bones: usize,
        morphs: usize,
    }

    /// A morph's key.
    pub struct MorphKey {
        frame: u32,
        /// 1 if the weight stands in the strip.
        map: u8,
        /// With the strip's own bits, or 0 if the strip leaves it out.
        weight: f32,
    }
}

impl MorphKey {
    pub fn weight_bits(&self) -> u32 {
        self.weight.to_bits()
    }
}

/// A bone's key. A field that the strip leaves out has its plain value: translation 0, orientation 0, 0, 0, 1, each curve
/// 20, 20, 107, 107.
///
/// The floats have the strip's own bits. `==` takes them as numbers, so that 0 equals -0;
/// [`translation_bits`](Self::translation_bits) and [`orientation_bits`](Self::orientation_bits) tell these apart.
#[derive(Debug, Clone, Copy, PartialEq)]
pub struct BoneKey {
    pub frame: u32,
    /// Which fields stand in the strip: translation 1, orientation 2, the movement curves 4, the rotation curve 8.
    pub map: u8,
    pub translation: [f32; 3],
    pub orientation: [f32; 4],
    /// The curves of x, y, z and rotation.
    pub curves: [[u8; 4]; 4],
}

impl BoneKey {
    pub fn translation_bits(&self) -> [u32; 3] {
        self.translation.map(f32::to_bits)
    }

    pub fn orientation_bits(&self) -> [u32; 4] {
        self.orientation.map(f32::to_bits)
    }
}

/// In the header's order; a curve is one number.
impl Numbers for BoneKey {
    const COUNT: usize = 13;

    fn read(numbers: &mut impl Iterator<Item = u64>) -> Self {
        Self {
            frame: Numbers::read(numbers),
            map: Numbers::read(numbers),
            translation: Numbers::read(numbers),
            orientation: Numbers::read(numbers),
            curves: <[u32; 4]>::read(numbers).map(u32::to_le_bytes),
        }
    }
}

/// A key of a strip.
#[derive(Debug, Clone, Copy, PartialEq)]
pub enum StripKey {
    Bone(BoneKey),
    Morph(MorphKey),
}

impl StripKey {
    pub fn frame(&self) -> u32 {
        match self {
            Self::Bone(key) => key.frame,
            Self::Morph(key) => key.frame,
        }
    }

    pub fn map(&self) -> u8 {
        match self {
            Self::Bone(key) => key.map,
            Self::Morph(key) => key.map,
        }
    }
}

/// A key and where it stands: its track, and its place in the track, from 0.
#[derive(Debug, Clone, Copy, PartialEq)]
pub struct StripRow {
    pub track: TrackIndex,
    pub place: usize,
    /// Of the track's kind.
    pub key: StripKey,
}

/// In the header's order: kind, track, place, and the key's numbers.
impl Numbers for StripRow {
    const COUNT: usize = 3 + BoneKey::COUNT;

    fn read(numbers: &mut impl Iterator<Item = u64>) -> Self {
        let (kind, track, place) = (Kind::read(numbers), u32::read(numbers), usize::read(numbers));
        match kind {
            Kind::Bone => Self { track: BoneIndex(track).into(), place, key: StripKey::Bone(Numbers::read(numbers)) },
            Kind::Morph => {
                Self { track: MorphIndex(track).into(), place, key: StripKey::Morph(Numbers::read(numbers)) }
            }
        }
    }
}

/// How many bone and morph tracks a strip has.
///
/// This and the three other calls judge the whole strip: they refuse it with 16, 23, 24 and 25, whatever is asked for. A
/// strip that [`strip`](crate::strip()) made is refused by none of them.
pub fn strip_counts(strip: &[u8]) -> Result<StripCounts, Refusal> {
    answered(|values| raw::strip_counts(strip, values))
}

/// How many keys a track has. Refused as [`strip_counts`], and after that with 19 where there is no such track.
pub fn strip_key_count(strip: &[u8], track: TrackIndex) -> Result<usize, Refusal> {
    answered(|values| raw::strip_key_count(strip, track.kind_number(), track.number(), values))
}

/// The key at a place, from 0, of a track; a field that the strip leaves out has its plain value. Refused as
/// [`strip_counts`], and after that with 19 where there is no such track or key.
///
/// Each call reads the whole strip: [`strip_keys`] is the one for all keys.
pub fn strip_key(strip: &[u8], track: TrackIndex, place: usize) -> Result<StripKey, Refusal> {
    let call = |values: &mut [u64]| raw::strip_key(strip, track.kind_number(), track.number(), place, values);
    match track {
        TrackIndex::Bone(_) => answered(call).map(StripKey::Bone),
        TrackIndex::Morph(_) => answered(call).map(StripKey::Morph),
    }
}

/// All keys in the strip's order: bones' tracks, then morphs', each from its place 0 on. One call asks how many there are,
/// one writes them all. Refused as [`strip_counts`].
///
/// ```
/// use limdroven::{BoneIndex, StripKey, strip_keys};
///
/// // One bone, whose one key, at frame 7, is plain but for a rotation curve of 1, 2, 3, 4.
/// let strip = [1, 0, 0, 0, 1, 0, 7, 0, 0, 0, 8, 1, 2, 3, 4];
/// let rows = strip_keys(&strip)?;
/// assert_eq!((rows.len(), rows[0].track, rows[0].place), (1, BoneIndex(0).into(), 0));
/// let StripKey::Bone(key) = rows[0].key else { panic!("a bone's track has bones' keys") };
/// assert_eq!((key.frame, key.map, key.orientation), (7, 8, [0.0, 0.0, 0.0, 1.0]));
/// assert_eq!(key.curves[2..], [[20, 20, 107, 107], [1, 2, 3, 4]]);
/// # Ok::<(), limdroven::Refusal>(())
/// ```
pub fn strip_keys(strip: &[u8]) -> Result<Vec<StripRow>, Refusal> {
    let count = answered(|values| raw::strip_keys(strip, 0, &mut [], values))?;
    let mut rows = vec![[0; StripRow::COUNT]; count];
    let again: usize = answered(|values| raw::strip_keys(strip, 0, rows.as_flattened_mut(), values))?;
    assert_eq!(again, count, "both calls read the same strip");
    Ok(rows.into_iter().map(|row| StripRow::read(&mut row.into_iter().map(u64::from))).collect())
}
