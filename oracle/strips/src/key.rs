//! One key: how long it is, what the builder never writes in it, and its bytes by document 01's rule.

use crate::bytes::Left;

/// Floats are kept as their bits.
#[derive(Debug, Clone, Copy, PartialEq, Eq)]
pub struct BoneKey {
    pub frame: u32,
    pub map: u8,
    pub translation: [u32; 3],
    pub orientation: [u32; 4],
    /// x, y, z, rotation.
    pub curves: [[u8; 4]; 4],
}

#[derive(Debug, Clone, Copy, PartialEq, Eq)]
pub struct MorphKey {
    pub frame: u32,
    pub map: u8,
    pub weight: u32,
}

pub const PLAIN_ORIENTATION: [u32; 4] = [0, 0, 0, 0x3f80_0000];
pub const PLAIN_CURVE: [u8; 4] = [20, 20, 107, 107];

const MOST_FRAME: u32 = i32::MAX as u32;
const MOST_CURVE_BYTE: u8 = 127;
/// An orientation's squared length must be above it.
const LENGTH_LIMIT: f32 = 1.0 / 8_388_608.0;

pub trait Key: Sized {
    /// 25 comes last, when the key is whole.
    fn read(left: &mut Left) -> Result<Self, u8>;
    fn write(&self, out: &mut Vec<u8>);
    fn frame(&self) -> u32;
}

/// The field that a bit of the map names, if it stands.
fn field<T>(map: u8, bit: u8, read: impl FnOnce() -> Result<T, u8>) -> Result<Option<T>, u8> {
    if map >> bit & 1 == 1 { read().map(Some) } else { Ok(None) }
}

/// Equal as floats, so that -0 is 0.
fn plain(floats: &[u32], values: &[u32]) -> bool {
    floats.iter().zip(values).all(|(bits, value)| f32::from_bits(*bits) == f32::from_bits(*value))
}

fn finite(floats: &[u32]) -> bool {
    floats.iter().all(|bits| f32::from_bits(*bits).is_finite())
}

fn long_enough(orientation: [u32; 4]) -> bool {
    let [x, y, z, w] = orientation.map(f32::from_bits);
    ((x * x + y * y) + z * z) + w * w > LENGTH_LIMIT
}

fn curve_bytes(curves: &[[u8; 4]]) -> bool {
    curves.iter().flatten().all(|byte| *byte <= MOST_CURVE_BYTE)
}

impl Key for BoneKey {
    fn read(left: &mut Left) -> Result<Self, u8> {
        let frame = left.u32()?;
        let map = left.u8()?;
        if map > 15 {
            return Err(24);
        }
        let translation = field(map, 0, || left.floats())?;
        let orientation = field(map, 1, || left.floats())?;
        let position = field(map, 2, || Ok([left.curve()?, left.curve()?, left.curve()?]))?;
        let rotation = field(map, 3, || left.curve())?;
        let by_builder = frame <= MOST_FRAME
            && translation.is_none_or(|floats| finite(&floats) && !plain(&floats, &[0; 3]))
            && orientation
                .is_none_or(|floats| finite(&floats) && long_enough(floats) && !plain(&floats, &PLAIN_ORIENTATION))
            && position.is_none_or(|curves| curve_bytes(&curves) && curves != [PLAIN_CURVE; 3])
            && rotation.is_none_or(|curve| curve_bytes(&[curve]) && curve != PLAIN_CURVE);
        if !by_builder {
            return Err(25);
        }
        let [x, y, z] = position.unwrap_or([PLAIN_CURVE; 3]);
        Ok(Self {
            frame,
            map,
            translation: translation.unwrap_or([0; 3]),
            orientation: orientation.unwrap_or(PLAIN_ORIENTATION),
            curves: [x, y, z, rotation.unwrap_or(PLAIN_CURVE)],
        })
    }

    fn write(&self, out: &mut Vec<u8>) {
        let [position @ .., rotation] = self.curves;
        let map_at = start(self.frame, out);
        if !plain(&self.translation, &[0; 3]) {
            out[map_at] |= 1;
            out.extend(self.translation.map(u32::to_le_bytes).concat());
        }
        if !plain(&self.orientation, &PLAIN_ORIENTATION) {
            out[map_at] |= 2;
            out.extend(self.orientation.map(u32::to_le_bytes).concat());
        }
        if position != [PLAIN_CURVE; 3] {
            out[map_at] |= 4;
            out.extend(position.concat());
        }
        if rotation != PLAIN_CURVE {
            out[map_at] |= 8;
            out.extend(rotation);
        }
    }

    fn frame(&self) -> u32 {
        self.frame
    }
}

impl Key for MorphKey {
    fn read(left: &mut Left) -> Result<Self, u8> {
        let frame = left.u32()?;
        let map = left.u8()?;
        if map > 1 {
            return Err(24);
        }
        let weight = field(map, 0, || left.u32())?;
        let by_builder =
            frame <= MOST_FRAME && weight.is_none_or(|weight| finite(&[weight]) && !plain(&[weight], &[0]));
        if !by_builder {
            return Err(25);
        }
        Ok(Self { frame, map, weight: weight.unwrap_or(0) })
    }

    fn write(&self, out: &mut Vec<u8>) {
        let map_at = start(self.frame, out);
        if !plain(&[self.weight], &[0]) {
            out[map_at] |= 1;
            out.extend(self.weight.to_le_bytes());
        }
    }

    fn frame(&self) -> u32 {
        self.frame
    }
}

/// The frame and a map of no fields, whose place is given.
fn start(frame: u32, out: &mut Vec<u8>) -> usize {
    out.extend(frame.to_le_bytes());
    out.push(0);
    out.len() - 1
}
