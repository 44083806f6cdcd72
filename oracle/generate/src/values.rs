//! Floats, curves, frames and names, those at the edges more often than chance has it.

use crate::prng::Prng;
use crate::section::{Bone, Morph, Payload};

const ONE: u32 = 0x3f80_0000;
const FINITE: [u32; 12] = [
    0x0000_0000, // 0
    0x8000_0000, // -0
    0x0000_0001, // the least subnormal
    0x807f_ffff, // the greatest subnormal, negative
    0x0080_0000, // the least normal
    0x7f7f_ffff, // the greatest finite
    0xff7f_ffff, // the same, negative
    0x3f80_0000, // 1
    0xbf80_0000, // -1
    0x3f80_0001, // just above 1
    0x3400_0000, // 2^-23
    0x3980_0000, // 2^-12
];
const NOT_FINITE: [u32; 6] = [
    0x7f80_0000, // infinity
    0xff80_0000, // -infinity
    0x7fc0_0000, // NaN
    0xffc0_0000, // the same, with its sign set
    0x7f80_0001, // a signalling NaN
    0xffff_ffff, // a NaN of all bits
];
/// 2^-11.5, whose square is about 2^-23, the limit of a squared orientation length.
const ROOT_OF_LIMIT: u32 = 0x39b5_04f3;

pub fn finite(prng: &Prng) -> u32 {
    if prng.one_in(2) {
        return prng.pick(&FINITE);
    }
    let bits = prng.u32();
    if f32::from_bits(bits).is_finite() { bits } else { bits & 0x807f_ffff | ONE }
}

/// One in 64 has any sign and payload, which come from the same draw.
pub fn not_finite(prng: &Prng) -> u32 {
    let drawn = prng.next();
    let any = 0x7f80_0000 | (drawn >> 16) as u32;
    if drawn >> 58 == 0 { any } else { NOT_FINITE[(drawn % NOT_FINITE.len() as u64) as usize] }
}

pub fn float(prng: &Prng) -> u32 {
    if prng.one_in(8) { not_finite(prng) } else { finite(prng) }
}

/// A flag: 0, 1 or any other byte.
pub fn flag(prng: &Prng) -> u8 {
    let any = prng.next() as u8;
    prng.pick(&[0, 0, 1, 1, 2, 255, any])
}

pub fn name(prng: &Prng) -> Vec<u8> {
    let length = match prng.below(20) {
        0..5 => 0,
        5 => 255,
        6 => prng.below(256),
        _ => 1 + prng.below(8),
    };
    prng.bytes(length)
}

/// A path with leftovers behind its end, or without an end.
pub fn path(prng: &Prng) -> [u8; 256] {
    let mut path = [0; 256].map(|_: u8| 1 + prng.below(255) as u8);
    match prng.below(4) {
        0 => path = [0; 256],
        1 => (),
        _ => (0..1 + prng.below(3)).for_each(|_| path[prng.below(256)] = 0),
    }
    path
}

fn translation(prng: &Prng) -> [u32; 3] {
    match prng.below(4) {
        0 => [0; 3],
        1 => [0; 3].map(|_: u32| prng.pick(&[0, 0x8000_0000])),
        _ => [0; 3].map(|_: u32| finite(prng)),
    }
}

/// The squared length in document 01's order.
fn length_squared(orientation: [u32; 4]) -> f32 {
    let [x, y, z, w] = orientation.map(f32::from_bits);
    ((x * x + y * y) + z * z) + w * w
}

/// A finite orientation that is long enough.
fn orientation(prng: &Prng) -> [u32; 4] {
    let mut orientation = match prng.below(4) {
        0 => [0, 0, 0, ONE],
        1 => [0, 0x8000_0000, prng.pick(&[0, 0x8000_0000]), ONE],
        _ => [0; 4].map(|_: u32| finite(prng)),
    };
    if length_squared(orientation) <= f32::EPSILON {
        orientation[prng.below(4)] = ONE;
    }
    orientation
}

/// A finite orientation whose squared length is at the limit, or a few steps above or below.
pub fn orientation_at_the_limit(prng: &Prng) -> [u32; 4] {
    let step = |prng: &Prng, bits: u32| bits.wrapping_add_signed(prng.below(7) as i32 - 3);
    let mut orientation = match prng.below(6) {
        // 2^-12 twice is the limit itself
        0 => [0x3980_0000, 0x3980_0000, 0, 0],
        // 2^-12.5 four times, or 2^-11.5 once
        1 => [0x3935_04f3; 4],
        2 => [ROOT_OF_LIMIT, 0, 0, 0],
        _ => {
            let parts = [0; 4].map(|_: u32| prng.below(1 << 20) as f32 + 1.0);
            let length = parts.iter().map(|part| part * part).sum::<f32>().sqrt();
            parts.map(|part| (part / length * f32::from_bits(ROOT_OF_LIMIT)).to_bits())
        }
    };
    prng.shuffle(&mut orientation);
    for bits in &mut orientation {
        if *bits != 0 && prng.one_in(2) {
            *bits = step(prng, *bits);
        }
        *bits |= prng.pick(&[0, 0x8000_0000]);
    }
    orientation
}

fn short_orientation(prng: &Prng) -> [u32; 4] {
    let tiny = [0, 0x8000_0000, 0x0000_0001, 0x807f_ffff, 0x3900_0000];
    [0; 4].map(|_: u32| prng.pick(&tiny))
}

fn curves(prng: &Prng) -> [u8; 16] {
    let mut curves = [0; 16];
    for curve in curves.chunks_mut(4) {
        let any = prng.bytes(4);
        match prng.below(4) {
            0 | 1 => curve.copy_from_slice(&[20, 20, 107, 107]),
            2 => curve.copy_from_slice(&any),
            _ => curve.fill_with(|| prng.pick(&[20, 107, 126, 127, 128, 255])),
        }
    }
    curves
}

/// What a bone or a morph has at a key.
pub trait Pose: Payload {
    /// One that the builder takes.
    fn sound(prng: &Prng) -> Self;
    /// Any one.
    fn any(prng: &Prng) -> Self;
    /// Makes the builder give this number: 12 or 13 of a bone, 14 of a morph.
    fn spoil(&mut self, prng: &Prng, number: u8);
}

impl Pose for Bone {
    fn sound(prng: &Prng) -> Self {
        Self {
            interpolation: curves(prng),
            translation: translation(prng),
            orientation: orientation(prng),
            flags: [flag(prng), flag(prng)],
        }
    }

    fn any(prng: &Prng) -> Self {
        let mut bone = Self::sound(prng);
        bone.translation = bone.translation.map(|bits| if prng.one_in(2) { bits } else { float(prng) });
        bone.orientation = bone.orientation.map(|bits| if prng.one_in(2) { bits } else { float(prng) });
        bone
    }

    fn spoil(&mut self, prng: &Prng, number: u8) {
        if number == 12 {
            self.translation[prng.below(3)] = not_finite(prng);
        } else if prng.one_in(2) {
            self.orientation[prng.below(4)] = not_finite(prng);
        } else {
            self.orientation = short_orientation(prng);
        }
    }
}

impl Pose for Morph {
    fn sound(prng: &Prng) -> Self {
        Self { weight: finite(prng), selected: flag(prng) }
    }

    fn any(prng: &Prng) -> Self {
        Self { weight: float(prng), selected: flag(prng) }
    }

    fn spoil(&mut self, prng: &Prng, _number: u8) {
        self.weight = not_finite(prng);
    }
}

#[cfg(test)]
mod tests {
    use super::*;

    /// The limit is met from both sides and hit, often enough that another order of summation would be noticed.
    #[test]
    fn orientations_at_the_limit() {
        let prng = &Prng::new(1, 1, 1);
        let (mut below, mut at, mut above, mut by_order) = (0, 0, 0, 0);
        for _ in 0..4000 {
            let orientation = orientation_at_the_limit(prng);
            let length = length_squared(orientation);
            below += usize::from(length < f32::EPSILON);
            at += usize::from(length == f32::EPSILON);
            above += usize::from(length > f32::EPSILON);
            let [x, y, z, w] = orientation.map(f32::from_bits);
            let paired = (x * x + y * y) + (z * z + w * w);
            by_order += usize::from((length > f32::EPSILON) != (paired > f32::EPSILON));
        }
        assert!([below, at, above, by_order].iter().all(|times| *times > 100));
    }
}
