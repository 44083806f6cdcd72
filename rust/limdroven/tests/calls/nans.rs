//! A NaN, quiet or signalling, is answered with the section's own bits.

use limdroven::*;

use crate::described::bits;
use crate::sections::{bones, morphs, section};

const UNLINKED: [i32; 4] = [0; 4];

/// Quiet and signalling ones, of either sign: the plain one, and payloads of the lowest bit and of all bits.
const NANS: [u32; 9] = [
    0x7fc0_0001,
    0xff80_0001,
    0x7f80_0001,
    0xffc0_0001,
    0x7fc0_0000,
    0xffc0_0000,
    0x7fbf_ffff,
    0xffbf_ffff,
    0xffff_ffff,
];

/// Where an answer has its first float in the section, and its floats, which follow each other.
type Floats<const N: usize> = (usize, [f32; N]);

/// Each float in turn is made each NaN; the others stay as they are.
fn kept<const N: usize>(section: &[u8], answer: impl Fn(&[u8]) -> Floats<N>) {
    let (at, floats) = answer(section);
    for number in 0..N {
        for nan in NANS {
            let place = at + 4 * number;
            let mut changed = section.to_vec();
            changed[place..place + 4].copy_from_slice(&nan.to_le_bytes());
            let mut expected = bits(floats);
            expected[number] = nan;
            assert_eq!(bits(answer(&changed).1), expected, "{nan:08x} at {place}");
        }
    }
}

fn pose([x, y, z]: [f32; 3], [i, j, k, w]: [f32; 4]) -> [f32; 7] {
    [x, y, z, i, j, k, w]
}

/// A bone and a morph, with an initial and an additional record each.
fn one_of_each() -> Vec<u8> {
    let additional = [[1, 1, 0, 0]];
    section(bones(&[UNLINKED], &additional), morphs(&[UNLINKED], &additional))
}

/// Zero bytes with one additional record counted.
fn track<const LENGTH: usize>(count: usize) -> [u8; LENGTH] {
    let mut section = [0; LENGTH];
    section[count] = 1;
    section
}

#[test]
fn edge_widths() {
    let mut section = [0; 340];
    section[334..338].copy_from_slice(&[0x01, 0x00, 0xc0, 0x7f]);
    assert_eq!(model_summary(&section, 0).expect("read").edge_width.to_bits(), 0x7fc0_0001);
    kept(&[0; 340], |section| (334, [model_summary(section, 0).expect("read").edge_width]));
}

/// The numbers that the library writes, before they are floats.
#[test]
fn numbers() {
    for nan in NANS {
        let mut section = [0; 340];
        section[334..338].copy_from_slice(&nan.to_le_bytes());
        let mut values = [u64::MAX; 43];
        assert_eq!(raw::model_summary(&section, 0, &mut values), 0);
        assert_eq!(values[25], u64::from(nan));
    }
}

#[test]
fn states() {
    let section = one_of_each();
    // Before the section's last seven bytes: 31 of the bone, 4 of the morph.
    let morph = section.len() - 7 - 4;
    kept(&section, |section| {
        let found = bone_state(section, 0, 0).expect("a state");
        (morph - 31, pose(found.translation, found.orientation))
    });
    kept(&section, |section| (morph, [morph_state(section, 0, 0).expect("a state").weight]));
}

#[test]
fn records() {
    for include_index in [false, true] {
        kept(&one_of_each(), |section| {
            let found = bone_keyframe(section, 0, include_index, 0).expect("a record");
            (found.payload_offset + 16, pose(found.translation, found.orientation))
        });
        kept(&one_of_each(), |section| {
            let found = morph_keyframe(section, 0, include_index, 0).expect("a record");
            (found.payload_offset, [found.weight])
        });
    }
}

#[test]
fn cameras() {
    for include_index in [false, true] {
        kept(&track::<201>(78), |section| {
            let found = camera_keyframe(section, 0, include_index, 0).expect("a record");
            let ([x, y, z], [a, b, c]) = (found.look_at, found.angle);
            (found.payload_offset, [found.distance, x, y, z, a, b, c])
        });
    }
}

#[test]
fn lights() {
    for include_index in [false, true] {
        kept(&track::<106>(37), |section| {
            let found = light_keyframe(section, 0, include_index, 0).expect("a record");
            let ([r, g, b], [x, y, z]) = (found.color, found.direction);
            (found.payload_offset, [r, g, b, x, y, z])
        });
    }
}
