//! A strip written by hand: one bone track with an initial key, all plain, and a key of frame 12 that has every field; one
//! morph track with its initial key.

pub const FRAME: usize = 11;
pub const MAP: usize = 15;
pub const TRANSLATION: usize = 16;
pub const ORIENTATION: usize = 28;
pub const MOVEMENT_CURVES: usize = 44;
pub const ROTATION_CURVE: usize = 56;
pub const MORPH_TRACK: usize = 60;
pub const MORPH_MAP: usize = 66;
pub const WEIGHT: usize = 67;
pub const END: usize = 71;

pub fn strip() -> Vec<u8> {
    let floats = |floats: &[f32]| floats.iter().flat_map(|float| float.to_le_bytes()).collect::<Vec<u8>>();
    let strip = [
        vec![1, 0, 1, 0],
        vec![2, 0, 0, 0, 0, 0, 0],
        vec![12, 0, 0, 0, 15],
        floats(&[1.5, 2.0, -3.0]),
        floats(&[0.0, 0.5, 0.0, 0.5]),
        (1..=12).collect(),
        vec![9, 9, 9, 127],
        vec![1, 0, 5, 0, 0, 0, 1],
        floats(&[0.25]),
    ]
    .concat();
    assert_eq!(strip.len(), END);
    strip
}

/// With other bytes from this offset on.
pub fn with(at: usize, bytes: &[u8]) -> Vec<u8> {
    let mut strip = strip();
    strip[at..at + bytes.len()].copy_from_slice(bytes);
    strip
}

pub fn with_float(at: usize, float: f32) -> Vec<u8> {
    with(at, &float.to_le_bytes())
}
