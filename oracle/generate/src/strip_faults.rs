//! Sound strips made unsound: 23, 24 and each 25.

use crate::prng::Prng;
use crate::strip_bytes::{Key, ONE, PLAIN_CURVES, PLAIN_ORIENTATION, Strip, Track, words};
use crate::strip_frames::repeat;
use crate::values::{not_finite, orientation_at_the_limit};

const MINUS_ZERO: u32 = 0x8000_0000;
const LEAST: u32 = 1;
const GREATEST: u32 = 0x7f7f_ffff;

/// Any key of a kind, if there is one; the first and the last of a strip more often than chance has it.
pub fn any_key<'a>(prng: &Prng, strip: &'a mut Strip, bones: bool) -> Option<&'a mut Key> {
    let tracks: Vec<&mut Track> = strip.of_kind(bones).iter_mut().filter(|track| !track.keys.is_empty()).collect();
    let place = |length: usize| prng.pick(&[0, length - 1, prng.below(length)]);
    let last = tracks.len().checked_sub(1)?;
    let track = tracks.into_iter().nth(place(last + 1))?;
    let place = place(track.keys.len());
    track.keys.get_mut(place)
}

/// How many faults of its own a key can have.
const OF_BONE: usize = 31;
const OF_MORPH: usize = 4;

/// The key of a bone or a morph with what the builder never writes, each sort in turn; where an orientation is near the limit of its
/// length, the builder may have written it all the same.
pub fn never_written(prng: &Prng, key: &mut Key, bones: bool, turn: usize) {
    if bones { never_written_bone(prng, key, turn % OF_BONE) } else { never_written_morph(prng, key, turn % OF_MORPH) }
}

fn never_written_bone(prng: &Prng, key: &mut Key, sort: usize) {
    match sort {
        0 => key.present(0, words(&zeros::<3>(prng))),
        1 => {
            let [x, y, z] = zeros(prng);
            key.present(1, words(&[x, y, z, ONE]));
        }
        2 => key.present(2, PLAIN_CURVES[..12].to_vec()),
        3 => key.present(3, PLAIN_CURVES[12..].to_vec()),
        4..20 => curve_byte(key, sort - 4, prng.pick(&[128, 255, 128 + prng.below(128) as u8])),
        20..27 => float(key, sort - 20, not_finite(prng)),
        27 | 28 => key.present(1, words(&orientation_at_the_limit(prng))),
        29 => {
            let tiny = [0; 4].map(|_: u32| prng.pick(&[0, MINUS_ZERO, LEAST, 0x0080_0000, 0x3900_0000]));
            key.present(1, words(&tiny));
        }
        _ => key.frame = high_frame(prng),
    }
}

fn never_written_morph(prng: &Prng, key: &mut Key, sort: usize) {
    match sort {
        0 => key.present(0, words(&zeros::<1>(prng))),
        1 | 2 => key.present(0, words(&[not_finite(prng)])),
        _ => key.frame = high_frame(prng),
    }
}

fn high_frame(prng: &Prng) -> u32 {
    prng.pick(&[1 << 31, u32::MAX, prng.u32() | 1 << 31])
}

/// Of either sign.
fn zeros<const N: usize>(prng: &Prng) -> [u32; N] {
    let all = prng.pick(&[Some(0), Some(MINUS_ZERO), None]);
    [(); N].map(|()| all.unwrap_or_else(|| prng.pick(&[0, MINUS_ZERO])))
}

/// Of the sixteen, in curves that follow and are else as they were.
fn curve_byte(key: &mut Key, place: usize, byte: u8) {
    let (bit, plain) = if place < 12 { (2, &PLAIN_CURVES[..12]) } else { (3, &PLAIN_CURVES[12..]) };
    let mut field = if key.fields[bit].is_empty() { plain.to_vec() } else { key.fields[bit].clone() };
    field[place % 12] = byte;
    key.present(bit, field);
}

/// Of the seven, in a field that follows and is else as it was.
fn float(key: &mut Key, place: usize, bits: u32) {
    let (bit, plain) = if place < 3 { (0, &[0; 3][..]) } else { (1, &PLAIN_ORIENTATION[..]) };
    let mut field = if key.fields[bit].is_empty() { words(plain) } else { key.fields[bit].clone() };
    let at = 4 * if place < 3 { place } else { place - 3 };
    field[at..at + 4].copy_from_slice(&bits.to_le_bytes());
    key.present(bit, field);
}

/// A key that is just what the builder may write, each sort in turn; it may be too short an orientation or a repeated frame all the same.
pub fn just_written(prng: &Prng, key: &mut Key, bones: bool, turn: usize) {
    let sign = prng.pick(&[0, MINUS_ZERO]);
    match turn % 28 {
        0 | 1 => key.frame = i32::MAX as u32,
        2 => key.frame = 0,
        _ if !bones => key.present(0, words(&[prng.pick(&[LEAST, GREATEST, 0x0080_0000, ONE]) | sign])),
        sort @ 3..19 => {
            key.fields[2..].iter_mut().for_each(Vec::clear);
            key.map &= 3;
            curve_byte(key, sort - 3, prng.pick(&[127, 0, 126, 21, 106]));
        }
        sort @ 19..22 => {
            let mut translation = zeros::<3>(prng);
            translation[sort - 19] = prng.pick(&[LEAST, GREATEST]) | sign;
            key.present(0, words(&translation));
        }
        sort @ 22..26 => {
            let [x, y, z] = zeros(prng);
            let mut orientation = [x, y, z, ONE];
            orientation[sort - 22] ^= prng.pick(&[1, MINUS_ZERO | 1, 1 << 22]);
            key.present(1, words(&orientation));
        }
        _ => key.present(1, words(&orientation_at_the_limit(prng))),
    }
}

/// 24: each of a bone's maps from 16 on in turn, each of a morph's from 2 on.
pub fn unknown_map(key: &mut Key, bones: bool, turn: usize) {
    key.map = if bones { 16 + (turn % 240) as u8 } else { 2 + (turn % 254) as u8 };
}

/// A count of tracks or of keys that is not theirs; or a track that has none.
pub fn miscounted(prng: &Prng, strip: &mut Strip) {
    let bones = prng.one_in(2);
    let other = |count: usize| {
        let near = [count + 1, count.saturating_sub(1), count + 2, 0, 1];
        let far = [255, 256, 65_534, 65_535, count + 256, prng.below(65_536)];
        Some(if prng.one_in(3) { prng.pick(&far) } else { prng.pick(&near) } as u16)
    };
    let tracks = strip.of_kind(bones);
    if tracks.is_empty() || prng.one_in(3) {
        let tracks = tracks.len();
        strip.counts[usize::from(!bones)] = other(tracks);
        return;
    }
    let track = prng.below(tracks.len());
    let track = &mut tracks[track];
    if prng.one_in(2) {
        track.count = other(track.keys.len());
    } else {
        track.keys.clear();
    }
}

/// One fault or another, which may be met behind others.
pub fn any(prng: &Prng, strip: &mut Strip) {
    let bones = prng.one_in(2);
    let turn = prng.below(1 << 16);
    match prng.below(9) {
        0..3 => {
            if let Some(key) = any_key(prng, strip, bones) {
                never_written(prng, key, bones, turn);
            }
        }
        3..5 => {
            if let Some(key) = any_key(prng, strip, bones) {
                unknown_map(key, bones, turn);
            }
        }
        5 => miscounted(prng, strip),
        6 => strip.behind = prng.bytes(1 + turn % 3),
        _ => {
            let tracks = strip.of_kind(bones);
            if !tracks.is_empty() {
                let track = prng.below(tracks.len());
                let keys = &mut tracks[track].keys;
                let mut frames: Vec<u32> = keys.iter().map(|key| key.frame).collect();
                repeat(prng, &mut frames);
                keys.iter_mut().zip(frames).for_each(|(key, frame)| key.frame = frame);
            }
        }
    }
}
