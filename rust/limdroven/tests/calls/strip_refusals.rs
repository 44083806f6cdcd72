//! Strips that are refused, and those just inside the limits: document 02, T-02.

use generate::prng::Prng;
use limdroven::*;

use crate::strip_bytes::{PLAIN_CURVE, floats, key, strip, track};

/// That every call refuses it alike, whatever is asked for: the number, or 0 where it is read.
fn number(strip: &[u8]) -> u8 {
    let number = strip_counts(strip).map_or_else(|refusal| refusal.number(), |_| 0);
    assert_eq!(strip_keys(strip).map_or_else(|refusal| refusal.number(), |_| 0), number);
    for track in [BoneIndex(0).into(), MorphIndex(u32::MAX).into()] {
        for refusal in [strip_key_count(strip, track).err(), strip_key(strip, track, 0).err()] {
            let found = refusal.filter(|refusal| *refusal != Refusal::Absent).map_or(0, |refusal| refusal.number());
            assert_eq!(found, number);
        }
    }
    number
}

fn of_bone(keys: &[Vec<u8>]) -> u8 {
    number(&strip(&[track(keys)], &[]))
}

fn of_morph(keys: &[Vec<u8>]) -> u8 {
    number(&strip(&[], &[track(keys)]))
}

fn plain(frame: u32) -> Vec<u8> {
    key(frame, 0, &[])
}

/// In what order refusals are met.
#[test]
fn worked_cases() {
    for (strip, refused) in [
        ("0100 0000 0000 77", 25),
        ("0100 0000 00", 23),
        ("0000 0100 0100 00000080 02", 24),
        ("0000 0100 0100 00000080", 23),
        ("0000 0100 0200 05000000 00 05000000 00", 25),
        ("0000 0100 0200 05000000 00 05000000 02", 24),
        ("0000 0100 0200 05000000 00 05000000", 23),
        ("0000 0100 ffff 00000000 02", 24),
        // The sign of a plain weight does not count.
        ("0000 0100 0100 00000000 01 00000080", 25),
        ("0000 0100 0100 00000000 01 0000003f", 0),
        ("0000 0100 0100 00000000 01 0000003f 00", 23),
        // A frame above the limit, met at the end of its key.
        ("0100 0000 0100 00000080 01 0000803f 00000000 000000", 23),
        ("0100 0000 0100 00000080 01 0000803f 00000000 00000000", 25),
    ] {
        let digits = strip.replace(' ', "");
        let bytes: Vec<u8> = (0..digits.len())
            .step_by(2)
            .map(|at| u8::from_str_radix(&digits[at..at + 2], 16).expect("a byte"))
            .collect();
        assert_eq!(number(&bytes), refused, "{strip}");
    }
}

/// One of each kind with every field.
fn sound() -> Vec<u8> {
    let full = key(5, 15, &[&floats([1.0, 2.0, 3.0]), &floats([0.5; 4]), &[1; 12], &[2; 4]]);
    strip(&[track(&[plain(0), full]), track(&[plain(0)])], &[track(&[plain(0), key(1, 1, &[&floats([0.5])])])])
}

#[test]
fn ends_early_or_late() {
    let sound = sound();
    assert_eq!(number(&sound), 0);
    for length in 0..sound.len() {
        assert_eq!(number(&sound[..length]), 23, "{length}");
    }
    for left in [1, 2, 4, 100] {
        assert_eq!(number(&[&sound[..], &vec![0; left]].concat()), 23, "{left}");
    }
}

#[test]
fn maps() {
    for map in 16..=255 {
        assert_eq!(of_bone(&[key(0, map, &[])]), 24, "{map}");
    }
    for map in 2..=255 {
        assert_eq!(of_morph(&[key(0, map, &[])]), 24, "{map}");
    }
}

#[test]
fn plain_fields() {
    for zeros in [[0.0, 0.0, 0.0], [-0.0, 0.0, 0.0], [-0.0, -0.0, -0.0]] {
        assert_eq!(of_bone(&[key(0, 1, &[&floats(zeros)])]), 25);
    }
    for zero in [0.0, -0.0] {
        assert_eq!(of_bone(&[key(0, 2, &[&floats([zero, 0.0, zero, 1.0])])]), 25);
        assert_eq!(of_morph(&[key(0, 1, &[&floats([zero])])]), 25);
    }
    assert_eq!(of_bone(&[key(0, 4, &[&PLAIN_CURVE.repeat(3)])]), 25);
    assert_eq!(of_bone(&[key(0, 8, &[&PLAIN_CURVE])]), 25);
    // One that is not plain is enough, and one that is plain is too much.
    assert_eq!(of_bone(&[key(0, 4, &[&PLAIN_CURVE.repeat(2), &[20, 20, 107, 106]])]), 0);
    assert_eq!(of_bone(&[key(0, 12, &[&[1; 12], &PLAIN_CURVE])]), 25);
    assert_eq!(of_bone(&[key(0, 3, &[&floats([0.0, f32::from_bits(1), 0.0]), &floats([0.0, 0.0, 0.0, 2.0])])]), 0);
}

#[test]
fn curves() {
    for at in 0..16 {
        for (byte, refused) in [(127, 0), (128, 25), (255, 25)] {
            let mut curves = [3; 16];
            curves[at] = byte;
            assert_eq!(of_bone(&[key(0, 12, &[&curves])]), refused, "{at} {byte}");
        }
    }
}

#[test]
fn floats_that_are_not_finite() {
    for bits in [0x7f80_0000, 0xff80_0000, 0x7fc0_0000, 0x7f80_0001, 0xffff_ffff] {
        let float = f32::from_bits(bits);
        for at in 0..7 {
            let mut pose = [0.5; 7];
            pose[at] = float;
            assert_eq!(of_bone(&[key(0, 3, &[&floats(pose)])]), 25, "{at} {bits:08x}");
        }
        assert_eq!(of_morph(&[key(0, 1, &[&floats([float])])]), 25);
    }
    assert_eq!(of_bone(&[key(0, 3, &[&floats([f32::MAX; 7])])]), 0);
    assert_eq!(of_morph(&[key(0, 1, &[&floats([f32::MIN])])]), 0);
}

#[test]
fn orientations() {
    let [long, short] = [11, 12].map(|power| 0.5_f32.powi(power));
    for (orientation, refused) in [
        ([short, short, 0.0, 0.0], 25),
        ([long, 0.0, 0.0, 0.0], 0),
        ([0.0, 0.0, 0.0, 0.0], 25),
        ([0.0, 0.0, -0.0, -1.0], 0),
        ([short, short, f32::from_bits(1), 0.0], 25),
        ([f32::MAX, 0.0, 0.0, 0.0], 0),
    ] {
        assert_eq!(of_bone(&[key(0, 2, &[&floats(orientation)])]), refused, "{orientation:?}");
    }
}

#[test]
fn frames() {
    for of in [of_bone, of_morph] {
        assert_eq!(of(&[plain(2_147_483_647)]), 0);
        assert_eq!(of(&[plain(2_147_483_648)]), 25);
        assert_eq!(of(&[plain(u32::MAX)]), 25);
        assert_eq!(of(&[plain(0), plain(5), plain(3)]), 0);
        assert_eq!(of(&[plain(0), plain(5), plain(0)]), 25);
        assert_eq!(of(&[plain(4), plain(4)]), 25);
    }
    let frames = track(&[plain(0), plain(1)]);
    assert_eq!(number(&strip(&[frames.clone(), frames.clone()], &[frames.clone(), frames])), 0);
}

/// Frames in any order, close together or far apart, and one of them twice.
#[test]
fn many_frames() {
    for (spread, purpose) in [(1, 0), (7, 1), (40_000, 2)] {
        let prng = &Prng::new(43, purpose, 0);
        let mut frames: Vec<u32> =
            (0..5000).map(|number| number * spread + prng.below(spread as usize) as u32).collect();
        prng.shuffle(&mut frames);
        let keys = |frames: &[u32]| frames.iter().map(|frame| plain(*frame)).collect::<Vec<_>>();
        assert_eq!(of_morph(&keys(&frames)), 0, "{spread}");
        for _ in 0..5 {
            let (from, to) = (prng.below(5000), prng.below(5000));
            let mut twice = frames.clone();
            twice[to] = twice[from];
            assert_eq!(of_bone(&keys(&twice)), if from == to { 0 } else { 25 }, "{spread} {from} {to}");
        }
    }
}

/// A track has a key, and each kind has at most 65,534 besides each track's first.
#[test]
fn key_counts() {
    let keys = |count: u32| track(&(0..count).map(plain).collect::<Vec<_>>());
    let of = |bones: &[u32], morphs: &[u32]| {
        let tracks = |counts: &[u32]| counts.iter().map(|count| keys(*count)).collect::<Vec<_>>();
        number(&strip(&tracks(bones), &tracks(morphs)))
    };
    assert_eq!([of(&[0], &[]), of(&[], &[0]), of(&[1, 0, 1], &[]), of(&[1], &[1, 1, 0])], [25; 4]);
    assert_eq!([of(&[65_535], &[]), of(&[], &[65_535]), of(&[65_535, 1], &[1, 65_535])], [0; 3]);
    assert_eq!([of(&[65_535, 2], &[]), of(&[], &[1, 2, 65_534, 2])], [25; 2]);
    assert_eq!([of(&[60_000, 5536], &[]), of(&[60_000, 5537], &[])], [0, 25]);
    // Met at the end of the track where the sum is above it.
    let over = [keys(65_535), keys(2)];
    assert_eq!(number(&[&strip(&over, &[])[..], &[0]].concat()), 25);
    assert_eq!(number(&strip(&over, &[])[..4 + over.concat().len() - 1]), 23);
    assert_eq!(number(&strip(&[over.to_vec(), vec![vec![]]].concat(), &[])), 25);
}

#[test]
fn too_long() {
    let mut zeros = vec![0; MOST_BYTES];
    assert_eq!(number(&zeros), 23);
    zeros.push(0);
    assert_eq!(number(&zeros), 16);
}
