//! What is read of strips that are accepted: document 02, T-02.

use generate::prng::Prng;
use generate::section::{Bone, Morph, Record, Tracks};
use generate::sound::{self, Sizes};
use generate::values;
use limdroven::*;

use crate::described::bits;
use crate::strip_bytes::{PLAIN_CURVE, floats, key, of_rows, strip, track};

const TRANSLATION: [f32; 3] = [1.5, -0.0, -3.0];
const ORIENTATION: [f32; 4] = [0.25, -0.5, 0.0, 1e20];
const MOVEMENT: [[u8; 4]; 3] = [[1, 2, 3, 4], [5, 6, 7, 8], [9, 10, 11, 127]];
const ROTATION: [u8; 4] = [0, 127, 13, 14];

fn bone(number: u32) -> TrackIndex {
    BoneIndex(number).into()
}

fn morph(number: u32) -> TrackIndex {
    MorphIndex(number).into()
}

/// A bone's key that has the fields of its map.
fn bone_key(frame: u32, map: u8) -> Vec<u8> {
    let fields = [floats(TRANSLATION), floats(ORIENTATION), MOVEMENT.concat(), ROTATION.to_vec()];
    let named = fields.iter().enumerate().filter(|(bit, _)| map >> bit & 1 == 1);
    key(frame, map, &named.map(|(_, field)| &field[..]).collect::<Vec<_>>())
}

fn morph_key(frame: u32, weight: Option<f32>) -> Vec<u8> {
    weight.map_or(key(frame, 0, &[]), |weight| key(frame, 1, &[&floats([weight])]))
}

/// That all calls tell the same: both counts, each track's key count, and each key by track and place.
fn told(strip: &[u8]) -> (StripCounts, Vec<StripRow>) {
    let (counts, rows) = (strip_counts(strip).expect("read"), strip_keys(strip).expect("read"));
    let tracks = (0..counts.bones as u32).map(bone).chain((0..counts.morphs as u32).map(morph));
    let mut told = Vec::new();
    for track in tracks {
        let count = strip_key_count(strip, track).expect("a track");
        for place in 0..count {
            told.push(StripRow { track, place, key: strip_key(strip, track, place).expect("a key") });
        }
        assert_eq!(strip_key(strip, track, count), Err(Refusal::Absent));
    }
    assert_eq!(told, rows);
    (counts, rows)
}

#[test]
fn no_tracks() {
    let (counts, rows) = told(&[0; 4]);
    assert_eq!((counts, rows), (StripCounts { bones: 0, morphs: 0 }, vec![]));
}

/// The bones' tracks, then the morphs', each key at its place.
#[test]
fn in_order() {
    let bones = [track(&[bone_key(7, 1), bone_key(0, 0)]), track(&[bone_key(2_147_483_647, 8)])];
    let morphs = [track(&[morph_key(0, None), morph_key(5, Some(0.5)), morph_key(3, Some(-1.0))])];
    let (counts, rows) = told(&strip(&bones, &morphs));
    assert_eq!(counts, StripCounts { bones: 2, morphs: 1 });
    let found: Vec<_> = rows.iter().map(|row| (row.track, row.place, row.key.frame(), row.key.map())).collect();
    let expected = [
        (bone(0), 0, 7, 1),
        (bone(0), 1, 0, 0),
        (bone(1), 0, 2_147_483_647, 8),
        (morph(0), 0, 0, 0),
        (morph(0), 1, 5, 1),
        (morph(0), 2, 3, 1),
    ];
    assert_eq!(found, expected);
    assert!(rows.iter().all(|row| matches!(row.key, StripKey::Bone(_)) == (row.track.kind() == Kind::Bone)));
    assert_eq!((rows[2].track.to_string(), rows[5].track.to_string()), ("bone track 1".into(), "morph track 0".into()));
}

/// Each of the sixteen maps: what it names stands as in the strip, all else has its plain value.
#[test]
fn maps() {
    let keys: Vec<_> = (0..16).map(|map| bone_key(map.into(), map)).collect();
    let (_, rows) = told(&strip(&[track(&keys)], &[]));
    for (map, row) in (0..16).zip(rows) {
        let StripKey::Bone(key) = row.key else { panic!("a bone's key") };
        let stands = |bit: u8| map >> bit & 1 == 1;
        assert_eq!((key.frame, key.map), (map.into(), map));
        assert_eq!(key.translation_bits(), bits(if stands(0) { TRANSLATION } else { [0.0; 3] }));
        assert_eq!(key.orientation_bits(), bits(if stands(1) { ORIENTATION } else { [0.0, 0.0, 0.0, 1.0] }));
        assert_eq!(key.curves[..3], if stands(2) { MOVEMENT } else { [PLAIN_CURVE; 3] });
        assert_eq!(key.curves[3], if stands(3) { ROTATION } else { PLAIN_CURVE });
    }
    let (_, rows) = told(&strip(&[], &[track(&[morph_key(0, None), morph_key(1, Some(-0.25))])]));
    for (row, map, weight) in [(rows[0], 0, 0.0_f32), (rows[1], 1, -0.25)] {
        let StripKey::Morph(key) = row.key else { panic!("a morph's key") };
        assert_eq!((key.frame, key.map, key.weight_bits()), (map.into(), map, weight.to_bits()));
    }
}

/// A translation of which one float is not zero keeps the signs of the others.
#[test]
fn signs_of_zero() {
    let signed = key(0, 1, &[&floats([-0.0, 0.0, 1.0])]);
    let (_, rows) = told(&strip(&[track(&[signed])], &[]));
    let StripKey::Bone(key) = rows[0].key else { panic!("a bone's key") };
    assert_eq!(key.translation_bits(), [0x8000_0000, 0, 0x3f80_0000]);
    let StripKey::Bone(unsigned) =
        told(&strip(&[track(&[self::key(0, 1, &[&floats([0.0, 0.0, 1.0])])])], &[])).1[0].key
    else {
        panic!("a bone's key")
    };
    assert_eq!(key, unsigned);
    assert_ne!(key.translation_bits(), unsigned.translation_bits());
}

/// Tracks and keys that are not there.
#[test]
fn absent() {
    let bytes = strip(&[track(&[bone_key(1, 15)])], &[track(&[morph_key(0, None), morph_key(1, None)])]);
    let most = u32::MAX;
    for absent in [bone(1), bone(most), morph(1), morph(most)] {
        assert_eq!(strip_key_count(&bytes, absent), Err(Refusal::Absent), "{absent}");
        assert_eq!(strip_key(&bytes, absent, 0), Err(Refusal::Absent), "{absent}");
    }
    for (track, place) in [(bone(0), 1), (bone(0), usize::MAX), (morph(0), 2), (morph(0), 1 << 32)] {
        assert_eq!(strip_key(&bytes, track, place), Err(Refusal::Absent), "{track} {place}");
    }
    assert_eq!(strip_key_count(&[0; 4], bone(0)), Err(Refusal::Absent));
}

/// The calls as they are: as far as a slice reaches, and a kind that there is not.
#[test]
fn values() {
    let bytes = strip(&[track(&[bone_key(1, 15)])], &[track(&[morph_key(9, Some(0.5))])]);
    let mut values = [7; 15];
    assert_eq!(raw::strip_counts(&bytes, &mut values[..1]), 0);
    assert_eq!(values, [1, 7, 7, 7, 7, 7, 7, 7, 7, 7, 7, 7, 7, 7, 7]);
    assert_eq!(raw::strip_key(&bytes, 1, 0, 0, &mut values), 0);
    assert_eq!(values, [9, 1, 0x3f00_0000, 0, 0, 0, 0, 0, 0, 0, 0, 0, 0, 7, 7]);
    assert_eq!(raw::strip_key(&bytes, 0, 0, 0, &mut values), 0);
    let expected = [1, 15, 0x3fc0_0000, 0x8000_0000, 0xc040_0000, 0x3e80_0000, 0xbf00_0000, 0];
    assert_eq!((&values[..8], values[8]), (&expected[..], 1e20_f32.to_bits().into()));
    assert_eq!(values[9..], [0x0403_0201, 0x0807_0605, 0x7f0b_0a09, 0x0e0d_7f00, 7, 7]);
    for kind in [2, 3, u32::MAX] {
        let mut values = [7; 13];
        assert_eq!(raw::strip_key_count(&bytes, kind, 0, &mut values), 19);
        assert_eq!(raw::strip_key(&bytes, kind, 0, 0, &mut values), 19);
        assert_eq!(raw::strip_key_count(&bytes[..bytes.len() - 1], kind, 0, &mut values), 23);
        assert_eq!(values, [7; 13]);
    }
}

/// Whole rows from a number on, as far as they fit; later places stay as they were, and all of them where it is refused.
#[test]
fn rows() {
    let bones = [track(&[bone_key(1, 15), bone_key(2, 0)]), track(&[bone_key(0, 1)])];
    let bytes = strip(&bones, &[track(&[morph_key(9, Some(0.5))])]);
    let mut all = [7; 64];
    assert_eq!(raw::strip_keys(&bytes, 0, &mut all, &mut []), 0);
    let ends: Vec<_> = all.chunks(16).map(|row| (row[0], row[1], row[2], row[3])).collect();
    assert_eq!(ends, [(0, 0, 0, 1), (0, 0, 1, 2), (0, 1, 0, 0), (1, 0, 0, 9)]);
    assert_eq!(all[48..], [1, 0, 0, 9, 1, 0x3f00_0000, 0, 0, 0, 0, 0, 0, 0, 0, 0, 0]);
    for first in [0, 1, 3, 4, 5, usize::MAX] {
        for length in [0, 1, 15, 16, 31, 32, 63, 64, 70] {
            let (mut rows, mut count) = (vec![7; length], [7]);
            assert_eq!(raw::strip_keys(&bytes, first, &mut rows, &mut count), 0);
            let written = (length / 16).min(4_usize.saturating_sub(first)) * 16;
            let start = first.min(4) * 16;
            assert_eq!((count, &rows[..written]), ([4], &all[start..start + written]), "{first} {length}");
            assert!(rows[written..].iter().all(|place| *place == 7), "{first} {length}");
        }
    }
    for bad in [&bytes[..bytes.len() - 1], &[&bytes[..], &[0]].concat()] {
        let (mut rows, mut count) = ([7; 64], [7]);
        assert_eq!(raw::strip_keys(bad, 0, &mut rows, &mut count), 23);
        assert_eq!((rows, count), ([7; 64], [7]));
    }
}

/// The records that a track's chain follows, the initial one first.
fn chain<P>(tracks: &Tracks<P>, track: u32) -> Vec<&Record<P>> {
    let mut keys = vec![&tracks.initial[track as usize]];
    while keys[keys.len() - 1].next != 0 {
        let next = keys[keys.len() - 1].next;
        keys.push(tracks.additional.iter().find(|record| record.index == next).expect("a record"));
    }
    keys
}

fn is_bone(key: &StripKey, record: &Record<Bone>) -> bool {
    let StripKey::Bone(key) = key else { return false };
    let Bone { interpolation, translation, orientation, .. } = record.payload;
    let (translation, orientation) = (translation.map(f32::from_bits), orientation.map(f32::from_bits));
    key.frame.cast_signed() == record.frame
        && key.translation == translation
        && key.orientation == orientation
        && *key.curves.as_flattened() == interpolation.map(|byte| byte.min(127))
}

fn is_morph(key: &StripKey, record: &Record<Morph>) -> bool {
    let StripKey::Morph(key) = key else { return false };
    key.frame.cast_signed() == record.frame && key.weight == f32::from_bits(record.payload.weight)
}

/// Strips that the strip call makes of generated sections: each key is that of its record, and written again the keys are
/// the strip.
#[test]
fn built() {
    let mut keys = 0;
    for number in 0..300 {
        let prng = &Prng::new(41, 0, number);
        let sizes = if number % 2 == 0 { Sizes::chained(prng) } else { Sizes::any(prng) };
        let model = sound::model(prng, sizes, values::name);
        let strip = limdroven::strip(&model.write().bytes, 0).expect("built");
        let (counts, rows) = told(&strip.bytes);
        assert_eq!((counts.bones, counts.morphs), (model.bones.initial.len(), model.morphs.initial.len()));
        assert_eq!(rows.len(), counts.bones + counts.morphs + strip.reached);
        for rows in rows.chunk_by(|one, next| one.track == next.track) {
            let same = match rows[0].track {
                TrackIndex::Bone(BoneIndex(track)) => {
                    let chain = chain(&model.bones, track);
                    chain.len() == rows.len() && rows.iter().zip(chain).all(|(row, record)| is_bone(&row.key, record))
                }
                TrackIndex::Morph(MorphIndex(track)) => {
                    let chain = chain(&model.morphs, track);
                    chain.len() == rows.len() && rows.iter().zip(chain).all(|(row, record)| is_morph(&row.key, record))
                }
            };
            assert!(same, "{number} {}", rows[0].track);
        }
        assert_eq!(of_rows(&rows), strip.bytes, "{number}");
        keys += rows.len();
    }
    assert!(keys > 3000, "{keys}");
}
