//! Every refusal that a small section can meet, 16, and those of a path and a list and of a strip: number, kind, values
//! and words.

use crate::sections::{bones, morphs, plain_bone, plain_morph, section, tracks};
use generate::section::{Bone, Morph, Tracks};
use limdroven::{
    BoneIndex, Kind, MOST_BYTES, Refusal, TrackIndex, asset_reference_index_for_path, bone_keyframe, camera_summary,
    light_summary, model_summary, strip, strip_counts, strip_into, strip_key,
};

const LINKED: [i32; 4] = [0, 0, 0, 1];
const UNLINKED: [i32; 4] = [0, 0, 0, 0];

/// What a refusal must tell.
fn tells(refusal: Refusal, number: u8, kind: Option<Kind>, values: &[(&str, i128)], words: &str) {
    assert_eq!((refusal.number(), refusal.kind()), (number, kind), "{refusal:?}");
    assert_eq!(refusal.values(), values);
    assert_eq!(refusal.to_string(), format!("refused {number}: {words}"));
}

fn of_strip(section: &[u8]) -> Refusal {
    strip(section, 0).expect_err("refused")
}

/// The same records as bones and as morphs; `KIND` in the words is theirs.
fn of_both(initial: [i32; 4], additional: &[[i32; 4]], number: u8, values: &[(&str, i128)], words: &str) {
    let of_bones = section(bones(&[initial], additional), morphs(&[], &[]));
    tells(of_strip(&of_bones), number, Some(Kind::Bone), values, &words.replace("KIND", "bone"));
    let of_morphs = section(bones(&[UNLINKED], &[]), morphs(&[initial], additional));
    tells(of_strip(&of_morphs), number, Some(Kind::Morph), values, &words.replace("KIND", "morph"));
}

fn with_number(at: usize, number: i32) -> [u8; 340] {
    let mut section = [0; 340];
    section[at..at + 4].copy_from_slice(&number.to_le_bytes());
    section
}

#[test]
fn reading() {
    let short = model_summary(&[0; 339], 0).expect_err("refused");
    tells(short, 1, None, &[("offset", 339)], "the bytes end before the value at offset 339 is whole");
    assert_eq!(of_strip(&[0; 339]), short);
    assert_eq!(camera_summary(&[0; 118], 0), Err(Refusal::TooShort { offset: 82 }));
    assert_eq!(light_summary(&[0; 64], 0), Err(Refusal::TooShort { offset: 41 }));
    let negative = of_strip(&with_number(260, -1));
    tells(negative, 2, None, &[("offset", 260)], "the count at offset 260 is negative");
    for (at, count) in [(260, 65_536), (264, 65_536), (307, 65_535), (311, 65_535)] {
        let words = format!("the count at offset {at} is above its limit");
        tells(of_strip(&with_number(at, count)), 20, None, &[("offset", at as i128)], &words);
    }
    let absent = bone_keyframe(&[0; 340], 0, true, 0).expect_err("refused");
    tells(absent, 19, None, &[], "there is no record, name, state, entry, track or key of that number");
}

#[test]
fn too_long() {
    let mut section = vec![0; MOST_BYTES];
    assert_eq!(model_summary(&section, 0).expect("read").offset_end, 340);
    assert_eq!(strip(&section, 0).expect("built").bytes, [0; 4]);
    section.push(0);
    tells(of_strip(&section), 16, None, &[], "more than 16777215 bytes");
    assert_eq!(model_summary(&section, usize::MAX), Err(Refusal::TooLong));
}

/// Of a path and a list of references.
#[test]
fn references() {
    let of = |path: &[u8], list: &[u8]| asset_reference_index_for_path(path, list).expect_err("refused");
    tells(of(&vec![0; MOST_BYTES + 1], &[]), 16, None, &[], "more than 16777215 bytes");
    tells(of(&[], &vec![0; MOST_BYTES + 1]), 16, None, &[], "more than 16777215 bytes");
    tells(of(&[], &[1]), 21, None, &[], "the list of references ends inside an entry");
    let words = "a byte above 127 stands in the path or in a reference of the list";
    tells(of(&[128], &[]), 22, None, &[], words);
    tells(of(&[], &[0, 1, 0, 128]), 22, None, &[], words);
}

/// Of a strip that is read.
#[test]
fn strips() {
    let of = |strip: &[u8]| strip_counts(strip).expect_err("refused");
    tells(of(&vec![0; MOST_BYTES + 1]), 16, None, &[], "more than 16777215 bytes");
    let absent = strip_key(&[0; 4], TrackIndex::Bone(BoneIndex(0)), 0).expect_err("refused");
    tells(absent, 19, None, &[], "there is no record, name, state, entry, track or key of that number");
    let words = "the strip ends early, or bytes are left over behind its last track";
    tells(of(&[0; 3]), 23, None, &[], words);
    tells(of(&[0; 5]), 23, None, &[], words);
    let words = "a bone's map byte is above 15, or a morph's above 1";
    tells(of(&[1, 0, 0, 0, 1, 0, 0, 0, 0, 0, 16]), 24, None, &[], words);
    let words = "the strip has what the strip call never writes: a plain field, a curve byte above 127, a float that is not \
                 finite, an orientation that is too short, a frame above 2147483647 or repeated in its track, a track \
                 without keys, or more than 65534 keys of one kind besides each track's first";
    tells(of(&[1, 0, 0, 0, 0, 0]), 25, None, &[], words);
}

#[test]
fn indices() {
    let words = "an additional KIND record has the negative index -1";
    of_both(UNLINKED, &[[-1, 1, 0, 0]], 3, &[("index", -1)], words);
    let words = "an additional KIND record has the index 0, below the number of KINDs, 1";
    of_both(UNLINKED, &[[0, 1, 0, 0]], 4, &[("index", 0), ("count", 1)], words);
    let words = "two additional KIND records have the index 1";
    of_both(UNLINKED, &[[1, 1, 0, 0], [1, 2, 0, 0]], 5, &[("index", 1)], words);
}

#[test]
fn chains() {
    let words = "the chain of KIND track 0 has the link 2, which is the index of no additional record";
    of_both([0, 0, 0, 2], &[[1, 1, 0, 0]], 6, &[("track", 0), ("link", 2)], words);
    let words = "the chain of KIND track 0 has the link -5, which is the index of no additional record";
    of_both([0, 0, 0, -5], &[[1, 1, 0, 0]], 6, &[("track", 0), ("link", -5)], words);
    let words = "the chain of KIND track 0 comes back to its record of index 1";
    of_both(LINKED, &[[1, 1, 0, 1]], 7, &[("track", 0), ("link", 1)], words);
    let words = "in the chain of KIND track 0 the record of index 1 has the previous link -5, not 0";
    let values = [("track", 0), ("link", 1), ("found", -5), ("expected", 0)];
    of_both(LINKED, &[[1, 1, -5, 0]], 8, &values, words);
    let words = "no chain reaches 2 additional KIND record(s) that have a nonzero link";
    of_both(UNLINKED, &[[1, 1, 0, 7], [2, 1, 7, 0], [3, 1, 0, 0]], 15, &[("count", 2)], words);
}

#[test]
fn frames() {
    let words = "KIND track 0 has a key of the negative frame -3";
    of_both(LINKED, &[[1, -3, 0, 0]], 10, &[("track", 0), ("frame", -3)], words);
    let words = "KIND track 0 has two keys of frame 0";
    of_both(LINKED, &[[1, 0, 0, 0]], 11, &[("track", 0), ("frame", 0)], words);
}

#[test]
fn poses() {
    let of = |bones: Tracks<Bone>, morphs: Tracks<Morph>| of_strip(&section(bones, morphs));
    let key = [[0, 9, 0, 0]];
    let at = [("track", 0), ("frame", 9)];
    for float in [f32::NAN, f32::INFINITY, f32::NEG_INFINITY] {
        let bits = float.to_bits();
        let translation = Bone { translation: [0, bits, 0], ..plain_bone() };
        let words = "the translation of bone track 0 at frame 9 is not finite";
        tells(of(tracks(&key, &[], &translation), morphs(&[], &[])), 12, None, &at, words);
        let orientation = Bone { orientation: [0, 0, 0, bits], ..plain_bone() };
        let words = "the orientation of bone track 0 at frame 9 is not finite or too short";
        tells(of(tracks(&key, &[], &orientation), morphs(&[], &[])), 13, None, &at, words);
        let weight = Morph { weight: bits, ..plain_morph() };
        let words = "the weight of morph track 0 at frame 9 is not finite";
        tells(of(bones(&[], &[]), tracks(&key, &[], &weight)), 14, None, &at, words);
    }
    let [long, short] = [11, 12].map(|power| 0.5_f32.powi(power).to_bits());
    let oriented = |orientation| section(tracks(&key, &[], &Bone { orientation, ..plain_bone() }), morphs(&[], &[]));
    assert_eq!(of_strip(&oriented([short, short, 0, 0])).number(), 13);
    assert!(strip(&oriented([long, 0, 0, 0]), 0).is_ok());
}

/// By the caller's doing: what is needed is told, and enough of it is enough.
#[test]
fn slices() {
    let section = section(bones(&[LINKED], &[[1, 1, 0, 0]]), morphs(&[UNLINKED], &[[1, 0, 0, 0]]));
    let call = |first: usize, second: usize, output: usize| {
        let (mut work, mut other, mut strip) = (vec![7; first], vec![7; second], vec![7; output]);
        let answer = strip_into(&section, 0, &mut work, &mut other, &mut strip);
        (answer, work, other, strip)
    };
    for (first, second) in [(1, 2), (2, 1), (0, 0)] {
        let (answer, work, other, strip) = call(first, second, 100);
        let words = "a work slice has fewer than the 2 places needed";
        tells(answer.expect_err("refused"), 17, None, &[("need", 2)], words);
        assert_eq!((work, other, strip), (vec![7; first], vec![7; second], vec![7; 100]));
    }
    let need = 4 + 2 + 5 + 5 + 2 + 5;
    for output in [0, 1, need - 1] {
        let (answer, work, other, strip) = call(3, 3, output);
        let words = format!("the output is shorter than the strip's {need} bytes");
        tells(answer.expect_err("refused"), 18, None, &[("need", need as i128)], &words);
        assert_eq!((work, other, strip), (vec![0, 0, 7], vec![0, 0, 7], vec![7; output]));
    }
    let (answer, ..) = call(2, 2, need);
    assert_eq!(answer.expect("built").length, need);
}

#[test]
fn moved() {
    assert_eq!(Refusal::TooShort { offset: 5 }.moved(50), Refusal::TooShort { offset: 55 });
    assert_eq!(Refusal::NegativeCount { offset: 5 }.moved(50), Refusal::NegativeCount { offset: 55 });
    assert_eq!(Refusal::CountAboveLimit { offset: 5 }.moved(50), Refusal::CountAboveLimit { offset: 55 });
    assert_eq!(Refusal::TooShort { offset: usize::MAX }.moved(50), Refusal::TooShort { offset: usize::MAX });
    let link = Refusal::MissingLink { kind: Kind::Bone, track: 5, link: 5 };
    assert_eq!(link.moved(50), link);
    assert_eq!(Refusal::WorkTooShort { need: 5 }.moved(50), Refusal::WorkTooShort { need: 5 });
}
