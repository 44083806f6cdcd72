//! Document 01, "Sections by hand", and what the stand-ins must keep.

use answers::{Kind, Refusal, Strip, model, name_as_shown, strip, track, walk, would_reserve_too_much};

const PLAIN: [f32; 4] = [0.0, 0.0, 0.0, 1.0];

/// Index, frame, previous link and next link of an additional record.
type Links = [i32; 4];

/// One nameless bone with plain curves, an initial next link, and additional records like it; all else is 0.
fn one_bone(orientation: [f32; 4], next: i32, additional: &[Links]) -> Vec<u8> {
    let mut out = vec![0; 260];
    number(1, &mut out);
    out.extend([0; 44]);
    pose(&[0, 0, next], orientation, &mut out);
    number(additional.len() as i32, &mut out);
    additional.iter().for_each(|links| pose(links, orientation, &mut out));
    out.extend([0; 4 + 14 + 4 + 31 + 7]);
    out
}

fn number(number: i32, out: &mut Vec<u8>) {
    out.extend(number.to_le_bytes());
}

fn pose(base: &[i32], orientation: [f32; 4], out: &mut Vec<u8>) {
    base.iter().for_each(|link| number(*link, out));
    out.extend([20, 20, 107, 107].repeat(4));
    out.extend([0; 12]);
    orientation.iter().for_each(|float| out.extend(float.to_le_bytes()));
    out.extend([0; 2]);
}

fn built(section: &[u8]) -> Result<Strip, Refusal> {
    strip::strip(&model::summary(section, 0).expect("read"))
}

fn bone(number: u8, values: &[i128]) -> Refusal {
    Refusal { number, kind: Some(Kind::Bone), values: values.to_vec() }
}

fn offset(flat: &answers::Flat, name: &str) -> u64 {
    flat.iter().find(|(field, _)| *field == name).expect("a field").1
}

#[test]
fn zeros() {
    let summary = model::summary(&[0; 340], 0).expect("read");
    let read = model::model(&summary);
    assert_eq!(offset(&read.sections, "initial_bone_keyframes_offset"), 307);
    assert_eq!(offset(&read.sections, "bone_keyframes_offset"), 311);
    assert_eq!(offset(&read.sections, "morph_keyframes_offset"), 315);
    assert_eq!(offset(&read.sections, "model_keyframes_offset"), 333);
    assert_eq!(offset(&read.scalars, "offset_end"), 340);
    assert_eq!(strip::strip(&summary).expect("built").bytes, [0; 4]);

    assert!(model::summary(&[0; 339], 0).is_none());
    assert_eq!(walk::model(&[0; 339], 0).answer(), Err(Refusal::at(1, 339)));
    let mut negative = [0; 340];
    negative[260..264].fill(255);
    assert!(model::summary(&negative, 0).is_none());
    assert_eq!(walk::model(&negative, 0).answer(), Err(Refusal::at(2, 260)));
}

#[test]
fn a_bone() {
    let section = one_bone(PLAIN, 0, &[]);
    assert_eq!(section.len(), 430);
    assert_eq!(built(&section).expect("built").bytes, [1, 0, 0, 0, 1, 0, 0, 0, 0, 0, 0]);
    let short = Err(Refusal { number: 13, kind: None, values: vec![0, 0] });
    assert_eq!(built(&one_bone([0.0; 4], 0, &[])), short);
    let [small, less] = [11, 12].map(|power| 0.5_f32.powi(power));
    assert_eq!(built(&one_bone([less, less, 0.0, 0.0], 0, &[])), short);
    assert!(built(&one_bone([small, 0.0, 0.0, 0.0], 0, &[])).is_ok());
}

#[test]
fn a_record() {
    let linked = |links: Links| built(&one_bone(PLAIN, 1, &[links]));
    let accepted = linked([1, 1, 0, 0]).expect("built");
    assert_eq!((accepted.reached, accepted.loose), (1, 0));
    assert_eq!((accepted.positions, accepted.tracks), (vec![0], vec![1]));
    assert_eq!(linked([0, 1, 0, 0]), Err(bone(4, &[0, 1])));
    assert_eq!(linked([1, 1, 0, 1]), Err(bone(7, &[0, 1])));
    assert_eq!(linked([1, 1, 5, 0]), Err(bone(8, &[0, 1, 5, 0])));

    let unlinked = |links: Links| built(&one_bone(PLAIN, 0, &[links]));
    assert_eq!(unlinked([1, 1, 0, 7]), Err(bone(15, &[1])));
    let accepted = unlinked([1, 1, 0, 0]).expect("built");
    assert_eq!((accepted.reached, accepted.loose), (0, 1));
    assert_eq!(accepted.tracks, [0]);
}

#[test]
fn cameras_and_lights() {
    let camera = track::camera(&[0; 119], 0).expect("read");
    assert_eq!(offset(&camera.initial_keyframe.scalars, "perspective_view"), 1);
    assert!(track::camera(&[0; 118], 0).is_none());
    assert_eq!(walk::camera(&[0; 118], 0).answer(), Err(Refusal::at(1, 82)));
    assert!(track::light(&[0; 65], 0).is_some());
    assert!(track::light(&[0; 64], 0).is_none());
}

#[test]
fn starts_past_the_end() {
    for start in [341, 1 << 32, u64::MAX] {
        assert!(model::summary(&[0; 340], start).is_none());
        assert_eq!(walk::model(&[0; 340], start).answer(), Err(Refusal::at(1, start)));
    }
}

#[test]
fn huge_counts_are_set_apart() {
    let mut section = [0; 340];
    assert!(!would_reserve_too_much(&section, 0));
    section[307..311].copy_from_slice(&i32::MAX.to_le_bytes());
    assert!(would_reserve_too_much(&section, 0));
    assert_eq!(walk::model(&section, 0).answer(), Err(Refusal::at(20, 307)));
}

#[test]
fn the_bits_of_a_nan_are_kept() {
    let bits = 0xff80_0001_u32;
    let section = one_bone([0.0, 0.0, 0.0, f32::from_bits(bits)], 0, &[]);
    let read = model::model(&model::summary(&section, 0).expect("read"));
    let scalars = &read.initial_bone_keyframe_summaries[0].scalars;
    assert!(scalars.contains(&("orientation", u64::from(bits))));
    for bits in [0x7fc0_0001_u32, bits] {
        let mut section = [0; 340];
        section[334..338].copy_from_slice(&bits.to_le_bytes());
        let read = model::model(&model::summary(&section, 0).expect("read"));
        assert_eq!(offset(&read.scalars, "edge_width"), u64::from(bits));
    }
}

#[test]
fn names_keep_their_bytes() {
    let every: Vec<u8> = (0..=255).collect();
    assert_eq!(name_as_shown(&every), every);
    assert_eq!(name_as_shown(&[0, 7, 0, 0]), [0, 7]);
}

/// 15 tells the model's name, and a name can be like a message.
#[test]
fn a_misleading_name() {
    let name = b" has 9 disconnected additional morph keyframe(s)";
    let mut section = one_bone(PLAIN, 0, &[[1, 1, 0, 7]]);
    section[1] = name.len() as u8;
    section.splice(2..2, *name);
    assert_eq!(built(&section), Err(bone(15, &[1])));
}
