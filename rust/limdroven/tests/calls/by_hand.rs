//! Document 01, "Sections by hand": sections that are accepted.

use crate::sections::{bones, morphs, section};
use limdroven::{Built, camera_keyframe, camera_summary, light_summary, model_summary, strip, strip_into};

const LINKED: [i32; 4] = [0, 0, 0, 1];
const UNLINKED: [i32; 4] = [0, 0, 0, 0];

#[test]
fn zeros() {
    let summary = model_summary(&[0; 340], 0).expect("read");
    assert_eq!(summary.sections.initial_bone_keyframes_offset, 307);
    assert_eq!(summary.sections.bone_keyframes_offset, 311);
    assert_eq!(summary.sections.morph_keyframes_offset, 315);
    assert_eq!(summary.sections.model_keyframes_offset, 333);
    assert_eq!((summary.offset, summary.offset_end), (0, 340));
    assert_eq!(strip(&[0; 340], 0).expect("built").bytes, [0; 4]);
}

#[test]
fn a_bone() {
    let section = section(bones(&[UNLINKED], &[]), morphs(&[], &[]));
    assert_eq!(section.len(), 430);
    let strip = strip(&section, 0).expect("built");
    assert_eq!(strip.bytes, [1, 0, 0, 0, 1, 0, 0, 0, 0, 0, 0]);
    assert_eq!((strip.reached, strip.loose), (0, 0));
}

#[test]
fn a_record_reached_or_loose() {
    let of = |initial| section(bones(&[initial], &[[1, 1, 0, 0]]), morphs(&[], &[]));
    let reached = strip(&of(LINKED), 0).expect("built");
    assert_eq!((reached.reached, reached.loose), (1, 0));
    assert_eq!((reached.positions, reached.tracks), (vec![0], vec![1]));
    let loose = strip(&of(UNLINKED), 0).expect("built");
    assert_eq!((loose.reached, loose.loose), (0, 1));
    assert_eq!((loose.positions, loose.tracks), (vec![0], vec![0]));
}

#[test]
fn bytes_before_and_behind() {
    let section = section(bones(&[LINKED], &[[1, 1, 0, 0]]), morphs(&[UNLINKED], &[]));
    let among = [vec![7; 5], section.clone(), vec![9; 3]].concat();
    assert_eq!(strip(&among, 5), strip(&section, 0));
    assert_eq!(model_summary(&among, 5).expect("read").offset_end, 5 + section.len());
}

/// The slices are left as the header says, and those behind what is needed as they were.
#[test]
fn slices_are_left() {
    let section = section(bones(&[LINKED], &[[4, 1, 1, 0], [1, 2, 0, 4]]), morphs(&[], &[]));
    let (mut first, mut second, mut output) = ([7; 4], [7; 4], [7; 40]);
    let built = strip_into(&section, 0, &mut first, &mut second, &mut output).expect("built");
    assert_eq!(built, Built { length: 21, reached: 2, loose: 0 });
    assert_eq!((first, second), ([1, 0, 7, 7], [1, 1, 7, 7]));
    assert_eq!(output[..21], strip(&section, 0).expect("built").bytes);
    assert_eq!(output[21..], [7; 19]);
}

#[test]
fn cameras_and_lights() {
    assert_eq!(camera_summary(&[0; 119], 0).expect("read").offset_end, 119);
    assert!(camera_keyframe(&[0; 119], 0, false, 0).expect("a record").perspective_view);
    assert_eq!(light_summary(&[0; 65], 0).expect("read").offset_end, 65);
}
