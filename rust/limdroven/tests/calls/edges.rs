//! Slices of no length, starts past the end and numbers that no list has, for every call.

use limdroven::*;

/// Every call that reads a model section, with its answer dropped.
fn of_model(section: &[u8], start: usize, number: usize) -> Vec<Result<(), Refusal>> {
    let mut answers = vec![
        model_summary(section, start).map(drop),
        name_span(section, start).map(drop),
        english_name_span(section, start).map(drop),
        path_span(section, start).map(drop),
        name(section, start).map(drop),
        english_name(section, start).map(drop),
        path(section, start).map(drop),
        strip(section, start).map(drop),
    ];
    answers.extend(of_model_by_number(section, start, number));
    answers
}

fn of_model_by_number(section: &[u8], start: usize, number: usize) -> Vec<Result<(), Refusal>> {
    let mut answers = vec![
        bone_state(section, start, number).map(drop),
        morph_state(section, start, number).map(drop),
        constraint_state(section, start, number).map(drop),
        outside_parent_state(section, start, number).map(drop),
        bone_name_span(section, start, number).map(drop),
        morph_name_span(section, start, number).map(drop),
        bone_name(section, start, number).map(drop),
        morph_name(section, start, number).map(drop),
    ];
    for include_index in [false, true] {
        answers.extend([
            bone_keyframe(section, start, include_index, number).map(drop),
            morph_keyframe(section, start, include_index, number).map(drop),
            model_keyframe(section, start, include_index, number).map(drop),
            bone_payload(section, start, include_index, number).map(drop),
            morph_payload(section, start, include_index, number).map(drop),
            model_payload(section, start, include_index, number).map(drop),
            bone_interpolation(section, start, include_index, number).map(drop),
            model_keyframe_constraint_state(section, start, include_index, number, number).map(drop),
            model_keyframe_outside_parent(section, start, include_index, number, number).map(drop),
        ]);
    }
    answers
}

fn of_tracks_by_number(section: &[u8], start: usize, number: usize) -> Vec<Result<(), Refusal>> {
    [false, true]
        .into_iter()
        .flat_map(|include_index| {
            [
                camera_keyframe(section, start, include_index, number).map(drop),
                light_keyframe(section, start, include_index, number).map(drop),
                camera_payload(section, start, include_index, number).map(drop),
                light_payload(section, start, include_index, number).map(drop),
                camera_interpolation(section, start, include_index, number).map(drop),
            ]
        })
        .collect()
}

fn of_tracks(section: &[u8], start: usize, number: usize) -> Vec<Result<(), Refusal>> {
    let mut answers = vec![camera_summary(section, start).map(drop), light_summary(section, start).map(drop)];
    answers.extend(of_tracks_by_number(section, start, number));
    answers
}

fn all(section: &[u8], start: usize, number: usize) -> Vec<Result<(), Refusal>> {
    [of_model(section, start, number), of_tracks(section, start, number)].concat()
}

#[test]
fn no_bytes() {
    assert_eq!(strip_counts(&[]), Err(Refusal::StripNotWhole));
    assert_eq!(strip_keys(&[]), Err(Refusal::StripNotWhole));
    for number in [0, 1, usize::MAX] {
        let answers = all(&[], 0, number);
        assert_eq!(answers.len(), 46);
        assert!(answers.into_iter().all(|answer| answer == Err(Refusal::TooShort { offset: 0 })));
    }
}

#[test]
fn starts_past_the_end() {
    for start in [340, 341, 1 << 32, usize::MAX - 1, usize::MAX] {
        for number in [0, usize::MAX] {
            let refused = Err(Refusal::TooShort { offset: start });
            assert!(all(&[0; 340], start, number).into_iter().all(|answer| answer == refused), "{start}");
        }
    }
}

#[test]
fn starts_before_the_end() {
    for start in 0..340 {
        let read = model_summary(&[0; 340], start);
        if start == 0 {
            assert!(read.is_ok());
        } else {
            assert!(matches!(read, Err(Refusal::TooShort { offset }) if start <= offset && offset <= 340), "{start}");
        }
    }
}

#[test]
fn numbers_that_no_list_has() {
    for number in [1, 2, 1 << 32, usize::MAX] {
        assert!(of_model_by_number(&[0; 340], 0, number).into_iter().all(|answer| answer == Err(Refusal::Absent)));
        let of_tracks = of_tracks_by_number(&[0; 200], 0, number);
        assert!(of_tracks.into_iter().all(|answer| answer == Err(Refusal::Absent)));
    }
    assert!(model_keyframe(&[0; 340], 0, false, 0).is_ok());
    assert!(camera_keyframe(&[0; 200], 0, false, 0).is_ok());
}

/// The calls as they are, lent no places: nothing is written, and the answer is the same.
#[test]
fn no_places() {
    assert_eq!(raw::model_summary(&[0; 340], 0, &mut []), 0);
    assert_eq!(raw::model_summary(&[0; 339], 0, &mut []), 1);
    assert_eq!(raw::model_summary(&[], 0, &mut []), 1);
    assert_eq!(raw::name(&[], 0, &mut []), 0);
    assert_eq!(raw::strip(&[], 0, &mut [], &mut [], &mut [], &mut []), 1);
    assert_eq!(raw::strip(&[0; 340], 0, &mut [], &mut [], &mut [], &mut []), 18);
    assert_eq!(raw::strip(&[0; 340], 0, &mut [], &mut [], &mut [0; 4], &mut []), 0);
    for (strip, number) in [(&[0; 4][..], 0), (&[], 23)] {
        let absent = if number == 0 { 19 } else { number };
        assert_eq!(raw::strip_counts(strip, &mut []), number);
        assert_eq!(raw::strip_keys(strip, 0, &mut [], &mut []), number);
        assert_eq!(raw::strip_key_count(strip, 0, 0, &mut []), absent);
        assert_eq!(raw::strip_key(strip, 0, 0, 0, &mut []), absent);
    }
}

/// A call that answers bytes.
type Bytes = fn(&[u8], usize, bool, usize, &mut [u8]) -> usize;

/// The calls as they are hand back nothing and leave the slice as it was where there is no record, or none is read.
#[test]
fn nothing_handed_back() {
    let of_model: [Bytes; 4] = [raw::bone_payload, raw::morph_payload, raw::model_payload, raw::bone_interpolation];
    let of_tracks: [Bytes; 3] = [raw::camera_payload, raw::light_payload, raw::camera_interpolation];
    for call in of_model.into_iter().chain(of_tracks) {
        for (start, include_index, number) in [(0, false, 1), (0, true, 0), (340, false, 0)] {
            let mut output = [7; 20];
            assert_eq!(call(&[0; 340], start, include_index, number, &mut output), 0);
            assert_eq!(output, [7; 20]);
        }
    }
}
