//! Generated camera and light sections, whose every answer is known from their description.

use generate::prng::Prng;
use generate::section::Track;
use generate::sound;
use limdroven::*;

use crate::described::{assert_base, bits, floats_at, i32_at, numbered};

/// The summary of a camera or a light section.
fn assert_track(found: PmmDocumentTrackSummary, start: usize, initial: usize, track: &Track) {
    let additional = track.records.additional.len();
    let count = start + initial;
    let end = count + 4 + (initial + 4) * additional;
    assert_eq!((found.offset, found.offset_end), (start, end + track.state.len()));
    assert_eq!((found.initial_keyframes, found.keyframes), (1, additional));
    let offsets = [found.keyframe_count_offset, found.keyframes_offset, found.keyframes_end_offset];
    assert_eq!(offsets, [count, count + 4, end]);
    assert_eq!((found.state_offset, found.state_end_offset), (end, end + track.state.len()));
}

#[test]
fn cameras() {
    for number in 0..60 {
        let prng = &Prng::new(12, 0, number);
        let track = sound::camera(prng, number as usize % 9);
        let section = &[prng.bytes(3), track.write().bytes].concat();
        assert_track(camera_summary(section, 3).expect("read"), 3, 78, &track);
        for (include_index, number, record) in numbered(&track.records) {
            let found = camera_keyframe(section, 3, include_index, number).expect("a record");
            let payload = &record.payload;
            assert_base!(found, record, include_index, section, *payload);
            assert_eq!([found.distance.to_bits()], floats_at(payload, 0));
            assert_eq!(bits(found.look_at), floats_at(payload, 4));
            assert_eq!(bits(found.angle), floats_at(payload, 16));
            assert_eq!(found.parent_model_index, i32_at(payload, 28));
            assert_eq!(found.parent_model_bone_index, i32_at(payload, 32));
            assert_eq!(found.perspective_view, payload[60] == 0);
            assert_eq!((found.fov, found.selected), (i32_at(payload, 61), payload[65] != 0));
            let offsets = [
                found.distance_offset,
                found.look_at_offset,
                found.angle_offset,
                found.parent_model_index_offset,
                found.parent_model_bone_index_offset,
                found.interpolation_offset,
                found.perspective_view_offset,
                found.fov_offset,
                found.selected_offset,
            ];
            assert_eq!(offsets, [0, 4, 16, 28, 32, 36, 60, 61, 65].map(|at| found.payload_offset + at));
            let lengths = [found.look_at_byte_length, found.angle_byte_length, found.interpolation_byte_length];
            assert_eq!(lengths, [12, 12, 24]);
            let interpolation = camera_interpolation(section, 3, include_index, number).expect("a record");
            assert_eq!(interpolation, payload[36..60]);
            assert_eq!(camera_payload(section, 3, include_index, number).as_ref(), Ok(payload));
        }
    }
}

#[test]
fn lights() {
    for number in 0..60 {
        let prng = &Prng::new(13, 0, number);
        let track = sound::light(prng, number as usize % 9);
        let section = &[prng.bytes(3), track.write().bytes].concat();
        assert_track(light_summary(section, 3).expect("read"), 3, 37, &track);
        for (include_index, number, record) in numbered(&track.records) {
            let found = light_keyframe(section, 3, include_index, number).expect("a record");
            let payload = &record.payload;
            assert_base!(found, record, include_index, section, *payload);
            assert_eq!(bits(found.color), floats_at(payload, 0));
            assert_eq!(bits(found.direction), floats_at(payload, 12));
            assert_eq!(found.selected, payload[24] != 0);
            let offsets = [found.color_offset, found.direction_offset, found.selected_offset];
            assert_eq!(offsets, [0, 12, 24].map(|at| found.payload_offset + at));
            assert_eq!([found.color_byte_length, found.direction_byte_length], [12, 12]);
            assert_eq!(light_payload(section, 3, include_index, number).as_ref(), Ok(payload));
        }
    }
}
