//! Camera and light sections: all of `PmmDocumentTrackSummary`.

use mmd_anim_format::pmm::{PmmDocumentKeyframeSummary, PmmDocumentTrackSummary, oracle_camera, oracle_light};

use crate::flat;
use crate::flat::Flat;
use crate::model::Record;

#[derive(Debug, Clone, PartialEq)]
pub struct Track {
    pub scalars: Flat,
    pub initial_keyframe: Record,
    pub keyframe_summaries: Vec<Record>,
}

pub fn camera(section: &[u8], start: u64) -> Option<Track> {
    oracle_camera(section, crate::place(start)).map(|s| track(&s, camera_record))
}

pub fn light(section: &[u8], start: u64) -> Option<Track> {
    oracle_light(section, crate::place(start)).map(|s| track(&s, light_record))
}

fn track(s: &PmmDocumentTrackSummary, record: fn(&PmmDocumentKeyframeSummary) -> Record) -> Track {
    let scalars = flat! {
        s => PmmDocumentTrackSummary;
        offset, offset_end, initial_keyframes, keyframes, keyframe_count_offset, keyframes_offset, keyframes_end_offset,
        state_offset, state_end_offset;
        elsewhere initial_keyframe, keyframe_summaries
    };
    Track {
        scalars,
        initial_keyframe: s.initial_keyframe.as_ref().map(record).expect("always read"),
        keyframe_summaries: s.keyframe_summaries.iter().map(record).collect(),
    }
}

fn camera_record(s: &PmmDocumentKeyframeSummary) -> Record {
    let scalars = flat! {
        s => PmmDocumentKeyframeSummary::Camera;
        index, frame_index, previous_keyframe_index, next_keyframe_index, distance, look_at, angle, parent_model_index,
        parent_model_bone_index, interpolation, perspective_view, fov, selected, distance_offset, look_at_offset,
        look_at_byte_length, angle_offset, angle_byte_length, parent_model_index_offset, parent_model_bone_index_offset,
        interpolation_offset, interpolation_byte_length, perspective_view_offset, fov_offset, selected_offset, offset,
        byte_length, payload_offset, payload_byte_length;
        elsewhere payload_bytes
    };
    Record { scalars, payload_bytes: payload(s), ..Record::default() }
}

fn light_record(s: &PmmDocumentKeyframeSummary) -> Record {
    let scalars = flat! {
        s => PmmDocumentKeyframeSummary::Light;
        index, frame_index, previous_keyframe_index, next_keyframe_index, color, direction, selected, color_offset,
        color_byte_length, direction_offset, direction_byte_length, selected_offset, offset, byte_length,
        payload_offset, payload_byte_length;
        elsewhere payload_bytes
    };
    Record { scalars, payload_bytes: payload(s), ..Record::default() }
}

fn payload(s: &PmmDocumentKeyframeSummary) -> Vec<u8> {
    match s {
        PmmDocumentKeyframeSummary::Camera { payload_bytes, .. }
        | PmmDocumentKeyframeSummary::Light { payload_bytes, .. } => payload_bytes.clone(),
        _ => unreachable!("a record of another kind"),
    }
}
