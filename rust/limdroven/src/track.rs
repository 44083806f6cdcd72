//! Camera and light sections. The Rust has their records as the cases `Camera` and `Light` of `PmmDocumentKeyframeSummary`;
//! here each is a struct, as in the crate `tracks`. `include_index` chooses the list, as in a model section.

use crate::numbers::{answers, calls, parts};
use crate::raw;
use crate::refusal::Refusal;

answers! {
    /// The summary of a camera or a light section.
    pub struct PmmDocumentTrackSummary {
        offset: usize,
        offset_end: usize,
        initial_keyframes: usize,
        keyframes: usize,
        keyframe_count_offset: usize,
        keyframes_offset: usize,
        keyframes_end_offset: usize,
        state_offset: usize,
        state_end_offset: usize,
    }

    /// A camera record; its interpolation and payload are [`camera_interpolation`] and [`camera_payload`].
    pub struct CameraKeyframeSummary {
        index: Option<i32>,
        frame_index: i32,
        previous_keyframe_index: i32,
        next_keyframe_index: i32,
        distance: f32,
        look_at: [f32; 3],
        angle: [f32; 3],
        parent_model_index: i32,
        parent_model_bone_index: i32,
        /// On when its byte is 0.
        perspective_view: bool,
        fov: i32,
        selected: bool,
        distance_offset: usize,
        look_at_offset: usize,
        look_at_byte_length: usize,
        angle_offset: usize,
        angle_byte_length: usize,
        parent_model_index_offset: usize,
        parent_model_bone_index_offset: usize,
        interpolation_offset: usize,
        interpolation_byte_length: usize,
        perspective_view_offset: usize,
        fov_offset: usize,
        selected_offset: usize,
        offset: usize,
        byte_length: usize,
        payload_offset: usize,
        payload_byte_length: usize,
    }

    /// A light record; its payload is [`light_payload`].
    pub struct LightKeyframeSummary {
        index: Option<i32>,
        frame_index: i32,
        previous_keyframe_index: i32,
        next_keyframe_index: i32,
        color: [f32; 3],
        direction: [f32; 3],
        selected: bool,
        color_offset: usize,
        color_byte_length: usize,
        direction_offset: usize,
        direction_byte_length: usize,
        selected_offset: usize,
        offset: usize,
        byte_length: usize,
        payload_offset: usize,
        payload_byte_length: usize,
    }
}

calls! {
    /// The Rust's `read_document_camera_summary`.
    camera_summary() -> PmmDocumentTrackSummary;
    /// The Rust's `read_document_light_summary`.
    light_summary() -> PmmDocumentTrackSummary;
    camera_keyframe(include_index: bool, number: usize) -> CameraKeyframeSummary;
    light_keyframe(include_index: bool, number: usize) -> LightKeyframeSummary;
}

parts! {
    /// What follows the base of a camera record.
    camera_payload(include_index: bool, number: usize) of camera_keyframe, payload_byte_length;
    light_payload(include_index: bool, number: usize) of light_keyframe, payload_byte_length;
}

/// The 24 bytes of a camera record's interpolation.
pub fn camera_interpolation(
    section: &[u8],
    start: usize,
    include_index: bool,
    number: usize,
) -> Result<[u8; 24], Refusal> {
    camera_keyframe(section, start, include_index, number)?;
    let mut interpolation = [0; 24];
    raw::camera_interpolation(section, start, include_index, number, &mut interpolation);
    Ok(interpolation)
}
