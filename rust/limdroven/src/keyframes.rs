//! Bone, morph and model records by number. `include_index` chooses the list: additional records include an index, initial
//! ones do not. Bytes that the Rust keeps in a record's summary have calls of their own.

use crate::numbers::{answers, calls, parts};
use crate::raw;
use crate::refusal::Refusal;

answers! {
    /// A bone record; its interpolation and payload are [`bone_interpolation`] and [`bone_payload`].
    pub struct PmmDocumentBoneKeyframeSummary {
        index: Option<i32>,
        frame_index: i32,
        previous_keyframe_index: i32,
        next_keyframe_index: i32,
        translation: [f32; 3],
        orientation: [f32; 4],
        physics_disabled: bool,
        selected: bool,
        offset: usize,
        byte_length: usize,
        payload_offset: usize,
        payload_byte_length: usize,
    }

    /// A morph record; its payload is [`morph_payload`].
    pub struct PmmDocumentMorphKeyframeSummary {
        index: Option<i32>,
        frame_index: i32,
        previous_keyframe_index: i32,
        next_keyframe_index: i32,
        weight: f32,
        selected: bool,
        offset: usize,
        byte_length: usize,
        payload_offset: usize,
        payload_byte_length: usize,
    }

    /// A model record; its bools, pairs and payload are [`model_keyframe_constraint_state`],
    /// [`model_keyframe_outside_parent`] and [`model_payload`].
    pub struct PmmDocumentModelKeyframeSummary {
        index: Option<i32>,
        frame_index: i32,
        previous_keyframe_index: i32,
        next_keyframe_index: i32,
        visible: bool,
        self_shadow_enabled: bool,
        visible_offset: usize,
        constraint_state_count: usize,
        constraint_states_offset: usize,
        constraint_states_byte_length: usize,
        outside_parent_index_count: usize,
        outside_parent_indices_offset: usize,
        outside_parent_indices_byte_length: usize,
        self_shadow_enabled_offset: usize,
        offset: usize,
        byte_length: usize,
        payload_offset: usize,
        payload_byte_length: usize,
    }

    pub struct PmmDocumentOutsideParentIndexSummary {
        parent_model_index: i32,
        parent_model_bone_index: i32,
    }
}

calls! {
    bone_keyframe(include_index: bool, number: usize) -> PmmDocumentBoneKeyframeSummary;
    morph_keyframe(include_index: bool, number: usize) -> PmmDocumentMorphKeyframeSummary;
    model_keyframe(include_index: bool, number: usize) -> PmmDocumentModelKeyframeSummary;
    /// Bool `entry` of model record `number`.
    model_keyframe_constraint_state(include_index: bool, number: usize, entry: usize) -> bool;
    /// Pair `entry` of model record `number`.
    model_keyframe_outside_parent(include_index: bool, number: usize, entry: usize) -> PmmDocumentOutsideParentIndexSummary;
}

parts! {
    /// What follows the base of a bone record.
    bone_payload(include_index: bool, number: usize) of bone_keyframe, payload_byte_length;
    morph_payload(include_index: bool, number: usize) of morph_keyframe, payload_byte_length;
    model_payload(include_index: bool, number: usize) of model_keyframe, payload_byte_length;
}

/// The curves of x, y, z and rotation, bytes above 127 as they are.
pub fn bone_interpolation(
    section: &[u8],
    start: usize,
    include_index: bool,
    number: usize,
) -> Result<[[u8; 4]; 4], Refusal> {
    let mut curves = [[0; 4]; 4];
    if raw::bone_interpolation(section, start, include_index, number, curves.as_flattened_mut()) == 0 {
        bone_keyframe(section, start, include_index, number)?;
    }
    Ok(curves)
}
