//! The summary of a model section.

use crate::numbers::{answers, calls};

answers! {
    /// Everything in a model section's summary but the lists.
    pub struct PmmDocumentModelSummary {
        document_model_index: u8,
        offset: usize,
        offset_end: usize,
        path_offset: usize,
        bone_count: usize,
        morph_count: usize,
        constraint_bone_count: usize,
        outside_parent_subject_bone_count: usize,
        draw_order_index: u8,
        transform_order_index: u8,
        selected_bone_index: i32,
        selected_morph_indices: [i32; 4],
        vertical_scroll: i32,
        initial_bone_keyframes: usize,
        bone_keyframes: usize,
        initial_morph_keyframes: usize,
        morph_keyframes: usize,
        initial_model_keyframes: usize,
        model_keyframes: usize,
        last_frame_index: i32,
        visible: bool,
        blend_enabled: bool,
        edge_width: f32,
        self_shadow_enabled: bool,
        sections: PmmDocumentModelSections,
    }

    /// Where the parts of a model section stand.
    pub struct PmmDocumentModelSections {
        initial_bone_keyframes_offset: usize,
        bone_keyframe_count_offset: usize,
        bone_keyframes_offset: usize,
        bone_keyframes_end_offset: usize,
        initial_morph_keyframes_offset: usize,
        morph_keyframe_count_offset: usize,
        morph_keyframes_offset: usize,
        morph_keyframes_end_offset: usize,
        initial_model_keyframe_offset: usize,
        model_keyframe_count_offset: usize,
        model_keyframes_offset: usize,
        model_keyframes_end_offset: usize,
        bone_states_offset: usize,
        morph_states_offset: usize,
        constraint_states_offset: usize,
        outside_parent_states_offset: usize,
    }
}

calls! {
    /// The Rust's `read_document_model_summary`.
    model_summary() -> PmmDocumentModelSummary;
}
