//! The states of bones, morphs, constraints and outside parents by number.

use crate::numbers::{answers, calls};

answers! {
    pub struct PmmDocumentBoneStateSummary {
        translation: [f32; 3],
        orientation: [f32; 4],
        dirty: bool,
        physics_disabled: bool,
        selected: bool,
    }

    pub struct PmmDocumentMorphStateSummary {
        weight: f32,
    }

    pub struct PmmDocumentConstraintStateSummary {
        enabled: bool,
    }

    pub struct PmmDocumentOutsideParentStateSummary {
        parent_model_index: i32,
        parent_model_bone_index: i32,
        subject_bone_index: i32,
        target_model_index: i32,
    }
}

calls! {
    bone_state(number: usize) -> PmmDocumentBoneStateSummary;
    morph_state(number: usize) -> PmmDocumentMorphStateSummary;
    constraint_state(number: usize) -> PmmDocumentConstraintStateSummary;
    outside_parent_state(number: usize) -> PmmDocumentOutsideParentStateSummary;
}
