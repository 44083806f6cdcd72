//! Model sections: all of `PmmDocumentModelSummary` but the slot and the asset reference.

use mmd_anim_format::pmm::{
    PmmDocumentBoneKeyframeSummary, PmmDocumentBoneStateSummary, PmmDocumentConstraintStateSummary,
    PmmDocumentModelKeyframeSummary, PmmDocumentModelSections, PmmDocumentModelSummary,
    PmmDocumentMorphKeyframeSummary, PmmDocumentMorphStateSummary, PmmDocumentOutsideParentStateSummary, oracle_model,
};
use mmd_anim_format::sjis::oracle_bytes;

use crate::flat;
use crate::flat::Flat;

/// Lists under the Rust's names. Names are as the Rust shows them, without their last zero bytes
/// (`name_as_shown` does this to a reader's raw bytes); the path ends before its first zero byte.
#[derive(Debug, Clone, PartialEq)]
pub struct Model {
    pub scalars: Flat,
    pub sections: Flat,
    pub name: Vec<u8>,
    pub english_name: Vec<u8>,
    pub path: Vec<u8>,
    pub bone_names: Vec<Vec<u8>>,
    pub morph_names: Vec<Vec<u8>>,
    pub initial_bone_keyframe_summaries: Vec<Record>,
    pub bone_keyframe_summaries: Vec<Record>,
    pub initial_morph_keyframe_summaries: Vec<Record>,
    pub morph_keyframe_summaries: Vec<Record>,
    pub initial_model_keyframe: Record,
    pub model_keyframe_summaries: Vec<Record>,
    pub bone_state_summaries: Vec<Flat>,
    pub morph_state_summaries: Vec<Flat>,
    pub constraint_state_summaries: Vec<Flat>,
    pub outside_parent_state_summaries: Vec<Flat>,
}

/// A record of any kind. Only model records have bools and pairs (their 32-bit patterns).
#[derive(Debug, Clone, Default, PartialEq)]
pub struct Record {
    pub scalars: Flat,
    pub payload_bytes: Vec<u8>,
    pub constraint_states: Vec<bool>,
    pub outside_parent_indices: Vec<[u32; 2]>,
}

/// The Rust's own answer, which `model` flattens and the builder takes.
pub fn summary(section: &[u8], start: u64) -> Option<PmmDocumentModelSummary> {
    oracle_model(section, crate::place(start))
}

pub fn model(s: &PmmDocumentModelSummary) -> Model {
    let all = |names: &[String]| names.iter().map(|name| oracle_bytes(name)).collect();
    Model {
        scalars: scalars(s),
        sections: sections(&s.sections),
        name: oracle_bytes(&s.name),
        english_name: oracle_bytes(&s.english_name),
        path: oracle_bytes(&s.path),
        bone_names: all(&s.bone_names),
        morph_names: all(&s.morph_names),
        initial_bone_keyframe_summaries: each(&s.initial_bone_keyframe_summaries, bone),
        bone_keyframe_summaries: each(&s.bone_keyframe_summaries, bone),
        initial_morph_keyframe_summaries: each(&s.initial_morph_keyframe_summaries, morph),
        morph_keyframe_summaries: each(&s.morph_keyframe_summaries, morph),
        initial_model_keyframe: model_record(&s.initial_model_keyframe),
        model_keyframe_summaries: each(&s.model_keyframe_summaries, model_record),
        bone_state_summaries: each(&s.bone_state_summaries, bone_state),
        morph_state_summaries: each(&s.morph_state_summaries, morph_state),
        constraint_state_summaries: each(&s.constraint_state_summaries, constraint_state),
        outside_parent_state_summaries: each(&s.outside_parent_state_summaries, parent_state),
    }
}

fn each<S, T>(list: &[S], flatten: fn(&S) -> T) -> Vec<T> {
    list.iter().map(flatten).collect()
}

fn scalars(s: &PmmDocumentModelSummary) -> Flat {
    flat! {
        s => PmmDocumentModelSummary;
        document_model_index, offset, offset_end, path_offset, bone_count, morph_count, constraint_bone_count,
        outside_parent_subject_bone_count, draw_order_index, transform_order_index, selected_bone_index,
        selected_morph_indices, vertical_scroll, initial_bone_keyframes, bone_keyframes, initial_morph_keyframes,
        morph_keyframes, initial_model_keyframes, model_keyframes, last_frame_index, visible, blend_enabled, edge_width,
        self_shadow_enabled;
        elsewhere slot_index, asset_reference_index, name, english_name, path, bone_names, morph_names, sections,
        initial_bone_keyframe_summaries, bone_keyframe_summaries, initial_morph_keyframe_summaries,
        morph_keyframe_summaries, initial_model_keyframe, model_keyframe_summaries, bone_state_summaries,
        morph_state_summaries, constraint_state_summaries, outside_parent_state_summaries
    }
}

fn sections(s: &PmmDocumentModelSections) -> Flat {
    flat! {
        s => PmmDocumentModelSections;
        initial_bone_keyframes_offset, bone_keyframe_count_offset, bone_keyframes_offset, bone_keyframes_end_offset,
        initial_morph_keyframes_offset, morph_keyframe_count_offset, morph_keyframes_offset, morph_keyframes_end_offset,
        initial_model_keyframe_offset, model_keyframe_count_offset, model_keyframes_offset, model_keyframes_end_offset,
        bone_states_offset, morph_states_offset, constraint_states_offset, outside_parent_states_offset;
        elsewhere
    }
}

fn bone(s: &PmmDocumentBoneKeyframeSummary) -> Record {
    let scalars = flat! {
        s => PmmDocumentBoneKeyframeSummary;
        index, frame_index, previous_keyframe_index, next_keyframe_index, interpolation, translation, orientation,
        physics_disabled, selected, offset, byte_length, payload_offset, payload_byte_length;
        elsewhere payload_bytes
    };
    Record { scalars, payload_bytes: s.payload_bytes.clone(), ..Record::default() }
}

fn morph(s: &PmmDocumentMorphKeyframeSummary) -> Record {
    let scalars = flat! {
        s => PmmDocumentMorphKeyframeSummary;
        index, frame_index, previous_keyframe_index, next_keyframe_index, weight, selected, offset, byte_length,
        payload_offset, payload_byte_length;
        elsewhere payload_bytes
    };
    Record { scalars, payload_bytes: s.payload_bytes.clone(), ..Record::default() }
}

fn model_record(s: &PmmDocumentModelKeyframeSummary) -> Record {
    let scalars = flat! {
        s => PmmDocumentModelKeyframeSummary;
        index, frame_index, previous_keyframe_index, next_keyframe_index, visible, self_shadow_enabled, visible_offset,
        constraint_state_count, constraint_states_offset, constraint_states_byte_length, outside_parent_index_count,
        outside_parent_indices_offset, outside_parent_indices_byte_length, self_shadow_enabled_offset, offset,
        byte_length, payload_offset, payload_byte_length;
        elsewhere constraint_states, outside_parent_indices, payload_bytes
    };
    let pairs = s.outside_parent_indices.iter();
    Record {
        scalars,
        payload_bytes: s.payload_bytes.clone(),
        constraint_states: s.constraint_states.clone(),
        outside_parent_indices: pairs
            .map(|pair| [pair.parent_model_index, pair.parent_model_bone_index].map(i32::cast_unsigned))
            .collect(),
    }
}

fn bone_state(s: &PmmDocumentBoneStateSummary) -> Flat {
    flat! {
        s => PmmDocumentBoneStateSummary;
        translation, orientation, dirty, physics_disabled, selected;
        elsewhere
    }
}

fn morph_state(s: &PmmDocumentMorphStateSummary) -> Flat {
    flat! {
        s => PmmDocumentMorphStateSummary;
        weight;
        elsewhere
    }
}

fn constraint_state(s: &PmmDocumentConstraintStateSummary) -> Flat {
    flat! {
        s => PmmDocumentConstraintStateSummary;
        enabled;
        elsewhere
    }
}

fn parent_state(s: &PmmDocumentOutsideParentStateSummary) -> Flat {
    flat! {
        s => PmmDocumentOutsideParentStateSummary;
        parent_model_index, parent_model_bone_index, subject_bone_index, target_model_index;
        elsewhere
    }
}
