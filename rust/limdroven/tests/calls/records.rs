//! The bone, morph and model records of a generated section, each known from its description.

use generate::section::{Bone, Model, Morph, Record};
use limdroven::*;

use crate::described::{assert_base, bits, i32_at, written};

pub fn assert_bone(section: &[u8], start: usize, include_index: bool, number: usize, record: &Record<Bone>) {
    let found = bone_keyframe(section, start, include_index, number).expect("a record");
    let payload = written(&record.payload);
    assert_base!(found, record, include_index, section, payload);
    assert_eq!(bits(found.translation), record.payload.translation);
    assert_eq!(bits(found.orientation), record.payload.orientation);
    assert_eq!([found.physics_disabled, found.selected], record.payload.flags.map(|flag| flag != 0));
    assert_eq!(bone_payload(section, start, include_index, number), Ok(payload));
    let curves = bone_interpolation(section, start, include_index, number).expect("a record");
    assert_eq!(curves.as_flattened(), record.payload.interpolation);
}

pub fn assert_morph(section: &[u8], start: usize, include_index: bool, number: usize, record: &Record<Morph>) {
    let found = morph_keyframe(section, start, include_index, number).expect("a record");
    let payload = written(&record.payload);
    assert_base!(found, record, include_index, section, payload);
    assert_eq!(found.weight.to_bits(), record.payload.weight);
    assert_eq!(found.selected, record.payload.selected != 0);
    assert_eq!(morph_payload(section, start, include_index, number), Ok(payload));
}

pub fn assert_model_record(
    section: &[u8],
    start: usize,
    include_index: bool,
    number: usize,
    model: &Model,
    record: &Record<Vec<u8>>,
) {
    let (constraints, parents) = (model.constraint_bones.len(), model.outside_parents.len());
    let found = model_keyframe(section, start, include_index, number).expect("a record");
    let payload = &record.payload;
    assert_base!(found, record, include_index, section, *payload);
    assert_eq!(found.visible, payload[0] != 0);
    assert_eq!(found.self_shadow_enabled, payload[payload.len() - 1] != 0);
    assert_eq!(found.visible_offset, found.payload_offset);
    assert_eq!((found.constraint_state_count, found.constraint_states_byte_length), (constraints, constraints));
    assert_eq!(found.constraint_states_offset, found.payload_offset + 1);
    assert_eq!((found.outside_parent_index_count, found.outside_parent_indices_byte_length), (parents, 8 * parents));
    assert_eq!(found.outside_parent_indices_offset, found.payload_offset + 1 + constraints);
    assert_eq!(found.self_shadow_enabled_offset, found.payload_offset + payload.len() - 1);
    for entry in 0..constraints {
        let state = model_keyframe_constraint_state(section, start, include_index, number, entry);
        assert_eq!(state, Ok(payload[1 + entry] != 0));
    }
    for entry in 0..parents {
        let at = 1 + constraints + 8 * entry;
        let pair = PmmDocumentOutsideParentIndexSummary {
            parent_model_index: i32_at(payload, at),
            parent_model_bone_index: i32_at(payload, at + 4),
        };
        assert_eq!(model_keyframe_outside_parent(section, start, include_index, number, entry), Ok(pair));
    }
    assert_eq!(model_payload(section, start, include_index, number).as_ref(), Ok(payload));
}
