//! Generated model sections, whose every answer is known from their description. This and the camera and light sections
//! hold the structs' order of fields against the header's.

use generate::prng::Prng;
use generate::section::Model;
use generate::sound::{self, Sizes};
use generate::values;
use limdroven::*;

use crate::described::{bits, floats_at, i32_at, numbered};
use crate::records::{assert_bone, assert_model_record, assert_morph};

fn assert_states(section: &[u8], start: usize, model: &Model) {
    let (bones, morphs) = (model.bone_names.len(), model.morph_names.len());
    let mut rest = &model.states[..];
    let mut take = |length| rest.split_off(..length).expect("as long as described");
    for number in 0..bones {
        let (found, bytes) = (bone_state(section, start, number).expect("a state"), take(31));
        assert_eq!(bits(found.translation), floats_at(bytes, 0));
        assert_eq!(bits(found.orientation), floats_at(bytes, 12));
        let flags = [found.dirty, found.physics_disabled, found.selected];
        assert_eq!(flags, [28, 29, 30].map(|at| bytes[at] != 0));
    }
    for number in 0..morphs {
        let found = morph_state(section, start, number).expect("a state");
        assert_eq!([found.weight.to_bits()], floats_at(take(4), 0));
    }
    for number in 0..model.constraint_bones.len() {
        assert_eq!(constraint_state(section, start, number).expect("a state").enabled, take(1)[0] != 0);
    }
    for number in 0..model.outside_parents.len() {
        let (found, bytes) = (outside_parent_state(section, start, number).expect("a state"), take(16));
        let found = [
            found.parent_model_index,
            found.parent_model_bone_index,
            found.subject_bone_index,
            found.target_model_index,
        ];
        assert_eq!(found, [0, 4, 8, 12].map(|at| i32_at(bytes, at)));
    }
}

fn assert_texts(section: &[u8], start: usize, model: &Model) {
    let assert_text = |span: Result<Span, Refusal>, text: Result<Vec<u8>, Refusal>, expected: &[u8]| {
        let Span { offset, length } = span.expect("a text");
        assert_eq!(section[offset..][..length], *expected);
        assert_eq!(text.expect("a text"), expected);
    };
    let path_end = model.path.iter().position(|byte| *byte == 0).unwrap_or(256);
    assert_text(name_span(section, start), name(section, start), &model.name);
    assert_text(english_name_span(section, start), english_name(section, start), &model.english_name);
    assert_text(path_span(section, start), path(section, start), &model.path[..path_end]);
    for (number, expected) in model.bone_names.iter().enumerate() {
        assert_text(bone_name_span(section, start, number), bone_name(section, start, number), expected);
    }
    for (number, expected) in model.morph_names.iter().enumerate() {
        assert_text(morph_name_span(section, start, number), morph_name(section, start, number), expected);
    }
}

fn assert_summary(section: &[u8], start: usize, end: usize, counts: &[(&str, usize)], model: &Model) {
    let found = model_summary(section, start).expect("read");
    let place = |name: &str| start + counts.iter().find(|(count, _)| *count == name).expect("a count").1;
    let (bones, morphs, models) = (&model.bones, &model.morphs, &model.models);
    let (constraints, parents) = (model.constraint_bones.len(), model.outside_parents.len());
    assert_eq!((found.offset, found.offset_end), (start, end));
    assert_eq!(found.path_offset, start + 3 + model.name.len() + model.english_name.len());
    assert_eq!((found.bone_count, found.morph_count), (bones.initial.len(), morphs.initial.len()));
    assert_eq!((found.constraint_bone_count, found.outside_parent_subject_bone_count), (constraints, parents));
    let numbers = [found.document_model_index, found.draw_order_index, found.transform_order_index];
    assert_eq!(numbers, [model.number, model.display[0], model.ending[6]]);
    assert_eq!(found.selected_bone_index, i32_at(&model.display, 2));
    assert_eq!(found.selected_morph_indices, [6, 10, 14, 18].map(|at| i32_at(&model.display, at)));
    assert_eq!((found.vertical_scroll, found.last_frame_index), (i32_at(&model.scroll, 0), i32_at(&model.scroll, 4)));
    assert_eq!((found.initial_bone_keyframes, found.bone_keyframes), (bones.initial.len(), bones.additional.len()));
    assert_eq!((found.initial_morph_keyframes, found.morph_keyframes), (morphs.initial.len(), morphs.additional.len()));
    assert_eq!((found.initial_model_keyframes, found.model_keyframes), (1, models.additional.len()));
    let flags = [found.visible, found.blend_enabled, found.self_shadow_enabled];
    assert_eq!(flags, [model.display[1], model.ending[0], model.ending[5]].map(|flag| flag != 0));
    assert_eq!([found.edge_width.to_bits()], floats_at(&model.ending, 1));

    let at = found.sections;
    let bone_count = place("additional bone count");
    let morph_count = place("additional morph count");
    let model_count = place("additional model count");
    assert_eq!(at.initial_bone_keyframes_offset, bone_count - 58 * bones.initial.len());
    assert_eq!((at.bone_keyframe_count_offset, at.bone_keyframes_offset), (bone_count, bone_count + 4));
    assert_eq!(at.bone_keyframes_end_offset, bone_count + 4 + 62 * bones.additional.len());
    assert_eq!(at.initial_morph_keyframes_offset, at.bone_keyframes_end_offset);
    assert_eq!((at.morph_keyframe_count_offset, at.morph_keyframes_offset), (morph_count, morph_count + 4));
    assert_eq!(at.morph_keyframes_end_offset, morph_count + 4 + 21 * morphs.additional.len());
    assert_eq!(at.initial_model_keyframe_offset, at.morph_keyframes_end_offset);
    assert_eq!((at.model_keyframe_count_offset, at.model_keyframes_offset), (model_count, model_count + 4));
    let record = 18 + constraints + 8 * parents;
    assert_eq!(at.model_keyframes_end_offset, model_count + 4 + record * models.additional.len());
    assert_eq!(at.bone_states_offset, at.model_keyframes_end_offset);
    assert_eq!(at.morph_states_offset, at.bone_states_offset + 31 * bones.initial.len());
    assert_eq!(at.constraint_states_offset, at.morph_states_offset + 4 * morphs.initial.len());
    assert_eq!(at.outside_parent_states_offset, at.constraint_states_offset + constraints);
}

#[test]
fn models() {
    for number in 0..300 {
        let prng = &Prng::new(11, 0, number);
        let model = sound::model(prng, Sizes::any(prng), values::name);
        let written = model.write();
        let start = number as usize % 7;
        let section = &[vec![0xff; start], written.bytes.clone(), vec![0xff; 5]].concat();
        assert_summary(section, start, start + written.bytes.len(), &written.counts, &model);
        assert_texts(section, start, &model);
        assert_states(section, start, &model);
        for (include_index, number, record) in numbered(&model.bones) {
            assert_bone(section, start, include_index, number, record);
        }
        for (include_index, number, record) in numbered(&model.morphs) {
            assert_morph(section, start, include_index, number, record);
        }
        for (include_index, number, record) in numbered(&model.models) {
            assert_model_record(section, start, include_index, number, &model, record);
        }
        assert_strip(section, start, &model);
    }
}

/// A sound section is accepted; what `strip` allocates gives what longer slices give.
fn assert_strip(section: &[u8], start: usize, model: &Model) {
    let need = model.bones.additional.len() + model.morphs.additional.len();
    let built = strip(section, start).expect("built");
    assert_eq!(built.reached + built.loose, need);
    assert_eq!((built.positions.len(), built.tracks.len()), (need, need));
    assert_eq!(built.tracks.iter().filter(|track| **track == 0).count(), built.loose);
    let counts = [model.bones.initial.len(), model.morphs.initial.len()].map(|count| (count as u16).to_le_bytes());
    assert_eq!(built.bytes[..4], *counts.as_flattened());
    let bones = model.bones.additional.iter().map(|record| record.index).collect::<Vec<_>>();
    let morphs = model.morphs.additional.iter().map(|record| record.index).collect::<Vec<_>>();
    let (bone_positions, morph_positions) = built.positions.split_at(bones.len());
    assert!(bone_positions.is_sorted_by_key(|position| bones[usize::from(*position)]));
    assert!(morph_positions.is_sorted_by_key(|position| morphs[usize::from(*position)]));

    let (mut first, mut second) = (vec![7; need + 1], vec![7; need + 1]);
    let mut output = vec![7; built.bytes.len() + 1];
    let answer = strip_into(section, start, &mut first, &mut second, &mut output).expect("built");
    assert_eq!(answer, Built { length: built.bytes.len(), reached: built.reached, loose: built.loose });
    assert_eq!(first, [&built.positions[..], &[7]].concat());
    assert_eq!(second, [&built.tracks[..], &[7]].concat());
    assert_eq!(output, [&built.bytes[..], &[7]].concat());
}
