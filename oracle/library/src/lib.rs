//! The proved library, called as C calls it. A slice is a pointer and a length.

use calls::{Arguments, Call, Other, Slices, StripReads};
use limdroven::raw;
pub use limdroven::raw::asset_reference_index_for_path;

/// Every answer is the library's; only the slices are this crate's.
pub struct Library;

impl Other for Library {
    fn numbers(&self, call: Call, section: &[u8], start: u64, arguments: Arguments, values: &mut [u64]) -> u32 {
        let start = place(start);
        let Arguments { include_index, number, entry } = arguments;
        let (number, entry) = (place(number), place(entry));
        match call {
            Call::ModelSummary => raw::model_summary(section, start, values),
            Call::BoneKeyframe => raw::bone_keyframe(section, start, include_index, number, values),
            Call::MorphKeyframe => raw::morph_keyframe(section, start, include_index, number, values),
            Call::ModelKeyframe => raw::model_keyframe(section, start, include_index, number, values),
            Call::ModelKeyframeConstraintState => {
                raw::model_keyframe_constraint_state(section, start, include_index, number, entry, values)
            }
            Call::ModelKeyframeOutsideParent => {
                raw::model_keyframe_outside_parent(section, start, include_index, number, entry, values)
            }
            Call::BoneState => raw::bone_state(section, start, number, values),
            Call::MorphState => raw::morph_state(section, start, number, values),
            Call::ConstraintState => raw::constraint_state(section, start, number, values),
            Call::OutsideParentState => raw::outside_parent_state(section, start, number, values),
            Call::NameSpan => raw::name_span(section, start, values),
            Call::EnglishNameSpan => raw::english_name_span(section, start, values),
            Call::PathSpan => raw::path_span(section, start, values),
            Call::BoneNameSpan => raw::bone_name_span(section, start, number, values),
            Call::MorphNameSpan => raw::morph_name_span(section, start, number, values),
            Call::CameraSummary => raw::camera_summary(section, start, values),
            Call::LightSummary => raw::light_summary(section, start, values),
            Call::CameraKeyframe => raw::camera_keyframe(section, start, include_index, number, values),
            Call::LightKeyframe => raw::light_keyframe(section, start, include_index, number, values),
            _ => unreachable!("{} answers bytes", call.name()),
        }
    }

    fn bytes(&self, call: Call, section: &[u8], start: u64, arguments: Arguments, output: &mut [u8]) -> u64 {
        let start = place(start);
        let Arguments { include_index, number, .. } = arguments;
        let number = place(number);
        let length = match call {
            Call::Name => raw::name(section, start, output),
            Call::EnglishName => raw::english_name(section, start, output),
            Call::Path => raw::path(section, start, output),
            Call::BoneName => raw::bone_name(section, start, number, output),
            Call::MorphName => raw::morph_name(section, start, number, output),
            Call::BonePayload => raw::bone_payload(section, start, include_index, number, output),
            Call::MorphPayload => raw::morph_payload(section, start, include_index, number, output),
            Call::ModelPayload => raw::model_payload(section, start, include_index, number, output),
            Call::CameraPayload => raw::camera_payload(section, start, include_index, number, output),
            Call::LightPayload => raw::light_payload(section, start, include_index, number, output),
            Call::CameraInterpolation => raw::camera_interpolation(section, start, include_index, number, output),
            Call::BoneInterpolation => raw::bone_interpolation(section, start, include_index, number, output),
            _ => unreachable!("{} answers numbers", call.name()),
        };
        length as u64
    }

    fn strip(&self, section: &[u8], start: u64, slices: &mut Slices) -> u32 {
        let Slices { first, second, output, values } = slices;
        raw::strip(section, place(start), first, second, output, values)
    }
}

impl StripReads for Library {
    fn counts(&self, strip: &[u8], values: &mut [u64]) -> u32 {
        raw::strip_counts(strip, values)
    }

    fn key_count(&self, strip: &[u8], kind: u32, track: u32, values: &mut [u64]) -> u32 {
        raw::strip_key_count(strip, kind, track, values)
    }

    fn key(&self, strip: &[u8], kind: u32, track: u32, place: usize, values: &mut [u64]) -> u32 {
        raw::strip_key(strip, kind, track, place, values)
    }

    fn keys(&self, strip: &[u8], first: usize, rows: &mut [u32], values: &mut [u64]) -> u32 {
        raw::strip_keys(strip, first, rows, values)
    }
}

/// Every u64 is a usize where the library runs.
fn place(number: u64) -> usize {
    usize::try_from(number).expect("64 bits")
}
