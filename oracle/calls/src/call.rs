//! The calls of the static library `exports`, in the order of the numbers that replayed vectors give them.

use std::ops::Range;

macro_rules! calls {
    ($($call:ident $name:literal $form:ident),* $(,)?) => {
        #[derive(Debug, Clone, Copy, PartialEq, Eq, PartialOrd, Ord, Hash)]
        pub enum Call { $($call),* }

        /// By number.
        pub const CALLS: [Call; 31] = [$(Call::$call),*];

        impl Call {
            pub fn name(self) -> &'static str {
                match self { $(Self::$call => concat!("limdroven_", $name)),* }
            }

            pub fn form(self) -> Form {
                match self { $(Self::$call => Form::$form),* }
            }
        }
    };
}

/// Which arguments a call takes behind section and start.
#[derive(Debug, Clone, Copy, PartialEq, Eq)]
pub enum Form {
    Whole,
    Numbered,
    /// `include_index` and a number.
    Listed,
    /// These and an entry of the record.
    Entry,
}

calls! {
    ModelSummary "model_summary" Whole,
    BoneKeyframe "bone_keyframe" Listed,
    MorphKeyframe "morph_keyframe" Listed,
    ModelKeyframe "model_keyframe" Listed,
    ModelKeyframeConstraintState "model_keyframe_constraint_state" Entry,
    ModelKeyframeOutsideParent "model_keyframe_outside_parent" Entry,
    BoneState "bone_state" Numbered,
    MorphState "morph_state" Numbered,
    ConstraintState "constraint_state" Numbered,
    OutsideParentState "outside_parent_state" Numbered,
    NameSpan "name_span" Whole,
    EnglishNameSpan "english_name_span" Whole,
    PathSpan "path_span" Whole,
    BoneNameSpan "bone_name_span" Numbered,
    MorphNameSpan "morph_name_span" Numbered,
    CameraSummary "camera_summary" Whole,
    LightSummary "light_summary" Whole,
    CameraKeyframe "camera_keyframe" Listed,
    LightKeyframe "light_keyframe" Listed,
    Name "name" Whole,
    EnglishName "english_name" Whole,
    Path "path" Whole,
    BoneName "bone_name" Numbered,
    MorphName "morph_name" Numbered,
    BonePayload "bone_payload" Listed,
    MorphPayload "morph_payload" Listed,
    ModelPayload "model_payload" Listed,
    CameraPayload "camera_payload" Listed,
    LightPayload "light_payload" Listed,
    CameraInterpolation "camera_interpolation" Listed,
    BoneInterpolation "bone_interpolation" Listed,
}

/// What a call does not take is 0 or false.
#[derive(Debug, Clone, Copy, Default, PartialEq, Eq, Hash)]
pub struct Arguments {
    pub include_index: bool,
    pub number: u64,
    pub entry: u64,
}

impl Call {
    /// Whether it answers bytes, and not numbers.
    pub fn answers_bytes(self) -> bool {
        self >= Self::Name
    }

    /// The calls for camera sections and for light sections; all others are for model sections.
    pub fn of_camera(self) -> bool {
        matches!(self, Self::CameraSummary | Self::CameraKeyframe | Self::CameraPayload | Self::CameraInterpolation)
    }

    pub fn of_light(self) -> bool {
        matches!(self, Self::LightSummary | Self::LightKeyframe | Self::LightPayload)
    }

    /// Which of the numbers it answers are the bits of floats.
    pub fn floats(self) -> Range<usize> {
        match self {
            Self::ModelSummary => 25..26,
            Self::BoneKeyframe | Self::CameraKeyframe => 4..11,
            Self::MorphKeyframe => 4..5,
            Self::LightKeyframe => 4..10,
            Self::BoneState => 0..7,
            Self::MorphState => 0..1,
            _ => 0..0,
        }
    }
}

#[cfg(test)]
mod tests {
    use super::*;

    /// The numbers that `crates/replay` knows the calls by.
    #[test]
    fn calls_by_number() {
        assert!(CALLS.iter().zip(0..).all(|(call, number)| *call as u8 == number));
        assert_eq!(CALLS.iter().position(|call| call.answers_bytes()), Some(19));
        assert_eq!(CALLS[30], Call::BoneInterpolation);
    }
}
