//! Stands in for `mmd_anim_runtime`: plain data that gives back, in order, the keys that the builder hands over.

use std::fmt;

use glam::{Quat, Vec3A};

#[derive(Debug, Clone, Copy, PartialEq, Eq)]
pub struct BoneIndex(pub u32);

#[derive(Debug, Clone, Copy, PartialEq, Eq)]
pub struct MorphIndex(pub u32);

#[derive(Debug, Clone, Copy, PartialEq, Eq)]
pub struct InterpolationScalar {
    pub x1: u8,
    pub y1: u8,
    pub x2: u8,
    pub y2: u8,
}

#[derive(Debug, Clone, Copy, PartialEq, Eq)]
pub struct InterpolationVector3 {
    pub x: InterpolationScalar,
    pub y: InterpolationScalar,
    pub z: InterpolationScalar,
}

#[derive(Debug, Clone, Copy, PartialEq)]
pub struct MovableBoneKeyframe {
    pub frame: u32,
    pub position: Vec3A,
    pub rotation: Quat,
    pub position_interpolation: InterpolationVector3,
    pub rotation_interpolation: InterpolationScalar,
}

#[derive(Debug, Clone, Copy, PartialEq)]
pub struct MorphKeyframe {
    pub frame: u32,
    pub weight: f32,
}

impl MorphKeyframe {
    pub fn new(frame: u32, weight: f32) -> Self {
        Self { frame, weight }
    }
}

#[derive(Debug, Clone, PartialEq)]
pub struct MovableBoneTrack {
    pub keyframes: Vec<MovableBoneKeyframe>,
}

impl MovableBoneTrack {
    pub fn from_keyframes(keyframes: Vec<MovableBoneKeyframe>) -> Self {
        Self { keyframes }
    }
}

#[derive(Debug, Clone, PartialEq)]
pub struct MorphTrack {
    pub keyframes: Vec<MorphKeyframe>,
}

impl MorphTrack {
    pub fn from_keyframes(keyframes: Vec<MorphKeyframe>) -> Self {
        Self { keyframes }
    }
}

#[derive(Debug, Clone, PartialEq)]
pub struct BoneAnimationBinding {
    pub bone: BoneIndex,
    pub track: MovableBoneTrack,
}

#[derive(Debug, Clone, PartialEq)]
pub struct MorphAnimationBinding {
    pub morph: MorphIndex,
    pub track: MorphTrack,
}

#[derive(Debug, Clone, PartialEq)]
pub struct AnimationClip {
    pub bone_tracks: Vec<BoneAnimationBinding>,
    pub morph_tracks: Vec<MorphAnimationBinding>,
}

impl AnimationClip {
    /// The builder never has property keys to give.
    pub fn new_full(
        bone_tracks: Vec<BoneAnimationBinding>,
        morph_tracks: Vec<MorphAnimationBinding>,
        _property_track: Option<()>,
    ) -> Self {
        Self { bone_tracks, morph_tracks }
    }
}

#[derive(Debug, PartialEq)]
pub struct ModelBuildError;

#[derive(Debug, PartialEq)]
pub struct RuntimeModelDescriptorError;

impl fmt::Display for ModelBuildError {
    fn fmt(&self, formatter: &mut fmt::Formatter<'_>) -> fmt::Result {
        formatter.write_str("ModelBuildError")
    }
}

impl fmt::Display for RuntimeModelDescriptorError {
    fn fmt(&self, formatter: &mut fmt::Formatter<'_>) -> fmt::Result {
        formatter.write_str("RuntimeModelDescriptorError")
    }
}
