//! The builder: the keys of each track as the Rust gives them, or its refusal.

use mmd_anim_format::pmm::{PmmDocumentModelSummary, build_pmm_document_model_clip};
use mmd_anim_runtime::{InterpolationScalar, MorphKeyframe, MovableBoneKeyframe};

use crate::refusal::{Refusal, from_message};

/// Floats are kept as their bits.
#[derive(Debug, Clone, PartialEq, Eq)]
pub struct BoneKey {
    pub frame: u32,
    pub translation: [u32; 3],
    pub orientation: [u32; 4],
    /// x, y, z, rotation, no byte above 127.
    pub curves: [[u8; 4]; 4],
}

#[derive(Debug, Clone, PartialEq, Eq)]
pub struct MorphKey {
    pub frame: u32,
    pub weight: u32,
}

/// The keys of each track, in chain order.
#[derive(Debug, Clone, PartialEq, Eq)]
pub struct Clip {
    pub bones: Vec<Vec<BoneKey>>,
    pub morphs: Vec<Vec<MorphKey>>,
}

pub fn build(summary: &PmmDocumentModelSummary) -> Result<Clip, Refusal> {
    let clip = build_pmm_document_model_clip(summary).map_err(|refused| from_message(&refused.to_string()))?;
    let bones = clip.bone_tracks.iter().enumerate().map(|(number, binding)| {
        assert_eq!(binding.bone.0 as usize, number);
        binding.track.keyframes.iter().map(bone_key).collect()
    });
    let morphs = clip.morph_tracks.iter().enumerate().map(|(number, binding)| {
        assert_eq!(binding.morph.0 as usize, number);
        binding.track.keyframes.iter().map(morph_key).collect()
    });
    Ok(Clip { bones: bones.collect(), morphs: morphs.collect() })
}

fn bone_key(key: &MovableBoneKeyframe) -> BoneKey {
    let curve = |c: InterpolationScalar| [c.x1, c.y1, c.x2, c.y2];
    let position = key.position_interpolation;
    BoneKey {
        frame: key.frame,
        translation: key.position.to_array().map(f32::to_bits),
        orientation: key.rotation.to_array().map(f32::to_bits),
        curves: [position.x, position.y, position.z, key.rotation_interpolation].map(curve),
    }
}

fn morph_key(key: &MorphKeyframe) -> MorphKey {
    MorphKey { frame: key.frame, weight: key.weight.to_bits() }
}
