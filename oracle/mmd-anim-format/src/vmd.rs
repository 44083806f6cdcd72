//! Stands in for `crate::vmd`: what the scene export looks at. Nothing here is compared.

pub struct VmdParsedAnimation {
    pub bone_frames: Vec<VmdParsedBoneFrame>,
    pub morph_frames: Vec<VmdParsedMorphFrame>,
}

pub struct VmdParsedBoneFrame {
    pub bone_name: String,
    pub frame: u32,
    pub translation: [f32; 3],
    pub rotation: [f32; 4],
    pub interpolation: Vec<u8>,
}

pub struct VmdParsedMorphFrame {
    pub morph_name: String,
    pub frame: u32,
    pub weight: f32,
}
