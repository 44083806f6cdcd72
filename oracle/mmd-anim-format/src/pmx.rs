//! Stands in for `crate::pmx`: what the scene export looks at. Nothing here is compared.

pub struct PmxParsedModel {
    pub metadata: PmxParsedMetadata,
    pub skeleton: PmxParsedSkeleton,
    pub morphs: Vec<PmxParsedMorph>,
    pub display_frames: Vec<()>,
}

pub struct PmxParsedMetadata {
    pub name: String,
    pub english_name: String,
}

pub struct PmxParsedSkeleton {
    pub bones: Vec<PmxParsedBone>,
}

pub struct PmxParsedBone {
    pub name: String,
    pub flags: PmxParsedBoneFlags,
}

pub struct PmxParsedBoneFlags {
    pub ik: bool,
    pub visible: bool,
    pub translatable: bool,
}

pub struct PmxParsedMorph {
    pub name: String,
}
