//! What the Rust answers, as flat data that another reader's answers can be held against.

pub mod assets;
pub mod clip;
pub mod flat;
pub mod model;
pub mod refusal;
pub mod strip;
pub mod track;
pub mod walk;

pub use clip::{BoneKey, Clip, MorphKey, build};
pub use flat::Flat;
pub use mmd_anim_format::sjis::oracle_name as name_as_shown;
pub use model::{Model, Record};
pub use refusal::{Kind, Refusal};
pub use strip::Strip;
pub use track::Track;
pub use walk::{Walked, would_reserve_too_much};

/// A start as the Rust takes it; one that no `usize` holds is past every end.
fn place(start: u64) -> usize {
    usize::try_from(start).unwrap_or(usize::MAX)
}
