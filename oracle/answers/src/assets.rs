//! The reference number of a path in a list of all references: the crate `assets` after document 02, and the Rust's own.

use mmd_anim_format::pmm::{PmmAssetReference, oracle_asset_reference_index, oracle_normalize_path, oracle_reference};

pub use ::assets::{LENGTH_LIMIT, MODEL, Reference, normalised, references, slashes};

use crate::refusal::Refusal;

/// The number of the first model entry equal to the normalised path, or 16, 21 or 22, which have no values.
pub fn answer(path: &[u8], list: &[u8]) -> Result<Option<usize>, Refusal> {
    ::assets::answer(path, list).map_err(|number| Refusal { number, kind: None, values: Vec::new() })
}

/// The Rust's references of an ASCII list.
pub fn rust_references(references: &[Reference]) -> Vec<PmmAssetReference> {
    let each = |reference: &Reference| oracle_reference(rust_kind(reference.kind), ascii(reference.text));
    references.iter().map(each).collect()
}

/// The Rust's answer for an ASCII path.
pub fn rust_answer(path: &[u8], references: &[PmmAssetReference]) -> Option<usize> {
    oracle_asset_reference_index(references, rust_kind(MODEL), ascii(path))
}

/// The Rust's normalised path of an ASCII path.
pub fn rust_normalised(path: &[u8]) -> Vec<u8> {
    oracle_normalize_path(ascii(path)).into_bytes()
}

fn ascii(text: &[u8]) -> &str {
    str::from_utf8(text).expect("ASCII")
}

/// A kind of the Rust's: of its other kinds, any for the other bytes.
fn rust_kind(kind: u8) -> &'static str {
    const OTHERS: [&str; 6] = ["accessory", "motion", "audio", "image", "video", "unknown"];
    if kind == MODEL { "model" } else { OTHERS[usize::from(kind) % OTHERS.len()] }
}
