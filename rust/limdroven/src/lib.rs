//! The proved readers of PMM sections, the strip call, the reader of stored strips and the look-up of a model's path among
//! asset references, as safe Rust over the static libraries `exports` and `strip_export`. Every section, start, strip, number
//! and slice is taken, and each call gives its answer or a [`Refusal`] of documents 01 and 02.
//!
//! A section is lent as the bytes that hold it and the offset `start` at which it begins; all offsets count from the start
//! of these bytes. Records, states and names are asked for by number, from 0. A float has the section's own bits, also if
//! it is a NaN. Every call reads the section again and keeps nothing.
//!
//! ```
//! let strip = limdroven::strip(&[0; 340], 0)?;
//! assert_eq!(strip.bytes, [0; 4]);
//! let refusal = limdroven::model_summary(&[0; 339], 0).unwrap_err();
//! assert_eq!(refusal.to_string(), "refused 1: the bytes end before the value at offset 339 is whole");
//! # Ok::<(), limdroven::Refusal>(())
//! ```
//!
//! What a stored strip holds is told by [`strip_counts`], [`strip_key_count`] and [`strip_key`], and all its keys at once by
//! [`strip_keys`](strip_keys()).
//!
//! [`asset_reference_index_for_path`] takes no section but a path, such as [`path`] hands back, and a list of references,
//! which [`AssetList`] makes.
//!
//! Outside the proofs: that the numbers which the library writes are read into structs here in the header's order, the
//! slices that are allocated here, and how a list is made from kinds and paths.

#![deny(unsafe_code, missing_debug_implementations)]

mod asset_list;
mod keyframes;
mod numbers;
#[allow(unsafe_code)]
pub mod raw;
mod refusal;
mod states;
mod strip;
mod strip_keys;
mod summary;
mod texts;
mod track;

pub use asset_list::*;
pub use keyframes::*;
pub use refusal::{Kind, Refusal};
pub use states::*;
pub use strip::{Built, Strip, strip, strip_into};
pub use strip_keys::*;
pub use summary::*;
pub use texts::*;
pub use track::*;

/// More bytes than these, lent with a section, as a path, as a list of references or as a strip, are refused with 16.
pub const MOST_BYTES: usize = 16_777_215;
