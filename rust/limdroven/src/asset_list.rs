//! A model's path looked up among the asset references of a project: document 02, T-01.

use std::fmt;

use crate::numbers::answered;
use crate::raw;
use crate::refusal::Refusal;

/// The kind byte of a model. References of every other kind are counted and passed over.
pub const MODEL: u8 = 1;

/// The number, from 0, of the first model in the list whose path is this one once normalised, upper and lower case being
/// alike; `None` if there is none. The Rust's `asset_reference_index_for_path` for models.
///
/// Normalised means: each backslash is made a slash; then, in one pass, each `//` is made `/`; then the path is cut to start
/// at its last `userfile/`, in any letter case, that opens it or follows a slash. The list's paths are taken to be normalised
/// already. The path is lent whole: a zero byte does not end it.
///
/// ```
/// use limdroven::{AssetList, MODEL, asset_reference_index_for_path};
///
/// let list = AssetList::of([(3, "UserFile/Wave/song.wav"), (MODEL, "UserFile/Model/a.pmx")])?;
/// let found = |path: &str| asset_reference_index_for_path(path.as_bytes(), list.as_bytes());
/// assert_eq!(found("C:\\MMD\\userfile\\\\model\\A.pmx")?, Some(1));
/// assert_eq!(found("UserFile\\Wave\\song.wav")?, None);
/// # Ok::<(), Box<dyn std::error::Error>>(())
/// ```
///
/// Refused with 16, 21 and 22, in this order, each asked of the whole path and the whole list.
pub fn asset_reference_index_for_path(path: &[u8], list: &[u8]) -> Result<Option<usize>, Refusal> {
    answered(|values| raw::asset_reference_index_for_path(path, list, values))
}

/// A list of references as the library takes it: one behind the other, each its kind, its path's length as a u16 and its
/// path. References are numbered from 0 in the order in which they are pushed.
#[derive(Debug, Clone, Default, PartialEq, Eq)]
pub struct AssetList {
    bytes: Vec<u8>,
}

impl AssetList {
    /// With no references.
    pub fn new() -> Self {
        Self::default()
    }

    /// Of these references, each a kind and a path that is normalised.
    pub fn of<P: AsRef<[u8]>>(references: impl IntoIterator<Item = (u8, P)>) -> Result<Self, PathTooLong> {
        let mut list = Self::new();
        references.into_iter().try_for_each(|(kind, path)| list.push(kind, path.as_ref()))?;
        Ok(list)
    }

    /// Adds a reference, whose path is normalised. A path that is too long leaves the list as it was.
    pub fn push(&mut self, kind: u8, path: &[u8]) -> Result<(), PathTooLong> {
        let length = u16::try_from(path.len()).map_err(|_| PathTooLong { length: path.len() })?;
        self.bytes.push(kind);
        self.bytes.extend(length.to_le_bytes());
        self.bytes.extend(path);
        Ok(())
    }

    pub fn as_bytes(&self) -> &[u8] {
        &self.bytes
    }
}

/// A path that is longer than a u16 can say.
#[derive(Debug, Clone, Copy, PartialEq, Eq, Hash)]
pub struct PathTooLong {
    pub length: usize,
}

impl fmt::Display for PathTooLong {
    fn fmt(&self, formatter: &mut fmt::Formatter<'_>) -> fmt::Result {
        write!(formatter, "a path in a list of references has at most {} bytes, not {}", u16::MAX, self.length)
    }
}

impl std::error::Error for PathTooLong {}
