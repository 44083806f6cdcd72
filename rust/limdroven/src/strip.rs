//! The strip call, and the strip with its slices allocated.

use crate::numbers::{answered, answers};
use crate::raw;
use crate::refusal::Refusal;
use crate::summary::model_summary;

answers! {
    /// What the strip call answers of a section that it accepts.
    pub struct Built {
        /// The strip's length in bytes.
        length: usize,
        /// Links followed.
        reached: usize,
        /// Additional records that no chain reaches, both links 0.
        loose: usize,
    }
}

/// The strip call itself. With A additional bones and B additional morphs, `first` and `second` need A + B places each.
/// Accepted: the strip stands in `output` up to the length answered, `first` and `second` are as [`Strip::positions`] and
/// [`Strip::tracks`]. Refused: `output` is as it was, and the needed places of `first` and `second` are 0 after 3 to 15 and
/// 18, else as they were. Later places of every slice stay as they were.
pub fn strip_into(
    section: &[u8],
    start: usize,
    first: &mut [u16],
    second: &mut [u16],
    output: &mut [u8],
) -> Result<Built, Refusal> {
    answered(|values| raw::strip(section, start, first, second, output, values))
}

/// A strip, and what is told of the section it was made from.
#[derive(Debug, Clone, PartialEq, Eq)]
pub struct Strip {
    pub bytes: Vec<u8>,
    /// Links followed.
    pub reached: usize,
    /// Additional records that no chain reaches, both links 0.
    pub loose: usize,
    /// The additional records' positions by rising index: bones, then morphs, each from 0.
    pub positions: Vec<u16>,
    /// For each additional bone, then each additional morph, in file order: its track number plus 1, or 0 if it is loose.
    pub tracks: Vec<u16>,
}

/// The strip of the model section at `start`, with work slices and output of the sizes needed: one call reads the summary,
/// one builds.
pub fn strip(section: &[u8], start: usize) -> Result<Strip, Refusal> {
    let summary = model_summary(section, start)?;
    let need = summary.bone_keyframes + summary.morph_keyframes;
    let (mut positions, mut tracks) = (vec![0; need], vec![0; need]);
    // A key has at most 49 bytes of a bone record's 58 or more, or 9 of a morph record's 17; a track's count has 2 and
    // both counts of the strip 4. So no strip is longer than its section.
    let mut bytes = vec![0; summary.offset_end - summary.offset];
    let built = strip_into(section, start, &mut positions, &mut tracks, &mut bytes)?;
    bytes.truncate(built.length);
    bytes.shrink_to_fit();
    Ok(Strip { bytes, reached: built.reached, loose: built.loose, positions, tracks })
}
