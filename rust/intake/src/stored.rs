//! The keys of a stored strip, as the library reads them.

use limdroven::{Kind, Refusal, StripRow, model_summary};

use crate::project;

/// The keys of each track, of which there is none without keys.
pub fn tracks(keys: &[StripRow]) -> impl Iterator<Item = &[StripRow]> {
    keys.chunk_by(|one, next| one.track == next.track)
}

/// How many tracks of this kind there are.
pub fn count(keys: &[StripRow], kind: Kind) -> usize {
    tracks(keys).filter(|track| track[0].track.kind() == kind).count()
}

/// The refusal in words, with a hint where the bytes are no strip but what one is made from.
pub fn words(bytes: &[u8], refusal: Refusal) -> String {
    let hint = if project::told(bytes).is_some() {
        " (this looks like a project, not a strip)"
    } else if model_summary(bytes, 0).is_ok() {
        " (this looks like a section, not a strip)"
    } else {
        ""
    };
    format!("{refusal}{hint}")
}
