//! The library's calls, and what the Rust's answers ask of each.

pub mod call;
pub mod checks;
pub mod lists;
pub mod other;
pub mod strip;
pub mod strip_reads;

pub use call::{Arguments, Call};
pub use checks::{Answer, Check, Read};
pub use other::Other;
pub use strip::Slices;
pub use strip_reads::{ReadBack, StripRead, StripReads};
