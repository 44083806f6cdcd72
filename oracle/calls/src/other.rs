//! The place of another implementation.

use crate::call::{Arguments, Call};
use crate::strip::Slices;

/// Answers to be held against the Rust's. What is written and returned is the library's own: nothing is worked out here.
pub trait Other {
    /// The number returned: 0 or a refusal's.
    fn numbers(&self, call: Call, section: &[u8], start: u64, arguments: Arguments, values: &mut [u64]) -> u32;

    /// The length returned.
    fn bytes(&self, call: Call, section: &[u8], start: u64, arguments: Arguments, output: &mut [u8]) -> u64;

    /// The strip call: the number returned, 0 or a refusal's.
    fn strip(&self, section: &[u8], start: u64, slices: &mut Slices) -> u32;
}
