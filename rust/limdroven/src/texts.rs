//! Names and the path: where they stand, and their bytes as they are.

use crate::numbers::{answers, calls, parts};

answers! {
    /// Where a text stands in the lent bytes.
    pub struct Span {
        offset: usize,
        length: usize,
    }
}

calls! {
    name_span() -> Span;
    english_name_span() -> Span;
    path_span() -> Span;
    bone_name_span(number: usize) -> Span;
    morph_name_span(number: usize) -> Span;
}

parts! {
    /// The model's name.
    name() of name_span, length;
    english_name() of english_name_span, length;
    /// The path up to its first zero byte.
    path() of path_span, length;
    bone_name(number: usize) of bone_name_span, length;
    morph_name(number: usize) of morph_name_span, length;
}
