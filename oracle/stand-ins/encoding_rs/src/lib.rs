//! Stands in for `encoding_rs`: a Shift-JIS that loses nothing, each byte being the character of its own number, so that
//! names can be compared byte for byte.

use std::borrow::Cow;

pub struct Encoding;

pub static SHIFT_JIS: &Encoding = &Encoding;

impl Encoding {
    pub fn decode<'a>(&'static self, bytes: &'a [u8]) -> (Cow<'a, str>, &'static Encoding, bool) {
        let text = bytes.iter().map(|byte| char::from(*byte)).collect();
        (Cow::Owned(text), self, false)
    }

    /// Characters above 255 come from no decoded bytes; they become question marks.
    pub fn encode<'a>(&'static self, text: &'a str) -> (Cow<'a, [u8]>, &'static Encoding, bool) {
        let bytes = text.chars().map(|c| u8::try_from(c).unwrap_or(b'?'));
        (Cow::Owned(bytes.collect()), self, false)
    }
}
