//! What generated sections are described by, and what every kind of record has.

use generate::section::{Payload, Record, Tracks};

pub fn bits<const N: usize>(floats: [f32; N]) -> [u32; N] {
    floats.map(f32::to_bits)
}

pub fn i32_at(bytes: &[u8], at: usize) -> i32 {
    i32::from_le_bytes(bytes[at..at + 4].try_into().expect("4 bytes"))
}

pub fn floats_at<const N: usize>(bytes: &[u8], at: usize) -> [u32; N] {
    std::array::from_fn(|n| i32_at(bytes, at + 4 * n).cast_unsigned())
}

pub fn written(payload: &impl Payload) -> Vec<u8> {
    let mut bytes = Vec::new();
    payload.write(&mut bytes);
    bytes
}

/// Every record with its list and its number.
pub fn numbered<P>(tracks: &Tracks<P>) -> impl Iterator<Item = (bool, usize, &Record<P>)> {
    let list = |include_index, records: &'_ [Record<P>]| (0..records.len()).map(move |number| (include_index, number));
    let both = list(false, &tracks.initial).chain(list(true, &tracks.additional));
    both.map(|(include_index, number)| {
        let records = if include_index { &tracks.additional } else { &tracks.initial };
        (include_index, number, &records[number])
    })
}

/// The fields that every kind of record has.
macro_rules! assert_base {
    ($found:expr, $record:expr, $include_index:expr, $section:expr, $payload:expr) => {{
        let (found, record) = (&$found, $record);
        let base = if $include_index { 16 } else { 12 };
        assert_eq!(found.index, $include_index.then_some(record.index));
        assert_eq!(found.frame_index, record.frame);
        assert_eq!(found.previous_keyframe_index, record.previous);
        assert_eq!(found.next_keyframe_index, record.next);
        assert_eq!(i32_at($section, found.offset + base - 12), record.frame);
        assert_eq!((found.byte_length, found.payload_offset), (base + $payload.len(), found.offset + base));
        assert_eq!(found.payload_byte_length, $payload.len());
        assert_eq!($section[found.payload_offset..][..found.payload_byte_length], $payload);
    }};
}

pub(crate) use assert_base;
