//! The numbers that a call writes, turned into its answer.

use crate::refusal::Refusal;

/// An answer, read from the numbers of the header in its order.
pub trait Numbers: Sized {
    /// How many numbers it has.
    const COUNT: usize;

    fn read(numbers: &mut impl Iterator<Item = u64>) -> Self;
}

macro_rules! single {
    ($($type:ty: $number:ident => $value:expr;)*) => {$(
        impl Numbers for $type {
            const COUNT: usize = 1;

            fn read(numbers: &mut impl Iterator<Item = u64>) -> Self {
                let $number = numbers.next().expect("COUNT numbers");
                $value
            }
        }
    )*};
}

single! {
    usize: number => number as usize;
    u8: number => number as u8;
    u32: number => number as u32;
    i32: number => number as u32 as i32;
    // The section's own bits, those of a signalling NaN too: nothing is worked out with it.
    f32: number => f32::from_bits(number as u32);
    bool: number => number != 0;
    // An initial record has no index.
    Option<i32>: number => (number != u64::MAX).then_some(number as u32 as i32);
    // No reference may have been found.
    Option<usize>: number => (number != u64::MAX).then_some(number as usize);
}

impl<T: Numbers, const N: usize> Numbers for [T; N] {
    const COUNT: usize = N * T::COUNT;

    fn read(numbers: &mut impl Iterator<Item = u64>) -> Self {
        std::array::from_fn(|_| T::read(numbers))
    }
}

/// Structs whose fields stand in the header's order.
macro_rules! answers {
    ($($(#[$about:meta])* pub struct $name:ident { $($(#[$of:meta])* $field:ident: $type:ty,)* })*) => {$(
        $(#[$about])*
        #[derive(Debug, Clone, Copy, PartialEq)]
        pub struct $name { $($(#[$of])* pub $field: $type,)* }

        impl $crate::numbers::Numbers for $name {
            const COUNT: usize = 0 $(+ <$type as $crate::numbers::Numbers>::COUNT)*;

            fn read(numbers: &mut impl Iterator<Item = u64>) -> Self {
                Self { $($field: $crate::numbers::Numbers::read(numbers),)* }
            }
        }
    )*};
}

/// Calls that answer numbers.
macro_rules! calls {
    ($($(#[$about:meta])* $name:ident($($argument:ident: $type:ty),*) -> $answer:ty;)*) => {$(
        $(#[$about])*
        pub fn $name(section: &[u8], start: usize, $($argument: $type),*) -> Result<$answer, $crate::Refusal> {
            $crate::numbers::answered(|values| $crate::raw::$name(section, start, $($argument,)* values))
        }
    )*};
}

/// Calls that hand back a part of the section; another call with the same arguments gives its length or the refusal.
macro_rules! parts {
    ($($(#[$about:meta])* $name:ident($($argument:ident: $type:ty),*) of $twin:ident, $length:ident;)*) => {$(
        $(#[$about])*
        pub fn $name(section: &[u8], start: usize, $($argument: $type),*) -> Result<Vec<u8>, $crate::Refusal> {
            let length = $twin(section, start, $($argument),*)?.$length;
            Ok($crate::numbers::handed(length, |output| $crate::raw::$name(section, start, $($argument,)* output)))
        }
    )*};
}
pub(crate) use {answers, calls, parts};

/// The most numbers that an answer has: those of a model section's summary.
const MOST: usize = 43;

/// The answer of a call that returns 0 or a refusal's number and writes the numbers of either.
pub fn answered<T: Numbers>(call: impl FnOnce(&mut [u64]) -> u32) -> Result<T, Refusal> {
    const { assert!(T::COUNT <= MOST) };
    let mut values = [0; MOST];
    match call(&mut values) {
        0 => Ok(T::read(&mut values.into_iter())),
        number => Err(Refusal::read(number, &mut values.into_iter())),
    }
}

/// The bytes of a part that has this length.
pub fn handed(length: usize, call: impl FnOnce(&mut [u8]) -> usize) -> Vec<u8> {
    let mut output = vec![0; length];
    assert_eq!(call(&mut output), length, "both calls are about the same part");
    output
}

#[cfg(test)]
mod tests {
    use super::Numbers;
    use crate::*;

    #[test]
    fn bits_of_nans() {
        for bits in [0x7fc0_0000, 0x7fc0_0001, 0x7f80_0001, 0xff80_0001, 0xffff_ffff] {
            assert_eq!(f32::read(&mut [u64::from(bits)].into_iter()).to_bits(), bits);
        }
    }

    /// As the headers count them.
    #[test]
    fn counts() {
        assert_eq!(PmmDocumentModelSummary::COUNT, 43);
        assert_eq!(PmmDocumentBoneKeyframeSummary::COUNT, 17);
        assert_eq!(PmmDocumentMorphKeyframeSummary::COUNT, 10);
        assert_eq!(PmmDocumentModelKeyframeSummary::COUNT, 18);
        assert_eq!(PmmDocumentOutsideParentIndexSummary::COUNT, 2);
        assert_eq!(PmmDocumentBoneStateSummary::COUNT, 10);
        assert_eq!(PmmDocumentOutsideParentStateSummary::COUNT, 4);
        assert_eq!(PmmDocumentTrackSummary::COUNT, 9);
        assert_eq!(CameraKeyframeSummary::COUNT, 32);
        assert_eq!(LightKeyframeSummary::COUNT, 20);
        assert_eq!(Built::COUNT, 3);
        assert_eq!(StripCounts::COUNT, 2);
        assert_eq!(BoneKey::COUNT, 13);
        assert_eq!(StripRow::COUNT, 16);
        assert_eq!(<Option<usize>>::COUNT, 1);
    }
}
