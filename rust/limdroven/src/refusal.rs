//! Why a call gives no result: document 01, "Turned down, and by whose doing"; from 21 on document 02.

use std::fmt;

use crate::numbers::Numbers;

/// Bones and morphs have tracks of their own.
#[derive(Debug, Clone, Copy, PartialEq, Eq, Hash)]
pub enum Kind {
    Bone,
    Morph,
}

impl fmt::Display for Kind {
    fn fmt(&self, formatter: &mut fmt::Formatter<'_>) -> fmt::Result {
        formatter.write_str(match self {
            Self::Bone => "bone",
            Self::Morph => "morph",
        })
    }
}

impl Numbers for Kind {
    const COUNT: usize = 1;

    fn read(numbers: &mut impl Iterator<Item = u64>) -> Self {
        if bool::read(numbers) { Self::Morph } else { Self::Bone }
    }
}

/// The refusals with their numbers and values, fields in the order in which the library writes them.
macro_rules! refusals {
    ($($(#[$about:meta])* $number:literal $name:ident $({ $($field:ident: $type:ty),* })?)*) => {
        /// A refusal of the library. Offsets count from the start of the lent bytes.
        #[derive(Debug, Clone, Copy, PartialEq, Eq, Hash)]
        pub enum Refusal { $($(#[$about])* $name $({ $($field: $type),* })?,)* }

        impl Refusal {
            /// Document 01's number, or document 02's.
            pub fn number(&self) -> u8 {
                match self { $(Self::$name { .. } => $number,)* }
            }

            /// Every value under its name but the kind.
            pub fn values(&self) -> Vec<(&'static str, i128)> {
                match *self {
                    $(Self::$name $({ $($field),* })? => {
                        let values: &[(&'static str, Option<i128>)] = &[$($((stringify!($field), $field.value())),*)?];
                        values.iter().filter_map(|(name, value)| Some((*name, (*value)?))).collect()
                    })*
                }
            }

            /// Whose refusal it is, where it says so. 12 and 13 are met by bones alone, 14 by morphs alone.
            pub fn kind(&self) -> Option<Kind> {
                match *self {
                    $(Self::$name $({ $($field),* })? => {
                        let kinds: &[Option<Kind>] = &[$($($field.kind()),*)?];
                        kinds.iter().copied().flatten().next()
                    })*
                }
            }

            /// From what the library returned, which is not 0, and the values it wrote.
            pub(crate) fn read(number: u32, values: &mut impl Iterator<Item = u64>) -> Self {
                match number {
                    $($number => Self::$name $({ $($field: <$type>::read(values)),* })?,)*
                    _ => unreachable!("no call of the library returns {number}"),
                }
            }
        }
    };
}

refusals! {
    /// A value does not fit in the bytes left, or the start is past their end.
    1 TooShort { offset: usize }
    /// A count is negative.
    2 NegativeCount { offset: usize }
    /// An additional record's index is negative.
    3 NegativeIndex { kind: Kind, index: i32 }
    /// An additional record's index is below the number of tracks of its kind.
    4 IndexBelowCount { kind: Kind, index: i32, count: usize }
    /// Two additional records of a kind have the same index.
    5 RepeatedIndex { kind: Kind, index: i32 }
    /// No additional record of the kind has the index that a link names.
    6 MissingLink { kind: Kind, track: usize, link: i32 }
    /// A chain comes back to a record of its own.
    7 Cycle { kind: Kind, track: usize, link: i32 }
    /// A record's previous link is not the one it was reached from.
    8 WrongPrevious { kind: Kind, track: usize, link: i32, found: i32, expected: i32 }
    /// A key's frame is negative.
    10 NegativeFrame { kind: Kind, track: usize, frame: i32 }
    /// Two keys of a track have the same frame.
    11 RepeatedFrame { kind: Kind, track: usize, frame: i32 }
    /// A bone's translation is not finite.
    12 InvalidTranslation { track: usize, frame: i32 }
    /// A bone's orientation is not finite or too short.
    13 InvalidOrientation { track: usize, frame: i32 }
    /// A morph's weight is not finite.
    14 InvalidWeight { track: usize, frame: i32 }
    /// Records that no chain reaches have a nonzero link.
    15 Disconnected { kind: Kind, count: usize }
    /// More bytes than [`MOST_BYTES`](crate::MOST_BYTES) are lent with a section, as a path, as a list of references or as a
    /// strip to be read.
    16 TooLong
    /// A work slice has too few places.
    17 WorkTooShort { need: usize }
    /// The output is shorter than the strip.
    18 OutputTooShort { need: usize }
    /// There is no record, name, state, entry, track or key of that number.
    19 Absent
    /// A count is above its limit.
    20 CountAboveLimit { offset: usize }
    /// A list of references ends inside an entry.
    21 ListCutOff
    /// A byte above 127 stands in the path, or in the text of a reference of any kind.
    22 NotAscii
    /// A strip ends early, or bytes are left over behind its last track.
    23 StripNotWhole
    /// A bone's map byte in a strip is above 15, or a morph's above 1.
    24 UnknownMap
    /// A strip has what the strip call never writes: a field that is plain, a curve byte above 127, a float that is not
    /// finite, an orientation that is too short, a frame above 2,147,483,647 or repeated in its track, a track without keys,
    /// or more than 65,534 keys of one kind besides each track's first.
    25 NeverWritten
}

impl Refusal {
    /// The same refusal where the lent bytes stand `by` bytes behind the start of a larger whole.
    pub fn moved(mut self, by: usize) -> Self {
        if let Self::TooShort { offset } | Self::NegativeCount { offset } | Self::CountAboveLimit { offset } = &mut self
        {
            *offset = offset.saturating_add(by);
        }
        self
    }
}

/// The number, and what was met where.
impl fmt::Display for Refusal {
    fn fmt(&self, formatter: &mut fmt::Formatter<'_>) -> fmt::Result {
        write!(formatter, "refused {}: ", self.number())?;
        match self {
            Self::TooShort { offset } => {
                write!(formatter, "the bytes end before the value at offset {offset} is whole")
            }
            Self::NegativeCount { offset } => write!(formatter, "the count at offset {offset} is negative"),
            Self::NegativeIndex { kind, index } => {
                write!(formatter, "an additional {kind} record has the negative index {index}")
            }
            Self::IndexBelowCount { kind, index, count } => {
                write!(
                    formatter,
                    "an additional {kind} record has the index {index}, below the number of {kind}s, {count}"
                )
            }
            Self::RepeatedIndex { kind, index } => {
                write!(formatter, "two additional {kind} records have the index {index}")
            }
            Self::MissingLink { kind, track, link } => {
                write!(
                    formatter,
                    "the chain of {kind} track {track} has the link {link}, which is the index of no additional record"
                )
            }
            Self::Cycle { kind, track, link } => {
                write!(formatter, "the chain of {kind} track {track} comes back to its record of index {link}")
            }
            Self::WrongPrevious { kind, track, link, found, expected } => write!(
                formatter,
                "in the chain of {kind} track {track} the record of index {link} has the previous link {found}, \
                 not {expected}"
            ),
            Self::NegativeFrame { kind, track, frame } => {
                write!(formatter, "{kind} track {track} has a key of the negative frame {frame}")
            }
            Self::RepeatedFrame { kind, track, frame } => {
                write!(formatter, "{kind} track {track} has two keys of frame {frame}")
            }
            Self::InvalidTranslation { track, frame } => {
                write!(formatter, "the translation of bone track {track} at frame {frame} is not finite")
            }
            Self::InvalidOrientation { track, frame } => {
                write!(formatter, "the orientation of bone track {track} at frame {frame} is not finite or too short")
            }
            Self::InvalidWeight { track, frame } => {
                write!(formatter, "the weight of morph track {track} at frame {frame} is not finite")
            }
            Self::Disconnected { kind, count } => {
                write!(formatter, "no chain reaches {count} additional {kind} record(s) that have a nonzero link")
            }
            Self::TooLong => write!(formatter, "more than {} bytes", crate::MOST_BYTES),
            Self::WorkTooShort { need } => write!(formatter, "a work slice has fewer than the {need} places needed"),
            Self::OutputTooShort { need } => write!(formatter, "the output is shorter than the strip's {need} bytes"),
            Self::Absent => write!(formatter, "there is no record, name, state, entry, track or key of that number"),
            Self::CountAboveLimit { offset } => write!(formatter, "the count at offset {offset} is above its limit"),
            Self::ListCutOff => write!(formatter, "the list of references ends inside an entry"),
            Self::NotAscii => write!(formatter, "a byte above 127 stands in the path or in a reference of the list"),
            Self::StripNotWhole => {
                write!(formatter, "the strip ends early, or bytes are left over behind its last track")
            }
            Self::UnknownMap => write!(formatter, "a bone's map byte is above 15, or a morph's above 1"),
            Self::NeverWritten => write!(
                formatter,
                "the strip has what the strip call never writes: a plain field, a curve byte above 127, a float that is not \
                 finite, an orientation that is too short, a frame above 2147483647 or repeated in its track, a track \
                 without keys, or more than 65534 keys of one kind besides each track's first"
            ),
        }
    }
}

impl std::error::Error for Refusal {}

/// What a field of a refusal is: its kind or a value.
trait Field: Copy {
    fn kind(self) -> Option<Kind> {
        None
    }

    fn value(self) -> Option<i128> {
        None
    }
}

impl Field for Kind {
    fn kind(self) -> Option<Kind> {
        Some(self)
    }
}

impl Field for usize {
    fn value(self) -> Option<i128> {
        Some(self as i128)
    }
}

impl Field for i32 {
    fn value(self) -> Option<i128> {
        Some(self.into())
    }
}
