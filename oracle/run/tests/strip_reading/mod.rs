//! Strips read by places, once more after document 02, T-02; and read wrongly in one thing at a time.

use std::collections::BTreeSet;

#[derive(Debug, Clone, Copy, PartialEq, Eq)]
pub enum Reading {
    Right,
    /// 25 for a frame as soon as it is read, and for a key before its map is looked at.
    FrameBefore24,
    FieldsBefore23,
    RepeatedBefore24,
    /// The sum of bones and morphs together, of all keys, of each track by itself, or met at its kind's end.
    SumOfBothKinds,
    SumOfFirstKeysToo,
    SumOfEachTrack,
    SumAtTheEnd,
    /// Frames of all tracks of a kind, or only of neighbours.
    RepeatedOverTracks,
    RepeatedNextOnly,
    RepeatedAmongFew,
    FallingRefused,
    Bone16Accepted,
    Morph2Accepted,
    MorphAsBone,
    MinusZeroPresentAccepted,
    PlainTranslationAccepted,
    PlainOrientationAccepted,
    PlainPositionAccepted,
    PlainRotationAccepted,
    PlainWeightAccepted,
    EachCurvePlainByItself,
    Curve127Refused,
    Curve128Accepted,
    RotationByteUnasked,
    InfiniteTranslationAccepted,
    NanOrientationAccepted,
    InfiniteWeightAccepted,
    ShortOrientationAccepted,
    LimitAccepted,
    SummedInPairs,
    Frame2To31Accepted,
    Frame2To31Minus1Refused,
    LeftOverAccepted,
    LeftOverBefore25,
    NoKeysAccepted,
    NoKeysAtTheEnd,
    CountBefore23,
    LengthLimitAsWell,
    LengthUnasked,
}

use Reading::*;

pub const WRONG: [Reading; 39] = [
    FrameBefore24,
    FieldsBefore23,
    RepeatedBefore24,
    SumOfBothKinds,
    SumOfFirstKeysToo,
    SumOfEachTrack,
    SumAtTheEnd,
    RepeatedOverTracks,
    RepeatedNextOnly,
    RepeatedAmongFew,
    FallingRefused,
    Bone16Accepted,
    Morph2Accepted,
    MorphAsBone,
    MinusZeroPresentAccepted,
    PlainTranslationAccepted,
    PlainOrientationAccepted,
    PlainPositionAccepted,
    PlainRotationAccepted,
    PlainWeightAccepted,
    EachCurvePlainByItself,
    Curve127Refused,
    Curve128Accepted,
    RotationByteUnasked,
    InfiniteTranslationAccepted,
    NanOrientationAccepted,
    InfiniteWeightAccepted,
    ShortOrientationAccepted,
    LimitAccepted,
    SummedInPairs,
    Frame2To31Accepted,
    Frame2To31Minus1Refused,
    LeftOverAccepted,
    LeftOverBefore25,
    NoKeysAccepted,
    NoKeysAtTheEnd,
    CountBefore23,
    LengthLimitAsWell,
    LengthUnasked,
];

/// Those that only strips at a limit tell.
pub fn of_long_strips(reading: Reading) -> bool {
    use Reading::*;
    matches!(
        reading,
        SumOfBothKinds
            | SumOfFirstKeysToo
            | SumOfEachTrack
            | SumAtTheEnd
            | RepeatedAmongFew
            | LengthLimitAsWell
            | LengthUnasked
    )
}

/// How many keys the strip has, or the refusal's number.
pub fn read(strip: &[u8], reading: Reading) -> Result<usize, u8> {
    let limit = if reading == LengthLimitAsWell { 16_777_214 } else { 16_777_215 };
    if strip.len() > limit && reading != LengthUnasked {
        return Err(16);
    }
    let mut walk = Walk { strip, reading, at: 0, keys: 0, additional: 0, frames: BTreeSet::new(), no_keys: false };
    let counts = [walk.number(2)?, walk.number(2)?];
    for (morph, count) in [false, true].into_iter().zip(counts) {
        if reading != SumOfBothKinds {
            walk.additional = 0;
        }
        walk.frames.clear();
        (0..count).try_for_each(|_| walk.track(morph))?;
        if reading == SumAtTheEnd && walk.additional > 65_534 {
            return Err(25);
        }
    }
    if walk.at < strip.len() && reading != LeftOverAccepted {
        return Err(23);
    }
    if walk.no_keys { Err(25) } else { Ok(walk.keys) }
}

struct Walk<'a> {
    strip: &'a [u8],
    reading: Reading,
    at: usize,
    keys: usize,
    additional: usize,
    frames: BTreeSet<u32>,
    no_keys: bool,
}

impl Walk<'_> {
    fn is(&self, reading: Reading) -> bool {
        self.reading == reading
    }

    fn bytes(&mut self, n: usize) -> Result<&[u8], u8> {
        let bytes = self.strip.get(self.at..self.at + n).ok_or(23)?;
        self.at += n;
        Ok(bytes)
    }

    fn number(&mut self, width: usize) -> Result<u32, u8> {
        Ok(self.bytes(width)?.iter().rev().fold(0, |number, byte| number << 8 | u32::from(*byte)))
    }

    fn track(&mut self, morph: bool) -> Result<(), u8> {
        let keys = self.number(2)? as usize;
        if self.is(CountBefore23) && keys * 5 > self.strip.len() - self.at {
            return Err(23);
        }
        if !self.is(RepeatedOverTracks) {
            self.frames.clear();
        }
        let mut last = None;
        for _ in 0..keys {
            let frame = self.key(morph)?;
            let repeated = match self.reading {
                RepeatedNextOnly => last == Some(frame),
                RepeatedAmongFew => self.frames.contains(&frame) && self.frames.len() <= 2_048,
                FallingRefused => last.is_some_and(|last| last >= frame),
                _ => self.frames.contains(&frame),
            };
            if repeated {
                return Err(25);
            }
            self.frames.insert(frame);
            last = Some(frame);
            self.keys += 1;
        }
        if keys == 0 {
            match self.reading {
                NoKeysAccepted => (),
                NoKeysAtTheEnd => self.no_keys = true,
                _ => return Err(25),
            }
        }
        let first = usize::from(!self.is(SumOfFirstKeysToo));
        self.additional += keys.saturating_sub(first);
        match self.reading {
            SumAtTheEnd => (),
            SumOfEachTrack => self.additional = 0,
            _ if self.additional > 65_534 => return Err(25),
            _ => (),
        }
        Ok(())
    }

    fn key(&mut self, morph: bool) -> Result<u32, u8> {
        let frame = self.number(4)?;
        let high = match self.reading {
            Frame2To31Accepted => frame > 1 << 31,
            Frame2To31Minus1Refused => frame >= i32::MAX as u32,
            _ => frame >> 31 == 1,
        };
        if self.is(FrameBefore24) && high || self.is(RepeatedBefore24) && self.frames.contains(&frame) {
            return Err(25);
        }
        let map = self.number(1)?;
        let most = match self.reading {
            Bone16Accepted if !morph => 16,
            Morph2Accepted if morph => 2,
            MorphAsBone => 15,
            _ if morph => 1,
            _ => 15,
        };
        if map > most {
            return Err(24);
        }
        let groups: &[(usize, Group)] = if morph { &MORPH } else { &BONE };
        let mut refused = high;
        for (bit, (length, group)) in groups.iter().enumerate() {
            if map >> bit & 1 == 1 {
                let reading = self.reading;
                let field = self.bytes(*length)?;
                refused |= group.refused(field, reading);
                if refused && reading == FieldsBefore23 {
                    return Err(25);
                }
            }
        }
        let ends = self.at == self.strip.len();
        match refused {
            true if self.is(LeftOverBefore25) && !ends => Err(23),
            true => Err(25),
            false => Ok(frame),
        }
    }
}

enum Group {
    Translation,
    Orientation,
    Position,
    Rotation,
    Weight,
}

const BONE: [(usize, Group); 4] =
    [(12, Group::Translation), (16, Group::Orientation), (12, Group::Position), (4, Group::Rotation)];
const MORPH: [(usize, Group); 1] = [(4, Group::Weight)];

impl Group {
    fn refused(&self, field: &[u8], reading: Reading) -> bool {
        let words: Vec<u32> =
            field.chunks(4).map(|word| u32::from_le_bytes(word.try_into().expect("four bytes"))).collect();
        let floats: Vec<f32> = words.iter().map(|bits| f32::from_bits(*bits)).collect();
        let curve = |bytes: &[u8]| bytes == [20, 20, 107, 107];
        let (plain, accepted) = match self {
            Self::Translation => (floats == [0.0; 3], PlainTranslationAccepted),
            Self::Orientation => (floats == [0.0, 0.0, 0.0, 1.0], PlainOrientationAccepted),
            Self::Position if reading == EachCurvePlainByItself => (field.chunks(4).any(curve), Right),
            Self::Position => (field.chunks(4).all(curve), PlainPositionAccepted),
            Self::Rotation => (curve(field), PlainRotationAccepted),
            Self::Weight => (floats == [0.0], PlainWeightAccepted),
        };
        let minus = words.contains(&(1 << 31)) && reading == MinusZeroPresentAccepted;
        if plain && accepted != reading && !minus {
            return true;
        }
        match self {
            Self::Position | Self::Rotation => {
                let most = match reading {
                    Curve127Refused => 126,
                    Curve128Accepted => 128,
                    RotationByteUnasked if matches!(self, Self::Rotation) => 255,
                    _ => 127,
                };
                field.iter().any(|byte| *byte > most)
            }
            Self::Orientation => not_finite(&floats, reading, NanOrientationAccepted) || short(&floats, reading),
            Self::Translation => not_finite(&floats, reading, InfiniteTranslationAccepted),
            Self::Weight => not_finite(&floats, reading, InfiniteWeightAccepted),
        }
    }
}

fn not_finite(floats: &[f32], reading: Reading, unasked: Reading) -> bool {
    reading != unasked && floats.iter().any(|float| !float.is_finite())
}

fn short(floats: &[f32], reading: Reading) -> bool {
    let square = |place: usize| floats[place] * floats[place];
    let length = match reading {
        SummedInPairs => (square(0) + square(1)) + (square(2) + square(3)),
        _ => ((square(0) + square(1)) + square(2)) + square(3),
    };
    match reading {
        ShortOrientationAccepted => false,
        LimitAccepted => length < f32::EPSILON,
        _ => length <= f32::EPSILON,
    }
}
