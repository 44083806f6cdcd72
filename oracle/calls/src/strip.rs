//! What the strip call must return and leave in the slices lent to it.

use answers::{Kind, Refusal, Strip};

/// The slices lent to the strip call, before or after it.
#[derive(Debug, Clone, Default, PartialEq, Eq)]
pub struct Slices {
    /// The work slices.
    pub first: Vec<u16>,
    pub second: Vec<u16>,
    pub output: Vec<u8>,
    pub values: Vec<u64>,
}

/// The number that must be returned, and the slices afterwards.
#[derive(Debug, Clone, PartialEq, Eq)]
pub struct Left {
    pub status: u32,
    pub slices: Slices,
}

/// Document 01's order: refusals of reading, 17, refusals of the build, 18. `need` is A + B, which only a section that is
/// read has.
pub fn left(answer: &Result<Strip, Refusal>, need: Option<usize>, before: &Slices) -> Left {
    let mut slices = before.clone();
    let Some(need) = need else {
        return refused(answer.as_ref().expect_err("not read"), slices);
    };
    if before.first.len() < need || before.second.len() < need {
        return short(17, need, slices);
    }
    match answer {
        Ok(strip) if strip.bytes.len() <= before.output.len() => {
            over(&mut slices.first, &strip.positions);
            over(&mut slices.second, &strip.tracks);
            over(&mut slices.output, &strip.bytes);
            over(&mut slices.values, &[strip.bytes.len() as u64, strip.reached, strip.loose]);
            Left { status: 0, slices }
        }
        Ok(strip) => {
            clear(&mut slices, need);
            short(18, strip.bytes.len(), slices)
        }
        Err(refusal) => {
            clear(&mut slices, need);
            refused(refusal, slices)
        }
    }
}

fn clear(slices: &mut Slices, need: usize) {
    slices.first[..need].fill(0);
    slices.second[..need].fill(0);
}

fn short(status: u32, value: usize, mut slices: Slices) -> Left {
    over(&mut slices.values, &[value as u64]);
    Left { status, slices }
}

fn refused(refusal: &Refusal, mut slices: Slices) -> Left {
    let kind = refusal.kind.map(|kind| u64::from(kind == Kind::Morph));
    let values: Vec<u64> = kind.into_iter().chain(refusal.values.iter().map(|value| number(*value))).collect();
    over(&mut slices.values, &values);
    Left { status: u32::from(refusal.number), slices }
}

/// A negative i32 as its 32-bit pattern.
fn number(value: i128) -> u64 {
    if value < 0 {
        u64::from(i32::try_from(value).expect("an i32").cast_unsigned())
    } else {
        u64::try_from(value).expect("a place")
    }
}

/// As far as the slice reaches.
fn over<T: Copy>(slice: &mut [T], front: &[T]) {
    slice.iter_mut().zip(front).for_each(|(place, item)| *place = *item);
}
