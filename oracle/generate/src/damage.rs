//! Small sections cut short, damaged or started elsewhere.

use crate::prng::Prng;
use crate::section::Written;
use crate::sound::{self, Sizes};
use crate::{Case, Kind, lent};

/// So many turns in a row go through one small section; none is as long.
const SPAN: u64 = 1024;

/// The small section of a number: half of them are model sections.
fn small(seed: u64, number: u64) -> (Kind, Written) {
    let prng = &Prng::new(seed, u64::MAX, number);
    let few = prng.below(3);
    match number % 4 {
        0 => (Kind::Camera, sound::camera(prng, few).write()),
        1 => (Kind::Light, sound::light(prng, few).write()),
        _ => {
            let sizes = Sizes::small(prng);
            let short_name = |prng: &Prng| {
                let length = prng.below(4);
                prng.bytes(length)
            };
            (Kind::Model, sound::model(prng, sizes, short_name).write())
        }
    }
}

/// Each truncation of a small section in turn.
pub fn truncated(_: &Prng, seed: u64, turn: u64) -> Case {
    let (kind, Written { mut bytes, .. }) = small(seed, turn / SPAN);
    let whole = bytes.len();
    bytes.truncate((turn % SPAN) as usize % (whole + 1));
    let label = format!("{} bytes of {whole}", bytes.len());
    Case { kind, label, section: bytes, start: 0 }
}

/// Each byte of a small section in turn.
pub fn damaged(prng: &Prng, seed: u64, turn: u64) -> Case {
    let (kind, Written { mut bytes, .. }) = small(seed, turn / SPAN);
    let place = (turn % SPAN) as usize % bytes.len();
    let old = bytes[place];
    let any_other = old.wrapping_add(1 + prng.below(255) as u8);
    bytes[place] = prng.pick(&[!old, old ^ 1, old ^ 128, old.wrapping_add(1), any_other]);
    let label = format!("byte {place} {} instead of {old}", bytes[place]);
    lent(prng, kind, label, bytes)
}

/// A count that is negative, huge, at or above a limit, or off by a little.
pub fn miscounted(prng: &Prng, seed: u64, turn: u64) -> Case {
    let (kind, Written { mut bytes, counts }) = small(seed, turn);
    let (name, place) = prng.pick(&counts);
    let field: &mut [u8; 4] = (&mut bytes[place..place + 4]).try_into().expect("four bytes");
    let old = i32::from_le_bytes(*field);
    let limits = [65_534, 65_535, 65_536, 65_537];
    let count = match prng.below(4) {
        0 => prng.pick(&[-1, i32::MIN, prng.i32() | i32::MIN]),
        1 => prng.pick(&[i32::MAX, 1 << 30, (1 << 30) + 1, 1 << 24, prng.i32() & i32::MAX]),
        2 => prng.pick(&limits),
        _ => prng.pick(&[old + 1, old - 1, old + 2, 1000]),
    };
    *field = count.to_le_bytes();
    lent(prng, kind, format!("{name} {count} instead of {old}"), bytes)
}

/// A start that is not the section's: near it, inside it, at the end, behind it, or one that only looks like it.
pub fn misplaced(prng: &Prng, seed: u64, turn: u64) -> Case {
    let (kind, Written { bytes, .. }) = small(seed, turn);
    let mut case = lent(prng, kind, String::new(), bytes);
    let (own, end) = (case.start, case.section.len() as u64);
    let inside = prng.below(case.section.len()) as u64;
    let starts = [own + 1, own.saturating_sub(1), inside, end - 1, end, end + 1, end + 1000];
    let far = [(1 << 32) + own, (1 << 31) + own, (1 << 63) + own, u64::MAX, u64::MAX - 3];
    case.start = if prng.one_in(3) { prng.pick(&far) } else { prng.pick(&starts) };
    case.label = format!("start {} instead of {own}, {end} bytes", case.start);
    case
}

/// Zeros with some other bytes among them, or any bytes.
pub fn noise(prng: &Prng, _: u64, _: u64) -> Case {
    let kind = prng.pick(&[Kind::Model, Kind::Model, Kind::Camera, Kind::Light]);
    let length = prng.below(900);
    let mut bytes = vec![0; length];
    match prng.below(4) {
        0 => bytes = prng.bytes(length),
        _ => (0..prng.below(8)).for_each(|_| {
            let place = prng.below(length + 1);
            bytes.get_mut(place).into_iter().for_each(|byte| *byte = prng.pick(&[1, 1, 2, 255, 128]));
        }),
    }
    lent(prng, kind, format!("{length} bytes of noise"), bytes)
}
