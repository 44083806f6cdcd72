//! Processor time of pieces of work that are done in turns, so that a busy moment of the machine falls on all of them. Time in
//! which other work has the core does not count.

use std::hint::black_box;
use std::time::Instant;

use crate::clock::processor_time;

const MOST_ROUNDS: usize = 11;
const FEWEST_ROUNDS: usize = 3;
/// After so many seconds no further round is begun.
const SECONDS: f64 = 2.0;
/// Work shorter than this many nanoseconds is repeated within one round.
const SHORTEST: f64 = 2e6;

/// The medians of the nanoseconds that one run of each piece of work takes, and the number of rounds.
pub fn medians<const N: usize>(mut work: [&mut dyn FnMut(); N]) -> ([f64; N], usize) {
    let repeats = each(&mut work, |work| {
        work();
        (SHORTEST / nanoseconds(1, work)).ceil().max(1.0) as usize
    });
    let mut rounds: Vec<[f64; N]> = Vec::new();
    let began = Instant::now();
    while rounds.len() < FEWEST_ROUNDS || rounds.len() < MOST_ROUNDS && began.elapsed().as_secs_f64() < SECONDS {
        let mut place = 0;
        rounds.push(each(&mut work, |work| {
            place += 1;
            nanoseconds(repeats[place - 1], work)
        }));
    }
    (std::array::from_fn(|place| median(rounds.iter().map(|round| round[place]).collect())), rounds.len())
}

fn each<T, const N: usize>(work: &mut [&mut dyn FnMut(); N], mut of: impl FnMut(&mut dyn FnMut()) -> T) -> [T; N] {
    std::array::from_fn(|place| of(work[place]))
}

fn nanoseconds(repeats: usize, work: &mut dyn FnMut()) -> f64 {
    let began = processor_time();
    (0..repeats).for_each(|_| work());
    (processor_time() - began) as f64 / repeats as f64
}

fn median(mut times: Vec<f64>) -> f64 {
    times.sort_by(f64::total_cmp);
    times[times.len() / 2]
}

/// The plain pass: all bytes of the section summed. The compiler may take many at a time, but cannot leave any out.
pub fn sum(section: &[u8]) {
    let bytes = black_box(section).iter();
    black_box(bytes.fold(0u64, |sum, byte| sum.wrapping_add(u64::from(*byte))));
}

/// The same taking one byte after the other: each is handed to `black_box`.
pub fn sum_by_bytes(section: &[u8]) {
    let bytes = black_box(section).iter();
    black_box(bytes.fold(0u64, |sum, byte| sum.wrapping_add(u64::from(black_box(*byte)))));
}
