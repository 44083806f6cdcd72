//! The frames of a track's keys: all different in one order or another, or some of them repeated.

use std::ops::Range;

use crate::prng::Prng;

const MOST: u32 = i32::MAX as u32;

/// So many different frames.
pub fn distinct(prng: &Prng, keys: usize) -> Vec<u32> {
    let mut frames = rising(prng, keys as u32);
    let turn = prng.below(keys.max(1));
    match prng.below(9) {
        0 | 1 => (),
        2 => frames.reverse(),
        3 | 4 => prng.shuffle(&mut frames),
        5 => frames.rotate_left(turn),
        // Two that have changed places, neighbours or not.
        6 if turn > 0 => frames.swap(turn, turn - 1),
        7 => frames.swap(turn, prng.below(keys.max(1)) * usize::from(keys > 0)),
        // From both ends in turn.
        _ => frames = (0..keys).map(|key| frames[if key % 2 == 0 { key / 2 } else { keys - 1 - key / 2 }]).collect(),
    }
    frames
}

/// Close together, over all frames that there can be, or in heaps with as many frames between as a window for flags may have.
fn rising(prng: &Prng, keys: u32) -> Vec<u32> {
    let far = MOST / keys.max(1);
    let windows = [1, 1024, 2048, 4096, 8192, 16_384, 32_767, 32_768, 32_769, 65_536];
    let step = match prng.below(6) {
        0 | 1 => 1,
        2 => 1 + prng.below(9) as u32,
        3 => far,
        4 => prng.pick(&windows),
        _ => 1 + prng.below(far as usize) as u32,
    }
    .min(far);
    let heap = prng.pick(&[1, 1, 2, 3, 7, 100]);
    let frame = |key: u32| key / heap * heap * step + key % heap;
    let last = frame(keys.max(1) - 1);
    let first = match prng.below(4) {
        0 => MOST - last,
        1 => prng.below((MOST - last) as usize + 1) as u32,
        2 => prng.pick(&[0, 1, 32_767, 32_768]).min(MOST - last),
        _ => 0,
    };
    (0..keys).map(|key| first + frame(key)).collect()
}

const REPEATS: usize = 13;

/// Gives at least one frame a second time, if there are two keys.
pub fn repeat(prng: &Prng, frames: &mut [u32]) {
    let keys = frames.len();
    if keys < 2 {
        return;
    }
    let last = keys - 1;
    let sorted = |frames: &[u32]| {
        let mut sorted = frames.to_vec();
        sorted.sort();
        sorted
    };
    match prng.below(REPEATS) {
        0 => frames[last] = frames[0],
        1 => frames[last] = frames[last - 1],
        2 => frames[1] = frames[0],
        3 => frames[last] = frames[prng.below(last)],
        4 => frames[last] = sorted(&frames[..last])[0],
        5 => frames[last] = sorted(&frames[..last])[last - 1],
        // Of those in order, one that a heap of so many begins or ends with.
        6 => {
            let edges = [511, 512, 1023, 1024, 1025, 2047, 2048, last - 1];
            frames[last] = sorted(&frames[..last])[prng.pick(&edges).min(last - 1)];
        }
        7 => frames.fill(frames[0]),
        8 => {
            frames.iter_mut().for_each(|frame| *frame |= 1);
            frames[last] = frames[0];
        }
        9 => {
            let half = keys / 2;
            frames.copy_within(..half, keys - half);
        }
        10 => {
            frames.fill_with(|| prng.below(keys) as u32);
            frames[last] = frames[0];
        }
        _ => {
            let (one, other) = (prng.below(keys), prng.below(keys));
            frames[one] = frames[if one == other { (one + 1) % keys } else { other }];
        }
    }
}

/// Few keys, now and then many, and as many as fill 4 KB in one way or another, one fewer or more.
pub fn number_of_keys(prng: &Prng) -> usize {
    let any = |range: Range<usize>| range.start + prng.below(range.end - range.start);
    match prng.below(256) {
        0 => prng.pick(&[512, 1024, 1365, 2048, 4096]) + prng.below(5) - 2,
        1..8 => any(60..700),
        8..60 => any(13..60),
        _ => any(1..13),
    }
}
