//! Sound tracks made unsound: each of the builder's refusals, 3 to 15.

use std::collections::HashMap;

use crate::prng::Prng;
use crate::section::{Record, Tracks};
use crate::sound::loose;
use crate::values::Pose;

/// Changes tracks so that the builder should give this number; 9 is tried, though nothing can meet it.
/// There are some tracks and at least two additional records, else they may stay sound.
pub fn meet<P: Pose>(prng: &Prng, tracks: &mut Tracks<P>, number: u8) {
    let count = tracks.initial.len();
    let additional = tracks.additional.len();
    if count == 0 || additional == 0 {
        return;
    }
    let position = prng.below(additional);
    let track = track_with_records(prng, tracks);
    let chain = chain(tracks, track);
    match number {
        3 => {
            tracks.additional[position].index = prng.pick(&[-1, i32::MIN, prng.i32() | i32::MIN]);
        }
        4 => tracks.additional[position].index = prng.below(count) as i32,
        5 => tracks.additional[position].index = tracks.additional[(position + 1) % additional].index,
        6 => {
            let absent = [-1, i32::MIN, i32::MAX, new_index(tracks), prng.i32(), 1 + prng.below(count) as i32];
            key(prng, tracks, track, &chain).next = prng.pick(&absent);
        }
        7 if !chain.is_empty() => {
            let back = prng.pick(&chain);
            let last = chain[chain.len() - 1];
            tracks.additional[last].next = tracks.additional[back].index;
        }
        8 if !chain.is_empty() => {
            let record = &mut tracks.additional[prng.pick(&chain)];
            let others = [
                0,
                -1,
                record.index,
                record.next,
                record.previous.wrapping_add(1),
                prng.i32(),
                prng.below(count) as i32,
            ];
            record.previous = prng.pick(&others);
        }
        9 if !chain.is_empty() => {
            let shared = tracks.additional[prng.pick(&chain)].index;
            tracks.initial[prng.below(count)].next = shared;
        }
        10 => key(prng, tracks, track, &chain).frame = prng.pick(&[-1, i32::MIN, prng.i32() | i32::MIN]),
        11 => {
            let frame = key(prng, tracks, track, &chain).frame;
            key(prng, tracks, track, &chain).frame = frame;
        }
        12..=14 => key(prng, tracks, track, &chain).payload.spoil(prng, number),
        15 => {
            for _ in 0..1 + prng.below(4) {
                let mut record = loose(prng, new_index(tracks));
                let links = [prng.i32(), 1, -1, record.index, tracks.additional[position].index];
                let which = prng.below(3);
                record.previous = if which == 0 { 0 } else { prng.pick(&links) };
                record.next = if which == 1 { 0 } else { prng.pick(&links) };
                let place = prng.below(tracks.additional.len() + 1);
                tracks.additional.insert(place, record);
            }
        }
        _ => (),
    }
}

/// Gives some numbers of the base anew, out of a small range: chains of every sort.
pub fn tangle<P: Pose>(prng: &Prng, tracks: &mut Tracks<P>) {
    let indices: Vec<i32> = tracks.additional.iter().map(|record| record.index).collect();
    let count = tracks.initial.len() as i32;
    let number = |prng: &Prng, old: i32| match prng.below(40) {
        0 => prng.below(count as usize + 2) as i32 - 1,
        1 if !indices.is_empty() => prng.pick(&indices),
        _ => old,
    };
    for record in tracks.initial.iter_mut().chain(&mut tracks.additional) {
        record.index = number(prng, record.index);
        record.previous = number(prng, record.previous);
        record.next = number(prng, record.next);
        record.frame = number(prng, record.frame);
    }
}

/// A number above all indices if there is one, in any case an index that no record has.
fn new_index<P>(tracks: &Tracks<P>) -> i32 {
    let taken: Vec<i32> = tracks.additional.iter().map(|record| record.index).collect();
    let above = taken.iter().max().and_then(|most| most.checked_add(1));
    let free = || (tracks.initial.len() as i32..).find(|index| !taken.contains(index));
    above.filter(|index| *index > tracks.initial.len() as i32).or_else(free).expect("few records")
}

/// A track, one whose chain has records if there is one.
fn track_with_records<P>(prng: &Prng, tracks: &Tracks<P>) -> usize {
    let linked: Vec<usize> = (0..tracks.initial.len()).filter(|track| tracks.initial[*track].next != 0).collect();
    if linked.is_empty() { prng.below(tracks.initial.len()) } else { prng.pick(&linked) }
}

/// The positions of a track's chain, as far as it can be followed.
fn chain<P>(tracks: &Tracks<P>, track: usize) -> Vec<usize> {
    let positions: HashMap<i32, usize> = tracks.additional.iter().map(|record| record.index).zip(0..).collect();
    let mut chain = Vec::new();
    let mut link = tracks.initial[track].next;
    while let Some(position) = positions.get(&link)
        && !chain.contains(position)
    {
        chain.push(*position);
        link = tracks.additional[*position].next;
    }
    chain
}

/// One of a track's keys: the initial record or one of its chain.
fn key<'a, P>(prng: &Prng, tracks: &'a mut Tracks<P>, track: usize, chain: &[usize]) -> &'a mut Record<P> {
    match prng.below(chain.len() + 1) {
        0 => &mut tracks.initial[track],
        n => &mut tracks.additional[chain[n - 1]],
    }
}
