//! Lists of references for a path.

use ::assets::{MODEL, normalised};

use crate::asset_paths::{in_any_case, nearly};
use crate::prng::Prng;

/// Makes the list for a path with the family's turn, and may change the path.
pub type List = fn(&Prng, turn: usize, path: &mut Vec<u8>) -> Vec<u8>;

#[derive(Clone, Copy)]
pub enum Make {
    Alone(List),
    /// Turns in a row are for one path and list.
    InTurn(List),
}
use Make::{Alone, InTurn};

pub const FAMILIES: [(&str, Make); 12] = [
    ("equal", Alone(|prng, _, path| bytes(&equal(prng, path)))),
    ("nearly equal", Alone(|prng, _, path| bytes(&others(prng, path)))),
    ("equal behind other kinds", Alone(|prng, _, path| bytes(&equal_behind_other_kinds(prng, path)))),
    ("equal several times", Alone(|prng, _, path| bytes(&equal_several_times(prng, path)))),
    ("cut off", InTurn(|prng, turn, path| cut_off(prng, turn, path))),
    ("above 127 in the path", Alone(above_127_in_the_path)),
    ("above 127 in a text", Alone(|prng, turn, path| bytes(&above_127_in_a_text(prng, turn, path)))),
    ("above 127 elsewhere", Alone(|prng, _, path| bytes(&above_127_elsewhere(prng, path)))),
    ("several refusals", Alone(several_refusals)),
    ("short entries", Alone(|prng, _, _| bytes(&short(prng)))),
    ("any bytes", Alone(any_bytes)),
    ("empty list", Alone(|_, _, _| Vec::new())),
];

#[derive(Debug, Clone, PartialEq, Eq)]
pub struct Entry {
    pub kind: u8,
    pub text: Vec<u8>,
}

/// The list's bytes; of a text longer than an entry can say, as many as it can.
pub fn bytes(entries: &[Entry]) -> Vec<u8> {
    let mut out = Vec::new();
    for Entry { kind, text } in entries {
        let text = &text[..text.len().min(u16::MAX.into())];
        out.push(*kind);
        out.extend((text.len() as u16).to_le_bytes());
        out.extend(text);
    }
    out
}

fn other_kind(prng: &Prng) -> u8 {
    let any = if prng.one_in(2) { 0 } else { prng.below(256) as u8 };
    let kinds = [0, 2, 3, 255, 129, any];
    Some(prng.pick(&kinds)).filter(|kind| *kind != MODEL).unwrap_or(0)
}

fn model(prng: &Prng, path: &[u8]) -> Entry {
    Entry { kind: MODEL, text: in_any_case(prng, &normalised(path)) }
}

/// Nearly equal models, and others.
fn others(prng: &Prng, path: &[u8]) -> Vec<Entry> {
    let other = |_| match prng.below(8) {
        0 => Entry { kind: other_kind(prng), text: nearly(prng, path) },
        1 => Entry { kind: MODEL, text: Vec::new() },
        _ => Entry { kind: MODEL, text: nearly(prng, path) },
    };
    (0..prng.below(6)).map(other).collect()
}

fn insert(prng: &Prng, entries: &mut Vec<Entry>, entry: Entry) {
    entries.insert(prng.below(entries.len() + 1), entry);
}

fn equal(prng: &Prng, path: &[u8]) -> Vec<Entry> {
    let mut entries = others(prng, path);
    insert(prng, &mut entries, model(prng, path));
    entries
}

/// Half of these lists have an equal model behind the others.
fn equal_behind_other_kinds(prng: &Prng, path: &[u8]) -> Vec<Entry> {
    let mut entries: Vec<Entry> =
        (0..1 + prng.below(4)).map(|_| Entry { kind: other_kind(prng), ..model(prng, path) }).collect();
    if prng.one_in(2) {
        entries.push(model(prng, path));
        entries.extend(others(prng, path));
    }
    entries
}

fn equal_several_times(prng: &Prng, path: &[u8]) -> Vec<Entry> {
    let mut entries = others(prng, path);
    for _ in 0..2 + prng.below(3) {
        insert(prng, &mut entries, model(prng, path));
        if prng.one_in(3) {
            insert(prng, &mut entries, Entry { kind: other_kind(prng), ..model(prng, path) });
        }
    }
    entries
}

fn any(prng: &Prng, path: &[u8]) -> Vec<Entry> {
    match prng.below(4) {
        0 => equal(prng, path),
        1 => equal_behind_other_kinds(prng, path),
        2 => equal_several_times(prng, path),
        _ => [others(prng, path), vec![model(prng, path)], others(prng, path)].concat(),
    }
}

fn cut_off(prng: &Prng, turn: usize, path: &[u8]) -> Vec<u8> {
    let mut list = bytes(&any(prng, path));
    list.truncate(turn % (list.len() + 1));
    list
}

fn above_127(prng: &Prng, text: &mut Vec<u8>) {
    let byte = prng.pick(&[128, 129, 160, 223, 255, 128 + prng.below(128) as u8]);
    let place = prng.below(text.len() + 1);
    if prng.one_in(2) || place == text.len() {
        text.insert(place, byte);
    } else {
        text[place] = byte;
    }
}

/// The list is that of the path before.
fn above_127_in_the_path(prng: &Prng, _: usize, path: &mut Vec<u8>) -> Vec<u8> {
    let list = bytes(&any(prng, path));
    above_127(prng, path);
    list
}

/// In the first entry, the last, or any.
fn above_127_in_a_text(prng: &Prng, turn: usize, path: &[u8]) -> Vec<Entry> {
    let mut entries = any(prng, path);
    if prng.one_in(2) {
        insert(prng, &mut entries, Entry { kind: other_kind(prng), text: nearly(prng, path) });
    }
    let place = [0, entries.len() - 1, prng.below(entries.len())][turn % 3];
    above_127(prng, &mut entries[place].text);
    entries
}

/// In kind bytes and in length bytes, where it is no refusal.
fn above_127_elsewhere(prng: &Prng, path: &[u8]) -> Vec<Entry> {
    let mut entries = any(prng, path);
    for _ in 0..1 + prng.below(3) {
        let length = if prng.one_in(50) { 32_768 + prng.below(32_768) } else { 128 + prng.below(140) };
        let text = nearly(prng, path);
        let text = if text.is_empty() { b"a".to_vec() } else { text };
        let text = text.iter().copied().cycle().take(length).collect();
        let kind = if prng.one_in(3) { MODEL } else { 128 + prng.below(128) as u8 };
        insert(prng, &mut entries, Entry { kind, text });
    }
    entries
}

/// 21 before 22, which comes for the path as well as for a text.
fn several_refusals(prng: &Prng, turn: usize, path: &mut Vec<u8>) -> Vec<u8> {
    let mut list = bytes(&above_127_in_a_text(prng, turn, path));
    if !prng.one_in(3) {
        above_127(prng, path);
    }
    if !prng.one_in(3) {
        list.truncate(prng.below(list.len()));
    }
    list
}

fn short(prng: &Prng) -> Vec<Entry> {
    let entry = |_| {
        let text = (0..prng.below(3)).map(|_| prng.pick(b"/\\aAuU\0@`")).collect();
        Entry { kind: if prng.one_in(2) { MODEL } else { other_kind(prng) }, text }
    };
    (0..prng.below(60)).map(entry).collect()
}

/// Some of them are whole lists.
fn any_bytes(prng: &Prng, _: usize, _: &mut Vec<u8>) -> Vec<u8> {
    let length = prng.below(24);
    prng.bytes(length)
}
