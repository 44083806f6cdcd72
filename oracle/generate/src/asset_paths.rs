//! Paths for the list of references, all ASCII, and texts that are nearly the normalised path.

use ::assets::{normalised, slashes};

use crate::prng::Prng;

/// Makes a path with the sort's turn, which counts its paths.
type Make = fn(&Prng, turn: usize) -> Vec<u8>;

pub const SORTS: [(&str, Make); 7] = [
    ("usual path", usual),
    ("path of runs", runs),
    ("path with userfile", one_userfile),
    ("path of userfiles", userfiles),
    ("path of pieces", pieces),
    ("path of bytes", bytes),
    ("empty path", |_, _| Vec::new()),
];

/// Runs of slashes are at most so long in a path; each length comes in turn.
const LONGEST_RUN: usize = 40;
/// The neighbours of the letters.
const NEIGHBOURS: [u8; 4] = [64, 91, 96, 123];
/// Others that differ by 32 from bytes that are no letters either.
const OTHERS: [u8; 8] = [0, 32, 16, 48, 95, 127, 94, 126];
/// What is nearly the word: another letter, a letter fewer or more, other bytes that differ by 32.
const NEARLY: [&[u8]; 10] = [
    b"userfil",
    b"userfilee",
    b"serfile",
    b"uuserfile",
    b"userfi1e",
    b"user file",
    b"user/file",
    b"UserFile\0",
    b"\x15serfile",
    b"use\\rfile",
];
const CLOSINGS: [&[u8]; 12] =
    [b"/", b"\\", b"//", b"\\\\", b"/\\", b"\\/", b"///", b"\\/\\", b"////", b"", b"\0", b"x"];

/// A path as MikuMikuDance writes it.
fn usual(prng: &Prng, _: usize) -> Vec<u8> {
    let starts: [&[u8]; 5] = [b"C:\\", b"D:\\Dance\\MikuMikuDance\\", b"\\\\server\\share\\", b"", b"../"];
    let mut path = prng.pick(&starts).to_vec();
    if prng.one_in(2) {
        path.extend(in_any_case(prng, b"UserFile"));
        path.push(separator(prng));
    }
    for _ in 0..prng.below(4) {
        path.extend(name(prng));
        path.push(separator(prng));
    }
    path.extend(name(prng));
    path.extend(prng.pick(&[&b".pmx"[..], b".PMD", b".pmd", b".x", b""]));
    path
}

/// Names between runs of slashes, the first run of a length that comes in turn.
fn runs(prng: &Prng, turn: usize) -> Vec<u8> {
    let mut path = if prng.one_in(3) { Vec::new() } else { name(prng) };
    path.extend(run(prng, turn % (LONGEST_RUN + 1)));
    for _ in 0..prng.below(4) {
        path.extend(name(prng));
        let length = prng.below(6);
        path.extend(run(prng, length));
    }
    path
}

/// The word once, at each place and before each closing.
fn one_userfile(prng: &Prng, turn: usize) -> Vec<u8> {
    let before = match turn % 5 {
        0 => Vec::new(),
        1 => vec![separator(prng)],
        2 => [name(prng), vec![prng.pick(b"xXu.@`[{\0")]].concat(),
        3 => [name(prng), run(prng, 1 + turn / 5 % 5)].concat(),
        _ => run(prng, turn / 5 % 7),
    };
    let closing = CLOSINGS[turn / 5 % CLOSINGS.len()];
    [before, in_any_case(prng, b"userfile"), closing.to_vec(), name(prng)].concat()
}

/// The word several times, whole or nearly, behind slashes, letters or itself.
fn userfiles(prng: &Prng, _: usize) -> Vec<u8> {
    let mut path = Vec::new();
    for _ in 0..2 + prng.below(4) {
        match prng.below(5) {
            0 => path.extend(name(prng)),
            1 => path.extend(in_any_case(prng, b"user")),
            2 => path.push(separator(prng)),
            _ => (),
        }
        let word = if prng.one_in(4) { prng.pick(&NEARLY) } else { b"userfile" };
        path.extend(in_any_case(prng, word));
        path.extend(prng.pick(&CLOSINGS));
    }
    if prng.one_in(2) {
        path.extend(name(prng));
    }
    path
}

/// Anything behind anything.
fn pieces(prng: &Prng, _: usize) -> Vec<u8> {
    let mut path = Vec::new();
    for _ in 0..1 + prng.below(9) {
        match prng.below(7) {
            0 | 1 => path.extend(name(prng)),
            2 => {
                let length = 1 + prng.below(5);
                path.extend(run(prng, length));
            }
            3 => path.push(separator(prng)),
            4 => path.extend(in_any_case(prng, b"userfile")),
            5 => path.extend([in_any_case(prng, b"userfile"), vec![separator(prng)]].concat()),
            _ => path.extend(in_any_case(prng, prng.pick(&NEARLY))),
        }
    }
    path
}

/// Any ASCII bytes.
fn bytes(prng: &Prng, _: usize) -> Vec<u8> {
    let length = prng.below(24);
    prng.bytes(length).iter().map(|byte| byte & 127).collect()
}

fn separator(prng: &Prng) -> u8 {
    prng.pick(b"/\\")
}

/// Slashes, backslashes or both.
fn run(prng: &Prng, length: usize) -> Vec<u8> {
    match prng.below(3) {
        0 => vec![b'/'; length],
        1 => vec![b'\\'; length],
        _ => (0..length).map(|_| separator(prng)).collect(),
    }
}

/// A short name; some of its bytes are no letters.
fn name(prng: &Prng) -> Vec<u8> {
    let byte = |_| match prng.below(8) {
        0 => prng.pick(&NEIGHBOURS),
        1 => {
            if prng.one_in(2) {
                prng.pick(&OTHERS)
            } else {
                prng.pick(b"09._- ")
            }
        }
        2..5 => b'a' + prng.below(26) as u8,
        _ => b'A' + prng.below(26) as u8,
    };
    (0..1 + prng.below(5)).map(byte).collect()
}

/// Small letters, capitals, either at each place, or as it stands.
pub fn in_any_case(prng: &Prng, text: &[u8]) -> Vec<u8> {
    match prng.below(4) {
        0 => text.to_ascii_lowercase(),
        1 => text.to_ascii_uppercase(),
        2 => text.to_vec(),
        _ => {
            let either = |byte: &u8| if prng.one_in(2) { byte.to_ascii_lowercase() } else { byte.to_ascii_uppercase() };
            text.iter().map(either).collect()
        }
    }
}

/// A text that differs a little from the normalised path; now and then it is equal to it all the same.
pub fn nearly(prng: &Prng, path: &[u8]) -> Vec<u8> {
    let mut text = normalised(path);
    let slash = |byte: u8| byte == b'/';
    match prng.below(16) {
        0 => {
            if let Some(place) = place(prng, &text, slash) {
                text.insert(place, prng.pick(b"//\\"));
            }
        }
        1 => {
            if let Some(place) = place(prng, &text, slash) {
                text.remove(place);
            }
        }
        2 => {
            if let Some(place) = place(prng, &text, slash) {
                text[place] = b'\\';
            }
        }
        3 => {
            if let Some(place) = place(prng, &text, |_| true) {
                text[place] = prng.below(128) as u8;
            }
        }
        4 => {
            let neighbour = place(prng, &text, |byte| NEIGHBOURS.contains(&byte));
            let other = || place(prng, &text, |byte| !byte.is_ascii_alphabetic());
            if let Some(place) = neighbour.or_else(other) {
                text[place] ^= 32;
            }
        }
        5 => {
            if let Some(place) = place(prng, &text, |byte| byte.is_ascii_alphabetic()) {
                text[place] = prng.pick(&[64, 91, 96, 123, text[place] ^ 1, text[place] ^ 64]);
            }
        }
        6 => text.push(prng.pick(b"/\\\0x ")),
        7 => text.insert(0, prng.pick(b"/\\\0x ")),
        8 => drop(text.pop()),
        9 => {
            text.drain(..1.min(text.len()));
        }
        10 => text = normalised(&text),
        11 => text = slashes(path),
        12 => text = path.to_vec(),
        13 => text.truncate(text.iter().position(|byte| *byte == 0).unwrap_or(text.len() / 2)),
        14 => text = slashes(&text),
        _ => text = [text.clone(), text].concat(),
    }
    if prng.one_in(2) { text } else { in_any_case(prng, &text) }
}

/// Any place of such a byte.
fn place(prng: &Prng, text: &[u8], of: impl Fn(u8) -> bool) -> Option<usize> {
    let places: Vec<usize> = (0..text.len()).filter(|place| of(text[*place])).collect();
    if places.is_empty() { None } else { Some(prng.pick(&places)) }
}
