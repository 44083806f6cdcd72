//! A path, a list or both at the limit of length, and one byte above it.

use ::assets::{LENGTH_LIMIT, MODEL};

use crate::asset_lists::{Entry, bytes};
use crate::assets::Case;
use crate::prng::Prng;

const ABOVE: usize = LENGTH_LIMIT + 1;

const KINDS: u64 = 13;

pub fn at_a_limit(prng: &Prng, turn: u64) -> Case {
    let (path, list) = match turn % KINDS {
        0 => (long_path(prng, LENGTH_LIMIT), model()),
        1 => (long_path(prng, ABOVE), model()),
        2 => (NORMALISED.to_vec(), long_list(prng, LENGTH_LIMIT)),
        3 => (NORMALISED.to_vec(), long_list(prng, ABOVE)),
        4 => (long_path(prng, LENGTH_LIMIT), long_list(prng, LENGTH_LIMIT)),
        5 => (long_path(prng, ABOVE), long_list(prng, ABOVE)),
        6 => (vec![prng.pick(b"/\\"); LENGTH_LIMIT], model()),
        7 => {
            let mut path = long_path(prng, LENGTH_LIMIT);
            path[prng.pick(&[0, LENGTH_LIMIT / 2, LENGTH_LIMIT - 1])] |= 128;
            (path, model())
        }
        // 16 before 21 and 22
        8 => (vec![128; ABOVE], cut(model())),
        9 => (NORMALISED.to_vec(), last_above_127(long_list(prng, LENGTH_LIMIT))),
        10 => (NORMALISED.to_vec(), cut(long_list(prng, ABOVE))),
        11 => (vec![128], cut(long_list(prng, ABOVE + 1))),
        _ => (b"/".to_vec(), one_byte_entries(prng)),
    };
    Case { sorts: ["at a limit", "at a limit"], path, list }
}

const NORMALISED: &[u8] = b"UserFile/Model/a.pmx";

fn model() -> Vec<u8> {
    bytes(&[Entry { kind: MODEL, text: NORMALISED.to_vec() }])
}

/// So many bytes, of which the last are the normalised path.
fn long_path(prng: &Prng, length: usize) -> Vec<u8> {
    let piece = prng.pick(&[&b"userfile/"[..], b"\\\\", b"a/", b"UserFile\\\\b///", b"userfile"]);
    let mut path: Vec<u8> = piece.iter().copied().cycle().take(length - NORMALISED.len() - 1).collect();
    path.push(b'\\');
    path.extend(NORMALISED);
    path
}

/// So many bytes: long entries, and behind them the one that is equal.
fn long_list(prng: &Prng, length: usize) -> Vec<u8> {
    const HEAD: usize = 3;
    const LONGEST: usize = u16::MAX as usize;
    let mut entries = Vec::new();
    let mut left = length - model().len();
    while left > 0 {
        let text = vec![prng.pick(b"/\\aU\0"); (left - HEAD).min(LONGEST)];
        left -= HEAD + text.len();
        entries.push(Entry { kind: MODEL, text });
    }
    [bytes(&entries), model()].concat()
}

/// As many as there can be, and an empty one; only the last of one byte is a slash.
fn one_byte_entries(prng: &Prng) -> Vec<u8> {
    let mut list = [MODEL, 1, 0, prng.pick(b"a\\\0")].repeat(LENGTH_LIMIT / 4);
    *list.last_mut().expect("an entry") = b'/';
    list.extend([MODEL, 0, 0]);
    list
}

fn cut(mut list: Vec<u8>) -> Vec<u8> {
    list.pop();
    list
}

fn last_above_127(mut list: Vec<u8>) -> Vec<u8> {
    *list.last_mut().expect("an entry") |= 128;
    list
}

#[cfg(test)]
mod tests {
    use ::assets::answer;

    use super::*;

    /// Of each kind the answer that it is made for.
    #[test]
    fn each_kind() {
        let last = Ok(Some(256));
        let expected: [Result<Option<usize>, u8>; KINDS as usize] = [
            Ok(Some(0)),
            Err(16),
            last,
            Err(16),
            last,
            Err(16),
            Ok(None),
            Err(22),
            Err(16),
            Err(22),
            Err(21),
            Err(16),
            Ok(Some(LENGTH_LIMIT / 4 - 1)),
        ];
        for (turn, expected) in (0..).zip(expected) {
            let Case { path, list, .. } = at_a_limit(&Prng::new(1, 0, turn), turn);
            assert_eq!(answer(&path, &list), expected, "{turn}");
        }
    }
}
