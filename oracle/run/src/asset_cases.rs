//! Paths and lists by hand for the look-up, each with what it is to answer.

use answers::assets::MODEL;
use generate::asset_lists::{Entry, bytes};
use generate::assets::Case;

/// A number or none, or the refusal's number.
pub type Outcome = Result<Option<usize>, u8>;

pub fn cases() -> Vec<(Case, Outcome)> {
    let mut cases: Vec<(Case, Outcome)> =
        answered().into_iter().map(|(path, list, answer)| (case(path, list), answer)).collect();
    cases.extend(cut_off());
    cases.extend(above_127());
    cases
}

type Entries<'a> = &'a [(u8, &'a [u8])];

fn case(path: &[u8], entries: Entries) -> Case {
    let entry = |(kind, text): &(u8, &[u8])| Entry { kind: *kind, text: text.to_vec() };
    with_bytes(path, bytes(&entries.iter().map(entry).collect::<Vec<_>>()))
}

fn with_bytes(path: &[u8], list: Vec<u8>) -> Case {
    Case { sorts: ["by hand", "by hand"], path: path.to_vec(), list }
}

fn answered() -> Vec<(&'static [u8], Entries<'static>, Outcome)> {
    const RUNS: Entries = &[(MODEL, b"a/b"), (MODEL, b"a//b"), (MODEL, b"a///b"), (MODEL, b"a\\b")];
    const PLACES: Entries =
        &[(MODEL, b"x/userfile/a"), (MODEL, b"userfile/xuserfile/a"), (MODEL, b"userfile/a"), (MODEL, b"xuserfile/a")];
    const LETTERS: Entries = &[(MODEL, b"`{"), (MODEL, b"@["), (MODEL, b"\0"), (MODEL, b" "), (MODEL, b"aZ")];
    vec![
        (b"", &[], Ok(None)),
        (b"", &[(0, b""), (MODEL, b"a"), (MODEL, b"")], Ok(Some(2))),
        (b"a", &[], Ok(None)),
        (b"a", &[(0, b"a"), (2, b"a"), (255, b"a")], Ok(None)),
        (b"a", &[(0, b"a"), (2, b"a"), (255, b"a"), (MODEL, b"A"), (MODEL, b"a")], Ok(Some(3))),
        (b"a", &[(MODEL, b"aa"), (MODEL, b""), (MODEL, b"b")], Ok(None)),
        (b"a/b", RUNS, Ok(Some(0))),
        (b"a\\\\b", RUNS, Ok(Some(0))),
        (b"a///b", RUNS, Ok(Some(1))),
        (b"a/\\\\/b", RUNS, Ok(Some(1))),
        (b"a\\\\\\\\\\b", RUNS, Ok(Some(2))),
        (b"a///////b", RUNS, Ok(None)),
        (b"C:\\x\\UserFile\\a", PLACES, Ok(Some(2))),
        (b"USERFILE//a", PLACES, Ok(Some(2))),
        (b"y\\\\\\userfile\\/a", PLACES, Ok(Some(2))),
        (b"b/userfile/xuserfile/a", PLACES, Ok(Some(1))),
        (b"b/userfile/x/userfile/a", PLACES, Ok(Some(2))),
        (b"xuserfile/a", PLACES, Ok(Some(3))),
        (b"x/userfile/b", PLACES, Ok(None)),
        (b"userfile/userfile", &[(MODEL, b"userfile"), (MODEL, b"userfile/userfile")], Ok(Some(1))),
        (b"a/userfile//", &[(MODEL, b"userfile//"), (MODEL, b"userfile/")], Ok(Some(1))),
        (b"@[", LETTERS, Ok(Some(1))),
        (b"`{", LETTERS, Ok(Some(0))),
        (b" ", LETTERS, Ok(Some(3))),
        (b"\0", LETTERS, Ok(Some(2))),
        (b"Az", LETTERS, Ok(Some(4))),
        (b"a\0b", &[(MODEL, b"a"), (MODEL, b"a\0"), (MODEL, b"a\0B")], Ok(Some(2))),
        // the kind's and the length's bytes may be above 127
        (b"a", &[(200, &[b'x'; 250]), (MODEL, b"a")], Ok(Some(1))),
    ]
}

/// A whole list and a match in it, and all its cuts.
fn cut_off() -> Vec<(Case, Outcome)> {
    let whole = bytes(&[Entry { kind: MODEL, text: b"a".to_vec() }, Entry { kind: 2, text: b"bc".to_vec() }]);
    let answer = |length| match length {
        0 => Ok(None),
        4 | 9 => Ok(Some(0)),
        _ => Err(21),
    };
    (0..=whole.len()).map(|length| (with_bytes(b"a", whole[..length].to_vec()), answer(length))).collect()
}

/// In what is cut away of the path, in what is kept, in a text of each sort of kind before and behind the match; 21 before it.
fn above_127() -> Vec<(Case, Outcome)> {
    let mut cases: Vec<(Case, Outcome)> = [&b"\x80/userfile/a"[..], b"userfile/a\xff", b"\xe3\x83\x9f"]
        .map(|path| (case(path, &[(MODEL, b"userfile/a")]), Err(22)))
        .to_vec();
    for kind in [0, MODEL, 2, 255] {
        cases.push((case(b"a", &[(kind, b"\x80"), (MODEL, b"a")]), Err(22)));
        cases.push((case(b"a", &[(MODEL, b"a"), (kind, b"b\xff")]), Err(22)));
    }
    let mut cut = case(b"\x80", &[(MODEL, b"\x80"), (0, b"b")]);
    cut.list.pop();
    cases.push((cut, Err(21)));
    cases
}
