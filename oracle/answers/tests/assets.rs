//! Normalised paths and references by hand; the Rust has the same.

use answers::assets::{
    Reference, answer, normalised, references, rust_answer, rust_normalised, rust_references, slashes,
};

/// Whole ones, each with what it is made into.
const PATHS: [(&[u8], &[u8]); 28] = [
    (b"", b""),
    (b"/", b"/"),
    (b"\\\\", b"/"),
    (b"a//b", b"a/b"),
    (b"a///b", b"a//b"),
    (b"a\\/\\/b", b"a//b"),
    (b"/////", b"///"),
    (b"userfile/", b"userfile/"),
    (b"userfile", b"userfile"),
    (b"userfile\\\\a", b"userfile/a"),
    (b"userfile///a", b"userfile//a"),
    (b"C:\\UserFile\\Model\\a.pmx", b"UserFile/Model/a.pmx"),
    (b"//USERFILE/a", b"USERFILE/a"),
    (b"xuserfile/a", b"xuserfile/a"),
    (b"userfile/xuserfile/a", b"userfile/xuserfile/a"),
    (b"userfileuserfile/a", b"userfileuserfile/a"),
    (b"userfile/userfile/a", b"userfile/a"),
    (b"userfile/userfile", b"userfile/userfile"),
    (b"b/userfile//userfile\\a/userfile", b"userfile/a/userfile"),
    (b"b/userfile/userfil\0/a", b"userfile/userfil\0/a"),
    (b"useruserfile/userfile/a", b"userfile/a"),
    (b"b\0/userfile/a\0c", b"userfile/a\0c"),
    (b"a/\x15SERFILE/b", b"a/\x15SERFILE/b"),
    (b"a/user\\file/b", b"a/user/file/b"),
    (b"a/uSeRfIlE\\b", b"uSeRfIlE/b"),
    (b"@[`{/userfile/@[`{", b"userfile/@[`{"),
    (b".userfile/a", b".userfile/a"),
    (b"/userfile\\/userfile/\\", b"userfile/"),
];

#[test]
fn paths() {
    for (path, text) in PATHS {
        assert_eq!(normalised(path), text, "{}", path.escape_ascii());
        assert_eq!(rust_normalised(path), text, "{}", path.escape_ascii());
    }
}

/// Every path of up to seven of these bytes, and of up to four of these pieces.
#[test]
fn every_short_path() {
    let bytes = [b"/", b"\\", b"a", b"u"].map(|piece: &[u8; 1]| &piece[..]);
    every(&bytes, 7, &mut Vec::new());
    let pieces: [&[u8]; 8] = [b"userfile", b"USERFILE/", b"/", b"\\", b"//", b"a", b"user", b"\0"];
    every(&pieces, 4, &mut Vec::new());
}

fn every(pieces: &[&[u8]], most: usize, path: &mut Vec<u8>) {
    assert_eq!(normalised(path), rust_normalised(path), "{}", path.escape_ascii());
    if most > 0 {
        for piece in pieces {
            let length = path.len();
            path.extend(*piece);
            every(pieces, most - 1, path);
            path.truncate(length);
        }
    }
}

#[test]
fn entries() {
    assert_eq!(references(&[]), Some(vec![]));
    assert_eq!(references(&[1, 0, 0]), Some(vec![Reference { kind: 1, text: &[] }]));
    let two = [255, 2, 0, 7, 200, 1, 1, 0, 8];
    let texts = [Reference { kind: 255, text: &[7, 200] }, Reference { kind: 1, text: &[8] }];
    assert_eq!(references(&two), Some(texts.to_vec()));
    for length in (0..two.len()).filter(|length| ![0, 5].contains(length)) {
        assert_eq!(references(&two[..length]), None, "{length}");
    }
    let mut long = vec![0, 255, 255];
    long.resize(3 + 65_535, 1);
    assert_eq!(references(&long).expect("whole")[0].text.len(), 65_535);
    long.pop();
    assert_eq!(references(&long), None);
}

fn list(entries: &[(u8, &[u8])]) -> Vec<u8> {
    let entry = |(kind, text): &(u8, &[u8])| [&[*kind], &(text.len() as u16).to_le_bytes()[..], text].concat();
    entries.iter().flat_map(entry).collect()
}

#[track_caller]
fn check(path: &[u8], entries: &[(u8, &[u8])], expected: Option<usize>) {
    let list = list(entries);
    assert_eq!(answer(path, &list), Ok(expected));
    let references = rust_references(&references(&list).expect("whole"));
    assert_eq!(rust_answer(path, &references), expected);
}

#[test]
fn answers() {
    check(b"", &[], None);
    check(b"", &[(0, b""), (1, b"")], Some(1));
    check(b"a///b", &[(1, b"a/b"), (1, b"a\\/b"), (1, b"a///b"), (1, b"A//B")], Some(3));
    check(b"\\a", &[(1, b"\\a"), (0, b"/a"), (2, b"/a"), (255, b"/a")], None);
    check(b"x/userfile/a", &[(1, b"x/userfile/a"), (1, b"USERFILE/A"), (1, b"userfile/a")], Some(1));
    check(b"a", &[(1, b"a\0"), (1, b"aa"), (1, b"")], None);
    check(b"@[", &[(1, b"`["), (1, b"@{"), (1, b"@[")], Some(2));
    check(b"0\0", &[(1, b"\x10\0"), (1, b"0 "), (1, b"0\0")], Some(2));
}

fn refused(path: &[u8], list: &[u8]) -> u8 {
    answer(path, list).expect_err("refused").number
}

/// 16 before 21 before 22, each wherever it stands.
#[test]
fn refusals() {
    let (limit, above) = (16_777_215, 16_777_216);
    assert_eq!(refused(&vec![b'a'; above], &[]), 16);
    assert_eq!(refused(&[200], &vec![0; above]), 16);
    assert_eq!(answer(&vec![b'a'; limit], &[]), Ok(None));
    assert_eq!(answer(&[], &vec![0; limit]), Ok(None));
    let whole = list(&[(1, b"a"), (0, b"b")]);
    assert_eq!(answer(b"a", &whole), Ok(Some(0)));
    assert_eq!(refused(b"a", &[&whole[..], &[1]].concat()), 21);
    assert_eq!(refused(&[200], &whole[..7]), 21);
    assert_eq!(refused(b"\x80/userfile/a", &whole), 22);
    assert_eq!(refused(b"a", &list(&[(1, b"a"), (0, b"\x80")])), 22);
    assert_eq!(refused(b"a", &list(&[(77, b"b\xff"), (1, b"a")])), 22);
    assert_eq!(answer(b"a", &list(&[(200, &[7; 200]), (1, b"a")])), Ok(Some(1)));
}

#[test]
fn the_pass_alone() {
    assert_eq!(slashes(b"a\\\\\\userfile//"), b"a//userfile/");
}
