//! Paths looked up in lists of references: document 02, T-01.

use generate::prng::Prng;
use limdroven::{AssetList, MODEL, MOST_BYTES, PathTooLong, Refusal, asset_reference_index_for_path, raw};

fn list(references: &[(u8, &[u8])]) -> Vec<u8> {
    AssetList::of(references.iter().copied()).expect("short paths").as_bytes().to_vec()
}

/// Whether a path is found as the one model of a list.
fn is(path: &str, model: &str) -> bool {
    let found = asset_reference_index_for_path(path.as_bytes(), &list(&[(MODEL, model.as_bytes())]));
    found.expect("answered").is_some()
}

#[test]
fn made_of_kinds_and_paths() {
    let mut made = AssetList::new();
    assert_eq!(made.as_bytes(), []);
    made.push(MODEL, b"ab").expect("pushed");
    made.push(200, b"").expect("pushed");
    assert_eq!(made.as_bytes(), [1, 2, 0, b'a', b'b', 200, 0, 0]);
    assert_eq!(AssetList::of([(MODEL, "ab"), (200, "")]), Ok(made));

    let mut made = AssetList::new();
    made.push(0, &[b'x'; 65_535]).expect("pushed");
    assert_eq!((made.as_bytes().len(), &made.as_bytes()[..4]), (65_538, &[0, 255, 255, b'x'][..]));
    let (before, long) = (made.clone(), PathTooLong { length: 65_536 });
    assert_eq!(made.push(MODEL, &[b'x'; 65_536]), Err(long));
    assert_eq!(made, before);
    assert_eq!(AssetList::of([(MODEL, vec![0; 65_536])]), Err(long));
    assert_eq!(long.to_string(), "a path in a list of references has at most 65535 bytes, not 65536");
}

/// Slashes are joined in one pass, and only in the path.
#[test]
fn slashes() {
    for (path, model) in [
        ("a\\b", "a/b"),
        ("a//b", "a/b"),
        ("a\\\\b", "a/b"),
        ("a\\/b", "a/b"),
        ("a///b", "a//b"),
        ("a////b", "a//b"),
        ("/////", "///"),
        ("\\", "/"),
        ("A.PMX", "a.pmx"),
        ("a.pmx", "A.PMX"),
        ("AZaz", "azAZ"),
        ("", ""),
        ("a\0b", "A\0B"),
    ] {
        assert!(is(path, model), "{path} {model}");
    }
    for (path, model) in [
        ("a///b", "a/b"),
        ("a\\b", "a\\b"),
        ("a//b", "a//b"),
        ("a", ""),
        ("", "a"),
        ("ab", "a"),
        ("a\0b", "a"),
        ("a\0", "a"),
        ("@[`{", "`{@["),
        ("a[", "a{"),
        ("a@", "a`"),
    ] {
        assert!(!is(path, model), "{path} {model}");
    }
}

/// The last `userfile/` that opens the path or follows a slash.
#[test]
fn cut_at_userfile() {
    for (path, model) in [
        ("C:\\MMD\\UserFile\\Model\\a.pmx", "UserFile/Model/a.pmx"),
        ("c:/uSERfILE//a", "userfile/a"),
        ("c://userfile/a", "userfile/a"),
        ("userfile/userfile/a", "userfile/a"),
        ("userfile/a/userfile/", "userfile/"),
        ("userfile/xuserfile/a", "userfile/xuserfile/a"),
        ("xuserfile/a", "xuserfile/a"),
        ("a/userfile", "a/userfile"),
        ("userfile/a/userfile", "userfile/a/userfile"),
        ("userfile\\\\\\userfile\\a", "userfile/a"),
        ("userfile\\\\\\a", "userfile//a"),
        ("a/user file/b", "a/user file/b"),
    ] {
        assert!(is(path, model), "{path} {model}");
    }
    assert!(!is("c:/userfile/a", "c:/userfile/a"));
    assert!(!is("userfile/a", "a"));
}

/// Every kind is counted, models alone are compared, and the first is answered.
#[test]
fn numbered() {
    let all = list(&[(0, b"a"), (2, b"a"), (129, b"a"), (MODEL, b"b"), (MODEL, b"A"), (MODEL, b"a"), (255, b"")]);
    for (path, number) in [("a", Some(4)), ("B", Some(3)), ("c", None), ("", None)] {
        assert_eq!(asset_reference_index_for_path(path.as_bytes(), &all), Ok(number), "{path}");
    }
    assert_eq!(asset_reference_index_for_path(b"", &list(&[(3, b""), (MODEL, b"")])), Ok(Some(1)));
    assert_eq!(asset_reference_index_for_path(b"a", &[]), Ok(None));
    assert_eq!(asset_reference_index_for_path(b"", &[]), Ok(None));
}

/// A length of two bytes, the lower one first, which may itself be above 127.
#[test]
fn long_paths() {
    for length in [127, 128, 255, 256, 33_023, 65_535] {
        let path = vec![b'a'; length];
        let found = asset_reference_index_for_path(&path, &list(&[(0, b"x"), (MODEL, &path[1..]), (MODEL, &path)]));
        assert_eq!(found, Ok(Some(2)), "{length}");
    }
    assert_eq!(asset_reference_index_for_path(&[b'a'; 65_536], &list(&[(MODEL, &[b'a'; 65_535])])), Ok(None));
}

/// Wherever the list is cut, but between entries: also behind a match.
#[test]
fn cut_off() {
    let whole = list(&[(MODEL, b"a"), (7, b"bcd"), (MODEL, b"")]);
    for length in 0..=whole.len() {
        let found = asset_reference_index_for_path(b"a", &whole[..length]);
        let number = if length < 4 { None } else { Some(0) };
        let expected = if [0, 4, 10, 13].contains(&length) { Ok(number) } else { Err(Refusal::ListCutOff) };
        assert_eq!(found, expected, "{length}");
    }
}

/// In the path, also where it is cut away, and in references of every kind, also behind a match.
#[test]
fn above_127() {
    let refused = Err(Refusal::NotAscii);
    for path in [&b"\x80"[..], b"\xffa", b"a\x80", b"\x80/userfile/a"] {
        assert_eq!(asset_reference_index_for_path(path, &[]), refused);
        assert_eq!(asset_reference_index_for_path(path, &list(&[(MODEL, b"a")])), refused);
    }
    for kind in [0, MODEL, 2, 255] {
        for text in [&b"\x80"[..], b"a\xff", b"\xc3\xa9"] {
            assert_eq!(asset_reference_index_for_path(b"a", &list(&[(MODEL, b"a"), (kind, text)])), refused);
        }
    }
    assert_eq!(asset_reference_index_for_path(b"a\x7f", &list(&[(128, b"\x7f"), (MODEL, b"A\x7f")])), Ok(Some(1)));
}

/// Of several refusals the first in order: 16, 21, 22.
#[test]
fn in_order() {
    let cut = [list(&[(MODEL, b"\x80")]), vec![1]].concat();
    assert_eq!(asset_reference_index_for_path(b"\x80", &cut), Err(Refusal::ListCutOff));
    let long = vec![0x80; MOST_BYTES + 1];
    assert_eq!(asset_reference_index_for_path(&long, &cut), Err(Refusal::TooLong));
    assert_eq!(asset_reference_index_for_path(b"\x80", &long), Err(Refusal::TooLong));
}

/// The path and the list may each have as many bytes as are ever taken.
#[test]
fn at_the_limit() {
    let slashes = vec![b'/'; MOST_BYTES];
    assert_eq!(asset_reference_index_for_path(&slashes, &vec![0; MOST_BYTES]), Ok(None));
    let mut models = [MODEL, 0, 0].repeat(MOST_BYTES / 3);
    assert_eq!(models.len(), MOST_BYTES);
    models[0] = 0;
    assert_eq!(asset_reference_index_for_path(b"", &models), Ok(Some(1)));
    assert_eq!(asset_reference_index_for_path(b"a", &models), Ok(None));
    models.push(0);
    assert_eq!(asset_reference_index_for_path(b"", &models), Err(Refusal::TooLong));
    assert_eq!(asset_reference_index_for_path(&vec![b'/'; MOST_BYTES + 1], &[]), Err(Refusal::TooLong));
}

/// The call as it is: one number where it answers, none where it refuses, and as far as the slice reaches.
#[test]
fn values() {
    let models = list(&[(0, b"a"), (MODEL, b"a")]);
    let written = |path: &[u8], list: &[u8]| {
        let mut values = [7; 3];
        let number = raw::asset_reference_index_for_path(path, list, &mut values);
        assert_eq!(raw::asset_reference_index_for_path(path, list, &mut []), number);
        (number, values)
    };
    assert_eq!(written(b"a", &models), (0, [1, 7, 7]));
    assert_eq!(written(b"b", &models), (0, [u64::MAX, 7, 7]));
    assert_eq!(written(b"", &vec![0; MOST_BYTES + 1]), (16, [7; 3]));
    assert_eq!(written(b"a", &models[1..]), (21, [7; 3]));
    assert_eq!(written(b"\xff", &models), (22, [7; 3]));
}

/// As the Rust normalises a path.
fn normalized(path: &str) -> String {
    let slashes = path.replace('\\', "/").replace("//", "/");
    let lower = slashes.to_ascii_lowercase();
    let starts = lower.match_indices("userfile/").map(|(at, _)| at);
    let cut = starts.filter(|at| *at == 0 || lower.as_bytes()[at - 1] == b'/').last().unwrap_or(0);
    slashes[cut..].into()
}

/// Of few pieces, so that slashes stand together and paths are often equal.
fn text(prng: &Prng) -> String {
    const PIECES: [&str; 10] = ["/", "\\", "//", "a", "B", "b", "userfile", "UserFile/", "USERFILE\\", "\0"];
    (0..prng.below(7)).map(|_| prng.pick(&PIECES)).collect()
}

/// Every answer is that of the Rust.
#[test]
fn generated() {
    let (mut found, mut absent) = (0, 0);
    for number in 0..20_000 {
        let prng = &Prng::new(31, 0, number);
        let path = text(prng);
        let mut references: Vec<(u8, String)> =
            (0..prng.below(6)).map(|_| (prng.pick(&[0, 1, 1, 1, 2, 255]), text(prng))).collect();
        for (_, text) in &mut references {
            *text = match prng.below(4) {
                0 => normalized(&path),
                1 => normalized(&path).to_ascii_uppercase(),
                _ => normalized(text),
            };
        }
        let expected =
            references.iter().position(|(kind, text)| *kind == MODEL && text.eq_ignore_ascii_case(&normalized(&path)));
        let list = AssetList::of(references).expect("short paths");
        assert_eq!(asset_reference_index_for_path(path.as_bytes(), list.as_bytes()), Ok(expected), "{path:?} {list:?}");
        *if expected.is_some() { &mut found } else { &mut absent } += 1;
    }
    assert!(found > 5000 && absent > 5000, "{found} {absent}");
}
