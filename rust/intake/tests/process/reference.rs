//! `intake reference`: which reference of a list has a section's path.

use limdroven::{AssetList, MODEL, MOST_BYTES};

use crate::command::{Ran, file, intake, intake_with, place, sample};
use crate::json::{self, Json};

const NO_REFERENCE: &str = "not a kind from 0 to 255, one space and a path";

/// A section with this path.
fn section(path: &[u8]) -> Vec<u8> {
    let mut section = vec![0; 340];
    section[3..3 + path.len()].copy_from_slice(path);
    section
}

fn list(references: &[(u8, &[u8])]) -> Vec<u8> {
    AssetList::of(references.iter().copied()).expect("short paths").as_bytes().to_vec()
}

fn answered(status: i32, told: &str) -> Ran {
    Ran { status, output: format!("reference {told}\n").into(), error: String::new() }
}

fn failed(status: i32, error: &str) -> Ran {
    Ran { status, output: vec![], error: format!("intake: {error}\n") }
}

#[test]
fn the_sample() {
    let path = file("reference sample", &sample("stdin"));
    let references = [(3, &b"UserFile/Model/mini.pmx"[..]), (MODEL, b"mini.pmx"), (MODEL, b"userfile/MODEL/mini.pmx")];
    let found = file("reference sample list", &list(&references));
    assert_eq!(intake(&["reference", &path, &found]), answered(0, "2"));
    let none = file("reference sample none", &list(&references[..2]));
    assert_eq!(intake(&["reference", &path, &none]), answered(1, "none"));
    let empty = file("reference sample empty", &[]);
    assert_eq!(intake(&["reference", &path, &empty]), answered(1, "none"));
    assert_eq!(intake(&["reference", "--lines", &path, &empty]), answered(1, "none"));
}

/// The list that README names.
#[test]
fn the_example() {
    let folder = format!("{}/../..", env!("CARGO_MANIFEST_DIR"));
    let (section, list) = (format!("{folder}/crates/listing/stdin"), format!("{folder}/examples/references"));
    assert_eq!(intake(&["reference", &section, &list, "--lines"]), answered(0, "3"));
}

/// Either file may be standard input.
#[test]
fn standard_input() {
    let path = file("reference standard input", &section(b"a"));
    let references = list(&[(0, b"a"), (MODEL, b"a")]);
    let stored = file("reference standard input list", &references);
    assert_eq!(intake_with(&["reference", "-", &stored], &section(b"a")), answered(0, "1"));
    assert_eq!(intake_with(&["reference", &path, "-"], &references), answered(0, "1"));
    assert_eq!(intake_with(&["reference", &path, "-", "--lines"], b"0 a\n1 a\n"), answered(0, "1"));
}

/// The path up to its first zero byte, and without one all of it.
#[test]
fn path_of_the_section() {
    let of = |path: &[u8], model: &[u8]| {
        let stored = file("reference path of the section", &list(&[(MODEL, model)]));
        intake_with(&["reference", "-", &stored], &section(path)).status
    };
    assert_eq!(of(b"a.pmx\0old", b"a.pmx"), 0);
    assert_eq!(of(b"", b""), 0);
    assert_eq!(of(b"\0\xff", b""), 0);
    assert_eq!(of(&[b'a'; 256], &[b'A'; 256]), 0);
    assert_eq!(of(&[b'a'; 256], &[b'a'; 255]), 1);
    assert_eq!(of(b"a\\\\\\b", b"a//b"), 0);
    assert_eq!(of(b"a\\\\\\b", b"a/b"), 1);
}

#[test]
fn at_a_start_or_of_a_model() {
    let stored = file("reference at a start", &list(&[(MODEL, b"a"), (MODEL, b"b")]));
    let bytes = [vec![9; 11], section(b"b"), vec![9; 3]].concat();
    assert_eq!(intake_with(&["reference", "-", &stored, "--start", "11"], &bytes), answered(0, "1"));
    let project = crate::project::project("0002", &[section(b"a"), section(b"c"), section(b"b")]);
    for (model, told) in [("0", answered(0, "0")), ("1", answered(1, "none")), ("2", answered(0, "1"))] {
        assert_eq!(intake_with(&["reference", "-", &stored, "--model", model], &project), told);
    }
    assert_eq!(intake_with(&["reference", "-", &stored, "--model", "3"], &project).status, 6);
    assert_eq!(intake_with(&["reference", "-", &stored], &project).status, 6);
}

/// Lines that are references, with their ends, give what the bytes give.
#[test]
fn lines() {
    let path = file("reference lines", &section(b"a b "));
    let told = |text: &[u8]| intake_with(&["reference", &path, "-", "--lines"], text);
    for text in ["1 a b ", "1 a b \n", "1 a b \r\n", "001 a b \n", "1 A B \n1 a b \n", "1 a b \n255 \n0 \r\n"] {
        assert_eq!(told(text.as_bytes()), answered(0, "0"), "{text:?}");
    }
    for text in ["", "1 \n", "0 a b \n", "2 a b ", "1 a b\n", "1  a b \n", "1 a b \r", "1 a b \r\r\n", "255 1 a b \n"] {
        assert_eq!(told(text.as_bytes()), answered(1, "none"), "{text:?}");
    }
    assert_eq!(told(b"0 \n\x31 \r\n128 a b \n1 a b \n"), answered(0, "3"));
    let empty = file("reference lines empty", &section(b""));
    for (text, number) in [("1 ", "0"), ("0 \n1 \n", "1"), ("0 \r\n1 \r\n", "1")] {
        let ran = intake_with(&["reference", &empty, "-", "--lines"], text.as_bytes());
        assert_eq!(ran, answered(0, number), "{text:?}");
    }
    let long = [&b"254 "[..], &[b'a'; 65_535], b"\r\n1 a b \n"].concat();
    assert_eq!(told(&long), answered(0, "1"));
}

/// Told with the line's number.
#[test]
fn lines_that_are_no_references() {
    let path = file("reference no references", &section(b"a"));
    let told = |text: &[u8], line: i128, words: &str| {
        let error = format!("standard input: malformed list at line {line}: {words}");
        assert_eq!(intake_with(&["reference", &path, "-", "--lines"], text), failed(5, &error));
        let ran = intake_with(&["reference", &path, "-", "--lines", "--json"], text);
        assert_eq!((ran.status, ran.error.as_str()), (5, ""));
        let malformed = json::line(ran.text());
        assert_eq!(malformed.keys(), ["result", "status", "file", "line", "words"]);
        assert_eq!((malformed.text("result"), malformed.number("status")), ("malformed", 5));
        assert_eq!(
            (malformed.text("file"), malformed.number("line"), malformed.text("words")),
            ("-", line, &error[..])
        );
    };
    for line in ["", "1", "a", " a", "256 a", "1000 a", "0001 a", "-1 a", "+1 a", "1\ta", "x a", "1.0 a", "\u{feff}1 a"]
    {
        told(format!("1 a\n{line}\n").as_bytes(), 2, NO_REFERENCE);
        told(format!("{line}\r\n1 a\n").as_bytes(), 1, NO_REFERENCE);
    }
    told(b"1 a\n\n", 2, NO_REFERENCE);
    told(b"1 a\n1 b\n1", 3, NO_REFERENCE);
    for (kind, end) in [("1", "\n"), ("255", "\r\n"), ("1", ""), ("255", "")] {
        for length in [65_536, 65_537, 200_000] {
            let text = format!("1 a\n{kind} {}{end}", "a".repeat(length));
            told(text.as_bytes(), 2, "the path is longer than 65535 bytes");
        }
    }
    told(&vec![b'1'; 200_000], 1, NO_REFERENCE);
}

/// Of the section with FILE's name, also for a byte above 127 in its path.
#[test]
fn refusals_of_the_section() {
    let stored = file("reference refusals", &list(&[(MODEL, b"a")]));
    let short = file("reference refusals short", &[0; 339]);
    let words = "refused 1: the bytes end before the value at offset 339 is whole";
    assert_eq!(intake(&["reference", &short, &stored]), failed(3, &format!("{short}: {words}")));
    let words = "refused 16: more than 16777215 bytes";
    let long = vec![0; MOST_BYTES + 1];
    assert_eq!(intake_with(&["reference", "-", &stored], &long), failed(3, &format!("standard input: {words}")));

    let words = "refused 22: a byte above 127 stands in the path or in a reference of the list";
    let above = file("reference refusals above 127", &section(b"\x83/userfile/a"));
    for references in [&[][..], &list(&[(MODEL, b"a")]), &list(&[(MODEL, b"\xff")])] {
        assert_eq!(intake_with(&["reference", &above, "-"], references), failed(3, &format!("{above}: {words}")));
    }
    let project = crate::project::project("0002", &[section(b"a"), section(b"\xff")]);
    let ran = intake_with(&["reference", "-", &stored, "--model", "1"], &project);
    assert_eq!(ran, failed(3, &format!("standard input, model 1: {words}")));
}

/// Of the list with LIST's name.
#[test]
fn refusals_of_the_list() {
    let (plain, above) = (section(b"a"), section(b"\xff"));
    let refused = |section: &[u8], list: &[u8], words: &str| {
        let path = file("reference refusals of the list", section);
        let ran = intake_with(&["reference", &path, "-"], list);
        assert_eq!(ran, failed(3, &format!("standard input: refused {words}")));
    };
    refused(&plain, &vec![0; MOST_BYTES + 1], "16: more than 16777215 bytes");
    refused(&above, &vec![0xff; MOST_BYTES + 1], "16: more than 16777215 bytes");
    refused(&plain, &[list(&[(MODEL, b"a")]), vec![0]].concat(), "21: the list of references ends inside an entry");
    refused(&above, &[MODEL, 1, 0], "21: the list of references ends inside an entry");
    let words = "22: a byte above 127 stands in the path or in a reference of the list";
    refused(&plain, &list(&[(MODEL, b"a"), (0, b"\x80")]), words);
    let path = file("reference refusals of lines", &plain);
    let ran = intake_with(&["reference", &path, "-", "--lines"], "1 a\n0 é\n".as_bytes());
    assert_eq!(ran, failed(3, &format!("standard input: refused {words}")));
}

/// A list of text, with `--lines` forgotten.
#[test]
fn hint() {
    let path = file("reference hint", &section(b"a"));
    let words = "standard input: refused 21: the list of references ends inside an entry";
    let hint = " (this looks like text: --lines reads it)";
    for text in ["1 a\n", "255 ", "1 a\nx\n"] {
        let ran = intake_with(&["reference", &path, "-"], text.as_bytes());
        assert_eq!(ran, failed(3, &format!("{words}{hint}")), "{text:?}");
    }
    for text in ["", "x 1 a\n", "256 a\n", "\n1 a\n"] {
        let ran = intake_with(&["reference", &path, "-"], &[text.as_bytes(), b"\xff"].concat());
        assert_eq!(ran, failed(3, words), "{text:?}");
    }
    let ran = intake_with(&["reference", &path, "-", "--json"], b"1 a\n");
    assert!(json::line(ran.text()).text("words").ends_with(hint));
}

/// As many bytes as the library takes, and one more, in both forms; a list without an end is read no further.
#[test]
fn lists_at_the_limit() {
    let path = file("reference at the limit", &section(b"a"));
    let most = MOST_BYTES / 3;
    assert_eq!(3 * most, MOST_BYTES);
    let lines = b"1 \n".repeat(most);
    assert_eq!(intake_with(&["reference", &path, "-"], &[MODEL, 0, 0].repeat(most)), answered(1, "none"));
    assert_eq!(intake_with(&["reference", &path, "-", "--lines"], &lines), answered(1, "none"));
    let refused = failed(3, "standard input: refused 16: more than 16777215 bytes");
    assert_eq!(intake_with(&["reference", &path, "-"], &[MODEL, 0, 0].repeat(most + 1)), refused);
    // What stands behind as many is not read, be it a reference or not.
    let longer = [lines, b"1 \nx".to_vec()].concat();
    assert_eq!(intake_with(&["reference", &path, "-", "--lines"], &longer), refused);
}

#[test]
#[cfg(unix)]
fn lists_without_an_end() {
    let path = file("reference without an end", &section(b"a"));
    let words = "/dev/zero: refused 16: more than 16777215 bytes";
    assert_eq!(intake(&["reference", &path, "/dev/zero"]), failed(3, words));
    let words = format!("/dev/zero: malformed list at line 1: {NO_REFERENCE}");
    assert_eq!(intake(&["reference", &path, "/dev/zero", "--lines"]), failed(5, &words));
}

#[test]
fn as_json() {
    let path = file("reference as json", &section(b"C:\\UserFile\\\"a\"\x01.pmx"));
    let of = |references: &[u8]| {
        let ran = intake_with(&["reference", &path, "-", "--json"], references);
        assert_eq!(ran.error, "");
        let told = json::line(ran.text());
        assert_eq!((told.keys(), told.text("result")), (vec!["result", "status", "reference", "path"], "reference"));
        assert_eq!(told.number("status"), i128::from(ran.status));
        assert_eq!(told.text("path"), "C:\\UserFile\\\"a\"\u{1}.pmx");
        (ran.status, told.get("reference").clone())
    };
    assert_eq!(of(&list(&[(9, b""), (MODEL, b"userfile/\"A\"\x01.pmx")])), (0, Json::Number("1".into())));
    assert_eq!(of(&[]), (1, Json::Null));
}

#[test]
fn refusals_as_json() {
    let path = file("reference refusals as json", &section(b"a"));
    let of = |arguments: &[&str], input: &[u8]| {
        let ran = intake_with(&[&["reference", "--json"], arguments].concat(), input);
        assert_eq!((ran.status, ran.error.as_str()), (3, ""));
        let told = json::line(ran.text());
        assert_eq!(told.keys(), ["result", "status", "file", "model", "number", "kind", "values", "words"]);
        assert_eq!((told.text("result"), told.number("status"), told.get("kind")), ("refused", 3, &Json::Null));
        assert_eq!(told.get("values"), &Json::Object(vec![]));
        (told.text("file").to_owned(), told.get("model").clone(), told.number("number"))
    };
    assert_eq!(of(&[&path, "-"], &vec![0; MOST_BYTES + 1]), ("-".into(), Json::Null, 16));
    assert_eq!(of(&[&path, "-"], &[0]), ("-".into(), Json::Null, 21));
    assert_eq!(of(&[&path, "-"], &[0, 1, 0, 200]), ("-".into(), Json::Null, 22));
    let project = crate::project::project("0002", &[section(b"a"), section(b"\xff")]);
    let stored = file("reference refusals as json list", &[0, 0, 0]);
    assert_eq!(of(&["-", &stored, "--model", "1"], &project), ("-".into(), Json::Number("1".into()), 22));
    let cut = file("reference refusals as json cut", &[0, 0]);
    assert_eq!(of(&["-", &cut, "--model", "1"], &project), (cut, Json::Null, 21));
}

/// Of a section and a list that are not there, the section is told.
#[test]
fn files() {
    let path = file("reference files", &section(b"a"));
    let [absent, other] = ["reference files absent", "reference files other"].map(place);
    for (arguments, told) in [([&absent, &other], &absent), ([&path, &other], &other), ([&absent, &path], &absent)] {
        for lines in [&[][..], &["--lines"]] {
            let arguments = [&["reference", arguments[0], arguments[1]], lines].concat();
            let ran = intake(&arguments);
            assert_eq!((ran.status, ran.output.len()), (4, 0), "{arguments:?}");
            assert!(ran.error.starts_with(&format!("intake: {told}: ")), "{}", ran.error);
        }
    }
}
