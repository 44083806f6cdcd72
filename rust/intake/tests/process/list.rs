//! `intake list`: document 01's listing.

use crate::command::{Ran, file, intake, intake_with, sample};
use crate::json;
use crate::sections::{bones, morphs, section};

const ONE_BONE: &str = "model 1 0 430\nbone 0 0 0\nkeys 1 loose 0\n";

fn one_bone() -> Vec<u8> {
    section(bones(&[[0; 4]], &[]), morphs(&[], &[]))
}

/// One bone track of so many keys.
pub fn one_track(keys: i32) -> Vec<u8> {
    let links: Vec<[i32; 4]> = (1..keys).map(|n| [n, n, n - 1, (n + 1) % keys]).collect();
    section(bones(&[[0, 0, 0, 1]], &links), morphs(&[], &[]))
}

fn quiet(text: &str) -> Ran {
    Ran { status: 0, output: text.into(), error: String::new() }
}

#[test]
fn the_sample() {
    let listing = String::from_utf8(sample("stdout")).expect("text");
    assert_eq!(intake_with(&["list", "-"], &sample("stdin")), quiet(&listing));
    let path = file("list sample", &sample("stdin"));
    assert_eq!(intake(&["list", &path]), quiet(&listing));
    assert_eq!(intake(&["list", "--", &path]), quiet(&listing));
}

#[test]
fn the_case_by_hand() {
    assert_eq!(intake_with(&["list", "-"], &one_bone()), quiet(ONE_BONE));
}

/// The end is an offset of the file.
#[test]
fn at_a_start() {
    let bytes = [vec![9; 11], one_bone(), vec![9; 3]].concat();
    assert_eq!(intake_with(&["list", "-", "--start", "11"], &bytes), quiet(&ONE_BONE.replace("430", "441")));
}

/// More bytes than the listing program of document 01 takes, and as many as the library does.
#[test]
fn large_sections() {
    let section = one_track(2000);
    assert!(section.len() > 65_536);
    let keys: String = (0..2000).map(|frame| format!("bone 0 {frame} 0\n")).collect();
    let listing = format!("model 1 0 {}\n{keys}keys 2000 loose 0\n", section.len());
    assert_eq!(intake_with(&["list", "-"], &section), quiet(&listing));

    let mut most = one_bone();
    most.resize(16_777_215, 0);
    assert_eq!(intake_with(&["list", "-"], &most), quiet(ONE_BONE));
    most.push(0);
    let refused = Ran {
        status: 3,
        output: b"refused 16\n".to_vec(),
        error: "intake: standard input: refused 16: more than 16777215 bytes\n".into(),
    };
    assert_eq!(intake_with(&["list", "-"], &most), refused);
}

#[test]
fn refusals() {
    let path = file("list refusals", &[0; 339]);
    let refused = Ran {
        status: 3,
        output: b"refused 1\n".to_vec(),
        error: format!("intake: {path}: refused 1: the bytes end before the value at offset 339 is whole\n"),
    };
    assert_eq!(intake(&["list", &path]), refused);
    let cycle = section(bones(&[[0, 0, 0, 1]], &[[1, 1, 0, 1]]), morphs(&[], &[]));
    let refused = Ran {
        status: 3,
        output: b"refused 7\n".to_vec(),
        error: "intake: standard input: refused 7: the chain of bone track 0 comes back to its record of index 1\n"
            .into(),
    };
    assert_eq!(intake_with(&["list", "-"], &cycle), refused);
}

/// Told of the start and the file's length; a start at the end itself is told as any value that is not whole.
#[test]
fn start_past_the_end() {
    let past = |start: &str, bytes: &[u8], length: &str| {
        let path = file("list start past the end", bytes);
        let words = |whole| format!("refused 1: the start {start} is past the end of {whole}, which has {length}");
        let refused = |error| Ran { status: 3, output: b"refused 1\n".to_vec(), error };
        let error = format!("intake: {path}: {}\n", words("the file"));
        assert_eq!(intake(&["list", &path, "--start", start]), refused(error.clone()));
        assert_eq!(intake(&["strip", &path, "-o", "-", "--start", start]).error, error);
        let error = format!("intake: standard input: {}\n", words("standard input"));
        assert_eq!(intake_with(&["list", "-", "--start", start], bytes), refused(error));
        let told = json::line(intake(&["list", &path, "--start", start, "--json"]).text());
        assert_eq!(told.text("words"), format!("{path}: {}", words("the file")));
        assert_eq!((told.number("number"), told.get("values").number("offset").to_string()), (1, start.into()));
    };
    past("431", &one_bone(), "430 bytes");
    past("18446744073709551615", &one_bone(), "430 bytes");
    past("2", &[0], "1 byte");
    past("1", &[], "0 bytes");
    let mut most = vec![0; 16_777_215];
    past("16777216", &most, "16777215 bytes");
    most.push(0);
    let ran = intake_with(&["list", "-", "--start", "16777217"], &most);
    assert_eq!(ran.error, "intake: standard input: refused 16: more than 16777215 bytes\n");
    let ran = intake_with(&["list", "-", "--start", "430"], &one_bone());
    let words = "refused 1: the bytes end before the value at offset 430 is whole";
    assert_eq!(ran.error, format!("intake: standard input: {words}\n"));
}

/// The same listing in both forms.
#[test]
fn as_json() {
    let ran = intake_with(&["list", "--json", "-"], &sample("stdin"));
    assert_eq!((ran.status, ran.error.as_str()), (0, ""));
    let listed = json::line(ran.text());
    let keys = ["result", "status", "bones", "morphs", "end", "keys", "key_count", "loose"];
    assert_eq!(listed.keys(), keys);
    assert_eq!((listed.text("result"), listed.number("status")), ("listed", 0));
    let number = |name: &str| listed.number(name);
    let mut lines = format!("model {} {} {}\n", number("bones"), number("morphs"), number("end"));
    for key in listed.list("keys") {
        assert_eq!(key.keys()[..4], ["kind", "track", "frame", "map"]);
        let [track, frame, map] = ["track", "frame", "map"].map(|name| key.number(name));
        lines += &format!("{} {track} {frame} {map}\n", key.text("kind"));
    }
    lines += &format!("keys {} loose {}\n", number("key_count"), number("loose"));
    assert_eq!(lines.as_bytes(), sample("stdout"));
}

#[test]
fn refusals_as_json() {
    let wrong = section(bones(&[[0, 0, 0, 1]], &[[1, 1, -5, 0]]), morphs(&[], &[]));
    let ran = intake_with(&["list", "--json", "-"], &wrong);
    assert_eq!((ran.status, ran.error.as_str()), (3, ""));
    let refused = json::line(ran.text());
    assert_eq!(refused.keys(), ["result", "status", "file", "model", "number", "kind", "values", "words"]);
    assert_eq!((refused.text("result"), refused.number("status"), refused.number("number")), ("refused", 3, 8));
    assert_eq!((refused.text("file"), refused.text("kind"), refused.get("model")), ("-", "bone", &json::Json::Null));
    let values = refused.get("values");
    assert_eq!(values.keys(), ["track", "link", "found", "expected"]);
    assert_eq!(["track", "link", "found", "expected"].map(|name| values.number(name)), [0, 1, -5, 0]);
    assert!(refused.text("words").contains("has the previous link -5, not 0"));
}
