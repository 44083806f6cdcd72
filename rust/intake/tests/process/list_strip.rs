//! `intake list --strip`: the keys of a stored strip.

use limdroven::strip;

use crate::command::{Ran, file, intake, intake_with, sample};
use crate::json::{self, Json};
use crate::strips;

const BY_HAND: &str = "strip 1 1 71\nbone 0 0 0\nbone 0 12 15\nmorph 0 5 1\nkeys 3\n";

fn quiet(text: &str) -> Ran {
    Ran { status: 0, output: text.into(), error: String::new() }
}

fn refused(bytes: &[u8], number: u8, words: &str) {
    let refused = format!("refused {number}");
    let ran = intake_with(&["list", "--strip", "-"], bytes);
    let error = format!("intake: standard input: {refused}: {words}\n");
    assert_eq!(ran, Ran { status: 3, output: format!("{refused}\n").into(), error });

    let path = file(&format!("list strip refused {number} {}", bytes.len()), bytes);
    let ran = intake(&["list", "--json", "--strip", &path]);
    assert_eq!((ran.status, ran.error.as_str()), (3, ""));
    let told = json::line(ran.text());
    assert_eq!(told.keys(), ["result", "status", "file", "model", "number", "kind", "values", "words"]);
    assert_eq!((told.text("result"), told.number("number")), ("refused", number.into()));
    assert_eq!((told.text("file"), told.text("words")), (&path[..], &format!("{path}: {refused}: {words}")[..]));
    assert_eq!((told.get("model"), told.get("kind")), (&Json::Null, &Json::Null));
    assert!(told.get("values").keys().is_empty());
}

#[test]
fn by_hand() {
    assert_eq!(intake_with(&["list", "--strip", "-"], &strips::strip()), quiet(BY_HAND));
    let path = file("list strip by hand", &strips::strip());
    assert_eq!(intake(&["list", "--strip", &path]), quiet(BY_HAND));
    assert_eq!(intake(&["list", &path, "--strip"]), quiet(BY_HAND));
    assert_eq!(intake_with(&["list", "--strip", "-"], &[0; 4]), quiet("strip 0 0 4\nkeys 0\n"));
}

/// The lines of its keys are those of the section.
#[test]
fn the_sample() {
    let strip = strip(&sample("stdin"), 0).expect("built").bytes;
    let listing = String::from_utf8(sample("stdout")).expect("text");
    let mut lines: Vec<&str> = listing.lines().collect();
    let (first, last) = (format!("strip 3 2 {}", strip.len()), "keys 11");
    assert_eq!((lines[0], lines[lines.len() - 1]), ("model 3 2 1028", "keys 11 loose 1"));
    lines[0] = &first;
    *lines.last_mut().expect("a line") = last;
    assert_eq!(intake_with(&["list", "--strip", "-"], &strip), quiet(&(lines.join("\n") + "\n")));
}

#[test]
fn as_json() {
    let ran = intake_with(&["list", "--strip", "--json", "-"], &strips::strip());
    assert_eq!((ran.status, ran.error.as_str()), (0, ""));
    let listed = json::line(ran.text());
    assert_eq!(listed.keys(), ["result", "status", "bones", "morphs", "length", "keys", "key_count"]);
    assert_eq!((listed.text("result"), listed.number("status")), ("listed", 0));
    let number = |name: &str| listed.number(name);
    let mut lines = format!("strip {} {} {}\n", number("bones"), number("morphs"), number("length"));
    for key in listed.list("keys") {
        assert_eq!(key.keys()[..4], ["kind", "track", "frame", "map"]);
        let [track, frame, map] = ["track", "frame", "map"].map(|name| key.number(name));
        lines += &format!("{} {track} {frame} {map}\n", key.text("kind"));
    }
    assert_eq!(lines + &format!("keys {}\n", number("key_count")), BY_HAND);
}

#[test]
fn refusals() {
    let whole = "the strip ends early, or bytes are left over behind its last track";
    refused(&strips::strip()[..70], 23, whole);
    refused(&[strips::strip(), vec![0]].concat(), 23, whole);
    refused(&[], 23, whole);
    let map = "a bone's map byte is above 15, or a morph's above 1";
    refused(&strips::with(strips::MAP, &[16]), 24, map);
    let ran = intake_with(&["list", "--strip", "-"], &strips::with_float(strips::WEIGHT, f32::NAN));
    assert_eq!((ran.status, ran.text()), (3, "refused 25\n"));
    let words = "intake: standard input: refused 25: the strip has what the strip call never writes: a plain field, ";
    assert!(ran.error.starts_with(words), "{}", ran.error);
    refused(&vec![0; 16_777_216], 16, "more than 16777215 bytes");
}

/// A file of the other kind is told as such; so is a project.
#[test]
fn not_a_strip() {
    let whole =
        "intake: standard input: refused 23: the strip ends early, or bytes are left over behind its last track";
    let ran = intake_with(&["list", "--strip", "-"], &[0; 340]);
    let error = format!("{whole} (this looks like a section, not a strip)\n");
    assert_eq!(ran, Ran { status: 3, output: b"refused 23\n".to_vec(), error });
    let project = b"Polygon Movie maker 0002\0\0\0\0\0\0";
    let ran = intake_with(&["list", "--strip", "-"], project);
    assert!(ran.error.ends_with(" (this looks like a project, not a strip)\n"), "{}", ran.error);

    let ran = intake_with(&["list", "-"], &strips::strip());
    assert_eq!(ran.status, 3);
    assert!(ran.text().starts_with("refused "), "{}", ran.text());
    assert!(ran.error.ends_with(" (this looks like a strip: --strip lists it)\n"), "{}", ran.error);
}

/// 65,535 keys in one track, in the order in which they stand.
#[test]
fn many_keys() {
    let frames = (0..65_535_u32).map(|number| number * 7 % 65_535 * 30_000);
    let keys = frames.clone().flat_map(|frame| [&frame.to_le_bytes()[..], &[0]].concat());
    let strip: Vec<u8> = [0, 0, 1, 0, 255, 255].into_iter().chain(keys).collect();
    let lines: String = frames.map(|frame| format!("morph 0 {frame} 0\n")).collect();
    let listing = format!("strip 0 1 {}\n{lines}keys 65535\n", strip.len());
    assert_eq!(intake_with(&["list", "--strip", "-"], &strip), quiet(&listing));
}
