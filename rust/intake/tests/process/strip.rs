//! `intake strip`, and what `intake compare` says of what it wrote.

use std::fs;

use crate::command::{Ran, file, intake, intake_with, place, sample};
use crate::json;

/// The sample's 11 keys of 5 bytes each with their fields, behind 4 bytes of counts and 2 for each of 5 tracks.
const SAMPLE_LENGTH: usize = 4 + 2 * 5 + 5 * 11 + (12 + 44 + 16) + 4 + 16 + 12 + 2 * 4;

#[test]
fn written_and_compared() {
    let (section, strip) = (file("strip sample", &sample("stdin")), place("strip sample strip"));
    let ran = intake(&["strip", &section, "-o", &strip]);
    let text = format!("{SAMPLE_LENGTH} bytes, 6 reached, 1 loose\n");
    assert_eq!(ran, Ran { status: 0, output: text.into(), error: String::new() });
    let bytes = fs::read(&strip).expect("written");
    assert_eq!((bytes.len(), &bytes[..4]), (SAMPLE_LENGTH, &[3, 0, 2, 0][..]));

    let again = place("strip sample again");
    assert_eq!(intake_with(&["strip", "--output", &again, "-"], &sample("stdin")).status, 0);
    let agree = "agree: 3 bone tracks, 2 morph tracks, 11 keys\n";
    let ran = intake(&["compare", &strip, &again]);
    assert_eq!(ran, Ran { status: 0, output: agree.into(), error: String::new() });
    assert_eq!(intake_with(&["compare", &strip, "-"], &bytes).text(), agree);
}

#[test]
fn to_standard_output() {
    let strip = place("strip standard output");
    assert_eq!(intake_with(&["strip", "-", "-o", &strip], &sample("stdin")).status, 0);
    let ran = intake_with(&["strip", "-", "-o", "-"], &sample("stdin"));
    assert_eq!((ran.status, &ran.output), (0, &fs::read(&strip).expect("written")));
    assert_eq!(ran.error, format!("{SAMPLE_LENGTH} bytes, 6 reached, 1 loose\n"));
    let ran = intake_with(&["strip", "-", "-o", "-", "--json"], &sample("stdin"));
    assert_eq!(json::line(&ran.error).number("length"), ran.output.len() as i128);
    let refused = intake_with(&["strip", "-", "-o", "-", "--json"], &[0; 339]);
    assert_eq!((refused.status, refused.output.len()), (3, 0));
    assert_eq!(json::line(&refused.error).text("result"), "refused");
}

#[test]
fn as_json() {
    let strip = place("strip \"as\\json\"\u{1}é");
    let ran = intake_with(&["strip", "-", "-o", &strip, "--json"], &sample("stdin"));
    assert_eq!((ran.status, ran.error.as_str()), (0, ""));
    let written = json::line(ran.text());
    assert_eq!(written.keys(), ["result", "status", "output", "length", "reached", "loose"]);
    assert_eq!((written.text("result"), written.number("status")), ("written", 0));
    assert_eq!(written.text("output"), strip);
    assert_eq!(["length", "reached", "loose"].map(|name| written.number(name)), [SAMPLE_LENGTH as i128, 6, 1]);
}

#[test]
fn at_a_start() {
    let bytes = [vec![9; 11], sample("stdin"), vec![9; 3]].concat();
    let from_start = intake_with(&["strip", "-", "-o", "-", "--start", "11"], &bytes);
    let alone = intake_with(&["strip", "-", "-o", "-"], &sample("stdin"));
    assert_eq!(from_start, alone);
}

#[test]
fn refused_leaves_the_output() {
    let strip = file("strip refused", b"as it was");
    let ran = intake_with(&["strip", "-", "-o", &strip], &[0; 339]);
    let error = "intake: standard input: refused 1: the bytes end before the value at offset 339 is whole\n";
    assert_eq!(ran, Ran { status: 3, output: vec![], error: error.into() });
    assert_eq!(fs::read(&strip).expect("read"), b"as it was");
    let absent = place("strip refused absent");
    assert_eq!(intake_with(&["strip", "-", "-o", &absent], &[0; 339]).status, 3);
    assert!(!fs::exists(&absent).expect("known"));
}
