//! Strips that the strip call never writes are not compared.

use crate::command::{file, intake, intake_with};
use crate::json;
use crate::strips::*;

/// What `compare` tells of it, on either side.
fn malformed(name: &str, bad: &[u8], number: u8) {
    let sound = file(&format!("malformed {name}"), &strip());
    let front = format!("intake: standard input: malformed strip: refused {number}: ");
    for arguments in [["compare", &sound, "-"], ["compare", "-", &sound]] {
        let ran = intake_with(&arguments, bad);
        assert_eq!((ran.status, ran.output.len()), (5, 0), "{name}");
        assert!(ran.error.starts_with(&front), "{name}: {}", ran.error);
    }
    let ran = intake_with(&["compare", "--json", "-", &sound], bad);
    let told = json::line(ran.text());
    assert_eq!((ran.status, told.keys()), (5, vec!["result", "status", "file", "number", "words"]));
    assert_eq!((told.text("result"), told.text("file")), ("malformed", "-"));
    assert_eq!(told.number("number"), number.into(), "{name}");
    assert!(told.text("words").starts_with(&front["intake: ".len()..]), "{name}");
}

/// The words are the library's.
#[test]
fn in_words() {
    let sound = file("malformed in words", &strip());
    let told = |bad: &[u8]| intake_with(&["compare", &sound, "-"], bad).error;
    let words = |number, words: &str| format!("intake: standard input: malformed strip: refused {number}: {words}\n");
    let whole = "the strip ends early, or bytes are left over behind its last track";
    assert_eq!(told(&with(MAP, &[16])), words(24, "a bone's map byte is above 15, or a morph's above 1"));
    assert_eq!(told(&strip()[..END - 1]), words(23, whole));
    assert_eq!(told(&[0; 340]), words(23, &format!("{whole} (this looks like a section, not a strip)")));
}

/// Of two malformed strips the first is told.
#[test]
fn both() {
    let (first, second) = (file("malformed both first", &[0; 3]), file("malformed both second", &with(MAP, &[16])));
    let ran = intake(&["compare", &first, &second]);
    assert!(ran.error.starts_with(&format!("intake: {first}: malformed strip: refused 23: ")), "{}", ran.error);
    let ran = intake(&["compare", &second, &first]);
    assert!(ran.error.starts_with(&format!("intake: {second}: malformed strip: refused 24: ")), "{}", ran.error);
    let ran = intake(&["compare", &first, &first]);
    assert_eq!(ran.status, 5);
}

#[test]
fn not_whole() {
    let sound = file("malformed truncations", &strip());
    for length in 0..END {
        let ran = intake_with(&["compare", &sound, "-"], &strip()[..length]);
        assert_eq!(ran.status, 5);
        assert!(ran.error.contains(": refused 23: "), "{length}: {}", ran.error);
    }
    malformed("left over", &[strip(), vec![0; 3]].concat(), 23);
    malformed("too long", &vec![0; 16_777_216], 16);
}

#[test]
fn maps() {
    malformed("map 16", &with(MAP, &[16]), 24);
    malformed("map 255", &with(MAP, &[255]), 24);
    malformed("morph map 2", &with(MORPH_MAP, &[2]), 24);
}

#[test]
fn tracks() {
    let without_keys = [&strip()[..MORPH_TRACK], &[0, 0]].concat();
    malformed("without keys", &without_keys, 25);
    let key = |frame: u32| [&frame.to_le_bytes()[..], &[0]].concat();
    let track: Vec<u8> = [vec![255, 255], (0..65_535).flat_map(key).collect()].concat();
    let two = [vec![0, 0, 2, 0], track.clone(), vec![1, 0, 0, 0, 0, 0, 0]].concat();
    let sound = file("malformed most keys", &two);
    assert_eq!(intake(&["compare", &sound, &sound]).status, 0);
    malformed("most keys", &[vec![0, 0, 2, 0], track, vec![2, 0], key(0), key(1)].concat(), 25);
}

#[test]
fn frames() {
    malformed("frame", &with(FRAME, &[0, 0, 0, 128]), 25);
    malformed("frame repeated", &with(FRAME, &[0]), 25);
}

#[test]
fn plain_fields() {
    malformed("translation", &with(TRANSLATION, &[0; 12]), 25);
    malformed("negative translation", &with(TRANSLATION, &(-0.0_f32).to_le_bytes().repeat(3)), 25);
    malformed("orientation", &with(ORIENTATION, &[0_f32, 0.0, 0.0, 1.0].map(f32::to_le_bytes).concat()), 25);
    let curve = [20, 20, 107, 107];
    malformed("movement curves", &with(MOVEMENT_CURVES, &curve.repeat(3)), 25);
    malformed("rotation curve", &with(ROTATION_CURVE, &curve), 25);
    malformed("weight", &with(WEIGHT, &[0; 4]), 25);
}

#[test]
fn values() {
    for float in [f32::NAN, f32::INFINITY, f32::NEG_INFINITY] {
        malformed(&format!("translation {float}"), &with_float(TRANSLATION + 8, float), 25);
        malformed(&format!("orientation {float}"), &with_float(ORIENTATION, float), 25);
        malformed(&format!("weight {float}"), &with_float(WEIGHT, float), 25);
    }
    let [long, short] = [11, 12].map(|power| 0.5_f32.powi(power).to_le_bytes());
    let orientation = |x: [u8; 4], y: [u8; 4]| with(ORIENTATION, [x, y, [0; 4], [0; 4]].as_flattened());
    malformed("short", &orientation(short, short), 25);
    let sound = file("malformed long enough", &orientation(long, [0; 4]));
    assert_eq!(intake(&["compare", &sound, &sound]).status, 0);
    malformed("movement curve", &with(MOVEMENT_CURVES, &[128]), 25);
    malformed("rotation curve byte", &with(ROTATION_CURVE, &[255]), 25);
}
