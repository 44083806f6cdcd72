//! `intake compare`: the first place where two strips differ.

use crate::command::{Ran, file, intake, intake_with};
use crate::json::{self, Json, numbers};
use crate::strips::*;

/// The strip by hand compared with another, in words and as JSON.
fn compared(name: &str, other: &[u8]) -> (Ran, Json) {
    let first = file(&format!("compare {name}"), &strip());
    let ran = intake_with(&["compare", &first, "-"], other);
    let as_json = intake_with(&["compare", "--json", &first, "-"], other);
    assert_eq!((as_json.status, as_json.error.as_str()), (ran.status, ""));
    (ran, json::line(as_json.text()))
}

/// That another strip differs: the item and its words, with those of both values.
fn differs(item: &str, other: &[u8], words: &str) -> Json {
    let (ran, told) = compared(&format!("{item} {words}").replace('/', " "), other);
    assert_eq!(ran, Ran { status: 1, output: format!("differ: {words}\n").into(), error: String::new() });
    let keys = ["result", "status", "item", "kind", "track", "key", "frame", "first", "second", "words"];
    assert_eq!(told.keys(), keys);
    assert_eq!((told.text("result"), told.number("status"), told.text("item")), ("differ", 1, item));
    assert_eq!(told.text("words"), words);
    told
}

/// The strip by hand without these bytes, and with another map at `map_at`.
fn without(at: usize, length: usize, map_at: usize, map: u8) -> Vec<u8> {
    let mut strip = with(map_at, &[map]);
    strip.drain(at..at + length);
    strip
}

#[test]
fn agree() {
    let (ran, told) = compared("agree", &strip());
    let text = "agree: 1 bone track, 1 morph track, 3 keys\n";
    assert_eq!(ran, Ran { status: 0, output: text.into(), error: String::new() });
    assert_eq!(told.keys(), ["result", "status", "bones", "morphs", "key_count"]);
    assert_eq!((told.text("result"), told.number("status"), told.number("key_count")), ("agree", 0, 3));
}

/// One key, and none.
#[test]
fn agree_on_little() {
    let one = [1, 0, 0, 0, 1, 0, 0, 0, 0, 0, 0];
    for (strip, words) in
        [(&one[..], "1 bone track, 0 morph tracks, 1 key"), (&[0; 4], "0 bone tracks, 0 morph tracks, 0 keys")]
    {
        let path = file(&format!("compare little {}", strip.len()), strip);
        assert_eq!(intake(&["compare", &path, &path]).text(), format!("agree: {words}\n"));
    }
}

#[test]
fn counts() {
    let told = differs("bone_count", &[0, 0, 0, 0], "number of bone tracks: 1 in the first, 0 in the second");
    assert_eq!((told.get("kind"), told.get("track"), told.get("key")), (&Json::Null, &Json::Null, &Json::Null));
    let fewer = [&[1, 0, 0, 0], &strip()[4..MORPH_TRACK]].concat();
    differs("morph_count", &fewer, "number of morph tracks: 1 in the first, 0 in the second");
    let mut fewer = with(4, &[1, 0]);
    fewer.drain(FRAME..MORPH_TRACK);
    let told = differs("key_count", &fewer, "bone track 0, number of keys: 2 in the first, 1 in the second");
    assert_eq!((told.text("kind"), told.number("track"), told.get("key")), ("bone", 0, &Json::Null));
    assert_eq!((told.number("first"), told.number("second")), (2, 1));
}

#[test]
fn frames() {
    let told = differs("frame", &with(FRAME, &[13]), "bone track 0, key 1, frame: 12 in the first, 13 in the second");
    assert_eq!((told.number("key"), told.get("frame")), (1, &Json::Null));
    let words = "morph track 0, key 0, frame: 5 in the first, 2147483647 in the second";
    let told = differs("frame", &with(MORPH_TRACK + 2, &[255, 255, 255, 127]), words);
    assert_eq!((told.text("kind"), told.number("second")), ("morph", 2_147_483_647));
}

#[test]
fn fields() {
    let words =
        "bone track 0, key 1, frame 12, translation: [1.5, 2.0, -3.0] in the first, [1.5, 2.5, -3.0] in the second";
    let told = differs("translation", &with_float(TRANSLATION + 4, 2.5), words);
    assert_eq!((told.text("kind"), told.number("track"), told.number("key")), ("bone", 0, 1));
    assert_eq!(told.number("frame"), 12);
    assert_eq!(told.get("first"), &numbers(&["1.5", "2.0", "-3.0"]));
    assert_eq!(told.get("second"), &numbers(&["1.5", "2.5", "-3.0"]));

    let words = "bone track 0, key 1, frame 12, orientation: [0.0, 0.5, 0.0, 0.5] in the first, \
                 [0.0, 0.5, 0.0, 1e20] in the second";
    let told = differs("orientation", &with_float(ORIENTATION + 12, 1e20), words);
    assert_eq!(told.get("second"), &numbers(&["0.0", "0.5", "0.0", "1e20"]));

    let words = "bone track 0, key 1, frame 12, movement curves: [[1, 2, 3, 4], [5, 6, 7, 8], [9, 10, 11, 12]] in the first, \
                 [[1, 2, 3, 4], [5, 0, 7, 8], [9, 10, 11, 12]] in the second";
    let told = differs("movement_curves", &with(MOVEMENT_CURVES + 5, &[0]), words);
    let curves = |y| Json::List(vec![numbers(&["1", "2", "3", "4"]), y, numbers(&["9", "10", "11", "12"])]);
    assert_eq!(told.get("second"), &curves(numbers(&["5", "0", "7", "8"])));

    let words =
        "bone track 0, key 1, frame 12, rotation curve: [[9, 9, 9, 127]] in the first, [[9, 9, 9, 9]] in the second";
    differs("rotation_curve", &with(ROTATION_CURVE + 3, &[9]), words);
    let words = "morph track 0, key 0, frame 5, weight: [0.25] in the first, [0.125] in the second";
    let told = differs("weight", &with_float(WEIGHT, 0.125), words);
    assert_eq!((told.text("kind"), told.number("key"), told.number("frame")), ("morph", 0, 5));
}

/// A field that one of the strips leaves out.
#[test]
fn plain_in_one() {
    let words = "bone track 0, key 1, frame 12, translation: [1.5, 2.0, -3.0] in the first, plain in the second";
    let told = differs("translation", &without(TRANSLATION, 12, MAP, 14), words);
    assert_eq!(told.text("second"), "plain");
    let words = "bone track 0, key 1, frame 12, orientation: [0.0, 0.5, 0.0, 0.5] in the first, plain in the second";
    differs("orientation", &without(ORIENTATION, 16, MAP, 13), words);
    let words = "bone track 0, key 1, frame 12, movement curves: [[1, 2, 3, 4], [5, 6, 7, 8], [9, 10, 11, 12]] in the first, \
                 plain in the second";
    differs("movement_curves", &without(MOVEMENT_CURVES, 12, MAP, 11), words);
    let words = "bone track 0, key 1, frame 12, rotation curve: [[9, 9, 9, 127]] in the first, plain in the second";
    differs("rotation_curve", &without(ROTATION_CURVE, 4, MAP, 7), words);
    let words = "morph track 0, key 0, frame 5, weight: [0.25] in the first, plain in the second";
    differs("weight", &without(WEIGHT, 4, MORPH_MAP, 0), words);
}

/// Bits count, not values.
#[test]
fn signs_of_zero() {
    let signed = with_float(ORIENTATION, -0.0);
    let words = "bone track 0, key 1, frame 12, orientation: [0.0, 0.5, 0.0, 0.5] in the first, \
                 [-0.0, 0.5, 0.0, 0.5] in the second";
    let told = differs("orientation", &signed, words);
    assert_eq!(told.get("second"), &numbers(&["-0.0", "0.5", "0.0", "0.5"]));
}

/// Of several differences the first.
#[test]
fn the_first_of_several() {
    let mut other = with_float(WEIGHT, 0.125);
    other[ROTATION_CURVE] = 8;
    other[FRAME] = 13;
    differs("frame", &other, "bone track 0, key 1, frame: 12 in the first, 13 in the second");
}

/// The first strip is the first argument.
#[test]
fn sides() {
    let (a, b) = (file("compare side a", &strip()), file("compare side b", &with(FRAME, &[13])));
    let words =
        |first, second| format!("differ: bone track 0, key 1, frame: {first} in the first, {second} in the second\n");
    assert_eq!(intake(&["compare", &a, &b]).text(), words(12, 13));
    assert_eq!(intake(&["compare", &b, &a]).text(), words(13, 12));
}
