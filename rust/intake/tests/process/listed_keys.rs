//! The keys that `intake list` tells in JSON, with the values of their fields.

use generate::Kind;
use limdroven::{StripKey, StripRow, strip, strip_keys};

use crate::command::intake_with;
use crate::json::{self, Json, numbers};
use crate::strips::{self, MORPH_MAP, ORIENTATION, TRANSLATION, WEIGHT};

fn listed(arguments: &[&str], bytes: &[u8]) -> Vec<Json> {
    let ran = intake_with(&[&["list", "--json", "-"], arguments].concat(), bytes);
    assert_eq!((ran.status, ran.error.as_str()), (0, ""));
    json::line(ran.text()).list("keys").to_vec()
}

fn of_strip(strip: &[u8]) -> Vec<Json> {
    listed(&["--strip"], strip)
}

/// That a bone's key has these fields, as they are written.
fn bone(key: &Json, translation: [&str; 3], orientation: [&str; 4], curves: [[&str; 4]; 4]) {
    assert_eq!(key.keys(), ["kind", "track", "frame", "map", "translation", "orientation", "curves"]);
    assert_eq!(key.get("translation"), &numbers(&translation));
    assert_eq!(key.get("orientation"), &numbers(&orientation));
    assert_eq!(key.list("curves"), curves.map(|curve| numbers(&curve)));
}

fn morph(key: &Json, weight: &str) {
    assert_eq!(key.keys(), ["kind", "track", "frame", "map", "weight"]);
    assert_eq!(key.get("weight"), &Json::Number(weight.into()));
}

const PLAIN: [&str; 4] = ["20", "20", "107", "107"];
const NO_TURN: [&str; 4] = ["0.0", "0.0", "0.0", "1.0"];

/// Of a key that has every field, and of keys that have none.
#[test]
fn by_hand() {
    let keys = of_strip(&strips::strip());
    bone(&keys[0], ["0.0"; 3], NO_TURN, [PLAIN; 4]);
    let curves = [["1", "2", "3", "4"], ["5", "6", "7", "8"], ["9", "10", "11", "12"], ["9", "9", "9", "127"]];
    bone(&keys[1], ["1.5", "2.0", "-3.0"], ["0.0", "0.5", "0.0", "0.5"], curves);
    morph(&keys[2], "0.25");

    let mut plain = strips::with(MORPH_MAP, &[0]);
    plain.truncate(WEIGHT);
    morph(&of_strip(&plain)[2], "0.0");
}

/// A field that stands, beside those left out: each map has one of the four.
#[test]
fn one_field() {
    let key = |map: u8, field: &[u8]| [&[1, 0, 0, 0, 1, 0, 7, 0, 0, 0, map][..], field].concat();
    let floats = |floats: &[f32]| floats.iter().flat_map(|float| float.to_le_bytes()).collect::<Vec<u8>>();
    let told = |map, field: &[u8]| of_strip(&key(map, field)).remove(0);
    bone(&told(1, &floats(&[0.0, 0.5, 0.0])), ["0.0", "0.5", "0.0"], NO_TURN, [PLAIN; 4]);
    bone(&told(2, &floats(&[0.0, 0.0, 0.0, -1.0])), ["0.0"; 3], ["0.0", "0.0", "0.0", "-1.0"], [PLAIN; 4]);
    let movement = [20, 20, 107, 107, 20, 20, 107, 106, 20, 20, 107, 107];
    bone(&told(4, &movement), ["0.0"; 3], NO_TURN, [PLAIN, ["20", "20", "107", "106"], PLAIN, PLAIN]);
    bone(&told(8, &[0, 1, 126, 127]), ["0.0"; 3], NO_TURN, [PLAIN, PLAIN, PLAIN, ["0", "1", "126", "127"]]);
}

/// A negative zero beside a component that is not plain.
#[test]
fn signs_of_zero() {
    let key = &of_strip(&strips::with_float(TRANSLATION, -0.0))[1];
    assert_eq!(key.get("translation"), &numbers(&["-0.0", "2.0", "-3.0"]));
    let key = &of_strip(&strips::with_float(ORIENTATION + 8, -0.0))[1];
    assert_eq!(key.get("orientation"), &numbers(&["0.0", "0.5", "-0.0", "0.5"]));
}

/// In the shortest digits that give the same bits again.
#[test]
fn floats() {
    for (float, digits) in [
        (0.1, "0.1"),
        (-16_777_216.0, "-16777216.0"),
        (1.0 / 3.0, "0.33333334"),
        (1e20, "1e20"),
        (f32::MAX, "3.4028235e38"),
        (f32::MIN_POSITIVE, "1.1754944e-38"),
        (-f32::from_bits(1), "-1e-45"),
        // Read as a float of 64 bits and then rounded, this would be its neighbour.
        (f32::from_bits(0x15ae_43fd), "7.038531e-26"),
    ] {
        assert_eq!(digits.parse::<f32>().expect("a float").to_bits(), float.to_bits());
        let keys = of_strip(&strips::with_float(WEIGHT, float));
        assert_eq!(keys[2].get("weight"), &Json::Number(digits.into()));
        let keys = of_strip(&strips::with_float(TRANSLATION + 8, float));
        assert_eq!(keys[1].get("translation"), &numbers(&["1.5", "2.0", digits]));
    }
}

/// Track, frame, map and the bits of all values, read from a key's object.
fn told(key: &Json, kind: &str) -> Vec<u32> {
    let number = |json: &Json| match json {
        Json::Number(number) => number.clone(),
        other => panic!("no number: {other:?}"),
    };
    let float = |json: &Json| number(json).parse::<f32>().expect("a float").to_bits();
    assert_eq!(key.text("kind"), kind);
    let place = ["track", "frame", "map"].map(|name| key.number(name) as u32);
    let fields: Vec<u32> = match kind {
        "bone" => {
            let floats = [key.list("translation"), key.list("orientation")].concat();
            let curves = key.list("curves").iter().flat_map(|curve| match curve {
                Json::List(curve) => curve,
                other => panic!("no list: {other:?}"),
            });
            let bytes = curves.map(|byte| number(byte).parse().expect("a byte"));
            floats.iter().map(float).chain(bytes).collect()
        }
        _ => vec![float(key.get("weight"))],
    };
    [&place[..], &fields].concat()
}

/// The same of a row.
fn read(StripRow { track, key, .. }: &StripRow) -> Vec<u32> {
    let place = [track.number(), key.frame(), key.map().into()];
    let fields = match key {
        StripKey::Bone(key) => [
            &key.translation_bits()[..],
            &key.orientation_bits(),
            &key.curves.as_flattened().iter().map(|byte| u32::from(*byte)).collect::<Vec<_>>(),
        ]
        .concat(),
        StripKey::Morph(key) => vec![key.weight_bits()],
    };
    [&place[..], &fields].concat()
}

/// The library's own values, of sections and of their strips.
#[test]
fn generated() {
    let (mut bones, mut morphs, mut signed) = (0, 0, 0);
    for case in (0..300).map(|number| generate::case(23, number).1).filter(|case| case.kind == Kind::Model) {
        let Ok(strip) = strip(&case.section, case.start as usize) else { continue };
        let keys = of_strip(&strip.bytes);
        assert_eq!(listed(&["--start", &case.start.to_string()], &case.section), keys);
        let rows = strip_keys(&strip.bytes).expect("read");
        assert_eq!(keys.len(), rows.len());
        for (key, row) in keys.iter().zip(&rows) {
            let kind = row.track.kind().to_string();
            let values = read(row);
            assert_eq!(told(key, &kind), values);
            *if kind == "bone" { &mut bones } else { &mut morphs } += 1;
            signed += values.iter().filter(|bits| **bits == 1 << 31).count();
        }
    }
    assert!(bones > 500 && morphs > 500 && signed > 0, "{bones} {morphs} {signed}");
}
