//! Generated sections: a strip that the library builds is listed as its section is and never called malformed, and the exit
//! status follows the bytes.

use generate::Kind;
use limdroven::{model_summary, strip};

use crate::command::{file, intake, intake_with, sample};

#[test]
fn lists() {
    let (mut accepted, mut refused) = (0, 0);
    for number in 0..500 {
        let (family, case) = generate::case(21, number);
        let start = case.start.to_string();
        let ran = intake_with(&["list", "-", "--start", &start], &case.section);
        match strip(&case.section, case.start as usize) {
            Ok(strip) => {
                let summary = model_summary(&case.section, case.start as usize).expect("read");
                let keys = summary.bone_count + summary.morph_count + strip.reached;
                let last = format!("\nkeys {keys} loose {}\n", strip.loose);
                assert_eq!((ran.status, ran.error.as_str()), (0, ""), "{family} {number}");
                assert!(ran.text().ends_with(&last), "{family} {number}");
                assert_eq!(ran.text().lines().count(), keys + 2, "{family} {number}");
                let lines = ran.text().split_inclusive('\n').skip(1).take(keys).collect::<String>();
                let (bones, morphs, length) = (summary.bone_count, summary.morph_count, strip.bytes.len());
                let ran = intake_with(&["list", "--strip", "-"], &strip.bytes);
                assert_eq!((ran.status, ran.error.as_str()), (0, ""), "{family} {number}");
                let listing = format!("strip {bones} {morphs} {length}\n{lines}keys {keys}\n");
                assert_eq!(ran.text(), listing, "{family} {number}");
                accepted += 1;
            }
            Err(refusal) => {
                assert_eq!(ran.status, 3, "{family} {number}");
                assert_eq!(ran.text(), format!("refused {}\n", refusal.number()), "{family} {number}");
                let length = case.section.len();
                let words = if case.start as usize > length {
                    format!("refused 1: the start {start} is past the end of standard input, which has {length} bytes")
                } else {
                    refusal.to_string()
                };
                assert_eq!(ran.error, format!("intake: standard input: {words}\n"), "{family} {number}");
                refused += 1;
            }
        }
    }
    assert!(accepted > 100 && refused > 100, "{accepted} {refused}");
}

/// A strip agrees with itself and with no other.
#[test]
fn compares() {
    let cases = (0..300).map(|number| generate::case(22, number).1).filter(|case| case.kind == Kind::Model);
    let strips: Vec<Vec<u8>> =
        cases.filter_map(|case| Some(strip(&case.section, case.start as usize).ok()?.bytes)).collect();
    assert!(strips.len() > 50);
    for (number, pair) in strips.windows(2).enumerate() {
        let path = file(&format!("generated {number}"), &pair[0]);
        assert_eq!(intake_with(&["compare", &path, "-"], &pair[0]).status, 0, "{number}");
        let status = i32::from(pair[0] != pair[1]);
        assert_eq!(intake_with(&["compare", "-", &path], &pair[1]).status, status, "{number}");
        assert_eq!(intake(&["compare", &path, &path]).status, 0, "{number}");
    }
}

/// One bit of the sample's strip changed: it is listed and differs, or it is refused and malformed.
#[test]
fn changed_bits() {
    let strip = strip(&sample("stdin"), 0).expect("built").bytes;
    let path = file("generated changed bits", &strip);
    for at in 0..strip.len() {
        for bit in [0, 3, 7] {
            let mut changed = strip.clone();
            changed[at] ^= 1 << bit;
            let ran = intake_with(&["compare", &path, "-"], &changed);
            let listed = intake_with(&["list", "--strip", "-"], &changed);
            assert!([(1, 0), (5, 3)].contains(&(ran.status, listed.status)), "{at} {bit}: {ran:?} {listed:?}");
        }
    }
}
