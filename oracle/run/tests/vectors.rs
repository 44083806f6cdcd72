//! The samples that the gate replays.

use std::fs;
use std::path::Path;

use answers::Kind;
use generate::asset_lists::FAMILIES;
use run::assets::{expected, shown};
use run::strip_vectors::{outcomes, sample};
use run::{asset_cases, asset_vectors, replay, strip_cases, strip_read_vectors};

/// Each refusal that a program can meet, of bones and of morphs where both have it; 17 and 18 come with every section that
/// has records, and with every accepted one.
#[test]
fn each_refusal_has_several_strip_calls() {
    let outcomes = outcomes(&sample());
    let several = |number, kind| assert!(outcomes.get(&(number, kind)).is_some_and(|sections| *sections > 4));
    [0, 1, 2, 12, 13, 14, 20].into_iter().for_each(|number| several(number, None));
    for number in (3..=8).chain([10, 11, 15]) {
        [Kind::Bone, Kind::Morph].into_iter().for_each(|kind| several(number, Some(kind)));
    }
}

/// The sections by hand give the numbers that they are made for.
#[test]
fn by_hand() {
    for (case, (outcome, _)) in strip_cases::cases().iter().zip(sample()) {
        assert_eq!(case.label, outcome.0.to_string(), "{:?} from {}", case.section, case.start);
    }
}

/// The look-ups by hand answer what they are made for, and every family of lists that is short has several.
#[test]
fn look_ups() {
    for (case, outcome) in asset_cases::cases() {
        let answer = expected(&case).expect("no contradiction").map_err(|refusal| refusal.number);
        assert_eq!(answer, outcome, "{}", shown(&case));
    }
    let families = asset_vectors::families(&asset_vectors::sample());
    for (family, _) in FAMILIES {
        assert!(families.get(family).is_some_and(|look_ups| *look_ups > 4), "{family}");
    }
}

/// Each refusal of a strip that is read back has several strips, by hand and generated; accepted are long ones too.
#[test]
fn strips_read_back() {
    let sample = strip_read_vectors::sample();
    let outcomes = strip_read_vectors::outcomes(&sample);
    for number in [0, 23, 24, 25] {
        let of = |by_hand: bool| {
            let of = outcomes.iter().filter(|((family, of), _)| *of == number && by_hand == (*family == "by hand"));
            of.map(|(_, strips)| strips).sum::<usize>()
        };
        assert!(of(true) > 10 && of(false) > 20, "{number}");
    }
    assert!(sample.iter().any(|vector| vector.section.len() > 3_000));
}

/// What is stored is what is written now.
#[test]
fn stored() {
    let replayed = Path::new(env!("CARGO_MANIFEST_DIR")).join("../../crates/replay");
    for (path, bytes) in replay::files().files {
        assert!(fs::read(replayed.join(&path)).expect("a stored file") == bytes, "{path}");
    }
}
