//! Sections, paths with lists of references, and strips, made from a seed: the same case from the same seed and number, everywhere.

pub mod asset_limits;
pub mod asset_lists;
pub mod asset_paths;
pub mod assets;
pub mod damage;
pub mod large;
pub mod prng;
pub mod refusals;
pub mod section;
pub mod shapes;
pub mod sound;
pub mod strip_bytes;
pub mod strip_faults;
pub mod strip_frames;
pub mod strip_keys;
pub mod strip_limits;
pub mod strips;
pub mod values;

use prng::Prng;
use section::Model;
use sound::Sizes;

#[derive(Debug, Clone, Copy, PartialEq, Eq)]
pub enum Kind {
    Model,
    Camera,
    Light,
}

#[derive(Debug, Clone)]
pub struct Case {
    pub kind: Kind,
    pub label: String,
    pub section: Vec<u8>,
    pub start: u64,
}

/// Makes a case with the family's turn, which counts its cases under the seed.
type Make = fn(&Prng, seed: u64, turn: u64) -> Case;

/// The families, each with its share of the cases.
const FAMILIES: [(&str, usize, Make); 13] = [
    ("sound", 3, sound_model),
    ("shuffled", 1, shuffled),
    ("refusal", 4, refusal),
    ("several refusals", 2, several_refusals),
    ("tangle", 3, tangle),
    ("orientation at the limit", 1, orientation_at_the_limit),
    ("any floats", 1, any_floats),
    ("camera and light", 1, camera_and_light),
    ("truncated", 3, damage::truncated),
    ("damaged byte", 3, damage::damaged),
    ("miscounted", 2, damage::miscounted),
    ("misplaced", 1, damage::misplaced),
    ("noise", 1, damage::noise),
];
const SHARES: usize = 26;

/// One in so many cases is large, besides the shares.
const LARGE_EVERY: u64 = 1000;

/// The family's name, and the case.
pub fn case(seed: u64, number: u64) -> (&'static str, Case) {
    let prng = &Prng::new(seed, 0, number);
    if number % LARGE_EVERY == LARGE_EVERY - 1 {
        return ("large", large::large(prng, seed, number / LARGE_EVERY));
    }
    let number = number - number / LARGE_EVERY;
    let (round, mut share) = (number / SHARES as u64, number as usize % SHARES);
    for (name, shares, make) in FAMILIES {
        if share < shares {
            return (name, make(prng, seed, round * shares as u64 + share as u64));
        }
        share -= shares;
    }
    unreachable!("SHARES is the sum of the shares")
}

/// A section lent by itself, or with bytes before or behind it.
fn lent(prng: &Prng, kind: Kind, label: String, section: Vec<u8>) -> Case {
    let some = || {
        let length = if prng.one_in(3) { 1 + prng.below(40) } else { 0 };
        prng.bytes(length)
    };
    let (before, behind) = (some(), some());
    let start = before.len() as u64;
    Case { kind, label, section: [before, section, behind].concat(), start }
}

fn lent_model(prng: &Prng, label: String, model: &Model) -> Case {
    lent(prng, Kind::Model, label, model.write().bytes)
}

fn sound_model(prng: &Prng, _: u64, _: u64) -> Case {
    let sizes = Sizes::any(prng);
    let model = sound::model(prng, sizes, values::name);
    lent_model(prng, format!("{sizes:?}"), &model)
}

fn chained(prng: &Prng) -> Model {
    let sizes = Sizes::chained(prng);
    sound::model(prng, sizes, values::name)
}

fn shuffle(prng: &Prng, model: &mut Model) {
    prng.shuffle(&mut model.bones.additional);
    prng.shuffle(&mut model.morphs.additional);
}

fn shuffled(prng: &Prng, _: u64, _: u64) -> Case {
    let sizes = Sizes::any(prng);
    let mut model = sound::model(prng, sizes, values::name);
    shuffle(prng, &mut model);
    lent_model(prng, format!("shuffled {sizes:?}"), &model)
}

/// 3 to 15 of bones and of morphs in turn; where a kind has no such refusal, its own.
fn refusal(prng: &Prng, _: u64, turn: u64) -> Case {
    let mut model = chained(prng);
    let number = 3 + (turn % 26 / 2) as u8;
    let label = meet(prng, &mut model, number, turn.is_multiple_of(2));
    if prng.one_in(2) {
        shuffle(prng, &mut model);
    }
    lent_model(prng, label, &model)
}

fn several_refusals(prng: &Prng, _: u64, _: u64) -> Case {
    let mut model = chained(prng);
    let mut label = String::new();
    for _ in 0..2 + prng.below(3) {
        let (number, bone) = (3 + prng.below(13) as u8, prng.one_in(2));
        label = format!("{label} {}", meet(prng, &mut model, number, bone));
    }
    shuffle(prng, &mut model);
    lent_model(prng, label, &model)
}

fn meet(prng: &Prng, model: &mut Model, number: u8, bone: bool) -> String {
    if bone {
        refusals::meet(prng, &mut model.bones, number);
    } else {
        refusals::meet(prng, &mut model.morphs, number);
    }
    format!("{number} {}", if bone { "bone" } else { "morph" })
}

fn tangle(prng: &Prng, _: u64, _: u64) -> Case {
    let mut model = chained(prng);
    if prng.one_in(2) {
        refusals::tangle(prng, &mut model.bones);
    } else {
        refusals::tangle(prng, &mut model.morphs);
    }
    shuffle(prng, &mut model);
    lent_model(prng, "tangled links".into(), &model)
}

fn orientation_at_the_limit(prng: &Prng, _: u64, _: u64) -> Case {
    let mut model = chained(prng);
    let bone = prng.below(model.bones.initial.len());
    model.bones.initial[bone].payload.orientation = values::orientation_at_the_limit(prng);
    lent_model(prng, format!("bone {bone}, orientation at the limit"), &model)
}

/// One float of one bone and one of one morph, each finite or not.
fn any_floats(prng: &Prng, _: u64, _: u64) -> Case {
    let mut model = chained(prng);
    let bone = prng.below(model.bones.initial.len());
    let pose = &mut model.bones.initial[bone].payload;
    match prng.below(7) {
        float @ 0..3 => pose.translation[float] = values::float(prng),
        float => pose.orientation[float - 3] = values::float(prng),
    }
    let morph = prng.below(model.morphs.initial.len());
    model.morphs.initial[morph].payload.weight = values::float(prng);
    lent_model(prng, format!("a float of bone {bone}, the weight of morph {morph}"), &model)
}

fn camera_and_light(prng: &Prng, _: u64, turn: u64) -> Case {
    let additional = Sizes::any(prng).bones;
    let label = format!("{additional} additional");
    let (kind, track) = match turn % 2 {
        0 => (Kind::Camera, sound::camera(prng, additional)),
        _ => (Kind::Light, sound::light(prng, additional)),
    };
    lent(prng, kind, label, track.write().bytes)
}

#[cfg(test)]
mod tests {
    use super::*;

    #[test]
    fn shares_are_summed() {
        assert_eq!(FAMILIES.iter().map(|(_, shares, _)| shares).sum::<usize>(), SHARES);
    }

    #[test]
    fn a_case_comes_back() {
        for number in 0..200 {
            let ((_, a), (_, b)) = (case(7, number), case(7, number));
            assert_eq!((a.section, a.start, a.label), (b.section, b.start, b.label));
        }
    }

    #[test]
    fn small_sections_are_truncated_everywhere() {
        let prng = &Prng::new(0, 0, 0);
        for section in 0..8 {
            let cut = |turn| damage::truncated(prng, 3, section * 1024 + turn).section.len();
            let mut lengths: Vec<usize> = (0..1024).map(cut).collect();
            lengths.sort();
            lengths.dedup();
            let whole = lengths.len() - 1;
            assert_eq!(lengths, (0..=whole).collect::<Vec<_>>());
            let last = damage::truncated(prng, 3, section * 1024 + whole as u64);
            assert_eq!(last.label, format!("{whole} bytes of {whole}"));
        }
    }
}
