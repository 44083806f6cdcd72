//! `--model`: PMMv2 projects.

use std::fs;

use crate::command::{Ran, file, intake, intake_with, place, sample};
use crate::json;
use crate::sections::{bones, morphs, section};

/// The header with its number of models, and their sections.
pub fn project(version: &str, models: &[Vec<u8>]) -> Vec<u8> {
    let mut out = format!("Polygon Movie maker {version}").into_bytes();
    out.resize(30, 0);
    out.extend([1920_i32, 1080, 480].map(i32::to_le_bytes).as_flattened());
    out.extend(30_f32.to_le_bytes());
    out.extend([0, 1, 1, 1, 1, 1, 1]);
    out.extend([0, models.len() as u8]);
    models.iter().for_each(|model| out.extend(model));
    out
}

/// One bone, of a key at this frame.
fn one_bone(frame: i32) -> Vec<u8> {
    section(bones(&[[0, frame, 0, 0]], &[]), morphs(&[], &[]))
}

/// So many constraints: 6 bytes each.
fn constrained(count: usize) -> Vec<u8> {
    let mut section = vec![0; 340 + 6 * count];
    section[268..272].copy_from_slice(&(count as i32).to_le_bytes());
    section
}

fn listing(frame: i32, end: usize) -> Ran {
    let text = format!("model 1 0 {end}\nbone 0 {frame} 0\nkeys 1 loose 0\n");
    Ran { status: 0, output: text.into(), error: String::new() }
}

fn failed(status: i32, error: &str) -> Ran {
    Ran { status, output: vec![], error: format!("intake: {error}\n") }
}

/// The second section stands behind the first, and the camera's and all else behind both.
fn two_models() -> Vec<u8> {
    [project("0002", &[one_bone(7), one_bone(8)]), vec![255; 50]].concat()
}

/// A project whose front, read as a section, has no bones: its own model's long name is taken for other texts.
fn front_reads() -> Vec<u8> {
    let mut named = one_bone(7);
    named.splice(1..2, [&[248][..], &[b'n'; 248]].concat());
    project("0002", &[named])
}

#[test]
fn models_by_number() {
    let path = file("project two models", &two_models());
    assert_eq!(intake(&["list", &path, "--model", "0"]), listing(7, 55 + 430));
    assert_eq!(intake(&["list", &path, "--model", "1"]), listing(8, 55 + 430 + 430));
    assert_eq!(intake_with(&["list", "--model", "1", "-"], &two_models()), listing(8, 55 + 430 + 430));
    let none = format!("{path}: the project has 2 model(s), numbered from 0; there is no model 2");
    assert_eq!(intake(&["list", &path, "--model", "2"]), failed(6, &none));
    assert_eq!(intake(&["list", &path, "--model", "18446744073709551615"]).status, 6);
}

#[test]
fn strips_of_models() {
    let project = project("0002", &[sample("stdin"), one_bone(8)]);
    let of = |model| intake_with(&["strip", "-", "-o", "-", "--model", model], &project);
    assert_eq!(of("0"), intake_with(&["strip", "-", "-o", "-"], &sample("stdin")));
    assert_eq!(of("1"), intake_with(&["strip", "-", "-o", "-"], &one_bone(8)));
}

#[test]
fn by_its_start() {
    assert_eq!(intake_with(&["list", "-", "--start", "55"], &two_models()), listing(7, 485));
}

/// Places are offsets of the file, and the model is told whose section it is.
#[test]
fn refused() {
    let mut negative = one_bone(8);
    negative[260..264].fill(255);
    let project = project("0002", &[one_bone(7), negative, one_bone(9)]);
    for model in ["1", "2"] {
        let ran = intake_with(&["list", "-", "--model", model], &project);
        let error = "intake: standard input, model 1: refused 2: the count at offset 745 is negative\n";
        assert_eq!(ran, Ran { status: 3, output: b"refused 2\n".to_vec(), error: error.into() });
    }
    let ran = intake_with(&["strip", "-", "-o", "-", "--model", "1", "--json"], &project);
    let told = json::line(&ran.error);
    assert_eq!((ran.status, told.number("model"), told.number("number")), (3, 1, 2));
    assert_eq!(told.get("values").number("offset"), 745);

    let cycle = section(bones(&[[0, 0, 0, 1]], &[[1, 1, 0, 1]]), morphs(&[], &[]));
    let ran = intake_with(&["strip", "-", "-o", "-", "--model", "0"], &self::project("0002", &[cycle]));
    let words = "refused 7: the chain of bone track 0 comes back to its record of index 1";
    assert_eq!(ran, failed(3, &format!("standard input, model 0: {words}")));
}

#[test]
fn no_project() {
    let not = |bytes: &[u8], words: &str| {
        let ran = intake_with(&["list", "--model", "0", "-"], bytes);
        assert_eq!(ran, failed(6, &format!("standard input: {words}")));
        let ran = intake_with(&["list", "--model", "0", "-", "--json"], bytes);
        let told = json::line(ran.text());
        assert_eq!((told.keys(), told.text("result")), (vec!["result", "status", "file", "words"], "project"));
    };
    let signature = "not a PMM project: it does not begin with `Polygon Movie maker `";
    not(&[], signature);
    not(&one_bone(0), signature);
    not(b"Polygon Movie maker", signature);
    for version in ["0001", "0003", "", "2x", "-2"] {
        not(&project(version, &[one_bone(0)]), "not a PMM project of version 2");
    }
    not(&two_models()[..54], "the project ends inside its header");
    let none = "the project has 0 model(s), numbered from 0; there is no model 0";
    not(&project("0002", &[]), none);
}

/// The Rust trims the version and reads it as a number.
#[test]
fn versions() {
    for version in ["0002", "2", " 2 ", "+2"] {
        let project = project(version, &[one_bone(7)]);
        assert_eq!(intake_with(&["list", "--model", "0", "-"], &project), listing(7, 485), "{version}");
    }
}

/// A project given as a section is not taken for one.
#[test]
fn without_a_model() {
    let words = "this is a project: --model N takes its model N, --start 0 reads it as a section";
    for project in [two_models(), front_reads()] {
        assert_eq!(intake_with(&["list", "-"], &project), failed(6, &format!("standard input: {words}")));
        let told = json::line(intake_with(&["list", "-", "--json"], &project).text());
        assert_eq!((told.keys(), told.text("result")), (vec!["result", "status", "file", "words"], "project"));
    }
    let (path, strip) = (file("project front reads", &front_reads()), file("project front strip", b"as it was"));
    assert_eq!(intake(&["strip", &path, "-o", &strip]), failed(6, &format!("{path}: {words}")));
    assert_eq!(fs::read(&strip).expect("read"), b"as it was");
    // One byte of the signature less.
    assert_eq!(intake_with(&["list", "-"], b"Polygon Movie maker").status, 3);
}

/// Of a version that `--model` does not walk.
#[test]
fn other_versions() {
    let told = |project: &[u8], version: &str| {
        let what = format!("a PMM project of {version}: --model does not walk it");
        let words = format!("standard input: this is {what}, --start 0 reads it as a section");
        assert_eq!(intake_with(&["list", "-"], project), failed(6, &words));
        let told = json::line(intake_with(&["strip", "-", "-o", &place("project other"), "--json"], project).text());
        assert_eq!((told.keys(), told.text("result")), (vec!["result", "status", "file", "words"], "project"));
        assert_eq!(told.text("words"), words);
        let ran = intake_with(&["list", "-", "--start", "0"], project);
        assert!(ran.status == 3 && ran.error.ends_with(&format!(" (this looks like {what})\n")), "{}", ran.error);
    };
    for (version, number) in [("0001", 1), ("1", 1), ("0003", 3), ("+0", 0)] {
        told(&project(version, &[one_bone(7)]), &format!("version {number}, not 2"));
    }
    for version in ["", "2x", "-2", "4294967296"] {
        told(&project(version, &[one_bone(7)]), "a version other than 2");
    }
    told(b"Polygon Movie maker ", "a version other than 2");
    told(b"Polygon Movie maker 0001", "version 1, not 2");
}

/// With `--start 0` every section is taken, also one that begins as a project does.
#[test]
fn read_as_a_section() {
    let text = "model 0 0 561\nkeys 0 loose 0\n";
    let ran = intake_with(&["list", "-", "--start", "0"], &front_reads());
    assert_eq!(ran, Ran { status: 0, output: text.into(), error: String::new() });
    assert_eq!(intake_with(&["strip", "-", "-o", "-", "--start", "0"], &front_reads()).output, [0; 4]);
    assert_eq!(intake_with(&["list", "-", "--model", "0"], &front_reads()), listing(7, 55 + 430 + 248));
}

/// A project that is refused as a section, with `--start`.
#[test]
fn hint() {
    for start in ["0", "54", "1000000"] {
        let ran = intake_with(&["list", "-", "--start", start], &two_models());
        assert_eq!(ran.status, 3, "{start}");
        assert!(ran.error.ends_with(" (this looks like a project: --model N takes its model N)\n"), "{}", ran.error);
    }
}

/// Each section may have as many bytes as the library takes, whatever the project has.
#[test]
fn large_projects() {
    let large = constrained(2_000_000);
    let models = [large.clone(), large.clone(), one_bone(9)];
    let project = project("0002", &models);
    assert!(project.len() > 16_777_215);
    let end = 55 + 2 * large.len() + 430;
    assert_eq!(intake_with(&["list", "-", "--model", "2"], &project), listing(9, end));
    let text = format!("model 0 0 {}\nkeys 0 loose 0\n", 55 + 2 * large.len());
    assert_eq!(intake_with(&["list", "-", "--model", "1"], &project).text(), text);
}

/// 16 where a section goes on behind the most bytes that can be lent, 1 where the file ends there.
#[test]
fn sections_at_the_limit() {
    let most = (16_777_215 - 340) / 6;
    let padding = 16_777_215 - 340 - 6 * most;
    let longer = project("0002", &[constrained(most + 1)]);
    let ran = intake_with(&["list", "-", "--model", "0"], &longer);
    assert_eq!((ran.status, ran.text()), (3, "refused 16\n"));
    assert_eq!(ran.error, "intake: standard input, model 0: refused 16: more than 16777215 bytes\n");
    let ends = &longer[..55 + 16_777_215];
    let ran = intake_with(&["list", "-", "--model", "0"], ends);
    assert_eq!((ran.status, ran.text()), (3, "refused 1\n"));
    let longest = [project("0002", &[constrained(most)]), vec![0; padding + 9]].concat();
    let text = format!("model 0 0 {}\nkeys 0 loose 0\n", 55 + 340 + 6 * most);
    assert_eq!(intake_with(&["list", "-", "--model", "0"], &longest).text(), text);
}
