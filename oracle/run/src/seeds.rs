//! Generated sections, paths with lists, and strips, as files for the fuzzer, each with the header of `fuzz/harness.c` before it.

use std::path::Path;
use std::{fs, io};

use generate::prng::Prng;
use generate::sound::{Sizes, model};
use generate::{Case, Kind, assets, case};

use crate::{asset_cases, strip_read_cases, strip_reads};

/// Longer sections and strips, and paths with longer lists, only slow the fuzzer down.
const LONGEST: usize = 4_000;
/// The bytes of a header.
const HEADER: usize = 16;
/// A start below this is written as it is; others are taken as the first of the harness's huge ones.
const SMALL_START: u64 = 240;

/// One case in so many is taken, so that truncations and damaged bytes of many sections and places are among them.
const STEP: usize = 37;

/// So many sections for one generated path with its list, and for one strip.
const SECTIONS: u64 = 5;

/// An answer is short of fewer places than these.
const SHORT_OF: usize = 47;

/// Writes so many sections, none of them longer than the fuzzer takes, some that end close behind a payload, paths with lists, and
/// strips.
pub fn write(folder: &Path, files: u64, seed: u64) -> io::Result<String> {
    fs::create_dir_all(folder)?;
    let short = (0..)
        .step_by(STEP)
        .map(|number| (number, case(seed, number).1))
        .filter(|(_, case)| case.section.len() <= LONGEST);
    let mut bytes = 0;
    for (turn, (number, case)) in short.take(files as usize).enumerate() {
        bytes += case.section.len();
        fs::write(folder.join(format!("{seed}-{number}")), [&header(&case, turn), &case.section[..]].concat())?;
    }
    let close = close(seed);
    for (turn, case) in close.iter().enumerate() {
        // The first record of either list, and its payload whole or but for a byte.
        let mut header = header(case, turn);
        header[8] = 0;
        header[12] = turn as u8 / 2 % 2;
        fs::write(folder.join(format!("{seed}-close-{turn}")), [&header, &case.section[..]].concat())?;
    }
    let paths = paths(files / SECTIONS, seed);
    for (turn, case) in paths.iter().enumerate() {
        let mut header = [0; HEADER];
        header[6] = turn as u8;
        header[7] = turn as u8 & 2;
        header[14..].copy_from_slice(&(case.path.len() as u16).to_le_bytes());
        fs::write(folder.join(format!("{seed}-path-{turn}")), [&header[..], &case.path, &case.list].concat())?;
    }
    let strips = strips(files / SECTIONS, seed);
    for (turn, strip) in strips.iter().enumerate() {
        // Any track and key, or huge numbers; of a strip that is read the harness takes a key that is there besides.
        let mut header = header(&Case { kind: Kind::Model, label: String::new(), section: Vec::new(), start: 0 }, turn);
        header[7] = (turn as u8 & 3) << 4 | turn as u8 & 2;
        header[8..12].copy_from_slice(&[[turn as u8 / 4 % 3, 0, turn as u8 / 12, 0], [255; 4]][turn / 36 % 2]);
        fs::write(folder.join(format!("{seed}-strip-{turn}")), [&header[..], strip].concat())?;
    }
    let (close, paths, strips) = (close.len(), paths.len(), strips.len());
    Ok(format!(
        "{files} files, {bytes} bytes of sections, {close} that end close behind a payload, {paths} paths with lists, {strips} strips\n"
    ))
}

fn header(case: &Case, turn: usize) -> [u8; HEADER] {
    let mut header = [0; HEADER];
    header[0] = case.start.min(SMALL_START) as u8;
    // As long as counted, a byte longer or a byte shorter.
    header[4] = [0, 1, 255][turn / 16 % 3];
    header[5] = 8;
    header[6] = turn as u8;
    header[7] = turn as u8 & 15;
    header[8] = (turn / 4 % 3) as u8;
    header[10] = (turn / 12 % 3) as u8;
    header[12] = (turn % SHORT_OF) as u8;
    header
}

/// Those by hand, and so many that are generated.
fn paths(generated: u64, seed: u64) -> Vec<assets::Case> {
    let short = (0..).map(|number| assets::case(seed, number)).filter(|case| case.length() <= LONGEST);
    let by_hand = asset_cases::cases().into_iter().map(|(case, _)| case);
    by_hand.chain(short.take(generated as usize)).collect()
}

/// Those by hand, and so many that are generated.
fn strips(generated: u64, seed: u64) -> Vec<Vec<u8>> {
    let any = |number| strip_reads::case(seed, number).expect("no contradiction").strip;
    let short = (0..).map(any).filter(|strip| strip.len() <= LONGEST);
    let by_hand = strip_read_cases::cases().into_iter().map(|(strip, _)| strip);
    by_hand.chain(short.take(generated as usize)).collect()
}

/// Sections without tracks and parents, which end at most 31 bytes behind the start of a payload: into an output that lies
/// directly behind the section the compiled library copies such a payload byte by byte.
fn close(seed: u64) -> Vec<Case> {
    let section = |turn: usize| {
        let sizes = Sizes {
            constraints: turn / 8,
            additional_morphs: 1,
            additional_models: turn / 4 % 2,
            loose_in: 1,
            ..Sizes::default()
        };
        let section = model(&Prng::new(seed, 1, turn as u64), sizes, |_| Vec::new()).write().bytes;
        Case { kind: Kind::Model, label: String::new(), section, start: 0 }
    };
    (0..80).map(section).collect()
}
