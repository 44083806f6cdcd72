//! `oracle self [CASES] [SEED]` runs the Rust on generated cases and counts what it met.
//! `oracle compare [CASES] [SEED]` holds the proved library against it.
//! `oracle sample [CASES] [SEED]` does so with a sample of the calls, to take in more cases.
//! `oracle assets [CASES] [SEED]` does both with paths and lists of references: the Rust and document 02, and the library if it is there.
//! `oracle strips [STRIPS] [SEED]` reads strips back, and holds the library's calls against this if it is there.
//! `oracle bench [NAME]` times both on the same sections, paths and lists, and the library on strips; `oracle profile SHAPE [N] [exact]`
//! makes one call on one of them.
//! `oracle vectors CRATE` writes a sample of the readers' answers in the Rust and one of strip calls for the program that replays them.
//! `oracle seeds FOLDER [FILES] [SEED]` writes generated sections as files for the fuzzer.
//! `oracle case SEED NUMBER` shows one case and what is expected of it.
//! `oracle apart COUNT` runs the Rust alone on a section that ends behind this count of additional bones, and may abort.

use std::env;
use std::path::Path;
use std::process::ExitCode;
use std::time::Instant;

use generate::case;
use run::bench::Output;
use run::compare::Extent;
use run::expected::{Expected, Summary, expected};
use run::tally::Tally;
use run::{replay, seeds};

/// `oracle sample` makes one in so many of the calls besides the summary and the strip call.
const SAMPLED: u64 = 16;

fn main() -> ExitCode {
    let arguments: Vec<String> = env::args().skip(1).collect();
    let number = |n: usize| arguments.get(n).and_then(|word| word.parse().ok());
    match (arguments.first().map(String::as_str), arguments.get(1)) {
        (Some("self"), _) => own(number(1).unwrap_or(100_000), number(2).unwrap_or(1)),
        (Some("compare"), _) => compare(number(1).unwrap_or(100_000), number(2).unwrap_or(1), Extent::Whole),
        (Some("sample"), _) => compare(number(1).unwrap_or(100_000), number(2).unwrap_or(1), Extent::Sampled(SAMPLED)),
        (Some("assets"), _) => assets(number(1).unwrap_or(1_000_000), number(2).unwrap_or(1)),
        (Some("strips"), _) => strips(number(1).unwrap_or(1_000_000), number(2).unwrap_or(1)),
        (Some("bench"), only) => bench(only.map_or("", String::as_str)),
        (Some("profile"), Some(shape)) => {
            let exact = arguments.get(3).is_some_and(|word| word == "exact");
            let output = if exact { Output::AsStrip } else { Output::AsSection };
            profile(shape, number(2), output)
        }
        (Some("vectors"), Some(folder)) => written(replay::files().write(Path::new(folder))),
        (Some("seeds"), Some(folder)) => {
            written(seeds::write(Path::new(folder), number(2).unwrap_or(2_000), number(3).unwrap_or(1)))
        }
        (Some("case"), _) => one(number(1).unwrap_or(1), number(2).unwrap_or(0)),
        (Some("apart"), _) => apart(number(1).unwrap_or(i32::MAX as u64)),
        _ => {
            eprintln!("oracle self [CASES] [SEED]\noracle compare [CASES] [SEED]\noracle sample [CASES] [SEED]");
            eprintln!("oracle assets [CASES] [SEED]\noracle strips [STRIPS] [SEED]");
            eprintln!("oracle bench [NAME]\noracle profile SHAPE [N] [exact]\noracle seeds FOLDER [FILES] [SEED]");
            eprintln!("oracle vectors CRATE\noracle case SEED NUMBER\noracle apart COUNT");
            ExitCode::FAILURE
        }
    }
}

fn own(cases: u64, seed: u64) -> ExitCode {
    println!("seed {seed}, {cases} cases");
    let began = Instant::now();
    let mut tally = Tally::default();
    for number in 0..cases {
        let (family, case) = case(seed, number);
        tally.add(family, number, &expected(&case));
    }
    print!("{tally}");
    println!("{:.1} s", began.elapsed().as_secs_f64());
    if tally.contradictions() == 0 { ExitCode::SUCCESS } else { ExitCode::FAILURE }
}

#[cfg(feature = "library")]
fn compare(cases: u64, seed: u64, extent: Extent) -> ExitCode {
    println!("seed {seed}, {cases} cases");
    let began = Instant::now();
    let mut tally = Tally::default();
    let mut comparison = run::compare::Comparison::new(extent);
    for number in 0..cases {
        let (family, case) = case(seed, number);
        let expected = expected(&case);
        tally.add(family, number, &expected);
        comparison.case(number, &case, &expected, &library::Library);
    }
    print!("{tally}{comparison}");
    println!("{:.1} s", began.elapsed().as_secs_f64());
    if comparison.differences() == 0 { ExitCode::SUCCESS } else { ExitCode::FAILURE }
}

#[cfg(feature = "library")]
const LIBRARY: Option<run::assets::Call> = Some(library::asset_reference_index_for_path);
#[cfg(not(feature = "library"))]
const LIBRARY: Option<run::assets::Call> = None;

fn assets(cases: u64, seed: u64) -> ExitCode {
    println!("seed {seed}, {cases} cases");
    let began = Instant::now();
    let mut tally = run::asset_tally::Tally::default();
    let mut comparison = run::assets::Comparison::default();
    for number in 0..cases {
        let case = generate::assets::case(seed, number);
        let expected = run::assets::expected(&case);
        tally.add(number, &case, &expected);
        if let Some(call) = LIBRARY {
            comparison.case(number, &case, &expected, call);
        }
    }
    print!("{tally}");
    if LIBRARY.is_some() {
        print!("{comparison}");
    }
    println!("{:.1} s", began.elapsed().as_secs_f64());
    if tally.contradictions() + comparison.differences() == 0 { ExitCode::SUCCESS } else { ExitCode::FAILURE }
}

#[cfg(feature = "library")]
fn strip_reads() -> Option<impl calls::StripReads> {
    Some(library::Library)
}

#[cfg(not(feature = "library"))]
fn strip_reads() -> Option<impl calls::StripReads> {
    None::<calls::strip_reads::Reader>
}

fn strips(strips: u64, seed: u64) -> ExitCode {
    println!("seed {seed}, {strips} strips");
    let began = Instant::now();
    let mut tally = run::strip_read_tally::Tally::default();
    let library = strip_reads();
    let mut comparison = run::strip_reads::Comparison::default();
    for number in 0..strips {
        match run::strip_reads::case(seed, number) {
            Err(contradiction) => tally.contradiction(number, 0, &contradiction),
            Ok(case) => {
                let read = calls::ReadBack::of(&case.strip);
                tally.add(number, &case, &read);
                if let Some(library) = &library {
                    comparison.case(number, &case.strip, &read, library);
                }
            }
        }
    }
    print!("{tally}");
    if library.is_some() {
        print!("{comparison}");
    }
    println!("{:.1} s", began.elapsed().as_secs_f64());
    if tally.contradictions() + comparison.differences() == 0 { ExitCode::SUCCESS } else { ExitCode::FAILURE }
}

#[cfg(feature = "library")]
fn bench(only: &str) -> ExitCode {
    run::bench::bench(&library::Library, only);
    run::asset_bench::bench(library::asset_reference_index_for_path, only);
    run::strip_read_bench::bench(&library::Library, only);
    ExitCode::SUCCESS
}

#[cfg(feature = "library")]
fn profile(shape: &str, n: Option<u64>, output: Output) -> ExitCode {
    let n = n.map(|n| n as usize);
    let look_up = run::asset_bench::profile(library::asset_reference_index_for_path, shape, n);
    let read_back = || run::strip_read_bench::profile(&library::Library, shape, n);
    let strip = || run::bench::profile(&library::Library, shape, n.unwrap_or(10_000), output);
    match look_up.or_else(read_back).map_or_else(strip, Ok) {
        Ok(told) => {
            println!("{told}");
            ExitCode::SUCCESS
        }
        Err(names) => {
            let others = [run::asset_bench::names(), run::strip_read_bench::names()];
            eprintln!("the shapes: {names}, {}", others.join(", "));
            ExitCode::FAILURE
        }
    }
}

#[cfg(not(feature = "library"))]
fn compare(_: u64, _: u64, _: Extent) -> ExitCode {
    without_library()
}

#[cfg(not(feature = "library"))]
fn bench(_: &str) -> ExitCode {
    without_library()
}

#[cfg(not(feature = "library"))]
fn profile(_: &str, _: Option<u64>, _: Output) -> ExitCode {
    without_library()
}

#[cfg(not(feature = "library"))]
fn without_library() -> ExitCode {
    eprintln!("built without the feature `library`");
    ExitCode::FAILURE
}

fn written(done: std::io::Result<String>) -> ExitCode {
    match done {
        Ok(told) => {
            print!("{told}");
            ExitCode::SUCCESS
        }
        Err(error) => {
            eprintln!("{error}");
            ExitCode::FAILURE
        }
    }
}

fn one(seed: u64, number: u64) -> ExitCode {
    let (family, case) = case(seed, number);
    println!("{family}: {:?}, {}", case.kind, case.label);
    println!("start {}, {} bytes", case.start, case.section.len());
    let hex = |bytes: &[u8]| bytes.iter().map(|byte| format!("{byte:02x}")).collect::<String>();
    case.section.chunks(32).take(64).for_each(|line| println!("{}", hex(line)));
    match expected(&case) {
        Err(contradiction) => println!("{contradiction}"),
        Ok(Expected { read, strip, set_apart, .. }) => {
            match read {
                Ok(Summary::Model(model)) => println!("{model:?}"),
                Ok(Summary::Track(track)) => println!("{track:?}"),
                Err(refusal) => println!("not read: {refusal}"),
            }
            match strip {
                Some(Ok(strip)) => println!("{strip:?}"),
                Some(Err(refusal)) => println!("not built: {refusal}"),
                None => (),
            }
            if set_apart {
                println!("the Rust was not run");
            }
        }
    }
    ExitCode::SUCCESS
}

/// Where the count of additional bones stands behind zero bytes.
const ADDITIONAL_BONES: usize = 307;

fn apart(count: u64) -> ExitCode {
    let mut section = [0; ADDITIONAL_BONES + 4];
    section[ADDITIONAL_BONES..].copy_from_slice(&(count as u32).to_le_bytes());
    let read = if answers::model::summary(&section, 0).is_some() { "reads" } else { "does not read" };
    println!("the Rust {read} {count} additional bones in {} bytes", section.len());
    ExitCode::SUCCESS
}
