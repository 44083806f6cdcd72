//! The Rust and the library timed on the same sections in one run. Both must give the same answer; nothing is asserted of the time.

use std::hint::black_box;

use answers::{clip, model, strip};
use calls::strip::left;
use calls::{Arguments, Call, Other, Slices};
use generate::shapes::{ACCEPTED, Count, HOSTILE, Shape};
use mmd_anim_format::pmm::build_pmm_document_model_clip;

use crate::links::Links;
use crate::table::{figure, table, thousands};
use crate::timing::{medians, sum, sum_by_bytes};

/// Additional records.
const SIZES: [usize; 4] = [100, 1_000, 10_000, 60_000];
const HOSTILE_SIZES: [usize; 2] = [10_000, 60_000];
/// Each is held against its half, in turns.
const GROWTH: [usize; 2] = [20_000, 60_000];
/// Document 01's limit of additional records; with one key in each track there are as many tracks as can be.
const MOST_ADDITIONAL: usize = 65_534;
/// As many numbers as any record's answer has, and as many bytes as its payload.
const NUMBERS: usize = 64;
const BYTES: usize = 64;

/// Tables in Markdown; `only` leaves out the shapes whose name does not have it.
pub fn bench(other: &impl Other, only: &str) {
    println!(
        "Nanoseconds of processor time a key, where a key is an initial or additional record; medians of 3 to 11 rounds."
    );
    let (mmd, orders): (Vec<Shape>, Vec<Shape>) = ACCEPTED.into_iter().partition(Shape::as_mmd_writes);
    section_to_strip(other, "MMD's own order", &mmd, &SIZES, only);
    section_to_strip(other, "Other orders", &orders, &SIZES, only);
    section_to_strip(other, "Hostile shapes", &HOSTILE, &HOSTILE_SIZES, only);
    most(other, only);
    reading(other, only);
}

/// The summary alone (for the whole section), every record by its number, and every record with its parts, beside the Rust's summary, which has all.
fn reading(other: &impl Other, only: &str) {
    let shapes = ["1 track", "300 tracks, interleaved", "3000 tracks, interleaved", "morphs: 100 tracks, interleaved"];
    let mut rows = Vec::new();
    for shape in ACCEPTED.iter().filter(|shape| shapes.contains(&shape.name) && shape.name.contains(only)) {
        for n in SIZES {
            let section = shape.section(n);
            let keys = Keys::of(shape, &section);
            let mut values = [0; NUMBERS];
            let ([summary, records, parts, rust, sum, by_bytes], _) = medians([
                &mut || {
                    let read = other.numbers(Call::ModelSummary, &section, 0, Arguments::default(), &mut values);
                    assert_eq!(black_box(read), 0);
                },
                &mut || keys.each(|arguments| keys.record(other, &section, arguments)),
                &mut || {
                    keys.each(|arguments| {
                        keys.record(other, &section, arguments);
                        keys.parts(other, &section, arguments);
                    })
                },
                &mut || drop(black_box(model::summary(black_box(&section), 0).expect("read"))),
                &mut || sum(&section),
                &mut || sum_by_bytes(&section),
            ]);
            let mut row = vec![shape.name.to_string(), thousands(n), figure(summary)];
            row.extend([records, parts, rust, sum, by_bytes].map(|time| figure(time / keys.all() as f64)));
            rows.push(row);
        }
    }
    table("Reading", &["shape", "additional", "summary", "record", "with parts", "Rust", "sum", "by bytes"], &rows);
}

/// The records of the one kind that a shape has.
struct Keys {
    morphs: bool,
    initial: u64,
    additional: u64,
}

impl Keys {
    fn of(shape: &Shape, section: &[u8]) -> Self {
        let summary = model::summary(section, 0).expect("read");
        let (initial, additional) = if shape.morphs {
            (summary.initial_morph_keyframe_summaries.len(), summary.morph_keyframe_summaries.len())
        } else {
            (summary.initial_bone_keyframe_summaries.len(), summary.bone_keyframe_summaries.len())
        };
        Self { morphs: shape.morphs, initial: initial as u64, additional: additional as u64 }
    }

    fn all(&self) -> u64 {
        self.initial + self.additional
    }

    fn each(&self, mut hand: impl FnMut(Arguments)) {
        for (include_index, records) in [(false, self.initial), (true, self.additional)] {
            (0..records).for_each(|number| hand(Arguments { include_index, number, entry: 0 }));
        }
    }

    fn record(&self, other: &impl Other, section: &[u8], arguments: Arguments) {
        let call = if self.morphs { Call::MorphKeyframe } else { Call::BoneKeyframe };
        let mut values = [0; NUMBERS];
        assert_eq!(other.numbers(call, section, 0, arguments, &mut values), 0);
        black_box(values);
    }

    fn parts(&self, other: &impl Other, section: &[u8], arguments: Arguments) {
        let calls: &[Call] =
            if self.morphs { &[Call::MorphPayload] } else { &[Call::BonePayload, Call::BoneInterpolation] };
        for call in calls {
            let mut bytes = [0; BYTES];
            assert_ne!(other.bytes(*call, section, 0, arguments, &mut bytes), 0);
            black_box(bytes);
        }
    }
}

/// What was measured of one shape, by the number of additional records.
struct Measured {
    name: &'static str,
    rows: Vec<(usize, Row)>,
    growth: [Growth; GROWTH.len()],
}

impl Measured {
    fn of(other: &impl Other, shape: &Shape, sizes: &[usize]) -> Self {
        eprintln!("{}", shape.name);
        let rows = sizes.iter().map(|n| (*n, row(other, shape, &shape.section(*n)))).collect();
        Self { name: shape.name, rows, growth: GROWTH.map(|n| growth(other, shape, n)) }
    }

    fn at(&self, n: usize) -> &Row {
        &self.rows.iter().find(|(size, _)| *size == n).expect("measured").1
    }
}

fn section_to_strip(other: &impl Other, title: &str, shapes: &[Shape], sizes: &[usize], only: &str) {
    let shapes = shapes.iter().filter(|shape| shape.name.contains(only));
    let measured: Vec<Measured> = shapes.map(|shape| Measured::of(other, shape, sizes)).collect();
    let last = sizes[sizes.len() - 1];
    let heads = |word: &str| sizes.iter().map(|n| format!("{word}{}", thousands(*n))).collect::<Vec<_>>();

    let head = [
        vec!["shape".into(), "answer".into()],
        heads(""),
        vec!["exact".into()],
        heads("Rust "),
        vec!["+ writer".into()],
    ];
    let rows = measured.iter().map(|shape| {
        let mut row = vec![shape.name.to_string(), shape.at(last).status.to_string()];
        row.extend(sizes.iter().map(|n| figure(shape.at(*n).a_key(|row| row.library))));
        row.push(figure(shape.at(last).a_key(|row| row.exact)));
        row.extend(sizes.iter().map(|n| figure(shape.at(*n).a_key(|row| row.clip))));
        row.push(figure(shape.at(last).a_key(|row| row.writer)));
        row
    });
    table(title, &head.concat(), &rows.collect::<Vec<_>>());

    let growth = |word: &str| GROWTH.map(|n| format!("{word}to {}", thousands(n))).to_vec();
    let head = [
        vec!["shape".into()],
        heads("R/L "),
        heads("W/L "),
        growth(""),
        growth("walk "),
        growth("sum "),
        vec!["L/sum".into(), "L/by bytes".into()],
    ];
    let rows = measured.iter().map(|shape| {
        let mut row = vec![shape.name.to_string()];
        row.extend(sizes.iter().map(|n| figure(shape.at(*n).clip / shape.at(*n).library)));
        row.extend(sizes.iter().map(|n| figure(shape.at(*n).writer / shape.at(*n).library)));
        row.extend(shape.growth.iter().map(|growth| figure(growth.library)));
        row.extend(shape.growth.iter().map(|growth| figure(growth.walk)));
        row.extend(shape.growth.iter().map(|growth| figure(growth.sum)));
        row.push(figure(shape.at(last).library / shape.at(last).sum));
        row.push(figure(shape.at(last).library / shape.at(last).by_bytes));
        row
    });
    table(&format!("{title}: ratios"), &head.concat(), &rows.collect::<Vec<_>>());
}

/// How much more time each takes than with half as many records.
struct Growth {
    library: f64,
    walk: f64,
    sum: f64,
}

fn growth(other: &impl Other, shape: &Shape, n: usize) -> Growth {
    let (half, whole) = (shape.section(n / 2), shape.section(n));
    let (half_status, mut half_slices) = same(other, shape, &half, Output::AsSection);
    let (whole_status, mut whole_slices) = same(other, shape, &whole, Output::AsSection);
    let (half_links, whole_links) = (Links::of(shape.morphs, &half), Links::of(shape.morphs, &whole));
    let ([half_library, library, half_walk, walk, half_sum, sum], _) = medians([
        &mut || assert_eq!(other.strip(black_box(&half), 0, &mut half_slices), half_status),
        &mut || assert_eq!(other.strip(black_box(&whole), 0, &mut whole_slices), whole_status),
        &mut || half_links.walk(&half),
        &mut || whole_links.walk(&whole),
        &mut || sum(&half),
        &mut || sum(&whole),
    ]);
    Growth { library: library / half_library, walk: walk / half_walk, sum: sum / half_sum }
}

/// As many tracks and additional records as the limits allow.
fn most(other: &impl Other, only: &str) {
    let shapes = HOSTILE.iter().filter(|shape| shape.tracks == Count::OneEach && shape.name.contains(only));
    let rows = shapes.map(|shape| {
        let row = row(other, shape, &shape.section(MOST_ADDITIONAL));
        let times = [row.a_key(|row| row.library), row.a_key(|row| row.clip), row.a_key(|row| row.writer)];
        let mut line = vec![shape.name.to_string()];
        line.extend(times.map(figure));
        line
    });
    let title = format!("{} additional records, {} tracks", thousands(MOST_ADDITIONAL), thousands(MOST_ADDITIONAL + 1));
    table(&title, &["shape", "library", "Rust", "+ writer"], &rows.collect::<Vec<_>>());
}

/// Nanoseconds for the whole section.
struct Row {
    status: u32,
    keys: u64,
    /// The strip call with an output as long as the section, and with one as long as the strip.
    library: f64,
    exact: f64,
    /// The Rust's summary and clip; with the oracle's own writer.
    clip: f64,
    writer: f64,
    sum: f64,
    by_bytes: f64,
}

impl Row {
    fn a_key(&self, time: impl Fn(&Row) -> f64) -> f64 {
        time(self) / self.keys as f64
    }
}

fn row(other: &impl Other, shape: &Shape, section: &[u8]) -> Row {
    let (status, mut slices) = same(other, shape, section, Output::AsSection);
    let (_, mut least) = same(other, shape, section, Output::AsStrip);
    let work = |section: &[u8]| model::summary(black_box(section), 0).expect("read");
    let ([library, exact, clip, writer, sum, by_bytes], _) = medians([
        &mut || assert_eq!(other.strip(black_box(section), 0, &mut slices), status),
        &mut || assert_eq!(other.strip(black_box(section), 0, &mut least), status),
        &mut || drop(black_box(build_pmm_document_model_clip(&work(section)))),
        &mut || drop(black_box(clip::build(&work(section)).map(|clip| strip::bytes(&clip)))),
        &mut || sum(section),
        &mut || sum_by_bytes(section),
    ]);
    Row { status, keys: Keys::of(shape, section).all(), library, exact, clip, writer, sum, by_bytes }
}

/// How long an output is lent.
#[derive(Debug, Clone, Copy, PartialEq, Eq)]
pub enum Output {
    /// No strip is longer, so nothing has to be measured before it is written.
    AsSection,
    AsStrip,
}

/// The library answers as the Rust and document 01 ask; the number returned, and the slices, the work slices just long enough.
fn same(other: &impl Other, shape: &Shape, section: &[u8], output: Output) -> (u32, Slices) {
    let summary = model::summary(section, 0).expect("read");
    let answer = strip::strip(&summary);
    let need = summary.bone_keyframe_summaries.len() + summary.morph_keyframe_summaries.len();
    let length = match output {
        Output::AsSection => section.len(),
        Output::AsStrip => answer.as_ref().map_or(0, |strip| strip.bytes.len()),
    };
    let mut slices =
        Slices { first: vec![1; need], second: vec![1; need], output: vec![1; length], values: vec![1; 8] };
    let expected = left(&answer, Some(need), &slices);
    let status = other.strip(section, 0, &mut slices);
    assert!(status == expected.status && slices == expected.slices, "{}: another answer than the Rust's", shape.name);
    (status, slices)
}

/// One strip call on one shape, for a profiler.
pub fn profile(other: &impl Other, name: &str, n: usize, output: Output) -> Result<String, String> {
    let all = || ACCEPTED.iter().chain(&HOSTILE);
    let names = || all().map(|shape| format!("{:?}", shape.name)).collect::<Vec<_>>().join(", ");
    let shape = all().find(|shape| shape.name == name).ok_or_else(names)?;
    let section = shape.section(n);
    let (status, _) = same(other, shape, &section, output);
    Ok(format!("{name}, {n} additional records, {} bytes, output {output:?}: {status}", section.len()))
}
