//! What the Rust and document 01 together ask of the answers to a case: the Rust says what is read and built, and the
//! walk adds the number and the place where it only says no.

use answers::{Model, Refusal, Strip, Track, Walked, model, name_as_shown, strip, track, walk};
use generate::{Case, Kind};

#[derive(Debug, Clone)]
pub struct Expected {
    pub read: Result<Summary, Refusal>,
    /// Where the walk has the texts of a model section: the Rust does not say.
    pub texts: Vec<(u64, u64)>,
    /// The strip call; none of a camera or light section.
    pub strip: Option<Result<Strip, Refusal>>,
    /// The Rust was not run, because it would reserve too much memory. The section cannot be read then.
    pub set_apart: bool,
}

#[derive(Debug, Clone)]
pub enum Summary {
    Model(Box<Model>),
    Track(Box<Track>),
}

impl Expected {
    /// A + B of document 01: the additional bones and morphs of a model section that is read.
    pub fn work_places(&self) -> Option<usize> {
        match &self.read {
            Ok(Summary::Model(model)) => {
                Some(model.bone_keyframe_summaries.len() + model.morph_keyframe_summaries.len())
            }
            _ => None,
        }
    }
}

/// An error tells that the Rust contradicts the walk, and so document 01.
pub fn expected(case: &Case) -> Result<Expected, String> {
    let Case { kind, section, start, .. } = case;
    match kind {
        Kind::Model => {
            let walked = walk::model(section, *start);
            let summary = read(&walked, || model::summary(section, *start), |summary| summary.offset_end as u64)?;
            let strip = summary.as_ref().map_err(Refusal::clone).and_then(strip::strip);
            let read = summary.map(|summary| Summary::Model(Box::new(model::model(&summary))));
            let set_apart = walked.reserves_too_much();
            if let Ok(Summary::Model(model)) = &read {
                same_texts(section, &walked.texts, model)?;
            }
            Ok(Expected { read, texts: walked.texts, strip: Some(strip), set_apart })
        }
        Kind::Camera => of_track(walk::camera(section, *start), || track::camera(section, *start)),
        Kind::Light => of_track(walk::light(section, *start), || track::light(section, *start)),
    }
}

fn of_track(walked: Walked, rust: impl Fn() -> Option<Track>) -> Result<Expected, String> {
    let end = |track: &Track| track.scalars.iter().find(|(name, _)| *name == "offset_end").expect("a scalar").1;
    let read = read(&walked, rust, end)?.map(|track| Summary::Track(Box::new(track)));
    Ok(Expected { read, texts: Vec::new(), strip: None, set_apart: walked.reserves_too_much() })
}

/// The walk's texts, decoded as the Rust does it, are the Rust's names.
fn same_texts(section: &[u8], texts: &[(u64, u64)], model: &Model) -> Result<(), String> {
    let shown = texts.iter().map(|(at, length)| name_as_shown(&section[*at as usize..(at + length) as usize]));
    let names = [&model.name, &model.english_name].into_iter().chain(&model.bone_names).chain(&model.morph_names);
    if shown.eq(names.cloned()) { Ok(()) } else { Err("the Rust has other names than the walk".into()) }
}

/// The Rust's summary, or the refusal; also where the Rust reads what is above a limit.
fn read<S>(
    walked: &Walked,
    rust: impl Fn() -> Option<S>,
    end: impl Fn(&S) -> u64,
) -> Result<Result<S, Refusal>, String> {
    if walked.reserves_too_much() {
        return Ok(Err(walked.answer().expect_err("not read within the limits")));
    }
    match (rust(), &walked.end) {
        (Some(summary), Ok(at)) if end(&summary) == *at => Ok(walked.answer().map(|_| summary)),
        (None, Err(_)) => Ok(Err(walked.answer().expect_err("stopped"))),
        (summary, walked) => Err(format!("the Rust ends at {:?}, the walk {walked:?}", summary.map(|s| end(&s)))),
    }
}
