//! The calls to make on a section, and what each must answer.

use answers::{Model, Refusal, Track};

use crate::call::{Arguments, CALLS, Call, Form};
use crate::lists;

/// One call and its answer.
#[derive(Debug, Clone, PartialEq)]
pub struct Check {
    pub call: Call,
    pub arguments: Arguments,
    pub answer: Answer,
}

#[derive(Debug, Clone, PartialEq)]
pub enum Answer {
    /// The number returned, and those written.
    Numbers(u32, Vec<u64>),
    Bytes(Vec<u8>),
}

impl Check {
    /// The bits of the floats among the numbers that it answers.
    pub fn floats(&self) -> &[u64] {
        match &self.answer {
            Answer::Numbers(0, numbers) => &numbers[self.call.floats()],
            _ => &[],
        }
    }
}

/// What is known of a section: the Rust's summary with the places of its texts, or the refusal.
pub enum Read<'a> {
    Model(&'a Model, &'a [Span]),
    Camera(&'a Track),
    Light(&'a Track),
    Refused(Section, &'a Refusal),
}

/// The offset and length of a text: name and English name, then bone names, then morph names.
pub type Span = (u64, u64);

#[derive(Debug, Clone, Copy, PartialEq, Eq)]
pub enum Section {
    Model,
    Camera,
    Light,
}

impl Section {
    fn has(self, call: Call) -> bool {
        match self {
            Self::Model => !call.of_camera() && !call.of_light(),
            Self::Camera => call.of_camera(),
            Self::Light => call.of_light(),
        }
    }
}

/// Hands over each check of a section. `sampled` says which numbers of a list of some length are asked for; `turn` which
/// of the numbers that no list has.
pub fn checks(
    section: &[u8],
    read: &Read,
    turn: usize,
    sampled: impl Fn(usize) -> Vec<usize>,
    hand: impl FnMut(Check),
) {
    let mut lists = lists::Lists { section, sampled, hand, turn };
    match read {
        Read::Model(model, spans) => lists.model(model, spans),
        Read::Camera(track) => lists.camera(track),
        Read::Light(track) => lists.light(track),
        Read::Refused(section, refusal) => refused(*section, refusal, &mut lists.hand),
    }
}

/// Every call on a section that is not read gives the section's refusal, whatever number is asked for.
fn refused(section: Section, refusal: &Refusal, hand: &mut impl FnMut(Check)) {
    for call in CALLS.into_iter().filter(|call| section.has(*call)) {
        let most = Arguments { include_index: true, number: u64::MAX, entry: u64::MAX };
        let asked = match call.form() {
            Form::Whole => vec![Arguments::default()],
            Form::Numbered => vec![Arguments::default(), Arguments { number: u64::MAX, ..Arguments::default() }],
            Form::Listed => vec![Arguments::default(), Arguments { entry: 0, ..most }],
            Form::Entry => vec![Arguments::default(), most],
        };
        for arguments in asked {
            hand(Check { call, arguments, answer: refused_by(call, refusal) });
        }
    }
}

/// A refusal as a call answers it: a bytes call hands back nothing.
pub fn refused_by(call: Call, refusal: &Refusal) -> Answer {
    if call.answers_bytes() {
        return Answer::Bytes(Vec::new());
    }
    let values = refusal.values.iter().map(|value| u64::try_from(*value).expect("a place")).collect();
    Answer::Numbers(u32::from(refusal.number), values)
}
