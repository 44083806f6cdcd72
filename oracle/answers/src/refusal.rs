//! Refusals by the numbers of documents 01 and 02, and the Rust's messages read back as such.

use std::fmt;

#[derive(Debug, Clone, Copy, PartialEq, Eq, PartialOrd, Ord, Hash)]
pub enum Kind {
    Bone,
    Morph,
}

/// A number with the values that its document names, in its order; i32 as they are. 12, 13 and 14 say no kind.
#[derive(Debug, Clone, PartialEq, Eq)]
pub struct Refusal {
    pub number: u8,
    pub kind: Option<Kind>,
    pub values: Vec<i128>,
}

impl Refusal {
    /// A refusal with a place: 1, 2 and 20.
    pub fn at(number: u8, place: u64) -> Self {
        Self { number, kind: None, values: vec![i128::from(place)] }
    }
}

impl fmt::Display for Refusal {
    fn fmt(&self, formatter: &mut fmt::Formatter<'_>) -> fmt::Result {
        let kind = match self.kind {
            Some(Kind::Bone) => " bone",
            Some(Kind::Morph) => " morph",
            None => "",
        };
        write!(formatter, "{}{kind} {:?}", self.number, self.values)
    }
}

/// The builder's messages; `KIND` is bone or morph, and each `#` is one of the values.
const MESSAGES: [(u8, &str); 12] = [
    (3, "PMM additional KIND keyframe index # must be non-negative"),
    (4, "PMM additional KIND keyframe index # overlaps initial KIND track index namespace; expected index >= #"),
    (5, "PMM duplicate additional KIND keyframe index #"),
    (6, "PMM KIND # keyframe chain references missing index #"),
    (7, "PMM KIND # keyframe chain contains a cycle at index #"),
    (8, "PMM KIND # keyframe index # has previous index #; expected #"),
    (9, "PMM additional KIND keyframe index # is shared by multiple tracks"),
    (10, "PMM KIND # has negative frame index #"),
    (11, "PMM KIND # has duplicate frame #"),
    (12, "PMM KIND # frame # has non-finite translation"),
    (13, "PMM KIND # frame # has invalid orientation"),
    (14, "PMM KIND # frame # has non-finite weight"),
];

/// The refusal that a message of `build_pmm_document_model_clip` tells; every other message is a defect here.
pub fn from_message(message: &str) -> Refusal {
    for (kind, word) in [(Kind::Bone, "bone"), (Kind::Morph, "morph")] {
        if let Some(count) = disconnected(message, word) {
            return Refusal { number: 15, kind: Some(kind), values: vec![count] };
        }
        for (number, pattern) in MESSAGES {
            if let Some(values) = fit(&pattern.replace("KIND", word), message) {
                let kind = Some(kind).filter(|_| number < 12);
                return Refusal { number, kind, values };
            }
        }
    }
    panic!("no refusal of document 01: {message}");
}

/// 15 also tells the model's name, which can be any text: so this is read from its end.
fn disconnected(message: &str, word: &str) -> Option<i128> {
    let end = format!(" disconnected additional {word} keyframe(s)");
    let (_, count) = message.strip_prefix("PMM model ")?.strip_suffix(&end)?.rsplit_once(" has ")?;
    count.parse().ok()
}

fn fit(pattern: &str, message: &str) -> Option<Vec<i128>> {
    let mut pieces = pattern.split('#');
    let mut rest = message.strip_prefix(pieces.next()?)?;
    let mut values = Vec::new();
    for piece in pieces {
        let digits = rest.find(|c: char| c != '-' && !c.is_ascii_digit()).unwrap_or(rest.len());
        values.push(rest[..digits].parse().ok()?);
        rest = rest[digits..].strip_prefix(piece)?;
    }
    rest.is_empty().then_some(values)
}
