//! Why a run gives no result, and its exit status.

use std::ffi::OsStr;
use std::fmt;
use std::io;

use limdroven::Refusal;

use crate::json::Json;

pub const FILE_STATUS: u8 = 4;

#[derive(Debug)]
pub enum Failure {
    Usage(String),
    /// The library's refusal, also in words; in a project also of which model, and the file's name.
    Refused {
        file: String,
        model: Option<usize>,
        refusal: Refusal,
        words: String,
    },
    File {
        file: String,
        error: io::Error,
    },
    /// The library's refusal of a strip that is to be compared, also in words.
    MalformedStrip {
        file: String,
        refusal: Refusal,
        words: String,
    },
    /// A line, counted from 1, that is no reference.
    Line {
        file: String,
        line: usize,
        words: &'static str,
    },
    /// The file is a project where a section was asked for; or it is no PMMv2 project, or has no such model.
    Project {
        file: String,
        words: String,
    },
}

/// A file's name as it was given.
pub fn named(path: &OsStr) -> String {
    path.to_string_lossy().into_owned()
}

/// As it is told in words.
fn told(file: &str) -> &str {
    if file == "-" { "standard input" } else { file }
}

impl Failure {
    pub fn status(&self) -> u8 {
        match self {
            Self::Usage(_) => 2,
            Self::Refused { .. } => 3,
            Self::File { .. } => FILE_STATUS,
            Self::MalformedStrip { .. } | Self::Line { .. } => 5,
            Self::Project { .. } => 6,
        }
    }

    pub fn result(&self) -> &'static str {
        match self {
            Self::Usage(_) => "usage",
            Self::Refused { .. } => "refused",
            Self::File { .. } => "file",
            Self::MalformedStrip { .. } | Self::Line { .. } => "malformed",
            Self::Project { .. } => "project",
        }
    }

    /// What the JSON object has between `status` and `words`.
    pub fn keys(&self) -> Vec<(&'static str, Json)> {
        match self {
            Self::Usage(_) => vec![],
            Self::Refused { file, model, refusal, .. } => {
                let values = refusal.values().into_iter().map(|(name, value)| (name, Json::Number(value)));
                vec![
                    ("file", Json::text(file)),
                    ("model", model.map_or(Json::Null, Json::number)),
                    ("number", Json::number(refusal.number())),
                    ("kind", refusal.kind().map_or(Json::Null, |kind| Json::text(kind.to_string()))),
                    ("values", Json::Object(values.collect())),
                ]
            }
            Self::File { file, .. } | Self::Project { file, .. } => vec![("file", Json::text(file))],
            Self::MalformedStrip { file, refusal, .. } => {
                vec![("file", Json::text(file)), ("number", Json::number(refusal.number()))]
            }
            Self::Line { file, line, .. } => vec![("file", Json::text(file)), ("line", Json::number(*line))],
        }
    }
}

impl fmt::Display for Failure {
    fn fmt(&self, formatter: &mut fmt::Formatter<'_>) -> fmt::Result {
        match self {
            Self::Usage(words) => write!(formatter, "{words}; `intake --help` tells what is asked for"),
            Self::Refused { file, model, words, .. } => {
                let model = model.map(|model| format!(", model {model}")).unwrap_or_default();
                write!(formatter, "{}{model}: {words}", told(file))
            }
            Self::File { file, error } => write!(formatter, "{}: {error}", told(file)),
            Self::MalformedStrip { file, words, .. } => write!(formatter, "{}: malformed strip: {words}", told(file)),
            Self::Line { file, line, words } => {
                write!(formatter, "{}: malformed list at line {line}: {words}", told(file))
            }
            Self::Project { file, words } => write!(formatter, "{}: {words}", told(file)),
        }
    }
}
