//! What is told of a run, as text or as JSON.

use std::ffi::OsStr;
use std::io::{self, ErrorKind, Write};

use crate::failure::{FILE_STATUS, Failure};
use crate::json::Json;
use crate::same;

/// Where a report goes: to standard error where standard output takes the strip.
#[derive(Debug, Clone, Copy, PartialEq, Eq)]
pub enum Stream {
    Output,
    Error,
}

impl Stream {
    /// Where the strip goes to this output.
    pub fn beside(output: &OsStr) -> Self {
        if same::is_standard_output(output) { Self::Error } else { Self::Output }
    }
}

#[derive(Debug)]
pub struct Report {
    /// The exit status.
    pub status: u8,
    /// The first key of the object.
    pub result: &'static str,
    /// The keys behind `result` and `status`.
    pub keys: Vec<(&'static str, Json)>,
    /// The lines of the report.
    pub text: String,
    /// A failure in words, for standard error.
    pub error: Option<String>,
}

impl From<Failure> for Report {
    fn from(failure: Failure) -> Self {
        let words = failure.to_string();
        let mut keys = failure.keys();
        keys.push(("words", Json::text(&words)));
        Self { status: failure.status(), result: failure.result(), keys, text: String::new(), error: Some(words) }
    }
}

impl Report {
    /// Tells it and gives the exit status.
    pub fn say(self, json: bool, stream: Stream) -> u8 {
        if json {
            let head = [("result", Json::text(self.result)), ("status", Json::number(self.status))];
            let object = Json::Object(head.into_iter().chain(self.keys).collect());
            return print(stream, &format!("{object}\n"), self.status);
        }
        if let Some(error) = self.error {
            print(Stream::Error, &format!("intake: {}\n", printable(&error)), self.status);
        }
        print(stream, &self.text, self.status)
    }
}

/// Control characters, which a file's name may have, are written out.
fn printable(text: &str) -> String {
    let written =
        |character: char| if character.is_control() { character.escape_debug().to_string() } else { character.into() };
    text.chars().map(written).collect()
}

/// The status given, or that of a file which cannot be written.
pub fn print(stream: Stream, text: &str, status: u8) -> u8 {
    let written = match stream {
        Stream::Output => io::stdout().write_all(text.as_bytes()).and_then(|()| io::stdout().flush()),
        Stream::Error => io::stderr().write_all(text.as_bytes()),
    };
    if let Err(error) = written {
        // A reader that has closed the pipe wants no more of it.
        if error.kind() != ErrorKind::BrokenPipe {
            // Nothing is left to tell it to if this fails too.
            let _ = writeln!(io::stderr(), "intake: what is printed cannot be written: {error}");
        }
        return FILE_STATUS;
    }
    status
}

pub fn counted(count: usize, what: &str) -> String {
    format!("{count} {what}{}", if count == 1 { "" } else { "s" })
}
