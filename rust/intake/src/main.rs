//! The command line over the proved library. What is done here, outside the proofs: arguments and files, the walk over a
//! project's model sections, the counting of a strip's tracks by their keys and the comparing of strips, key by key, lists of
//! references read from lines, and what is printed.

#![forbid(unsafe_code)]

mod compare;
mod failure;
mod fields;
mod help;
mod input;
mod json;
mod list;
mod options;
mod output;
mod project;
mod reference;
mod references;
mod report;
mod same;
mod stored;
mod strip;

use std::env;
use std::process::ExitCode;

use failure::Failure;
use options::{Asked, Command, Options};
use report::{Report, Stream};

fn main() -> ExitCode {
    let arguments: Vec<_> = env::args_os().skip(1).collect();
    let status = match options::parse(&arguments) {
        Ok(Asked::Help(text)) => report::print(Stream::Output, text, 0),
        Ok(Asked::Run(options)) => run(&options),
        Err(words) => {
            Report::from(Failure::Usage(words)).say(options::wants_json(&arguments), options::stream(&arguments))
        }
    };
    ExitCode::from(status)
}

/// Does what is asked and tells it; the exit status.
fn run(options: &Options) -> u8 {
    let (report, stream) = match &options.command {
        Command::List(section) => (list::list(section), Stream::Output),
        Command::ListStrip(file) => (list::list_strip(file), Stream::Output),
        Command::Strip(section, output) => (strip::strip(section, output), Stream::beside(output)),
        Command::Compare(first, second) => (compare::compare(first, second), Stream::Output),
        Command::Reference(section, references) => (reference::reference(section, references), Stream::Output),
    };
    report.say(options.json, stream)
}
