//! The arguments.

use std::ffi::{OsStr, OsString};

use crate::help;
use crate::report::Stream;

#[derive(Debug, PartialEq, Eq)]
pub enum Asked {
    Help(&'static str),
    Run(Options),
}

#[derive(Debug, PartialEq, Eq)]
pub struct Options {
    pub command: Command,
    pub json: bool,
}

#[derive(Debug, PartialEq, Eq)]
pub enum Command {
    List(Section),
    ListStrip(OsString),
    /// The section, and where the strip goes.
    Strip(Section, OsString),
    Compare(OsString, OsString),
    /// The section whose path is looked up, and where.
    Reference(Section, References),
}

/// A model section in a file.
#[derive(Debug, PartialEq, Eq)]
pub struct Section {
    pub file: OsString,
    pub at: At,
}

#[derive(Debug, Clone, Copy, PartialEq, Eq)]
pub enum At {
    /// At the front of the file, which is no project.
    Front,
    /// At this offset of the file.
    Start(usize),
    /// The model of this number, from 0, in a PMMv2 project.
    Model(usize),
}

/// A list of references in a file.
#[derive(Debug, PartialEq, Eq)]
pub struct References {
    pub file: OsString,
    /// Whether it is text, one reference a line, or the bytes that the library takes.
    pub lines: bool,
}

/// What stood on the command line behind the subcommand.
#[derive(Debug, Default)]
struct Given {
    files: Vec<OsString>,
    start: Option<OsString>,
    model: Option<OsString>,
    output: Option<OsString>,
    strip: bool,
    lines: bool,
    json: bool,
    help: bool,
}

/// Even where the arguments are not understood.
pub fn wants_json(arguments: &[OsString]) -> bool {
    arguments.iter().take_while(|argument| *argument != "--").any(|argument| argument == "--json")
}

/// Where the report goes if the arguments are not understood, which may name standard output for the strip.
pub fn stream(arguments: &[OsString]) -> Stream {
    let pairs = arguments.iter().take_while(|argument| *argument != "--").zip(arguments.iter().skip(1));
    let outputs = pairs.filter(|(option, _)| *option == "-o" || *option == "--output").map(|(_, output)| output);
    outputs.map(|output| Stream::beside(output)).find(|stream| *stream == Stream::Error).unwrap_or(Stream::Output)
}

/// What is asked, or what is wrong with the arguments.
pub fn parse(arguments: &[OsString]) -> Result<Asked, String> {
    let Some((subcommand, rest)) = arguments.split_first() else {
        return Err("no subcommand".into());
    };
    let subcommand = subcommand.to_str().unwrap_or_default();
    let help = match subcommand {
        "--help" | "-h" => return Ok(Asked::Help(help::PROGRAM)),
        "list" => help::LIST,
        "strip" => help::STRIP,
        "compare" => help::COMPARE,
        "reference" => help::REFERENCE,
        _ => return Err(format!("no subcommand is called {}", arguments[0].to_string_lossy())),
    };
    let given = given(rest)?;
    if given.help {
        return Ok(Asked::Help(help));
    }
    if let Some(option) = not_taken(subcommand, &given) {
        return Err(format!("{subcommand} takes no {option}"));
    }
    let json = given.json;
    let command = match subcommand {
        "compare" => compare(given)?,
        "reference" => reference(given)?,
        "strip" => {
            let output = given.output.clone().ok_or("strip: -o OUT is missing")?;
            Command::Strip(section(subcommand, given)?, output)
        }
        _ if given.strip => list_strip(given)?,
        _ => Command::List(section(subcommand, given)?),
    };
    Ok(Asked::Run(Options { command, json }))
}

fn given(arguments: &[OsString]) -> Result<Given, String> {
    let mut given = Given::default();
    let mut rest = arguments.iter();
    while let Some(argument) = rest.next() {
        let place = match argument.to_str() {
            Some("--") => {
                given.files.extend(rest.by_ref().cloned());
                continue;
            }
            Some("--json") => {
                given.json = true;
                continue;
            }
            Some("--strip") => {
                given.strip = true;
                continue;
            }
            Some("--lines") => {
                given.lines = true;
                continue;
            }
            Some("--help" | "-h") => {
                given.help = true;
                continue;
            }
            Some("--start") => &mut given.start,
            Some("--model") => &mut given.model,
            Some("-o" | "--output") => &mut given.output,
            Some(option) if is_option(argument) => return Err(format!("no option is called {option}")),
            _ => {
                given.files.push(argument.clone());
                continue;
            }
        };
        let takes_file = argument == "-o" || argument == "--output";
        let value = rest.next().filter(|value| !(takes_file && is_option(value)));
        let value = value.ok_or(format!("{} lacks what follows it", argument.to_string_lossy()))?;
        if place.replace(value.clone()).is_some() {
            return Err(format!("{} is given twice", argument.to_string_lossy()));
        }
    }
    Ok(given)
}

/// A file whose name begins with - can be given as ./-name.
fn is_option(argument: &OsStr) -> bool {
    argument != "-" && argument.as_encoded_bytes().starts_with(b"-")
}

/// An option that others take and this one does not.
fn not_taken(subcommand: &str, given: &Given) -> Option<&'static str> {
    let taken: &[&str] = match subcommand {
        "list" => &["--start", "--model", "--strip"],
        "strip" => &["--start", "--model", "-o"],
        "reference" => &["--start", "--model", "--lines"],
        _ => &[],
    };
    let options = [
        ("--start", given.start.is_some()),
        ("--model", given.model.is_some()),
        ("-o", given.output.is_some()),
        ("--strip", given.strip),
        ("--lines", given.lines),
    ];
    options.into_iter().find(|(option, is_given)| *is_given && !taken.contains(option)).map(|(option, _)| option)
}

fn section(subcommand: &str, given: Given) -> Result<Section, String> {
    let at = at(&given)?;
    let [file] = files(subcommand, "one file", given)?;
    Ok(Section { file, at })
}

fn list_strip(given: Given) -> Result<Command, String> {
    for (option, is_given) in [("--start", given.start.is_some()), ("--model", given.model.is_some())] {
        if is_given {
            return Err(format!("--strip and {option} exclude each other"));
        }
    }
    let [file] = files("list", "one file", given)?;
    Ok(Command::ListStrip(file))
}

fn at(given: &Given) -> Result<At, String> {
    Ok(match (&given.start, &given.model) {
        (Some(_), Some(_)) => return Err("--start and --model exclude each other".into()),
        (_, Some(model)) => At::Model(number("--model", model)?),
        (Some(start), None) => At::Start(number("--start", start)?),
        (None, None) => At::Front,
    })
}

fn compare(given: Given) -> Result<Command, String> {
    let [first, second] = files("compare", "two strips", given)?;
    if first == "-" && second == "-" {
        return Err("only one of the two strips can be standard input".into());
    }
    Ok(Command::Compare(first, second))
}

fn reference(given: Given) -> Result<Command, String> {
    let (at, lines) = (at(&given)?, given.lines);
    let [file, list] = files("reference", "two files", given)?;
    if file == "-" && list == "-" {
        return Err("only one of the section and the list can be standard input".into());
    }
    Ok(Command::Reference(Section { file, at }, References { file: list, lines }))
}

fn files<const N: usize>(subcommand: &str, wanted: &str, given: Given) -> Result<[OsString; N], String> {
    let files = <[_; N]>::try_from(given.files);
    files.map_err(|files| format!("{subcommand} takes {wanted}, not {}", files.len()))
}

fn number(option: &str, text: &OsStr) -> Result<usize, String> {
    let digits = text.to_str().filter(|text| !text.is_empty() && text.bytes().all(|byte| byte.is_ascii_digit()));
    let digits = digits.ok_or_else(|| format!("{option} {} is no number from 0 on", text.to_string_lossy()))?;
    digits.parse().map_err(|_| format!("{option} {digits} is too large"))
}
