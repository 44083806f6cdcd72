//! Files read, `-` being standard input.

use std::ffi::OsStr;
use std::fs::File;
use std::io::{self, Read};

use limdroven::{MOST_BYTES, PmmDocumentModelSummary, Refusal, model_summary};

use crate::failure::{Failure, named};
use crate::options::{At, Section};
use crate::project;
use crate::report::counted;

/// What is lent to the library for one section.
#[derive(Debug)]
pub struct Lent {
    pub file: String,
    pub bytes: Vec<u8>,
    /// The section's offset in the bytes.
    pub start: usize,
    /// The bytes' offset in the file.
    pub base: usize,
    /// The model's number in a project.
    pub model: Option<usize>,
}

impl Lent {
    /// A section's file, or the part of a project from the model's section on.
    pub fn read(section: &Section) -> Result<Self, Failure> {
        let file = named(&section.file);
        let mut input = open(&section.file)?;
        match section.at {
            At::Front => Self::whole(&mut *input, file, 0)?.no_project(),
            At::Start(start) => Self::whole(&mut *input, file, start),
            At::Model(model) => project::section(&mut *input, file, model),
        }
    }

    fn whole(input: &mut dyn Read, file: String, start: usize) -> Result<Self, Failure> {
        let bytes = all(input, &file)?;
        Ok(Self { file, bytes, start, base: 0, model: None })
    }

    /// The front of a project can read as a section, whose strip would be that of none of its models.
    fn no_project(self) -> Result<Self, Failure> {
        let Some(project) = project::told(&self.bytes) else {
            return Ok(self);
        };
        let words = format!("this is {project}, --start 0 reads it as a section");
        Err(Failure::Project { file: self.file, words })
    }

    pub fn summary(&self) -> Result<PmmDocumentModelSummary, Failure> {
        model_summary(&self.bytes, self.start).map_err(|refusal| self.refused(refusal))
    }

    /// The refusal with its place in the file.
    pub fn refused(&self, refusal: Refusal) -> Failure {
        let refusal = refusal.moved(self.base);
        Failure::Refused { file: self.file.clone(), model: self.model, refusal, words: self.words(refusal) }
    }

    /// With a hint where `--start` was given for a project.
    fn words(&self, refusal: Refusal) -> String {
        let (number, start, length) = (refusal.number(), self.start, self.bytes.len());
        let words = match refusal {
            // A file that is not read whole is refused with 16, so this length is the file's.
            Refusal::TooShort { .. } if start > length => {
                let whole = if self.file == "-" { "standard input" } else { "the file" };
                let length = counted(length, "byte");
                format!("refused {number}: the start {start} is past the end of {whole}, which has {length}")
            }
            _ => refusal.to_string(),
        };
        let project = project::told(&self.bytes).filter(|_| self.model.is_none());
        let hint = project.map(|project| format!(" (this looks like {project})")).unwrap_or_default();
        words + &hint
    }
}

/// A file's bytes, to be lent to the library whole.
pub fn lent(path: &OsStr) -> Result<Vec<u8>, Failure> {
    all(&mut *open(path)?, &named(path))
}

/// One byte more than the library takes is enough for it to refuse all that are longer.
pub fn all(input: &mut dyn Read, file: &str) -> Result<Vec<u8>, Failure> {
    read(input, MOST_BYTES + 1).map_err(failed(file))
}

pub fn open(path: &OsStr) -> Result<Box<dyn Read>, Failure> {
    if path == "-" {
        return Ok(Box::new(io::stdin()));
    }
    let opened = File::open(path).map_err(failed(&named(path)))?;
    Ok(Box::new(opened))
}

/// At most so many bytes.
pub fn read(input: &mut dyn Read, most: usize) -> io::Result<Vec<u8>> {
    let mut bytes = Vec::new();
    input.take(most as u64).read_to_end(&mut bytes)?;
    Ok(bytes)
}

pub fn failed(file: &str) -> impl Fn(io::Error) -> Failure + use<> {
    let file = file.to_owned();
    move |error| Failure::File { file: file.clone(), error }
}
