//! A list of references, read from a file.

use std::io::{self, BufRead, BufReader, Read};

use limdroven::{AssetList, MOST_BYTES};

use crate::failure::{Failure, named};
use crate::input::{all, failed, open};
use crate::options::References;

/// The list's bytes. Where there are more than the library takes, the file is read no further: it refuses them all.
pub fn read(references: &References) -> Result<Vec<u8>, Failure> {
    let file = named(&references.file);
    let mut input = open(&references.file)?;
    if references.lines {
        return lines(BufReader::new(input), &file);
    }
    all(&mut *input, &file)
}

/// Whether a list's bytes begin as text does that `--lines` reads.
pub fn begins_with_line(bytes: &[u8]) -> bool {
    bytes.split(|byte| *byte == b'\n').next().and_then(reference).is_some()
}

fn lines(mut input: impl BufRead, file: &str) -> Result<Vec<u8>, Failure> {
    let mut list = AssetList::new();
    let mut number = 0;
    while list.as_bytes().len() <= MOST_BYTES {
        let Some(line) = next_line(&mut input).map_err(failed(file))? else { break };
        number += 1;
        let malformed = |words| Failure::Line { file: file.into(), line: number, words };
        let (kind, path) = reference(&line).ok_or_else(|| malformed(NO_REFERENCE))?;
        list.push(kind, path).map_err(|_| malformed(TOO_LONG))?;
    }
    Ok(list.as_bytes().to_vec())
}

const NO_REFERENCE: &str = "not a kind from 0 to 255, one space and a path";
const TOO_LONG: &str = "the path is longer than 65535 bytes";

/// A kind of three digits, the space, the longest path and the end of a line.
const LONGEST: u64 = 3 + 1 + 65_535 + 2;

/// The next line without its end. A longer one than any reference has is cut, and its path is still too long.
fn next_line(input: &mut impl BufRead) -> io::Result<Option<Vec<u8>>> {
    let mut line = Vec::new();
    input.take(LONGEST).read_until(b'\n', &mut line)?;
    if line.is_empty() {
        return Ok(None);
    }
    if let Some(text) = line.strip_suffix(b"\n") {
        line.truncate(text.strip_suffix(b"\r").unwrap_or(text).len());
    }
    Ok(Some(line))
}

/// The kind and the path.
fn reference(line: &[u8]) -> Option<(u8, &[u8])> {
    let space = line.iter().position(|byte| *byte == b' ')?;
    let (kind, path) = (&line[..space], &line[space + 1..]);
    let digits = str::from_utf8(kind).ok().filter(|_| kind.len() <= 3 && kind.iter().all(u8::is_ascii_digit))?;
    Some((digits.parse().ok()?, path))
}
