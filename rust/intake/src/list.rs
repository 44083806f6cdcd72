//! `intake list`: document 01's listing, for sections of every length, and that of a stored strip.

use std::ffi::OsStr;
use std::fmt::Write;

use limdroven::{Kind, StripRow, strip, strip_counts, strip_keys};

use crate::failure::{Failure, named};
use crate::input::{Lent, lent};
use crate::json::Json;
use crate::options::Section;
use crate::report::Report;
use crate::stored::{self, count};

pub fn list(section: &Section) -> Report {
    listed(section).unwrap_or_else(refused)
}

pub fn list_strip(file: &OsStr) -> Report {
    strip_listed(file).unwrap_or_else(refused)
}

/// A refusal also has the listing's own line.
fn refused(failure: Failure) -> Report {
    let text = match &failure {
        Failure::Refused { refusal, .. } => format!("refused {}\n", refusal.number()),
        _ => String::new(),
    };
    Report { text, ..Report::from(failure) }
}

fn listed(section: &Section) -> Result<Report, Failure> {
    let lent = Lent::read(section)?;
    section_listed(&lent).map_err(|failure| hinted(failure, &lent.bytes))
}

fn section_listed(lent: &Lent) -> Result<Report, Failure> {
    let summary = lent.summary()?;
    let strip = strip(&lent.bytes, lent.start).map_err(|refusal| lent.refused(refusal))?;
    let keys = strip_keys(&strip.bytes).expect("a strip that the strip call made is never refused");
    let end = lent.base + summary.offset_end;
    let (bones, morphs, number, loose) = (summary.bone_count, summary.morph_count, keys.len(), strip.loose);
    let text = format!("model {bones} {morphs} {end}\n{}keys {number} loose {loose}\n", lines(&keys));
    let keys = vec![
        ("bones", Json::number(bones)),
        ("morphs", Json::number(morphs)),
        ("end", Json::number(end)),
        ("keys", Json::Keys(keys)),
        ("key_count", Json::number(number)),
        ("loose", Json::number(loose)),
    ];
    Ok(Report { status: 0, result: "listed", keys, text, error: None })
}

fn strip_listed(file: &OsStr) -> Result<Report, Failure> {
    let strip = lent(file)?;
    let keys = strip_keys(&strip).map_err(|refusal| Failure::Refused {
        file: named(file),
        model: None,
        refusal,
        words: stored::words(&strip, refusal),
    })?;
    let (bones, morphs, length) = (count(&keys, Kind::Bone), count(&keys, Kind::Morph), strip.len());
    let number = keys.len();
    let text = format!("strip {bones} {morphs} {length}\n{}keys {number}\n", lines(&keys));
    let keys = vec![
        ("bones", Json::number(bones)),
        ("morphs", Json::number(morphs)),
        ("length", Json::number(length)),
        ("keys", Json::Keys(keys)),
        ("key_count", Json::number(number)),
    ];
    Ok(Report { status: 0, result: "listed", keys, text, error: None })
}

/// One for each key.
fn lines(keys: &[StripRow]) -> String {
    let mut lines = String::new();
    for StripRow { track, key, .. } in keys {
        let (kind, track, frame, map) = (track.kind(), track.number(), key.frame(), key.map());
        writeln!(lines, "{kind} {track} {frame} {map}").expect("a string takes all");
    }
    lines
}

/// With a hint where the file is a strip.
fn hinted(failure: Failure, bytes: &[u8]) -> Failure {
    match failure {
        Failure::Refused { file, model: None, refusal, words } if strip_counts(bytes).is_ok() => {
            let words = words + " (this looks like a strip: --strip lists it)";
            Failure::Refused { file, model: None, refusal, words }
        }
        other => other,
    }
}
