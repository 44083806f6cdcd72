//! `intake reference`: which reference of a list has a section's path.

use limdroven::{Refusal, asset_reference_index_for_path, path};

use crate::failure::{Failure, named};
use crate::input::Lent;
use crate::json::Json;
use crate::options::{References, Section};
use crate::references;
use crate::report::Report;

pub fn reference(section: &Section, list: &References) -> Report {
    found(section, list).unwrap_or_else(Report::from)
}

fn found(section: &Section, list: &References) -> Result<Report, Failure> {
    let lent = Lent::read(section)?;
    let path = path(&lent.bytes, lent.start).map_err(|refusal| lent.refused(refusal))?;
    let bytes = references::read(list)?;
    match asset_reference_index_for_path(&path, &bytes) {
        Ok(number) => Ok(report(number, &path)),
        // The path is at most 256 bytes long, so all else is met in the list.
        Err(refusal @ Refusal::NotAscii) if !path.is_ascii() => Err(lent.refused(refusal)),
        Err(refusal) => Err(of_list(list, &bytes, refusal)),
    }
}

/// With a hint where `--lines` was not given for text.
fn of_list(list: &References, bytes: &[u8], refusal: Refusal) -> Failure {
    let text = !list.lines && references::begins_with_line(bytes);
    let hint = if text { " (this looks like text: --lines reads it)" } else { "" };
    Failure::Refused { file: named(&list.file), model: None, refusal, words: format!("{refusal}{hint}") }
}

fn report(number: Option<usize>, path: &[u8]) -> Report {
    let told = number.map_or("none".into(), |number| number.to_string());
    // The path is ASCII, or it would have been refused.
    let path = Json::text(String::from_utf8_lossy(path));
    let keys = vec![("reference", number.map_or(Json::Null, Json::number)), ("path", path)];
    let text = format!("reference {told}\n");
    Report { status: u8::from(number.is_none()), result: "reference", keys, text, error: None }
}
