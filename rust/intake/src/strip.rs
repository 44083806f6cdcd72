//! `intake strip`: a section's strip, written to a file.

use std::ffi::OsStr;

use crate::failure::{Failure, named};
use crate::input::{Lent, failed};
use crate::json::Json;
use crate::options::Section;
use crate::output;
use crate::report::Report;
use crate::same;

pub fn strip(section: &Section, output: &OsStr) -> Report {
    written(section, output).unwrap_or_else(Report::from)
}

/// A failure leaves the output file as it was.
fn written(section: &Section, output: &OsStr) -> Result<Report, Failure> {
    if same::replaces(&section.file, output) {
        return Err(Failure::Usage("strip: FILE and OUT are the same file".into()));
    }
    let lent = Lent::read(section)?;
    let strip = limdroven::strip(&lent.bytes, lent.start).map_err(|refusal| lent.refused(refusal))?;
    let told = if output == "-" { "standard output".into() } else { named(output) };
    output::write(output, &strip.bytes).map_err(failed(&told))?;
    let length = strip.bytes.len();
    let keys = vec![
        ("output", Json::text(named(output))),
        ("length", Json::number(length)),
        ("reached", Json::number(strip.reached)),
        ("loose", Json::number(strip.loose)),
    ];
    let text = format!("{length} bytes, {} reached, {} loose\n", strip.reached, strip.loose);
    Ok(Report { status: 0, result: "written", keys, text, error: None })
}
