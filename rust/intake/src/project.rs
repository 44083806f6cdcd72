//! The model sections of a PMMv2 project, as the Rust walks them (`parse_pmm_manifest_version`, `parse_document_summary`):
//! 30 bytes of signature and version; three i32 and an f32; seven bytes; the selected model; how many models there are;
//! their sections, one behind the other.

use std::io::Read;

use limdroven::{MOST_BYTES, Refusal, model_summary};

use crate::failure::Failure;
use crate::input::{Lent, failed, read};

const SIGNATURE: &[u8] = b"Polygon Movie maker ";
const HEADER: usize = 55;

/// The section of this model and what follows it, up to the most that the library takes.
pub fn section(input: &mut dyn Read, file: String, model: usize) -> Result<Lent, Failure> {
    let not = |words: String| Failure::Project { file: file.clone(), words };
    let header = read(input, HEADER).map_err(failed(&file))?;
    if !header.starts_with(SIGNATURE) {
        return Err(not("not a PMM project: it does not begin with `Polygon Movie maker `".into()));
    }
    if version(&header) != Some(2) {
        return Err(not("not a PMM project of version 2".into()));
    }
    let Some(&count) = header.get(HEADER - 1) else {
        return Err(not("the project ends inside its header".into()));
    };
    if usize::from(count) <= model {
        return Err(not(format!("the project has {count} model(s), numbered from 0; there is no model {model}")));
    }
    let mut lent = Lent { file, bytes: Vec::new(), start: 0, base: HEADER, model: Some(0) };
    loop {
        let ahead = fill(input, &mut lent)?;
        let refused = |refusal| lent.refused(if ahead.is_some() { cut(refusal) } else { refusal });
        let summary = model_summary(&lent.bytes, lent.start).map_err(refused)?;
        if lent.model == Some(model) {
            return Ok(lent);
        }
        lent.bytes.drain(..summary.offset_end);
        lent.bytes.extend(ahead);
        lent.base += summary.offset_end;
        lent.model = lent.model.map(|model| model + 1);
    }
}

/// Of a file that begins as a project does: what it is, and what `--model` does with it.
pub fn told(front: &[u8]) -> Option<String> {
    if !front.starts_with(SIGNATURE) {
        return None;
    }
    Some(match version(front) {
        Some(2) => "a project: --model N takes its model N".into(),
        Some(version) => format!("a PMM project of version {version}, not 2: --model does not walk it"),
        None => "a PMM project of a version other than 2: --model does not walk it".into(),
    })
}

fn version(header: &[u8]) -> Option<u32> {
    let bytes = &header[SIGNATURE.len()..header.len().min(32)];
    let end = bytes.iter().position(|byte| *byte == 0).unwrap_or(bytes.len());
    String::from_utf8_lossy(&bytes[..end]).trim().parse().ok()
}

/// Reads on to the most that can be lent, and gives the byte behind, if the file has one.
fn fill(input: &mut dyn Read, lent: &mut Lent) -> Result<Option<u8>, Failure> {
    let room = MOST_BYTES + 1 - lent.bytes.len();
    lent.bytes.extend(read(input, room).map_err(failed(&lent.file))?);
    Ok(if lent.bytes.len() > MOST_BYTES { lent.bytes.pop() } else { None })
}

/// Where the file goes on behind the bytes lent, a section that they end in is longer than the library takes.
fn cut(refusal: Refusal) -> Refusal {
    match refusal {
        Refusal::TooShort { .. } => Refusal::TooLong,
        other => other,
    }
}
