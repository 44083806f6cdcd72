//! The reference number of a path in a list of all references, written from document 02's words alone.

pub const LENGTH_LIMIT: usize = 16_777_215;
/// The kind byte of a model.
pub const MODEL: u8 = 1;

const USERFILE: &[u8] = b"userfile/";

#[derive(Debug, Clone, Copy, PartialEq, Eq)]
pub struct Reference<'a> {
    pub kind: u8,
    pub text: &'a [u8],
}

/// The number of the first model entry equal to the normalised path, or the refusal's number: 16, 21 or 22.
pub fn answer(path: &[u8], list: &[u8]) -> Result<Option<usize>, u8> {
    if path.len() > LENGTH_LIMIT || list.len() > LENGTH_LIMIT {
        return Err(16);
    }
    let references = references(list).ok_or(21)?;
    if !path.is_ascii() || !references.iter().all(|reference| reference.text.is_ascii()) {
        return Err(22);
    }
    let normalised = normalised(path);
    let equal = |text: &[u8]| text.len() == normalised.len() && text.eq_ignore_ascii_case(&normalised);
    Ok(references.iter().position(|Reference { kind, text }| *kind == MODEL && equal(text)))
}

/// The entries of a list; none where it ends inside one.
pub fn references(list: &[u8]) -> Option<Vec<Reference<'_>>> {
    let mut references = Vec::new();
    let mut left = list;
    while let Some((kind, behind)) = left.split_first() {
        let (length, behind) = behind.split_first_chunk()?;
        let (text, behind) = behind.split_at_checked(u16::from_le_bytes(*length).into())?;
        references.push(Reference { kind: *kind, text });
        left = behind;
    }
    Some(references)
}

/// From the last `userfile/` on, in any letter case, that opens the text with its slashes or follows one of them.
pub fn normalised(path: &[u8]) -> Vec<u8> {
    let mut text = slashes(path);
    let opens = |place: &usize| {
        let word = &text[*place..(place + USERFILE.len()).min(text.len())];
        word.eq_ignore_ascii_case(USERFILE) && text[..*place].last().is_none_or(|byte| *byte == b'/')
    };
    match (0..text.len()).rev().find(opens) {
        Some(place) => text.split_off(place),
        None => text,
    }
}

/// Slashes for backslashes, and then one for each two, in one pass from the left.
pub fn slashes(path: &[u8]) -> Vec<u8> {
    let mut text = Vec::with_capacity(path.len());
    let mut left = path;
    loop {
        left = match left {
            [b'/' | b'\\', b'/' | b'\\', behind @ ..] | [b'/' | b'\\', behind @ ..] => {
                text.push(b'/');
                behind
            }
            [byte, behind @ ..] => {
                text.push(*byte);
                behind
            }
            [] => return text,
        };
    }
}
