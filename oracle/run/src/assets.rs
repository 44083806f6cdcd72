//! Paths and lists of references: what the Rust and document 02 together ask of each, and the library's call held against it.

use std::collections::BTreeMap;
use std::fmt;

use answers::Refusal;
use answers::assets::{LENGTH_LIMIT, answer, normalised, references, rust_answer, rust_normalised, rust_references};
use generate::assets::Case;

use crate::compare::BEFORE_NUMBER;

/// The number of a reference, or none.
pub type Answer = Result<Option<usize>, Refusal>;

/// What is written where no reference is equal.
const NONE: u64 = u64::MAX;

/// The library's call: path, list and values; what it returns.
pub type Call = fn(&[u8], &[u8], &mut [u64]) -> u32;

/// An error tells that the Rust contradicts document 02 in ASCII, where both answer.
pub fn expected(Case { path, list, .. }: &Case) -> Result<Answer, String> {
    let answer = answer(path, list);
    if path.is_ascii() && path.len() <= LENGTH_LIMIT {
        let (text, rust) = (normalised(path), rust_normalised(path));
        if text != rust {
            return Err(format!("the Rust normalises to {}, not to {}", rust.escape_ascii(), text.escape_ascii()));
        }
    }
    if let Ok(number) = answer {
        let references = references(list).expect("answered");
        let rust = rust_answer(path, &rust_references(&references));
        if number != rust {
            return Err(format!("the Rust finds {rust:?}, not {number:?}"));
        }
    }
    Ok(answer)
}

/// What is returned, and the value where there is one.
pub fn told(answer: &Answer) -> (u32, Option<u64>) {
    match answer {
        Ok(number) => (0, Some(number.map_or(NONE, |number| number as u64))),
        Err(refusal) => (refusal.number.into(), None),
    }
}

/// How many values are lent in turn, beside a call with several.
const LENT: [usize; 4] = [0, 1, 2, 3];
const SEVERAL: usize = 8;

#[derive(Default)]
pub struct Comparison {
    cases: u64,
    calls: u64,
    by_returned: BTreeMap<u32, u64>,
    compared: u64,
    differences: u64,
    /// Those of the shortest paths and lists, with the length.
    shortest: Vec<(usize, String)>,
}

impl Comparison {
    /// `other` is a `Call`.
    pub fn case(
        &mut self,
        number: u64,
        case: &Case,
        expected: &Result<Answer, String>,
        other: impl Fn(&[u8], &[u8], &mut [u64]) -> u32,
    ) {
        self.cases += 1;
        let answer = match expected {
            Ok(answer) => answer,
            Err(contradiction) => return self.differs(number, case, contradiction),
        };
        for lent in [SEVERAL, LENT[self.cases as usize % LENT.len()]] {
            let mut values = [BEFORE_NUMBER; SEVERAL];
            let returned = other(&case.path, &case.list, &mut values[..lent]);
            if let Some(found) = self.check(answer, returned, &values[..lent]) {
                return self.differs(number, case, &format!("{lent} lent: {found}"));
            }
        }
    }

    fn check(&mut self, answer: &Answer, returned: u32, values: &[u64]) -> Option<String> {
        let (number, value) = told(answer);
        self.calls += 1;
        self.compared += 1 + values.len() as u64;
        *self.by_returned.entry(number).or_default() += 1;
        if returned != number {
            return Some(format!("returned {returned} instead of {number}"));
        }
        let expected = value.into_iter().chain(std::iter::repeat(BEFORE_NUMBER));
        let mut places = values.iter().zip(expected).enumerate();
        let (place, (found, expected)) = places.find(|(_, (found, expected))| *found != expected)?;
        Some(format!("[{place}] {found} instead of {expected}"))
    }

    fn differs(&mut self, number: u64, case: &Case, found: &str) {
        self.differences += 1;
        self.shortest.push((case.length(), format!("case {number}: {found}: {}", shown(case))));
        self.shortest.sort();
        self.shortest.truncate(10);
    }

    pub fn differences(&self) -> u64 {
        self.differences
    }
}

/// The path, and the list's bytes, as far as they are short.
pub fn shown(Case { path, list, .. }: &Case) -> String {
    let short = |bytes: &[u8]| {
        let more = if bytes.len() > 400 { format!(".. {} bytes", bytes.len()) } else { String::new() };
        format!("\"{}\"{more}", bytes[..bytes.len().min(400)].escape_ascii())
    };
    format!("path {}, list {}", short(path), short(list))
}

impl fmt::Display for Comparison {
    fn fmt(&self, f: &mut fmt::Formatter<'_>) -> fmt::Result {
        for (returned, times) in &self.by_returned {
            writeln!(f, "returned {returned:2}{:16}{times:>9} calls", "")?;
        }
        writeln!(f, "{} cases, {} calls, {} numbers compared", self.cases, self.calls, self.compared)?;
        self.shortest.iter().try_for_each(|(_, text)| writeln!(f, "{text}"))?;
        writeln!(f, "{} differences", self.differences)
    }
}
