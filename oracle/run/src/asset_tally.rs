//! How many paths and lists of each sort were met, and what they answer: to see that every sort is really made.

use std::collections::BTreeMap;
use std::fmt;

use generate::assets::Case;

use crate::assets::{Answer, shown};

#[derive(Default)]
pub struct Tally {
    all: Counts,
    /// Those of the paths, then those of the lists.
    sorts: [BTreeMap<&'static str, Counts>; 2],
    contradictions: u64,
    /// Those of the shortest paths and lists, with the length.
    shortest: Vec<(usize, String)>,
}

#[derive(Default)]
struct Counts {
    cases: usize,
    numbers: usize,
    none: usize,
    /// 16, 21, 22.
    refused: [usize; 3],
}

const REFUSALS: [u8; 3] = [16, 21, 22];

impl Tally {
    pub fn add(&mut self, number: u64, case: &Case, expected: &Result<Answer, String>) {
        self.all.add(expected);
        for (sorts, sort) in self.sorts.iter_mut().zip(case.sorts) {
            sorts.entry(sort).or_default().add(expected);
        }
        if let Err(contradiction) = expected {
            self.contradictions += 1;
            self.shortest.push((case.length(), format!("case {number}: {contradiction}: {}", shown(case))));
            self.shortest.sort();
            self.shortest.truncate(10);
        }
    }

    pub fn contradictions(&self) -> u64 {
        self.contradictions
    }
}

impl Counts {
    fn add(&mut self, expected: &Result<Answer, String>) {
        self.cases += 1;
        match expected {
            Ok(Ok(Some(_))) => self.numbers += 1,
            Ok(Ok(None)) => self.none += 1,
            Ok(Err(refusal)) => {
                let place = REFUSALS.iter().position(|number| *number == refusal.number).expect("16, 21 or 22");
                self.refused[place] += 1;
            }
            Err(_) => (),
        }
    }

    fn line(&self, f: &mut fmt::Formatter<'_>, name: &str) -> fmt::Result {
        let Self { cases, numbers, none, refused: [long, cut_off, not_ascii] } = self;
        writeln!(f, "{name:26}{cases:>9}{numbers:>9}{none:>9}{long:>9}{cut_off:>9}{not_ascii:>9}")
    }
}

impl fmt::Display for Tally {
    fn fmt(&self, f: &mut fmt::Formatter<'_>) -> fmt::Result {
        writeln!(f, "{:26}{:>9}{:>9}{:>9}{:>9}{:>9}{:>9}", "sort", "cases", "number", "none", "16", "21", "22")?;
        for sorts in &self.sorts {
            sorts.iter().try_for_each(|(name, counts)| counts.line(f, name))?;
            writeln!(f)?;
        }
        self.all.line(f, "all")?;
        self.shortest.iter().try_for_each(|(_, text)| writeln!(f, "{text}"))?;
        writeln!(f, "the Rust contradicts document 02 {} times", self.contradictions)
    }
}
