//! How many cases of each sort were met: to see that every sort is really made.

use std::collections::BTreeMap;
use std::fmt;

use answers::{Kind, Refusal};

use crate::expected::Expected;

#[derive(Default)]
pub struct Tally {
    families: BTreeMap<&'static str, Family>,
    numbers: BTreeMap<(u8, Option<Kind>), usize>,
    contradictions: Vec<String>,
}

#[derive(Default)]
struct Family {
    cases: usize,
    read: usize,
    set_apart: usize,
    built: usize,
    refused: usize,
}

impl Tally {
    pub fn add(&mut self, family: &'static str, number: u64, expected: &Result<Expected, String>) {
        let row = self.families.entry(family).or_default();
        row.cases += 1;
        let Expected { read, strip, set_apart, .. } = match expected {
            Ok(expected) => expected,
            Err(contradiction) => return self.contradictions.push(format!("case {number}: {contradiction}")),
        };
        row.read += usize::from(read.is_ok());
        row.set_apart += usize::from(*set_apart);
        row.built += usize::from(matches!(strip, Some(Ok(_))));
        row.refused += usize::from(matches!(strip, Some(Err(_))) && read.is_ok());
        let refusal = match (read, strip) {
            (Err(refusal), _) | (Ok(_), Some(Err(refusal))) => refusal,
            _ => return,
        };
        let Refusal { number, kind, .. } = refusal;
        *self.numbers.entry((*number, *kind)).or_default() += 1;
    }

    pub fn contradictions(&self) -> usize {
        self.contradictions.len()
    }
}

impl fmt::Display for Tally {
    fn fmt(&self, f: &mut fmt::Formatter<'_>) -> fmt::Result {
        writeln!(f, "{:26}{:>9}{:>9}{:>9}{:>9}{:>9}", "family", "cases", "read", "apart", "built", "refused")?;
        let mut sum = Family::default();
        for (name, row) in &self.families {
            line(f, name, row)?;
            sum.cases += row.cases;
            sum.read += row.read;
            sum.set_apart += row.set_apart;
            sum.built += row.built;
            sum.refused += row.refused;
        }
        line(f, "all", &sum)?;
        for ((number, kind), times) in &self.numbers {
            let kind = kind.map(|kind| format!("{kind:?}").to_lowercase()).unwrap_or_default();
            writeln!(f, "refusal {number:2} {kind:5}{times:>9}")?;
        }
        self.contradictions.iter().take(10).try_for_each(|text| writeln!(f, "{text}"))?;
        writeln!(f, "the Rust contradicts the walk {} times", self.contradictions.len())
    }
}

fn line(f: &mut fmt::Formatter<'_>, name: &str, row: &Family) -> fmt::Result {
    let Family { cases, read, set_apart, built, refused } = row;
    writeln!(f, "{name:26}{cases:>9}{read:>9}{set_apart:>9}{built:>9}{refused:>9}")
}
