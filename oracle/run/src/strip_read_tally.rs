//! How many strips of each family were met, and what they are refused with: to see that every sort is really made. An accepted
//! strip must be the one that document 01's rule writes of its keys.

use std::collections::BTreeMap;
use std::fmt;

use calls::ReadBack;
use generate::strips::Case;

use crate::strip_reads::shown;

#[derive(Default)]
pub struct Tally {
    all: Counts,
    families: BTreeMap<&'static str, Counts>,
    contradictions: u64,
    /// Those of the shortest strips, with the length.
    shortest: Vec<(usize, String)>,
}

#[derive(Default)]
struct Counts {
    strips: usize,
    accepted: usize,
    keys: usize,
    /// 16, 23, 24, 25.
    refused: [usize; 4],
}

const REFUSALS: [u8; 4] = [16, 23, 24, 25];

impl Tally {
    pub fn add(&mut self, number: u64, case: &Case, read: &ReadBack) {
        self.all.add(read);
        self.families.entry(case.family).or_default().add(read);
        if read.read.as_ref().is_ok_and(|strip| strip.written() != case.strip) {
            self.contradiction(
                number,
                case.strip.len(),
                &format!("written again it is another: {}", shown(&case.strip)),
            );
        }
    }

    pub fn contradiction(&mut self, number: u64, length: usize, text: &str) {
        self.contradictions += 1;
        self.shortest.push((length, format!("strip {number}: {text}")));
        self.shortest.sort();
        self.shortest.truncate(10);
    }

    pub fn contradictions(&self) -> u64 {
        self.contradictions
    }
}

impl Counts {
    fn add(&mut self, read: &ReadBack) {
        self.strips += 1;
        match &read.read {
            Ok(_) => {
                self.accepted += 1;
                self.keys += read.rows().len();
            }
            Err(number) => {
                self.refused[REFUSALS.iter().position(|refusal| refusal == number).expect("16, 23, 24 or 25")] += 1;
            }
        }
    }

    fn line(&self, f: &mut fmt::Formatter<'_>, name: &str) -> fmt::Result {
        let Self { strips, accepted, keys, refused: [long, not_whole, unknown, never] } = self;
        writeln!(f, "{name:20}{strips:>10}{accepted:>10}{long:>10}{not_whole:>10}{unknown:>10}{never:>10}{keys:>12}")
    }
}

impl fmt::Display for Tally {
    fn fmt(&self, f: &mut fmt::Formatter<'_>) -> fmt::Result {
        let head = ["strips", "accepted", "16", "23", "24", "25"];
        write!(f, "{:20}", "family")?;
        head.iter().try_for_each(|word| write!(f, "{word:>10}"))?;
        writeln!(f, "{:>12}", "keys")?;
        self.families.iter().try_for_each(|(name, counts)| counts.line(f, name))?;
        self.all.line(f, "all")?;
        self.shortest.iter().try_for_each(|(_, text)| writeln!(f, "{text}"))?;
        writeln!(f, "{} contradictions of document 01's rule and the builder's strips", self.contradictions)
    }
}
