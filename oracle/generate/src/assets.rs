//! A path and a list of references, made from a seed.

use crate::asset_limits::at_a_limit;
use crate::asset_lists::{FAMILIES, List, Make};
use crate::asset_paths::SORTS;
use crate::prng::Prng;

#[derive(Debug, Clone, PartialEq, Eq)]
pub struct Case {
    /// The sort of the path and the family of the list.
    pub sorts: [&'static str; 2],
    pub path: Vec<u8>,
    pub list: Vec<u8>,
}

impl Case {
    pub fn length(&self) -> usize {
        self.path.len() + self.list.len()
    }
}

/// One in so many cases is at a limit of length: they are slow.
const LIMIT_EVERY: u64 = 25_000;
/// Streams of random numbers beside those of sections.
const ANY: u64 = 3;
const CUT: u64 = 4;
/// So many places in turn for the cut of one list; hardly a list is as long.
const SPAN: usize = 96;

pub fn case(seed: u64, number: u64) -> Case {
    let prng = Prng::new(seed, ANY, number);
    if number % LIMIT_EVERY == LIMIT_EVERY - 1 {
        return at_a_limit(&prng, number / LIMIT_EVERY);
    }
    let turn = number as usize;
    let (family, make) = FAMILIES[turn % FAMILIES.len()];
    let turn = turn / FAMILIES.len();
    match make {
        Make::InTurn(cut) => made(&Prng::new(seed, CUT, (turn / SPAN) as u64), family, cut, turn / SPAN, turn % SPAN),
        Make::Alone(make) => made(&prng, family, make, turn, turn / SORTS.len()),
    }
}

fn made(prng: &Prng, family: &'static str, make: List, turn: usize, of_list: usize) -> Case {
    let (sort, path) = SORTS[turn % SORTS.len()];
    let mut path = path(prng, turn / SORTS.len());
    let list = make(prng, of_list, &mut path);
    Case { sorts: [sort, family], path, list }
}

#[cfg(test)]
mod tests {
    use std::collections::BTreeSet;

    use ::assets::{MODEL, answer, normalised, references};

    use super::*;

    const CASES: u64 = 60_000;

    fn cases() -> impl Iterator<Item = Case> {
        (0..CASES).map(|number| case(1, number))
    }

    #[test]
    fn a_case_comes_back() {
        for number in 0..2_000 {
            assert_eq!(case(7, number), case(7, number));
        }
    }

    /// Each sort of path with each family of lists.
    #[test]
    fn all_pairs() {
        let pairs: BTreeSet<_> = cases().map(|case| case.sorts).collect();
        let met = |[sort, _]: &&[&str; 2]| SORTS.iter().any(|(name, _)| name == sort);
        assert_eq!(pairs.iter().filter(met).count(), SORTS.len() * FAMILIES.len());
    }

    /// Those in a row are of one list.
    #[test]
    fn lists_are_cut_everywhere() {
        let cut: Vec<Case> = cases().filter(|case| case.sorts[1] == "cut off").collect();
        for lists in cut.chunks_exact(SPAN).take(20) {
            let lengths: BTreeSet<usize> = lists.iter().map(|case| case.list.len()).collect();
            let longest = *lengths.last().expect("a list");
            assert!(longest == SPAN - 1 || lengths.into_iter().eq(0..=longest));
            assert!(lists.iter().all(|case| case.path == lists[0].path));
        }
    }

    #[test]
    fn every_answer_is_met() {
        let answers: BTreeSet<_> = cases().map(|case| answer(&case.path, &case.list)).collect();
        for number in 0..8 {
            assert!(answers.contains(&Ok(Some(number))), "{number}");
        }
        assert!([Ok(None), Err(16), Err(21), Err(22)].iter().all(|answer| answers.contains(answer)));
    }

    /// A byte above 127 alone: in what is cut away, in what is kept, before and behind the reference that would be the
    /// answer, in a text of each sort of kind.
    #[test]
    fn bytes_above_127_are_everywhere() {
        let [mut cut_away, mut kept, mut before, mut behind] = [0; 4];
        let mut kinds = BTreeSet::new();
        for case in cases() {
            let Some(references) = references(&case.list) else { continue };
            let texts: Vec<usize> = (0..references.len()).filter(|n| !references[*n].text.is_ascii()).collect();
            if texts.is_empty() {
                let kept_has = !normalised(&case.path).is_ascii();
                kept += usize::from(kept_has);
                cut_away += usize::from(!kept_has && !case.path.is_ascii());
            } else if case.path.is_ascii() && texts.len() == 1 {
                kinds.insert(references[texts[0]].kind);
                let equal = |text: &[u8]| text.eq_ignore_ascii_case(&normalised(&case.path));
                let first = references.iter().position(|reference| reference.kind == MODEL && equal(reference.text));
                before += usize::from(first.is_some_and(|first| texts[0] < first));
                behind += usize::from(first.is_some_and(|first| texts[0] > first));
            }
        }
        assert!(
            [cut_away, kept, before, behind].iter().all(|times| *times > 100),
            "{cut_away} {kept} {before} {behind}"
        );
        assert!([0, 1, 2, 255].iter().all(|kind| kinds.contains(kind)));
    }
}
