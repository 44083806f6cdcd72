//! The generated NaNs.

use std::collections::HashSet;

use calls::call::CALLS;
use generate::case;
use run::compare::each_check;
use run::expected::expected;

const CASES: u64 = 20_000;

/// The sign and the quiet bit of a NaN whose payload has other bits too.
fn sort(bits: u64) -> Option<(bool, bool)> {
    let bits = bits as u32;
    let sorted = f32::from_bits(bits).is_nan() && bits & 0x003f_ffff != 0;
    sorted.then_some((bits >> 31 == 1, bits >> 22 & 1 == 1))
}

/// Positive and negative, quiet and signalling.
#[test]
fn every_float_is_met_as_a_nan_of_each_sort() {
    let mut met = HashSet::new();
    for number in 0..CASES {
        let case = case(1, number).1;
        let expected = expected(&case).expect("no contradiction");
        let few = |length: usize| (0..length.min(50)).collect();
        each_check(&case, &expected, number as usize, few, |check| {
            let sorts = check.floats().iter().enumerate().map(|(place, bits)| (check.call, place, sort(*bits)));
            met.extend(sorts.filter(|(_, _, sort)| sort.is_some()));
        });
    }
    for call in CALLS {
        for place in 0..call.floats().len() {
            let sorts = met.iter().filter(|(of, at, _)| (*of, *at) == (call, place)).count();
            assert_eq!(sorts, 4, "{}, float {place}", call.name());
        }
    }
}
