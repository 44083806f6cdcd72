//! The comparison itself: the Rust agrees with itself, and each sort of change is noticed.

use std::collections::HashMap;
use std::ops::Range;

use answers::{Refusal, Strip};
use calls::strip::left;
use calls::{Answer, Arguments, Call, Other, Slices};
use generate::{Case, case};
use run::compare::{Comparison, Extent, each_check, sampled};
use run::expected::{Expected, expected};

/// The answers expected of a case, given back with a change.
struct Mirror<'a> {
    answers: HashMap<(Call, Arguments), Answer>,
    strip: Option<&'a Result<Strip, Refusal>>,
    work_places: Option<usize>,
    change: &'a Change,
}

struct Change {
    status: fn(Call, u32) -> u32,
    numbers: fn(Call, &mut [u64]),
    length: fn(Call, u64) -> u64,
    bytes: fn(Call, &mut [u8]),
    strip: fn(&[u8], &mut Slices),
    strip_status: fn(u32) -> u32,
}

const SAME: Change = Change {
    status: |_, status| status,
    numbers: |_, _| (),
    length: |_, length| length,
    bytes: |_, _| (),
    strip: |_, _| (),
    strip_status: |status| status,
};

impl Other for Mirror<'_> {
    fn numbers(&self, call: Call, _: &[u8], _: u64, arguments: Arguments, values: &mut [u64]) -> u32 {
        let Answer::Numbers(status, numbers) = &self.answers[&(call, arguments)] else { panic!("bytes") };
        values.iter_mut().zip(numbers).for_each(|(place, number)| *place = *number);
        (self.change.numbers)(call, values);
        (self.change.status)(call, *status)
    }

    fn bytes(&self, call: Call, _: &[u8], _: u64, arguments: Arguments, output: &mut [u8]) -> u64 {
        let Answer::Bytes(bytes) = &self.answers[&(call, arguments)] else { panic!("numbers") };
        output.iter_mut().zip(bytes).for_each(|(place, byte)| *place = *byte);
        (self.change.bytes)(call, output);
        (self.change.length)(call, bytes.len() as u64)
    }

    fn strip(&self, section: &[u8], _: u64, slices: &mut Slices) -> u32 {
        let left = left(self.strip.expect("a model section"), self.work_places, slices);
        *slices = left.slices;
        (self.change.strip)(section, slices);
        (self.change.strip_status)(left.status)
    }
}

fn mirror<'a>(case: &Case, number: u64, expected: &'a Expected, change: &'a Change) -> Mirror<'a> {
    let mut answers = HashMap::new();
    each_check(case, expected, number as usize, sampled(case.section.len()), |check| {
        answers.insert((check.call, check.arguments), check.answer);
    });
    Mirror { answers, strip: expected.strip.as_ref(), work_places: expected.work_places(), change }
}

/// How many differences some cases show.
fn differences(change: &Change) -> u64 {
    let mut comparison = Comparison::new(Extent::Whole);
    for number in 0..300 {
        let case = case(5, number).1;
        let expected = expected(&case).expect("no contradiction");
        let mirror = mirror(&case, number, &expected, change);
        comparison.case(number, &case, &Ok(expected.clone()), &mirror);
    }
    comparison.differences()
}

#[test]
fn the_rust_agrees_with_itself() {
    assert_eq!(differences(&SAME), 0);
}

#[test]
fn changes_are_noticed() {
    let first = |call: Call, values: &mut [u64]| {
        if call == Call::LightSummary {
            values.iter_mut().take(1).for_each(|value| *value ^= 1);
        }
    };
    assert!(differences(&Change { numbers: first, ..SAME }) > 10);
    let last = |_: Call, values: &mut [u64]| values.iter_mut().last().into_iter().for_each(|value| *value = 0);
    assert!(differences(&Change { numbers: last, ..SAME }) > 1000);
    let byte = |call: Call, bytes: &mut [u8]| {
        if call == Call::BoneInterpolation {
            bytes.iter_mut().take(1).for_each(|value| *value ^= 1);
        }
    };
    assert!(differences(&Change { bytes: byte, ..SAME }) > 100);
    let length = |call: Call, length: u64| length + u64::from(call == Call::Path);
    assert!(differences(&Change { length, ..SAME }) > 100);
    let length = |call: Call, length: u64| if call == Call::BoneInterpolation { 16 } else { length };
    assert!(differences(&Change { length, ..SAME }) > 100);
    let absent = |_: Call, status: u32| if status == 19 { 0 } else { status };
    assert!(differences(&Change { status: absent, ..SAME }) > 1000);
    let short = |_: Call, status: u32| if status == 1 { 2 } else { status };
    assert!(differences(&Change { status: short, ..SAME }) > 100);
}

/// A NaN answered as the plain one, made quiet, or without its sign.
#[test]
fn changes_of_nans_are_noticed() {
    let plain = |call: Call, values: &mut [u64]| change_nans(call, values, |_| 0x7fc0_0000);
    assert!(differences(&Change { numbers: plain, ..SAME }) > 100);
    let quiet = |call: Call, values: &mut [u64]| change_nans(call, values, |bits| bits | 0x0040_0000);
    assert!(differences(&Change { numbers: quiet, ..SAME }) > 100);
    let positive = |call: Call, values: &mut [u64]| change_nans(call, values, |bits| bits & 0x7fff_ffff);
    assert!(differences(&Change { numbers: positive, ..SAME }) > 100);
}

fn change_nans(call: Call, values: &mut [u64], change: fn(u64) -> u64) {
    let Range { start, end } = call.floats();
    let floats = values.iter_mut().take(end).skip(start);
    floats.filter(|bits| f32::from_bits(**bits as u32).is_nan()).for_each(|bits| *bits = change(*bits));
}

#[test]
fn changes_of_strips_are_noticed() {
    let last = |_: &[u8], slices: &mut Slices| slices.output.iter_mut().last().into_iter().for_each(|byte| *byte ^= 1);
    assert!(differences(&Change { strip: last, ..SAME }) > 100);
    let first = |_: &[u8], slices: &mut Slices| slices.first.iter_mut().take(1).for_each(|place| *place ^= 1);
    assert!(differences(&Change { strip: first, ..SAME }) > 100);
    let second =
        |_: &[u8], slices: &mut Slices| slices.second.iter_mut().last().into_iter().for_each(|place| *place ^= 1);
    assert!(differences(&Change { strip: second, ..SAME }) > 100);
    let values = |_: &[u8], slices: &mut Slices| slices.values.iter_mut().skip(2).take(1).for_each(|value| *value += 1);
    assert!(differences(&Change { strip: values, ..SAME }) > 100);
    let whole = |section: &[u8], slices: &mut Slices| change_output(slices, section.len());
    assert!(differences(&Change { strip: whole, ..SAME }) > 100);
    let shorter = |section: &[u8], slices: &mut Slices| change_output(slices, section.len().saturating_sub(1));
    assert!(differences(&Change { strip: shorter, ..SAME }) > 100);
    let work = |status: u32| if status == 17 { 18 } else { status };
    assert!(differences(&Change { strip_status: work, ..SAME }) > 100);
    let output = |status: u32| if status == 18 { 0 } else { status };
    assert!(differences(&Change { strip_status: output, ..SAME }) > 100);
}

/// Changes an output of this length alone.
fn change_output(slices: &mut Slices, length: usize) {
    if slices.output.len() == length {
        slices.output.iter_mut().take(1).for_each(|byte| *byte ^= 1);
    }
}
