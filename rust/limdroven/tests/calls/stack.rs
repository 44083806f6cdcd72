//! Calls in a thread with little stack: the strip call on each shape of section that is measured, the longest paths and
//! lists looked up, and strips read whose frames rise, fall or are in no order.

use generate::prng::Prng;
use generate::shapes::{ACCEPTED, HOSTILE};
use limdroven::{MODEL, MOST_BYTES, raw};

use crate::strip_bytes::{key, strip, track};

const RECORDS: usize = 20_000;

/// What the thread itself needs is in this too.
const STACK: usize = 16 * 1024;

#[test]
fn strips_in_sixteen_kibibytes() {
    for shape in ACCEPTED.iter().chain(&HOSTILE) {
        let section = shape.section(RECORDS);
        let (mut first, mut second, mut output) = (vec![1; RECORDS], vec![1; RECORDS], vec![1; section.len()]);
        let called = std::thread::Builder::new()
            .stack_size(STACK)
            .spawn(move || raw::strip(&section, 0, &mut first, &mut second, &mut output, &mut []));
        let number = called.expect("a thread").join().expect("an answer");
        assert!(number == 0 || (3..=15).contains(&number), "{}: {number}", shape.name);
    }
}

#[test]
fn paths_in_sixteen_kibibytes() {
    let (slashes, models) = (vec![b'\\'; MOST_BYTES], [MODEL, 0, 0].repeat(MOST_BYTES / 3));
    let called = std::thread::Builder::new().stack_size(STACK).spawn(move || {
        let mut values = [0];
        (raw::asset_reference_index_for_path(&slashes, &models, &mut values), values)
    });
    assert_eq!(called.expect("a thread").join().expect("an answer"), (0, [u64::MAX]));
}

#[test]
fn read_in_sixteen_kibibytes() {
    let rising: Vec<u32> = (0..RECORDS as u32).map(|number| number * 100_000).collect();
    let falling = rising.iter().copied().rev().collect();
    let mut mixed = rising.clone();
    Prng::new(47, 0, 0).shuffle(&mut mixed);
    for frames in [rising, falling, mixed] {
        let keys: Vec<_> = frames.iter().map(|frame| key(*frame, 0, &[])).collect();
        let (strip, mut rows) = (strip(&[track(&keys)], &[]), vec![0; 16 * RECORDS]);
        let called = std::thread::Builder::new().stack_size(STACK).spawn(move || {
            let mut values = [0; 13];
            [
                raw::strip_counts(&strip, &mut values),
                raw::strip_key_count(&strip, 0, 0, &mut values),
                raw::strip_key(&strip, 0, 0, RECORDS - 1, &mut values),
                raw::strip_keys(&strip, 0, &mut rows, &mut values),
            ]
        });
        assert_eq!(called.expect("a thread").join().expect("an answer"), [0; 4]);
    }
}
