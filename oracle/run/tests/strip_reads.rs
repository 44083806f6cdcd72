//! What `oracle strips` notices: the reader's own answers, changed or read otherwise.

use calls::strip_reads::{ReadBack, Reader, StripRead, StripReads};
use generate::prng::Prng;
use generate::strip_limits::at_a_limit;
use run::strip_read_cases;
use run::strip_reads::{Comparison, case, shown};

mod strip_reading;

use strip_reading::Reading;

const STRIPS: u64 = 16_000;
const SEED: u64 = 3;

fn differences(other: &impl StripReads) -> u64 {
    let mut comparison = Comparison::default();
    for number in 0..STRIPS {
        let strip = case(SEED, number).expect("no contradiction").strip;
        comparison.case(number, &strip, &ReadBack::of(&strip), other);
    }
    comparison.differences()
}

#[test]
fn by_hand() {
    for (strip, keys) in strip_read_cases::cases() {
        let read = ::strips::read(&strip);
        assert_eq!(read.as_ref().map(::strips::Strip::key_total).map_err(|number| *number), keys, "{}", shown(&strip));
        assert!(read.is_err() || read.is_ok_and(|read| read.written() == strip), "{}", shown(&strip));
        assert_eq!(strip_reading::read(&strip, Reading::Right), keys, "{}", shown(&strip));
    }
}

#[test]
fn the_reader_agrees_with_itself() {
    assert_eq!(differences(&Reader), 0);
}

/// The reader's answers with a change.
struct Changed<F: Fn(StripRead, u32, &mut [u32], &mut [u64]) -> u32>(F);

impl<F: Fn(StripRead, u32, &mut [u32], &mut [u64]) -> u32> Changed<F> {
    fn made(&self, call: StripRead, strip: &[u8], rows: &mut [u32], values: &mut [u64]) -> u32 {
        let returned = call.made(&Reader, strip, rows, values);
        (self.0)(call, returned, rows, values)
    }
}

impl<F: Fn(StripRead, u32, &mut [u32], &mut [u64]) -> u32> StripReads for Changed<F> {
    fn counts(&self, strip: &[u8], values: &mut [u64]) -> u32 {
        self.made(StripRead::Counts, strip, &mut [], values)
    }

    fn key_count(&self, strip: &[u8], kind: u32, track: u32, values: &mut [u64]) -> u32 {
        self.made(StripRead::KeyCount { kind, track }, strip, &mut [], values)
    }

    fn key(&self, strip: &[u8], kind: u32, track: u32, place: usize, values: &mut [u64]) -> u32 {
        self.made(StripRead::Key { kind, track, place }, strip, &mut [], values)
    }

    fn keys(&self, strip: &[u8], first: usize, rows: &mut [u32], values: &mut [u64]) -> u32 {
        self.made(StripRead::Keys { first }, strip, rows, values)
    }
}

#[test]
fn changes_are_noticed() {
    #[track_caller]
    fn noticed(change: impl Fn(StripRead, u32, &mut [u32], &mut [u64]) -> u32) {
        let differences = differences(&Changed(change));
        assert!(differences > 500, "{differences}");
    }
    noticed(|_, returned, _, _| if returned == 19 { 0 } else { returned });
    noticed(|_, returned, _, values| {
        values.iter_mut().take(1).for_each(|value| *value ^= 1);
        returned
    });
    for call in 0..4 {
        noticed(move |of, returned, _, values| {
            values.iter_mut().last().filter(|_| of.number() == call).into_iter().for_each(|value| *value = 0);
            returned
        });
    }
    // a place of a row, one behind the rows, and any where the strip is refused
    noticed(|_, returned, rows, _| {
        rows.iter_mut().skip(20).take(1).for_each(|place| *place ^= 1);
        returned
    });
    noticed(|_, returned, rows, _| {
        rows.iter_mut().last().into_iter().for_each(|place| *place = 0);
        returned
    });
    noticed(|_, returned, rows, _| {
        rows.iter_mut().take(1).filter(|_| returned != 0).for_each(|place| *place = 0);
        returned
    });
}

/// From the next key on, of each kind from the first, or as much of a row as fits.
#[test]
fn other_rows_are_noticed() {
    /// Answers all but the rows as the reader does.
    struct Otherwise(fn(&ReadBack, usize, usize) -> Vec<u32>);
    impl StripReads for Otherwise {
        fn counts(&self, strip: &[u8], values: &mut [u64]) -> u32 {
            Reader.counts(strip, values)
        }
        fn key_count(&self, strip: &[u8], kind: u32, track: u32, values: &mut [u64]) -> u32 {
            Reader.key_count(strip, kind, track, values)
        }
        fn key(&self, strip: &[u8], kind: u32, track: u32, place: usize, values: &mut [u64]) -> u32 {
            Reader.key(strip, kind, track, place, values)
        }
        fn keys(&self, strip: &[u8], first: usize, rows: &mut [u32], values: &mut [u64]) -> u32 {
            let read = ReadBack::of(strip);
            let written = self.0(&read, first, rows.len());
            rows.iter_mut().zip(written).for_each(|(place, number)| *place = number);
            Reader.keys(strip, first, &mut [], values)
        }
    }
    let noticed = |rows: fn(&ReadBack, usize, usize) -> Vec<u32>| {
        let differences = differences(&Otherwise(rows));
        assert!(differences > 200, "{differences}");
    };
    let same: fn(&ReadBack, usize, usize) -> Vec<u32> =
        |read, first, places| read.written(StripRead::Keys { first }, places).to_vec();
    assert_eq!(differences(&Otherwise(same)), 0);
    noticed(|read, first, places| read.written(StripRead::Keys { first: first.saturating_add(1) }, places).to_vec());
    noticed(|read, first, _| read.written(StripRead::Keys { first }, usize::MAX).to_vec());
    noticed(|read, first, places| read.written(StripRead::Keys { first: first % (1 << 28) }, places).to_vec());
    noticed(|read, first, places| {
        let first = first.min(read.rows().len().saturating_sub(1));
        read.written(StripRead::Keys { first }, places).to_vec()
    });
}

/// Another reading of the strip: on how many strips the refusal or the number of keys is another.
#[test]
fn other_readings_are_noticed() {
    let any = |number| case(SEED, number).expect("no contradiction");
    let short: Vec<_> =
        (0..3 * STRIPS).map(any).filter(|case| case.strip.len() < 20_000).map(|case| case.strip).collect();
    let long: Vec<_> = (0..60).map(|turn| at_a_limit(&Prng::new(SEED, 0, turn), turn)).collect();
    let differences = |strips: &[Vec<u8>], reading| {
        let other = |strip: &&Vec<u8>| {
            let keys = ::strips::read(strip).map(|strip| strip.key_total());
            strip_reading::read(strip, reading) != keys
        };
        strips.iter().filter(other).count()
    };
    assert_eq!([&short, &long].map(|strips| differences(strips, Reading::Right)), [0, 0]);
    for reading in strip_reading::WRONG {
        let (strips, least) = if strip_reading::of_long_strips(reading) { (&long, 1) } else { (&short, 10) };
        let found = differences(strips, reading);
        assert!(found >= least, "{reading:?}: {found}");
    }
}
