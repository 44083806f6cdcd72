//! What `oracle assets` notices: the Rust's own answers, changed or read otherwise.

use answers::assets::{MODEL, Reference, answer, normalised, references, slashes};
use generate::assets::case;
use run::assets::{Answer, Comparison, expected, told};

const CASES: u64 = 24_000;
const SEED: u64 = 3;

/// How many differences there are where `read` answers, and `change` changes what is written and returned.
fn differences(read: impl Fn(&[u8], &[u8]) -> (u32, Option<u64>), change: impl Fn(u32, &mut [u64]) -> u32) -> u64 {
    let mut comparison = Comparison::default();
    for number in 0..CASES {
        let case = case(SEED, number);
        comparison.case(number, &case, &expected(&case), |path, list, values| {
            let (returned, value) = read(path, list);
            values.iter_mut().zip(value).for_each(|(place, value)| *place = value);
            change(returned, values)
        });
    }
    comparison.differences()
}

fn same(path: &[u8], list: &[u8]) -> (u32, Option<u64>) {
    told(&answer(path, list))
}

fn changed(change: impl Fn(u32, &mut [u64]) -> u32) -> u64 {
    differences(same, change)
}

fn read(read: impl Fn(&[u8], &[u8]) -> Answer) -> u64 {
    differences(|path, list| told(&read(path, list)), |returned, _| returned)
}

#[test]
fn the_rust_agrees_with_itself() {
    assert_eq!(changed(|returned, _| returned), 0);
}

#[test]
fn changes_are_noticed() {
    let noticed = |change: fn(u32, &mut [u64]) -> u32| assert!(changed(change) > 1_000);
    noticed(|returned, _| if returned == 21 { 22 } else { returned });
    noticed(|returned, _| if returned == 22 { 0 } else { returned });
    noticed(|returned, values| {
        values.iter_mut().take(1).for_each(|value| *value = value.wrapping_add(1));
        returned
    });
    noticed(|returned, values| {
        values.iter_mut().skip(1).for_each(|value| *value = 0);
        returned
    });
    noticed(|returned, values| {
        if returned != 0 {
            values.iter_mut().take(1).for_each(|value| *value = 0);
        }
        returned
    });
    noticed(|returned, values| {
        values.iter_mut().filter(|value| **value == u64::MAX).for_each(|value| *value = 0);
        returned
    });
}

/// The paths' text and the search read otherwise, with the refusals as they are.
fn found(text: impl Fn(&[u8]) -> Vec<u8>, equal: impl Fn(&Reference, &[u8]) -> bool) -> u64 {
    read(|path, list| {
        answer(path, list)?;
        let text = text(path);
        Ok(references(list).expect("answered").iter().position(|reference| equal(reference, &text)))
    })
}

fn model(reference: &Reference, text: &[u8]) -> bool {
    reference.kind == MODEL && reference.text.eq_ignore_ascii_case(text)
}

/// From the first place on, or the last, that opens as said.
fn cut(text: Vec<u8>, word: &[u8], first: bool, opens: impl Fn(&[u8]) -> bool) -> Vec<u8> {
    let at = |place: &usize| {
        let (before, behind) = text.split_at(*place);
        behind.len() >= word.len() && behind[..word.len()].eq_ignore_ascii_case(word) && opens(before)
    };
    let places = || (0..text.len()).filter(at);
    let place = if first { places().next() } else { places().last() };
    text[place.unwrap_or(0)..].to_vec()
}

fn behind_a_slash(before: &[u8]) -> bool {
    before.is_empty() || before.ends_with(b"/")
}

#[test]
fn other_texts_are_noticed() {
    #[track_caller]
    fn noticed(text: fn(&[u8]) -> Vec<u8>) {
        let differences = found(text, model);
        assert!(differences > 100, "{differences}");
    }
    noticed(|path| normalised(&normalised(path)));
    noticed(slashes);
    noticed(|path| path.to_vec());
    // the cut in the path as it is lent, or by another word or place
    noticed(|path| slashes(&cut(path.to_vec(), b"userfile/", false, behind_a_slash)));
    noticed(|path| cut(slashes(path), b"userfile/", true, behind_a_slash));
    noticed(|path| cut(slashes(path), b"userfile/", false, |_| true));
    noticed(|path| cut(slashes(path), b"userfile/", false, |before| before.is_empty()));
    noticed(|path| cut(slashes(path), b"userfile", false, behind_a_slash));
    // every run one slash, none of them made fewer, backslashes left
    noticed(|path| {
        let mut text = path.to_vec();
        text.iter_mut().filter(|byte| **byte == b'\\').for_each(|byte| *byte = b'/');
        text.dedup_by(|a, b| *a == b'/' && *b == b'/');
        cut(text, b"userfile/", false, behind_a_slash)
    });
    noticed(|path| {
        let slash = |byte: &u8| if *byte == b'\\' { b'/' } else { *byte };
        cut(path.iter().map(slash).collect(), b"userfile/", false, behind_a_slash)
    });
    // up to a zero byte
    noticed(|path| normalised(path.split(|byte| *byte == 0).next().expect("a part")));
}

#[test]
fn other_searches_are_noticed() {
    #[track_caller]
    fn noticed(equal: fn(&Reference, &[u8]) -> bool) {
        let differences = found(normalised, equal);
        assert!(differences > 100, "{differences}");
    }
    noticed(|reference, text| reference.text.eq_ignore_ascii_case(text));
    noticed(|reference, text| reference.kind != 0 && reference.text.eq_ignore_ascii_case(text));
    noticed(|reference, text| reference.kind < 128 && reference.text.eq_ignore_ascii_case(text));
    noticed(|reference, text| reference.kind == MODEL && reference.text == text);
    noticed(|reference, text| reference.kind == MODEL && normalised(reference.text).eq_ignore_ascii_case(text));
    noticed(|reference, text| {
        let slash = |byte: &u8| if *byte == b'\\' { b'/' } else { *byte };
        let same: Vec<u8> = reference.text.iter().map(slash).collect();
        reference.kind == MODEL && same.eq_ignore_ascii_case(text)
    });
    // by the bit of 32, in all bytes or beside the letters too
    noticed(|reference, text| {
        let low = |text: &[u8]| text.iter().map(|byte| byte | 32).collect::<Vec<_>>();
        reference.kind == MODEL && low(reference.text) == low(text)
    });
    noticed(|reference, text| {
        let low = |text: &[u8]| {
            text.iter().map(|byte| if (64..=91).contains(byte) { byte | 32 } else { *byte }).collect::<Vec<_>>()
        };
        reference.kind == MODEL && low(reference.text) == low(text)
    });
    // as far as one of them reaches
    noticed(|reference, text| {
        let length = reference.text.len().min(text.len());
        reference.kind == MODEL && reference.text[..length].eq_ignore_ascii_case(&text[..length])
    });
    noticed(|reference, text| reference.kind == MODEL && !text.is_empty() && reference.text.eq_ignore_ascii_case(text));
}

#[test]
fn other_numbers_are_noticed() {
    let last = |path: &[u8], list: &[u8]| {
        answer(path, list)?;
        let text = normalised(path);
        Ok(references(list).expect("answered").iter().rposition(|reference| model(reference, &text)))
    };
    assert!(read(last) > 100);
    let among_models = |path: &[u8], list: &[u8]| {
        let number = answer(path, list)?;
        let references = references(list).expect("answered");
        Ok(number.map(|number| references[..number].iter().filter(|reference| reference.kind == MODEL).count()))
    };
    assert!(read(among_models) > 100);
}

/// 22 for what the path and the entries do not have where the library looks.
#[test]
fn bytes_above_127_are_noticed() {
    let missed = |passed: fn(&[u8], &[Reference]) -> bool| {
        let read = |path: &[u8], list: &[u8]| match answer(path, list) {
            Err(refusal) if refusal.number == 22 && passed(path, &references(list).expect("no 21")) => Ok(None),
            answer => answer,
        };
        let differences = self::read(read);
        assert!(differences > 100, "{differences}");
    };
    missed(|path, all| normalised(path).is_ascii() && ascii(all, |_| true));
    missed(|_, all| ascii(all, |_| true));
    missed(|path, all| path.is_ascii() && ascii(all, |kind| kind == MODEL));
    missed(|path, all| path.is_ascii() && ascii(all, |kind| kind != MODEL));
    missed(|path, all| {
        let text = normalised(path);
        let first = all.iter().position(|one| model(one, &text)).unwrap_or(all.len());
        path.is_ascii() && ascii(&all[..first], |_| true)
    });
}

fn ascii(references: &[Reference], of: fn(u8) -> bool) -> bool {
    references.iter().filter(|one| of(one.kind)).all(|one| one.text.is_ascii())
}

/// 21 behind a match, with only one or two bytes left, or behind 22.
#[test]
fn cuts_are_noticed() {
    /// Of a path, the whole entries of a list, and what is left of the list.
    type Otherwise = fn(&[u8], &[u8], &[u8]) -> Option<Answer>;
    let noticed = |otherwise: Otherwise| {
        let read = |path: &[u8], list: &[u8]| match answer(path, list) {
            Err(refusal) if refusal.number == 21 => {
                let whole = (0..list.len()).rev().find(|length| references(&list[..*length]).is_some());
                let (whole, left) = list.split_at(whole.expect("the empty one"));
                otherwise(path, whole, left).unwrap_or(Err(refusal))
            }
            answer => answer,
        };
        let differences = self::read(read);
        assert!(differences > 100, "{differences}");
    };
    noticed(|path, whole, _| Some(answer(path, whole)).filter(|answer| matches!(answer, Ok(Some(_)))));
    noticed(|path, whole, left| (left.len() < 3).then(|| answer(path, whole)));
    noticed(|path, whole, _| Some(answer(path, whole)).filter(Result::is_err));
}
