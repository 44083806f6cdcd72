//! `intake compare`: two strips agree if they have the same bytes; else the first place where they do not, in the strip's
//! order.

use std::ffi::OsStr;
use std::fmt;

use limdroven::{Kind, StripKey, StripRow, TrackIndex, strip_keys};

use crate::failure::{Failure, named};
use crate::fields::{Item, Value, fields};
use crate::input::lent;
use crate::json::Json;
use crate::report::{Report, counted};
use crate::stored::{self, count, tracks};

pub fn compare(first: &OsStr, second: &OsStr) -> Report {
    compared(first, second).unwrap_or_else(Report::from)
}

fn compared(first: &OsStr, second: &OsStr) -> Result<Report, Failure> {
    let (first_bytes, second_bytes) = (lent(first)?, lent(second)?);
    let (first, second) = (keys(first, &first_bytes)?, keys(second, &second_bytes)?);
    if first_bytes == second_bytes {
        return Ok(agree(&first));
    }
    Ok(differ(&difference(&first, &second).expect("strips of different bytes differ in a count, a frame or a field")))
}

fn keys(path: &OsStr, bytes: &[u8]) -> Result<Vec<StripRow>, Failure> {
    strip_keys(bytes).map_err(|refusal| Failure::MalformedStrip {
        file: named(path),
        refusal,
        words: stored::words(bytes, refusal),
    })
}

fn agree(keys: &[StripRow]) -> Report {
    let (bones, morphs, keys) = (count(keys, Kind::Bone), count(keys, Kind::Morph), keys.len());
    let [bone_tracks, morph_tracks] = [counted(bones, "bone track"), counted(morphs, "morph track")];
    let text = format!("agree: {bone_tracks}, {morph_tracks}, {}\n", counted(keys, "key"));
    let keys =
        vec![("bones", Json::number(bones)), ("morphs", Json::number(morphs)), ("key_count", Json::number(keys))];
    Report { status: 0, result: "agree", keys, text, error: None }
}

fn differ(difference: &Difference) -> Report {
    let Difference { item, track, key, frame, first, second } = difference;
    let words = difference.to_string();
    let text = format!("differ: {words}\n");
    let keys = vec![
        ("item", Json::text(item.name)),
        ("kind", track.map_or(Json::Null, |track| Json::text(track.kind().to_string()))),
        ("track", track.map_or(Json::Null, |track| Json::number(track.number()))),
        ("key", key.map_or(Json::Null, Json::number)),
        ("frame", frame.map_or(Json::Null, Json::number)),
        ("first", first.json()),
        ("second", second.json()),
        ("words", Json::text(words)),
    ];
    Report { status: 1, result: "differ", keys, text, error: None }
}

/// The first place where two strips differ; `frame` is that of both keys.
#[derive(Debug)]
struct Difference {
    item: Item,
    track: Option<TrackIndex>,
    key: Option<usize>,
    frame: Option<u32>,
    first: Value,
    second: Value,
}

fn difference(first: &[StripRow], second: &[StripRow]) -> Option<Difference> {
    let counts =
        [("number of bone tracks", "bone_count", Kind::Bone), ("number of morph tracks", "morph_count", Kind::Morph)];
    for (words, name, kind) in counts {
        let [first, second] = [first, second].map(|keys| count(keys, kind));
        if first != second {
            return Some(Difference::new(Item { words, name }, Value::Number(first), Value::Number(second)));
        }
    }
    tracks(first).zip(tracks(second)).find_map(|(first, second)| {
        let found = in_track(first, second)?;
        Some(Difference { track: Some(first[0].track), ..found })
    })
}

fn in_track(first: &[StripRow], second: &[StripRow]) -> Option<Difference> {
    if first.len() != second.len() {
        let item = Item { words: "number of keys", name: "key_count" };
        return Some(Difference::new(item, Value::Number(first.len()), Value::Number(second.len())));
    }
    first.iter().zip(second).find_map(|(first, second)| {
        let found = in_key(&first.key, &second.key)?;
        Some(Difference { key: Some(first.place), ..found })
    })
}

fn in_key(first: &StripKey, second: &StripKey) -> Option<Difference> {
    let frame = first.frame();
    if frame != second.frame() {
        let [first, second] = [first, second].map(|key| Value::Number(key.frame() as usize));
        return Some(Difference::new(Item { words: "frame", name: "frame" }, first, second));
    }
    fields(first).into_iter().zip(fields(second)).find_map(|((item, first), (_, second))| {
        (first != second).then(|| Difference { frame: Some(frame), ..Difference::new(item, first, second) })
    })
}

impl Difference {
    fn new(item: Item, first: Value, second: Value) -> Self {
        Self { item, track: None, key: None, frame: None, first, second }
    }
}

impl fmt::Display for Difference {
    fn fmt(&self, formatter: &mut fmt::Formatter<'_>) -> fmt::Result {
        if let Some(track) = self.track {
            write!(formatter, "{track}, ")?;
        }
        if let Some(key) = self.key {
            write!(formatter, "key {key}, ")?;
        }
        if let Some(frame) = self.frame {
            write!(formatter, "frame {frame}, ")?;
        }
        write!(formatter, "{}: {} in the first, {} in the second", self.item.words, self.first, self.second)
    }
}
