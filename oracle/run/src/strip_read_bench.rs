//! Strips read back, timed beside one plain pass over their bytes. The answers must be those of the reader in the crate `strips`;
//! nothing is asserted of the time.

use std::hint::black_box;

use calls::{ReadBack, StripReads};
use generate::prng::Prng;
use generate::section::Bone;
use generate::strip_bytes::{Key, ONE, PLAIN_CURVES, PLAIN_ORIENTATION, Strip, Track};
use strips::ROW_NUMBERS;

use crate::strip_reads::BEFORE_ROW;
use crate::table::{figure, table, thousands};
use crate::timing::{medians, sum, sum_by_bytes};

/// So many keys in tracks of one kind, whose frames come in an order.
struct Shape {
    name: &'static str,
    n: usize,
    tracks: usize,
    bones: bool,
    fields: Fields,
    frames: Frames,
}

#[derive(Clone, Copy)]
enum Fields {
    None,
    /// As in a dance: one key in four moves its bone, seven in eight turn it, one in two has curves of its own.
    Some,
    All,
}

#[derive(Clone, Copy)]
enum Frames {
    Rising,
    /// All but the last, which has a frame below them.
    LastBelow,
    Falling,
    Shuffled,
    FallingFarApart,
    ShuffledFarApart,
    /// The last key has the first one's frame.
    RisingThenFirst,
    FallingThenFirst,
    ShuffledThenFirst,
    ShuffledFarApartThenFirst,
}

const MANY: usize = 60_000;
/// As many keys as one track can have.
const MOST: usize = 65_535;
const RISING: Shape = Shape { name: "", n: MANY, tracks: 1, bones: true, fields: Fields::Some, frames: Frames::Rising };
const HOSTILE: Shape =
    Shape { name: "", n: MOST, tracks: 1, bones: true, fields: Fields::None, frames: Frames::ShuffledFarApart };

const SHAPES: [Shape; 20] = [
    Shape { name: "strips: 1 track", ..RISING },
    Shape { name: "strips: 1 track, no fields", fields: Fields::None, ..RISING },
    Shape { name: "strips: 1 track, all fields", fields: Fields::All, ..RISING },
    Shape { name: "strips: 300 tracks", tracks: 300, ..RISING },
    Shape { name: "strips: 300 tracks, all fields", tracks: 300, fields: Fields::All, ..RISING },
    Shape { name: "strips: morphs: 300 tracks", tracks: 300, bones: false, ..RISING },
    Shape { name: "strips: one key in each track", tracks: MANY, ..RISING },
    Shape { name: "strips: 1 track, last frame below", frames: Frames::LastBelow, ..RISING },
    Shape { name: "strips: 1 track, frames falling", frames: Frames::Falling, ..RISING },
    Shape { name: "strips: 1 track, frames shuffled", frames: Frames::Shuffled, ..RISING },
    Shape { name: "strips: 300 tracks, frames shuffled", tracks: 300, frames: Frames::Shuffled, ..RISING },
    Shape { name: "strips: 300 tracks, shuffled far apart", tracks: 300, frames: Frames::ShuffledFarApart, ..RISING },
    Shape { name: "strips: hostile: falling", frames: Frames::Falling, ..HOSTILE },
    Shape { name: "strips: hostile: falling far apart", frames: Frames::FallingFarApart, ..HOSTILE },
    Shape { name: "strips: hostile: shuffled far apart", ..HOSTILE },
    Shape { name: "strips: hostile: all fields, shuffled far apart", fields: Fields::All, ..HOSTILE },
    Shape { name: "strips: hostile: rising, last repeats", frames: Frames::RisingThenFirst, ..HOSTILE },
    Shape { name: "strips: hostile: falling, last repeats", frames: Frames::FallingThenFirst, ..HOSTILE },
    Shape { name: "strips: hostile: shuffled, last repeats", frames: Frames::ShuffledThenFirst, ..HOSTILE },
    Shape { name: "strips: hostile: far apart, last repeats", frames: Frames::ShuffledFarApartThenFirst, ..HOSTILE },
];

/// `only` leaves out the shapes whose name does not have it.
pub fn bench(library: &impl StripReads, only: &str) {
    let shapes = SHAPES.iter().filter(|shape| shape.name.contains(only));
    let (keys, bytes): (Vec<_>, Vec<_>) = shapes.map(|shape| rows(library, shape)).unzip();
    let head = ["shape", "n", "answer", "counts", "keys", "sum", "by bytes", "counts to n", "keys to n", "sum to n"];
    table("Strips read back: nanoseconds a key", &head, &keys);
    let head = ["shape", "bytes", "counts", "keys", "sum", "by bytes", "counts/sum", "keys/sum", "keys/by bytes"];
    table("Strips read back: nanoseconds a byte", &head, &bytes);
}

/// One call for both counts and one for all keys, for a profiler; of the shape's own size if no other is given.
pub fn profile(library: &impl StripReads, name: &str, n: Option<usize>) -> Option<String> {
    let shape = SHAPES.iter().find(|shape| shape.name == name)?;
    let n = n.unwrap_or(shape.n);
    let strip = shape.strip(n);
    let returned = [counts(library, &strip), keys(library, &strip, &mut room(n))];
    Some(format!("{name}: {n}, {} bytes: {returned:?}", strip.len()))
}

/// Of the shapes.
pub fn names() -> String {
    SHAPES.iter().map(|shape| format!("{:?}", shape.name)).collect::<Vec<_>>().join(", ")
}

fn counts(library: &impl StripReads, strip: &[u8]) -> u32 {
    library.counts(black_box(strip), &mut [0; 2])
}

fn keys(library: &impl StripReads, strip: &[u8], rows: &mut [u32]) -> u32 {
    library.keys(black_box(strip), 0, rows, &mut [0; 1])
}

/// For all rows of so many keys.
fn room(n: usize) -> Vec<u32> {
    vec![BEFORE_ROW; n * ROW_NUMBERS]
}

/// The answer, which is the reader's.
fn checked(library: &impl StripReads, strip: &[u8], rows: &mut [u32]) -> u32 {
    let read = ReadBack::of(strip);
    let expected = read.read.as_ref().map_or_else(|number| u32::from(*number), |_| 0);
    assert_eq!([counts(library, strip), keys(library, strip, rows)], [expected; 2]);
    assert!(rows.starts_with(read.rows().as_flattened()));
    expected
}

fn rows(library: &impl StripReads, shape: &Shape) -> (Vec<String>, Vec<String>) {
    eprintln!("{}", shape.name);
    let [half, whole] = [shape.n / 2, shape.n].map(|n| shape.strip(n));
    let [mut half_rows, mut whole_rows] = [shape.n / 2, shape.n].map(room);
    let answer = checked(library, &whole, &mut whole_rows);
    assert_eq!(checked(library, &half, &mut half_rows), answer);
    let ([counts_half, counts, keys_half, keys, sum_half, sum, by_bytes], _) = medians([
        &mut || assert_eq!(counts(library, &half), answer),
        &mut || assert_eq!(counts(library, &whole), answer),
        &mut || assert_eq!(keys(library, &half, &mut half_rows), answer),
        &mut || assert_eq!(keys(library, &whole, &mut whole_rows), answer),
        &mut || sum(&half),
        &mut || sum(&whole),
        &mut || sum_by_bytes(&whole),
    ]);
    let (n, bytes) = (shape.n, whole.len());
    let mut of_keys = vec![shape.name.to_string(), thousands(n), answer.to_string()];
    of_keys.extend([counts, keys, sum, by_bytes].map(|time| figure(time / n as f64)));
    of_keys.extend([counts / counts_half, keys / keys_half, sum / sum_half].map(figure));
    let mut of_bytes = vec![shape.name.to_string(), thousands(bytes)];
    of_bytes.extend([counts, keys, sum, by_bytes].map(|time| figure(time / bytes as f64)));
    of_bytes.extend([counts / sum, keys / sum, keys / by_bytes].map(figure));
    (of_keys, of_bytes)
}

impl Shape {
    /// With so many keys; where each key has a track, as many tracks.
    fn strip(&self, n: usize) -> Vec<u8> {
        let prng = &Prng::new(1, 10, n as u64);
        let tracks = if self.tracks == self.n { n } else { self.tracks };
        let keys = |track: usize| (track + 1) * n / tracks - track * n / tracks;
        let track = |track: usize| {
            let frames = self.frames.of(prng, keys(track));
            Track::of(frames.into_iter().map(|frame| self.fields.key(prng, frame, self.bones)).collect())
        };
        let mut strip = Strip::default();
        *strip.of_kind(self.bones) = (0..tracks).map(track).collect();
        strip.write()
    }
}

impl Frames {
    fn of(self, prng: &Prng, keys: usize) -> Vec<u32> {
        let far = i32::MAX as u32 / keys as u32;
        let step = match self {
            Self::FallingFarApart | Self::ShuffledFarApart | Self::ShuffledFarApartThenFirst => far,
            _ => 3,
        };
        let mut frames: Vec<u32> = (0..keys as u32).map(|key| (key + 1) * step - 1).collect();
        let last = keys - 1;
        match self {
            Self::Rising | Self::RisingThenFirst => (),
            Self::LastBelow => frames[last] = 0,
            Self::Falling | Self::FallingFarApart | Self::FallingThenFirst => frames.reverse(),
            Self::Shuffled | Self::ShuffledFarApart | Self::ShuffledThenFirst | Self::ShuffledFarApartThenFirst => {
                prng.shuffle(&mut frames);
            }
        }
        match self {
            Self::RisingThenFirst
            | Self::FallingThenFirst
            | Self::ShuffledThenFirst
            | Self::ShuffledFarApartThenFirst => frames[last] = frames[0],
            _ => (),
        }
        frames
    }
}

impl Fields {
    /// A morph has a weight, or none.
    fn key(self, prng: &Prng, frame: u32, bones: bool) -> Key {
        let stands = |one_in: usize| match self {
            Self::None => false,
            Self::Some => prng.one_in(one_in),
            Self::All => true,
        };
        let some = || 0x3e80_0000 + (prng.u32() >> 8);
        if !bones {
            return Key::morph(frame, if stands(2) { some() } else { 0 });
        }
        let plain = match self {
            Self::None => true,
            Self::Some => prng.one_in(8),
            Self::All => false,
        };
        let orientation = if plain { PLAIN_ORIENTATION } else { [some(), 0, ONE, ONE] };
        let curves = if stands(2) { [64; 16] } else { PLAIN_CURVES };
        let translation = if stands(4) { [some(), 0, ONE] } else { [0; 3] };
        Key::bone(frame, &Bone { interpolation: curves, translation, orientation, flags: [0; 2] })
    }
}
