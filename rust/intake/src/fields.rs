//! The fields of a strip's key.

use std::fmt;

use limdroven::{StripKey, StripRow};

use crate::json::Json;

/// What is compared of two strips.
#[derive(Debug, Clone, Copy)]
pub struct Item {
    /// A field's as in README's account of the map.
    pub words: &'static str,
    /// As in JSON.
    pub name: &'static str,
}

#[derive(Debug, PartialEq, Eq)]
pub enum Value {
    Number(usize),
    /// Left out of the strip.
    Plain,
    /// By their bits, which also tell the signs of zero apart.
    Floats(Vec<u32>),
    Curves(Vec<[u8; 4]>),
}

/// In the order of the map's bits.
pub fn fields(key: &StripKey) -> Vec<(Item, Value)> {
    let fields = match key {
        StripKey::Bone(key) => vec![
            ("translation", "translation", floats(&key.translation_bits())),
            ("orientation", "orientation", floats(&key.orientation_bits())),
            ("movement curves", "movement_curves", curves(&key.curves[..3])),
            ("rotation curve", "rotation_curve", curves(&key.curves[3..])),
        ],
        StripKey::Morph(key) => vec![("weight", "weight", floats(&[key.weight_bits()]))],
    };
    let stands = |bit: usize| key.map() >> bit & 1 == 1;
    let or_plain = |(bit, (words, name, value))| (Item { words, name }, if stands(bit) { value } else { Value::Plain });
    fields.into_iter().enumerate().map(or_plain).collect()
}

/// A key as it is listed, every field with its values.
pub fn object(row: &StripRow) -> Json {
    let StripRow { track, key, .. } = row;
    let mut keys = vec![
        ("kind", Json::text(track.kind().to_string())),
        ("track", Json::number(track.number())),
        ("frame", Json::number(key.frame())),
        ("map", Json::number(key.map())),
    ];
    match key {
        StripKey::Bone(key) => keys.extend([
            ("translation", floats(&key.translation_bits()).json()),
            ("orientation", floats(&key.orientation_bits()).json()),
            ("curves", curves(&key.curves).json()),
        ]),
        StripKey::Morph(key) => keys.push(("weight", Json::Float(key.weight))),
    }
    Json::Object(keys)
}

fn floats(bits: &[u32]) -> Value {
    Value::Floats(bits.to_vec())
}

fn curves(curves: &[[u8; 4]]) -> Value {
    Value::Curves(curves.to_vec())
}

impl Value {
    pub fn json(&self) -> Json {
        match self {
            Self::Number(number) => Json::number(*number),
            Self::Plain => Json::text("plain"),
            Self::Floats(bits) => Json::List(bits.iter().map(|bits| Json::Float(f32::from_bits(*bits))).collect()),
            Self::Curves(curves) => {
                Json::List(curves.iter().map(|curve| Json::List(curve.map(Json::number).to_vec())).collect())
            }
        }
    }
}

/// Floats in the shortest digits that give them again, so that different ones are told apart.
impl fmt::Display for Value {
    fn fmt(&self, formatter: &mut fmt::Formatter<'_>) -> fmt::Result {
        match self {
            Self::Number(number) => write!(formatter, "{number}"),
            Self::Plain => formatter.write_str("plain"),
            Self::Floats(bits) => {
                formatter.debug_list().entries(bits.iter().map(|bits| f32::from_bits(*bits))).finish()
            }
            Self::Curves(curves) => write!(formatter, "{curves:?}"),
        }
    }
}
