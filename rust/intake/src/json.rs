//! JSON, written on one line.

use std::fmt::{self, Write};

use limdroven::StripRow;

use crate::fields;

#[derive(Debug, Clone, PartialEq)]
pub enum Json {
    Null,
    Number(i128),
    /// Finite.
    Float(f32),
    Text(String),
    List(Vec<Json>),
    /// A list of objects, each made as it is written: together they would take many times the room of their keys.
    Keys(Vec<StripRow>),
    Object(Vec<(&'static str, Json)>),
}

impl Json {
    pub fn text(text: impl Into<String>) -> Self {
        Self::Text(text.into())
    }

    pub fn number(number: impl TryInto<i128, Error: fmt::Debug>) -> Self {
        Self::Number(number.try_into().expect("every number here is one of 64 bits or fewer"))
    }
}

impl fmt::Display for Json {
    fn fmt(&self, formatter: &mut fmt::Formatter<'_>) -> fmt::Result {
        match self {
            Self::Null => formatter.write_str("null"),
            Self::Number(number) => write!(formatter, "{number}"),
            // The shortest digits that give the float again: two floats of different bits are written differently.
            Self::Float(float) => write!(formatter, "{float:?}"),
            Self::Text(text) => quoted(text, formatter),
            Self::List(items) => list(items, formatter, |item, formatter| item.fmt(formatter)),
            Self::Keys(rows) => list(rows, formatter, |row, formatter| fields::object(row).fmt(formatter)),
            Self::Object(keys) => {
                formatter.write_char('{')?;
                separated(keys, formatter, |(key, value), formatter| {
                    quoted(key, formatter)?;
                    write!(formatter, ":{value}")
                })?;
                formatter.write_char('}')
            }
        }
    }
}

fn list<T>(
    items: &[T],
    formatter: &mut fmt::Formatter<'_>,
    write: impl Fn(&T, &mut fmt::Formatter<'_>) -> fmt::Result,
) -> fmt::Result {
    formatter.write_char('[')?;
    separated(items, formatter, write)?;
    formatter.write_char(']')
}

fn separated<T>(
    items: &[T],
    formatter: &mut fmt::Formatter<'_>,
    write: impl Fn(&T, &mut fmt::Formatter<'_>) -> fmt::Result,
) -> fmt::Result {
    for (position, item) in items.iter().enumerate() {
        if position > 0 {
            formatter.write_char(',')?;
        }
        write(item, formatter)?;
    }
    Ok(())
}

fn quoted(text: &str, formatter: &mut fmt::Formatter<'_>) -> fmt::Result {
    formatter.write_char('"')?;
    for character in text.chars() {
        match character {
            '"' | '\\' => write!(formatter, "\\{character}")?,
            _ if character.is_control() => write!(formatter, "\\u{:04x}", u32::from(character))?,
            _ => formatter.write_char(character)?,
        }
    }
    formatter.write_char('"')
}

#[cfg(test)]
mod tests {
    use limdroven::strip_keys;

    use super::Json;

    /// With a fraction or an exponent, and the same bits when read again.
    #[test]
    fn floats() {
        let signed = |float: f32| [float, -float];
        for float in
            [0.0, 1.0, 0.1, 1e16, 1e-7, f32::MAX, f32::MIN_POSITIVE, f32::from_bits(1)].map(signed).as_flattened()
        {
            let text = Json::Float(*float).to_string();
            assert!(text.contains(['.', 'e']), "{text}");
            assert_eq!(text.parse::<f32>().expect("a float").to_bits(), float.to_bits(), "{text}");
        }
        assert_eq!(Json::Float(-0.0).to_string(), "-0.0");
    }

    /// An object for each key; the morph's key has the plain weight.
    #[test]
    fn keys() {
        assert_eq!(Json::Keys(vec![]).to_string(), "[]");
        let strip = [&[0, 0, 1, 0, 2, 0][..], &[7, 0, 0, 0, 0], &[8, 0, 0, 0, 1, 0, 0, 0, 63]].concat();
        let keys = Json::Keys(strip_keys(&strip).expect("read"));
        let key = |frame, map, weight| {
            format!("{{\"kind\":\"morph\",\"track\":0,\"frame\":{frame},\"map\":{map},\"weight\":{weight}}}")
        };
        assert_eq!(keys.to_string(), format!("[{},{}]", key(7, 0, "0.0"), key(8, 1, "0.5")));
    }
}
