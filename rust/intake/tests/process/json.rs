//! A checker of JSON (RFC 8259), which also reads it.

#[derive(Debug, Clone, PartialEq)]
pub enum Json {
    Null,
    Bool(bool),
    /// As it is written.
    Number(String),
    Text(String),
    List(Vec<Json>),
    Object(Vec<(String, Json)>),
}

impl Json {
    pub fn keys(&self) -> Vec<&str> {
        match self {
            Self::Object(keys) => keys.iter().map(|(key, _)| key.as_str()).collect(),
            other => panic!("no object: {other:?}"),
        }
    }

    pub fn get(&self, name: &str) -> &Json {
        match self {
            Self::Object(keys) => &keys.iter().find(|(key, _)| key == name).expect(name).1,
            other => panic!("no object: {other:?}"),
        }
    }

    pub fn text(&self, name: &str) -> &str {
        match self.get(name) {
            Self::Text(text) => text,
            other => panic!("no text: {other:?}"),
        }
    }

    pub fn number(&self, name: &str) -> i128 {
        match self.get(name) {
            Self::Number(number) => number.parse().expect("a whole number"),
            other => panic!("no number: {other:?}"),
        }
    }

    pub fn list(&self, name: &str) -> &[Json] {
        match self.get(name) {
            Self::List(items) => items,
            other => panic!("no list: {other:?}"),
        }
    }
}

/// A list of numbers, as they are written.
pub fn numbers(list: &[&str]) -> Json {
    Json::List(list.iter().map(|number| Json::Number((*number).into())).collect())
}

/// One value on one line that ends in a newline, and nothing else.
pub fn line(text: &str) -> Json {
    let text = text.strip_suffix('\n').expect("a newline at the end");
    assert!(!text.contains('\n'), "more than one line: {text}");
    let mut rest = text;
    let value = value(&mut rest);
    assert_eq!(rest, "", "behind the value");
    value
}

fn value(rest: &mut &str) -> Json {
    match rest.chars().next().expect("a value") {
        '{' => Json::Object(items(rest, '{', '}', |rest| {
            let key = string(rest);
            expect(rest, ":");
            (key, value(rest))
        })),
        '[' => Json::List(items(rest, '[', ']', value)),
        '"' => Json::Text(string(rest)),
        'n' => word(rest, "null", Json::Null),
        't' => word(rest, "true", Json::Bool(true)),
        'f' => word(rest, "false", Json::Bool(false)),
        _ => number(rest),
    }
}

fn expect(rest: &mut &str, what: &str) {
    *rest = rest.strip_prefix(what).unwrap_or_else(|| panic!("{what} expected at {rest}"));
}

fn word(rest: &mut &str, word: &str, value: Json) -> Json {
    expect(rest, word);
    value
}

fn items<T>(rest: &mut &str, open: char, close: char, item: fn(&mut &str) -> T) -> Vec<T> {
    expect(rest, &open.to_string());
    let mut items = Vec::new();
    while !rest.starts_with(close) {
        if !items.is_empty() {
            expect(rest, ",");
        }
        items.push(item(rest));
    }
    expect(rest, &close.to_string());
    items
}

fn string(rest: &mut &str) -> String {
    expect(rest, "\"");
    let mut text = String::new();
    loop {
        let character = rest.chars().next().expect("a closing quote");
        *rest = &rest[character.len_utf8()..];
        match character {
            '"' => return text,
            '\\' => text.push(escaped(rest)),
            '\u{0}'..='\u{1f}' => panic!("a control character in a string"),
            _ => text.push(character),
        }
    }
}

fn escaped(rest: &mut &str) -> char {
    let (character, length) = match rest.as_bytes()[0] {
        b'"' => ('"', 1),
        b'\\' => ('\\', 1),
        b'/' => ('/', 1),
        b'b' => ('\u{8}', 1),
        b'f' => ('\u{c}', 1),
        b'n' => ('\n', 1),
        b'r' => ('\r', 1),
        b't' => ('\t', 1),
        b'u' => {
            let code = u32::from_str_radix(&rest[1..5], 16).expect("four digits");
            (char::from_u32(code).expect("no surrogate"), 5)
        }
        other => panic!("no escape: {other}"),
    };
    *rest = &rest[length..];
    character
}

/// `-`, digits without a leading 0, then a fraction and an exponent if there are any.
fn number(rest: &mut &str) -> Json {
    let digits = |text: &str| text.bytes().take_while(u8::is_ascii_digit).count();
    let mut length = usize::from(rest.starts_with('-'));
    let whole = digits(&rest[length..]);
    assert!(whole == 1 || whole > 1 && !rest[length..].starts_with('0'), "no number at {rest}");
    length += whole;
    if rest[length..].starts_with('.') {
        let fraction = digits(&rest[length + 1..]);
        assert!(fraction > 0, "no fraction at {rest}");
        length += 1 + fraction;
    }
    if rest[length..].starts_with(['e', 'E']) {
        length += 1 + usize::from(rest[length + 1..].starts_with(['+', '-']));
        let exponent = digits(&rest[length..]);
        assert!(exponent > 0, "no exponent at {rest}");
        length += exponent;
    }
    let (number, behind) = rest.split_at(length);
    *rest = behind;
    Json::Number(number.into())
}
