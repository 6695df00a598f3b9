//! A reader for lines that are JSON objects of strings without escapes, whole numbers, lists of whole numbers,
//! and `null`.

use std::collections::HashMap;

/// One object.
pub struct Object(HashMap<String, Value>);

enum Value {
    Text(String),
    Number(u64),
    Numbers(Vec<u64>),
    Null,
}

impl Object {
    /// The string of a key.
    pub fn text(&self, key: &str) -> &str {
        match &self.0[key] {
            Value::Text(text) => text,
            _ => panic!("{key} is no string"),
        }
    }

    /// The number of a key.
    pub fn number(&self, key: &str) -> u64 {
        match &self.0[key] {
            Value::Number(number) => *number,
            _ => panic!("{key} is no number"),
        }
    }

    /// The number of a key, if it is not `null`.
    pub fn number_or_null(&self, key: &str) -> Option<u64> {
        match &self.0[key] {
            Value::Null => None,
            _ => Some(self.number(key)),
        }
    }

    /// The numbers of a key, if it is there.
    pub fn numbers(&self, key: &str) -> Option<&[u64]> {
        match self.0.get(key)? {
            Value::Numbers(numbers) => Some(numbers),
            _ => panic!("{key} is no list"),
        }
    }

    /// The bytes of a key whose string has them in hexadecimal.
    pub fn bytes(&self, key: &str) -> Vec<u8> {
        let text = self.text(key);
        assert!(text.len() % 2 == 0, "{key} has half a byte");
        (0..text.len())
            .step_by(2)
            .map(|place| u8::from_str_radix(&text[place..place + 2], 16).expect("hexadecimal"))
            .collect()
    }
}

/// Reads a line.
pub fn read(line: &str) -> Object {
    let inner = line
        .trim()
        .strip_prefix('{')
        .and_then(|rest| rest.strip_suffix('}'))
        .expect("an object");
    let mut fields = HashMap::new();
    let mut rest = inner.trim_start();
    while !rest.is_empty() {
        let (key, after) = string(rest);
        let after = after.trim_start().strip_prefix(':').expect("a colon");
        let (value, after) = value(after.trim_start());
        fields.insert(key, value);
        let after = after.trim_start();
        rest = after.strip_prefix(',').unwrap_or(after).trim_start();
    }
    Object(fields)
}

fn string(text: &str) -> (String, &str) {
    let inner = text.strip_prefix('"').expect("a string");
    let (string, after) = inner.split_once('"').expect("the end of a string");
    assert!(!string.contains('\\'), "escapes are not read");
    (string.to_owned(), after)
}

fn value(text: &str) -> (Value, &str) {
    if text.starts_with('"') {
        let (string, after) = string(text);
        return (Value::Text(string), after);
    }
    if let Some(after) = text.strip_prefix("null") {
        return (Value::Null, after);
    }
    if let Some(inner) = text.strip_prefix('[') {
        let (list, after) = inner.split_once(']').expect("the end of a list");
        return (Value::Numbers(whole_numbers(list.trim())), after);
    }
    let end = text
        .find(|sign: char| !sign.is_ascii_digit())
        .unwrap_or(text.len());
    (Value::Number(whole(&text[..end])), &text[end..])
}

fn whole_numbers(list: &str) -> Vec<u64> {
    if list.is_empty() {
        return Vec::new();
    }
    list.split(',').map(|item| whole(item.trim())).collect()
}

fn whole(text: &str) -> u64 {
    text.parse().expect("a whole number")
}
