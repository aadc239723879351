//! Writing JSON.
use std::fmt;

/// A value. Addresses are texts (`0x10000000`), since many readers of JSON keep 53 bits of a number.
#[derive(Clone, Debug)]
pub enum Json {
    Null,
    Bool(bool),
    Number(u64),
    Text(String),
    List(Vec<Json>),
    Fields(Vec<(&'static str, Json)>),
}

impl From<bool> for Json {
    fn from(value: bool) -> Json {
        Json::Bool(value)
    }
}

impl From<u64> for Json {
    fn from(value: u64) -> Json {
        Json::Number(value)
    }
}

impl From<usize> for Json {
    fn from(value: usize) -> Json {
        Json::Number(value as u64)
    }
}

impl From<u32> for Json {
    fn from(value: u32) -> Json {
        Json::Number(value.into())
    }
}

impl From<&str> for Json {
    fn from(value: &str) -> Json {
        Json::Text(value.to_string())
    }
}

impl From<String> for Json {
    fn from(value: String) -> Json {
        Json::Text(value)
    }
}

impl<T: Into<Json>> From<Option<T>> for Json {
    fn from(value: Option<T>) -> Json {
        value.map_or(Json::Null, Into::into)
    }
}

impl<T: Into<Json>> FromIterator<T> for Json {
    fn from_iter<I: IntoIterator<Item = T>>(values: I) -> Json {
        Json::List(values.into_iter().map(Into::into).collect())
    }
}

/// `fields! { "a": 1, "b": "c" }`
macro_rules! fields {
    ($($name:literal: $value:expr),* $(,)?) => {
        crate::json::Json::Fields(vec![$(($name, crate::json::Json::from($value))),*])
    };
}
pub(crate) use fields;

impl Json {
    fn write(&self, f: &mut fmt::Formatter<'_>, depth: usize) -> fmt::Result {
        match self {
            Json::Null => write!(f, "null"),
            Json::Bool(value) => write!(f, "{value}"),
            Json::Number(value) => write!(f, "{value}"),
            Json::Text(value) => text(f, value),
            Json::List(values) => block(f, depth, ('[', ']'), values, |f, value| value.write(f, depth + 1)),
            Json::Fields(values) => block(f, depth, ('{', '}'), values, |f, (name, value)| {
                text(f, name)?;
                write!(f, ": ")?;
                value.write(f, depth + 1)
            }),
        }
    }
}

impl fmt::Display for Json {
    fn fmt(&self, f: &mut fmt::Formatter<'_>) -> fmt::Result {
        self.write(f, 0)
    }
}

fn block<T>(
    f: &mut fmt::Formatter<'_>,
    depth: usize,
    (open, close): (char, char),
    items: &[T],
    mut item: impl FnMut(&mut fmt::Formatter<'_>, &T) -> fmt::Result,
) -> fmt::Result {
    write!(f, "{open}")?;
    for (k, value) in items.iter().enumerate() {
        write!(f, "{}\n{:2$}", if k > 0 { "," } else { "" }, "", 2 * depth + 2)?;
        item(f, value)?;
    }
    if !items.is_empty() {
        write!(f, "\n{:1$}", "", 2 * depth)?;
    }
    write!(f, "{close}")
}

fn text(f: &mut fmt::Formatter<'_>, value: &str) -> fmt::Result {
    write!(f, "\"")?;
    for c in value.chars() {
        match c {
            '"' | '\\' => write!(f, "\\{c}")?,
            c if u32::from(c) < 0x20 => write!(f, "\\u{:04x}", u32::from(c))?,
            c => write!(f, "{c}")?,
        }
    }
    write!(f, "\"")
}

#[cfg(test)]
mod tests {
    use super::*;

    #[test]
    fn written() {
        let value = fields! { "a": 1u64, "b": [true, false].into_iter().collect::<Json>(), "c": "\"\\\n", "d": Json::Null, "e": Json::List(vec![]) };
        assert_eq!(
            value.to_string(),
            "{\n  \"a\": 1,\n  \"b\": [\n    true,\n    false\n  ],\n  \"c\": \"\\\"\\\\\\u000a\",\n  \"d\": null,\n  \"e\": []\n}"
        );
    }
}
