//! JSON values, and how they are printed: as nvme-cli lays them out, so that
//! the two programs' output can be put side by side.

use std::fmt::{self, Write};

#[derive(Clone, Debug, PartialEq, Eq)]
pub enum Json {
    Null,
    Number(i64),
    /// Bytes of a table. A byte outside printable ASCII is printed as the
    /// character of that number, so that no two texts look the same.
    Text(Vec<u8>),
    List(Vec<Json>),
    Object(Vec<(&'static str, Json)>),
}

impl Json {
    pub fn number(value: impl Into<i64>) -> Json {
        Json::Number(value.into())
    }

    /// Flags are 0 or 1, as nvme-cli has them.
    pub fn flag(value: bool) -> Json {
        Json::Number(value.into())
    }

    pub fn text(words: impl AsRef<[u8]>) -> Json {
        Json::Text(words.as_ref().to_vec())
    }

    pub fn hex(bytes: &[u8]) -> Json {
        Json::text(hex(bytes))
    }

    /// What is absent is null.
    pub fn or_null<T>(value: Option<T>, print: impl Fn(T) -> Json) -> Json {
        value.map_or(Json::Null, print)
    }

    fn print(&self, depth: usize, out: &mut dyn Write) -> fmt::Result {
        match self {
            Json::Null => out.write_str("null"),
            Json::Number(value) => write!(out, "{value}"),
            Json::Text(words) => print_text(words, out),
            Json::List(values) => {
                let parts = values.iter().map(|value| (None, value));
                print_parts(parts, ('[', ']'), depth, out)
            }
            Json::Object(members) => {
                let parts = members.iter().map(|(key, value)| (Some(*key), value));
                print_parts(parts, ('{', '}'), depth, out)
            }
        }
    }
}

/// Two digits for each byte, with nothing between.
pub fn hex(bytes: &[u8]) -> String {
    bytes.iter().map(|byte| format!("{byte:02x}")).collect()
}

fn print_text(words: &[u8], out: &mut dyn Write) -> fmt::Result {
    out.write_char('"')?;
    for byte in words {
        match byte {
            b'"' | b'\\' => write!(out, "\\{}", char::from(*byte))?,
            0x20..=0x7E => out.write_char(char::from(*byte))?,
            _ => write!(out, "\\u{byte:04x}")?,
        }
    }
    out.write_char('"')
}

/// A part on each line, and an empty list or object as one word.
fn print_parts<'j>(
    parts: impl Iterator<Item = (Option<&'j str>, &'j Json)>,
    (open, close): (char, char),
    depth: usize,
    out: &mut dyn Write,
) -> fmt::Result {
    out.write_char(open)?;
    let mut empty = true;
    for (key, value) in parts {
        out.write_str(if empty { "\n" } else { ",\n" })?;
        empty = false;
        write!(out, "{:1$}", "", 2 * (depth + 1))?;
        if let Some(key) = key {
            write!(out, "\"{key}\":")?;
        }
        value.print(depth + 1, out)?;
    }
    if !empty {
        write!(out, "\n{:1$}", "", 2 * depth)?;
    }
    out.write_char(close)
}

impl fmt::Display for Json {
    fn fmt(&self, out: &mut fmt::Formatter) -> fmt::Result {
        self.print(0, out)
    }
}
