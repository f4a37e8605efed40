//! JSON as text: values, and how they are written.

use std::fmt::Write;

/// A value. Members of an object stand in the order given.
#[derive(Clone, PartialEq, Eq, Debug)]
pub enum Json {
    Null,
    Bool(bool),
    Number(i128),
    Text(String),
    List(Vec<Json>),
    Object(Vec<(&'static str, Json)>),
}

impl From<bool> for Json {
    fn from(value: bool) -> Json {
        Json::Bool(value)
    }
}

impl From<&str> for Json {
    fn from(text: &str) -> Json {
        Json::Text(text.to_string())
    }
}

impl From<String> for Json {
    fn from(text: String) -> Json {
        Json::Text(text)
    }
}

macro_rules! numbers {
    ($($kind:ty)*) => {$(
        impl From<$kind> for Json {
            fn from(number: $kind) -> Json {
                Json::Number(number as i128)
            }
        }
    )*};
}

numbers!(u8 u16 u32 u64 usize i64);

impl<Part: Into<Json>> From<Option<Part>> for Json {
    fn from(value: Option<Part>) -> Json {
        value.map_or(Json::Null, Part::into)
    }
}

impl<Part: Into<Json>> From<Vec<Part>> for Json {
    fn from(values: Vec<Part>) -> Json {
        Json::List(values.into_iter().map(Part::into).collect())
    }
}

impl Json {
    /// The value as a text of its own, two blanks deeper inside each object or list.
    pub fn text(&self) -> String {
        let mut text = String::new();
        self.put(&mut text, 1);
        text.push('\n');
        text
    }

    fn put(&self, text: &mut String, depth: usize) {
        match self {
            Json::Null => *text += "null",
            Json::Bool(value) => *text += if *value { "true" } else { "false" },
            Json::Number(number) => *text += &number.to_string(),
            Json::Text(content) => quoted(text, content),
            Json::List(values) => inside(text, depth, ('[', ']'), values, Json::put),
            Json::Object(members) => {
                inside(text, depth, ('{', '}'), members, |member, text, depth| {
                    quoted(text, member.0);
                    *text += ": ";
                    member.1.put(text, depth);
                });
            }
        }
    }
}

/// Parts between brackets, each on its own line.
fn inside<Part>(
    text: &mut String,
    depth: usize,
    (open, close): (char, char),
    parts: &[Part],
    put: impl Fn(&Part, &mut String, usize),
) {
    text.push(open);
    for (place, part) in parts.iter().enumerate() {
        *text += if place == 0 { "\n" } else { ",\n" };
        *text += &"  ".repeat(depth);
        put(part, text, depth + 1);
    }
    if !parts.is_empty() {
        text.push('\n');
        *text += &"  ".repeat(depth - 1);
    }
    text.push(close);
}

/// Text between quotation marks, with the signs escaped that may not stand there.
fn quoted(text: &mut String, content: &str) {
    text.push('"');
    for character in content.chars() {
        match character {
            '"' => *text += "\\\"",
            '\\' => *text += "\\\\",
            '\n' => *text += "\\n",
            '\r' => *text += "\\r",
            '\t' => *text += "\\t",
            _ if character.is_control() => {
                write!(text, "\\u{:04x}", character as u32).expect("a string takes every sign");
            }
            _ => text.push(character),
        }
    }
    text.push('"');
}
