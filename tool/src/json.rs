//! JSON documents.

use std::fmt::{self, Write};

#[derive(Clone, Debug, PartialEq, Eq)]
pub enum Json {
    Null,
    Bool(bool),
    Number(u64),
    Text(String),
    List(Vec<Json>),
    Object(Fields),
}

pub type Fields = Vec<(&'static str, Json)>;

impl Json {
    pub fn text(text: impl Into<String>) -> Json {
        Json::Text(text.into())
    }

    pub fn number(number: usize) -> Json {
        Json::Number(number as u64)
    }

    /// A name, or null if there is none.
    pub fn name(name: Option<&str>) -> Json {
        name.map_or(Json::Null, Json::text)
    }

    pub fn list<T>(items: impl IntoIterator<Item = T>, each: impl FnMut(T) -> Json) -> Json {
        Json::List(items.into_iter().map(each).collect())
    }
}

impl fmt::Display for Json {
    fn fmt(&self, f: &mut fmt::Formatter) -> fmt::Result {
        match self {
            Json::Null => f.write_str("null"),
            Json::Bool(value) => write!(f, "{value}"),
            Json::Number(number) => write!(f, "{number}"),
            Json::Text(text) => quoted(f, text),
            Json::List(items) => {
                f.write_char('[')?;
                for (place, item) in items.iter().enumerate() {
                    write!(f, "{}{item}", comma(place))?;
                }
                f.write_char(']')
            }
            Json::Object(fields) => {
                f.write_char('{')?;
                for (place, (name, value)) in fields.iter().enumerate() {
                    write!(f, "{}\"{name}\":{value}", comma(place))?;
                }
                f.write_char('}')
            }
        }
    }
}

fn comma(place: usize) -> &'static str {
    if place == 0 {
        ""
    } else {
        ","
    }
}

/// A string: quotes, backslashes and control characters escaped. Control characters above 127 and
/// line parters are too, since some readers take them for the end of a line.
fn quoted(f: &mut fmt::Formatter, text: &str) -> fmt::Result {
    f.write_char('"')?;
    for c in text.chars() {
        match c {
            '"' => f.write_str("\\\"")?,
            '\\' => f.write_str("\\\\")?,
            '\n' => f.write_str("\\n")?,
            '\r' => f.write_str("\\r")?,
            '\t' => f.write_str("\\t")?,
            c if c.is_control() || c == '\u{2028}' || c == '\u{2029}' => {
                write!(f, "\\u{:04x}", u32::from(c))?
            }
            c => f.write_char(c)?,
        }
    }
    f.write_char('"')
}

/// An object without its end, for more fields to follow.
pub fn opened(fields: Fields) -> String {
    let mut text = Json::Object(fields).to_string();
    text.pop();
    text
}

/// The fields that end an object with fields before them.
pub fn closing(fields: Fields) -> String {
    let text = Json::Object(fields).to_string();
    format!(",{}\n", &text[1..])
}

#[cfg(test)]
mod tests {
    use super::{closing, opened, Json};

    #[test]
    fn documents() {
        let list = Json::list([1, 2], Json::number);
        let fields = vec![("a", list), ("b", Json::Bool(true)), ("c", Json::name(None))];
        assert_eq!(Json::Object(fields).to_string(), r#"{"a":[1,2],"b":true,"c":null}"#);
        assert_eq!(Json::List(vec![]).to_string(), "[]");
        assert_eq!(Json::Object(vec![]).to_string(), "{}");
    }

    #[test]
    fn strings_are_escaped() {
        let quoted = |text: &str| Json::text(text).to_string();
        assert_eq!(quoted("a\"b\\c"), r#""a\"b\\c""#);
        assert_eq!(quoted("\n\r\t\0\x1b\x7f"), r#""\n\r\t\u0000\u001b\u007f""#);
        assert_eq!(quoted("\u{85}\u{2028}"), r#""\u0085\u2028""#);
        assert_eq!(quoted("Güte 'x' \u{1f95a}"), "\"Güte 'x' \u{1f95a}\"");
    }

    #[test]
    fn an_object_can_be_written_in_two_parts() {
        let field = |name, value| vec![(name, Json::Bool(value))];
        let whole = opened(field("done", true)) + &closing(field("written", false));
        assert_eq!(whole, "{\"done\":true,\"written\":false}\n");
    }
}
