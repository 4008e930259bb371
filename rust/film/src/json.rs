//! Reports as JSON: flags, numbers, strings, lists and objects, written in the order in which they are given.

use std::fmt::{self, Display, Write};

pub enum Json {
    Flag(bool),
    Number(f64),
    Count(usize),
    Text(String),
    List(Vec<Json>),
    Object(Vec<(String, Json)>),
}

/// An object of fixed names.
pub fn object<const N: usize>(members: [(&str, Json); N]) -> Json {
    Json::Object(members.into_iter().map(|(name, value)| (name.to_string(), value)).collect())
}

impl Display for Json {
    fn fmt(&self, f: &mut fmt::Formatter<'_>) -> fmt::Result {
        match self {
            // A number that is none, as a rate over no time may be, has no form in JSON.
            Json::Number(number) if !number.is_finite() => f.write_str("null"),
            Json::Number(number) => write!(f, "{number}"),
            Json::Flag(flag) => write!(f, "{flag}"),
            Json::Count(number) => write!(f, "{number}"),
            Json::Text(text) => quoted(f, text),
            Json::List(items) => {
                f.write_char('[')?;
                for (place, item) in items.iter().enumerate() {
                    write!(f, "{}{item}", if place == 0 { "" } else { "," })?;
                }
                f.write_char(']')
            }
            Json::Object(members) => {
                f.write_char('{')?;
                for (place, (name, value)) in members.iter().enumerate() {
                    f.write_str(if place == 0 { "" } else { "," })?;
                    quoted(f, name)?;
                    write!(f, ":{value}")?;
                }
                f.write_char('}')
            }
        }
    }
}

fn quoted(f: &mut fmt::Formatter<'_>, text: &str) -> fmt::Result {
    f.write_char('"')?;
    for letter in text.chars() {
        match letter {
            '"' | '\\' => write!(f, "\\{letter}")?,
            control if control < ' ' => write!(f, "\\u{:04x}", control as u32)?,
            other => f.write_char(other)?,
        }
    }
    f.write_char('"')
}

#[cfg(test)]
mod tests {
    use super::*;

    #[test]
    fn as_text() {
        let list = Json::List(vec![Json::Count(1), Json::Number(0.5), Json::Number(f64::NAN), Json::Flag(true)]);
        let json = object([("a \"b\"", list), ("c", Json::Text(String::from("d\\\n")))]);
        assert_eq!(json.to_string(), r#"{"a \"b\"":[1,0.5,null,true],"c":"d\\\u000a"}"#);
    }
}
