//! Data as a page's script reads it.

use std::fmt::{self, Display, Write};

#[derive(Clone, Debug, PartialEq, Eq)]
pub enum Json {
    Nothing,
    Number(u64),
    Text(String),
    List(Vec<Json>),
    Fields(Vec<(&'static str, Json)>),
}

impl Json {
    pub fn text(text: impl Into<String>) -> Json {
        Json::Text(text.into())
    }

    /// Nothing, where there is none.
    pub fn some<T>(value: Option<T>, as_json: impl Fn(T) -> Json) -> Json {
        value.map_or(Json::Nothing, as_json)
    }

    pub fn list<T>(values: impl IntoIterator<Item = T>, as_json: impl Fn(T) -> Json) -> Json {
        Json::List(values.into_iter().map(as_json).collect())
    }
}

impl Display for Json {
    fn fmt(&self, to: &mut fmt::Formatter) -> fmt::Result {
        match self {
            Json::Nothing => to.write_str("null"),
            Json::Number(number) => write!(to, "{number}"),
            Json::Text(text) => write_text(text, to),
            Json::List(values) => {
                to.write_char('[')?;
                for (at, value) in values.iter().enumerate() {
                    write!(to, "{}{value}", comma(at))?;
                }
                to.write_char(']')
            }
            Json::Fields(fields) => {
                to.write_char('{')?;
                for (at, (name, value)) in fields.iter().enumerate() {
                    write!(to, "{}\"{name}\":{value}", comma(at))?;
                }
                to.write_char('}')
            }
        }
    }
}

fn comma(at: usize) -> &'static str {
    if at == 0 {
        ""
    } else {
        ","
    }
}

/// In quotes. What could end the text, or begin a tag of the page around it, is written by its number.
fn write_text(text: &str, to: &mut fmt::Formatter) -> fmt::Result {
    to.write_char('"')?;
    for letter in text.chars() {
        match letter {
            '"' | '\\' | '<' | '>' | '&' | '\0'..='\x1f' => {
                write!(to, "\\u{:04x}", u32::from(letter))?;
            }
            _ => to.write_char(letter)?,
        }
    }
    to.write_char('"')
}

#[cfg(test)]
mod tests {
    use super::*;

    #[test]
    fn what_is_written() {
        let list = Json::list([1, 2], Json::Number);
        let fields = vec![("a", list), ("b", Json::Nothing), ("c", Json::text("\"</script>\n"))];
        let wanted = r#"{"a":[1,2],"b":null,"c":"\u0022\u003c/script\u003e\u000a"}"#;
        assert_eq!(Json::Fields(fields).to_string(), wanted);
    }
}
