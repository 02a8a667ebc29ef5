//! JSON, as far as it is written here.

use std::fmt::Write;

/// A text between quotes, on one line whatever it holds.
pub fn text(text: &str) -> String {
    let mut out = String::from("\"");
    for letter in text.chars() {
        match letter {
            '"' | '\\' => out.extend(['\\', letter]),
            // a String takes everything
            '\0'..='\x1F' => drop(write!(out, "\\u{:04x}", u32::from(letter))),
            _ => out.push(letter),
        }
    }
    out.push('"');
    out
}

/// A number, or null for none.
pub fn number(number: Option<impl Into<u64>>) -> String {
    number.map_or("null".to_string(), |number| number.into().to_string())
}

/// Of what is JSON already.
pub fn list(items: impl IntoIterator<Item = String>) -> String {
    let items: Vec<String> = items.into_iter().collect();
    format!("[{}]", items.join(","))
}

/// Of values that are JSON already.
pub fn object<const N: usize>(fields: [(&str, String); N]) -> String {
    let fields = fields.map(|(name, value)| format!("{}:{value}", text(name)));
    format!("{{{}}}", fields.join(","))
}

#[cfg(test)]
mod tests {
    use super::*;

    #[test]
    fn a_text_stays_on_its_line() {
        assert_eq!(text("channel 5"), "\"channel 5\"");
        assert_eq!(text("a\"b\\c"), "\"a\\\"b\\\\c\"");
        assert_eq!(text("a\r\n\0\x1Fb"), "\"a\\u000d\\u000a\\u0000\\u001fb\"");
        assert_eq!(text("\u{FC}\u{2028}"), "\"\u{FC}\u{2028}\"");
    }

    #[test]
    fn values_are_put_together() {
        assert_eq!(list([]), "[]");
        assert_eq!(list(["1".to_string(), text("a")]), "[1,\"a\"]");
        let fields = [("a", number(Some(1u8))), ("b", number(None::<u8>))];
        assert_eq!(object(fields), "{\"a\":1,\"b\":null}");
    }
}
