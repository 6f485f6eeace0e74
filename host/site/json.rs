//! Text as JSON has it.

use crate::journal::moment;

/// A string of JSON: quotes around it, and what may not stand between them escaped.
pub fn quoted(text: &str) -> String {
    let mut out = String::with_capacity(text.len() + 2);
    out.push('"');
    for letter in text.chars() {
        match letter {
            '"' | '\\' => out.extend(['\\', letter]),
            _ if letter < ' ' => out.push_str(&format!("\\u{:04x}", letter as u32)),
            _ => out.push(letter),
        }
    }
    out.push('"');
    out
}

/// A list of values.
pub fn list(values: impl Iterator<Item = String>) -> String {
    format!("[{}]", values.collect::<Vec<_>>().join(","))
}

/// A time of the site's, as a string that programs know.
pub fn time(time: u64) -> String {
    quoted(&moment(time).replace(' ', "T"))
}

/// The value, or null.
pub fn or_null(value: Option<impl ToString>) -> String {
    value.map_or("null".to_string(), |value| value.to_string())
}

#[cfg(test)]
mod tests {
    use super::*;

    #[test]
    fn strings() {
        assert_eq!(quoted("a \"b\" \\ \n å"), "\"a \\\"b\\\" \\\\ \\u000a å\"");
        assert_eq!(list([1, 2].iter().map(i32::to_string)), "[1,2]");
        assert_eq!(time(0), "\"1970-01-01T00:00:00.000Z\"");
        assert_eq!((or_null(Some(-3)), or_null(None::<u8>)), ("-3".to_string(), "null".to_string()));
    }
}
