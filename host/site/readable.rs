//! A message for the eye: its type and its plain values on one line, nothing in it that a terminal or a log's reader would obey.

/// No line shows more characters of a text: a packet has room.
const LONGEST: usize = 4200;
/// A message's own line is to be read, not to be complete: no value is added behind so many bytes ..
const LONGEST_DETAIL: usize = 400;
/// .. and so many are shown, whatever the last value is and however much of it is escaped.
const LONGEST_SHOWN: usize = 800;

/// The text with everything escaped that is neither a letter, a digit, a space nor a printable sign of ASCII, cut where it is long.
pub fn clean(text: &str) -> String {
    let mut cleaned = String::with_capacity(text.len().min(LONGEST));
    for (at, letter) in text.chars().enumerate() {
        if at == LONGEST {
            cleaned.push_str(" ..");
            break;
        }
        if letter == ' ' || letter.is_ascii_graphic() || (!letter.is_ascii() && letter.is_alphanumeric()) {
            cleaned.push(letter);
        } else {
            cleaned.extend(letter.escape_default());
        }
    }
    cleaned
}

/// The same, as short as a message's own line is to be.
pub fn clean_and_short(text: &str) -> String {
    let mut cleaned = clean(text);
    if let Some((end, _)) = cleaned.char_indices().find(|(at, _)| *at >= LONGEST_SHOWN) {
        cleaned.truncate(end);
        cleaned.push_str(" ..");
    }
    cleaned
}

/// The values of a message that are no objects or lists, each with the name before it, as they are written but for the quotes.
fn members(text: &str) -> Vec<(&str, &str)> {
    let (mut found, mut name, mut rest) = (Vec::new(), "", text);
    while let Some(at) = rest.find(|c: char| !c.is_whitespace() && !"{}[],:".contains(c)) {
        rest = &rest[at..];
        let word = if let Some(behind) = rest.strip_prefix('"') {
            let word = &behind[..end_of_string(behind)];
            rest = behind.get(word.len() + 1..).unwrap_or("");
            if rest.trim_start().starts_with(':') {
                name = word;
                continue;
            }
            word
        } else {
            let end = rest.find(|c: char| c.is_whitespace() || "{}[],:\"".contains(c));
            let word = &rest[..end.unwrap_or(rest.len())];
            rest = &rest[word.len()..];
            word
        };
        found.push((name, word));
    }
    found
}

/// Where the string ends whose first quote is left out.
fn end_of_string(text: &str) -> usize {
    let mut escaped = false;
    for (at, byte) in text.bytes().enumerate() {
        match byte {
            b'"' if !escaped => return at,
            b'\\' => escaped = !escaped,
            _ => escaped = false,
        }
    }
    text.len()
}

/// The first value of this name.
pub fn value_of<'a>(text: &'a str, wanted: &str) -> Option<&'a str> {
    let found = members(text).into_iter().find(|(name, _)| *name == wanted);
    found.map(|(_, value)| value)
}

pub fn kind(text: &str) -> String {
    let kind: String = value_of(text, "type").unwrap_or("?").chars().take(30).collect();
    clean(&kind)
}

/// What a message says beside its type; identities by their first eight signs.
pub fn detail(text: &str) -> String {
    let mut detail = String::new();
    let mut before = "";
    for (name, value) in members(text) {
        if matches!(name, "mType" | "type") || value.is_empty() {
            continue;
        }
        if detail.len() > LONGEST_DETAIL {
            detail.push_str(" ..");
            break;
        }
        if name == before && name == "se" {
            detail.push(',');
        } else {
            if !detail.is_empty() {
                detail.push(' ');
            }
            detail.push_str(name);
            detail.push('=');
        }
        before = name;
        match name {
            "mId" | "oMId" => detail.extend(value.chars().take(8)),
            _ if value.contains(' ') => detail.push_str(&format!("\"{}\"", value)),
            _ => detail.push_str(value),
        }
    }
    detail
}

#[cfg(test)]
mod tests {
    use super::*;

    const UPDATE: &str = r#"{"mType":"rSMsg","type":"StatusUpdate","mId":"6f968141-4de5-42ff-8032-45f8093762c5","ntsOId":"",
        "cId":"O+1=2","sS":[{"sCI":"S0101","n":"release limit","s":"190","q":"recent"},{"sCI":"S1","n":"x","s":null}]}"#;

    #[test]
    fn messages() {
        assert_eq!(kind(UPDATE), "StatusUpdate");
        let wanted = "mId=6f968141 cId=O+1=2 sCI=S0101 n=\"release limit\" s=190 q=recent sCI=S1 n=x s=null";
        assert_eq!(detail(UPDATE), wanted);
        assert_eq!(detail(r#"{"type":"A","se":[true,false, true]}"#), "se=true,false,true");
        assert_eq!(value_of(r#"{"type" : "MessageNotAck","rea":"a \"b\", c"}"#, "rea"), Some(r#"a \"b\", c"#));
    }

    #[test]
    fn garbage() {
        for text in ["", "\"", "{\"type\"", "{\"type\":\"", "{\"a\\", "\\\"\\", "[[[", "\u{1b}[31m", "é\"é"] {
            let line = clean(&format!("{} {}", kind(text), detail(text)));
            assert!(line.chars().all(|c| !c.is_control()), "{:?}", line);
        }
        assert_eq!(kind("{\"type\":\"Alarm\n2026 forged\"}"), "Alarm\\n2026 forged");
    }

    #[test]
    fn any_bytes() {
        let signs: Vec<char> = "{}[]:,\"\\ \n\u{1b}tåype\u{fffd}".chars().collect();
        let mut random: u64 = 88_172_645_463_325_252;
        for _ in 0..3000 {
            let mut text = String::new();
            for _ in 0..24 {
                random ^= random << 13;
                random ^= random >> 7;
                random ^= random << 17;
                text.push(signs[(random % signs.len() as u64) as usize]);
            }
            let line = clean(&format!("{} {}", kind(&text), detail(&text)));
            assert!(line.chars().all(|c| !c.is_control()), "{:?} of {:?}", line, text);
        }
    }

    #[test]
    fn cleaned() {
        assert_eq!(clean("a\u{1b}[2J\r\nå\u{202e}\u{9b}z"), "a\\u{1b}[2J\\r\\nå\\u{202e}\\u{9b}z");
        assert_eq!(clean(&"x".repeat(5000)).len(), LONGEST + 3);
        for (sign, shown) in [("x", "x"), ("\u{fffd}", "\\u{fffd}"), ("å", "å")] {
            let short = clean_and_short(&sign.repeat(4096));
            assert!(short.starts_with(shown) && short.ends_with(" ..") && (LONGEST_SHOWN..LONGEST_SHOWN + 5).contains(&short.len()));
            assert_eq!(clean_and_short(sign), shown);
        }
    }
}
