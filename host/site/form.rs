//! The form of the log's lines: for people, for journald, or a JSON object each.

use crate::journal::{moment, Level};
use crate::json::{self, or_null, quoted};
use crate::memory::{link_of, site_of, NAMES};
use std::os::unix::fs::MetadataExt;

#[derive(Clone, Copy, Debug, PartialEq, Eq)]
pub enum Form {
    Text,
    /// With the priority in front, as journald takes it from standard output.
    Journald,
    Json,
}

impl Form {
    /// Where standard output is the journal's, as systemd tells in JOURNAL_STREAM.
    pub fn of_standard_output() -> Form {
        let told = std::env::var("JOURNAL_STREAM").ok();
        let ours = std::fs::metadata("/proc/self/fd/1").ok().map(|file| format!("{}:{}", file.dev(), file.ino()));
        match told.is_some() && told == ours {
            true => Form::Journald,
            false => Form::Text,
        }
    }

    pub fn line(self, time: u64, level: Level, link: Option<u32>, text: &str) -> String {
        let whose = || link.map_or("site  ".to_string(), |link| format!("{} {}", ["link", NAMES[1]][site_of(link)], link_of(link)));
        let plain = || format!("{} {:<7} {}  {}", moment(time), level.name(), whose(), text);
        match self {
            Form::Text => plain(),
            Form::Journald => format!("<{}>{}", priority(level), plain()),
            Form::Json => object(time, level, link, "", text),
        }
    }

    /// A message: its mark, its type, what it says.
    pub fn message(self, time: u64, link: u32, mark: char, kind: &str, detail: &str) -> String {
        let way = match mark {
            '>' => "sent",
            '<' => "received",
            _ => "not answered",
        };
        match self {
            Form::Json => object(time, Level::Message, Some(link), &format!("\"way\":{},\"type\":{},", quoted(way), quoted(kind)), detail),
            _ => self.line(time, Level::Message, Some(link), format!("{} {:<18} {}", mark, kind, detail).trim_end()),
        }
    }

    /// A line of the summary, which in a text has no head.
    pub fn summary(self, time: u64, text: &str) -> String {
        match self {
            Form::Text => text.to_string(),
            Form::Journald => format!("<{}>{}", priority(Level::Info), text),
            Form::Json => object(time, Level::Info, None, "", text.trim_start()),
        }
    }
}

fn object(time: u64, level: Level, link: Option<u32>, more: &str, text: &str) -> String {
    let site = link.filter(|link| site_of(*link) > 0).map_or(String::new(), |_| format!("\"site\":{},", quoted(NAMES[1])));
    let (time, level, link) = (json::time(time), quoted(level.name()), or_null(link.map(link_of)));
    format!("{{\"time\":{},\"level\":{},{}\"link\":{},{}\"text\":{}}}", time, level, site, link, more, quoted(text))
}

/// Of syslog.
fn priority(level: Level) -> u8 {
    match level {
        Level::Error => 3,
        Level::Warning => 4,
        Level::Info => 6,
        Level::Message | Level::Debug => 7,
    }
}

#[cfg(test)]
mod tests {
    use super::*;

    #[test]
    fn forms() {
        let line = |form: Form| form.line(0, Level::Warning, Some(1), "a \"b\"");
        let south = |form: Form| form.line(0, Level::Info, Some(5), "a");
        assert_eq!(south(Form::Text), "1970-01-01 00:00:00.000Z info    south 1  a");
        assert!(south(Form::Json).ends_with("\"level\":\"info\",\"site\":\"south\",\"link\":1,\"text\":\"a\"}"));
        assert_eq!(line(Form::Text), "1970-01-01 00:00:00.000Z warning link 1  a \"b\"");
        assert_eq!(line(Form::Journald), "<4>1970-01-01 00:00:00.000Z warning link 1  a \"b\"");
        assert_eq!(line(Form::Json), "{\"time\":\"1970-01-01T00:00:00.000Z\",\"level\":\"warning\",\"link\":1,\"text\":\"a \\\"b\\\"\"}");
        let message = |form: Form| form.message(0, 0, '!', "Alarm", "");
        assert_eq!(message(Form::Text), "1970-01-01 00:00:00.000Z message link 0  ! Alarm");
        assert!(message(Form::Json).contains("\"link\":0,\"way\":\"not answered\",\"type\":\"Alarm\",\"text\":\"\"}"));
        assert_eq!((Form::Text.summary(0, "  x"), Form::Journald.summary(0, "  x")), ("  x".to_string(), "<6>  x".to_string()));
        assert!(Form::Json.summary(0, "  x").ends_with("\"link\":null,\"text\":\"x\"}"));
    }
}
