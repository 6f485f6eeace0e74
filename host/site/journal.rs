//! The readable log: a line each, with date and UTC.

use crate::form::Form;
use crate::outlet::Outlet;
use crate::readable::{clean, clean_and_short, detail, kind};
use crate::repeated::Repeated;
use std::cell::RefCell;
use std::fmt::Display;
use std::str::FromStr;
use std::time::Instant;

#[derive(Clone, Copy, Debug, PartialEq, Eq, PartialOrd, Ord)]
pub enum Level {
    Error,
    Warning,
    /// What happens to connections.
    Info,
    /// Also a line for each message.
    Message,
    /// Also each message's own text.
    Debug,
}

const LEVELS: [(&str, Level); 5] =
    [("error", Level::Error), ("warning", Level::Warning), ("info", Level::Info), ("message", Level::Message), ("debug", Level::Debug)];

impl FromStr for Level {
    type Err = ();

    fn from_str(word: &str) -> Result<Level, ()> {
        let found = LEVELS.iter().find(|(name, _)| *name == word);
        found.map(|(_, level)| *level).ok_or(())
    }
}

impl Level {
    pub fn name(self) -> &'static str {
        LEVELS[self as usize].0
    }
}

/// The types of RSMP. Another word is a supervisor's own.
const TYPES: [&str; 18] = [
    "MessageAck",
    "MessageNotAck",
    "Version",
    "Watchdog",
    "AggregatedStatus",
    "AggregatedStatusRequest",
    "Alarm",
    "StatusRequest",
    "StatusResponse",
    "StatusSubscribe",
    "StatusUnsubscribe",
    "StatusUpdate",
    "CommandRequest",
    "CommandResponse",
    "StatusRequestAckIncluded",
    "StatusResponseAckIncluded",
    "CommandRequestAckIncluded",
    "CommandResponseAckIncluded",
];

pub struct Journal {
    pub level: Level,
    pub outlet: Outlet,
    pub form: Form,
    pub repeated: RefCell<Repeated>,
}

impl Journal {
    pub fn says(&self, level: Level) -> bool {
        level <= self.level
    }

    /// A line, or one more of those that are counted. What it begins with tells its kind: no word of a supervisor's stands there.
    pub fn say(&self, time: u64, level: Level, link: Option<u32>, text: impl Display) {
        let text = text.to_string();
        if self.says(level) && self.repeated.borrow_mut().allows(link, level, kind_of(&text)) {
            self.say_each(time, level, link, &text);
        }
    }

    /// A line, however many come.
    pub fn say_each(&self, time: u64, level: Level, link: Option<u32>, text: &str) {
        if self.says(level) {
            self.outlet.line(&self.form.line(time, level, link, &clean(text)));
        }
    }

    /// Of lines that were counted, once a second.
    pub fn say_what_is_left_out(&self, time: u64) {
        for told in self.repeated.borrow_mut().over(Instant::now()) {
            self.say_each(time, told.level, told.link, &told.text);
        }
    }

    /// A message; `mark` is > for sent, < for received, ! for received and not answered.
    pub fn message(&self, time: u64, link: u32, mark: char, message: &[u8]) {
        if !self.says(Level::Message) {
            return;
        }
        let text = String::from_utf8_lossy(message);
        let type_ = kind(&text);
        let known = TYPES.iter().find(|known| **known == type_).unwrap_or(&"?");
        if !self.repeated.borrow_mut().allows(Some(link), Level::Message, &format!("{} {}", mark, known)) {
            return;
        }
        self.outlet.line(&self.form.message(time, link, mark, &type_, &clean_and_short(&detail(&text))));
        if self.says(Level::Debug) {
            self.say_each(time, Level::Debug, Some(link), &format!("{} {}", mark, text));
        }
    }

    /// Of the end, at every level.
    pub fn summary(&self, time: u64, text: &str) {
        self.outlet.line(&self.form.summary(time, text));
    }
}

/// The first word of a line; of a packet, three, which are ours.
fn kind_of(text: &str) -> &str {
    let words = if text.starts_with("a packet ") { 3 } else { 1 };
    text.match_indices(' ').nth(words - 1).map_or(text, |(end, _)| &text[..end])
}

const DAY: u64 = 86_400_000;

/// A time as people read it, in UTC.
pub fn moment(time: u64) -> String {
    let (year, month, date) = civil(time / DAY);
    let day = time % DAY;
    format!(
        "{:04}-{:02}-{:02} {:02}:{:02}:{:02}.{:03}Z",
        year,
        month,
        date,
        day / 3_600_000,
        day / 60_000 % 60,
        day / 1000 % 60,
        day % 1000
    )
}

/// Year, month and day of so many days after 1970-01-01: counted in years that begin with March, so that leap days come last.
fn civil(days: u64) -> (u64, u64, u64) {
    let days = days + 719_468;
    let (era, day) = (days / 146_097, days % 146_097);
    let year = (day - day / 1460 + day / 36_524 - day / 146_096) / 365;
    let of_year = day - (365 * year + year / 4 - year / 100);
    let month = (5 * of_year + 2) / 153;
    let date = of_year - (153 * month + 2) / 5 + 1;
    let month = if month < 10 { month + 3 } else { month - 9 };
    (year + era * 400 + u64::from(month <= 2), month, date)
}

#[cfg(test)]
mod tests {
    use super::*;

    #[test]
    fn moments() {
        assert_eq!(moment(0), "1970-01-01 00:00:00.000Z");
        assert_eq!(moment(1_254_398_371_571), "2009-10-01 11:59:31.571Z");
        assert_eq!(moment(951_782_400_000), "2000-02-29 00:00:00.000Z");
        assert_eq!(moment(rsmp_site::LAST_TIME), "9999-12-31 23:59:59.999Z");
    }

    #[test]
    fn kinds_of_lines() {
        for (text, kind) in
            [("a packet of 5000 bytes is dropped", "a packet of"), ("its \u{1b} is refused: no", "its"), ("goodbye", "goodbye"), ("", "")]
        {
            assert_eq!(kind_of(text), kind);
        }
    }

    #[test]
    fn levels() {
        assert_eq!("info".parse(), Ok(Level::Info));
        assert_eq!("loud".parse::<Level>(), Err(()));
        assert!(LEVELS.iter().all(|(name, level)| level.name() == *name));
    }
}
