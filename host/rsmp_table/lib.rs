//! Site tables: the parts of a table, its readable text and its bits.

pub mod bits;
pub mod text;

pub const MOST_COMPONENTS: usize = 8;
pub const MOST_ROWS: usize = 32;
pub const MOST_COMMANDS: usize = 16;
pub const LONGEST: usize = 32;

/// Edition 2 has commands (request 01).
#[derive(Clone, Copy, Debug, PartialEq, Eq)]
pub enum Edition {
    One = 1,
    Two = 2,
}

/// A table that document 01 allows, or request 01. Strings are 1 to 32 printable ASCII characters without `"` and `\`.
#[derive(Clone, Debug, PartialEq, Eq)]
pub struct Table {
    pub edition: Edition,
    pub site: String,
    pub sxl: String,
    pub components: Vec<String>,
    pub alarms: Vec<Alarm>,
    pub statuses: Vec<Status>,
    /// Of edition 2 alone.
    pub commands: Vec<Command>,
}

#[derive(Clone, Debug, PartialEq, Eq)]
pub struct Alarm {
    pub component: usize,
    pub code: String,
    pub category: Category,
    pub priority: u8,
}

#[derive(Clone, Copy, Debug, PartialEq, Eq)]
pub enum Category {
    Traffic,
    Technical,
}

impl Category {
    /// As a text and a message have it.
    pub fn letter(self) -> char {
        match self {
            Category::Traffic => 'T',
            Category::Technical => 'D',
        }
    }
}

#[derive(Clone, Debug, PartialEq, Eq)]
pub struct Status {
    pub component: usize,
    pub code: String,
    pub name: String,
}

/// An order of a supervisor, with the values that it may have.
#[derive(Clone, Debug, PartialEq, Eq)]
pub struct Command {
    pub component: usize,
    pub code: String,
    pub name: String,
    pub lowest: i16,
    pub highest: i16,
}

impl Command {
    /// No two commands of a table have the same.
    pub(crate) fn key(&self) -> (usize, &str, &str) {
        (self.component, &self.code, &self.name)
    }
}

/// What is wrong with a string of a table, or nothing.
pub fn string_fault(string: &[u8]) -> Option<String> {
    if string.is_empty() {
        return Some("is empty, wanted 1 to 32 characters".to_string());
    }
    if string.len() > LONGEST {
        return Some(format!("is {} characters long, at most 32 are allowed", string.len()));
    }
    let bad = string.iter().find(|byte| !(0x20..=0x7E).contains(*byte) || matches!(byte, b'"' | b'\\'));
    bad.map(|byte| format!("has a byte 0x{:02X}; printable ASCII without \" and \\ is allowed", byte))
}

/// Where a row's key stands among the rows before it.
pub(crate) fn twice<T: PartialEq>(rows: &[T], row: &T) -> Option<usize> {
    rows.iter().position(|other| other == row)
}
