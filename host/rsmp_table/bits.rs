//! A table's bits, most significant first (document 01, "Site table"; request 01 for edition 2).

use crate::{string_fault, Alarm, Category, Command, Edition, Status, Table, MOST_COMMANDS, MOST_COMPONENTS, MOST_ROWS};

/// Whether bytes are a table's bits and not its text. Bits begin with the edition: no text begins as edition 1 does. Edition 2 begins with a
/// sign that a text may begin with, as # for three components; but then its fourth byte is 0x00, which no text has there, or 0x80, which
/// is a part of a letter at most: then they are bits if they read as a table, or have a byte that no text has.
pub fn looks_like_bits(bytes: &[u8]) -> bool {
    match *bytes {
        [first, ..] if first >> 4 == Edition::One as u8 => true,
        [0x21..=0x28, _, _, 0x00, ..] => true,
        [0x21..=0x28, _, _, 0x80, ..] => bytes.iter().any(never_in_text) || read(bytes).is_ok(),
        _ => false,
    }
}

fn never_in_text(byte: &u8) -> bool {
    *byte < 0x20 && !matches!(byte, b'\t' | b'\n' | b'\r' | 0x0C)
}

/// The bits of a table that keeps the rules, as every table that `text::read` or `read` gives does.
pub fn write(table: &Table) -> Vec<u8> {
    let (alarms, statuses, commands) = (table.alarms.len() as u32, table.statuses.len() as u32, table.commands.len() as u32);
    let head = (table.edition as u32) << 28 | (table.components.len() as u32) << 24 | alarms << 18 | statuses << 12 | commands << 7;
    let mut bytes = head.to_be_bytes()[..head_bytes(table.edition)].to_vec();
    for string in [&table.site, &table.sxl].into_iter().chain(&table.components) {
        put_string(&mut bytes, string);
    }
    for alarm in &table.alarms {
        bytes.push((alarm.component as u8) << 5 | alarm.priority << 3 | (alarm.category as u8) << 2);
        put_string(&mut bytes, &alarm.code);
    }
    for status in &table.statuses {
        bytes.push((status.component as u8) << 5);
        put_string(&mut bytes, &status.code);
        put_string(&mut bytes, &status.name);
    }
    for command in &table.commands {
        bytes.push((command.component as u8) << 5);
        put_string(&mut bytes, &command.code);
        put_string(&mut bytes, &command.name);
        bytes.extend_from_slice(&command.lowest.to_be_bytes());
        bytes.extend_from_slice(&command.highest.to_be_bytes());
    }
    bytes
}

/// Edition 2 has a byte more, with the count of commands and zeros.
fn head_bytes(edition: Edition) -> usize {
    match edition {
        Edition::One => 3,
        Edition::Two => 4,
    }
}

fn put_string(bytes: &mut Vec<u8>, string: &str) {
    bytes.push(string.len() as u8);
    bytes.extend_from_slice(string.as_bytes());
}

/// Why bits are no table, and at which byte, counted from 0.
#[derive(Debug, PartialEq, Eq)]
pub struct BitsError {
    pub byte: usize,
    pub message: String,
}

pub fn read(bytes: &[u8]) -> Result<Table, BitsError> {
    let mut reader = Reader { bytes, at: 0 };
    let edition = reader.edition()?;
    let mut head = [0; 4];
    let length = head_bytes(edition);
    head[..length].copy_from_slice(reader.take(length, "the head")?);
    let head = u32::from_be_bytes(head);
    let (components, alarms, statuses) = ((head >> 24 & 15) as usize, (head >> 18 & 63) as usize, (head >> 12 & 63) as usize);
    check((1..=MOST_COMPONENTS).contains(&components), 0, || format!("{} components, 1 to 8 are allowed", components))?;
    check(alarms <= MOST_ROWS, 1, || format!("{} alarms, at most 32 are allowed", alarms))?;
    check(statuses <= MOST_ROWS, 1, || format!("{} statuses, at most 32 are allowed", statuses))?;
    let commands = match edition {
        Edition::One => {
            check(head >> 8 & 15 == 0, 2, || "the head's last four bits are not zero".to_string())?;
            0
        }
        Edition::Two => {
            let commands = (head >> 7 & 31) as usize;
            check(commands <= MOST_COMMANDS, 2, || format!("{} commands, at most 16 are allowed", commands))?;
            check(head & 127 == 0, 3, || "the head's last seven bits are not zero".to_string())?;
            commands
        }
    };
    let mut table = Table {
        edition,
        site: reader.string("the site id")?,
        sxl: reader.string("the SXL version")?,
        components: Vec::new(),
        alarms: Vec::new(),
        statuses: Vec::new(),
        commands: Vec::new(),
    };
    for number in 0..components {
        let at = reader.at;
        let id = reader.string(&format!("component {}", number))?;
        check(!table.components.contains(&id), at, || format!("component {} has an id that is there already", number))?;
        table.components.push(id);
    }
    for number in 0..alarms {
        let at = reader.at;
        let alarm = reader.alarm(number, components)?;
        let same = |other: &Alarm| (other.component, &other.code) == (alarm.component, &alarm.code);
        check(!table.alarms.iter().any(same), at, || format!("alarm {} has a component and code that are there already", number))?;
        table.alarms.push(alarm);
    }
    for number in 0..statuses {
        let at = reader.at;
        let status = reader.status(number, components)?;
        check(!table.statuses.contains(&status), at, || format!("status {} is there already", number))?;
        table.statuses.push(status);
    }
    for number in 0..commands {
        let at = reader.at;
        let command = reader.command(number, components)?;
        check(!table.commands.iter().any(|other| other.key() == command.key()), at, || format!("command {} is there already", number))?;
        table.commands.push(command);
    }
    check(reader.at == bytes.len(), reader.at, || format!("{} bytes behind the table", bytes.len() - reader.at))?;
    Ok(table)
}

fn check(good: bool, byte: usize, message: impl FnOnce() -> String) -> Result<(), BitsError> {
    if good {
        Ok(())
    } else {
        Err(BitsError { byte, message: message() })
    }
}

struct Reader<'a> {
    bytes: &'a [u8],
    at: usize,
}

impl<'a> Reader<'a> {
    /// By the first byte, which is not taken: it has the count of components too.
    fn edition(&self) -> Result<Edition, BitsError> {
        let first = self.bytes.first().ok_or_else(|| BitsError { byte: 0, message: "the bytes end inside the head".to_string() })?;
        match first >> 4 {
            1 => Ok(Edition::One),
            2 => Ok(Edition::Two),
            other => Err(BitsError { byte: 0, message: format!("edition {}, only 1 and 2 are known", other) }),
        }
    }

    fn take(&mut self, count: usize, what: &str) -> Result<&'a [u8], BitsError> {
        let rest = &self.bytes[self.at..];
        check(count <= rest.len(), self.bytes.len(), || format!("the bytes end inside {}", what))?;
        self.at += count;
        Ok(&rest[..count])
    }

    fn string(&mut self, what: &str) -> Result<String, BitsError> {
        let at = self.at;
        let length = usize::from(self.take(1, what)?[0]);
        check((1..=crate::LONGEST).contains(&length), at, || format!("{} has length {}, 1 to 32 are allowed", what, length))?;
        let bytes = self.take(length, what)?;
        match string_fault(bytes) {
            Some(fault) => Err(BitsError { byte: at, message: format!("{} {}", what, fault) }),
            None => Ok(bytes.iter().map(|byte| char::from(*byte)).collect()),
        }
    }

    fn component(&self, row: u8, what: &str, components: usize) -> Result<usize, BitsError> {
        let component = usize::from(row >> 5);
        let at = self.at - 1;
        check(component < components, at, || format!("{} is of component {}, and the table has {}", what, component, components))?;
        Ok(component)
    }

    fn alarm(&mut self, number: usize, components: usize) -> Result<Alarm, BitsError> {
        let what = format!("alarm {}", number);
        let at = self.at;
        let row = self.take(1, &what)?[0];
        let component = self.component(row, &what, components)?;
        let priority = row >> 3 & 3;
        check(priority != 0, at, || format!("{} has priority 0, 1 to 3 are allowed", what))?;
        check(row & 3 == 0, at, || format!("{} has bits that are not zero behind its category", what))?;
        let category = if row >> 2 & 1 == 0 { Category::Traffic } else { Category::Technical };
        Ok(Alarm { component, code: self.string(&format!("the code of {}", what))?, category, priority })
    }

    fn status(&mut self, number: usize, components: usize) -> Result<Status, BitsError> {
        let what = format!("status {}", number);
        let at = self.at;
        let row = self.take(1, &what)?[0];
        let component = self.component(row, &what, components)?;
        check(row & 31 == 0, at, || format!("{} has bits that are not zero behind its component", what))?;
        let code = self.string(&format!("the code of {}", what))?;
        Ok(Status { component, code, name: self.string(&format!("the name of {}", what))? })
    }
    fn signed(&mut self, what: &str) -> Result<i16, BitsError> {
        let bytes = self.take(2, what)?;
        Ok(i16::from_be_bytes([bytes[0], bytes[1]]))
    }

    fn command(&mut self, number: usize, components: usize) -> Result<Command, BitsError> {
        let what = format!("command {}", number);
        let at = self.at;
        let row = self.take(1, &what)?[0];
        let component = self.component(row, &what, components)?;
        check(row & 31 == 0, at, || format!("{} has bits that are not zero behind its component", what))?;
        let code = self.string(&format!("the code of {}", what))?;
        let name = self.string(&format!("the name of {}", what))?;
        let at = self.at;
        let (lowest, highest) =
            (self.signed(&format!("the lowest value of {}", what))?, self.signed(&format!("the highest value of {}", what))?);
        check(lowest <= highest, at, || format!("{} has {} as its lowest value, above its highest, {}", what, lowest, highest))?;
        Ok(Command { component, code, name, lowest, highest })
    }
}
