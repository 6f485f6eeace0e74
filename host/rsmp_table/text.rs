//! A table's text: one line for the site id, the SXL version, and each component, alarm, status and command; `#` begins a comment.
//! A string with a space or a `#` stands in double quotes. The edition is 2 where there are commands, else 1, unless a line says 2.

use crate::{string_fault, twice, Alarm, Category, Command, Edition, Status, Table, MOST_COMMANDS, MOST_COMPONENTS, MOST_ROWS};
use std::fmt::Write;

pub const FORMS: [&str; 7] = [
    "site SITEID",
    "sxl VERSION",
    "component ID",
    "alarm COMPONENT CODE T|D PRIORITY",
    "status COMPONENT CODE NAME",
    "command COMPONENT CODE NAME LOWEST HIGHEST",
    "edition 1|2",
];

/// What is wrong with a line, counted from 1.
#[derive(Debug, PartialEq, Eq)]
pub struct LineError {
    pub line: usize,
    pub message: String,
}

/// The text of a table, with the number of each component, alarm, status and command behind it.
pub fn write(table: &Table) -> String {
    let mut text = String::new();
    let mut line = |words: String, comment: String| {
        let _ = writeln!(text, "{}", if comment.is_empty() { words } else { format!("{:<60} # {}", words, comment) });
    };
    if table.edition == Edition::Two {
        line("edition 2".to_string(), String::new());
    }
    line(format!("site {}", word(&table.site)), String::new());
    line(format!("sxl {}", word(&table.sxl)), String::new());
    for (number, id) in table.components.iter().enumerate() {
        line(format!("component {}", word(id)), format!("component {}", number));
    }
    for (number, alarm) in table.alarms.iter().enumerate() {
        let id = word(&table.components[alarm.component]);
        line(format!("alarm {} {} {} {}", id, word(&alarm.code), alarm.category.letter(), alarm.priority), format!("alarm {}", number));
    }
    for (number, status) in table.statuses.iter().enumerate() {
        let id = word(&table.components[status.component]);
        line(format!("status {} {} {}", id, word(&status.code), word(&status.name)), format!("status {}", number));
    }
    for (number, command) in table.commands.iter().enumerate() {
        let called = format!("{} {} {}", word(&table.components[command.component]), word(&command.code), word(&command.name));
        line(format!("command {} {} {}", called, command.lowest, command.highest), format!("command {}", number));
    }
    text
}

fn word(string: &str) -> String {
    if string.contains([' ', '#']) {
        format!("\"{}\"", string)
    } else {
        string.to_string()
    }
}

/// The table, or everything that is wrong with it, each fault with its line.
pub fn read(text: &str) -> Result<Table, Vec<LineError>> {
    let mut reader = Reader::default();
    let mut faults = Vec::new();
    for (place, line) in text.lines().enumerate() {
        if let Err(messages) = words(line).map_err(one).and_then(|words| reader.take(&words)) {
            faults.extend(messages.into_iter().map(|message| LineError { line: place + 1, message }));
        }
    }
    let last = text.lines().count().max(1);
    let mut missing = |there: bool, form: &str| {
        if !there {
            faults.push(LineError { line: last, message: format!("the table has no line `{}`", form) });
        }
    };
    missing(reader.site.is_some(), FORMS[0]);
    missing(reader.sxl.is_some(), FORMS[1]);
    missing(!reader.components.is_empty(), FORMS[2]);
    let edition = reader.edition.unwrap_or(if reader.commands.is_empty() { Edition::One } else { Edition::Two });
    match (reader.site, reader.sxl) {
        (Some(site), Some(sxl)) if faults.is_empty() => Ok(Table {
            edition,
            site,
            sxl,
            components: reader.components,
            alarms: reader.alarms,
            statuses: reader.statuses,
            commands: reader.commands,
        }),
        _ => Err(faults),
    }
}

/// Everything that is wrong with a line.
type Faults = Vec<String>;

fn one(fault: String) -> Faults {
    vec![fault]
}

fn all<const COUNT: usize>(faults: [Option<String>; COUNT]) -> Faults {
    faults.into_iter().flatten().collect()
}

/// The words of a line without its comment.
fn words(line: &str) -> Result<Vec<String>, String> {
    let mut words = Vec::new();
    let mut rest = line.trim_start_matches(blank);
    while !rest.is_empty() && !rest.starts_with('#') {
        let (word, behind) = if let Some(quoted) = rest.strip_prefix('"') {
            quoted.split_once('"').ok_or("a quote is not closed on this line")?
        } else {
            rest.split_at(rest.find(|c| blank(c) || c == '#').unwrap_or(rest.len()))
        };
        if word.contains('"') || !(behind.is_empty() || behind.starts_with(|c| blank(c) || c == '#')) {
            return Err("a quote inside a word; strings cannot hold a quote".to_string());
        }
        words.push(word.to_string());
        rest = behind.trim_start_matches(blank);
    }
    Ok(words)
}

fn blank(c: char) -> bool {
    c == ' ' || c == '\t' || c == '\r'
}

#[derive(Default)]
struct Reader {
    edition: Option<Edition>,
    site: Option<String>,
    sxl: Option<String>,
    components: Vec<String>,
    alarms: Vec<Alarm>,
    statuses: Vec<Status>,
    commands: Vec<Command>,
}

const COMMANDS_IN_EDITION_1: &str = "commands stand in edition 2, and a line says edition 1";

impl Reader {
    fn take(&mut self, words: &[String]) -> Result<(), Faults> {
        let name = match words.first() {
            Some(name) => name.as_str(),
            None => return Ok(()),
        };
        let known =
            || one(format!("a line begins with site, sxl, component, alarm, status, command or edition, not '{}'", name.escape_default()));
        let form = *FORMS.iter().find(|form| form.split(' ').next() == Some(name)).ok_or_else(known)?;
        let wanted = form.split(' ').count();
        if words.len() != wanted {
            let words = words.len();
            return Err(one(format!("{} words where {} are wanted: {} (a string with spaces stands in quotes)", words, wanted, form)));
        }
        match name {
            "site" => string("the site id", &words[1]).and_then(|id| once(&mut self.site, id, name)).map_err(one),
            "sxl" => string("the SXL version", &words[1]).and_then(|version| once(&mut self.sxl, version, name)).map_err(one),
            "component" => string("a component id", &words[1]).and_then(|id| self.component(id)).map_err(one),
            "alarm" => self.alarm(words),
            "status" => self.status(words),
            "command" => self.command(words),
            _ => edition(&words[1]).and_then(|edition| self.say_edition(edition)).map_err(one),
        }
    }

    fn say_edition(&mut self, edition: Edition) -> Result<(), String> {
        once(&mut self.edition, edition, "edition")?;
        if edition == Edition::One && !self.commands.is_empty() {
            return Err(COMMANDS_IN_EDITION_1.to_string());
        }
        Ok(())
    }

    fn component(&mut self, id: String) -> Result<(), String> {
        if self.components.contains(&id) {
            return Err(format!("component '{}' is there already", id));
        }
        room(&self.components, MOST_COMPONENTS, "components")?;
        self.components.push(id);
        Ok(())
    }

    fn alarm(&mut self, words: &[String]) -> Result<(), Faults> {
        let component = self.number_of(&words[1]);
        let code = string("an alarm code", &words[2]);
        match (component, code, category(&words[3]), priority(&words[4])) {
            (Ok(component), Ok(code), Ok(category), Ok(priority)) => {
                self.add_alarm(Alarm { component, code, category, priority }, &words[1]).map_err(one)
            }
            (component, code, category, priority) => Err(all([component.err(), code.err(), category.err(), priority.err()])),
        }
    }

    fn add_alarm(&mut self, alarm: Alarm, id: &str) -> Result<(), String> {
        let keys: Vec<_> = self.alarms.iter().map(|alarm| (alarm.component, alarm.code.clone())).collect();
        if let Some(number) = twice(&keys, &(alarm.component, alarm.code.clone())) {
            return Err(format!("component '{}' has the code '{}' already, alarm {}", id, alarm.code, number));
        }
        room(&self.alarms, MOST_ROWS, "alarms")?;
        self.alarms.push(alarm);
        Ok(())
    }

    fn status(&mut self, words: &[String]) -> Result<(), Faults> {
        let component = self.number_of(&words[1]);
        match (component, string("a status code", &words[2]), string("a status name", &words[3])) {
            (Ok(component), Ok(code), Ok(name)) => self.add_status(Status { component, code, name }, &words[1]).map_err(one),
            (component, code, name) => Err(all([component.err(), code.err(), name.err()])),
        }
    }

    fn add_status(&mut self, status: Status, id: &str) -> Result<(), String> {
        if let Some(number) = twice(&self.statuses, &status) {
            return Err(format!("component '{}' has this code and name already, status {}", id, number));
        }
        room(&self.statuses, MOST_ROWS, "statuses")?;
        self.statuses.push(status);
        Ok(())
    }

    fn command(&mut self, words: &[String]) -> Result<(), Faults> {
        let component = self.number_of(&words[1]);
        let (code, name) = (string("a command code", &words[2]), string("a command name", &words[3]));
        match (component, code, name, limits(&words[4], &words[5])) {
            (Ok(component), Ok(code), Ok(name), Ok((lowest, highest))) => {
                self.add_command(Command { component, code, name, lowest, highest }, &words[1]).map_err(one)
            }
            (component, code, name, limits) => Err(all([component.err(), code.err(), name.err(), limits.err()])),
        }
    }

    fn add_command(&mut self, command: Command, id: &str) -> Result<(), String> {
        if self.edition == Some(Edition::One) {
            return Err(COMMANDS_IN_EDITION_1.to_string());
        }
        if let Some(number) = self.commands.iter().position(|other| other.key() == command.key()) {
            return Err(format!("component '{}' has this code and name already, command {}", id, number));
        }
        room(&self.commands, MOST_COMMANDS, "commands")?;
        self.commands.push(command);
        Ok(())
    }

    fn number_of(&self, id: &str) -> Result<usize, String> {
        let unknown = || format!("no line above names the component '{}'", id.escape_default());
        self.components.iter().position(|component| component == id).ok_or_else(unknown)
    }
}

fn edition(word: &str) -> Result<Edition, String> {
    match word {
        "1" => Ok(Edition::One),
        "2" => Ok(Edition::Two),
        other => Err(format!("the edition is '{}', wanted 1 or 2", other.escape_default())),
    }
}

fn limits(lowest: &str, highest: &str) -> Result<(i16, i16), String> {
    match (limit("lowest", lowest)?, limit("highest", highest)?) {
        (lowest, highest) if lowest > highest => Err(format!("the lowest value, {}, is above the highest, {}", lowest, highest)),
        limits => Ok(limits),
    }
}

fn limit(which: &str, word: &str) -> Result<i16, String> {
    let bad = || format!("the {} value is '{}', wanted -32768 to 32767", which, word.escape_default());
    word.parse().ok().filter(|_| !word.starts_with('+')).ok_or_else(bad)
}

fn category(word: &str) -> Result<Category, String> {
    match word {
        "T" => Ok(Category::Traffic),
        "D" => Ok(Category::Technical),
        other => Err(format!("the category is '{}', wanted T (traffic) or D (technical)", other.escape_default())),
    }
}

fn priority(word: &str) -> Result<u8, String> {
    match word {
        "1" => Ok(1),
        "2" => Ok(2),
        "3" => Ok(3),
        other => Err(format!("the priority is '{}', wanted 1, 2 or 3", other.escape_default())),
    }
}

fn string(what: &str, word: &str) -> Result<String, String> {
    match string_fault(word.as_bytes()) {
        Some(fault) => Err(format!("{} {}", what, fault)),
        None => Ok(word.to_string()),
    }
}

fn once<T>(place: &mut Option<T>, given: T, name: &str) -> Result<(), String> {
    match place.replace(given) {
        None => Ok(()),
        Some(_) => Err(format!("a second line `{}`", name)),
    }
}

fn room<T>(rows: &[T], most: usize, what: &str) -> Result<(), String> {
    if rows.len() < most {
        Ok(())
    } else {
        Err(format!("more than {} {}", most, what))
    }
}
