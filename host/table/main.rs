//! Turns the readable text of a site table into its bits and back.

use rsmp_table::{bits, text, Edition, Table};
use std::fs;
use std::io::{self, Read, Write};
use std::process::ExitCode;

const USAGE: &str = "rsmp-table: the text of a site table and its bits

  rsmp-table pack [TEXT [BITS]]      text to bits
  rsmp-table unpack [BITS [TEXT]]    bits to text
  rsmp-table hex FILE ..             each file's bits as hexadecimal digits, as rsmp-replay's start takes them
  rsmp-table check FILE ..           lists each file's components, alarms, statuses and commands with their numbers, or all that is wrong
                                     with it
  rsmp-table --version | --help

hex and check take texts and bits, and go on behind a file that is no table.
A missing file name or - is standard input or output. Status: 0, 1 where a file is no table, 2 otherwise.

The lines of a text, in this order of words; alarms, statuses and commands are numbered from 0 as they stand:
";

const NOTES: &str = "
A # begins a comment. A string has 1 to 32 printable ASCII characters without \" and \\, and stands in quotes where it has a space or
a #. 1 to 8 components, the first of which carries the aggregated status; up to 32 alarms, T traffic or D technical, priority 1 to
3; up to 32 statuses; up to 16 commands, each with the lowest and the highest value it may have, -32768 to 32767. A component's line
stands above those that name it. A table with commands is of edition 2, one without is of edition 1 unless a line says edition 2.
";

enum Failed {
    NoTable(Vec<String>),
    Unusable(String),
}

type Done<T> = Result<T, Failed>;

fn content(name: &str) -> Done<Vec<u8>> {
    let mut bytes = Vec::new();
    let read = if name == "-" { io::stdin().read_to_end(&mut bytes).map(|_| ()) } else { fs::read(name).map(|read| bytes = read) };
    read.map(|()| bytes).map_err(|error| Failed::Unusable(format!("{}: {}", shown(name), error)))
}

fn put(name: &str, bytes: &[u8]) -> Done<()> {
    if name != "-" {
        return fs::write(name, bytes).map_err(|error| Failed::Unusable(format!("{}: {}", name, error)));
    }
    let mut output = io::stdout().lock();
    let written = output.write_all(bytes).and_then(|()| output.flush());
    written.map_err(|error| Failed::Unusable(format!("standard output: {}", error)))
}

/// Also where nobody listens.
fn complain(text: &str) {
    let _ = writeln!(io::stderr(), "{}", text);
}

fn shown(name: &str) -> &str {
    if name == "-" {
        "standard input"
    } else {
        name
    }
}

fn from_text(name: &str, bytes: &[u8]) -> Done<Table> {
    if bits::looks_like_bits(bytes) {
        return Err(Failed::NoTable(vec![format!("{}: these are a table's bits, not its text", shown(name))]));
    }
    let line = |fault: text::LineError| format!("{}:{}: {}", shown(name), fault.line, fault.message);
    text::read(&String::from_utf8_lossy(bytes)).map_err(|faults| Failed::NoTable(faults.into_iter().map(line).collect()))
}

fn from_bits(name: &str, bytes: &[u8]) -> Done<Table> {
    bits::read(bytes).map_err(|fault| Failed::NoTable(vec![format!("{}: byte {}: {}", shown(name), fault.byte, fault.message)]))
}

fn either(name: &str) -> Done<Table> {
    let bytes = content(name)?;
    if bits::looks_like_bits(&bytes) {
        from_bits(name, &bytes)
    } else {
        from_text(name, &bytes)
    }
}

/// What a table has, and its rows as they are numbered in calls and orders.
fn listing(name: &str, table: &Table) -> String {
    let count = |count: usize, one: &str, more: &str| format!("{} {}", count, if count == 1 { one } else { more });
    let commands = match table.edition {
        Edition::One => String::new(),
        Edition::Two => format!(", {}", count(table.commands.len(), "command", "commands")),
    };
    let mut lines = vec![format!(
        "{}: site {}, SXL {}: {}, {}, {}{}, {} bytes as bits of edition {}",
        shown(name),
        table.site,
        table.sxl,
        count(table.components.len(), "component", "components"),
        count(table.alarms.len(), "alarm", "alarms"),
        count(table.statuses.len(), "status", "statuses"),
        commands,
        bits::write(table).len(),
        table.edition as u8
    )];
    let width = table.components.iter().map(String::len).max().unwrap_or(0);
    let component = |number: usize| format!("{:width$}", table.components[number], width = width);
    for (number, id) in table.components.iter().enumerate() {
        lines.push(format!("  component {:2}  {}{}", number, id, if number == 0 { "  (carries the aggregated status)" } else { "" }));
    }
    for (number, alarm) in table.alarms.iter().enumerate() {
        let (id, category) = (component(alarm.component), alarm.category.letter());
        lines.push(format!("  alarm     {:2}  {}  {}  category {}, priority {}", number, id, alarm.code, category, alarm.priority));
    }
    for (number, status) in table.statuses.iter().enumerate() {
        lines.push(format!("  status    {:2}  {}  {}  {}", number, component(status.component), status.code, status.name));
    }
    for (number, command) in table.commands.iter().enumerate() {
        let (id, limits) = (component(command.component), format!("from {} to {}", command.lowest, command.highest));
        lines.push(format!("  command   {:2}  {}  {}  {}  {}", number, id, command.code, command.name, limits));
    }
    lines.join("\n")
}

fn hex(table: &Table) -> String {
    bits::write(table).iter().map(|byte| format!("{:02x}", byte)).collect()
}

/// Something for each table; all that is wrong with those that are none, and with files that cannot be read, at the end.
fn each(names: &[&str], line: impl Fn(&str, &Table) -> String) -> Done<()> {
    let (mut faults, mut unreadable) = (Vec::new(), false);
    for name in names {
        match either(name).map(|table| line(name, &table)) {
            Ok(line) => put("-", format!("{}\n", line).as_bytes())?,
            Err(Failed::NoTable(lines)) => faults.extend(lines),
            Err(Failed::Unusable(line)) => {
                unreadable = true;
                faults.push(line);
            }
        }
    }
    match (faults.is_empty(), unreadable) {
        (true, _) => Ok(()),
        (_, false) => Err(Failed::NoTable(faults)),
        (_, true) => Err(Failed::Unusable(faults.join("\n"))),
    }
}

fn run(words: &[&str]) -> Done<()> {
    let name = |place: usize| words.get(place).copied().unwrap_or("-");
    match (words.first().copied(), words.len()) {
        (Some("pack"), 1..=3) => put(name(2), &bits::write(&from_text(name(1), &content(name(1))?)?)),
        (Some("unpack"), 1..=3) => put(name(2), text::write(&from_bits(name(1), &content(name(1))?)?).as_bytes()),
        (Some("hex"), 2..) => each(&words[1..], |_, table| hex(table)),
        (Some("check"), 2..) => each(&words[1..], listing),
        _ => Err(Failed::Unusable(help())),
    }
}

fn help() -> String {
    let forms: String = text::FORMS.iter().map(|form| format!("  {}\n", form)).collect();
    format!("{}{}{}", USAGE, forms, NOTES)
}

fn main() -> ExitCode {
    let words: Vec<String> = match std::env::args_os().skip(1).map(|word| word.into_string()).collect() {
        Ok(words) => words,
        Err(word) => {
            complain(&format!("rsmp-table: {:?} is not UTF-8", word));
            return ExitCode::from(2);
        }
    };
    let words: Vec<&str> = words.iter().map(String::as_str).collect();
    let said = match words[..] {
        ["--help" | "-h"] => put("-", help().as_bytes()),
        ["--version" | "-V"] => put("-", format!("rsmp-table {}\n", env!("RSMP_VERSION")).as_bytes()),
        _ => run(&words),
    };
    match said {
        Ok(()) => ExitCode::SUCCESS,
        Err(Failed::NoTable(lines)) => {
            complain(&lines.join("\n"));
            ExitCode::from(1)
        }
        Err(Failed::Unusable(message)) => {
            complain(&message);
            ExitCode::from(2)
        }
    }
}
