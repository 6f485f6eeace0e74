//! Orders from the cabinet's own side, a line each. Of two sites it names one, or is for north. An alarm or a status is named by its number or by what the table has for it.

use crate::memory::NAMES;
use crate::readable::clean;
use rsmp_table::Table;

pub const HELP: &str =
    "alarm NUMBER on|off, alarm COMPONENT CODE on|off, status NUMBER VALUE, status COMPONENT CODE NAME VALUE, aggregated 0..255, \
                        counts, links, records, commands, show, show --json, save, help, quit; of two sites north or south may stand before it";

#[derive(Debug, PartialEq, Eq)]
pub enum Order {
    Alarm(u32, bool),
    Status(u32, i32),
    Aggregated(u8),
    Counts,
    Links,
    Records,
    Commands,
    Show,
    ShowJson,
    Save,
    Help,
    Quit,
}

/// The number of the site that a line names, of so many, and what stands behind its name.
pub fn site_of(line: &str, sites: usize) -> Result<(Option<usize>, &str), String> {
    let line = line.trim_start();
    let named = NAMES.iter().enumerate().find_map(|(number, name)| {
        let behind = line.strip_prefix(name)?;
        Some((number, behind)).filter(|_| behind.starts_with(|c: char| c.is_ascii_whitespace()))
    });
    match named {
        None => Ok((None, line)),
        Some((number, _)) if number >= sites => Err(format!("there is no site {} here", NAMES[number])),
        Some((number, behind)) => Ok((Some(number), behind)),
    }
}

pub fn read(line: &str, table: &Table) -> Result<Order, String> {
    let words = words_of(line)?;
    let words: Vec<&str> = words.iter().map(String::as_str).collect();
    match words[..] {
        ["alarm", number, state] => Ok(Order::Alarm(number_of(number, "the alarm's number")?, state_of(state)?)),
        ["alarm", component, code, state] => Ok(Order::Alarm(alarm_of(table, component, code)?, state_of(state)?)),
        ["status", number, value] => Ok(Order::Status(number_of(number, "the status's number")?, number_of(value, "the value")?)),
        ["status", component, code, name, value] => {
            Ok(Order::Status(status_of(table, component, code, name)?, number_of(value, "the value")?))
        }
        ["aggregated", value] => Ok(Order::Aggregated(number_of(value, "the value")?)),
        ["counts"] => Ok(Order::Counts),
        ["links"] => Ok(Order::Links),
        ["records"] => Ok(Order::Records),
        ["commands"] => Ok(Order::Commands),
        ["show"] => Ok(Order::Show),
        ["show", "--json"] => Ok(Order::ShowJson),
        ["save"] => Ok(Order::Save),
        ["help"] => Ok(Order::Help),
        ["quit"] => Ok(Order::Quit),
        _ => Err(bad("the order", line)),
    }
}

fn bad(what: &str, word: &str) -> String {
    format!("{} is '{}'; known: {}", what, clean(word), HELP)
}

fn number_of<T: std::str::FromStr>(word: &str, what: &str) -> Result<T, String> {
    word.parse().map_err(|_| bad(what, word))
}

fn state_of(word: &str) -> Result<bool, String> {
    match word {
        "on" | "1" => Ok(true),
        "off" | "0" => Ok(false),
        _ => Err(bad("the alarm's state", word)),
    }
}

fn component_of(table: &Table, wanted: &str) -> Result<usize, String> {
    let found = table.components.iter().position(|component| component == wanted);
    found.ok_or_else(|| format!("the table has no component '{}'", clean(wanted)))
}

fn alarm_of(table: &Table, component: &str, code: &str) -> Result<u32, String> {
    let owner = component_of(table, component)?;
    let found = table.alarms.iter().position(|alarm| alarm.component == owner && alarm.code == code);
    found.map(|number| number as u32).ok_or_else(|| format!("{} has no alarm '{}'", component, clean(code)))
}

fn status_of(table: &Table, component: &str, code: &str, name: &str) -> Result<u32, String> {
    let owner = component_of(table, component)?;
    let found = table.statuses.iter().position(|status| status.component == owner && status.code == code && status.name == name);
    found.map(|number| number as u32).ok_or_else(|| format!("{} has no status '{}' of the name '{}'", component, clean(code), clean(name)))
}

/// The words of a line. One between quotes may have spaces.
fn words_of(line: &str) -> Result<Vec<String>, String> {
    let (mut words, mut rest) = (Vec::new(), line.trim());
    while !rest.is_empty() {
        let (word, behind) = match rest.strip_prefix('"') {
            Some(quoted) => quoted.split_once('"').ok_or_else(|| format!("a quote is not closed: '{}'", clean(line)))?,
            None => rest.split_at(rest.find(|c: char| c.is_ascii_whitespace()).unwrap_or(rest.len())),
        };
        if !behind.is_empty() && !behind.starts_with(|c: char| c.is_ascii_whitespace()) {
            return Err(format!("no space behind a quote: '{}'", clean(line)));
        }
        words.push(word.to_string());
        rest = behind.trim_start();
    }
    Ok(words)
}

/// The line of these words: the other way round.
pub fn line_of(words: &[String]) -> Result<String, String> {
    let mut line = Vec::new();
    for word in words {
        if word.chars().any(|c| c == '"' || c.is_control()) {
            return Err(format!("no word of an order has quotes or control characters: '{}'", clean(word)));
        }
        line.push(match word.is_empty() || word.contains(' ') {
            true => format!("\"{}\"", word),
            false => word.clone(),
        });
    }
    Ok(line.join(" "))
}

#[cfg(test)]
mod tests {
    use super::*;

    fn table() -> Table {
        rsmp_table::bits::read(include_bytes!("../../examples/barrier.bits")).unwrap_or_else(|fault| panic!("{}", fault.message))
    }

    #[test]
    fn by_number_and_by_name() {
        let table = table();
        for (line, wanted) in [
            ("alarm 2 on", Order::Alarm(2, true)),
            ("  alarm  O+14439=481BR001\tA0101  off ", Order::Alarm(2, false)),
            ("alarm O+14439=481BR002 A0101 1", Order::Alarm(4, true)),
            ("status 1 -190", Order::Status(1, -190)),
            ("status O+14439=481BR002 S0101 release 190", Order::Status(4, 190)),
            ("status O+14439=481BR002 S0101 \"release limit\" 190", Order::Status(5, 190)),
            ("show --json", Order::ShowJson),
        ] {
            assert_eq!(read(line, &table), Ok(wanted), "{}", line);
        }
        for (line, wanted) in [
            ("alarm O+14439=481BR001 A0001 on", "has no alarm 'A0001'"),
            ("alarm nowhere A0001 on", "no component 'nowhere'"),
            ("status O+14439=481BR001 S0101 limit 1", "has no status 'S0101' of the name 'limit'"),
            ("status O+14439=481BR001 S0101 release limit 1", "known:"),
            ("status O+14439=481BR001 S0101 \"release limit 1", "not closed"),
            ("status \"1\"0 1", "no space behind a quote"),
            ("alarm 2 maybe", "the alarm's state is 'maybe'"),
            ("aggregated 256", "the value is '256'"),
        ] {
            let said = read(line, &table).unwrap_err();
            assert!(said.contains(wanted), "{}: {}", line, said);
        }
    }

    #[test]
    fn sites() {
        for (line, sites, wanted) in [
            ("counts", 1, Ok((None, "counts"))),
            (" north  counts", 1, Ok((Some(0), "  counts"))),
            ("south alarm 1 on", 2, Ok((Some(1), " alarm 1 on"))),
            ("southern counts", 2, Ok((None, "southern counts"))),
            ("south", 2, Ok((None, "south"))),
        ] {
            assert_eq!(site_of(line, sites), wanted);
        }
        assert_eq!(site_of("south counts", 1).unwrap_err(), "there is no site south here");
    }

    #[test]
    fn words_and_back() {
        let words = ["status", "a b", "", "S", "-1"].map(str::to_string);
        assert_eq!(words_of(&line_of(&words).unwrap()).unwrap(), words);
        assert!(line_of(&["a\"b".to_string()]).is_err() && line_of(&["a\nb".to_string()]).is_err());
    }
}
