//! The lines of a script, read.

use rsmp_site::ffi::NO_PRIMARY;

/// The longest output a line may ask for.
pub const MOST_ROOM: usize = 1 << 24;

/// Whose line it is.
#[derive(Clone, Copy, PartialEq, Eq)]
pub enum Whose {
    /// It names none: north's, and a start is one alone.
    Unnamed,
    North,
    South,
}

impl Whose {
    /// The site's number in its box.
    pub fn site(self) -> usize {
        usize::from(self == Whose::South)
    }
}

pub enum Line {
    Start { table: Vec<u8>, links: u32, primary: u32, period: u32, first: u64, time: u64 },
    Restore { bytes: Vec<u8> },
    Connect { link: u32, time: u64 },
    Disconnect { link: u32, time: u64 },
    Packet { link: u32, time: u64, random: [u8; 16], room: usize, packet: Vec<u8> },
    Alarm { number: u32, active: u32, time: u64 },
    Status { number: u32, value: i32, time: u64 },
    Aggregated { value: u8, time: u64 },
    Tick { time: u64 },
    Pump { link: u32, time: u64, random: [u8; 16], room: usize },
    Counts,
    Readings,
}

impl Line {
    /// When the call is made; a stored site and readings have no time.
    pub fn time(&self) -> Option<u64> {
        match self {
            Line::Start { time, .. } | Line::Connect { time, .. } | Line::Disconnect { time, .. } | Line::Packet { time, .. } => {
                Some(*time)
            }
            Line::Alarm { time, .. } | Line::Status { time, .. } | Line::Aggregated { time, .. } | Line::Tick { time } => Some(*time),
            Line::Pump { time, .. } => Some(*time),
            Line::Restore { .. } | Line::Counts | Line::Readings => None,
        }
    }
}

const FORMS: [&str; 12] = [
    "start TABLEHEX LINKS PRIMARY|- PERIOD FIRST TIME",
    "restore STOREDHEX",
    "connect LINK TIME",
    "disconnect LINK TIME",
    "packet LINK TIME RANDOMHEX ROOM PACKETHEX|-",
    "alarm NUMBER 0|1 TIME",
    "status NUMBER VALUE TIME",
    "aggregated BYTE TIME",
    "tick TIME",
    "pump LINK TIME RANDOMHEX ROOM",
    "counts",
    "readings",
];

/// What a line may begin with.
const NAMES: [(&str, Whose); 2] = [("north ", Whose::North), ("south ", Whose::South)];

pub fn help() -> String {
    FORMS.iter().map(|form| format!("  {}\n", form)).collect()
}

/// Whose the line is, and the line; or what is wrong with it.
pub fn read(line: &str) -> Result<(Whose, Line), String> {
    let named = NAMES.iter().find_map(|(name, whose)| Some((*whose, line.strip_prefix(name)?)));
    let (whose, line) = named.unwrap_or((Whose::Unnamed, line));
    match (whose, call(line)?) {
        (Whose::North | Whose::South, Line::Restore { .. }) => Err("what was stored is of no one site".to_string()),
        (whose, line) => Ok((whose, line)),
    }
}

fn call(line: &str) -> Result<Line, String> {
    let words: Vec<&str> = line.split_ascii_whitespace().collect();
    let name = *words.first().ok_or("an empty line")?;
    let form = FORMS.iter().find(|form| form.split(' ').next() == Some(name)).ok_or_else(|| format!("no such call: {}", shown(name)))?;
    let wanted: Vec<&str> = form.split(' ').collect();
    if words.len() != wanted.len() {
        return Err(format!("{} words where {} are wanted: {}", words.len(), wanted.len(), form));
    }
    let words = Words { names: &wanted, words: &words };
    Ok(match name {
        "start" => Line::Start {
            table: words.hex(1)?,
            links: words.number(2)?,
            primary: words.primary(3)?,
            period: words.number(4)?,
            first: words.number(5)?,
            time: words.number(6)?,
        },
        "restore" => Line::Restore { bytes: words.hex(1)? },
        "connect" => Line::Connect { link: words.number(1)?, time: words.number(2)? },
        "disconnect" => Line::Disconnect { link: words.number(1)?, time: words.number(2)? },
        "packet" => Line::Packet {
            link: words.number(1)?,
            time: words.number(2)?,
            random: words.random(3)?,
            room: words.room(4)?,
            packet: words.hex(5)?,
        },
        "alarm" => Line::Alarm { number: words.number(1)?, active: words.bit(2)?, time: words.number(3)? },
        "status" => Line::Status { number: words.number(1)?, value: words.number(2)?, time: words.number(3)? },
        "aggregated" => Line::Aggregated { value: words.number(1)?, time: words.number(2)? },
        "tick" => Line::Tick { time: words.number(1)? },
        "pump" => Line::Pump { link: words.number(1)?, time: words.number(2)?, random: words.random(3)?, room: words.room(4)? },
        "counts" => Line::Counts,
        _ => Line::Readings,
    })
}

struct Words<'a> {
    names: &'a [&'a str],
    words: &'a [&'a str],
}

impl Words<'_> {
    fn bad(&self, place: usize, wanted: &str) -> String {
        format!("{} is {}, wanted {}", self.names[place], shown(self.words[place]), wanted)
    }

    fn number<T: std::str::FromStr + Bounds>(&self, place: usize) -> Result<T, String> {
        let word = self.words[place];
        let digits = word.strip_prefix('-').unwrap_or(word);
        let plain = !digits.is_empty() && digits.bytes().all(|byte| byte.is_ascii_digit());
        word.parse().ok().filter(|_| plain).ok_or_else(|| self.bad(place, T::BOUNDS))
    }

    fn bit(&self, place: usize) -> Result<u32, String> {
        match self.words[place] {
            "0" => Ok(0),
            "1" => Ok(1),
            _ => Err(self.bad(place, "0 or 1")),
        }
    }

    fn primary(&self, place: usize) -> Result<u32, String> {
        if self.words[place] == "-" {
            return Ok(NO_PRIMARY);
        }
        self.number(place).ok().filter(|link| *link != NO_PRIMARY).ok_or_else(|| self.bad(place, "0 to 4294967294, or - for none"))
    }

    fn room(&self, place: usize) -> Result<usize, String> {
        let wanted = || self.bad(place, "0 to 16777216");
        self.number::<u32>(place).ok().map(|room| room as usize).filter(|room| *room <= MOST_ROOM).ok_or_else(wanted)
    }

    fn hex(&self, place: usize) -> Result<Vec<u8>, String> {
        let word = self.words[place];
        if word == "-" {
            return Ok(Vec::new());
        }
        bytes_of(word).ok_or_else(|| self.bad(place, "an even number of hexadecimal digits, or - for none"))
    }

    fn random(&self, place: usize) -> Result<[u8; 16], String> {
        let bytes = bytes_of(self.words[place]).and_then(|bytes| bytes.try_into().ok());
        bytes.ok_or_else(|| self.bad(place, "32 hexadecimal digits"))
    }
}

trait Bounds {
    const BOUNDS: &'static str;
}

impl Bounds for u8 {
    const BOUNDS: &'static str = "0 to 255";
}

impl Bounds for u32 {
    const BOUNDS: &'static str = "0 to 4294967295";
}

impl Bounds for i32 {
    const BOUNDS: &'static str = "-2147483648 to 2147483647";
}

impl Bounds for u64 {
    const BOUNDS: &'static str = "0 to 18446744073709551615";
}

fn bytes_of(word: &str) -> Option<Vec<u8>> {
    if word.len() % 2 != 0 {
        return None;
    }
    let digit = |byte: u8| (byte as char).to_digit(16).map(|digit| digit as u8);
    word.as_bytes().chunks(2).map(|pair| Some(digit(pair[0])? << 4 | digit(pair[1])?)).collect()
}

/// A word as a message shows it: short, on one line.
fn shown(word: &str) -> String {
    let mut start: String = word.chars().take(40).flat_map(char::escape_default).collect();
    if word.chars().count() > 40 {
        start.push_str("..");
    }
    format!("'{}'", start)
}
