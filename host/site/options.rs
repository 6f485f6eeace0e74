//! The command line, and the same words in a file.

use crate::access;
use crate::journal::Level;
use crate::readable::clean;
use std::ffi::OsString;
use std::fs;
use std::time::Duration;

pub const HELP: &str = "rsmp-site: the site end of RSMP 3.2 for a road-barrier detector

  rsmp-site --table FILE --supervisor HOST:PORT [--supervisor HOST:PORT ..] [options] [--beside --table FILE --supervisor HOST:PORT ..]

  --table FILE               the site table, as text or bits (see rsmp-table --help)
  --supervisor HOST:PORT     one to four; the first is link 0
  --primary LINK|none        which link gets the alarms (default 0)
  --period SECONDS           between our Watchdog messages, 1 to 3600 (default 60)
  --first NUMBER             the first sequence number of a record (default 0)
  --beside                   a second site, south, in the same cabinet: --table, --supervisor, --primary, --period, --first and --on-command
                             behind it are its own; both share one pool of records, one state, record, log and control

  --reconnect SECONDS        before a connection that is gone or failed is tried again (default 2; 0.5 is half a second); twice as
                             long each time that it does not come to Up, a tenth more or less
  --reconnect-limit SECONDS  and no longer than this (default 60)
  --greeting-limit SECONDS   a connection that is not Up by then is closed (default 60)
  --link-rate PACKETS        read no more from a link in a second (default 1000; 0: as many as come); what is more waits

  --on-command PROGRAM       run this for each command of a supervisor, one after the other in the order in which they came, with four
                             words: component, code, name, value; without it, commands are told of in the log alone
  --command-limit SECONDS    one that runs longer is ended (default 60)

  --state FILE               keep the site in this file over a restart or a power loss
  --state-interval SECONDS   write it so often at most (default 10), but alarms at once; 0: before anything that depends on it is sent
  --control PATH             take orders on a Unix socket; without it, on standard input
  --control-mode MODE        who may use it, as chmod has it (default 600: its owner alone)
  --control-group GROUP      give it to this group
  --record FILE              append every call as a script that rsmp-replay plays
  --record-size BYTES        put it aside as FILE.1 when it is so long (default 64M; K, M and G are known; 0: never)
  --log FILE                 append the log to a file; without it, it goes to standard output
  --log-size BYTES           put it aside as FILE.1 before it is longer (default 64M; 0: never)
  --log-level LEVEL          error, warning, info (what happens to connections), message (a line for each; the default), debug
  --log-format FORMAT        text (the default) or json, an object a line; to the journal of systemd lines go with their priority
  --quiet                    the same as --log-level info
  --metrics FILE             write how the site stands every 15 seconds in the text form of Prometheus, for node_exporter's textfile folder

  --drain SECONDS            told to end, wait so long at most until every record is answered (default 0)

  --config FILE              options from a file, a line each: the same words without --, then the value; # begins a comment
  --check-config             say what a start with these words, this table and this state would do, and end; status 1: it could not
                             start, or would not take the state
  --send PATH ORDER..        give an order to the site whose control socket is PATH, and print the reply; status 0: done, 1: refused
  --version                  say which version this is
  -h, --help                 this text
  --clock FILE, --random FILE   for tests: the clock is a file with two numbers, the milliseconds since 1970 of the system's clock
                             at our start and how many milliseconds longer than it seems we run; random bytes are read from a file

A value may also stand behind =, as in --period=60. SIGHUP has the log and the record opened again, SIGTERM and SIGINT say goodbye and
end. Status 0: ended as told; 1: it cannot start; 2: wrong words; 3: the table is none.

Orders, a line each; a reply begins with done or refused (done, not stored: with --state-interval 0, where the state cannot be written).
With --beside a line may begin with north or south and is for that site; without it is for north:
  alarm NUMBER on|off        the input of an alarm, numbered from 0 as the table lists them
  alarm COMPONENT CODE on|off          .. or by its component and code
  status NUMBER VALUE        the value of a status, numbered in the same way
  status COMPONENT CODE NAME VALUE     .. or by its component, code and name, in quotes where it has spaces
  aggregated 0..255          the eight booleans of the aggregated status, the first being 128
  counts                     the records held and lost of each link
  links                      the state of each link
  records                    the held records as CSV, link by link, oldest first; without a name those of both sites,
                             links 0 to 3 being north's and 4 to 7 south's
  commands                   how many were handed over, done, failed, wait
  show, show --json          all of it: links, alarms, values, subscriptions, counters since the start
  save                       write the state now
  quit                       say goodbye and end

The log shows every message: > is sent, < is received, ! says that it was not answered.
";

/// What a site has of its own.
pub struct OfSite {
    pub table: String,
    pub supervisors: Vec<String>,
    pub primary: Option<u32>,
    pub period: u32,
    pub first: u64,
    pub on_command: Option<String>,
}

impl Default for OfSite {
    fn default() -> OfSite {
        OfSite { table: String::new(), supervisors: Vec::new(), primary: Some(0), period: 60, first: 0, on_command: None }
    }
}

pub struct Options {
    /// One, or two that share a cabinet.
    pub sites: Vec<OfSite>,
    pub reconnect: Duration,
    pub reconnect_limit: Duration,
    pub greeting_limit: Duration,
    pub link_rate: u32,
    pub command_limit: Duration,
    pub state: Option<String>,
    pub state_interval: Duration,
    pub control: Option<String>,
    pub control_mode: u32,
    pub control_group: Option<String>,
    pub record: Option<String>,
    pub record_size: u64,
    pub log: Option<String>,
    pub log_size: u64,
    pub level: Level,
    pub json: bool,
    pub metrics: Option<String>,
    pub drain: Duration,
    pub clock: Option<String>,
    pub random: String,
}

pub enum Wanted {
    Help,
    Version,
    Run(Options),
    Check(Options),
    /// The control socket, and the order's words.
    Send(String, Vec<String>),
}

/// What is wanted, or what is wrong.
pub fn read(words: impl Iterator<Item = OsString>) -> Result<Wanted, String> {
    let mut options = Options {
        sites: vec![OfSite::default()],
        reconnect: Duration::from_secs(2),
        reconnect_limit: Duration::from_secs(60),
        greeting_limit: Duration::from_secs(60),
        link_rate: 1000,
        command_limit: Duration::from_secs(60),
        state: None,
        state_interval: Duration::from_secs(10),
        control: None,
        control_mode: 0o600,
        control_group: None,
        record: None,
        record_size: 64 << 20,
        log: None,
        log_size: 64 << 20,
        level: Level::Message,
        json: false,
        metrics: None,
        drain: Duration::ZERO,
        clock: None,
        random: "/dev/urandom".to_string(),
    };
    let mut words = words.map(as_text);
    let mut check = false;
    while let Some(word) = words.next() {
        let word = word?;
        match word.as_str() {
            "-h" | "--help" => return Ok(Wanted::Help),
            "--version" => return Ok(Wanted::Version),
            "--quiet" => options.level = Level::Info,
            "--beside" => options.beside().map_err(|why| format!("--{}", why))?,
            "--check-config" => check = true,
            _ => {
                let (name, value) = match word.split_once('=') {
                    Some((name, value)) => (name, Some(value.to_string())),
                    None => (word.as_str(), words.next().transpose()?),
                };
                let plain = name.strip_prefix("--").ok_or_else(|| no_such(name))?;
                if plain == "send" {
                    let path = value.ok_or("--send needs the path of a control socket")?;
                    return sending(path, words.collect::<Result<_, _>>()?);
                } else if plain == "config" {
                    let file = value.ok_or("--config needs a value")?;
                    options.read_file(&file)?;
                } else {
                    options.set(plain, value).map_err(|why| format!("--{}", why))?;
                }
            }
        }
    }
    options.judged().map(if check { Wanted::Check } else { Wanted::Run })
}

fn sending(path: String, order: Vec<String>) -> Result<Wanted, String> {
    match order.is_empty() {
        true => Err("--send needs an order behind the path".to_string()),
        false => Ok(Wanted::Send(path, order)),
    }
}

fn as_text(word: OsString) -> Result<String, String> {
    word.into_string().map_err(|word| {
        let shown = clean(&word.to_string_lossy());
        format!("a word is not UTF-8: '{}'", shown)
    })
}

fn no_such(name: &str) -> String {
    format!("no such option: {}", clean(name))
}

impl Options {
    fn read_file(&mut self, file: &str) -> Result<(), String> {
        let bytes = fs::read(file).map_err(|error| format!("{}: {}", file, error))?;
        let text = String::from_utf8(bytes).map_err(|_| format!("{}: is not UTF-8", file))?;
        for (number, line) in text.lines().enumerate() {
            self.read_line(line).map_err(|why| format!("{}:{}: {}", file, number + 1, why))?;
        }
        Ok(())
    }

    /// A line of the file: a name, then its value up to the end or to a # behind a space.
    fn read_line(&mut self, line: &str) -> Result<(), String> {
        let comment = match line.trim_start().starts_with('#') {
            true => Some(0),
            false => line.find(" #").or_else(|| line.find("\t#")),
        };
        let line = line[..comment.unwrap_or(line.len())].trim();
        if line.is_empty() {
            return Ok(());
        }
        let (name, value) = match line.split_once(char::is_whitespace) {
            Some((name, value)) => (name, Some(value.trim().to_string())),
            None => (line, None),
        };
        match (name, &value) {
            ("quiet", None) => self.level = Level::Info,
            ("beside", None) => self.beside()?,
            ("config" | "quiet" | "beside" | "version" | "help" | "check-config" | "send", _) => return Err(no_such(line)),
            _ => self.set(name, value)?,
        }
        Ok(())
    }

    /// The words behind it are the second site's.
    fn beside(&mut self) -> Result<(), String> {
        if self.sites.len() == rsmp_site::SITES {
            return Err("beside: there are two sites at most".to_string());
        }
        self.sites.push(OfSite::default());
        Ok(())
    }

    /// The error begins with the name.
    fn set(&mut self, name: &str, value: Option<String>) -> Result<(), String> {
        let known = [
            "table",
            "supervisor",
            "primary",
            "period",
            "first",
            "reconnect",
            "reconnect-limit",
            "greeting-limit",
            "link-rate",
            "on-command",
            "command-limit",
            "state",
            "state-interval",
            "control",
            "control-mode",
            "control-group",
            "record",
            "record-size",
            "log",
            "log-size",
            "log-level",
            "log-format",
            "metrics",
            "drain",
            "clock",
            "random",
        ];
        if !known.contains(&name) {
            return Err(format!("{}: no such option", clean(name)));
        }
        let value = value.ok_or_else(|| format!("{} needs a value", name))?;
        let bad = |wanted: &str| format!("{}: wanted {}, not '{}'", name, wanted, clean(&value));
        let seconds = |least: f64| -> Result<Duration, String> {
            let seconds: Option<f64> = value.parse().ok();
            let seconds = seconds.filter(|seconds| (least..=86400.0).contains(seconds));
            let seconds = seconds.ok_or_else(|| bad(&format!("{} to 86400 seconds", least)))?;
            Ok(Duration::from_secs_f64(seconds))
        };
        let last = self.sites.len() - 1;
        let site = &mut self.sites[last];
        match name {
            "table" => site.table = value,
            "supervisor" => {
                judge_address(&value).map_err(|why| format!("{}: {}", name, why))?;
                site.supervisors.push(value);
            }
            "primary" if value == "none" => site.primary = None,
            "primary" => {
                let link = value.parse().map_err(|_| bad("a link's number or none"))?;
                site.primary = Some(link);
            }
            "period" => {
                let seconds = value.parse().ok().filter(|seconds| (1..=3600).contains(seconds));
                site.period = seconds.ok_or_else(|| bad("1 to 3600 seconds"))?;
            }
            "first" => {
                let first = value.parse().ok().filter(|first| *first <= 2_147_483_647);
                site.first = first.ok_or_else(|| bad("0 to 2147483647"))?;
            }
            "reconnect" => self.reconnect = seconds(0.01)?,
            "reconnect-limit" => self.reconnect_limit = seconds(0.01)?,
            "greeting-limit" => self.greeting_limit = seconds(0.1)?,
            "link-rate" => {
                let rate = value.parse().ok().filter(|rate| *rate <= 1_000_000);
                self.link_rate = rate.ok_or_else(|| bad("0 to 1000000 packets"))?;
            }
            "on-command" if value.is_empty() => return Err(bad("a program")),
            "on-command" => site.on_command = Some(value),
            "command-limit" => self.command_limit = seconds(0.1)?,
            "state" => self.state = Some(value),
            "state-interval" => self.state_interval = seconds(0.0)?,
            "control" => self.control = Some(value),
            "control-mode" => self.control_mode = access::mode(&value).ok_or_else(|| bad("octal digits, as 660"))?,
            "control-group" => self.control_group = Some(value),
            "record" => self.record = Some(value),
            "record-size" => {
                self.record_size = size(&value).ok_or_else(|| bad("a number of bytes, as 500K or 64M"))?;
            }
            "log" => self.log = Some(value),
            "log-size" => {
                self.log_size = size(&value).ok_or_else(|| bad("a number of bytes, as 500K or 64M"))?;
            }
            "log-level" => {
                let level = value.parse().map_err(|_| bad("error, warning, info, message or debug"))?;
                self.level = level;
            }
            "log-format" => match value.as_str() {
                "text" => self.json = false,
                "json" => self.json = true,
                _ => return Err(bad("text or json")),
            },
            "metrics" => self.metrics = Some(value),
            "drain" => self.drain = seconds(0.0)?,
            "clock" => self.clock = Some(value),
            _ => self.random = value,
        }
        Ok(())
    }

    fn judged(self) -> Result<Options, String> {
        for (number, site) in self.sites.iter().enumerate() {
            let whose = if number == 0 { "" } else { ", behind --beside" };
            site.judge().map_err(|why| format!("{}{}", why, whose))?;
        }
        Ok(self)
    }
}

impl OfSite {
    fn judge(&self) -> Result<(), String> {
        if self.table.is_empty() {
            return Err("--table is missing".to_string());
        }
        let links = self.supervisors.len();
        if !(1..=4).contains(&links) {
            return Err(format!("{} supervisors, 1 to 4 are allowed", links));
        }
        if self.primary.map_or(false, |primary| primary as usize >= links) {
            return Err(format!("--primary: the links are numbered 0 to {}", links - 1));
        }
        Ok(())
    }
}

/// HOST:PORT, an address of IPv6 in brackets.
fn judge_address(address: &str) -> Result<(), String> {
    let shown = clean(address);
    let (host, port) = address.rsplit_once(':').ok_or_else(|| format!("'{}' has no port: wanted HOST:PORT", shown))?;
    let bracketed = host.starts_with('[') && host.ends_with(']') && host.len() > 2;
    if host.is_empty() || (host.contains(':') && !bracketed) {
        return Err(format!("'{}' has no host: wanted HOST:PORT or [IPV6]:PORT", shown));
    }
    match port.parse::<u16>() {
        Ok(port) if port > 0 => Ok(()),
        _ => Err(format!("'{}' has no port from 1 to 65535", shown)),
    }
}

fn size(text: &str) -> Option<u64> {
    let (digits, unit) = match text.chars().last()? {
        'K' => (&text[..text.len() - 1], 1 << 10),
        'M' => (&text[..text.len() - 1], 1 << 20),
        'G' => (&text[..text.len() - 1], 1 << 30),
        _ => (text, 1),
    };
    digits.parse::<u64>().ok()?.checked_mul(unit)
}

#[cfg(test)]
mod tests {
    use super::*;

    fn of(words: &[&str]) -> Result<Options, String> {
        match read(words.iter().map(OsString::from))? {
            Wanted::Run(options) => Ok(options),
            _ => Err("no run".to_string()),
        }
    }

    #[test]
    fn words() {
        let options = of(&["--table=t", "--supervisor", "a:1", "--supervisor=[::1]:65535", "--period=9", "--quiet"]).unwrap();
        assert_eq!(options.sites[0].supervisors, ["a:1", "[::1]:65535"]);
        assert_eq!((options.sites[0].period, options.level, options.sites[0].primary), (9, Level::Info, Some(0)));
        for (given, wanted) in [
            ("a", "no port"),
            ("a:", "no port"),
            ("a:0", "1 to 65535"),
            ("a:99999", "1 to 65535"),
            (":1", "no host"),
            ("::1:80", "no host"),
        ] {
            let said = of(&["--table", "t", "--supervisor", given]).err().unwrap();
            assert!(said.contains(wanted) && said.starts_with("--supervisor"), "{}", said);
        }
    }

    #[test]
    fn two_sites() {
        let words =
            ["--table=t", "--supervisor=a:1", "--period=9", "--beside", "--table=u", "--supervisor=b:2", "--supervisor=c:3", "--primary=1"];
        let options = of(&[&words[..], &["--drain=5", "--on-command=x"]].concat()).unwrap();
        let (north, south) = (&options.sites[0], &options.sites[1]);
        assert_eq!((north.table.as_str(), north.period, north.primary, &north.on_command), ("t", 9, Some(0), &None));
        assert_eq!((south.table.as_str(), south.period, south.primary, south.supervisors.len()), ("u", 60, Some(1), 2));
        assert_eq!((south.on_command.as_deref(), options.drain.as_secs()), (Some("x"), 5));
        for (more, wanted) in [
            (&["--beside"][..], "two sites at most"),
            (&["--primary=2"], "numbered 0 to 1, behind --beside"),
            (&["--supervisor=d:4", "--supervisor=e:5", "--supervisor=f:6"], "5 supervisors, 1 to 4 are allowed, behind --beside"),
        ] {
            let said = of(&[&words[..], more].concat()).err().unwrap();
            assert!(said.contains(wanted), "{}", said);
        }
        assert_eq!(of(&["--table=t", "--supervisor=a:1", "--beside"]).err().unwrap(), "--table is missing, behind --beside");
    }

    #[test]
    fn lines() {
        let mut options = of(&["--table=t", "--supervisor=a:1"]).unwrap();
        for line in ["", "# nothing", "supervisor  b:2  # the workshop", "quiet", "table a file#1.txt"] {
            options.read_line(line).unwrap();
        }
        assert_eq!((options.sites[0].supervisors.len(), options.sites[0].table.as_str()), (2, "a file#1.txt"));
        for line in ["beside", "table another"] {
            options.read_line(line).unwrap();
        }
        assert_eq!((options.sites.len(), options.sites[1].table.as_str()), (2, "another"));
        for line in ["period", "period x", "config again", "quiet yes", "beside yes", "beside", "nonsense 1"] {
            assert!(options.read_line(line).is_err(), "{}", line);
        }
    }

    #[test]
    fn sizes() {
        let each = ["0", "7", "2K", "3M", "1G"].map(|text| size(text).unwrap());
        assert_eq!(each, [0, 7, 2048, 3 << 20, 1 << 30]);
        assert!(size("").is_none() && size("M").is_none() && size("99999999999G").is_none());
    }
}
