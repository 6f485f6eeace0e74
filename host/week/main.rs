//! Prints the weekly report of a captured supervisor stream. The proved library reads and counts; this lends it memory.

use std::env;
use std::ffi::OsString;
use std::fs::File;
use std::io::{self, Read, Write};
use std::process::ExitCode;

const USAGE: &str = "rsmp-week: the weekly report of a captured supervisor stream

  rsmp-week < STREAM > REPORT
  rsmp-week STREAM.. > REPORT
  rsmp-week --version | --help

The stream is what a supervisor received, each message with its form feed; rsmp-replay --stream makes one of a record. Several files are one
stream, one after the other, but no message goes over the end of a file; - is standard input. The report has a header and one line for each component,
code and name met in StatusUpdate messages, in order of first appearance, with one tab between fields:

  component code name count null min max sum middle

The middle is the lower one: of n values in rising order the one at place (n + 1) / 2, the half dropped. Without values the last four
are -. Bad or long packets, other types, and entries without cId, sCI, n or s, or with another value, are passed over. Over 64 statuses
or 4,000 values it prints one line, too many. Status: 0, 1 where the stream cannot be read or the report not be written, 2 otherwise.
";

/// As `rsmp_week.h` has them.
const WORDS: usize = 5027;
const HELD: usize = 4096;
const REPORT: usize = 16_384;

const PIECE: usize = 65_536;

#[repr(C)]
struct Fed {
    number: u32,
    used: u32,
}

#[repr(C)]
struct Told {
    written: u64,
    number: u64,
}

#[link(name = "rsmp_week", kind = "static")]
extern "C" {
    fn rsmp_week_begin(words: *mut u64, words_len: usize) -> u32;
    fn rsmp_week_feed(
        words: *mut u64,
        words_len: usize,
        held: *mut u8,
        held_len: usize,
        used: u32,
        piece: *const u8,
        piece_len: usize,
    ) -> Fed;
    fn rsmp_week_report(words: *const u64, words_len: usize, out: *mut u8, out_len: usize) -> Told;
}

struct Week {
    words: [u64; WORDS],
    held: [u8; HELD],
    used: u32,
}

impl Week {
    fn begin() -> Week {
        let mut week = Week { words: [0; WORDS], held: [0; HELD], used: 0 };
        // SAFETY: the words are lent with their own length, and for the call alone.
        let number = unsafe { rsmp_week_begin(week.words.as_mut_ptr(), WORDS) };
        assert_eq!(number, 0);
        week
    }

    fn feed(&mut self, piece: &[u8]) {
        // SAFETY: each slice is lent with its own length, for the call alone, and they lie apart.
        let fed =
            unsafe { rsmp_week_feed(self.words.as_mut_ptr(), WORDS, self.held.as_mut_ptr(), HELD, self.used, piece.as_ptr(), piece.len()) };
        assert_eq!(fed.number, 0);
        self.used = fed.used;
    }

    fn report<'a>(&self, out: &'a mut [u8; REPORT]) -> &'a [u8] {
        // SAFETY: as in feed.
        let told = unsafe { rsmp_week_report(self.words.as_ptr(), WORDS, out.as_mut_ptr(), REPORT) };
        assert_eq!(told.number, 0);
        &out[..told.written as usize]
    }

    /// What stands behind the last form feed is no message.
    fn end_of_file(&mut self) {
        self.used = 0;
    }

    fn read(&mut self, mut input: impl Read) -> io::Result<()> {
        let mut piece = [0; PIECE];
        loop {
            match input.read(&mut piece) {
                Ok(0) => {
                    self.end_of_file();
                    return Ok(());
                }
                Ok(n) => self.feed(&piece[..n]),
                Err(error) if error.kind() == io::ErrorKind::Interrupted => {}
                Err(error) => return Err(error),
            }
        }
    }
}

/// The week of these files, or what cannot be read.
fn read(names: &[OsString]) -> Result<Week, String> {
    let mut week = Week::begin();
    for name in names {
        let read = match name.to_str() {
            Some("-") => week.read(io::stdin().lock()),
            _ => File::open(name).and_then(|file| week.read(file)),
        };
        let shown = if name == "-" { "standard input".into() } else { name.to_string_lossy() };
        read.map_err(|error| format!("{shown}: {error}"))?;
    }
    Ok(week)
}

fn print(bytes: &[u8]) -> io::Result<()> {
    let mut output = io::stdout().lock();
    output.write_all(bytes)?;
    output.flush()
}

fn failed(status: u8, message: String) -> ExitCode {
    let _ = writeln!(io::stderr(), "rsmp-week: {message}");
    ExitCode::from(status)
}

fn printed(bytes: &[u8]) -> ExitCode {
    match print(bytes) {
        Ok(()) => ExitCode::SUCCESS,
        Err(error) => failed(1, format!("standard output: {error}")),
    }
}

fn main() -> ExitCode {
    let mut names: Vec<OsString> = env::args_os().skip(1).collect();
    let option = names.iter().find(|name| name.to_string_lossy().starts_with('-') && *name != "-");
    match option.map(|option| option.to_string_lossy()).as_deref() {
        Some("--help" | "-h") => return printed(USAGE.as_bytes()),
        Some("--version") => return printed(concat!("rsmp-week ", env!("RSMP_VERSION"), "\n").as_bytes()),
        Some(option) => return failed(2, format!("{option}: no such option (see rsmp-week --help)")),
        None => {}
    }
    if names.is_empty() {
        names.push("-".into());
    }
    match read(&names) {
        Ok(week) => printed(week.report(&mut [0; REPORT])),
        Err(message) => failed(1, message),
    }
}
