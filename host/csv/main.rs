//! Writes records as CSV and reads them back. The proved library writes and reads each line; this lends it memory.

#[path = "../site/image.rs"]
mod image;

use rsmp_csv::{LINE, RECORD};
use rsmp_site::{Cabinet, Site, SiteRef, SITES};
use std::env;
use std::fs;
use std::io::{self, BufWriter, Read, Write};
use std::process::ExitCode;

const USAGE: &str = "rsmp-csv: records as CSV, and back

  rsmp-csv lines <RECORDS >CSV
  rsmp-csv records <CSV >RECORDS
  rsmp-csv state FILE >CSV
  rsmp-csv --version | --help

RECORDS has 16 bytes for each record, one after the other, as rsmp_record gives them. FILE is the state of rsmp-site: the records that it holds, link by
link, oldest first, links 4 to 7 being those of a second site. CSV has a header and a line for each record, ended by CRLF:

  link,kind,item,event,ack,active,suspended,known,old,time,value,sequence

What is not accepted is told on standard error, as `record N: reason` or `line N: reason`, and left out; the header is line 1, and a line break in
quotes counts. Behind a wrong header nothing is read. Status: 0, 1 where something was left out, the file is no state or a stream fails, 2 for other
arguments.
";

/// Whether every record was written.
fn lines(records: &[u8], mut output: impl Write) -> io::Result<bool> {
    let mut whole = true;
    output.write_all(&rsmp_csv::header())?;
    for (i, record) in records.chunks(RECORD).enumerate() {
        match rsmp_csv::line(record, &mut [0; LINE]) {
            Some(line) => output.write_all(line)?,
            None => {
                whole = false;
                let why = if record.len() < RECORD { "shorter than 16 bytes" } else { "not accepted" };
                let _ = writeln!(io::stderr(), "record {}: {why}", i + 1);
            }
        }
    }
    output.flush()?;
    Ok(whole)
}

/// Whether every line was accepted.
fn records(text: &[u8], mut output: impl Write) -> io::Result<bool> {
    let mut whole = true;
    for (number, found) in rsmp_csv::lines(text) {
        match found {
            Ok(record) => output.write_all(&record)?,
            Err(reason) => {
                whole = false;
                let _ = writeln!(io::stderr(), "line {}: {}", number, reason.text());
            }
        }
    }
    output.flush()?;
    Ok(whole)
}

/// The records that a state holds, of its first site and then of its second, link by link, oldest first.
fn held(bytes: Vec<u8>) -> Result<Vec<u8>, String> {
    let bytes = image::newest(bytes);
    let (sites, _, stored) = image::parts(&bytes)?;
    let found = match sites {
        1 => Site::from_stored(stored).map(|site| held_of(site.lent())),
        _ => Cabinet::from_stored(stored).map(|both| (0..SITES as u32).filter_map(|n| both.site(n)).flat_map(held_of).collect()),
    };
    found.map_err(|fault| format!("it is {fault}"))
}

fn held_of(site: SiteRef) -> Vec<u8> {
    (0..site.links()).flat_map(|link| site.records(link)).flatten().collect()
}

fn failed(status: u8, message: &str) -> ExitCode {
    let _ = writeln!(io::stderr(), "rsmp-csv: {message}");
    ExitCode::from(status)
}

fn done(result: io::Result<bool>) -> ExitCode {
    match result {
        Ok(true) => ExitCode::SUCCESS,
        Ok(false) => ExitCode::from(1),
        Err(error) => failed(1, &format!("standard output: {error}")),
    }
}

fn all_input() -> Result<Vec<u8>, String> {
    let mut input = Vec::new();
    io::stdin().lock().read_to_end(&mut input).map(|_| input).map_err(|error| format!("standard input: {error}"))
}

fn main() -> ExitCode {
    let words: Vec<_> = env::args_os().skip(1).collect();
    let known: Vec<_> = words.iter().map(|word| word.to_string_lossy()).collect();
    let known: Vec<&str> = known.iter().map(|word| word.as_ref()).collect();
    let mut output = BufWriter::new(io::stdout().lock());
    let given = match known[..] {
        ["--help" | "-h"] => return done(output.write_all(USAGE.as_bytes()).and_then(|()| output.flush()).map(|()| true)),
        ["--version"] => return done(writeln!(output, "rsmp-csv {}", env!("RSMP_VERSION")).and_then(|()| output.flush()).map(|()| true)),
        ["lines" | "records"] => all_input(),
        ["state", name] => fs::read(&words[1]).map_err(|error| error.to_string()).and_then(held).map_err(|why| format!("{name}: {why}")),
        ["state"] => return failed(2, "state: wanted the state's file (see rsmp-csv --help)"),
        _ => return failed(2, "one of lines, records, state FILE (see rsmp-csv --help)"),
    };
    match given {
        Err(message) => failed(1, &message),
        Ok(text) if known[0] == "records" => done(records(&text, output)),
        Ok(bytes) => done(lines(&bytes, output)),
    }
}
