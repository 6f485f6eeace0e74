//! Every call as a line of a script that rsmp-replay plays: appended to a file, which is put aside when it is long. Lines go out whole, each with its
//! end; one that a kill or a full disk has torn is cut off before the file is written on.

use crate::memory::NAMES;
use crate::outlet::{appended, put_aside};
use std::fs::File;
use std::io::{self, Read, Seek, SeekFrom, Write};
use std::path::{Path, PathBuf};

/// So many bytes wait before they are written without being asked for.
const MOST_WAITING: usize = 8192;
/// No line of ours is longer: that of two stored sites has most of it.
const LONGEST_LINE: u64 = 64 * 1024;
/// What a line of ours begins with, behind its site's name where it has one.
const CALLS: [&str; 10] =
    ["start ", "restore ", "connect ", "disconnect ", "packet ", "alarm ", "status ", "aggregated ", "tick ", "pump "];

pub struct Record {
    path: PathBuf,
    /// None from when it could not be written until it is opened again.
    file: Option<File>,
    /// Whole lines.
    waiting: Vec<u8>,
    /// Of the file and what waits for it, every byte.
    length: u64,
    /// Of the line that the file begins with, where we have written it.
    first_line: u64,
    most: u64,
    /// No device and no pipe: such a one has no size and stays where it is.
    plain: bool,
}

impl Record {
    /// `most` is with how many bytes the file is put aside; 0 for never. Gives also how many bytes were cut off at its end.
    pub fn open(path: &str, most: u64) -> io::Result<(Record, u64)> {
        let mut record = Record::closed(path, most);
        let cut = record.reopen()?;
        Ok((record, cut))
    }

    /// One that is to be opened later.
    pub fn closed(path: &str, most: u64) -> Record {
        Record { path: PathBuf::from(path), file: None, waiting: Vec::new(), length: 0, first_line: 0, most, plain: false }
    }

    pub fn is_open(&self) -> bool {
        self.file.is_some()
    }

    /// What waits is lost, and nothing is written until it is opened again.
    pub fn close(&mut self) {
        self.file = None;
        self.waiting.clear();
    }

    /// Adds a line.
    pub fn line(&mut self, line: &str) -> io::Result<()> {
        if self.length == 0 {
            self.first_line = line.len() as u64 + 1;
        }
        self.length += line.len() as u64 + 1;
        self.waiting.extend_from_slice(line.as_bytes());
        self.waiting.push(b'\n');
        match self.waiting.len() >= MOST_WAITING {
            true => self.flush(),
            false => Ok(()),
        }
    }

    /// Writes out what waits.
    pub fn flush(&mut self) -> io::Result<()> {
        if let Some(file) = &mut self.file {
            file.write_all(&self.waiting)?;
            self.waiting.clear();
        }
        Ok(())
    }

    /// Twice its first line at least, so that a file has more than the site that it begins with.
    pub fn is_long(&self) -> bool {
        self.plain && self.most > 0 && self.length >= self.most.max(2 * self.first_line)
    }

    /// Puts the file aside, in place of the one put aside before, and begins a new one.
    pub fn put_aside(&mut self) -> io::Result<()> {
        self.flush()?;
        put_aside(&self.path)?;
        self.opened().map(|_| ())
    }

    /// Opens the file again by its name; one that is long is put aside first. Gives how many bytes were cut off at its end.
    pub fn reopen(&mut self) -> io::Result<u64> {
        self.flush()?;
        let cut = self.opened()?;
        if self.is_long() {
            self.put_aside()?;
        }
        Ok(cut)
    }

    fn opened(&mut self) -> io::Result<u64> {
        self.close();
        let file = appended(&self.path)?;
        let about = file.metadata()?;
        self.plain = about.is_file();
        let rest = if self.plain { torn(&self.path, about.len())? } else { 0 };
        if rest > 0 {
            file.set_len(about.len() - rest)?;
        }
        (self.length, self.first_line, self.file) = (about.len() - rest, 0, Some(file));
        Ok(rest)
    }
}

/// How many bytes stand behind the last line's end. They must be of a line of ours.
fn torn(path: &Path, length: u64) -> io::Result<u64> {
    let mut file = File::open(path)?;
    file.seek(SeekFrom::Start(length.saturating_sub(LONGEST_LINE)))?;
    let mut bytes = Vec::new();
    file.take(LONGEST_LINE).read_to_end(&mut bytes)?;
    let end = bytes.iter().rposition(|byte| *byte == b'\n');
    let rest = &bytes[end.map_or(0, |end| end + 1)..];
    let begins = |line: &[u8], word: &str| line.starts_with(word.as_bytes()) || word.as_bytes().starts_with(line);
    let behind = NAMES.iter().find_map(|name| rest.strip_prefix(name.as_bytes())?.strip_prefix(b" ")).unwrap_or(rest);
    let is_ours = CALLS.iter().any(|call| begins(behind, call)) || NAMES.iter().any(|name| name.as_bytes().starts_with(rest));
    if end.is_none() && length > LONGEST_LINE || !is_ours {
        return Err(io::Error::new(io::ErrorKind::InvalidData, "it is no record: its last line has no end and is no call"));
    }
    Ok(rest.len() as u64)
}

pub fn hex(bytes: &[u8]) -> String {
    const DIGITS: &[u8; 16] = b"0123456789abcdef";
    if bytes.is_empty() {
        return "-".to_string();
    }
    let mut text = String::with_capacity(2 * bytes.len());
    for byte in bytes {
        text.push(DIGITS[usize::from(byte >> 4)] as char);
        text.push(DIGITS[usize::from(byte & 15)] as char);
    }
    text
}

#[cfg(test)]
mod tests {
    use super::*;
    use std::fs;

    fn place(name: &str) -> String {
        std::env::temp_dir().join(format!("rsmp-site-{}-{}", name, std::process::id())).display().to_string()
    }

    #[test]
    fn hexadecimal() {
        assert_eq!((hex(&[]), hex(&[0, 0x5a, 0xff])), ("-".to_string(), "005aff".to_string()));
    }

    #[test]
    fn long_files_are_put_aside() {
        let path = place("record");
        let (mut record, _) = Record::open(&path, 20).unwrap();
        for line in ["one", "two", "three", "four"] {
            record.line(line).unwrap();
        }
        assert!(!record.is_long());
        record.flush().unwrap();
        drop(record);
        let (mut record, _) = Record::open(&path, 20).unwrap();
        record.line("five").unwrap();
        assert!(record.is_long());
        record.put_aside().unwrap();
        assert!(!record.is_long());
        record.line("a line that is longer than all of it").unwrap();
        assert!(!record.is_long(), "the first line alone");
        record.line("six").unwrap();
        record.flush().unwrap();
        let aside = format!("{}.1", path);
        assert_eq!(fs::read_to_string(&aside).unwrap(), "one\ntwo\nthree\nfour\nfive\n");
        assert_eq!(fs::read_to_string(&path).unwrap(), "a line that is longer than all of it\nsix\n");
        let (record, _) = Record::open(&path, 20).unwrap();
        assert_eq!((record.length, fs::read_to_string(&aside).unwrap().len()), (0, 41), "a long file at opening");
        let _ = (fs::remove_file(&path), fs::remove_file(&aside));
    }

    #[test]
    fn a_device_stays_where_it_is() {
        let (mut record, _) = Record::open("/dev/null", 20).unwrap();
        for _ in 0..9 {
            record.line("tick 1790000000000").unwrap();
            record.flush().unwrap();
            assert!(!record.is_long());
        }
    }

    #[test]
    fn torn_lines_are_cut_off() {
        let path = place("record-torn");
        for (found, left) in [
            ("tick 1\n", "tick 1\n"),
            ("tick 1\ntick 2", "tick 1\n"),
            ("restore 52", ""),
            ("tick 1\npu", "tick 1\n"),
            ("sou", ""),
            ("tick 1\nsouth tic", "tick 1\n"),
        ] {
            fs::write(&path, found).unwrap();
            let (mut record, cut) = Record::open(&path, 0).unwrap();
            assert_eq!(cut as usize, found.len() - left.len());
            record.line("tick 3").unwrap();
            record.flush().unwrap();
            assert_eq!(fs::read_to_string(&path).unwrap(), format!("{}tick 3\n", left));
        }
        for foreign in ["precious", "tick 1\nprecious", "south precious", &"start ".repeat(20_000)] {
            fs::write(&path, foreign).unwrap();
            assert!(Record::open(&path, 0).is_err());
            assert_eq!(fs::read_to_string(&path).unwrap(), foreign);
        }
        let _ = fs::remove_file(&path);
    }
}
