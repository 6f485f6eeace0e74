//! Lines to a file or to standard output that never make the site wait: a bounded buffer, and a thread that writes it out. Lines
//! that find no room or cannot be written are dropped, counted and told of. A file is put aside when it is long, and opened again when it could
//! not be written.

use std::fs::{self, File, OpenOptions};
use std::io::{self, Read, Seek, SeekFrom, Write};
use std::os::unix::io::AsFd;
use std::path::{Path, PathBuf};
use std::sync::{Arc, Condvar, Mutex, MutexGuard};
use std::thread;
use std::time::Instant;

/// So many bytes wait at most, and no more than a file is to have with what is told of dropped lines.
const MOST_WAITING: usize = 256 * 1024;
const TOLD_BYTES: usize = 256;

#[derive(Default)]
struct Waiting {
    bytes: Vec<u8>,
    /// Lines that found no room behind these bytes.
    dropped: u64,
    writing: bool,
    reopen: bool,
    reopened: Option<io::Result<()>>,
    begun_anew: Option<io::Error>,
    json: bool,
}

#[derive(Clone)]
pub struct Outlet {
    waiting: Arc<(Mutex<Waiting>, Condvar)>,
    is_file: bool,
    /// So many bytes wait at most.
    room: usize,
}

struct Target {
    /// None for standard output.
    path: Option<PathBuf>,
    /// None until it is opened again.
    file: Option<File>,
    length: u64,
    /// Put aside rather than longer; 0 for never.
    most: u64,
    /// No device and no pipe: such a one has no size and stays where it is.
    plain: bool,
    /// The last line has no end.
    torn: bool,
    /// Why the file could not be put aside when it was long.
    not_aside: Option<io::Error>,
}

impl Target {
    fn standard_output() -> Target {
        let file = io::stdout().as_fd().try_clone_to_owned().ok().map(File::from);
        Target { path: None, file, length: 0, most: 0, plain: false, torn: false, not_aside: None }
    }

    fn file(path: PathBuf, most: u64) -> Target {
        Target { path: Some(path), file: None, length: 0, most, plain: false, torn: false, not_aside: None }
    }

    /// By its name; where that cannot be done, a former file is written on.
    fn open(&mut self) -> io::Result<()> {
        if let Some(path) = &self.path {
            let file = appended(path)?;
            let about = file.metadata()?;
            self.plain = about.is_file();
            self.torn = self.plain && !ends_a_line(path).unwrap_or(true);
            (self.length, self.file) = (about.len(), Some(file));
        }
        Ok(())
    }

    fn make_room(&mut self, count: usize) -> io::Result<()> {
        if self.file.is_none() {
            self.open()?;
        }
        let long = self.most > 0 && self.length > 0 && self.length + count as u64 > self.most;
        match self.path.as_deref().filter(|_| long && self.plain).map(put_aside) {
            None => Ok(()),
            Some(Ok(())) => {
                self.file = None;
                self.open()
            }
            Some(Err(error)) => {
                self.not_aside = Some(error);
                self.begin_anew()
            }
        }
    }

    /// Where it lies: it neither grows without limit nor falls silent where its folder is not ours.
    fn begin_anew(&mut self) -> io::Result<()> {
        if let Some(file) = &self.file {
            file.set_len(0)?;
            (self.length, self.torn) = (0, false);
        }
        Ok(())
    }

    /// Writes these lines, or as many bytes of them as can be, and gives how many.
    fn write(&mut self, bytes: &[u8]) -> usize {
        if self.make_room(bytes.len() + 1).is_err() {
            return 0;
        }
        let mut written = 0;
        if let Some(file) = &mut self.file {
            if !self.torn || write_some(file, b"\n") == 1 {
                self.length += u64::from(self.torn);
                self.torn = false;
                written = write_some(file, bytes);
            }
        }
        if written > 0 {
            self.length += written as u64;
            self.torn = bytes[written - 1] != b'\n';
        }
        if written < bytes.len() && self.path.is_some() {
            self.file = None;
        }
        written
    }
}

/// As many bytes as can be written.
fn write_some(file: &mut File, bytes: &[u8]) -> usize {
    let mut written = 0;
    while written < bytes.len() {
        match file.write(&bytes[written..]) {
            Ok(0) => break,
            Ok(count) => written += count,
            Err(error) if error.kind() == io::ErrorKind::Interrupted => {}
            Err(_) => break,
        }
    }
    written
}

pub fn appended(path: &Path) -> io::Result<File> {
    OpenOptions::new().append(true).create(true).open(path)
}

/// In place of the one that was put aside before. One that is not there any more needs no place.
pub fn put_aside(path: &Path) -> io::Result<()> {
    let mut aside = path.as_os_str().to_os_string();
    aside.push(".1");
    match fs::rename(path, aside) {
        Err(error) if error.kind() != io::ErrorKind::NotFound => Err(error),
        _ => Ok(()),
    }
}

fn ends_a_line(path: &Path) -> io::Result<bool> {
    let mut file = File::open(path)?;
    if file.metadata()?.len() == 0 {
        return Ok(true);
    }
    let mut last = [0];
    file.seek(SeekFrom::End(-1))?;
    file.read_exact(&mut last)?;
    Ok(last == *b"\n")
}

fn told_of(dropped: u64, json: bool) -> String {
    match (dropped, json) {
        (0, _) => String::new(),
        (_, true) => format!("{{\"level\":\"warning\",\"text\":\"{} lines of the log were dropped here\"}}\n", dropped),
        (_, false) => format!("({} lines of the log were dropped here)\n", dropped),
    }
}

/// The lines that wait, between what is to be told of those that were lost before and of those that found no room behind them.
struct Chunk {
    bytes: Vec<u8>,
    lines: std::ops::Range<usize>,
    behind: u64,
}

impl Chunk {
    fn of(lost: u64, waiting: &mut Waiting) -> Chunk {
        let mut bytes = told_of(lost, waiting.json).into_bytes();
        let from = bytes.len();
        bytes.append(&mut waiting.bytes);
        let to = bytes.len();
        let behind = std::mem::take(&mut waiting.dropped);
        bytes.extend_from_slice(told_of(behind, waiting.json).as_bytes());
        Chunk { bytes, lines: from..to, behind }
    }

    /// How many lines are lost and not told of where so many bytes are written.
    fn lost(&self, before: u64, written: usize) -> u64 {
        let untold = if written < self.lines.start { before } else { 0 };
        let left = &self.bytes[written.clamp(self.lines.start, self.lines.end)..self.lines.end];
        let lines = left.iter().filter(|byte| **byte == b'\n').count() as u64;
        let behind = if written < self.bytes.len() { self.behind } else { 0 };
        untold + lines + behind
    }
}

impl Outlet {
    pub fn standard_output() -> Outlet {
        Outlet::to(Target::standard_output())
    }

    /// Put aside when it would have more bytes than `most`; 0 for never. One that cannot be opened for want of space or the like is tried again.
    pub fn file(path: PathBuf, most: u64) -> io::Result<Outlet> {
        let mut target = Target::file(path, most);
        match target.open() {
            Err(error) if !crate::system::may_pass(&error) => Err(error),
            _ => Ok(Outlet::to(target)),
        }
    }

    fn to(target: Target) -> Outlet {
        let room = match target.most as usize {
            0 => MOST_WAITING,
            most => most.saturating_sub(TOLD_BYTES).clamp(TOLD_BYTES, MOST_WAITING),
        };
        let outlet = Outlet { waiting: Arc::default(), is_file: target.path.is_some(), room };
        let writer = outlet.clone();
        thread::spawn(move || writer.write_out(target));
        outlet
    }

    fn waiting(&self) -> MutexGuard<'_, Waiting> {
        self.waiting.0.lock().unwrap_or_else(|poisoned| poisoned.into_inner())
    }

    /// Takes a line, without its end, or drops it.
    pub fn line(&self, line: &str) {
        let mut waiting = self.waiting();
        if waiting.dropped > 0 || waiting.bytes.len() + line.len() + 1 > self.room {
            waiting.dropped += 1;
            return;
        }
        waiting.bytes.extend_from_slice(line.as_bytes());
        waiting.bytes.push(b'\n');
        self.waiting.1.notify_all();
    }

    /// What is dropped is told of as its lines are.
    pub fn lines_are_json(&self) {
        self.waiting().json = true;
    }

    /// Has the file opened again by its name; false where there is none.
    pub fn reopen(&self) -> bool {
        self.waiting().reopen = self.is_file;
        self.waiting.1.notify_all();
        self.is_file
    }

    /// What came of it, once.
    pub fn take_reopened(&self) -> Option<io::Result<()>> {
        self.waiting().reopened.take()
    }

    /// Why the file was begun anew where it lies, once.
    pub fn take_begun_anew(&self) -> Option<io::Error> {
        self.waiting().begun_anew.take()
    }

    /// Waits until all is written, or until then.
    pub fn drain(&self, until: Instant) {
        let mut waiting = self.waiting();
        while !waiting.bytes.is_empty() || waiting.writing {
            let left = until.saturating_duration_since(Instant::now());
            if left.is_zero() {
                return;
            }
            waiting = match self.waiting.1.wait_timeout(waiting, left) {
                Ok((waiting, _)) => waiting,
                Err(_) => return,
            };
        }
    }

    fn write_out(&self, mut target: Target) {
        let mut lost = 0;
        let mut waiting = self.waiting();
        loop {
            if std::mem::take(&mut waiting.reopen) {
                drop(waiting);
                let reopened = target.open();
                waiting = self.waiting();
                waiting.reopened = Some(reopened);
            }
            if waiting.bytes.is_empty() {
                waiting = match self.waiting.1.wait(waiting) {
                    Ok(waiting) => waiting,
                    Err(poisoned) => poisoned.into_inner(),
                };
                continue;
            }
            let chunk = Chunk::of(lost, &mut waiting);
            waiting.writing = true;
            drop(waiting);
            let written = target.write(&chunk.bytes);
            lost = chunk.lost(lost, written);
            waiting = self.waiting();
            waiting.begun_anew = target.not_aside.take().or(waiting.begun_anew.take());
            waiting.writing = false;
            self.waiting.1.notify_all();
        }
    }
}

#[cfg(test)]
mod tests {
    use super::*;
    use std::time::Duration;

    fn place(name: &str) -> PathBuf {
        std::env::temp_dir().join(format!("rsmp-site-{}-{}", name, std::process::id()))
    }

    fn soon() -> Instant {
        Instant::now() + Duration::from_secs(9)
    }

    #[test]
    fn nobody_reads() {
        let outlet = Outlet { waiting: Arc::default(), is_file: false, room: MOST_WAITING };
        let line = "x".repeat(999);
        for _ in 0..400 {
            outlet.line(&line);
        }
        let mut waiting = outlet.waiting();
        assert_eq!((waiting.bytes.len(), waiting.dropped), (262_000, 400 - 262));
        let chunk = Chunk::of(3, &mut waiting);
        let text = String::from_utf8(chunk.bytes.clone()).unwrap();
        let note = "(3 lines of the log were dropped here)\n";
        assert!(text.starts_with(&format!("{}xxx", note)) && text.ends_with("xxx\n(138 lines of the log were dropped here)\n"));
        assert_eq!((waiting.bytes.len(), waiting.dropped), (0, 0));
        let lost = |written: usize| chunk.lost(3, written);
        assert_eq!([lost(0), lost(note.len()), lost(note.len() + 1999), lost(note.len() + 2000)], [403, 400, 399, 398]);
        assert_eq!([lost(chunk.bytes.len() - 1), lost(chunk.bytes.len())], [138, 0]);
    }

    #[test]
    fn a_file_moved_away_is_made_again() {
        let path = place("outlet");
        let moved = path.with_extension("1");
        let outlet = Outlet::file(path.clone(), 0).unwrap();
        outlet.line("one");
        outlet.drain(soon());
        fs::rename(&path, &moved).unwrap();
        assert!(outlet.reopen());
        outlet.line("two");
        outlet.drain(soon());
        assert!(outlet.take_reopened().unwrap().is_ok() && outlet.take_reopened().is_none());
        assert_eq!(fs::read_to_string(&moved).unwrap(), "one\n");
        assert_eq!(fs::read_to_string(&path).unwrap(), "two\n");
        let _ = (fs::remove_file(&path), fs::remove_file(&moved));
    }

    #[test]
    fn a_long_file_is_put_aside_and_a_torn_one_goes_on_with_a_line() {
        let path = place("outlet-long");
        fs::write(&path, "half of a li").unwrap();
        let mut target = Target::file(path.clone(), 30);
        assert_eq!(target.write(b"one\n"), 4);
        assert_eq!(fs::read_to_string(&path).unwrap(), "half of a li\none\n");
        assert_eq!(target.write(b"two three four\n"), 15);
        let mut aside = path.clone().into_os_string();
        aside.push(".1");
        assert_eq!(fs::read_to_string(&aside).unwrap(), "half of a li\none\n");
        assert_eq!(fs::read_to_string(&path).unwrap(), "two three four\n");
        let mut full = Target::file("/dev/full".into(), 0);
        assert_eq!((full.write(b"x\n"), full.file.is_none()), (0, true));
        let _ = (fs::remove_file(&path), fs::remove_file(&aside));
    }

    #[test]
    fn a_long_file_that_cannot_be_put_aside_begins_anew() {
        let path = place("outlet-stays");
        let aside = PathBuf::from(format!("{}.1", path.display()));
        fs::create_dir(&aside).unwrap();
        let mut target = Target::file(path.clone(), 10);
        assert_eq!((target.write(b"one two\n"), target.not_aside.is_none()), (8, true));
        assert_eq!((target.write(b"three\n"), target.not_aside.is_some()), (6, true));
        assert_eq!(fs::read_to_string(&path).unwrap(), "three\n");
        let _ = (fs::remove_file(&path), fs::remove_dir(&aside));
    }

    #[test]
    fn a_pipe_stays_where_it_is() {
        let path = place("outlet-pipe");
        assert!(std::process::Command::new("mkfifo").arg(&path).status().unwrap().success());
        let reader = path.clone();
        let read = thread::spawn(move || fs::read_to_string(reader).unwrap());
        let mut target = Target::file(path.clone(), 10);
        assert_eq!((target.write(b"one two\n"), target.write(b"three\n")), (8, 6));
        drop(target);
        assert_eq!(read.join().unwrap(), "one two\nthree\n");
        let _ = fs::remove_file(&path);
    }
}
