//! Where orders come from: standard input or a Unix socket. Each is answered with a line.

use crate::access::Access;
use crate::outlet::Outlet;
use crate::system::with_private_files;
use crate::wires::Event;
use std::fs;
use std::io::{self, BufRead, BufReader, Write};
use std::os::unix::fs::{FileTypeExt, MetadataExt};
use std::os::unix::net::{UnixListener, UnixStream};
use std::sync::atomic::{AtomicUsize, Ordering};
use std::sync::mpsc::{channel, Receiver, Sender, SyncSender};
use std::sync::Arc;
use std::thread;
use std::time::Duration;

/// A longer line is no order, and is not kept.
const LONGEST_LINE: usize = 1024;
/// So many are served at once.
const MOST_STREAMS: usize = 16;
/// One that does not read its replies is left.
const REPLY_WAIT: Duration = Duration::from_secs(10);
const AFTER_NO_ACCEPT: Duration = Duration::from_millis(500);

/// An order and where its reply goes.
pub struct Asked {
    pub line: String,
    pub reply: Reply,
}

/// The reply's second part is dropped when the reply is written.
pub struct Reply(Sender<(String, Sender<()>)>);

impl Reply {
    /// What is given ends when the reply is written.
    pub fn say(self, text: &str) -> Receiver<()> {
        let (gone, written) = channel();
        let _ = self.0.send((text.to_string(), gone));
        written
    }
}

/// Orders from standard input, their replies on standard output. Its end is no order.
pub fn from_standard_input(replies: Outlet, events: SyncSender<Event>) {
    thread::spawn(move || {
        serve(io::stdin().lock(), &events, |text| {
            replies.line(text);
            true
        })
    });
}

/// The Unix socket, which is taken away again at the end.
pub struct Socket {
    path: String,
    inode: u64,
}

/// Takes a path for a socket of our own; what stands there must be a socket that nobody serves.
pub fn listen(path: &str, access: &Access) -> Result<(UnixListener, Socket), String> {
    let told = |error: io::Error| format!("{}: {}", path, error);
    if let Ok(found) = fs::symlink_metadata(path) {
        if !found.file_type().is_socket() {
            return Err(format!("{}: is there already and is no socket", path));
        }
        match UnixStream::connect(path) {
            Err(error) if error.kind() == io::ErrorKind::ConnectionRefused => fs::remove_file(path).map_err(told)?,
            Err(error) => return Err(told(error)),
            Ok(_) => return Err(format!("{}: another program takes orders there", path)),
        }
    }
    let listener = with_private_files(|| UnixListener::bind(path)).map_err(told)?;
    let inode = fs::symlink_metadata(path).map_err(told)?.ino();
    access.give(path)?;
    let path = path.to_string();
    Ok((listener, Socket { path, inode }))
}

impl Socket {
    pub fn remove(self) {
        if fs::symlink_metadata(&self.path).map_or(false, |found| found.ino() == self.inode) {
            let _ = fs::remove_file(&self.path);
        }
    }
}

pub fn from_socket(listener: UnixListener, events: SyncSender<Event>) {
    let served = Arc::new(AtomicUsize::new(0));
    let mut told = false;
    thread::spawn(move || loop {
        match listener.accept() {
            Ok((stream, _)) => {
                told = false;
                serve_aside(stream, &events, &served);
            }
            // The limit of open files, mostly: it does not go away by trying at once.
            Err(error) => {
                if !std::mem::replace(&mut told, true) {
                    let text = format!("no order can be taken: {}", error);
                    let _ = events.send(Event::Trouble(text));
                }
                thread::sleep(AFTER_NO_ACCEPT);
            }
        }
    });
}

fn serve_aside(mut stream: UnixStream, events: &SyncSender<Event>, served: &Arc<AtomicUsize>) {
    let _ = stream.set_write_timeout(Some(REPLY_WAIT));
    if served.fetch_add(1, Ordering::Relaxed) >= MOST_STREAMS {
        let _ = writeln!(stream, "refused: too many connections, try again later");
        served.fetch_sub(1, Ordering::Relaxed);
        return;
    }
    let (events, counted) = (events.clone(), served.clone());
    let thread = thread::Builder::new().spawn(move || {
        serve(BufReader::new(&stream), &events, |text| writeln!(&stream, "{}", text).is_ok());
        counted.fetch_sub(1, Ordering::Relaxed);
    });
    if thread.is_err() {
        served.fetch_sub(1, Ordering::Relaxed);
    }
}

fn serve(mut input: impl BufRead, events: &SyncSender<Event>, mut out: impl FnMut(&str) -> bool) {
    while let Ok(Some(line)) = next_line(&mut input) {
        let line = match line {
            Line::Whole(bytes) => String::from_utf8_lossy(&bytes).into_owned(),
            Line::TooLong => {
                if !out("refused: an order has at most 1024 bytes") {
                    return;
                }
                continue;
            }
        };
        if line.trim().is_empty() {
            continue;
        }
        let (reply, replies) = channel();
        if events.send(Event::Control(Asked { line, reply: Reply(reply) })).is_err() {
            return;
        }
        match replies.recv() {
            Ok((text, _written)) if out(&text) => {}
            _ => return,
        }
    }
}

#[derive(Debug, PartialEq, Eq)]
enum Line {
    Whole(Vec<u8>),
    TooLong,
}

/// The next line, without its end; None where there is none.
fn next_line(input: &mut impl BufRead) -> io::Result<Option<Line>> {
    let (mut line, mut length) = (Vec::new(), 0);
    loop {
        let bytes = match input.fill_buf() {
            Err(error) if error.kind() == io::ErrorKind::Interrupted => continue,
            read => read?,
        };
        let end = bytes.iter().position(|byte| *byte == b'\n');
        let part = &bytes[..end.unwrap_or(bytes.len())];
        length += part.len();
        if length <= LONGEST_LINE {
            line.extend_from_slice(part);
        }
        let (used, last) = match end {
            Some(end) => (end + 1, true),
            None => (bytes.len(), bytes.is_empty()),
        };
        input.consume(used);
        if last && used == 0 && length == 0 {
            return Ok(None);
        }
        if last && length > LONGEST_LINE {
            return Ok(Some(Line::TooLong));
        }
        if last {
            return Ok(Some(Line::Whole(line)));
        }
    }
}

#[cfg(test)]
mod tests {
    use super::*;

    #[test]
    fn lines() {
        let longest = "x".repeat(LONGEST_LINE);
        let text = format!("one\n\n{}\n{}y\nlast", longest, longest);
        let mut input = BufReader::with_capacity(7, text.as_bytes());
        let mut next = || next_line(&mut input).unwrap();
        assert_eq!(next(), Some(Line::Whole(b"one".to_vec())));
        assert_eq!(next(), Some(Line::Whole(Vec::new())));
        assert_eq!(next(), Some(Line::Whole(longest.clone().into_bytes())));
        assert_eq!(next(), Some(Line::TooLong));
        assert_eq!(next(), Some(Line::Whole(b"last".to_vec())));
        assert_eq!(next(), None);
    }
}
