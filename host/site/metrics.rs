//! How the site stands in a file for Prometheus (node_exporter's textfile folder): written whole under another name that does not end in .prom,
//! then renamed, by a thread of its own, so that a slow disk stalls nothing.

use crate::wires::Event;
use std::fs::{self, File, Permissions};
use std::io::{self, Write};
use std::os::unix::fs::PermissionsExt;
use std::path::{Path, PathBuf};
use std::sync::mpsc::{sync_channel, Receiver, SyncSender};
use std::thread;
use std::time::{Duration, Instant};

const EVERY: Duration = Duration::from_secs(15);
/// The last write gets so long.
const LAST: Duration = Duration::from_secs(2);

pub struct Metrics {
    pages: SyncSender<String>,
    next: Instant,
    ended: Receiver<()>,
}

impl Metrics {
    pub fn begin(path: &str, events: SyncSender<Event>) -> Metrics {
        let (pages, to_write) = sync_channel(1);
        let (ending, ended) = sync_channel(0);
        let path = PathBuf::from(path);
        thread::spawn(move || {
            write_all(&path, to_write, events);
            drop(ending);
        });
        Metrics { pages, next: Instant::now(), ended }
    }

    /// A page that finds the writer busy is dropped: the next one tells more.
    pub fn write_where_due(&mut self, page: impl FnOnce() -> String) {
        if Instant::now() >= self.next {
            self.next = Instant::now() + EVERY;
            let _ = self.pages.try_send(page());
        }
    }

    /// Takes the file away, so that nobody reads of a site that does not run.
    pub fn end(self) {
        drop(self.pages);
        let _ = self.ended.recv_timeout(LAST);
    }
}

fn write_all(path: &Path, pages: Receiver<String>, events: SyncSender<Event>) {
    let mut failed = false;
    for page in pages {
        // Said once; what finds no room is said the next time.
        failed = match replace(path, &page) {
            Ok(()) => false,
            Err(error) => failed || events.try_send(Event::Trouble(format!("{}: {}", path.display(), error))).is_ok(),
        };
    }
    let _ = fs::remove_file(path);
}

/// Everybody may read it: what reads it runs under another user.
fn replace(path: &Path, page: &str) -> io::Result<()> {
    let mut name = path.as_os_str().to_os_string();
    name.push(".new");
    let mut file = File::create(&name)?;
    file.write_all(page.as_bytes())?;
    file.set_permissions(Permissions::from_mode(0o644))?;
    fs::rename(name, path)
}

#[cfg(test)]
mod tests {
    use super::*;

    #[test]
    fn trouble_that_finds_no_room_is_told_later_and_once() {
        let (events, heard) = sync_channel(1);
        let (pages, to_write) = sync_channel(0);
        events.send(Event::Stored).unwrap();
        let writer = thread::spawn(move || write_all(Path::new("/nowhere/at/all.prom"), to_write, events));
        pages.send("one".to_string()).unwrap();
        pages.send("two".to_string()).unwrap(); // the first is done with
        assert!(matches!(heard.recv(), Ok(Event::Stored)));
        for _ in 0..3 {
            pages.send("more".to_string()).unwrap();
        }
        drop(pages);
        let told: Vec<Event> = heard.iter().collect();
        writer.join().unwrap();
        assert!(matches!(&told[..], [Event::Trouble(text)] if text.contains("/nowhere/at/all.prom")));
    }
}
