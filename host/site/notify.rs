//! Telling systemd that the site is ready, alive, or ends: datagrams to the socket of NOTIFY_SOCKET, where there is one.

use crate::system::send_datagram;
use std::os::unix::ffi::OsStringExt;
use std::os::unix::net::UnixDatagram;
use std::time::{Duration, Instant};

#[derive(Default)]
pub struct Notifier {
    to: Option<(UnixDatagram, Vec<u8>)>,
    every: Option<Duration>,
    last: Option<Instant>,
    ends: bool,
}

impl Notifier {
    pub fn of_environment() -> Notifier {
        let path = std::env::var_os("NOTIFY_SOCKET").map(OsStringExt::into_vec);
        let to = path.and_then(|path| Some((UnixDatagram::unbound().ok()?, path)));
        if let Some((socket, _)) = &to {
            let _ = socket.set_nonblocking(true);
        }
        let number = |name: &str| std::env::var(name).ok()?.parse::<u64>().ok();
        let ours = number("WATCHDOG_PID").map_or(true, |pid| pid == u64::from(std::process::id()));
        let limit = number("WATCHDOG_USEC").filter(|_| ours);
        Notifier { to, every: limit.map(|limit| Duration::from_micros(limit) / 3), last: None, ends: false }
    }

    pub fn tell(&self, text: &str) {
        if let Some((socket, path)) = &self.to {
            let _ = send_datagram(socket, path, text.as_bytes());
        }
    }

    /// Says once that the site ends, which may take longer than its manager would wait.
    pub fn ends_within(&mut self, limit: Duration) {
        if !std::mem::replace(&mut self.ends, true) {
            self.tell(&format!("STOPPING=1\nEXTEND_TIMEOUT_USEC={}", limit.as_micros()));
        }
    }

    /// Says in time that the site is alive.
    pub fn alive(&mut self) {
        if let Some(every) = self.every {
            if self.last.map_or(true, |last| last.elapsed() >= every) {
                self.last = Some(Instant::now());
                self.tell("WATCHDOG=1");
            }
        }
    }
}
