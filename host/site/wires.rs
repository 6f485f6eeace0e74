//! The connections: for each supervisor a thread that connects, reads and connects again, and for each connection one that writes.

use crate::control::Asked;
use crate::framing::{Frame, Framer};
use crate::pace::Pace;
use crate::pauses::Pauses;
use crate::system::end_when_dead;
use rsmp_site::PACKET_BYTES;
use std::io::{self, Read, Write};
use std::net::{Shutdown, TcpStream, ToSocketAddrs};
use std::sync::atomic::{AtomicBool, AtomicUsize, Ordering};
use std::sync::mpsc::{channel, Receiver, Sender, SyncSender};
use std::sync::{Arc, Mutex};
use std::thread;
use std::time::{Duration, Instant};

const CONNECT_WAIT: Duration = Duration::from_secs(5);
const WRITE_WAIT: Duration = Duration::from_secs(10);
const SILENCE: Duration = Duration::from_secs(30);
const NOT_TAKEN: Duration = Duration::from_secs(60);
/// A closing connection gets so long for what still waits.
const CLOSING: Duration = Duration::from_secs(10);
/// A supervisor that does not read what it is sent is cut off when so many bytes wait for it.
const MOST_WAITING: usize = 1 << 20;
const CLOSED: &str = "the supervisor closed it";
pub const NOT_READ: &str = "the supervisor does not read what it is sent";

pub enum Event {
    Connected(u32, Wire),
    Failed(u32, io::Error),
    Frame(u32, Frame),
    /// The connection is gone, with so many bytes behind the last form feed.
    Gone(u32, String, u64),
    /// More packets come than are read in a second.
    HeldBack(u32),
    /// The state was written, or could not be.
    Stored,
    Control(Asked),
    /// What a thread cannot do, for the log.
    Trouble(String),
}

/// What the threads of a connection tell each other.
#[derive(Default)]
struct Shared {
    waiting: AtomicUsize,
    was_up: AtomicBool,
    /// Why writing ended, where it failed.
    not_written: Mutex<Option<String>>,
}

impl Shared {
    fn why_not_written(&self) -> Option<String> {
        self.not_written.lock().ok()?.clone()
    }
}

/// The sending end of a connection.
pub struct Wire {
    queue: Sender<Vec<u8>>,
    shared: Arc<Shared>,
    stream: TcpStream,
    writer: thread::JoinHandle<()>,
}

/// A connection that is closed when what waits is written.
pub struct Closing {
    writer: thread::JoinHandle<()>,
    stream: TcpStream,
    until: Instant,
}

impl Closing {
    /// Whether it is closed; one that takes too long is cut.
    pub fn done(&self) -> bool {
        if Instant::now() >= self.until {
            let _ = self.stream.shutdown(Shutdown::Both);
        }
        self.writer.is_finished()
    }
}

fn write_out(orders: Receiver<Vec<u8>>, mut out: TcpStream, shared: &Shared) {
    for bytes in orders {
        if let Err(error) = out.write_all(&bytes) {
            let why = match error.kind() {
                io::ErrorKind::WouldBlock => NOT_READ.to_string(),
                io::ErrorKind::BrokenPipe | io::ErrorKind::ConnectionReset => CLOSED.to_string(),
                _ => error.to_string(),
            };
            if let Ok(mut not_written) = shared.not_written.lock() {
                *not_written = Some(why);
            }
            break;
        }
        shared.waiting.fetch_sub(bytes.len(), Ordering::Relaxed);
    }
    let _ = out.shutdown(Shutdown::Both);
}

impl Wire {
    fn new(stream: &TcpStream) -> io::Result<Wire> {
        let (queue, orders) = channel::<Vec<u8>>();
        let shared = Arc::new(Shared::default());
        let (of_writer, out) = (shared.clone(), stream.try_clone()?);
        let stream = stream.try_clone()?;
        let writer = thread::Builder::new().spawn(move || write_out(orders, out, &of_writer))?;
        Ok(Wire { queue, shared, stream, writer })
    }

    /// False where the supervisor does not read. Where the connection is gone, that is told apart.
    pub fn send(&self, bytes: &[u8]) -> bool {
        let before = self.shared.waiting.fetch_add(bytes.len(), Ordering::Relaxed);
        let room = before + bytes.len() <= MOST_WAITING;
        if room {
            let _ = self.queue.send(bytes.to_vec());
        }
        room
    }

    /// The link came to Up: the next pause is the shortest again.
    pub fn is_up(&self) {
        self.shared.was_up.store(true, Ordering::Relaxed);
    }

    /// Closes the connection after what waits is written.
    pub fn close(self) -> Closing {
        let until = Instant::now() + CLOSING;
        Closing { writer: self.writer, stream: self.stream, until }
    }

    pub fn cut(self) {
        let _ = self.stream.shutdown(Shutdown::Both);
    }
}

/// Keeps a link's connection: the thread never ends.
pub fn keep(link: u32, address: String, mut pauses: Pauses, mut pace: Pace, events: SyncSender<Event>) {
    thread::spawn(move || loop {
        let event = match connect(&address) {
            Ok((stream, wire)) => {
                let shared = wire.shared.clone();
                if events.send(Event::Connected(link, wire)).is_err() {
                    return;
                }
                let (why, unfinished) = read(link, stream, &mut pace, &events);
                if shared.was_up.load(Ordering::Relaxed) {
                    pauses.begin_again();
                }
                let why = shared.why_not_written().unwrap_or(why);
                Event::Gone(link, why, unfinished)
            }
            Err(error) => Event::Failed(link, error),
        };
        if events.send(event).is_err() {
            return;
        }
        thread::sleep(pauses.take());
    });
}

fn connect(address: &str) -> io::Result<(TcpStream, Wire)> {
    let mut last = io::Error::new(io::ErrorKind::NotFound, "the name has no address");
    for address in address.to_socket_addrs()? {
        match TcpStream::connect_timeout(&address, CONNECT_WAIT) {
            Ok(stream) => {
                stream.set_nodelay(true)?;
                stream.set_write_timeout(Some(WRITE_WAIT))?;
                // Where the system cannot do it, the site's own 30 seconds are left.
                let _ = end_when_dead(&stream, SILENCE, NOT_TAKEN);
                let wire = Wire::new(&stream)?;
                return Ok((stream, wire));
            }
            Err(error) => last = error,
        }
    }
    Err(last)
}

/// Bytes without a packet, as many as one has, take a packet's time.
fn read(link: u32, mut stream: TcpStream, pace: &mut Pace, events: &SyncSender<Event>) -> (String, u64) {
    let mut framer = Framer::default();
    let mut buffer = [0; PACKET_BYTES];
    let mut without = 0;
    let mut wait = || {
        if pace.wait() {
            let _ = events.send(Event::HeldBack(link));
        }
    };
    loop {
        match stream.read(&mut buffer) {
            Ok(0) => return (CLOSED.to_string(), framer.unfinished()),
            Ok(count) => {
                without += count;
                framer.push(&buffer[..count], |frame| {
                    without = 0;
                    wait();
                    let _ = events.send(Event::Frame(link, frame));
                });
                if without >= PACKET_BYTES {
                    without = 0;
                    wait();
                }
            }
            Err(error) if error.kind() == io::ErrorKind::Interrupted => {}
            Err(error) if error.kind() == io::ErrorKind::ConnectionReset => {
                return (format!("{}: {}", CLOSED, error), framer.unfinished());
            }
            Err(error) => return (error.to_string(), framer.unfinished()),
        }
    }
}
