//! The sites' bytes in a file, so that what is held and what is set survive a power loss. The file is replaced as a whole: it has the
//! former site or the new one, never a part. Where every call is stored, the file has two places that are written in turn. A thread of its own writes it.

use crate::image::{edition_of, newest, parts, NAME, SETUP_BYTES};
use crate::memory::Memory;
use crate::slots::Kept;
use crate::system::lock;
use crate::wires::Event;
use rsmp_site::{check_sum, Phase, Start};
use std::fs::{self, File};
use std::io::{self, Write};
use std::path::{Path, PathBuf};
use std::sync::mpsc::SyncSender;
use std::sync::{Arc, Condvar, Mutex, MutexGuard};
use std::thread;
use std::time::{Duration, Instant};

const MOST_ASIDE: u32 = 9;
/// While it is waited for, the watchdog is fed so often.
const FEEDING: Duration = Duration::from_millis(200);

pub struct Stored {
    pub memory: Memory,
    /// No later call was at an earlier time.
    pub time: u64,
}

/// What the sites were started with, one after the other: one that was started with something else is another site.
pub fn setup(sites: &[(Vec<u8>, Start)]) -> Vec<u8> {
    sites.iter().flat_map(|(table, start)| setup_of(table, start)).collect()
}

fn setup_of(table: &[u8], start: &Start) -> [u8; SETUP_BYTES] {
    let mut bytes = [0; SETUP_BYTES];
    bytes[..4].copy_from_slice(&start.links.to_le_bytes());
    bytes[4..8].copy_from_slice(&start.primary.unwrap_or(u32::MAX).to_le_bytes());
    bytes[8..12].copy_from_slice(&start.period.to_le_bytes());
    bytes[12..].copy_from_slice(&check_sum(table).to_le_bytes());
    bytes
}

fn sites_of(setup: &[u8]) -> usize {
    setup.len() / SETUP_BYTES
}

fn written(setup: &[u8], memory: &Memory, time: u64) -> Vec<u8> {
    let mut bytes = NAME.to_vec();
    bytes.extend_from_slice(&edition_of(sites_of(setup)).to_le_bytes());
    bytes.extend_from_slice(setup);
    bytes.extend_from_slice(&time.to_le_bytes());
    bytes.extend_from_slice(&memory.to_stored());
    let sum = check_sum(&bytes);
    bytes.extend_from_slice(&sum.to_le_bytes());
    bytes
}

/// The sites of a file's bytes, or why they are none of ours.
fn read(setup: &[u8], bytes: &[u8]) -> Result<Stored, String> {
    let (sites, begun, stored) = parts(bytes)?;
    let (setup_of_it, time) = begun.split_at(sites * SETUP_BYTES);
    match (sites, sites_of(setup)) {
        (1, 2) => return Err("it is of one site, where two are started".to_string()),
        (2, 1) => return Err("it is of two sites, where one is started".to_string()),
        _ if setup_of_it != setup => return Err("it is of another table, or of other links, primary or period".to_string()),
        _ => {}
    }
    let time = time.iter().rev().fold(0, |time, byte| time << 8 | u64::from(*byte));
    let memory = Memory::from_stored(stored, sites).map_err(|fault| format!("it is {}", fault))?;
    let has_its_links = |(number, setup): (usize, &[u8])| memory.site(number).links().to_le_bytes() == setup[..4];
    if !setup.chunks(SETUP_BYTES).enumerate().all(has_its_links) || !goes_on(memory.clone(), time) {
        return Err("its site does not go on with its links at its time".to_string());
    }
    Ok(Stored { memory, time })
}

/// Whether every link that is not Down can be disconnected, as it is after a restart.
fn goes_on(mut memory: Memory, time: u64) -> bool {
    (0..memory.sites()).all(|number| {
        let mut site = memory.site_mut(number);
        (0..site.links()).all(|link| site.phase(link) == Phase::Down || site.disconnect(link, time).is_ok())
    })
}

pub enum Found {
    Nothing,
    Site(Stored),
    /// Why the file was not taken, and where it is kept.
    Aside(String),
}

/// What a start would make of a file, which stays as it is.
pub enum Look {
    Nothing,
    Site(Stored),
    Not(String),
}

pub fn looked_at(path: &str, setup: &[u8]) -> Look {
    match fs::read(path) {
        Err(error) if error.kind() == io::ErrorKind::NotFound => Look::Nothing,
        Err(error) => Look::Not(error.to_string()),
        Ok(bytes) => read(setup, &newest(bytes)).map_or_else(Look::Not, Look::Site),
    }
}

/// What the writer is given and has done.
#[derive(Default)]
struct Desk {
    /// The newest site that is not written yet, with its number: an older one need not be.
    next: Option<(u64, Vec<u8>)>,
    /// The number of the last that was written or failed, and why.
    tried: u64,
    fault: Option<String>,
}

type Shared = Arc<(Mutex<Desk>, Condvar)>;

fn locked(shared: &Shared) -> MutexGuard<'_, Desk> {
    shared.0.lock().unwrap_or_else(|poisoned| poisoned.into_inner())
}

fn write_all(mut kept: Kept, shared: &Shared, told: Option<SyncSender<Event>>) {
    let mut desk = locked(shared);
    loop {
        desk = match desk.next.take() {
            None => shared.1.wait(desk).unwrap_or_else(|poisoned| poisoned.into_inner()),
            Some((number, bytes)) => {
                drop(desk);
                let written = kept.write(&bytes);
                let mut desk = locked(shared);
                desk.tried = number;
                desk.fault = written.err().map(|error| format!("{}: {}", kept.path.display(), error));
                shared.1.notify_all();
                // One that finds no room finds the site awake.
                let _ = told.as_ref().map(|events| events.try_send(Event::Stored));
                desk
            }
        };
    }
}

pub struct Store {
    interval: Duration,
    setup: Vec<u8>,
    shared: Shared,
    given: u64,
    settled: u64,
    changed: bool,
    /// Since the last write something came from the cabinet, an alarm even.
    input: bool,
    alarm: bool,
    last: Option<Instant>,
    last_input: Option<Instant>,
    _lock: File,
}

impl Store {
    /// What a file has, and the store that will write it. A file that is not taken is kept aside.
    pub fn open(path: &str, interval: Duration, setup: Vec<u8>, events: SyncSender<Event>) -> Result<(Store, Found), String> {
        let path = PathBuf::from(path);
        let lock = alone(&path)?;
        let told = |error: io::Error| format!("{}: {}", path.display(), error);
        let found = match fs::read(&path) {
            Err(error) if error.kind() == io::ErrorKind::NotFound => Found::Nothing,
            Err(error) => return Err(told(error)),
            Ok(bytes) => match read(&setup, &newest(bytes)) {
                Ok(stored) => Found::Site(stored),
                Err(why) => {
                    let aside = put_aside(&path).map_err(told)?;
                    let kept = format!("{}: {}; kept as {}", path.display(), why, aside.display());
                    Found::Aside(kept)
                }
            },
        };
        let shared = Shared::default();
        let (of_writer, told) = (shared.clone(), Some(events).filter(|_| !interval.is_zero()));
        let kept = Kept::new(path, interval.is_zero());
        thread::Builder::new().spawn(move || write_all(kept, &of_writer, told)).map_err(|error| error.to_string())?;
        let store = Store {
            interval,
            setup,
            shared,
            given: 0,
            settled: 0,
            changed: true,
            input: false,
            alarm: false,
            last: None,
            last_input: None,
            _lock: lock,
        };
        Ok((store, found))
    }

    /// Whether every call is to be stored before its bytes go out.
    pub fn at_once(&self) -> bool {
        self.interval.is_zero()
    }

    pub fn has_changed(&mut self) {
        self.changed = true;
    }

    /// By something that came from the cabinet.
    pub fn has_new_input(&mut self) {
        (self.changed, self.input) = (true, true);
    }

    /// By an alarm of the cabinet, which waits for no interval.
    pub fn has_new_alarm(&mut self) {
        self.has_new_input();
        self.alarm = true;
    }

    pub fn changed(&self) -> bool {
        self.changed
    }

    /// Whether a write is due. What comes from the cabinet does not wait for the interval that a supervisor's doings began.
    pub fn due(&self) -> bool {
        let rested = |last: Option<Instant>| last.map_or(true, |last| last.elapsed() >= self.interval);
        self.alarm || self.changed && rested(self.last) || self.input && rested(self.last_input)
    }

    /// Hands the sites to the writer and gives their number. The start's own write begins no interval.
    pub fn give(&mut self, memory: &Memory, time: u64) -> u64 {
        if self.given > 0 {
            self.last = Some(Instant::now());
            self.last_input = self.last.filter(|_| self.input).or(self.last_input);
        }
        self.given += 1;
        (self.changed, self.input, self.alarm) = (false, false, false);
        locked(&self.shared).next = Some((self.given, written(&self.setup, memory, time)));
        self.shared.1.notify_all();
        self.given
    }

    /// What came of the last write, where that was not asked yet. What was not written is to be written again, an interval later.
    pub fn outcome(&mut self) -> Option<Result<(), String>> {
        let desk = locked(&self.shared);
        if desk.tried == self.settled {
            return None;
        }
        self.settled = desk.tried;
        let written = desk.fault.clone().map_or(Ok(()), Err);
        drop(desk);
        if written.is_err() {
            self.changed = true;
            self.last = Some(Instant::now());
        }
        Some(written)
    }

    /// The number up to which it is known what came of them.
    pub fn settled(&self) -> u64 {
        self.settled
    }

    /// Waits until all that was given is written or has failed.
    pub fn wait(&self, mut alive: impl FnMut()) {
        let mut desk = locked(&self.shared);
        while desk.tried < self.given {
            desk = match self.shared.1.wait_timeout(desk, FEEDING) {
                Ok((desk, _)) => desk,
                Err(poisoned) => poisoned.into_inner().0,
            };
            alive();
        }
    }
}

/// Two programs on one state would each undo what the other stored. Where the file system has no locks, none is asked for.
fn alone(path: &Path) -> Result<File, String> {
    let name = beside(path, ".lock");
    let told = |error: io::Error| format!("{}: {}", name.display(), error);
    let file = File::create(&name).map_err(told)?;
    match lock(&file) {
        Err(error) if error.kind() == io::ErrorKind::WouldBlock => {
            Err(format!("{}: another program keeps its state there", path.display()))
        }
        _ => Ok(file),
    }
}

fn beside(path: &Path, ending: &str) -> PathBuf {
    let mut name = path.as_os_str().to_os_string();
    name.push(ending);
    PathBuf::from(name)
}

/// A new file, synced, takes the old one's name; then the folder is synced.
pub fn replace(path: &Path, bytes: &[u8]) -> io::Result<()> {
    let new = beside(path, ".new");
    let mut file = File::create(&new)?;
    file.write_all(bytes)?;
    file.sync_all()?;
    fs::rename(&new, path)?;
    let folder = path.parent().filter(|folder| !folder.as_os_str().is_empty());
    File::open(folder.unwrap_or_else(|| Path::new(".")))?.sync_all()
}

fn put_aside(path: &Path) -> io::Result<PathBuf> {
    let names = (1..=MOST_ASIDE).map(|number| beside(path, &format!(".aside{}", number)));
    let (mut free, mut last) = (None, path.to_path_buf());
    for name in names {
        if free.is_none() && !name.exists() {
            free = Some(name.clone());
        }
        last = name;
    }
    let aside = free.unwrap_or(last);
    fs::rename(path, &aside)?;
    Ok(aside)
}

#[cfg(test)]
mod tests {
    use super::*;
    use rsmp_site::Site;

    const TABLE: &[u8] = include_bytes!("../../examples/barrier.bits");
    const OTHER: &[u8] = include_bytes!("../../examples/commands.bits");
    const START: Start = Start { links: 2, primary: Some(0), period: 60, first: 0, time: 1_254_398_371_571 };

    fn setup_with(table: &[u8], start: Start) -> Vec<u8> {
        setup(&[(table.to_vec(), start)])
    }

    fn one(site: Site) -> Memory {
        Memory::One(Box::new(site))
    }

    fn site() -> Site {
        let mut site = Site::start(TABLE, &START).unwrap();
        site.alarm(2, true, START.time + 1).unwrap();
        site
    }

    const SOUTH: Start = Start { links: 1, period: 9, ..START };

    /// Two sites, and what they were started with.
    fn two() -> (Vec<u8>, Memory) {
        let mut memory = Memory::of(2);
        for (number, (table, start)) in [(TABLE, START), (OTHER, SOUTH)].into_iter().enumerate() {
            memory.site_mut(number).begin(table, &start).unwrap();
            memory.site_mut(number).alarm(2, true, START.time + 1).unwrap();
        }
        memory.site_mut(1).connect(0, START.time + 9).unwrap();
        (setup(&[(TABLE.to_vec(), START), (OTHER.to_vec(), SOUTH)]), memory)
    }

    #[test]
    fn bytes_and_back() {
        let (setup, memory) = (setup_with(TABLE, START), one(site()));
        let bytes = written(&setup, &memory, START.time + 77);
        let stored = read(&setup, &bytes).unwrap_or_else(|why| panic!("{}", why));
        assert_eq!(stored.time, START.time + 77);
        assert!(stored.memory == memory);
        assert_eq!((stored.memory.site(0).links(), stored.memory.site(0).held(0)), (2, 1));
    }

    #[test]
    fn two_sites() {
        let (both, memory) = two();
        let good = written(&both, &memory, START.time + 9);
        let stored = read(&both, &good).unwrap_or_else(|why| panic!("{}", why));
        assert!(stored.memory == memory);
        assert_eq!([0, 1].map(|number| (memory.site(number).links(), memory.site(number).held(0))), [(2, 1), (1, 1)]);
        let why = |setup: &[u8], bytes: &[u8]| read(setup, bytes).err().unwrap_or_default();
        let alone = setup_with(TABLE, START);
        assert!(why(&alone, &good).contains("of two sites, where one is started"));
        assert!(why(&both, &written(&alone, &one(site()), START.time)).contains("of one site, where two are started"));
        let swapped = setup(&[(OTHER.to_vec(), SOUTH), (TABLE.to_vec(), START)]);
        assert!(why(&swapped, &good).contains("another table"));
        assert!(why(&both, &written(&both, &memory, START.time + 8)).contains("does not go on"));
        for at in (0..good.len()).step_by(97) {
            let mut bytes = good.clone();
            bytes[at] ^= 1;
            assert!(!why(&both, &bytes).is_empty(), "byte {}", at);
        }
    }

    #[test]
    fn other_bytes_are_refused() {
        let (setup_, memory) = (setup_with(TABLE, START), one(site()));
        let good = written(&setup_, &memory, 77);
        let why = |bytes: &[u8]| read(&setup_, bytes).err().unwrap_or_default();
        for at in (0..good.len()).step_by(97).chain([0, 8, 12, 32, 40, good.len() - 1]) {
            let mut bytes = good.clone();
            bytes[at] ^= 1;
            assert!(!why(&bytes).is_empty(), "byte {}", at);
        }
        assert!(why(&good[..good.len() - 1]).contains("check sum"));
        assert!(why(&good[..9]).contains("no state"));
        assert!(why(b"").contains("no state"));
        let mut older = good.clone();
        older[8] = 0;
        assert!(why(&older).contains("edition 0"));
        let mut table = TABLE.to_vec();
        table[9] ^= 1;
        for other in [
            setup_with(&table, START),
            setup_with(TABLE, Start { links: 3, ..START }),
            setup_with(TABLE, Start { primary: None, ..START }),
            setup_with(TABLE, Start { period: 61, ..START }),
        ] {
            assert!(read(&other, &good).err().unwrap().contains("another table"));
        }
        let first = Start { first: 9, time: 0, ..START };
        assert!(read(&setup_with(TABLE, first), &good).is_ok());
    }

    const DOES_NOT_GO_ON: Option<&str> = Some("its site does not go on with its links at its time");

    #[test]
    fn a_site_of_a_later_time_is_refused() {
        let (setup, mut site) = (setup_with(TABLE, START), site());
        site.connect(1, START.time + 9).unwrap();
        let memory = one(site);
        let why = |time: u64| read(&setup, &written(&setup, &memory, time)).err();
        assert_eq!(why(START.time + 9), None);
        assert_eq!(why(START.time + 8).as_deref(), DOES_NOT_GO_ON);
        assert_eq!(why(u64::MAX).as_deref(), DOES_NOT_GO_ON);
    }

    #[test]
    fn a_site_of_other_links_is_refused() {
        let setup = setup_with(TABLE, START);
        let why = |site: Site| read(&setup, &written(&setup, &one(site), START.time)).err();
        let other = Site::start(TABLE, &Start { links: 3, ..START }).unwrap();
        assert_eq!((why(other).as_deref(), why(Site::NONE).as_deref()), (DOES_NOT_GO_ON, DOES_NOT_GO_ON));
    }
}
