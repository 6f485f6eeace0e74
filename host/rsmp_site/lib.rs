//! The site end of RSMP 3.2, over the proved library: its calls without `unsafe`, each refusal a typed error.
//!
//! A [`Site`] stands alone, or shares a [`Cabinet`] and its pool of records with another. A call changes its site in place; one that is refused
//! changes nothing. Links, alarms and statuses are numbered from 0; times are
//! milliseconds since 1970 UTC and never go back from one call to the next. What the host brings is said in docs/EMBEDDING.md.

#![no_std]

#[cfg(feature = "std")]
extern crate std;

mod cabinet;
mod commands;
pub mod ffi;
mod inside;
mod lent;
mod refusal;
mod stored;

pub use cabinet::Cabinet;
pub use commands::{Command, Commands};
use core::fmt;
use ffi::{Block, COMMAND_WORDS, POOL_WORDS, TABLE_BYTES, WORDS};
pub use ffi::{BOX_BYTES, SITES, SITE_BYTES};
pub use inside::{AlarmState, Subscription};
pub use lent::{Lent, LentMut, Parts, PartsMut, SiteMut, SiteRef};
pub use refusal::Refusal;
pub use stored::{check_sum, NotStored, BOX_STORED_BYTES, SITE_EDITION, STORED_BYTES};

/// The version of this crate, which is that of the library, of the header and of the programs.
pub const VERSION: &str = env!("RSMP_VERSION");
/// The least output to lend; no call writes more.
pub const OUTPUT_BYTES: usize = 4096;
/// The longest packet that is read.
pub const PACKET_BYTES: usize = 4096;
/// The most links a site has.
pub const LINKS: u32 = 4;
/// The most commands that a packet hands over.
pub const COMMANDS: usize = COMMAND_WORDS;
/// 9999-12-31T23:59:59.999Z
pub const LAST_TIME: u64 = 253_402_300_799_999;
/// The word of a site that has its count of links, and the lowest of its sixteen bits there.
const LINK_COUNT: (usize, u32) = (2, 16);

/// A site: 15,594 plain bytes, no heap, no global state. Keep it where you like: in a static, in a box, on a stack. A site of a cabinet lies there,
/// and is the same otherwise.
#[derive(Clone, PartialEq, Eq)]
pub struct Site<M = Block> {
    lent: M,
}

/// What a site starts with beside its table.
#[derive(Clone, Copy, Debug)]
pub struct Start {
    /// 1 to 4.
    pub links: u32,
    pub primary: Option<u32>,
    /// The watchdog's period in seconds, 1 to 3600.
    pub period: u32,
    /// The first sequence number, 0 to 2147483647.
    pub first: u64,
    pub time: u64,
}

/// What a call did.
#[derive(Clone, Copy, Debug, Default, PartialEq, Eq)]
pub struct Report {
    /// How many bytes were written to the start of the output.
    pub written: usize,
    /// The links that are Down now, whose connections are to be closed.
    pub closed: Links,
    /// The primary's clock.
    pub hint: Option<u64>,
    /// What a packet commands: to be carried out in this order, one after the other. Nobody else has them from here on.
    pub commands: Commands,
}

/// A set of links.
#[derive(Clone, Copy, Debug, Default, PartialEq, Eq)]
pub struct Links(u32);

impl Links {
    pub fn contains(self, link: u32) -> bool {
        link < LINKS && self.0 >> link & 1 == 1
    }

    pub fn is_empty(self) -> bool {
        self.0 == 0
    }

    pub fn iter(self) -> impl Iterator<Item = u32> {
        (0..LINKS).filter(move |link| self.contains(*link))
    }

    /// Link 0 is bit 0.
    pub fn mask(self) -> u32 {
        self.0
    }
}

#[derive(Clone, Copy, Debug, PartialEq, Eq)]
pub enum Phase {
    Down,
    Greeting,
    Beating,
    Up,
}

pub type Called = Result<Report, Refusal>;

impl Site {
    /// A site without links: what a place for a site holds before `begin` makes one there.
    pub const NONE: Site = Site { lent: Block { pool: [0; POOL_WORDS], words: [0; WORDS], table: [0; TABLE_BYTES] } };

    /// A new site of a table's bits.
    pub fn start(table: &[u8], start: &Start) -> Result<Site, Refusal> {
        let mut site = Site::NONE;
        site.begin(table, start).map(|_| site)
    }

    /// It, to be read where it lies, as a site of a cabinet is.
    pub fn lent(&self) -> SiteRef<'_> {
        Site { lent: self.lent.parts() }
    }

    /// It, to be called where it lies.
    pub fn lent_mut(&mut self) -> SiteMut<'_> {
        Site { lent: self.lent.parts_mut() }
    }
}

/// The calls.
impl<M: LentMut> Site<M> {
    /// A new site of a table's bits, in the place of this one. In a cabinet the other site stays as it is.
    pub fn begin(&mut self, table: &[u8], start: &Start) -> Called {
        let primary = match start.primary {
            None => ffi::NO_PRIMARY,
            Some(ffi::NO_PRIMARY) => return Err(Refusal::NotAccepted),
            Some(link) => link,
        };
        let Start { links, period, first, time, .. } = *start;
        let PartsMut { pool, words, table: kept, number: site } = self.lent.parts_mut();
        // SAFETY: all four are lent for their lengths, lie apart, and nothing of them is kept.
        called(unsafe {
            let (pool, words, kept) = (pool.as_mut_ptr(), words.as_mut_ptr(), kept.as_mut_ptr());
            let (bits, length) = (table.as_ptr(), table.len());
            ffi::rsmp_lent_start(pool, POOL_WORDS, words, WORDS, kept, TABLE_BYTES, bits, length, site, links, primary, period, first, time)
        })
    }

    pub fn connect(&mut self, link: u32, time: u64) -> Called {
        let PartsMut { pool, words, .. } = self.lent.parts_mut();
        // SAFETY: pool and words are lent for their lengths, and every content and value is allowed.
        called(unsafe { ffi::rsmp_lent_connect(pool.as_mut_ptr(), POOL_WORDS, words.as_mut_ptr(), WORDS, link, time) })
    }

    pub fn disconnect(&mut self, link: u32, time: u64) -> Called {
        let PartsMut { pool, words, .. } = self.lent.parts_mut();
        // SAFETY: pool and words are lent for their lengths, and every content and value is allowed.
        called(unsafe { ffi::rsmp_lent_disconnect(pool.as_mut_ptr(), POOL_WORDS, words.as_mut_ptr(), WORDS, link, time) })
    }

    /// A packet that came, without form feeds; the answer is written to `output`, and what it commands is in the report.
    pub fn packet(&mut self, link: u32, time: u64, random: [u8; 16], packet: &[u8], output: &mut [u8]) -> Called {
        let PartsMut { pool, words, table, .. } = self.lent.parts_mut();
        let (random, room) = (ffi::Id { bytes: random }, output.len());
        let (given, length) = (packet.as_ptr(), packet.len());
        let mut handed = [0; COMMAND_WORDS];
        // SAFETY: all six are lent for their lengths; those that are changed are borrowed alone, so they overlap nothing.
        let outcome = unsafe {
            let (pool, words, table) = (pool.as_mut_ptr(), words.as_mut_ptr(), table.as_ptr());
            let (handed, output) = (handed.as_mut_ptr(), output.as_mut_ptr());
            ffi::rsmp_lent_packet(
                pool,
                POOL_WORDS,
                words,
                WORDS,
                table,
                TABLE_BYTES,
                link,
                time,
                random,
                given,
                length,
                handed,
                COMMAND_WORDS,
                output,
                room,
            )
        };
        let commands = Commands::of_words(&handed, outcome.commands as usize);
        called(outcome).map(|report| Report { commands, ..report })
    }

    pub fn alarm(&mut self, number: u32, active: bool, time: u64) -> Called {
        let PartsMut { pool, words, table, .. } = self.lent.parts_mut();
        // SAFETY: pool, words and table are lent for their lengths, and every content and value is allowed.
        called(unsafe {
            let (pool, words, table) = (pool.as_mut_ptr(), words.as_mut_ptr(), table.as_ptr());
            ffi::rsmp_lent_alarm(pool, POOL_WORDS, words, WORDS, table, TABLE_BYTES, number, u32::from(active), time)
        })
    }

    pub fn status(&mut self, number: u32, value: i32, time: u64) -> Called {
        let PartsMut { pool, words, table, .. } = self.lent.parts_mut();
        // SAFETY: pool, words and table are lent for their lengths, and every content and value is allowed.
        called(unsafe {
            let (pool, words, table) = (pool.as_mut_ptr(), words.as_mut_ptr(), table.as_ptr());
            ffi::rsmp_lent_status(pool, POOL_WORDS, words, WORDS, table, TABLE_BYTES, number, value, time)
        })
    }

    /// The eight booleans, the first in the highest bit.
    pub fn aggregated(&mut self, value: u8, time: u64) -> Called {
        let PartsMut { pool, words, .. } = self.lent.parts_mut();
        // SAFETY: pool and words are lent for their lengths, and every content and value is allowed.
        called(unsafe { ffi::rsmp_lent_aggregated(pool.as_mut_ptr(), POOL_WORDS, words.as_mut_ptr(), WORDS, value, time) })
    }

    pub fn tick(&mut self, time: u64) -> Called {
        let PartsMut { pool, words, .. } = self.lent.parts_mut();
        // SAFETY: pool and words are lent for their lengths, and every content and value is allowed.
        called(unsafe { ffi::rsmp_lent_tick(pool.as_mut_ptr(), POOL_WORDS, words.as_mut_ptr(), WORDS, time) })
    }

    /// Writes the next message that is due on a link, one at most.
    pub fn pump(&mut self, link: u32, time: u64, random: [u8; 16], output: &mut [u8]) -> Called {
        let PartsMut { pool, words, table, .. } = self.lent.parts_mut();
        let (random, room) = (ffi::Id { bytes: random }, output.len());
        // SAFETY: all four are lent for their lengths; pool, words and output are borrowed alone, so they overlap nothing.
        called(unsafe {
            let (pool, words, table, output) = (pool.as_mut_ptr(), words.as_mut_ptr(), table.as_ptr(), output.as_mut_ptr());
            ffi::rsmp_lent_pump(pool, POOL_WORDS, words, WORDS, table, TABLE_BYTES, link, time, random, output, room)
        })
    }
}

/// The readings.
impl<M: Lent> Site<M> {
    /// How many links the site has.
    pub fn links(&self) -> u32 {
        LINKS.min((self.lent.parts().words[LINK_COUNT.0] >> LINK_COUNT.1 & 0xFFFF) as u32)
    }

    /// The records that wait for a link's answer.
    pub fn held(&self, link: u32) -> u64 {
        let Parts { pool, words } = self.lent.parts();
        // SAFETY: pool and words are lent for their lengths, and every content and value is allowed.
        unsafe { ffi::rsmp_lent_held(pool.as_ptr(), POOL_WORDS, words.as_ptr(), WORDS, link) }
    }

    /// The records of a link that were pushed out of the pool, since start.
    pub fn lost(&self, link: u32) -> u64 {
        let Parts { pool, words } = self.lent.parts();
        // SAFETY: pool and words are lent for their lengths, and every content and value is allowed.
        unsafe { ffi::rsmp_lent_lost(pool.as_ptr(), POOL_WORDS, words.as_ptr(), WORDS, link) }
    }

    pub fn phase(&self, link: u32) -> Phase {
        let Parts { pool, words } = self.lent.parts();
        // SAFETY: pool and words are lent for their lengths, and every content and value is allowed.
        match unsafe { ffi::rsmp_lent_phase(pool.as_ptr(), POOL_WORDS, words.as_ptr(), WORDS, link) } {
            1 => Phase::Greeting,
            2 => Phase::Beating,
            3 => Phase::Up,
            _ => Phase::Down,
        }
    }

    /// The chosen version, where the link's greeting has come so far.
    pub fn version(&self, link: u32) -> Option<(u32, u32, u32)> {
        let Parts { pool, words } = self.lent.parts();
        // SAFETY: pool and words are lent for their lengths, and every content and value is allowed.
        let found = unsafe { ffi::rsmp_lent_version_of(pool.as_ptr(), POOL_WORDS, words.as_ptr(), WORDS, link) };
        Some((found.major, found.minor, found.patch)).filter(|chosen| *chosen != (0, 0, 0))
    }

    /// The records held for a link, oldest first.
    pub fn records(&self, link: u32) -> impl Iterator<Item = [u8; 16]> + '_ {
        let ranks = 0..self.held(link);
        ranks.map_while(move |rank| {
            let Parts { pool, words } = self.lent.parts();
            // SAFETY: pool and words are lent for their lengths, and every content and value is allowed.
            let reading = unsafe { ffi::rsmp_lent_record(pool.as_ptr(), POOL_WORDS, words.as_ptr(), WORDS, link, rank) };
            Some(reading.bytes).filter(|_| reading.found != 0)
        })
    }

    fn seen(&self, link: u32) -> Seen {
        Seen { phase: self.phase(link), version: self.version(link), held: self.held(link), lost: self.lost(link) }
    }
}

impl From<Site> for Block {
    fn from(site: Site) -> Block {
        site.lent
    }
}

fn called(outcome: ffi::Outcome) -> Called {
    if let Some(refusal) = Refusal::of_number(outcome.number) {
        return Err(refusal);
    }
    let hint = Some(outcome.hint).filter(|_| outcome.hinted == 1);
    Ok(Report { written: outcome.written as usize, closed: Links(outcome.closed), hint, commands: Commands::default() })
}

/// What is shown of a link where a site is printed.
#[derive(Debug)]
#[allow(dead_code)] // its Debug reads it
struct Seen {
    phase: Phase,
    version: Option<(u32, u32, u32)>,
    held: u64,
    lost: u64,
}

impl<M: Lent> fmt::Debug for Site<M> {
    fn fmt(&self, formatter: &mut fmt::Formatter) -> fmt::Result {
        formatter.debug_list().entries((0..self.links()).map(|link| self.seen(link))).finish()
    }
}
