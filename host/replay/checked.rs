//! The calls on the sites of a box, each held to what may not change: everything that is lent where it is refused, a site's table where it is not
//! started, the other site always, the bytes behind the written ones and around the lent ones always.

use crate::script::{Line, Whose};
use rsmp_site::ffi::{self, BoxBlock, Id, Outcome, ALONE, COMMAND_WORDS, POOL_WORDS, SITES, TABLE_BYTES, WORDS};
use rsmp_site::{AlarmState, Cabinet, Site, BOX_STORED_BYTES};

const LAST_NUMBER: u32 = 12;
const LINKS: u32 = 4;
const GUARD: usize = 64;

pub struct Violation(pub String);

pub struct Player {
    lent: Box<Guarded>,
    /// How many each site has; none before there is one.
    links: [Option<u32>; SITES],
    /// Whose line is played.
    whose: Whose,
    output: Lent,
    written: usize,
    commands: Box<Handed>,
    handed: usize,
}

/// The words that commands are handed over in, between two guards, all filled with a pattern before each call.
#[repr(C)]
#[derive(PartialEq, Eq)]
struct Handed {
    before: [u64; GUARD / 8],
    words: [u64; COMMAND_WORDS],
    behind: [u64; GUARD / 8],
}

const EMPTY_HANDED: Handed = Handed { before: [PATTERN; GUARD / 8], words: [PATTERN; COMMAND_WORDS], behind: [PATTERN; GUARD / 8] };

/// A box between two guards, filled with a pattern before there is a site.
#[repr(C)]
#[derive(Clone)]
struct Guarded {
    before: [u64; GUARD / 8],
    lent: BoxBlock,
    behind: [u64; GUARD / 8],
}

const PATTERN: u64 = 0xA5C3_F00F_9669_3C5A;
const PATTERNED: Guarded = Guarded {
    before: [PATTERN; GUARD / 8],
    lent: BoxBlock { pool: [PATTERN; POOL_WORDS], words: [[PATTERN; WORDS]; SITES], table: [[0xA5; TABLE_BYTES]; SITES] },
    behind: [PATTERN; GUARD / 8],
};

/// What a line is answered with; the outer error is a line that cannot be played.
type Played = Result<Result<String, Violation>, String>;

impl Player {
    pub fn new() -> Player {
        Player {
            lent: Box::new(PATTERNED),
            links: [None; SITES],
            whose: Whose::Unnamed,
            output: Lent::new(),
            written: 0,
            commands: Box::new(EMPTY_HANDED),
            handed: 0,
        }
    }

    pub fn play(&mut self, whose: Whose, line: &Line) -> Played {
        (self.written, self.handed, self.whose) = (0, 0, whose);
        match line {
            Line::Restore { bytes } => return self.restore(bytes).map(Ok),
            Line::Start { .. } if whose != Whose::Unnamed && self.links == [None; SITES] => self.lent.lent.pool = [0; POOL_WORDS],
            Line::Start { .. } => {}
            _ if self.links[self.at()].is_none() => return Err("a call before any start of its site that was done".to_string()),
            _ => {}
        }
        let before = self.lent.clone();
        let (outcome, text) = match self.answer(whose, line) {
            Ok(answer) => answer,
            Err(violation) => return Ok(Err(violation)),
        };
        Ok(self.judge_site(&before, line, outcome).map(|()| text))
    }

    /// Whose line was played last.
    pub fn whose(&self) -> Whose {
        self.whose
    }

    /// The site whose line was played last.
    pub fn at(&self) -> usize {
        self.whose.site()
    }

    /// What the last call wrote.
    pub fn written(&self) -> &[u8] {
        if self.written == 0 {
            &[]
        } else {
            self.output.first(self.written)
        }
    }

    /// The commands that the last call handed over: their numbers and values.
    pub fn handed(&self) -> impl Iterator<Item = (u32, i32)> + '_ {
        self.commands.words[..self.handed].iter().map(|word| ((word >> 32) as u32, *word as u32 as i32))
    }

    /// How many links a site has; 0 before there is one.
    pub fn links(&self, site: usize) -> u32 {
        self.links[site].unwrap_or(0)
    }

    /// A link's phase and how many records it holds and has lost.
    pub fn state(&self, site: usize, link: u32) -> (u32, u64, u64) {
        let (pool, words) = (self.lent.lent.pool.as_ptr(), self.lent.lent.words[site].as_ptr());
        // SAFETY: pool and words are lent for their lengths, and every content and value is allowed.
        let read = || unsafe {
            (
                ffi::rsmp_lent_phase(pool, POOL_WORDS, words, WORDS, link),
                ffi::rsmp_lent_held(pool, POOL_WORDS, words, WORDS, link),
                ffi::rsmp_lent_lost(pool, POOL_WORDS, words, WORDS, link),
            )
        };
        self.links[site].map_or((0, 0, 0), |_| read())
    }

    /// Whether an alarm is active.
    pub fn is_active(&self, site: usize, alarm: u32) -> bool {
        AlarmState::of(&self.lent.lent.words[site], alarm).map_or(false, |state| self.links[site].is_some() && state.active)
    }

    /// The records held for a link, oldest first.
    pub fn records(&self, site: usize, link: u32) -> Vec<[u8; 16]> {
        self.links[site].map_or(Vec::new(), |_| records(&self.lent.lent, site, link))
    }

    /// A player of the same sites, whose pool is empty.
    pub fn emptied(&self) -> Player {
        let lent = BoxBlock { pool: [0; POOL_WORDS], ..self.lent.lent.clone() };
        Player { lent: Box::new(Guarded { lent, ..PATTERNED }), links: self.links, ..Player::new() }
    }

    /// A site or two as `rsmp-site` stores them; what was played before does not matter from here on.
    fn restore(&mut self, bytes: &[u8]) -> Result<String, String> {
        if bytes.len() == BOX_STORED_BYTES {
            let cabinet = Cabinet::from_stored(bytes).map_err(|fault| fault.to_string())?;
            self.links = [0, 1].map(|site| cabinet.site(site).map(|site| site.links()).filter(|links| *links > 0));
            self.lent.lent = cabinet.into();
        } else {
            let site = Site::from_stored(bytes).map_err(|fault| fault.to_string())?;
            self.links = [Some(site.links()), None];
            let block = ffi::Block::from(site);
            (self.lent.lent.pool, self.lent.lent.words[0], self.lent.lent.table[0]) = (block.pool, block.words, block.table);
        }
        Ok("0 0 - -".to_string())
    }

    /// What a call gives and the line, both judged but for what may not change; a reading gives the line alone.
    fn answer(&mut self, whose: Whose, line: &Line) -> Result<(Option<Outcome>, String), Violation> {
        let at = self.at();
        let (outcome, room) = match line {
            Line::Counts => return Ok((None, counts(&self.lent.lent, at, self.links(at)))),
            Line::Readings => return Ok((None, readings(&self.lent.lent, at, self.links(at)))),
            Line::Start { table, links, primary, period, first, time } => {
                let (given, BoxBlock { pool, words, table: kept }) = (table.clone(), &mut self.lent.lent);
                let (bits, length) = (given.as_ptr(), given.len());
                let site = if whose == Whose::Unnamed { ALONE } else { at as u32 };
                // SAFETY: all four are lent for their lengths and lie apart, and nothing of them is kept.
                let outcome = unsafe {
                    let (pool, words, kept) = (pool.as_mut_ptr(), words[at].as_mut_ptr(), kept[at].as_mut_ptr());
                    ffi::rsmp_lent_start(
                        pool,
                        POOL_WORDS,
                        words,
                        WORDS,
                        kept,
                        TABLE_BYTES,
                        bits,
                        length,
                        site,
                        *links,
                        *primary,
                        *period,
                        *first,
                        *time,
                    )
                };
                if given != *table {
                    return Err(Violation("the table's bytes changed".to_string()));
                }
                if outcome.number == 0 && !(1..=LINKS).contains(links) {
                    return Err(Violation(format!("start was done with {} links", links)));
                }
                if outcome.number == 0 {
                    if site == ALONE {
                        self.links = [None; SITES];
                    }
                    self.links[at] = Some(*links);
                }
                (outcome, 0)
            }
            Line::Packet { link, time, random, room, packet } => {
                let (given, room, id) = (packet.clone(), *room, Id { bytes: *random });
                let (out, BoxBlock { pool, words, table }) = (self.output.lend(room), &mut self.lent.lent);
                let (packet_at, length) = (given.as_ptr(), given.len());
                *self.commands = EMPTY_HANDED;
                // SAFETY: all six are lent for their lengths and lie apart.
                let outcome = unsafe {
                    let (pool, words, table) = (pool.as_mut_ptr(), words[at].as_mut_ptr(), table[at].as_ptr());
                    let to = self.commands.words.as_mut_ptr();
                    ffi::rsmp_lent_packet(
                        pool,
                        POOL_WORDS,
                        words,
                        WORDS,
                        table,
                        TABLE_BYTES,
                        *link,
                        *time,
                        id,
                        packet_at,
                        length,
                        to,
                        COMMAND_WORDS,
                        out,
                        room,
                    )
                };
                if given != *packet {
                    return Err(Violation("the packet's bytes changed".to_string()));
                }
                self.handed = judge_handed(&self.commands, &outcome)?;
                (outcome, room)
            }
            Line::Pump { link, time, random, room } => {
                let (room, id) = (*room, Id { bytes: *random });
                let (out, BoxBlock { pool, words, table }) = (self.output.lend(room), &mut self.lent.lent);
                // SAFETY: all four are lent for their lengths and lie apart.
                let outcome = unsafe {
                    let (pool, words, table) = (pool.as_mut_ptr(), words[at].as_mut_ptr(), table[at].as_ptr());
                    ffi::rsmp_lent_pump(pool, POOL_WORDS, words, WORDS, table, TABLE_BYTES, *link, *time, id, out, room)
                };
                (outcome, room)
            }
            lending_nothing_more => (in_place(&mut self.lent.lent, at, lending_nothing_more), 0),
        };
        judge_report(&outcome, room)?;
        if matches!(line, Line::Packet { .. } | Line::Pump { .. }) {
            self.written = outcome.written as usize;
            self.output.judge(self.written)?;
        }
        if self.handed as u64 != outcome.commands {
            return Err(Violation(format!("{} commands handed over by a call that is no packet", outcome.commands)));
        }
        Ok((Some(outcome), format!("{}{}", answer(&outcome, self.written()), commands(self.handed()))))
    }

    /// What may not have changed of the box and around it.
    fn judge_site(&self, before: &Guarded, line: &Line, outcome: Option<Outcome>) -> Result<(), Violation> {
        let now = &self.lent;
        if (now.before, now.behind) != (PATTERNED.before, PATTERNED.behind) {
            return Err(Violation("bytes around the box changed".to_string()));
        }
        let (now, before) = (&now.lent, &before.lent);
        let number = outcome.map_or("a reading".to_string(), |outcome| format!("number {}", outcome.number));
        let done = outcome.map_or(false, |outcome| outcome.number == 0);
        let starts = done && matches!(line, Line::Start { .. });
        let wrong = |what: String| Err(Violation(format!("{}, and {} changed", number, what)));
        if let Some(place) = changed(&now.pool, &before.pool).filter(|_| !done) {
            return wrong(format!("word {} of the pool", place));
        }
        for site in 0..SITES {
            let whose = if site == self.at() { "the site" } else { "the other site" };
            if let Some(place) = changed(&now.words[site], &before.words[site]).filter(|_| !(done && site == self.at())) {
                return wrong(format!("word {} of {}", place, whose));
            }
            if let Some(place) = changed(&now.table[site], &before.table[site]).filter(|_| !(starts && site == self.at())) {
                return wrong(format!("byte {} of {}'s table", place, whose));
            }
        }
        Ok(())
    }
}

fn changed<T: PartialEq>(now: &[T], before: &[T]) -> Option<usize> {
    now.iter().zip(before).position(|(now, before)| now != before)
}

/// The calls that are lent nothing but the pool and the site.
fn in_place(lent: &mut BoxBlock, at: usize, line: &Line) -> Outcome {
    let (pool, words, table) = (lent.pool.as_mut_ptr(), lent.words[at].as_mut_ptr(), lent.table[at].as_ptr());
    // SAFETY: pool, words and table are lent for their lengths, and every content and value is allowed.
    unsafe {
        match *line {
            Line::Connect { link, time } => ffi::rsmp_lent_connect(pool, POOL_WORDS, words, WORDS, link, time),
            Line::Disconnect { link, time } => ffi::rsmp_lent_disconnect(pool, POOL_WORDS, words, WORDS, link, time),
            Line::Alarm { number, active, time } => {
                ffi::rsmp_lent_alarm(pool, POOL_WORDS, words, WORDS, table, TABLE_BYTES, number, active, time)
            }
            Line::Status { number, value, time } => {
                ffi::rsmp_lent_status(pool, POOL_WORDS, words, WORDS, table, TABLE_BYTES, number, value, time)
            }
            Line::Aggregated { value, time } => ffi::rsmp_lent_aggregated(pool, POOL_WORDS, words, WORDS, value, time),
            Line::Tick { time } => ffi::rsmp_lent_tick(pool, POOL_WORDS, words, WORDS, time),
            Line::Start { .. } | Line::Restore { .. } | Line::Packet { .. } | Line::Pump { .. } | Line::Counts | Line::Readings => {
                unreachable!()
            }
        }
    }
}

/// How many commands were handed over: the first words, and nothing else changed.
fn judge_handed(lent: &Handed, told: &Outcome) -> Result<usize, Violation> {
    let count = told.commands as usize;
    if count > COMMAND_WORDS {
        return Err(Violation(format!("{} commands handed over", count)));
    }
    let mut rest = EMPTY_HANDED;
    rest.words[..count].copy_from_slice(&lent.words[..count]);
    if *lent != rest {
        return Err(Violation(format!("{} commands handed over, and words behind or around them changed", count)));
    }
    Ok(count)
}

/// What a call reports is what it can report.
fn judge_report(told: &Outcome, room: usize) -> Result<(), Violation> {
    let nothing = (told.written, told.closed, told.hinted, told.hint, told.commands) == (0, 0, 0, 0, 0);
    let wrong = if told.number > LAST_NUMBER {
        format!("no such number: {}", told.number)
    } else if told.number != 0 && !nothing {
        format!("refused with {}, and something is reported", told.number)
    } else if told.written as usize > room {
        format!("{} bytes written where {} were lent", told.written, room)
    } else if told.closed >= 1 << LINKS || told.hinted > 1 {
        format!("closed {}, hinted {}", told.closed, told.hinted)
    } else {
        return Ok(());
    };
    Err(Violation(wrong))
}

fn answer(told: &Outcome, out: &[u8]) -> String {
    if told.number != 0 {
        return told.number.to_string();
    }
    let hint = if told.hinted == 1 { told.hint.to_string() } else { "-".to_string() };
    format!("0 {} {} {}", told.closed, hint, hex(out))
}

/// A word more where commands were handed over.
fn commands(handed: impl Iterator<Item = (u32, i32)>) -> String {
    let each: Vec<String> = handed.map(|(number, value)| format!("{}={}", number, value)).collect();
    if each.is_empty() {
        String::new()
    } else {
        format!(" {}", each.join(","))
    }
}

fn hex(bytes: &[u8]) -> String {
    const DIGITS: &[u8; 16] = b"0123456789abcdef";
    if bytes.is_empty() {
        return "-".to_string();
    }
    let digits = bytes.iter().flat_map(|byte| [DIGITS[usize::from(byte >> 4)], DIGITS[usize::from(byte & 15)]]);
    digits.map(char::from).collect()
}

fn each_link(links: u32, text: impl Fn(u32) -> String) -> String {
    (0..links).map(text).collect::<Vec<_>>().join(" ")
}

fn counts(lent: &BoxBlock, at: usize, links: u32) -> String {
    let (pool, words) = (lent.pool.as_ptr(), lent.words[at].as_ptr());
    each_link(links, |link| {
        // SAFETY: pool and words are lent for their lengths, and every content and value is allowed.
        let (held, lost) = unsafe {
            (ffi::rsmp_lent_held(pool, POOL_WORDS, words, WORDS, link), ffi::rsmp_lent_lost(pool, POOL_WORDS, words, WORDS, link))
        };
        format!("{}/{}", held, lost)
    })
}

fn readings(lent: &BoxBlock, at: usize, links: u32) -> String {
    let (pool, words) = (lent.pool.as_ptr(), lent.words[at].as_ptr());
    each_link(links, |link| {
        // SAFETY: pool and words are lent for their lengths, and every content and value is allowed.
        let (phase, version) = unsafe {
            (ffi::rsmp_lent_phase(pool, POOL_WORDS, words, WORDS, link), ffi::rsmp_lent_version_of(pool, POOL_WORDS, words, WORDS, link))
        };
        let records: Vec<String> = records(lent, at, link).iter().map(|record| hex(record)).collect();
        let records = if records.is_empty() { "-".to_string() } else { records.join(",") };
        format!("{}/{}.{}.{}/{}", phase, version.major, version.minor, version.patch, records)
    })
}

fn records(lent: &BoxBlock, at: usize, link: u32) -> Vec<[u8; 16]> {
    let (pool, words) = (lent.pool.as_ptr(), lent.words[at].as_ptr());
    (0u64..)
        // SAFETY: pool and words are lent for their lengths, and every content and value is allowed.
        .map(|rank| unsafe { ffi::rsmp_lent_record(pool, POOL_WORDS, words, WORDS, link, rank) })
        .take_while(|reading| reading.found != 0)
        .map(|reading| reading.bytes)
        .collect()
}

/// The lent output between two guards, all filled with a pattern of the call.
struct Lent {
    bytes: Vec<u8>,
    calls: usize,
}

impl Lent {
    fn new() -> Lent {
        Lent { bytes: Vec::new(), calls: 0 }
    }

    fn pattern(&self, place: usize) -> u8 {
        (place.wrapping_mul(167) ^ self.calls.wrapping_mul(89) ^ place >> 8) as u8
    }

    fn lend(&mut self, room: usize) -> *mut u8 {
        self.calls += 1;
        let filled = (0..GUARD + room + GUARD).map(|place| self.pattern(place)).collect();
        self.bytes = filled;
        self.bytes[GUARD..].as_mut_ptr()
    }

    fn first(&self, count: usize) -> &[u8] {
        &self.bytes[GUARD..GUARD + count]
    }

    /// Nothing but the first bytes changed.
    fn judge(&self, written: usize) -> Result<(), Violation> {
        let kept = |place: &usize| !(GUARD..GUARD + written).contains(place);
        match (0..self.bytes.len()).filter(kept).find(|place| self.bytes[*place] != self.pattern(*place)) {
            Some(place) => {
                let place = place as isize - GUARD as isize;
                Err(Violation(format!("{} bytes reported, and byte {} of the output changed", written, place)))
            }
            None => Ok(()),
        }
    }
}
