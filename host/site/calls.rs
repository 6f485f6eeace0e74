//! The calls on the sites, at the clock's time, each written to the record where there is one, and the sites to their file. Links are numbered as in
//! `memory`.

use crate::clock::Clock;
use crate::memory::{link_of, place_of, site_of, Memory};
use crate::notify::Notifier;
use crate::random::Random;
use crate::record::{hex, Record};
use crate::state::{Store, Stored};
use rsmp_site::{Called, Phase, Refusal, Report, SiteRef, Start, COMMANDS, OUTPUT_BYTES};
use std::time::{Duration, Instant};

/// Random bytes that repeat are drawn again so often; then their source is broken.
const DRAWS: u32 = 16;
/// A record that could not be opened or written is tried again so often.
const RECORD_AGAIN: Duration = Duration::from_secs(2);
/// Sequence numbers are 0 to 2147483647.
const NUMBERS: u64 = 1 << 31;
/// More alarms or statuses than a table has.
const ROWS: u32 = 32;

pub struct Calls {
    memory: Memory,
    pub clock: Clock,
    /// The table of each site, and what it is started with.
    starts: Vec<(Vec<u8>, Start)>,
    random: Random,
    record: Option<Record>,
    /// When a record that is not written is tried again.
    record_again: Option<Instant>,
    store: Option<Store>,
    state_fails: bool,
    pub notifier: Notifier,
    /// What the record or the state could not be given, to be said.
    trouble: Vec<String>,
    output: Vec<u8>,
}

/// Why a packet is not taken.
pub enum NotTaken {
    Refused(Refusal),
    /// Its commands, so many, find no room.
    NoRoom(usize),
}

/// What calls are made with beside the site.
pub struct Kit {
    pub clock: Clock,
    pub random: Random,
    pub record: Option<Record>,
    pub store: Option<Store>,
    pub notifier: Notifier,
}

impl Calls {
    /// New sites, or those that were stored: then every link whose connection the end of the last process took is disconnected.
    pub fn start(starts: Vec<(Vec<u8>, Start)>, mut kit: Kit, stored: Option<Stored>) -> Result<Calls, Refusal> {
        if let Some(stored) = &stored {
            kit.clock.go_on_from(stored.time);
        }
        let restored = stored.is_some();
        let output = vec![0; OUTPUT_BYTES];
        let mut calls = Calls {
            memory: stored.map_or_else(|| Memory::of(starts.len()), |stored| stored.memory),
            clock: kit.clock,
            starts,
            random: kit.random,
            record_again: kit.record.as_ref().filter(|record| !record.is_open()).map(|_| Instant::now()),
            record: kit.record,
            store: kit.store,
            state_fails: false,
            notifier: kit.notifier,
            trouble: Vec::new(),
            output,
        };
        let time = calls.now();
        for (_, start) in &mut calls.starts {
            start.time = time;
        }
        if restored {
            calls.record_sites();
        } else {
            for site in 0..calls.sites() {
                calls.begin(site)?;
            }
        }
        for site in 0..calls.sites() {
            for link in 0..calls.site(site).links() {
                if calls.site(site).phase(link) != Phase::Down {
                    calls.disconnect(place_of(site, link))?;
                }
            }
        }
        Ok(calls)
    }

    /// How many there are.
    pub fn sites(&self) -> usize {
        self.memory.sites()
    }

    pub fn site(&self, number: usize) -> SiteRef<'_> {
        self.memory.site(number)
    }

    /// What a line of one of two sites begins with.
    pub fn named(&self, site: usize) -> String {
        self.memory.named(site)
    }

    /// A site begins, whatever it was; the other goes on.
    fn begin(&mut self, site: usize) -> Called {
        let (table, start) = &self.starts[site];
        let begun = self.memory.site_mut(site).begin(table, start)?;
        self.record_start(site);
        Ok(begun)
    }

    /// A new site in place of one whose sequence numbers are used up. What the cabinet has set is given to it again.
    pub fn start_anew(&mut self, site: usize) -> Result<(), Refusal> {
        let memory = self.memory.clone();
        let before = memory.site(site);
        let time = self.now();
        let start = &mut self.starts[site].1;
        (start.first, start.time) = (0, time);
        self.begin(site)?;
        self.changed();
        if before.aggregated_value() != self.site(site).aggregated_value() {
            let _ = self.aggregated(site, before.aggregated_value());
        }
        for number in 0..ROWS {
            if let Some(value) = before.status_value(number) {
                let _ = self.status(site, number, value);
            }
            if before.alarm_state(number).map_or(false, |alarm| alarm.active) {
                let _ = self.alarm(site, number, true);
            }
        }
        Ok(())
    }

    /// Whether this part of a site's sequence numbers, or less, is left.
    pub fn has_left(&self, site: usize, part: u64) -> bool {
        let (left, all) = (NUMBERS.saturating_sub(self.site(site).next_number()), NUMBERS - self.starts[site].1.first);
        left * part <= all
    }

    pub fn now(&mut self) -> u64 {
        self.clock.now()
    }

    pub fn take_trouble(&mut self) -> Vec<String> {
        std::mem::take(&mut self.trouble)
    }

    // The record.

    /// A call of a site.
    fn record(&mut self, site: usize, line: impl FnOnce() -> String) {
        self.begin_record_where_long();
        let named = self.memory.named(site);
        self.record_line(|| named + &line());
    }

    fn record_line(&mut self, line: impl FnOnce() -> String) {
        if let Some(record) = self.record.as_mut().filter(|record| record.is_open()) {
            if let Err(error) = record.line(&line()) {
                self.record_fails(error);
            }
        }
    }

    /// Said when it begins to fail.
    fn record_fails(&mut self, error: std::io::Error) {
        if let Some(record) = &mut self.record {
            record.close();
        }
        if self.record_again.replace(Instant::now() + RECORD_AGAIN).is_none() {
            self.trouble.push(format!("the record cannot be written, it is tried again: {}", error));
        }
    }

    fn record_start(&mut self, site: usize) {
        let (table, Start { links, primary, period, first, time }) = self.starts[site].clone();
        let primary = primary.map_or("-".to_string(), |link| link.to_string());
        self.record(site, || format!("start {} {} {} {} {} {}", hex(&table), links, primary, period, first, time));
    }

    /// So that what follows can be played without what came before.
    fn record_sites(&mut self) {
        let stored = self.memory.to_stored();
        self.record_line(|| format!("restore {}", hex(&stored)));
    }

    fn begin_record_where_long(&mut self) {
        if let Some(record) = self.record.as_mut().filter(|record| record.is_open() && record.is_long()) {
            match record.put_aside() {
                Ok(()) => self.record_sites(),
                Err(error) => self.record_fails(error),
            }
        }
    }

    /// Writes out what waits for the record; tries again where it could not be written.
    pub fn flush(&mut self) {
        match self.record_again {
            None => {
                if let Some(Err(error)) = self.record.as_mut().map(Record::flush) {
                    self.record_fails(error);
                }
            }
            Some(again) if Instant::now() >= again => {
                if let Some(true) = self.reopen_record() {
                    self.trouble.push("the record is written again".to_string());
                }
            }
            Some(_) => {}
        }
    }

    /// Whether it is written now; None where there is none.
    pub fn reopen_record(&mut self) -> Option<bool> {
        let reopened = self.record.as_mut()?.reopen();
        let flushed = reopened.and_then(|cut| {
            self.say_what_was_cut(cut);
            self.record_sites();
            // With what waits, so that a full disk is seen at once.
            self.record.as_mut().map_or(Ok(()), Record::flush)
        });
        if let Err(error) = flushed {
            self.record_fails(error);
        }
        let written = self.record.as_ref()?.is_open();
        if written {
            self.record_again = None;
        }
        Some(written)
    }

    pub fn say_what_was_cut(&mut self, bytes: u64) {
        if bytes > 0 {
            self.trouble.push(format!("the record ended in the middle of a line: its last {} bytes are cut off", bytes));
        }
    }

    // The state.

    fn changed(&mut self) {
        if let Some(store) = &mut self.store {
            store.has_changed();
        }
    }

    fn changed_where_done(&mut self, called: Called) -> Called {
        if called.is_ok() {
            self.changed();
        }
        called
    }

    fn input_where_done(&mut self, called: Called) -> Called {
        if let Some(store) = self.store.as_mut().filter(|_| called.is_ok()) {
            store.has_new_input();
        }
        called
    }

    /// Before a call's bytes or its reply go out: with interval 0 they wait for the state. False where it should be on the disk and is not.
    pub fn save_before_it_is_seen(&mut self) -> bool {
        match self.store.as_ref().map_or(false, |store| store.at_once() && store.changed()) {
            true => self.save(),
            false => true,
        }
    }

    pub fn save_where_due(&mut self) {
        if self.store.as_ref().map_or(false, Store::due) {
            match self.store.as_ref().map_or(false, Store::at_once) {
                true => drop(self.save()),
                false => drop(self.give_state()),
            }
        }
    }

    /// Has the state written; its number, where there is a file for it.
    pub fn give_state(&mut self) -> Option<u64> {
        let time = self.now();
        Some(self.store.as_mut()?.give(&self.memory, time))
    }

    /// Up to which number all is written or has failed, and whether it is written. That it fails is said once.
    pub fn settled(&mut self) -> Option<(u64, bool)> {
        let store = self.store.as_mut()?;
        if let Some(written) = store.outcome() {
            let failed_before = std::mem::replace(&mut self.state_fails, written.is_err());
            match &written {
                Err(error) if !failed_before => {
                    let text = format!("the state cannot be written: {}", error);
                    self.trouble.push(text);
                }
                Ok(()) if failed_before => self.trouble.push("the state is written again".to_string()),
                _ => {}
            }
        }
        Some((store.settled(), !self.state_fails))
    }

    /// Waits until the state is written, and feeds the watchdog meanwhile. False where there is no file for it, or where it cannot be written.
    pub fn save(&mut self) -> bool {
        self.give_state();
        if let Some(store) = &self.store {
            store.wait(|| self.notifier.alive());
        }
        self.settled().map_or(false, |(_, good)| good)
    }

    // The calls.

    pub fn connect(&mut self, link: u32) -> Called {
        let (site, link, time) = (site_of(link), link_of(link), self.now());
        self.record(site, || format!("connect {} {}", link, time));
        let called = self.memory.site_mut(site).connect(link, time);
        self.changed_where_done(called)
    }

    pub fn disconnect(&mut self, link: u32) -> Called {
        let (site, link, time) = (site_of(link), link_of(link), self.now());
        self.record(site, || format!("disconnect {} {}", link, time));
        let called = self.memory.site_mut(site).disconnect(link, time);
        self.changed_where_done(called)
    }

    pub fn alarm(&mut self, site: usize, number: u32, active: bool) -> Called {
        let time = self.now();
        self.record(site, || format!("alarm {} {} {}", number, u32::from(active), time));
        let called = self.memory.site_mut(site).alarm(number, active, time);
        if let Some(store) = self.store.as_mut().filter(|_| called.is_ok()) {
            store.has_new_alarm();
        }
        called
    }

    pub fn status(&mut self, site: usize, number: u32, value: i32) -> Called {
        let time = self.now();
        self.record(site, || format!("status {} {} {}", number, value, time));
        let called = self.memory.site_mut(site).status(number, value, time);
        self.input_where_done(called)
    }

    pub fn aggregated(&mut self, site: usize, value: u8) -> Called {
        let time = self.now();
        self.record(site, || format!("aggregated {} {}", value, time));
        let called = self.memory.site_mut(site).aggregated(value, time);
        self.input_where_done(called)
    }

    /// A tick that issues and closes nothing is not worth a write.
    pub fn tick(&mut self, site: usize) -> Called {
        let time = self.now();
        self.record(site, || format!("tick {}", time));
        let before = self.store.as_ref().map(|_| self.counts(site));
        let called = self.memory.site_mut(site).tick(time);
        let closed = called.map_or(false, |report: Report| !report.closed.is_empty());
        if closed || before.map_or(false, |before| before != self.counts(site)) {
            self.changed();
        }
        called
    }

    /// The records held and lost of each link.
    fn counts(&self, site: usize) -> Vec<(u64, u64)> {
        let site = self.site(site);
        let each = (0..site.links()).map(|link| (site.held(link), site.lost(link)));
        each.collect()
    }

    /// A packet that came, and room for so many commands. One that has more is not taken: the sites and the record are as before.
    pub fn packet(&mut self, link: u32, packet: &[u8], room: usize) -> Result<Report, NotTaken> {
        let (site, link) = (site_of(link), link_of(link));
        for _ in 0..DRAWS {
            let (time, random) = (self.now(), self.random().map_err(NotTaken::Refused)?);
            if room < COMMANDS {
                let tried = self.memory.clone().site_mut(site).packet(link, time, random, packet, &mut self.output);
                let commands = tried.map_or(0, |report| report.commands.len());
                if commands > room {
                    return Err(NotTaken::NoRoom(commands));
                }
            }
            self.record(site, || {
                let (random, packet) = (hex(&random), hex(packet));
                format!("packet {} {} {} {} {}", link, time, random, OUTPUT_BYTES, packet)
            });
            match self.memory.site_mut(site).packet(link, time, random, packet, &mut self.output) {
                Err(Refusal::SameIdentity) => continue,
                called => return self.changed_where_done(called).map_err(NotTaken::Refused),
            }
        }
        Err(NotTaken::Refused(Refusal::SameIdentity))
    }

    /// What pump sends is sent again after a restart: only where every call is stored is it worth a write.
    pub fn pump(&mut self, link: u32) -> Called {
        let (site, link) = (site_of(link), link_of(link));
        for _ in 0..DRAWS {
            let (time, random) = (self.now(), self.random()?);
            self.record(site, || format!("pump {} {} {} {}", link, time, hex(&random), OUTPUT_BYTES));
            match self.memory.site_mut(site).pump(link, time, random, &mut self.output) {
                Err(Refusal::SameIdentity) => continue,
                called => {
                    if called.is_ok() && self.store.as_ref().map_or(false, Store::at_once) {
                        self.changed();
                    }
                    return called;
                }
            }
        }
        Err(Refusal::SameIdentity)
    }

    /// Where there are no random bytes, the answer is that of bytes that repeat.
    fn random(&mut self) -> Result<[u8; 16], Refusal> {
        self.random.bytes().map_err(|error| {
            self.trouble.push(format!("there are no random bytes: {}", error));
            Refusal::SameIdentity
        })
    }

    /// The bytes that the last call wrote.
    pub fn written(&self, count: usize) -> &[u8] {
        &self.output[..count]
    }
}
