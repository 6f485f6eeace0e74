//! What the process does with each event: calls on its sites, bytes to the supervisors, lines to the log.

use crate::calls::{Calls, NotTaken};
use crate::commands::{Commands, MOST_WAITING};
use crate::control::Reply;
use crate::drain::Drain;
use crate::framing::{Frame, FORM_FEED};
use crate::journal::{Journal, Level};
use crate::memory::{link_of, place_of, site_of, NAMES};
use crate::options::Options;
use crate::readable::{kind, value_of};
use crate::show::{About, OfLink};
use crate::wires::{Closing, Event, Wire, NOT_READ};
use rsmp_site::{Called, Phase, Refusal, Report, SiteRef};
use rsmp_table::Table;
use std::fmt::Display;
use std::sync::mpsc::Receiver;
use std::time::{Duration, Instant};

const GOODBYE: Duration = Duration::from_secs(2);
/// At the end commands that run or wait get so long.
const LAST_COMMANDS: Duration = Duration::from_secs(5);
/// Clocks that differ by less are not worth a line.
const CLOCKS_DIFFER: u64 = 1000;
/// Nor is more than one line in so long a time.
const CLOCK_LINES: Duration = Duration::from_secs(60);
/// Where but this part of the sequence numbers is left a new site starts as soon as nothing is held ..
const NEAR_THE_END: u64 = 16;
/// .. and where but this part is left, as soon as the primary's is answered: who does not answer cannot keep the site from it.
const NEARER: u64 = 32;

pub const NOT_SAVED: &str = "refused: there is no state, or it cannot be written";

/// One supervisor.
pub struct Link {
    pub address: String,
    wire: Option<Wire>,
    since: Instant,
    up: bool,
    connections: u64,
    sent: u64,
    received: u64,
    unanswered: u64,
    /// The last difference of the primary's clock that was said, in milliseconds, and when.
    clock_ahead: i128,
    clock_said: Option<Instant>,
}

impl Link {
    fn new(address: &str) -> Link {
        Link {
            address: address.to_string(),
            wire: None,
            since: Instant::now(),
            up: false,
            connections: 0,
            sent: 0,
            received: 0,
            unanswered: 0,
            clock_ahead: 0,
            clock_said: None,
        }
    }

    pub fn shown(&self, site: &SiteRef, number: u32) -> OfLink {
        OfLink {
            address: self.address.clone(),
            phase: site.phase(number),
            version: site.version(number),
            held: site.held(number),
            lost: site.lost(number),
            connections: self.connections,
            sent: self.sent,
            received: self.received,
            unanswered: self.unanswered,
        }
    }
}

/// What the process has of a site beside its bytes.
pub struct OfSite {
    pub about: About,
    pub links: Vec<Link>,
    pub commands: Commands,
}

pub struct Host {
    pub calls: Calls,
    pub sites: Vec<OfSite>,
    pub drain: Drain,
    journal: Journal,
    greeting_limit: Duration,
    closing: Vec<Closing>,
    system_behind: u64,
    /// Orders to save: until the state of this number is written.
    pub saving: Vec<(u64, Reply)>,
    /// Set by quit: ends when its reply is written.
    pub quitting: Option<Receiver<()>>,
}

impl Host {
    pub fn new(calls: Calls, sites: Vec<(Table, Commands)>, journal: Journal, options: &Options) -> Host {
        let sites = sites.into_iter().zip(&options.sites).map(|((table, commands), of_site)| OfSite {
            about: About { table, primary: of_site.primary, began: Instant::now() },
            links: of_site.supervisors.iter().map(|address| Link::new(address)).collect(),
            commands,
        });
        Host {
            calls,
            sites: sites.collect(),
            drain: Drain::new(options.drain),
            journal,
            greeting_limit: options.greeting_limit,
            closing: Vec::new(),
            system_behind: 0,
            saving: Vec::new(),
            quitting: None,
        }
    }

    fn link(&mut self, link: u32) -> &mut Link {
        &mut self.sites[site_of(link)].links[link_of(link) as usize]
    }

    /// The links of a site.
    fn links_of(&self, site: usize) -> impl Iterator<Item = u32> {
        (0..self.sites[site].links.len() as u32).map(move |link| place_of(site, link))
    }

    fn links(&self) -> Vec<u32> {
        (0..self.sites.len()).flat_map(|site| self.links_of(site)).collect()
    }

    pub fn is_quitting(&self) -> bool {
        self.quitting.is_some()
    }

    fn say(&mut self, level: Level, link: u32, text: impl Display) {
        let now = self.calls.now();
        self.journal.say(now, level, Some(link), text);
    }

    pub fn say_of_site(&mut self, level: Level, text: impl Display) {
        let now = self.calls.now();
        self.journal.say(now, level, None, text);
    }

    pub fn say_beginning(&mut self, version: &str, state: Option<(Level, String)>) {
        let counts = self.counts_of_all();
        let links: Vec<String> = self.sites.iter().map(|site| site.links.len().to_string()).collect();
        let text = match &links[..] {
            [links] => format!("rsmp-site {} begins with {} links", version, links),
            links => format!("rsmp-site {} begins with two sites, north and south, with {} links", version, links.join(" and ")),
        };
        self.say_of_site(Level::Info, text);
        if let Some((level, text)) = state {
            self.say_of_site(level, text);
            self.say_of_site(Level::Info, counts);
        }
    }

    pub fn take(&mut self, event: Event) {
        match event {
            Event::Connected(link, wire) => self.connected(link, wire),
            Event::Failed(link, error) => self.say(Level::Warning, link, format!("cannot connect: {}", error)),
            Event::Frame(link, Frame::Packet(packet)) => self.packet(link, &packet),
            Event::Frame(link, Frame::TooLong(count)) => {
                let text = format!("a packet of {} bytes is dropped", count);
                self.say(Level::Warning, link, text)
            }
            Event::Gone(link, why, unfinished) => self.gone(link, why, unfinished),
            Event::HeldBack(link) => self.say(Level::Warning, link, "it sends more packets than are read in a second, and is held back"),
            // What came of it is looked at after each event.
            Event::Stored => {}
            Event::Control(asked) => self.answer(asked),
            Event::Trouble(text) => self.say_of_site(Level::Error, text),
        }
    }

    // Connections.

    fn connected(&mut self, link: u32, wire: Wire) {
        let of_link = self.link(link);
        of_link.connections += 1;
        of_link.wire = Some(wire);
        of_link.since = Instant::now();
        of_link.up = false;
        let text = format!("connected to {}", of_link.address);
        self.say(Level::Info, link, text);
        let called = self.calls.connect(link);
        self.keep(link, called);
    }

    /// Nothing to say where we closed it: that was said.
    fn gone(&mut self, link: u32, why: String, unfinished: u64) {
        if self.link(link).wire.take().is_none() {
            return;
        }
        let rest = match unfinished {
            0 => String::new(),
            count => format!(", {} bytes of an unfinished packet", count),
        };
        let text = format!("the connection is gone: {}{}", why, rest);
        self.say(Level::Info, link, text);
        let called = self.calls.disconnect(link);
        self.keep(link, called);
    }

    /// We close it, and what waits to be sent with it.
    fn cut(&mut self, link: u32, why: &str) {
        if let Some(wire) = self.link(link).wire.take() {
            self.say(Level::Warning, link, format!("we close the connection: {}", why));
            wire.cut();
            let _ = self.calls.disconnect(link);
        }
    }

    /// The site closes these.
    fn close(&mut self, site: usize, report: Report, why: &str) {
        for link in report.closed.iter() {
            let of_link = self.sites[site].links.get_mut(link as usize);
            let link = place_of(site, link);
            if let Some(wire) = of_link.and_then(|of_link| of_link.wire.take()) {
                self.say(Level::Warning, link, format!("we close the connection: {}", why));
                self.closing.push(wire.close());
            }
        }
        self.closing.retain(|closing| !closing.done());
    }

    fn look_whether_up(&mut self, link: u32) {
        let site = self.calls.site(site_of(link));
        let (held, is_up) = (site.held(link_of(link)), site.phase(link_of(link)) == Phase::Up);
        if self.link(link).up || !is_up {
            return;
        }
        let version = self.phase_of(link);
        let of_link = self.link(link);
        of_link.up = true;
        if let Some(wire) = &of_link.wire {
            wire.is_up();
        }
        self.say(Level::Info, link, format!("{}; {} records wait", version, held));
    }

    // Calls and what they did.

    fn packet(&mut self, link: u32, packet: &[u8]) {
        if self.link(link).wire.is_none() {
            return;
        }
        self.link(link).received += 1;
        let room = self.sites[site_of(link)].commands.room();
        let called = self.calls.packet(link, packet, room);
        let now = self.calls.now();
        let mark = if called.is_ok() { '<' } else { '!' };
        self.journal.message(now, link, mark, packet);
        match called {
            Ok(report) => {
                let why = self.why_closed(link, packet, report);
                self.done(link, report, &why);
                self.sites[site_of(link)].commands.take(link, &report.commands);
                self.say_of_commands();
                self.look_whether_up(link);
            }
            Err(why) => {
                self.link(link).unanswered += 1;
                match why {
                    NotTaken::Refused(refusal) => self.refused(link, refusal),
                    NotTaken::NoRoom(count) => self.no_room(link, count, room),
                }
            }
        }
    }

    /// A packet for whose commands there is no room is not taken: nothing is answered that would not be carried out.
    fn no_room(&mut self, link: u32, count: usize, room: usize) {
        self.sites[site_of(link)].commands.not_taken(count);
        let text = format!("a packet with {} commands is not taken: {} wait already", count, MOST_WAITING - room);
        self.say(Level::Error, link, text);
    }

    fn say_of_commands(&mut self) {
        for said in self.sites.iter_mut().flat_map(|site| site.commands.take_said()) {
            let now = self.calls.now();
            self.journal.say_each(now, said.level, Some(said.link), &said.text);
        }
    }

    /// Why a packet closed its link; a refused Version is worth a line of its own in any log.
    fn why_closed(&mut self, link: u32, packet: &[u8], report: Report) -> String {
        let up = self.link(link).up;
        if up && report.closed.is_empty() {
            return String::new();
        }
        let packet = String::from_utf8_lossy(packet);
        let answer = String::from_utf8_lossy(self.calls.written(report.written)).into_owned();
        let (asked, reason) = (kind(&packet), |text: &str| value_of(text, "rea").map(str::to_string));
        let why = match (reason(&answer), asked.as_str()) {
            (Some(reason), _) => format!("its {} is refused: {}", asked, reason),
            (None, "MessageNotAck") => {
                let reason = reason(&packet).unwrap_or_default();
                format!("it refuses our message: {}", reason)
            }
            (None, _) => format!("after its {}", asked),
        };
        let said = report.closed.is_empty() && (reason(&answer).is_some() || asked == "MessageNotAck");
        if said {
            self.say(Level::Warning, link, &why);
        }
        why
    }

    fn refused(&mut self, link: u32, refusal: Refusal) {
        match refusal {
            Refusal::Ignored => {}
            Refusal::SameIdentity => self.cut(link, "the random bytes repeat: their source is broken"),
            Refusal::SequenceSpent => self.start_anew(site_of(link), Level::Error, "used up"),
            _ => self.say(Level::Warning, link, refusal),
        }
    }

    /// What a call on a link did.
    fn keep(&mut self, link: u32, called: Called) {
        if let Ok(report) = called {
            self.done(link, report, "told to");
        }
    }

    fn done(&mut self, link: u32, report: Report, why: &str) {
        self.calls.save_before_it_is_seen();
        self.send(link, report.written);
        self.close(site_of(link), report, why);
        if let Some(hint) = report.hint {
            self.calls.clock.hint(hint);
            self.compare_clocks(link, hint);
        }
    }

    fn compare_clocks(&mut self, link: u32, hint: u64) {
        let ahead = i128::from(hint) - i128::from(self.calls.now());
        let of_link = self.link(link);
        let differs = (ahead - of_link.clock_ahead).unsigned_abs() >= u128::from(CLOCKS_DIFFER);
        if differs && of_link.clock_said.map_or(true, |said| said.elapsed() >= CLOCK_LINES) {
            of_link.clock_ahead = ahead;
            of_link.clock_said = Some(Instant::now());
            let text = format!("the primary's clock is {} ms ahead of ours", ahead);
            self.say(Level::Info, link, text);
        }
    }

    fn send(&mut self, link: u32, written: usize) {
        if written == 0 {
            return;
        }
        let now = self.calls.now();
        let bytes = self.calls.written(written);
        let messages = bytes.split(|byte| *byte == FORM_FEED);
        for message in messages.filter(|message| !message.is_empty()) {
            self.journal.message(now, link, '>', message);
            self.sites[site_of(link)].links[link_of(link) as usize].sent += 1;
        }
        let wire = self.sites[site_of(link)].links[link_of(link) as usize].wire.as_ref();
        if wire.map_or(false, |wire| !wire.send(bytes)) {
            self.cut(link, NOT_READ);
        }
    }

    pub fn pump(&mut self) {
        for link in self.links() {
            while self.link(link).wire.is_some() {
                match self.calls.pump(link) {
                    Ok(report) => self.keep(link, Ok(report)),
                    Err(Refusal::SameIdentity) => self.refused(link, Refusal::SameIdentity),
                    Err(_) => break,
                }
            }
        }
    }

    pub fn tick(&mut self) {
        for site in 0..self.sites.len() {
            self.tick_of(site);
        }
        let limit = self.greeting_limit;
        for link in self.links() {
            let of_link = self.link(link);
            if of_link.wire.is_some() && !of_link.up && of_link.since.elapsed() >= limit {
                self.cut(link, &format!("it is not Up after {} seconds", limit.as_secs_f64()));
            }
        }
        self.look_at_clock();
        self.calls.flush();
        let now = self.calls.now();
        self.journal.say_what_is_left_out(now);
    }

    fn tick_of(&mut self, site: usize) {
        match self.calls.tick(site) {
            Ok(report) => self.close(site, report, "no answer for 30 seconds"),
            Err(Refusal::SequenceSpent) => self.start_anew(site, Level::Error, "used up"),
            Err(refusal) => self.say_of_site(Level::Error, format!("{}{}", self.named(site), refusal)),
        }
        if self.is_time_for_a_new_site(site) {
            self.start_anew(site, Level::Warning, "nearly used up");
        }
    }

    fn look_at_clock(&mut self) {
        let jump = self.calls.clock.take_jump();
        if jump >= CLOCKS_DIFFER {
            let text = format!("the system's clock was set: our time goes on {} ms later", jump);
            self.say_of_site(Level::Warning, text);
        }
        if let Some(ahead) = self.calls.clock.take_doubt() {
            let text = format!(
                "the system's clock is {} ms ahead of our time, which is to be so for a minute or agree with the primary's clock before it is taken",
                ahead
            );
            self.say_of_site(Level::Warning, text);
        }
        let behind = self.calls.clock.system_behind();
        let before = self.system_behind;
        if behind.max(before) - behind.min(before) >= CLOCKS_DIFFER {
            self.system_behind = behind;
            let text = format!("the system's clock is {} ms behind our time, which goes on", behind);
            self.say_of_site(Level::Warning, text);
        }
    }

    /// At the end of every turn.
    pub fn go_on(&mut self) {
        self.calls.save_where_due();
        self.answer_what_is_saved();
        self.say_of_commands();
        match self.journal.outlet.take_reopened() {
            None => {}
            Some(Ok(())) => self.say_of_site(Level::Info, "the log is opened again"),
            Some(Err(error)) => {
                self.say_of_site(Level::Error, format!("the log cannot be opened again, the former file is written on: {}", error))
            }
        }
        if let Some(error) = self.journal.outlet.take_begun_anew() {
            self.say_of_site(Level::Error, format!("the log is long and cannot be put aside, it begins anew: {}", error));
        }
        for text in self.calls.take_trouble() {
            self.say_of_site(Level::Error, text);
        }
    }

    /// Replies to orders to save.
    fn answer_what_is_saved(&mut self) {
        if let Some((settled, good)) = self.calls.settled() {
            let (answered, left) = std::mem::take(&mut self.saving).into_iter().partition(|(number, _)| *number <= settled);
            self.saving = left;
            for (_, reply) in answered {
                reply.say(if good { "done" } else { NOT_SAVED });
            }
        }
    }

    pub fn reopen(&mut self) {
        let log = self.journal.outlet.reopen();
        match self.calls.reopen_record() {
            Some(true) => self.say_of_site(Level::Info, "the record is opened again"),
            Some(false) => self.say_of_site(Level::Error, "the record cannot be opened again"),
            None if !log => self.say_of_site(Level::Info, "there is neither a log nor a record to open again"),
            None => {}
        }
    }

    pub fn holds_something(&self) -> bool {
        (0..self.sites.len()).any(|site| self.site_holds_something(site))
    }

    fn site_holds_something(&self, site: usize) -> bool {
        let of_site = self.calls.site(site);
        (0..of_site.links()).any(|link| of_site.held(link) > 0)
    }

    fn is_time_for_a_new_site(&self, site: usize) -> bool {
        let answered = |link: u32| self.calls.site(site).held(link) == 0;
        self.calls.has_left(site, NEAR_THE_END) && !self.site_holds_something(site)
            || self.calls.has_left(site, NEARER) && self.sites[site].about.primary.map_or(false, answered)
    }

    /// A new site where the sequence numbers come to their end. The other goes on.
    pub fn start_anew(&mut self, site: usize, level: Level, numbers: &str) {
        let (named, counts) = (self.named(site), self.counts(site));
        self.say_of_site(
            level,
            format!(
                "{}the sequence numbers are {}: a new site starts with the inputs, the values and the aggregated status as they are. \
                 Not carried over: the records ({}), the subscriptions, and which alarms are acknowledged or suspended",
                named, numbers, counts
            ),
        );
        for link in self.links_of(site) {
            self.cut(link, "a new site starts");
        }
        if let Err(refusal) = self.calls.start_anew(site) {
            self.say_of_site(Level::Error, format!("{}the new site does not start: {}", named, refusal));
        }
    }

    /// What a line about one of two sites begins with.
    pub fn named(&self, site: usize) -> String {
        match self.sites.len() {
            1 => String::new(),
            _ => format!("{}: ", NAMES[site]),
        }
    }

    // The end.

    pub fn goodbye(&mut self) {
        self.say_of_site(Level::Info, "ends as told");
        for link in self.links() {
            if let Some(wire) = self.link(link).wire.take() {
                let _ = self.calls.disconnect(link);
                self.closing.push(wire.close());
            }
        }
        let until = Instant::now() + LAST_COMMANDS;
        for site in &mut self.sites {
            site.commands.end(until);
        }
        self.say_of_commands();
        self.calls.flush();
        self.calls.save();
        self.answer_what_is_saved();
        let now = self.calls.now();
        self.journal.say_what_is_left_out(now);
        for text in self.calls.take_trouble() {
            self.say_of_site(Level::Error, text);
        }
        let until = Instant::now() + GOODBYE;
        if let Some(written) = self.quitting.take() {
            let _ = written.recv_timeout(GOODBYE);
        }
        while self.closing.iter().any(|closing| !closing.done()) && Instant::now() < until {
            std::thread::sleep(Duration::from_millis(10));
        }
        let now = self.calls.now();
        self.journal.summary(now, "summary");
        for site in 0..self.sites.len() {
            for text in self.summary_of(site) {
                self.journal.summary(now, &text);
            }
        }
    }

    fn summary_of(&self, number: usize) -> Vec<String> {
        let (site, of_site, named) = (self.calls.site(number), &self.sites[number], self.calls.named(number));
        let commands = of_site.commands.counts().map(|counts| format!("  {}commands {}", named, counts));
        let links = of_site.links.iter().enumerate().map(|(number, link)| {
            let (held, lost) = (site.held(number as u32), site.lost(number as u32));
            format!(
                "  {}link {} {}: {} connections, {} messages sent, {} received, {} of them not answered, {} records held, {} lost",
                named, number, link.address, link.connections, link.sent, link.received, link.unanswered, held, lost
            )
        });
        commands.into_iter().chain(links).collect()
    }
}
