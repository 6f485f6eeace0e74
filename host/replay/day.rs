//! What a script of calls did, site by site: alarms while they were active, and link by link phases, and records issued, sent, answered, held and lost.

use crate::checked::Player;
use crate::script::Line;
use rsmp_site::ffi::{NO_PRIMARY, SITES};
use rsmp_table::{bits, Table};

/// A site has no more.
const ALARMS: usize = 32;

pub const PHASES: [&str; 4] = ["Down", "Greeting", "Beating", "Up"];

/// A record while it is held: from the call that issued it to the one at whose end it was gone.
pub struct Stay {
    pub sequence: u32,
    pub from: u64,
    pub to: u64,
}

impl Stay {
    pub fn length(&self) -> u64 {
        self.to.saturating_sub(self.from)
    }
}

/// An alarm while it is active.
pub struct Active {
    pub number: usize,
    /// Its code and its component, where the table is known.
    pub name: String,
    pub from: u64,
    pub to: u64,
}

#[derive(Default)]
pub struct Link {
    /// The phase from a time on, a change each.
    pub phases: Vec<(u64, u32)>,
    pub issued: Vec<u64>,
    pub sent: Vec<u64>,
    pub answered: Vec<u64>,
    pub lost: Vec<u64>,
    /// Commands that its packets handed over, a time each.
    pub commands: Vec<u64>,
    /// What was held when another site was started.
    pub dropped: Vec<u64>,
    /// What a stored site held already.
    pub brought: usize,
    /// Records that are gone, and those still held at the end.
    pub gone: Vec<Stay>,
    pub held: Vec<Stay>,
    seen_lost: u64,
    first_pass: Pass,
}

/// The first pass after a greeting: the aggregated status, then each alarm once. What comes again carries a record.
#[derive(Default)]
struct Pass {
    aggregated: bool,
    alarms: Vec<String>,
    over: bool,
}

#[derive(Default)]
pub struct Day {
    /// North and south. One that was never there has no links.
    pub sites: [OfSite; SITES],
    pub first: u64,
    pub last: u64,
    pub calls: usize,
}

#[derive(Default)]
pub struct OfSite {
    pub name: String,
    /// Where it is known and there is one.
    pub primary: Option<u32>,
    pub links: Vec<Link>,
    /// In the order in which they became active.
    pub alarms: Vec<Active>,
    /// Which of them each alarm still is.
    active: [Option<usize>; ALARMS],
    alarm_names: Vec<String>,
    pub starts: Vec<u64>,
}

impl Day {
    /// After a line was played.
    pub fn note(&mut self, line: &Line, done: bool, player: &Player) {
        let time = match (line.time(), line) {
            (Some(time), _) if done => time,
            (None, Line::Restore { .. }) => return self.restore(player),
            _ => return,
        };
        self.first = if self.calls == 0 { time } else { self.first.min(time) };
        self.last = self.last.max(time);
        self.calls += 1;
        self.sites[player.at()].note(line, time, player);
        for (number, site) in self.sites.iter_mut().enumerate() {
            site.follow(number, time, player);
        }
    }

    /// Those that were there.
    pub fn seen(&self) -> impl Iterator<Item = (usize, &OfSite)> {
        self.sites.iter().enumerate().filter(|(_, site)| !site.links.is_empty())
    }

    pub fn links(&self) -> impl Iterator<Item = &Link> {
        self.sites.iter().flat_map(|site| &site.links)
    }

    fn restore(&mut self, player: &Player) {
        for (number, site) in self.sites.iter_mut().enumerate() {
            site.restore(number, self.last, player);
        }
    }

    /// The last call is behind us: what is held has been so up to it.
    pub fn end(&mut self) {
        for site in &mut self.sites {
            for stay in site.links.iter_mut().flat_map(|link| &mut link.held) {
                stay.to = self.last.max(stay.from);
            }
            for place in site.active.iter().flatten() {
                site.alarms[*place].to = self.last;
            }
        }
    }
}

impl OfSite {
    /// A done call of it.
    fn note(&mut self, line: &Line, time: u64, player: &Player) {
        match line {
            Line::Start { table, primary, .. } => self.start(table, *primary, player.links(player.at()) as usize, time),
            Line::Pump { link, .. } => self.send(*link, time, player),
            Line::Packet { link, .. } => self.links[*link as usize].commands.extend(player.handed().map(|_| time)),
            _ => {}
        }
    }

    /// What a done call, of this site or of the other, left of it.
    fn follow(&mut self, site: usize, time: u64, player: &Player) {
        self.follow_alarms(site, time, player);
        if player.links(site) == 0 {
            for link in &mut self.links {
                link.end(time);
            }
        }
        let links = if player.links(site) == 0 { self.links.len() } else { player.links(site) as usize };
        for (number, link) in self.links.iter_mut().enumerate().take(links) {
            link.follow(site, number as u32, time, player);
        }
    }

    fn follow_alarms(&mut self, site: usize, time: u64, player: &Player) {
        for number in 0..ALARMS {
            match (self.active[number], player.is_active(site, number as u32)) {
                (None, true) => {
                    self.active[number] = Some(self.alarms.len());
                    let name = self.alarm_names.get(number).cloned().unwrap_or_default();
                    self.alarms.push(Active { number, name, from: time, to: time });
                }
                (Some(place), false) => {
                    self.active[number] = None;
                    self.alarms[place].to = time.max(self.alarms[place].from);
                }
                _ => {}
            }
        }
    }

    /// How many alarms are active at the end.
    pub fn still_active(&self) -> usize {
        self.active.iter().flatten().count()
    }

    fn start(&mut self, table: &[u8], primary: u32, links: usize, time: u64) {
        let head = if table[0] >> 4 == 1 { 3 } else { 4 };
        let length = usize::from(table[head]);
        self.name = table[head + 1..head + 1 + length].iter().map(|byte| char::from(*byte)).collect();
        self.alarm_names = alarm_names(table);
        self.primary = Some(primary).filter(|primary| *primary != NO_PRIMARY);
        self.starts.push(time);
        for link in &mut self.links {
            link.end(time);
        }
        self.widen(links);
    }

    fn widen(&mut self, links: usize) {
        while self.links.len() < links {
            self.links.push(Link::default());
        }
    }

    /// A stored site goes on. What it holds and we do not know was issued before; what we know and it does not hold is left behind; a link
    /// that we first see Up has its first pass behind it.
    fn restore(&mut self, site: usize, last: u64, player: &Player) {
        self.widen(player.links(site) as usize);
        for (number, link) in self.links.iter_mut().enumerate() {
            let (phase, _, lost) = player.state(site, number as u32);
            link.restore(player.records(site, number as u32), phase, lost, last);
        }
    }

    /// What a pump sent, where it carries a record. Of the first pass only an alarm does that is as its newest record says.
    fn send(&mut self, number: u32, time: u64, player: &Player) {
        let message = String::from_utf8_lossy(player.written()).into_owned();
        let link = &mut self.links[number as usize];
        let pass = &mut link.first_pass;
        let is = |name: &str| message.contains(&format!("\"type\":\"{}\"", name));
        let carries = if is("AggregatedStatus") {
            std::mem::replace(&mut pass.aggregated, true) || pass.over
        } else if is("Alarm") && !pass.over && !pass.alarms.contains(&alarm_in(&message)) {
            let of_alarm = |record: &[u8; 16]| alarm_of(record) == Some(pass.alarms.len());
            let carries =
                player.records(player.at(), number).into_iter().rev().find(of_alarm).map_or(false, |record| says(&message, &record));
            pass.alarms.push(alarm_in(&message));
            carries
        } else {
            is("Alarm") || is("StatusUpdate")
        };
        if carries {
            link.sent.push(time);
        }
    }
}

impl Link {
    fn follow(&mut self, site: usize, number: u32, time: u64, player: &Player) {
        let (phase, held, lost) = player.state(site, number);
        if self.phases.last().map(|(_, phase)| *phase) != Some(phase) {
            self.phases.push((time, phase));
        }
        if phase < 2 {
            self.first_pass = Pass::default();
        }
        let newly_lost = (lost - self.seen_lost) as usize;
        self.seen_lost = lost;
        if newly_lost == 0 && held as usize == self.held.len() {
            return;
        }
        let records: Vec<u32> = player.records(site, number).iter().map(sequence_of).collect();
        let before = self.held.len();
        let (stay, left): (Vec<Stay>, Vec<Stay>) = self.held.drain(..).partition(|stay| records.contains(&stay.sequence));
        self.held = stay;
        self.gone.extend(left.into_iter().map(|stay| Stay { to: time, ..stay }));
        for sequence in records {
            if !self.held.iter().any(|stay| stay.sequence == sequence) {
                self.held.push(Stay { sequence, from: time, to: time });
            }
        }
        // A call answers a record or issues some, and never both.
        let issued = (self.held.len() + newly_lost).saturating_sub(before);
        let answered = before.saturating_sub(self.held.len() + newly_lost);
        self.issued.extend(std::iter::repeat(time).take(issued));
        self.answered.extend(std::iter::repeat(time).take(answered));
        self.lost.extend(std::iter::repeat(time).take(newly_lost));
    }

    fn restore(&mut self, records: Vec<[u8; 16]>, phase: u32, lost: u64, last: u64) {
        let holds = |stay: &Stay| records.iter().any(|record| sequence_of(record) == stay.sequence);
        let (stay, left): (Vec<Stay>, Vec<Stay>) = self.held.drain(..).partition(holds);
        self.dropped.extend(std::iter::repeat(last).take(left.len()));
        self.gone.extend(left.into_iter().map(|stay| Stay { to: last, ..stay }));
        let known = |record: &&[u8; 16]| stay.iter().any(|stay| stay.sequence == sequence_of(record));
        let brought: Vec<Stay> = records.iter().filter(|record| !known(record)).map(stay_of).collect();
        self.brought += brought.len();
        self.held = stay.into_iter().chain(brought).collect();
        self.seen_lost = lost;
        self.first_pass.over = self.first_pass.over || self.phases.is_empty() && phase == 3;
    }

    /// Another site begins.
    fn end(&mut self, time: u64) {
        self.dropped.extend(std::iter::repeat(time).take(self.held.len()));
        self.gone.extend(self.held.drain(..).map(|stay| Stay { to: time, ..stay }));
        self.seen_lost = 0;
        self.first_pass = Pass::default();
    }
}

fn alarm_names(table: &[u8]) -> Vec<String> {
    let named =
        |table: Table| table.alarms.iter().map(|alarm| format!("{} of {}", alarm.code, table.components[alarm.component])).collect();
    bits::read(table).map_or_else(|_| Vec::new(), named)
}

/// Of a record that was issued before: its own time is when.
fn stay_of(record: &[u8; 16]) -> Stay {
    Stay { sequence: sequence_of(record), from: time_of(record), to: time_of(record) }
}

/// The field of a record that is so wide and has so many bits behind it.
fn field(record: &[u8; 16], width: u32, behind: u32) -> u64 {
    (u128::from_be_bytes(*record) >> behind) as u64 & ((1 << width) - 1)
}

fn time_of(record: &[u8; 16]) -> u64 {
    field(record, 48, 63)
}

pub fn sequence_of(record: &[u8; 16]) -> u32 {
    field(record, 31, 0) as u32
}

/// The component and the code of an Alarm message.
fn alarm_in(message: &str) -> String {
    let from = message.find("\"cId\":").unwrap_or(0);
    let to = message.find(",\"xACId\":").unwrap_or(message.len());
    message.get(from..to).unwrap_or("").to_string()
}

/// The number of the alarm that a record is of.
fn alarm_of(record: &[u8; 16]) -> Option<usize> {
    Some(field(record, 6, 117) as usize).filter(|_| field(record, 2, 123) == 0)
}

/// Whether an Alarm message says what a record of its alarm does.
fn says(message: &str, record: &[u8; 16]) -> bool {
    let flags = field(record, 6, 111);
    let event = ["Issue", "Acknowledge", "Suspend"].get((flags >> 4) as usize).copied().unwrap_or("");
    let word = |bit: u8, yes: &'static str, no: &'static str| if flags >> bit & 1 == 1 { yes } else { no };
    let acknowledged = word(3, "Acknowledged", "notAcknowledged");
    let (active, suspended) = (word(2, "Active", "inActive"), word(1, "Suspended", "notSuspended"));
    let time = crate::moment::full(time_of(record));
    let states =
        format!("\"aSp\":\"{}\",\"ack\":\"{}\",\"aS\":\"{}\",\"sS\":\"{}\",\"aTs\":\"{}\"", event, acknowledged, active, suspended, time);
    message.contains(&states)
}
