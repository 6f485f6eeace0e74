//! What the process does at an order of the cabinet.

use crate::control::{Asked, Reply};
use crate::host::{Host, NOT_SAVED};
use crate::journal::Level;
use crate::memory::{link_of, place_of, site_of};
use crate::orders::{self, Order};
use crate::send::followed;
use rsmp_site::{Called, Phase, Refusal};

impl Host {
    pub fn answer(&mut self, asked: Asked) {
        let (text, input) = match self.read(&asked.line) {
            Ok((_, Order::Quit)) => {
                self.quitting = Some(asked.reply.say("done: goodbye"));
                return;
            }
            Ok((_, Order::Save)) => return self.save_for(asked.reply),
            Ok((named, order)) => self.obey(named, order),
            Err(message) => (format!("refused: {}", message), false),
        };
        let stored = self.calls.save_before_it_is_seen();
        asked.reply.say(if input && !stored { "done, not stored" } else { &text });
    }

    /// The site that an order names, and the order.
    fn read(&self, line: &str) -> Result<(Option<usize>, Order), String> {
        let (named, line) = orders::site_of(line, self.sites.len())?;
        Ok((named, orders::read(line, &self.sites[named.unwrap_or(0)].about.table)?))
    }

    /// Replied to when it is written.
    fn save_for(&mut self, reply: Reply) {
        match self.calls.give_state() {
            Some(number) => self.saving.push((number, reply)),
            None => drop(reply.say(NOT_SAVED)),
        }
    }

    /// The reply, and whether an input was taken.
    fn obey(&mut self, named: Option<usize>, order: Order) -> (String, bool) {
        let site = named.unwrap_or(0);
        let told = match order {
            Order::Counts => format!("done: {}", self.counts(site)),
            Order::Links => format!("done: {}", self.phases(site)),
            Order::Records => self.records(named),
            Order::Commands => {
                let counts = self.sites[site].commands.counts();
                format!("done: {}", counts.unwrap_or_else(|| "the table has no commands".to_string()))
            }
            Order::Show => followed(&self.shown(site).lines()),
            Order::ShowJson => followed(&[self.shown(site).json()]),
            Order::Help | Order::Quit | Order::Save => format!("done: {}", orders::HELP),
            _ => return self.take_input(site, &order),
        };
        (told, false)
    }

    fn take_input(&mut self, site: usize, order: &Order) -> (String, bool) {
        let mut called = self.input(site, order);
        if called == Err(Refusal::SequenceSpent) {
            self.start_anew(site, Level::Error, "used up");
            called = self.input(site, order);
        }
        match called {
            Ok(_) => ("done".to_string(), true),
            Err(refusal) => (format!("refused: {}", refusal), false),
        }
    }

    fn input(&mut self, site: usize, order: &Order) -> Called {
        match *order {
            Order::Alarm(number, active) => self.calls.alarm(site, number, active),
            Order::Status(number, value) => self.calls.status(site, number, value),
            Order::Aggregated(value) => self.calls.aggregated(site, value),
            _ => Err(Refusal::Ignored),
        }
    }

    /// The records held and lost of each link.
    pub fn counts(&self, site: usize) -> String {
        let site = self.calls.site(site);
        let each = (0..site.links()).map(|link| format!("link {} holds {}, lost {}", link, site.held(link), site.lost(link)));
        each.collect::<Vec<_>>().join("; ")
    }

    pub fn counts_of_all(&self) -> String {
        let each = (0..self.sites.len()).map(|site| format!("{}{}", self.named(site), self.counts(site)));
        each.collect::<Vec<_>>().join("; ")
    }

    /// The held records as CSV, of the site that is named or of all, link by link, oldest first. Each line has the CR of its end.
    fn records(&self, named: Option<usize>) -> String {
        let (mut lines, mut out) = (vec![without_feed(&rsmp_csv::header())], [0; rsmp_csv::LINE]);
        for number in (0..self.sites.len()).filter(|number| named.map_or(true, |named| named == *number)) {
            let site = self.calls.site(number);
            for record in (0..site.links()).flat_map(|link| site.records(link)) {
                match rsmp_csv::line(&record, &mut out) {
                    Some(line) => lines.push(without_feed(line)),
                    None => return "refused: what is held has no line".to_string(),
                }
            }
        }
        followed(&lines)
    }

    /// A link's phase, and where it is Up its version.
    pub fn phase_of(&self, link: u32) -> String {
        let (site, link) = (self.calls.site(site_of(link)), link_of(link));
        match (site.phase(link), site.version(link)) {
            (Phase::Up, Some((major, minor, patch))) => format!("Up, RSMP {}.{}.{}", major, minor, patch),
            (phase, _) => format!("{:?}", phase),
        }
    }

    fn phases(&self, site: usize) -> String {
        let each = (0..self.sites[site].links.len() as u32).map(|link| format!("link {} {}", link, self.phase_of(place_of(site, link))));
        each.collect::<Vec<_>>().join("; ")
    }
}

fn without_feed(line: &[u8]) -> String {
    String::from_utf8_lossy(&line[..line.len() - 1]).into_owned()
}
