//! The end that waits until every record is answered: what is held does not outlive a new table, a new version of the stored site, or a start without it.

use crate::host::Host;
use crate::journal::Level;
use std::time::{Duration, Instant};

/// How long is waited at the end, and until when.
pub struct Drain {
    limit: Duration,
    until: Option<Instant>,
}

impl Drain {
    pub fn new(limit: Duration) -> Drain {
        Drain { limit, until: None }
    }

    /// How long it still may take, while it waits: for who would end it otherwise.
    pub fn left(&self) -> Option<Duration> {
        self.until.map(|until| until.saturating_duration_since(Instant::now()))
    }
}

impl Host {
    /// Whether the site that was told to end does so now.
    pub fn is_over(&mut self, told: bool) -> bool {
        if !told && !self.is_quitting() {
            return false;
        }
        if !self.holds_something() || self.drain.limit.is_zero() {
            return true;
        }
        match self.drain.until {
            None => {
                self.drain.until = Some(Instant::now() + self.drain.limit);
                let text = format!("is to end, and waits up to {} s for answers: {}", self.drain.limit.as_secs_f64(), self.counts_of_all());
                self.say_of_site(Level::Info, text);
                false
            }
            Some(until) if Instant::now() < until => false,
            Some(_) => {
                let text = format!("ends with records that are not answered: {}", self.counts_of_all());
                self.say_of_site(Level::Warning, text);
                true
            }
        }
    }
}
