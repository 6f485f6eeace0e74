//! The time that the library is given: monotonic time and an offset that only grows, so that no set clock makes it go back or stand. Since it cannot go
//! back, a clock that is far ahead is not believed at once.

use rsmp_site::LAST_TIME;
use std::fs;
use std::path::PathBuf;
use std::time::{Instant, SystemTime, UNIX_EPOCH};

/// Where times come from, in milliseconds.
enum Source {
    Machine,
    /// For tests: a file of two numbers, the system's clock at our start and how much longer than it seems we run.
    Fed(PathBuf),
}

struct Reading {
    monotonic: u64,
    /// Since 1970 UTC, as the system's clock stands.
    system: u64,
}

impl Source {
    fn read(&self, began: Instant) -> Option<Reading> {
        match self {
            // The system's clock first: were we stopped in between, the offset would come out too small, never too large.
            Source::Machine => {
                let since = SystemTime::now().duration_since(UNIX_EPOCH);
                let system = since.map_or(0, |since| since.as_millis() as u64);
                let monotonic = began.elapsed().as_millis() as u64;
                Some(Reading { monotonic, system })
            }
            Source::Fed(path) => {
                let text = fs::read_to_string(path).ok()?;
                let mut numbers = text.split_ascii_whitespace().map(|word| word.parse::<u64>().ok());
                let (at_start, longer) = (numbers.next()??, numbers.next()??);
                let monotonic = began.elapsed().as_millis() as u64 + longer;
                Some(Reading { monotonic, system: at_start.saturating_add(monotonic) })
            }
        }
    }
}

const DAY: u64 = 86_400_000;
/// A clock that is further ahead is believed when it has been so for so long ..
const LASTING: u64 = 60_000;
/// .. or when the primary's clock differs from it by no more.
const AGREEING: u64 = 3_600_000;

/// A system's clock that is more than a day ahead: by what offset, and since which monotonic time.
struct Doubted {
    offset: u64,
    since: u64,
    told: bool,
}

/// A time that never goes back, made of the two.
#[derive(Default)]
struct Steady {
    offset: Option<u64>,
    last: u64,
    doubted: Option<Doubted>,
    /// The offset of the primary's clock.
    hint: Option<u64>,
}

impl Steady {
    fn at(&mut self, reading: &Reading) -> u64 {
        let given = reading.system.saturating_sub(reading.monotonic);
        let ours = self.offset.unwrap_or(given);
        let offset = if given.saturating_sub(ours) <= DAY || self.is_believed(given, reading.monotonic) {
            self.doubted = None;
            ours.max(given)
        } else {
            ours
        };
        self.offset = Some(offset);
        self.last = self.last.max(reading.monotonic.saturating_add(offset).min(LAST_TIME));
        self.last
    }

    /// Of an offset that is more than a day ahead of ours.
    fn is_believed(&mut self, given: u64, monotonic: u64) -> bool {
        let is_the_same = |doubted: &Doubted| doubted.offset.abs_diff(given) <= DAY;
        let Doubted { since, .. } = *match self.doubted.take().filter(is_the_same) {
            Some(doubted) => self.doubted.insert(doubted),
            None => self.doubted.insert(Doubted { offset: given, since: monotonic, told: false }),
        };
        monotonic.saturating_sub(since) >= LASTING || self.hint.map_or(false, |hint| hint.abs_diff(given) <= AGREEING)
    }

    /// The site was at this time: where the system's clock is ahead of it, that is judged as though it had been set.
    fn go_on_from(&mut self, time: u64, reading: &Reading) {
        *self = Steady { offset: Some(time.saturating_sub(reading.monotonic)), last: time.min(LAST_TIME), ..Steady::default() };
    }
}

pub struct Clock {
    source: Source,
    began: Instant,
    steady: Steady,
    last_offset: u64,
}

impl Clock {
    pub fn machine() -> Clock {
        Clock::of(Source::Machine)
    }

    pub fn fed(path: PathBuf) -> Clock {
        Clock::of(Source::Fed(path))
    }

    fn of(source: Source) -> Clock {
        let (began, steady) = (Instant::now(), Steady::default());
        let mut clock = Clock { source, began, steady, last_offset: 0 };
        clock.now();
        clock.last_offset = clock.offset();
        clock
    }

    fn offset(&self) -> u64 {
        self.steady.offset.unwrap_or(0)
    }

    /// Milliseconds since 1970 UTC.
    pub fn now(&mut self) -> u64 {
        match self.source.read(self.began) {
            Some(reading) => self.steady.at(&reading),
            None => self.steady.last,
        }
    }

    /// The site goes on that was at this time.
    pub fn go_on_from(&mut self, time: u64) {
        if let Some(reading) = self.source.read(self.began) {
            self.steady.go_on_from(time, &reading);
            self.last_offset = self.offset();
        }
    }

    /// The primary's clock says this.
    pub fn hint(&mut self, time: u64) {
        if let Some(reading) = self.source.read(self.began) {
            self.steady.hint = Some(time.saturating_sub(reading.monotonic));
        }
    }

    /// By how many milliseconds our time jumped ahead since this was last asked.
    pub fn take_jump(&mut self) -> u64 {
        let jump = self.offset() - self.last_offset;
        self.last_offset = self.offset();
        jump
    }

    /// By how many milliseconds the system's clock is ahead and not believed, once for each time that it is set so.
    pub fn take_doubt(&mut self) -> Option<u64> {
        let ours = self.offset();
        let doubted = self.steady.doubted.as_mut().filter(|doubted| !doubted.told)?;
        doubted.told = true;
        Some(doubted.offset.saturating_sub(ours))
    }

    /// By how many milliseconds the system's clock is behind our time.
    pub fn system_behind(&mut self) -> u64 {
        match self.source.read(self.began) {
            Some(reading) => self.steady.at(&reading).saturating_sub(reading.system),
            None => 0,
        }
    }
}

#[cfg(test)]
mod tests {
    use super::*;

    const HOUR: u64 = 3_600_000;
    const NOON: u64 = 1_254_398_371_571;

    fn at(monotonic: u64, system: u64) -> Reading {
        Reading { monotonic, system }
    }

    #[test]
    fn a_clock_set_back_changes_nothing() {
        let mut steady = Steady::default();
        assert_eq!(steady.at(&at(0, NOON)), NOON);
        assert_eq!(steady.at(&at(1000, NOON + 1000)), NOON + 1000);
        assert_eq!(steady.at(&at(2000, NOON + 2000 - HOUR)), NOON + 2000);
        assert_eq!(steady.at(&at(62_000, NOON + 62_000 - HOUR)), NOON + 62_000);
        assert_eq!(steady.at(&at(63_000, NOON + 63_000)), NOON + 63_000);
    }

    #[test]
    fn a_clock_set_right_is_followed() {
        let mut steady = Steady::default();
        assert_eq!(steady.at(&at(0, 0)), 0);
        assert_eq!(steady.at(&at(5000, 5000)), 5000);
        assert_eq!(steady.at(&at(6000, NOON)), 6000);
        assert_eq!(steady.at(&at(65_999, NOON + 59_999)), 65_999);
        assert_eq!(steady.at(&at(66_000, NOON + 60_000)), NOON + 60_000);
        assert_eq!(steady.at(&at(67_000, NOON + 61_000 + DAY)), NOON + 61_000 + DAY);
    }

    #[test]
    fn a_short_jump_is_not_kept() {
        let mut steady = Steady::default();
        assert_eq!(steady.at(&at(0, NOON)), NOON);
        for second in 1..50 {
            assert_eq!(steady.at(&at(1000 * second, NOON + 1000 * second + 365 * DAY)), NOON + 1000 * second);
        }
        assert_eq!(steady.at(&at(50_000, NOON + 50_000)), NOON + 50_000);
        assert_eq!(steady.at(&at(51_000, NOON + 51_000 + 365 * DAY)), NOON + 51_000);
        assert_eq!(steady.at(&at(110_000, NOON + 110_000 + 2 * 365 * DAY)), NOON + 110_000);
        assert_eq!(steady.at(&at(169_000, NOON + 169_000 + 2 * 365 * DAY)), NOON + 169_000);
        assert_eq!(steady.at(&at(170_000, NOON + 170_000 + 2 * 365 * DAY)), NOON + 170_000 + 2 * 365 * DAY);
    }

    #[test]
    fn the_primary_agrees() {
        let mut steady = Steady { hint: Some(NOON + HOUR), ..Steady::default() };
        assert_eq!(steady.at(&at(0, 0)), 0);
        assert_eq!(steady.at(&at(5, 5 + NOON - 1)), 5);
        assert_eq!(steady.at(&at(6, 6 + NOON)), 6 + NOON);
    }

    #[test]
    fn a_stored_time_is_not_gone_behind() {
        let mut steady = Steady::default();
        steady.at(&at(9, NOON + 5 * DAY));
        steady.go_on_from(NOON, &at(10, 4));
        assert_eq!(steady.at(&at(10, 4)), NOON);
        assert_eq!(steady.at(&at(110, 104)), NOON + 100);
        assert_eq!(steady.at(&at(120, NOON + HOUR)), NOON + HOUR);
        steady.go_on_from(NOON, &at(130, NOON + 2 * DAY));
        assert_eq!(steady.at(&at(140, NOON + 2 * DAY + 10)), NOON + 10);
        assert_eq!(steady.at(&at(60_140, NOON + 2 * DAY + 60_010)), NOON + 2 * DAY + 60_010);
    }

    #[test]
    fn the_last_time_is_the_last() {
        let mut steady = Steady::default();
        assert_eq!(steady.at(&at(0, LAST_TIME + 5)), LAST_TIME);
        assert_eq!(steady.at(&at(9, LAST_TIME + 14)), LAST_TIME);
    }
}
