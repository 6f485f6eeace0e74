//! How fast packets are read from a link: so many a second, a second's worth of them at once. Who sends more waits, and loses nothing.

use std::thread;
use std::time::{Duration, Instant};

const SECOND: Duration = Duration::from_secs(1);
/// That a link is held back is told so often.
const TOLD: Duration = Duration::from_secs(60);

pub struct Pace {
    /// Between two packets; None where there is no limit.
    gap: Option<Duration>,
    /// When all that came would have come at this pace.
    until: Instant,
    told: Option<Instant>,
}

impl Pace {
    /// So many packets a second; 0 for no limit.
    pub fn new(rate: u32) -> Pace {
        let gap = Some(rate).filter(|rate| *rate > 0).map(|rate| SECOND / rate);
        Pace { gap, until: Instant::now(), told: None }
    }

    /// Before each packet; true where it is to be told that the link is held back.
    pub fn wait(&mut self) -> bool {
        let now = Instant::now();
        let pause = self.pause(now);
        if pause.is_zero() {
            return false;
        }
        let tell = self.told.map_or(true, |told| now.saturating_duration_since(told) >= TOLD);
        if tell {
            self.told = Some(now);
        }
        thread::sleep(pause);
        tell
    }

    fn pause(&mut self, now: Instant) -> Duration {
        match self.gap {
            None => Duration::ZERO,
            Some(gap) => {
                self.until = self.until.max(now) + gap;
                self.until.saturating_duration_since(now + SECOND)
            }
        }
    }
}

#[cfg(test)]
mod tests {
    use super::*;

    #[test]
    fn a_second_at_once_and_then_no_faster() {
        let mut pace = Pace::new(10);
        let now = pace.until;
        let pauses: Vec<u128> = (0..13).map(|_| pace.pause(now).as_millis()).collect();
        assert_eq!(pauses, [0, 0, 0, 0, 0, 0, 0, 0, 0, 0, 100, 200, 300]);
        assert_eq!(pace.pause(now + 9 * SECOND), Duration::ZERO);
        let mut free = Pace::new(0);
        assert!((0..10_000).all(|_| free.pause(now).is_zero()));
    }

    #[test]
    fn told_once_a_minute() {
        let mut pace = Pace::new(1000);
        let told = (0..1020).filter(|_| pace.wait()).count();
        assert_eq!(told, 1);
    }
}
