//! How long to wait before a supervisor is called again: twice as long each time, up to a limit, and never quite as long as another
//! site would wait.

use std::collections::hash_map::RandomState;
use std::hash::{BuildHasher, Hasher};
use std::time::Duration;

pub struct Pauses {
    first: Duration,
    limit: Duration,
    next: Duration,
    random: RandomState,
    drawn: u64,
}

impl Pauses {
    pub fn new(first: Duration, limit: Duration) -> Pauses {
        let limit = limit.max(first);
        Pauses { first, limit, next: first, random: RandomState::new(), drawn: 0 }
    }

    /// The last connection was good.
    pub fn begin_again(&mut self) {
        self.next = self.first;
    }

    /// The next pause, up to a tenth shorter or longer.
    pub fn take(&mut self) -> Duration {
        let pause = self.next;
        self.next = (pause * 2).min(self.limit);
        self.drawn += 1;
        let mut hasher = self.random.build_hasher();
        hasher.write_u64(self.drawn);
        pause.mul_f64(0.9 + (hasher.finish() % 2001) as f64 / 10_000.0)
    }
}

#[cfg(test)]
mod tests {
    use super::*;

    #[test]
    fn pauses_grow_to_the_limit() {
        let mut pauses = Pauses::new(Duration::from_secs(1), Duration::from_secs(10));
        let near = |pause: Duration, wanted: f64| (0.9 * wanted..=1.101 * wanted).contains(&pause.as_secs_f64());
        for wanted in [1.0, 2.0, 4.0, 8.0, 10.0, 10.0] {
            let pause = pauses.take();
            assert!(near(pause, wanted), "{:?} for {}", pause, wanted);
        }
        pauses.begin_again();
        assert!(near(pauses.take(), 1.0));
        let drawn: Vec<Duration> = (0..9).map(|_| pauses.take()).collect();
        assert!(drawn[5..].windows(2).any(|two| two[0] != two[1]));
    }
}
