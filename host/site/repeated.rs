//! Lines of one kind that come fast: the first of a second are written, the others counted, and told of when it is over.

use crate::journal::Level;
use std::collections::BTreeMap;
use std::time::{Duration, Instant};

/// So many of one kind and link: more than a site sends at once that has come back with everything that it held.
const MOST: u64 = 100;
const SECOND: Duration = Duration::from_secs(1);

pub struct Repeated {
    began: Instant,
    /// How many came of each kind, by link; the kind is none that a supervisor can make up.
    seen: BTreeMap<(Option<u32>, Level, String), u64>,
}

/// What is to be told of a link, and how loudly.
#[derive(Debug, PartialEq, Eq)]
pub struct LeftOut {
    pub link: Option<u32>,
    pub level: Level,
    pub text: String,
}

impl Default for Repeated {
    fn default() -> Repeated {
        Repeated { began: Instant::now(), seen: BTreeMap::new() }
    }
}

impl Repeated {
    /// Whether a line of this kind is still to be written.
    pub fn allows(&mut self, link: Option<u32>, level: Level, kind: &str) -> bool {
        let seen = self.seen.entry((link, level, kind.to_string())).or_default();
        *seen += 1;
        *seen <= MOST
    }

    /// What was left out in the second that is over, a line a link.
    pub fn over(&mut self, at: Instant) -> Vec<LeftOut> {
        if at.saturating_duration_since(self.began) < SECOND {
            return Vec::new();
        }
        self.began = at;
        let mut left_out: Vec<LeftOut> = Vec::new();
        for ((link, level, kind), seen) in std::mem::take(&mut self.seen) {
            if seen <= MOST {
                continue;
            }
            let text = format!("{} like \"{}\"", seen - MOST, kind);
            match left_out.last_mut().filter(|last| last.link == link) {
                Some(last) => last.text = format!("{}, {}", last.text, text),
                None => left_out.push(LeftOut { link, level, text: format!("lines that are left out here: {}", text) }),
            }
        }
        left_out
    }
}

#[cfg(test)]
mod tests {
    use super::*;

    #[test]
    fn counted_and_told_once_a_second_and_link() {
        let mut repeated = Repeated::default();
        let (began, mut written) = (repeated.began, 0);
        for _ in 0..MOST + 40 {
            written += u64::from(repeated.allows(Some(0), Level::Message, "! ?"));
            repeated.allows(Some(0), Level::Warning, "a");
            repeated.allows(None, Level::Error, "the");
        }
        assert!(repeated.allows(Some(1), Level::Message, "! ?"));
        assert_eq!((written, repeated.over(began).len()), (MOST, 0));
        let told: Vec<(Option<u32>, Level, String)> =
            repeated.over(began + SECOND).into_iter().map(|told| (told.link, told.level, told.text)).collect();
        let text = |kinds: &str| format!("lines that are left out here: {}", kinds);
        assert_eq!(
            told,
            [(None, Level::Error, text("40 like \"the\"")), (Some(0), Level::Warning, text("40 like \"a\", 40 like \"! ?\""))]
        );
        assert!(repeated.over(began + 2 * SECOND).is_empty() && repeated.allows(Some(0), Level::Message, "! ?"));
    }
}
