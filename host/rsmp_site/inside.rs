//! The inputs, values and subscriptions that stand in a site, for people to look at. The library has no readings of them: they are read from the words
//! in which docs/ARCHITECTURE.md places them, of the edition `SITE_EDITION`.

use crate::ffi::WORDS;
use crate::{Lent, Site, LINKS};

/// A link's share of the subscriptions, and the alarms and statuses there are places for.
const ROWS: u32 = 32;
const NEXT_NUMBER: usize = 0;
const AGGREGATED: usize = 4;
const SUBSCRIPTIONS: usize = 305;
const ALARMS: usize = 561;
const STATUSES: usize = 625;

/// How an alarm stands.
#[derive(Clone, Copy, Debug, PartialEq, Eq)]
pub struct AlarmState {
    pub active: bool,
    pub acknowledged: bool,
    pub suspended: bool,
    /// Of its last event, or of the site's start.
    pub time: u64,
}

impl AlarmState {
    /// In a site's words; None past the places there are. Of a number that the table does not have, as at a start.
    pub fn of(words: &[u64; WORDS], number: u32) -> Option<AlarmState> {
        let at = ALARMS + 2 * place(number)?;
        let (time, states) = (words[at], words[at + 1]);
        let is = |bit: u32| states >> bit & 0xFFFF != 0;
        Some(AlarmState { active: is(16), acknowledged: is(32), suspended: is(0), time })
    }
}

/// What a link gets of a status.
#[derive(Clone, Copy, Debug, PartialEq, Eq)]
pub struct Subscription {
    /// Every so many seconds; 0 for never.
    pub seconds: u32,
    pub on_change: bool,
}

impl<M: Lent> Site<M> {
    /// The sequence number of the next record; 2147483648 where they are used up.
    pub fn next_number(&self) -> u64 {
        self.lent.parts().words[NEXT_NUMBER]
    }

    /// The eight booleans of the aggregated status, the first in the highest bit.
    pub fn aggregated_value(&self) -> u8 {
        self.lent.parts().words[AGGREGATED] as u8
    }

    /// How an alarm stands.
    pub fn alarm_state(&self, number: u32) -> Option<AlarmState> {
        AlarmState::of(self.lent.parts().words, number)
    }

    /// The last value of a status, where one was set.
    pub fn status_value(&self, number: u32) -> Option<i32> {
        let word = self.lent.parts().words[STATUSES + place(number)?];
        Some((word >> 32) as u32 as i32).filter(|_| word & 0xFFFF_FFFF != 0)
    }

    /// What a link has subscribed to of a status, where it has.
    pub fn subscription(&self, link: u32, status: u32) -> Option<Subscription> {
        let row = ROWS as usize * Some(link as usize).filter(|_| link < LINKS)? + place(status)?;
        let word = self.lent.parts().words[SUBSCRIPTIONS + 2 * row + 1];
        let state = word & 0xFFFF_FFFF;
        Some(Subscription { seconds: (word >> 32) as u32, on_change: state == 2 }).filter(|_| state != 0)
    }
}

fn place(number: u32) -> Option<usize> {
    Some(number as usize).filter(|_| number < ROWS)
}
