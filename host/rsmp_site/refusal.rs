use core::fmt;

/// Why a call was refused: the numbers of rsmp_site.h but 0.
#[derive(Clone, Copy, Debug, PartialEq, Eq)]
pub enum Refusal {
    Ignored = 1,
    NoLink = 2,
    NoItem = 3,
    ShortOutput = 4,
    BadTime = 5,
    WrongPhase = 6,
    NothingDue = 7,
    Full = 8,
    SameIdentity = 9,
    SequenceSpent = 10,
    NotAccepted = 11,
    LongPacket = 12,
}

use Refusal::*;

const ALL: [Refusal; 12] =
    [Ignored, NoLink, NoItem, ShortOutput, BadTime, WrongPhase, NothingDue, Full, SameIdentity, SequenceSpent, NotAccepted, LongPacket];

impl Refusal {
    pub fn number(self) -> u32 {
        self as u32
    }

    /// None for 0, which is no refusal.
    pub(crate) fn of_number(number: u32) -> Option<Refusal> {
        match number {
            0 => None,
            _ => Some(*ALL.get(number as usize - 1).expect("the library gives no other numbers")),
        }
    }
}

impl fmt::Display for Refusal {
    fn fmt(&self, formatter: &mut fmt::Formatter) -> fmt::Result {
        let text = match self {
            Ignored => "the packet is not answered",
            NoLink => "no such link",
            NoItem => "no such alarm or status in the site table",
            ShortOutput => "the output is shorter than 4096 bytes",
            BadTime => "the time is before that of an earlier call, or past the year 9999",
            WrongPhase => "the link is connected already, or not connected",
            NothingDue => "nothing is due",
            Full => "8 or more answers are outstanding on the link",
            SameIdentity => "the random bytes make an identity that is awaited already",
            SequenceSpent => "the sequence numbers are used up",
            NotAccepted => "the site table or a start value is not accepted",
            LongPacket => "the packet is longer than 4096 bytes",
        };
        write!(formatter, "{} (number {})", text, self.number())
    }
}

#[cfg(feature = "std")]
impl std::error::Error for Refusal {}
