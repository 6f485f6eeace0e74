//! Packets out of a stream of bytes: each ends with a form feed, empty ones are skipped, too long ones are dropped.

use rsmp_site::PACKET_BYTES;

pub const FORM_FEED: u8 = 0x0C;

#[derive(Debug, PartialEq, Eq)]
pub enum Frame {
    Packet(Vec<u8>),
    /// A packet of so many bytes that no call would read it.
    TooLong(u64),
}

#[derive(Default)]
pub struct Framer {
    packet: Vec<u8>,
    dropped: u64,
}

impl Framer {
    pub fn push(&mut self, bytes: &[u8], mut found: impl FnMut(Frame)) {
        for &byte in bytes {
            if byte == FORM_FEED {
                if let Some(frame) = self.end() {
                    found(frame);
                }
            } else if self.dropped > 0 {
                self.dropped += 1;
            } else if self.packet.len() == PACKET_BYTES {
                self.dropped = PACKET_BYTES as u64 + 1;
                self.packet.clear();
            } else {
                self.packet.push(byte);
            }
        }
    }

    /// How many bytes stand behind the last form feed.
    pub fn unfinished(&self) -> u64 {
        self.packet.len() as u64 + self.dropped
    }

    fn end(&mut self) -> Option<Frame> {
        let dropped = std::mem::take(&mut self.dropped);
        let packet = std::mem::take(&mut self.packet);
        if dropped > 0 {
            Some(Frame::TooLong(dropped))
        } else if packet.is_empty() {
            None
        } else {
            Some(Frame::Packet(packet))
        }
    }
}

#[cfg(test)]
mod tests {
    use super::*;

    fn frames(parts: &[&[u8]]) -> (Vec<Frame>, u64) {
        let mut framer = Framer::default();
        let mut found = Vec::new();
        for part in parts {
            framer.push(part, |frame| found.push(frame));
        }
        (found, framer.unfinished())
    }

    fn packet(text: &[u8]) -> Frame {
        Frame::Packet(text.to_vec())
    }

    #[test]
    fn form_feeds() {
        assert_eq!(frames(&[b"\x0c\x0c{}\x0c\x0c", b"a", b"b\x0cc"]), (vec![packet(b"{}"), packet(b"ab")], 1));
        assert_eq!(frames(&[b"one\x0ctwo\x0cthree\x0c"]), (vec![packet(b"one"), packet(b"two"), packet(b"three")], 0));
    }

    #[test]
    fn lengths() {
        let longest = vec![b'x'; PACKET_BYTES];
        assert_eq!(frames(&[&longest, b"\x0c"]), (vec![packet(&longest)], 0));
        assert_eq!(frames(&[&longest, b"x\x0cy\x0c"]), (vec![Frame::TooLong(PACKET_BYTES as u64 + 1), packet(b"y")], 0));
        assert_eq!(frames(&[&longest, &longest, &longest]), (vec![], 3 * PACKET_BYTES as u64));
    }
}
