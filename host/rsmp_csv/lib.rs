//! Records of a site as lines of comma-separated fields, and back, over the proved library: its calls without `unsafe`. docs/CSV.md has the columns.

#![no_std]

/// As `rsmp_csv.h` has them: the bytes of the header, those that are room enough for every line, and those of a record.
pub const HEADER: usize = 73;
pub const LINE: usize = 66;
pub const RECORD: usize = 16;

#[repr(C)]
struct Told {
    written: u64,
    number: u64,
}

#[repr(C)]
struct Line {
    next: u64,
    line: u64,
    own: u64,
    answer: u64,
    record: [u8; RECORD],
}

#[link(name = "rsmp_csv", kind = "static")]
extern "C" {
    fn rsmp_csv_header(out: *mut u8, out_len: usize) -> Told;
    fn rsmp_csv_line(record: *const u8, record_len: usize, out: *mut u8, out_len: usize) -> Told;
    fn rsmp_csv_read(text: *const u8, text_len: usize, at: u64, line: u64) -> Line;
}

/// The first line, with its CRLF.
pub fn header() -> [u8; HEADER] {
    let mut out = [0; HEADER];
    // SAFETY: the output is lent with its own length, and for the call alone.
    let told = unsafe { rsmp_csv_header(out.as_mut_ptr(), HEADER) };
    assert_eq!((told.number, told.written), (0, HEADER as u64));
    out
}

/// A record's line with its CRLF, if it is a record.
pub fn line<'a>(record: &[u8], out: &'a mut [u8; LINE]) -> Option<&'a [u8]> {
    // SAFETY: each slice is lent with its own length, for the call alone, and they lie apart.
    let told = unsafe { rsmp_csv_line(record.as_ptr(), record.len(), out.as_mut_ptr(), LINE) };
    (told.number == 0).then(|| &out[..told.written as usize])
}

/// Why a line is not accepted, the first that applies.
#[derive(Clone, Copy, Debug, PartialEq, Eq)]
pub enum Reason {
    WrongHeader,
    BadQuoting,
    WrongCount,
    UnknownKind,
    WrongPresence,
    NoRecord,
}

impl Reason {
    pub fn text(self) -> &'static str {
        match self {
            Reason::WrongHeader => "wrong header",
            Reason::BadQuoting => "bad quoting",
            Reason::WrongCount => "wrong field count",
            Reason::UnknownKind => "unknown kind",
            Reason::WrongPresence => "field not allowed or lacking for its kind",
            Reason::NoRecord => "fields no record is written with",
        }
    }
}

/// The lines of a text behind its header, each with its number and what it comes to. Behind a wrong header there is none.
pub struct Lines<'a> {
    text: &'a [u8],
    at: u64,
    line: u64,
    ended: bool,
}

pub fn lines(text: &[u8]) -> Lines<'_> {
    Lines { text, at: 0, line: 1, ended: false }
}

impl Iterator for Lines<'_> {
    type Item = (u64, Result<[u8; RECORD], Reason>);

    fn next(&mut self) -> Option<Self::Item> {
        if self.ended {
            return None;
        }
        // SAFETY: the text is lent with its own length, and for the call alone.
        let read = unsafe { rsmp_csv_read(self.text.as_ptr(), self.text.len(), self.at, self.line) };
        (self.at, self.line) = (read.next, read.line);
        let reason = match read.answer {
            0 => return Some((read.own, Ok(read.record))),
            1 => Reason::WrongHeader,
            2 => Reason::BadQuoting,
            3 => Reason::WrongCount,
            4 => Reason::UnknownKind,
            5 => Reason::WrongPresence,
            6 => Reason::NoRecord,
            _ => {
                self.ended = true;
                return None;
            }
        };
        self.ended = reason == Reason::WrongHeader;
        Some((read.own, Err(reason)))
    }
}
