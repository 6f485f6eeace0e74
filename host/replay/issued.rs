//! The records that a script's calls issue, as lines of CSV.

use crate::checked::Player;
use crate::day::sequence_of;
use crate::script::Line;
use std::io::{self, Write};

/// The sites before a line, their pool empty: what is held behind the line's call, that call has issued, also what it would lose at once of a full pool.
#[derive(Default)]
pub struct Issued {
    before: Option<Player>,
}

impl Issued {
    /// After a line was played. A stored site brings records that were issued before.
    pub fn write(&mut self, line: &Line, done: bool, player: &Player, mut output: impl Write) -> io::Result<()> {
        let before = self.before.replace(player.emptied()).filter(|_| done && line.time().is_some());
        if let Some(mut sites) = before {
            let (_, site) = (sites.play(player.whose(), line), player.at());
            let mut records: Vec<[u8; 16]> = (0..sites.links(site)).flat_map(|link| sites.records(site, link)).collect();
            records.sort_by_key(sequence_of);
            for record in records {
                output.write_all(line_of(&record, &mut [0; rsmp_csv::LINE])?)?;
            }
        }
        Ok(())
    }
}

fn line_of<'a>(record: &[u8; 16], out: &'a mut [u8; rsmp_csv::LINE]) -> io::Result<&'a [u8]> {
    rsmp_csv::line(record, out).ok_or_else(|| io::Error::new(io::ErrorKind::InvalidData, "a record that has no line"))
}
