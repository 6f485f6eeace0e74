//! A file with two places that are written in turn, where they lie: one sync each, where a new file and its rename take two. What a power cut tears is the
//! older place; then the other one is read.

use crate::image::TURN_NAME;
use crate::state::replace;
use rsmp_site::check_sum;
use std::fs::{self, File, OpenOptions};
use std::io;
use std::os::unix::fs::{FileExt, MetadataExt};
use std::path::{Path, PathBuf};

/// A place is a whole number of a disk's pages.
const PAGE: usize = 4096;

/// A file that is written over and over.
pub struct Kept {
    pub path: PathBuf,
    in_turn: bool,
    slots: Option<Slots>,
}

impl Kept {
    pub fn new(path: PathBuf, in_turn: bool) -> Kept {
        Kept { path, in_turn, slots: None }
    }

    /// In place, with one sync; the first time, and where that does not do, by a new file.
    pub fn write(&mut self, bytes: &[u8]) -> io::Result<()> {
        if !self.in_turn {
            return replace(&self.path, bytes);
        }
        if self.slots.as_mut().map_or(false, |slots| slots.put(bytes).is_ok()) {
            return Ok(());
        }
        self.slots = None;
        replace(&self.path, &beginning(bytes))?;
        self.slots = Slots::open(&self.path).ok();
        Ok(())
    }
}

/// An open file of two places.
struct Slots {
    path: PathBuf,
    file: File,
    inode: u64,
    turn: u64,
    place: usize,
}

impl Slots {
    /// A file that was made of `beginning(content)`.
    fn open(path: &Path) -> io::Result<Slots> {
        let file = OpenOptions::new().write(true).open(path)?;
        let about = file.metadata()?;
        Ok(Slots { path: path.to_path_buf(), file, inode: about.ino(), turn: 1, place: about.len() as usize / 2 })
    }

    /// Writes over the older place and syncs it. Nothing where the file is no longer at its path, or where it does not fit.
    fn put(&mut self, content: &[u8]) -> io::Result<()> {
        let bytes = whole(self.turn + 1, content);
        if bytes.len() > self.place || fs::metadata(&self.path)?.ino() != self.inode {
            return Err(io::ErrorKind::NotFound.into());
        }
        self.turn += 1;
        self.file.write_all_at(&bytes, self.place as u64 * ((self.turn + 1) % 2))?;
        self.file.sync_data()
    }
}

/// A new file's bytes: all of both places, so that later none has to be found for them.
fn beginning(content: &[u8]) -> Vec<u8> {
    let mut bytes = whole(1, content);
    let place = (bytes.len() + PAGE - 1) / PAGE * PAGE;
    bytes.resize(2 * place, 0);
    bytes
}

fn whole(turn: u64, content: &[u8]) -> Vec<u8> {
    let mut bytes = TURN_NAME.to_vec();
    bytes.extend_from_slice(&turn.to_le_bytes());
    bytes.extend_from_slice(&(content.len() as u64).to_le_bytes());
    bytes.extend_from_slice(content);
    let sum = check_sum(&bytes);
    bytes.extend_from_slice(&sum.to_le_bytes());
    bytes
}

#[cfg(test)]
mod tests {
    use super::*;
    use crate::image::{newest, SUM_BYTES, TURN_HEAD_BYTES};

    fn path(name: &str) -> PathBuf {
        std::env::temp_dir().join(format!("rsmp-site-slots-{}-{}", name, std::process::id()))
    }

    #[test]
    fn in_turn() {
        let path = path("turn");
        fs::write(&path, beginning(b"1")).unwrap();
        let mut slots = Slots::open(&path).unwrap();
        for content in ["2", "33", "444", ""] {
            slots.put(content.as_bytes()).unwrap();
            assert_eq!(newest(fs::read(&path).unwrap()), content.as_bytes());
        }
        assert_eq!(fs::metadata(&path).unwrap().len(), 2 * PAGE as u64);
        assert!(slots.put(&[0; PAGE]).is_err());
        fs::rename(&path, path.with_extension("moved")).unwrap();
        assert!(slots.put(b"nobody would find it").is_err());
        fs::write(&path, "another").unwrap();
        assert!(slots.put(b"nobody would find it").is_err());
        assert_eq!(newest(fs::read(&path).unwrap()), b"another");
        let _ = (fs::remove_file(&path), fs::remove_file(path.with_extension("moved")));
    }

    #[test]
    fn kept() {
        let path = path("kept");
        let mut kept = Kept::new(path.clone(), true);
        for content in ["1", "2", "3"] {
            kept.write(content.as_bytes()).unwrap();
            assert_eq!(newest(fs::read(&path).unwrap()), content.as_bytes());
        }
        let inode = |path: &Path| fs::metadata(path).unwrap().ino();
        let before = inode(&path);
        kept.write(b"4").unwrap();
        assert_eq!(inode(&path), before);
        fs::rename(&path, path.with_extension("moved")).unwrap();
        kept.write(&[5; 9 * PAGE]).unwrap();
        assert_eq!(newest(fs::read(&path).unwrap()), [5; 9 * PAGE]);
        Kept::new(path.clone(), false).write(b"6").unwrap();
        assert_eq!(fs::read(&path).unwrap(), b"6");
        let _ = (fs::remove_file(&path), fs::remove_file(path.with_extension("moved")));
    }

    #[test]
    fn torn() {
        let path = path("torn");
        fs::write(&path, beginning(b"before")).unwrap();
        Slots::open(&path).unwrap().put(b"behind").unwrap();
        let good = fs::read(&path).unwrap();
        for at in PAGE..PAGE + TURN_HEAD_BYTES + 6 + SUM_BYTES {
            let mut bytes = good.clone();
            bytes[at] ^= 1;
            assert_eq!(newest(bytes), b"before", "byte {}", at);
        }
        let mut bytes = good.clone();
        bytes[0] ^= 1;
        assert_eq!(newest(bytes.clone()), b"behind");
        bytes[PAGE] ^= 1;
        assert_eq!(newest(bytes.clone()), bytes);
        for cut in [0, 1, 7, 23, 31, 32, 100] {
            let mut bytes = good.clone();
            bytes.truncate(cut);
            let _ = newest(bytes);
        }
        let mut long = good;
        long[PAGE + 16..PAGE + 24].copy_from_slice(&u64::MAX.to_le_bytes());
        assert_eq!(newest(long), b"before");
        let _ = fs::remove_file(&path);
    }
}
