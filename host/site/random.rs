//! Random bytes, of which the identities of messages are made.

use std::fs::File;
use std::io::{self, Read};

pub struct Random(File);

impl Random {
    pub fn open(path: &str) -> io::Result<Random> {
        let mut random = Random(File::open(path)?);
        random.bytes()?;
        Ok(random)
    }

    pub fn bytes(&mut self) -> io::Result<[u8; 16]> {
        let mut bytes = [0; 16];
        self.0.read_exact(&mut bytes)?;
        Ok(bytes)
    }
}
