//! The memory of a site: a block of its own, or a part of a cabinet.

use crate::ffi::{Block, ALONE, POOL_WORDS, TABLE_BYTES, WORDS};
use crate::Site;

/// What a reading looks at.
pub struct Parts<'a> {
    pub(crate) pool: &'a [u64; POOL_WORDS],
    pub(crate) words: &'a [u64; WORDS],
}

/// What a call is lent, and which site a start makes there.
pub struct PartsMut<'a> {
    pub(crate) pool: &'a mut [u64; POOL_WORDS],
    pub(crate) words: &'a mut [u64; WORDS],
    pub(crate) table: &'a mut [u8; TABLE_BYTES],
    pub(crate) number: u32,
}

/// A site where it lies, to be read.
pub type SiteRef<'a> = Site<Parts<'a>>;
/// A site where it lies, to be called.
pub type SiteMut<'a> = Site<PartsMut<'a>>;

/// Memory that a site lies in, to be read.
pub trait Lent {
    fn parts(&self) -> Parts<'_>;
}

/// Memory that a site lies in, to be called.
pub trait LentMut: Lent {
    fn parts_mut(&mut self) -> PartsMut<'_>;
}

impl Lent for Block {
    fn parts(&self) -> Parts<'_> {
        Parts { pool: &self.pool, words: &self.words }
    }
}

impl LentMut for Block {
    fn parts_mut(&mut self) -> PartsMut<'_> {
        PartsMut { pool: &mut self.pool, words: &mut self.words, table: &mut self.table, number: ALONE }
    }
}

impl Lent for Parts<'_> {
    fn parts(&self) -> Parts<'_> {
        Parts { ..*self }
    }
}

impl Lent for PartsMut<'_> {
    fn parts(&self) -> Parts<'_> {
        Parts { pool: self.pool, words: self.words }
    }
}

impl LentMut for PartsMut<'_> {
    fn parts_mut(&mut self) -> PartsMut<'_> {
        PartsMut { pool: self.pool, words: self.words, table: self.table, number: self.number }
    }
}
