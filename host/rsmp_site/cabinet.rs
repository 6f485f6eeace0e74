//! Two sites that share one pool of records.

use crate::ffi::{BoxBlock, POOL_WORDS, SITES, TABLE_BYTES, WORDS};
use crate::lent::{Parts, PartsMut};
use crate::{Site, SiteMut, SiteRef};

/// Two sites, as the barriers of one cabinet: 27,028 plain bytes. Each has its own table, links, last time, sequence numbers and identities; they share
/// the pool alone. While it is full, a record of one may push out a record of the other, which counts as lost there. A site is not called before it has
/// begun.
#[derive(Clone, PartialEq, Eq)]
pub struct Cabinet {
    pub(crate) lent: BoxBlock,
}

impl Cabinet {
    /// Before either site has begun.
    pub const EMPTY: Cabinet =
        Cabinet { lent: BoxBlock { pool: [0; POOL_WORDS], words: [[0; WORDS]; SITES], table: [[0; TABLE_BYTES]; SITES] } };

    /// A site, 0 or 1, to be read.
    pub fn site(&self, number: u32) -> Option<SiteRef<'_>> {
        let words = self.lent.words.get(number as usize)?;
        Some(Site { lent: Parts { pool: &self.lent.pool, words } })
    }

    /// A site, 0 or 1, to be called.
    pub fn site_mut(&mut self, number: u32) -> Option<SiteMut<'_>> {
        let BoxBlock { pool, words, table } = &mut self.lent;
        let (words, table) = (words.get_mut(number as usize)?, table.get_mut(number as usize)?);
        Some(Site { lent: PartsMut { pool, words, table, number } })
    }
}

impl From<Cabinet> for BoxBlock {
    fn from(cabinet: Cabinet) -> BoxBlock {
        cabinet.lent
    }
}
