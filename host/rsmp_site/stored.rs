//! The bytes of a site or of a cabinet, to keep over a power loss. Every content is safe to call; whether the bytes came back whole is told by what is
//! stored around them, which `rsmp_site.h` writes for C in the same way.

use crate::ffi::{Block, BoxBlock, BOX_BYTES, SITE_BYTES};
use crate::{Cabinet, Site};
use core::fmt;
use core::mem::{align_of, size_of};

/// Another layout of the site has another edition.
pub const SITE_EDITION: u32 = 4;
/// A name, the edition, the length, the site, the check sum of all before.
pub const STORED_BYTES: usize = HEAD_BYTES + SITE_BYTES + SUM_BYTES;
/// The same of a cabinet.
pub const BOX_STORED_BYTES: usize = HEAD_BYTES + BOX_BYTES + SUM_BYTES;

const NAME: &[u8; 8] = b"RSMPSITE";
const HEAD_BYTES: usize = 16;
const SUM_BYTES: usize = 8;
// No byte of them is padding: what a block has for its alignment stands behind them.
const _: () = assert!(size_of::<Site>() == size_of::<Block>() && size_of::<Block>() - SITE_BYTES < align_of::<Block>());
const _: () = assert!(size_of::<Cabinet>() == size_of::<BoxBlock>() && size_of::<BoxBlock>() - BOX_BYTES < align_of::<BoxBlock>());

/// Why bytes are no stored site.
#[derive(Clone, Copy, Debug, PartialEq, Eq)]
pub enum NotStored {
    Length,
    Foreign,
    Edition(u32),
    Damaged,
}

impl fmt::Display for NotStored {
    fn fmt(&self, formatter: &mut fmt::Formatter<'_>) -> fmt::Result {
        match self {
            NotStored::Length => write!(formatter, "not as long as a stored site"),
            NotStored::Foreign => write!(formatter, "no stored site"),
            NotStored::Edition(found) => write!(formatter, "a site of edition {}, where {} is read", found, SITE_EDITION),
            NotStored::Damaged => write!(formatter, "damaged: its check sum is wrong"),
        }
    }
}

#[cfg(feature = "std")]
impl std::error::Error for NotStored {}

/// FNV-1a of 64 bits: another byte anywhere gives another sum.
pub fn check_sum(bytes: &[u8]) -> u64 {
    bytes.iter().fold(0xcbf2_9ce4_8422_2325, |sum, byte| (sum ^ u64::from(*byte)).wrapping_mul(0x0000_0100_0000_01b3))
}

fn word(bytes: &[u8], at: usize) -> u32 {
    let mut word = [0; 4];
    word.copy_from_slice(&bytes[at..at + 4]);
    u32::from_le_bytes(word)
}

/// What is stored of so many bytes.
fn put(bytes: &mut [u8], of: &[u8]) {
    let (told, sum) = bytes.split_at_mut(HEAD_BYTES + of.len());
    told[..8].copy_from_slice(NAME);
    told[8..12].copy_from_slice(&SITE_EDITION.to_le_bytes());
    told[12..16].copy_from_slice(&(of.len() as u32).to_le_bytes());
    told[HEAD_BYTES..].copy_from_slice(of);
    sum.copy_from_slice(&check_sum(told).to_le_bytes());
}

/// The bytes that were stored, where they are so many.
fn got<const LENGTH: usize>(bytes: &[u8]) -> Result<&[u8; LENGTH], NotStored> {
    if bytes.len() < HEAD_BYTES + SUM_BYTES {
        return Err(NotStored::Length);
    }
    if bytes[..8] != *NAME {
        return Err(NotStored::Foreign);
    }
    if word(bytes, 8) != SITE_EDITION {
        return Err(NotStored::Edition(word(bytes, 8)));
    }
    let (told, sum) = bytes.split_at(bytes.len() - SUM_BYTES);
    let found = told[HEAD_BYTES..].try_into().map_err(|_| NotStored::Length)?;
    if word(bytes, 12) as usize != LENGTH {
        return Err(NotStored::Length);
    }
    if check_sum(told).to_le_bytes() != sum {
        return Err(NotStored::Damaged);
    }
    Ok(found)
}

impl Site {
    pub fn as_bytes(&self) -> &[u8; SITE_BYTES] {
        // SAFETY: a block begins with words and bytes of that length together, without padding between them.
        unsafe { &*(&self.lent as *const Block as *const [u8; SITE_BYTES]) }
    }

    /// The site of these bytes, whatever they are.
    pub fn from_bytes(bytes: &[u8; SITE_BYTES]) -> Site {
        let mut site = Site::NONE;
        // SAFETY: as above; every content is allowed, and the site is borrowed alone.
        unsafe { *(&mut site.lent as *mut Block as *mut [u8; SITE_BYTES]) = *bytes };
        site
    }

    pub fn to_stored(&self) -> [u8; STORED_BYTES] {
        let mut bytes = [0; STORED_BYTES];
        put(&mut bytes, self.as_bytes());
        bytes
    }

    /// The site as it was stored. Before it goes on, disconnect every link that is not Down: its connection is gone.
    pub fn from_stored(bytes: &[u8]) -> Result<Site, NotStored> {
        got(bytes).map(Site::from_bytes)
    }
}

impl Cabinet {
    pub fn as_bytes(&self) -> &[u8; BOX_BYTES] {
        // SAFETY: a block begins with words and bytes of that length together, without padding between them.
        unsafe { &*(&self.lent as *const BoxBlock as *const [u8; BOX_BYTES]) }
    }

    /// The cabinet of these bytes, whatever they are.
    pub fn from_bytes(bytes: &[u8; BOX_BYTES]) -> Cabinet {
        let mut cabinet = Cabinet::EMPTY;
        // SAFETY: as above; every content is allowed, and the cabinet is borrowed alone.
        unsafe { *(&mut cabinet.lent as *mut BoxBlock as *mut [u8; BOX_BYTES]) = *bytes };
        cabinet
    }

    pub fn to_stored(&self) -> [u8; BOX_STORED_BYTES] {
        let mut bytes = [0; BOX_STORED_BYTES];
        put(&mut bytes, self.as_bytes());
        bytes
    }

    /// The cabinet as it was stored; one site's bytes are no cabinet's. Disconnect, as of a site.
    pub fn from_stored(bytes: &[u8]) -> Result<Cabinet, NotStored> {
        got(bytes).map(Cabinet::from_bytes)
    }
}
