//! The proved library's exported functions, as `rsmp_site.h` declares them. Nothing else in the host calls them.
//!
//! Safe to call with any values, as the library has no precondition, if every pointer is valid for the length beside it and nothing that is
//! lent to be changed overlaps anything else that is lent.

/// The words of a pool, in which the records lie that are held.
pub const POOL_WORDS: usize = 520;
/// The words of a site, in which everything else lies that changes.
pub const WORDS: usize = 657;
/// The bytes of its table, as start leaves them.
pub const TABLE_BYTES: usize = 6178;
/// The sites of a box.
pub const SITES: usize = 2;
/// The bytes of a site; its block has six behind them, which nothing reads.
pub const SITE_BYTES: usize = 8 * (POOL_WORDS + WORDS) + TABLE_BYTES;
/// The bytes of a box; it has four behind them.
pub const BOX_BYTES: usize = 8 * (POOL_WORDS + SITES * WORDS) + SITES * TABLE_BYTES;

/// The words that a packet's commands are handed over in.
pub const COMMAND_WORDS: usize = 16;

/// The start value for "no primary".
pub const NO_PRIMARY: u32 = u32::MAX;
/// The start value for a site that is alone: site 0, and the whole pool is emptied, whatever it held.
pub const ALONE: u32 = u32::MAX;

/// A site as the library is lent it. Every content is allowed.
#[repr(C)]
#[derive(Clone, PartialEq, Eq)]
pub struct Block {
    pub pool: [u64; POOL_WORDS],
    pub words: [u64; WORDS],
    pub table: [u8; TABLE_BYTES],
}

/// Two sites and the pool that they share. Every content is allowed; all is 0 before the first start of either.
#[repr(C)]
#[derive(Clone, PartialEq, Eq)]
pub struct BoxBlock {
    pub pool: [u64; POOL_WORDS],
    pub words: [[u64; WORDS]; SITES],
    pub table: [[u8; TABLE_BYTES]; SITES],
}

/// The 16 random bytes of which an identity is made.
#[repr(C)]
#[derive(Clone, Copy, Debug)]
pub struct Id {
    pub bytes: [u8; 16],
}

/// What a call gives: its number, and where it is 0 the written bytes, the closed links, the clock hint and how many commands were handed over.
/// 14 is given where pool, words, table or the commands' words are of another length than they are to be.
#[repr(C)]
#[derive(Clone, Copy, Debug)]
pub struct Outcome {
    pub hint: u64,
    pub number: u32,
    pub written: u32,
    pub closed: u32,
    pub hinted: u32,
    pub commands: u64,
}

#[repr(C)]
#[derive(Clone, Copy, Debug, PartialEq, Eq)]
pub struct Version {
    pub major: u32,
    pub minor: u32,
    pub patch: u32,
}

/// A held record's 16 bytes, where there is one.
#[repr(C)]
#[derive(Clone, Copy, Debug)]
pub struct Reading {
    pub found: u8,
    pub bytes: [u8; 16],
}

#[link(name = "rsmp_site", kind = "static")]
extern "C" {
    #[link_name = concat!("rsmp_lent_start_", env!("RSMP_SYMBOL"))]
    pub fn rsmp_lent_start(
        pool: *mut u64,
        pool_len: usize,
        words: *mut u64,
        words_len: usize,
        table: *mut u8,
        table_len: usize,
        bits: *const u8,
        bits_len: usize,
        site: u32,
        links: u32,
        primary: u32,
        period: u32,
        first: u64,
        time: u64,
    ) -> Outcome;
    pub fn rsmp_lent_connect(pool: *mut u64, pool_len: usize, words: *mut u64, words_len: usize, link: u32, time: u64) -> Outcome;
    pub fn rsmp_lent_disconnect(pool: *mut u64, pool_len: usize, words: *mut u64, words_len: usize, link: u32, time: u64) -> Outcome;
    pub fn rsmp_lent_packet(
        pool: *mut u64,
        pool_len: usize,
        words: *mut u64,
        words_len: usize,
        table: *const u8,
        table_len: usize,
        link: u32,
        time: u64,
        random: Id,
        packet: *const u8,
        packet_len: usize,
        commands: *mut u64,
        commands_len: usize,
        out: *mut u8,
        out_len: usize,
    ) -> Outcome;
    pub fn rsmp_lent_alarm(
        pool: *mut u64,
        pool_len: usize,
        words: *mut u64,
        words_len: usize,
        table: *const u8,
        table_len: usize,
        number: u32,
        active: u32,
        time: u64,
    ) -> Outcome;
    pub fn rsmp_lent_status(
        pool: *mut u64,
        pool_len: usize,
        words: *mut u64,
        words_len: usize,
        table: *const u8,
        table_len: usize,
        number: u32,
        value: i32,
        time: u64,
    ) -> Outcome;
    pub fn rsmp_lent_aggregated(pool: *mut u64, pool_len: usize, words: *mut u64, words_len: usize, value: u8, time: u64) -> Outcome;
    pub fn rsmp_lent_tick(pool: *mut u64, pool_len: usize, words: *mut u64, words_len: usize, time: u64) -> Outcome;
    pub fn rsmp_lent_pump(
        pool: *mut u64,
        pool_len: usize,
        words: *mut u64,
        words_len: usize,
        table: *const u8,
        table_len: usize,
        link: u32,
        time: u64,
        random: Id,
        out: *mut u8,
        out_len: usize,
    ) -> Outcome;
    pub fn rsmp_lent_held(pool: *const u64, pool_len: usize, words: *const u64, words_len: usize, link: u32) -> u64;
    pub fn rsmp_lent_lost(pool: *const u64, pool_len: usize, words: *const u64, words_len: usize, link: u32) -> u64;
    pub fn rsmp_lent_phase(pool: *const u64, pool_len: usize, words: *const u64, words_len: usize, link: u32) -> u32;
    pub fn rsmp_lent_version_of(pool: *const u64, pool_len: usize, words: *const u64, words_len: usize, link: u32) -> Version;
    pub fn rsmp_lent_record(pool: *const u64, pool_len: usize, words: *const u64, words_len: usize, link: u32, rank: u64) -> Reading;
}
