//! The form of a state's file, as it is read: one place or two that were written in turn, and in it the state of a site or of two.

use rsmp_site::{check_sum, SITES};

pub const NAME: &[u8; 8] = b"RSMPHOST";
/// Of one site. Of two it is 2.
pub const EDITION: u32 = 1;
/// Name and edition.
const HEAD_BYTES: usize = 12;
/// What a site was started with.
pub const SETUP_BYTES: usize = 20;
const TIME_BYTES: usize = 8;
pub const SUM_BYTES: usize = 8;
pub const TURN_NAME: &[u8; 8] = b"RSMPTURN";
/// Name, turn, length.
pub const TURN_HEAD_BYTES: usize = 24;

/// What was put last; a file that has no two places is given as it is.
pub fn newest(bytes: Vec<u8>) -> Vec<u8> {
    let (first, second) = bytes.split_at(bytes.len() / 2);
    match [first, second].into_iter().filter_map(read).max_by_key(|(turn, _)| *turn) {
        Some((_, content)) => content.to_vec(),
        None => bytes,
    }
}

fn read(place: &[u8]) -> Option<(u64, &[u8])> {
    let number = |at: usize| Some(u64::from_le_bytes(place.get(at..at + 8)?.try_into().ok()?));
    let end = TURN_HEAD_BYTES.checked_add(usize::try_from(number(16)?).ok()?)?;
    let told = place.get(..end).filter(|_| end.checked_add(SUM_BYTES).map_or(false, |end| end <= place.len()))?;
    let good = told.starts_with(TURN_NAME) && number(end) == Some(check_sum(told));
    Some((number(8)?, &told[TURN_HEAD_BYTES..])).filter(|_| good)
}

/// How many sites a state has, what they were started with and behind it the last time, and what is stored of them; or why it is none of ours.
pub fn parts(bytes: &[u8]) -> Result<(usize, &[u8], &[u8]), String> {
    if bytes.len() < HEAD_BYTES + SUM_BYTES || bytes[..8] != *NAME {
        return Err("it is no state of rsmp-site".to_string());
    }
    let edition = u32::from_le_bytes([bytes[8], bytes[9], bytes[10], bytes[11]]);
    let sites = (1..=SITES).find(|sites| edition == edition_of(*sites));
    let sites = sites.ok_or_else(|| format!("it is of edition {}, where {} and {} are read", edition, EDITION, edition_of(SITES)))?;
    let (told, sum) = bytes.split_at(bytes.len() - SUM_BYTES);
    if check_sum(told).to_le_bytes() != sum {
        return Err("it is damaged: its check sum is wrong".to_string());
    }
    let behind = HEAD_BYTES + sites * SETUP_BYTES + TIME_BYTES;
    match (told.get(HEAD_BYTES..behind), told.get(behind..)) {
        (Some(begun), Some(stored)) => Ok((sites, begun, stored)),
        _ => Err("it is no state of rsmp-site".to_string()),
    }
}

/// By how many sites there are.
pub fn edition_of(sites: usize) -> u32 {
    EDITION + sites as u32 - 1
}
