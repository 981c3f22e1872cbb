//! The morning queue (02, CR 4) in ordinary safe Rust, written to be quick: what
//! the proved code is measured against (02, CR 13). It works on the words and
//! octets of `include/luffcringle.h`, where they lie, and allocates nothing.
//!
//! It answers and writes as `luffcringle_batch` does on every input that
//! `test.sh` tries. Words without meaning may come out differently.
#![forbid(unsafe_code)]

mod judging;
mod names;
mod reading;
mod reply;
mod table;

use judging::{Desk, Given};
use table::Table;

/// The table's words and its suffixes.
pub type Words = [u64; 1091];
pub type Octets = [u8; 8192];

/// An item of a batch and its answer, as the header lays them out.
pub type Item = [u64; 9];
pub type Answer = [u64; 7];

/// The most items of a batch.
pub const MOST_ITEMS: usize = 64;

/// The numbers of the refusals.
mod number {
    pub const TABLE: u64 = 1;
    pub const TIME: u64 = 2;
    pub const CLOCK: u64 = 3;
    pub const SIZE: u64 = 4;
    pub const OFFER: u64 = 5;
    pub const FORMAT: u64 = 6;
    pub const NOTQUERY: u64 = 7;
    pub const ROOM: u64 = 8;
    pub const BATCH: u64 = 17;
    pub const KEYREC: u64 = 19;
}

/// The octets that two words of an item name, if all are lent.
fn part(octets: &[u8], from: u64, size: u64) -> Option<&[u8]> {
    let (from, size) = (usize::try_from(from).ok()?, usize::try_from(size).ok()?);
    octets.get(from..)?.get(..size)
}

/// The message of an item and what is given with it.
fn parts<'a>(item: &Item, octets: &'a [u8]) -> Option<(&'a [u8], Given<'a>)> {
    let given = Given {
        time: item[0],
        good: item[1] == 1,
        offer: part(octets, item[4], item[5])?,
        fits: item[6] == 1,
        record: part(octets, item[7], item[8])?,
    };
    Some((part(octets, item[2], item[3])?, given))
}

/// As `luffcringle_batch`: the first `count` items in order, each lent the room
/// that is left.
pub fn batch(
    words: &mut Words,
    suffixes: &Octets,
    count: u64,
    items: &[Item; MOST_ITEMS],
    octets: &[u8],
    answers: &mut [Answer; MOST_ITEMS],
    replies: &mut [u8],
) -> u64 {
    let Some(table) = Table::open(words, suffixes) else {
        return number::TABLE;
    };
    let items = match usize::try_from(count) {
        Ok(count) if count <= MOST_ITEMS => &items[..count],
        _ => return number::BATCH,
    };
    if items.iter().any(|item| parts(item, octets).is_none()) {
        return number::BATCH;
    }
    let mut desk = Desk::new(table);
    let mut left = replies;
    for (item, answer) in items.iter().zip(answers) {
        let Some((message, given)) = parts(item, octets) else {
            return number::BATCH;
        };
        *answer = desk.message(message, &given, left);
        left = &mut left[answer[1] as usize..];
    }
    0
}
