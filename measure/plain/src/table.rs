//! The lent table: its rules, and the search for a suffix.

use crate::names::{self, Name};
use crate::{Octets, Words};
use std::cmp::Ordering;

/// A row's words.
pub const NUMBER: usize = 0;
pub const LENGTH: usize = 1;
pub const LIFETIME: usize = 2;
pub const FRESH: usize = 3;
pub const NEXT_SERIAL: usize = 4;
pub const KEYS: usize = 5;
pub const ADOPTED: usize = 6;
pub const WAITING: usize = 11;
pub type Row = [u64; 16];

/// Words of a key, from the first of its own on.
pub const SERIAL: usize = 0;
pub const ALGORITHM: usize = 1;
pub const INCEPTION: usize = 2;
pub const PARTIAL: usize = 3;
pub const EXPIRY: usize = 4;

/// Serials are below it; a next serial and the floor may be it.
pub const SERIAL_LIMIT: u64 = 1 << 32;
const TABLE_TIME_LIMIT: u64 = 1 << 48;
const LONGEST_LIFETIME: u64 = (1 << 31) - 1;
const MOST_PAIRS: usize = 64;

/// A table that keeps its rules.
pub struct Table<'a> {
    pub clock: &'a mut u64,
    rows: &'a mut [Row],
    suffixes: &'a [[u8; 128]],
    /// The first eight octets of each suffix, for the search.
    firsts: [u64; MOST_PAIRS],
}

impl<'a> Table<'a> {
    /// `None` where words and octets hold no table, or one that breaks a rule.
    pub fn open(words: &'a mut Words, suffixes: &'a Octets) -> Option<Table<'a>> {
        let ([clock, count, floor], rest) = words.split_first_chunk_mut::<3>()?;
        let (map, rows) = rest.split_at_mut(MOST_PAIRS);
        let rows = rows.as_chunks_mut().0;
        let count = usize::try_from(*count).ok()?;
        let (map, rows) = (map.get(..count)?, rows.get_mut(..count)?);
        let (suffixes, _) = suffixes.as_chunks();
        if *clock >= TABLE_TIME_LIMIT || !(1..=SERIAL_LIMIT).contains(floor) || !is_map(map, rows) {
            return None;
        }
        let mut firsts = [0; MOST_PAIRS];
        let mut before: Option<(u64, Name)> = None;
        for ((row, octets), to) in rows.iter().zip(suffixes).zip(&mut firsts) {
            let suffix = suffix_of(row, octets)?;
            let first = suffix.first_eight();
            let follows = before.is_none_or(|(first_before, before)| {
                let order = first_before.cmp(&first);
                order.then_with(|| before.order_of_rest(&suffix)).is_lt()
            });
            if !follows || !keeps_rules(row, *clock) {
                return None;
            }
            *to = first;
            before = Some((first, suffix));
        }
        Some(Table {
            clock,
            rows,
            suffixes,
            firsts,
        })
    }

    /// The place of the row with this suffix.
    pub fn find(&self, name: Name) -> Option<usize> {
        let first = name.first_eight();
        let (mut low, mut high) = (0, self.rows.len());
        while low < high {
            let middle = (low + high) / 2;
            let order = first.cmp(&self.firsts[middle]);
            match order.then_with(|| name.order_of_rest(&self.suffix(middle))) {
                Ordering::Less => high = middle,
                Ordering::Equal => return Some(middle),
                Ordering::Greater => low = middle + 1,
            }
        }
        None
    }

    pub fn suffix(&self, place: usize) -> Name<'a> {
        Name::new(&self.suffixes[place], self.rows[place][LENGTH] as usize)
    }

    pub fn row(&mut self, place: usize) -> &mut Row {
        &mut self.rows[place]
    }
}

/// Each pair's place is a row with its number.
fn is_map(map: &[u64], rows: &[Row]) -> bool {
    map.iter().enumerate().all(|(number, &place)| {
        let row = usize::try_from(place)
            .ok()
            .and_then(|place| rows.get(place));
        row.is_some_and(|row| row[NUMBER] == number as u64)
    })
}

/// The suffix of a row: a wire name of 3 to 128 octets.
fn suffix_of<'a>(row: &Row, octets: &'a [u8; 128]) -> Option<Name<'a>> {
    let length = usize::try_from(row[LENGTH])
        .ok()
        .filter(|&length| length >= 3)?;
    let is_name = names::plain_length(octets.get(..length)?) == Some(length);
    is_name.then_some(Name::new(octets, length))
}

fn keeps_rules(row: &Row, clock: u64) -> bool {
    let [_, _, lifetime, fresh, next, keys, adopted @ .., _, _, _, _, _] = row;
    let waiting = &row[WAITING..];
    let keeps = |key: &[u64]| {
        let partial = key[PARTIAL];
        (1..*next).contains(&key[SERIAL])
            && matches!(key[ALGORITHM], 256 | 384 | 512)
            && key[INCEPTION] <= clock
            && key[INCEPTION] + lifetime == key[EXPIRY]
            && (key[INCEPTION]..key[EXPIRY]).contains(&partial)
            && key[EXPIRY] < TABLE_TIME_LIMIT
    };
    1 <= *fresh
        && fresh < lifetime
        && *lifetime <= LONGEST_LIFETIME
        && (1..=SERIAL_LIMIT).contains(next)
        && match keys {
            0 => true,
            1 => keeps(adopted),
            2 => {
                keeps(adopted)
                    && keeps(waiting)
                    && waiting[SERIAL] > adopted[SERIAL]
                    && waiting[EXPIRY] >= adopted[EXPIRY]
            }
            _ => false,
        }
}
