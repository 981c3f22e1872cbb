//! `list ROOM`, `load` and `mend` as script lines, and tables made from nothing to be loaded.

use super::{Maker, LINE_LIMIT};
use crate::desk::{Key, Pair, Table};
use crate::listing::{Listing, Said};
use crate::wire;

/// The first time that is in no table.
pub const TIMES_END: u64 = 1 << 48;
/// No serial is left at this next serial or floor.
pub const SERIALS_END: u64 = 1 << 32;

impl Maker<'_> {
    /// Writes one such line, runs it and counts what it reached.
    pub fn listing_line(&mut self, line: &[u8]) -> Said {
        self.put(line);
        let said = match line.len() > LINE_LIMIT {
            true => Said::Bad,
            false => Said::read(&self.printed(line)),
        };
        self.listing = self.printed(b"list");
        let before = std::mem::replace(&mut self.table, Table::read(&self.listing));
        if self.counts() {
            self.note_listing(line, &before, &said);
            self.check_resolver_unchanged();
        }
        said
    }

    /// Loads the text, and says whether number, line and table are as the papers say.
    pub fn loads(&mut self, listing: &Listing) -> bool {
        let line = format!("load {}", self.hex(&listing.text()));
        self.comes_to(&line, listing, listing.loading())
    }

    /// The same for mending it.
    pub fn mends(&mut self, room: u64, listing: &Listing) -> bool {
        let line = format!("mend {} {}", self.number(room), self.hex(&listing.text()));
        self.comes_to(&line, listing, listing.mending(room))
    }

    fn comes_to(&mut self, line: &str, listing: &Listing, want: Said) -> bool {
        let due = match want {
            Said::Done(_) => listing.kept(),
            _ => self.listing.clone().into(),
        };
        self.listing_line(line.as_bytes()) == want && self.listing.as_bytes() == due
    }

    pub fn lists_in(&mut self, room: u64) -> Said {
        let line = format!("list {}", self.number(room));
        self.listing_line(line.as_bytes())
    }

    /// Does something on another table, then loads the run's own again.
    pub fn apart(&mut self, story: impl FnOnce(&mut Maker) -> bool) -> bool {
        let saved = Listing::of(&self.table);
        let as_wanted = story(self);
        let back = self.listing.as_bytes() == saved.text() || self.loads(&saved);
        as_wanted && back
    }

    /// A suffix of so many octets, 3 at least, that no pair of these has.
    pub fn new_suffix(&mut self, pairs: &[Pair], length: usize) -> Vec<u8> {
        loop {
            let mut suffix = wire::name_of(length);
            let text = usize::from(suffix[0]).min(8);
            suffix[1..=text].copy_from_slice(&self.rng.octets(text as u64));
            let is_twin = |p: &Pair| p.suffix.eq_ignore_ascii_case(&suffix);
            if !pairs.iter().any(is_twin) {
                return suffix;
            }
        }
    }

    /// A pair with so many keys that keeps the rules beside this clock.
    pub fn sound_pair(&mut self, clock: u64, suffix: Vec<u8>, keys: u64) -> Pair {
        let life = match self.rng.below(4) {
            0 => self.rng.within(2, 60),
            1 => (1 << 31) - 1,
            _ => self.rng.within(300, 9000),
        };
        let next = match self.rng.below(4) {
            0 => SERIALS_END - self.rng.below(3),
            1 => self.rng.within(keys + 1, SERIALS_END),
            _ => self.rng.within(keys + 1, 20),
        };
        let mut pair = Pair {
            suffix,
            next,
            life,
            fresh: self.rng.within(1, life - 1),
            adopted: None,
            waiting: None,
        };
        let latest = clock.min(TIMES_END - 1 - life);
        let second = latest - self.rng.below(latest.min(500) + 1);
        let first = second - self.rng.below(second.min(500) + 1);
        let serial = self.rng.within(1, (next - keys).max(1));
        if keys > 0 {
            pair.adopted = Some(self.sound_key(serial, first, life));
        }
        if keys > 1 {
            let serial = self.rng.within(serial + 1, next - 1);
            pair.waiting = Some(self.sound_key(serial, second, life));
        }
        pair
    }

    fn sound_key(&mut self, serial: u64, inception: u64, life: u64) -> Key {
        Key {
            serial,
            algorithm: self.rng.algorithm(),
            inception,
            partial: self.rng.within(inception, inception + life - 1),
            expiry: inception + life,
        }
    }

    /// So many pairs, each with so many keys, or with any number of keys.
    pub fn sound_table(&mut self, clock: u64, pairs: u64, keys: Option<u64>) -> Table {
        let mut table = Table {
            clock,
            floor: match self.rng.below(4) {
                0 => SERIALS_END - self.rng.below(2),
                1 => self.rng.within(1, SERIALS_END),
                _ => self.rng.within(1, 9),
            },
            pairs: Vec::new(),
        };
        for _ in 0..pairs {
            let length = self.rng.within(5, 24) as usize;
            let suffix = self.new_suffix(&table.pairs, length);
            let keys = keys.unwrap_or_else(|| self.rng.below(3));
            let pair = self.sound_pair(clock, suffix, keys);
            table.pairs.push(pair);
        }
        table
    }

    /// A clock with 10,000 seconds before it, or, where calls are to follow, behind it as well.
    pub fn some_clock(&mut self, calls: bool) -> u64 {
        match self.rng.below(5) {
            0 => (1 << 32) - 500 + self.rng.below(1000),
            1 if !calls => TIMES_END - 1 - self.rng.below(1000),
            1 => super::TOP - 10_000 - self.rng.below(1000),
            2 => self.rng.within(10_000, 1 << 40),
            _ => 1_700_000_000 + self.rng.below(100_000_000),
        }
    }

    /// A few pairs, with two keys in one of them at least, and its number, from 0.
    pub fn few_pairs(&mut self) -> (Table, usize) {
        let clock = self.some_clock(false);
        let count = self.rng.within(1, 4);
        let mut table = self.sound_table(clock, count, None);
        let number = self.rng.below(count) as usize;
        let suffix = table.pairs[number].suffix.clone();
        table.pairs[number] = self.sound_pair(clock, suffix, 2);
        (table, number)
    }
}
