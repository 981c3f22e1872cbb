//! New tables now and then, so that all stages of life come again.

use super::{lower, Maker, TOP};
use crate::wire;

impl Maker<'_> {
    pub fn era_is_over(&self) -> bool {
        self.lines >= self.era_ends || self.table.clock + 100 >= TOP || self.count() == 0
    }

    fn era_start(&mut self) -> u64 {
        match self.rng.below(6) {
            0 => self.rng.below(3),
            1 => (1 << 32) - self.rng.below(4000),
            2 => TOP - 200_000 - self.rng.below(1000),
            3 => self.rng.below(1 << 40),
            _ => 1_700_000_000 + self.rng.below(100_000_000),
        }
    }

    fn era_size(&mut self) -> u64 {
        match self.rng.below(20) {
            0..=12 => self.rng.within(3, 8),
            13..=17 => self.rng.within(9, 20),
            18 => self.rng.within(40, 63),
            _ => 64,
        }
    }

    /// A new table with pairs that are easily mistaken for one another. The very first one
    /// is the empty table that the run starts from.
    pub fn era(&mut self) {
        if self.lines > 0 {
            let start = self.era_start();
            self.new_table(start);
        }
        let size = self.era_size();
        for suffix in self.like_suffixes(size) {
            let terms = self.terms();
            let time = self.tick();
            let algorithm = self.rng.algorithm();
            self.enrol(time, &suffix, terms, algorithm);
        }
        self.era_ends = self.lines + self.rng.within(300, 3000);
    }

    /// The first pairs of a table live short enough to be waited for.
    fn terms(&mut self) -> (u64, u64) {
        let life = match (self.count(), self.rng.below(10)) {
            (0, _) | (_, 0..=1) => self.rng.within(5, 60),
            (1, _) | (_, 2..=5) => self.rng.within(300, 5000),
            (_, 6..=8) => self.rng.within(100_000, 10_000_000),
            _ => (1 << 31) - 1,
        };
        (life, self.rng.within(2, life - 2))
    }

    /// Parents, children and near twins of one name first, then others beside it.
    fn like_suffixes(&mut self, count: u64) -> Vec<Vec<u8>> {
        let first = self.rng.letters(1);
        let base = wire::name(&[&first, b"example"]);
        let mut near = base.clone();
        near[1] ^= 1;
        let long = wire::name_of(128);
        let mut long_near = long.clone();
        long_near[126] ^= 2;
        let mut all = vec![
            base.clone(),
            wire::name(&[b"example"]),
            wire::key_name(1, &base),
            near,
            wire::name(&[&first, b"exa[ple"]),
            wire::name(&[&first, b"exa{ple"]),
            wire::name(&[b"1"]),
            long,
            long_near,
            wire::name(&[&[0, 255, b'.', 200]]),
        ];
        for i in all.len() as u64..count {
            let label = wire::label(format!("p{i}").as_bytes());
            all.push(wire::joined(&[&label, &base]));
        }
        all.truncate(count as usize);
        all.iter().map(|s| self.rng.mixed_case(s)).collect()
    }

    pub fn is_enrolled(&self, suffix: &[u8]) -> bool {
        let wanted = lower(suffix);
        self.table.pairs.iter().any(|p| lower(&p.suffix) == wanted)
    }

    /// A suffix of one label of `length` octets that is not enrolled.
    pub fn fresh_suffix(&mut self, length: u64) -> Vec<u8> {
        loop {
            let text = self.rng.octets(length);
            let suffix = wire::name(&[&text]);
            if !self.is_enrolled(&suffix) {
                return suffix;
            }
        }
    }

    pub fn enrol_fresh(&mut self, time: u64) {
        let suffix = self.fresh_suffix(6);
        let terms = self.terms();
        let algorithm = self.rng.algorithm();
        self.enrol(time, &suffix, terms, algorithm);
    }

    /// A table with room for at least four more pairs.
    pub fn with_space(&mut self) {
        while self.count() > 60 {
            self.era();
        }
    }

    pub fn fill(&mut self) {
        while self.count() < 64 {
            let time = self.tick();
            self.enrol_fresh(time);
        }
    }
}
