//! The generator's hands: writes lines, runs them, knows the table, and brings the desk
//! into the state a scenario needs.

mod batches;
mod calls;
mod comparing;
mod eras;
mod listings;
mod messages;
mod notes;
mod records;
mod resolver;
mod signing;
mod states;

pub use batches::MAX_BATCH_ROOM;
pub use comparing::Judged;
pub use listings::{SERIALS_END, TIMES_END};
pub use messages::{tkey, tsig};
pub use records::{RIGHT_RECORDS, WRONG_RECORDS};
pub use resolver::{Order, Reply, Wish};
pub use signing::{Signing, MAX_SIGNING_ROOM};

use crate::desk::{Outcome, Pair, Table};
use crate::reached::Reached;
use crate::resolver::Resolver;
use crate::rng::Rng;
use crate::wire;
use second::script::Runner;
use std::io::{self, Write};

/// The first time that is refused.
pub const TOP: u64 = (1 << 48) - (1 << 31);
pub const LINE_LIMIT: usize = 200_000;
pub const MAX_ROOM: u64 = 65_535;

/// All that a message call takes beside the message.
#[derive(Clone)]
pub struct Call {
    pub time: u64,
    pub good: bool,
    pub offer: Vec<u8>,
    pub room: u64,
    /// The keying verdict and the lent KEY record.
    pub fits: bool,
    pub record: Vec<u8>,
}

/// A verdict, as lines have it.
pub fn verdict(good: bool) -> &'static str {
    match good {
        true => "good",
        false => "bad",
    }
}

/// An adopted key and a time at which to use it.
#[derive(Clone)]
pub struct Signer {
    pub pair: u64,
    pub suffix: Vec<u8>,
    pub serial: u64,
    pub algorithm: u64,
    pub time: u64,
}

impl Signer {
    pub fn name(&self) -> Vec<u8> {
        wire::key_name(self.serial, &self.suffix)
    }

    pub fn algorithm_name(&self) -> Vec<u8> {
        wire::algorithm_name(self.algorithm)
    }

    pub fn at(&self, time: u64) -> Signer {
        Signer {
            time,
            ..self.clone()
        }
    }
}

pub fn lower(octets: &[u8]) -> Vec<u8> {
    octets.to_ascii_lowercase()
}

fn printed(runner: &mut Runner, line: &[u8]) -> String {
    let mut text = Vec::new();
    runner.line(line, &mut text);
    String::from_utf8(text).expect("results are ASCII")
}

pub struct Maker<'a> {
    pub rng: Rng,
    pub table: Table,
    pub resolver: Resolver,
    pub reached: Reached,
    pub lines: u64,
    limit: u64,
    runner: Runner,
    script: &'a mut dyn Write,
    failed: Option<io::Error>,
    /// What `list` and `keys` last showed.
    listing: String,
    shown: String,
    /// The count of lines at which the next table is begun.
    era_ends: u64,
}

impl<'a> Maker<'a> {
    pub fn new(seed: u64, limit: u64, reached: Reached, script: &'a mut dyn Write) -> Maker<'a> {
        let mut maker = Maker {
            rng: Rng::new(seed),
            table: Table::default(),
            resolver: Resolver::default(),
            reached,
            lines: 0,
            limit,
            runner: Runner::new(),
            script,
            failed: None,
            listing: String::new(),
            shown: String::new(),
            era_ends: 0,
        };
        maker.listing = maker.printed(b"list");
        maker.shown = maker.printed(b"keys");
        maker
    }

    pub fn is_done(&self) -> bool {
        self.lines >= self.limit || self.failed.is_some()
    }

    /// Nothing past the limit is written, so nothing there counts.
    pub fn counts(&self) -> bool {
        self.lines <= self.limit
    }

    pub fn finish(self) -> io::Result<Reached> {
        match self.failed {
            Some(error) => Err(error),
            None => Ok(self.reached),
        }
    }

    fn write_line(&mut self, line: &[u8]) -> io::Result<()> {
        if self.lines > 0 {
            self.script.write_all(b"\n")?;
        }
        self.script.write_all(line)
    }

    /// A line that is too long never reaches the runner; it reads as a bad line.
    fn run(&mut self, line: &[u8]) -> Outcome {
        if line.len() > LINE_LIMIT {
            return Outcome {
                bad: true,
                ..Outcome::default()
            };
        }
        Outcome::read(&self.printed(line))
    }

    fn printed(&mut self, line: &[u8]) -> String {
        printed(&mut self.runner, line)
    }

    /// Writes one script line, if it is not past the limit.
    fn put(&mut self, line: &[u8]) {
        if self.lines < self.limit {
            if let Err(error) = self.write_line(line) {
                self.failed = Some(error);
            }
        }
        self.lines += 1;
    }

    /// Writes one script line, runs it and counts what it reached.
    pub fn line(&mut self, line: &[u8]) -> Outcome {
        self.put(line);
        let seen = self.run(line);
        self.listing = self.printed(b"list");
        let before = std::mem::replace(&mut self.table, Table::read(&self.listing));
        if self.counts() {
            self.note(line, &before, &seen);
            self.check_resolver_unchanged();
        }
        seen
    }

    pub fn hit(&mut self, item: &str) {
        self.reached.hit(item, self.lines);
    }

    pub fn surprise(&mut self, what: &str) {
        self.reached.surprise(self.lines, what);
    }

    pub fn pair(&self, number: u64) -> &Pair {
        &self.table.pairs[number as usize - 1]
    }

    pub fn count(&self) -> u64 {
        self.table.pairs.len() as u64
    }

    /// A time for the next call: mostly the clock itself, sometimes a little later.
    pub fn tick(&mut self) -> u64 {
        let step = match self.rng.below(40) {
            0..=27 => 0,
            28..=38 => self.rng.within(1, 3),
            _ => self.rng.within(4, 30),
        };
        (self.table.clock + step).min(TOP - 1)
    }

    /// A clock that has something before it.
    pub fn clock_above_zero(&mut self) -> u64 {
        if self.table.clock == 0 {
            self.revoke(1, 0);
        }
        self.table.clock
    }

    /// Begins a new table when the time ahead is too short for `span` seconds.
    pub fn time_for(&mut self, span: u64) {
        while self.table.clock + span >= TOP {
            self.era();
        }
    }

    pub fn some_pair(&mut self, fits: impl Fn(&Pair) -> bool) -> Option<u64> {
        let fitting: Vec<u64> = (1..=self.count()).filter(|&n| fits(self.pair(n))).collect();
        match fitting.is_empty() {
            true => None,
            false => Some(*self.rng.pick(&fitting)),
        }
    }

    pub fn any_pair(&mut self) -> u64 {
        if self.count() == 0 {
            self.era();
        }
        let count = self.count();
        self.rng.within(1, count)
    }

    pub fn signer(&self, pair: u64, time: u64) -> Signer {
        let p = self.pair(pair);
        let key = p.adopted.as_ref().expect("an adopted key");
        Signer {
            pair,
            suffix: p.suffix.clone(),
            serial: key.serial,
            algorithm: key.algorithm,
            time,
        }
    }
}
