//! The table as lines of text: listed, loaded and mended. CR 7; the clock line
//! has CR 9's floor.

use crate::names;
use crate::script::print_listing;
use crate::table::{Algorithm, Key, Keys, Pair, Table, MOST_PAIRS};

/// CR 7's refusals, in their order.
#[derive(Clone, Copy, Debug, PartialEq, Eq)]
pub enum Refusal {
    /// 18, with the first line that does not read.
    Line(u64),
    /// 1, a broken rule.
    Table,
    /// 8.
    Room,
}

impl Refusal {
    pub fn number(self) -> u64 {
        match self {
            Refusal::Line(_) => 18,
            Refusal::Table => 1,
            Refusal::Room => 8,
        }
    }

    /// The line that does not read, or 0.
    pub fn line(self) -> u64 {
        match self {
            Refusal::Line(line) => line,
            _ => 0,
        }
    }
}

/// A line that mending dropped, from 1, and the number of the reason.
#[derive(Clone, Copy, Debug, PartialEq, Eq)]
pub struct Dropped {
    pub line: u64,
    pub reason: u64,
}

/// The listing, if the room holds it.
pub fn list(table: &Table, room: usize) -> Result<Vec<u8>, Refusal> {
    let mut text = Vec::new();
    print_listing(table, &mut text);
    match text.len() <= room {
        true => Ok(text),
        false => Err(Refusal::Room),
    }
}

/// The table that a text lists.
pub fn load(text: &[u8]) -> Result<Table, Refusal> {
    let text = Text::read(text);
    if let Some(line) = text.first_unread() {
        return Err(Refusal::Line(line));
    }
    let (clock, floor) = text.clock.expect("line 1 reads");
    let pairs = text.blocks.iter().map(Block::pair).collect();
    let table = Table {
        clock,
        floor,
        pairs: Option::<Vec<Pair>>::ok_or(pairs, Refusal::Table)?,
    };
    match table.keeps_rules() {
        true => Ok(table),
        false => Err(Refusal::Table),
    }
}

/// The pairs of a text that can be kept, and the lines that are dropped, of
/// which so many can be named.
pub fn mend(text: &[u8], room: usize) -> Result<(Table, Vec<Dropped>), Refusal> {
    let text = Text::read(text);
    let (clock, floor) = text.clock.ok_or(Refusal::Line(1))?;
    let mut table = Table {
        floor,
        ..Table::empty(clock)
    };
    if !table.keeps_rules() {
        return Err(Refusal::Table);
    }
    let mut dropped: Vec<Dropped> = text.loose.iter().map(|&line| drop_line(line, 18)).collect();
    for block in &text.blocks {
        match block.reason(&table) {
            Some(reason) => dropped.extend(block.lines().map(|line| drop_line(line, reason))),
            None => table.pairs.extend(block.pair()),
        }
    }
    match dropped.len() <= room {
        true => Ok((table, dropped)),
        false => Err(Refusal::Room),
    }
}

fn drop_line(line: u64, reason: u64) -> Dropped {
    Dropped { line, reason }
}

/// A text by its lines: what line 1 says, the `key` lines that belong to it,
/// and the lines of each pair.
struct Text {
    clock: Option<(u64, u64)>,
    loose: Vec<u64>,
    blocks: Vec<Block>,
}

/// The lines of a pair: the one that starts it and the `key` lines below. What
/// does not read is `None`.
struct Block {
    line: u64,
    start: Option<Pair>,
    keys: Vec<Option<(bool, Key)>>,
}

impl Text {
    fn read(text: &[u8]) -> Text {
        let mut lines = text.split_inclusive(|&octet| octet == b'\n');
        let mut text = Text {
            clock: lines.next().and_then(read_clock),
            loose: Vec::new(),
            blocks: Vec::new(),
        };
        for (line, number) in lines.zip(2..) {
            match (first_field(line), text.blocks.last_mut()) {
                (b"key", None) => text.loose.push(number),
                (b"key", Some(block)) => block.keys.push(read_key(line)),
                _ => text.blocks.push(Block {
                    line: number,
                    start: read_pair(line),
                    keys: Vec::new(),
                }),
            }
        }
        text
    }

    /// Line 1 of a text with no lines does not read.
    fn first_unread(&self) -> Option<u64> {
        let first = self.clock.is_none().then_some(1);
        let loose = self.loose.first().copied();
        let in_blocks = || self.blocks.iter().find_map(Block::first_unread);
        first.or(loose).or_else(in_blocks)
    }
}

impl Block {
    fn lines(&self) -> impl Iterator<Item = u64> {
        self.line..=self.line + self.keys.len() as u64
    }

    fn first_unread(&self) -> Option<u64> {
        let reads = |line: u64| match line - self.line {
            0 => self.start.is_some(),
            key => self.keys[key as usize - 1].is_some(),
        };
        self.lines().find(|&line| !reads(line))
    }

    /// The pair with its keys; `None` where a line does not read, or keys are
    /// in the wrong number or order.
    fn pair(&self) -> Option<Pair> {
        let keys: Option<Vec<(bool, Key)>> = self.keys.iter().cloned().collect();
        let keys = match keys?.as_slice() {
            [] => Keys::None,
            [(true, adopted)] => Keys::Adopted(*adopted),
            [(true, adopted), (false, waiting)] => Keys::Renewing {
                adopted: *adopted,
                waiting: *waiting,
            },
            _ => return None,
        };
        let start = self.start.clone()?;
        Some(Pair { keys, ..start })
    }

    /// CR 7: the first reason that keeps the pair out of this table.
    fn reason(&self, kept: &Table) -> Option<u64> {
        if self.first_unread().is_some() {
            return Some(18);
        }
        let suffix = &self.start.as_ref().expect("it reads").suffix;
        let is_twin = |pair: &Pair| names::same(&pair.suffix, suffix);
        if kept.pairs.iter().any(is_twin) {
            return Some(14);
        }
        if kept.pairs.len() == MOST_PAIRS {
            return Some(15);
        }
        let mut with_it = kept.clone();
        with_it.pairs.extend(self.pair());
        let is_kept = with_it.pairs.len() > kept.pairs.len() && with_it.keeps_rules();
        (!is_kept).then_some(1)
    }
}

/// What stands before the first tab, or before the newline, or the end.
fn first_field(line: &[u8]) -> &[u8] {
    let is_end = |octet: &u8| matches!(octet, b'\t' | b'\n');
    let end = line.iter().position(is_end).unwrap_or(line.len());
    &line[..end]
}

/// The fields of a line that ends with its newline.
fn fields(line: &[u8]) -> Option<Vec<&[u8]>> {
    let line = line.strip_suffix(b"\n")?;
    Some(line.split(|&octet| octet == b'\t').collect())
}

fn read_clock(line: &[u8]) -> Option<(u64, u64)> {
    match *fields(line)? {
        [b"clock", clock, floor] => Some((number(clock)?, number(floor)?)),
        _ => None,
    }
}

fn read_pair(line: &[u8]) -> Option<Pair> {
    match *fields(line)? {
        [b"pair", suffix, next, lifetime, fresh] => Some(Pair {
            suffix: octets(suffix).filter(|suffix| (1..=128).contains(&suffix.len()))?,
            next_serial: number(next)?,
            lifetime: number(lifetime)?,
            fresh: number(fresh)?,
            keys: Keys::None,
        }),
        _ => None,
    }
}

/// Whether it is adopted, and the key.
fn read_key(line: &[u8]) -> Option<(bool, Key)> {
    let fields = fields(line)?;
    let [b"key", state, serial, algorithm, inception, partial, expiry] = *fields else {
        return None;
    };
    let is_adopted = match state {
        b"adopted" => true,
        b"waiting" => false,
        _ => return None,
    };
    let mut all = [256, 384, 512]
        .into_iter()
        .filter_map(Algorithm::from_number);
    let key = Key {
        serial: number(serial)?,
        algorithm: all.find(|known| known.text().as_bytes() == algorithm)?,
        inception: number(inception)?,
        partial: number(partial)?,
        expiry: number(expiry)?,
    };
    Some((is_adopted, key))
}

/// Below 2^64, without leading zeros.
fn number(field: &[u8]) -> Option<u64> {
    let is_plain = field == b"0" || field.first().is_some_and(|&digit| digit != b'0');
    let add = |value: u64, digit: &u8| match digit {
        b'0'..=b'9' => value.checked_mul(10)?.checked_add(u64::from(digit - b'0')),
        _ => None,
    };
    is_plain.then(|| field.iter().try_fold(0, add)).flatten()
}

/// Lower-case hexadecimal.
fn octets(field: &[u8]) -> Option<Vec<u8>> {
    let digit = |octet: u8| match octet {
        b'0'..=b'9' => Some(octet - b'0'),
        b'a'..=b'f' => Some(octet - b'a' + 10),
        _ => None,
    };
    let pairs = field.chunks_exact(2);
    pairs.remainder().is_empty().then_some(())?;
    pairs
        .map(|pair| Some(digit(pair[0])? << 4 | digit(pair[1])?))
        .collect()
}
