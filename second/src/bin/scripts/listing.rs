//! A listing line by line (02, CR 7), with what the papers say of each line, and what `list ROOM`,
//! `load` and `mend` printed, read back from text.

use crate::desk::{read_number, Key, Pair, Table};

/// The reasons for which mending drops a pair, in their order.
pub const LINE: u64 = 18;
pub const TWIN: u64 = 14;
pub const FULL: u64 = 15;
pub const RULE: u64 = 1;
pub const REASONS: [u64; 4] = [LINE, TWIN, FULL, RULE];

/// The refusal of a listing or of dropped lines that do not fit.
pub const ROOM: u64 = 8;

/// One line, its newline included if it has one.
#[derive(Clone)]
pub struct Line {
    pub octets: Vec<u8>,
    /// LINE where it does not read; else the reason, if any, for which it keeps its pair, or the
    /// clock line the table, out.
    pub fault: Option<u64>,
}

impl Line {
    pub fn good(octets: impl Into<Vec<u8>>) -> Line {
        Line {
            octets: octets.into(),
            fault: None,
        }
    }

    pub fn unread(octets: impl Into<Vec<u8>>) -> Line {
        Line {
            octets: octets.into(),
            fault: Some(LINE),
        }
    }

    /// CR 7: "a line whose first field is `key`".
    fn is_key(&self) -> bool {
        let end = self.octets.iter().position(|o| b"\t\n".contains(o));
        self.octets[..end.unwrap_or(self.octets.len())] == *b"key"
    }
}

pub fn clock_line(clock: u64, floor: u64) -> String {
    format!("clock\t{clock}\t{floor}\n")
}

pub fn pair_line(pair: &Pair) -> String {
    let suffix: String = pair.suffix.iter().map(|o| format!("{o:02x}")).collect();
    format!(
        "pair\t{suffix}\t{}\t{}\t{}\n",
        pair.next, pair.life, pair.fresh
    )
}

pub fn key_line(state: &str, key: &Key) -> String {
    format!(
        "key\t{state}\t{}\thmac-sha{}\t{}\t{}\t{}\n",
        key.serial, key.algorithm, key.inception, key.partial, key.expiry
    )
}

#[derive(Clone)]
pub struct Listing {
    pub lines: Vec<Line>,
}

impl Listing {
    /// Of a table that keeps the rules, or whose faults are set afterwards.
    pub fn of(table: &Table) -> Listing {
        let mut lines = vec![Line::good(clock_line(table.clock, table.floor))];
        for pair in &table.pairs {
            lines.push(Line::good(pair_line(pair)));
            let adopted = pair.adopted.iter().map(|key| key_line("adopted", key));
            let waiting = pair.waiting.iter().map(|key| key_line("waiting", key));
            lines.extend(adopted.chain(waiting).map(Line::good));
        }
        Listing { lines }
    }

    pub fn text(&self) -> Vec<u8> {
        self.lines.iter().flat_map(|l| l.octets.clone()).collect()
    }

    /// The places of the lines that begin so.
    pub fn places(&self, start: &str) -> Vec<usize> {
        let begins = |&at: &usize| self.lines[at].octets.starts_with(start.as_bytes());
        (0..self.lines.len()).filter(begins).collect()
    }

    /// The place of the line of this pair, from 0.
    pub fn pair(&self, number: usize) -> usize {
        self.places("pair\t")[number]
    }

    /// This line says something else, and it matters so.
    pub fn set(&mut self, at: usize, octets: impl Into<Vec<u8>>, fault: Option<u64>) {
        self.lines[at] = Line {
            octets: octets.into(),
            fault,
        };
    }

    /// Says why the pair is not kept, all its lines being read.
    pub fn blame(&mut self, pair: usize, reason: u64) {
        let at = self.pair(pair);
        self.lines[at].fault = Some(reason);
    }

    /// CR 7: after line 1 a `key` line "belongs to the nearest other line above, and does not read
    /// when that is line 1; any other line starts a pair". The places of each pair's lines; a line
    /// that belongs to line 1 stands by itself.
    fn blocks(&self) -> Vec<Vec<usize>> {
        let mut blocks: Vec<Vec<usize>> = Vec::new();
        let mut begun = false;
        for at in 1..self.lines.len() {
            let is_key = self.lines[at].is_key();
            match blocks.last_mut() {
                Some(block) if is_key && begun => block.push(at),
                _ => blocks.push(vec![at]),
            }
            begun |= !is_key;
        }
        blocks
    }

    /// The first reason that applies to these lines.
    fn reason(&self, block: &[usize]) -> Option<u64> {
        let is_loose = self.lines[block[0]].is_key();
        let has = |&reason: &u64| {
            let blamed = block.iter().any(|&at| self.lines[at].fault == Some(reason));
            blamed || is_loose && reason == LINE
        };
        REASONS.into_iter().find(has)
    }

    /// The fault of line 1, the text having one.
    fn first_fault(&self) -> Option<u64> {
        self.lines.first().map_or(Some(LINE), |line| line.fault)
    }

    fn first_unread(&self) -> Option<usize> {
        let is_unread = |at: usize| self.lines[at].fault == Some(LINE);
        let in_block = |block: Vec<usize>| {
            let is_loose = self.lines[block[0]].is_key();
            block.into_iter().find(|&at| is_loose || is_unread(at))
        };
        match self.first_fault() {
            Some(LINE) => Some(0),
            _ => self.blocks().into_iter().find_map(in_block),
        }
    }

    /// What loading it comes to.
    pub fn loading(&self) -> Said {
        if let Some(place) = self.first_unread() {
            return Said::Refused(LINE, place as u64 + 1);
        }
        match self.lines.iter().any(|line| line.fault.is_some()) {
            true => Said::Refused(RULE, 0),
            false => Said::Done(Vec::new()),
        }
    }

    /// What mending it comes to, so many dropped lines being nameable.
    pub fn mending(&self, room: u64) -> Said {
        match self.first_fault() {
            Some(LINE) => return Said::Refused(LINE, 1),
            Some(fault) => return Said::Refused(fault, 0),
            None => {}
        }
        let dropped = self.dropped();
        match dropped.len() as u64 <= room.min(4096) {
            true => Said::Done(dropped),
            false => Said::Refused(ROOM, 0),
        }
    }

    /// The dropped lines, from 1, with their reasons.
    pub fn dropped(&self) -> Vec<(u64, u64)> {
        let of = |block: Vec<usize>| {
            let reason = self.reason(&block);
            let named = move |at| reason.map(|reason| (at as u64 + 1, reason));
            block.into_iter().filter_map(named)
        };
        self.blocks().into_iter().flat_map(of).collect()
    }

    /// The listing of what mending leaves, which is all of it where there is no fault.
    pub fn kept(&self) -> Vec<u8> {
        let blocks = self.blocks().into_iter();
        let kept = blocks
            .filter(|block| self.reason(block).is_none())
            .flatten();
        let lines = std::iter::once(0).chain(kept);
        lines.flat_map(|at| self.lines[at].octets.clone()).collect()
    }
}

/// What a line printed.
#[derive(Clone, Debug, PartialEq)]
pub enum Said {
    Bad,
    Listed(String),
    /// A number, and the line beside it.
    Refused(u64, u64),
    /// With the lines that mending dropped.
    Done(Vec<(u64, u64)>),
}

impl Said {
    pub fn read(printed: &str) -> Said {
        if printed.starts_with("bad line ") {
            return Said::Bad;
        }
        if printed.starts_with("clock\t") {
            return Said::Listed(printed.to_string());
        }
        let mut lines = printed
            .lines()
            .map(|line| line.split(' ').map(read_number).collect::<Vec<u64>>());
        let first = lines.next().expect("a result");
        let two = |words: Vec<u64>| match words[..] {
            [line, reason] => (line, reason),
            _ => panic!("two words in {printed:?}"),
        };
        let dropped: Vec<(u64, u64)> = lines.map(two).collect();
        match first[..] {
            [0, 0] if dropped.is_empty() => Said::Done(dropped),
            [0, 0, count] if count == dropped.len() as u64 => Said::Done(dropped),
            [number, line] | [number, line, 0] if dropped.is_empty() => Said::Refused(number, line),
            _ => panic!("words as counted in {printed:?}"),
        }
    }

    pub fn number(&self) -> u64 {
        match self {
            Said::Refused(number, _) => *number,
            _ => 0,
        }
    }
}
