//! Scripts that cost a reader the most time or stack.

use crate::maker::{Call, Maker, Signer, MAX_ROOM};
use crate::reached::Reached;
use crate::wire::{self, joined, label, labels_of, pointer};
use std::io::{self, Write};

pub const KINDS: [&str; 4] = ["chain", "records", "questions", "pairs"];

const MAX: usize = 65_535;
/// Pointers reach no higher than this place.
const REACH: usize = 16_383;
/// Every chain ends at a root here.
const END: usize = 12;

pub fn write(kind: &str, to: &mut dyn Write) -> io::Result<()> {
    let mut maker = Maker::new(1, u64::MAX, Reached::with_outcomes(), to);
    match kind {
        "chain" => chain(&mut maker),
        "records" => records(&mut maker),
        "questions" => questions(&mut maker),
        _ => pairs(&mut maker),
    }
    maker.finish()?;
    to.write_all(b"\n")
}

/// A message under way, and the places where a pointer of the chain may stand.
struct Ground {
    octets: Vec<u8>,
    open: Vec<bool>,
}

impl Ground {
    fn new() -> Ground {
        Ground {
            octets: vec![0; 12],
            open: vec![false; 12],
        }
    }

    fn fixed(&mut self, octets: &[u8]) {
        self.octets.extend(octets);
        self.open.resize(self.octets.len(), false);
    }

    /// `count` octets for the chain; no pointer stands half in them.
    fn free(&mut self, count: usize) {
        self.octets.extend(vec![0; count]);
        self.open.resize(self.octets.len() - 1, true);
        self.open.push(false);
    }

    /// Lays the longest chain down and gives the place of its top.
    fn lay_chain(&mut self) -> usize {
        let places = longest(&self.open);
        for pair in places.windows(2) {
            self.octets[pair[0]..pair[0] + 2].copy_from_slice(&pointer(pair[1]));
        }
        places[0]
    }

    fn set_count(&mut self, section: usize, count: usize) {
        let at = 4 + 2 * section;
        self.octets[at..at + 2].copy_from_slice(&(count as u16).to_be_bytes());
    }
}

/// A way down from a place: hops, the next place, whether that one is tied.
#[derive(Clone, Copy)]
struct Way {
    hops: u32,
    next: usize,
    tied: bool,
}

/// The places of the longest chain of pointers, top first, `END` last.
///
/// Pointers two octets apart give most of it. A pointer may also share an octet with the one it
/// leads to, when that one is *tied*: the low octet of its target must then be the high octet
/// of a pointer to it. That spares an octet about once in every 256.
fn longest(open: &[bool]) -> Vec<usize> {
    let size = open.len().min(REACH + 1);
    let mut apart: Vec<Option<Way>> = vec![None; size];
    let mut tied: Vec<Option<Way>> = vec![None; size];
    let end = Way {
        hops: 0,
        next: END,
        tied: false,
    };
    // The best way from any place two or more below.
    let mut below = end;
    for at in END + 1..size {
        if at >= END + 3 {
            below = better(below, step_to(at - 2, apart[at - 2], false));
        }
        if open[at] {
            let shared = step_to(at - 1, tied[at - 1], true);
            apart[at] = Some(one_more(better(below, shared)));
            tied[at] = tied_way(at, &apart, &tied);
        }
    }
    let top = (END + 1..size).max_by_key(|&at| apart[at].map_or(0, |w| w.hops));
    follow(top.expect("some place"), &apart, &tied)
}

/// The way that begins with going to `place`, its hops not yet counting that one.
fn step_to(place: usize, from: Option<Way>, tied: bool) -> Option<Way> {
    from.map(|w| Way {
        hops: w.hops,
        next: place,
        tied,
    })
}

fn better(a: Way, b: Option<Way>) -> Way {
    match b {
        Some(b) if b.hops > a.hops => b,
        _ => a,
    }
}

fn one_more(way: Way) -> Way {
    Way {
        hops: way.hops + 1,
        ..way
    }
}

/// The best target whose low octet is the high octet of a pointer to `at`.
fn tied_way(at: usize, apart: &[Option<Way>], tied: &[Option<Way>]) -> Option<Way> {
    let low = 0xc0 + (at >> 8);
    let targets = (0..=at >> 8).map(|high| 256 * high + low);
    targets
        .filter(|&t| t > END && t < at)
        .filter_map(|t| match t == at - 1 {
            true => step_to(t, tied[t], true),
            false => step_to(t, apart[t], false),
        })
        .max_by_key(|w| w.hops)
        .map(one_more)
}

fn follow(top: usize, apart: &[Option<Way>], tied: &[Option<Way>]) -> Vec<usize> {
    let mut places = vec![top];
    let mut way = apart[top];
    while let Some(w) = way {
        places.push(w.next);
        way = match (w.next, w.tied) {
            (END, _) => None,
            (next, true) => tied[next],
            (next, false) => apart[next],
        };
    }
    places
}

/// A root owner at `END`, then a record whose type, class and TTL serve the chain as well.
fn record_start(ground: &mut Ground) {
    ground.fixed(&[0]);
    ground.free(8);
}

fn enrolled(maker: &mut Maker) -> Signer {
    maker.new_table(1000);
    maker.enrol(1000, &[1, b'a', 0], (600, 400), 256);
    maker.signer(1, 1000)
}

fn plain_call(time: u64) -> Call {
    Call {
        time,
        good: true,
        offer: vec![7; 16],
        room: MAX_ROOM,
        fits: false,
        record: Vec::new(),
    }
}

/// Sends it and looks at it.
fn both(maker: &mut Maker, s: &Signer, octets: &[u8]) {
    maker.send(&plain_call(s.time), octets);
    maker.look(octets);
}

/// A TSIG that takes the longest way to the root at the end of its name.
fn tsig_by(maker: &mut Maker, s: &Signer, top: usize) -> Vec<u8> {
    let mut tsig = maker.tsig(s);
    let name = s.name();
    tsig.owner = joined(&[&name[..name.len() - 1], &pointer(top)]);
    let mut b = wire::Builder::new(0, 0);
    b.record(3, &tsig.record());
    b.finish()[12..].to_vec()
}

/// One name by the longest chain, with as many labels before it as a name can have; then a key
/// name by the same chain.
fn chain(maker: &mut Maker) {
    let s = enrolled(maker);
    let mut ground = Ground::new();
    record_start(&mut ground);
    // RDLENGTH is a pointer too: 49,152 and a low target make a data length that fits.
    ground.free(2);
    ground.free(REACH + 2 - ground.octets.len());
    let top = ground.lay_chain();
    let data_length = usize::from(u16::from_be_bytes([ground.octets[21], ground.octets[22]]));
    ground.fixed(&vec![0; 23 + data_length - ground.octets.len()]);
    ground.set_count(1, 1);
    let most_labels = joined(&[&label(b"m").repeat(127), &pointer(top)]);
    let mut unsigned = Ground {
        octets: ground.octets.clone(),
        open: vec![],
    };
    unsigned.set_count(3, 1);
    let record = joined(&[&most_labels, &[0, 1, 0, 1, 0, 0, 0, 0, 0, 0]]);
    both(maker, &s, &joined(&[&unsigned.octets, &record]));
    ground.set_count(3, 1);
    let tsig = tsig_by(maker, &s, top);
    both(maker, &s, &joined(&[&ground.octets, &tsig]));
}

/// As many records as fit, each owner the longest chain.
fn records(maker: &mut Maker) {
    let s = enrolled(maker);
    let mut ground = Ground::new();
    record_start(&mut ground);
    let data_length = REACH + 2 - 23;
    ground.fixed(&(data_length as u16).to_be_bytes());
    ground.free(data_length);
    let top = ground.lay_chain();
    let record = joined(&[&pointer(top), &[0, 1, 0, 1, 0, 0, 0, 0, 0, 0]]);
    crowd(maker, &s, ground, top, &record, 1);
}

/// The same with questions, of which twice as many fit. The chain stands in the text of the
/// first ones' names, and in their types and classes.
fn questions(maker: &mut Maker) {
    let s = enrolled(maker);
    let mut ground = Ground::new();
    ground.fixed(&[0]);
    ground.free(4);
    let mut count = 1;
    while ground.octets.len() <= REACH {
        for text in [63, 63, 63, 61] {
            ground.fixed(&[text]);
            ground.free(text.into());
        }
        ground.fixed(&[0]);
        ground.free(4);
        count += 1;
    }
    let top = ground.lay_chain();
    let question = joined(&[&pointer(top), &[0, 1, 0, 1]]);
    crowd(maker, &s, ground, top, &question, count);
}

/// Fills the message with one item, unsigned and then with a TSIG at the end. Items of six
/// octets are questions, others are records of the answer; `count` of them stand already.
fn crowd(maker: &mut Maker, s: &Signer, ground: Ground, top: usize, item: &[u8], count: usize) {
    let section = usize::from(item.len() != 6);
    for tsig in [vec![], tsig_by(maker, s, top)] {
        let room = MAX - ground.octets.len() - tsig.len();
        let more = room / item.len();
        let mut items = item.repeat(more);
        if section == 1 {
            lengthen_last(&mut items, room % item.len());
        }
        let mut full = Ground {
            octets: joined(&[&ground.octets, &items, &tsig]),
            open: vec![],
        };
        full.set_count(section, count + more);
        full.set_count(3, usize::from(!tsig.is_empty()));
        both(maker, s, &full.octets);
    }
}

/// Gives the last of some records without data that much, to leave no octet unused.
fn lengthen_last(records: &mut Vec<u8>, by: usize) {
    let length = records.len() - 2;
    records[length..].copy_from_slice(&(by as u16).to_be_bytes());
    records.extend(vec![0; by]);
}

/// Suffixes of 128 octets that differ in the last one before the root only.
fn near_suffix(i: u8) -> Vec<u8> {
    let mut text = labels_of(127);
    text[126] = 0x80 + i;
    joined(&[&text, &[0]])
}

/// Every pair is passed over before the last is found, and before none is.
fn pairs(maker: &mut Maker) {
    maker.new_table(1000);
    for i in 0..64 {
        maker.enrol(1000, &near_suffix(i), (600_000, 400_000), 256);
    }
    for time in 1001..1101 {
        let s = maker.signer(64, time);
        let ask = maker.ordinary(&s);
        both(maker, &s, &ask.octets());
        let stranger = Signer {
            suffix: near_suffix(64),
            ..s.clone()
        };
        let ask = maker.ordinary(&stranger);
        both(maker, &s, &ask.octets());
    }
    let s = maker.signer(64, 1101);
    maker.grant(&s);
    maker.adopt_waiting(&s);
    maker.enrol(1101, &near_suffix(63), (600, 400), 256);
    maker.enrol(1101, &near_suffix(64), (600, 400), 256);
    maker.line(b"list");
}
