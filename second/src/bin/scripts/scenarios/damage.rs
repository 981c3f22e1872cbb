//! Messages with octets missing, left over or wrong.

use super::{cross, list, Group};
use crate::desk::Want;
use crate::maker::{tkey, tsig, Maker, Signer};
use crate::wire::{self, record, Ask, Builder};

pub fn groups() -> Vec<Group> {
    vec![
        Group {
            name: "cut at each length",
            weight: 2,
            items: || list(&CUTS),
            run: cut,
        },
        Group {
            name: "count",
            weight: 25,
            items: || list(&COUNTS),
            run: count,
        },
        Group {
            name: "length",
            weight: 15,
            items: || list(&LENGTHS),
            run: length,
        },
        Group {
            name: "mutation",
            weight: 110,
            items: || cross(&["message", "look"], &MUTATIONS),
            run: mutation,
        },
    ]
}

/// A valid message of each kind, for damage to begin from.
fn valid(maker: &mut Maker, s: &Signer, kind: &str) -> Ask {
    match kind {
        "unsigned" => maker.unsigned(s),
        "unsigned TKEY" => {
            let mut ask = maker.deletion(s, &s.name());
            ask.tsig = None;
            ask
        }
        "signed" => maker.ordinary(s),
        "renewal" => maker.renewal(s),
        "adoption" => {
            let key = maker.pair(s.pair).waiting.clone();
            let (serial, algorithm) =
                key.map_or((s.serial, s.algorithm), |k| (k.serial, k.algorithm));
            maker.adoption(s, &wire::key_name(serial, &s.suffix), algorithm)
        }
        "deletion" => maker.deletion(s, &s.name()),
        _ => maker.request(s, 3, &s.name()),
    }
}

const CUTS: [&str; 9] = [
    "unsigned",
    "unsigned TKEY",
    "signed",
    "renewal",
    "adoption",
    "deletion",
    "unsupported mode",
    "TSIG data",
    "TKEY data",
];

fn cut(maker: &mut Maker, item: &str) -> bool {
    let pair = maker.short_pair();
    let s = maker.issued(pair);
    match item {
        "TSIG data" => cut_tsig_data(maker, &s),
        "TKEY data" => cut_tkey_data(maker, &s),
        _ => cut_message(maker, &s, item),
    }
}

fn cut_message(maker: &mut Maker, s: &Signer, kind: &str) -> bool {
    let octets = valid(maker, s, kind).octets();
    let call = maker.call(s.time);
    (0..octets.len()).all(|length| {
        let want = match length {
            0..12 => Want::Refused(4),
            _ => Want::Format(length),
        };
        match maker.rng.chance(20) {
            true => want.fits(&maker.look(&octets[..length])),
            false => maker.sends(&call, &octets[..length], want),
        }
    })
}

/// Each way to leave octets of the data out, RDLENGTH agreeing.
fn cut_tsig_data(maker: &mut Maker, s: &Signer) -> bool {
    let mut ask = maker.ordinary(s);
    let whole = ask.tsig.take().expect("signed").record();
    let call = maker.call(s.time);
    (0..whole.data.len()).all(|length| {
        let mut short = whole.clone();
        short.data.truncate(length);
        let mut ask = ask.clone();
        ask.sections[2].push(short);
        maker.asks(&call, &ask, Want::Ill)
    })
}

fn cut_tkey_data(maker: &mut Maker, s: &Signer) -> bool {
    let mut ask = maker.renewal(s);
    if maker.rng.chance(50) {
        tkey(&mut ask).mode = *maker.rng.pick(&[wire::ADOPT, wire::DELETE, 3]);
    }
    let whole = ask.tkey.take().expect("a TKEY").record();
    let call = maker.call(s.time);
    (0..whole.data.len()).all(|length| {
        let mut short = whole.clone();
        short.data.truncate(length);
        let mut ask = ask.clone();
        ask.sections[2].push(short);
        maker.asks(&call, &ask, Want::Bad)
    })
}

const COUNTS: [&str; 13] = [
    "questions too high",
    "questions too low",
    "answers too high",
    "answers too low",
    "authorities too high",
    "authorities too low",
    "additionals too high",
    "additionals too low",
    "all 65535",
    "answers counted as authorities",
    "1 octet left over",
    "12 octets left over",
    "a record left over",
];

/// A message with something in each section.
fn laden(maker: &mut Maker, s: &Signer) -> Ask {
    let mut ask = maker.ordinary(s);
    for section in 0..3 {
        let r = maker.by_the_way();
        ask.sections[section].push(r);
    }
    ask
}

fn count(maker: &mut Maker, item: &str) -> bool {
    let s = maker.live();
    let mut ask = laden(maker, &s);
    let by = if item.ends_with("high") { 1 } else { -1 };
    match item.split(' ').next() {
        Some("questions") => ask.counts[0] = by,
        Some("answers") if item.ends_with("authorities") => {
            ask.counts[1] = -1;
            ask.counts[2] = 1;
        }
        Some("answers") => ask.counts[1] = by,
        Some("authorities") => ask.counts[2] = by,
        Some("additionals") => ask.counts[3] = by,
        Some("all") => ask.counts = to_65535(&ask),
        Some("1") => ask.tail = vec![0],
        Some("12") => ask.tail = maker.rng.octets(12),
        _ => ask.tail = vec![0; 11],
    }
    let octets = ask.octets();
    let left_over = octets.len() - ask.tail.len();
    let call = maker.call(s.time);
    match item {
        "answers counted as authorities" => maker.sends(&call, &octets, Want::Passed(0)),
        // What a question read as a record comes to depends on its octets.
        "questions too high" | "questions too low" => !maker.send(&call, &octets).bad,
        "additionals too high" => maker.sends(&call, &octets, Want::Format(octets.len())),
        _ if !ask.tail.is_empty() => maker.sends(&call, &octets, Want::Format(left_over)),
        _ => maker.sends(&call, &octets, Want::Refused(6)),
    }
}

fn to_65535(ask: &Ask) -> [i32; 4] {
    let octets = ask.octets();
    let count = |at: usize| i32::from(u16::from_be_bytes([octets[at], octets[at + 1]]));
    [4, 6, 8, 10].map(|at| 65_535 - count(at))
}

const LENGTHS: [&str; 7] = [
    "last one long",
    "last one short",
    "last 65535",
    "last 0",
    "first past the end",
    "first takes the next record in",
    "question cut by its class",
];

fn length(maker: &mut Maker, item: &str) -> bool {
    let s = maker.live();
    let ask = maker.ordinary(&s);
    let call = maker.call(s.time);
    let octets = match item {
        "last one long" => last_length(&ask, 1),
        "last one short" => last_length(&ask, -1),
        "last 65535" => last_length(&ask, 65_535),
        "last 0" => {
            let length = tsig(&mut ask.clone()).record().data.len() as i32;
            last_length(&ask, -length)
        }
        "question cut by its class" => {
            let mut b = Builder::new(ask.id, ask.flags);
            b.raw(&[0, 0, 1, 0]);
            b.bend_count(0, 1);
            b.finish()
        }
        _ => first_length(maker, &s, item),
    };
    let want = match item {
        "last one short" => Want::Format(octets.len() - 1),
        "last 0" => Want::Refused(6),
        // With the next record taken in, the counts ask for one more record than there is.
        _ => Want::Format(octets.len()),
    };
    maker.sends(&call, &octets, want)
}

/// The TSIG, which is last, with another RDLENGTH than its data has.
fn last_length(ask: &Ask, off: i32) -> Vec<u8> {
    let mut ask = ask.clone();
    let mut last = ask.tsig.take().expect("signed").record();
    last.length_off = if off == 65_535 {
        off - last.data.len() as i32
    } else {
        off
    };
    ask.sections[2].push(last);
    ask.octets()
}

fn first_length(maker: &mut Maker, s: &Signer, item: &str) -> Vec<u8> {
    let mut b = Builder::new(maker.rng.next() as u16, 0);
    let mut first = record(&[0], wire::NULL, wire::IN, &[1, 2, 3, 4]);
    let last = maker.tsig(s).record();
    let last_size = (last.owner.len() + 10 + last.data.len()) as i32;
    first.length_off = match item {
        "first past the end" => last_size + 1,
        _ => last_size,
    };
    b.record(1, &first);
    b.record(3, &last);
    b.finish()
}

pub const MUTATIONS: [&str; 5] = ["flip", "insert", "delete", "duplicate", "several"];

const KINDS: [&str; 7] = [
    "unsigned",
    "unsigned TKEY",
    "signed",
    "renewal",
    "adoption",
    "deletion",
    "unsupported mode",
];

/// No outcome is wanted here: both readers must only agree.
fn mutation(maker: &mut Maker, item: &str) -> bool {
    let (way, change) = super::two_words(item);
    let s = match maker.rng.below(3) {
        0 => maker.with_waiting(),
        1 => maker.live(),
        _ => maker.revoked(),
    };
    let kind = *maker.rng.pick(&KINDS);
    let ask = valid(maker, &s, kind);
    let mut octets = ask.octets();
    for _ in 0..maker.rng.within(1, 4) {
        let change = match change {
            "several" => *maker.rng.pick(&MUTATIONS),
            _ => change,
        };
        mutate(maker, &mut octets, change);
    }
    if way == "look" {
        return !maker.look(&octets).bad;
    }
    let mut call = maker.call_for(&ask, s.time);
    call.good = maker.rng.chance(90);
    if maker.rng.chance(20) {
        call.room = maker.rng.below(300);
    }
    !maker.send(&call, &octets).bad
}

pub fn mutate(maker: &mut Maker, octets: &mut Vec<u8>, change: &str) {
    let at = maker.rng.below(octets.len() as u64) as usize;
    match change {
        "flip" => octets[at] ^= 1 << maker.rng.below(8),
        "insert" => octets.insert(at, maker.rng.next() as u8),
        "delete" if octets.len() > 1 => drop(octets.remove(at)),
        "duplicate" => octets.insert(at, octets[at]),
        _ => octets[at] = maker.rng.next() as u8,
    }
}
