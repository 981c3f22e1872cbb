//! Requests put together by lot from right and wrong parts, at any time in a key's life. No
//! outcome is wanted here: both readers must only agree.

use super::{list, Group};
use crate::desk::Pair;
use crate::maker::{tkey, tsig, Call, Maker, Signer, MAX_ROOM, TOP};
use crate::wire::{self, algorithm_name, joined, key_name, label, name, Ask};

pub fn groups() -> Vec<Group> {
    vec![Group {
        name: "mixture",
        weight: 160,
        items: || {
            let mut all = list(&REQUESTS);
            all.push("operator".to_string());
            all
        },
        run: mixture,
    }]
}

pub const REQUESTS: [&str; 5] = ["ordinary", "renewal", "adoption", "deletion", "any mode"];

pub fn mixture(maker: &mut Maker, item: &str) -> bool {
    let pair = maker.any_pair();
    let time = any_time(maker, pair);
    if item == "operator" {
        return operator(maker, pair, time);
    }
    let (mut call, message) = any_request(maker, pair, time, item);
    call.room = match maker.rng.chance(90) {
        true => MAX_ROOM,
        false => maker.rng.below(400),
    };
    !maker.send(&call, &message).bad
}

/// A message of this kind by any key of the pair.
pub fn any_request(maker: &mut Maker, pair: u64, time: u64, kind: &str) -> (Call, Vec<u8>) {
    let s = any_signer(maker, pair, time);
    let mut ask = match kind {
        "ordinary" => maker.ordinary(&s),
        "renewal" => maker.renewal(&s),
        "adoption" => maker.request(&s, wire::ADOPT, &[0]),
        "deletion" => maker.request(&s, wire::DELETE, &[0]),
        _ => {
            let mode = match maker.rng.chance(50) {
                true => maker.rng.within(4096, 4101) as u16,
                false => maker.rng.next() as u16,
            };
            maker.request(&s, mode, &[0])
        }
    };
    if ask.tkey.is_some() {
        mix_tkey(maker, &s, &mut ask);
    }
    mix_tsig(maker, &mut ask);
    let mut call = maker.call_for(&ask, time);
    call.good = maker.rng.chance(95);
    if maker.rng.chance(10) {
        (call.fits, call.record) = maker.any_keying();
    }
    if maker.rng.chance(5) {
        call.offer.clear();
    }
    (call, ask.octets())
}

/// Mostly now, sometimes at an edge of the key's life that lies near ahead.
fn any_time(maker: &mut Maker, pair: u64) -> u64 {
    let now = maker.tick();
    if maker.rng.chance(90) {
        return now;
    }
    let edges = maker.pair(pair).adopted.as_ref();
    let edges = edges.map_or([0; 2], |k| [k.partial, k.expiry]);
    let edge = (*maker.rng.pick(&edges) + maker.rng.below(3)).saturating_sub(1);
    match edge >= now && edge < now + 2000 && edge < TOP {
        true => edge,
        false => now,
    }
}

fn operator(maker: &mut Maker, pair: u64, time: u64) -> bool {
    let seen = match maker.rng.below(3) {
        0 => maker.revoke(time, pair),
        _ => {
            let algorithm = maker.rng.algorithm();
            maker.issue(time, pair, algorithm)
        }
    };
    seen.is_call()
}

/// The serial and algorithm of a key that the pair has, mostly, or had, or never had.
fn any_key(maker: &mut Maker, pair: &Pair) -> (u64, u64) {
    let lot = maker.rng.below(20);
    let known = match lot {
        0..=14 => pair.adopted.as_ref(),
        15..=17 => pair.waiting.as_ref(),
        _ => None,
    };
    match known {
        Some(key) => (key.serial, key.algorithm),
        None => (maker.rng.within(1, pair.next), maker.rng.algorithm()),
    }
}

fn any_signer(maker: &mut Maker, number: u64, time: u64) -> Signer {
    let pair = maker.pair(number).clone();
    let (serial, algorithm) = any_key(maker, &pair);
    Signer {
        pair: number,
        suffix: pair.suffix,
        serial,
        algorithm,
        time,
    }
}

fn any_case(maker: &mut Maker, name: Vec<u8>) -> Vec<u8> {
    match maker.rng.chance(20) {
        true => maker.rng.mixed_case(&name),
        false => name,
    }
}

fn any_algorithm(maker: &mut Maker, likely: u64) -> Vec<u8> {
    let wire_name = match maker.rng.below(20) {
        0..=13 => algorithm_name(likely),
        14..=18 => algorithm_name(maker.rng.algorithm()),
        _ => name(&[b"hmac-sha1"]),
    };
    any_case(maker, wire_name)
}

/// A key name of the pair, now and then of another pair or of none.
fn any_name(maker: &mut Maker, s: &Signer) -> (Vec<u8>, u64) {
    let number = match maker.rng.chance(92) {
        true => s.pair,
        false => maker.any_pair(),
    };
    let pair = maker.pair(number).clone();
    let waits = pair.waiting.is_some() && maker.rng.chance(50);
    let (serial, algorithm) = match &pair.waiting {
        Some(key) if waits => (key.serial, key.algorithm),
        _ => any_key(maker, &pair),
    };
    let text = match maker.rng.chance(97) {
        true => serial.to_string(),
        false => format!("0{serial}"),
    };
    let whole = joined(&[&label(text.as_bytes()), &pair.suffix]);
    (any_case(maker, whole), algorithm)
}

fn mix_tkey(maker: &mut Maker, s: &Signer, ask: &mut Ask) {
    let (owner, likely) = any_name(maker, s);
    let algorithm = any_algorithm(maker, likely);
    let old_algorithm = any_algorithm(maker, s.algorithm);
    let old = match maker.rng.chance(92) {
        true => any_case(maker, s.name()),
        false => any_name(maker, s).0,
    };
    let key = maker.key_record(s);
    let t = tkey(ask);
    t.owner = owner;
    t.algorithm = algorithm;
    t.other = joined(&[&old, &old_algorithm]);
    match maker.rng.below(30) {
        0 => t.expiration = t.inception,
        1 => t.other.push(0),
        2 => std::mem::swap(&mut t.expiration, &mut t.inception),
        3 => ask.keys.push(key),
        4 => ask.keys.clear(),
        5 => ask.sections[maker.rng.below(3) as usize].push(key),
        6 => ask.questions[0].class = wire::IN,
        7 => t.owner = key_name(s.serial, &[0]),
        _ => {}
    }
}

fn mix_tsig(maker: &mut Maker, ask: &mut Ask) {
    let owner = tsig(ask).owner.clone();
    let owner = any_case(maker, owner);
    let t = tsig(ask);
    t.owner = owner;
    let fudge = u64::from(t.fudge);
    match maker.rng.below(10) {
        0 => t.signed = t.signed.saturating_sub(fudge),
        1 => t.signed += fudge,
        2 => t.signed = t.signed.saturating_sub(maker.rng.below(2 * fudge)),
        3 => t.signed += maker.rng.below(2 * fudge),
        4 => {
            let length = maker.rng.below(t.mac.len() as u64 + 2);
            t.mac = maker.rng.octets(length);
        }
        _ => {}
    }
}
