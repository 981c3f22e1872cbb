//! Refusals of each number, and which comes first when two apply.

use super::{cross, list, two_words, Group};
use crate::desk::{Outcome, Want};
use crate::maker::{Maker, TOP};
use crate::wire;

pub fn groups() -> Vec<Group> {
    vec![
        Group {
            name: "precedence",
            weight: 50,
            items: || list(&PRECEDENCE),
            run: precedence,
        },
        Group {
            name: "size",
            weight: 25,
            items: || cross(&["message", "look"], &SIZES),
            run: size,
        },
        Group {
            name: "offer",
            weight: 20,
            items: || cross(&["4097", "4098", "4099", "ordinary"], &OFFERS),
            run: offer,
        },
        Group {
            name: "terms",
            weight: 30,
            items: || list(&TERMS),
            run: terms,
        },
        Group {
            name: "algorithm",
            weight: 25,
            items: || cross(&["enrol", "issue"], &ALGORITHM_NUMBERS),
            run: algorithm,
        },
        Group {
            name: "pair number",
            weight: 25,
            items: || cross(&["issue", "revoke"], &PAIR_NUMBERS),
            run: pair_number,
        },
        Group {
            name: "revoke",
            weight: 12,
            items: || list(&REVOKES),
            run: revoke,
        },
    ]
}

fn refused(seen: &Outcome, number: u64) -> bool {
    Want::Refused(number).fits(seen)
}

fn done(seen: &Outcome) -> bool {
    seen.is_call() && seen.number == 0 && seen.pair != 0 && seen.serial != 0
}

const PRECEDENCE: [&str; 22] = [
    "TIME over SIZE",
    "TIME over NAME",
    "TIME over NOPAIR",
    "CLOCK over SIZE",
    "CLOCK over OFFER",
    "CLOCK over NAME",
    "CLOCK over TERM",
    "CLOCK over NOPAIR",
    "SIZE over OFFER",
    "OFFER over FORMAT",
    "OFFER over NOTQUERY",
    "OFFER over ROOM",
    "FORMAT over NOTQUERY",
    "FORMAT over NOTQUERY in look",
    "FORMAT over ROOM",
    "NOTQUERY over ROOM",
    "NOPAIR over TERM",
    "NAME over TERM",
    "TERM over TWIN",
    "algorithm over TWIN",
    "DONE with the offer full",
    "DONE with QR 0 and all else set",
];

const BAD_SUFFIX: [u8; 2] = [1, 97];

fn precedence(maker: &mut Maker, item: &str) -> bool {
    let clock = maker.clock_above_zero();
    match item {
        "TIME over SIZE" => short_message(maker, TOP, 8, 2),
        "CLOCK over SIZE" => short_message(maker, clock - 1, 8, 3),
        "CLOCK over OFFER" => short_message(maker, clock - 1, 1025, 3),
        "SIZE over OFFER" => short_message(maker, clock, 1025, 4),
        "TIME over NAME" => enrol_bad(maker, TOP, &BAD_SUFFIX, 0, 2),
        "CLOCK over NAME" => enrol_bad(maker, clock - 1, &BAD_SUFFIX, 0, 3),
        "CLOCK over TERM" => enrol_bad(maker, clock - 1, &[1, 97, 0], 0, 3),
        "NAME over TERM" => enrol_bad(maker, clock, &BAD_SUFFIX, 0, 12),
        "TERM over TWIN" => enrol_twin(maker, (600, 600), 256),
        "algorithm over TWIN" => enrol_twin(maker, (600, 400), 257),
        "TIME over NOPAIR" => {
            refused(&maker.issue(TOP, 0, 1), 2) && refused(&maker.revoke(TOP, 0), 2)
        }
        "CLOCK over NOPAIR" => {
            refused(&maker.issue(clock - 1, 0, 1), 3) && refused(&maker.revoke(clock - 1, 0), 3)
        }
        "NOPAIR over TERM" => {
            let count = maker.count();
            let pair = *maker.rng.pick(&[0, count + 1]);
            refused(&maker.issue(clock, pair, 1), 9)
        }
        _ => message_precedence(maker, item),
    }
}

fn short_message(maker: &mut Maker, time: u64, offer: u64, number: u64) -> bool {
    let message = maker.rng.some_octets(0, 11);
    let mut call = maker.call(time);
    call.offer = maker.rng.octets(offer);
    maker.sends(&call, &message, Want::Refused(number))
}

fn enrol_bad(maker: &mut Maker, time: u64, suffix: &[u8], fresh: u64, number: u64) -> bool {
    let seen = maker.enrol(time, suffix, (600, fresh), 256);
    refused(&seen, number)
}

fn enrol_twin(maker: &mut Maker, terms: (u64, u64), algorithm: u64) -> bool {
    let pair = maker.any_pair();
    let suffix = maker.pair(pair).suffix.clone();
    let time = maker.tick();
    refused(&maker.enrol(time, &suffix, terms, algorithm), 13)
}

/// A message with a TSIG of wrong class, which any desk answers when it gets so far.
fn message_precedence(maker: &mut Maker, item: &str) -> bool {
    let s = maker.live();
    let mut ask = maker.ordinary(&s);
    crate::maker::tsig(&mut ask).class = wire::IN;
    let mut call = maker.call(s.time);
    let (first, second) = item.split_once(" over ").unwrap_or((item, ""));
    if first == "OFFER" {
        call.offer = maker.rng.octets(1025);
    }
    if second == "ROOM" {
        call.room = maker.rng.below(12);
    }
    if first == "FORMAT" || second == "FORMAT" {
        ask.tail.push(0);
    }
    if first == "NOTQUERY" || second.starts_with("NOTQUERY") {
        ask.flags |= wire::QR;
    }
    match item {
        "DONE with the offer full" => call.offer = maker.rng.octets(1024),
        "DONE with QR 0 and all else set" => ask.flags = 0x7fff,
        "FORMAT over NOTQUERY in look" => return refused(&maker.look(&ask.octets()), 6),
        _ => {}
    }
    let want = match first {
        "OFFER" => Want::Refused(5),
        "FORMAT" => Want::Refused(6),
        "NOTQUERY" => Want::Refused(7),
        _ => Want::Ill,
    };
    maker.asks(&call, &ask, want)
}

const SIZES: [&str; 9] = [
    "no octets",
    "1 octet",
    "11 octets",
    "12 octets",
    "12 octets with QR",
    "12 octets with a count",
    "13 octets",
    "a QR message",
    "a QR message that does not read",
];

fn size(maker: &mut Maker, item: &str) -> bool {
    let (call, shape) = two_words(item);
    let s = maker.live();
    let mut octets = maker.rng.octets(13);
    octets[2] &= 0x7f;
    octets[4..12].fill(0);
    let number = match shape {
        "no octets" => cut(&mut octets, 0, 4),
        "1 octet" => cut(&mut octets, 1, 4),
        "11 octets" => cut(&mut octets, 11, 4),
        "12 octets" => cut(&mut octets, 12, 0),
        "12 octets with QR" => {
            octets[2] |= 0x80;
            cut(&mut octets, 12, 7)
        }
        "12 octets with a count" => {
            octets[5 + 2 * maker.rng.below(4) as usize] = 1;
            cut(&mut octets, 12, 6)
        }
        "13 octets" => 6,
        _ => {
            let mut ask = maker.ordinary(&s);
            ask.flags |= wire::QR;
            octets = ask.octets();
            let short = octets.len() - 1;
            match shape {
                "a QR message" => 7,
                _ => cut(&mut octets, short, 6),
            }
        }
    };
    if call == "look" {
        return refused(&maker.look(&octets), number);
    }
    let call = maker.call(s.time);
    maker.sends(&call, &octets, Want::Refused(number))
}

fn cut(octets: &mut Vec<u8>, length: usize, number: u64) -> u64 {
    octets.truncate(length);
    number
}

const OFFERS: [&str; 5] = ["0", "1", "1024", "1025", "1500"];

fn offer(maker: &mut Maker, item: &str) -> bool {
    let (kind, length) = two_words(item);
    let length: u64 = length.parse().expect("a length");
    let s = maker.live();
    let (ask, want) = match kind {
        "ordinary" => (maker.ordinary(&s), Want::Passed(0)),
        mode => {
            let mode = mode.parse().expect("a mode");
            let lacks = length == 0 && mode != wire::BY_RESOLVER;
            let error = if lacks { 2 } else { 0 };
            (maker.renewal_of(&s, mode), Want::Tkey(error))
        }
    };
    let mut call = maker.call_for(&ask, s.time);
    call.offer = maker.rng.octets(length);
    let want = if length > 1024 {
        Want::Refused(5)
    } else {
        want
    };
    maker.asks(&call, &ask, want)
}

const BIG: u64 = 1 << 31;

const TERMS: [&str; 16] = [
    "P = 0",
    "P = L",
    "P = L - 1",
    "P above L",
    "P = 1, L = 2",
    "P = 1, L = 1",
    "P = 0, L = 1",
    "L = 0",
    "L = 2^31 - 1",
    "L = 2^31 - 1, P = L - 1",
    "L = 2^31",
    "L = 2^31, P = 1",
    "L = 2^32 + 600",
    "L = 2^64 - 1",
    "P = 2^32 + 1",
    "P = 2^64 - 1",
];

fn terms(maker: &mut Maker, item: &str) -> bool {
    maker.with_space();
    let life = maker.rng.within(3, 5000);
    let terms = match item {
        "P = 0" => (life, 0),
        "P = L" => (life, life),
        "P = L - 1" => (life, life - 1),
        "P above L" => (life, life + 1),
        "P = 1, L = 2" => (2, 1),
        "P = 1, L = 1" => (1, 1),
        "P = 0, L = 1" => (1, 0),
        "L = 0" => (0, 0),
        "L = 2^31 - 1" => (BIG - 1, life),
        "L = 2^31 - 1, P = L - 1" => (BIG - 1, BIG - 2),
        "L = 2^31" => (BIG, life),
        "L = 2^31, P = 1" => (BIG, 1),
        "L = 2^32 + 600" => ((1 << 32) + 600, 400),
        "L = 2^64 - 1" => (u64::MAX, life),
        "P = 2^32 + 1" => (life, (1 << 32) + 1),
        _ => (life, u64::MAX),
    };
    let suffix = maker.fresh_suffix(5);
    let time = maker.tick();
    let algorithm = maker.rng.algorithm();
    let seen = maker.enrol(time, &suffix, terms, algorithm);
    let fits = terms.1 >= 1 && terms.1 < terms.0 && terms.0 < BIG;
    match fits {
        true => done(&seen) && seen.pair == maker.count() && seen.serial == maker.table.floor,
        false => refused(&seen, 13),
    }
}

const ALGORITHM_NUMBERS: [&str; 11] = [
    "256",
    "384",
    "512",
    "0",
    "1",
    "255",
    "257",
    "383",
    "513",
    "4294967552",
    "18446744073709551615",
];

fn algorithm(maker: &mut Maker, item: &str) -> bool {
    let (call, number) = two_words(item);
    let number: u64 = number.parse().expect("a number");
    let seen = match call {
        "enrol" => {
            maker.with_space();
            let suffix = maker.fresh_suffix(5);
            let time = maker.tick();
            maker.enrol(time, &suffix, (600, 400), number)
        }
        _ => {
            let pair = maker.any_pair();
            let time = maker.tick();
            maker.issue(time, pair, number)
        }
    };
    match wire::ALGORITHMS.contains(&number) {
        true => done(&seen),
        false => refused(&seen, 13),
    }
}

const PAIR_NUMBERS: [&str; 8] = [
    "0",
    "1",
    "count",
    "count + 1",
    "65",
    "257",
    "2^32 + 1",
    "2^64 - 1",
];

fn pair_number(maker: &mut Maker, item: &str) -> bool {
    let (call, number) = two_words(item);
    let pair = match number {
        "0" => 0,
        "1" => 1,
        "count" => maker.count(),
        "count + 1" => maker.count() + 1,
        "65" => 65,
        "257" => 257,
        "2^32 + 1" => (1 << 32) + 1,
        _ => u64::MAX,
    };
    let enrolled = pair >= 1 && pair <= maker.count();
    let time = maker.tick();
    if enrolled && call == "revoke" {
        maker.issue(time, pair, 384);
    }
    let seen = match call {
        "issue" => maker.issue(time, pair, 512),
        _ => maker.revoke(time, pair),
    };
    match enrolled {
        true => done(&seen) && seen.pair == pair,
        false => refused(&seen, 9),
    }
}

const REVOKES: [&str; 5] = [
    "a fresh key",
    "again",
    "with a waiting key",
    "no key",
    "an expired key",
];

fn revoke(maker: &mut Maker, item: &str) -> bool {
    let s = match item {
        "a fresh key" => maker.live(),
        "again" => maker.revoked(),
        "with a waiting key" => maker.with_waiting(),
        "an expired key" => maker.expired(),
        _ => {
            let pair = maker.keyless();
            let time = maker.tick();
            return refused(&maker.revoke(time, pair), 10);
        }
    };
    let partial = |maker: &Maker| maker.pair(s.pair).adopted.as_ref().map_or(0, |k| k.partial);
    let before = partial(maker);
    let seen = maker.revoke(s.time, s.pair);
    match item {
        "an expired key" => refused(&seen, 10) && partial(maker) == before,
        _ => done(&seen) && seen.serial == s.serial && partial(maker) == before.min(s.time),
    }
}
