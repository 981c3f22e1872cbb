//! What only a loaded table leads to (02, CR 7): no serial left, a clock past all times, a waiting
//! key beside a fresh one, two keys of one expiry.

use super::mixture::{mixture, REQUESTS};
use super::{cross, list, two_words, Group};
use crate::desk::{Key, Outcome, Pair, Table, Want};
use crate::listing::Listing;
use crate::maker::{tkey, Call, Maker, Signer, SERIALS_END, TIMES_END, TOP};
use crate::wire::{self, key_name};

pub fn groups() -> Vec<Group> {
    vec![
        Group {
            name: "spent",
            weight: 4,
            items: || list(&SPENT),
            run: |maker, item| maker.apart(|maker| spent(maker, item)),
        },
        Group {
            name: "want of a serial",
            weight: 5,
            items: || cross(&["4097", "4098", "4099"], &WANTS),
            run: |maker, item| maker.apart(|maker| want_of_serial(maker, item)),
        },
        Group {
            name: "beside a waiting key",
            weight: 5,
            items: || list(&BESIDE),
            run: |maker, item| maker.apart(|maker| beside(maker, item)),
        },
        Group {
            name: "keys of one expiry",
            weight: 2,
            items: || list(&ENDS),
            run: |maker, item| maker.apart(|maker| one_expiry(maker, item)),
        },
        Group {
            name: "late clock",
            weight: 5,
            items: || cross(&CALLS, &CLOCKS),
            run: |maker, item| maker.apart(|maker| late(maker, item)),
        },
        Group {
            name: "loaded serial",
            weight: 2,
            items: || list(&SERIALS),
            run: |maker, item| maker.apart(|maker| serial(maker, item)),
        },
        Group {
            name: "mixture after a load",
            weight: 4,
            items: || list(&REQUESTS),
            run: |maker, item| maker.apart(|maker| mixed(maker, item)),
        },
    ]
}

/// A pair with a key that has 4,000 fresh seconds and 6,000 to live at this time.
fn fresh_pair(maker: &mut Maker, pairs: &[Pair], time: u64) -> Pair {
    let serial = maker.rng.within(1, 12);
    Pair {
        suffix: maker.new_suffix(pairs, 12),
        next: serial + 1,
        life: 6000,
        fresh: 4000,
        adopted: Some(Key {
            serial,
            algorithm: maker.rng.algorithm(),
            inception: time,
            partial: time + 4000,
            expiry: time + 6000,
        }),
        waiting: None,
    }
}

/// Some such pairs, and the number of one of them, from 0.
fn fresh_table(maker: &mut Maker, count: u64) -> (Table, usize) {
    let clock = maker.some_clock(true);
    let mut table = Table {
        clock,
        floor: 1,
        pairs: Vec::new(),
    };
    for _ in 0..count {
        let pair = fresh_pair(maker, &table.pairs, clock);
        table.pairs.push(pair);
    }
    (table, maker.rng.below(count) as usize)
}

/// Gives the pair a waiting key with the same times.
fn add_waiting(maker: &mut Maker, pair: &mut Pair) {
    let adopted = pair.adopted.clone().expect("an adopted key");
    let step = maker.rng.within(1, 3);
    pair.waiting = Some(Key {
        serial: adopted.serial + step,
        algorithm: maker.rng.algorithm(),
        ..adopted
    });
    pair.next = pair.next.max(adopted.serial + step + 1);
}

fn loaded(maker: &mut Maker, table: &Table) -> bool {
    maker.loads(&Listing::of(table))
}

fn refused(seen: &Outcome, number: u64) -> bool {
    Want::Refused(number).fits(seen)
}

fn made(seen: &Outcome, pair: u64, serial: u64) -> bool {
    seen.is_call() && seen.number == 0 && (seen.pair, seen.serial) == (pair, serial)
}

fn passes(maker: &mut Maker, s: &Signer) -> bool {
    let ask = maker.ordinary(s);
    let call = maker.call(s.time);
    maker.asks(&call, &ask, Want::Passed(0))
}

const SPENT: [&str; 15] = [
    "enrol at floor 2^32 - 1",
    "enrol at floor 2^32",
    "enrol after closing the last serial",
    "NAME over SPENT",
    "TERM over SPENT",
    "algorithm over SPENT",
    "TWIN over SPENT",
    "FULL over SPENT",
    "issue at next serial 2^32 - 1",
    "issue at next serial 2^32",
    "issue to a pair without a key",
    "TIME over SPENT",
    "CLOCK over SPENT",
    "NOPAIR over SPENT",
    "SPENT over TERM",
];

fn spent(maker: &mut Maker, item: &str) -> bool {
    let count = if item == "FULL over SPENT" { 64 } else { 3 };
    let (mut table, number) = fresh_table(maker, count);
    match item {
        "enrol at floor 2^32 - 1" => table.floor = SERIALS_END - 1,
        "enrol after closing the last serial" => table.pairs[number].next = SERIALS_END,
        "issue at next serial 2^32 - 1" => table.pairs[number].next = SERIALS_END - 1,
        "issue to a pair without a key" => {
            table.pairs[number].next = SERIALS_END;
            table.pairs[number].adopted = None;
        }
        _ => {
            table.floor = SERIALS_END;
            table.pairs[number].next = SERIALS_END;
        }
    }
    if !loaded(maker, &table) {
        return false;
    }
    let (pair, time) = (number as u64 + 1, maker.tick());
    match item {
        "enrol at floor 2^32 - 1" => last_enrolled(maker, time),
        "enrol after closing the last serial" => {
            Want::Handed.fits(&maker.close(time, pair))
                && maker.table.floor == SERIALS_END
                && enrol(maker, time, (600, 400), 256, 11)
        }
        "enrol at floor 2^32" => enrol(maker, time, (600, 400), 256, 11),
        "NAME over SPENT" => refused(&maker.enrol(time, &[1, b'a'], (600, 400), 256), 12),
        "TERM over SPENT" => enrol(maker, time, (600, 600), 256, 13),
        "algorithm over SPENT" => enrol(maker, time, (600, 400), 255, 13),
        "TWIN over SPENT" => {
            let twin = table.pairs[number].suffix.to_ascii_uppercase();
            refused(&maker.enrol(time, &twin, (600, 400), 256), 14)
        }
        "FULL over SPENT" => enrol(maker, time, (600, 400), 256, 15),
        "issue at next serial 2^32 - 1" => last_issued(maker, time, pair),
        "TIME over SPENT" => refused(&maker.issue(TOP, pair, 256), 2),
        "CLOCK over SPENT" => refused(&maker.issue(table.clock - 1, pair, 256), 3),
        "NOPAIR over SPENT" => refused(&maker.issue(time, count + 1, 256), 9),
        "SPENT over TERM" => refused(&maker.issue(time, pair, 255), 11),
        _ => refused(&maker.issue(time, pair, 512), 11),
    }
}

fn enrol(maker: &mut Maker, time: u64, terms: (u64, u64), algorithm: u64, number: u64) -> bool {
    let suffix = maker.fresh_suffix(5);
    refused(&maker.enrol(time, &suffix, terms, algorithm), number)
}

/// The last serial is given to each pair that is enrolled, until one of them is closed.
fn last_enrolled(maker: &mut Maker, time: u64) -> bool {
    (4..=5).all(|pair| {
        let suffix = maker.fresh_suffix(5);
        let seen = maker.enrol(time, &suffix, (600, 400), 384);
        let s = maker.signer(pair, time);
        made(&seen, pair, SERIALS_END - 1) && passes(maker, &s)
    }) && refused(&maker.issue(time, 5, 256), 11)
        && Want::Handed.fits(&maker.close(time, 4))
        && enrol(maker, time, (600, 400), 256, 11)
        && passes_last(maker, time, 4)
}

fn last_issued(maker: &mut Maker, time: u64, pair: u64) -> bool {
    let seen = maker.issue(time, pair, 512);
    made(&seen, pair, SERIALS_END - 1)
        && maker.pair(pair).next == SERIALS_END
        && passes_last(maker, time, pair)
        && refused(&maker.issue(time, pair, 512), 11)
        && made(&maker.revoke(time, pair), pair, SERIALS_END - 1)
}

/// A message by the key with the last serial, which look finds too.
fn passes_last(maker: &mut Maker, time: u64, pair: u64) -> bool {
    let s = maker.signer(pair, time);
    let ask = maker.ordinary(&s);
    let seen = maker.look(&ask.octets());
    made(&seen, pair, SERIALS_END - 1) && passes(maker, &s)
}

const WANTS: [&str; 9] = [
    "the last serial",
    "none",
    "none beside a waiting key",
    "none and no offer",
    "BADKEY before it",
    "BADALG before it",
    "BADTIME before it",
    "it before KEYREC",
    "it in one octet too few",
];

/// 01 "Renewal": "a serial left", in each mode.
fn want_of_serial(maker: &mut Maker, item: &str) -> bool {
    let (mode, way) = two_words(item);
    let (mut table, number) = fresh_table(maker, 3);
    if way == "none beside a waiting key" {
        add_waiting(maker, &mut table.pairs[number]);
    }
    table.pairs[number].next = match way {
        "the last serial" => SERIALS_END - 1,
        _ => SERIALS_END,
    };
    if !loaded(maker, &table) {
        return false;
    }
    let time = maker.tick();
    let s = maker.signer(number as u64 + 1, time);
    let mut ask = maker.renewal_of(&s, mode.parse().expect("a mode"));
    let mut call = maker.fitting_call(time);
    let want = match way {
        "the last serial" => return last_renewed(maker, &s, &call, &ask),
        "BADKEY before it" => {
            let other = key_name(s.serial + 1, &s.suffix);
            tkey(&mut ask).other = wire::joined(&[&other, &s.algorithm_name()]);
            Want::Tkey(17)
        }
        "BADALG before it" => {
            tkey(&mut ask).algorithm = wire::name(&[b"hmac-sha1"]);
            Want::Tkey(21)
        }
        "BADTIME before it" => {
            tkey(&mut ask).expiration = tkey(&mut ask).inception;
            Want::Tkey(18)
        }
        _ => Want::Tkey(2),
    };
    match way {
        "none and no offer" => call.offer.clear(),
        "it before KEYREC" => call.record = maker.wrong_record(),
        _ => {}
    }
    if way == "it in one octet too few" {
        call.room = maker.due_reply(&call, &ask, want).len() as u64 - 1;
        return maker.asks(&call, &ask, Want::Refused(8));
    }
    maker.asks(&call, &ask, want) && maker.table.pairs == table.pairs
}

/// The renewal is granted with the last serial, and the next one is not.
fn last_renewed(maker: &mut Maker, s: &Signer, call: &Call, ask: &wire::Ask) -> bool {
    let granted = maker.asks(call, ask, Want::Tkey(0));
    let waiting = maker.pair(s.pair).waiting.clone();
    granted
        && waiting.is_some_and(|key| key.serial == SERIALS_END - 1)
        && maker.asks(call, ask, Want::Tkey(2))
        && maker.pair(s.pair).next == SERIALS_END
}

const BESIDE: [&str; 12] = [
    "ordinary",
    "ordinary one before partial",
    "ordinary at partial",
    "deletion of the waiting key",
    "deletion of the waiting key in other case",
    "deletion of the waiting key one before partial",
    "deletion of both",
    "deletion at partial",
    "deletion of neither",
    "adoption",
    "renewal",
    "issue",
];

/// A key in its fresh time with a waiting one beside it.
fn beside(maker: &mut Maker, item: &str) -> bool {
    let (mut table, number) = fresh_table(maker, 3);
    add_waiting(maker, &mut table.pairs[number]);
    if !loaded(maker, &table) {
        return false;
    }
    let mut pair = table.pairs[number].clone();
    let waits = pair.waiting.clone().expect("a waiting key");
    let time = match item {
        "ordinary at partial" | "deletion at partial" => waits.partial,
        _ if item.ends_with("one before partial") => waits.partial - 1,
        _ => maker.tick(),
    };
    let s = maker.signer(number as u64 + 1, time);
    let name = key_name(waits.serial, &s.suffix);
    let (ask, want) = match item {
        "ordinary" | "ordinary one before partial" => (maker.ordinary(&s), Want::Passed(0)),
        "ordinary at partial" => (maker.ordinary(&s), Want::Partial),
        "deletion at partial" => (maker.deletion(&s, &name), Want::Partial),
        "deletion of both" => {
            (pair.adopted, pair.waiting) = (None, None);
            (maker.deletion(&s, &s.name()), Want::Tkey(0))
        }
        "deletion of neither" => {
            let other = key_name(waits.serial + 1, &s.suffix);
            (maker.deletion(&s, &other), Want::Tkey(20))
        }
        "adoption" => {
            (pair.adopted, pair.waiting) = (Some(waits.clone()), None);
            (maker.adoption(&s, &name, waits.algorithm), Want::Tkey(0))
        }
        "renewal" => return replaced(maker, &s, pair),
        "issue" => return issued_over(maker, &s, &waits),
        _ => {
            pair.waiting = None;
            let name = match item {
                "deletion of the waiting key in other case" => maker.rng.mixed_case(&name),
                _ => name,
            };
            (maker.deletion(&s, &name), Want::Tkey(0))
        }
    };
    let call = maker.call(time);
    maker.asks(&call, &ask, want) && *maker.pair(s.pair) == pair
}

/// The renewal drops the waiting key and ends the fresh time.
fn replaced(maker: &mut Maker, s: &Signer, was: Pair) -> bool {
    let ask = maker.renewal(s);
    let call = maker.call_for(&ask, s.time);
    let granted = maker.asks(&call, &ask, Want::Tkey(0));
    let pair = maker.pair(s.pair).clone();
    let is_new = |key: &Key| key.serial == was.next && key.inception == s.time;
    let ends = |key: &Key| key.serial == s.serial && key.partial == s.time;
    granted && pair.waiting.as_ref().is_some_and(is_new) && pair.adopted.as_ref().is_some_and(ends)
}

/// The issue drops both keys.
fn issued_over(maker: &mut Maker, s: &Signer, waits: &Key) -> bool {
    let seen = maker.issue(s.time, s.pair, 256);
    let call = maker.call(s.time);
    let issued = maker.signer(s.pair, s.time);
    let ask = maker.adoption(&issued, &key_name(waits.serial, &s.suffix), waits.algorithm);
    seen.number == 0
        && seen.serial > waits.serial
        && maker.pair(s.pair).waiting.is_none()
        && maker.asks(&call, &ask, Want::Tkey(20))
}

const ENDS: [&str; 4] = [
    "adoption one before it",
    "adoption at it",
    "deletion one before it",
    "renewal one before it",
];

/// The waiting key expires when the adopted one does, and its fresh time is over.
fn one_expiry(maker: &mut Maker, item: &str) -> bool {
    let (mut table, number) = fresh_table(maker, 2);
    add_waiting(maker, &mut table.pairs[number]);
    if !loaded(maker, &table) {
        return false;
    }
    let mut pair = table.pairs[number].clone();
    let waits = pair.waiting.clone().expect("a waiting key");
    let time = match item {
        "adoption at it" => waits.expiry,
        _ => waits.expiry - 1,
    };
    let s = maker.signer(number as u64 + 1, time);
    let name = key_name(waits.serial, &s.suffix);
    let (ask, want) = match item {
        "adoption at it" => (maker.adoption(&s, &name, waits.algorithm), Want::BadKey),
        "deletion one before it" => (maker.deletion(&s, &name), Want::Partial),
        "renewal one before it" => {
            let ask = maker.renewal_of(&s, wire::BY_SERVER);
            let call = maker.call(time);
            return maker.asks(&call, &ask, Want::Tkey(0));
        }
        _ => {
            (pair.adopted, pair.waiting) = (Some(waits.clone()), None);
            (maker.adoption(&s, &name, waits.algorithm), Want::Tkey(0))
        }
    };
    let call = maker.call(time);
    maker.asks(&call, &ask, want) && *maker.pair(s.pair) == pair
}

const CALLS: [&str; 6] = ["enrol", "issue", "revoke", "close", "message", "look"];
const CLOCKS: [&str; 3] = ["2^48 - 2^31 - 1", "2^48 - 2^31", "2^48 - 1"];

/// At the first clock one time is left, at the others none; TIME comes before CLOCK.
fn late(maker: &mut Maker, item: &str) -> bool {
    let (call, clock) = two_words(item);
    let clock = match clock {
        "2^48 - 2^31 - 1" => TOP - 1,
        "2^48 - 2^31" => TOP,
        _ => TIMES_END - 1,
    };
    let mut table = Table {
        clock,
        floor: 1,
        pairs: Vec::new(),
    };
    for _ in 0..3 {
        let pair = fresh_pair(maker, &table.pairs, clock.min(TIMES_END - 6001));
        table.pairs.push(pair);
    }
    if !loaded(maker, &table) {
        return false;
    }
    if call == "look" {
        let s = maker.signer(2, clock);
        let ask = maker.ordinary(&s);
        return made(&maker.look(&ask.octets()), 2, s.serial);
    }
    [TOP - 2, TOP - 1, TOP, clock.max(TOP)].iter().all(|&time| {
        let number = refusal_at(clock, time);
        let seen = call_at(maker, call, time);
        seen.is_call() && seen.number == number && (number == 0 || seen.is_bare())
    }) && (clock == TOP - 1 || maker.table == table)
}

/// TIME, else CLOCK, else none.
fn refusal_at(clock: u64, time: u64) -> u64 {
    match time {
        _ if time >= TOP => 2,
        _ if time < clock => 3,
        _ => 0,
    }
}

fn call_at(maker: &mut Maker, call: &str, time: u64) -> Outcome {
    match call {
        "enrol" => {
            let suffix = maker.fresh_suffix(5);
            maker.enrol(time, &suffix, (600, 400), 256)
        }
        "issue" => maker.issue(time, 2, 256),
        "revoke" => maker.revoke(time, 2),
        "close" => maker.close(time, 2),
        _ => {
            let s = maker.signer(2, time);
            let ask = maker.ordinary(&s);
            let call = maker.call(time);
            maker.send(&call, &ask.octets())
        }
    }
}

const SERIALS: [&str; 4] = [
    "1 by issue",
    "a pair without a key",
    "below the floor",
    "closing below the floor",
];

/// Serials of pairs that no run from a new table has.
fn serial(maker: &mut Maker, item: &str) -> bool {
    let (mut table, number) = fresh_table(maker, 3);
    let next = match item {
        "1 by issue" => 1,
        _ => maker.rng.within(20, 1 << 20),
    };
    table.floor = next + 50;
    let one = &mut table.pairs[number];
    (one.next, one.adopted) = (next, None);
    if !loaded(maker, &table) {
        return false;
    }
    let (pair, time) = (number as u64 + 1, maker.tick());
    if item == "closing below the floor" {
        let suffix = table.pairs[number].suffix.clone();
        return Want::Handed.fits(&maker.close(time, pair))
            && maker.table.floor == table.floor
            && made(&maker.enrol(time, &suffix, (600, 400), 256), 3, table.floor);
    }
    let seen = maker.issue(time, pair, 256);
    let s = maker.signer(pair, time);
    made(&seen, pair, next) && maker.table.floor == table.floor && passes(maker, &s)
}

/// Requests by lot on a table made from nothing, where the readers must only agree.
fn mixed(maker: &mut Maker, item: &str) -> bool {
    let clock = maker.some_clock(true);
    let count = maker.rng.within(1, 5);
    let table = maker.sound_table(clock, count, None);
    loaded(maker, &table) && (0..5).all(|_| mixture(maker, item))
}
