//! Listings that read and in which one line or pair breaks a table rule (02, CR 7): each is loaded
//! and mended.

use super::listings::{begin, live, two_keys};
use super::unread::taken;
use super::{cross, list, two_words, Group};
use crate::desk::{Key, Pair, Table};
use crate::listing::{key_line, Line, Listing, RULE};
use crate::maker::{Maker, SERIALS_END, TIMES_END};
use crate::wire::{joined, label, labels_of, name, name_of};

pub fn groups() -> Vec<Group> {
    vec![
        Group {
            name: "listed clock line",
            weight: 2,
            items: || list(&CLOCKS),
            run: clock,
        },
        Group {
            name: "listed pair",
            weight: 5,
            items: || list(&PAIRS),
            run: pair,
        },
        Group {
            name: "listed times",
            weight: 5,
            items: || cross(&["adopted", "waiting"], &TIMES),
            run: times,
        },
        Group {
            name: "listed serials",
            weight: 3,
            items: || list(&SERIALS),
            run: serials,
        },
        Group {
            name: "listed keys",
            weight: 4,
            items: || list(&KEYS),
            run: keys,
        },
    ]
}

const CLOCKS: [&str; 8] = [
    "clock 2^48",
    "clock 2^64 - 1",
    "floor 0",
    "floor 2^32 + 1",
    "floor 2^48",
    "both",
    "alone",
    "clock before a key's inception",
];

fn clock(maker: &mut Maker, item: &str) -> bool {
    let (mut table, _) = maker.few_pairs();
    match item {
        "clock 2^48" => table.clock = TIMES_END,
        "clock 2^64 - 1" => table.clock = u64::MAX,
        "floor 0" => table.floor = 0,
        "floor 2^32 + 1" => table.floor = SERIALS_END + 1,
        "floor 2^48" => table.floor = 1 << 48,
        "both" => (table.clock, table.floor) = (TIMES_END, 0),
        "alone" => {
            table.pairs.clear();
            table.floor = 0;
        }
        // The rule is the pair's: mending keeps the clock.
        _ => return early_clock(maker, table),
    }
    let mut listing = Listing::of(&table);
    listing.lines[0].fault = Some(RULE);
    taken(maker, &listing)
}

fn early_clock(maker: &mut Maker, mut table: Table) -> bool {
    let inceptions = table.pairs.iter().filter_map(latest_inception);
    table.clock = inceptions.max().expect("a key") - 1;
    let mut listing = Listing::of(&table);
    for (number, pair) in table.pairs.iter().enumerate() {
        if latest_inception(pair).is_some_and(|inception| inception > table.clock) {
            listing.blame(number, RULE);
        }
    }
    taken(maker, &listing)
}

fn latest_inception(pair: &Pair) -> Option<u64> {
    let keys = pair.adopted.iter().chain(&pair.waiting);
    keys.map(|key| key.inception).max()
}

/// Lists the table, in which this pair breaks a rule.
fn with_broken(maker: &mut Maker, table: &Table, number: usize) -> bool {
    let mut listing = Listing::of(table);
    listing.blame(number, RULE);
    taken(maker, &listing)
}

const PAIRS: [&str; 23] = [
    "suffix the root",
    "suffix of 2 octets",
    "suffix compressed",
    "suffix only a pointer",
    "suffix without its root",
    "suffix with an octet left over",
    "suffix with a second root",
    "suffix with a label past the end",
    "suffix with a label of 64",
    "suffix with a label octet 128",
    "suffix with a label octet 255",
    "suffix of 128 octets without its root",
    "suffix of 128 octets, one left over",
    "next serial 0",
    "next serial 2^32 + 1",
    "P 0",
    "P equal to L",
    "P above L",
    "L 0 and P 0",
    "L 1 and P 1",
    "L 1 and P 0",
    "L 2^31",
    "L 2^32 + 600",
];

/// Keys go by the terms that are wrong, so that nothing else is broken.
fn pair(maker: &mut Maker, item: &str) -> bool {
    let (mut table, number) = maker.few_pairs();
    let clock = table.clock;
    let pair = &mut table.pairs[number];
    let terms = |pair: &mut Pair, life, fresh| {
        live(pair, clock, life, 0);
        pair.fresh = fresh;
    };
    match item {
        "next serial 0" => {
            (pair.adopted, pair.waiting) = (None, None);
            pair.next = 0;
        }
        "next serial 2^32 + 1" => pair.next = SERIALS_END + 1,
        "P 0" => terms(pair, 600, 0),
        "P equal to L" => terms(pair, 600, 600),
        "P above L" => terms(pair, 600, 601),
        "L 0 and P 0" => terms_alone(pair, 0, 0),
        "L 1 and P 1" => terms(pair, 1, 1),
        "L 1 and P 0" => terms(pair, 1, 0),
        "L 2^31" => live(pair, clock, 1 << 31, 1 << 30),
        "L 2^32 + 600" => live(pair, clock, (1 << 32) + 600, 400),
        _ => pair.suffix = no_suffix(item),
    }
    with_broken(maker, &table, number)
}

/// These terms, and no key that goes by them.
fn terms_alone(pair: &mut Pair, life: u64, fresh: u64) {
    (pair.adopted, pair.waiting) = (None, None);
    (pair.life, pair.fresh) = (life, fresh);
}

fn no_suffix(item: &str) -> Vec<u8> {
    match item {
        "suffix the root" => vec![0],
        "suffix of 2 octets" => vec![1, b'a'],
        "suffix compressed" => vec![1, b'a', 0xc0, 12],
        "suffix only a pointer" => vec![0xc0, 12, 0],
        "suffix without its root" => label(b"example"),
        "suffix with an octet left over" => joined(&[&name(&[b"a"]), b"x"]),
        "suffix with a second root" => joined(&[&name(&[b"a"]), &[0]]),
        "suffix with a label past the end" => vec![5, b'a', b'b', 0],
        "suffix with a label of 64" => name(&[&[b'a'; 64]]),
        "suffix with a label octet 128" => vec![1, b'a', 128, 0],
        "suffix with a label octet 255" => vec![1, b'a', 255, 0],
        "suffix of 128 octets without its root" => labels_of(128),
        _ => joined(&[&name_of(127), &[0]]),
    }
}

const TIMES: [&str; 12] = [
    "partial one before inception",
    "partial 0",
    "partial at expiry",
    "partial above expiry",
    "expiry one before inception + L",
    "expiry one behind inception + L",
    "expiry 0",
    "expiry 2^48",
    "inception one behind the clock",
    "inception 2^64 - 1",
    "inception + L at 2^64",
    "inception + L past 2^64",
];

fn times(maker: &mut Maker, item: &str) -> bool {
    let (state, way) = two_words(item);
    match way {
        "expiry 2^48" => return ends_late(maker, state),
        "inception one behind the clock" => return begins_late(maker, state),
        _ => {}
    }
    let (mut table, number) = maker.few_pairs();
    let lot = maker.rng.below(100);
    let pair = &mut table.pairs[number];
    let life = pair.life;
    let (adopted, waiting) = two_keys(pair);
    let key = if state == "adopted" { adopted } else { waiting };
    bend(key, life, way, lot);
    with_broken(maker, &table, number)
}

fn bend(key: &mut Key, life: u64, way: &str, lot: u64) {
    match way {
        "partial one before inception" => key.partial = key.inception - 1,
        "partial 0" => key.partial = 0,
        "partial at expiry" => key.partial = key.expiry,
        "partial above expiry" => key.partial = key.expiry + 1,
        "expiry one before inception + L" => {
            key.partial = key.inception;
            key.expiry -= 1;
        }
        "expiry one behind inception + L" => key.expiry += 1,
        "expiry 0" => key.expiry = 0,
        "inception 2^64 - 1" => {
            key.inception = u64::MAX;
            key.partial = u64::MAX;
        }
        // The sums do not fit 64 bits.
        "inception + L at 2^64" => wrap(key, 0u64.wrapping_sub(life), life),
        _ => wrap(key, (1 + lot % (life - 1)).wrapping_sub(life), life),
    }
}

/// What a sum modulo 2^64 would make of it.
fn wrap(key: &mut Key, inception: u64, life: u64) {
    key.inception = inception;
    key.expiry = inception.wrapping_add(life);
    key.partial = key.expiry.saturating_sub(1);
}

/// The waiting key, and the adopted one too or not, begins at this time, all else being in order.
fn one_pair(maker: &mut Maker, clock: u64, state: &str, inception: u64) -> bool {
    let mut table = maker.sound_table(clock, 1, Some(2));
    let pair = &mut table.pairs[0];
    (pair.life, pair.fresh) = (600, 400);
    let (adopted, waiting) = two_keys(pair);
    let first = if state == "adopted" {
        inception
    } else {
        inception - 1
    };
    begin(adopted, first, 600, 400);
    begin(waiting, inception, 600, 400);
    with_broken(maker, &table, 0)
}

fn ends_late(maker: &mut Maker, state: &str) -> bool {
    one_pair(maker, TIMES_END - 1, state, TIMES_END - 600)
}

fn begins_late(maker: &mut Maker, state: &str) -> bool {
    let clock = maker.some_clock(true);
    one_pair(maker, clock, state, clock + 1)
}

const SERIALS: [&str; 9] = [
    "adopted 0",
    "adopted at next",
    "adopted above next",
    "waiting at next",
    "waiting above next",
    "waiting equal to the adopted",
    "waiting below the adopted",
    "waiting 0",
    "waiting expiry one before the adopted",
];

fn serials(maker: &mut Maker, item: &str) -> bool {
    let (mut table, number) = maker.few_pairs();
    let pair = &mut table.pairs[number];
    let (next, life) = (pair.next, pair.life);
    let (adopted, waiting) = two_keys(pair);
    match item {
        "adopted 0" => adopted.serial = 0,
        "adopted at next" => adopted.serial = next,
        "adopted above next" => adopted.serial = next + 1,
        "waiting at next" => waiting.serial = next,
        "waiting above next" => waiting.serial = next + 1,
        "waiting equal to the adopted" => waiting.serial = adopted.serial,
        "waiting below the adopted" => {
            std::mem::swap(&mut adopted.serial, &mut waiting.serial);
        }
        "waiting 0" => waiting.serial = 0,
        _ => begin(waiting, adopted.inception - 1, life, 0),
    }
    if item.starts_with("adopted a") {
        pair.waiting = None;
    }
    with_broken(maker, &table, number)
}

const KEYS: [&str; 10] = [
    "waiting alone",
    "waiting before adopted",
    "two adopted",
    "two waiting",
    "two waiting behind an adopted",
    "three keys",
    "adopted behind a waiting one too",
    "of one state, the same line",
    "of another pair",
    "70 of them",
];

fn keys(maker: &mut Maker, item: &str) -> bool {
    let (mut table, number) = maker.few_pairs();
    let pair = &mut table.pairs[number];
    let clock = maker.some_clock(false).min(table.clock);
    let other = maker.sound_pair(clock, vec![0], 2);
    let (adopted, waiting) = two_keys(pair);
    let later = Key {
        serial: waiting.serial + 1,
        ..waiting.clone()
    };
    let lines = match item {
        "waiting alone" => vec![key_line("waiting", waiting)],
        "waiting before adopted" => {
            vec![key_line("waiting", waiting), key_line("adopted", adopted)]
        }
        "two adopted" => vec![key_line("adopted", adopted), key_line("adopted", waiting)],
        "two waiting" => vec![key_line("waiting", adopted), key_line("waiting", waiting)],
        "two waiting behind an adopted" => vec![
            key_line("adopted", adopted),
            key_line("waiting", waiting),
            key_line("waiting", &later),
        ],
        "three keys" => vec![
            key_line("adopted", adopted),
            key_line("adopted", waiting),
            key_line("waiting", &later),
        ],
        "adopted behind a waiting one too" => vec![
            key_line("adopted", adopted),
            key_line("waiting", waiting),
            key_line("adopted", adopted),
        ],
        "of one state, the same line" => vec![key_line("adopted", adopted); 2],
        "of another pair" => vec![
            key_line("adopted", adopted),
            key_line("waiting", waiting),
            key_line("adopted", other.adopted.as_ref().expect("a key")),
        ],
        _ => vec![key_line("adopted", adopted); 70],
    };
    // A serial more is left, so that only number or order is wrong.
    pair.next = (waiting_serial(pair) + 2).min(SERIALS_END);
    let mut listing = Listing::of(&table);
    let at = listing.pair(number);
    let lines = lines.into_iter().map(Line::good);
    listing.lines.splice(at + 1..at + 3, lines);
    listing.blame(number, RULE);
    taken(maker, &listing)
}

fn waiting_serial(pair: &mut Pair) -> u64 {
    two_keys(pair).1.serial
}
