//! Listings that load (02, CR 7): the run's own and those of tables made from nothing, each loaded,
//! mended and listed again; and the room for a listing.

use super::{cross, list, room_for, two_words, Group};
use crate::desk::{Key, Pair, Table};
use crate::listing::{Listing, Said, ROOM};
use crate::maker::{Maker, SERIALS_END, TIMES_END, TOP};
use crate::wire::name;

pub fn groups() -> Vec<Group> {
    vec![
        Group {
            name: "own listing",
            weight: 3,
            items: || list(&OWN),
            run: own,
        },
        Group {
            name: "listing of",
            weight: 4,
            items: counts,
            run: sized,
        },
        Group {
            name: "listing with suffix",
            weight: 3,
            items: || list(&SUFFIXES),
            run: suffix,
        },
        Group {
            name: "listing with",
            weight: 10,
            items: || list(&BOUNDS),
            run: bound,
        },
        Group {
            name: "list in room",
            weight: 5,
            items: || cross(&["empty table", "own table", "64 pairs"], &LIST_ROOMS),
            run: room,
        },
    ]
}

const OWN: [&str; 4] = [
    "loaded",
    "mended",
    "loaded after calls",
    "pairs turned round",
];

fn own(maker: &mut Maker, item: &str) -> bool {
    let listing = Listing::of(&maker.table);
    match item {
        "loaded" => maker.loads(&listing) && maker.line(b"list").listed,
        "mended" => maker.mends(0, &listing) && maker.line(b"list").listed,
        "loaded after calls" => rewound(maker, &listing),
        _ => {
            let mut table = maker.table.clone();
            table.pairs.reverse();
            maker.apart(|maker| maker.loads(&Listing::of(&table)))
        }
    }
}

/// CR 7: "Loading an old listing rewinds serials": what was issued since is issued again.
fn rewound(maker: &mut Maker, listing: &Listing) -> bool {
    let (pair, time) = (maker.any_pair(), maker.tick());
    let first = maker.issue(time, pair, 256);
    let back = maker.loads(listing);
    let second = maker.issue(time, pair, 256);
    back && first == second && maker.pair(pair).next == first.serial + 1 && maker.loads(listing)
}

/// The text is loaded, mended and listed, and the run's own table comes back.
pub fn goes_both_ways(maker: &mut Maker, table: &Table) -> bool {
    let listing = Listing::of(table);
    maker.apart(|maker| {
        maker.loads(&listing)
            && maker.table == *table
            && lists(maker, "exact")
            && maker.mends(0, &listing)
    })
}

fn counts() -> Vec<String> {
    let keys = ["no key each", "one key each", "two keys each", "any keys"];
    let mut all = cross(&["1 pair", "2 pairs", "some pairs", "64 pairs"], &keys);
    all.push("no pair, no key".to_string());
    all
}

fn sized(maker: &mut Maker, item: &str) -> bool {
    let (pairs, keys) = two_words(item);
    let pairs = match pairs {
        "no pair" => 0,
        "1 pair" => 1,
        "2 pairs" => 2,
        "some pairs" => maker.rng.within(3, 9),
        _ => 64,
    };
    let keys = match keys {
        "any keys" => None,
        "one key each" => Some(1),
        "two keys each" => Some(2),
        _ => Some(0),
    };
    let clock = maker.some_clock(false);
    let table = maker.sound_table(clock, pairs, keys);
    goes_both_ways(maker, &table)
}

const SUFFIXES: [&str; 9] = [
    "of 3 octets",
    "of 4 octets",
    "of 127 octets",
    "of 128 octets",
    "of 128 octets in 64 pairs",
    "with a label of 63",
    "of many labels",
    "in both cases",
    "one the parent of the other",
];

fn suffix(maker: &mut Maker, item: &str) -> bool {
    let clock = maker.some_clock(false);
    if item == "of 128 octets in 64 pairs" {
        let table = longest(maker, clock);
        return goes_both_ways(maker, &table);
    }
    let (mut table, number) = maker.few_pairs();
    let text = maker.rng.octets(63);
    let suffix = match item {
        "of 3 octets" => maker.new_suffix(&table.pairs, 3),
        "of 4 octets" => maker.new_suffix(&table.pairs, 4),
        "of 127 octets" => maker.new_suffix(&table.pairs, 127),
        "of 128 octets" => maker.new_suffix(&table.pairs, 128),
        "with a label of 63" => name(&[&text]),
        "of many labels" => name(&[&text[..1]; 63]),
        "in both cases" => name(&[b"aZ@[`{Az", &text[..9]]),
        _ => name(&[&text[..5], &text[5..15]]),
    };
    if item == "one the parent of the other" {
        let parent = name(&[&text[5..15]]);
        let pair = maker.sound_pair(table.clock, parent, 1);
        table.pairs.push(pair);
    }
    table.pairs[number].suffix = suffix;
    goes_both_ways(maker, &table)
}

/// The longest suffixes and two keys in every pair.
fn longest(maker: &mut Maker, clock: u64) -> Table {
    let mut table = maker.sound_table(clock, 0, None);
    for _ in 0..64 {
        let suffix = maker.new_suffix(&table.pairs, 128);
        let pair = maker.sound_pair(clock, suffix, 2);
        table.pairs.push(pair);
    }
    table
}

const BOUNDS: [&str; 34] = [
    "clock 0",
    "clock 2^32 - 1",
    "clock 2^32",
    "clock 2^48 - 2^31 - 1",
    "clock 2^48 - 2^31",
    "clock 2^48 - 1",
    "floor 1",
    "floor 2^32 - 1",
    "floor 2^32",
    "next serial 1",
    "next serial 2^32 - 1",
    "next serial 2^32",
    "serial 1",
    "serial one below next",
    "serial 2^32 - 1",
    "waiting serial one above",
    "waiting serial 2^32 - 1",
    "L 2 and P 1",
    "L 2^31 - 1 and P 1",
    "L 2^31 - 1 and P 2^31 - 2",
    "inception 0",
    "inception at the clock",
    "inception 2^32 - 1",
    "inception 2^32",
    "partial at inception",
    "partial one before expiry",
    "partial beyond P",
    "expiry 2^32 - 1",
    "expiry 2^32",
    "expiry 2^48 - 1",
    "expired keys",
    "both keys of one expiry",
    "waiting inception at the adopted expiry",
    "waiting partial before the adopted one",
];

fn bound(maker: &mut Maker, item: &str) -> bool {
    let (mut table, number) = maker.few_pairs();
    let (clock, pair) = (table.clock, &mut table.pairs[number]);
    match item.split_once(' ') {
        Some(("clock", clock)) => {
            let pairs = maker.rng.below(3);
            table = maker.sound_table(clock_named(clock), pairs, None);
        }
        Some(("floor", floor)) => table.floor = serial_named(floor),
        Some(("next", serial)) => {
            pair.next = serial_named(serial.trim_start_matches("serial "));
            (pair.adopted, pair.waiting) = (None, None);
        }
        Some(("L", "2 and P 1")) => live(pair, clock, 2, 1),
        Some(("L", "2^31 - 1 and P 1")) => live(pair, clock, (1 << 31) - 1, 1),
        Some(("L", _)) => live(pair, clock, (1 << 31) - 1, (1 << 31) - 2),
        _ if item.contains("serial") => set_serials(pair, item),
        _ if item.contains("partial") => set_partial(pair, clock, item),
        _ => table = with_times(maker, number as u64, item),
    }
    goes_both_ways(maker, &table)
}

fn set_serials(pair: &mut Pair, item: &str) {
    let (adopted, waiting) = two_keys(pair);
    match item {
        "serial 1" => adopted.serial = 1,
        "serial one below next" => pair.next = waiting.serial + 1,
        "waiting serial one above" => waiting.serial = adopted.serial + 1,
        "waiting serial 2^32 - 1" => {
            waiting.serial = SERIALS_END - 1;
            pair.next = SERIALS_END;
        }
        _ => {
            adopted.serial = SERIALS_END - 1;
            pair.next = SERIALS_END;
            pair.waiting = None;
        }
    }
}

fn set_partial(pair: &mut Pair, clock: u64, item: &str) {
    live(pair, clock, 600, 100);
    let (adopted, waiting) = two_keys(pair);
    match item {
        "partial at inception" => {
            adopted.partial = adopted.inception;
            waiting.partial = waiting.inception;
        }
        "partial one before expiry" => {
            adopted.partial = adopted.expiry - 1;
            waiting.partial = waiting.expiry - 1;
        }
        "partial beyond P" => adopted.partial += 300,
        _ => {
            adopted.partial = adopted.expiry - 1;
            waiting.partial = waiting.inception;
        }
    }
}

fn clock_named(text: &str) -> u64 {
    match text {
        "0" => 0,
        "2^32 - 1" => (1 << 32) - 1,
        "2^32" => 1 << 32,
        "2^48 - 2^31 - 1" => TOP - 1,
        "2^48 - 2^31" => TOP,
        _ => TIMES_END - 1,
    }
}

fn serial_named(text: &str) -> u64 {
    match text {
        "1" => 1,
        "2^32 - 1" => SERIALS_END - 1,
        _ => SERIALS_END,
    }
}

/// Both keys of a pair that has them.
pub fn two_keys(pair: &mut Pair) -> (&mut Key, &mut Key) {
    let keys = (pair.adopted.as_mut(), pair.waiting.as_mut());
    (
        keys.0.expect("an adopted key"),
        keys.1.expect("a waiting key"),
    )
}

/// Gives the pair these terms, and its keys times by them, the clock being late enough.
pub fn live(pair: &mut Pair, clock: u64, life: u64, fresh: u64) {
    (pair.life, pair.fresh) = (life, fresh);
    let (adopted, waiting) = two_keys(pair);
    let latest = clock.min(TIMES_END - 1 - life);
    begin(adopted, latest - 9, life, fresh);
    begin(waiting, latest - 5, life, fresh);
}

/// The key's times from its inception on.
pub fn begin(key: &mut Key, inception: u64, life: u64, fresh: u64) {
    key.inception = inception;
    key.partial = inception + fresh;
    key.expiry = inception + life;
}

/// A table whose clock lets the keys have these times.
fn with_times(maker: &mut Maker, others: u64, item: &str) -> Table {
    let (life, fresh) = (600, 400);
    let (first, second, clock) = match item {
        "inception 0" => (0, 10, maker.rng.within(10, 1000)),
        "inception at the clock" => (7000, 7000, 7000),
        "inception 2^32 - 1" => ((1 << 32) - 1, 1 << 32, 1 << 33),
        "inception 2^32" => (1 << 32, 1 << 32, 1 << 32),
        "expiry 2^32 - 1" => ((1 << 32) - 601, 1 << 32, 1 << 32),
        "expiry 2^32" => ((1 << 32) - 600, (1 << 32) - 599, (1 << 32) - 1),
        "expiry 2^48 - 1" => (TIMES_END - 900, TIMES_END - 601, TIMES_END - 1),
        "both keys of one expiry" => (8000, 8000, 8000),
        "waiting inception at the adopted expiry" => (8000, 8600, 8600),
        _ => (8000, 8100, 900_000),
    };
    let mut table = maker.sound_table(clock, others, None);
    let suffix = maker.new_suffix(&table.pairs, 9);
    let mut pair = maker.sound_pair(1 << 40, suffix, 2);
    (pair.life, pair.fresh) = (life, fresh);
    let (adopted, waiting) = two_keys(&mut pair);
    begin(adopted, first, life, fresh);
    begin(waiting, second, life, fresh);
    table.pairs.push(pair);
    table
}

const LIST_ROOMS: [&str; 6] = ["0", "1", "one short", "exact", "one more", "2^64 - 1"];

fn room(maker: &mut Maker, item: &str) -> bool {
    let (which, room) = two_words(item);
    if which == "own table" {
        return lists(maker, room);
    }
    let clock = maker.some_clock(false);
    let pairs = if which == "64 pairs" { 64 } else { 0 };
    let table = maker.sound_table(clock, pairs, None);
    maker.apart(|maker| maker.loads(&Listing::of(&table)) && lists(maker, room))
}

fn lists(maker: &mut Maker, room: &str) -> bool {
    let text = String::from_utf8(Listing::of(&maker.table).text()).expect("ASCII");
    let length = text.len() as u64;
    let room = room_for(length, room);
    let want = match length <= room {
        true => Said::Listed(text),
        false => Said::Refused(ROOM, 0),
    };
    maker.lists_in(room) == want
}
