//! What one pair of a listing is to another (02, CR 7): twins, pairs too many, which reason or
//! refusal comes first, and the room for dropped lines. Each text is loaded and mended.

use super::unread::taken;
use super::{list, Group};
use crate::desk::Pair;
use crate::listing::{Line, Listing, FULL, LINE, RULE, TWIN};
use crate::maker::Maker;
use crate::wire::{joined, label};

pub fn groups() -> Vec<Group> {
    vec![
        Group {
            name: "listed twins",
            weight: 3,
            items: || list(&TWINS),
            run: twins,
        },
        Group {
            name: "listed pairs",
            weight: 2,
            items: || list(&COUNTS),
            run: counts,
        },
        Group {
            name: "listing's order",
            weight: 5,
            items: || list(&ORDER),
            run: order,
        },
        Group {
            name: "mend in room",
            weight: 4,
            items: || list(&ROOMS),
            run: room,
        },
    ]
}

const TWINS: [&str; 7] = [
    "the same",
    "by case",
    "three",
    "the whole pair again",
    "of a pair that is dropped",
    "of a pair that does not read",
    "of 128 octets by its last letter",
];

fn twins(maker: &mut Maker, item: &str) -> bool {
    let (mut table, number) = maker.few_pairs();
    let first = match item {
        "of 128 octets by its last letter" => maker.new_suffix(&table.pairs, 128),
        _ => joined(&[&label(b"Luff"), &maker.new_suffix(&table.pairs, 9)]),
    };
    let mut second = first.clone();
    if item == "by case" {
        second.make_ascii_uppercase();
    }
    if item == "of 128 octets by its last letter" {
        second[126] ^= 0x20;
    }
    table.pairs[number].suffix = first;
    let copies = if item == "three" { 2 } else { 1 };
    for _ in 0..copies {
        let mut pair = match item {
            "the whole pair again" => table.pairs[number].clone(),
            _ => maker.sound_pair(table.clock, Vec::new(), 1),
        };
        pair.suffix = second.clone();
        table.pairs.push(pair);
    }
    let mut listing = Listing::of(&table);
    match item {
        "of a pair that is dropped" => listing.blame(number, RULE),
        "of a pair that does not read" => listing.blame(number, LINE),
        _ => (1..=copies).for_each(|last| listing.blame(table.pairs.len() - last, TWIN)),
    }
    if item == "of a pair that is dropped" {
        let at = listing.pair(number) + 1;
        let key = listing.lines[at].clone();
        listing.lines.insert(at, key);
    }
    if item == "of a pair that does not read" {
        let at = listing.pair(number);
        listing.lines[at].octets.insert(0, b'x');
    }
    taken(maker, &listing)
}

const COUNTS: [&str; 6] = [
    "65",
    "66",
    "65 with one that does not read",
    "65 with one that breaks a rule",
    "66 with twins",
    "200",
];

fn counts(maker: &mut Maker, item: &str) -> bool {
    let clock = maker.some_clock(false);
    let count = match item {
        "200" => 200,
        _ if item.starts_with("66") => 66,
        _ => 65,
    };
    let keys = (count == 200).then_some(0);
    let mut table = maker.sound_table(clock, count, keys);
    let number = maker.rng.below(64) as usize;
    match item {
        "65 with one that breaks a rule" => table.pairs[number].next = 0,
        "66 with twins" => {
            table.pairs[64].suffix = table.pairs[number].suffix.clone();
            table.pairs[65].suffix = table.pairs[63 - number].suffix.clone();
        }
        _ => {}
    }
    let mut listing = Listing::of(&table);
    let over = 64..table.pairs.len();
    match item {
        "65 with one that breaks a rule" => listing.blame(number, RULE),
        "65 with one that does not read" => {
            let at = listing.pair(number);
            listing.lines[at].octets.insert(5, b'g');
            listing.blame(number, LINE);
        }
        "66 with twins" => over.for_each(|last| listing.blame(last, TWIN)),
        _ => over.for_each(|last| listing.blame(last, FULL)),
    }
    taken(maker, &listing)
}

const ORDER: [&str; 15] = [
    "LINE over TABLE",
    "LINE over the clock line's TABLE",
    "LINE of the clock line over all",
    "the first of two lines",
    "LINE below line 1 over a later one",
    "the clock line's TABLE over ROOM",
    "LINE of the clock line over ROOM",
    "18 over 14",
    "18 over 15",
    "18 over 1",
    "14 over 15",
    "14 over 1",
    "15 over 1",
    "18 over 14 and 1",
    "every reason once",
];

/// 68 pairs, of which the last are too many and may have other faults.
fn order(maker: &mut Maker, item: &str) -> bool {
    if !item.contains("15") && item != "every reason once" {
        return small_order(maker, item);
    }
    let clock = maker.some_clock(false);
    let mut table = maker.sound_table(clock, 68, Some(1));
    let number = maker.rng.below(64) as usize;
    let wrong = |pair: &mut Pair| pair.next = 0;
    match item {
        "14 over 15" => table.pairs[67].suffix = table.pairs[number].suffix.clone(),
        "15 over 1" => wrong(&mut table.pairs[67]),
        "every reason once" => {
            wrong(&mut table.pairs[number]);
            table.pairs[66].suffix = table.pairs[number + 1].suffix.clone();
        }
        _ => {}
    }
    let mut listing = Listing::of(&table);
    // One that is dropped before makes place for the next.
    let first_over = 64 + usize::from(item == "every reason once");
    (first_over..68).for_each(|last| listing.blame(last, FULL));
    match item {
        "14 over 15" => listing.blame(67, TWIN),
        "18 over 15" => unread_key(&mut listing, 67),
        "every reason once" => {
            listing.blame(number, RULE);
            listing.blame(66, TWIN);
            unread_key(&mut listing, 67);
        }
        _ => {}
    }
    taken(maker, &listing)
}

/// The pair's key line does not read.
fn unread_key(listing: &mut Listing, number: usize) {
    let at = listing.pair(number) + 1;
    listing.set(at, "key\tadopted\n", Some(LINE));
}

fn small_order(maker: &mut Maker, item: &str) -> bool {
    let (mut table, number) = maker.few_pairs();
    let mut twin = maker.sound_pair(table.clock, Vec::new(), 1);
    twin.suffix = table.pairs[number].suffix.clone();
    if item != "18 over 14" {
        twin.next = 0;
    }
    if item.contains("14") {
        table.pairs.push(twin);
    }
    let last = table.pairs.len() - 1;
    if item == "18 over 1" || item == "LINE over TABLE" {
        table.pairs[number].fresh = 0;
    }
    let mut listing = Listing::of(&table);
    let at = listing.pair(number);
    let key = listing.lines[at + 1].clone();
    match item {
        // The broken rule is above the line that does not read.
        "LINE over TABLE" => {
            listing.blame(number, RULE);
            listing.lines.push(Line::unread("pair\n"));
        }
        "LINE over the clock line's TABLE" => {
            listing.set(0, "clock\t1000\t0\n", Some(RULE));
            listing.set(at + 1, "key\n", Some(LINE));
        }
        "LINE of the clock line over all" => {
            listing.set(0, "clock\t1000\t0\t\n", Some(LINE));
            listing.set(at + 1, "key\n", Some(LINE));
        }
        "the first of two lines" => {
            listing.set(at + 1, "key\n", Some(LINE));
            listing.set(at + 2, "key\t\n", Some(LINE));
        }
        "LINE below line 1 over a later one" => {
            listing.set(at, "pairs\n", Some(LINE));
            listing.lines.insert(1, key);
        }
        "18 over 14" | "18 over 14 and 1" => {
            listing.blame(last, TWIN);
            unread_key(&mut listing, last);
        }
        "18 over 1" => {
            listing.blame(number, RULE);
            listing.set(at + 2, "key\twaiting\n", Some(LINE));
        }
        "14 over 1" => listing.blame(last, TWIN),
        _ => return no_room(maker, listing, item),
    }
    taken(maker, &listing)
}

/// Lines would be dropped, and none can be named.
fn no_room(maker: &mut Maker, mut listing: Listing, item: &str) -> bool {
    match item {
        "the clock line's TABLE over ROOM" => listing.set(0, "clock\t9\t0\n", Some(RULE)),
        _ => listing.set(0, "clock\t9\n", Some(LINE)),
    }
    listing.lines.push(Line::unread("\n"));
    maker.mends(0, &listing) && maker.loads(&listing)
}

const ROOMS: [&str; 14] = [
    "0 for none",
    "0 for one line",
    "0 for many lines",
    "one too few",
    "exact",
    "one more",
    "4096",
    "4097",
    "2^64 - 1",
    "1 too few of 4096 lines",
    "4096 for 4096 lines",
    "2^64 - 1 for 4096 lines",
    "4096 for 4097 lines",
    "2^64 - 1 for 4097 lines",
];

fn room(maker: &mut Maker, item: &str) -> bool {
    let (table, number) = maker.few_pairs();
    let mut listing = Listing::of(&table);
    if item.ends_with("4096 lines") {
        listing.lines.extend(vec![Line::unread("\n"); 4096]);
    } else if item.ends_with("4097 lines") {
        listing.lines.extend(vec![Line::unread("\n"); 4097]);
    } else if item == "0 for one line" {
        listing.lines.push(Line::unread("pair\n"));
    } else if item != "0 for none" {
        unread_key(&mut listing, number);
    }
    let least = listing.dropped().len() as u64;
    let room = match item {
        "one too few" | "1 too few of 4096 lines" => least - 1,
        "exact" => least,
        "one more" => least + 1,
        _ => match item.split(" for ").next() {
            Some("4096") => 4096,
            Some("4097") => 4097,
            Some("2^64 - 1") => u64::MAX,
            _ => 0,
        },
    };
    maker.apart(|maker| maker.mends(room, &listing))
}
