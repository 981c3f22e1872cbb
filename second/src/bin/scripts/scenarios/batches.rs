//! Batches: how many items, where they stand in the lent octets, what refuses one item or the
//! whole, the shared room, and the time of each item.

use super::rooms::{ask_for, KINDS};
use super::{cross, list, places, two_words, Group};
use crate::batch::{Batch, Item, Span};
use crate::desk::{read_number, Want};
use crate::maker::{tsig, Maker, Signer, MAX_BATCH_ROOM, TOP};
use crate::wire::{self, Ask};

pub fn groups() -> Vec<Group> {
    vec![
        Group {
            name: "batch of",
            weight: 4,
            items: counts,
            run: count,
        },
        Group {
            name: "batch's span",
            weight: 34,
            items: spans,
            run: span,
        },
        Group {
            name: "batch's precedence",
            weight: 5,
            items: || cross(&FAULTS, &REFUSALS),
            run: precedence,
        },
        Group {
            name: "batch's refusal",
            weight: 8,
            items: refusals,
            run: refusal,
        },
        Group {
            name: "batch's place",
            weight: 10,
            items: || cross(&["first", "between", "last"], &places::faults()),
            run: place,
        },
        Group {
            name: "batch's room",
            weight: 20,
            items: || cross(&KINDS, &ROOMS),
            run: room,
        },
        Group {
            name: "batch's time",
            weight: 6,
            items: || list(&TIMES),
            run: time,
        },
    ]
}

/// Messages that change no key, whatever stands before them.
pub const STILL: [&str; 8] = [
    "passed up",
    "unsigned",
    "unsigned TKEY request",
    "ill formed TSIG",
    "BADKEY",
    "BADSIG",
    "BADTIME",
    "TKEY error",
];

/// Those of them that get no reply.
const UNANSWERED: [&str; 2] = ["passed up", "unsigned"];

/// Puts such a message of a fresh key into a batch.
pub fn add_still(maker: &mut Maker, batch: &mut Batch, s: &Signer, kind: &str) {
    let mut call = maker.call(s.time);
    let mut ask = match kind {
        "unsigned" => maker.unsigned(s),
        "TKEY error" | "unsigned TKEY request" => maker.request(s, 3, &s.name()),
        _ => maker.ordinary(s),
    };
    let want = match kind {
        "unsigned" => Want::Handed,
        "unsigned TKEY request" => {
            ask.tsig = None;
            Want::Refuse
        }
        "ill formed TSIG" => {
            tsig(&mut ask).ttl = 1;
            Want::Ill
        }
        "BADKEY" => {
            tsig(&mut ask).owner = vec![0];
            Want::BadKey
        }
        "BADSIG" => {
            call.good = false;
            Want::BadSig
        }
        "BADTIME" => {
            let tsig = tsig(&mut ask);
            tsig.signed += u64::from(tsig.fudge) + 1;
            Want::BadTime
        }
        "TKEY error" => Want::Tkey(19),
        _ => Want::Passed(0),
    };
    batch.asks(&call, &ask, want);
}

/// Some messages of these keys, of any such kind.
pub fn add_some(maker: &mut Maker, batch: &mut Batch, keys: &[Signer], count: u64) {
    for _ in 0..count {
        let key = maker.rng.pick(keys).clone();
        let kind = *maker.rng.pick(&STILL);
        add_still(maker, batch, &key, kind);
    }
}

/// The octets of all replies that are due, were each item alone.
fn due_length(maker: &Maker, batch: &Batch) -> u64 {
    let due = |item: &Item| match (&item.ask, item.want) {
        (Some(ask), Some(want)) => maker.due_reply(&item.call, ask, want).len() as u64,
        _ => 0,
    };
    batch.items.iter().map(due).sum()
}

const MANY: [&str; 6] = ["65", "66", "127", "128", "256", "320"];

fn counts() -> Vec<String> {
    let kinds = [
        "any of one pair",
        "any of several pairs",
        "all BADKEY",
        "one message",
    ];
    let mut all = cross(&["1", "2", "63", "64", "65"], &kinds);
    all.extend(cross(&["0"], &["no octets", "octets"]));
    all.extend(cross(&MANY, &["no octets"]));
    all
}

fn count(maker: &mut Maker, item: &str) -> bool {
    let (count, kind) = two_words(item);
    let count: u64 = count.parse().expect("a count");
    let keys = match kind {
        "any of several pairs" => maker.fresh_keys(4),
        _ => maker.fresh_keys(1),
    };
    let mut batch = Batch::new(MAX_BATCH_ROOM);
    match kind {
        "no octets" => add_empty(maker, &mut batch, count),
        "octets" => {
            let octets = maker.rng.some_octets(1, 20);
            batch.lay(&octets);
        }
        "all BADKEY" => {
            for _ in 0..count {
                add_still(maker, &mut batch, &keys[0], "BADKEY");
            }
            batch.room = due_length(maker, &batch);
        }
        "one message" => {
            add_some(maker, &mut batch, &keys, 1);
            batch.items = vec![batch.items[0].clone(); count as usize];
        }
        _ => add_some(maker, &mut batch, &keys, count),
    }
    match count > 64 {
        true => maker.refuses_batch(&batch),
        false => maker.batch(&batch),
    }
}

/// Items without a message, which SIZE refuses.
fn add_empty(maker: &mut Maker, batch: &mut Batch, count: u64) {
    let mut call = maker.call(maker.table.clock);
    call.offer.clear();
    for _ in 0..count {
        batch.sends(&call, &[], Some(Want::Refused(4)));
    }
}

const PLACES: [&str; 4] = ["alone", "first", "between", "last"];

const INSIDE: [&str; 6] = [
    "ends at the end",
    "all octets",
    "the last octet",
    "no octets at the start",
    "no octets between",
    "no octets at the end",
];

const OUTSIDE: [&str; 18] = [
    "one past the end",
    "all octets and one",
    "one octet at the end",
    "no octets past the end",
    "no octets at 2^64 - 1",
    "2^64 - 1 octets",
    "2^63 octets",
    "from 2^63",
    "sum 2^64 - 1",
    "sum 2^64",
    "sum 2^64 + 1",
    "sum 2^64 and all octets",
    "sum 2^65 - 2",
    "from 2^32 too high",
    "size 2^32 too high",
    "from 2^16 too high",
    "size 2^16 too high",
    "from before the start",
];

fn spans() -> Vec<String> {
    let parts = ["message", "offer", "record"];
    let mut all = Vec::new();
    for place in PLACES {
        for part in parts {
            let bent = format!("{part} {place}");
            all.extend(cross(&[&bent], &INSIDE));
            all.extend(cross(&[&bent], &OUTSIDE));
        }
    }
    all
}

/// A renewal, which shows its offer and, by Diffie-Hellman, its record, with one of its spans
/// bent, among others.
fn span(maker: &mut Maker, item: &str) -> bool {
    let (bent, way) = two_words(item);
    let (part, place) = bent.split_once(' ').expect("two words");
    let mut keys = maker.fresh_keys(3);
    let renewing = keys.pop().expect("three keys");
    let mut batch = Batch::new(MAX_BATCH_ROOM);
    let before = matches!(place, "between" | "last");
    let after = matches!(place, "first" | "between");
    if before {
        let count = maker.rng.within(1, 3);
        add_some(maker, &mut batch, &keys, count);
    }
    let ask = match part {
        "record" => maker.renewal_of(&renewing, wire::DIFFIE_HELLMAN),
        _ => maker.renewal(&renewing),
    };
    let call = maker.call_for(&ask, renewing.time);
    let bent = batch.items.len();
    batch.asks(&call, &ask, Want::Tkey(0));
    if after {
        let count = maker.rng.within(1, 3);
        add_some(maker, &mut batch, &keys, count);
    }
    match part {
        "message" => bend_message(&mut batch, bent, way),
        "record" => bend_record(&mut batch, bent, way),
        _ => bend_offer(&mut batch, bent, way),
    }
    match INSIDE.contains(&way) {
        true => maker.batch(&batch),
        false => maker.refuses_batch(&batch),
    }
}

/// Only the span that is to end at the end needs its octets there.
fn bend_message(batch: &mut Batch, place: usize, way: &str) {
    let octets = batch.part(batch.items[place].message).to_vec();
    if way == "ends at the end" {
        batch.items[place].message = batch.lay(&octets);
        return;
    }
    let first = batch.items[0].message.size as usize;
    let span = bent_span(batch, batch.items[place].message, way);
    let item = &mut batch.items[place];
    item.message = span;
    // Octets are left over behind the first message; an octet or none is no message.
    item.want = match way {
        "all octets" => Some(Want::Format(first)),
        _ => Some(Want::Refused(4)),
    };
}

fn bend_offer(batch: &mut Batch, place: usize, way: &str) {
    let octets = batch.part(batch.items[place].offer).to_vec();
    let span = match way {
        "ends at the end" => batch.lay(&octets),
        _ => bent_span(batch, batch.items[place].offer, way),
    };
    batch.items[place].offer = span;
    if !INSIDE.contains(&way) {
        return;
    }
    set_offer(batch, place, span);
}

/// A renewal's outcome, by the offer alone.
pub fn set_offer(batch: &mut Batch, place: usize, offer: Span) {
    let octets = batch.part(offer).to_vec();
    let item = &mut batch.items[place];
    let mode = item
        .ask
        .as_ref()
        .and_then(|a| a.tkey.as_ref())
        .map(|t| t.mode);
    item.offer = offer;
    item.want = Some(match octets.len() {
        0 if mode != Some(wire::BY_RESOLVER) => Want::Tkey(2),
        0..=1024 => Want::Tkey(0),
        _ => Want::Refused(5),
    });
    item.call.offer = octets;
}

fn bend_record(batch: &mut Batch, place: usize, way: &str) {
    let octets = batch.part(batch.items[place].record).to_vec();
    let span = match way {
        "ends at the end" => batch.lay(&octets),
        _ => bent_span(batch, batch.items[place].record, way),
    };
    batch.items[place].record = span;
    if INSIDE.contains(&way) {
        set_record(batch, place, span);
    }
}

/// The outcome of a renewal by Diffie-Hellman, by the record alone.
pub fn set_record(batch: &mut Batch, place: usize, record: Span) {
    let octets = batch.part(record).to_vec();
    let item = &mut batch.items[place];
    item.record = record;
    item.want = Some(match wire::is_key_record(&octets) {
        true => Want::Tkey(0),
        false => Want::Refused(19),
    });
    item.call.record = octets;
}

fn bent_span(batch: &Batch, span: Span, way: &str) -> Span {
    let (Span { from, size }, end) = (span, batch.octets.len() as u64);
    let (from, size) = match way {
        "all octets" => (0, end),
        "the last octet" => (end - 1, 1),
        "no octets at the start" => (0, 0),
        "no octets between" => (from, 0),
        "no octets at the end" => (end, 0),
        "one past the end" => (from, end - from + 1),
        "all octets and one" => (0, end + 1),
        "one octet at the end" => (end, 1),
        "no octets past the end" => (end + 1, 0),
        "no octets at 2^64 - 1" => (u64::MAX, 0),
        "2^64 - 1 octets" => (0, u64::MAX),
        "2^63 octets" => (from, 1 << 63),
        "from 2^63" => (1 << 63, size),
        "sum 2^64 - 1" => (u64::MAX - size, size),
        "sum 2^64" => (size.wrapping_neg(), size),
        "sum 2^64 + 1" => (size.wrapping_neg(), size + 1),
        "sum 2^64 and all octets" => (end + 1, u64::MAX),
        "sum 2^65 - 2" => (u64::MAX, u64::MAX),
        "from 2^32 too high" => (from + (1 << 32), size),
        "size 2^32 too high" => (from, size + (1 << 32)),
        "from 2^16 too high" => (from + (1 << 16), size),
        "size 2^16 too high" => (from, size + (1 << 16)),
        _ => (u64::MAX, size + 1),
    };
    Span { from, size }
}

/// What refuses a message, with its number.
const REFUSALS: [&str; 8] = [
    "TIME", "CLOCK", "SIZE", "OFFER", "FORMAT", "NOTQUERY", "ROOM", "KEYREC",
];

/// What refuses the whole.
const FAULTS: [&str; 4] = [
    "65 items",
    "message outside",
    "offer outside",
    "record outside",
];

fn number(refusal: &str) -> u64 {
    if refusal == "KEYREC" {
        return 19;
    }
    let place = REFUSALS.iter().position(|r| *r == refusal);
    2 + place.expect("a refusal") as u64
}

/// Puts a message into a batch that is refused so. For ROOM the batch has not even a header's.
fn add_refused(maker: &mut Maker, batch: &mut Batch, s: &Signer, refusal: &str) {
    let mut call = maker.call(s.time);
    let mut ask = match refusal {
        "KEYREC" => maker.renewal_of(s, wire::DIFFIE_HELLMAN),
        _ => maker.ordinary(s),
    };
    match refusal {
        "KEYREC" => (call.fits, call.record) = (true, maker.wrong_record()),
        "TIME" => call.time = *maker.rng.pick(&[TOP, TOP + 1, u64::MAX]),
        "CLOCK" => call.time = maker.rng.below(maker.table.clock),
        "OFFER" => call.offer = maker.rng.octets(1025),
        "FORMAT" => ask.tail.push(0),
        "NOTQUERY" => ask.flags |= wire::QR,
        _ => tsig(&mut ask).owner = vec![0],
    }
    let mut octets = ask.octets();
    if refusal == "SIZE" {
        octets.truncate(maker.rng.below(12) as usize);
    }
    let want = match refusal {
        "FORMAT" => Want::Format(octets.len() - 1),
        _ => Want::Refused(number(refusal)),
    };
    batch.sends(&call, &octets, Some(want));
}

/// Keys to send with at a time that has another before it.
fn keys_above_zero(maker: &mut Maker, count: u64) -> Vec<Signer> {
    maker.clock_above_zero();
    maker.fresh_keys(count)
}

/// The whole is refused where an item would be as well; the clock stays.
fn precedence(maker: &mut Maker, item: &str) -> bool {
    let (fault, refusal) = two_words(item);
    let mut keys = keys_above_zero(maker, 2);
    for key in &mut keys {
        key.time += maker.rng.below(3);
    }
    let mut batch = Batch::new(MAX_BATCH_ROOM);
    if refusal == "ROOM" {
        batch.room = maker.rng.below(12);
    }
    let count = if fault == "65 items" { 64 } else { 1 };
    add_some(maker, &mut batch, &keys, count);
    add_refused(maker, &mut batch, &keys[0], refusal);
    let outside = bent_span(&batch, batch.whole(), "all octets and one");
    let place = maker.rng.below(2) as usize;
    match fault {
        "message outside" => batch.items[place].message = outside,
        "offer outside" => batch.items[place].offer = outside,
        "record outside" => batch.items[place].record = outside,
        _ => {}
    }
    maker.refuses_batch(&batch)
}

fn refusals() -> Vec<String> {
    let places = ["alone", "first", "between", "last", "each second", "each"];
    let mut all = cross(&REFUSALS, &places);
    all.push("all, in their order".to_string());
    all.push("all, in no order".to_string());
    all
}

/// The others are done, by keys whose messages come to the same as without it.
fn refusal(maker: &mut Maker, item: &str) -> bool {
    let (refusal, place) = two_words(item);
    let keys = keys_above_zero(maker, 3);
    let mut batch = Batch::new(MAX_BATCH_ROOM);
    if refusal == "ROOM" || refusal == "all" {
        batch.room = maker.rng.below(12);
    }
    let plan: Vec<&str> = match place {
        "alone" => vec![refusal],
        "first" => vec![refusal, "", ""],
        "between" => vec!["", refusal, ""],
        "last" => vec!["", "", refusal],
        "each second" => vec!["", refusal, "", refusal, ""],
        "each" => vec![refusal; maker.rng.within(2, 9) as usize],
        "in their order" => REFUSALS.iter().flat_map(|r| ["", *r, ""]).collect(),
        _ => (0..30)
            .flat_map(|_| [*maker.rng.pick(&REFUSALS), ""])
            .collect(),
    };
    for refusal in plan {
        let key = maker.rng.pick(&keys).clone();
        match refusal {
            "" if batch.room < 12 => {
                let kind = *maker.rng.pick(&UNANSWERED);
                add_still(maker, &mut batch, &key, kind);
            }
            "" => add_some(maker, &mut batch, &keys, 1),
            _ => add_refused(maker, &mut batch, &key, refusal),
        }
    }
    maker.batch(&batch)
}

/// A message that does not read. The octets that it lacks are often lent, being another's, and
/// its place is counted from its own first octet.
fn place(maker: &mut Maker, item: &str) -> bool {
    let (place, fault) = two_words(item);
    let keys = maker.fresh_keys(3);
    let mut batch = Batch::new(MAX_BATCH_ROOM);
    if place != "first" {
        let count = maker.rng.within(1, 3);
        add_some(maker, &mut batch, &keys, count);
    }
    let (octets, at) = places::any_broken(maker, &keys[0], fault);
    let call = maker.call(keys[0].time);
    batch.sends(&call, &octets, Some(Want::Format(at)));
    if place != "last" {
        let count = maker.rng.within(1, 3);
        add_some(maker, &mut batch, &keys, count);
    }
    maker.batch(&batch)
}

/// By the octets of three replies, of which the last is the shortest there is.
const ROOMS: [&str; 13] = [
    "0",
    "one short for the first",
    "the first",
    "one short for the last alone",
    "the first and the last",
    "one short for the second",
    "the first and the second",
    "one short for the last",
    "all",
    "one more than all",
    "100000",
    "100001",
    "2^64 - 1",
];

/// What an item has no room for is left to the next.
fn room(maker: &mut Maker, item: &str) -> bool {
    let (kind, way) = two_words(item);
    let (s, ask, want) = ask_for(maker, kind);
    let (longer, shortest) = (wire::name(&[b"longer", b"example"]), vec![0]);
    let mut batch = Batch::default();
    let mut add = |maker: &mut Maker, mut ask: Ask, name: &[u8], want: Want| {
        ask.questions[0].name = name.to_vec();
        let mut call = maker.call_for(&ask, s.time);
        call.good = want != Want::BadSig;
        batch.asks(&call, &ask, want);
        maker.due_reply(&call, &ask, want).len() as u64
    };
    let mut stranger = maker.ordinary(&s);
    tsig(&mut stranger).owner = vec![0];
    let lengths = [
        add(maker, stranger.clone(), &longer, Want::BadKey),
        add(maker, ask, &longer, want),
        add(maker, stranger, &shortest, Want::BadKey),
    ];
    let [first, second, last] = lengths;
    batch.room = match way {
        "0" => 0,
        "one short for the first" => first - 1,
        "the first" => first,
        "one short for the last alone" => first + last - 1,
        "the first and the last" => first + last,
        "one short for the second" => first + second.saturating_sub(1),
        "the first and the second" => first + second,
        "one short for the last" => first + second + last - 1,
        "all" => first + second + last,
        "one more than all" => first + second + last + 1,
        "2^64 - 1" => u64::MAX,
        number => read_number(number),
    };
    let mut left = batch.room;
    for (item, length) in batch.items.iter_mut().zip(lengths) {
        match length > left {
            true => item.want = Some(Want::Refused(8)),
            false => left -= length,
        }
    }
    maker.batch(&batch)
}

const TIMES: [&str; 18] = [
    "all alike",
    "each later",
    "later and alike",
    "one back by one",
    "one back before the table's clock",
    "the first back",
    "the last back",
    "back and forth",
    "all back",
    "back to 0",
    "TIME between",
    "TIME and back",
    "the last time there is",
    "a refused item moves the clock",
    "fudge runs out",
    "partial comes",
    "expiry comes",
    "renewals, each at its time",
];

fn time(maker: &mut Maker, item: &str) -> bool {
    if item.ends_with(" comes") {
        return edge(maker, item);
    }
    let mut s = maker.lasting();
    if s.time == 0 {
        maker.clock_above_zero();
        s = maker.lasting();
    }
    let mut batch = Batch::new(MAX_BATCH_ROOM);
    match item {
        "fudge runs out" => add_fudge(maker, &mut batch, &s),
        "renewals, each at its time" => add_renewals(maker, &mut batch, &s),
        "a refused item moves the clock" => {
            add_at(maker, &mut batch, &s, 0, false);
            let late = s.at(s.time + 5);
            add_refused(maker, &mut batch, &late, "SIZE");
            add_at(maker, &mut batch, &s, 4, true);
            add_at(maker, &mut batch, &s, 5, false);
        }
        "TIME between" => {
            add_at(maker, &mut batch, &s, 1, false);
            add_refused(maker, &mut batch, &s, "TIME");
            add_at(maker, &mut batch, &s, 1, false);
        }
        "TIME and back" => {
            add_refused(maker, &mut batch, &s, "TIME");
            add_at(maker, &mut batch, &s, -1, true);
            add_at(maker, &mut batch, &s, 0, false);
        }
        "the last time there is" => {
            let last = s.at(TOP - 1);
            add_still(maker, &mut batch, &last, "unsigned");
            add_refused(maker, &mut batch, &last.at(TOP), "TIME");
            add_still(maker, &mut batch, &last, "BADKEY");
            add_at(maker, &mut batch, &s, 0, true);
        }
        _ => {
            for &(off, back) in offsets(item) {
                add_at(maker, &mut batch, &s, off, back);
            }
        }
    }
    maker.batch(&batch)
}

/// The times of items, from the table's clock on, and whether CLOCK refuses them.
fn offsets(item: &str) -> &'static [(i64, bool)] {
    match item {
        "all alike" => &[(0, false), (0, false), (0, false)],
        "each later" => &[(0, false), (1, false), (2, false), (9, false)],
        "later and alike" => &[(3, false), (3, false), (7, false), (7, false)],
        "one back by one" => &[(5, false), (4, true), (5, false)],
        "one back before the table's clock" => &[(5, false), (-1, true), (6, false)],
        "the first back" => &[(-1, true), (0, false), (1, false)],
        "the last back" => &[(0, false), (5, false), (4, true)],
        "all back" => &[(-1, true), (-1, true), (-1, true)],
        "back to 0" => &[(2, false), (i64::MIN, true), (2, false)],
        _ => &[
            (1, false),
            (6, false),
            (3, true),
            (5, true),
            (6, false),
            (4, true),
            (7, false),
        ],
    }
}

/// An ordinary message of a lasting key, so many seconds after its making.
fn add_at(maker: &mut Maker, batch: &mut Batch, s: &Signer, off: i64, back: bool) {
    let time = s.time.saturating_add_signed(off);
    let ask = maker.ordinary(&s.at(time));
    let call = maker.call(time);
    let want = match back {
        true => Want::Refused(3),
        false => Want::Passed(0),
    };
    batch.asks(&call, &ask, want);
}

/// One message at later and later times.
fn add_fudge(maker: &mut Maker, batch: &mut Batch, s: &Signer) {
    let mut ask = maker.ordinary(s);
    tsig(&mut ask).fudge = 2;
    for late in 0..4 {
        let call = maker.call(s.time + late);
        let want = match late > 2 {
            true => Want::BadTime,
            false => Want::Passed(-(late as i64)),
        };
        batch.asks(&call, &ask, want);
    }
}

/// The last second of a key's fresh time or of its life, and the next.
fn edge(maker: &mut Maker, item: &str) -> bool {
    maker.time_for(10_000);
    let pair = maker.short_pair();
    let s = maker.issued(pair);
    let key = maker.pair(pair).adopted.clone().expect("a key");
    let (edge, before, after) = match item {
        "partial comes" => (key.partial, Want::Passed(0), Want::Partial),
        _ => (key.expiry, Want::Partial, Want::BadKey),
    };
    let mut batch = Batch::new(MAX_BATCH_ROOM);
    for (time, want) in [(edge - 1, before), (edge, after)] {
        let ask = maker.ordinary(&s.at(time));
        let call = maker.call(time);
        batch.asks(&call, &ask, want);
    }
    maker.batch(&batch)
}

/// Each makes a key at its own time, and the first ends the signing key's fresh time.
fn add_renewals(maker: &mut Maker, batch: &mut Batch, s: &Signer) {
    for late in [0, 1, 1, 4] {
        let ask = maker.renewal(&s.at(s.time + late));
        let call = maker.call_for(&ask, s.time + late);
        batch.asks(&call, &ask, Want::Tkey(0));
    }
    let ask = maker.ordinary(&s.at(s.time + 4));
    let call = maker.call(s.time + 4);
    batch.asks(&call, &ask, Want::Partial);
}
