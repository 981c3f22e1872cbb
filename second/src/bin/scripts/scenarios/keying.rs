//! The three schemes of a renewal: the keying verdict, the lent record, key data, and which of a
//! renewal's ends comes first; the same in batches.

use super::batches::{add_some, set_offer, set_record};
use super::rooms::ask_for;
use super::tkeys::bend_renewal;
use super::{cross, list, two_words, Group};
use crate::batch::{Batch, Span};
use crate::desk::Want;
use crate::maker::{tkey, tsig, Call, Maker, Signer};
use crate::maker::{MAX_BATCH_ROOM, RIGHT_RECORDS, WRONG_RECORDS};
use crate::wire::{self, Ask};

pub fn groups() -> Vec<Group> {
    vec![
        Group {
            name: "keying's order",
            weight: 40,
            items: orders,
            run: order,
        },
        Group {
            name: "lent record",
            weight: 24,
            items: || cross(&MODES, &[&RIGHT_RECORDS[..], &WRONG_RECORDS].concat()),
            run: record,
        },
        Group {
            name: "keying's key data",
            weight: 10,
            items: || cross(&MODES, &KEY_DATA),
            run: key_data,
        },
        Group {
            name: "keying not looked at",
            weight: 18,
            items: || cross(&GIVEN, &OTHERS),
            run: not_looked_at,
        },
        Group {
            name: "KEYREC",
            weight: 6,
            items: || list(&KEYRECS),
            run: keyrec,
        },
        Group {
            name: "batch's keying",
            weight: 5,
            items: || list(&BATCHES),
            run: batch_keying,
        },
    ]
}

const MODES: [&str; 3] = ["4097", "4098", "4099"];

fn number(mode: &str) -> u16 {
    mode.parse().expect("a mode")
}

/// The ends of a renewal that is not granted, in their order.
const ENDS: [&str; 8] = [
    "BADKEY", "FORMERR", "KEYING", "BADALG", "BADTIME", "SERVFAIL", "KEYREC", "ROOM",
];

/// None of them, each alone, each two together, and all.
fn orders() -> Vec<String> {
    let mut choices = vec!["none".to_string()];
    for (place, first) in ENDS.iter().enumerate() {
        choices.push(first.to_string());
        let later = ENDS[place + 1..].iter();
        choices.extend(later.map(|second| format!("{first} and {second}")));
    }
    choices.push(ENDS.join(" and "));
    let choices: Vec<&str> = choices.iter().map(String::as_str).collect();
    cross(&MODES, &choices)
}

fn order(maker: &mut Maker, item: &str) -> bool {
    let (mode, ends) = two_words(item);
    let ends: Vec<&str> = ends.split(" and ").collect();
    let s = match maker.rng.chance(20) {
        true => maker.with_waiting(),
        false => maker.live(),
    };
    let mut ask = maker.renewal_of(&s, number(mode));
    let mut call = maker.fitting_call(s.time);
    for end in &ends {
        bend(maker, &s, &mut ask, &mut call, end);
    }
    let mut left = ENDS.iter().filter(|e| ends.contains(e) && applies(mode, e));
    let want = match left.next() {
        None => Want::Tkey(0),
        Some(end) => want_of(mode, end),
    };
    // The reply to an error needs room as well.
    let want = match want {
        Want::Tkey(_) if ends.contains(&"ROOM") => Want::Refused(8),
        want => want,
    };
    maker.asks(&call, &ask, want)
}

fn bend(maker: &mut Maker, s: &Signer, ask: &mut Ask, call: &mut Call, end: &str) {
    let fault = match end {
        "BADKEY" => *maker
            .rng
            .pick(&["OldName of no key", "OldAlgorithm unknown"]),
        "FORMERR" => *maker
            .rng
            .pick(&["no KEY", "two KEYs", "KEY in the answer only"]),
        "BADALG" => *maker.rng.pick(&["algorithm unknown", "algorithm the root"]),
        "BADTIME" => *maker
            .rng
            .pick(&["expiration = inception", "expiration = inception - 1"]),
        "KEYING" => return call.fits = false,
        "SERVFAIL" => return call.offer.clear(),
        "KEYREC" => return call.record = maker.wrong_record(),
        // Every such reply is longer: a TKEY alone has 40 octets and more.
        "ROOM" => return call.room = maker.rng.below(50),
        _ => return,
    };
    bend_renewal(maker, s, ask, fault);
}

/// Whether this mode looks at it.
fn applies(mode: &str, end: &str) -> bool {
    match end {
        "KEYING" => mode != "4098",
        "SERVFAIL" => mode != "4099",
        "KEYREC" => mode == "4097",
        _ => true,
    }
}

fn want_of(mode: &str, end: &str) -> Want {
    match end {
        "BADKEY" => Want::Tkey(17),
        "FORMERR" => Want::Tkey(1),
        "KEYING" if mode == "4097" => Want::Tkey(17),
        "KEYING" => Want::Tkey(1),
        "BADALG" => Want::Tkey(21),
        "BADTIME" => Want::Tkey(18),
        "SERVFAIL" => Want::Tkey(2),
        "KEYREC" => Want::Refused(19),
        _ => Want::Refused(8),
    }
}

/// By Diffie-Hellman the record is answered as it is, or refused; else it does not matter.
fn record(maker: &mut Maker, item: &str) -> bool {
    let (mode, kind) = two_words(item);
    let s = match maker.rng.chance(20) {
        true => maker.revoked(),
        false => maker.live(),
    };
    let ask = maker.renewal_of(&s, number(mode));
    let mut call = maker.fitting_call(s.time);
    call.record = maker.lent_record(kind);
    let want = match mode == "4097" && WRONG_RECORDS.contains(&kind) {
        true => Want::Refused(19),
        false => Want::Tkey(0),
    };
    wire::is_key_record(&call.record) == RIGHT_RECORDS.contains(&kind)
        && maker.asks(&call, &ask, want)
}

/// The octets of the offer and of the request's key data.
const KEY_DATA: [&str; 10] = [
    "0 and 0",
    "0 and 5",
    "0 and 300",
    "1 and 0",
    "5 and 5",
    "1 and 300",
    "1024 and 0",
    "1024 and 300",
    "1025 and 0",
    "1025 and 300",
];

fn key_data(maker: &mut Maker, item: &str) -> bool {
    let (mode, sizes) = two_words(item);
    let (offer, key) = sizes.split_once(" and ").expect("two sizes");
    let size = |text: &str| text.parse().expect("a size");
    let s = maker.live();
    let mut ask = maker.renewal_of(&s, number(mode));
    tkey(&mut ask).key = maker.rng.octets(size(key));
    let mut call = maker.fitting_call(s.time);
    call.offer = maker.rng.octets(size(offer));
    let want = match (offer, mode) {
        ("1025", _) => Want::Refused(5),
        ("0", "4097" | "4098") => Want::Tkey(2),
        _ => Want::Tkey(0),
    };
    maker.asks(&call, &ask, want)
}

/// Keying verdict and lent record.
const GIVEN: [&str; 6] = [
    "good and right",
    "good and wrong",
    "good and none",
    "bad and right",
    "bad and wrong",
    "bad and none",
];

const OTHERS: [&str; 11] = [
    "ill formed TSIG",
    "unsigned TKEY request",
    "BADKEY",
    "BADSIG",
    "PartialRevoke",
    "TKEY error",
    "renewal 4098",
    "adoption",
    "re-adoption",
    "deletion",
    "passed up",
];

fn not_looked_at(maker: &mut Maker, item: &str) -> bool {
    let (given, kind) = two_words(item);
    let (s, ask, want) = ask_for(maker, kind);
    let mut call = maker.call(s.time);
    call.good = kind != "BADSIG";
    let (verdict, record) = given.split_once(" and ").expect("two words");
    call.fits = verdict == "good";
    call.record = match record {
        "right" => maker.right_record(),
        "wrong" => maker.wrong_record(),
        _ => Vec::new(),
    };
    maker.asks(&call, &ask, want)
}

/// A renewal by Diffie-Hellman that would be granted, with a wrong record, unless said.
const KEYRECS: [&str; 16] = [
    "later than the clock",
    "then a right record",
    "then an ordinary message",
    "twice, then resolver assignment",
    "beside a waiting key",
    "of a revoked key",
    "room 0",
    "over an offer of 1024",
    "after OFFER",
    "after NOTQUERY",
    "after FORMAT",
    "after BADKEY of the TSIG",
    "after BADSIG",
    "after BADTIME of the TSIG",
    "after two TKEYs",
    "after ill formed other data",
];

fn keyrec(maker: &mut Maker, item: &str) -> bool {
    let s = match item {
        "beside a waiting key" => maker.with_waiting(),
        "of a revoked key" => maker.revoked(),
        "later than the clock" => {
            let s = maker.lasting();
            s.at(s.time + maker.rng.within(1, 9))
        }
        _ => maker.live(),
    };
    let before = maker.pair(s.pair).clone();
    let mut ask = maker.renewal_of(&s, wire::DIFFIE_HELLMAN);
    let mut call = maker.fitting_call(s.time);
    call.record = maker.wrong_record();
    let mut want = Want::Refused(19);
    match item {
        "room 0" => call.room = 0,
        "over an offer of 1024" => call.offer = maker.rng.octets(1024),
        _ if item.starts_with("after") => want = end_before(maker, &mut ask, &mut call, item),
        _ => {}
    }
    let is_clock_set = |maker: &Maker| maker.table.clock == s.time;
    let refused = maker.asks(&call, &ask, want) && is_clock_set(maker);
    let stays = *maker.pair(s.pair) == before;
    refused && stays && follows(maker, &s, &ask, item)
}

/// What ends a message before its renewal is judged.
fn end_before(maker: &mut Maker, ask: &mut Ask, call: &mut Call, item: &str) -> Want {
    match item {
        "after OFFER" => {
            call.offer = maker.rng.octets(1025);
            Want::Refused(5)
        }
        "after NOTQUERY" => {
            ask.flags |= wire::QR;
            Want::Refused(7)
        }
        "after FORMAT" => {
            let place = ask.octets().len();
            ask.tail.push(0);
            Want::Format(place)
        }
        "after BADKEY of the TSIG" => {
            tsig(ask).owner = vec![0];
            Want::BadKey
        }
        "after BADSIG" => {
            call.good = false;
            Want::BadSig
        }
        "after BADTIME of the TSIG" => {
            let tsig = tsig(ask);
            tsig.signed += u64::from(tsig.fudge) + 1;
            Want::BadTime
        }
        "after two TKEYs" => {
            let record = tkey(ask).record();
            ask.sections[2].push(record);
            Want::Bad
        }
        _ => {
            tkey(ask).other.push(0);
            Want::Bad
        }
    }
}

/// What comes after the refusal, which has taken no serial and no fresh time.
fn follows(maker: &mut Maker, s: &Signer, ask: &Ask, item: &str) -> bool {
    match item {
        "then a right record" => {
            let call = maker.fitting_call(s.time);
            maker.asks(&call, ask, Want::Tkey(0))
        }
        "then an ordinary message" => {
            let ask = maker.ordinary(s);
            let call = maker.call(s.time);
            maker.asks(&call, &ask, Want::Passed(0))
        }
        "twice, then resolver assignment" => {
            let mut call = maker.fitting_call(s.time);
            call.record = maker.wrong_record();
            let again = maker.asks(&call, ask, Want::Refused(19));
            let other = maker.renewal_of(s, wire::BY_RESOLVER);
            again && maker.asks(&call, &other, Want::Tkey(0))
        }
        _ => true,
    }
}

const BATCHES: [&str; 20] = [
    "each its own verdict",
    "each its own record",
    "the three schemes",
    "the three schemes of one key",
    "one record for all",
    "the record inside its message",
    "the record inside another message",
    "the record is the message",
    "the record is the offer",
    "the record cut by one",
    "the record and one octet more",
    "no record at the start",
    "no record at the end",
    "no offers",
    "KEYREC takes no room",
    "KEYREC moves the clock",
    "KEYREC leaves the keys",
    "records between others",
    "64 pairs by Diffie-Hellman",
    "64 items of any scheme",
];

fn batch_keying(maker: &mut Maker, item: &str) -> bool {
    maker.time_for(10);
    let count = match item {
        "64 pairs by Diffie-Hellman" => maker.count().clamp(3, 64),
        _ => 3,
    };
    let keys = maker.fresh_keys(count);
    let mut batch = Batch::new(MAX_BATCH_ROOM);
    match item {
        "the three schemes" | "no offers" => {
            for (key, mode) in keys.iter().zip(wire::RENEWALS) {
                add(maker, &mut batch, key, mode);
            }
        }
        "the three schemes of one key" => {
            for mode in wire::RENEWALS {
                add(maker, &mut batch, &keys[0], mode);
            }
        }
        "records between others" => {
            for key in &keys[1..] {
                add_some(maker, &mut batch, &keys[..1], 2);
                add(maker, &mut batch, key, wire::DIFFIE_HELLMAN);
            }
        }
        "64 items of any scheme" => add_any(maker, &mut batch, &keys),
        _ => {
            for key in &keys {
                add(maker, &mut batch, key, wire::DIFFIE_HELLMAN);
            }
        }
    }
    bend_batch(maker, &mut batch, &keys, item);
    maker.batch(&batch)
}

/// A renewal that is granted.
fn add(maker: &mut Maker, batch: &mut Batch, key: &Signer, mode: u16) {
    let mut ask = maker.renewal_of(key, mode);
    // So that its KEY stands in it as a record that could be lent.
    ask.squeeze = false;
    let call = maker.fitting_call(key.time);
    batch.asks(&call, &ask, Want::Tkey(0));
}

/// Verdicts and records by lot.
fn add_any(maker: &mut Maker, batch: &mut Batch, keys: &[Signer]) {
    for _ in 0..64 {
        let key = maker.rng.pick(keys).clone();
        let mode = *maker.rng.pick(&wire::RENEWALS);
        add(maker, batch, &key, mode);
        let (fits, is_wrong) = (maker.rng.chance(60), maker.rng.chance(40));
        let record = match is_wrong {
            true => maker.wrong_record(),
            false => maker.right_record(),
        };
        let span = batch.lay(&record);
        let item = batch.last();
        (item.call.fits, item.call.record, item.record) = (fits, record, span);
        item.want = Some(match mode {
            wire::DIFFIE_HELLMAN if !fits => Want::Tkey(17),
            wire::BY_RESOLVER if !fits => Want::Tkey(1),
            wire::DIFFIE_HELLMAN if is_wrong => Want::Refused(19),
            _ => Want::Tkey(0),
        });
    }
}

fn bend_batch(maker: &mut Maker, batch: &mut Batch, keys: &[Signer], item: &str) {
    let within = |span: Span, skip: u64, size: u64| Span {
        from: span.from + skip,
        size,
    };
    let end = Span {
        from: batch.octets.len() as u64,
        size: 0,
    };
    let (first, second) = (batch.items[0].clone(), batch.items[1].clone());
    match item {
        "each its own verdict" => {
            let bent = maker.rng.below(3) as usize;
            batch.items[bent].call.fits = false;
            batch.items[bent].want = Some(Want::Tkey(17));
        }
        "each its own record" => {
            let wrong = maker.wrong_record();
            let (bent, span) = (maker.rng.below(3) as usize, batch.lay(&wrong));
            set_record(batch, bent, span);
        }
        "one record for all" => (0..3).for_each(|place| set_record(batch, place, first.record)),
        "the record inside its message" => set_record(batch, 0, key_of(batch, 0)),
        "the record inside another message" => set_record(batch, 0, key_of(batch, 1)),
        "the record is the message" => set_record(batch, 1, second.message),
        "the record is the offer" => set_offer(batch, 1, second.record),
        "the record cut by one" => {
            let size = second.record.size - 1;
            let skip = maker.rng.below(2);
            set_record(batch, 1, within(second.record, skip, size));
        }
        "the record and one octet more" => {
            set_record(batch, 1, within(second.record, 0, second.record.size + 1));
        }
        "no record at the start" => set_record(batch, 1, Span::default()),
        "no record at the end" => set_record(batch, 2, end),
        "no offers" => (0..3).for_each(|place| set_offer(batch, place, end)),
        "KEYREC takes no room" => {
            set_record(batch, 1, end);
            let third = batch.items[2].clone();
            let lengths = [first, third].map(|item| {
                let ask = item.ask.expect("parts");
                maker.due_reply(&item.call, &ask, Want::Tkey(0)).len() as u64
            });
            batch.room = lengths.iter().sum();
        }
        "KEYREC moves the clock" => {
            set_record(batch, 1, end);
            batch.items[1].call.time += 1;
            batch.items[2].want = Some(Want::Refused(3));
        }
        "KEYREC leaves the keys" => {
            set_record(batch, 1, end);
            let ask = maker.ordinary(&keys[1]);
            let call = maker.call(keys[1].time);
            batch.asks(&call, &ask, Want::Passed(0));
        }
        _ => {}
    }
}

/// Where an item's own KEY stands in its message.
fn key_of(batch: &Batch, place: usize) -> Span {
    let item = &batch.items[place];
    let ask = item.ask.as_ref().expect("parts");
    let (message, key) = (batch.part(item.message), ask.keys[0].octets());
    let mut windows = message.windows(key.len());
    let skip = windows.position(|part| part == key).expect("its KEY");
    Span {
        from: item.message.from + skip as u64,
        size: key.len() as u64,
    }
}
