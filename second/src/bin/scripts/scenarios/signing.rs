//! The calls that take a message without its TSIG: the digests and the finished message.

use super::damage::{mutate, MUTATIONS};
use super::{cross, list, room_for, two_words, Group, ROOMS};
use crate::desk::Want;
use crate::maker::{Maker, Signing, LINE_LIMIT, MAX_ROOM, MAX_SIGNING_ROOM};
use crate::signing::Told;
use crate::wire::{self, joined, label, name, name_of, pointer, record, Ask, Tsig};

pub fn groups() -> Vec<Group> {
    vec![
        Group {
            name: "signing",
            weight: 8,
            items: || cross(&CALLS, &MESSAGES),
            run: message,
        },
        Group {
            name: "signing an ill message",
            weight: 9,
            items: || cross(&CALLS, &ILL),
            run: ill,
        },
        Group {
            name: "signing, key",
            weight: 7,
            items: || cross(&CALLS, &NAMES),
            run: key_name,
        },
        Group {
            name: "signing, algorithm",
            weight: 7,
            items: || cross(&CALLS, &NAMES),
            run: algorithm_name,
        },
        Group {
            name: "signing, time",
            weight: 4,
            items: || cross(&CALLS, &TIMES),
            run: time,
        },
        Group {
            name: "signing, number",
            weight: 4,
            items: || cross(&CALLS, &NUMBERS),
            run: number,
        },
        Group {
            name: "signing, MAC",
            weight: 4,
            items: || cross(&WITH_MAC, &MACS),
            run: mac,
        },
        Group {
            name: "signing, other data",
            weight: 3,
            items: || cross(&CALLS, &OTHERS),
            run: other,
        },
        Group {
            name: "signing in room",
            weight: 6,
            items: rooms,
            run: room,
        },
        Group {
            name: "signing, precedence",
            weight: 6,
            items: precedences,
            run: precedence,
        },
        Group {
            name: "signing, mutation",
            weight: 8,
            items: || cross(&CALLS, &MUTATIONS),
            run: mutation,
        },
        Group {
            name: "finished for the desk",
            weight: 2,
            items: || list(&FINISHED),
            run: finished,
        },
    ]
}

const CALLS: [&str; 3] = ["digest-request", "digest-reply", "finish"];
const WITH_MAC: [&str; 2] = ["digest-reply", "finish"];

const MESSAGES: [&str; 19] = [
    "header alone",
    "question alone",
    "two questions",
    "no question",
    "names compressed",
    "OPT",
    "a record in each section",
    "TKEY and KEY",
    "reply",
    "update",
    "all flags",
    "question of type TSIG",
    "data like a TSIG",
    "additional count 1",
    "additional count 255",
    "additional count 256",
    "ID the original ID",
    "ID another than the original ID",
    "ID 0 for 65535",
];

fn message(maker: &mut Maker, item: &str) -> bool {
    let (call, shape) = two_words(item);
    let mut s = maker.signing(call);
    let mut ask = maker.bare();
    shape_message(maker, &mut ask, &mut s.tsig, shape);
    s.message = ask.octets();
    s.room = s.octets().len() as u64 + maker.rng.below(3);
    maker.signs(&s)
}

fn shape_message(maker: &mut Maker, ask: &mut Ask, tsig: &mut Tsig, shape: &str) {
    let some = maker.by_the_way();
    match shape {
        "header alone" | "question alone" => {
            ask.sections = [vec![], vec![], vec![]];
            if shape == "header alone" {
                ask.questions.clear();
            }
        }
        "two questions" => ask.questions.push(ask.questions[0].clone()),
        "no question" => ask.questions.clear(),
        "names compressed" => {
            ask.questions[0].name = name(&[b"w", b"example"]);
            for owner in [pointer(12), joined(&[&label(b"x"), &pointer(14)])] {
                ask.sections[0].push(record(&owner, wire::A, wire::IN, &[1, 2, 3, 4]));
            }
        }
        "OPT" => ask.sections[2].push(record(&[0], 41, 1232, &[0, 10, 0, 2, 7, 7])),
        "a record in each section" => ask.sections.iter_mut().for_each(|s| s.push(some.clone())),
        "TKEY and KEY" => {
            let s = maker.live();
            *ask = maker.renewal(&s);
            ask.tsig = None;
        }
        "reply" => ask.flags |= wire::QR,
        "update" => ask.flags = 5 << 11,
        "all flags" => ask.flags = u16::MAX,
        "question of type TSIG" => ask.questions[0].kind = wire::TSIG,
        "data like a TSIG" => {
            let data = tsig.record().octets();
            ask.sections[2].push(record(&[0], wire::NULL, wire::ANY, &data));
        }
        "ID the original ID" => tsig.original = ask.id,
        "ID another than the original ID" => tsig.original = !ask.id,
        "ID 0 for 65535" => (ask.id, tsig.original) = (0, 65_535),
        _ => {
            // The count's low octet runs over when a TSIG is added to 255.
            let count = shape.rsplit(' ').next().and_then(|word| word.parse().ok());
            ask.sections[2] = vec![record(&[0], wire::A, wire::IN, &[]); count.expect("a count")];
        }
    }
}

const ILL: [&str; 22] = [
    "no octets",
    "1 octet",
    "11 octets",
    "header with a question missing",
    "header with a record missing",
    "question cut",
    "record cut",
    "1 octet left over",
    "12 octets left over",
    "question a pointer to itself",
    "owner a pointer to octet 11",
    "owner with a label octet 64",
    "data one octet short",
    "TSIG last",
    "TSIG last, its owner compressed",
    "TSIG of class 1",
    "TSIG of TTL 1",
    "TSIG without data",
    "TSIG in the answer",
    "TSIG in the authority",
    "TSIG before another record",
    "two TSIGs",
];

/// SIZE, or FORMAT: a TSIG that stands already is that too, wherever it stands.
fn ill(maker: &mut Maker, item: &str) -> bool {
    let (call, shape) = two_words(item);
    let mut s = maker.signing(call);
    let mut ask = maker.bare();
    let some = maker.by_the_way();
    let sig = maker.stamp().record();
    let whole = ask.octets();
    match shape {
        "no octets" => ask.questions.clear(),
        "header with a question missing" => ask.counts[0] = 1,
        "header with a record missing" => ask.counts[3] = 1,
        "question cut" => ask.sections = [vec![], vec![], vec![]],
        "record cut" => ask.sections[2].push(some),
        "1 octet left over" => ask.tail = vec![0],
        "12 octets left over" => ask.tail = vec![0; 12],
        "question a pointer to itself" => ask.questions[0].name = pointer(12),
        "owner a pointer to octet 11" => {
            ask.sections[0].push(record(&pointer(11), wire::A, wire::IN, &[]))
        }
        "owner with a label octet 64" => {
            let owner = joined(&[&[64], &[b'o'; 64], &[0]]);
            ask.sections[0].push(record(&owner, wire::A, wire::IN, &[]))
        }
        "data one octet short" => {
            ask.sections[2].push(some);
            let last = ask.sections[2].last_mut().expect("a record");
            last.length_off = 1;
        }
        "TSIG last" => ask.sections[2].push(sig),
        "TSIG last, its owner compressed" => {
            let owner = pointer(12);
            ask.sections[2].push(wire::Record { owner, ..sig })
        }
        "TSIG of class 1" => ask.sections[2].push(wire::Record {
            class: wire::IN,
            ..sig
        }),
        "TSIG of TTL 1" => ask.sections[2].push(wire::Record { ttl: 1, ..sig }),
        "TSIG without data" => ask.sections[2].push(record(&[0], wire::TSIG, wire::ANY, &[])),
        "TSIG in the answer" => ask.sections[0].push(sig),
        "TSIG in the authority" => ask.sections[1].push(sig),
        "TSIG before another record" => ask.sections[2].extend([sig, some]),
        "two TSIGs" => ask.sections[2].extend([sig.clone(), sig]),
        _ => {}
    }
    s.message = match shape {
        "no octets" => vec![],
        "1 octet" => whole[..1].to_vec(),
        "11 octets" => whole[..11].to_vec(),
        "question cut" | "record cut" => {
            let octets = ask.octets();
            octets[..octets.len() - 1].to_vec()
        }
        _ => ask.octets(),
    };
    let number = if s.message.len() < 12 { 4 } else { 6 };
    maker.refuses_signing(&s, number)
}

const NAMES: [&str; 17] = [
    "the root",
    "one label",
    "in capitals",
    "of the octets next to letters",
    "with a label of 63 octets",
    "of 254 octets",
    "of 255 octets",
    "of 256 octets",
    "of 300 octets",
    "of no octets",
    "without its root",
    "that runs over its end",
    "with octets after its root",
    "with a label octet 64",
    "with a label octet 191",
    "only a pointer",
    "ended by a pointer",
];

/// The name, and whether it is a wire name.
fn shaped_name(shape: &str) -> (Vec<u8>, bool) {
    let good = match shape {
        "the root" => vec![0],
        "one label" => name(&[b"k"]),
        "in capitals" => name(&[b"KEY", b"AZaz", b"Example"]),
        // Only A to Z are lowered: not what stands beside them, nor the same with a bit more.
        "of the octets next to letters" => name(&[b"@AZ[`az{", &[0xc1, 0xda, 0xe1, 0, 255]]),
        "with a label of 63 octets" => name(&[&[b'K'; 63], b"x"]),
        "of 254 octets" => name_of(254),
        "of 255 octets" => name_of(255).to_ascii_uppercase(),
        _ => return (broken_name(shape), false),
    };
    (good, true)
}

fn broken_name(shape: &str) -> Vec<u8> {
    match shape {
        "of 256 octets" => name_of(256),
        "of 300 octets" => name_of(300),
        "of no octets" => vec![],
        "without its root" => label(b"k"),
        "that runs over its end" => joined(&[&[63], &[b'k'; 62]]),
        "with octets after its root" => vec![1, b'k', 0, 0],
        "with a label octet 64" => joined(&[&[64], &[b'k'; 64], &[0]]),
        "with a label octet 191" => joined(&[&[191], &[b'k'; 191], &[0]]),
        "only a pointer" => pointer(12),
        _ => joined(&[&label(b"k"), &pointer(12)]),
    }
}

fn signs_if(maker: &mut Maker, s: &Signing, good: bool, number: u64) -> bool {
    match good {
        true => maker.signs(s),
        false => maker.refuses_signing(s, number),
    }
}

fn key_name(maker: &mut Maker, item: &str) -> bool {
    let (call, shape) = two_words(item);
    let (name, good) = shaped_name(shape);
    let mut s = maker.signing(call);
    s.tsig.owner = name;
    signs_if(maker, &s, good, 12)
}

fn algorithm_name(maker: &mut Maker, item: &str) -> bool {
    let (call, shape) = two_words(item);
    let (name, good) = shaped_name(shape);
    let mut s = maker.signing(call);
    s.tsig.algorithm = name;
    signs_if(maker, &s, good, 12)
}

const TIMES: [&str; 9] = [
    "0",
    "1",
    "2^32 - 1",
    "2^32",
    "2^48 - 2^31",
    "2^48 - 1",
    "2^48",
    "2^48 + 1",
    "2^64 - 1",
];

/// The time signed is bound by its 48 bits alone, not as a present time is.
fn time(maker: &mut Maker, item: &str) -> bool {
    let (call, time) = two_words(item);
    let mut s = maker.signing(call);
    s.tsig.signed = match time {
        "0" => 0,
        "1" => 1,
        "2^32 - 1" => (1 << 32) - 1,
        "2^32" => 1 << 32,
        "2^48 - 2^31" => (1 << 48) - (1 << 31),
        "2^48 - 1" => (1 << 48) - 1,
        "2^48" => 1 << 48,
        "2^48 + 1" => (1 << 48) + 1,
        _ => u64::MAX,
    };
    signs_if(maker, &s, s.tsig.signed < 1 << 48, 2)
}

const NUMBERS: [&str; 8] = [
    "fudge 0",
    "fudge 65535",
    "ID 0",
    "ID 65535",
    "error 0",
    "error 18 without other data",
    "error 3841",
    "error 65535",
];

fn number(maker: &mut Maker, item: &str) -> bool {
    let (call, number) = two_words(item);
    let mut s = maker.signing(call);
    match number {
        "fudge 0" => s.tsig.fudge = 0,
        "fudge 65535" => s.tsig.fudge = 65_535,
        "ID 0" => s.tsig.original = 0,
        "ID 65535" => s.tsig.original = 65_535,
        "error 0" => s.tsig.error = 0,
        "error 18 without other data" => (s.tsig.error, s.tsig.other) = (18, vec![]),
        "error 3841" => s.tsig.error = 3841,
        _ => s.tsig.error = 65_535,
    }
    maker.signs(&s)
}

const MACS: [&str; 12] = [
    "0", "1", "10", "16", "32", "48", "63", "64", "65", "128", "256", "700",
];

fn mac(maker: &mut Maker, item: &str) -> bool {
    let (call, length) = two_words(item);
    let length = length.parse().expect("a length");
    let mut s = maker.signing(call);
    s.tsig.mac = maker.rng.octets(length);
    signs_if(maker, &s, length <= 64, 16)
}

const OTHERS: [&str; 6] = ["0", "1", "6", "255", "256", "3000"];

fn other(maker: &mut Maker, item: &str) -> bool {
    let (call, length) = two_words(item);
    let length = length.parse().expect("a length");
    let mut s = maker.signing(call);
    s.tsig.other = maker.rng.octets(length);
    s.room = MAX_SIGNING_ROOM;
    maker.signs(&s)
}

/// Remove, which has room lent too, is among these.
fn rooms() -> Vec<String> {
    let calls = ["digest-request", "digest-reply", "finish", "remove"];
    let mut all = cross(&calls, &ROOMS);
    all.extend(cross(&calls, &["99999", "100000", "100001"]));
    all
}

fn room(maker: &mut Maker, item: &str) -> bool {
    let (call, room) = two_words(item);
    let mut s = maker.signing(call);
    if call == "remove" {
        let room = room_for(s.message.len() as u64, room);
        return maker.removes(&s.tsig.put_on(&s.message), room, &s.message);
    }
    s.room = room_for(s.octets().len() as u64, room);
    maker.signs(&s)
}

/// In the order of CR 3, with their numbers.
const REFUSALS: [(&str, u64); 6] = [
    ("SIZE", 4),
    ("FORMAT", 6),
    ("NAME", 12),
    ("TIME", 2),
    ("MACSIZE", 16),
    ("ROOM", 8),
];

/// Every two refusals that a call can have at once.
fn precedences() -> Vec<String> {
    let mut all = Vec::new();
    for call in CALLS {
        for (place, (first, _)) in REFUSALS.iter().enumerate() {
            for (second, _) in &REFUSALS[place + 1..] {
                all.push(format!("{call}, {first} over {second}"));
            }
        }
    }
    all.retain(|item| !item.starts_with("digest-request") || !item.contains("MACSIZE"));
    all.extend(cross(&["remove"], &["SIZE over ROOM", "FORMAT over ROOM"]));
    all
}

fn precedence(maker: &mut Maker, item: &str) -> bool {
    let (call, two) = two_words(item);
    let (first, second) = two.split_once(" over ").expect("two refusals");
    let mut s = maker.signing(call);
    if call == "remove" {
        s.message = s.tsig.put_on(&s.message);
    }
    // What is too short is cut last.
    for refusal in [second, first] {
        match refusal {
            "SIZE" => s.message.truncate(11),
            "FORMAT" => s.message.push(0),
            "NAME" if maker.rng.chance(50) => s.tsig.owner = pointer(12),
            "NAME" => s.tsig.algorithm = name_of(256),
            "TIME" => s.tsig.signed |= 1 << 48,
            "MACSIZE" => s.tsig.mac = maker.rng.octets(65),
            _ => s.room = maker.rng.below(12),
        }
    }
    let number = REFUSALS.iter().find(|(name, _)| *name == first);
    let (_, number) = *number.expect("a refusal");
    match call {
        "remove" => maker.unsign(call, &s.message, s.room) == Told::refused(call, number),
        _ => maker.refuses_signing(&s, number),
    }
}

/// No outcome is wanted here: both readers must only agree.
fn mutation(maker: &mut Maker, item: &str) -> bool {
    let (call, change) = two_words(item);
    let mut s = maker.signing(call);
    for _ in 0..maker.rng.within(1, 4) {
        let change = match change {
            "several" => *maker.rng.pick(&MUTATIONS),
            _ => change,
        };
        let part = match maker.rng.below(5) {
            0 => &mut s.tsig.algorithm,
            1 => &mut s.tsig.owner,
            _ => &mut s.message,
        };
        mutate(maker, part, change);
    }
    let line = maker.signing_line(&s);
    maker.sign_line(&line) != Told::Bad
}

const FINISHED: [&str; 4] = ["ordinary", "renewal", "deletion", "look"];

/// What is finished is a signed message to the desk.
fn finished(maker: &mut Maker, item: &str) -> bool {
    let signer = maker.live();
    let mut ask = match item {
        "renewal" => maker.renewal(&signer),
        "deletion" => maker.deletion(&signer, &signer.name()),
        _ => maker.ordinary(&signer),
    };
    let tsig = ask.tsig.take().expect("a signed message");
    let s = Signing {
        call: "finish",
        message: ask.octets(),
        tsig,
        room: MAX_ROOM,
    };
    let done = maker.signs(&s);
    let want = match item {
        "ordinary" | "look" => Want::Passed(0),
        _ => Want::Tkey(0),
    };
    if item == "look" {
        let seen = maker.look(&s.octets());
        return done && seen.pair == signer.pair && seen.serial == signer.serial;
    }
    let call = maker.call_for(&ask, signer.time);
    done && maker.sends(&call, &s.octets(), want)
}

/// Among the large ones, which are rare.
pub const LARGE: [&str; 23] = [
    "finish to 65535 in room of 65535",
    "finish to 65535 in room of 65534",
    "finish to 65536 in room of 100000",
    "finish a message of 65535",
    "finish a message of 65536",
    "finish with other data of 65536",
    "digest-request of a message of 65535",
    "digest-request of a message of 65536",
    "digest-request of 65536 in room of 65535",
    "digest-request of 65536 in room of 65536",
    "digest-request with other data of 65535",
    "digest-request with other data of 65536",
    "digest-request in a line of 200000",
    "digest-reply of a message of 65536",
    "digest-reply of 80000 in room of 80000",
    "digest-reply of 80000 in room of 79999",
    "digest-reply of 100000 in room of 100001",
    "digest-reply of 100001 in room of 100001",
    "digest-reply with other data of 65536",
    "remove from 65535 in room of 65535",
    "read-back from 65535",
    "read-back from 65536",
    "remove from 65536",
];

/// The first number of an item is what is padded to its length.
pub fn large(maker: &mut Maker, item: &str) -> bool {
    let mut words = item.split(' ');
    let call = words.next().expect("a call");
    let sizes: Vec<usize> = words.filter_map(|word| word.parse().ok()).collect();
    let size = sizes[0];
    let mut s = maker.signing(call);
    s.room = sizes.get(1).map_or(u64::MAX, |&room| room as u64);
    match item {
        _ if item.contains("line of") => return long_line(maker, s),
        _ if item.contains("from") => return from_large(maker, s, size),
        _ if size >= 100_000 => return widest(maker, s, size),
        _ if item.contains("other data") => s.tsig.other = vec![0xab; size],
        _ if item.contains("a message of") => pad(&mut s, |s| size - s.message.len()),
        // A digest of more than a message needs other data as well.
        _ if size > 70_000 => {
            pad(&mut s, |s| 50_000 - s.octets().len());
            s.tsig.other = vec![0xcd; size - s.octets().len() + s.tsig.other.len()];
        }
        _ => pad(&mut s, |s| size - s.octets().len()),
    }
    match s.message.len() > 65_535 {
        true => maker.refuses_signing(&s, 4),
        false => maker.signs(&s),
    }
}

/// Adds a record of as many octets as are missing then.
fn pad(s: &mut Signing, missing: impl Fn(&Signing) -> usize) {
    // Alone behind the header, so that the count is its own.
    s.message.truncate(12);
    s.message[4..].copy_from_slice(&[0, 0, 0, 1, 0, 0, 0, 0]);
    let empty = s.message.clone();
    let mut padding = record(&[0], wire::NULL, wire::IN, &[]);
    s.message = joined(&[&empty, &padding.octets()]);
    padding.data = vec![0xab; missing(s)];
    s.message = joined(&[&empty, &padding.octets()]);
}

/// The longest digest that a line can ask for. Leading zeros of the room make the line just so
/// long, as the numbers before may have leading zeros too.
fn long_line(maker: &mut Maker, mut s: Signing) -> bool {
    pad(&mut s, |s| 60_000 - s.message.len());
    s.tsig.other = vec![0xcd];
    let short = maker.signing_line(&s).len();
    s.tsig.other = vec![0xcd; (LINE_LIMIT - short) / 2 - 100];
    let line = maker.signing_line(&s);
    let (front, room) = line.rsplit_once(' ').expect("many words");
    let line = format!("{front} {}{room}", "0".repeat(LINE_LIMIT - line.len()));
    maker.sign_line(&line) == Told::wrote(s.octets())
}

/// A line can ask for a digest of a few octets more than the room that is lent. Leading zeros,
/// which come now and then, would make the line too long.
fn widest(maker: &mut Maker, mut s: Signing, size: usize) -> bool {
    (s.tsig.owner, s.tsig.algorithm) = (vec![0], vec![0]);
    (s.tsig.signed, s.tsig.fudge, s.tsig.original, s.tsig.error) = (0, 0, 0, 0);
    s.tsig.other.clear();
    pad(&mut s, |_| 60_000);
    s.tsig.other = vec![0xcd; size - s.octets().len()];
    let mut line = maker.signing_line(&s);
    while line.len() > LINE_LIMIT {
        line = maker.signing_line(&s);
    }
    let want = match size as u64 > MAX_SIGNING_ROOM {
        true => Told::refused(s.call, 8),
        false => Told::wrote(s.octets()),
    };
    maker.sign_line(&line) == want
}

/// The record before the TSIG takes all the octets there are, or its other data does.
fn from_large(maker: &mut Maker, mut s: Signing, size: usize) -> bool {
    if s.call == "remove" {
        pad(&mut s, |s| size - s.tsig.put_on(&s.message).len());
    } else {
        let missing = size - s.tsig.put_on(&s.message).len();
        s.tsig.other.extend(vec![0xab; missing]);
    }
    let octets = s.tsig.put_on(&s.message);
    match s.call {
        _ if size > 65_535 => maker.unsign(s.call, &octets, s.room) == Told::refused(s.call, 4),
        "remove" => maker.removes(&octets, s.room, &s.message),
        _ => maker.reads_back(&octets, &s.tsig),
    }
}
