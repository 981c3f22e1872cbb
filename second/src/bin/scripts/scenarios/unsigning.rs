//! The calls that take a message with its TSIG: read back and remove; and both after finish.

use super::damage::{mutate, MUTATIONS};
use super::{cross, list, two_words, Group};
use crate::maker::{tsig, Maker, Signing, MAX_ROOM};
use crate::signing::Told;
use crate::wire::{self, joined, label, name, name_of, pointer, record, Ask, Record, Tsig};

pub fn groups() -> Vec<Group> {
    vec![
        Group {
            name: "unsigning",
            weight: 8,
            items: || cross(&CALLS, &FINE),
            run: fine,
        },
        Group {
            name: "unsigning an ill message",
            weight: 9,
            items: || cross(&CALLS, &ILL),
            run: ill,
        },
        Group {
            name: "finished, read back and removed",
            weight: 4,
            items: || list(&TRIPS),
            run: trip,
        },
        Group {
            name: "unsigning, mutation",
            weight: 8,
            items: || list(&MUTATIONS),
            run: mutation,
        },
    ]
}

const CALLS: [&str; 2] = ["read-back", "remove"];

/// A signed message in parts, its TSIG's owner not compressed.
fn signed(maker: &mut Maker) -> Ask {
    let mut ask = maker.bare();
    ask.squeeze = false;
    ask.tsig = Some(maker.stamp());
    ask
}

/// The same message, its TSIG gone.
fn left(ask: &Ask) -> Vec<u8> {
    let bare = Ask {
        tsig: None,
        ..ask.clone()
    };
    bare.octets()
}

const FINE: [&str; 30] = [
    "TSIG alone",
    "question and TSIG",
    "a record in each section",
    "additional count 2",
    "additional count 256",
    "additional count 257",
    "reply",
    "ID the original ID",
    "ID another than the original ID",
    "owner the root",
    "owner in capitals",
    "owner of 255 octets",
    "owner a pointer",
    "owner ended by a pointer",
    "owner of 255 octets by pointer",
    "algorithm the root",
    "algorithm in capitals",
    "algorithm unknown",
    "algorithm of 255 octets",
    "MAC of 0",
    "MAC of 16",
    "MAC of 64",
    "MAC of 65",
    "MAC of 700",
    "signed at 0",
    "signed at 2^48 - 1",
    "fudge, ID and error 0",
    "fudge, ID and error 65535",
    "other data of 6",
    "other data of 700",
];

/// Reading back knows neither key nor MAC size.
fn fine(maker: &mut Maker, item: &str) -> bool {
    let (call, shape) = two_words(item);
    let mut ask = signed(maker);
    let some = maker.by_the_way();
    match shape {
        "TSIG alone" | "question and TSIG" => {
            ask.sections = [vec![], vec![], vec![]];
            if shape == "TSIG alone" {
                ask.questions.clear();
            }
        }
        "a record in each section" => ask.sections.iter_mut().for_each(|s| s.push(some.clone())),
        "reply" => ask.flags |= wire::QR,
        "ID the original ID" => ask.id = tsig(&mut ask).original,
        "ID another than the original ID" => ask.id = !tsig(&mut ask).original,
        _ if shape.starts_with("additional count") => {
            let count: usize = shape
                .rsplit(' ')
                .next()
                .map_or(0, |c| c.parse().unwrap_or(0));
            ask.sections[2] = vec![record(&[0], wire::A, wire::IN, &[]); count - 1];
        }
        _ if shape.contains("pointer") => return compressed(maker, ask, call, shape),
        _ => bend(maker, tsig(&mut ask), shape),
    }
    unsigns(maker, call, &ask.octets(), &ask)
}

fn bend(maker: &mut Maker, t: &mut Tsig, shape: &str) {
    match shape {
        "owner the root" => t.owner = vec![0],
        "owner in capitals" => t.owner = name(&[b"KEY", b"Example"]),
        "owner of 255 octets" => t.owner = name_of(255),
        "algorithm the root" => t.algorithm = vec![0],
        "algorithm in capitals" => t.algorithm = name(&[b"HMAC-SHA256"]),
        "algorithm unknown" => t.algorithm = name(&[b"hmac-md5", b"sig-alg", b"reg", b"int"]),
        "algorithm of 255 octets" => t.algorithm = name_of(255),
        "signed at 0" => t.signed = 0,
        "signed at 2^48 - 1" => t.signed = (1 << 48) - 1,
        "fudge, ID and error 0" => (t.fudge, t.original, t.error) = (0, 0, 0),
        "fudge, ID and error 65535" => (t.fudge, t.original, t.error) = (65_535, 65_535, 65_535),
        _ => {
            let length = shape.rsplit(' ').next().and_then(|word| word.parse().ok());
            let octets = maker.rng.octets(length.expect("a length"));
            match shape.starts_with("MAC") {
                true => t.mac = octets,
                false => t.other = octets,
            }
        }
    }
}

/// The owner is printed written out, and the message that is left has not moved.
fn compressed(maker: &mut Maker, mut ask: Ask, call: &str, shape: &str) -> bool {
    let question = match shape {
        "owner of 255 octets by pointer" => name_of(200),
        _ => name(&[b"Key", b"example"]),
    };
    let front = match shape {
        "owner a pointer" => vec![],
        "owner ended by a pointer" => label(b"1"),
        _ => wire::labels_of(55),
    };
    ask.questions[0].name = question.clone();
    tsig(&mut ask).owner = joined(&[&front, &pointer(12)]);
    let octets = ask.octets();
    tsig(&mut ask).owner = joined(&[&front, &question]);
    unsigns(maker, call, &octets, &ask)
}

/// Whether the call gives the fields, or the message without them.
fn unsigns(maker: &mut Maker, call: &str, octets: &[u8], ask: &Ask) -> bool {
    let whole = ask.tsig.as_ref().expect("a signed message");
    let left = left(ask);
    match call {
        "read-back" => maker.reads_back(octets, whole),
        _ => {
            let room = left.len() as u64 + maker.rng.below(3);
            maker.removes(octets, room, &left)
        }
    }
}

const ILL: [&str; 36] = [
    "no octets",
    "11 octets",
    "header alone",
    "no TSIG",
    "no TSIG, but data like one",
    "no TSIG, but a question of its type",
    "in the answer, nothing after",
    "in the authority, nothing after",
    "in the answer, others after",
    "before another record",
    "two, both last",
    "two, the first in the answer",
    "two, one ill formed",
    "class 1",
    "class 0",
    "TTL 1",
    "TTL 2^31",
    "owner a pointer to itself",
    "owner a pointer ahead",
    "owner of 256 octets by pointer",
    "algorithm only a pointer",
    "algorithm ended by a pointer",
    "algorithm with a label octet 64",
    "algorithm of 256 octets",
    "algorithm without end",
    "MAC size one past",
    "MAC size past the end",
    "MAC size one short",
    "other length one past",
    "other length one short",
    "1 octet after the other data",
    "1 octet after the record",
    "no data",
    "cut by an octet",
    "additional count one more",
    "additional count one less",
];

fn ill(maker: &mut Maker, item: &str) -> bool {
    let (call, shape) = two_words(item);
    let mut ask = signed(maker);
    let sig = tsig(&mut ask).record();
    let whole = ask.octets();
    let octets = match shape {
        "no octets" => vec![],
        "11 octets" => whole[..11].to_vec(),
        "header alone" => wire::Builder::new(ask.id, ask.flags).finish(),
        "cut by an octet" => whole[..whole.len() - 1].to_vec(),
        _ => {
            bend_place(maker, &mut ask, sig, shape);
            bend_ill(&mut ask, shape);
            ask.octets()
        }
    };
    let number = if octets.len() < 12 { 4 } else { 6 };
    let room = *maker.rng.pick(&[0, 12, MAX_ROOM]);
    maker.unsign(call, &octets, room) == Told::refused(call, number)
}

/// What is not the one TSIG, at the end.
fn bend_place(maker: &mut Maker, ask: &mut Ask, sig: Record, shape: &str) {
    let some = maker.by_the_way();
    if shape.starts_with("no TSIG") || shape.starts_with("in the") || shape.starts_with("before") {
        ask.tsig = None;
    }
    match shape {
        "no TSIG, but data like one" => {
            let data = sig.octets();
            ask.sections[2].push(record(&[0], wire::NULL, wire::ANY, &data));
        }
        "no TSIG, but a question of its type" => ask.questions[0].kind = wire::TSIG,
        "in the answer, nothing after" => ask.sections = [vec![sig], vec![], vec![]],
        "in the authority, nothing after" => {
            ask.sections[1].push(sig);
            ask.sections[2].clear();
        }
        "in the answer, others after" => {
            ask.sections[0].push(sig);
            ask.sections[2].push(some);
        }
        "before another record" => ask.sections[2].extend([sig, some]),
        "two, both last" => ask.sections[2].push(sig),
        "two, the first in the answer" => ask.sections[0].push(sig),
        "two, one ill formed" => ask.sections[2].push(Record { ttl: 9, ..sig }),
        "no data" => {
            ask.tsig = None;
            ask.sections[2].push(Record {
                data: vec![],
                ..sig
            });
        }
        "1 octet after the record" => ask.tail = vec![0],
        "additional count one more" => ask.counts[3] = 1,
        "additional count one less" => ask.counts[3] = -1,
        _ => {}
    }
}

/// What is ill formed in it.
fn bend_ill(ask: &mut Ask, shape: &str) {
    let here = left(ask).len();
    if shape == "owner of 256 octets by pointer" {
        ask.questions[0].name = name_of(201);
    }
    let Some(t) = ask.tsig.as_mut() else {
        return;
    };
    match shape {
        "class 1" => t.class = wire::IN,
        "class 0" => t.class = 0,
        "TTL 1" => t.ttl = 1,
        "TTL 2^31" => t.ttl = 1 << 31,
        "owner a pointer to itself" => t.owner = pointer(here),
        "owner a pointer ahead" => t.owner = pointer(here + 2),
        "owner of 256 octets by pointer" => t.owner = joined(&[&wire::labels_of(55), &pointer(12)]),
        "algorithm only a pointer" => t.algorithm = pointer(12),
        "algorithm ended by a pointer" => t.algorithm = joined(&[&label(b"h"), &pointer(12)]),
        "algorithm with a label octet 64" => t.algorithm = joined(&[&[64], &[b'h'; 64], &[0]]),
        "algorithm of 256 octets" => t.algorithm = name_of(256),
        "algorithm without end" => {
            t.algorithm = joined(&[&[63], &[b'h'; 20]]);
            t.mac.clear();
            t.other.clear();
        }
        "MAC size one past" => (t.mac_off, t.other) = (1, vec![]),
        "MAC size past the end" => t.mac_off = 65_000,
        "MAC size one short" => (t.mac_off, t.original, t.error) = (-1, 0, 0),
        "other length one past" => t.other_off = 1,
        "other length one short" => (t.other, t.other_off) = (vec![7; 6], -1),
        "1 octet after the other data" => t.tail = vec![0],
        _ => {}
    }
}

const TRIPS: [&str; 14] = [
    "request",
    "reply",
    "header alone",
    "names compressed",
    "names in capitals",
    "names the root",
    "names of 255 octets",
    "MAC of 0",
    "MAC of 64",
    "other data of 6",
    "other data of 3000",
    "ID another than the original ID",
    "ID changed on the way",
    "fields at their greatest",
];

/// The fields are the same, the message is restored, and its digest is as before.
fn trip(maker: &mut Maker, item: &str) -> bool {
    let mut ask = maker.bare();
    let mut tsig = maker.stamp();
    match item {
        "request" => ask.flags &= !wire::QR,
        "reply" => ask.flags |= wire::QR,
        "header alone" => {
            ask.questions.clear();
            ask.sections = [vec![], vec![], vec![]];
        }
        "names compressed" => {
            ask.questions[0].name = tsig.owner.clone();
            ask.sections[2] = vec![record(&pointer(12), wire::A, wire::IN, &[1, 2, 3, 4])];
        }
        "names in capitals" => {
            (tsig.owner, tsig.algorithm) = (name(&[b"KEY"]), name(&[b"HMAC-SHA512"]))
        }
        "names the root" => (tsig.owner, tsig.algorithm) = (vec![0], vec![0]),
        "names of 255 octets" => (tsig.owner, tsig.algorithm) = (name_of(255), name_of(255)),
        "MAC of 0" => tsig.mac.clear(),
        "MAC of 64" => tsig.mac = maker.rng.octets(64),
        "other data of 6" => tsig.other = maker.rng.octets(6),
        "other data of 3000" => tsig.other = maker.rng.octets(3000),
        "ID changed on the way" => tsig.original = ask.id,
        "ID another than the original ID" => tsig.original = !ask.id,
        _ => {
            (tsig.signed, tsig.fudge, tsig.error) = ((1 << 48) - 1, u16::MAX, u16::MAX);
            (tsig.original, ask.flags) = (u16::MAX, u16::MAX);
        }
    }
    let mut s = Signing {
        call: "finish",
        message: ask.octets(),
        tsig,
        room: MAX_ROOM,
    };
    let done = maker.signs(&s);
    let mut octets = s.octets();
    if item == "ID changed on the way" {
        // As a forwarder may: the digest has the original ID.
        let before = s.tsig.request_digest(&s.message);
        octets[0] ^= 0x55;
        s.message[0] ^= 0x55;
        if s.tsig.request_digest(&s.message) != before {
            return false;
        }
    }
    s.call = *maker.rng.pick(&["digest-request", "digest-reply"]);
    done && maker.reads_back(&octets, &s.tsig)
        && maker.removes(&octets, MAX_ROOM, &s.message)
        && maker.signs(&s)
}

/// No outcome is wanted but one: what reads back can be removed, and what does not cannot.
fn mutation(maker: &mut Maker, item: &str) -> bool {
    let mut ask = signed(maker);
    ask.squeeze = maker.rng.chance(50);
    if ask.squeeze {
        ask.questions[0].name = tsig(&mut ask).owner.clone();
    }
    let mut octets = ask.octets();
    for _ in 0..maker.rng.within(1, 4) {
        let change = match item {
            "several" => *maker.rng.pick(&MUTATIONS),
            _ => item,
        };
        mutate(maker, &mut octets, change);
    }
    let read = maker.unsign("read-back", &octets, 0).number();
    let removed = maker.unsign("remove", &octets, MAX_ROOM).number();
    read.is_some() && read == removed
}
