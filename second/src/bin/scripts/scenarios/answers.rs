//! The replies that the resolver reads: refused, closing its request, or moving its keys.

use super::damage::{mutate, MUTATIONS};
use super::{cross, list, two_words, Group};
use crate::maker::{tsig, Maker, Reply, MAX_ROOM};
use crate::resolver::{Key, Read, Said};
use crate::wire::{self, joined, label, name, name_of, pointer, record, Question};

pub fn groups() -> Vec<Group> {
    vec![
        Group {
            name: "reply refused",
            weight: 11,
            items: || cross(&KINDS, &REFUSED),
            run: refused,
        },
        Group {
            name: "reply that moves nothing",
            weight: 13,
            items: || cross(&KINDS, &STILL),
            run: still,
        },
        Group {
            name: "reply that moves",
            weight: 10,
            items: || cross(&KINDS, &MOVES),
            run: moves,
        },
        Group {
            name: "reply and due",
            weight: 3,
            items: || cross(&ASKED, &DUE),
            run: due,
        },
        Group {
            name: "reply to an ordinary message",
            weight: 1,
            items: || list(&ORDINARY),
            run: ordinary,
        },
        Group {
            name: "reply damaged",
            weight: 5,
            items: || cross(&KINDS, &MUTATIONS),
            run: damaged,
        },
        Group {
            name: "resolver's mixture",
            weight: 2,
            items: || list(&MIXTURES),
            run: mixture,
        },
        Group {
            name: "large reply",
            weight: 1,
            items: || list(&LARGE),
            run: large,
        },
    ]
}

const KINDS: [&str; 3] = ["renewal", "adoption", "deletion"];
const ASKED: [&str; 4] = ["ordinary", "renewal", "adoption", "deletion"];

const REFUSED: [&str; 37] = [
    "4 no octets",
    "4 one octet",
    "4 eleven octets",
    "4 cut",
    "4 an octet left over",
    "4 a record left over",
    "4 questions too high",
    "4 answers too high",
    "4 additionals too low",
    "4 pointer to itself",
    "4 pointer to octet 11",
    "4 owner with a label octet 64",
    "4 owner of 256 octets",
    "4 length past the end",
    "4 though nothing is open",
    "4 though the ID is another",
    "4 though the verdict is bad",
    "1 nothing open",
    "1 closed already",
    "1 though unsigned",
    "1 though the verdict is bad",
    "2 ID one more",
    "2 ID turned round",
    "2 though unsigned",
    "2 though the verdict is bad",
    "3 no TSIG",
    "3 a header alone",
    "3 verdict bad",
    "3 TSIG in the answer",
    "3 TSIG in the authority",
    "3 TSIG not last",
    "3 two TSIGs",
    "3 TSIG of class 1",
    "3 TSIG of TTL 1",
    "3 TSIG with an octet left over",
    "3 TSIG with its MAC too long",
    "3 TSIG with its algorithm a pointer",
];

/// The request stays open: the good reply comes after and moves.
fn refused(maker: &mut Maker, item: &str) -> bool {
    let (kind, way) = two_words(item);
    let Some(order) = maker.opened(kind) else {
        return false;
    };
    let (good, want) = maker.granting(&order);
    let whole = good.octets();
    let number = way.split(' ').next().and_then(|word| word.parse().ok());
    let refusal = Read::Refused(number.expect("a number"));
    let verdict = !way.ends_with("bad");
    if way.contains("nothing") || way.contains("closed") || way.starts_with("1 ") {
        let closed = maker.reads(true, &whole, &want);
        let bent = bent_octets(maker, &good, way);
        return closed && maker.reads(verdict, &bent, &refusal);
    }
    let bent = bent_octets(maker, &good, way);
    maker.reads(verdict, &bent, &refusal) && maker.reads(true, &whole, &want)
}

fn bent_octets(maker: &mut Maker, good: &Reply, way: &str) -> Vec<u8> {
    let whole = good.octets();
    let mut reply = good.clone();
    match way {
        "4 no octets" => return Vec::new(),
        "4 one octet" => return whole[..1].to_vec(),
        "4 eleven octets" => return whole[..11].to_vec(),
        "4 cut" => {
            let length = maker.rng.within(12, whole.len() as u64 - 1);
            return whole[..length as usize].to_vec();
        }
        "4 a record left over" => reply.ask.tail = vec![0; 11],
        "4 questions too high" => reply.ask.counts[0] = 65_535 - 1,
        "4 answers too high" => reply.ask.counts[1] = 1,
        "4 additionals too low" => reply.ask.counts[3] = -1,
        "4 pointer to itself" => reply.ask.questions[0].name = pointer(12),
        "4 pointer to octet 11" => reply.tkey.owner = pointer(11),
        "4 owner with a label octet 64" => {
            reply.tkey.owner = joined(&[&[64], &[b'n'; 64], &[0]]);
        }
        "4 owner of 256 octets" => reply.tkey.owner = name_of(256),
        "4 length past the end" => {
            let mut last = tsig(&mut reply.ask).record();
            last.length_off = 1;
            reply.ask.tsig = None;
            reply.ask.sections[2].push(last);
            reply.ask.keys.clear();
        }
        "2 ID turned round" if reply.ask.id != reply.ask.id.swap_bytes() => {
            reply.ask.id = reply.ask.id.swap_bytes();
        }
        _ if way.starts_with('2') => reply.ask.id = reply.ask.id.wrapping_add(1),
        "3 a header alone" => return joined(&[&whole[..4], &[0; 8]]),
        _ => {}
    }
    match way {
        _ if way.ends_with("though the ID is another") => reply.ask.id ^= 0x100,
        _ if way.ends_with("unsigned") || way == "3 no TSIG" => reply.ask.tsig = None,
        _ => {}
    }
    if way.starts_with('3') && way.contains("TSIG") {
        bend_tsig(maker, &mut reply, way);
    }
    if way == "4 an octet left over" || way.starts_with("4 though") {
        reply.ask.tail = vec![0];
    }
    reply.octets()
}

fn bend_tsig(maker: &mut Maker, reply: &mut Reply, way: &str) {
    let Some(whole) = reply.ask.tsig.clone() else {
        return;
    };
    let by_the_way = maker.by_the_way();
    let t = tsig(&mut reply.ask);
    match way {
        "3 TSIG of class 1" => t.class = wire::IN,
        "3 TSIG of TTL 1" => t.ttl = 1,
        "3 TSIG with an octet left over" => t.tail = vec![0],
        "3 TSIG with its MAC too long" => t.mac_off = 60_000,
        "3 TSIG with its algorithm a pointer" => t.algorithm = pointer(12),
        "3 two TSIGs" => reply.ask.sections[2].push(whole.record()),
        _ => {
            reply.ask.tsig = None;
            match way {
                "3 TSIG in the answer" => reply.ask.sections[0].push(whole.record()),
                "3 TSIG in the authority" => reply.ask.sections[1].push(whole.record()),
                _ => reply.ask.sections[2].extend([whole.record(), by_the_way]),
            }
        }
    }
}

const STILL: [&str; 49] = [
    "QR 0",
    "RCODE 1",
    "RCODE 2",
    "RCODE 4",
    "RCODE 8",
    "RCODE 9",
    "RCODE 15",
    "TSIG error 1",
    "TSIG error 9",
    "TSIG error 16",
    "TSIG error 17",
    "TSIG error 18",
    "TSIG error 256",
    "TSIG error 65535",
    "TKEY error 1",
    "TKEY error 2",
    "TKEY error 16",
    "TKEY error 17",
    "TKEY error 18",
    "TKEY error 19",
    "TKEY error 20",
    "TKEY error 21",
    "TKEY error 256",
    "TKEY error 3841",
    "TKEY error 65535",
    "no TKEY",
    "TKEY in the authority",
    "TKEY in the additional",
    "TKEY in both",
    "two TKEYs",
    "two TKEYs, one of another mode",
    "two TKEYs, one ill formed",
    "mode 0",
    "mode 3",
    "mode 4097",
    "mode 4099",
    "mode 65535",
    "mode of the next kind",
    "mode of the kind after",
    "algorithm only a pointer",
    "algorithm ended by a pointer",
    "algorithm with a label octet 64",
    "algorithm of 256 octets",
    "key size one past",
    "other size one past",
    "other size one short",
    "an octet left over",
    "no data",
    "data cut",
];

fn mode_of(kind: &str) -> u16 {
    match kind {
        "renewal" => wire::BY_SERVER,
        "adoption" => wire::ADOPT,
        _ => wire::DELETE,
    }
}

fn still(maker: &mut Maker, item: &str) -> bool {
    let (kind, way) = two_words(item);
    let Some(order) = maker.opened(kind) else {
        return false;
    };
    let (mut reply, _) = maker.granting(&order);
    let number: u16 = way
        .rsplit(' ')
        .next()
        .and_then(|word| word.parse().ok())
        .unwrap_or(0);
    let at = KINDS.iter().position(|other| *other == kind).unwrap_or(0);
    let mut octets = None;
    match way {
        "QR 0" => reply.ask.flags &= !wire::QR,
        _ if way.starts_with("RCODE") => reply.ask.flags |= number,
        _ if way.starts_with("TSIG error") => tsig(&mut reply.ask).error = number,
        _ if way.starts_with("TKEY error") => reply.tkey.error = number,
        "mode of the next kind" => reply.tkey.mode = mode_of(KINDS[(at + 1) % 3]),
        "mode of the kind after" => reply.tkey.mode = mode_of(KINDS[(at + 2) % 3]),
        _ if way.starts_with("mode") => reply.tkey.mode = number,
        "no TKEY" => octets = Some(reply.ask.octets()),
        _ if way.starts_with("TKEY in") => {
            let mut ask = reply.ask.clone();
            if !way.ends_with("additional") {
                ask.sections[1].push(reply.tkey.record());
            }
            if !way.ends_with("authority") {
                ask.sections[2].push(reply.tkey.record());
            }
            octets = Some(ask.octets());
        }
        _ if way.starts_with("two TKEYs") => second_tkey(maker, &mut reply, way),
        _ => octets = Some(ill_tkey(maker, &mut reply, way)),
    }
    let octets = octets.unwrap_or_else(|| reply.octets());
    maker.reads(true, &octets, &Read::Closed)
}

fn second_tkey(maker: &mut Maker, reply: &mut Reply, way: &str) {
    let mut second = reply.tkey.clone();
    match way {
        "two TKEYs, one of another mode" => second.mode = 3,
        "two TKEYs, one ill formed" => second.tail = vec![0],
        _ => {}
    }
    if maker.rng.chance(50) {
        std::mem::swap(&mut second, &mut reply.tkey);
    }
    reply.ask.sections[0].push(second.record());
}

fn ill_tkey(maker: &mut Maker, reply: &mut Reply, way: &str) -> Vec<u8> {
    let t = &mut reply.tkey;
    match way {
        "algorithm only a pointer" => t.algorithm = pointer(12),
        "algorithm ended by a pointer" => t.algorithm = joined(&[&label(b"hmac"), &pointer(12)]),
        "algorithm with a label octet 64" => t.algorithm = joined(&[&[64], &[b'h'; 64], &[0]]),
        "algorithm of 256 octets" => t.algorithm = name_of(256),
        "key size one past" => t.key_off = 60_000,
        "other size one past" => t.other_off = 1,
        "other size one short" => {
            t.other = vec![7; 9];
            t.other_off = -1;
        }
        "an octet left over" => t.tail = vec![0],
        _ => {
            let mut cut = t.record();
            let whole = cut.data.len() as u64;
            let length = if way == "no data" {
                0
            } else {
                maker.rng.below(whole)
            };
            cut.data.truncate(length as usize);
            let mut ask = reply.ask.clone();
            ask.sections[0].push(cut);
            return ask.octets();
        }
    }
    reply.octets()
}

const MOVES: [&str; 38] = [
    "as it is",
    "other data none",
    "other data of one octet",
    "other data of two names",
    "other data of 300 octets",
    "class 1",
    "TTL 2^31",
    "key data none",
    "key data of 300 octets",
    "opcode 5",
    "all flags",
    "no question",
    "two questions",
    "TKEY in the additional too",
    "TKEY in the authority too",
    "ill formed TKEYs elsewhere",
    "records by the way",
    "TKEY not first in the answer",
    "NAME the root",
    "NAME in capitals",
    "NAME only a pointer",
    "NAME with a pointer",
    "NAME with pointers to pointers",
    "NAME of 255 octets",
    "NAME of 255 octets by pointers",
    "algorithm in capitals",
    "algorithm 256",
    "algorithm 384",
    "algorithm 512",
    "algorithm unknown",
    "algorithm the root",
    "times 0",
    "times 2^32 - 1",
    "TSIG of another key",
    "TSIG with its owner compressed",
    "TSIG without a MAC",
    "TSIG with other data",
    "verdict bad first",
];

/// Only the algorithm and what makes it the offered key can be otherwise in a renewal.
fn moves(maker: &mut Maker, item: &str) -> bool {
    let (kind, way) = two_words(item);
    let Some(order) = maker.opened(kind) else {
        return false;
    };
    let (mut reply, mut want) = maker.granting(&order);
    bend_moving(maker, &mut reply, way);
    if let (Read::Offered(key), Some(named)) = (&mut want, bend_offer(&mut reply, way)) {
        *key = Key {
            name: named.name,
            algorithm: if way.starts_with("algorithm") {
                named.algorithm
            } else {
                key.algorithm
            },
            inception: reply.tkey.inception,
            expiration: reply.tkey.expiration,
        };
        if key.algorithm == 0 {
            want = Read::Closed;
        }
    }
    let octets = reply.octets();
    if way == "verdict bad first" && !maker.reads(false, &octets, &Read::Refused(3)) {
        return false;
    }
    maker.reads(true, &octets, &want)
}

fn bend_moving(maker: &mut Maker, reply: &mut Reply, way: &str) {
    let t = &mut reply.tkey;
    let ask = &mut reply.ask;
    match way {
        "other data none" => t.other.clear(),
        "other data of one octet" => t.other = vec![0xc0],
        "other data of two names" => t.other = joined(&[&name(&[b"k"]), &name(&[b"a"])]),
        "other data of 300 octets" => t.other = vec![0xab; 300],
        "class 1" => t.class = wire::IN,
        "TTL 2^31" => t.ttl = 1 << 31,
        "key data none" => t.key.clear(),
        "key data of 300 octets" => t.key = vec![0xab; 300],
        "opcode 5" => ask.flags |= 5 << 11,
        "all flags" => ask.flags |= 0xfff0,
        "no question" => ask.questions.clear(),
        "two questions" => ask.questions.push(ask.questions[0].clone()),
        "TKEY in the additional too" => ask.sections[2].push(t.record()),
        "TKEY in the authority too" => ask.sections[1].push(t.record()),
        "ill formed TKEYs elsewhere" => {
            for section in [1, 2] {
                ask.sections[section].push(record(&[0], wire::TKEY, wire::ANY, &[]));
            }
        }
        "records by the way" => {
            for section in 0..3 {
                let r = maker.by_the_way();
                ask.sections[section].push(r);
            }
        }
        "times 0" => (t.inception, t.expiration) = (0, 0),
        "times 2^32 - 1" => (t.inception, t.expiration) = (u32::MAX, u32::MAX),
        "TSIG of another key" => tsig(ask).owner = name(&[b"nobody"]),
        "TSIG with its owner compressed" => {
            ask.questions[0].name = tsig(ask).owner.clone();
            tsig(ask).owner = pointer(12);
        }
        "TSIG without a MAC" => tsig(ask).mac.clear(),
        "TSIG with other data" => tsig(ask).other = vec![1; 6],
        _ => {}
    }
}

/// Bends NAME and algorithm, and gives the key that they then make; algorithm 0 is unknown.
fn bend_offer(reply: &mut Reply, way: &str) -> Option<Key> {
    let t = &mut reply.tkey;
    let mut named = t.owner.clone();
    let mut algorithm = 0;
    let asked = |reply: &mut Reply, name: &[u8]| {
        reply.ask.questions = vec![Question {
            name: name.to_vec(),
            kind: wire::TKEY,
            class: wire::ANY,
        }];
    };
    match way {
        "TKEY not first in the answer" => {
            let first = record(&[0], wire::NULL, wire::IN, &[1, 2]);
            let second = std::mem::replace(&mut reply.ask.sections[0], vec![first]);
            reply.ask.sections[0].extend(second);
        }
        "NAME the root" => {
            named = vec![0];
            t.owner = vec![0];
        }
        "NAME in capitals" => {
            named = name(&[b"2", b"A", b"EXAMPLE"]);
            t.owner = named.clone();
        }
        "NAME only a pointer" => {
            named = name(&[b"2", b"a", b"example"]);
            t.owner = pointer(12);
            asked(reply, &named);
        }
        "NAME with a pointer" => {
            named = name(&[b"2", b"a", b"example"]);
            t.owner = joined(&[&label(b"2"), &pointer(12)]);
            asked(reply, &named[2..]);
        }
        "NAME with pointers to pointers" => {
            // Two questions: `example.` at 12, and `a` with a pointer to it at 25.
            named = name(&[b"2", b"a", b"example"]);
            t.owner = joined(&[&label(b"2"), &pointer(25)]);
            asked(reply, &named[4..]);
            let mut second = reply.ask.questions[0].clone();
            second.name = joined(&[&label(b"a"), &pointer(12)]);
            reply.ask.questions.push(second);
        }
        "NAME of 255 octets" => {
            named = name_of(255);
            t.owner = named.clone();
        }
        "NAME of 255 octets by pointers" => {
            named = joined(&[&label(b"n"), &name_of(253)]);
            t.owner = joined(&[&label(b"n"), &pointer(12)]);
            asked(reply, &named[2..]);
        }
        "algorithm in capitals" => {
            algorithm = 384;
            t.algorithm = name(&[b"HMAC-Sha384"]);
        }
        "algorithm unknown" => t.algorithm = name(&[b"hmac-sha224"]),
        "algorithm the root" => t.algorithm = vec![0],
        "algorithm 256" => algorithm = 256,
        "algorithm 384" => algorithm = 384,
        "algorithm 512" => algorithm = 512,
        "times 0" | "times 2^32 - 1" => {}
        _ => return None,
    }
    if let "algorithm 256" | "algorithm 384" | "algorithm 512" = way {
        reply.tkey.algorithm = wire::algorithm_name(algorithm);
    }
    Some(Key {
        name: named,
        algorithm,
        inception: 0,
        expiration: 0,
    })
}

const DUE: [&str; 7] = [
    "3841",
    "3841 with RCODE 9 and no TKEY",
    "3841 with QR 0",
    "3840",
    "3842",
    "3841 unsigned",
    "3841 by a bad verdict",
];

fn due(maker: &mut Maker, item: &str) -> bool {
    let (asked, way) = two_words(item);
    let kind = match asked {
        "ordinary" => "renewal",
        _ => asked,
    };
    let Some(order) = maker.opened(kind) else {
        return false;
    };
    if asked == "ordinary" && !maker.notes(order.id) {
        return false;
    }
    let (mut reply, _) = maker.granting(&order);
    tsig(&mut reply.ask).error = match way {
        "3840" => 3840,
        "3842" => 3842,
        _ => 3841,
    };
    let mut want = match way {
        // A message that is no reply makes nothing due.
        "3840" | "3842" | "3841 with QR 0" => Read::Closed,
        _ => Read::Due,
    };
    let mut octets = reply.octets();
    match way {
        "3841 with RCODE 9 and no TKEY" => {
            reply.ask.flags |= 9;
            octets = reply.ask.octets();
        }
        "3841 with QR 0" => octets[2] &= 0x7f,
        "3841 unsigned" => {
            reply.ask.tsig = None;
            octets = reply.octets();
            want = Read::Refused(3);
        }
        "3841 by a bad verdict" => want = Read::Refused(3),
        _ => {}
    }
    maker.reads(!way.ends_with("verdict"), &octets, &want)
}

const ORDINARY: [&str; 5] = [
    "a renewal's answer",
    "an adoption's answer",
    "a deletion's answer",
    "no records",
    "RCODE 5",
];

fn ordinary(maker: &mut Maker, item: &str) -> bool {
    let kind = match item {
        "a renewal's answer" => "renewal",
        "an adoption's answer" => "adoption",
        _ => "deletion",
    };
    let Some(order) = maker.opened(kind) else {
        return false;
    };
    let (mut reply, _) = maker.granting(&order);
    let noted = maker.notes(order.id);
    let octets = match item {
        "no records" => reply.ask.octets(),
        "RCODE 5" => {
            reply.ask.flags |= 5;
            reply.ask.octets()
        }
        _ => reply.octets(),
    };
    noted && maker.reads(true, &octets, &Read::Closed)
}

/// No outcome is wanted here: both readers must only agree.
fn damaged(maker: &mut Maker, item: &str) -> bool {
    let (kind, change) = two_words(item);
    let Some(order) = maker.opened(kind) else {
        return false;
    };
    let (mut reply, _) = maker.granting(&order);
    if maker.rng.chance(30) {
        let owner = tsig(&mut reply.ask).owner.clone();
        reply.ask.questions[0].name = owner;
        tsig(&mut reply.ask).owner = pointer(12);
    }
    for _ in 0..4 {
        let mut octets = reply.octets();
        for _ in 0..maker.rng.within(1, 3) {
            let change = match change {
                "several" => *maker.rng.pick(&MUTATIONS),
                _ => change,
            };
            mutate(maker, &mut octets, change);
        }
        let good = maker.rng.chance(90);
        if maker.reply(good, &octets) == Said::Bad {
            return false;
        }
    }
    true
}

const LARGE: [&str; 6] = [
    "of 65535",
    "of 65536",
    "of 65535 that does not read",
    "of 90000",
    "cut at each length",
    "of many records",
];

fn large(maker: &mut Maker, item: &str) -> bool {
    let kind = *maker.rng.pick(&KINDS);
    let Some(order) = maker.opened(kind) else {
        return false;
    };
    let (mut reply, want) = maker.granting(&order);
    let whole = reply.octets();
    let refused = Read::Refused(4);
    match item {
        "of 90000" => maker.reads(true, &vec![0xab; 90_000], &refused),
        "of 65535" => maker.reads(true, &padded(&reply, 65_535), &want),
        "of 65536" => maker.reads(true, &padded(&reply, 65_536), &refused),
        "of 65535 that does not read" => {
            maker.reads(true, &padded(&reply, 65_536)[..65_535], &refused)
        }
        "of many records" => {
            for section in 0..3 {
                let some = vec![record(&pointer(12), wire::A, wire::IN, &[]); 400];
                reply.ask.sections[section].extend(some);
            }
            maker.reads(true, &reply.octets(), &want)
        }
        _ => {
            let cut = (0..whole.len()).all(|length| {
                let line = format!("reply good {}", maker.hex(&whole[..length]));
                maker.tell(&line) == refused.said()
            });
            cut && maker.reads(true, &whole, &want)
        }
    }
}

/// A reply with a record of no concern that brings it to this length.
fn padded(reply: &Reply, length: usize) -> Vec<u8> {
    let mut reply = reply.clone();
    let missing = length - reply.octets().len() - 11;
    let filler = record(&[0], wire::NULL, wire::IN, &vec![0xab; missing]);
    reply.ask.sections[1].push(filler);
    reply.octets()
}

const MIXTURES: [&str; 4] = ["one ID", "few IDs", "much refused", "many keys held"];

/// A reply that was made for a request of this kind and ID.
struct Made {
    kind: &'static str,
    id: u16,
    octets: Vec<u8>,
    want: Read,
}

/// Requests and replies in any order, replies also late, twice or to other requests than
/// theirs. What is open decides what each comes to.
fn mixture(maker: &mut Maker, item: &str) -> bool {
    let ids = if item == "one ID" { 1 } else { 3 };
    let mut replies: Vec<Made> = Vec::new();
    let key = maker.some_key();
    let mut fine = maker.holds(&key);
    for _ in 0..24 {
        let id = maker.rng.below(ids) as u16;
        fine = fine
            && match maker.rng.below(20) {
                0 | 1 => maker.notes(id),
                2 if item == "many keys held" => {
                    let key = maker.some_key();
                    maker.holds(&key)
                }
                2..=9 => asks(maker, item, id, &mut replies),
                _ => answers(maker, item, &replies),
            };
    }
    fine
}

/// A request, written if the keys and the room are there, and the reply to it kept for later.
fn asks(maker: &mut Maker, item: &str, id: u16, replies: &mut Vec<Made>) -> bool {
    let kind = *maker
        .rng
        .pick(&["renewal", "renewal", "adoption", "adoption", "deletion"]);
    let missing = match kind {
        "adoption" => maker.resolver.offered.is_none(),
        _ => maker.resolver.adopted.is_none(),
    };
    if maker.resolver.adopted.is_none() && maker.rng.chance(50) {
        let key = maker.some_key();
        return maker.holds(&key);
    }
    if missing {
        let wish = maker.wish();
        let front = match kind {
            "renewal" => maker.renewal_front(id, &wish, &wish.key.octets()),
            _ => format!("{kind} {id}"),
        };
        return maker.refuses(&format!("{front} 512"), 6);
    }
    let order = maker.order_with(kind, id);
    let (reply, want) = maker.granting(&order);
    replies.push(Made {
        kind: order.kind,
        id,
        octets: reply.octets(),
        want,
    });
    let room = match item == "much refused" && maker.rng.chance(50) {
        true => maker.rng.below(120),
        false => MAX_ROOM,
    };
    maker.writes(&order, room)
}

fn answers(maker: &mut Maker, item: &str, replies: &[Made]) -> bool {
    if replies.is_empty() {
        return true;
    }
    let last = replies.len() - 1;
    let made = match maker.rng.chance(60) {
        true => &replies[last],
        false => maker.rng.pick(replies),
    };
    let good = item != "much refused" || maker.rng.chance(50);
    let want = match &maker.resolver.open {
        None => Read::Refused(1),
        Some((_, id)) if *id != made.id => Read::Refused(2),
        Some(_) if !good => Read::Refused(3),
        Some((kind, _)) if kind == made.kind => made.want.clone(),
        Some(_) => Read::Closed,
    };
    maker.reads(good, &made.octets, &want)
}
