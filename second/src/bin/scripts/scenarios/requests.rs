//! The resolver's requests: their octets, room, refusals, what they replace, and the turn.

use super::{cross, list, room_for, two_words, Group, ROOMS};
use crate::maker::{Maker, Wish, MAX_ROOM};
use crate::resolver::{Key, Read};
use crate::wire::{self, joined, label, name, name_of, pointer, record};

pub fn groups() -> Vec<Group> {
    vec![
        Group {
            name: "request",
            weight: 5,
            items: || cross(&KINDS, &SHAPES),
            run: shape,
        },
        Group {
            name: "request for a renewal",
            weight: 3,
            items: || list(&WISHES),
            run: wished,
        },
        Group {
            name: "request without a key",
            weight: 5,
            items: || cross(&KINDS, &NO_KEY),
            run: no_key,
        },
        Group {
            name: "request for a renewal refused",
            weight: 3,
            items: || list(&BAD_WISHES),
            run: bad_wish,
        },
        Group {
            name: "request in room",
            weight: 4,
            items: || cross(&KINDS, &ROOMS),
            run: room,
        },
        Group {
            name: "request after",
            weight: 3,
            items: || cross(&["note", "renewal", "adoption", "deletion"], &OPEN),
            run: after,
        },
        Group {
            name: "turn",
            weight: 2,
            items: || list(&TURNS),
            run: turn,
        },
        Group {
            name: "large request",
            weight: 1,
            items: || list(&LARGE),
            run: large,
        },
    ]
}

const KINDS: [&str; 3] = ["renewal", "adoption", "deletion"];

const SHAPES: [&str; 11] = [
    "algorithm 256",
    "algorithm 384",
    "algorithm 512",
    "key named the root",
    "key with a name of 255 octets",
    "key with a name in capitals",
    "key with a label of 63 octets",
    "ID 0",
    "ID 65535",
    "key of times 0",
    "key of times 2^32 - 1",
];

/// The key is the adopted one; where there is an offered one it is of the same shape.
fn shape(maker: &mut Maker, item: &str) -> bool {
    let (kind, shape) = two_words(item);
    let mut key = maker.some_key();
    match shape {
        "algorithm 256" => key.algorithm = 256,
        "algorithm 384" => key.algorithm = 384,
        "algorithm 512" => key.algorithm = 512,
        "key named the root" => key.name = vec![0],
        "key with a name of 255 octets" => key.name = name_of(255),
        "key with a name in capitals" => key.name = name(&[b"KEY", b"Example"]),
        "key with a label of 63 octets" => key.name = name(&[&[b'k'; 63], b"x"]),
        "key of times 0" => (key.inception, key.expiration) = (0, 0),
        "key of times 2^32 - 1" => (key.inception, key.expiration) = (u32::MAX, u32::MAX),
        _ => {}
    }
    let id = match shape {
        "ID 0" => 0,
        "ID 65535" => 65_535,
        _ => maker.rng.next() as u16,
    };
    if !maker.holds(&key) || (kind == "adoption" && !offers(maker, &key)) {
        return false;
    }
    let order = maker.order_with(kind, id);
    let (reply, want) = maker.granting(&order);
    maker.writes(&order, MAX_ROOM) && maker.reads(true, &reply.octets(), &want)
}

/// Brings the resolver this offered key.
fn offers(maker: &mut Maker, key: &Key) -> bool {
    let order = maker.order("renewal");
    let (mut reply, _) = maker.granting(&order);
    reply.tkey.owner = key.name.clone();
    reply.tkey.algorithm = wire::algorithm_name(key.algorithm);
    reply.tkey.inception = key.inception;
    reply.tkey.expiration = key.expiration;
    maker.writes(&order, MAX_ROOM)
        && maker.reads(true, &reply.octets(), &Read::Offered(key.clone()))
}

const WISHES: [&str; 16] = [
    "no name",
    "the root by name",
    "a name of 255 octets",
    "a name in capitals",
    "algorithm 256",
    "algorithm 384",
    "algorithm 512",
    "times 0",
    "times 2^32 - 1",
    "expiration before inception",
    "KEY of the root",
    "KEY with an owner of 255 octets",
    "KEY without data",
    "KEY with data of 300 octets",
    "KEY of class 0 and TTL 2^32 - 1",
    "KEY whose data looks like a name",
];

fn wished(maker: &mut Maker, item: &str) -> bool {
    let offered = maker.rng.chance(30);
    if !maker.prepared(offered) {
        return false;
    }
    let mut wish = maker.wish();
    match item {
        "no name" => wish.name.clear(),
        "the root by name" => wish.name = vec![0],
        "a name of 255 octets" => wish.name = name_of(255),
        "a name in capitals" => wish.name = name(&[b"NEW", b"Key"]),
        "algorithm 256" => wish.algorithm = 256,
        "algorithm 384" => wish.algorithm = 384,
        "algorithm 512" => wish.algorithm = 512,
        "times 0" => (wish.inception, wish.expiration) = (0, 0),
        "times 2^32 - 1" => (wish.inception, wish.expiration) = (u32::MAX, u32::MAX),
        "expiration before inception" => (wish.inception, wish.expiration) = (9, 8),
        "KEY of the root" => wish.key.owner = vec![0],
        "KEY with an owner of 255 octets" => wish.key.owner = name_of(255),
        "KEY without data" => wish.key.data.clear(),
        "KEY with data of 300 octets" => wish.key.data = vec![0xab; 300],
        "KEY of class 0 and TTL 2^32 - 1" => (wish.key.class, wish.key.ttl) = (0, u32::MAX),
        _ => wish.key.data = pointer(12),
    }
    let id = maker.rng.next() as u16;
    let order = maker.renewal_order(id, &wish);
    maker.writes(&order, MAX_ROOM)
}

const NO_KEY: [&str; 12] = [
    "none left",
    "none left of two",
    "name of no octets",
    "name without its root",
    "name of one label octet",
    "name that runs over its end",
    "name with octets after its root",
    "name with a label octet 64",
    "name with a label octet 191",
    "name with a pointer",
    "name of 255 octets and no root",
    "name good, but no room",
];

/// NOKEY comes before ROOM.
fn no_key(maker: &mut Maker, item: &str) -> bool {
    let (kind, way) = two_words(item);
    let mut key = maker.some_key();
    let whole = key.name.clone();
    match way {
        "name of no octets" => key.name.clear(),
        "name without its root" => drop(key.name.pop()),
        "name of one label octet" => key.name = vec![5],
        "name that runs over its end" => key.name = joined(&[&[63], &[b'k'; 62]]),
        "name with octets after its root" => key.name.push(0),
        "name with a label octet 64" => key.name = joined(&[&[64], &[b'k'; 64], &[0]]),
        "name with a label octet 191" => key.name = joined(&[&[191], &[b'k'; 191], &[0]]),
        "name with a pointer" => key.name = joined(&[&label(b"k"), &pointer(12)]),
        "name of 255 octets and no root" => key.name = joined(&[&label(&[b'k'; 50]).repeat(5)]),
        _ => {}
    }
    let wish = maker.wish();
    let id = maker.rng.next() as u16;
    let front = match kind {
        "renewal" => maker.renewal_front(id, &wish, &wish.key.octets()),
        _ => format!("{kind} {id}"),
    };
    let room = *maker.rng.pick(&[0, 11, 512, MAX_ROOM]);
    let begun = match way {
        "none left" => maker.prepared(false) && deletes(maker),
        "none left of two" => maker.prepared(true) && deletes(maker),
        _ => maker.holds(&key),
    };
    if maker.rng.chance(50) && !maker.notes(id) {
        return false;
    }
    // With a good key only the adoption, which has no offered one, lacks a key.
    let good = key.name == whole && !way.starts_with("none");
    let number = if good && kind != "adoption" { 5 } else { 6 };
    let room = if good { 0 } else { room };
    begun && maker.refuses(&format!("{front} {room}"), number)
}

fn deletes(maker: &mut Maker) -> bool {
    let order = maker.order("deletion");
    let (reply, want) = maker.granting(&order);
    maker.writes(&order, MAX_ROOM) && maker.reads(true, &reply.octets(), &want)
}

const BAD_WISHES: [&str; 22] = [
    "name cut",
    "name with octets after its root",
    "name with a label octet 64",
    "name only a pointer",
    "name ended by a pointer",
    "name of 256 octets",
    "name of 300 octets",
    "no KEY",
    "KEY of type 24",
    "KEY of type TKEY",
    "KEY of type 25 * 256",
    "KEY with its owner a pointer",
    "KEY with its owner ended by a pointer",
    "KEY with an owner of 256 octets",
    "KEY cut in its owner",
    "KEY cut in its type",
    "KEY cut in its length",
    "KEY cut in its data",
    "KEY with a length one long",
    "KEY with a length one short",
    "KEY twice",
    "KEY and an octet",
];

fn bad_wish(maker: &mut Maker, item: &str) -> bool {
    let offered = maker.rng.chance(30);
    if !maker.prepared(offered) {
        return false;
    }
    let mut wish = maker.wish();
    wish.key.data.extend([1, 2, 3]);
    if let Some(bad) = bad_name(item) {
        wish.name = bad;
    }
    let octets = bad_key(&wish, item);
    let id = maker.rng.next() as u16;
    let front = maker.renewal_front(id, &wish, &octets);
    let room = *maker.rng.pick(&[0, 512, MAX_ROOM]);
    maker.refuses(&format!("{front} {room}"), 6)
}

fn bad_name(item: &str) -> Option<Vec<u8>> {
    Some(match item {
        "name cut" => vec![3, b'n', b'e'],
        "name with octets after its root" => vec![1, b'n', 0, 0],
        "name with a label octet 64" => joined(&[&[64], &[b'n'; 64], &[0]]),
        "name only a pointer" => pointer(12),
        "name ended by a pointer" => joined(&[&label(b"n"), &pointer(12)]),
        "name of 256 octets" => name_of(256),
        "name of 300 octets" => name_of(300),
        _ => return None,
    })
}

fn bad_key(wish: &Wish, item: &str) -> Vec<u8> {
    let whole = wish.key.octets();
    let owner = wish.key.owner.len();
    let mut key = wish.key.clone();
    match item {
        "no KEY" => return Vec::new(),
        "KEY of type 24" => key.kind = 24,
        "KEY of type TKEY" => key.kind = wire::TKEY,
        "KEY of type 25 * 256" => key.kind = 25 << 8,
        "KEY with its owner a pointer" => key.owner = pointer(12),
        "KEY with its owner ended by a pointer" => {
            key.owner = joined(&[&label(b"k"), &pointer(12)])
        }
        "KEY with an owner of 256 octets" => key.owner = name_of(256),
        "KEY cut in its owner" => return whole[..owner - 1].to_vec(),
        "KEY cut in its type" => return whole[..owner + 1].to_vec(),
        "KEY cut in its length" => return whole[..owner + 9].to_vec(),
        "KEY cut in its data" => return whole[..whole.len() - 1].to_vec(),
        "KEY with a length one long" => key.length_off = 1,
        "KEY with a length one short" => key.length_off = -1,
        "KEY twice" => return whole.repeat(2),
        "KEY and an octet" => return joined(&[&whole, &[0]]),
        _ => {}
    }
    key.octets()
}

fn room(maker: &mut Maker, item: &str) -> bool {
    let (kind, room) = two_words(item);
    if !maker.prepared(kind == "adoption") {
        return false;
    }
    let order = maker.order(kind);
    let length = order.ask.octets().len() as u64;
    maker.writes(&order, room_for(length, room))
}

const OPEN: [&str; 5] = ["none", "ordinary", "renewal", "adoption", "deletion"];

/// A new request replaces the open one, whose reply then is none's or another's.
fn after(maker: &mut Maker, item: &str) -> bool {
    let (kind, open) = two_words(item);
    if !maker.prepared(true) {
        return false;
    }
    let first = maker.rng.next() as u16;
    let opened = match open {
        "none" => true,
        "ordinary" => maker.notes(first),
        _ => {
            let order = maker.order_with(open, first);
            maker.writes(&order, MAX_ROOM)
        }
    };
    let answered = match open {
        "none" | "ordinary" => "deletion",
        _ => open,
    };
    let old = maker.order_with(answered, first);
    let (old, _) = maker.granting(&old);
    let next = first.wrapping_add(1);
    let replaced = match kind {
        "note" => maker.notes(next),
        _ => {
            let order = maker.order_with(kind, next);
            maker.writes(&order, MAX_ROOM)
        }
    };
    opened && replaced && maker.reads(true, &old.octets(), &Read::Refused(2))
}

const TURNS: [&str; 9] = [
    "five in a row",
    "refused ones between",
    "other requests between",
    "replies without a move between",
    "refused replies between",
    "a new offered key",
    "hold",
    "an adoption, then a renewal",
    "lines of the table between",
];

/// That it is the right key's turn is what `writes` looks at.
fn turn(maker: &mut Maker, item: &str) -> bool {
    if !maker.prepared(true) {
        return false;
    }
    let before = maker.rng.within(1, 2);
    let mut fine = (0..before).all(|_| adopts(maker));
    for _ in 0..4 {
        fine = fine && between(maker, item) && adopts(maker);
    }
    fine
}

fn adopts(maker: &mut Maker) -> bool {
    let order = maker.order("adoption");
    maker.writes(&order, MAX_ROOM)
}

fn between(maker: &mut Maker, item: &str) -> bool {
    let id = maker.rng.next() as u16;
    match item {
        "refused ones between" => {
            let order = maker.order("adoption");
            maker.writes(&order, 20)
        }
        "other requests between" => {
            let kind = *maker.rng.pick(&["renewal", "deletion"]);
            let order = maker.order(kind);
            maker.notes(id) && maker.writes(&order, MAX_ROOM)
        }
        "replies without a move between" => {
            let order = maker.order("adoption");
            let (mut reply, _) = maker.granting(&order);
            reply.ask.flags |= 9;
            maker.writes(&order, MAX_ROOM) && maker.reads(true, &reply.octets(), &Read::Closed)
        }
        "refused replies between" => {
            let order = maker.order("adoption");
            let (reply, _) = maker.granting(&order);
            let written = maker.writes(&order, MAX_ROOM);
            written && maker.reads(false, &reply.octets(), &Read::Refused(3))
        }
        "a new offered key" => {
            let key = maker.some_key();
            offers(maker, &key)
        }
        "hold" => maker.prepared(true),
        "an adoption, then a renewal" => {
            let order = maker.order("adoption");
            let (reply, want) = maker.granting(&order);
            let key = maker.some_key();
            maker.writes(&order, MAX_ROOM)
                && maker.reads(true, &reply.octets(), &want)
                && offers(maker, &key)
        }
        "lines of the table between" => {
            let s = maker.live();
            maker.grant(&s);
            maker.line(b"list").listed
        }
        _ => true,
    }
}

const LARGE: [&str; 4] = [
    "of 65535 in room of 65535",
    "of 65535 in room of 2^64 - 1",
    "of 65535 in room of 65534",
    "of 65536 in room of 2^64 - 1",
];

/// The KEY record takes all the octets there are.
fn large(maker: &mut Maker, item: &str) -> bool {
    if !maker.prepared(false) {
        return false;
    }
    let mut wish = maker.wish();
    wish.key = record(&wish.key.owner, wire::KEY, wire::IN, &[]);
    let id = maker.rng.next() as u16;
    let length = maker.renewal_order(id, &wish).ask.octets().len();
    let size = if item.contains("of 65536") {
        65_536
    } else {
        65_535
    };
    wish.key.data = vec![0xab; size - length];
    let order = maker.renewal_order(id, &wish);
    let room = match item {
        _ if item.ends_with("65535") => MAX_ROOM,
        _ if item.ends_with("65534") => MAX_ROOM - 1,
        _ => u64::MAX,
    };
    maker.writes(&order, room)
}
