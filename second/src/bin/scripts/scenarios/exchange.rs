//! Both halves: the resolver writes, the desk answers, the resolver reads. The TSIGs stand for
//! the caller's work; what is lost on the way is simply not handed on.

use super::{cross, list, two_words, Group};
use crate::desk::Want;
use crate::maker::{lower, tkey, Call, Maker, Order, Signer, MAX_ROOM};
use crate::resolver::{Key, Read};
use crate::wire::{self, algorithm_name, key_name, Ask, Tsig};

pub fn groups() -> Vec<Group> {
    vec![
        Group {
            name: "exchange",
            weight: 6,
            items: || cross(&KINDS, &WAYS),
            run: exchange,
        },
        Group {
            name: "exchange of an ordinary message",
            weight: 2,
            items: || list(&ORDINARY),
            run: ordinary,
        },
        Group {
            name: "exchange with TKEY error",
            weight: 2,
            items: || list(&ERRORS),
            run: tkey_error,
        },
        Group {
            name: "exchange again",
            weight: 2,
            items: || list(&AGAIN),
            run: again,
        },
        Group {
            name: "exchange after exchange",
            weight: 2,
            items: || list(&RUNS),
            run: exchanges,
        },
    ]
}

/// The resolver holds the adopted key of an enrolled office.
fn begin(maker: &mut Maker) -> Option<Signer> {
    let s = maker.live();
    let mut key = maker.key_of(&s);
    if maker.rng.chance(20) {
        key.name = maker.rng.mixed_case(&key.name);
    }
    maker.holds(&key).then_some(s)
}

/// And has an offered key, which the desk keeps waiting.
fn begin_offered(maker: &mut Maker) -> Option<Signer> {
    let s = begin(maker)?;
    does(maker, &s, "renewal").then_some(s)
}

fn begin_for(maker: &mut Maker, kind: &str) -> Option<Signer> {
    match kind {
        "adoption" => begin_offered(maker),
        _ => begin(maker),
    }
}

fn signed(ask: &Ask, tsig: Tsig) -> Ask {
    Ask {
        tsig: Some(tsig),
        ..ask.clone()
    }
}

/// Hands a message to the desk and gives its reply, if that is the one that the papers ask for.
fn deliver(maker: &mut Maker, call: &Call, ask: &Ask, want: Want) -> Option<(Vec<u8>, u16)> {
    let reply = maker.due_reply(call, ask, want);
    let seen = maker.send(call, &ask.octets());
    (want.fits(&seen) && seen.reply == reply).then_some((reply, seen.error as u16))
}

/// Appends a TSIG with this error to a reply.
fn sign(maker: &mut Maker, reply: &[u8], key: &Key, time: u64, error: u16) -> Vec<u8> {
    let mut tsig = maker.tsig_by(key, time);
    tsig.error = error;
    tsig.put_on(reply)
}

/// What the desk's granting comes to at the resolver: an offered key is the waiting one.
fn granted(maker: &Maker, s: &Signer, kind: &str) -> Read {
    match kind {
        "renewal" => {
            let pair = maker.pair(s.pair);
            let waiting = pair.waiting.as_ref().expect("a waiting key");
            Read::Offered(Key {
                name: key_name(waiting.serial, &pair.suffix),
                algorithm: waiting.algorithm,
                inception: waiting.inception as u32,
                expiration: waiting.expiry as u32,
            })
        }
        "adoption" => Read::Adopted,
        _ => Read::Deleted,
    }
}

/// Signs a written request and hands it to the desk; the reply comes back signed.
fn answered(
    maker: &mut Maker,
    s: &Signer,
    order: &Order,
    key: &Key,
    want: Want,
) -> Option<Vec<u8>> {
    let tsig = maker.tsig_by(key, s.time);
    let call = maker.call(s.time);
    let (reply, error) = deliver(maker, &call, &signed(&order.ask, tsig), want)?;
    Some(sign(maker, &reply, key, s.time, error))
}

/// One whole exchange without an error.
fn does(maker: &mut Maker, s: &Signer, kind: &str) -> bool {
    let order = maker.order(kind);
    let key = maker.signing_key(&order);
    if !maker.writes(&order, MAX_ROOM) {
        return false;
    }
    let Some(reply) = answered(maker, s, &order, &key, Want::Tkey(0)) else {
        return false;
    };
    let want = granted(maker, s, kind);
    maker.reads(true, &reply, &want)
}

/// Both have the same adopted key by name and algorithm, or none.
fn agree(maker: &Maker, s: &Signer) -> bool {
    let pair = maker.pair(s.pair);
    let ours = pair.adopted.as_ref();
    let ours = ours.map(|k| (lower(&key_name(k.serial, &pair.suffix)), k.algorithm));
    let theirs = maker.resolver.adopted.as_ref();
    ours == theirs.map(|k| (lower(&k.name), k.algorithm))
}

const KINDS: [&str; 3] = ["renewal", "adoption", "deletion"];

const WAYS: [&str; 15] = [
    "granted",
    "signed with its key partly revoked",
    "BADSIG",
    "BADTIME",
    "BADKEY",
    "unsigned",
    "TSIG of class 1",
    "MAC of no octets",
    "no room at the desk",
    "request lost",
    "reply lost",
    "reply twice",
    "verdict bad, then good",
    "reply cut, then whole",
    "key issued meanwhile",
];

fn exchange(maker: &mut Maker, item: &str) -> bool {
    let (kind, way) = two_words(item);
    let Some(s) = begin_for(maker, kind) else {
        return false;
    };
    let order = maker.order(kind);
    let key = maker.signing_key(&order);
    if !maker.writes(&order, MAX_ROOM) {
        return false;
    }
    let mut tsig = maker.tsig_by(&key, s.time);
    let mut call = maker.call(s.time);
    let mut want = Want::Tkey(0);
    match way {
        "signed with its key partly revoked" => {
            maker.revoke(s.time, s.pair);
            if kind == "deletion" {
                want = Want::Partial;
            }
        }
        "BADSIG" => {
            call.good = false;
            want = Want::BadSig;
        }
        "BADTIME" => {
            tsig.signed = s.time + 301;
            want = Want::BadTime;
        }
        "BADKEY" => {
            tsig.owner = key_name(0, &s.suffix);
            want = Want::BadKey;
        }
        "TSIG of class 1" => {
            tsig.class = wire::IN;
            want = Want::Ill;
        }
        "MAC of no octets" => {
            tsig.mac.clear();
            want = Want::Bad;
        }
        "no room at the desk" => {
            call.room = 11;
            want = Want::Refused(8);
        }
        "key issued meanwhile" => {
            maker.issue(s.time, s.pair, s.algorithm);
            want = Want::BadKey;
        }
        "unsigned" => want = Want::Refuse,
        _ => {}
    }
    let mut ask = signed(&order.ask, tsig);
    if way == "unsigned" {
        ask.tsig = None;
    }
    if way == "request lost" {
        // The next request takes its place.
        return maker.notes(order.id) && does_after_loss(maker, &s, kind);
    }
    let Some((reply, error)) = deliver(maker, &call, &ask, want) else {
        return false;
    };
    if want == Want::Refused(8) {
        let still = maker.resolver.open == Some((kind.to_string(), order.id));
        return still && agree(maker, &s);
    }
    if way == "unsigned" {
        return maker.reads(true, &reply, &Read::Refused(3)) && agree(maker, &s);
    }
    let back = sign(maker, &reply, &key, s.time, error);
    let read = match want {
        Want::Tkey(0) => granted(maker, &s, kind),
        Want::Partial => Read::Due,
        _ => Read::Closed,
    };
    let on_the_way = match way {
        "reply lost" => return maker.resolver.open.is_some(),
        "verdict bad, then good" => maker.reads(false, &back, &Read::Refused(3)),
        "reply cut, then whole" => maker.reads(true, &back[..back.len() - 1], &Read::Refused(4)),
        _ => true,
    };
    on_the_way
        && maker.reads(true, &back, &read)
        && (way != "reply twice" || maker.reads(true, &back, &Read::Refused(1)))
        && agree(maker, &s) == (way != "key issued meanwhile")
}

/// A lost adoption was the old key's turn; the next is the offered key's, which the desk does
/// not know yet, and the next the old key's again.
fn does_after_loss(maker: &mut Maker, s: &Signer, kind: &str) -> bool {
    if kind == "adoption" && !answered_badkey(maker, s) {
        return false;
    }
    does(maker, s, kind) && agree(maker, s)
}

/// An adoption signed with a key that the desk does not take.
fn answered_badkey(maker: &mut Maker, s: &Signer) -> bool {
    let order = maker.order("adoption");
    let key = maker.signing_key(&order);
    if !maker.writes(&order, MAX_ROOM) {
        return false;
    }
    match answered(maker, s, &order, &key, Want::BadKey) {
        Some(reply) => maker.reads(true, &reply, &Read::Closed),
        None => false,
    }
}

const ORDINARY: [&str; 7] = [
    "passed up",
    "PartialRevoke",
    "PartialRevoke with an offered key",
    "BADSIG",
    "BADTIME",
    "BADKEY",
    "RCODE 1",
];

/// A message passed up is answered by the name server itself.
fn ordinary(maker: &mut Maker, item: &str) -> bool {
    let begun = match item {
        "PartialRevoke with an offered key" => begin_offered(maker),
        _ => begin(maker),
    };
    let Some(s) = begun else {
        return false;
    };
    let key = maker.adopted_key().clone();
    let mut ask = maker.unsigned(&s);
    let mut tsig = maker.tsig_by(&key, s.time);
    let mut call = maker.call(s.time);
    let want = match item {
        "passed up" => Want::Passed(0),
        "BADSIG" => {
            call.good = false;
            Want::BadSig
        }
        "BADTIME" => {
            tsig.signed = s.time + 301;
            Want::BadTime
        }
        "BADKEY" => {
            tsig.algorithm = algorithm_name(super::tsigs::other_than(s.algorithm));
            Want::BadKey
        }
        "RCODE 1" => {
            tsig.mac.clear();
            Want::Bad
        }
        _ => {
            maker.revoke(s.time, s.pair);
            Want::Partial
        }
    };
    ask.tsig = Some(tsig);
    if !maker.notes(ask.id) {
        return false;
    }
    let Some((reply, error)) = deliver(maker, &call, &ask, want) else {
        return false;
    };
    let reply = match want {
        Want::Passed(_) => ask.plain_reply(0),
        _ => reply,
    };
    let read = match want {
        Want::Partial => Read::Due,
        _ => Read::Closed,
    };
    let back = sign(maker, &reply, &key, s.time, error);
    maker.reads(true, &back, &read) && agree(maker, &s)
}

const ERRORS: [&str; 13] = [
    "1 of a renewal, its KEY lost",
    "1 of a renewal, its KEY doubled",
    "2 of a renewal, no offer",
    "17 of a renewal",
    "17 of an adoption",
    "18 of a renewal",
    "18 of a renewal, times alike",
    "19 of a renewal",
    "19 of a deletion",
    "20 of an adoption, the waiting key replaced",
    "20 of an adoption, another algorithm",
    "20 of a deletion",
    "21 of a renewal",
];

/// The request is bent on its way, where no resolver writes it so. The answer repeats it.
fn tkey_error(maker: &mut Maker, item: &str) -> bool {
    let kind = match item {
        _ if item.contains("renewal") => "renewal",
        _ if item.contains("adoption") => "adoption",
        _ => "deletion",
    };
    let Some(s) = begin_for(maker, kind) else {
        return false;
    };
    let mut order = maker.order(kind);
    if item.starts_with("18") {
        let mut wish = maker.wish();
        let later = u32::from(!item.ends_with("alike"));
        wish.inception = wish.expiration.wrapping_add(later);
        order = maker.renewal_order(order.id, &wish);
    }
    let key = maker.signing_key(&order);
    if !maker.writes(&order, MAX_ROOM) {
        return false;
    }
    if item.ends_with("replaced") {
        maker.grant(&s);
    }
    let mut call = maker.call(s.time);
    let mut ask = signed(&order.ask, maker.tsig_by(&key, s.time));
    match item {
        _ if item.ends_with("lost") => ask.keys.clear(),
        _ if item.ends_with("doubled") => ask.keys.push(ask.keys[0].clone()),
        "2 of a renewal, no offer" => call.offer.clear(),
        _ if item.starts_with("17") => tkey(&mut ask).other = [0, 0].to_vec(),
        _ if item.starts_with("19") => tkey(&mut ask).mode = 2,
        "20 of an adoption, another algorithm" => {
            let other = algorithm_name(super::tsigs::other_than(other_algorithm(maker)));
            tkey(&mut ask).algorithm = other;
        }
        "20 of a deletion" => tkey(&mut ask).owner = vec![0],
        "21 of a renewal" => tkey(&mut ask).algorithm = wire::name(&[b"hmac-sha1"]),
        _ => {}
    }
    let error = item.split(' ').next().and_then(|word| word.parse().ok());
    let want = Want::Tkey(error.expect("an error"));
    let Some((reply, tsig_error)) = deliver(maker, &call, &ask, want) else {
        return false;
    };
    let back = sign(maker, &reply, &key, s.time, tsig_error);
    maker.reads(true, &back, &Read::Closed) && agree(maker, &s)
}

fn other_algorithm(maker: &Maker) -> u64 {
    maker.resolver.offered.as_ref().map_or(256, |k| k.algorithm)
}

const AGAIN: [&str; 7] = [
    "first reply lost",
    "first request lost",
    "first and second request lost",
    "first and second reply lost",
    "first three replies lost",
    "first reply does not verify",
    "first reply lost, then a renewal",
];

/// An adoption that is sent again in turn, until both have the new key.
fn again(maker: &mut Maker, item: &str) -> bool {
    let Some(s) = begin_offered(maker) else {
        return false;
    };
    let lost = match item {
        "first reply lost" => loses(maker, &s, Want::Tkey(0)),
        "first request lost" => drops(maker) && answered_badkey(maker, &s),
        "first and second request lost" => drops(maker) && drops(maker),
        "first and second reply lost" => {
            loses(maker, &s, Want::Tkey(0))
                && loses(maker, &s, Want::Tkey(0))
                && answered_badkey(maker, &s)
        }
        "first three replies lost" => {
            loses(maker, &s, Want::Tkey(0))
                && loses(maker, &s, Want::Tkey(0))
                && loses(maker, &s, Want::BadKey)
        }
        "first reply does not verify" => {
            let order = maker.order("adoption");
            let key = maker.signing_key(&order);
            let written = maker.writes(&order, MAX_ROOM);
            let reply = answered(maker, &s, &order, &key, Want::Tkey(0)).unwrap_or_default();
            written && maker.reads(false, &reply, &Read::Refused(3))
        }
        _ => return renewed_after_loss(maker, &s),
    };
    lost && does(maker, &s, "adoption") && agree(maker, &s)
}

/// Writes an adoption that no desk sees.
fn drops(maker: &mut Maker) -> bool {
    let order = maker.order("adoption");
    maker.writes(&order, MAX_ROOM)
}

/// Writes an adoption that the desk answers so, and the answer is lost.
fn loses(maker: &mut Maker, s: &Signer, want: Want) -> bool {
    let order = maker.order("adoption");
    let key = maker.signing_key(&order);
    maker.writes(&order, MAX_ROOM) && answered(maker, s, &order, &key, want).is_some()
}

/// The old key is gone, so the renewal that it signs is not known to the desk.
fn renewed_after_loss(maker: &mut Maker, s: &Signer) -> bool {
    if !loses(maker, s, Want::Tkey(0)) {
        return false;
    }
    let order = maker.order("renewal");
    let key = maker.signing_key(&order);
    let written = maker.writes(&order, MAX_ROOM);
    let reply = answered(maker, s, &order, &key, Want::BadKey).unwrap_or_default();
    written && maker.reads(true, &reply, &Read::Closed) && does(maker, s, "adoption")
}

const RUNS: [&str; 6] = [
    "renewal and adoption",
    "renewal, renewal and adoption",
    "renewal and adoption, twice",
    "renewal, adoption and deletion",
    "renewal, deletion, renewal",
    "re-adoption",
];

/// Each request and its reply delivered once before the next: both have the same adopted key
/// after each.
fn exchanges(maker: &mut Maker, item: &str) -> bool {
    let Some(s) = begin(maker) else {
        return false;
    };
    let kinds: &[&str] = match item {
        "renewal and adoption" => &["renewal", "adoption"],
        "renewal, renewal and adoption" => &["renewal", "renewal", "adoption"],
        "renewal and adoption, twice" => &["renewal", "adoption", "renewal", "adoption"],
        "renewal, adoption and deletion" => &["renewal", "adoption", "deletion"],
        "renewal, deletion, renewal" => return run_with_deletion(maker, &s),
        _ => {
            // The desk has adopted already, by an adoption of which the resolver knows nothing.
            let adopted = does(maker, &s, "renewal");
            maker.adopt_waiting(&s);
            let first = answered_badkey(maker, &s);
            return adopted && first && does(maker, &s, "adoption") && agree(maker, &s);
        }
    };
    kinds
        .iter()
        .all(|kind| does(maker, &s, kind) && agree(maker, &s))
}

/// The renewal ends the key's fresh time, so that the deletion gets PartialRevoke; both keys
/// stay, and the next renewal replaces the offered one.
fn run_with_deletion(maker: &mut Maker, s: &Signer) -> bool {
    if !does(maker, s, "renewal") {
        return false;
    }
    let order = maker.order("deletion");
    let key = maker.signing_key(&order);
    let written = maker.writes(&order, MAX_ROOM);
    let reply = answered(maker, s, &order, &key, Want::Partial).unwrap_or_default();
    written && maker.reads(true, &reply, &Read::Due) && agree(maker, s) && does(maker, s, "renewal")
}
