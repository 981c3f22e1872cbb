//! The lent reply buffer: just enough, one short, none, and more than any reply needs.

use super::{cross, room_for, two_words, Group, ROOMS};
use crate::desk::Want;
use crate::maker::{tsig, Maker, Signer};
use crate::wire::{self, key_name, Ask};

pub fn groups() -> Vec<Group> {
    vec![Group {
        name: "room",
        weight: 60,
        items: || cross(&KINDS, &ROOMS),
        run: room,
    }]
}

pub const KINDS: [&str; 13] = [
    "ill formed TSIG",
    "unsigned TKEY request",
    "BADKEY",
    "BADSIG",
    "PartialRevoke",
    "TKEY error",
    "renewal 4097",
    "renewal 4098",
    "renewal 4099",
    "adoption",
    "re-adoption",
    "deletion",
    "passed up",
];

/// A message of this kind and what comes of it, where the verdict is bad for BADSIG alone.
pub fn ask_for(maker: &mut Maker, kind: &str) -> (Signer, Ask, Want) {
    let s = match kind {
        "adoption" => maker.with_waiting(),
        "PartialRevoke" => maker.revoked(),
        _ => maker.live(),
    };
    let mut ask = match kind {
        "TKEY error" | "unsigned TKEY request" => maker.request(&s, 2, &s.name()),
        "renewal 4097" => maker.renewal_of(&s, wire::DIFFIE_HELLMAN),
        "renewal 4098" => maker.renewal_of(&s, wire::BY_SERVER),
        "renewal 4099" => maker.renewal_of(&s, wire::BY_RESOLVER),
        "adoption" => {
            let key = maker.pair(s.pair).waiting.clone();
            let (serial, algorithm) = key.map_or((0, 256), |k| (k.serial, k.algorithm));
            maker.adoption(&s, &key_name(serial, &s.suffix), algorithm)
        }
        "re-adoption" => maker.adoption(&s, &s.name(), s.algorithm),
        "deletion" => maker.deletion(&s, &s.name()),
        _ => maker.ordinary(&s),
    };
    let want = match kind {
        "ill formed TSIG" => {
            tsig(&mut ask).ttl = 1;
            Want::Ill
        }
        "unsigned TKEY request" => {
            ask.tsig = None;
            Want::Refuse
        }
        "BADKEY" => {
            tsig(&mut ask).owner = vec![0];
            Want::BadKey
        }
        "BADSIG" => Want::BadSig,
        "PartialRevoke" => Want::Partial,
        "TKEY error" => Want::Tkey(19),
        "passed up" => Want::Passed(0),
        _ => Want::Tkey(0),
    };
    (s, ask, want)
}

fn room(maker: &mut Maker, item: &str) -> bool {
    let (kind, room) = two_words(item);
    let (s, ask, want) = ask_for(maker, kind);
    let mut call = maker.call_for(&ask, s.time);
    call.good = kind != "BADSIG";
    let length = maker.due_reply(&call, &ask, want).len() as u64;
    call.room = room_for(length, room);
    let want = match call.room < length {
        true => Want::Refused(8),
        false => want,
    };
    maker.asks(&call, &ask, want)
}
