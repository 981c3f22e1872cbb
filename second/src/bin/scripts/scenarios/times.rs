//! Every boundary of time, at one below, at it, and one above.

use super::{cross, list, two_words, Group};
use crate::desk::{Outcome, Want};
use crate::maker::{tkey, tsig, Maker, Signer, TOP};
use crate::wire::{self, Ask};

pub fn groups() -> Vec<Group> {
    vec![
        Group {
            name: "clock",
            weight: 30,
            items: || cross(&["enrol", "issue", "revoke", "message"], &["-1", "0", "+1"]),
            run: clock,
        },
        Group {
            name: "2^48 - 2^31",
            weight: 3,
            items: || cross(&["new", "enrol", "issue", "revoke", "message"], &TOPS),
            run: top,
        },
        Group {
            name: "life",
            weight: 90,
            items: || cross(&EDGES, &KINDS),
            run: life,
        },
        Group {
            name: "fudge",
            weight: 60,
            items: || cross(&FUDGES, &DISTANCES),
            run: fudge,
        },
        Group {
            name: "time signed",
            weight: 2,
            items: || list(&SIGNED),
            run: time_signed,
        },
        Group {
            name: "requested times",
            weight: 60,
            items: || cross(&APART, &PLACED),
            run: requested,
        },
    ]
}

/// A call of this kind that nothing but its time can refuse with 2 or 3.
fn timed_call(maker: &mut Maker, call: &str, time: u64) -> Outcome {
    match call {
        "new" => maker.new_table(time),
        "enrol" => {
            let suffix = maker.fresh_suffix(5);
            maker.enrol(time, &suffix, (600, 400), 256)
        }
        "issue" => {
            let pair = maker.any_pair();
            maker.issue(time, pair, 384)
        }
        "revoke" => {
            let pair = maker.any_pair();
            maker.revoke(time, pair)
        }
        _ => {
            let s = held_key(maker).at(time);
            let ask = maker.ordinary(&s);
            let call = maker.call(time);
            maker.send(&call, &ask.octets())
        }
    }
}

/// Any adopted key, in force or not.
fn held_key(maker: &mut Maker) -> Signer {
    match maker.some_pair(|p| p.adopted.is_some()) {
        Some(pair) => maker.signer(pair, maker.table.clock),
        None => {
            let pair = maker.any_pair();
            maker.issued(pair)
        }
    }
}

fn clock(maker: &mut Maker, item: &str) -> bool {
    let (call, off) = two_words(item);
    // Made now, since making it later would move the clock.
    held_key(maker);
    let clock = maker.clock_above_zero();
    let time = match off {
        "-1" => clock - 1,
        "0" => clock,
        _ => clock + 1,
    };
    let seen = timed_call(maker, call, time);
    (seen.number == 3) == (off == "-1") && seen.number != 2
}

const TOPS: [&str; 5] = ["-1", "0", "+1", "2^48", "2^64 - 1"];

fn top(maker: &mut Maker, item: &str) -> bool {
    let (call, off) = two_words(item);
    let time = match off {
        "-1" => return at_the_top(maker, call),
        "0" => TOP,
        "+1" => TOP + 1,
        "2^48" => 1 << 48,
        _ => u64::MAX,
    };
    Want::Refused(2).fits(&timed_call(maker, call, time))
}

/// The latest time there is; the table ends with it.
fn at_the_top(maker: &mut Maker, call: &str) -> bool {
    let time = TOP - 1;
    maker.with_space();
    let seen = match call {
        "message" => {
            let pair = maker.any_pair();
            maker.issue(time, pair, 256);
            let s = maker.signer(pair, time);
            let renewal = maker.renewal(&s);
            let call = maker.call_for(&renewal, time);
            if !maker.asks(&call, &renewal, Want::Tkey(0)) {
                return false;
            }
            let ask = maker.ordinary(&s);
            maker.send(&call, &ask.octets())
        }
        _ => timed_call(maker, call, time),
    };
    seen.number != 2 && seen.number != 3 && maker.table.clock == time
}

const EDGES: [&str; 9] = [
    "inception -1",
    "inception 0",
    "inception +1",
    "partial -1",
    "partial 0",
    "partial +1",
    "expiry -1",
    "expiry 0",
    "expiry +1",
];

const KINDS: [&str; 9] = [
    "ordinary",
    "renewal 4097",
    "renewal 4098",
    "renewal 4099",
    "re-adoption",
    "adoption",
    "deletion",
    "unsupported mode",
    "revoke",
];

/// Where in the key's life the call falls.
#[derive(Clone, Copy, PartialEq)]
enum Stage {
    Before,
    Fresh,
    Revoked,
    Expired,
}

fn stage(edge: &str, kind: &str) -> Stage {
    match edge {
        "inception -1" => Stage::Before,
        // The renewal that makes the waiting key ends the fresh time.
        "inception 0" | "inception +1" | "partial -1" if kind == "adoption" => Stage::Revoked,
        "inception 0" | "inception +1" | "partial -1" => Stage::Fresh,
        "expiry 0" | "expiry +1" => Stage::Expired,
        _ => Stage::Revoked,
    }
}

fn edge_time(maker: &Maker, pair: u64, edge: &str) -> u64 {
    let key = maker.pair(pair).adopted.clone().expect("a key just made");
    let (which, off) = edge.split_once(' ').expect("edge and offset");
    let at = match which {
        "inception" => key.inception,
        "partial" => key.partial,
        _ => key.expiry,
    };
    match off {
        "-1" => at - 1,
        "0" => at,
        _ => at + 1,
    }
}

/// Mostly a pair with short terms: others make the clock leap.
fn pair_for_life(maker: &mut Maker) -> u64 {
    if maker.rng.chance(3) {
        maker.time_for(1 << 32);
        let long = maker.some_pair(|p| p.fresh >= 2 && p.life - p.fresh >= 2);
        if let Some(pair) = long {
            return pair;
        }
    }
    maker.time_for(10_000);
    maker.short_pair()
}

fn life(maker: &mut Maker, item: &str) -> bool {
    let (edge, kind) = two_words(item);
    let pair = pair_for_life(maker);
    maker.clock_above_zero();
    let made = maker.renewed(pair);
    let time = edge_time(maker, pair, edge);
    if kind == "adoption" {
        maker.grant(&made);
    }
    let s = made.at(time);
    let stage = stage(edge, kind);
    if kind == "revoke" {
        return revoke_at(maker, &s, stage);
    }
    let ask = ask_of(maker, &s, kind);
    let call = maker.call_for(&ask, time);
    maker.asks(&call, &ask, want_at(stage, kind))
}

fn ask_of(maker: &mut Maker, s: &Signer, kind: &str) -> Ask {
    match kind {
        "ordinary" => maker.ordinary(s),
        "renewal 4097" => maker.renewal_of(s, wire::DIFFIE_HELLMAN),
        "renewal 4098" => maker.renewal_of(s, wire::BY_SERVER),
        "renewal 4099" => maker.renewal_of(s, wire::BY_RESOLVER),
        "re-adoption" => maker.adoption(s, &s.name(), s.algorithm),
        "adoption" => {
            let key = maker.pair(s.pair).waiting.clone();
            let (serial, algorithm) = key.map_or((0, 256), |k| (k.serial, k.algorithm));
            maker.adoption(s, &wire::key_name(serial, &s.suffix), algorithm)
        }
        "deletion" => maker.deletion(s, &s.name()),
        _ => maker.request(s, 3, &s.name()),
    }
}

fn want_at(stage: Stage, kind: &str) -> Want {
    match (stage, kind) {
        (Stage::Before, _) => Want::Refused(3),
        (Stage::Expired, _) => Want::BadKey,
        (_, "re-adoption" | "adoption") => Want::Tkey(0),
        _ if kind.starts_with("renewal") => Want::Tkey(0),
        (Stage::Revoked, _) => Want::Partial,
        (Stage::Fresh, "ordinary") => Want::Passed(0),
        (Stage::Fresh, "deletion") => Want::Tkey(0),
        (Stage::Fresh, _) => Want::Tkey(19),
    }
}

fn revoke_at(maker: &mut Maker, s: &Signer, stage: Stage) -> bool {
    let before = maker.pair(s.pair).adopted.clone().expect("a key just made");
    let seen = maker.revoke(s.time, s.pair);
    let after = maker
        .pair(s.pair)
        .adopted
        .clone()
        .expect("revoking keeps it");
    match stage {
        Stage::Before => Want::Refused(3).fits(&seen),
        Stage::Expired => Want::Refused(10).fits(&seen),
        _ => {
            seen.number == 0
                && seen.pair == s.pair
                && seen.serial == s.serial
                && after.partial == before.partial.min(s.time)
        }
    }
}

const FUDGES: [&str; 6] = ["0", "1", "2", "300", "65534", "65535"];
const DISTANCES: [&str; 7] = ["-f - 1", "-f", "-f + 1", "none", "f - 1", "f", "f + 1"];

fn fudge(maker: &mut Maker, item: &str) -> bool {
    let (fudge, distance) = two_words(item);
    let fudge: i64 = fudge.parse().expect("a fudge");
    if maker.table.clock < 70_000 {
        maker.revoke(70_000, 0);
    }
    let skew = match distance {
        "-f - 1" => -fudge - 1,
        "-f" => -fudge,
        "-f + 1" => -fudge + 1,
        "none" => 0,
        "f - 1" => fudge - 1,
        "f" => fudge,
        _ => fudge + 1,
    };
    let s = maker.live();
    let mut ask = maker.ordinary(&s);
    tsig(&mut ask).fudge = fudge as u16;
    tsig(&mut ask).signed = s.time.wrapping_add_signed(skew);
    let call = maker.call(s.time);
    let want = match skew.abs() <= fudge {
        true => Want::Passed(skew),
        false => Want::BadTime,
    };
    maker.asks(&call, &ask, want)
}

const SIGNED: [&str; 13] = [
    "0 at 0",
    "1 at 0",
    "0 at 1",
    "0 at 65535",
    "0 at 65536",
    "65535 at 0",
    "65536 at 0",
    "2^48 - 1 at 0",
    "2^48 - 1 at the top",
    "0 at the top",
    "fudge above the top",
    "fudge below the top",
    "one over fudge above the top",
];

/// On a table of its own, since the clock must be at one end.
fn time_signed(maker: &mut Maker, item: &str) -> bool {
    let last = (1 << 48) - 1;
    let top = TOP - 1;
    let (time, signed) = match item {
        "0 at 0" => (0, 0),
        "1 at 0" => (0, 1),
        "0 at 1" => (1, 0),
        "0 at 65535" => (65_535, 0),
        "0 at 65536" => (65_536, 0),
        "65535 at 0" => (0, 65_535),
        "65536 at 0" => (0, 65_536),
        "2^48 - 1 at 0" => (0, last),
        "2^48 - 1 at the top" => (top, last),
        "0 at the top" => (top, 0),
        "fudge above the top" => (top, top + 65_535),
        "fudge below the top" => (top, top - 65_535),
        _ => (top, top + 65_536),
    };
    maker.new_table(time);
    let suffix = maker.fresh_suffix(4);
    maker.enrol(time, &suffix, (600, 400), 512);
    let s = maker.signer(1, time);
    let mut ask = maker.ordinary(&s);
    tsig(&mut ask).fudge = 65_535;
    tsig(&mut ask).signed = signed;
    let call = maker.call(time);
    let skew = signed as i64 - time as i64;
    let want = match skew.abs() <= 65_535 {
        true => Want::Passed(skew),
        false => Want::BadTime,
    };
    let as_wanted = maker.asks(&call, &ask, want);
    maker.era();
    as_wanted
}

/// From inception forward to expiration; 1296 and 3000000000 are 02's own.
const APART: [&str; 8] = [
    "0",
    "1",
    "1296",
    "2^31 - 1",
    "2^31",
    "2^31 + 1",
    "3000000000",
    "2^32 - 1",
];

/// The first two do not cross the wrap, the next two cross it unless they are 0 apart.
const PLACED: [&str; 5] = [
    "from 0",
    "to 2^32 - 1",
    "to 0",
    "from 2^32 - 1",
    "from 4294967000",
];

/// 02 CR 5.
fn requested(maker: &mut Maker, item: &str) -> bool {
    let (apart, placed) = two_words(item);
    let (distance, error): (u32, u16) = match apart {
        "0" => (0, 18),
        "1" => (1, 0),
        "1296" => (1296, 0),
        "2^31 - 1" => (0x7fff_ffff, 0),
        "2^31" => (0x8000_0000, 18),
        "2^31 + 1" => (0x8000_0001, 18),
        "3000000000" => (3_000_000_000, 18),
        _ => (u32::MAX, 18),
    };
    let inception = match placed {
        "from 0" => 0,
        "to 2^32 - 1" => u32::MAX - distance,
        "to 0" => 0u32.wrapping_sub(distance),
        "from 2^32 - 1" => u32::MAX,
        _ => 4_294_967_000,
    };
    let s = maker.live();
    let mut ask = maker.renewal(&s);
    tkey(&mut ask).inception = inception;
    tkey(&mut ask).expiration = inception.wrapping_add(distance);
    let call = maker.call_for(&ask, s.time);
    maker.asks(&call, &ask, Want::Tkey(error))
}
