//! Suffixes, near twins, the full table, new tables, and whole life stories of keys.

use super::{list, Group};
use crate::desk::{Outcome, Want};
use crate::maker::{Maker, Signer, TOP};
use crate::wire::{self, joined, label, name, name_of};

pub fn groups() -> Vec<Group> {
    vec![
        Group {
            name: "suffix",
            weight: 35,
            items: || list(&SUFFIXES),
            run: suffix,
        },
        Group {
            name: "near suffixes",
            weight: 12,
            items: || list(&NEAR),
            run: near,
        },
        Group {
            name: "full table",
            weight: 2,
            items: || list(&FULL),
            run: full,
        },
        Group {
            name: "new",
            weight: 2,
            items: || list(&NEW),
            run: new,
        },
        Group {
            name: "serial",
            weight: 1,
            items: || list(&["9 to 10", "99 to 100"]),
            run: serial,
        },
        Group {
            name: "story",
            weight: 60,
            items: || list(&STORIES),
            run: story,
        },
    ]
}

/// An enrolment ends so; a key that it makes has the floor's serial.
fn numbered(maker: &Maker, seen: &Outcome, number: u64) -> bool {
    match number {
        0 => seen.is_call() && seen.number == 0 && seen.serial == maker.table.floor,
        _ => Want::Refused(number).fits(seen),
    }
}

const SUFFIXES: [&str; 26] = [
    "none",
    "root",
    "2 octets",
    "2 octets, both 0",
    "3 octets",
    "127 octets",
    "128 octets",
    "129 octets",
    "255 octets",
    "256 octets",
    "700 octets",
    "compressed",
    "only a pointer",
    "missing root",
    "left over",
    "128 octets, one of them left over",
    "128 octets, root missing",
    "label past the end",
    "label of 63",
    "label of 64",
    "label octet 128",
    "label octet 191",
    "label octet 255",
    "of many one-octet labels",
    "twin",
    "twin in other case",
];

/// Makes the first octet of the first label's text tell it from all enrolled.
fn distinct(maker: &mut Maker, mut suffix: Vec<u8>) -> Vec<u8> {
    while maker.is_enrolled(&suffix) {
        let text = suffix[0].min(8) as usize;
        suffix[1..1 + text].copy_from_slice(&maker.rng.octets(text as u64));
    }
    suffix
}

fn suffix(maker: &mut Maker, item: &str) -> bool {
    maker.with_space();
    let (octets, number) = match item {
        "none" => (vec![], 12),
        "root" => (vec![0], 12),
        "2 octets" => (vec![1, 97], 12),
        "2 octets, both 0" => (vec![0, 0], 12),
        "3 octets" => (maker.fresh_suffix(1), 0),
        "127 octets" => (distinct(maker, name_of(127)), 0),
        "128 octets" => (distinct(maker, name_of(128)), 0),
        "129 octets" => (name_of(129), 12),
        "255 octets" => (name_of(255), 12),
        "256 octets" => (name_of(256), 12),
        "700 octets" => (maker.rng.octets(700), 12),
        "compressed" => (vec![1, 97, 0xc0, 0], 12),
        "only a pointer" => (vec![0xc0, 12, 0], 12),
        "missing root" => (label(b"example"), 12),
        "left over" => (joined(&[&name(&[b"a"]), &[0]]), 12),
        "128 octets, one of them left over" => (joined(&[&name_of(127), &[0]]), 12),
        "128 octets, root missing" => (wire::labels_of(128), 12),
        "label past the end" => (vec![5, 97, 98, 0], 12),
        "label of 63" => (maker.fresh_suffix(63), 0),
        "label of 64" => (name(&[&[97; 64]]), 12),
        "label octet 128" => (joined(&[&[128], &[97; 100], &[0]]), 12),
        "label octet 191" => (vec![1, 97, 191, 0], 12),
        "label octet 255" => (vec![1, 97, 255, 0], 12),
        "of many one-octet labels" => (distinct(maker, one_octet_labels()), 0),
        "twin" => (enrolled(maker), 14),
        _ => (in_other_case(maker), 14),
    };
    let time = maker.tick();
    let algorithm = maker.rng.algorithm();
    let seen = maker.enrol(time, &octets, (600, 400), algorithm);
    numbered(maker, &seen, number)
}

fn one_octet_labels() -> Vec<u8> {
    joined(&[&[1, b'z'].repeat(63), &[0]])
}

fn enrolled(maker: &mut Maker) -> Vec<u8> {
    let pair = maker.any_pair();
    maker.pair(pair).suffix.clone()
}

/// Every letter turned over; a suffix of letters is enrolled first.
fn in_other_case(maker: &mut Maker) -> Vec<u8> {
    let text = maker.rng.letters(6);
    let suffix = name(&[&text]);
    let time = maker.tick();
    maker.enrol(time, &suffix, (600, 400), 256);
    suffix.to_ascii_uppercase()
}

const NEAR: [&str; 9] = [
    "one letter off",
    "one the parent of the other",
    "one the child of the other",
    "one named as the other's key",
    "@ and `",
    "[ and {",
    "octets c1 and e1",
    "dot inside a label",
    "labels cut otherwise",
];

/// Enrols two suffixes that are easily taken for one another, then uses both keys.
fn near(maker: &mut Maker, item: &str) -> bool {
    maker.with_space();
    let t = maker.rng.letters(7);
    let plain = |text: &[u8]| name(&[text]);
    let two = |a: u8, b: u8| {
        let with = |o| plain(&joined(&[&t, &[o]]));
        (with(a), with(b))
    };
    let (first, second) = match item {
        "one letter off" => two(b'a', b'b'),
        "one the parent of the other" => (name(&[b"q", &t]), plain(&t)),
        "one the child of the other" => (plain(&t), name(&[b"q", &t])),
        "one named as the other's key" => (plain(&t), name(&[b"1", &t])),
        "@ and `" => two(b'@', b'`'),
        "[ and {" => two(b'[', b'{'),
        "octets c1 and e1" => two(0xc1, 0xe1),
        "dot inside a label" => (name(&[&t[..3], &t[4..]]), {
            plain(&joined(&[&t[..3], b".", &t[4..]]))
        }),
        _ => (name(&[&t[..2], &t[2..]]), name(&[&t[..3], &t[3..]])),
    };
    enrol_and_use(maker, &first) && enrol_and_use(maker, &second) && use_both(maker)
}

fn enrol_and_use(maker: &mut Maker, suffix: &[u8]) -> bool {
    let time = maker.tick();
    let seen = maker.enrol(time, suffix, (6000, 4000), 256);
    numbered(maker, &seen, 0) && seen.pair == maker.count()
}

fn use_both(maker: &mut Maker) -> bool {
    let count = maker.count();
    let time = maker.table.clock;
    [count - 1, count].iter().all(|&pair| {
        let s = maker.signer(pair, time);
        let mut ask = maker.ordinary(&s);
        let owner = maker.rng.mixed_case(&s.name());
        crate::maker::tsig(&mut ask).owner = owner;
        let call = maker.call(time);
        let seen = maker.send(&call, &ask.octets());
        Want::Passed(0).fits(&seen) && seen.pair == pair
    })
}

const FULL: [&str; 8] = [
    "FULL",
    "NAME over FULL",
    "TERM over FULL",
    "TWIN over FULL",
    "message for pair 64",
    "issue to pair 64",
    "issue to pair 65",
    "revoke of pair 64",
];

fn full(maker: &mut Maker, item: &str) -> bool {
    maker.fill();
    let time = maker.tick();
    let fresh = maker.fresh_suffix(4);
    let seen = match item {
        "FULL" => maker.enrol(time, &fresh, (600, 400), 256),
        "NAME over FULL" => maker.enrol(time, &[1, 97], (600, 400), 256),
        "TERM over FULL" => maker.enrol(time, &fresh, (600, 0), 256),
        "TWIN over FULL" => {
            let twin = enrolled(maker);
            maker.enrol(time, &twin, (600, 400), 256)
        }
        "issue to pair 65" => maker.issue(time, 65, 256),
        _ => return last_pair(maker, item),
    };
    let number = match item {
        "FULL" => 15,
        "NAME over FULL" => 12,
        "TERM over FULL" => 13,
        "TWIN over FULL" => 14,
        _ => 9,
    };
    Want::Refused(number).fits(&seen)
}

fn last_pair(maker: &mut Maker, item: &str) -> bool {
    let s = maker.issued(64);
    let seen = match item {
        "message for pair 64" => {
            let ask = maker.ordinary(&s);
            let call = maker.call(s.time);
            maker.send(&call, &ask.octets())
        }
        "issue to pair 64" => maker.issue(s.time, 64, 512),
        _ => maker.revoke(s.time, 64),
    };
    seen.is_call() && seen.number == 0 && seen.pair == 64
}

const NEW: [&str; 7] = [
    "refused in the middle",
    "refused by far",
    "again at once",
    "before the clock",
    "at 0",
    "renewal and adoption at 0",
    "empty table's calls",
];

fn new(maker: &mut Maker, item: &str) -> bool {
    match item {
        "refused in the middle" => Want::Refused(2).fits(&maker.new_table(TOP)),
        "refused by far" => Want::Refused(2).fits(&maker.new_table(u64::MAX)),
        "before the clock" => {
            let clock = maker.clock_above_zero();
            begun(maker, clock - 1)
        }
        "again at once" => {
            let clock = maker.table.clock;
            begun(maker, clock) && begun(maker, clock)
        }
        "at 0" => begun(maker, 0),
        "renewal and adoption at 0" => begun(maker, 0) && adopted_at_zero(maker),
        _ => empty_table(maker),
    }
}

fn begun(maker: &mut Maker, time: u64) -> bool {
    let seen = maker.new_table(time);
    Want::Handed.fits(&seen) && maker.count() == 0 && maker.table.clock == time
}

fn adopted_at_zero(maker: &mut Maker) -> bool {
    maker.enrol(0, &[1, b'a', 0], (600, 400), 256);
    let s = maker.signer(1, 0);
    let as_wanted = adopt_story(maker, s);
    maker.era();
    as_wanted
}

/// A table without pairs still judges messages.
fn empty_table(maker: &mut Maker) -> bool {
    let mut s = maker.live();
    let ask = maker.ordinary(&s);
    s.time = maker.rng.below(1 << 33);
    let call = maker.call(s.time);
    begun(maker, s.time)
        && Want::Refused(9).fits(&maker.issue(s.time, 1, 256))
        && Want::Refused(9).fits(&maker.revoke(s.time, 1))
        && Want::Handed.fits(&maker.look(&ask.octets()))
        && maker.asks(&call, &ask, Want::BadKey)
        && maker.line(b"list").listed
}

const STORIES: [&str; 5] = [
    "renewal, adoption, traffic",
    "renewal twice, the second adopted",
    "deletion, then issue",
    "issue over a waiting key",
    "adoption asked by the waiting key",
];

fn story(maker: &mut Maker, item: &str) -> bool {
    let s = maker.live();
    match item {
        "renewal, adoption, traffic" => adopt_story(maker, s),
        "renewal twice, the second adopted" => renewed_twice(maker, s),
        "deletion, then issue" => deleted_then_issued(maker, s),
        "issue over a waiting key" => issued_over(maker, s),
        _ => signed_by_waiting(maker, s),
    }
}

fn traffic(maker: &mut Maker, s: &Signer, want: Want) -> bool {
    let ask = maker.ordinary(s);
    let call = maker.call(s.time);
    maker.asks(&call, &ask, want)
}

fn renew(maker: &mut Maker, s: &Signer) -> bool {
    let ask = maker.renewal(s);
    let call = maker.call_for(&ask, s.time);
    maker.asks(&call, &ask, Want::Tkey(0))
}

fn adopt(maker: &mut Maker, s: &Signer, name: &[u8], algorithm: u64, want: Want) -> bool {
    let ask = maker.adoption(s, name, algorithm);
    let call = maker.call(s.time);
    maker.asks(&call, &ask, want)
}

/// The waiting key as if it were adopted.
fn waiting(maker: &Maker, s: &Signer) -> Option<Signer> {
    let key = maker.pair(s.pair).waiting.as_ref()?;
    Some(Signer {
        serial: key.serial,
        algorithm: key.algorithm,
        ..s.clone()
    })
}

fn adopt_story(maker: &mut Maker, s: Signer) -> bool {
    if !traffic(maker, &s, Want::Passed(0)) || !renew(maker, &s) {
        return false;
    }
    let Some(next) = waiting(maker, &s) else {
        return false;
    };
    traffic(maker, &s, Want::Partial)
        && traffic(maker, &next, Want::BadKey)
        && adopt(maker, &s, &next.name(), next.algorithm, Want::Tkey(0))
        && traffic(maker, &s, Want::BadKey)
        && traffic(maker, &next, Want::Passed(0))
        && adopt(maker, &next, &next.name(), next.algorithm, Want::Tkey(0))
}

fn renewed_twice(maker: &mut Maker, s: Signer) -> bool {
    if !renew(maker, &s) {
        return false;
    }
    let first = waiting(maker, &s);
    if !renew(maker, &s) {
        return false;
    }
    let (Some(first), Some(second)) = (first, waiting(maker, &s)) else {
        return false;
    };
    second.serial == first.serial + 1
        && adopt(maker, &s, &first.name(), first.algorithm, Want::Tkey(20))
        && adopt(maker, &s, &second.name(), second.algorithm, Want::Tkey(0))
}

fn deleted_then_issued(maker: &mut Maker, s: Signer) -> bool {
    let ask = maker.deletion(&s, &s.name());
    let call = maker.call(s.time);
    maker.asks(&call, &ask, Want::Tkey(0))
        && maker.pair(s.pair).adopted.is_none()
        && traffic(maker, &s, Want::BadKey)
        && maker.issue(s.time, s.pair, s.algorithm).serial > s.serial
        && traffic(maker, &s, Want::BadKey)
}

fn issued_over(maker: &mut Maker, s: Signer) -> bool {
    if !renew(maker, &s) {
        return false;
    }
    let Some(dropped) = waiting(maker, &s) else {
        return false;
    };
    let issued = maker.issued(s.pair);
    maker.pair(s.pair).waiting.is_none()
        && issued.serial == dropped.serial + 1
        && adopt(
            maker,
            &issued,
            &dropped.name(),
            dropped.algorithm,
            Want::Tkey(20),
        )
}

fn signed_by_waiting(maker: &mut Maker, s: Signer) -> bool {
    if !renew(maker, &s) {
        return false;
    }
    let Some(next) = waiting(maker, &s) else {
        return false;
    };
    adopt(maker, &next, &next.name(), next.algorithm, Want::BadKey)
        && maker.pair(s.pair).waiting.is_some()
}

/// A renewal whose serial has one digit more than the signing key's.
fn serial(maker: &mut Maker, item: &str) -> bool {
    let last: u64 = if item == "9 to 10" { 9 } else { 99 };
    let young = maker.some_pair(|p| p.next <= last);
    let Some(pair) = young else {
        maker.with_space();
        let time = maker.tick();
        maker.enrol_fresh(time);
        return serial(maker, item);
    };
    let time = maker.tick();
    while maker.pair(pair).next <= last {
        maker.issue(time, pair, 256);
    }
    let s = maker.signer(pair, time);
    let ask = maker.renewal(&s);
    let mut call = maker.call_for(&ask, time);
    call.room = maker.due_reply(&call, &ask, Want::Tkey(0)).len() as u64;
    if s.serial != last || !maker.asks(&call, &ask, Want::Tkey(0)) {
        return false;
    }
    let Some(next) = waiting(maker, &s) else {
        return false;
    };
    next.serial == last + 1
        && adopt(maker, &s, &next.name(), next.algorithm, Want::Tkey(0))
        && traffic(maker, &next, Want::Passed(0))
}
