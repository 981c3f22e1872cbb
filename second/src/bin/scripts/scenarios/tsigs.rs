//! TSIG records: ill formed, ill placed, of other keys, with every MAC length.

use super::{cross, list, two_words, Group};
use crate::desk::Want;
use crate::maker::{tkey, tsig, Maker, Signer};
use crate::wire::{self, joined, key_name, label, name, name_of, pointer, Ask, Tsig};

pub fn groups() -> Vec<Group> {
    vec![
        Group {
            name: "TSIG form",
            weight: 50,
            items: || cross(&["ordinary", "TKEY request"], &FORMS),
            run: form,
        },
        Group {
            name: "TSIG place",
            weight: 25,
            items: || list(&PLACES),
            run: place,
        },
        Group {
            name: "TSIG key",
            weight: 60,
            items: || cross(&["message", "look"], &KEYS),
            run: key,
        },
        Group {
            name: "MAC",
            weight: 40,
            items: || cross(&["256", "384", "512"], &MACS),
            run: mac,
        },
        Group {
            name: "steps",
            weight: 40,
            items: || list(&STEPS),
            run: steps,
        },
        Group {
            name: "look at",
            weight: 15,
            items: || list(&LOOKS),
            run: look_at,
        },
        Group {
            name: "unsigned",
            weight: 15,
            items: || list(&UNSIGNED),
            run: unsigned,
        },
    ]
}

const FORMS: [&str; 24] = [
    "class 1",
    "class 254",
    "class 0",
    "TTL 1",
    "TTL 2^31",
    "algorithm only a pointer",
    "algorithm ended by a pointer",
    "algorithm with a label octet 64",
    "algorithm with a label octet 191",
    "algorithm of 255 octets",
    "algorithm of 256 octets",
    "algorithm the root",
    "algorithm without end",
    "MAC size one past",
    "MAC size past the end",
    "MAC size one short",
    "other length one past",
    "other length past the end",
    "other length one short",
    "1 octet left over",
    "9 octets left over",
    "other data of 6",
    "other data of 300",
    "error and original ID of any kind",
];

fn any_ask(maker: &mut Maker, s: &Signer, kind: &str) -> (Ask, Want) {
    match kind {
        "ordinary" => (maker.ordinary(s), Want::Passed(0)),
        _ => (maker.request(s, 3, &s.name()), Want::Tkey(19)),
    }
}

fn form(maker: &mut Maker, item: &str) -> bool {
    let (kind, shape) = two_words(item);
    let s = maker.live();
    let (mut ask, fine) = any_ask(maker, &s, kind);
    let any = maker.rng.next();
    let t = tsig(&mut ask);
    let mut want = Want::Ill;
    match shape {
        "class 1" => t.class = 1,
        "class 254" => t.class = 254,
        "class 0" => t.class = 0,
        "TTL 1" => t.ttl = 1,
        "TTL 2^31" => t.ttl = 1 << 31,
        "MAC size one past" => t.mac_off = 1,
        "MAC size past the end" => t.mac_off = 65_000,
        "MAC size one short" => t.mac_off = -1,
        "other length one past" => t.other_off = 1,
        "other length past the end" => t.other_off = 65_535,
        "other length one short" => {
            t.other = vec![7; 6];
            t.other_off = -1;
        }
        "1 octet left over" => t.tail = vec![0],
        "9 octets left over" => t.tail = vec![0; 9],
        "other data of 6" => {
            t.other = any.to_be_bytes()[2..].to_vec();
            want = fine;
        }
        "other data of 300" => {
            t.other = vec![any as u8; 300];
            want = fine;
        }
        "error and original ID of any kind" => {
            t.error = any as u16;
            t.original = (any >> 16) as u16;
            want = fine;
        }
        _ => want = bend_algorithm(t, shape),
    }
    let call = maker.call(s.time);
    maker.asks(&call, &ask, want)
}

fn bend_algorithm(t: &mut Tsig, shape: &str) -> Want {
    let whole = t.algorithm.clone();
    t.algorithm = match shape {
        "algorithm only a pointer" => pointer(12),
        "algorithm ended by a pointer" => joined(&[&whole[..whole.len() - 1], &pointer(12)]),
        "algorithm with a label octet 64" => joined(&[&[64], &[b'h'; 64], &[0]]),
        "algorithm with a label octet 191" => joined(&[&[191], &[b'h'; 191], &[0]]),
        "algorithm of 255 octets" => name_of(255),
        "algorithm of 256 octets" => name_of(256),
        "algorithm the root" => vec![0],
        _ => {
            // Short enough for the label to run over the end of RDLENGTH.
            t.mac.clear();
            joined(&[&[63], &[b'h'; 20]])
        }
    };
    match shape {
        "algorithm of 255 octets" | "algorithm the root" => Want::BadKey,
        _ => Want::Ill,
    }
}

const PLACES: [&str; 12] = [
    "in the answer, nothing after",
    "in the authority, nothing after",
    "in the answer, others after",
    "in the authority, others after",
    "not last in the additional",
    "two, both last",
    "two, the first in the answer",
    "two, the first in the authority",
    "two, the first of another key",
    "two, one ill formed",
    "alone",
    "look with two",
];

fn place(maker: &mut Maker, item: &str) -> bool {
    let s = maker.live();
    let mut ask = maker.ordinary(&s);
    ask.squeeze = false;
    let sig = tsig(&mut ask).record();
    let after = maker.by_the_way();
    let bare = |ask: &mut Ask, section: usize| {
        ask.tsig = None;
        ask.sections[section].push(sig.clone());
    };
    match item {
        "in the answer, nothing after" => {
            ask.sections = [vec![], vec![], vec![]];
            bare(&mut ask, 0);
        }
        "in the authority, nothing after" => {
            ask.sections[2].clear();
            bare(&mut ask, 1);
        }
        "in the answer, others after" => {
            bare(&mut ask, 0);
            ask.sections[2].push(after);
        }
        "in the authority, others after" => {
            bare(&mut ask, 1);
            ask.sections[2].push(after);
        }
        "not last in the additional" => {
            bare(&mut ask, 2);
            ask.sections[2].push(after);
        }
        "two, the first in the answer" => ask.sections[0].push(sig),
        "two, the first in the authority" => ask.sections[1].push(sig),
        "two, the first of another key" => {
            let other = maker.stranger(&s);
            let other = maker.tsig(&other).record();
            ask.sections[2].push(other);
        }
        "two, one ill formed" => {
            let mut ill = sig;
            ill.class = wire::IN;
            ask.sections[2].push(ill);
        }
        "alone" => {
            ask.questions.clear();
            ask.sections = [vec![], vec![], vec![]];
        }
        _ => ask.sections[2].push(sig),
    }
    if item == "look with two" {
        return Want::Handed.fits(&maker.look(&ask.octets()));
    }
    let want = match item {
        "alone" => Want::Passed(0),
        _ => Want::Ill,
    };
    let call = maker.call(s.time);
    maker.asks(&call, &ask, want)
}

const KEYS: [&str; 23] = [
    "its own",
    "owner compressed",
    "owner in other case",
    "algorithm in other case",
    "owner the root",
    "owner the suffix alone",
    "owner with a label too many",
    "owner of 255 octets",
    "suffix of no pair",
    "suffix one letter off",
    "serial never made",
    "serial of an old key",
    "serial of the waiting key",
    "serial with a leading zero",
    "serial 0",
    "serial + 2^32",
    "serial of 63 digits",
    "serial and a letter",
    "algorithm of another key",
    "algorithm hmac-md5",
    "algorithm with a label more",
    "expired",
    "no key left",
];

fn key(maker: &mut Maker, item: &str) -> bool {
    let (way, which) = two_words(item);
    let s = match which {
        "serial of the waiting key" => maker.with_waiting(),
        "serial of an old key" => maker.with_old(),
        "expired" => maker.expired(),
        "no key left" => gone(maker),
        _ => maker.live(),
    };
    let mut ask = maker.ordinary(&s);
    let found = bend_key(maker, &s, &mut ask, which);
    if way == "look" {
        let seen = maker.look(&ask.octets());
        return match found || which == "expired" {
            true => seen.number == 0 && seen.pair == s.pair && seen.serial == s.serial,
            false => Want::Handed.fits(&seen),
        };
    }
    let want = if found { Want::Passed(0) } else { Want::BadKey };
    let call = maker.call(s.time);
    maker.asks(&call, &ask, want)
}

/// The key that a pair had before it lost it.
fn gone(maker: &mut Maker) -> Signer {
    let pair = maker.keyless();
    let time = maker.tick();
    let p = maker.pair(pair);
    Signer {
        pair,
        suffix: p.suffix.clone(),
        serial: p.next - 1,
        algorithm: 256,
        time,
    }
}

/// Bends the TSIG's names and says whether they still are the signer's.
fn bend_key(maker: &mut Maker, s: &Signer, ask: &mut Ask, which: &str) -> bool {
    let next = maker.pair(s.pair).next;
    let waiting = maker.pair(s.pair).waiting.clone();
    let serial_label = |text: &str| joined(&[&label(text.as_bytes()), &s.suffix]);
    let mixed = maker.rng.mixed_case(&s.name());
    let mixed_algorithm = maker.rng.mixed_case(&s.algorithm_name());
    let near = unlike_any(maker, &s.suffix);
    // A pair may be named like another one's key.
    let is_key_name = maker.is_enrolled(&s.suffix[1 + s.suffix[0] as usize..]);
    if which == "owner compressed" {
        ask.questions[0].name = s.suffix.clone();
        ask.squeeze = true;
        return true;
    }
    let t = tsig(ask);
    match which {
        "its own" | "expired" | "no key left" => {}
        "owner in other case" => t.owner = mixed,
        "algorithm in other case" => t.algorithm = mixed_algorithm,
        "owner the root" => t.owner = vec![0],
        "owner the suffix alone" => {
            t.owner = s.suffix.clone();
            if is_key_name {
                t.algorithm = vec![0];
            }
        }
        "owner with a label too many" => t.owner = joined(&[&label(b"x"), &s.name()]),
        "owner of 255 octets" => t.owner = name_of(255),
        "suffix of no pair" => t.owner = name(&[b"1", b"nobody", b"here"]),
        "suffix one letter off" => t.owner = key_name(s.serial, &near),
        "serial never made" => t.owner = key_name(next, &s.suffix),
        "serial of an old key" => t.owner = key_name(s.serial - 1, &s.suffix),
        "serial of the waiting key" => {
            if let Some(key) = waiting {
                t.owner = key_name(key.serial, &s.suffix);
                t.algorithm = wire::algorithm_name(key.algorithm);
            }
        }
        "serial with a leading zero" => t.owner = serial_label(&format!("0{}", s.serial)),
        "serial 0" => t.owner = key_name(0, &s.suffix),
        "serial + 2^32" => t.owner = key_name(s.serial + (1 << 32), &s.suffix),
        "serial of 63 digits" => t.owner = serial_label(&format!("{:0>63}", s.serial)),
        "serial and a letter" => t.owner = serial_label(&format!("{}a", s.serial)),
        "algorithm of another key" => t.algorithm = wire::algorithm_name(other_than(s.algorithm)),
        "algorithm hmac-md5" => {
            t.algorithm = name(&[b"hmac-md5", b"sig-alg", b"reg", b"int"]);
        }
        _ => t.algorithm = name(&[format!("hmac-sha{}", s.algorithm).as_bytes(), b"x"]),
    }
    matches!(
        which,
        "its own" | "owner in other case" | "algorithm in other case"
    )
}

pub fn other_than(algorithm: u64) -> u64 {
    if algorithm == 384 {
        512
    } else {
        384
    }
}

/// The suffix with one octet of its text changed, enrolled by nobody.
fn unlike_any(maker: &mut Maker, suffix: &[u8]) -> Vec<u8> {
    loop {
        let mut near = suffix.to_vec();
        near[1] = maker.rng.next() as u8;
        if !maker.is_enrolled(&near) {
            return near;
        }
    }
}

const MACS: [&str; 9] = [
    "0", "1", "half - 1", "half", "half + 1", "full - 1", "full", "full + 1", "700",
];

fn mac(maker: &mut Maker, item: &str) -> bool {
    let (algorithm, length) = two_words(item);
    let algorithm: u64 = algorithm.parse().expect("an algorithm");
    let full = wire::mac_length(algorithm);
    let length = match length {
        "0" => 0,
        "1" => 1,
        "half - 1" => full / 2 - 1,
        "half" => full / 2,
        "half + 1" => full / 2 + 1,
        "full - 1" => full - 1,
        "full" => full,
        "full + 1" => full + 1,
        _ => 700,
    };
    let s = maker.live_with(algorithm);
    let mut ask = maker.ordinary(&s);
    tsig(&mut ask).mac = maker.rng.octets(length);
    let fits = length >= full / 2 && length <= full;
    let mut call = maker.call(s.time);
    call.good = maker.rng.chance(70);
    let want = match (fits, call.good) {
        (false, _) => Want::Bad,
        (true, true) => Want::Passed(0),
        (true, false) => Want::BadSig,
    };
    maker.asks(&call, &ask, want)
}

const STEPS: [&str; 16] = [
    "1 over 2",
    "1 over 3",
    "1 over 7",
    "3 over 4, length",
    "3 over 4, verdict",
    "3 over 6",
    "4, length over verdict",
    "4 over 5, length",
    "4 over 5, verdict",
    "4 over 6",
    "5 over 6",
    "5 over 7",
    "6 over 7",
    "6 over 9",
    "7 over 9",
    "7 over deletion",
];

/// Two steps apply; the first one answers.
fn steps(maker: &mut Maker, item: &str) -> bool {
    let late = item.contains("over 7") || item.starts_with('7');
    let s = if late { maker.revoked() } else { maker.live() };
    let mut ask = maker.request(&s, 3, &s.name());
    let mut call = maker.call(s.time);
    match item.split(' ').next() {
        Some("1") => tsig(&mut ask).ttl = 5,
        Some("3") => tsig(&mut ask).owner = key_name(0, &s.suffix),
        Some("4,") | Some("4") if item.contains("length") => tsig(&mut ask).mac.clear(),
        Some("4") => call.good = false,
        Some("5") => tsig(&mut ask).signed += 70_000,
        Some("6") => tkey(&mut ask).other_off = 1,
        _ => {}
    }
    let second = item.split_once("over ").map_or("", |(_, second)| second);
    match second {
        "3" => tsig(&mut ask).owner = key_name(0, &s.suffix),
        "4, length" => tsig(&mut ask).mac.clear(),
        "4, verdict" | "verdict" => call.good = false,
        "5, length" | "5, verdict" => tsig(&mut ask).signed += 70_000,
        "6" => ask.tkey = None,
        "deletion" => tkey(&mut ask).mode = wire::DELETE,
        _ => {}
    }
    let want = match item.split(' ').next() {
        Some("1") => Want::Ill,
        Some("3") => Want::BadKey,
        Some("4,") | Some("4") if item.contains("length") => Want::Bad,
        Some("4") => Want::BadSig,
        Some("5") => Want::BadTime,
        Some("6") => Want::Bad,
        _ => Want::Partial,
    };
    maker.asks(&call, &ask, want)
}

const UNSIGNED: [&str; 7] = [
    "ordinary",
    "ordinary, verdict bad",
    "ordinary, no room",
    "ordinary, no question",
    "TKEY request",
    "TKEY request without TKEY",
    "TKEY request, verdict bad",
];

fn unsigned(maker: &mut Maker, item: &str) -> bool {
    let s = maker.live();
    let mut call = maker.call(s.time);
    call.good = !item.ends_with("bad");
    if item.ends_with("no room") {
        call.room = 0;
    }
    if item.starts_with("ordinary") {
        let mut ask = maker.unsigned(&s);
        if item.ends_with("no question") {
            ask.questions.clear();
        }
        return maker.asks(&call, &ask, Want::Handed);
    }
    let mut ask = maker.renewal(&s);
    ask.tsig = None;
    if item.ends_with("without TKEY") {
        ask.tkey = None;
    }
    maker.asks(&call, &ask, Want::Refuse)
}

const LOOKS: [&str; 12] = [
    "an ordinary message",
    "a renewal",
    "a revoked key",
    "a TKEY request without TKEY",
    "a MAC of no octets",
    "a time signed far off",
    "no TSIG",
    "no TSIG in a TKEY request",
    "a TSIG of class 1",
    "a TSIG with octets left over",
    "a TSIG not last",
    "a TSIG in the answer",
];

/// Look asks for a well placed TSIG of an adopted key and for nothing else.
fn look_at(maker: &mut Maker, item: &str) -> bool {
    let s = match item {
        "a revoked key" => maker.revoked(),
        _ => maker.live(),
    };
    let mut ask = match item {
        "a renewal" | "no TSIG in a TKEY request" | "a TKEY request without TKEY" => {
            maker.renewal(&s)
        }
        _ => maker.ordinary(&s),
    };
    let found = !item.contains("TSIG");
    match item {
        "a TKEY request without TKEY" => ask.tkey = None,
        "a MAC of no octets" => tsig(&mut ask).mac.clear(),
        "a time signed far off" => tsig(&mut ask).signed += 1_000_000,
        "no TSIG" | "no TSIG in a TKEY request" => ask.tsig = None,
        "a TSIG of class 1" => tsig(&mut ask).class = wire::IN,
        "a TSIG with octets left over" => tsig(&mut ask).tail = vec![0],
        "a TSIG not last" => {
            let first = tsig(&mut ask).record();
            let last = maker.by_the_way();
            ask.tsig = None;
            ask.sections[2].extend([first, last]);
        }
        "a TSIG in the answer" => {
            let record = tsig(&mut ask).record();
            ask.tsig = None;
            ask.sections[0].push(record);
        }
        _ => {}
    }
    let seen = maker.look(&ask.octets());
    match found {
        true => seen.number == 0 && seen.pair == s.pair && seen.serial == s.serial,
        false => Want::Handed.fits(&seen),
    }
}
