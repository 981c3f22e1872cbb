//! TKEY requests: what makes one, ill formed ones, every mode, and the five that are served.

use super::tsigs::other_than;
use super::{cross, list, two_words, Group};
use crate::desk::Want;
use crate::maker::{tkey, Maker, Signer};
use crate::wire::{self, algorithm_name, joined, key_name, label, name, name_of, pointer, Ask};

pub fn groups() -> Vec<Group> {
    vec![
        Group {
            name: "TKEY form",
            weight: 60,
            items: || cross(&SOME_MODES, &FORMS),
            run: form,
        },
        Group {
            name: "TKEY count",
            weight: 25,
            items: || list(&COUNTS),
            run: count,
        },
        Group {
            name: "ordinary for its",
            weight: 30,
            items: || list(&ORDINARY),
            run: ordinary,
        },
        Group {
            name: "mode",
            weight: 35,
            items: || list(&MODES),
            run: mode,
        },
        Group {
            name: "other data",
            weight: 60,
            items: || cross(&SOME_MODES, &OTHERS),
            run: other_data,
        },
        Group {
            name: "renewal",
            weight: 100,
            items: || cross(&RENEWAL_MODES, &RENEWALS),
            run: renewal,
        },
        Group {
            name: "renewal algorithms",
            weight: 20,
            items: algorithms,
            run: renewal_algorithms,
        },
        Group {
            name: "adoption",
            weight: 80,
            items: || list(&ADOPTIONS),
            run: adoption,
        },
        Group {
            name: "deletion",
            weight: 40,
            items: || list(&DELETIONS),
            run: deletion,
        },
    ]
}

/// The modes that are served, and one that is not.
const SOME_MODES: [&str; 6] = ["4097", "4098", "4099", "4100", "5", "3"];
const RENEWAL_MODES: [&str; 3] = ["4097", "4098", "4099"];

fn asked(maker: &mut Maker, s: &Signer, ask: &Ask, want: Want) -> bool {
    let call = maker.call_for(ask, s.time);
    maker.asks(&call, ask, want)
}

fn number(text: &str) -> u16 {
    text.parse().expect("a number")
}

/// A request of this mode that is well formed, and what it comes to.
fn of_mode(maker: &mut Maker, s: &Signer, mode: u16) -> (Ask, Want) {
    match mode {
        _ if wire::RENEWALS.contains(&mode) => (maker.renewal_of(s, mode), Want::Tkey(0)),
        wire::ADOPT => (maker.adoption(s, &s.name(), s.algorithm), Want::Tkey(0)),
        // NAME of no key, so that the signing key stays.
        wire::DELETE => (maker.deletion(s, &key_name(0, &s.suffix)), Want::Tkey(20)),
        _ => (maker.request(s, mode, &s.name()), Want::Tkey(19)),
    }
}

const FORMS: [&str; 18] = [
    "class 1 and TTL 77",
    "class 0 and TTL 2^32 - 1",
    "error field set",
    "key data of 300",
    "owner the root",
    "owner of 255 octets",
    "owner compressed",
    "algorithm only a pointer",
    "algorithm ended by a pointer",
    "algorithm with a label octet 64",
    "algorithm with a label octet 128",
    "algorithm of 256 octets",
    "algorithm without end",
    "key size one past",
    "key size past the end",
    "other size one past",
    "other size past the end",
    "1 octet left over",
];

fn form(maker: &mut Maker, item: &str) -> bool {
    let (mode, shape) = two_words(item);
    let mode = number(mode);
    let s = maker.live();
    let (mut ask, fine) = of_mode(maker, &s, mode);
    let mut want = fine;
    // NAME decides adoption and deletion.
    let renamed = match mode {
        wire::ADOPT => Want::Tkey(20),
        _ => fine,
    };
    let qname = match shape {
        "owner compressed" => tkey(&mut ask).owner.clone(),
        _ => ask.questions[0].name.clone(),
    };
    if shape == "owner compressed" {
        ask.squeeze = true;
    }
    ask.questions[0].name = qname;
    let t = tkey(&mut ask);
    match shape {
        "class 1 and TTL 77" => (t.class, t.ttl) = (1, 77),
        "class 0 and TTL 2^32 - 1" => (t.class, t.ttl) = (0, u32::MAX),
        "error field set" => t.error = 65_535,
        "key data of 300" => t.key = vec![0xc0; 300],
        "owner the root" => (t.owner, want) = (vec![0], renamed),
        "owner of 255 octets" => (t.owner, want) = (name_of(255), renamed),
        "owner compressed" => {}
        _ => {
            bend(t, shape);
            want = Want::Bad;
        }
    }
    asked(maker, &s, &ask, want)
}

/// Makes the record ill formed.
fn bend(t: &mut wire::Tkey, shape: &str) {
    let whole = t.algorithm.clone();
    match shape {
        "algorithm only a pointer" => t.algorithm = pointer(12),
        "algorithm ended by a pointer" => {
            t.algorithm = joined(&[&whole[..whole.len() - 1], &pointer(12)]);
        }
        "algorithm with a label octet 64" => t.algorithm = joined(&[&[64], &[b'h'; 64], &[0]]),
        "algorithm with a label octet 128" => t.algorithm = joined(&[&[128], &[b'h'; 128], &[0]]),
        "algorithm of 256 octets" => t.algorithm = name_of(256),
        "algorithm without end" => {
            // Short enough for the label to run over the end of RDLENGTH.
            t.algorithm = joined(&[&[63], &[b'h'; 20]]);
            t.key.clear();
            t.other.clear();
        }
        "key size one past" => t.key_off = 1,
        "key size past the end" => t.key_off = 65_000,
        "other size one past" => t.other_off = 1,
        "other size past the end" => t.other_off = 65_000,
        _ => t.tail = vec![0],
    }
}

const COUNTS: [&str; 8] = [
    "none",
    "two in the additional",
    "one in the additional, one in the answer",
    "one in the additional, one in the authority",
    "in the answer",
    "in the authority",
    "two, one ill formed",
    "none, revoked key",
];

fn count(maker: &mut Maker, item: &str) -> bool {
    let s = match item {
        "none, revoked key" => maker.revoked(),
        _ => maker.live(),
    };
    let mode = number(maker.rng.pick::<&str>(&SOME_MODES));
    let (mut ask, _) = of_mode(maker, &s, mode);
    let mut record = tkey(&mut ask).record();
    match item {
        "none" | "none, revoked key" => ask.tkey = None,
        "two in the additional" => ask.sections[2].push(record),
        "one in the additional, one in the answer" => ask.sections[0].push(record),
        "one in the additional, one in the authority" => ask.sections[1].push(record),
        "two, one ill formed" => {
            record.data.push(0);
            ask.sections[2].push(record);
        }
        _ => {
            ask.tkey = None;
            ask.sections[usize::from(item == "in the authority")].push(record);
        }
    }
    asked(maker, &s, &ask, Want::Bad)
}

const ORDINARY: [&str; 12] = [
    "opcode 1",
    "opcode 5",
    "opcode 15",
    "no question",
    "two questions",
    "question type 248",
    "question type 250",
    "question type 255",
    "question class 1",
    "question class 254",
    "ill formed TKEY in an ordinary one",
    "opcode 5, revoked key",
];

/// Requests that are none: passed up, with no key changed.
fn ordinary(maker: &mut Maker, item: &str) -> bool {
    let s = match item {
        "opcode 5, revoked key" => maker.revoked(),
        _ => maker.live(),
    };
    let mode = number(maker.rng.pick::<&str>(&SOME_MODES));
    let (mut ask, _) = of_mode(maker, &s, mode);
    let mut want = Want::Passed(0);
    match item {
        "opcode 1" => ask.flags |= 1 << 11,
        "opcode 5" => ask.flags |= 5 << 11,
        "opcode 15" => ask.flags |= 15 << 11,
        "no question" => ask.questions.clear(),
        "two questions" => ask.questions.push(ask.questions[0].clone()),
        "question type 248" => ask.questions[0].kind = 248,
        "question type 250" => ask.questions[0].kind = 250,
        "question type 255" => ask.questions[0].kind = 255,
        "question class 1" => ask.questions[0].class = 1,
        "question class 254" => ask.questions[0].class = 254,
        "opcode 5, revoked key" => {
            ask.flags |= 5 << 11;
            want = Want::Partial;
        }
        _ => {
            ask.questions[0].kind = wire::A;
            tkey(&mut ask).tail = vec![1, 2, 3];
        }
    }
    asked(maker, &s, &ask, want)
}

const MODES: [&str; 16] = [
    "0", "1", "2", "3", "4", "5", "6", "4096", "4097", "4098", "4099", "4100", "4101", "8194",
    "65534", "65535",
];

fn mode(maker: &mut Maker, item: &str) -> bool {
    let s = maker.live();
    let (ask, want) = of_mode(maker, &s, number(item));
    asked(maker, &s, &ask, want)
}

const OTHERS: [&str; 16] = [
    "empty",
    "one name",
    "two names and an octet",
    "three names",
    "first name compressed",
    "second name compressed",
    "second name ended by a pointer",
    "first name with a label octet 64",
    "second name with a label octet 191",
    "first name of 255 octets",
    "first name of 256 octets",
    "second name of 256 octets",
    "second name without root",
    "two roots",
    "only a root",
    "random octets ended wrong",
];

fn other_data(maker: &mut Maker, item: &str) -> bool {
    let (mode, shape) = two_words(item);
    let mode = number(mode);
    let s = maker.live();
    let (old, algorithm) = (s.name(), s.algorithm_name());
    let (mut ask, fine) = of_mode(maker, &s, mode);
    let open = &algorithm[..algorithm.len() - 1];
    tkey(&mut ask).other = match shape {
        "empty" => vec![],
        "one name" => old,
        "two names and an octet" => joined(&[&old, &algorithm, &[0]]),
        "three names" => joined(&[&old, &algorithm, &old]),
        "first name compressed" => joined(&[&pointer(12), &algorithm]),
        "second name compressed" => joined(&[&old, &pointer(12)]),
        "second name ended by a pointer" => joined(&[&old, open, &pointer(12)]),
        "first name with a label octet 64" => joined(&[&[64], &[1; 64], &[0], &algorithm]),
        "second name with a label octet 191" => joined(&[&old, &[191], &[1; 191], &[0]]),
        "first name of 255 octets" => joined(&[&name_of(255), &algorithm]),
        "first name of 256 octets" => joined(&[&name_of(256), &algorithm]),
        "second name of 256 octets" => joined(&[&old, &name_of(256)]),
        "second name without root" => joined(&[&old, open]),
        "two roots" => vec![0, 0],
        "only a root" => vec![0],
        _ => joined(&[&maker.rng.some_octets(1, 30), &[200]]),
    };
    let names_read = matches!(shape, "first name of 255 octets" | "two roots");
    let want = match mode {
        _ if wire::RENEWALS.contains(&mode) && names_read => Want::Tkey(17),
        _ if wire::RENEWALS.contains(&mode) => Want::Bad,
        // The adopted key is asked for, so the old names are not looked at.
        wire::ADOPT if names_read => Want::Tkey(0),
        wire::ADOPT => Want::Bad,
        _ => fine,
    };
    asked(maker, &s, &ask, want)
}

const RENEWALS: [&str; 39] = [
    "granted, no waiting key",
    "granted again",
    "granted to a revoked key",
    "granted twice in one second",
    "OldName in other case",
    "OldAlgorithm in other case",
    "algorithm in other case",
    "KEY owner compressed",
    "KEY data empty",
    "KEY data of 600",
    "KEY before TKEY",
    "another KEY in the answer",
    "another KEY in the authority",
    "NAME the root",
    "NAME of 255 octets",
    "expiration = inception + 1",
    "expiration = inception",
    "expiration = inception - 1",
    "OldName of no key",
    "OldName of the waiting key",
    "OldName of another pair's key",
    "OldName with a leading zero",
    "OldName and OldAlgorithm swapped",
    "OldAlgorithm of another key",
    "OldAlgorithm unknown",
    "no KEY",
    "two KEYs",
    "KEY in the answer only",
    "KEY in the authority only",
    "KEY that does not fit",
    "algorithm unknown",
    "algorithm the root",
    "algorithm with a label more",
    "empty offer",
    "BADKEY over FORMERR",
    "FORMERR over BADALG",
    "BADALG over BADTIME",
    "BADTIME over SERVFAIL",
    "all at once",
];

fn renewal(maker: &mut Maker, item: &str) -> bool {
    let (mode, item) = two_words(item);
    let mode = number(mode);
    let s = renewal_signer(maker, item);
    let mut ask = maker.renewal_of(&s, mode);
    let mut call = maker.call_for(&ask, s.time);
    if item == "granted twice in one second" {
        let first = maker.renewal_of(&s, mode);
        if !maker.asks(&call, &first, Want::Tkey(0)) {
            return false;
        }
    }
    for fault in faults(&item) {
        bend_renewal(maker, &s, &mut ask, fault);
        match *fault {
            "empty offer" => call.offer.clear(),
            "KEY that does not fit" => call.fits = false,
            _ => {}
        }
    }
    let want = Want::Tkey(renewal_error(mode, faults(&item)[0]));
    maker.asks(&call, &ask, want)
}

fn renewal_signer(maker: &mut Maker, item: &str) -> Signer {
    match item {
        "granted, no waiting key" => maker.without_waiting(),
        "granted again" | "OldName of the waiting key" => maker.with_waiting(),
        "granted to a revoked key" => maker.revoked(),
        _ => maker.live(),
    }
}

/// The faults an item has, the one that answers first.
fn faults<'a>(item: &'a &'a str) -> &'a [&'a str] {
    match *item {
        "BADKEY over FORMERR" => &["OldName of no key", "no KEY"],
        "FORMERR over BADALG" => &["two KEYs", "algorithm unknown"],
        "BADALG over BADTIME" => &["algorithm unknown", "expiration = inception"],
        "BADTIME over SERVFAIL" => &["expiration = inception", "empty offer"],
        "all at once" => &[
            "OldAlgorithm unknown",
            "no KEY",
            "algorithm unknown",
            "expiration = inception",
            "empty offer",
        ],
        _ => std::slice::from_ref(item),
    }
}

fn renewal_error(mode: u16, fault: &str) -> u16 {
    match fault {
        "KEY that does not fit" => match mode {
            wire::DIFFIE_HELLMAN => 17,
            wire::BY_RESOLVER => 1,
            _ => 0,
        },
        "empty offer" if mode == wire::BY_RESOLVER => 0,
        "OldName in other case" | "OldAlgorithm in other case" => 0,
        "no KEY" | "two KEYs" | "KEY in the answer only" | "KEY in the authority only" => 1,
        "empty offer" => 2,
        "expiration = inception" | "expiration = inception - 1" => 18,
        "algorithm unknown" | "algorithm the root" | "algorithm with a label more" => 21,
        _ if fault.starts_with("Old") => 17,
        _ => 0,
    }
}

pub fn bend_renewal(maker: &mut Maker, s: &Signer, ask: &mut Ask, fault: &str) {
    match fault {
        _ if fault.starts_with("Old") => bend_old(maker, s, ask, fault),
        _ if fault.starts_with("expiration") => bend_times(maker, ask, fault),
        _ if fault.contains("KEY") => bend_key_records(maker, s, ask, fault),
        "NAME the root" => tkey(ask).owner = vec![0],
        "NAME of 255 octets" => tkey(ask).owner = name_of(255),
        "algorithm in other case" => {
            let algorithm = tkey(ask).algorithm.clone();
            tkey(ask).algorithm = maker.rng.mixed_case(&algorithm);
        }
        "algorithm unknown" => {
            let unknown: [Vec<u8>; 4] = [
                name(&[b"hmac-sha1"]),
                name(&[b"hmac-sha224"]),
                name(&[b"hmac-md5", b"sig-alg", b"reg", b"int"]),
                name(&[b"hmac-sha25"]),
            ];
            tkey(ask).algorithm = maker.rng.pick(&unknown).clone();
        }
        "algorithm the root" => tkey(ask).algorithm = vec![0],
        "algorithm with a label more" => tkey(ask).algorithm = name(&[b"hmac-sha256", b"a"]),
        _ => {}
    }
}

/// OldName and OldAlgorithm, in renewals and adoptions.
fn bend_old(maker: &mut Maker, s: &Signer, ask: &mut Ask, fault: &str) {
    let mut old = s.name();
    let mut algorithm = s.algorithm_name();
    match fault {
        "OldName in other case" => old = maker.rng.mixed_case(&old),
        "OldAlgorithm in other case" => algorithm = maker.rng.mixed_case(&algorithm),
        "OldName of no key" => old = key_name(maker.pair(s.pair).next, &s.suffix),
        "OldName of the waiting key" => {
            let serial = maker.pair(s.pair).waiting.as_ref().map_or(0, |k| k.serial);
            old = key_name(serial, &s.suffix);
        }
        "OldName of another pair's key" => old = maker.stranger(s).name(),
        "OldName with a leading zero" => {
            old = joined(&[&label(format!("0{}", s.serial).as_bytes()), &s.suffix]);
        }
        "OldName and OldAlgorithm swapped" => std::mem::swap(&mut old, &mut algorithm),
        "OldAlgorithm of another key" => algorithm = algorithm_name(other_than(s.algorithm)),
        _ => algorithm = name(&[b"hmac-sha1"]),
    }
    tkey(ask).other = joined(&[&old, &algorithm]);
}

fn bend_times(maker: &mut Maker, ask: &mut Ask, fault: &str) {
    let any = maker.rng.next() as u32;
    let t = tkey(ask);
    (t.inception, t.expiration) = match fault {
        "expiration = inception + 1" => (any, any.wrapping_add(1)),
        "expiration = inception" => (any, any),
        _ => (any, any.wrapping_sub(1)),
    };
}

fn bend_key_records(maker: &mut Maker, s: &Signer, ask: &mut Ask, fault: &str) {
    let another = maker.key_record(s);
    match fault {
        "KEY owner compressed" => {
            ask.questions[0].name = s.suffix.clone();
            ask.keys[0].owner = joined(&[&label(b"key"), &s.suffix]);
            ask.squeeze = true;
        }
        "KEY data empty" => ask.keys[0].data.clear(),
        "KEY data of 600" => ask.keys[0].data = maker.rng.octets(600),
        "KEY before TKEY" => ask.keys_first = true,
        "another KEY in the answer" => ask.sections[0].push(another),
        "another KEY in the authority" => ask.sections[1].push(another),
        "KEY that does not fit" => {}
        "no KEY" => ask.keys.clear(),
        "two KEYs" => ask.keys.push(another),
        "KEY in the answer only" => {
            ask.keys.clear();
            ask.sections[0].push(another);
        }
        _ => {
            ask.keys.clear();
            ask.sections[1].push(another);
        }
    }
}

fn algorithms() -> Vec<String> {
    let all = ["256", "384", "512"];
    let both: Vec<String> = cross(&all, &all);
    let both: Vec<&str> = both.iter().map(String::as_str).collect();
    cross(&RENEWAL_MODES, &both)
}

/// The mode, the signing key's algorithm and the one asked for.
fn renewal_algorithms(maker: &mut Maker, item: &str) -> bool {
    let (mode, both) = two_words(item);
    let (signing, wanted) = two_words(both);
    let s = maker.live_with(number(signing).into());
    let wanted = number(wanted).into();
    let mut ask = maker.renewal_of(&s, number(mode));
    tkey(&mut ask).algorithm = algorithm_name(wanted);
    let granted = asked(maker, &s, &ask, Want::Tkey(0));
    let made = maker.pair(s.pair).waiting.as_ref().map(|k| k.algorithm);
    granted && made == Some(wanted)
}

const ADOPTIONS: [&str; 28] = [
    "of the waiting key",
    "of the waiting key, NAME in other case",
    "of the waiting key, algorithm in other case",
    "of the waiting key, NAME compressed",
    "of the adopted key",
    "of the adopted key beside a waiting key",
    "of the adopted key, old names wrong",
    "of the adopted key, NAME in other case",
    "of the adopted key, revoked",
    "waiting NAME, adopted algorithm",
    "adopted NAME, other algorithm",
    "adopted NAME, unknown algorithm",
    "NAME never made",
    "NAME of an old key",
    "NAME with a leading zero",
    "NAME the suffix alone",
    "NAME the root",
    "NAME of another pair's adopted key",
    "NAME of another pair's waiting key",
    "no waiting key",
    "OldName in other case",
    "OldAlgorithm in other case",
    "OldName of no key",
    "OldName of the waiting key",
    "OldName of another pair's key",
    "OldAlgorithm of another key",
    "OldAlgorithm unknown",
    "BADNAME over BADKEY",
];

fn adoption(maker: &mut Maker, item: &str) -> bool {
    let s = adoption_signer(maker, item);
    let (name, algorithm) = adoption_names(maker, &s, item);
    let mut ask = maker.adoption(&s, &name, 256);
    tkey(&mut ask).algorithm = algorithm;
    match item {
        "of the waiting key, NAME compressed" => {
            ask.questions[0].name = name;
            ask.squeeze = true;
        }
        "of the adopted key, old names wrong" | "BADNAME over BADKEY" => {
            bend_old(maker, &s, &mut ask, "OldName of no key");
        }
        _ if item.starts_with("Old") => bend_old(maker, &s, &mut ask, item),
        _ => {}
    }
    asked(maker, &s, &ask, Want::Tkey(adoption_error(item)))
}

fn adoption_error(item: &str) -> u16 {
    match item {
        "OldName in other case" | "OldAlgorithm in other case" => 0,
        _ if item.starts_with("of the ") => 0,
        _ if item.starts_with("Old") => 17,
        _ => 20,
    }
}

fn adoption_signer(maker: &mut Maker, item: &str) -> Signer {
    match item {
        "of the adopted key" | "no waiting key" => maker.without_waiting(),
        "of the adopted key, revoked" => maker.revoked(),
        "adopted NAME, other algorithm"
        | "adopted NAME, unknown algorithm"
        | "of the adopted key, NAME in other case"
        | "of the adopted key, old names wrong" => maker.live(),
        "NAME of an old key" => maker.with_old(),
        "waiting NAME, adopted algorithm" => waiting_of_other_algorithm(maker),
        _ => maker.with_waiting(),
    }
}

/// A waiting key whose algorithm is not the adopted key's.
fn waiting_of_other_algorithm(maker: &mut Maker) -> Signer {
    let s = maker.live();
    let mut ask = maker.renewal(&s);
    tkey(&mut ask).algorithm = algorithm_name(other_than(s.algorithm));
    let call = maker.call_for(&ask, s.time);
    maker.send(&call, &ask.octets());
    s
}

fn adoption_names(maker: &mut Maker, s: &Signer, item: &str) -> (Vec<u8>, Vec<u8>) {
    let pair = maker.pair(s.pair).clone();
    let own = (s.name(), s.algorithm_name());
    let waiting = match &pair.waiting {
        Some(k) => (key_name(k.serial, &s.suffix), algorithm_name(k.algorithm)),
        None => (key_name(pair.next - 1, &s.suffix), algorithm_name(256)),
    };
    match item {
        "of the waiting key, NAME in other case" => (maker.rng.mixed_case(&waiting.0), waiting.1),
        "of the waiting key, algorithm in other case" => {
            (waiting.0, maker.rng.mixed_case(&waiting.1))
        }
        "of the adopted key, NAME in other case" => (maker.rng.mixed_case(&own.0), own.1),
        _ if item.starts_with("of the adopted key") => own,
        "waiting NAME, adopted algorithm" => (waiting.0, own.1),
        "adopted NAME, other algorithm" => (own.0, algorithm_name(other_than(s.algorithm))),
        "adopted NAME, unknown algorithm" => (own.0, name(&[b"hmac-sha1"])),
        "NAME never made" | "BADNAME over BADKEY" => (key_name(pair.next, &s.suffix), own.1),
        "no waiting key" => (key_name(pair.next + 3, &s.suffix), own.1),
        "NAME of an old key" => (key_name(s.serial - 1, &s.suffix), own.1),
        "NAME with a leading zero" => {
            let text = format!("0{}", s.serial + 1);
            (joined(&[&label(text.as_bytes()), &s.suffix]), waiting.1)
        }
        "NAME the suffix alone" => (s.suffix.clone(), own.1),
        "NAME the root" => (vec![0], own.1),
        "NAME of another pair's adopted key" => {
            let other = maker.stranger(s);
            (other.name(), other.algorithm_name())
        }
        "NAME of another pair's waiting key" => others_waiting(maker, s),
        _ => waiting,
    }
}

fn others_waiting(maker: &mut Maker, s: &Signer) -> (Vec<u8>, Vec<u8>) {
    let other = maker.stranger(s);
    maker.issue(s.time, other.pair, 256);
    let other = maker.signer(other.pair, s.time);
    maker.grant(&other);
    let key = maker.pair(other.pair).waiting.clone();
    let (serial, algorithm) = key.map_or((0, 256), |k| (k.serial, k.algorithm));
    (key_name(serial, &other.suffix), algorithm_name(algorithm))
}

const DELETIONS: [&str; 15] = [
    "of the signing key",
    "of the signing key, NAME in other case",
    "of the signing key, NAME compressed",
    "of the signing key, unknown algorithm",
    "of the signing key, other data odd",
    "NAME never made",
    "NAME of an old key",
    "NAME with a leading zero",
    "NAME the suffix alone",
    "NAME the root",
    "NAME with a label more",
    "NAME of another pair's key",
    "NAME of another pair's waiting key",
    "NAME of the waiting key",
    "of the signing key, revoked",
];

fn deletion(maker: &mut Maker, item: &str) -> bool {
    let s = match item {
        "NAME of the waiting key" => maker.with_waiting(),
        "of the signing key, revoked" => maker.revoked(),
        "NAME of an old key" => maker.with_old(),
        _ => maker.live(),
    };
    let name = deletion_name(maker, &s, item);
    let mut ask = maker.deletion(&s, &name);
    match item {
        "of the signing key, NAME compressed" => {
            ask.questions[0].name = s.suffix.clone();
            ask.squeeze = true;
        }
        "of the signing key, unknown algorithm" => {
            tkey(&mut ask).algorithm = wire::name(&[b"gss-tsig"]);
        }
        "of the signing key, other data odd" => tkey(&mut ask).other = maker.rng.octets(9),
        _ => {}
    }
    let want = match item {
        "NAME of the waiting key" | "of the signing key, revoked" => Want::Partial,
        _ if item.starts_with("NAME") => Want::Tkey(20),
        _ => Want::Tkey(0),
    };
    let as_wanted = asked(maker, &s, &ask, want);
    let stays = maker.pair(s.pair).adopted.is_some();
    as_wanted && stays == (want != Want::Tkey(0))
}

fn deletion_name(maker: &mut Maker, s: &Signer, item: &str) -> Vec<u8> {
    let pair = maker.pair(s.pair).clone();
    match item {
        "of the signing key, NAME in other case" => maker.rng.mixed_case(&s.name()),
        "NAME never made" => key_name(pair.next, &s.suffix),
        "NAME of an old key" => key_name(s.serial - 1, &s.suffix),
        "NAME with a leading zero" => {
            joined(&[&label(format!("0{}", s.serial).as_bytes()), &s.suffix])
        }
        "NAME the suffix alone" => s.suffix.clone(),
        "NAME the root" => vec![0],
        "NAME with a label more" => joined(&[&label(b"0"), &s.name()]),
        "NAME of another pair's key" => maker.stranger(s).name(),
        "NAME of another pair's waiting key" => others_waiting(maker, s).0,
        "NAME of the waiting key" => {
            let serial = pair.waiting.as_ref().map_or(0, |k| k.serial);
            key_name(serial, &s.suffix)
        }
        _ => s.name(),
    }
}
