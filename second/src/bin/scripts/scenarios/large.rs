//! Messages, replies and lines at their greatest size. Rare, since each is long.

use super::names::pointer_chain;
use super::{list, signing, Group};
use crate::desk::Want;
use crate::maker::{tkey, Call, Maker, Signer, LINE_LIMIT};
use crate::wire::{self, label, name, name_of, pointer, record, Ask};

pub fn groups() -> Vec<Group> {
    vec![Group {
        name: "large",
        weight: 5,
        items: || list(&[&LARGE[..], &signing::LARGE].concat()),
        run: large,
    }]
}

pub const MAX: usize = 65_535;

const LARGE: [&str; 30] = [
    "signed message of 65535",
    "signed message of 65536",
    "unsigned message of 65535",
    "message of 65535 that does not read",
    "look at 65535",
    "look at 65536",
    "message of 90000",
    "renewal of 65535",
    "renewal, reply of 65534",
    "renewal, reply of 65535",
    "renewal, reply of 65536",
    "4097, reply of 65534",
    "4097, reply of 65535",
    "4097, reply of 65536",
    "4097, record of 65800",
    "4097, record of 65801",
    "4099, reply of 65535",
    "4099, reply of 65536",
    "TKEY error, reply of 65535",
    "TKEY error, reply of 65536",
    "adoption, reply of 65536",
    "deletion, reply of 65536",
    "pointer to 8192",
    "pointer to 16383",
    "longest chain",
    "thousands of records",
    "line of 200000 octets",
    "line of 200001 octets",
    "line of 200005 octets, list at its end",
    "line of 262148 octets, list at its end",
];

fn large(maker: &mut Maker, item: &str) -> bool {
    if signing::LARGE.contains(&item) {
        return signing::large(maker, item);
    }
    let s = maker.live();
    let size: usize = item
        .rsplit(' ')
        .next()
        .and_then(|w| w.parse().ok())
        .unwrap_or(MAX);
    match item {
        "longest chain" => longest_chain(maker, &s),
        "pointer to 8192" => high_pointer(maker, &s, 8192),
        "pointer to 16383" => high_pointer(maker, &s, 16_383),
        "thousands of records" => many_records(maker, &s),
        "line of 200005 octets, list at its end" => list_at_end(maker, LINE_LIMIT + 5),
        "line of 262148 octets, list at its end" => list_at_end(maker, (1 << 18) + 4),
        _ if item.starts_with("line") => long_line(maker, item),
        "renewal of 65535" => large_renewal(maker, &s),
        _ if item.contains("record of") => large_record(maker, &s, size),
        _ if item.contains("reply of") => large_reply(maker, &s, item, size),
        _ => large_message(maker, &s, item, size),
    }
}

/// Octets that are mostly alike: the script is read by people too.
pub fn padding(length: usize) -> Vec<u8> {
    vec![0xab; length]
}

/// Pads a record of no concern until the whole message has this length.
pub fn padded(mut ask: Ask, length: usize) -> Vec<u8> {
    ask.sections[0].push(record(&[0], wire::NULL, wire::IN, &[]));
    let missing = length - ask.octets().len();
    if let Some(last) = ask.sections[0].last_mut() {
        last.data = padding(missing);
    }
    ask.octets()
}

fn large_message(maker: &mut Maker, s: &Signer, item: &str, size: usize) -> bool {
    let call = maker.call(s.time);
    let signed = maker.ordinary(s);
    match item {
        "message of 90000" => maker.sends(&call, &padding(size), Want::Refused(4)),
        "unsigned message of 65535" => {
            let ask = maker.unsigned(s);
            maker.sends(&call, &padded(ask, size), Want::Handed)
        }
        "message of 65535 that does not read" => {
            let octets = padded(signed, MAX + 1);
            maker.sends(&call, &octets[..MAX], Want::Refused(6))
        }
        "look at 65535" => maker.look(&padded(signed, size)).pair == s.pair,
        "look at 65536" => Want::Refused(4).fits(&maker.look(&padded(signed, size))),
        "signed message of 65536" => maker.sends(&call, &padded(signed, size), Want::Refused(4)),
        _ => maker.sends(&call, &padded(signed, size), Want::Passed(0)),
    }
}

/// The KEY record takes all the octets there are, and is echoed.
fn large_renewal(maker: &mut Maker, s: &Signer) -> bool {
    let mut ask = maker.renewal(s);
    ask.keys[0].data.clear();
    let missing = MAX - ask.octets().len();
    ask.keys[0].data = padding(missing);
    let call = maker.call_for(&ask, s.time);
    let room = maker.due_reply(&call, &ask, Want::Tkey(0)).len() <= MAX;
    maker.asks(
        &call,
        &ask,
        if room {
            Want::Tkey(0)
        } else {
            Want::Refused(8)
        },
    )
}

/// The longest record that there is has no room in a reply; one octet more is no record.
fn large_record(maker: &mut Maker, s: &Signer, size: usize) -> bool {
    let ask = maker.renewal_of(s, wire::DIFFIE_HELLMAN);
    let mut call = maker.call_for(&ask, s.time);
    let longest = record(&name_of(255), wire::KEY, wire::IN, &padding(MAX));
    call.record = longest.octets();
    call.record.resize(size, 0);
    let want = match size > longest.octets().len() {
        true => Want::Refused(19),
        false => Want::Refused(8),
    };
    maker.asks(&call, &ask, want)
}

fn large_reply(maker: &mut Maker, s: &Signer, item: &str, size: usize) -> bool {
    let kind = item.split([',', ' ']).next().unwrap_or_default();
    let (call, ask, want) = ask_for_reply(maker, s, kind, size);
    let fits = ask.octets().len() <= MAX;
    fits && maker.asks(&call, &ask, want)
}

/// A reply may be longer than its request: names are written out, and the offer may be longer
/// than the request's key data. The signer's own record, which is not echoed, pays for less.
pub fn ask_for_reply(maker: &mut Maker, s: &Signer, kind: &str, size: usize) -> (Call, Ask, Want) {
    let question = name_of(255);
    let (mut ask, want) = match kind {
        "renewal" => (maker.renewal_of(s, wire::BY_SERVER), Want::Tkey(0)),
        "4097" => (maker.renewal_of(s, wire::DIFFIE_HELLMAN), Want::Tkey(0)),
        "4099" => (maker.renewal_of(s, wire::BY_RESOLVER), Want::Tkey(0)),
        "adoption" => (maker.adoption(s, &question, 256), Want::Tkey(20)),
        "deletion" => (maker.deletion(s, &question), Want::Tkey(20)),
        _ => (maker.request(s, 3, &question), Want::Tkey(19)),
    };
    ask.sections = [vec![], vec![], vec![]];
    ask.questions[0].name = question.clone();
    ask.squeeze = true;
    if let Some(key) = ask.keys.first_mut() {
        key.owner = question;
    }
    let mut call = maker.call_for(&ask, s.time);
    call.offer = maker.rng.octets(1024);
    call.room = 70_000;
    let missing = size - maker.due_reply(&call, &ask, want).len();
    match (kind, ask.keys.first_mut()) {
        ("4097", _) => {
            let lent = record(&[0], wire::KEY, wire::IN, &[]).octets();
            let missing = missing + call.record.len() - lent.len();
            call.record = record(&[0], wire::KEY, wire::IN, &padding(missing)).octets();
        }
        ("renewal", Some(key)) => key.data.extend(padding(missing)),
        _ => tkey(&mut ask).key.extend(padding(missing)),
    }
    let want = if size > MAX { Want::Refused(8) } else { want };
    (call, ask, want)
}

/// All of the reach of pointers, 16 KiB.
fn longest_chain(maker: &mut Maker, s: &Signer) -> bool {
    let mut ask = maker.unsigned(s);
    ask.sections = [vec![], vec![], vec![]];
    ask.questions.clear();
    let place: usize = 12 + 11;
    let count = (16_384 - place).div_ceil(2);
    let data = pointer_chain(place, count, 12);
    ask.sections[0].push(record(&[0], wire::NULL, wire::IN, &data));
    let mut tsig = maker.tsig(s);
    let open = &s.name()[..s.name().len() - 1];
    tsig.owner = wire::joined(&[open, &pointer(place + 2 * (count - 1))]);
    ask.tsig = Some(tsig);
    let call = maker.call(s.time);
    maker.sends(&call, &ask.octets(), Want::Passed(0))
}

/// A root stands at the target alone; every other octet of the data is no name.
fn high_pointer(maker: &mut Maker, s: &Signer, target: usize) -> bool {
    let mut ask = maker.unsigned(s);
    ask.sections = [vec![], vec![], vec![]];
    ask.questions.clear();
    let mut data = padding(target - (12 + 11));
    data.push(0);
    ask.sections[0].push(record(&[0], wire::NULL, wire::IN, &data));
    let mut tsig = maker.tsig(s);
    let open = &s.name()[..s.name().len() - 1];
    tsig.owner = wire::joined(&[open, &pointer(target)]);
    ask.tsig = Some(tsig);
    let call = maker.call(s.time);
    maker.sends(&call, &ask.octets(), Want::Passed(0))
}

fn many_records(maker: &mut Maker, s: &Signer) -> bool {
    let mut ask = maker.ordinary(s);
    ask.squeeze = false;
    ask.questions[0].name = name(&[b"w", b"example"]);
    for section in 0..3 {
        for _ in 0..maker.rng.within(300, 900) {
            let owner = match maker.rng.chance(50) {
                true => pointer(12),
                false => wire::joined(&[&label(b"x"), &pointer(14)]),
            };
            ask.sections[section].push(record(&owner, wire::A, wire::IN, &[]));
        }
    }
    let call = maker.call(s.time);
    maker.sends(&call, &ask.octets(), Want::Passed(0))
}

/// Leading zeros make a line as long as one likes. Were the longer one read, it would still
/// change nothing.
fn long_line(maker: &mut Maker, item: &str) -> bool {
    let length = match item {
        "line of 200000 octets" => LINE_LIMIT,
        _ => LINE_LIMIT + 1,
    };
    let clock = maker.table.clock.to_string();
    let zeros = "0".repeat(length - "revoke  0".len() - clock.len());
    let line = format!("revoke {zeros}{clock} 0");
    let seen = maker.line(line.as_bytes());
    match line.len() == LINE_LIMIT {
        true => Want::Refused(9).fits(&seen),
        false => seen.bad,
    }
}

/// A reader that takes the rest of a long line for a line of its own would list.
fn list_at_end(maker: &mut Maker, length: usize) -> bool {
    let line = "0".repeat(length - 4) + "list";
    maker.line(line.as_bytes()).bad
}
