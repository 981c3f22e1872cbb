//! Judging another server's replies (02, CR 12): our own reply in other writing, each field of it
//! changed, records moved, more and fewer, a TKEY that is ill formed.

use super::rooms::ask_for;
use super::{cross, list, two_words, Group};
use crate::compare::{record_fields, Field, Fields, HEADER, QUESTION, RECORD, TKEY_DATA};
use crate::desk::Want;
use crate::listing::Listing;
use crate::maker::{tkey, tsig, Judged, Maker, Signer};
use crate::wire::{self, joined, label, name, name_of, pointer, Ask, Record};

pub fn groups() -> Vec<Group> {
    vec![
        Group {
            name: "compared reply accepted",
            weight: 15,
            items: accepted_items,
            run: accepted,
        },
        Group {
            name: "compared field",
            weight: 60,
            items: field_items,
            run: |maker, item| {
                let (kind, field) = two_words(item);
                changed(maker, kind, &[field])
            },
        },
        Group {
            name: "compared fields",
            weight: 4,
            items: || list(&kinds()),
            run: two_changed,
        },
        Group {
            name: "compared reply reshaped",
            weight: 4,
            items: || list(&SHAPES),
            run: reshaped,
        },
        Group {
            name: "compared TKEY",
            weight: 5,
            items: || list(&TKEYS),
            run: ill_formed,
        },
    ]
}

/// Replies with questions alone.
pub const DENIALS: [&str; 8] = [
    "ill formed TSIG",
    "unsigned TKEY request",
    "BADKEY",
    "BADSIG",
    "BADTIME",
    "PartialRevoke",
    "MAC too short",
    "no TKEY",
];

/// Replies with a TKEY.
pub const OUTCOMES: [&str; 11] = [
    "TKEY error",
    "4097 not fitting",
    "4098 without an offer",
    "4099 not fitting",
    "renewal's BADALG",
    "renewal's BADTIME",
    "adoption",
    "re-adoption",
    "adoption of no key",
    "deletion",
    "deletion of no key",
];

/// Replies with a KEY as well.
pub const RENEWALS: [&str; 3] = ["renewal 4097", "renewal 4098", "renewal 4099"];

pub fn kinds() -> Vec<&'static str> {
    [&DENIALS[..], &OUTCOMES, &RENEWALS].concat()
}

/// What leads to a reply of this kind, before it is bent, as `ask_for` names it.
fn base(kind: &str) -> &str {
    match kind {
        "BADTIME" | "MAC too short" => "passed up",
        "no TKEY" => "TKEY error",
        "4097 not fitting" => "renewal 4097",
        "4099 not fitting" => "renewal 4099",
        "4098 without an offer" | "renewal's BADALG" | "renewal's BADTIME" => "renewal 4098",
        "adoption of no key" => "re-adoption",
        "deletion of no key" => "deletion",
        kind => kind,
    }
}

/// Such a call with the listing of the run's table, and the reply that the papers ask for. Key data
/// and a KEY's data are not empty.
pub fn reply_of(maker: &mut Maker, kind: &str) -> (Judged, Vec<u8>) {
    let (s, mut ask, want) = ask_for(maker, base(kind));
    fill_data(maker, &mut ask);
    let want = bend(maker, &s, &mut ask, kind).unwrap_or(want);
    let mut call = maker.call_for(&ask, s.time);
    match kind {
        "BADSIG" => call.good = false,
        "4097 not fitting" | "4099 not fitting" => call.fits = false,
        "4098 without an offer" => call.offer.clear(),
        _ => {}
    }
    let reply = maker.due_reply(&call, &ask, want);
    let judged = Judged {
        listing: Listing::of(&maker.table).text(),
        call,
        message: ask.octets(),
    };
    (judged, reply)
}

fn fill_data(maker: &mut Maker, ask: &mut Ask) {
    if let Some(tkey) = &mut ask.tkey {
        tkey.key = maker.rng.some_octets(2, 12);
    }
    for key in &mut ask.keys {
        key.data = maker.rng.some_octets(2, 24);
    }
}

fn bend(maker: &mut Maker, s: &Signer, ask: &mut Ask, kind: &str) -> Option<Want> {
    Some(match kind {
        "BADTIME" => {
            let tsig = tsig(ask);
            tsig.signed += u64::from(tsig.fudge) + 1;
            Want::BadTime
        }
        "MAC too short" => {
            let short = tsig(ask).mac.len() / 2 - 1;
            tsig(ask).mac.truncate(short);
            Want::Bad
        }
        "no TKEY" => {
            ask.tkey = None;
            Want::Bad
        }
        "4097 not fitting" => Want::Tkey(17),
        "4099 not fitting" => Want::Tkey(1),
        "4098 without an offer" => Want::Tkey(2),
        "renewal's BADALG" => {
            tkey(ask).algorithm = name(&[b"hmac-sha1"]);
            Want::Tkey(21)
        }
        "renewal's BADTIME" => {
            tkey(ask).expiration = tkey(ask).inception;
            Want::Tkey(18)
        }
        "adoption of no key" | "deletion of no key" => {
            let serial = maker.pair(s.pair).next;
            tkey(ask).owner = wire::key_name(serial, &s.suffix);
            Want::Tkey(20)
        }
        _ => return None,
    })
}

const WRITINGS: [&str; 3] = ["itself", "in other case", "with case folded"];
const SQUEEZED: [&str; 3] = [
    "compressed",
    "compressed in other case",
    "compressed here and there",
];

fn accepted_items() -> Vec<String> {
    let all = cross(&kinds(), &WRITINGS);
    let with_owners = [&OUTCOMES[..], &RENEWALS].concat();
    [all, cross(&with_owners, &SQUEEZED)].concat()
}

fn accepted(maker: &mut Maker, item: &str) -> bool {
    let (kind, writing) = two_words(item);
    let (judged, reply) = reply_of(maker, kind);
    let mut fields = Fields::of(&reply);
    let theirs = match writing {
        "itself" => reply,
        "in other case" => {
            fields.mix_case(&mut maker.rng);
            fields.lay().octets
        }
        "with case folded" => {
            for field in fields.all.iter_mut().filter(|field| field.is_name()) {
                field.octets.make_ascii_lowercase();
            }
            fields.lay().octets
        }
        "compressed" => fields.squeeze(&mut maker.rng, 100).octets,
        "compressed in other case" => {
            fields.mix_case(&mut maker.rng);
            fields.squeeze(&mut maker.rng, 100).octets
        }
        _ => fields.squeeze(&mut maker.rng, 50).octets,
    };
    maker.compares(&judged, &theirs, 0, 0)
}

/// The fields of each kind of reply; a repeated adoption is answered without other data.
fn field_items() -> Vec<String> {
    let named = |part: &str, words: &[&str]| -> Vec<String> {
        words.iter().map(|word| format!("{part} {word}")).collect()
    };
    let record = |part: &str| [named(part, &RECORD), named(part, &["data"])].concat();
    let denial = [named("header", &HEADER), named("question", &QUESTION)].concat();
    let data = [&RECORD[..], &TKEY_DATA, &["other data's case"]].concat();
    let outcome = [denial.clone(), named("TKEY", &data)].concat();
    let renewal = [outcome.clone(), record("echoed KEY")].concat();
    let lent = [renewal.clone(), record("lent KEY")].concat();
    let fields_of = |kind: &str| match kind {
        _ if DENIALS.contains(&kind) => denial.clone(),
        _ if OUTCOMES.contains(&kind) => outcome.clone(),
        "renewal 4097" => lent.clone(),
        _ => renewal.clone(),
    };
    let crossed = kinds().into_iter().flat_map(|kind| {
        let fields = fields_of(kind).into_iter();
        fields.map(move |field| format!("{kind}, {field}"))
    });
    let is_there = |item: &String| !item.starts_with("re-adoption, TKEY other data");
    crossed.filter(is_there).collect()
}

/// Changes these fields of a reply, and writes its names in some way: the first of them differs.
fn changed(maker: &mut Maker, kind: &str, items: &[&str]) -> bool {
    let (judged, reply) = reply_of(maker, kind);
    let mut fields = Fields::of(&reply);
    for item in items {
        let (part, word) = parts_of(item);
        change(maker, &mut fields, part, word);
    }
    let numbers = items.iter().map(|item| {
        let (part, word) = parts_of(item);
        let word = word.strip_suffix("'s case").unwrap_or(word);
        fields.find(part, word)
    });
    let first = numbers.min().expect("a field");
    differs(maker, &judged, fields, first)
}

/// Such as "echoed KEY" and "RDLENGTH".
fn parts_of(item: &str) -> (&str, &str) {
    let parts = ["header", "question", "TKEY", "lent KEY", "echoed KEY"];
    let split = |part| {
        item.strip_prefix(part)?
            .strip_prefix(' ')
            .map(|word| (part, word))
    };
    parts
        .into_iter()
        .find_map(split)
        .expect("a part and a word")
}

/// Writes the names in some way; this field differs.
fn differs(maker: &mut Maker, judged: &Judged, mut fields: Fields, number: usize) -> bool {
    if maker.rng.chance(50) {
        fields.mix_case(&mut maker.rng);
    }
    let percent = *maker.rng.pick(&[0, 0, 50, 100]);
    let laid = fields.squeeze(&mut maker.rng, percent);
    maker.compares(judged, &laid.octets, 21, laid.places[number])
}

/// Changes one field; what is to be read still reads.
fn change(maker: &mut Maker, fields: &mut Fields, part: &str, word: &str) {
    match (part, word) {
        ("header", "ID" | "flags") => flip(maker, fields.get(part, word)),
        ("header", count) => miscount(maker, fields, count),
        (_, "name" | "owner") => rename(maker, fields.get(part, word)),
        ("TKEY", "RDLENGTH") => resize_tkey(maker, fields),
        (_, "RDLENGTH") => {
            let data = &mut fields.get(part, "data").octets;
            resize(maker, data);
            let length = data.len();
            fields.get(part, word).set(length);
        }
        (_, "algorithm") => misspell(maker, &mut fields.get(part, word).octets),
        (_, "key size") if maker.rng.chance(50) => shift(maker, fields),
        (_, "other data's case") => {
            let other = &mut fields.get(part, "other data").octets;
            let was = other.clone();
            while *other == was {
                *other = maker.rng.mixed_case(&was);
            }
        }
        _ => flip(maker, fields.get(part, word)),
    }
}

/// One bit of it.
fn flip(maker: &mut Maker, field: &mut Field) {
    let place = maker.rng.below(field.octets.len() as u64) as usize;
    field.octets[place] ^= 1 << maker.rng.below(8);
}

fn resize(maker: &mut Maker, data: &mut Vec<u8>) {
    match maker.rng.chance(50) {
        true => drop(data.pop()),
        false => data.extend(maker.rng.some_octets(1, 3)),
    }
}

/// The TKEY stays well formed, or its sizes stay as they were.
fn resize_tkey(maker: &mut Maker, fields: &mut Fields) {
    let sizes = ["key size", "other size"].map(|size| fields.get("TKEY", size).number());
    resize(maker, &mut fields.get("TKEY", "key data").octets);
    fields.fit_tkey();
    if maker.rng.chance(50) {
        fields.get("TKEY", "key size").set(sizes[0].into());
        fields.get("TKEY", "other size").set(sizes[1].into());
    }
}

/// Some octets of key data become other data, so that RDLENGTH stays and the TKEY is well formed.
fn shift(maker: &mut Maker, fields: &mut Fields) {
    let key = &mut fields.get("TKEY", "key data").octets;
    let keep = maker.rng.below(key.len() as u64) as usize;
    let moved = key.split_off(keep);
    fields.get("TKEY", "other data").octets.splice(..0, moved);
    fields.fit_tkey();
}

/// One octet of a label, and not in its case alone.
fn misspell(maker: &mut Maker, name: &mut [u8]) {
    let mut at = 0;
    let mut inside = Vec::new();
    while name[at] != 0 {
        let end = at + 1 + usize::from(name[at]);
        inside.extend(at + 1..end);
        at = end;
    }
    let place = *maker.rng.pick(&inside);
    name[place] ^= 1;
}

fn rename(maker: &mut Maker, field: &mut Field) {
    let first = usize::from(field.octets[0]);
    let is_root = first == 0;
    let longer = joined(&[&label(b"x"), &field.octets]);
    match maker.rng.below(4) {
        0 if longer.len() < 256 => field.octets = longer,
        1 if !is_root => drop(field.octets.drain(..=first)),
        2 if !is_root => field.octets = vec![0],
        _ if !is_root => misspell(maker, &mut field.octets),
        _ => field.octets = longer,
    }
}

/// The answers end where the echoed KEY begins.
fn end_of_answers(fields: &Fields) -> usize {
    fields.start("echoed KEY")
}

/// One more in this section, or one less, and the count with it.
fn miscount(maker: &mut Maker, fields: &mut Fields, count: &str) {
    let other = maker.by_the_way();
    let more = record_fields("more", &other);
    let last = match count {
        "QDCOUNT" => "question",
        "ANCOUNT" if fields.has("lent KEY") => "lent KEY",
        "ANCOUNT" => "TKEY",
        "ARCOUNT" => "echoed KEY",
        _ => "",
    };
    if fields.has(last) && maker.rng.chance(40) {
        fields.cut(last);
        fields.add("header", count, -1);
        return;
    }
    let at = match count {
        "QDCOUNT" => fields.find("question", "class") + 1,
        "ANCOUNT" if maker.rng.chance(50) && fields.has("TKEY") => fields.start("TKEY"),
        "ARCOUNT" if maker.rng.chance(50) => fields.all.len(),
        _ => end_of_answers(fields),
    };
    let more = match count {
        "QDCOUNT" => more[..3].to_vec(),
        _ => more,
    };
    fields.put(at, more);
    fields.add("header", count, 1);
}

fn two_changed(maker: &mut Maker, kind: &str) -> bool {
    let start = format!("{kind}, ");
    let all = field_items();
    let of_kind: Vec<&str> = all
        .iter()
        .filter_map(|item| item.strip_prefix(&start))
        .collect();
    // One field's change would undo or move the other's.
    let alone = [
        "QDCOUNT", "ANCOUNT", "NSCOUNT", "ARCOUNT", "RDLENGTH", "size", "data",
    ];
    let apart: Vec<&str> = of_kind
        .into_iter()
        .filter(|item| !alone.iter().any(|word| item.contains(word)))
        .collect();
    let first = maker.rng.below(apart.len() as u64) as usize;
    let step = maker.rng.within(1, apart.len() as u64 - 1) as usize;
    let second = (first + step) % apart.len();
    changed(maker, kind, &[apart[second], apart[first]])
}

const SHAPES: [&str; 18] = [
    "TKEY and lent KEY exchanged",
    "lent and echoed KEY exchanged",
    "echoed KEY before the TKEY",
    "TKEY in the authority section",
    "TKEY in the additional section",
    "lent KEY in the additional section",
    "echoed KEY in the answer section",
    "echoed KEY in the authority section",
    "TKEY twice",
    "echoed KEY twice",
    "question twice",
    "lent KEY missing",
    "echoed KEY missing",
    "TKEY missing",
    "all records missing",
    "question missing",
    "a TSIG left on",
    "an OPT more",
];

/// A renewal by Diffie-Hellman has all that a reply can have.
fn reshaped(maker: &mut Maker, item: &str) -> bool {
    let (judged, reply) = reply_of(maker, "renewal 4097");
    let mut fields = Fields::of(&reply);
    let more = match item {
        "an OPT more" => wire::record(&[0], 41, 1232, &[]),
        _ => maker.tsig_of(name(&[b"k"]), 256, judged.call.time).record(),
    };
    move_records(&mut fields, item, &more);
    let by = counts_of(item);
    for (count, by) in HEADER[2..].iter().zip(by) {
        fields.add("header", count, by);
    }
    match by.iter().position(|&by| by != 0) {
        Some(count) => differs(maker, &judged, fields, 2 + count),
        None => first_differs(maker, &judged, fields, &reply),
    }
}

fn move_records(fields: &mut Fields, item: &str, more: &Record) {
    match item {
        "TKEY and lent KEY exchanged" | "TKEY in the authority section" => {
            fields.move_before("TKEY", "echoed KEY");
        }
        "TKEY in the additional section" => fields.move_before("TKEY", "end"),
        "lent and echoed KEY exchanged" => fields.move_before("lent KEY", "end"),
        "echoed KEY before the TKEY" => fields.move_before("echoed KEY", "TKEY"),
        "TKEY twice" => fields.double("TKEY"),
        "echoed KEY twice" => fields.double("echoed KEY"),
        "question twice" => fields.double("question"),
        "lent KEY missing" => drop(fields.cut("lent KEY")),
        "echoed KEY missing" => drop(fields.cut("echoed KEY")),
        "TKEY missing" => drop(fields.cut("TKEY")),
        "question missing" => drop(fields.cut("question")),
        "all records missing" => fields.all.truncate(fields.start("TKEY")),
        "a TSIG left on" | "an OPT more" => {
            fields.put(fields.all.len(), record_fields("more", more));
        }
        // The same records, counted otherwise.
        _ => {}
    }
}

/// What is added to each count. The first that is changed differs.
fn counts_of(item: &str) -> [i32; 4] {
    match item {
        "question twice" => [1, 0, 0, 0],
        "question missing" => [-1, 0, 0, 0],
        "TKEY in the authority section" => [0, -1, 1, 0],
        "TKEY in the additional section" | "lent KEY in the additional section" => [0, -1, 0, 1],
        "echoed KEY in the answer section" => [0, 1, 0, -1],
        "echoed KEY in the authority section" => [0, 0, 1, -1],
        "TKEY twice" => [0, 1, 0, 0],
        "lent KEY missing" | "TKEY missing" => [0, -1, 0, 0],
        "all records missing" => [0, -2, 0, -1],
        "echoed KEY twice" | "a TSIG left on" | "an OPT more" => [0, 0, 0, 1],
        "echoed KEY missing" => [0, 0, 0, -1],
        _ => [0; 4],
    }
}

/// Records in another order: their first field that is not ours, or none.
fn first_differs(maker: &mut Maker, judged: &Judged, fields: Fields, reply: &[u8]) -> bool {
    let ours = Fields::of(reply);
    let pairs = ours.all.iter().zip(&fields.all);
    let is_other = |(one, other): (&Field, &Field)| match one.is_name() {
        true => !one.octets.eq_ignore_ascii_case(&other.octets),
        false => one.octets != other.octets,
    };
    match pairs.into_iter().position(is_other) {
        Some(number) => differs(maker, judged, fields, number),
        None => maker.compares(judged, &fields.lay().octets, 0, 0),
    }
}

/// RDLENGTH is ours in all of them.
const TKEYS: [&str; 25] = [
    "algorithm compressed",
    "algorithm ended by a pointer",
    "algorithm with a label octet 64",
    "algorithm with a label octet 191",
    "algorithm without its end",
    "algorithm past the data",
    "algorithm of 256 octets",
    "algorithm of 255 octets",
    "algorithm the root",
    "algorithm with a label less",
    "algorithm with a label more",
    "algorithm filling the data",
    "key size one more",
    "key size one less",
    "key size 0",
    "key size 65535",
    "key size to the end of the data",
    "key size past the data",
    "key size more and other size less",
    "key size less and other size more",
    "other size one more",
    "other size one less",
    "other size 0",
    "other size 65535",
    "data all 0",
];

fn ill_formed(maker: &mut Maker, item: &str) -> bool {
    let kind = *maker
        .rng
        .pick(&["renewal 4097", "renewal 4098", "adoption", "deletion"]);
    let (judged, reply) = match item {
        "algorithm of 255 octets" | "algorithm of 256 octets" => reply_about(maker, 300),
        _ if item.starts_with("algorithm") => reply_about(maker, 20),
        _ => reply_of(maker, kind),
    };
    let mut fields = Fields::of(&reply);
    let word = match item {
        "data all 0" => "algorithm",
        _ => item
            .find(" size")
            .map_or("algorithm", |end| &item[..end + " size".len()]),
    };
    match word {
        "algorithm" => bend_algorithm(&mut fields, item),
        _ => bend_size(maker, &mut fields, word, item),
    }
    // The names stay as they are: an algorithm may lead into the question.
    let laid = fields.lay();
    let number = fields.find("TKEY", word);
    laid.octets.len() == reply.len()
        && maker.compares(&judged, &laid.octets, 21, laid.places[number])
}

/// A renewal by resolver assignment with so much key data, whose question's name ends with the name
/// of its algorithm.
fn reply_about(maker: &mut Maker, size: u64) -> (Judged, Vec<u8>) {
    let (s, mut ask, want) = ask_for(maker, "renewal 4099");
    let algorithm = tkey(&mut ask).algorithm.clone();
    ask.questions[0].name = joined(&[&label(b"about"), &algorithm]);
    ask.keys[0].data = maker.rng.some_octets(2, 24);
    tkey(&mut ask).key = maker.rng.octets(size);
    let call = maker.call_for(&ask, s.time);
    let reply = maker.due_reply(&call, &ask, want);
    let judged = Judged {
        listing: Listing::of(&maker.table).text(),
        call,
        message: ask.octets(),
    };
    (judged, reply)
}

/// Puts other octets in the place of the algorithm, or of all data; what follows is filled up or
/// cut, so that RDLENGTH stays.
fn bend_algorithm(fields: &mut Fields, item: &str) {
    let was = fields.get("TKEY", "algorithm").octets.clone();
    let size = usize::from(fields.get("TKEY", "RDLENGTH").number());
    let dot = was[..was.len() - 1].to_vec();
    let about = 12 + 1 + "about".len();
    let algorithm = match item {
        "algorithm compressed" => pointer(about),
        "algorithm ended by a pointer" => joined(&[&dot, &pointer(about + dot.len())]),
        "algorithm with a label octet 64" => joined(&[&[64], &[b'h'; 64], &[0]]),
        "algorithm with a label octet 191" => joined(&[&[191], &[b'h'; 191], &[0]]),
        "algorithm without its end" => joined(&[&dot, &label(b"x")]),
        "algorithm past the data" => joined(&[&vec![1; (size - 1) & !1], &[63, 63]]),
        "algorithm of 256 octets" => name_of(256),
        "algorithm of 255 octets" => name_of(255),
        "algorithm the root" => vec![0],
        "algorithm with a label less" => name(&[b"hmac"]),
        "algorithm with a label more" => joined(&[&dot, &label(b"x"), &[0]]),
        "algorithm filling the data" => name_of(size),
        _ => vec![0; size],
    };
    let others = TKEY_DATA[1..]
        .iter()
        .map(|word| fields.get("TKEY", word).octets.clone());
    let rest = others.collect::<Vec<_>>().concat();
    let mut data = joined(&[&algorithm, &rest]);
    data.resize(size, 0);
    for word in TKEY_DATA {
        fields.get("TKEY", word).octets.clear();
    }
    fields.get("TKEY", "algorithm").octets = data;
}

fn bend_size(maker: &mut Maker, fields: &mut Fields, word: &str, item: &str) {
    let key = fields.get("TKEY", "key data").octets.len();
    let other = fields.get("TKEY", "other data").octets.len();
    let has = if word == "key size" { key } else { other };
    let size = match &item[word.len() + 1..] {
        "one more" => has + 1,
        "one less" => has - 1,
        "0" => 0,
        "65535" => 65_535,
        "to the end of the data" => key + 2 + other,
        "past the data" => key + 2 + other + 1,
        "more and other size less" => {
            let by = maker.rng.within(1, other as u64) as usize;
            let rest = fields.get("TKEY", "other data").octets.split_off(by);
            let moved = std::mem::replace(&mut fields.get("TKEY", "other data").octets, rest);
            fields.get("TKEY", "key data").octets.extend(moved);
            return fields.fit_tkey();
        }
        _ => return shift(maker, fields),
    };
    fields.get("TKEY", word).set(size);
}
