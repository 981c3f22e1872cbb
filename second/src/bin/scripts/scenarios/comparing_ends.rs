//! Judging another server's replies (02, CR 12): the refusals before a field differs, replies that
//! are not there, and replies to several questions.

use super::comparing::{kinds, reply_of, DENIALS, OUTCOMES, RENEWALS};
use super::rooms::ask_for;
use super::{cross, list, two_words, Group};
use crate::compare::{record_fields, Fields};
use crate::desk::{Table, Want};
use crate::listing::{Line, Listing, Said, LINE, RULE};
use crate::maker::{tsig, Call, Judged, Maker, TOP};
use crate::wire::{self, joined, label, name, name_of, pointer, Ask, Question};

pub fn groups() -> Vec<Group> {
    vec![
        Group {
            name: "compared reply unread",
            weight: 14,
            items: unread_items,
            run: unread,
        },
        Group {
            name: "compared size",
            weight: 3,
            items: || list(&SIZES),
            run: sized,
        },
        Group {
            name: "compared reply missing",
            weight: 4,
            items: || list(&kinds()),
            run: |maker, kind| {
                let (judged, _) = reply_of(maker, kind);
                maker.compares(&judged, &[], 21, 0)
            },
        },
        Group {
            name: "compared with no reply",
            weight: 8,
            items: unanswered_items,
            run: unanswered,
        },
        Group {
            name: "compare's listing",
            weight: 4,
            items: || list(&LISTINGS),
            run: listed,
        },
        Group {
            name: "compared questions",
            weight: 4,
            items: || list(&QUESTIONS),
            run: questions,
        },
        Group {
            name: "compared reply damaged",
            weight: 18,
            items: || cross(&kinds(), &DAMAGES),
            run: damaged,
        },
    ]
}

/// Of every reply, and of those with a TKEY.
const UNREAD: [&str; 9] = [
    "cut off",
    "last octet missing",
    "an octet left over",
    "octets left over and another ID",
    "NSCOUNT one more",
    "ARCOUNT one more",
    "ARCOUNT 65535",
    "question a pointer",
    "question with a label octet 64",
];

const UNREAD_RECORD: [&str; 9] = [
    "ANCOUNT one less",
    "RDLENGTH one more",
    "RDLENGTH one less",
    "RDLENGTH 65535",
    "owner a pointer to itself",
    "owner a pointer forward",
    "owner a pointer to octet 11",
    "owner with a label octet 191",
    "owner of 256 octets",
];

const UNREAD_DENIAL: [&str; 2] = ["QDCOUNT one more", "QDCOUNT one less"];

fn unread_items() -> Vec<String> {
    let with_tkey = [OUTCOMES[0], OUTCOMES[6], RENEWALS[0], RENEWALS[1]];
    let denials = &DENIALS[2..4];
    let all = [denials, &with_tkey].concat();
    [
        cross(&all, &UNREAD),
        cross(&with_tkey, &UNREAD_RECORD),
        cross(denials, &UNREAD_DENIAL),
    ]
    .concat()
}

/// FORMAT at the place that CR 6 gives, whatever differs.
fn unread(maker: &mut Maker, item: &str) -> bool {
    let (kind, way) = two_words(item);
    let (judged, reply) = reply_of(maker, kind);
    let mut fields = Fields::of(&reply);
    let end = reply.len();
    if way.starts_with("owner") || way.starts_with("question") {
        return bad_name(maker, &judged, fields, way);
    }
    if let Some(place) = bad_number(&mut fields, end, way) {
        return maker.compares(&judged, &fields.lay().octets, 6, place);
    }
    let mut theirs = reply;
    let end = match way {
        "cut off" => maker.rng.within(12, end as u64 - 1) as usize,
        "last octet missing" => end - 1,
        _ => end,
    };
    theirs.truncate(end);
    match way {
        "an octet left over" => theirs.extend(maker.rng.octets(1)),
        "octets left over and another ID" => {
            theirs[1] ^= 1;
            theirs.extend(maker.rng.some_octets(1, 9));
        }
        _ => {}
    }
    maker.compares(&judged, &theirs, 6, end)
}

/// A count or the last RDLENGTH says too much or too little of a reply of this length; the place
/// where an octet is missing, or the first that is left over.
fn bad_number(fields: &mut Fields, end: usize, way: &str) -> Option<usize> {
    let last = last_record(fields);
    let (word, change) = way.split_once(' ')?;
    let part = match word {
        "RDLENGTH" => last,
        _ if word.ends_with("COUNT") => "header",
        _ => return None,
    };
    match change {
        "65535" => fields.get(part, word).set(65_535),
        "one more" => fields.add(part, word, 1),
        _ => fields.add(part, word, -1),
    }
    Some(match (word, change) {
        ("RDLENGTH", "one less") => end - 1,
        ("QDCOUNT", "one less") => 12,
        ("ANCOUNT", "one less") => fields.lay().places[fields.start(last)],
        _ => end,
    })
}

fn last_record(fields: &Fields) -> &'static str {
    fields.all.last().expect("a field").part
}

/// The question's name, or the last owner, breaks a rule.
fn bad_name(maker: &mut Maker, judged: &Judged, mut fields: Fields, way: &str) -> bool {
    let (part, word) = match way.starts_with("question") {
        true => ("question", "name"),
        false => (last_record(&fields), "owner"),
    };
    let number = fields.find(part, word);
    let start = fields.lay().places[number];
    // Where the name is too long, the label that takes it past 255.
    let (bad, place) = match way {
        "question a pointer" => (pointer(maker.rng.within(0, 40) as usize), start),
        "question with a label octet 64" => (joined(&[&[64], &[b'q'; 64], &[0]]), start),
        "owner a pointer to itself" => (pointer(start), start),
        "owner a pointer forward" => (pointer(start + 2), start),
        "owner a pointer to octet 11" => (joined(&[&label(b"k"), &pointer(11)]), start + 2),
        "owner with a label octet 191" => (joined(&[&label(b"k"), &[191, 0]]), start + 2),
        _ => (name_of(256), start + last_label(&name_of(256))),
    };
    fields.all[number].octets = bad;
    maker.compares(judged, &fields.lay().octets, 6, place)
}

/// Where the last label of a name begins.
fn last_label(name: &[u8]) -> usize {
    let mut at = 0;
    loop {
        let next = at + 1 + usize::from(name[at]);
        if name[next] == 0 {
            return at;
        }
        at = next;
    }
}

const SIZES: [&str; 14] = [
    "1 octet",
    "11 octets",
    "the first 11 octets",
    "the header alone",
    "the header alone without counts",
    "the header and the question",
    "65535 octets",
    "65535 octets and a count more",
    "65536 octets",
    "65536 octets of ours",
    "over 65536 octets",
    "65536 octets that do not read",
    "ours of 65535 octets and theirs none",
    "ours of 65535 octets and theirs short",
];

fn sized(maker: &mut Maker, item: &str) -> bool {
    if item.starts_with("ours") {
        return ours_is_long(maker, item);
    }
    let all = kinds();
    let kind = match item {
        "65536 octets of ours" => "BADSIG",
        "the header and the question" => "renewal 4098",
        _ => *maker.rng.pick(&all),
    };
    let (judged, reply) = reply_of(maker, kind);
    let mut fields = Fields::of(&reply);
    let (theirs, number, place) = match item {
        "1 octet" => (maker.rng.octets(1), 4, 0),
        "11 octets" => (maker.rng.octets(11), 4, 0),
        "the first 11 octets" => (reply[..11].to_vec(), 4, 0),
        "the header alone" => (reply[..12].to_vec(), 6, 12),
        "the header alone without counts" => {
            let header = joined(&[&reply[..4], &[0; 8]]);
            (header, 21, 4)
        }
        "the header and the question" => {
            fields.all.truncate(fields.start("TKEY"));
            fields.get("header", "ANCOUNT").set(0);
            fields.get("header", "ARCOUNT").set(0);
            (fields.lay().octets, 21, 6)
        }
        "65535 octets" => (filled(fields, 65_535), 21, 10),
        "65535 octets and a count more" => {
            fields.add("header", "NSCOUNT", 1);
            (filled(fields, 65_535), 6, 65_535)
        }
        "over 65536 octets" => {
            let length = maker.rng.within(65_537, 70_000) as usize;
            (filled(fields, length), 4, 0)
        }
        "65536 octets that do not read" => (vec![255; 65_536], 4, 0),
        "65536 octets of ours" => {
            let left = 65_536 - reply.len();
            (joined(&[&reply, &vec![0; left]]), 4, 0)
        }
        _ => (filled(fields, 65_536), 4, 0),
    };
    maker.compares(&judged, &theirs, number, place)
}

/// With one more record behind the others, so that the reply has this length.
fn filled(mut fields: Fields, length: usize) -> Vec<u8> {
    let size = length - fields.lay().octets.len() - 11;
    let more = wire::record(&[0], wire::NULL, wire::IN, &vec![7; size.min(65_535)]);
    fields.put(fields.all.len(), record_fields("more", &more));
    fields.add("header", "ARCOUNT", 1);
    let mut octets = fields.lay().octets;
    octets.resize(length, 0);
    octets
}

/// A renewal by Diffie-Hellman whose lent record makes the reply as long as this.
fn renewal_of_length(maker: &mut Maker, length: usize) -> (Judged, Vec<u8>) {
    let (mut judged, reply) = reply_of(maker, "renewal 4097");
    let more = length - reply.len();
    let record = &mut judged.call.record;
    let owner = record.iter().position(|&o| o == 0).expect("the root") + 1;
    let size = record.len() - owner - 10 + more;
    record[owner + 8..owner + 10].copy_from_slice(&(size as u16).to_be_bytes());
    record.extend(vec![9; more]);
    (judged, reply)
}

fn ours_is_long(maker: &mut Maker, item: &str) -> bool {
    let (judged, short) = renewal_of_length(maker, 65_535);
    if item.ends_with("none") {
        return maker.compares(&judged, &[], 21, 0);
    }
    // The same reply with less data of the lent KEY.
    let fields = Fields::of(&short);
    let number = fields.find("lent KEY", "RDLENGTH");
    let laid = fields.squeeze(&mut maker.rng, 50);
    maker.compares(&judged, &laid.octets, 21, laid.places[number])
}

const UNANSWERED: [&str; 12] = [
    "passed up",
    "handed up",
    "TIME",
    "CLOCK",
    "a clock past all times",
    "SIZE below",
    "SIZE above",
    "OFFER",
    "FORMAT",
    "NOTQUERY",
    "KEYREC",
    "ROOM",
];
const THEIRS: [&str; 5] = ["none", "one octet", "11 octets", "a reply", "65536 octets"];

fn unanswered_items() -> Vec<String> {
    let fits = |item: &String| {
        let (why, theirs) = two_words(item);
        theirs != "65536 octets" || ["passed up", "OFFER"].contains(&why)
    };
    cross(&UNANSWERED, &THEIRS)
        .into_iter()
        .filter(fits)
        .collect()
}

/// None on both sides is accepted, one on theirs alone is not.
fn unanswered(maker: &mut Maker, item: &str) -> bool {
    let (why, theirs) = two_words(item);
    let (judged, like) = refused(maker, why);
    let theirs = match theirs {
        "none" => return maker.compares(&judged, &[], 0, 0),
        "one octet" => maker.rng.octets(1),
        "11 octets" => maker.rng.octets(11),
        "a reply" => like,
        _ => vec![0; 65_536],
    };
    maker.compares(&judged, &theirs, 21, 0)
}

/// A call that gets no reply, and one that it might get.
fn refused(maker: &mut Maker, why: &str) -> (Judged, Vec<u8>) {
    maker.clock_above_zero();
    match why {
        "passed up" | "handed up" => {
            let (s, mut ask, _) = ask_for(maker, "passed up");
            if why == "handed up" {
                ask.tsig = None;
            }
            let (like, call) = (ask.plain_reply(0), maker.call(s.time));
            return (judged_now(maker, call, &ask), like);
        }
        "KEYREC" => {
            let (mut judged, like) = reply_of(maker, "renewal 4097");
            judged.call.record = maker.wrong_record();
            return (judged, like);
        }
        "ROOM" => {
            let more = maker.rng.below(20) as usize;
            return renewal_of_length(maker, 65_536 + more);
        }
        _ => {}
    }
    let all = kinds();
    let kind = *maker.rng.pick(&all);
    let (mut judged, like) = reply_of(maker, kind);
    match why {
        "TIME" => judged.call.time = TOP + maker.rng.below(9),
        "CLOCK" => judged.call.time = maker.table.clock - 1,
        "a clock past all times" => {
            let table = Table {
                clock: TOP + maker.rng.below(9),
                ..maker.table.clone()
            };
            judged.listing = Listing::of(&table).text();
            judged.call.time = table.clock;
        }
        "SIZE below" => judged.message.truncate(maker.rng.below(12) as usize),
        "SIZE above" => judged.message.resize(65_536, 0),
        "OFFER" => judged.call.offer = maker.rng.octets(1025),
        "FORMAT" => judged.message.push(0),
        _ => judged.message[2] |= 0x80,
    }
    (judged, like)
}

fn judged_now(maker: &Maker, call: Call, ask: &Ask) -> Judged {
    Judged {
        listing: Listing::of(&maker.table).text(),
        call,
        message: ask.octets(),
    }
}

const LISTINGS: [&str; 19] = [
    "an old one",
    "pairs turned round",
    "of 64 pairs",
    "of no pairs",
    "empty",
    "a clock line of two fields",
    "a pair line unread",
    "a key line unread",
    "without its last newline",
    "the clock's rule broken",
    "a pair's rule broken",
    "twins",
    "LINE over TABLE",
    "LINE over DIFFERS",
    "TABLE over DIFFERS",
    "LINE over SIZE",
    "TABLE over FORMAT",
    "LINE where both are empty",
    "TABLE where both are empty",
];

fn listed(maker: &mut Maker, item: &str) -> bool {
    let (mut judged, reply) = reply_of(maker, "renewal 4098");
    let mut table = maker.table.clone();
    match item {
        "an old one" => {
            let pair = maker.any_pair();
            maker.issue(judged.call.time, pair, 512);
            return maker.compares(&judged, &reply, 0, 0);
        }
        "pairs turned round" => table.pairs.reverse(),
        "of 64 pairs" => {
            while table.pairs.len() < 64 {
                let suffix = maker.new_suffix(&table.pairs, 14);
                let keys = maker.rng.below(3);
                let pair = maker.sound_pair(table.clock, suffix, keys);
                table.pairs.insert(0, pair);
            }
        }
        "of no pairs" => {
            table.pairs.clear();
            judged.listing = Listing::of(&table).text();
            let mut fields = Fields::of(&reply);
            fields.all.truncate(fields.start("TKEY"));
            fields.get("header", "ANCOUNT").set(0);
            fields.get("header", "ARCOUNT").set(0);
            fields.get("header", "flags").octets[1] |= 9;
            return maker.compares(&judged, &fields.lay().octets, 0, 0);
        }
        _ => return unloaded(maker, judged, &reply, item),
    }
    judged.listing = Listing::of(&table).text();
    maker.compares(&judged, &reply, 0, 0)
}

/// The listing does not load, and the reply is ours or not.
fn unloaded(maker: &mut Maker, mut judged: Judged, reply: &[u8], item: &str) -> bool {
    let mut listing = spoilt(maker, item);
    if item == "LINE over TABLE" {
        listing.blame(0, RULE);
    }
    judged.listing = listing.text();
    let theirs = match item {
        _ if item.ends_with("over DIFFERS") => joined(&[&[reply[0] ^ 1], &reply[1..]]),
        "LINE over SIZE" => reply[..11].to_vec(),
        "TABLE over FORMAT" => joined(&[reply, &[0]]),
        _ if item.ends_with("both are empty") => {
            judged.message.push(0);
            Vec::new()
        }
        _ => reply.to_vec(),
    };
    let Said::Refused(number, line) = listing.loading() else {
        return false;
    };
    maker.compares(&judged, &theirs, number, line as usize)
}

fn spoilt(maker: &mut Maker, item: &str) -> Listing {
    let (mut table, number) = maker.few_pairs();
    let breaks_rule = item.starts_with("TABLE") || item == "a pair's rule broken";
    if breaks_rule {
        table.pairs[number].next = 0;
    }
    if item == "twins" {
        let mut twin = maker.sound_pair(table.clock, Vec::new(), 1);
        twin.suffix = table.pairs[number].suffix.to_ascii_uppercase();
        table.pairs.push(twin);
    }
    let mut listing = Listing::of(&table);
    let (at, last) = (listing.pair(number), listing.lines.len() - 1);
    match item {
        "empty" => listing.lines.clear(),
        "a clock line of two fields" => listing.set(0, "clock\t1000\n", Some(LINE)),
        "a pair line unread" => listing.set(at, "pair\n", Some(LINE)),
        "the clock's rule broken" => listing.set(0, "clock\t1000\t0\n", Some(RULE)),
        "twins" => listing.blame(table.pairs.len() - 1, RULE),
        "without its last newline" => {
            listing.lines[last].octets.pop();
            listing.lines[last].fault = Some(LINE);
        }
        _ if breaks_rule => listing.blame(number, RULE),
        "LINE over TABLE" => listing.lines.push(Line::unread("pair\n")),
        _ => listing.set(at + 1, "key\tadopted\n", Some(LINE)),
    }
    listing
}

const QUESTIONS: [&str; 17] = [
    "ours compressed and theirs not",
    "theirs compressed and ours not",
    "both compressed otherwise",
    "in other case",
    "exchanged",
    "the second's name changed",
    "the second's type changed",
    "the second's class changed",
    "many, accepted",
    "many, one name changed",
    "none",
    "a pointer into the first's type",
    "a pointer into the first's type, written out",
    "ours unread and theirs the same",
    "ours unread and theirs another",
    "ours unread and the first another",
    "ours unread and another count",
];

fn questions(maker: &mut Maker, item: &str) -> bool {
    if item.starts_with("a pointer") || item.starts_with("ours unread") {
        return into_type(maker, item);
    }
    let (s, mut ask, _) = ask_for(maker, "passed up");
    tsig(&mut ask).mac.clear();
    let count = match item {
        "none" => 0,
        _ if item.starts_with("many") => maker.rng.within(20, 60),
        _ => 2,
    };
    ask.questions = (0..count).map(|number| question(maker, number)).collect();
    let mut fields = Fields::of(&ask.plain_reply(1));
    let is_ours_compressed = item.starts_with("ours compressed") || maker.rng.chance(40);
    if is_ours_compressed && item != "theirs compressed and ours not" {
        let laid = fields.squeeze(&mut maker.rng, 100);
        squeeze_questions(&mut ask, &laid.octets, &laid.places);
    }
    let call = maker.call(s.time);
    let judged = judged_now(maker, call, &ask);
    let changed = bend_questions(maker, &mut fields, item);
    let percent = match item {
        "ours compressed and theirs not" => 0,
        "theirs compressed and ours not" | "both compressed otherwise" => 100,
        _ => 50,
    };
    let laid = fields.squeeze(&mut maker.rng, percent);
    match changed {
        None => maker.compares(&judged, &laid.octets, 0, 0),
        Some(number) => maker.compares(&judged, &laid.octets, 21, laid.places[number]),
    }
}

/// Names that share their ends, and begin otherwise.
fn question(maker: &mut Maker, number: u64) -> Question {
    let first = format!("q{number}");
    let text = maker.rng.letters(2);
    let name = match number % 3 {
        0 => name(&[first.as_bytes(), b"Example"]),
        1 => name(&[first.as_bytes(), &text, b"eXample"]),
        _ => name(&[first.as_bytes()]),
    };
    let kind = *maker.rng.pick(&[1, 6, 28, 252]);
    let class = *maker.rng.pick(&[1, 255]);
    Question { name, kind, class }
}

/// The questions get their names as they were laid down.
fn squeeze_questions(ask: &mut Ask, octets: &[u8], places: &[usize]) {
    for (question, place) in ask.questions.iter_mut().zip(places[6..].chunks(3)) {
        question.name = octets[place[0]..place[1]].to_vec();
    }
}

/// Changes what the item says; the number of the field that differs, if any.
fn bend_questions(maker: &mut Maker, fields: &mut Fields, item: &str) -> Option<usize> {
    match item {
        "in other case" => {
            fields.mix_case(&mut maker.rng);
            None
        }
        "exchanged" => {
            let second = fields.cut("next question");
            fields.put(6, second);
            Some(6)
        }
        "the second's name changed" => {
            fields.all[9].octets[1] ^= 1;
            Some(9)
        }
        "the second's type changed" => {
            fields.all[10].octets[0] ^= 1 << maker.rng.below(8);
            Some(10)
        }
        "the second's class changed" => {
            fields.all[11].octets[1] ^= 1 << maker.rng.below(8);
            Some(11)
        }
        "many, one name changed" => {
            let questions = fields.all.len() as u64 / 3 - 2;
            let number = 6 + 3 * maker.rng.below(questions) as usize;
            fields.all[number].octets[1] ^= 1;
            Some(number)
        }
        _ => None,
    }
}

/// The second question's name is a pointer to the first's type, whose first octet is then a label's
/// length. Where that label runs into the records, the message reads and our reply does not.
fn into_type(maker: &mut Maker, item: &str) -> bool {
    let is_read = item.starts_with("a pointer");
    let (s, mut ask, _) = ask_for(maker, "passed up");
    let first = question(maker, 0).name;
    let at = 12 + first.len();
    // One octet, or all up to the TSIG's owner or to that owner's end.
    let length = if is_read {
        1
    } else {
        *maker.rng.pick(&[9, 11])
    };
    let low = maker.rng.letters(1)[0];
    let about = |name, kind| Question {
        name,
        kind,
        class: wire::IN,
    };
    let kind = u16::from_be_bytes([length, low]);
    ask.questions = vec![about(first, kind), about(pointer(at), wire::A)];
    ask.sections = Default::default();
    (ask.squeeze, tsig(&mut ask).owner) = (false, name(&[b"x"]));
    let call = maker.call(s.time);
    let judged = judged_now(maker, call, &ask);
    if ![
        "ours unread and theirs the same",
        "a pointer into the first's type",
    ]
    .contains(&item)
    {
        ask.questions[1].name = name(&[&[low]]);
    }
    match item {
        "ours unread and the first another" => ask.questions[0].name[1] ^= 1,
        "ours unread and another count" => drop(ask.questions.pop()),
        _ => {}
    }
    let theirs = ask.plain_reply(Want::BadKey.rcode());
    let (number, place) = match item {
        _ if is_read => (0, 0),
        "ours unread and theirs the same" => (6, theirs.len()),
        "ours unread and the first another" => (21, 12),
        "ours unread and another count" => (21, 4),
        _ => (21, at + 4),
    };
    maker.compares(&judged, &theirs, number, place)
}

const DAMAGES: [&str; 5] = [
    "a bit",
    "an octet",
    "some octets",
    "an octet out",
    "an octet in",
];

/// Our reply in some writing, damaged where it falls: the readers are to agree.
fn damaged(maker: &mut Maker, item: &str) -> bool {
    let (kind, damage) = two_words(item);
    let (judged, reply) = reply_of(maker, kind);
    let percent = *maker.rng.pick(&[0, 50, 100]);
    let mut theirs = Fields::of(&reply).squeeze(&mut maker.rng, percent).octets;
    let end = theirs.len() as u64;
    let place = maker.rng.below(end) as usize;
    match damage {
        "a bit" => theirs[place] ^= 1 << maker.rng.below(8),
        "an octet" => theirs[place] = maker.rng.next() as u8,
        "some octets" => {
            for _ in 0..maker.rng.within(2, 5) {
                let place = maker.rng.below(end) as usize;
                theirs[place] = maker.rng.next() as u8;
            }
        }
        "an octet out" => drop(theirs.remove(place)),
        _ => theirs.insert(place, maker.rng.next() as u8),
    }
    let line = maker.compare_text(&judged, &theirs);
    let said = maker.compare_line(line.as_bytes());
    said.is_some_and(|(number, _)| [0, 6, 21].contains(&number))
}
