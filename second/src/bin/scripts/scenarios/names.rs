//! Names: lengths, label octets and every rule about pointers.

use super::{cross, list, two_words, Group};
use crate::desk::Want;
use crate::maker::{Maker, Signer};
use crate::wire::{self, joined, label, labels_of, name, name_of, pointer, record, Builder};

pub fn groups() -> Vec<Group> {
    vec![
        Group {
            name: "name length",
            weight: 30,
            items: || {
                cross(
                    &["question", "owner", "by pointer", "by two pointers"],
                    &LENGTHS,
                )
            },
            run: length,
        },
        Group {
            name: "label octet",
            weight: 25,
            items: || cross(&["question", "owner", "behind a pointer"], &LABELS),
            run: label_octet,
        },
        Group {
            name: "pointer",
            weight: 60,
            items: || list(&POINTERS),
            run: pointers,
        },
        Group {
            name: "question pointer",
            weight: 15,
            items: || list(&QUESTION_POINTERS),
            run: question_pointer,
        },
        Group {
            name: "chain",
            weight: 12,
            items: || list(&CHAINS),
            run: chain,
        },
    ]
}

/// A question, a record of free data, a record under test and the TSIG. The owner is made
/// knowing where the data and the owner itself stand.
struct Stage<'a> {
    question: Vec<u8>,
    data: &'a dyn Fn(usize) -> Vec<u8>,
    owner: &'a dyn Fn(usize, usize) -> Vec<u8>,
    tried_data: Vec<u8>,
}

impl Stage<'_> {
    fn octets(&self, maker: &mut Maker, s: &Signer) -> Vec<u8> {
        let mut b = Builder::new(maker.rng.next() as u16, 0);
        b.question(&wire::Question {
            name: self.question.clone(),
            kind: wire::A,
            class: wire::IN,
        });
        let section = maker.rng.within(1, 3) as usize;
        let place = b.here() + 11;
        b.record(
            section,
            &record(&[0], wire::NULL, wire::IN, &(self.data)(place)),
        );
        let owner = (self.owner)(place, b.here());
        b.record(
            section,
            &record(&owner, wire::A, wire::IN, &self.tried_data),
        );
        b.record(3, &maker.tsig(s).record());
        b.finish()
    }
}

/// As a message or a look, or both: it reads and finds the signer, or is FORMAT.
fn reads(maker: &mut Maker, s: &Signer, octets: &[u8], readable: bool) -> bool {
    let way = maker.rng.below(4);
    if way == 0 {
        return looks(maker, s, octets, readable);
    }
    let call = maker.call(s.time);
    let want = match readable {
        true => Want::Passed(0),
        false => Want::Refused(6),
    };
    maker.sends(&call, octets, want) && (way > 1 || looks(maker, s, octets, readable))
}

fn looks(maker: &mut Maker, s: &Signer, octets: &[u8], readable: bool) -> bool {
    let seen = maker.look(octets);
    match readable {
        true => seen.number == 0 && seen.pair == s.pair && seen.serial == s.serial,
        false => Want::Refused(6).fits(&seen),
    }
}

const LENGTHS: [&str; 5] = ["253", "254", "255", "256", "257"];

fn length(maker: &mut Maker, item: &str) -> bool {
    let (place, length) = two_words(item);
    let length: usize = length.parse().expect("a length");
    let s = maker.live();
    let base = name_of(200);
    let stage = match place {
        "question" => Stage {
            question: name_of(length),
            data: &|_| vec![],
            owner: &|_, _| vec![0],
            tried_data: vec![],
        },
        "owner" => Stage {
            question: vec![0],
            data: &|_| vec![],
            owner: &|_, _| name_of(length),
            tried_data: vec![],
        },
        "by pointer" => Stage {
            question: base,
            data: &|_| vec![],
            owner: &|_, _| joined(&[&labels_of(length - 200), &pointer(12)]),
            tried_data: vec![],
        },
        _ => Stage {
            question: base,
            data: &|_| joined(&[&labels_of(20), &pointer(12)]),
            owner: &|data, _| joined(&[&labels_of(length - 220), &pointer(data)]),
            tried_data: vec![],
        },
    };
    let octets = stage.octets(maker, &s);
    reads(maker, &s, &octets, length <= 255)
}

const LABELS: [&str; 9] = [
    "1",
    "63",
    "64",
    "65",
    "127",
    "128",
    "190",
    "191",
    "64 to 191",
];

fn label_octet(maker: &mut Maker, item: &str) -> bool {
    let (place, octet) = two_words(item);
    let octet: u8 = match octet {
        "64 to 191" => maker.rng.within(64, 191) as u8,
        _ => octet.parse().expect("an octet"),
    };
    let s = maker.live();
    let tried = joined(&[&[octet], &vec![b'm'; octet.into()], &[0]]);
    let mut stage = Stage {
        question: vec![0],
        data: &|_| vec![],
        owner: &|_, _| vec![0],
        tried_data: vec![],
    };
    let as_owner = |_, _| tried.clone();
    let as_data = |_| tried.clone();
    let to_data = |data, _| pointer(data);
    match place {
        "question" => stage.question = tried.clone(),
        "owner" => stage.owner = &as_owner,
        _ => {
            stage.data = &as_data;
            stage.owner = &to_data;
        }
    }
    let octets = stage.octets(maker, &s);
    reads(maker, &s, &octets, octet <= 63)
}

const POINTERS: [&str; 31] = [
    "to itself",
    "to its second octet",
    "forward",
    "forward past the end",
    "to 16383 in a short message",
    "to the start of its run",
    "into its own run",
    "into its own run, to a root",
    "to its place, labels before it",
    "to octet 0",
    "to octet 11",
    "to octet 12",
    "to octet 13",
    "to one below the run",
    "to one below the run, labels before it",
    "to a root in the data",
    "to a target above 255",
    "with all high bits of a target",
    "to a pointer",
    "to a pointer to itself",
    "to a pointer forward",
    "to a run that points into itself, to a root",
    "to a pointer to octet 11",
    "to two pointers at each other",
    "into the middle of a name",
    "to a label octet of 64 to 191",
    "labels over the pointer",
    "labels over the pointer and back",
    "labels past the end",
    "second octet missing",
    "after labels that fill 255",
];

type Data = Box<dyn Fn(usize) -> Vec<u8>>;
type Owner = Box<dyn Fn(usize, usize) -> Vec<u8>>;

/// Free data, the owner tried, and whether the name reads.
fn pointer_shape(item: &str) -> (Data, Owner, bool) {
    let none = || -> Data { Box::new(|_| vec![]) };
    let data = |octets: Vec<u8>| -> Data { Box::new(move |_| octets.clone()) };
    let at_data = || -> Owner { Box::new(|data, _| pointer(data)) };
    let to = |target: usize| -> Owner { Box::new(move |_, _| pointer(target)) };
    match item {
        "to itself" => (none(), Box::new(|_, here| pointer(here)), false),
        "to its second octet" => (none(), Box::new(|_, here| pointer(here + 1)), false),
        "forward" => (none(), Box::new(|_, here| pointer(here + 12)), false),
        "forward past the end" => (none(), Box::new(|_, here| pointer(here + 999)), false),
        "to 16383 in a short message" => (none(), to(16383), false),
        "to the start of its run" => (none(), Box::new(|_, here| after(b"ab", here)), false),
        "into its own run" => (none(), Box::new(|_, here| after(b"\x01b", here + 1)), false),
        // Not a loop: only the rule about the run refuses it.
        "into its own run, to a root" => {
            (none(), Box::new(|_, here| after(b"\0b", here + 1)), false)
        }
        "to its place, labels before it" => {
            (none(), Box::new(|_, here| after(b"ab", here + 3)), false)
        }
        "to octet 0" => (none(), to(0), false),
        "to octet 11" => (none(), to(11), false),
        "to octet 12" => (none(), to(12), true),
        "to octet 13" => (none(), to(13), true),
        "to one below the run" => (
            data(vec![9, 0]),
            Box::new(|_, here| pointer(here - 1)),
            true,
        ),
        "to one below the run, labels before it" => (
            data(vec![9, 0]),
            Box::new(|_, here| after(b"xy", here - 1)),
            true,
        ),
        "to a root in the data" => (data(vec![0, 77]), at_data(), true),
        "to a target above 255" => (data(vec![0; 400]), Box::new(|d, _| pointer(d + 390)), true),
        "with all high bits of a target" => (none(), Box::new(|_, _| vec![255, 255]), false),
        _ => pointer_to_pointer_shape(item),
    }
}

fn after(text: &[u8], target: usize) -> Vec<u8> {
    joined(&[&label(text), &pointer(target)])
}

fn pointer_to_pointer_shape(item: &str) -> (Data, Owner, bool) {
    let at_data = || -> Owner { Box::new(|data, _| pointer(data)) };
    let at_end: Owner = Box::new(|_, here| pointer(here - 1));
    match item {
        "to a pointer" => (Box::new(|_| pointer(12)), at_data(), true),
        "to a pointer to itself" => (Box::new(pointer), at_data(), false),
        "to a pointer forward" => (Box::new(|d| pointer(d + 2)), at_data(), false),
        "to a run that points into itself, to a root" => {
            (Box::new(|d| after(b"\0b", d + 1)), at_data(), false)
        }
        "to a pointer to octet 11" => (Box::new(|_| pointer(11)), at_data(), false),
        "to two pointers at each other" => (
            Box::new(|d| joined(&[&pointer(d + 2), &pointer(d)])),
            Box::new(|d, _| pointer(d + 2)),
            false,
        ),
        "into the middle of a name" => (Box::new(|_| vec![]), Box::new(|_, _| pointer(17)), true),
        "to a label octet of 64 to 191" => (Box::new(|_| vec![150, 0]), at_data(), false),
        // The last octet of the data is a label's length; the label is the owner itself and
        // the ten octets after it, and the name goes on in the tried record's data.
        "labels over the pointer" => (Box::new(|_| vec![12]), at_end, true),
        "labels over the pointer and back" => (Box::new(|_| vec![12]), at_end, false),
        "labels past the end" => (Box::new(|_| vec![63]), at_end, false),
        _ => (
            Box::new(|_| vec![]),
            Box::new(|_, _| joined(&[&labels_of(254), &pointer(21)])),
            true,
        ),
    }
}

fn pointers(maker: &mut Maker, item: &str) -> bool {
    let s = maker.live();
    if item == "second octet missing" {
        return second_octet_missing(maker, &s);
    }
    let (data, owner, readable) = pointer_shape(item);
    // Octet 13 begins a name too: the text of the first label is itself a short name.
    let question = name(&[&[1, b'q', 0, 4], b"abc"]);
    let place = 12 + question.len() + 4 + 11;
    let tried_data = match item {
        "labels over the pointer" => vec![0],
        // The run began at the data, one octet long: its own start is no target.
        "labels over the pointer and back" => pointer(place),
        _ => vec![192, 1, 2, 3],
    };
    let stage = Stage {
        question,
        data: &*data,
        owner: &*owner,
        tried_data,
    };
    let octets = match item {
        "labels past the end" => past_the_end(maker, &stage),
        _ => stage.octets(maker, &s),
    };
    reads(maker, &s, &octets, readable)
}

/// The same stage without a TSIG, so that the label has nothing to run into.
fn past_the_end(maker: &mut Maker, stage: &Stage) -> Vec<u8> {
    let mut b = Builder::new(maker.rng.next() as u16, 0);
    let place = b.here() + 11;
    b.record(1, &record(&[0], wire::NULL, wire::IN, &(stage.data)(place)));
    let owner = (stage.owner)(place, b.here());
    b.record(1, &record(&owner, wire::A, wire::IN, &stage.tried_data));
    b.finish()
}

fn second_octet_missing(maker: &mut Maker, s: &Signer) -> bool {
    let mut ask = maker.ordinary(s);
    ask.tail = vec![0xc0];
    ask.counts[3] = 1;
    let octets = ask.octets();
    reads(maker, s, &octets, false)
}

const QUESTION_POINTERS: [&str; 9] = [
    "first question, to itself",
    "first question, to octet 11",
    "first question, labels before it",
    "second question, to octet 12",
    "second question, to itself",
    "second question, forward",
    "second question, to one below the run",
    "second question, 256 octets expanded",
    "second question, answered",
];

fn question_pointer(maker: &mut Maker, item: &str) -> bool {
    let s = maker.live();
    let mut ask = maker.ordinary(&s);
    ask.squeeze = false;
    let first = ask.questions[0].clone();
    let here = 12 + first.name.len() + 4;
    let mut second = first.clone();
    let (tried, readable) = match item {
        "first question, to itself" => (pointer(12), false),
        "first question, to octet 11" => (pointer(11), false),
        "first question, labels before it" => (after(b"ab", 12), false),
        "second question, to octet 12" => (pointer(12), true),
        "second question, to itself" => (pointer(here), false),
        "second question, forward" => (pointer(here + 6), false),
        "second question, to one below the run" => (pointer(here - 1), true),
        "second question, 256 octets expanded" => {
            let left = 256 - first.name.len();
            (joined(&[&labels_of(left), &pointer(12)]), false)
        }
        _ => (after(b"www", 12), true),
    };
    if item.starts_with("first") {
        ask.questions[0].name = tried;
    } else {
        second.name = tried;
        ask.questions.push(second);
        if item.ends_with("one below the run") {
            ask.questions[0].class = 0x100;
        }
    }
    if item.ends_with("answered") {
        let mut call = maker.call(s.time);
        call.good = false;
        return maker.asks(&call, &ask, Want::BadSig);
    }
    reads(maker, &s, &ask.octets(), readable)
}

const CHAINS: [&str; 8] = [
    "10 pointers",
    "300 pointers",
    "3000 pointers",
    "100 pointers and a bad end",
    "labels and pointers, 255 octets",
    "labels and pointers, 257 octets",
    "to the TSIG owner",
    "to the TSIG owner of no pair",
];

/// Pointers one after another, each to the one before; the first to `end`.
pub fn pointer_chain(place: usize, count: usize, end: usize) -> Vec<u8> {
    let target = |i: usize| if i == 0 { end } else { place + 2 * (i - 1) };
    (0..count).flat_map(|i| pointer(target(i))).collect()
}

/// Labels of one octet, each followed by a pointer to the one before; the first to a root.
fn mixed_chain(place: usize, count: usize) -> Vec<u8> {
    let target = |i: usize| if i == 0 { 12 } else { place + 4 * (i - 1) };
    (0..count).flat_map(|i| after(b"c", target(i))).collect()
}

fn chain(maker: &mut Maker, item: &str) -> bool {
    let s = maker.live();
    match item {
        "10 pointers" => plain_chain(maker, &s, 10, 12, true),
        "300 pointers" => plain_chain(maker, &s, 300, 12, true),
        "3000 pointers" if maker.rng.chance(80) => plain_chain(maker, &s, 900, 12, true),
        "3000 pointers" => plain_chain(maker, &s, 3000, 12, true),
        "100 pointers and a bad end" => plain_chain(maker, &s, 100, 11, false),
        "labels and pointers, 255 octets" => label_chain(maker, &s, 127, true),
        "labels and pointers, 257 octets" => label_chain(maker, &s, 128, false),
        "to the TSIG owner" => owner_by_chain(maker, &s, true),
        _ => owner_by_chain(maker, &s, false),
    }
}

fn plain_chain(maker: &mut Maker, s: &Signer, count: usize, end: usize, readable: bool) -> bool {
    let stage = Stage {
        question: vec![0],
        data: &|place| pointer_chain(place, count, end),
        owner: &|place, _| pointer(place + 2 * (count - 1)),
        tried_data: vec![],
    };
    let octets = stage.octets(maker, s);
    reads(maker, s, &octets, readable)
}

fn label_chain(maker: &mut Maker, s: &Signer, count: usize, readable: bool) -> bool {
    let stage = Stage {
        question: vec![0],
        data: &|place| mixed_chain(place, count),
        owner: &|place, _| pointer(place + 4 * (count - 1)),
        tried_data: vec![],
    };
    let octets = stage.octets(maker, s);
    reads(maker, s, &octets, readable)
}

/// The key's name put together through pointers, its suffix in the question.
fn owner_by_chain(maker: &mut Maker, s: &Signer, known: bool) -> bool {
    let mut ask = maker.unsigned(s);
    let suffix = match known {
        true => s.suffix.clone(),
        false => name(&[b"nobody", b"here"]),
    };
    ask.questions[0].name = suffix;
    ask.sections = [vec![], vec![], vec![]];
    let place = ask.octets().len() + 11;
    let count = maker.rng.within(2, 60) as usize;
    let data = pointer_chain(place, count, 12);
    ask.sections[2].push(record(&[0], wire::NULL, wire::IN, &data));
    let mut tsig = maker.tsig(s);
    let serial = s.serial.to_string();
    tsig.owner = after(serial.as_bytes(), place + 2 * (count - 1));
    ask.tsig = Some(tsig);
    ask.squeeze = false;
    let octets = ask.octets();
    let call = maker.call(s.time);
    match known {
        true => looks(maker, s, &octets, true) && maker.sends(&call, &octets, Want::Passed(0)),
        false => maker.sends(&call, &octets, Want::BadKey),
    }
}
