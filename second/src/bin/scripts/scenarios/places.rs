//! Each kind of place that stands beside FORMAT, in each part of a message (02, CR 6).

use super::{cross, Group};
use crate::desk::Want;
use crate::maker::{Maker, Signer};
use crate::wire::{self, joined, label, labels_of, name, name_of, pointer, Builder};

pub fn groups() -> Vec<Group> {
    vec![Group {
        name: "place",
        weight: 35,
        items,
        run: place,
    }]
}

/// What breaks, wherever it stands.
const FAULTS: [&str; 19] = [
    "label octet of 64 to 191",
    "label octet of 64 to 191 behind labels",
    "pointer to itself",
    "pointer forward",
    "pointer past the end",
    "pointer to octet 11",
    "pointer to octet 0",
    "pointer into its run",
    "pointer cut off",
    "pointer cut off behind labels",
    "label cut off",
    "name cut off behind labels",
    "256 octets by labels",
    "256 octets by labels and cut off",
    "more than 256 octets by labels",
    "fixed fields cut off",
    "one octet left over",
    "octets left over",
    "count of one more",
];

/// Needs a name that stands before.
const BEHIND: [&str; 5] = [
    "256 octets by a pointer",
    "255 octets of labels and a pointer",
    "label octet of 64 to 191 behind a pointer",
    "pointer to octet 11 behind a pointer",
    "label cut off behind a pointer",
];

const DATA: [&str; 3] = [
    "data cut off",
    "data one octet past the end",
    "RDLENGTH 65535",
];

const PARTS: [&str; 5] = [
    "question",
    "second question",
    "answer",
    "authority",
    "additional",
];

fn items() -> Vec<String> {
    let mut faults = cross(&PARTS, &FAULTS);
    faults.extend(cross(&PARTS[1..], &BEHIND));
    faults.extend(cross(&PARTS[2..], &DATA));
    let faults: Vec<&str> = faults.iter().map(String::as_str).collect();
    cross(&["message", "look"], &faults)
}

/// All faults, for messages elsewhere.
pub fn faults() -> Vec<&'static str> {
    [&FAULTS[..], &BEHIND, &DATA].concat()
}

/// A message that is broken so in any part where it can be, and the place.
pub fn any_broken(maker: &mut Maker, s: &Signer, fault: &str) -> (Vec<u8>, usize) {
    let parts = match fault {
        _ if BEHIND.contains(&fault) => &PARTS[1..],
        _ if DATA.contains(&fault) => &PARTS[2..],
        _ => &PARTS,
    };
    let part = *maker.rng.pick(parts);
    broken(maker, s, part, fault)
}

fn place(maker: &mut Maker, item: &str) -> bool {
    let (way, rest) = super::two_words(item);
    let (part, fault) = super::two_words(rest);
    let s = maker.live();
    let (octets, place) = broken(maker, &s, part, fault);
    let want = Want::Format(place);
    match way {
        "look" => want.fits(&maker.look(&octets)),
        _ => {
            let call = maker.call(s.time);
            maker.sends(&call, &octets, want)
        }
    }
}

/// A good message up to some part.
struct Front {
    b: Builder,
    /// The part's section: 0 is the questions'.
    section: usize,
}

impl Front {
    /// `first` is the first question's name, where the part is behind it.
    fn new(maker: &mut Maker, part: &str, first: &[u8]) -> Front {
        let mut b = Builder::new(maker.rng.next() as u16, 0);
        let section = match part {
            "answer" => 1,
            "authority" => 2,
            "additional" => 3,
            _ => 0,
        };
        if part != "question" {
            b.question(&wire::Question {
                name: first.to_vec(),
                kind: wire::A,
                class: wire::IN,
            });
        }
        Front { b, section }
    }

    /// Some records before the part.
    fn dress(&mut self, maker: &mut Maker) {
        for section in 1..=self.section {
            for _ in 0..maker.rng.below(3) {
                self.b.record(section, &maker.by_the_way());
            }
        }
    }

    /// Octets that are counted as one item of the part.
    fn item(&mut self, octets: &[u8]) {
        self.b.bend_count(self.section, 1);
        self.b.raw(octets);
    }

    /// What stands behind the name of an item.
    fn fixed(&self) -> Vec<u8> {
        let all = [0, 1, 0, 1, 0, 0, 0, 60, 0, 0];
        match self.section {
            0 => all[..4].to_vec(),
            _ => all.to_vec(),
        }
    }

    /// The message with the rest of the item, and a TSIG behind it.
    fn go_on(mut self, maker: &mut Maker, s: &Signer) -> Vec<u8> {
        let fixed = self.fixed();
        self.b.raw(&fixed);
        self.b.record(3, &maker.tsig(s).record());
        self.b.finish()
    }
}

/// A broken message and the place, which is known from how the message is made.
fn broken(maker: &mut Maker, s: &Signer, part: &str, fault: &str) -> (Vec<u8>, usize) {
    if BEHIND.contains(&fault) {
        return broken_behind(maker, s, part, fault);
    }
    let first = match maker.rng.chance(50) {
        true => vec![0],
        false => name(&[b"w", b"example"]),
    };
    let mut front = Front::new(maker, part, &first);
    front.dress(maker);
    let here = front.b.here();
    let size = maker.rng.within(2, 90) as usize;
    let labels = match size {
        65 => labels_of(64),
        _ => labels_of(size),
    };
    let behind = here + labels.len();
    let bad = maker.rng.within(64, 191) as u8;
    let (octets, at) = match fault {
        "label octet of 64 to 191" => (vec![bad], here),
        "label octet of 64 to 191 behind labels" => (joined(&[&labels, &[bad]]), behind),
        "pointer to itself" => (pointer(here), here),
        "pointer forward" => (pointer(here + maker.rng.within(1, 40) as usize), here),
        "pointer past the end" => (pointer(16_383), here),
        "pointer to octet 11" => (pointer(11), here),
        "pointer to octet 0" => (pointer(0), here),
        "pointer into its run" => {
            let target = here + maker.rng.below(labels.len() as u64) as usize;
            (joined(&[&labels, &pointer(target)]), behind)
        }
        "256 octets by labels" => (name_of(256), past_255(here, &name_of(256), 0)),
        "more than 256 octets by labels" => {
            let long = name_of(maker.rng.within(257, 400) as usize);
            let at = past_255(here, &long, 0);
            (long, at)
        }
        _ => return cut(maker, s, front, fault, &labels),
    };
    front.item(&octets);
    (front.go_on(maker, s), at)
}

/// The label that takes a name past 255, its final 0 counted; `before` octets of the name
/// stand elsewhere.
fn past_255(start: usize, name: &[u8], before: usize) -> usize {
    let mut end = 0;
    loop {
        let label = end;
        end += 1 + usize::from(name[label]);
        if before + end + 1 > 255 {
            return start + label;
        }
    }
}

/// Messages that end too early or too late.
fn cut(
    maker: &mut Maker,
    s: &Signer,
    mut front: Front,
    fault: &str,
    labels: &[u8],
) -> (Vec<u8>, usize) {
    let here = front.b.here();
    let whole = joined(&[labels, &[0], &front.fixed()]);
    let fixed = front.fixed().len();
    match fault {
        "pointer cut off" => front.item(&[0xc0 | maker.rng.below(64) as u8]),
        "pointer cut off behind labels" => front.item(&joined(&[labels, &[0xc0]])),
        "label cut off" => {
            let size = maker.rng.within(1, 63);
            let text = maker.rng.below(size);
            let before = if maker.rng.chance(50) { labels } else { &[] };
            front.item(&joined(&[before, &[size as u8], &maker.rng.octets(text)]));
        }
        "name cut off behind labels" => front.item(labels),
        "256 octets by labels and cut off" => {
            let long = name_of(256);
            let at = past_255(here, &long, 0);
            front.item(&long[..at - here + 1]);
            return (front.b.finish(), at);
        }
        "fixed fields cut off" => {
            let left = maker.rng.below(fixed as u64) as usize;
            front.item(&whole[..labels.len() + 1 + left]);
        }
        "one octet left over" | "octets left over" => {
            front.item(&whole);
            let at = front.b.here();
            let more = match fault {
                "octets left over" => maker.rng.within(2, 40),
                _ => 1,
            };
            front.b.raw(&maker.rng.octets(more));
            return (front.b.finish(), at);
        }
        "count of one more" => {
            let one_more = *maker.rng.pick(&[1, 1, 2, 1000]);
            front.b.bend_count(front.section, one_more);
        }
        _ => return data(maker, s, front, fault, labels),
    }
    let octets = front.b.finish();
    let length = octets.len();
    (octets, length)
}

/// Data that ends past the message.
fn data(
    maker: &mut Maker,
    s: &Signer,
    mut front: Front,
    fault: &str,
    labels: &[u8],
) -> (Vec<u8>, usize) {
    let mut record = wire::record(&joined(&[labels, &[0]]), wire::A, wire::IN, &[7; 9]);
    let tsig = maker.tsig(s).record();
    let behind = tsig.octets().len() as i32;
    record.length_off = match fault {
        "data cut off" => maker.rng.within(1, 9) as i32,
        "data one octet past the end" => behind + 1,
        _ => 65_535 - 9,
    };
    front.b.record(front.section, &record);
    if fault != "data cut off" {
        front.b.record(3, &tsig);
    }
    let octets = front.b.finish();
    let length = octets.len();
    (octets, length)
}

/// Names that break behind a pointer into the first question, at 12.
fn broken_behind(maker: &mut Maker, s: &Signer, part: &str, fault: &str) -> (Vec<u8>, usize) {
    // A label whose text is read as a name of its own, at 13.
    let bad = maker.rng.within(64, 191) as u8;
    let long = name_of(200);
    let first = match fault {
        "label octet of 64 to 191 behind a pointer" => name(&[&[bad, 0]]),
        "pointer to octet 11 behind a pointer" => name(&[&pointer(11)]),
        "label cut off behind a pointer" => name(&[&[63]]),
        _ => long.clone(),
    };
    let mut front = Front::new(maker, part, &first);
    if fault != "label cut off behind a pointer" {
        front.dress(maker);
    }
    match fault {
        "256 octets by a pointer" => {
            let before = maker.rng.within(56, 63) as usize;
            front.item(&joined(&[&labels_of(before), &pointer(12)]));
            (front.go_on(maker, s), past_255(12, &long, before))
        }
        "255 octets of labels and a pointer" => {
            front.item(&joined(&[&labels_of(254), &pointer(12)]));
            (front.go_on(maker, s), 12)
        }
        "label cut off behind a pointer" => {
            front.item(&pointer(13));
            let fixed = front.fixed();
            front.b.raw(&fixed);
            let octets = front.b.finish();
            let length = octets.len();
            (octets, length)
        }
        _ => {
            let text = label(b"ab");
            let before = match maker.rng.chance(50) {
                true => &text[..],
                false => &[],
            };
            front.item(&joined(&[before, &pointer(13)]));
            (front.go_on(maker, s), 13)
        }
    }
}
