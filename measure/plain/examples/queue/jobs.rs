//! The batches that are measured.

use crate::both::support::build::{hex, key_record, name, record, Draft, Tsig, A, IN, SOA};
use crate::both::support::good;
use crate::both::Job;
use luffcringle::{Algorithm, Given, Table, Verdict};
use std::path::Path;
use std::process::Command;

pub const NOW: u64 = 1_000_000;
const TERMS: (u64, u64) = (86_400, 43_200);
const OFFER: [u8; 32] = [0x5e; 32];
/// For all replies of a batch.
const ROOM: usize = 65_535;

/// What 02, CR 13 is held to.
#[derive(Clone, Copy, PartialEq, Eq)]
pub enum Kind {
    /// As the morning brings them: ours is to take no longer.
    Ordinary,
    /// Everything else: at most one and a half times as long.
    Other,
}

/// A batch and the table that it is done on.
pub struct Mix {
    /// One word, for the command line.
    pub word: &'static str,
    pub what: String,
    pub kind: Kind,
    pub table: Table,
    pub job: Job,
}

/// Where the suffixes differ, which decides what comparing them costs.
#[derive(Clone, Copy)]
pub enum Differ {
    Early,
    Late,
    Last,
}

impl Differ {
    fn described(self) -> &'static str {
        match self {
            Differ::Early => "suffixes of 19 octets that differ in the 2nd or 3rd",
            Differ::Late => "suffixes of 19 octets that differ in the 9th or 10th",
            Differ::Last => "suffixes of 128 octets that differ in the 126th or 127th",
        }
    }

    fn suffix(self, pair: u64) -> String {
        let number = 64 - pair;
        match self {
            Differ::Early => format!("{number:02}-office.example."),
            Differ::Late => format!("office-{number:02}.example."),
            Differ::Last => format!("{0}.{0}.{number:02}.", "x".repeat(61)),
        }
    }

    fn key(self, serial: u64, pair: u64) -> String {
        format!("{serial}.{}", self.suffix(pair))
    }

    pub fn table(self, pairs: u64) -> Table {
        enrolled((1..=pairs).map(|pair| name(&self.suffix(pair))))
    }

    /// An update of one address, signed by the pair's first key.
    pub fn update(self, pair: u64) -> Vec<u8> {
        update(1).signed(&self.key(1, pair), NOW)
    }

    /// With this many addresses more.
    pub fn long_update(self, pair: u64, addresses: usize) -> Vec<u8> {
        update(1 + addresses).signed(&self.key(1, pair), NOW)
    }

    fn renewal(self, pair: u64, mode: u16) -> Vec<u8> {
        Draft::renewal_by(mode, &self.key(1, pair)).signed(&self.key(1, pair), NOW)
    }

    fn adoption(self, pair: u64) -> Vec<u8> {
        Draft::adoption(&self.key(2, pair), &self.key(1, pair)).signed(&self.key(1, pair), NOW)
    }

    /// A table on which these of 64 pairs have a waiting key.
    fn renewed(self, is_renewed: impl Fn(u64) -> bool) -> Table {
        let mut table = self.table(64);
        for pair in (1..=64).filter(|&pair| is_renewed(pair)) {
            let answer =
                table.message(&good(NOW, &OFFER), &self.renewal(pair, 4098), &mut [0; 512]);
            assert!(answer.expect("granted").length > 0);
        }
        table
    }

    /// Of each eight pairs five send an update, two a renewal, one an adoption.
    fn morning(self, pair: u64) -> Vec<u8> {
        match pair % 8 {
            0 => self.adoption(pair),
            1 => self.renewal(pair, 4098),
            5 => self.renewal(pair, [4097, 4099][pair as usize / 8 % 2]),
            _ => self.update(pair),
        }
    }

    fn mixes(self) -> Vec<Mix> {
        let words: [&'static str; 7] = match self {
            Differ::Early => [
                "updates",
                "renewals",
                "adoptions",
                "morning",
                "modes",
                "badkey",
                "badtime",
            ],
            Differ::Late => [
                "updates-late",
                "renewals-late",
                "adoptions-late",
                "morning-late",
                "modes-late",
                "badkey-late",
                "badtime-late",
            ],
            Differ::Last => [
                "updates-last",
                "renewals-last",
                "adoptions-last",
                "morning-last",
                "modes-last",
                "badkey-last",
                "badtime-last",
            ],
        };
        let ordinary = match self {
            Differ::Last => Kind::Other,
            _ => Kind::Ordinary,
        };
        let where_differ = self.described();
        let mix =
            |at: usize, what: &str, kind, table: Table, message: &dyn Fn(u64) -> Vec<u8>| Mix {
                word: words[at],
                what: format!("{what}; {where_differ}"),
                kind,
                table,
                job: queue((1..=64).map(message)),
            };
        let late = |pair| update(1).signed(&self.key(1, pair), NOW - 1_000);
        let unknown = |pair| update(1).signed(&self.key(9, pair), NOW);
        let mode = |pair: u64| [4097, 4098, 4099][pair as usize % 3];
        vec![
            mix(0, "64 updates", ordinary, self.table(64), &|pair| {
                self.update(pair)
            }),
            mix(1, "64 renewals", ordinary, self.table(64), &|pair| {
                self.renewal(pair, 4098)
            }),
            mix(
                2,
                "64 adoptions",
                ordinary,
                self.renewed(|_| true),
                &|pair| self.adoption(pair),
            ),
            mix(
                3,
                "40 updates, 16 renewals, 8 adoptions",
                ordinary,
                self.renewed(|pair| pair % 8 == 0),
                &|pair| self.morning(pair),
            ),
            mix(
                4,
                "64 renewals, of each mode",
                Kind::Other,
                self.table(64),
                &|pair| self.renewal(pair, mode(pair)),
            ),
            mix(
                5,
                "64 refused with BADKEY",
                Kind::Other,
                self.table(64),
                &unknown,
            ),
            mix(
                6,
                "64 refused with BADTIME",
                Kind::Other,
                self.table(64),
                &late,
            ),
        ]
    }
}

/// An update of so many addresses in the zone z.example.
fn update(addresses: usize) -> Draft {
    let mut draft = Draft::empty().ask(&name("z.example."), SOA, IN);
    draft.flags = 0x2800;
    for _ in 0..addresses {
        let owner = b"\x07counter\xc0\x0c";
        draft
            .authority
            .push(record(owner, A, IN, 300, &[192, 0, 2, 1]));
    }
    draft
}

fn enrolled(suffixes: impl Iterator<Item = Vec<u8>>) -> Table {
    let mut table = Table::new(NOW).expect("a new table");
    for suffix in suffixes {
        let answer = table.enrol(NOW, &suffix, TERMS.0, TERMS.1, Algorithm::Sha256);
        answer.expect("enrolled");
    }
    table
}

/// Messages with good verdicts, each with an offer and a KEY record.
pub fn queue(messages: impl Iterator<Item = Vec<u8>>) -> Job {
    let mut job = Job::new(ROOM);
    let record = key_record();
    for message in messages {
        let given = Given {
            time: NOW,
            mac: Verdict::Good,
            offer: &OFFER,
            keying: Verdict::Good,
            record: &record,
        };
        job.add(&given, &message);
    }
    job
}

// ---- The worst messages, one in a batch ----

/// The last message of a worst script, signed by the first key of the pair `a.` at
/// 1000, for a table of this time.
fn generated(kind: &str) -> Vec<u8> {
    let second = Path::new(env!("CARGO_MANIFEST_DIR")).join("../../second/Cargo.toml");
    let script = Command::new("cargo")
        .args([
            "run",
            "--release",
            "--offline",
            "--quiet",
            "--bin",
            "scripts",
            "--manifest-path",
        ])
        .arg(second)
        .args(["--", "worst", kind])
        .output()
        .expect("cargo runs");
    assert!(script.status.success());
    let script = String::from_utf8(script.stdout).expect("a script is text");
    let last = script.lines().rfind(|line| line.starts_with("message"));
    let mut octets = hex(last.and_then(|line| line.split(' ').nth(5)).expect("one"));
    // The TSIG's data has 61 octets: the algorithm's name, then the time.
    let time = octets.len() - 61 + 13;
    assert_eq!(octets[time..time + 6], [0, 0, 0, 0, 3, 0xe8]);
    octets[time..time + 6].copy_from_slice(&NOW.to_be_bytes()[2..]);
    octets
}

/// A message whose TSIG's name ends behind so many pointers, the TSIG's own
/// counted: its first two labels are those of a key of every pair.
fn pointers(count: u16, key: &str, end: &str) -> Vec<u8> {
    let mut data = name(end);
    let first = 12 + 11; // the header, and the root's name to the data's length
    let mut target = first;
    for _ in 1..count {
        let at = first + data.len() as u16;
        data.extend((0xc000 | target).to_be_bytes());
        target = at;
    }
    let mut draft = Draft::empty();
    draft.answer.push(record(&[0], 16, IN, 0, &data));
    let mut tsig = Tsig::by(key, NOW);
    tsig.owner.pop();
    tsig.owner.extend((0xc000 | target).to_be_bytes());
    draft.with(&tsig)
}

fn worst() -> Vec<Mix> {
    let mix = |word, what: &str, table, message: Vec<u8>| Mix {
        word,
        what: format!("{what}, {} octets", message.len()),
        kind: Kind::Other,
        table,
        job: queue([message].into_iter()),
    };
    let one = || enrolled([name("a.")].into_iter());
    let second_label = |pair| format!("office.{:02}.example.", 64 - pair);
    let branches = enrolled((1..=64).map(|pair| name(&second_label(pair))));
    let end_of_chain = "1 message, its TSIG's name at the end of the longest chain of pointers";
    let behind = "1 message, its TSIG's name ends behind 8,146 pointers, 64 suffixes that differ in their second label";
    vec![
        mix(
            "long",
            "1 update of 2,557 addresses",
            Differ::Early.table(64),
            Differ::Early.long_update(1, 2_556),
        ),
        mix("chain", end_of_chain, one(), generated("chain")),
        mix(
            "records",
            "1 message full of records with such names",
            one(),
            generated("records"),
        ),
        mix(
            "questions",
            "1 message full of questions with such names",
            one(),
            generated("questions"),
        ),
        mix(
            "pointers",
            behind,
            branches,
            pointers(8_146, "1.office.", "00.example."),
        ),
    ]
}

/// All but the worst.
fn queues() -> impl Iterator<Item = Mix> {
    [Differ::Early, Differ::Late, Differ::Last]
        .into_iter()
        .flat_map(Differ::mixes)
}

pub fn all() -> Vec<Mix> {
    queues().chain(worst()).collect()
}

pub fn named(word: &str) -> Option<Mix> {
    let is_named = |mix: &Mix| mix.word == word;
    queues()
        .find(is_named)
        .or_else(|| worst().into_iter().find(is_named))
}
