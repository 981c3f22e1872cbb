//! The fixed list of what scripts are to reach, with counts.

use std::collections::BTreeMap;
use std::io::{self, Write};

struct Item {
    name: String,
    count: u64,
    /// Why no script can reach it.
    never: Option<&'static str>,
}

#[derive(Default)]
pub struct Reached {
    items: Vec<Item>,
    places: BTreeMap<String, usize>,
    surprises: Vec<String>,
}

const TABLE: &str = "a script starts from the empty table, every call keeps the table rules, and \
load and mend leave no table that breaks one";

const CALLS: [(&str, &[u64]); 24] = [
    ("new", &[0, 2]),
    ("enrol", &[0, 2, 3, 11, 12, 13, 14, 15]),
    ("issue", &[0, 2, 3, 9, 11, 13]),
    ("revoke", &[0, 2, 3, 9, 10]),
    ("close", &[0, 2, 3, 9]),
    ("look", &[0, 4, 6, 7]),
    ("message", &[0, 2, 3, 4, 5, 6, 7, 8, 19]),
    ("batch", &[0, 17]),
    ("batch item", &[0, 2, 3, 4, 5, 6, 7, 8, 19]),
    ("list ROOM", &[0, 8]),
    ("load", &[0, 1, 18]),
    ("mend", &[0, 1, 8, 18]),
    ("compare", &[0, 1, 4, 6, 18, 21]),
    ("hold", &[0]),
    ("note", &[0]),
    ("renewal", &[0, 5, 6]),
    ("adoption", &[0, 5, 6]),
    ("deletion", &[0, 5, 6]),
    ("reply", &[0, 1, 2, 3, 4]),
    ("digest-request", &[0, 2, 4, 6, 8, 12]),
    ("digest-reply", &[0, 2, 4, 6, 8, 12, 16]),
    ("finish", &[0, 2, 4, 6, 8, 12, 16]),
    ("read-back", &[0, 4, 6]),
    ("remove", &[0, 4, 6, 8]),
];

const OUTCOMES: [&str; 43] = [
    "list",
    "keys",
    "renewal due",
    "bad line",
    "rcode 0",
    "rcode 1",
    "rcode 5",
    "rcode 9",
    "tsig error 16",
    "tsig error 17",
    "tsig error 18",
    "tsig error 3841",
    "tkey error 0",
    "tkey error 1",
    "tkey error 2",
    "tkey error 17",
    "tkey error 18",
    "tkey error 19",
    "tkey error 20",
    "tkey error 21",
    "success passed up",
    "success handed up unsigned",
    "success renewal of mode 4097 granted",
    "success renewal of mode 4097 replacing a waiting key",
    "success renewal of mode 4098 granted",
    "success renewal of mode 4098 replacing a waiting key",
    "success renewal of mode 4099 granted",
    "success renewal of mode 4099 replacing a waiting key",
    "renewal with times on both sides of 2^32",
    "renewal with times above 2^32",
    "success adoption",
    "success re-adoption without a waiting key",
    "success re-adoption with a waiting key",
    "success deletion of the adopted key",
    "success deletion of the waiting key",
    "success deletion of both keys of a pair",
    "look found",
    "look found an expired key",
    "look 0 0",
    "line dropped for 18",
    "line dropped for 14",
    "line dropped for 15",
    "line dropped for 1",
];

const NEVER: [(&str, &str); 13] = [
    ("enrol 1", TABLE),
    ("issue 1", TABLE),
    ("revoke 1", TABLE),
    ("close 1", TABLE),
    ("look 1", TABLE),
    ("message 1", TABLE),
    ("batch 1", TABLE),
    ("batch item 1", TABLE),
    ("list ROOM 1", TABLE),
    (
        "tsig error 17 for a time before inception",
        "by a table rule every inception is at most the clock, so an earlier time is refused \
with CLOCK",
    ),
    (
        "adoption of an expired waiting key",
        "by a table rule a waiting key expires no sooner than the adopted key that must sign",
    ),
    (
        "adoption 6 for an offered name that is no wire name",
        "an offered name comes from a reply, written out",
    ),
    (
        "answer to a resolver without the key it needs",
        "a request is written with its keys there, and they change with its reply or with hold, \
which leaves no request open",
    ),
];

impl Reached {
    /// The items that are seen in what the calls print, whatever scenario made them.
    pub fn with_outcomes() -> Reached {
        let mut reached = Reached::default();
        for (call, numbers) in CALLS {
            for number in numbers {
                reached.add(format!("{call} {number}"), None);
            }
        }
        for call in ["enrol", "issue", "revoke", "close", "message", "batch item"] {
            reached.add(format!("clock moved by a refused {call}"), None);
        }
        for outcome in OUTCOMES {
            reached.add(outcome.to_string(), None);
        }
        for skew in ["negative", "zero", "positive"] {
            reached.add(format!("skew {skew}"), None);
        }
        reached
    }

    pub fn add_never(&mut self) {
        for (name, reason) in NEVER {
            self.add(name.to_string(), Some(reason));
        }
    }

    pub fn add(&mut self, name: String, never: Option<&'static str>) {
        let before = self.places.insert(name.clone(), self.items.len());
        assert!(before.is_none(), "{name} is listed twice");
        self.items.push(Item {
            name,
            count: 0,
            never,
        });
    }

    /// An outcome outside the list is a surprise in itself.
    pub fn hit(&mut self, name: &str, line: u64) {
        let Some(&place) = self.places.get(name) else {
            self.surprise(line, &format!("{name} is not on the list"));
            return;
        };
        self.items[place].count += 1;
        if self.items[place].never.is_some() {
            self.surprise(line, &format!("{name} was thought out of reach"));
        }
    }

    pub fn count(&self, name: &str) -> u64 {
        self.items[self.places[name]].count
    }

    /// The reader did not do what the papers say, as this generator reads them.
    pub fn surprise(&mut self, line: u64, what: &str) {
        self.surprises
            .push(format!("surprise\tline {line}\t{what}"));
    }

    /// Nothing missing and nothing surprising.
    pub fn is_complete(&self) -> bool {
        let met = |i: &Item| i.count > 0 || i.never.is_some();
        self.items.iter().all(met) && self.surprises.is_empty()
    }

    pub fn write(&self, to: &mut impl Write) -> io::Result<()> {
        for item in self.items.iter().filter(|i| i.count > 0) {
            writeln!(to, "reached\t{}\t{}", item.name, item.count)?;
        }
        for item in self.items.iter().filter(|i| i.count == 0) {
            let reason = item.never.unwrap_or("by chance");
            writeln!(to, "not reached\t{}\t{}", item.name, reason)?;
        }
        for surprise in &self.surprises {
            writeln!(to, "{surprise}")?;
        }
        Ok(())
    }
}
