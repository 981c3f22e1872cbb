//! The plain batch against the archive's on generated scripts: their batches,
//! their messages one by one and in batches of up to 64, with junk in words
//! without meaning, and on damaged tables.

mod both;

use both::support::words::{number, octets, verdict_of};
use both::support::{edited, enrol_numbered, issue_numbered, listing_lines, with_junk, Random};
use both::{agree, Job, Side};
use luffcringle::{Given, Table};
use plain::Item;
use std::collections::BTreeMap;

const MOST_ROOM: u64 = 100_000;

/// A run of a script, and what its batches came to.
struct Runner {
    table: Table,
    random: Random,
    /// Messages that came since this table, to be taken at once.
    since: (Table, Job),
    reached: BTreeMap<String, u64>,
    batches: u64,
    line: usize,
}

impl Runner {
    fn new(seed: u64) -> Runner {
        let table = Table::new(0).expect("0 is a time");
        Runner {
            since: (table.clone(), Job::new(MOST_ROOM as usize)),
            table,
            random: Random(seed),
            reached: BTreeMap::new(),
            batches: 0,
            line: 0,
        }
    }

    fn line(&mut self, line: &[u8]) {
        self.line += 1;
        let words: Vec<&str> = match std::str::from_utf8(line) {
            Ok(text) => text.split(' ').collect(),
            Err(_) => return,
        };
        if self
            .batch(&words)
            .or_else(|| self.message(&words))
            .is_none()
        {
            self.other(&words);
        }
    }

    /// The line of a batch, nine words for each item.
    fn batch(&mut self, words: &[&str]) -> Option<()> {
        let ["batch", room, lent, ref items @ ..] = *words else {
            return None;
        };
        let mut job = Job::new(number(room)?.min(MOST_ROOM) as usize);
        job.octets = octets(lent)?;
        let items: Option<Vec<Item>> = items.chunks(9).map(item).collect();
        items?.into_iter().for_each(|item| job.put(item));
        self.take(&job);
        Some(())
    }

    /// The line of a message: a batch of one now, and one of many later.
    fn message(&mut self, words: &[&str]) -> Option<()> {
        let (time, verdict, offer, room, message, fits, record) = match *words {
            ["message", time, verdict, offer, room, message] => {
                (time, verdict, offer, room, message, "bad", "-")
            }
            ["message", time, verdict, offer, room, message, fits, record] => {
                (time, verdict, offer, room, message, fits, record)
            }
            _ => return None,
        };
        let given = Given {
            time: number(time)?,
            mac: verdict_of(verdict)?,
            offer: &octets(offer)?,
            keying: verdict_of(fits)?,
            record: &octets(record)?,
        };
        let mut job = Job::new(number(room)?.min(MOST_ROOM) as usize);
        let message = octets(message)?;
        job.add(&given, &message);
        self.since.1.add(&given, &message);
        self.take(&job);
        if self.since.1.is_full() || self.random.below(40) == 0 {
            self.take_since();
        }
        Some(())
    }

    /// Both sides; what ours left is the table of the next line.
    fn take(&mut self, job: &Job) {
        let table = self.table.clone();
        self.table = self.check(&table, job).table();
    }

    /// The messages since a table as one batch on that table, in most cases with
    /// room for all of them.
    fn take_since(&mut self) {
        let (table, mut job) =
            std::mem::replace(&mut self.since, (self.table.clone(), Job::new(0)));
        if self.random.below(4) == 0 {
            job.room = self.random.below(2_000);
        }
        self.check(&table, &job);
        self.since.1.room = MOST_ROOM as usize;
    }

    /// On the table as it is, with other junk, and damaged.
    fn check(&mut self, table: &Table, job: &Job) -> Side {
        let line = self.line;
        let (number, side) = agree(table, job, &format!("line {line}"));
        self.count(number, job, &side);
        let junk = with_junk(table, &mut self.random);
        agree(&junk, job, &format!("line {line}, with junk"));
        let (damaged, mut job) = (damaged(table, &mut self.random), job.clone());
        // Every word but 1 is a bad verdict.
        for item in &mut job.items {
            for word in [1, 6] {
                if item[word] == 0 {
                    item[word] = self.random.next() << 1;
                }
            }
        }
        let (number, left) = agree(&damaged, &job, &format!("line {line}, damaged"));
        self.count(number, &job, &left);
        self.batches += 3;
        side
    }

    fn count(&mut self, number: u64, job: &Job, side: &Side) {
        let mut reach = |what: String| *self.reached.entry(what).or_default() += 1;
        if number != 0 {
            reach(format!("batch {number}"));
            return;
        }
        let mut replies = &side.replies[..];
        for answer in &side.answers[..job.count as usize] {
            let (reply, rest) = replies.split_at(answer[1] as usize);
            replies = rest;
            match answer {
                [0, 0, _, _, pair, ..] => reach(format!("passed up, signed {}", *pair != 0)),
                [0, _, error, ..] => {
                    let records = (reply[7], reply[11]);
                    reach(format!(
                        "rcode {} error {error} records {records:?}",
                        reply[3]
                    ));
                }
                [number, ..] => reach(format!("item {number}")),
            }
        }
    }

    /// The other calls on the table; what does not read is passed over.
    fn other(&mut self, words: &[&str]) -> Option<()> {
        let table = &mut self.table;
        match *words {
            ["new", time] => drop(table.clear(number(time)?)),
            ["enrol", time, suffix, lifetime, fresh, algorithm] => {
                let terms = [number(lifetime)?, number(fresh)?];
                let (time, algorithm) = (number(time)?, number(algorithm)?);
                let _ = enrol_numbered(table, time, &octets(suffix)?, terms, algorithm);
            }
            ["issue", time, pair, algorithm] => {
                let _ = issue_numbered(table, number(time)?, number(pair)?, number(algorithm)?);
            }
            ["revoke", time, pair] => drop(table.revoke(number(time)?, number(pair)?)),
            ["close", time, pair] => drop(table.close(number(time)?, number(pair)?)),
            ["load" | "mend", ..] => drop(listing_lines::line(table, words)),
            _ => (),
        }
        Some(())
    }
}

fn item(words: &[&str]) -> Option<Item> {
    let mut item = Item::default();
    if words.len() != item.len() {
        return None;
    }
    for (place, (to, word)) in item.iter_mut().zip(words).enumerate() {
        *to = match place {
            1 | 6 => u64::from(verdict_of(word)?.is_good()),
            _ => number(word)?,
        };
    }
    Some(item)
}

/// One word or one octet is another, mostly one of those that have a meaning; or a
/// key ends at the end of all times, or one second sooner or later.
fn damaged(table: &Table, random: &mut Random) -> Table {
    let count = table.parts().0[1] as usize;
    edited(table, |words, suffixes| {
        if random.below(12) == 0 {
            let (end, row) = (1 << 48, 67 + 16 * random.below(count.max(1)));
            words[0] = end - 1;
            words[row + 10] = end - 1 + random.below(3) as u64;
            words[row + 8] = words[row + 10].wrapping_sub(words[row + 2]);
            words[row + 9] = words[row + 8];
            return;
        }
        if random.below(3) == 0 {
            let place = 128 * random.below(count.max(1)) + random.below(20);
            suffixes[place] = match random.below(3) {
                0 => suffixes[place] ^ 0x20,
                1 => suffixes[place].wrapping_add(1),
                _ => random.next() as u8,
            };
            return;
        }
        let place = match random.below(8) {
            0 => random.below(3),
            1 => 3 + random.below(count + 1),
            _ => 67 + 16 * random.below(count.max(1)) + random.below(16),
        };
        words[place] = match random.below(5) {
            0 => words[place].wrapping_add(1),
            1 => words[place].wrapping_sub(1),
            2 => words[67 + 16 * random.below(count.max(1)) + random.below(16)],
            3 => words[place] ^ 1 << random.below(64),
            _ => random.word(),
        };
    })
}

/// What every run of some thousand lines must come to.
const WANTED: [&str; 21] = [
    "batch 1",
    "batch 17",
    "item 2",
    "item 3",
    "item 4",
    "item 5",
    "item 6",
    "item 7",
    "item 8",
    "item 19",
    "passed up, signed false",
    "passed up, signed true",
    "rcode 1 error 0 records (0, 0)",
    "rcode 5 error 0 records (0, 0)",
    "rcode 9 error 16 records (0, 0)",
    "rcode 9 error 17 records (0, 0)",
    "rcode 9 error 18 records (0, 0)",
    "rcode 9 error 3841 records (0, 0)",
    "rcode 0 error 0 records (1, 0)",
    "rcode 0 error 0 records (1, 1)",
    "rcode 0 error 0 records (2, 1)",
];

fn run(script: &[u8], seed: u64) -> Runner {
    let mut runner = Runner::new(seed);
    for line in script.split(|&octet| octet == b'\n') {
        runner.line(line);
    }
    runner.take_since();
    runner
}

/// The scripts that the environment names, parted by colons, and what they came
/// to: `test.sh` generates them.
#[test]
fn the_named_scripts() {
    let Ok(paths) = std::env::var("LUFFCRINGLE_SCRIPTS") else {
        return;
    };
    let mut reached = BTreeMap::new();
    let mut batches = 0;
    for (seed, path) in (1..).zip(paths.split(':')) {
        let runner = run(&std::fs::read(path).expect(path), seed);
        batches += runner.batches;
        for (what, times) in runner.reached {
            *reached.entry(what).or_insert(0) += times;
        }
    }
    for (what, times) in &reached {
        println!("{times:8}  {what}");
    }
    println!("{batches:8}  batches in all");
    for what in WANTED {
        assert!(reached.contains_key(what), "{what} is not reached");
    }
}

#[test]
fn the_worked_day() {
    let day = include_bytes!("../../../examples/day.script");
    assert!(run(day, 1).batches > 0);
}
