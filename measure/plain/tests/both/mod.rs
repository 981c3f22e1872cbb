//! One batch, done by both sides. For the test and the measurement.
#![allow(dead_code)]

#[path = "../../../../bindings/rust/tests/support/mod.rs"]
pub mod support;

use luffcringle::{sys, Given, Table};
use plain::{Answer, Item, Octets, Words, MOST_ITEMS};

/// What lies in answers and replies before a call.
const FILL: u8 = 0xa5;

/// What a batch takes beside the table.
#[derive(Clone)]
pub struct Job {
    pub count: u64,
    pub items: [Item; MOST_ITEMS],
    pub octets: Vec<u8>,
    pub room: usize,
}

impl Job {
    pub fn new(room: usize) -> Job {
        Job {
            count: 0,
            items: [Item::default(); MOST_ITEMS],
            octets: Vec::new(),
            room,
        }
    }

    /// Adds a message; a batch may count more items than there is room for.
    pub fn add(&mut self, given: &Given, message: &[u8]) {
        let mut place = |octets: &[u8]| {
            self.octets.extend(octets);
            [self.octets.len() - octets.len(), octets.len()].map(|word| word as u64)
        };
        let [message, offer, record] = [message, given.offer, given.record].map(&mut place);
        let verdicts = [given.mac, given.keying].map(|verdict| u64::from(verdict.is_good()));
        self.put([
            given.time,
            verdicts[0],
            message[0],
            message[1],
            offer[0],
            offer[1],
            verdicts[1],
            record[0],
            record[1],
        ]);
    }

    /// Adds an item's words.
    pub fn put(&mut self, item: Item) {
        if let Some(place) = self.items.get_mut(self.count as usize) {
            *place = item;
        }
        self.count += 1;
    }

    pub fn is_full(&self) -> bool {
        self.count as usize == MOST_ITEMS
    }
}

/// A table, and what a batch writes.
#[derive(Clone)]
pub struct Side {
    pub words: Words,
    pub suffixes: Octets,
    pub answers: [Answer; MOST_ITEMS],
    pub replies: Vec<u8>,
}

impl Side {
    pub fn new(table: &Table, room: usize) -> Side {
        Side {
            words: *table.parts().0,
            suffixes: *table.parts().1,
            answers: [[u64::from(FILL); 7]; MOST_ITEMS],
            replies: vec![FILL; room],
        }
    }

    pub fn ours(&mut self, job: &Job) -> u64 {
        // SAFETY: octets and replies are as long as told, and replies is borrowed
        // alone.
        unsafe {
            sys::luffcringle_batch(
                &mut self.words,
                &self.suffixes,
                job.count,
                &job.items,
                job.octets.as_ptr(),
                job.octets.len(),
                &mut self.answers,
                self.replies.as_mut_ptr(),
                self.replies.len(),
            )
        }
    }

    pub fn plain(&mut self, job: &Job) -> u64 {
        let Side {
            words,
            suffixes,
            answers,
            replies,
        } = self;
        plain::batch(
            words,
            suffixes,
            job.count,
            &job.items,
            &job.octets,
            answers,
            replies,
        )
    }

    pub fn table(&self) -> Table {
        Table::from_parts(&self.words, &self.suffixes)
    }
}

/// Both sides' batch on a table: numbers, answers and all octets of the replies
/// are equal, and so are the tables, in the words that have a meaning. Answers
/// with the number and what our side left.
pub fn agree(table: &Table, job: &Job, what: &str) -> (u64, Side) {
    let start = Side::new(table, job.room);
    let (mut ours, mut plain) = (start.clone(), start);
    let number = ours.ours(job);
    assert_eq!(plain.plain(job), number, "{what}: number");
    assert_eq!(plain.answers, ours.answers, "{what}: answers");
    assert!(plain.replies == ours.replies, "{what}: replies");
    if number != 0 {
        assert!(
            plain.words == *table.parts().0,
            "{what}: a table that was refused"
        );
        return (number, ours);
    }
    let (meant, _) = support::meaning(&ours.words);
    for (word, _) in meant.iter().enumerate().filter(|(_, meant)| **meant) {
        assert_eq!(plain.words[word], ours.words[word], "{what}: word {word}");
    }
    assert_eq!(plain.table().view(), ours.table().view(), "{what}: view");
    (number, ours)
}
