//! What the tests and the measurement share.
#![allow(dead_code)]

#[path = "../../../../second/tests/desk/build.rs"]
pub mod build;
pub mod listing_lines;
pub mod office_lines;
pub mod signing_lines;
pub mod words;

use luffcringle::{sys, Answer, Given, Octets, Refusal, Table, TsigError, Verdict, View, Words};
use luffcringle::{TABLE_OCTETS, TABLE_WORDS};
use second::Algorithm;

// ---- The layout ----

pub const CLOCK: usize = 0;
pub const COUNT: usize = 1;
pub const FLOOR: usize = 2;
pub const MAP: usize = 3;

/// The first word of a place, and words of it.
pub const fn row(place: usize) -> usize {
    67 + 16 * place
}
pub const NUMBER: usize = 0;
pub const LENGTH: usize = 1;
pub const LIFETIME: usize = 2;
pub const FRESH: usize = 3;
pub const NEXT_SERIAL: usize = 4;
pub const KEYS: usize = 5;
pub const ADOPTED: usize = 6;
pub const WAITING: usize = 11;
pub const ROW_WORDS: usize = 16;

/// The place of a pair, by its number.
pub fn place(table: &Table, pair: u64) -> usize {
    table.parts().0[MAP + pair as usize - 1] as usize
}

/// The first word of a pair, by its number.
pub fn row_of(table: &Table, pair: u64) -> usize {
    row(place(table, pair))
}

/// The same with other words and octets.
pub fn edited(table: &Table, edit: impl FnOnce(&mut Words, &mut Octets)) -> Table {
    let (mut words, mut suffixes) = (*table.parts().0, *table.parts().1);
    edit(&mut words, &mut suffixes);
    Table::from_parts(&words, &suffixes)
}

/// Which words and octets have a meaning.
pub fn meaning(words: &Words) -> ([bool; TABLE_WORDS], [bool; TABLE_OCTETS]) {
    let mut of_words = [false; TABLE_WORDS];
    let mut of_octets = [false; TABLE_OCTETS];
    let count = words[COUNT] as usize;
    of_words[CLOCK..=FLOOR].fill(true);
    of_words[MAP..][..count].fill(true);
    for place in 0..count {
        let from = row(place);
        let used = [ADOPTED, WAITING, ROW_WORDS][words[from + KEYS] as usize];
        of_words[from..][..used].fill(true);
        of_octets[128 * place..][..words[from + LENGTH] as usize].fill(true);
    }
    (of_words, of_octets)
}

/// The same table with other junk where nothing has a meaning.
pub fn with_junk(table: &Table, random: &mut Random) -> Table {
    let (of_words, of_octets) = meaning(table.parts().0);
    edited(table, |words, suffixes| {
        for (word, _) in words.iter_mut().zip(of_words).filter(|(_, used)| !used) {
            *word = random.word();
        }
        for (octet, _) in suffixes.iter_mut().zip(of_octets).filter(|(_, used)| !used) {
            *octet = random.next() as u8;
        }
    })
}

/// The words that differ.
pub fn changed(before: &Table, after: &Table) -> Vec<usize> {
    let (before, after) = (before.parts().0, after.parts().0);
    (0..TABLE_WORDS)
        .filter(|&word| before[word] != after[word])
        .collect()
}

// ---- What the safe types rule out ----

/// Enrol with any number for its algorithm.
pub fn enrol_numbered(
    table: &mut Table,
    time: u64,
    suffix: &[u8],
    terms: [u64; 2],
    algorithm: u64,
) -> Result<Answer, Refusal> {
    let (mut words, mut suffixes) = (*table.parts().0, *table.parts().1);
    let (mut told, [lifetime, fresh]) = ([0; 7], terms);
    // SAFETY: suffix is as long as told.
    unsafe {
        sys::luffcringle_enrol(
            &mut words,
            &mut suffixes,
            time,
            suffix.as_ptr(),
            suffix.len(),
            lifetime,
            fresh,
            algorithm,
            &mut told,
        )
    };
    *table = Table::from_parts(&words, &suffixes);
    answer_of(told)
}

/// Issue with any number for its algorithm.
pub fn issue_numbered(
    table: &mut Table,
    time: u64,
    pair: u64,
    algorithm: u64,
) -> Result<Answer, Refusal> {
    let (mut words, suffixes) = (*table.parts().0, *table.parts().1);
    let mut told = [0; 7];
    // SAFETY: the references are all that is lent.
    unsafe { sys::luffcringle_issue(&mut words, &suffixes, time, pair, algorithm, &mut told) };
    *table = Table::from_parts(&words, &suffixes);
    answer_of(told)
}

/// Of enrol and issue: a pair and a serial, or one of their refusals.
fn answer_of(told: [u64; 7]) -> Result<Answer, Refusal> {
    let refusals = [
        Refusal::Table,
        Refusal::Time,
        Refusal::Clock,
        Refusal::NoPair,
        Refusal::Spent,
        Refusal::Name,
        Refusal::Term,
        Refusal::Twin,
        Refusal::Full,
    ];
    let [number, _, _, _, pair, serial, _] = told;
    match number {
        0 => Ok(Answer {
            pair,
            serial,
            ..Answer::default()
        }),
        _ => {
            let mut all = refusals.into_iter();
            let found = all.find(|refusal| refusal.number() == number);
            Err(found.expect("one of their refusals"))
        }
    }
}

// ---- Chance ----

/// Numbers that look like chance (splitmix64).
pub struct Random(pub u64);

impl Random {
    pub fn next(&mut self) -> u64 {
        self.0 = self.0.wrapping_add(0x9e37_79b9_7f4a_7c15);
        let mixed = (self.0 ^ self.0 >> 30).wrapping_mul(0xbf58_476d_1ce4_e5b9);
        let mixed = (mixed ^ mixed >> 27).wrapping_mul(0x94d0_49bb_1331_11eb);
        mixed ^ mixed >> 31
    }

    pub fn below(&mut self, limit: usize) -> usize {
        (self.next() % limit as u64) as usize
    }

    /// Words that mean something elsewhere, that wrap when they are multiplied,
    /// or any.
    pub fn word(&mut self) -> u64 {
        const SPECIAL: [u64; 14] = [
            0,
            1,
            2,
            3,
            63,
            64,
            65,
            128,
            129,
            256,
            1 << 57,
            1 << 60,
            1 << 63,
            u64::MAX,
        ];
        match self.below(2) {
            0 => self.next(),
            _ => SPECIAL[self.below(SPECIAL.len())],
        }
    }
}

// ---- The second reader ----

/// A table for the second reader.
pub fn table_of(table: &Table) -> second::Table {
    theirs(&table.view().expect("a table"))
}

pub fn theirs(view: &View) -> second::Table {
    second::Table {
        clock: view.clock,
        floor: view.floor,
        pairs: view.pairs.iter().map(pair_of).collect(),
    }
}

fn pair_of(pair: &luffcringle::Pair) -> second::Pair {
    use luffcringle::Keys;
    second::Pair {
        suffix: pair.suffix.clone(),
        lifetime: pair.lifetime,
        fresh: pair.fresh,
        next_serial: pair.next_serial,
        keys: match &pair.keys {
            Keys::None => second::Keys::None,
            Keys::Adopted(key) => second::Keys::Adopted(key_of(key)),
            Keys::Renewing { adopted, waiting } => second::Keys::Renewing {
                adopted: key_of(adopted),
                waiting: key_of(waiting),
            },
        },
    }
}

fn key_of(key: &luffcringle::Key) -> second::Key {
    second::Key {
        serial: key.serial,
        algorithm: Algorithm::from_number(key.algorithm.number()).expect("an algorithm"),
        inception: key.inception,
        partial: key.partial,
        expiry: key.expiry,
    }
}

/// What is given with a good message whose KEY, if any, does not fit.
pub fn good(time: u64, offer: &[u8]) -> Given<'_> {
    Given {
        time,
        mac: Verdict::Good,
        offer,
        ..Given::default()
    }
}

/// The same for the second reader.
pub fn given_to_them<'a>(given: &Given<'a>) -> second::Given<'a> {
    second::Given {
        time: given.time,
        good: given.mac.is_good(),
        offer: given.offer,
        fits: given.keying.is_good(),
        record: given.record,
    }
}

/// What the second reader answers, as the wrapper says it.
pub fn as_ours(theirs: Result<second::Done, second::Refusal>) -> Result<Answer, Refusal> {
    theirs.map_err(refusal_of).map(|done| Answer {
        length: done.length,
        error: tsig_error(done.error),
        skew: done.skew,
        pair: done.pair,
        serial: done.serial,
    })
}

fn tsig_error(number: u16) -> TsigError {
    use TsigError::{BadKey, BadSig, BadTime, None, PartialRevoke};
    let mut all = [None, BadSig, BadKey, BadTime, PartialRevoke].into_iter();
    let found = all.find(|error| error.number() == number);
    found.expect("a TSIG error that the table answers")
}

fn refusal_of(refusal: second::Refusal) -> Refusal {
    use {luffcringle::Refusal as Ours, second::Refusal as Theirs};
    match refusal {
        Theirs::Table => Ours::Table,
        Theirs::Time => Ours::Time,
        Theirs::Clock => Ours::Clock,
        Theirs::Size => Ours::Size,
        Theirs::Offer => Ours::Offer,
        Theirs::Format(place) => Ours::Format { place },
        Theirs::NotQuery => Ours::NotQuery,
        Theirs::Room => Ours::Room,
        Theirs::NoPair => Ours::NoPair,
        Theirs::NoKey => Ours::NoKey,
        Theirs::Spent => Ours::Spent,
        Theirs::Name => Ours::Name,
        Theirs::Term => Ours::Term,
        Theirs::Twin => Ours::Twin,
        Theirs::Full => Ours::Full,
        Theirs::Batch => Ours::Batch,
        Theirs::KeyRec => Ours::KeyRec,
    }
}
