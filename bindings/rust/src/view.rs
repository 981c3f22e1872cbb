//! What lent words and octets hold, by the layout in the header.

use crate::sys::{Octets, Words};
use crate::words::Algorithm;

/// A table as plain values. Two tables that list alike have equal views,
/// whatever lies in words without meaning.
#[derive(Clone, Debug, PartialEq, Eq)]
pub struct View {
    /// The time of the last call that passed TABLE, TIME and CLOCK.
    pub clock: u64,
    /// The serial of the first key of a pair that is enrolled next.
    pub floor: u64,
    /// In order of enrolment: pair number 1 is the first.
    pub pairs: Vec<Pair>,
}

/// This server and one office.
#[derive(Clone, Debug, PartialEq, Eq)]
pub struct Pair {
    /// An uncompressed wire name, as it was enrolled.
    pub suffix: Vec<u8>,
    /// The serial of the key that is made next.
    pub next_serial: u64,
    /// The seconds for which a key lasts.
    pub lifetime: u64,
    /// The seconds after which a key is to be renewed.
    pub fresh: u64,
    /// Its keys.
    pub keys: Keys,
}

/// The keys of a pair.
#[derive(Clone, Copy, Debug, PartialEq, Eq)]
pub enum Keys {
    /// No key.
    None,
    /// An adopted key alone.
    Adopted(Key),
    /// A key in use, and one that waits to be adopted.
    Renewing {
        /// The key in use.
        adopted: Key,
        /// The key to come.
        waiting: Key,
    },
}

/// A key; its times are in seconds since 1970.
#[derive(Clone, Copy, Debug, PartialEq, Eq)]
pub struct Key {
    /// The first label of its name, in decimal.
    pub serial: u64,
    /// Its algorithm.
    pub algorithm: Algorithm,
    /// When it was made.
    pub inception: u64,
    /// From when on it may sign renewals and adoptions alone.
    pub partial: u64,
    /// When it ends.
    pub expiry: u64,
}

/// `None` where they break the layout rule.
pub(crate) fn read(words: &Words, suffixes: &Octets) -> Option<View> {
    let [clock, count, floor, rest @ ..] = words;
    let count = usize::try_from(*count).ok().filter(|&count| count <= 64)?;
    let (map, places) = rest.split_at(64);
    let rows = &places.as_chunks::<16>().0[..count];
    let names: Option<Vec<&[u8]>> = rows.iter().zip(suffixes.chunks(128)).map(name).collect();
    let names = names.filter(|names| names.windows(2).all(|two| is_before(two[0], two[1])))?;
    let pair = |(number, place): (usize, &u64)| {
        let place = usize::try_from(*place).ok()?;
        let row = rows.get(place).filter(|row| row[0] == number as u64)?;
        Some(Pair {
            suffix: names[place].to_vec(),
            lifetime: row[2],
            fresh: row[3],
            next_serial: row[4],
            keys: keys(&row[5..])?,
        })
    };
    let pairs: Option<Vec<Pair>> = map[..count].iter().enumerate().map(pair).collect();
    Some(View {
        clock: *clock,
        floor: *floor,
        pairs: pairs?,
    })
}

/// The suffix at a place, 3 to 128 octets.
fn name<'a>((row, octets): (&[u64; 16], &'a [u8])) -> Option<&'a [u8]> {
    let length = usize::try_from(row[1]).ok()?;
    octets.get(..length).filter(|name| name.len() >= 3)
}

/// The order of places, without regard to case.
fn is_before(one: &[u8], other: &[u8]) -> bool {
    let lower = u8::to_ascii_lowercase;
    one.iter().map(lower).lt(other.iter().map(lower))
}

/// The keys in eleven words: the tag, the adopted key, the waiting key. `None`
/// where tag or algorithm is unknown.
pub(crate) fn keys(words: &[u64]) -> Option<Keys> {
    Some(match words[0] {
        0 => Keys::None,
        1 => Keys::Adopted(key(&words[1..])?),
        2 => Keys::Renewing {
            adopted: key(&words[1..])?,
            waiting: key(&words[6..])?,
        },
        _ => return None,
    })
}

fn key(words: &[u64]) -> Option<Key> {
    Some(Key {
        serial: words[0],
        algorithm: Algorithm::of(words[1])?,
        inception: words[2],
        partial: words[3],
        expiry: words[4],
    })
}
