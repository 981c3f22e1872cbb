//! The table. 01 "The desk's business" and the table rules.

use crate::names::{self, Name};

pub const MOST_PAIRS: usize = 64;
/// Serials are below this; a next serial may be this (01, number 11).
pub const SERIAL_LIMIT: u64 = 1 << 32;
/// Times in a table are below this.
pub const TABLE_TIME_LIMIT: u64 = 1 << 48;
pub const LONGEST_LIFETIME: u64 = (1 << 31) - 1;

#[derive(Clone, Copy, Debug, PartialEq, Eq)]
pub enum Algorithm {
    Sha256,
    Sha384,
    Sha512,
}

impl Algorithm {
    /// SCRIPT.md: the operator's numbers.
    pub fn from_number(number: u64) -> Option<Algorithm> {
        match number {
            256 => Some(Algorithm::Sha256),
            384 => Some(Algorithm::Sha384),
            512 => Some(Algorithm::Sha512),
            _ => None,
        }
    }

    /// RFC 8945 §6: by its wire name.
    pub fn from_name(name: &[u8]) -> Option<Algorithm> {
        let all = [Algorithm::Sha256, Algorithm::Sha384, Algorithm::Sha512];
        all.into_iter().find(|algorithm| algorithm.is_named(name))
    }

    /// RFC 8945 §6: whether this wire name is the algorithm's, its text as one
    /// label.
    pub fn is_named(self, name: &[u8]) -> bool {
        matches!(name, [11, label @ .., 0] if names::same(label, self.text().as_bytes()))
    }

    /// 01 "The desk's business": the name as text, of 11 octets.
    pub fn text(self) -> &'static str {
        match self {
            Algorithm::Sha256 => "hmac-sha256",
            Algorithm::Sha384 => "hmac-sha384",
            Algorithm::Sha512 => "hmac-sha512",
        }
    }

    /// RFC 8945 §6: its wire name, the text as one label and the root.
    pub fn name(self) -> Vec<u8> {
        [&[11], self.text().as_bytes(), &[0]].concat()
    }

    /// 01 "Judging" step 4: the octets of its output.
    pub fn output(self) -> usize {
        match self {
            Algorithm::Sha256 => 32,
            Algorithm::Sha384 => 48,
            Algorithm::Sha512 => 64,
        }
    }
}

/// A key; its times are in seconds since 1970.
#[derive(Clone, Copy, Debug, PartialEq, Eq)]
pub struct Key {
    pub serial: u64,
    pub algorithm: Algorithm,
    pub inception: u64,
    pub partial: u64,
    pub expiry: u64,
}

impl Key {
    /// 01 "Judging" step 3; 002 §2.1.
    pub fn is_in_force(&self, time: u64) -> bool {
        self.inception <= time && time < self.expiry
    }

    /// 01, the table rules about one key.
    fn keeps_rules(&self, pair: &Pair, clock: u64) -> bool {
        (1..pair.next_serial).contains(&self.serial)
            && self.inception <= self.partial
            && self.partial < self.expiry
            && self.inception.checked_add(pair.lifetime) == Some(self.expiry)
            && self.expiry < TABLE_TIME_LIMIT
            && self.inception <= clock
    }
}

/// No key, one adopted key, or one adopted key with one waiting key.
#[derive(Clone, Copy, Debug, PartialEq, Eq)]
pub enum Keys {
    None,
    Adopted(Key),
    Renewing { adopted: Key, waiting: Key },
}

/// This server and one counter.
#[derive(Clone, Debug, PartialEq, Eq)]
pub struct Pair {
    /// An uncompressed wire name of 3 to 128 octets.
    pub suffix: Vec<u8>,
    /// L.
    pub lifetime: u64,
    /// P.
    pub fresh: u64,
    pub next_serial: u64,
    pub keys: Keys,
}

impl Pair {
    /// 01 "The desk's business": the adopted key, if there is a key.
    pub fn adopted(&self) -> Option<&Key> {
        match &self.keys {
            Keys::None => None,
            Keys::Adopted(adopted) | Keys::Renewing { adopted, .. } => Some(adopted),
        }
    }

    /// 01 "The desk's business": the waiting key, if there is one.
    pub fn waiting(&self) -> Option<&Key> {
        match &self.keys {
            Keys::Renewing { waiting, .. } => Some(waiting),
            _ => None,
        }
    }

    /// 01 "The desk's business": whether `name` is the name of `key`, a key of
    /// this pair.
    pub(crate) fn is_name_of(&self, key: &Key, name: &[u8]) -> bool {
        names::same(name, Name::of_key(key.serial, &self.suffix).octets())
    }

    /// 01 "Judging": whether name and algorithm are those of `key`, a key of
    /// this pair.
    pub(crate) fn is_key(&self, key: &Key, name: &[u8], algorithm: &[u8]) -> bool {
        key.algorithm.is_named(algorithm) && self.is_name_of(key, name)
    }

    /// The key that enrol, issue and renewal make: the next serial, and times
    /// as in 01 "Renewal". Both terms are below 2^31 and the time below 2^48.
    pub(crate) fn next_key(&self, algorithm: Algorithm, time: u64) -> Key {
        Key {
            serial: self.next_serial,
            algorithm,
            inception: time,
            partial: time + self.fresh,
            expiry: time + self.lifetime,
        }
    }

    /// 01 "The desk's business": a fresh adopted key; what was there goes.
    pub(crate) fn issue(&mut self, key: Key) {
        self.next_serial = key.serial + 1;
        self.keys = Keys::Adopted(key);
    }

    /// 01, revoke early: partial becomes the earlier of itself and now.
    pub(crate) fn revoke(&mut self, time: u64) {
        if let Keys::Adopted(adopted) | Keys::Renewing { adopted, .. } = &mut self.keys {
            adopted.partial = adopted.partial.min(time);
        }
    }

    /// 01 "Renewal": `waiting` replaces any waiting key, and the partial time
    /// of the signing key, which is the adopted one, is now at the latest.
    pub(crate) fn renew(&mut self, waiting: Key, time: u64) {
        if let Some(&adopted) = self.adopted() {
            self.next_serial = waiting.serial + 1;
            self.keys = Keys::Renewing { adopted, waiting };
            self.revoke(time);
        }
    }

    /// 01 "Adoption": the waiting key becomes adopted, the old one is gone.
    pub(crate) fn adopt(&mut self) {
        if let Some(&waiting) = self.waiting() {
            self.keys = Keys::Adopted(waiting);
        }
    }

    /// 01 "Deletion" of the signing key: the pair has no key.
    pub(crate) fn delete(&mut self) {
        self.keys = Keys::None;
    }

    /// 01 "Deletion" of the waiting key: only that goes.
    pub(crate) fn delete_waiting(&mut self) {
        if let Keys::Renewing { adopted, .. } = self.keys {
            self.keys = Keys::Adopted(adopted);
        }
    }

    /// 01, the table rules about one pair.
    fn keeps_rules(&self, clock: u64) -> bool {
        names::is_suffix(&self.suffix)
            && are_terms(self.lifetime, self.fresh)
            && (1..=SERIAL_LIMIT).contains(&self.next_serial)
            && match &self.keys {
                Keys::None => true,
                Keys::Adopted(adopted) => adopted.keeps_rules(self, clock),
                Keys::Renewing { adopted, waiting } => {
                    adopted.keeps_rules(self, clock)
                        && waiting.keeps_rules(self, clock)
                        && waiting.serial > adopted.serial
                        && waiting.expiry >= adopted.expiry
                }
            }
    }
}

/// 01, number 13: 1 ≤ P < L ≤ 2^31 − 1.
pub fn are_terms(lifetime: u64, fresh: u64) -> bool {
    1 <= fresh && fresh < lifetime && lifetime <= LONGEST_LIFETIME
}

/// Pairs in order of enrolment, numbered from 1, a clock, and a floor: the
/// largest next serial of any closed pair, 1 at first (CR 9). The fields are
/// open, so that a table may break the rules; every call looks.
#[derive(Clone, Debug, PartialEq, Eq)]
pub struct Table {
    pub clock: u64,
    pub floor: u64,
    pub pairs: Vec<Pair>,
}

impl Table {
    /// No pairs, none closed.
    pub fn empty(clock: u64) -> Table {
        Table {
            clock,
            floor: 1,
            pairs: Vec::new(),
        }
    }

    /// 01, the table rules.
    pub fn keeps_rules(&self) -> bool {
        self.pairs.len() <= MOST_PAIRS
            && self.clock < TABLE_TIME_LIMIT
            && self.pairs.iter().all(|pair| pair.keeps_rules(self.clock))
            && self.has_distinct_suffixes()
            && (1..=SERIAL_LIMIT).contains(&self.floor)
    }

    /// 01, the table rules: suffixes distinct. Names are compared only where
    /// fingerprints are equal: with 64 pairs this is most of a call's work.
    fn has_distinct_suffixes(&self) -> bool {
        let mut prints = [0; MOST_PAIRS];
        self.pairs.iter().enumerate().all(|(index, pair)| {
            let print = names::fingerprint(&pair.suffix);
            let may_be_twin = prints[..index].contains(&print);
            prints[index] = print;
            let mut before = self.pairs[..index].iter();
            !(may_be_twin && before.any(|other| names::same(&other.suffix, &pair.suffix)))
        })
    }

    /// 01 "The desk's business" and number 14: the index of the pair with this
    /// suffix.
    pub fn find(&self, suffix: &[u8]) -> Option<usize> {
        let mut pairs = self.pairs.iter();
        pairs.position(|pair| names::same(&pair.suffix, suffix))
    }

    /// 01, number 9: the index of the pair with this number, if it is enrolled.
    pub fn index_of(&self, number: u64) -> Option<usize> {
        let index = usize::try_from(number).ok()?.checked_sub(1)?;
        (index < self.pairs.len()).then_some(index)
    }
}
