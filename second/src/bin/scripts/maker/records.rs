//! KEY records to lend, right and wrong.

use super::Maker;
use crate::wire::{self, joined, label, name, name_of, pointer};

/// Those that are exactly one KEY record as 02 CR 10 wants it.
pub const RIGHT_RECORDS: [&str; 7] = [
    "right",
    "owner the root",
    "owner of 255 octets",
    "no data",
    "data of 600",
    "class 0 and TTL 2^32 - 1",
    "a record in its data",
];

/// And those that are not.
pub const WRONG_RECORDS: [&str; 19] = [
    "none",
    "one octet",
    "type 24",
    "type 26",
    "type 281",
    "type 6400",
    "owner a pointer",
    "owner ended by a pointer",
    "owner with a label octet 64",
    "owner with a label octet 191",
    "owner of 256 octets",
    "owner without end",
    "data length too long",
    "data length too short",
    "cut off",
    "first octet missing",
    "no data length",
    "an octet left over",
    "two records",
];

impl Maker<'_> {
    /// A record of such a kind.
    pub fn lent_record(&mut self, kind: &str) -> Vec<u8> {
        let text = self.rng.letters(3);
        let data = self.rng.some_octets(1, 24);
        let mut key = wire::record(&name(&[&text, b"example"]), wire::KEY, wire::IN, &data);
        key.class = *self.rng.pick(&[1, 255, 254]);
        key.ttl = self.rng.below(5000) as u32;
        match kind {
            "none" => return Vec::new(),
            "one octet" => return vec![0],
            "owner the root" => key.owner = vec![0],
            "owner of 255 octets" => key.owner = name_of(255),
            "owner of 256 octets" => key.owner = name_of(256),
            "no data" => key.data.clear(),
            "data of 600" => key.data = self.rng.octets(600),
            "class 0 and TTL 2^32 - 1" => (key.class, key.ttl) = (0, u32::MAX),
            "a record in its data" => key.data = key.octets(),
            "type 24" => key.kind = 24,
            "type 26" => key.kind = 26,
            "type 281" => key.kind = 256 + wire::KEY,
            "type 6400" => key.kind = wire::KEY << 8,
            "owner a pointer" => key.owner = pointer(12),
            "owner ended by a pointer" => key.owner = joined(&[&label(b"s"), &pointer(12)]),
            "owner with a label octet 64" => key.owner = joined(&[&[64], &[b's'; 64], &[0]]),
            "owner with a label octet 191" => key.owner = joined(&[&[191], &[b's'; 191], &[0]]),
            "data length too long" => key.length_off = 1,
            "data length too short" => key.length_off = -1,
            _ => {}
        }
        let mut octets = key.octets();
        match kind {
            "owner without end" => octets = vec![63, b's', b's'],
            "cut off" => octets.truncate(self.rng.within(1, octets.len() as u64 - 1) as usize),
            "first octet missing" => drop(octets.remove(0)),
            "no data length" => octets.truncate(key.owner.len() + 8),
            "an octet left over" => octets.push(self.rng.next() as u8),
            "two records" => octets = octets.repeat(2),
            _ => {}
        }
        octets
    }

    pub fn right_record(&mut self) -> Vec<u8> {
        self.lent_record("right")
    }

    pub fn wrong_record(&mut self) -> Vec<u8> {
        let kind = *self.rng.pick(&WRONG_RECORDS);
        self.lent_record(kind)
    }

    /// A verdict and a record where they do not matter: mostly neither.
    pub fn any_keying(&mut self) -> (bool, Vec<u8>) {
        if self.rng.chance(70) {
            return (false, Vec::new());
        }
        let fits = self.rng.chance(50);
        let record = match self.rng.below(3) {
            0 => Vec::new(),
            1 => self.right_record(),
            _ => self.wrong_record(),
        };
        (fits, record)
    }
}
