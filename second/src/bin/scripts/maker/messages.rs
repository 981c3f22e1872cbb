//! Messages of each kind, good unless bent later.

use super::{Maker, Signer};
use crate::wire::{self, Ask, Question, Record, Tkey, Tsig};

impl Maker<'_> {
    /// A TSIG by a key of this name and algorithm, its MAC not cut.
    pub fn tsig_of(&mut self, name: Vec<u8>, algorithm: u64, time: u64) -> Tsig {
        Tsig {
            owner: name,
            class: wire::ANY,
            ttl: 0,
            algorithm: wire::algorithm_name(algorithm),
            signed: time,
            fudge: 300,
            mac: self.rng.octets(wire::mac_length(algorithm)),
            mac_off: 0,
            original: self.rng.next() as u16,
            error: 0,
            other: Vec::new(),
            other_off: 0,
            tail: Vec::new(),
        }
    }

    pub fn tsig(&mut self, s: &Signer) -> Tsig {
        Tsig {
            fudge: *self.rng.pick(&[300, 300, 300, 1, 10, 65535]),
            ..self.tsig_of(s.name(), s.algorithm, s.time)
        }
    }

    fn question_name(&mut self, s: &Signer) -> Vec<u8> {
        match self.rng.below(5) {
            0 => s.name(),
            1 => s.suffix.clone(),
            2 => vec![0],
            3 => {
                let first = self.rng.letters(2);
                wire::name(&[&first, b"example"])
            }
            _ => {
                let first = self.rng.letters(4);
                wire::joined(&[&wire::label(&first), &s.suffix])
            }
        }
    }

    /// RD at random; the bits that a reply must clear are set now and then.
    fn flags(&mut self) -> u16 {
        let mut flags = if self.rng.chance(50) { wire::RD } else { 0 };
        if self.rng.chance(10) {
            flags |= self.rng.next() as u16 & 0x07ff;
        }
        flags
    }

    pub fn blank(&mut self, name: Vec<u8>, kind: u16, class: u16) -> Ask {
        Ask {
            id: self.rng.next() as u16,
            flags: self.flags(),
            questions: vec![Question { name, kind, class }],
            sections: [Vec::new(), Vec::new(), Vec::new()],
            tkey: None,
            keys: Vec::new(),
            keys_first: self.rng.chance(30),
            tsig: None,
            squeeze: self.rng.chance(50),
            counts: [0; 4],
            tail: Vec::new(),
        }
    }

    /// A record of no concern to the desk.
    pub fn by_the_way(&mut self) -> Record {
        let kind = *self.rng.pick(&[1, 2, 6, 16, 41, 46, 255, 65280]);
        let data = self.rng.some_octets(0, 8);
        let owner = match self.rng.chance(50) {
            true => vec![0],
            false => wire::name(&[b"w", b"example"]),
        };
        let mut r = wire::record(&owner, kind, wire::IN, &data);
        r.ttl = self.rng.next() as u32;
        r
    }

    /// Records here and there that change nothing.
    pub fn dress(&mut self, ask: &mut Ask) {
        for section in 0..3 {
            if self.rng.chance(12) {
                let r = self.by_the_way();
                ask.sections[section].push(r);
            }
        }
    }

    pub fn unsigned(&mut self, s: &Signer) -> Ask {
        let kind = *self.rng.pick(&[1, 2, 6, 28, 250, 252, 255]);
        let class = *self.rng.pick(&[1, 1, 255]);
        let name = self.question_name(s);
        let mut ask = self.blank(name, kind, class);
        ask.flags |= *self.rng.pick(&[0, 0, 0, 4, 5, 15]) << 11;
        self.dress(&mut ask);
        ask
    }

    pub fn ordinary(&mut self, s: &Signer) -> Ask {
        let mut ask = self.unsigned(s);
        ask.tsig = Some(self.tsig(s));
        ask
    }

    /// A TKEY request of this mode for this NAME, its other data the signing key's.
    pub fn request(&mut self, s: &Signer, mode: u16, owner: &[u8]) -> Ask {
        let name = self.question_name(s);
        let mut ask = self.blank(name, wire::TKEY, wire::ANY);
        self.dress(&mut ask);
        let inception = self.rng.next() as u32;
        ask.tkey = Some(Tkey {
            owner: owner.to_vec(),
            class: *self.rng.pick(&[255, 255, 1]),
            ttl: *self.rng.pick(&[0, 0, 3600]),
            algorithm: s.algorithm_name(),
            inception,
            expiration: self.rng.expiration_after(inception),
            mode,
            error: *self.rng.pick(&[0, 0, 0, 17]),
            key: self.rng.some_octets(0, 12),
            key_off: 0,
            other: wire::joined(&[&s.name(), &s.algorithm_name()]),
            other_off: 0,
            tail: Vec::new(),
        });
        ask.tsig = Some(self.tsig(s));
        ask
    }

    pub fn key_record(&mut self, s: &Signer) -> Record {
        let owner = self.question_name(s);
        let data = self.rng.some_octets(0, 24);
        let mut key = wire::record(&owner, wire::KEY, wire::IN, &data);
        key.class = *self.rng.pick(&[1, 255, 77]);
        key.ttl = self.rng.below(5000) as u32;
        key
    }

    /// A renewal of any of the three modes.
    pub fn renewal(&mut self, s: &Signer) -> Ask {
        let mode = *self.rng.pick(&wire::RENEWALS);
        self.renewal_of(s, mode)
    }

    pub fn renewal_of(&mut self, s: &Signer, mode: u16) -> Ask {
        let owner = self.question_name(s);
        let mut ask = self.request(s, mode, &owner);
        let key = self.key_record(s);
        ask.keys.push(key);
        let algorithm = self.rng.algorithm();
        tkey(&mut ask).algorithm = wire::algorithm_name(algorithm);
        ask
    }

    pub fn adoption(&mut self, s: &Signer, name: &[u8], algorithm: u64) -> Ask {
        let mut ask = self.request(s, wire::ADOPT, name);
        tkey(&mut ask).algorithm = wire::algorithm_name(algorithm);
        ask
    }

    pub fn deletion(&mut self, s: &Signer, name: &[u8]) -> Ask {
        self.request(s, wire::DELETE, name)
    }
}

pub fn tkey(ask: &mut Ask) -> &mut Tkey {
    ask.tkey.as_mut().expect("a TKEY request")
}

pub fn tsig(ask: &mut Ask) -> &mut Tsig {
    ask.tsig.as_mut().expect("a signed message")
}
