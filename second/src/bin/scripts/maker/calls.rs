//! The calls as script lines, and the replies that the papers ask for.

use super::{lower, verdict, Call, Maker, MAX_ROOM};
use crate::desk::{Outcome, Pair, Want};
use crate::wire::{self, Ask, Tkey};

impl Maker<'_> {
    /// Leading zeros now and then: they read.
    pub fn number(&mut self, n: u64) -> String {
        if self.rng.below(200) == 0 {
            format!("{n:0>22}")
        } else {
            n.to_string()
        }
    }

    pub fn hex(&mut self, octets: &[u8]) -> String {
        if octets.is_empty() {
            return "-".to_string();
        }
        let upper = self.rng.below(100) == 0;
        let digits: &[u8; 16] = match upper {
            true => b"0123456789ABCDEF",
            false => b"0123456789abcdef",
        };
        let mut text = String::with_capacity(2 * octets.len());
        for o in octets {
            text.push(digits[usize::from(o >> 4)].into());
            text.push(digits[usize::from(o & 15)].into());
        }
        text
    }

    pub fn new_table(&mut self, time: u64) -> Outcome {
        let line = format!("new {}", self.number(time));
        self.line(line.as_bytes())
    }

    pub fn enrol(&mut self, time: u64, suffix: &[u8], terms: (u64, u64), alg: u64) -> Outcome {
        let line = format!(
            "enrol {} {} {} {} {}",
            self.number(time),
            self.hex(suffix),
            self.number(terms.0),
            self.number(terms.1),
            self.number(alg)
        );
        self.line(line.as_bytes())
    }

    pub fn issue(&mut self, time: u64, pair: u64, alg: u64) -> Outcome {
        let line = format!(
            "issue {} {} {}",
            self.number(time),
            self.number(pair),
            self.number(alg)
        );
        self.line(line.as_bytes())
    }

    pub fn revoke(&mut self, time: u64, pair: u64) -> Outcome {
        let line = format!("revoke {} {}", self.number(time), self.number(pair));
        self.line(line.as_bytes())
    }

    pub fn close(&mut self, time: u64, pair: u64) -> Outcome {
        let line = format!("close {} {}", self.number(time), self.number(pair));
        self.line(line.as_bytes())
    }

    pub fn look(&mut self, message: &[u8]) -> Outcome {
        let line = format!("look {}", self.hex(message));
        self.line(line.as_bytes())
    }

    pub fn send(&mut self, call: &Call, message: &[u8]) -> Outcome {
        let mut line = format!(
            "message {} {} {} {} {}",
            self.number(call.time),
            verdict(call.good),
            self.hex(&call.offer),
            self.number(call.room),
            self.hex(message)
        );
        // The short line says the same.
        let is_short = !call.fits && call.record.is_empty() && self.rng.chance(80);
        if !is_short {
            let record = self.hex(&call.record);
            line += &format!(" {} {record}", verdict(call.fits));
        }
        self.line(line.as_bytes())
    }

    /// A good signature, an offer that will do, room for all. The keying verdict and the record
    /// are by lot: for a message that does not look at them.
    pub fn call(&mut self, time: u64) -> Call {
        let (fits, record) = self.any_keying();
        Call {
            time,
            good: true,
            offer: self.rng.some_octets(1, 16),
            room: MAX_ROOM,
            fits,
            record,
        }
    }

    /// The same with a KEY that fits and a record that will do.
    pub fn fitting_call(&mut self, time: u64) -> Call {
        Call {
            fits: true,
            record: self.right_record(),
            ..self.call(time)
        }
    }

    /// A call that gives a renewal of its mode what it needs.
    pub fn call_for(&mut self, ask: &Ask, time: u64) -> Call {
        match ask.tkey.as_ref().map(|t| t.mode) {
            Some(wire::DIFFIE_HELLMAN) => self.fitting_call(time),
            Some(wire::BY_RESOLVER) => Call {
                fits: true,
                ..self.call(time)
            },
            _ => self.call(time),
        }
    }

    /// Sends octets as they are and says whether the outcome is the one wanted.
    pub fn sends(&mut self, call: &Call, message: &[u8], want: Want) -> bool {
        want.fits(&self.send(call, message))
    }

    /// The same for a message in parts, its reply compared octet by octet as well.
    pub fn asks(&mut self, call: &Call, ask: &Ask, want: Want) -> bool {
        let reply = self.due_reply(call, ask, want);
        let seen = self.send(call, &ask.octets());
        want.fits(&seen) && seen.reply == reply
    }

    /// The reply that the papers ask for, read apart from the reader under test.
    pub fn due_reply(&self, call: &Call, ask: &Ask, want: Want) -> Vec<u8> {
        match want {
            Want::Refused(_) | Want::Format(_) | Want::Passed(_) | Want::Handed => Vec::new(),
            Want::Tkey(error) => self.due_tkey_reply(call, ask, error),
            _ => ask.plain_reply(want.rcode()),
        }
    }

    fn due_tkey_reply(&self, call: &Call, ask: &Ask, error: u16) -> Vec<u8> {
        let mut tkey = ask.tkey.clone().expect("a TKEY to answer");
        let Some(pair) = self.signing_pair(ask) else {
            return Vec::new();
        };
        match (error, tkey.mode) {
            (0, mode) if wire::RENEWALS.contains(&mode) => {
                tkey.owner = wire::key_name(pair.next, &pair.suffix);
                tkey.inception = call.time as u32;
                tkey.expiration = (call.time + pair.life) as u32;
                if mode != wire::BY_RESOLVER {
                    tkey.key = call.offer.clone();
                }
                let lent = (mode == wire::DIFFIE_HELLMAN).then_some(&call.record[..]);
                ask.renewal_reply(tkey, lent)
            }
            (0, wire::ADOPT) if names_adopted(pair, &tkey) => {
                tkey.other = Vec::new();
                ask.tkey_reply(tkey, 0)
            }
            _ => ask.tkey_reply(tkey, error),
        }
    }

    fn signing_pair(&self, ask: &Ask) -> Option<&Pair> {
        let owner = lower(&ask.tsig.as_ref()?.owner);
        let suffix = &owner[1 + owner[0] as usize..];
        self.table.pairs.iter().find(|p| lower(&p.suffix) == suffix)
    }
}

fn names_adopted(pair: &Pair, tkey: &Tkey) -> bool {
    pair.adopted.as_ref().is_some_and(|k| {
        lower(&wire::key_name(k.serial, &pair.suffix)) == lower(&tkey.owner)
            && lower(&wire::algorithm_name(k.algorithm)) == lower(&tkey.algorithm)
    })
}
