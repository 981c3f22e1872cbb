//! The signing calls as script lines, and what the papers ask of them.

use super::{Maker, LINE_LIMIT, MAX_ROOM};
use crate::signing::Told;
use crate::wire::{self, Ask, Tsig};

/// Room above this does as this does.
pub const MAX_SIGNING_ROOM: u64 = 100_000;

/// What a call takes that is given a message without a TSIG. The MAC of the TSIG is the
/// request's in `digest-reply`; `digest-request` has none.
#[derive(Clone)]
pub struct Signing<'a> {
    pub call: &'a str,
    pub message: Vec<u8>,
    pub tsig: Tsig,
    pub room: u64,
}

impl Signing<'_> {
    /// The octets that the papers ask for where nothing is refused.
    pub fn octets(&self) -> Vec<u8> {
        match self.call {
            "digest-request" => self.tsig.request_digest(&self.message),
            "digest-reply" => self.tsig.reply_digest(&self.message),
            _ => self.tsig.put_on(&self.message),
        }
    }

    /// Whether ROOM refuses it: for the room lent, the other data or a message too long.
    fn lacks_room(&self) -> bool {
        let most = match self.call {
            "finish" => MAX_ROOM,
            _ => MAX_SIGNING_ROOM,
        };
        self.tsig.other.len() > 65_535 || self.octets().len() as u64 > self.room.min(most)
    }
}

impl Maker<'_> {
    /// Writes one line of the signing calls, runs it and counts what it reached.
    pub fn sign_line(&mut self, line: &str) -> Told {
        self.put(line.as_bytes());
        let told = match line.len() > LINE_LIMIT {
            true => Told::Bad,
            false => Told::read(&self.printed(line.as_bytes())),
        };
        if self.counts() {
            self.note_signing(line, &told);
        }
        told
    }

    /// A message that has no TSIG, good unless bent later.
    pub fn bare(&mut self) -> Ask {
        let name = self.some_key().name;
        let kind = *self.rng.pick(&[1, 6, 250, 252, 255]);
        let mut ask = self.blank(name, kind, wire::IN);
        ask.flags |= *self.rng.pick(&[0, 0, wire::QR, 5 << 11]);
        self.dress(&mut ask);
        ask
    }

    /// The fields of a TSIG, of any kind that is allowed.
    pub fn stamp(&mut self) -> Tsig {
        let key = self.some_key();
        let time = self.rng.below(1 << 48);
        let mut tsig = self.tsig_by(&key, time);
        tsig.owner = self.rng.mixed_case(&tsig.owner);
        if self.rng.chance(30) {
            tsig.algorithm = self.rng.mixed_case(&tsig.algorithm);
        }
        tsig.fudge = *self.rng.pick(&[300, 300, 0, 1, 65_535]);
        tsig.error = *self.rng.pick(&[0, 0, 0, 16, 17, 18, 3841]);
        if tsig.error == 18 {
            tsig.other = self.rng.octets(6);
        }
        tsig
    }

    /// A call that is done.
    pub fn signing<'a>(&mut self, call: &'a str) -> Signing<'a> {
        Signing {
            call,
            message: self.bare().octets(),
            tsig: self.stamp(),
            room: *self.rng.pick(&[1000, MAX_ROOM, MAX_SIGNING_ROOM, u64::MAX]),
        }
    }

    pub fn signing_line(&mut self, s: &Signing) -> String {
        let (tsig, message) = (&s.tsig, self.hex(&s.message));
        let line = format!(
            "{} {message} {} {} {} {} {} {} {} {}",
            s.call,
            self.hex(&tsig.owner),
            self.hex(&tsig.algorithm),
            self.number(tsig.signed),
            self.number(tsig.fudge.into()),
            self.number(tsig.original.into()),
            self.number(tsig.error.into()),
            self.hex(&tsig.other),
            self.number(s.room)
        );
        match s.call {
            "digest-request" => line,
            _ => line + " " + &self.hex(&tsig.mac),
        }
    }

    /// Makes a call that nothing but want of room can refuse, and says whether it came to the
    /// octets wanted.
    pub fn signs(&mut self, s: &Signing) -> bool {
        if s.lacks_room() {
            return self.refuses_signing(s, 8);
        }
        let line = self.signing_line(s);
        self.sign_line(&line) == Told::wrote(s.octets())
    }

    pub fn refuses_signing(&mut self, s: &Signing, number: u64) -> bool {
        let line = self.signing_line(s);
        self.sign_line(&line) == Told::refused(s.call, number)
    }

    /// Reads a TSIG back, its owner written out, and says whether the fields are these.
    pub fn reads_back(&mut self, message: &[u8], tsig: &Tsig) -> bool {
        self.unsign("read-back", message, 0) == Told::fields(tsig)
    }

    /// Removes a TSIG into this room, and says whether that message is left.
    pub fn removes(&mut self, message: &[u8], room: u64, left: &[u8]) -> bool {
        let want = match left.len() as u64 > room {
            true => Told::refused("remove", 8),
            false => Told::wrote(left.to_vec()),
        };
        self.unsign("remove", message, room) == want
    }

    /// One of the calls that take a message with its TSIG.
    pub fn unsign(&mut self, call: &str, message: &[u8], room: u64) -> Told {
        let line = format!("{call} {}", self.hex(message));
        let line = match call {
            "read-back" => line,
            _ => line + " " + &self.number(room),
        };
        self.sign_line(&line)
    }
}
