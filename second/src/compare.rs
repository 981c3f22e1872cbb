//! Judging another server's reply. CR 12; 01 "The reply".
//!
//! Both replies are taken apart into their fields in wire order; the first of
//! theirs that is not ours differs.

use crate::calls::{self, ensure, is_sized};
use crate::judging::Given;
use crate::listing;
use crate::names::{self, Place};
use crate::wire::{Message, TKEY};

/// The most room that the message call is lent.
const ROOM: usize = 65_535;

/// CR 12's refusals, in their order but for DIFFERS, which has two places in it.
#[derive(Clone, Copy, Debug, PartialEq, Eq)]
pub enum Refusal {
    /// The listing does not load: as loading says.
    Listing(listing::Refusal),
    /// 4.
    Size,
    /// 6, with CR 6's place in their reply.
    Format(Place),
    /// 21, with the place in their reply; 0 when just one reply is empty.
    Differs(Place),
}

impl Refusal {
    pub fn number(self) -> u64 {
        match self {
            Refusal::Listing(refusal) => refusal.number(),
            Refusal::Size => 4,
            Refusal::Format(_) => 6,
            Refusal::Differs(_) => 21,
        }
    }

    /// The place in their reply, the line of the listing, or 0.
    pub fn place(self) -> u64 {
        match self {
            Refusal::Listing(refusal) => refusal.line(),
            Refusal::Size => 0,
            Refusal::Format(place) | Refusal::Differs(place) => place as u64,
        }
    }
}

/// CR 12: whether their reply, its TSIG taken off, has the meaning of ours.
pub fn compare(
    listing: &[u8],
    given: &Given,
    message: &[u8],
    theirs: &[u8],
) -> Result<(), Refusal> {
    let ours = our_reply(listing, given, message)?;
    match (ours.is_empty(), theirs.is_empty()) {
        (true, true) => return Ok(()),
        (false, false) => (),
        _ => return Err(Refusal::Differs(0)),
    }
    ensure(is_sized(theirs), Refusal::Size)?;
    Message::read(theirs).map_err(Refusal::Format)?;
    match first_difference(&ours, theirs) {
        None => Ok(()),
        Some(place) => Err(Refusal::Differs(place)),
    }
}

/// CR 12: "what the message call writes into a buffer of 65,535 octets"; "a call
/// refused or unanswered makes ours empty".
fn our_reply(listing: &[u8], given: &Given, message: &[u8]) -> Result<Vec<u8>, Refusal> {
    let mut table = listing::load(listing).map_err(Refusal::Listing)?;
    let mut reply = vec![0; ROOM];
    let done = calls::message(&mut table, given, message, &mut reply);
    reply.truncate(done.map_or(0, |done| done.length));
    Ok(reply)
}

/// The place of the first field of theirs, a reply that reads, that is not ours.
/// Fields that are the same so far are followed by fields of the same kind, so
/// that theirs has one wherever ours has one. Ours ends where it does not read.
fn first_difference(ours: &[u8], theirs: &[u8]) -> Option<Place> {
    let ours = Fields::of(ours);
    let mut known = ours.iter().map(|(_, field)| field);
    let mut is_ours = |field| known.next().is_some_and(|ours| ours.is_same(field));
    let theirs = Fields::of(theirs);
    let other = theirs.iter().find(|(_, field)| !is_ours(field));
    other.map(|(place, _)| *place)
}

/// What a field says.
#[derive(Debug)]
enum Field<'a> {
    /// Written out.
    Name(Vec<u8>),
    Octets(&'a [u8]),
    /// Cut off, or no name.
    Broken,
}

impl Field<'_> {
    /// CR 12: "names equal without regard to case", "all else, other data
    /// included, octet for octet".
    fn is_same(&self, other: &Field) -> bool {
        match (self, other) {
            (Field::Name(one), Field::Name(other)) => names::same(one, other),
            (Field::Octets(one), Field::Octets(other)) => one == other,
            _ => false,
        }
    }
}

/// A reply, read from the front, and its fields so far with their places.
struct Fields<'a> {
    reply: &'a [u8],
    place: Place,
    found: Vec<(Place, Field<'a>)>,
}

impl<'a> Fields<'a> {
    /// As far as the reply reads.
    fn of(reply: &'a [u8]) -> Vec<(Place, Field<'a>)> {
        let mut fields = Fields {
            reply,
            place: 0,
            found: Vec::new(),
        };
        let _all_or_stopped = fields.read();
        fields.found
    }

    /// RFC 1035 §4.1; `None` where the reply stops to read.
    fn read(&mut self) -> Option<()> {
        let _id = self.number()?;
        let _flags = self.number()?;
        let questions = self.number()?;
        let records = self.number()? + self.number()? + self.number()?;
        for _ in 0..questions {
            self.name()?;
            self.octets(2)?; // type
            self.octets(2)?; // class
        }
        for _ in 0..records {
            self.record()?;
        }
        Some(())
    }

    /// RFC 1035 §4.1.3.
    fn record(&mut self) -> Option<()> {
        self.name()?;
        let kind = self.number()?;
        self.octets(2)?; // class
        self.octets(4)?; // TTL
        let size = self.number()?;
        if kind != usize::from(TKEY) {
            return self.octets(size);
        }
        let end = self.place + size;
        let mut data = Fields {
            reply: self.reply.get(..end)?,
            place: self.place,
            found: Vec::new(),
        };
        if data.tkey().is_none() {
            data.found.push((data.place, Field::Broken));
        }
        self.found.append(&mut data.found);
        self.place = end;
        Some(())
    }

    /// RFC 2930 §2, the data ending where `reply` does; `None` at a field that
    /// is cut off, or no name. An algorithm is never compressed.
    fn tkey(&mut self) -> Option<()> {
        let algorithm = names::plain(&self.reply[self.place..])?;
        self.add(Field::Name(algorithm.to_vec()), algorithm.len());
        self.octets(4)?; // inception
        self.octets(4)?; // expiration
        self.octets(2)?; // mode
        self.octets(2)?; // error
        for _part in ["key", "other"] {
            let size = self.number()?;
            self.octets(size)?;
        }
        Some(())
    }

    fn add(&mut self, field: Field<'a>, size: usize) {
        self.found.push((self.place, field));
        self.place += size;
    }

    /// A field of so many octets.
    fn octets(&mut self, size: usize) -> Option<()> {
        let octets = self.reply.get(self.place..self.place + size)?;
        self.add(Field::Octets(octets), size);
        Some(())
    }

    /// A field of 16 bits.
    fn number(&mut self) -> Option<usize> {
        let octets = self.reply.get(self.place..self.place + 2)?;
        self.add(Field::Octets(octets), 2);
        Some(usize::from(octets[0]) << 8 | usize::from(octets[1]))
    }

    /// An owner or question name, compressed or not.
    fn name(&mut self) -> Option<()> {
        let after = names::skip(self.reply, self.place).ok()?;
        let name = names::expand(self.reply, self.place).ok()?;
        self.add(Field::Name(name.octets().to_vec()), after - self.place);
        Some(())
    }
}
