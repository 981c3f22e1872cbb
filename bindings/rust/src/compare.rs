//! Judging another server's replies (document 02, change request 12).

use crate::listing::LoadError;
use crate::sys::{self, ReplyOctets};
use crate::table::{Given, Lent, Table, TABLE_OCTETS, TABLE_WORDS};
use std::fmt;

/// Why another server's reply is not accepted.
#[derive(Clone, Copy, Debug, PartialEq, Eq, Hash)]
pub enum Objection {
    /// The listing does not load.
    Listing(LoadError),
    /// The reply has under 12 or over 65,535 octets.
    Size,
    /// Reading the reply failed at this octet, from 0.
    Format(usize),
    /// The first field that differs from ours begins at this octet of the
    /// reply; 0 also where just one of the two has octets.
    Differs(usize),
}

impl Objection {
    fn of(number: u64, place: u64) -> Objection {
        match number {
            4 => Objection::Size,
            6 => Objection::Format(place as usize),
            21 => Objection::Differs(place as usize),
            number => Objection::Listing(LoadError::of(number, place)),
        }
    }

    /// Its number in documents 01 and 02: 18, 1, 4, 6 or 21.
    pub fn number(self) -> u64 {
        match self {
            Objection::Listing(error) => error.number(),
            Objection::Size => 4,
            Objection::Format(_) => 6,
            Objection::Differs(_) => 21,
        }
    }

    /// The place in the reply, of `Format` and `Differs`; of a line of the
    /// listing that does not read, its number; else 0.
    pub fn place(self) -> u64 {
        match self {
            Objection::Listing(error) => error.line(),
            Objection::Size => 0,
            Objection::Format(place) | Objection::Differs(place) => place as u64,
        }
    }
}

impl fmt::Display for Objection {
    fn fmt(&self, f: &mut fmt::Formatter<'_>) -> fmt::Result {
        match self {
            Objection::Listing(error) => error.fmt(f),
            Objection::Size => f.write_str("the reply has under 12 or over 65,535 octets"),
            Objection::Format(place) => write!(f, "the reply is malformed at octet {place}"),
            Objection::Differs(place) => write!(f, "the reply differs at octet {place}"),
        }
    }
}

impl std::error::Error for Objection {}

/// Whether our rules allow what another server answered, by the table of a
/// listing: `theirs` is its reply to `message`, its TSIG taken off
/// ([`crate::signing::remove`]), or no octets. It is accepted exactly when it has the meaning of
/// what [`Table::message`] would write into 65,535 octets.
///
/// ```
/// use luffcringle::{compare, Given, Objection};
///
/// let listing = b"clock\t1000\t1\n";
/// let request = b"\x12\x34\0\0\0\x01\0\0\0\0\0\0\0\0\xf9\0\xff";
/// let given = Given { time: 1000, ..Given::default() };
/// // A TKEY request without a TSIG is refused with RCODE 5.
/// let mut reply = *request;
/// (reply[2], reply[3]) = (0x80, 5);
/// assert_eq!(compare(listing, &given, request, &reply), Ok(()));
/// reply[3] = 4;
/// assert_eq!(compare(listing, &given, request, &reply), Err(Objection::Differs(2)));
/// ```
pub fn compare(
    listing: &[u8],
    given: &Given,
    message: &[u8],
    theirs: &[u8],
) -> Result<(), Objection> {
    let mut table = Table::from_parts(&[0; TABLE_WORDS], &[0; TABLE_OCTETS]);
    let Lent { words, suffixes } = &mut *table.lent;
    let mut reply: Box<ReplyOctets> = Box::new([0; 65_535]);
    let mut place = 0;
    // SAFETY: listing, message, offer, record and theirs are as long as told.
    let number = unsafe {
        sys::luffcringle_compare(
            listing.as_ptr(),
            listing.len(),
            given.time,
            given.mac.is_good(),
            message.as_ptr(),
            message.len(),
            given.offer.as_ptr(),
            given.offer.len(),
            given.keying.is_good(),
            given.record.as_ptr(),
            given.record.len(),
            theirs.as_ptr(),
            theirs.len(),
            words,
            suffixes,
            &mut reply,
            &mut place,
        )
    };
    match number {
        0 => Ok(()),
        number => Err(Objection::of(number, place)),
    }
}
