//! The octets under a TSIG's MAC (RFC 8945), and the TSIG put on, read and
//! taken off. The MAC itself is the caller's.
//!
//! Whoever sends has [`digest_request`] or [`digest_reply`] write the octets,
//! calculates the MAC over them, and has [`finish`] append the TSIG. Whoever
//! receives learns from [`read`] who signed, and has [`received_request`] or
//! [`received_reply`] write the octets under the MAC that came.
//!
//! ```
//! use luffcringle::signing::{self, Stamp};
//! use luffcringle::Algorithm;
//!
//! let message = [0x12, 0x34, 0, 0, 0, 0, 0, 0, 0, 0, 0, 0];
//! let stamp = Stamp {
//!     name: b"\x011\x01a\x07example\0",
//!     algorithm: Algorithm::Sha256.wire_name(),
//!     time_signed: 1000,
//!     fudge: 300,
//!     original_id: 0x1234,
//!     error: 0,
//!     other: &[],
//! };
//! let mut digest = [0; 512];
//! let length = signing::digest_request(&message, &stamp, &mut digest)?;
//! let mac = [7; 32]; // made with the secret over digest[..length]
//! let mut sent = [0; 512];
//! let size = signing::finish(&message, &stamp, &mac, &mut sent)?;
//!
//! // The receiver's octets are the sender's.
//! let mut again = [0; 512];
//! let same = signing::received_request(&sent[..size], &mut again)?;
//! assert_eq!(again[..same], digest[..length]);
//! let tsig = signing::read(&sent[..size])?;
//! assert_eq!((&*tsig.name, tsig.mac), (stamp.name, &mac[..]));
//! # Ok::<(), signing::Refusal>(())
//! ```
//!
//! A call that writes fills the first octets of its buffer and answers how many
//! they are; a refusal writes nothing.

use crate::sys::{self, TsigWords};
use crate::words::Name;
use std::fmt;

/// Why a signing call was refused.
#[derive(Clone, Copy, Debug, PartialEq, Eq, Hash)]
pub enum Refusal {
    /// The time signed is 2^48 or more.
    Time,
    /// The message is shorter than 12 or longer than 65535 octets.
    Size,
    /// The message breaks a reading rule; a TSIG stands in it already; or, to
    /// read or remove one, none is well placed.
    Format,
    /// What is to be written is longer than the lent buffer; other data or a
    /// finished message is over 65535 octets.
    Room,
    /// The key's or the algorithm's name is no wire name.
    Name,
    /// The MAC has over 64 octets.
    MacSize,
}

impl Refusal {
    const ALL: [Refusal; 6] = [
        Refusal::Time,
        Refusal::Size,
        Refusal::Format,
        Refusal::Room,
        Refusal::Name,
        Refusal::MacSize,
    ];

    /// Its number in document 01 or, of `MacSize`, document 02.
    pub fn number(self) -> u64 {
        match self {
            Refusal::Time => 2,
            Refusal::Size => 4,
            Refusal::Format => 6,
            Refusal::Room => 8,
            Refusal::Name => 12,
            Refusal::MacSize => 16,
        }
    }
}

impl fmt::Display for Refusal {
    fn fmt(&self, f: &mut fmt::Formatter<'_>) -> fmt::Result {
        write!(f, "refused with {} ({self:?})", self.number())
    }
}

impl std::error::Error for Refusal {}

/// What a TSIG says beside its MAC.
#[derive(Clone, Copy, Debug, PartialEq, Eq, Hash)]
pub struct Stamp<'a> {
    /// The key's name, a wire name.
    pub name: &'a [u8],
    /// The algorithm's name, a wire name.
    pub algorithm: &'a [u8],
    /// The time signed, below 2^48.
    pub time_signed: u64,
    /// The seconds that the receiver's clock may be off.
    pub fudge: u16,
    /// The message's ID, unless it is sent on under another one.
    pub original_id: u16,
    /// The TSIG's error.
    pub error: u16,
    /// The TSIG's other data.
    pub other: &'a [u8],
}

/// A TSIG that was read: its names expanded, its other parts where they lie.
#[derive(Clone, Copy, Debug, PartialEq, Eq)]
pub struct Tsig<'m> {
    /// The key's name; compare it without regard to case.
    pub name: Name,
    /// The algorithm's name; see [`Algorithm::named`](crate::Algorithm::named).
    pub algorithm: Name,
    /// The time signed.
    pub time_signed: u64,
    /// The seconds that the receiver's clock may be off.
    pub fudge: u16,
    /// The MAC.
    pub mac: &'m [u8],
    /// The ID that the sender gave the message.
    pub original_id: u16,
    /// The TSIG's error.
    pub error: u16,
    /// The TSIG's other data.
    pub other: &'m [u8],
}

/// The octets under the MAC of a request, which has no TSIG yet. Refused with
/// `Size`, `Format`, `Name`, `Time`, `Room`.
pub fn digest_request(message: &[u8], stamp: &Stamp, digest: &mut [u8]) -> Result<usize, Refusal> {
    let mut written = 0;
    // SAFETY: all slices are as long as told, and digest is borrowed alone.
    let number = unsafe {
        sys::luffcringle_digest_request(
            message.as_ptr(),
            message.len(),
            stamp.name.as_ptr(),
            stamp.name.len(),
            stamp.algorithm.as_ptr(),
            stamp.algorithm.len(),
            stamp.time_signed,
            stamp.fudge,
            stamp.original_id,
            stamp.error,
            stamp.other.as_ptr(),
            stamp.other.len(),
            digest.as_mut_ptr(),
            digest.len(),
            &mut written,
        )
    };
    done(number, written as usize)
}

/// The octets under the MAC of a reply to a request with this MAC, which may be
/// empty. Refused with `Size`, `Format`, `Name`, `Time`, `MacSize`, `Room`.
pub fn digest_reply(
    request_mac: &[u8],
    message: &[u8],
    stamp: &Stamp,
    digest: &mut [u8],
) -> Result<usize, Refusal> {
    let mut written = 0;
    // SAFETY: all slices are as long as told, and digest is borrowed alone.
    let number = unsafe {
        sys::luffcringle_digest_reply(
            request_mac.as_ptr(),
            request_mac.len(),
            message.as_ptr(),
            message.len(),
            stamp.name.as_ptr(),
            stamp.name.len(),
            stamp.algorithm.as_ptr(),
            stamp.algorithm.len(),
            stamp.time_signed,
            stamp.fudge,
            stamp.original_id,
            stamp.error,
            stamp.other.as_ptr(),
            stamp.other.len(),
            digest.as_mut_ptr(),
            digest.len(),
            &mut written,
        )
    };
    done(number, written as usize)
}

/// What the messages of a stream before a later one leave (RFC 8945, 5.3.1).
#[derive(Clone, Copy, Debug, Default, PartialEq, Eq, Hash)]
pub struct Prior<'a> {
    /// The MAC of the last message that had a TSIG.
    pub mac: &'a [u8],
    /// The messages since that have none, one after another; most often none.
    pub before: &'a [u8],
}

/// The octets under the MAC of a later message of a stream, as of a zone
/// transfer; the first is a reply. Names, error and other data have no part in
/// it. Refused with `Size`, `Format`, `Time`, `MacSize`, `Room`.
pub fn digest_later(
    prior: &Prior,
    message: &[u8],
    stamp: &Stamp,
    digest: &mut [u8],
) -> Result<usize, Refusal> {
    let mut written = 0;
    // SAFETY: all slices are as long as told, and digest is borrowed alone.
    let number = unsafe {
        sys::luffcringle_digest_later(
            prior.mac.as_ptr(),
            prior.mac.len(),
            prior.before.as_ptr(),
            prior.before.len(),
            message.as_ptr(),
            message.len(),
            stamp.time_signed,
            stamp.fudge,
            stamp.original_id,
            digest.as_mut_ptr(),
            digest.len(),
            &mut written,
        )
    };
    done(number, written as usize)
}

/// The message with a TSIG appended that has this MAC. Refused with `Size`,
/// `Format`, `Name`, `Time`, `MacSize`, `Room`.
pub fn finish(
    message: &[u8],
    stamp: &Stamp,
    mac: &[u8],
    finished: &mut [u8],
) -> Result<usize, Refusal> {
    let mut written = 0;
    // SAFETY: all slices are as long as told, and finished is borrowed alone.
    let number = unsafe {
        sys::luffcringle_finish(
            message.as_ptr(),
            message.len(),
            stamp.name.as_ptr(),
            stamp.name.len(),
            stamp.algorithm.as_ptr(),
            stamp.algorithm.len(),
            stamp.time_signed,
            stamp.fudge,
            stamp.original_id,
            stamp.error,
            mac.as_ptr(),
            mac.len(),
            stamp.other.as_ptr(),
            stamp.other.len(),
            finished.as_mut_ptr(),
            finished.len(),
            &mut written,
        )
    };
    done(number, written as usize)
}

/// The TSIG of a message that was received. Refused with `Size`, `Format`.
pub fn read(message: &[u8]) -> Result<Tsig<'_>, Refusal> {
    let (mut name, mut algorithm) = ([0; 255], [0; 255]);
    let mut fields = TsigWords::default();
    // SAFETY: message is as long as told.
    let number = unsafe {
        sys::luffcringle_read_tsig(
            message.as_ptr(),
            message.len(),
            &mut name,
            &mut algorithm,
            &mut fields,
        )
    };
    done(number, ())?;
    let part = |from: u64, size: u64| &message[from as usize..][..size as usize];
    Ok(Tsig {
        name: Name::new(name, fields[0]),
        algorithm: Name::new(algorithm, fields[1]),
        time_signed: fields[2],
        fudge: fields[3] as u16,
        mac: part(fields[4], fields[5]),
        original_id: fields[6] as u16,
        error: fields[7] as u16,
        other: part(fields[8], fields[9]),
    })
}

/// A received message without its TSIG, its ID as it came. Refused with `Size`,
/// `Format`, `Room`.
pub fn remove(message: &[u8], rest: &mut [u8]) -> Result<usize, Refusal> {
    let mut written = 0;
    // SAFETY: both slices are as long as told, and rest is borrowed alone.
    let number = unsafe {
        sys::luffcringle_remove(
            message.as_ptr(),
            message.len(),
            rest.as_mut_ptr(),
            rest.len(),
            &mut written,
        )
    };
    done(number, written as usize)
}

/// The octets under the MAC of a request that was received. Refused with
/// `Size`, `Format`, `Room`.
pub fn received_request(message: &[u8], digest: &mut [u8]) -> Result<usize, Refusal> {
    let mut written = 0;
    // SAFETY: both slices are as long as told, and digest is borrowed alone.
    let number = unsafe {
        sys::luffcringle_received_request(
            message.as_ptr(),
            message.len(),
            digest.as_mut_ptr(),
            digest.len(),
            &mut written,
        )
    };
    done(number, written as usize)
}

/// The octets under the MAC of a reply that was received, to a request with
/// this MAC. Refused with `Size`, `Format`, `MacSize`, `Room`.
pub fn received_reply(
    request_mac: &[u8],
    message: &[u8],
    digest: &mut [u8],
) -> Result<usize, Refusal> {
    let mut written = 0;
    // SAFETY: all slices are as long as told, and digest is borrowed alone.
    let number = unsafe {
        sys::luffcringle_received_reply(
            request_mac.as_ptr(),
            request_mac.len(),
            message.as_ptr(),
            message.len(),
            digest.as_mut_ptr(),
            digest.len(),
            &mut written,
        )
    };
    done(number, written as usize)
}

/// The octets under the MAC of a later message of a stream that was received.
/// Refused with `Size`, `Format`, `MacSize`, `Room`.
pub fn received_later(prior: &Prior, message: &[u8], digest: &mut [u8]) -> Result<usize, Refusal> {
    let mut written = 0;
    // SAFETY: all slices are as long as told, and digest is borrowed alone.
    let number = unsafe {
        sys::luffcringle_received_later(
            prior.mac.as_ptr(),
            prior.mac.len(),
            prior.before.as_ptr(),
            prior.before.len(),
            message.as_ptr(),
            message.len(),
            digest.as_mut_ptr(),
            digest.len(),
            &mut written,
        )
    };
    done(number, written as usize)
}

/// The value of a call that is done.
fn done<T>(number: u64, value: T) -> Result<T, Refusal> {
    if number == 0 {
        return Ok(value);
    }
    let mut all = Refusal::ALL.into_iter();
    let found = all.find(|refusal| refusal.number() == number);
    Err(found.expect("the number of a refusal"))
}
