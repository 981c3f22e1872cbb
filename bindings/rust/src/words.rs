//! What the numbers of the calls stand for.

use std::fmt;
use std::ops::Deref;

/// The algorithm of a key (RFC 8945, 6).
#[derive(Clone, Copy, Debug, PartialEq, Eq, Hash)]
pub enum Algorithm {
    /// hmac-sha256.
    Sha256,
    /// hmac-sha384.
    Sha384,
    /// hmac-sha512.
    Sha512,
}

impl Algorithm {
    const ALL: [Algorithm; 3] = [Algorithm::Sha256, Algorithm::Sha384, Algorithm::Sha512];

    /// 256, 384 or 512.
    pub fn number(self) -> u64 {
        match self {
            Algorithm::Sha256 => 256,
            Algorithm::Sha384 => 384,
            Algorithm::Sha512 => 512,
        }
    }

    /// The algorithm with this number.
    pub fn of(number: u64) -> Option<Algorithm> {
        let mut all = Algorithm::ALL.into_iter();
        all.find(|algorithm| algorithm.number() == number)
    }

    /// Its name in a TSIG.
    pub fn wire_name(self) -> &'static [u8] {
        match self {
            Algorithm::Sha256 => b"\x0bhmac-sha256\0",
            Algorithm::Sha384 => b"\x0bhmac-sha384\0",
            Algorithm::Sha512 => b"\x0bhmac-sha512\0",
        }
    }

    /// The algorithm with this name, without regard to case.
    pub fn named(name: &[u8]) -> Option<Algorithm> {
        let mut all = Algorithm::ALL.into_iter();
        all.find(|algorithm| algorithm.wire_name().eq_ignore_ascii_case(name))
    }
}

/// What the caller found: of a MAC (and, of a reply, of its time), or of the
/// KEY record of a renewal.
#[derive(Clone, Copy, Debug, Default, PartialEq, Eq, Hash)]
pub enum Verdict {
    /// The MAC is right; the KEY fits.
    Good,
    /// It is not, or it was not looked at.
    #[default]
    Bad,
}

impl Verdict {
    /// Whether it is good.
    pub fn is_good(self) -> bool {
        self == Verdict::Good
    }
}

impl From<bool> for Verdict {
    fn from(good: bool) -> Verdict {
        match good {
            true => Verdict::Good,
            false => Verdict::Bad,
        }
    }
}

/// The error in the TSIG of a reply.
#[derive(Clone, Copy, Debug, Default, PartialEq, Eq, Hash)]
pub enum TsigError {
    /// 0.
    #[default]
    None,
    /// 16.
    BadSig,
    /// 17.
    BadKey,
    /// 18.
    BadTime,
    /// 3841: the key may sign renewals and adoptions alone.
    PartialRevoke,
}

impl TsigError {
    /// Its number in a TSIG.
    pub fn number(self) -> u16 {
        match self {
            TsigError::None => 0,
            TsigError::BadSig => 16,
            TsigError::BadKey => 17,
            TsigError::BadTime => 18,
            TsigError::PartialRevoke => 3841,
        }
    }

    pub(crate) fn of(number: u64) -> TsigError {
        match number {
            0 => TsigError::None,
            16 => TsigError::BadSig,
            17 => TsigError::BadKey,
            18 => TsigError::BadTime,
            3841 => TsigError::PartialRevoke,
            _ => unreachable!("no call answers the TSIG error {number}"),
        }
    }
}

/// A name: uncompressed wire octets, at most 255.
#[derive(Clone, Copy)]
pub struct Name {
    octets: [u8; 255],
    length: u8,
}

impl Name {
    /// The first octets of an array; 255 at the most.
    pub(crate) fn new(octets: [u8; 255], length: u64) -> Name {
        Name {
            octets,
            length: length.min(255) as u8,
        }
    }
}

impl Deref for Name {
    type Target = [u8];

    fn deref(&self) -> &[u8] {
        &self.octets[..usize::from(self.length)]
    }
}

impl PartialEq for Name {
    fn eq(&self, other: &Name) -> bool {
        **self == **other
    }
}

impl Eq for Name {}

impl fmt::Debug for Name {
    /// As text, with what is no letter, digit, hyphen or underscore escaped.
    fn fmt(&self, f: &mut fmt::Formatter<'_>) -> fmt::Result {
        let mut rest = &**self;
        while let [length, labels @ ..] = rest {
            let (label, behind) = labels.split_at(usize::from(*length).min(labels.len()));
            write!(f, "{}", label.escape_ascii())?;
            f.write_str(if label.is_empty() { "" } else { "." })?;
            rest = behind;
        }
        Ok(())
    }
}

/// Why a call on the table was refused.
#[derive(Clone, Copy, Debug, PartialEq, Eq, Hash)]
pub enum Refusal {
    /// The words and octets hold no table, or one that breaks a table rule.
    Table,
    /// The time is 2^48 - 2^31 or more.
    Time,
    /// The time is before the table's clock.
    Clock,
    /// The message is shorter than 12 or longer than 65535 octets.
    Size,
    /// The offered key data is over 1024 octets.
    Offer,
    /// The message breaks a reading rule.
    Format {
        /// The octet, from 0, where reading first failed: the one that breaks
        /// a rule, the first left over, or the message's length where one is
        /// missing.
        place: usize,
    },
    /// The message's QR bit is 1.
    NotQuery,
    /// The reply is longer than the lent buffer or than 65535 octets; a listing
    /// than the lent buffer.
    Room,
    /// The pair is not enrolled.
    NoPair,
    /// Revoke: there is no adopted key, or it is expired. A key's name: its
    /// serial is 0, or not below the pair's next one.
    NoKey,
    /// Issue: the next serial is 2^32. Enrol: the floor is.
    Spent,
    /// The suffix is not a wire name of 3 to 128 octets; a key's name is no
    /// wire name.
    Name,
    /// Not 1 <= fresh < lifetime <= 2^31 - 1.
    Term,
    /// The suffix is already enrolled.
    Twin,
    /// 64 pairs are enrolled.
    Full,
    /// A batch has more than 64 items, or one outside the lent octets.
    Batch,
    /// A renewal by Diffie-Hellman would be granted, but the lent record is not
    /// exactly one KEY record with an uncompressed owner name.
    KeyRec,
}

impl Refusal {
    fn all(place: usize) -> [Refusal; 17] {
        [
            Refusal::Table,
            Refusal::Time,
            Refusal::Clock,
            Refusal::Size,
            Refusal::Offer,
            Refusal::Format { place },
            Refusal::NotQuery,
            Refusal::Room,
            Refusal::NoPair,
            Refusal::NoKey,
            Refusal::Spent,
            Refusal::Name,
            Refusal::Term,
            Refusal::Twin,
            Refusal::Full,
            Refusal::Batch,
            Refusal::KeyRec,
        ]
    }

    /// The refusal with this number.
    pub(crate) fn of(number: u64, place: usize) -> Refusal {
        let mut all = Refusal::all(place).into_iter();
        let found = all.find(|refusal| refusal.number() == number);
        found.expect("the number of a refusal")
    }

    /// Its number in document 01, 1 to 15, or in document 02, 17 and 19.
    pub fn number(self) -> u64 {
        match self {
            Refusal::Table => 1,
            Refusal::Time => 2,
            Refusal::Clock => 3,
            Refusal::Size => 4,
            Refusal::Offer => 5,
            Refusal::Format { .. } => 6,
            Refusal::NotQuery => 7,
            Refusal::Room => 8,
            Refusal::NoPair => 9,
            Refusal::NoKey => 10,
            Refusal::Spent => 11,
            Refusal::Name => 12,
            Refusal::Term => 13,
            Refusal::Twin => 14,
            Refusal::Full => 15,
            Refusal::Batch => 17,
            Refusal::KeyRec => 19,
        }
    }

    /// Where reading the message failed, of `Format`; else 0.
    pub fn place(self) -> usize {
        match self {
            Refusal::Format { place } => place,
            _ => 0,
        }
    }
}

impl fmt::Display for Refusal {
    fn fmt(&self, f: &mut fmt::Formatter<'_>) -> fmt::Result {
        let number = self.number();
        match self {
            Refusal::Format { place } => write!(f, "refused with {number} (Format, at {place})"),
            _ => write!(f, "refused with {number} ({self:?})"),
        }
    }
}

impl std::error::Error for Refusal {}
