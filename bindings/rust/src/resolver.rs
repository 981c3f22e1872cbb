//! The resolver's half of a key's renewal (document 02, change request 1): what
//! an office's program or router needs.
//!
//! ```
//! use luffcringle::resolver::{Refusal, Resolver, Signer};
//! use luffcringle::Algorithm;
//!
//! let name = b"\x011\x01a\x07example\0";
//! let mut office = Resolver::hold(name, Algorithm::Sha256, 0, 1000)?;
//! let mut request = [0; 512];
//! let sending = office.deletion(0x1234, &mut request)?;
//! assert_eq!(sending.signer, Signer::Adopted);
//! assert_eq!(request[..2], [0x12, 0x34]);
//! // There is no offered key to adopt.
//! assert_eq!(office.adoption(0x1235, &mut request), Err(Refusal::NoKey));
//! # Ok::<(), Refusal>(())
//! ```

use crate::sys::{self, StateOctets, StateWords};
use crate::words::{Algorithm, Name, Verdict};
use std::fmt;

/// Why a call of the resolver was refused: document 02's own list.
#[derive(Clone, Copy, Debug, PartialEq, Eq, Hash)]
pub enum Refusal {
    /// No request is open.
    Lost,
    /// The reply has another ID than the open request.
    WrongId,
    /// The reply has no TSIG, or the verdict is bad.
    Unsigned,
    /// The reply is no message.
    Format,
    /// The request is longer than the lent buffer or than 65535 octets.
    Room,
    /// There is no key for that request, a name is no wire name, or the record
    /// is no KEY record.
    NoKey,
}

impl Refusal {
    const ALL: [Refusal; 6] = [
        Refusal::Lost,
        Refusal::WrongId,
        Refusal::Unsigned,
        Refusal::Format,
        Refusal::Room,
        Refusal::NoKey,
    ];

    /// Its number in document 02's list.
    pub fn number(self) -> u64 {
        match self {
            Refusal::Lost => 1,
            Refusal::WrongId => 2,
            Refusal::Unsigned => 3,
            Refusal::Format => 4,
            Refusal::Room => 5,
            Refusal::NoKey => 6,
        }
    }
}

impl fmt::Display for Refusal {
    fn fmt(&self, f: &mut fmt::Formatter<'_>) -> fmt::Result {
        write!(f, "refused with {} ({self:?})", self.number())
    }
}

impl std::error::Error for Refusal {}

/// The key that is to sign a request.
#[derive(Clone, Copy, Debug, PartialEq, Eq, Hash)]
pub enum Signer {
    /// The adopted key.
    Adopted,
    /// The offered key.
    Offered,
}

/// A request that was written.
#[derive(Clone, Copy, Debug, PartialEq, Eq, Hash)]
pub struct Sending {
    /// Its octets.
    pub length: usize,
    /// The key to sign it with.
    pub signer: Signer,
}

/// What a reply says.
#[derive(Clone, Copy, Debug, PartialEq, Eq, Hash)]
pub struct Heard<'m> {
    /// The server says PartialRevoke: renew now.
    pub due: bool,
    /// A renewal is granted, and there is a new offered key: its key data, the
    /// encrypted secret.
    pub granted: Option<&'m [u8]>,
}

/// A key that is held.
#[derive(Clone, Copy, Debug, PartialEq, Eq)]
pub struct HeldKey {
    /// Its name.
    pub name: Name,
    /// Its algorithm.
    pub algorithm: Algorithm,
    /// When the server says it begins, 32 bits of seconds.
    pub inception: u32,
    /// When the server says it ends.
    pub expiration: u32,
}

/// What a renewal asks for.
#[derive(Clone, Copy, Debug, PartialEq, Eq, Hash)]
pub struct Wanted<'a> {
    /// What the new key is to be called; empty for the root, that is, as the
    /// server likes.
    pub name: &'a [u8],
    /// The new key's algorithm.
    pub algorithm: Algorithm,
    /// When it is to begin.
    pub inception: u32,
    /// When it is to end.
    pub expiration: u32,
    /// The office's KEY record, under which the server encrypts the secret.
    pub record: &'a [u8],
}

/// An office: its adopted key, at most one offered key, and the request whose
/// reply it waits for.
#[derive(Clone, Copy)]
pub struct Resolver {
    words: StateWords,
    names: StateOctets,
}

impl fmt::Debug for Resolver {
    fn fmt(&self, f: &mut fmt::Formatter<'_>) -> fmt::Result {
        f.debug_struct("Resolver")
            .field("adopted", &self.adopted())
            .field("offered", &self.offered())
            .field("open", &self.words[9..11].to_vec())
            .finish()
    }
}

impl Resolver {
    /// One that holds this adopted key and nothing else. Refused with `NoKey`
    /// where the name is no wire name.
    pub fn hold(
        name: &[u8],
        algorithm: Algorithm,
        inception: u32,
        expiration: u32,
    ) -> Result<Resolver, Refusal> {
        let (mut words, mut names) = (StateWords::default(), [0; 510]);
        // SAFETY: name is as long as told.
        let number = unsafe {
            sys::luffcringle_resolver_hold(
                &mut words,
                &mut names,
                name.as_ptr(),
                name.len(),
                algorithm.number(),
                inception,
                expiration,
            )
        };
        done(number, Resolver { words, names })
    }

    /// The one of stored words and octets. Any do: what is no key is not held.
    pub fn from_parts(words: &StateWords, names: &StateOctets) -> Resolver {
        Resolver {
            words: *words,
            names: *names,
        }
    }

    /// The words and octets to store.
    pub fn parts(&self) -> (&StateWords, &StateOctets) {
        (&self.words, &self.names)
    }

    /// The adopted key.
    pub fn adopted(&self) -> Option<HeldKey> {
        let is_held = matches!(self.words[0], 1 | 2);
        is_held.then(|| self.key(1, 0)).flatten()
    }

    /// The offered key.
    pub fn offered(&self) -> Option<HeldKey> {
        let is_held = self.words[0] == 2 && self.adopted().is_some();
        is_held.then(|| self.key(5, 255)).flatten()
    }

    fn key(&self, word: usize, octet: usize) -> Option<HeldKey> {
        let mut name = [0; 255];
        name.copy_from_slice(&self.names[octet..][..255]);
        Some(HeldKey {
            name: Name::new(name, self.words[word]),
            algorithm: Algorithm::of(self.words[word + 1])?,
            inception: self.words[word + 2] as u32,
            expiration: self.words[word + 3] as u32,
        })
    }

    /// Writes a renewal (mode 4098), signed with the adopted key. Refused with
    /// `NoKey`, `Room`.
    pub fn renewal(
        &mut self,
        id: u16,
        wanted: &Wanted,
        request: &mut [u8],
    ) -> Result<Sending, Refusal> {
        let mut sending = [0; 2];
        // SAFETY: all slices are as long as told, and request is borrowed alone.
        let number = unsafe {
            sys::luffcringle_resolver_renewal(
                &mut self.words,
                &mut self.names,
                id,
                wanted.name.as_ptr(),
                wanted.name.len(),
                wanted.algorithm.number(),
                wanted.inception,
                wanted.expiration,
                wanted.record.as_ptr(),
                wanted.record.len(),
                request.as_mut_ptr(),
                request.len(),
                &mut sending,
            )
        };
        sent(number, sending)
    }

    /// Writes an adoption of the offered key. One that had no good reply is
    /// written again: it is signed with the other key, in turn. Refused with
    /// `NoKey`, `Room`.
    pub fn adoption(&mut self, id: u16, request: &mut [u8]) -> Result<Sending, Refusal> {
        let mut sending = [0; 2];
        // SAFETY: request is as long as told, and borrowed alone.
        let number = unsafe {
            sys::luffcringle_resolver_adoption(
                &mut self.words,
                &mut self.names,
                id,
                request.as_mut_ptr(),
                request.len(),
                &mut sending,
            )
        };
        sent(number, sending)
    }

    /// Writes a deletion of the adopted key. Refused with `NoKey`, `Room`.
    pub fn deletion(&mut self, id: u16, request: &mut [u8]) -> Result<Sending, Refusal> {
        let mut sending = [0; 2];
        // SAFETY: request is as long as told, and borrowed alone.
        let number = unsafe {
            sys::luffcringle_resolver_deletion(
                &mut self.words,
                &mut self.names,
                id,
                request.as_mut_ptr(),
                request.len(),
                &mut sending,
            )
        };
        sent(number, sending)
    }

    /// Notes the ID of an ordinary message, so that its reply can say that
    /// renewal is due.
    pub fn note(&mut self, id: u16) {
        // SAFETY: the references are all that is lent.
        unsafe { sys::luffcringle_resolver_note(&mut self.words, &mut self.names, id) };
    }

    /// Reads a reply, given the verdict on its MAC and its time. Refused with
    /// `Format`, `Lost`, `WrongId`, `Unsigned`; then nothing moves.
    pub fn reply<'m>(&mut self, mac: Verdict, message: &'m [u8]) -> Result<Heard<'m>, Refusal> {
        let mut heard = [0; 4];
        // SAFETY: message is as long as told.
        let number = unsafe {
            sys::luffcringle_resolver_reply(
                &mut self.words,
                &mut self.names,
                mac.is_good(),
                message.as_ptr(),
                message.len(),
                &mut heard,
            )
        };
        let [due, granted, from, size] = heard;
        done(number, ())?;
        Ok(Heard {
            due: due == 1,
            granted: (granted == 1).then(|| &message[from as usize..][..size as usize]),
        })
    }
}

fn sent(number: u64, [length, signer]: [u64; 2]) -> Result<Sending, Refusal> {
    done(number, ())?;
    Ok(Sending {
        length: length as usize,
        signer: match signer {
            2 => Signer::Offered,
            _ => Signer::Adopted,
        },
    })
}

/// The value of a call that is done.
fn done<T>(number: u64, value: T) -> Result<T, Refusal> {
    if number == 0 {
        return Ok(value);
    }
    let mut all = Refusal::ALL.into_iter();
    let found = all.find(|refusal| refusal.number() == number);
    Err(found.expect("the number of a refusal"))
}
