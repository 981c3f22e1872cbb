//! Inquiries: they change nothing and take no time.

use crate::sys::{self, AskedWords, MovesWords, PairWords};
use crate::table::{Lent, Table};
use crate::view::{keys, Keys};
use crate::words::{Algorithm, Name, Refusal};

/// A pair, but for its suffix.
#[derive(Clone, Copy, Debug, PartialEq, Eq)]
pub struct PairState {
    words: PairWords,
}

impl PairState {
    /// The seconds for which a key lasts.
    pub fn lifetime(&self) -> u64 {
        self.words[0]
    }

    /// The seconds after which a key is to be renewed.
    pub fn fresh(&self) -> u64 {
        self.words[1]
    }

    /// The serial of the key that is made next.
    pub fn next_serial(&self) -> u64 {
        self.words[2]
    }

    /// Its keys.
    pub fn keys(&self) -> Keys {
        keys(&self.words[3..]).expect("an inquiry shows known keys")
    }
}

/// What became of a pair's keys between two times that it was shown, as before
/// and after one message: serials. Which secret is new, and which need not be
/// kept.
#[derive(Clone, Copy, Debug, Default, PartialEq, Eq, Hash)]
pub struct Moves {
    /// A key that was not there.
    pub made: Option<u64>,
    /// The key that was waiting, and is adopted now.
    pub adopted: Option<u64>,
    /// The key that was adopted, and is gone.
    pub ended: Option<u64>,
    /// The key that was waiting, and is gone.
    pub dropped: Option<u64>,
}

impl Moves {
    /// What became of the keys.
    ///
    /// ```
    /// use luffcringle::{Algorithm, Moves, Refusal, Table};
    ///
    /// let mut table = Table::new(1000)?;
    /// table.enrol(1000, b"\x01a\x07example\0", 600, 400, Algorithm::Sha256)?;
    /// let before = table.pair(1)?;
    /// table.issue(1001, 1, Algorithm::Sha256)?;
    /// let moves = Moves::between(&before, &table.pair(1)?);
    /// assert_eq!((moves.made, moves.ended), (Some(2), Some(1)));
    /// assert_eq!((moves.adopted, moves.dropped), (None, None));
    /// # Ok::<(), Refusal>(())
    /// ```
    pub fn between(before: &PairState, after: &PairState) -> Moves {
        let mut moves = MovesWords::default();
        // SAFETY: the references are all that is lent.
        unsafe { sys::luffcringle_moves(&before.words, &after.words, &mut moves) };
        let [made, adopted, ended, dropped] = moves.map(|serial| (serial != 0).then_some(serial));
        Moves {
            made,
            adopted,
            ended,
            dropped,
        }
    }
}

/// The mode of a TKEY.
#[derive(Clone, Copy, Debug, PartialEq, Eq, Hash)]
pub enum Mode {
    /// 4097, a renewal by Diffie-Hellman.
    DiffieHellman,
    /// 4098, a renewal by server assignment.
    ServerAssignment,
    /// 4099, a renewal by resolver assignment.
    ResolverAssignment,
    /// 4100, adoption.
    Adoption,
    /// 5, deletion.
    Deletion,
    /// Any other: the table answers it with an error.
    Other(u16),
}

impl Mode {
    fn of(number: u64) -> Mode {
        match number {
            5 => Mode::Deletion,
            4097 => Mode::DiffieHellman,
            4098 => Mode::ServerAssignment,
            4099 => Mode::ResolverAssignment,
            4100 => Mode::Adoption,
            other => Mode::Other(other as u16),
        }
    }
}

/// What a TKEY request asks for.
#[derive(Clone, Copy, Debug, PartialEq, Eq)]
pub struct Asks<'m> {
    /// The TKEY's mode.
    pub mode: Mode,
    /// The algorithm of the new key; `None` for a name of no known one.
    pub algorithm: Option<Algorithm>,
    /// The TKEY's inception.
    pub inception: u32,
    /// The TKEY's expiration.
    pub expiration: u32,
    /// The TKEY's key data.
    pub data: &'m [u8],
    /// The data of the only KEY record of the additional section.
    pub key: Option<&'m [u8]>,
}

/// What a message asks for by TKEY, to be looked at before [`Table::message`],
/// which is lent the offer, the keying verdict and the KEY record. `None`: it is
/// no TKEY request, or has not one well formed TKEY, or one of the reserved
/// mode 0. Refused with `Size`, `Format`, `NotQuery`.
///
/// ```
/// use luffcringle::{asks, Refusal};
///
/// // An ordinary question: a header, and none after it.
/// let message = [0, 1, 0, 0, 0, 0, 0, 0, 0, 0, 0, 0];
/// assert_eq!(asks(&message), Ok(None));
/// assert_eq!(asks(&message[..11]), Err(Refusal::Size));
/// ```
pub fn asks(message: &[u8]) -> Result<Option<Asks<'_>>, Refusal> {
    let mut asked = AskedWords::default();
    // SAFETY: message is as long as told.
    let number = unsafe { sys::luffcringle_asks(message.as_ptr(), message.len(), &mut asked) };
    let [place, mode, algorithm, inception, expiration, data @ ..] = asked;
    if number != 0 {
        return Err(Refusal::of(number, place as usize));
    }
    if mode == 0 {
        return Ok(None);
    }
    let part = |from: u64, size: u64| &message[from as usize..][..size as usize];
    Ok(Some(Asks {
        mode: Mode::of(mode),
        algorithm: Algorithm::of(algorithm),
        inception: inception as u32,
        expiration: expiration as u32,
        data: part(data[0], data[1]),
        key: (data[2] == 1).then(|| part(data[3], data[4])),
    }))
}

impl Table {
    /// Whether it keeps every table rule: every call refuses one that does not.
    pub fn is_sound(&self) -> bool {
        let Lent { words, suffixes } = &*self.lent;
        // SAFETY: the references are all that is lent.
        unsafe { sys::luffcringle_test(words, suffixes) == 0 }
    }

    /// The pair with this suffix, without regard to case. Refused with `Table`,
    /// `NoPair`.
    pub fn pair_of_suffix(&self, suffix: &[u8]) -> Result<u64, Refusal> {
        let Lent { words, suffixes } = &*self.lent;
        let mut pair = 0;
        // SAFETY: suffix is as long as told.
        let number = unsafe {
            sys::luffcringle_pair_of_suffix(
                words,
                suffixes,
                suffix.as_ptr(),
                suffix.len(),
                &mut pair,
            )
        };
        done(number, pair)
    }

    /// The pair that a key's name belongs to: its suffix follows the first
    /// label, whatever that is. Refused with `Table`, `Name`, `NoPair`.
    ///
    /// ```
    /// use luffcringle::{Algorithm, Refusal, Table};
    ///
    /// let mut table = Table::new(1000)?;
    /// table.enrol(1000, b"\x01a\x07example\0", 600, 400, Algorithm::Sha256)?;
    /// assert_eq!(table.pair_of_key(b"\x011\x01A\x07EXAMPLE\0"), Ok(1));
    /// assert_eq!(&*table.key_name(1, 1)?, b"\x011\x01a\x07example\0");
    /// assert_eq!(table.key_name(1, 2), Err(Refusal::NoKey));
    /// # Ok::<(), Refusal>(())
    /// ```
    pub fn pair_of_key(&self, name: &[u8]) -> Result<u64, Refusal> {
        let Lent { words, suffixes } = &*self.lent;
        let mut pair = 0;
        // SAFETY: name is as long as told.
        let number = unsafe {
            sys::luffcringle_pair_of_key(words, suffixes, name.as_ptr(), name.len(), &mut pair)
        };
        done(number, pair)
    }

    /// The name that a key of the pair has by its serial, there or gone. Keep
    /// secrets by it, and not by the pair's number. Refused with `Table`,
    /// `NoPair`, `NoKey`.
    pub fn key_name(&self, pair: u64, serial: u64) -> Result<Name, Refusal> {
        let Lent { words, suffixes } = &*self.lent;
        let (mut name, mut length) = ([0; 255], 0);
        // SAFETY: name is as long as told, and borrowed alone.
        let number = unsafe {
            sys::luffcringle_key_name(
                words,
                suffixes,
                pair,
                serial,
                name.as_mut_ptr(),
                name.len(),
                &mut length,
            )
        };
        done(number, Name::new(name, length))
    }

    /// A pair as it is. Refused with `Table`, `NoPair`.
    pub fn pair(&self, pair: u64) -> Result<PairState, Refusal> {
        let Lent { words, suffixes } = &*self.lent;
        let mut shown = PairWords::default();
        // SAFETY: the references are all that is lent.
        let number = unsafe { sys::luffcringle_pair(words, suffixes, pair, &mut shown) };
        done(number, PairState { words: shown })
    }
}

/// The value of a call that is done.
fn done<T>(number: u64, value: T) -> Result<T, Refusal> {
    match number {
        0 => Ok(value),
        number => Err(Refusal::of(number, 0)),
    }
}
