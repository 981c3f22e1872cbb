//! The table and its eight calls.

use crate::sys::{self, ItemWords, Octets, Told, Words};
use crate::view::{self, View};
use crate::words::{Algorithm, Refusal, TsigError, Verdict};
use std::fmt;
use std::ops::Range;

/// The words of a table.
pub const TABLE_WORDS: usize = 1091;
/// The octets of a table's suffixes.
pub const TABLE_OCTETS: usize = 8192;

/// The most items of a batch.
pub const MOST_ITEMS: usize = 64;

/// What a call answers that is done.
#[derive(Clone, Copy, Debug, Default, PartialEq, Eq)]
pub struct Answer {
    /// The octets of the reply; 0 where there is none.
    pub length: usize,
    /// The TSIG error of the reply.
    pub error: TsigError,
    /// Time signed minus time, of a signed message that is passed up.
    pub skew: i64,
    /// The pair of the key that signed, was made, revoked or found, or 0.
    pub pair: u64,
    /// That key's serial, or 0.
    pub serial: u64,
}

/// The TSIG that a reply needs before it is sent (RFC 8945, 5.3.2).
#[derive(Clone, Copy, Debug, PartialEq, Eq, Hash)]
pub enum ReplyTsig {
    /// None: the request had none that could be answered.
    None,
    /// One with a MAC of size 0, and the answer's error.
    Unsigned,
    /// One signed by the request's key, the answer's pair and serial, also
    /// where this very message deleted or replaced it; with the answer's error.
    Signed,
}

impl Answer {
    /// The TSIG that the reply needs, by the verdict that the message was
    /// given with.
    pub fn reply_tsig(&self, mac: Verdict, reply: &[u8]) -> ReplyTsig {
        let is_format_error = reply.get(3).is_some_and(|flags| flags & 15 == 1);
        match self.error {
            TsigError::BadKey | TsigError::BadSig => ReplyTsig::Unsigned,
            TsigError::BadTime | TsigError::PartialRevoke => ReplyTsig::Signed,
            TsigError::None if self.pair == 0 => ReplyTsig::None,
            TsigError::None if is_format_error && !mac.is_good() => ReplyTsig::Unsigned,
            TsigError::None => ReplyTsig::Signed,
        }
    }
}

/// What the caller gives with a message. Only renewals look at more than the
/// time and the verdict on the MAC; for the rest `..Given::default()` will do.
///
/// A renewal has one of three modes, and one KEY record:
///
/// - 4097, Diffie-Hellman: `keying` says whether the server has a key of the same
///   group as the office's KEY; `offer` is a nonce, and `record` the server's
///   own KEY record.
/// - 4098, server assignment: `offer` is the new secret, encrypted under the
///   office's KEY.
/// - 4099, resolver assignment: `keying` says whether the server has the private
///   key to the KEY, under which the request's key data is encrypted.
///
/// The header says more of each.
#[derive(Clone, Copy, Debug, Default, PartialEq, Eq, Hash)]
pub struct Given<'a> {
    /// The time of the call.
    pub time: u64,
    /// The verdict on the MAC.
    pub mac: Verdict,
    /// The key data for a renewal, 0 to 1024 octets.
    pub offer: &'a [u8],
    /// The keying verdict: whether the KEY of a renewal fits.
    pub keying: Verdict,
    /// The KEY record that answers a renewal by Diffie-Hellman.
    pub record: &'a [u8],
}

/// Where octets of an item stand among those lent to a batch. A range becomes
/// one: `(12..40).into()`.
#[derive(Clone, Copy, Debug, Default, PartialEq, Eq, Hash)]
pub struct Span {
    /// The first place, from 0.
    pub from: u64,
    /// The count of octets.
    pub size: u64,
}

impl From<Range<usize>> for Span {
    /// A range that ends before its start has no octets, like every empty one.
    fn from(range: Range<usize>) -> Span {
        Span {
            from: range.start as u64,
            size: range.len() as u64,
        }
    }
}

/// One message of a batch: what `Table::message` takes beside the room. Parts
/// that it does not need may be of no octets, as they are by default.
#[derive(Clone, Copy, Debug, Default, PartialEq, Eq, Hash)]
pub struct Item {
    /// The time of this message.
    pub time: u64,
    /// The verdict on its MAC.
    pub mac: Verdict,
    /// Where the message stands.
    pub message: Span,
    /// Where the key data for a renewal stands.
    pub offer: Span,
    /// The keying verdict.
    pub keying: Verdict,
    /// Where the KEY record for a renewal by Diffie-Hellman stands.
    pub record: Span,
}

impl Item {
    fn words(&self) -> ItemWords {
        [
            self.time,
            u64::from(self.mac.is_good()),
            self.message.from,
            self.message.size,
            self.offer.from,
            self.offer.size,
            u64::from(self.keying.is_good()),
            self.record.from,
            self.record.size,
        ]
    }
}

/// As `struct luffcringle_table` in C.
#[derive(Clone, Copy)]
#[repr(C)]
pub(crate) struct Lent {
    pub(crate) words: Words,
    pub(crate) suffixes: Octets,
}

/// A table of up to 64 pairs. Looks may share one between threads.
///
/// ```
/// use luffcringle::{Algorithm, Refusal, Table};
///
/// let office = b"\x01a\x07example\0";
/// let mut table = Table::new(1000)?;
/// let answer = table.enrol(1000, office, 600, 400, Algorithm::Sha256)?;
/// assert_eq!((answer.pair, answer.serial), (1, 1));
/// // A second key for the same office; the first is gone.
/// assert_eq!(table.issue(1001, 1, Algorithm::Sha512)?.serial, 2);
/// // The clock does not go back.
/// assert_eq!(table.revoke(1000, 1), Err(Refusal::Clock));
/// # Ok::<(), Refusal>(())
/// ```
///
/// There is no `==`: some words have no meaning, and two tables that differ in
/// them alone are the same. Compare their views.
pub struct Table {
    pub(crate) lent: Box<Lent>,
}

impl Clone for Table {
    fn clone(&self) -> Table {
        Table {
            lent: self.lent.clone(),
        }
    }

    /// Into the words that are there: nothing is allocated.
    fn clone_from(&mut self, source: &Table) {
        *self.lent = *source.lent;
    }
}

impl fmt::Debug for Table {
    fn fmt(&self, f: &mut fmt::Formatter<'_>) -> fmt::Result {
        f.debug_tuple("Table").field(&self.view()).finish()
    }
}

impl Table {
    /// New table: no pairs, its clock the time given.
    pub fn new(time: u64) -> Result<Table, Refusal> {
        let mut table = Table::from_parts(&[0; TABLE_WORDS], &[0; TABLE_OCTETS]);
        table.clear(time).map(|_| table)
    }

    /// New table in the place of this one, whatever it held. A refusal leaves
    /// this one.
    pub fn clear(&mut self, time: u64) -> Result<Answer, Refusal> {
        let Lent { words, suffixes } = &mut *self.lent;
        let mut answer = Told::default();
        // SAFETY: the references are all that is lent.
        let number = unsafe { sys::luffcringle_new_table(words, suffixes, time, &mut answer) };
        told(number, answer)
    }

    /// The table of stored words and octets. Any do: calls are refused where
    /// they hold no table, or one that breaks a table rule.
    pub fn from_parts(words: &Words, suffixes: &Octets) -> Table {
        Table {
            lent: Box::new(Lent {
                words: *words,
                suffixes: *suffixes,
            }),
        }
    }

    /// The words and the octets to store.
    pub fn parts(&self) -> (&Words, &Octets) {
        (&self.lent.words, &self.lent.suffixes)
    }

    /// What the table holds; `None` where words and octets break the layout
    /// rule. A table that breaks another rule is shown as it is, though every
    /// call refuses it.
    pub fn view(&self) -> Option<View> {
        view::read(&self.lent.words, &self.lent.suffixes)
    }

    /// Enrol: adds a pair, `suffix` an uncompressed wire name, with its first
    /// key.
    pub fn enrol(
        &mut self,
        time: u64,
        suffix: &[u8],
        lifetime: u64,
        fresh: u64,
        algorithm: Algorithm,
    ) -> Result<Answer, Refusal> {
        let Lent { words, suffixes } = &mut *self.lent;
        let mut answer = Told::default();
        // SAFETY: suffix is as long as told.
        let number = unsafe {
            sys::luffcringle_enrol(
                words,
                suffixes,
                time,
                suffix.as_ptr(),
                suffix.len(),
                lifetime,
                fresh,
                algorithm.number(),
                &mut answer,
            )
        };
        told(number, answer)
    }

    /// Close: the pair goes with its keys, and later pairs move down one number.
    /// No name is made again, also where the suffix comes back, until a table is
    /// loaded.
    ///
    /// ```
    /// use luffcringle::{Algorithm, Refusal, Table};
    ///
    /// let office = b"\x01a\x07example\0";
    /// let mut table = Table::new(1000)?;
    /// table.enrol(1000, office, 600, 400, Algorithm::Sha256)?;
    /// table.close(1001, 1)?;
    /// // It comes back, and its first key has the next serial.
    /// let answer = table.enrol(1002, office, 600, 400, Algorithm::Sha256)?;
    /// assert_eq!((answer.pair, answer.serial), (1, 2));
    /// # Ok::<(), Refusal>(())
    /// ```
    pub fn close(&mut self, time: u64, pair: u64) -> Result<Answer, Refusal> {
        let Lent { words, suffixes } = &mut *self.lent;
        let mut answer = Told::default();
        // SAFETY: the references are all that is lent.
        let number = unsafe { sys::luffcringle_close(words, suffixes, time, pair, &mut answer) };
        told(number, answer)
    }

    /// Issue: a fresh adopted key in the place of what the pair had.
    pub fn issue(&mut self, time: u64, pair: u64, algorithm: Algorithm) -> Result<Answer, Refusal> {
        let Lent { words, suffixes } = &mut *self.lent;
        let (mut answer, algorithm) = (Told::default(), algorithm.number());
        // SAFETY: the references are all that is lent.
        let number =
            unsafe { sys::luffcringle_issue(words, suffixes, time, pair, algorithm, &mut answer) };
        told(number, answer)
    }

    /// Revoke early: the partial time of the pair's adopted key becomes the
    /// earlier of itself and now.
    pub fn revoke(&mut self, time: u64, pair: u64) -> Result<Answer, Refusal> {
        let Lent { words, suffixes } = &mut *self.lent;
        let mut answer = Told::default();
        // SAFETY: the references are all that is lent.
        let number = unsafe { sys::luffcringle_revoke(words, suffixes, time, pair, &mut answer) };
        told(number, answer)
    }

    /// Look: the pair and the serial of the key that the message's TSIG names,
    /// so that the caller can verify the MAC before it calls `message`.
    pub fn look(&self, message: &[u8]) -> Result<Answer, Refusal> {
        let Lent { words, suffixes } = &*self.lent;
        let mut answer = Told::default();
        // SAFETY: message is as long as told.
        let number = unsafe {
            sys::luffcringle_look(
                words,
                suffixes,
                message.as_ptr(),
                message.len(),
                &mut answer,
            )
        };
        told(number, answer)
    }

    /// Message: judges a message and writes the reply without its TSIG into
    /// the first octets of `reply`. With length 0 the message is the caller's
    /// to answer; the header says which TSIG a reply needs.
    pub fn message(
        &mut self,
        given: &Given,
        message: &[u8],
        reply: &mut [u8],
    ) -> Result<Answer, Refusal> {
        let Lent { words, suffixes } = &mut *self.lent;
        let mut answer = Told::default();
        // SAFETY: message, offer, record and reply are as long as told, and
        // reply is borrowed alone.
        let number = unsafe {
            sys::luffcringle_message(
                words,
                suffixes,
                given.time,
                given.mac.is_good(),
                message.as_ptr(),
                message.len(),
                given.offer.as_ptr(),
                given.offer.len(),
                given.keying.is_good(),
                given.record.as_ptr(),
                given.record.len(),
                reply.as_mut_ptr(),
                reply.len(),
                &mut answer,
            )
        };
        told(number, answer)
    }

    /// Batch: up to 64 messages in one call, in order, each as `message` would
    /// take it at its own time. `octets` hold all messages, offers and records;
    /// items may share them.
    ///
    /// The replies lie one after another in `replies`, each as long as its
    /// item's answer says. An item is lent the room that is left, and a refused
    /// one takes none. With `Table`, or with `Batch` for more than 64 items or
    /// one outside `octets`, the whole is refused: no item is judged, and table
    /// and replies stay, the clock too.
    pub fn batch(
        &mut self,
        octets: &[u8],
        items: &[Item],
        replies: &mut [u8],
    ) -> Result<Vec<Result<Answer, Refusal>>, Refusal> {
        let Lent { words, suffixes } = &mut *self.lent;
        let mut lent_items = [ItemWords::default(); MOST_ITEMS];
        // Of more than 64 the count alone is told: none of them is judged.
        for (lent, item) in lent_items.iter_mut().zip(items) {
            *lent = item.words();
        }
        let mut answers = [Told::default(); MOST_ITEMS];
        // SAFETY: octets and replies are as long as told, and replies is
        // borrowed alone.
        let number = unsafe {
            sys::luffcringle_batch(
                words,
                suffixes,
                items.len() as u64,
                &lent_items,
                octets.as_ptr(),
                octets.len(),
                &mut answers,
                replies.as_mut_ptr(),
                replies.len(),
            )
        };
        if number != 0 {
            return Err(Refusal::of(number, 0));
        }
        let answers = answers[..items.len()].iter();
        Ok(answers.map(|answer| told(answer[0], *answer)).collect())
    }
}

/// What a call returned and the words of its answer, whose first is the same.
fn told(number: u64, answer: Told) -> Result<Answer, Refusal> {
    let [same_number, length, error, skew, pair, serial, place] = answer;
    debug_assert_eq!(number, same_number);
    if number != 0 {
        return Err(Refusal::of(number, place as usize));
    }
    Ok(Answer {
        length: length as usize,
        error: TsigError::of(error),
        skew: skew as i64, // from two's complement
        pair,
        serial,
    })
}
