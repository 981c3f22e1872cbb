//! The six calls. 01 "The desk's business" and "Numbers a caller sees".

use crate::judging::{self, Case, Denial, Given, Grant, Outcome, Ruling, Signer};
use crate::names::{self, Place};
use crate::reply;
use crate::table::{are_terms, Algorithm, Keys, Pair, Table, MOST_PAIRS, SERIAL_LIMIT};
use crate::wire::{self, Message, Scheme};

/// The first time that is refused.
pub const TIME_LIMIT: u64 = (1 << 48) - (1 << 31);

/// The refusals of 01's table, and those of CR 4 and CR 10.
#[derive(Clone, Copy, Debug, PartialEq, Eq)]
pub enum Refusal {
    Table,
    Time,
    Clock,
    Size,
    Offer,
    /// CR 6: with the place where reading failed.
    Format(Place),
    NotQuery,
    Room,
    NoPair,
    NoKey,
    Spent,
    Name,
    Term,
    Twin,
    Full,
    Batch,
    KeyRec,
}

impl Refusal {
    /// 01 "Numbers a caller sees", CR 4 and CR 10.
    pub fn number(self) -> u8 {
        match self {
            Refusal::Table => 1,
            Refusal::Time => 2,
            Refusal::Clock => 3,
            Refusal::Size => 4,
            Refusal::Offer => 5,
            Refusal::Format(_) => 6,
            Refusal::NotQuery => 7,
            Refusal::Room => 8,
            Refusal::NoPair => 9,
            Refusal::NoKey => 10,
            Refusal::Spent => 11,
            Refusal::Name => 12,
            Refusal::Term => 13,
            Refusal::Twin => 14,
            Refusal::Full => 15,
            Refusal::Batch => 17,
            Refusal::KeyRec => 19,
        }
    }

    /// CR 6: the place beside FORMAT, else 0.
    pub fn place(self) -> Place {
        match self {
            Refusal::Format(place) => place,
            _ => 0,
        }
    }
}

/// What a call returns that is DONE.
#[derive(Clone, Copy, Debug, Default, PartialEq, Eq)]
pub struct Done {
    /// Of the reply; 0 for none.
    pub length: usize,
    /// The TSIG error or 0.
    pub error: u16,
    pub skew: i64,
    /// The number of the key's pair, or 0.
    pub pair: u64,
    /// The key's serial, or 0.
    pub serial: u64,
}

impl Done {
    /// 01, the paragraph after the table: pair and serial of a key.
    fn with_key(index: usize, serial: u64) -> Done {
        Done {
            pair: index as u64 + 1,
            serial,
            ..Done::default()
        }
    }

    /// The same, 0 and 0 when there is none.
    fn with_signer(signer: Option<Signer>) -> Done {
        signer.map_or(Done::default(), |signer| {
            Done::with_key(signer.index, signer.key.serial)
        })
    }
}

/// 01 "The desk's business", new table: no pairs, its clock the time given.
pub fn new(time: u64) -> Result<Table, Refusal> {
    ensure(time < TIME_LIMIT, Refusal::Time)?;
    Ok(Table::empty(time))
}

/// 01 "The desk's business", enrol: adds a pair with its first key, whose serial
/// is the floor; SPENT, after FULL, when that is 2^32 (CR 9).
pub fn enrol(
    table: &mut Table,
    time: u64,
    suffix: &[u8],
    lifetime: u64,
    fresh: u64,
    algorithm: u64,
) -> Result<Done, Refusal> {
    open(table, time)?;
    ensure(names::is_suffix(suffix), Refusal::Name)?;
    ensure(are_terms(lifetime, fresh), Refusal::Term)?;
    let algorithm = Algorithm::from_number(algorithm).ok_or(Refusal::Term)?;
    ensure(table.find(suffix).is_none(), Refusal::Twin)?;
    ensure(table.pairs.len() < MOST_PAIRS, Refusal::Full)?;
    let first = table.floor;
    ensure(first < SERIAL_LIMIT, Refusal::Spent)?;
    let mut pair = Pair {
        suffix: suffix.to_vec(),
        lifetime,
        fresh,
        next_serial: first,
        keys: Keys::None,
    };
    pair.issue(pair.next_key(algorithm, time));
    table.pairs.push(pair);
    Ok(Done::with_key(table.pairs.len() - 1, first))
}

/// CR 9, close: the pair goes, later ones move down one number, and the floor
/// is not below the pair's next serial. Answers pair 0 and serial 0.
pub fn close(table: &mut Table, time: u64, number: u64) -> Result<Done, Refusal> {
    open(table, time)?;
    let index = table.index_of(number).ok_or(Refusal::NoPair)?;
    let closed = table.pairs.remove(index);
    table.floor = table.floor.max(closed.next_serial);
    Ok(Done::default())
}

/// 01 "The desk's business", issue: gives a pair a fresh adopted key and drops
/// what it had.
pub fn issue(table: &mut Table, time: u64, number: u64, algorithm: u64) -> Result<Done, Refusal> {
    open(table, time)?;
    let index = table.index_of(number).ok_or(Refusal::NoPair)?;
    let pair = &mut table.pairs[index];
    ensure(pair.next_serial < SERIAL_LIMIT, Refusal::Spent)?;
    let algorithm = Algorithm::from_number(algorithm).ok_or(Refusal::Term)?;
    let key = pair.next_key(algorithm, time);
    pair.issue(key);
    Ok(Done::with_key(index, key.serial))
}

/// 01 "The desk's business", revoke early: the adopted key's partial time, if
/// the key is not expired.
pub fn revoke(table: &mut Table, time: u64, number: u64) -> Result<Done, Refusal> {
    open(table, time)?;
    let index = table.index_of(number).ok_or(Refusal::NoPair)?;
    let pair = &mut table.pairs[index];
    let adopted = pair.adopted().filter(|key| time < key.expiry);
    let serial = adopted.ok_or(Refusal::NoKey)?.serial;
    pair.revoke(time);
    Ok(Done::with_key(index, serial))
}

/// 01 "The desk's business", look: pair and serial of the adopted key whose
/// name and algorithm a well-placed TSIG gives, expired or not. Changes
/// nothing, takes no time.
pub fn look(table: &Table, octets: &[u8]) -> Result<Done, Refusal> {
    ensure(table.keeps_rules(), Refusal::Table)?;
    ensure(is_sized(octets), Refusal::Size)?;
    let tsig = read_query(octets)?.tsig().ok().flatten();
    let signer = tsig.and_then(|tsig| judging::find_signer(table, &tsig));
    Ok(Done::with_signer(signer))
}

/// 01 "The desk's business", message. A reply fills the first octets of
/// `reply`; a refusal writes nothing.
pub fn message(
    table: &mut Table,
    given: &Given,
    octets: &[u8],
    reply: &mut [u8],
) -> Result<Done, Refusal> {
    open(table, given.time)?;
    ensure(is_sized(octets), Refusal::Size)?;
    ensure(given.offer.len() <= 1024, Refusal::Offer)?;
    let message = &read_query(octets)?;
    let (signer, ruling) = judging::judge(table, &Case { given, message });
    let mut done = Done::with_signer(signer);
    match ruling {
        Ok(Ruling::PassUp { skew }) => done.skew = skew,
        Err(Denial { rcode, error }) => {
            let length = reply::write_denial(message, rcode, reply);
            done.length = length.ok_or(Refusal::Room)?;
            done.error = error;
        }
        Ok(Ruling::Tkey(index, mut tkey, outcome)) => {
            let lent = answered_record(&outcome, given.record)?;
            let pair = &mut table.pairs[index];
            reply::answer(&mut tkey, &outcome, &pair.suffix, given.offer);
            let length = reply::write_outcome(message, &tkey, &outcome, lent, reply);
            done.length = length.ok_or(Refusal::Room)?;
            change_keys(pair, &outcome, given.time);
        }
    }
    Ok(done)
}

/// CR 10: the lent record that the answer to this outcome takes, if any; else
/// KEYREC where it must be one KEY record and is not.
fn answered_record<'a>(outcome: &Outcome, record: &'a [u8]) -> Result<Option<&'a [u8]>, Refusal> {
    match outcome {
        Outcome::Renewed(Grant {
            scheme: Scheme::DiffieHellman,
            ..
        }) => {
            ensure(wire::is_key_record(record), Refusal::KeyRec)?;
            Ok(Some(record))
        }
        _ => Ok(None),
    }
}

/// 01 "Renewal", "Adoption" and "Deletion": what happens to the keys, after
/// the reply had room. It is the same in all schemes of a renewal (CR 10).
fn change_keys(pair: &mut Pair, outcome: &Outcome, time: u64) {
    match outcome {
        Outcome::Failed(_) | Outcome::AlreadyAdopted => (),
        Outcome::Renewed(grant) => pair.renew(grant.waiting, time),
        Outcome::Adopted => pair.adopt(),
        Outcome::Deleted => pair.delete(),
        Outcome::WaitingDeleted => pair.delete_waiting(),
    }
}

/// Refuses unless something holds.
pub(crate) fn ensure<R>(holds: bool, refusal: R) -> Result<(), R> {
    holds.then_some(()).ok_or(refusal)
}

/// 01, numbers 1 to 3. A call that passes them sets the table's clock to its
/// time, later refusals included.
fn open(table: &mut Table, time: u64) -> Result<(), Refusal> {
    ensure(table.keeps_rules(), Refusal::Table)?;
    ensure(time < TIME_LIMIT, Refusal::Time)?;
    ensure(time >= table.clock, Refusal::Clock)?;
    table.clock = time;
    Ok(())
}

/// 01, number 4.
pub(crate) fn is_sized(octets: &[u8]) -> bool {
    (12..=65_535).contains(&octets.len())
}

/// 01, numbers 6 and 7.
pub(crate) fn read_query(octets: &[u8]) -> Result<Message<'_>, Refusal> {
    let message = Message::read(octets).map_err(Refusal::Format)?;
    ensure(!message.is_response(), Refusal::NotQuery)?;
    Ok(message)
}
