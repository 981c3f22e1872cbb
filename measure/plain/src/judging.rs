//! Judging a message, its reply, and what becomes of the keys.

use crate::names::{self, Buffer, Name};
use crate::number::{CLOCK, FORMAT, KEYREC, NOTQUERY, OFFER, ROOM, SIZE, TIME};
use crate::reading::{self, Contents, Found, Record, Tkey};
use crate::reply::{Label, Writer};
use crate::table::{
    Row, Table, ADOPTED, FRESH, KEYS, LIFETIME, NEXT_SERIAL, NUMBER, SERIAL_LIMIT, WAITING,
};
use crate::table::{ALGORITHM, EXPIRY, INCEPTION, PARTIAL, SERIAL};
use crate::Answer;

/// The first time that is refused.
const TIME_LIMIT: u64 = (1 << 48) - (1 << 31);

// RCODEs; 1 and 2 are TKEY errors too.
const FORMERR: u8 = 1;
const SERVFAIL: u8 = 2;
const REFUSED: u8 = 5;
const NOTAUTH: u8 = 9;

// TSIG and TKEY errors.
const BADSIG: u64 = 16;
const BADKEY: u64 = 17;
const BADTIME: u64 = 18;
const BADMODE: u64 = 19;
const BADNAME: u64 = 20;
const BADALG: u64 = 21;
const PARTIAL_REVOKE: u64 = 3841;

// TKEY modes.
const DELETION: u16 = 5;
const BY_DIFFIE_HELLMAN: u16 = 4097;
const BY_SERVER: u16 = 4098;
const BY_RESOLVER: u16 = 4099;
const ADOPTION: u16 = 4100;

/// What the caller gives with a message.
pub struct Given<'a> {
    pub time: u64,
    pub good: bool,
    pub offer: &'a [u8],
    pub fits: bool,
    pub record: &'a [u8],
}

/// A message that reads, and what was given with it.
struct Case<'c, 'a> {
    message: &'a [u8],
    contents: &'c Contents,
    given: &'c Given<'a>,
}

/// The key that signed.
struct Signer {
    place: usize,
    pair: u64,
    serial: u64,
}

/// Step 9 to the end: a TKEY error, or what is done.
#[derive(Clone, Copy)]
enum Outcome {
    Failed(u64),
    /// With the request's KEY record and the algorithm.
    Renewed(Record, u64),
    Adopted,
    AlreadyAdopted,
    Deleted,
    WaitingDeleted,
}

fn refused(number: u64) -> Answer {
    [number, 0, 0, 0, 0, 0, 0]
}

/// A table, and room for one name.
pub struct Desk<'t> {
    table: Table<'t>,
    buffer: Buffer,
}

impl<'t> Desk<'t> {
    pub fn new(table: Table<'t>) -> Desk<'t> {
        let buffer = [0; std::mem::size_of::<Buffer>()];
        Desk { table, buffer }
    }

    /// One message of a batch.
    pub fn message(&mut self, message: &[u8], given: &Given, reply: &mut [u8]) -> Answer {
        if given.time >= TIME_LIMIT {
            return refused(TIME);
        }
        if given.time < *self.table.clock {
            return refused(CLOCK);
        }
        *self.table.clock = given.time;
        if !(12..=65_535).contains(&message.len()) {
            return refused(SIZE);
        }
        if given.offer.len() > 1024 {
            return refused(OFFER);
        }
        let contents = match reading::read(message) {
            Ok(contents) => contents,
            Err(place) => return [FORMAT, 0, 0, 0, 0, 0, place as u64],
        };
        if message[2] & 0x80 != 0 {
            return refused(NOTQUERY);
        }
        let contents = &contents;
        self.judge(
            &Case {
                message,
                contents,
                given,
            },
            reply,
        )
    }

    /// Steps 1 to 3.
    fn judge(&mut self, case: &Case, reply: &mut [u8]) -> Answer {
        let record = match &case.contents.tsig {
            Found::One(record) => record,
            Found::None if case.contents.is_tkey_request => {
                return case.denied(REFUSED, 0, None, reply)
            }
            Found::None => return refused(0),
            Found::Wrong => return case.denied(FORMERR, 0, None, reply),
        };
        let Some(tsig) = reading::tsig(case.message, record) else {
            return case.denied(FORMERR, 0, None, reply);
        };
        let name = names::expand(case.message, record.owner, &mut self.buffer);
        let Some(signer) = find_signer(&mut self.table, name, tsig.algorithm, case.given.time)
        else {
            return case.denied(NOTAUTH, BADKEY, None, reply);
        };
        self.judge_signed(case, &tsig, &signer, reply)
    }

    /// Steps 4 to 8.
    fn judge_signed(
        &mut self,
        case: &Case,
        tsig: &reading::Tsig,
        signer: &Signer,
        reply: &mut [u8],
    ) -> Answer {
        let row = self.table.row(signer.place);
        let time = case.given.time;
        let output = (row[ADOPTED + ALGORITHM] / 8) as usize;
        let denied = |rcode, error, reply| case.denied(rcode, error, Some(signer), reply);
        if tsig.mac_size > output || tsig.mac_size < output / 2 {
            return denied(FORMERR, 0, reply);
        }
        if !case.given.good {
            return denied(NOTAUTH, BADSIG, reply);
        }
        if tsig.time_signed.abs_diff(time) > tsig.fudge {
            return denied(NOTAUTH, BADTIME, reply);
        }
        let is_partial = time >= row[ADOPTED + PARTIAL];
        if !case.contents.is_tkey_request {
            return match is_partial {
                true => denied(NOTAUTH, PARTIAL_REVOKE, reply),
                false => [
                    0,
                    0,
                    0,
                    tsig.time_signed.wrapping_sub(time),
                    signer.pair,
                    signer.serial,
                    0,
                ],
            };
        }
        let found = match &case.contents.tkey {
            Found::One(record) => reading::tkey(case.message, record).map(|tkey| (record, tkey)),
            _ => None,
        };
        let Some((record, tkey)) = found else {
            return denied(FORMERR, 0, reply);
        };
        let has_old_key = (BY_DIFFIE_HELLMAN..=ADOPTION).contains(&tkey.mode);
        let old = reading::old_key(tkey.other_data);
        if has_old_key && old.is_none() {
            return denied(FORMERR, 0, reply);
        }
        if is_partial && !has_old_key {
            return denied(NOTAUTH, PARTIAL_REVOKE, reply);
        }
        self.outcome(case, record, &tkey, old, signer, reply)
    }

    /// Step 9 to the end.
    fn outcome(
        &mut self,
        case: &Case,
        record: &Record,
        tkey: &Tkey,
        old: Option<(&[u8], &[u8])>,
        signer: &Signer,
        reply: &mut [u8],
    ) -> Answer {
        let suffix = self.table.suffix(signer.place);
        let row = self.table.row(signer.place);
        let is_old = || {
            old.is_some_and(|(name, algorithm)| {
                is_key(row, ADOPTED, suffix, Name::new(name, name.len()), algorithm)
            })
        };
        let outcome = match tkey.mode {
            BY_DIFFIE_HELLMAN | BY_SERVER | BY_RESOLVER => match renewal(case, row, tkey, is_old())
            {
                Ok((record, algorithm)) => Outcome::Renewed(record, algorithm),
                Err(error) => Outcome::Failed(error),
            },
            ADOPTION => {
                let name = names::expand(case.message, record.owner, &mut self.buffer);
                let has_waiting = row[KEYS] == 2;
                if is_key(row, ADOPTED, suffix, name, tkey.algorithm) {
                    Outcome::AlreadyAdopted
                } else if !(has_waiting && is_key(row, WAITING, suffix, name, tkey.algorithm)) {
                    Outcome::Failed(BADNAME)
                } else if !is_old() {
                    Outcome::Failed(BADKEY)
                } else {
                    Outcome::Adopted
                }
            }
            DELETION => {
                let name = names::expand(case.message, record.owner, &mut self.buffer);
                let serial = name
                    .parent()
                    .filter(|parent| parent.is(&suffix))
                    .and_then(|_| name.serial());
                if serial == Some(row[ADOPTED + SERIAL]) {
                    Outcome::Deleted
                } else if row[KEYS] == 2 && serial == Some(row[WAITING + SERIAL]) {
                    Outcome::WaitingDeleted
                } else {
                    Outcome::Failed(BADNAME)
                }
            }
            _ => Outcome::Failed(BADMODE),
        };
        let written = match outcome {
            Outcome::Renewed(key, _) => {
                granted(case, tkey, row, suffix, &key, &mut self.buffer, reply)
            }
            _ => {
                let name = names::expand(case.message, record.owner, &mut self.buffer);
                answered(case, tkey, name, outcome, reply)
            }
        };
        match written {
            Ok(length) => {
                change_keys(row, outcome, case.given.time);
                [0, length as u64, 0, 0, signer.pair, signer.serial, 0]
            }
            Err(number) => refused(number),
        }
    }
}

impl Case<'_, '_> {
    /// The header and the questions.
    fn asked(&self) -> &[u8] {
        &self.message[..self.contents.questions]
    }

    /// A reply with an RCODE and a TSIG error.
    fn denied(&self, rcode: u8, error: u64, signer: Option<&Signer>, reply: &mut [u8]) -> Answer {
        let asked = self.asked();
        let Some(mut writer) = Writer::new(reply, asked.len()) else {
            return refused(ROOM);
        };
        writer.head(asked, rcode, 0, 0);
        let (pair, serial) = signer.map_or((0, 0), |signer| (signer.pair, signer.serial));
        [0, asked.len() as u64, error, 0, pair, serial, 0]
    }
}

/// The adopted key with this name and algorithm, if it is in force.
fn find_signer(table: &mut Table, name: Name, algorithm: &[u8], time: u64) -> Option<Signer> {
    let place = table.find(name.parent()?)?;
    let row = table.row(place);
    let serial = row[ADOPTED + SERIAL];
    let is_signer = row[KEYS] != 0
        && name.serial() == Some(serial)
        && is_named(row[ADOPTED + ALGORITHM], algorithm)
        && (row[ADOPTED + INCEPTION]..row[ADOPTED + EXPIRY]).contains(&time);
    let pair = row[NUMBER] + 1;
    is_signer.then_some(Signer {
        place,
        pair,
        serial,
    })
}

/// Whether name and algorithm are those of the key at these words of its row.
fn is_key(row: &Row, key: usize, suffix: Name, name: Name, algorithm: &[u8]) -> bool {
    name.parent().is_some_and(|parent| parent.is(&suffix))
        && name.serial() == Some(row[key + SERIAL])
        && is_named(row[key + ALGORITHM], algorithm)
}

fn is_named(algorithm: u64, name: &[u8]) -> bool {
    let its = match algorithm {
        256 => b"\x0bhmac-sha256\0",
        384 => b"\x0bhmac-sha384\0",
        _ => b"\x0bhmac-sha512\0",
    };
    name == its || name.eq_ignore_ascii_case(its)
}

/// The KEY record and the algorithm of a renewal that is granted, or its error.
fn renewal(case: &Case, row: &Row, tkey: &Tkey, is_old: bool) -> Result<(Record, u64), u64> {
    if !is_old {
        return Err(BADKEY);
    }
    let Found::One(record) = case.contents.key else {
        return Err(FORMERR.into());
    };
    match tkey.mode {
        BY_DIFFIE_HELLMAN if !case.given.fits => return Err(BADKEY),
        BY_RESOLVER if !case.given.fits => return Err(FORMERR.into()),
        _ => (),
    }
    let mut known = [256, 384, 512].into_iter();
    let algorithm = known
        .find(|&known| is_named(known, tkey.algorithm))
        .ok_or(BADALG)?;
    if !(1..1 << 31).contains(&tkey.expiration.wrapping_sub(tkey.inception)) {
        return Err(BADTIME);
    }
    let lacks_offer = tkey.mode != BY_RESOLVER && case.given.offer.is_empty();
    if row[NEXT_SERIAL] >= SERIAL_LIMIT || lacks_offer {
        return Err(SERVFAIL.into());
    }
    Ok((record, algorithm))
}

/// The reply to a renewal that is granted, or a refusal.
fn granted(
    case: &Case,
    tkey: &Tkey,
    row: &Row,
    suffix: Name,
    key: &Record,
    buffer: &mut Buffer,
    reply: &mut [u8],
) -> Result<usize, u64> {
    let lent = match tkey.mode {
        BY_DIFFIE_HELLMAN if !reading::is_key_record(case.given.record) => return Err(KEYREC),
        BY_DIFFIE_HELLMAN => case.given.record,
        _ => &[],
    };
    let key_data = match tkey.mode {
        BY_RESOLVER => tkey.key_data,
        _ => case.given.offer,
    };
    let asked = case.asked();
    let label = Label::of(row[NEXT_SERIAL]);
    let label = label.octets();
    let owner = names::expand(case.message, key.owner, buffer).octets();
    let echo = &case.message[key.kind..key.end];
    let size = tkey.algorithm.len() + 16 + key_data.len() + tkey.other_data.len();
    let names = label.len() + suffix.octets().len() + owner.len();
    let length = asked.len() + names + 10 + size + lent.len() + echo.len();
    let mut writer = Writer::new(reply, length).ok_or(ROOM)?;
    writer.head(asked, 0, 1 + u8::from(!lent.is_empty()), 1);
    writer.put(label);
    writer.put(suffix.octets());
    writer.tkey_head(size);
    writer.put(tkey.algorithm);
    let times = [case.given.time, case.given.time + row[LIFETIME]].map(|time| time as u32);
    writer.tkey_fields(times, tkey.mode, 0, key_data.len());
    writer.put(key_data);
    writer.sized(tkey.other_data);
    writer.put(lent);
    writer.put(owner);
    writer.put(echo);
    Ok(length)
}

/// The reply to every other TKEY request, or a refusal.
fn answered(
    case: &Case,
    tkey: &Tkey,
    name: Name,
    outcome: Outcome,
    reply: &mut [u8],
) -> Result<usize, u64> {
    let (error, other_data) = match outcome {
        Outcome::Failed(error) => (error, tkey.other_data),
        Outcome::AlreadyAdopted => (0, &[][..]),
        _ => (0, tkey.other_data),
    };
    let asked = case.asked();
    let size = tkey.algorithm.len() + 16 + tkey.key_data.len() + other_data.len();
    let length = asked.len() + name.octets().len() + 10 + size;
    let mut writer = Writer::new(reply, length).ok_or(ROOM)?;
    writer.head(asked, 0, 1, 0);
    writer.put(name.octets());
    writer.tkey_head(size);
    writer.put(tkey.algorithm);
    writer.tkey_fields(
        [tkey.inception, tkey.expiration],
        tkey.mode,
        error as u16,
        tkey.key_data.len(),
    );
    writer.put(tkey.key_data);
    writer.sized(other_data);
    Ok(length)
}

fn change_keys(row: &mut Row, outcome: Outcome, time: u64) {
    match outcome {
        Outcome::Failed(_) | Outcome::AlreadyAdopted => (),
        Outcome::Renewed(_, algorithm) => {
            let times = [time, time + row[FRESH], time + row[LIFETIME]];
            row[ADOPTED + PARTIAL] = row[ADOPTED + PARTIAL].min(time);
            row[WAITING + SERIAL] = row[NEXT_SERIAL];
            row[WAITING + ALGORITHM] = algorithm;
            row[WAITING + INCEPTION..].copy_from_slice(&times);
            row[NEXT_SERIAL] += 1;
            row[KEYS] = 2;
        }
        Outcome::Adopted => {
            row.copy_within(WAITING.., ADOPTED);
            row[KEYS] = 1;
        }
        Outcome::Deleted => row[KEYS] = 0,
        Outcome::WaitingDeleted => row[KEYS] = 1,
    }
}
