//! Reading a message, and the records that judging looks at.

use crate::names;

pub const KEY: u16 = 25;
pub const TKEY: u16 = 249;
pub const TSIG: u16 = 250;
pub const ANY: u16 = 255;

fn word(octets: &[u8], place: usize) -> u16 {
    u16::from_be_bytes([octets[place], octets[place + 1]])
}

fn long(octets: &[u8], place: usize) -> u32 {
    u32::from(word(octets, place)) << 16 | u32::from(word(octets, place + 2))
}

/// Where a record lies: its owner name, its type, and its end.
#[derive(Clone, Copy)]
pub struct Record {
    pub owner: usize,
    pub kind: usize,
    pub end: usize,
}

impl Record {
    pub fn data<'a>(&self, message: &'a [u8]) -> &'a [u8] {
        &message[self.kind + 10..self.end]
    }
}

/// The records of one type.
#[derive(Clone, Copy)]
pub enum Found {
    None,
    One(Record),
    /// More than one, or one that does not stand where it must.
    Wrong,
}

impl Found {
    fn add(&mut self, record: Record) {
        *self = match self {
            Found::None => Found::One(record),
            _ => Found::Wrong,
        };
    }
}

/// What judging has to know of a message.
pub struct Contents {
    /// The end of the questions.
    pub questions: usize,
    pub is_tkey_request: bool,
    pub tsig: Found,
    pub tkey: Found,
    pub key: Found,
}

/// The contents of a message of at least 12 octets, or the place where it breaks
/// a rule.
pub fn read(message: &[u8]) -> Result<Contents, usize> {
    let missing = message.len();
    let mut place = 12;
    let mut asked = None;
    let count = word(message, 4);
    for _ in 0..count {
        place = names::skip(message, place)?;
        asked = Some(
            message
                .get(place..)
                .and_then(<[u8]>::first_chunk)
                .ok_or(missing)?,
        );
        place += 4;
    }
    let is_tkey_request =
        message[2] & 0x78 == 0 && count == 1 && asked == Some(&[0, TKEY as u8, 0, ANY as u8]);
    let mut contents = Contents {
        questions: place,
        is_tkey_request,
        tsig: Found::None,
        tkey: Found::None,
        key: Found::None,
    };
    for _ in 0..u32::from(word(message, 6)) + u32::from(word(message, 8)) {
        let (kind, record) = record(message, place)?;
        place = record.end;
        match kind {
            TSIG => contents.tsig = Found::Wrong,
            TKEY => contents.tkey = Found::Wrong,
            _ => (),
        }
    }
    for left in (0..word(message, 10)).rev() {
        let (kind, record) = record(message, place)?;
        place = record.end;
        match kind {
            TSIG if left == 0 => contents.tsig.add(record),
            TSIG => contents.tsig = Found::Wrong,
            TKEY => contents.tkey.add(record),
            KEY => contents.key.add(record),
            _ => (),
        }
    }
    match place == missing {
        true => Ok(contents),
        false => Err(place),
    }
}

/// The type of a record and where it lies.
#[inline]
fn record(message: &[u8], owner: usize) -> Result<(u16, Record), usize> {
    let kind = names::skip(message, owner)?;
    let fixed: &[u8; 10] = message
        .get(kind..)
        .and_then(<[u8]>::first_chunk)
        .ok_or(message.len())?;
    let end = kind + 10 + usize::from(word(fixed, 8));
    match end <= message.len() {
        true => Ok((word(fixed, 0), Record { owner, kind, end })),
        false => Err(message.len()),
    }
}

/// What a TSIG says, beside its name.
pub struct Tsig<'a> {
    pub algorithm: &'a [u8],
    pub time_signed: u64,
    pub fudge: u64,
    pub mac_size: usize,
}

/// `None` is ill formed.
pub fn tsig<'a>(message: &'a [u8], record: &Record) -> Option<Tsig<'a>> {
    if message[record.kind + 2..record.kind + 8] != [0, ANY as u8, 0, 0, 0, 0] {
        return None;
    }
    let data = record.data(message);
    let (algorithm, rest) = data.split_at(names::plain_length(data)?);
    let (fixed, rest) = rest.split_first_chunk::<10>()?;
    let mac_size = usize::from(word(fixed, 8));
    let (behind, other) = rest.get(mac_size..)?.split_first_chunk::<6>()?;
    if usize::from(word(behind, 4)) != other.len() {
        return None;
    }
    Some(Tsig {
        algorithm,
        time_signed: u64::from(word(fixed, 0)) << 32 | u64::from(long(fixed, 2)),
        fudge: u64::from(word(fixed, 6)),
        mac_size,
    })
}

/// What a TKEY says, beside its name; its error is not looked at.
pub struct Tkey<'a> {
    pub algorithm: &'a [u8],
    pub inception: u32,
    pub expiration: u32,
    pub mode: u16,
    pub key_data: &'a [u8],
    pub other_data: &'a [u8],
}

/// `None` is ill formed, whatever the other data says.
pub fn tkey<'a>(message: &'a [u8], record: &Record) -> Option<Tkey<'a>> {
    let data = record.data(message);
    let (algorithm, rest) = data.split_at(names::plain_length(data)?);
    let (fixed, rest) = rest.split_first_chunk::<14>()?;
    let (key_data, rest) = rest.split_at_checked(usize::from(word(fixed, 12)))?;
    let (size, other_data) = rest.split_first_chunk::<2>()?;
    if usize::from(word(size, 0)) != other_data.len() {
        return None;
    }
    Some(Tkey {
        algorithm,
        inception: long(fixed, 0),
        expiration: long(fixed, 4),
        mode: word(fixed, 8),
        key_data,
        other_data,
    })
}

/// OldName and OldAlgorithm, and nothing more.
pub fn old_key(other_data: &[u8]) -> Option<(&[u8], &[u8])> {
    let (name, rest) = other_data.split_at(names::plain_length(other_data)?);
    (names::plain_length(rest) == Some(rest.len())).then_some((name, rest))
}

/// Whether the octets are exactly one KEY record, its owner name not compressed.
pub fn is_key_record(octets: &[u8]) -> bool {
    let fixed =
        names::plain_length(octets).and_then(|length| octets[length..].split_first_chunk::<10>());
    fixed.is_some_and(|(fixed, data)| {
        word(fixed, 0) == KEY && usize::from(word(fixed, 8)) == data.len()
    })
}
