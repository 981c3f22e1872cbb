//! The octets under a signature, and the TSIG put on and taken off. CR 3;
//! RFC 8945 §4.2 and §4.3. The MAC itself is the caller's.

use crate::calls::{ensure, is_sized};
use crate::names;
use crate::reply::{lay, write};
use crate::wire::{Message, Tsig, ANY, TSIG};

/// The first time that 48 bits do not hold.
const SIGNED_LIMIT: u64 = 1 << 48;
/// The most octets of a MAC that is given: the output of hmac-sha512.
const LONGEST_MAC: usize = 64;

/// The refusals of CR 3, `as u8` their numbers. FORMAT has no place here.
#[derive(Clone, Copy, Debug, PartialEq, Eq)]
pub enum Refusal {
    Time = 2,
    Size = 4,
    Format = 6,
    Room = 8,
    Name = 12,
    MacSize = 16,
}

/// RFC 8945 §4.2: what a TSIG says beside its MAC.
#[derive(Clone, Copy, Debug)]
pub struct Fields<'a> {
    /// The key's name, a wire name like the algorithm's.
    pub name: &'a [u8],
    pub algorithm: &'a [u8],
    pub time_signed: u64,
    pub fudge: u16,
    pub original_id: u16,
    pub error: u16,
    pub other_data: &'a [u8],
}

impl Fields<'_> {
    /// RFC 8945 §4.2: 48 bits, once they are known to do.
    fn time_octets(&self) -> [u8; 6] {
        let [_, _, time @ ..] = self.time_signed.to_be_bytes();
        time
    }
}

/// RFC 8945 §4.3.2 and §4.3.3: what a request's MAC is taken over.
pub fn digest_request(octets: &[u8], fields: &Fields, buffer: &mut [u8]) -> Result<usize, Refusal> {
    check(octets, fields, &[])?;
    digest(octets, fields, &[], buffer)
}

/// RFC 8945 §4.3.1: the same for a reply, the request's MAC before it with its
/// length, which is there when the MAC is empty as well.
pub fn digest_reply(
    octets: &[u8],
    fields: &Fields,
    request_mac: &[u8],
    buffer: &mut [u8],
) -> Result<usize, Refusal> {
    check(octets, fields, request_mac)?;
    let front = [&size(request_mac)?, request_mac].concat();
    digest(octets, fields, &front, buffer)
}

/// CR 3: the message with its TSIG, the names as given.
pub fn finish(
    octets: &[u8],
    fields: &Fields,
    mac: &[u8],
    buffer: &mut [u8],
) -> Result<usize, Refusal> {
    check(octets, fields, mac)?;
    let data: [&[u8]; 9] = [
        fields.algorithm,
        &fields.time_octets(),
        &fields.fudge.to_be_bytes(),
        &size(mac)?,
        mac,
        &fields.original_id.to_be_bytes(),
        &fields.error.to_be_bytes(),
        &size(fields.other_data)?,
        fields.other_data,
    ];
    let data = data.concat();
    let pieces: [&[u8]; 9] = [
        &octets[..10],
        // 65,535 records would not fit into the message, so one more counts.
        &(additional_count(octets) + 1).to_be_bytes(),
        &octets[12..],
        fields.name,
        &TSIG.to_be_bytes(),
        &ANY.to_be_bytes(),
        &0u32.to_be_bytes(), // TTL
        &size(&data)?,
        &data,
    ];
    write(&pieces, buffer).ok_or(Refusal::Room)
}

/// CR 3: the well-placed TSIG of a message.
pub fn read_back(octets: &[u8]) -> Result<Tsig<'_>, Refusal> {
    let message = read(octets)?;
    message.tsig().ok().flatten().ok_or(Refusal::Format)
}

/// CR 3: the message as it was before its TSIG. It is the last record, so that
/// no name of another record leads into it. The ID stays.
pub fn remove(octets: &[u8], buffer: &mut [u8]) -> Result<usize, Refusal> {
    let tsig = read_back(octets)?;
    let count = additional_count(octets) - 1;
    let rest = &octets[12..tsig.place];
    write(&[&octets[..10], &count.to_be_bytes(), rest], buffer).ok_or(Refusal::Room)
}

/// RFC 8945 §5.2 and §4.3: what the MAC of a request that came with its TSIG
/// is taken over.
pub fn received_request(octets: &[u8], room: usize) -> Result<Vec<u8>, Refusal> {
    let tsig = read_back(octets)?;
    fitted(received(octets, &tsig, &[]), room)
}

/// RFC 8945 §5.3 and §4.3.1: the same of a reply to a request with this MAC.
pub fn received_reply(mac: &[u8], octets: &[u8], room: usize) -> Result<Vec<u8>, Refusal> {
    let tsig = read_back(octets)?;
    ensure(mac.len() <= LONGEST_MAC, Refusal::MacSize)?;
    fitted(received(octets, &tsig, &[&size(mac)?, mac].concat()), room)
}

/// RFC 8945 §5.3.1: of a later message of a stream, behind the MAC of the last
/// one that had a TSIG and the messages since.
pub fn received_later(
    mac: &[u8],
    before: &[u8],
    octets: &[u8],
    room: usize,
) -> Result<Vec<u8>, Refusal> {
    let tsig = read_back(octets)?;
    ensure(mac.len() <= LONGEST_MAC, Refusal::MacSize)?;
    let rest = unsigned(octets, &tsig);
    let numbers = (tsig.time_signed, tsig.fudge, tsig.original_id);
    fitted(later(mac, before, &rest, numbers)?, room)
}

/// RFC 8945 §5.3.1, for the sender: time signed, fudge and original ID are all
/// that the TSIG has a part in.
pub fn digest_later(
    mac: &[u8],
    before: &[u8],
    octets: &[u8],
    numbers: (u64, u16, u16),
    room: usize,
) -> Result<Vec<u8>, Refusal> {
    let message = read(octets)?;
    ensure(!message.has_tsig(), Refusal::Format)?;
    ensure(numbers.0 < SIGNED_LIMIT, Refusal::Time)?;
    ensure(mac.len() <= LONGEST_MAC, Refusal::MacSize)?;
    fitted(later(mac, before, octets, numbers)?, room)
}

fn later(
    mac: &[u8],
    before: &[u8],
    octets: &[u8],
    (time, fudge, id): (u64, u16, u16),
) -> Result<Vec<u8>, Refusal> {
    let pieces: [&[u8]; 7] = [
        &size(mac)?,
        mac,
        before,
        &id.to_be_bytes(),
        &octets[2..],
        &time.to_be_bytes()[2..],
        &fudge.to_be_bytes(),
    ];
    Ok(pieces.concat())
}

/// The message as it was before its TSIG.
fn unsigned(octets: &[u8], tsig: &Tsig) -> Vec<u8> {
    let count = additional_count(octets) - 1;
    [&octets[..10], &count.to_be_bytes(), &octets[12..tsig.place]].concat()
}

/// RFC 8945 §4.3.2 and §4.3.3, by what the message's own TSIG says.
fn received(octets: &[u8], tsig: &Tsig, front: &[u8]) -> Vec<u8> {
    let pieces: [&[u8]; 12] = [
        front,
        &tsig.original_id.to_be_bytes(),
        &unsigned(octets, tsig)[2..],
        &tsig.name.octets().to_ascii_lowercase(),
        &ANY.to_be_bytes(),
        &0u32.to_be_bytes(), // TTL
        &tsig.algorithm.to_ascii_lowercase(),
        &tsig.time_signed.to_be_bytes()[2..],
        &tsig.fudge.to_be_bytes(),
        &tsig.error.to_be_bytes(),
        &(tsig.other_data.len() as u16).to_be_bytes(),
        tsig.other_data,
    ];
    pieces.concat()
}

fn fitted(octets: Vec<u8>, room: usize) -> Result<Vec<u8>, Refusal> {
    ensure(octets.len() <= room, Refusal::Room)?;
    Ok(octets)
}

/// CR 3: the first two refusals.
fn read(octets: &[u8]) -> Result<Message<'_>, Refusal> {
    ensure(is_sized(octets), Refusal::Size)?;
    Message::read(octets).map_err(|_| Refusal::Format)
}

/// CR 3: the refusals before ROOM, in their order.
fn check(octets: &[u8], fields: &Fields, mac: &[u8]) -> Result<(), Refusal> {
    let message = read(octets)?;
    ensure(!message.has_tsig(), Refusal::Format)?;
    let are_names = names::is_name(fields.name) && names::is_name(fields.algorithm);
    ensure(are_names, Refusal::Name)?;
    ensure(fields.time_signed < SIGNED_LIMIT, Refusal::Time)?;
    ensure(mac.len() <= LONGEST_MAC, Refusal::MacSize)
}

/// RFC 8945 §4.3.2: the message with the original ID in place of its own. Then
/// §4.3.3: the TSIG variables, the names in canonical form (RFC 4034 §6.2).
fn digest(
    octets: &[u8],
    fields: &Fields,
    front: &[u8],
    buffer: &mut [u8],
) -> Result<usize, Refusal> {
    let pieces: [&[u8]; 12] = [
        front,
        &fields.original_id.to_be_bytes(),
        &octets[2..],
        // A length octet is below 64 and so no letter.
        &fields.name.to_ascii_lowercase(),
        &ANY.to_be_bytes(),
        &0u32.to_be_bytes(), // TTL
        &fields.algorithm.to_ascii_lowercase(),
        &fields.time_octets(),
        &fields.fudge.to_be_bytes(),
        &fields.error.to_be_bytes(),
        &size(fields.other_data)?,
        fields.other_data,
    ];
    lay(&pieces, buffer).ok_or(Refusal::Room)
}

/// RFC 1035 §4.1.1: ARCOUNT, of octets that are a message.
fn additional_count(octets: &[u8]) -> u16 {
    u16::from_be_bytes([octets[10], octets[11]])
}

/// A 16-bit size; data too long for it has no room.
fn size(data: &[u8]) -> Result<[u8; 2], Refusal> {
    let size = u16::try_from(data.len()).map_err(|_| Refusal::Room)?;
    Ok(size.to_be_bytes())
}
