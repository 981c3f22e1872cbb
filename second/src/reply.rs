//! Replies. 01 "The reply"; RFC 1035 §4.1.1, RFC 2930 §2, 002 §2.4.2, §2.5;
//! CR 10.

use crate::judging::{uses_offer, Outcome};
use crate::names::Name;
use crate::wire::{Message, Tkey, ANY, TKEY};

/// 01 "Judging": earlier steps than 9 answer with RCODE and no TKEY record.
/// `None` is ROOM, here and below.
pub fn write_denial(message: &Message, rcode: u16, reply: &mut [u8]) -> Option<usize> {
    write(&[&header(message, rcode, 0, 0), message.questions], reply)
}

/// 01 "The reply": the TKEY record in the answer section and, for a granted
/// renewal, the KEY record in the additional section. CR 10: the lent record,
/// if any, follows the TKEY.
pub fn write_outcome(
    message: &Message,
    tkey: &Tkey,
    outcome: &Outcome,
    lent: Option<&[u8]>,
    reply: &mut [u8],
) -> Option<usize> {
    // Data too long for RDLENGTH makes the reply too long as well.
    let data_size = tkey.algorithm.len() + 16 + tkey.key_data.len() + tkey.other_data.len();
    let data_size = u16::try_from(data_size).ok()?;
    let (key_owner, key_rest) = match outcome {
        Outcome::Renewed(grant) => (grant.echo.owner(), grant.echo.after_owner),
        _ => (None, &[][..]),
    };
    let answers = 1 + u16::from(lent.is_some());
    let pieces: [&[u8]; 19] = [
        &header(message, 0, answers, u16::from(key_owner.is_some())),
        message.questions,
        tkey.name.octets(),
        &TKEY.to_be_bytes(),
        &ANY.to_be_bytes(),
        &0u32.to_be_bytes(), // TTL
        &data_size.to_be_bytes(),
        tkey.algorithm,
        &tkey.inception.to_be_bytes(),
        &tkey.expiration.to_be_bytes(),
        &tkey.mode.to_be_bytes(),
        &tkey.error.to_be_bytes(),
        &(tkey.key_data.len() as u16).to_be_bytes(),
        tkey.key_data,
        &(tkey.other_data.len() as u16).to_be_bytes(),
        tkey.other_data,
        lent.unwrap_or(&[]),
        key_owner.as_ref().map_or(&[], Name::octets),
        key_rest,
    ];
    write(&pieces, reply)
}

/// 01 "The reply": makes the request's TKEY the reply's. A granted renewal
/// replaces NAME, the times (mod 2^32) and, unless the resolver assigns it, key
/// data; an adoption of the adopted key empties other data (002 §2.4.2, ruling
/// 1); all else stays.
pub fn answer<'a>(tkey: &mut Tkey<'a>, outcome: &Outcome, suffix: &[u8], offer: &'a [u8]) {
    tkey.error = 0;
    match outcome {
        Outcome::Failed(error) => tkey.error = *error,
        Outcome::Renewed(grant) => {
            tkey.name = Name::of_key(grant.waiting.serial, suffix);
            tkey.inception = grant.waiting.inception as u32;
            tkey.expiration = grant.waiting.expiry as u32;
            if uses_offer(grant.scheme) {
                tkey.key_data = offer;
            }
        }
        Outcome::AlreadyAdopted => tkey.other_data = &[],
        Outcome::Adopted | Outcome::Deleted | Outcome::WaitingDeleted => (),
    }
}

/// 01 "The reply": ID, opcode and RD as asked, QR 1, other flags 0, counts as
/// written.
fn header(message: &Message, rcode: u16, answers: u16, additional: u16) -> [u8; 12] {
    let flags = 0x8000 | (message.flags & 0x7900) | rcode;
    let count = message.question_count;
    let words = [message.id, flags, count, answers, 0, additional];
    let mut header = [0; 12];
    for (place, word) in header.chunks_exact_mut(2).zip(words) {
        place.copy_from_slice(&word.to_be_bytes());
    }
    header
}

/// 01, number 8: writes the pieces one after another as a message, or nothing
/// at all.
pub fn write(pieces: &[&[u8]], reply: &mut [u8]) -> Option<usize> {
    let most = reply.len().min(65_535);
    lay(pieces, &mut reply[..most])
}

/// The same for octets that are no message and may be more.
pub fn lay(pieces: &[&[u8]], buffer: &mut [u8]) -> Option<usize> {
    let length = pieces.iter().map(|piece| piece.len()).sum();
    if length > buffer.len() {
        return None;
    }
    let mut rest = buffer;
    for piece in pieces {
        let (place, after) = rest.split_at_mut(piece.len());
        place.copy_from_slice(piece);
        rest = after;
    }
    Some(length)
}
