//! The signing calls' lines of a script, through the wrapper; with each, the
//! calls on received messages are held against the second reader too.

use super::words::{hex_or_none, number, octets, short};
use luffcringle::signing::{self, Prior, Refusal, Stamp, Tsig};

const MOST_ROOM: usize = 100_000;

/// What a line prints; `None` where it is none of these, or does not read.
pub fn line(words: &[&str]) -> Option<String> {
    let mut out = vec![0; MOST_ROOM];
    Some(match *words {
        ["digest-request", ref fields @ ..] => {
            let given = Fields::read(fields, false)?;
            let room = &mut out[..given.room];
            let result = signing::digest_request(&given.message, &given.stamp(), room);
            assembled(result, &out)
        }
        ["digest-reply", ref fields @ ..] => {
            let given = Fields::read(fields, true)?;
            check_later(&given);
            let room = &mut out[..given.room];
            let result = signing::digest_reply(&given.mac, &given.message, &given.stamp(), room);
            assembled(result, &out)
        }
        ["finish", ref fields @ ..] => {
            let given = Fields::read(fields, true)?;
            let room = &mut out[..given.room];
            let result = signing::finish(&given.message, &given.stamp(), &given.mac, room);
            if let Ok(length) = result {
                check_same(&given, &out[..length]);
            }
            assembled(result, &out)
        }
        ["read-back", message] => {
            let message = octets(message)?;
            check_received(&message);
            read_back(signing::read(&message))
        }
        ["remove", message, room] => {
            let (message, room) = (octets(message)?, room_of(room)?);
            assembled(signing::remove(&message, &mut out[..room]), &out)
        }
        _ => return None,
    })
}

/// What stands behind the first word of the first three lines.
struct Fields {
    message: Vec<u8>,
    name: Vec<u8>,
    algorithm: Vec<u8>,
    numbers: (u64, u16, u16, u16),
    other: Vec<u8>,
    room: usize,
    mac: Vec<u8>,
}

impl Fields {
    fn read(words: &[&str], has_mac: bool) -> Option<Fields> {
        let [message, name, algorithm, signed, fudge, id, error, other, room, ref mac @ ..] =
            *words
        else {
            return None;
        };
        let mac = match (mac, has_mac) {
            ([mac], true) => octets(mac)?,
            ([], false) => Vec::new(),
            _ => return None,
        };
        Some(Fields {
            message: octets(message)?,
            name: octets(name)?,
            algorithm: octets(algorithm)?,
            numbers: (number(signed)?, short(fudge)?, short(id)?, short(error)?),
            other: octets(other)?,
            room: room_of(room)?,
            mac,
        })
    }

    fn stamp(&self) -> Stamp<'_> {
        let (time_signed, fudge, original_id, error) = self.numbers;
        Stamp {
            name: &self.name,
            algorithm: &self.algorithm,
            time_signed,
            fudge,
            original_id,
            error,
            other: &self.other,
        }
    }
}

/// What the second reader says, as the wrapper does.
fn as_ours(theirs: Result<Vec<u8>, second::signing::Refusal>) -> Result<Vec<u8>, u64> {
    theirs.map_err(|refusal| refusal as u64)
}

fn ours(
    call: impl FnOnce(&mut [u8]) -> Result<usize, Refusal>,
    room: usize,
) -> Result<Vec<u8>, u64> {
    let mut out = vec![0xa5; room];
    let result = call(&mut out).map_err(Refusal::number);
    let length = *result.as_ref().unwrap_or(&0);
    assert!(out[length..].iter().all(|&octet| octet == 0xa5));
    out.truncate(length);
    result.map(|_| out)
}

/// The rooms that are tried of a digest: enough, and one octet too few.
fn rooms(octets: &Result<Vec<u8>, u64>) -> [usize; 2] {
    let length = octets.as_ref().map_or(0, Vec::len);
    [length, length.saturating_sub(1)]
}

/// The digests of a received message, with MACs of some sizes, and octets that
/// came before it in a stream.
fn check_received(message: &[u8]) {
    let request = as_ours(second::signing::received_request(message, MOST_ROOM));
    for room in rooms(&request) {
        let expected = as_ours(second::signing::received_request(message, room));
        let called = ours(|out| signing::received_request(message, out), room);
        assert_eq!(called, expected);
    }
    for mac in [&[7; 0][..], &[7; 32], &[7; 64], &[7; 65]] {
        let expected = as_ours(second::signing::received_reply(mac, message, MOST_ROOM));
        let called = ours(|out| signing::received_reply(mac, message, out), MOST_ROOM);
        assert_eq!(called, expected);
        for before in [&[][..], message] {
            let later = as_ours(second::signing::received_later(
                mac,
                before,
                message,
                MOST_ROOM * 2,
            ));
            for room in rooms(&later) {
                let expected = as_ours(second::signing::received_later(mac, before, message, room));
                let called = ours(
                    |out| signing::received_later(&Prior { mac, before }, message, out),
                    room,
                );
                assert_eq!(called, expected);
            }
        }
    }
}

/// The digest of a later message of a stream, from the sender's side.
fn check_later(given: &Fields) {
    let (mac, before) = (&given.mac, &given.other);
    let (signed, fudge, id, _) = given.numbers;
    let expected =
        second::signing::digest_later(mac, before, &given.message, (signed, fudge, id), given.room);
    let called = ours(
        |out| signing::digest_later(&Prior { mac, before }, &given.message, &given.stamp(), out),
        given.room,
    );
    assert_eq!(called, as_ours(expected));
}

/// The receiver's digests of a finished message are the sender's.
fn check_same(given: &Fields, finished: &[u8]) {
    let stamp = given.stamp();
    let sent = ours(
        |out| signing::digest_request(&given.message, &stamp, out),
        MOST_ROOM,
    );
    let came = ours(|out| signing::received_request(finished, out), MOST_ROOM);
    assert_eq!(came, sent);
    let mac = [9; 48];
    let sent = ours(
        |out| signing::digest_reply(&mac, &given.message, &stamp, out),
        MOST_ROOM,
    );
    let came = ours(
        |out| signing::received_reply(&mac, finished, out),
        MOST_ROOM,
    );
    assert_eq!(came, sent);
    let prior = Prior {
        mac: &mac,
        before: &given.other,
    };
    let sent = ours(
        |out| signing::digest_later(&prior, &given.message, &stamp, out),
        MOST_ROOM,
    );
    let came = ours(
        |out| signing::received_later(&prior, finished, out),
        MOST_ROOM,
    );
    assert_eq!(came, sent);
}

fn room_of(word: &str) -> Option<usize> {
    Some(number(word)?.min(MOST_ROOM as u64) as usize)
}

fn assembled(result: Result<usize, Refusal>, out: &[u8]) -> String {
    match result {
        Ok(length) => format!("0 {length} {}\n", hex_or_none(&out[..length])),
        Err(refusal) => format!("{} 0 -\n", refusal.number()),
    }
}

fn read_back(result: Result<Tsig, Refusal>) -> String {
    match result {
        Ok(tsig) => format!(
            "0 {} {} {} {} {} {} {} {}\n",
            hex_or_none(&tsig.name),
            hex_or_none(&tsig.algorithm),
            tsig.time_signed,
            tsig.fudge,
            hex_or_none(tsig.mac),
            tsig.original_id,
            tsig.error,
            hex_or_none(tsig.other)
        ),
        Err(refusal) => format!("{} - - 0 0 - 0 0 -\n", refusal.number()),
    }
}
