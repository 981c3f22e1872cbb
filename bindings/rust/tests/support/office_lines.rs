//! The resolver's lines of a script, through the wrapper.

use super::words::{hex_or_none, number, octets, short, verdict_of};
use luffcringle::resolver::{HeldKey, Refusal, Resolver, Sending, Signer, Wanted};
use luffcringle::Algorithm;
use std::fmt::Write;

const MOST_ROOM: usize = 65_535;

/// The words of an open request, by what word 9 of a state says.
const OPEN: [&str; 5] = ["-", "ordinary", "renewal", "adoption", "deletion"];

/// The state with no key, which a run starts with.
pub fn nobody() -> Resolver {
    Resolver::from_parts(&[0; 12], &[0; 510])
}

/// What a line prints; `None` where it is none of these, or does not read.
pub fn line(resolver: &mut Resolver, words: &[&str]) -> Option<String> {
    let mut request = vec![0; MOST_ROOM];
    Some(match *words {
        ["hold", name, algorithm, inception, expiration] => {
            let (name, algorithm) = (octets(name)?, Algorithm::of(number(algorithm)?)?);
            *resolver = hold(&name, algorithm, time(inception)?, time(expiration)?)?;
            "0\n".to_string()
        }
        ["renewal", id, name, algorithm, inception, expiration, record, room] => {
            let wanted = Wanted {
                name: &octets(name)?,
                algorithm: Algorithm::of(number(algorithm)?)?,
                inception: time(inception)?,
                expiration: time(expiration)?,
                record: &octets(record)?,
            };
            let lent = &mut request[..room_of(room)?];
            let result = resolver.renewal(short(id)?, &wanted, lent);
            printed(result, &request)
        }
        ["adoption", id, room] => {
            let result = resolver.adoption(short(id)?, &mut request[..room_of(room)?]);
            printed(result, &request)
        }
        ["deletion", id, room] => {
            let result = resolver.deletion(short(id)?, &mut request[..room_of(room)?]);
            printed(result, &request)
        }
        ["note", id] => {
            resolver.note(short(id)?);
            "0\n".to_string()
        }
        ["reply", verdict, message] => {
            let message = octets(message)?;
            let before = *resolver;
            let result = resolver.reply(verdict_of(verdict)?, &message);
            let granted = result.map_or(None, |heard| heard.granted);
            check_granted(&before, resolver, granted, &message);
            let number = result.err().map_or(0, Refusal::number);
            let due = result.is_ok_and(|heard| heard.due);
            format!("{number} {}\n", if due { "due" } else { "-" })
        }
        ["keys"] => keys(resolver),
        _ => return None,
    })
}

/// The script lets a key have any name; the call does not.
fn hold(name: &[u8], algorithm: Algorithm, inception: u32, expiration: u32) -> Option<Resolver> {
    let mut words = [0; 12];
    let mut names = [0; 510];
    names
        .get_mut(..name.len().max(255))
        .filter(|_| name.len() <= 255)?[..name.len()]
        .copy_from_slice(name);
    words[..5].copy_from_slice(&[
        1,
        name.len() as u64,
        algorithm.number(),
        inception.into(),
        expiration.into(),
    ]);
    let held = Resolver::from_parts(&words, &names);
    match Resolver::hold(name, algorithm, inception, expiration) {
        Ok(called) => assert_eq!(keys(&called), keys(&held)),
        Err(refusal) => assert_eq!(refusal, Refusal::NoKey),
    }
    Some(held)
}

/// Where a renewal is granted there is an offered key, and its data is the key
/// data of the reply's only TKEY answer, as the second reader reads it; where
/// not, no key is newly offered.
fn check_granted(before: &Resolver, after: &Resolver, granted: Option<&[u8]>, message: &[u8]) {
    match granted {
        Some(data) => {
            assert!(after.offered().is_some());
            let read = second::resolver::answer_data(message);
            assert_eq!(Some(data), read.as_deref());
        }
        None if before.offered().is_none() => assert!(after.offered().is_none()),
        None => assert!(after.offered().is_none() || after.offered() == before.offered()),
    }
}

fn time(word: &str) -> Option<u32> {
    u32::try_from(number(word)?).ok()
}

fn room_of(word: &str) -> Option<usize> {
    Some(number(word)?.min(MOST_ROOM as u64) as usize)
}

fn printed(result: Result<Sending, Refusal>, request: &[u8]) -> String {
    match result {
        Ok(Sending { length, signer }) => {
            let signer = match signer {
                Signer::Adopted => "adopted",
                Signer::Offered => "offered",
            };
            format!("0 {length} {signer} {}\n", hex_or_none(&request[..length]))
        }
        Err(refusal) => format!("{} 0 - -\n", refusal.number()),
    }
}

fn keys(resolver: &Resolver) -> String {
    let words = resolver.parts().0;
    let open = OPEN.get(words[9] as usize).copied().unwrap_or("-");
    let id = match open {
        "-" => "-".to_string(),
        _ => words[10].to_string(),
    };
    let turn = if words[11] == 1 { "offered" } else { "adopted" };
    let mut text = format!("resolver\t{open}\t{id}\t{turn}\n");
    let held = [
        ("adopted", resolver.adopted()),
        ("offered", resolver.offered()),
    ];
    for (which, key) in held {
        let Some(key) = key else { continue };
        print_key(which, &key, &mut text);
    }
    text
}

fn print_key(which: &str, key: &HeldKey, text: &mut String) {
    let name = hex_or_none(&key.name);
    let (algorithm, inception, expiration) = (key.algorithm, key.inception, key.expiration);
    let algorithm = algorithm.number();
    writeln!(
        text,
        "key\t{which}\t{name}\thmac-sha{algorithm}\t{inception}\t{expiration}"
    )
    .expect("a string takes all");
}
