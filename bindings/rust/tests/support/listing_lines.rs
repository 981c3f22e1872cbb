//! The lines of a script that list the table, load one and mend one, through the
//! wrapper.

use super::words::{number, octets, verdict_of};
use luffcringle::{compare, sys, Dropped, Given, LoadError, Table, LISTING_OCTETS};
use std::fmt::Write;

/// The most lines that can be named.
const MOST_NAMED: usize = 4096;
const FILL: u8 = 0xa5;

/// What a line prints; `None` where it is none of these, or does not read.
pub fn line(table: &mut Table, words: &[&str]) -> Option<String> {
    let before = table.clone();
    let (printed, is_done) = match *words {
        ["list"] => (table.list().expect("a table"), false),
        ["list", room] => (list(table, least(room, LISTING_OCTETS)?), false),
        ["load", text] => {
            let result = table.load(&octets(text)?);
            let (number, line) = result.err().map_or((0, 0), numbers);
            (format!("{number} {line}\n"), result.is_ok())
        }
        ["mend", room, text] => {
            let (room, text) = (least(room, MOST_NAMED)?, octets(text)?);
            let named = mend(table, &text, room);
            (printed(&named), named.is_ok())
        }
        ["compare", ref words @ ..] => (compared(words)?, false),
        _ => return None,
    };
    assert!(is_done || before.parts() == table.parts(), "what is kept");
    Some(printed)
}

/// Another server's reply, by the table of a listing.
fn compared(words: &[&str]) -> Option<String> {
    let [listing, time, verdict, offer, message, fits, record, reply] = *words else {
        return None;
    };
    let given = Given {
        time: number(time)?,
        mac: verdict_of(verdict)?,
        offer: &octets(offer)?,
        keying: verdict_of(fits)?,
        record: &octets(record)?,
    };
    let result = compare(
        &octets(listing)?,
        &given,
        &octets(message)?,
        &octets(reply)?,
    );
    let (number, place) = result
        .err()
        .map_or((0, 0), |error| (error.number(), error.place()));
    Some(format!("{number} {place}\n"))
}

fn least(word: &str, limit: usize) -> Option<usize> {
    Some(number(word)?.min(limit as u64) as usize)
}

fn numbers(error: LoadError) -> (u64, u64) {
    (error.number(), error.line())
}

/// A listing fills the front of its buffer, and a refusal nothing of it.
fn list(table: &Table, room: usize) -> String {
    let mut text = vec![FILL; room];
    let result = table.list_into(&mut text);
    let behind = text.split_off(result.unwrap_or(0));
    assert!(behind.iter().all(|&octet| octet == FILL), "what is kept");
    match result {
        Ok(_) => String::from_utf8(text).expect("plain text"),
        Err(refusal) => format!("{} 0\n", refusal.number()),
    }
}

/// The lines dropped, each with its reason; else the number and the line. The
/// wrapper always lends enough room: with less, a copy shows what the call says.
fn mend(table: &mut Table, text: &[u8], room: usize) -> Result<Vec<[u64; 2]>, (u64, u64)> {
    let (mut words, mut suffixes) = (*table.parts().0, *table.parts().1);
    let (mut named, mut told) = (vec![[u64::MAX; 2]; room], [u64::MAX; 2]);
    // SAFETY: text and named are as long as told, and named is borrowed alone.
    let number = unsafe {
        sys::luffcringle_mend(
            &mut words,
            &mut suffixes,
            text.as_ptr(),
            text.len(),
            named.as_mut_ptr().cast(),
            2 * room,
            &mut told,
        )
    };
    let [line, count] = told;
    let behind = named.split_off(count as usize);
    assert!(behind.iter().all(|two| *two == [u64::MAX; 2]));
    if number == 8 {
        assert!((&words, &suffixes) == table.parts(), "what is kept");
        assert!(table.clone().mend(text).is_ok_and(|all| all.len() > room));
        return Err((number, line));
    }
    let two = |dropped: &Dropped| [dropped.line, dropped.reason.number()];
    let result = table.mend(text).map_err(numbers);
    let result = result.map(|all| all.iter().map(two).collect::<Vec<_>>());
    let lent = match number {
        0 => Ok(named),
        number => Err((number, line)),
    };
    assert_eq!(result, lent);
    assert!((&words, &suffixes) == table.parts(), "what is left");
    result
}

fn printed(named: &Result<Vec<[u64; 2]>, (u64, u64)>) -> String {
    match named {
        Err((number, line)) => format!("{number} {line} 0\n"),
        Ok(named) => {
            let mut text = format!("0 0 {}\n", named.len());
            for [line, reason] in named {
                writeln!(text, "{line} {reason}").expect("a string takes all");
            }
            text
        }
    }
}
