//! Lines of `compare` that do not read, and odd ones that do.

use super::comparing::reply_of;
use super::{list, Group};
use crate::maker::{Maker, LINE_LIMIT};

pub fn groups() -> Vec<Group> {
    vec![
        Group {
            name: "compare's bad line",
            weight: 5,
            items: || list(&BAD),
            run: bad,
        },
        Group {
            name: "compare's odd line",
            weight: 2,
            items: || list(&ODD),
            run: odd,
        },
    ]
}

/// The words of the line, from 0.
const LISTING: usize = 1;
const TIME: usize = 2;
const VERDICT: usize = 3;
const OFFER: usize = 4;
const MESSAGE: usize = 5;
const FITS: usize = 6;
const RECORD: usize = 7;
const REPLY: usize = 8;

const BAD: [&str; 29] = [
    "alone",
    "without its listing",
    "without its reply",
    "without verdict and record",
    "with a word more",
    "with a room",
    "in capitals",
    "with a letter more",
    "two spaces",
    "trailing space",
    "carriage return",
    "words in another order",
    "listing empty",
    "listing odd",
    "listing a bad digit",
    "listing as text",
    "time 2^64",
    "time with minus",
    "time a dash",
    "verdict in capitals",
    "verdict a number",
    "keying verdict in capitals",
    "keying verdict a dash",
    "offer odd",
    "message odd",
    "record a bad digit",
    "reply of one digit",
    "reply of two dashes",
    "too long by one",
];

fn words_of(maker: &mut Maker) -> Vec<String> {
    let kind = *maker.rng.pick(&["BADSIG", "renewal 4097", "adoption"]);
    let (judged, reply) = reply_of(maker, kind);
    let line = maker.compare_text(&judged, &reply);
    line.split(' ').map(str::to_string).collect()
}

fn bad(maker: &mut Maker, item: &str) -> bool {
    let mut words = words_of(maker);
    match item {
        "alone" => words.truncate(1),
        "without its listing" => drop(words.remove(LISTING)),
        "without its reply" => words.truncate(REPLY),
        "without verdict and record" => drop(words.drain(FITS..REPLY)),
        "with a word more" => words.push("-".to_string()),
        "with a room" => words.insert(MESSAGE, "65535".to_string()),
        "in capitals" => words[0] = "COMPARE".to_string(),
        "with a letter more" => words[0].push('s'),
        "two spaces" => words.insert(TIME, String::new()),
        "trailing space" => words.push(String::new()),
        "carriage return" => words[REPLY].push('\r'),
        "words in another order" => words.swap(TIME, VERDICT),
        "listing empty" => words[LISTING].clear(),
        "listing odd" => words[LISTING].push('0'),
        "listing a bad digit" => words[LISTING].push_str("0g"),
        "listing as text" => words[LISTING] = "clock\t8\t1".to_string(),
        "time 2^64" => words[TIME] = "18446744073709551616".to_string(),
        "time with minus" => words[TIME].insert(0, '-'),
        "time a dash" => words[TIME] = "-".to_string(),
        "verdict in capitals" => words[VERDICT].make_ascii_uppercase(),
        "verdict a number" => words[VERDICT] = "1".to_string(),
        "keying verdict in capitals" => words[FITS].make_ascii_uppercase(),
        "keying verdict a dash" => words[FITS] = "-".to_string(),
        "offer odd" => words[OFFER].push('0'),
        "message odd" => words[MESSAGE].push('0'),
        "record a bad digit" => words[RECORD] = "0x".to_string(),
        "reply of one digit" => words[REPLY] = "0".to_string(),
        "reply of two dashes" => words[REPLY] = "--".to_string(),
        _ => {
            let length = words.join(" ").len() - words[REPLY].len();
            words[REPLY] = "0".repeat(LINE_LIMIT + 1 - length);
        }
    }
    maker.compare_line(words.join(" ").as_bytes()).is_none()
}

const ODD: [&str; 5] = [
    "capitals of hex",
    "both cases of hex",
    "time with leading zeros",
    "line of 200000",
    "not of the run's table",
];

/// Lines that read.
fn odd(maker: &mut Maker, item: &str) -> bool {
    let mut words = words_of(maker);
    match item {
        "capitals of hex" => words[REPLY].make_ascii_uppercase(),
        "both cases of hex" => {
            let half = words[REPLY].len() / 2;
            words[REPLY][..half].make_ascii_uppercase();
            words[MESSAGE].make_ascii_uppercase();
            words[LISTING].make_ascii_uppercase();
        }
        "time with leading zeros" => words[TIME].insert_str(0, "000000000000000000000000"),
        "line of 200000" => return longest(maker, words),
        _ => return maker.apart(|maker| on_another(maker, &words)),
    }
    maker.compare_line(words.join(" ").as_bytes()) == Some((0, 0))
}

/// As much of a reply as a line holds.
fn longest(maker: &mut Maker, mut words: Vec<String>) -> bool {
    words[REPLY].clear();
    let mut length = LINE_LIMIT - words.join(" ").len();
    if length % 2 == 1 {
        words[TIME].insert(0, '0');
        length -= 1;
    }
    words[REPLY] = "a".repeat(length);
    let line = words.join(" ");
    line.len() == LINE_LIMIT && maker.compare_line(line.as_bytes()) == Some((4, 0))
}

/// The run has another table by then.
fn on_another(maker: &mut Maker, words: &[String]) -> bool {
    let time = maker.table.clock;
    maker.new_table(time);
    maker.compare_line(words.join(" ").as_bytes()) == Some((0, 0))
}
