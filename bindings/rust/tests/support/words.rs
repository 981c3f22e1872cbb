//! The words of a script's line.

use luffcringle::Verdict;
use std::fmt::Write;

pub fn number(word: &str) -> Option<u64> {
    let is_plain = word.bytes().all(|octet| octet.is_ascii_digit());
    is_plain.then(|| word.parse().ok()).flatten()
}

/// A number of 16 bits.
pub fn short(word: &str) -> Option<u16> {
    u16::try_from(number(word)?).ok()
}

pub fn verdict_of(word: &str) -> Option<Verdict> {
    match word {
        "good" => Some(Verdict::Good),
        "bad" => Some(Verdict::Bad),
        _ => None,
    }
}

pub fn octets(word: &str) -> Option<Vec<u8>> {
    if word == "-" {
        return Some(Vec::new());
    }
    let digits: Option<Vec<u8>> = word.chars().map(digit).collect();
    let digits = digits.filter(|digits| !digits.is_empty() && digits.len() % 2 == 0)?;
    Some(digits.chunks(2).map(|two| two[0] << 4 | two[1]).collect())
}

fn digit(digit: char) -> Option<u8> {
    digit.to_digit(16).map(|value| value as u8)
}

/// In hexadecimal, `-` for none.
pub fn hex_or_none(octets: &[u8]) -> String {
    match octets {
        [] => "-".to_string(),
        octets => octets.iter().fold(String::new(), |mut text, octet| {
            write!(text, "{octet:02x}").expect("a string takes all");
            text
        }),
    }
}
