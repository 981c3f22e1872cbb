//! Lines of `list ROOM`, `load` and `mend` that do not read, and odd ones that do.

use super::{list, Group};
use crate::listing::{Line, Listing, Said};
use crate::maker::{Maker, LINE_LIMIT};

pub fn groups() -> Vec<Group> {
    vec![
        Group {
            name: "listing's bad line",
            weight: 7,
            items: || list(&BAD),
            run: bad,
        },
        Group {
            name: "listing's odd line",
            weight: 2,
            items: || list(&ODD),
            run: odd,
        },
    ]
}

const BAD: [&str; 34] = [
    "list with two rooms",
    "list room 2^64",
    "list room a dash",
    "list room with plus",
    "list room with minus",
    "list room in hexadecimal",
    "list and two spaces",
    "load alone",
    "load and a space",
    "load with two texts",
    "load with a room",
    "load of an odd digit",
    "load of one digit",
    "load of a bad digit",
    "load of two dashes",
    "load of plain text",
    "load in capitals",
    "load with a letter more",
    "load and two spaces",
    "load and a carriage return",
    "load too long by one",
    "mend alone",
    "mend with a room alone",
    "mend with a text alone",
    "mend with two texts",
    "mend room 2^64",
    "mend room a dash",
    "mend room with plus",
    "mend room with minus",
    "mend room empty",
    "mend text before its room",
    "mend of an odd digit",
    "mend of a bad digit",
    "mend in capitals",
];

/// A text that, were it read, would put another table in the run's place.
const TEXT: &str = "636c6f636b093809310a";

fn bad(maker: &mut Maker, item: &str) -> bool {
    let line = match item {
        "list with two rooms" => "list 5000 5000".to_string(),
        "list room 2^64" => "list 18446744073709551616".to_string(),
        "list room a dash" => "list -".to_string(),
        "list room with plus" => "list +9".to_string(),
        "list room with minus" => "list -9".to_string(),
        "list room in hexadecimal" => "list 0xffff".to_string(),
        "list and two spaces" => "list  5000".to_string(),
        "load alone" => "load".to_string(),
        "load and a space" => "load ".to_string(),
        "load with two texts" => format!("load {TEXT} {TEXT}"),
        "load with a room" => format!("load 9 {TEXT}"),
        "load of an odd digit" => format!("load {TEXT}0"),
        "load of one digit" => "load 6".to_string(),
        "load of a bad digit" => format!("load {TEXT}0g"),
        "load of two dashes" => "load --".to_string(),
        "load of plain text" => "load clock\t8\t1".to_string(),
        "load in capitals" => format!("LOAD {TEXT}"),
        "load with a letter more" => format!("loads {TEXT}"),
        "load and two spaces" => format!("load  {TEXT}"),
        "load and a carriage return" => format!("load {TEXT}\r"),
        "load too long by one" => format!("load {TEXT}{}", "0".repeat(LINE_LIMIT - 4 - TEXT.len())),
        "mend alone" => "mend".to_string(),
        "mend with a room alone" => "mend 9".to_string(),
        "mend with a text alone" => format!("mend {TEXT}"),
        "mend with two texts" => format!("mend 9 {TEXT} {TEXT}"),
        "mend room 2^64" => format!("mend 18446744073709551616 {TEXT}"),
        "mend room a dash" => format!("mend - {TEXT}"),
        "mend room with plus" => format!("mend +9 {TEXT}"),
        "mend room with minus" => format!("mend -9 {TEXT}"),
        "mend room empty" => format!("mend  {TEXT}"),
        "mend text before its room" => format!("mend {TEXT} 9"),
        "mend of an odd digit" => format!("mend 9 {TEXT}0"),
        "mend of a bad digit" => format!("mend 9 {TEXT}0g"),
        _ => format!("MEND 9 {TEXT}"),
    };
    maker.listing_line(line.as_bytes()) == Said::Bad
}

const ODD: [&str; 7] = [
    "load in capitals of hex",
    "load in both cases of hex",
    "mend in capitals of hex",
    "mend room with leading zeros",
    "mend line of 200000",
    "list room with leading zeros",
    "list room with very many zeros",
];

/// Lines that read.
fn odd(maker: &mut Maker, item: &str) -> bool {
    let done = Said::Done(Vec::new());
    let upper = TEXT.to_uppercase();
    let line = match item {
        "load in capitals of hex" => format!("load {upper}"),
        "load in both cases of hex" => format!("load {}{}", &upper[..10], &TEXT[10..]),
        "mend in capitals of hex" => format!("mend 0 {upper}"),
        "mend room with leading zeros" => format!("mend 000000000000000000000000 {TEXT}"),
        "mend line of 200000" => return longest(maker),
        "list room with leading zeros" => return lists(maker, "000100000"),
        _ => return lists(maker, &format!("{:0>9000}", 100_000)),
    };
    maker.apart(|maker| maker.listing_line(line.as_bytes()) == done && maker.table.clock == 8)
}

fn lists(maker: &mut Maker, room: &str) -> bool {
    let text = String::from_utf8(Listing::of(&maker.table).text()).expect("ASCII");
    let line = format!("list {room}");
    maker.listing_line(line.as_bytes()) == Said::Listed(text)
}

/// As long a text as a line holds: its second line fills it.
fn longest(maker: &mut Maker) -> bool {
    let first = Line::good("clock\t8\t1\n");
    let length = (LINE_LIMIT - "mend 10 ".len()) / 2 - first.octets.len();
    let second = Line::unread(vec![b'p'; length]);
    let listing = Listing {
        lines: vec![first, second],
    };
    let hex: String = listing.text().iter().map(|o| format!("{o:02x}")).collect();
    let line = format!("mend 10 {hex}");
    let want = Said::Done(vec![(2, 18)]);
    line.len() == LINE_LIMIT && maker.apart(|maker| maker.listing_line(line.as_bytes()) == want)
}
