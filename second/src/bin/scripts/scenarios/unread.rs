//! Listings with lines that do not read (02, CR 7), or only just do: each is loaded and mended.

use super::{cross, list, two_words, Group};
use crate::listing::{clock_line, Line, Listing, LINE, RULE};
use crate::maker::Maker;
use crate::wire::name_of;

pub fn groups() -> Vec<Group> {
    vec![
        Group {
            name: "listed number",
            weight: 27,
            items: || cross(&NUMBER_FIELDS.map(|(name, _, _)| name), &NUMBERS),
            run: number,
        },
        Group {
            name: "listed line",
            weight: 19,
            items: || cross(&LINES.map(|(name, _)| name), &SHAPES),
            run: shape,
        },
        Group {
            name: "listed suffix",
            weight: 6,
            items: || list(&SUFFIXES),
            run: suffix,
        },
        Group {
            name: "listed key",
            weight: 6,
            items: || cross(&["adopted", "waiting"], &WORDS),
            run: word,
        },
        Group {
            name: "listed text",
            weight: 9,
            items: || list(&TEXTS),
            run: text,
        },
    ]
}

/// The text is loaded, then mended with room for all that is dropped, and the run's own table
/// comes back.
pub fn taken(maker: &mut Maker, listing: &Listing) -> bool {
    let least = listing.dropped().len() as u64;
    let room = maker.rng.within(least, 4096);
    maker.apart(|maker| maker.loads(listing) && maker.mends(room, listing))
}

/// The lines of a listing by how they begin.
const LINES: [(&str, &str); 4] = [
    ("clock", "clock\t"),
    ("pair", "pair\t"),
    ("adopted", "key\tadopted\t"),
    ("waiting", "key\twaiting\t"),
];

/// A listing of few pairs and one of its lines that begin so.
fn some_line(maker: &mut Maker, start: &str) -> (Listing, usize) {
    let (table, _) = maker.few_pairs();
    let listing = Listing::of(&table);
    let at = *maker.rng.pick(&listing.places(start));
    (listing, at)
}

/// A field's line and its place there.
const NUMBER_FIELDS: [(&str, &str, usize); 9] = [
    ("clock", "clock\t", 1),
    ("floor", "clock\t", 2),
    ("next", "pair\t", 2),
    ("L", "pair\t", 3),
    ("P", "pair\t", 4),
    ("serial", "key\t", 2),
    ("inception", "key\t", 4),
    ("partial", "key\t", 5),
    ("expiry", "key\t", 6),
];

const NUMBERS: [&str; 16] = [
    "with a leading zero",
    "with many leading zeros",
    "00",
    "2^64 - 1",
    "2^64",
    "2^64 more",
    "10 times 2^64",
    "of 60 digits",
    "empty",
    "with plus",
    "with minus",
    "a dash",
    "with a hexadecimal digit",
    "with a space before",
    "with a space behind",
    "with a point",
];

/// The only one that reads is out of every bound.
fn number(maker: &mut Maker, item: &str) -> bool {
    let (field, way) = two_words(item);
    let known = NUMBER_FIELDS.iter().find(|(name, _, _)| *name == field);
    let &(_, start, place) = known.expect("a field");
    let (mut listing, at) = some_line(maker, start);
    let was = field_of(&listing, at, place);
    let text = match way {
        "with a leading zero" => format!("0{was}"),
        "with many leading zeros" => format!("{was:0>30}"),
        "00" => "00".to_string(),
        "2^64 - 1" => u64::MAX.to_string(),
        "2^64" => (1u128 << 64).to_string(),
        "2^64 more" => ((1u128 << 64) + was.parse::<u128>().expect("a number")).to_string(),
        "10 times 2^64" => (10u128 << 64).to_string(),
        "of 60 digits" => "9".repeat(60),
        "empty" => String::new(),
        "with plus" => format!("+{was}"),
        "with minus" => format!("-{was}"),
        "a dash" => "-".to_string(),
        "with a hexadecimal digit" => format!("{was}a"),
        "with a space before" => format!(" {was}"),
        "with a space behind" => format!("{was} "),
        _ => format!("{was}.0"),
    };
    let fault = if way == "2^64 - 1" { RULE } else { LINE };
    set_field(&mut listing, at, place, text.as_bytes(), Some(fault));
    taken(maker, &listing)
}

fn fields_of(listing: &Listing, at: usize) -> Vec<Vec<u8>> {
    let line = listing.lines[at].octets.strip_suffix(b"\n");
    let fields = line.expect("a newline").split(|&o| o == b'\t');
    fields.map(<[u8]>::to_vec).collect()
}

fn field_of(listing: &Listing, at: usize, place: usize) -> String {
    String::from_utf8(fields_of(listing, at)[place].clone()).expect("ASCII")
}

fn set_field(listing: &mut Listing, at: usize, place: usize, text: &[u8], fault: Option<u64>) {
    let mut fields = fields_of(listing, at);
    fields[place] = text.to_vec();
    listing.set(at, [&fields.join(&b'\t')[..], b"\n"].concat(), fault);
}

/// Some leave the first field `key`, others start a pair that the keys below belong to.
const SHAPES: [&str; 22] = [
    "carriage return at its end",
    "space for the first tab",
    "space for the last tab",
    "two tabs for the first",
    "two tabs for the last",
    "tab at its end",
    "tab at its start",
    "space at its start",
    "space at its end",
    "field too few",
    "field too many",
    "first field alone",
    "first field and a tab",
    "first field and a carriage return",
    "first word in capitals",
    "first word with a letter more",
    "first word a letter short",
    "empty",
    "NUL at its end",
    "octet 255 at its end",
    "newline for the last tab",
    "without its newline",
];

fn shape(maker: &mut Maker, item: &str) -> bool {
    let (line, way) = two_words(item);
    let known = LINES.iter().find(|(name, _)| *name == line);
    let (mut listing, at) = some_line(maker, known.expect("a line").1);
    match way {
        "without its newline" => join(&mut listing, at),
        "newline for the last tab" => part(&mut listing, at),
        _ => {
            let octets = bent(&fields_of(&listing, at), way);
            listing.set(at, [&octets[..], b"\n"].concat(), Some(LINE));
        }
    }
    taken(maker, &listing)
}

/// The fields as a line without its newline.
fn bent(fields: &[Vec<u8>], way: &str) -> Vec<u8> {
    let line = fields.join(&b'\t');
    let (first, rest) = line.split_at(fields[0].len());
    let last = line.len() - fields[fields.len() - 1].len();
    let at_last = |between: &[u8]| [&line[..last - 1], between, &line[last..]].concat();
    match way {
        "carriage return at its end" => [&line, &b"\r"[..]].concat(),
        "space for the first tab" => [first, b" ", &rest[1..]].concat(),
        "space for the last tab" => at_last(b" "),
        "two tabs for the first" => [first, b"\t", rest].concat(),
        "two tabs for the last" => at_last(b"\t\t"),
        "tab at its end" => [&line, &b"\t"[..]].concat(),
        "tab at its start" => [b"\t", &line[..]].concat(),
        "space at its start" => [b" ", &line[..]].concat(),
        "space at its end" => [&line, &b" "[..]].concat(),
        "field too few" => line[..last - 1].to_vec(),
        "field too many" => [&line, &b"\t1"[..]].concat(),
        "first field alone" => first.to_vec(),
        "first field and a tab" => [first, b"\t"].concat(),
        "first field and a carriage return" => [first, b"\r"].concat(),
        "first word in capitals" => [&first.to_ascii_uppercase(), rest].concat(),
        "first word with a letter more" => [first, b"s", rest].concat(),
        "first word a letter short" => [&first[..first.len() - 1], rest].concat(),
        "NUL at its end" => [&line, &b"\0"[..]].concat(),
        "octet 255 at its end" => [&line, &b"\xff"[..]].concat(),
        _ => Vec::new(),
    }
}

/// The line runs on into the next one, if there is one.
fn join(listing: &mut Listing, at: usize) {
    let mut octets = listing.lines[at].octets.clone();
    octets.pop();
    if at + 1 < listing.lines.len() {
        octets.extend(listing.lines.remove(at + 1).octets);
    }
    listing.set(at, octets, Some(LINE));
}

/// The line's last field stands on a line of its own.
fn part(listing: &mut Listing, at: usize) {
    let mut fields = fields_of(listing, at);
    let last = fields.pop().expect("a field");
    listing.set(at, [&fields.join(&b'\t')[..], b"\n"].concat(), Some(LINE));
    let rest = Line::unread([&last[..], b"\n"].concat());
    listing.lines.insert(at + 1, rest);
}

const SUFFIXES: [&str; 21] = [
    "of 0 octets",
    "of 1 octet",
    "of 1 octet, no root",
    "of 2 octets",
    "of 2 octets, both 0",
    "of 3 octets",
    "of 128 octets",
    "of 129 octets",
    "of 256 octets",
    "of 384 octets",
    "of an odd digit",
    "of one digit",
    "of 128 octets and a digit",
    "in capitals",
    "with one capital",
    "with a bad digit",
    "with a space",
    "with 0x",
    "a dash",
    "two dashes",
    "as a name with dots",
];

/// A suffix of 1 to 128 octets reads; that it is a name of 3 at least is a table rule.
fn suffix(maker: &mut Maker, item: &str) -> bool {
    let (mut listing, at) = some_line(maker, "pair\t");
    let (text, fault) = match item {
        "of 0 octets" => (String::new(), Some(LINE)),
        "of 1 octet" => ("00".to_string(), Some(RULE)),
        "of 1 octet, no root" => ("61".to_string(), Some(RULE)),
        "of 2 octets" => ("0161".to_string(), Some(RULE)),
        "of 2 octets, both 0" => ("0000".to_string(), Some(RULE)),
        "of 3 octets" => ("01ff00".to_string(), None),
        "of 128 octets" => (hex(128), None),
        "of 129 octets" => (hex(129), Some(LINE)),
        "of 256 octets" => (hex(256), Some(LINE)),
        "of 384 octets" => (hex(384), Some(LINE)),
        "of an odd digit" => (hex(9) + "0", Some(LINE)),
        "of one digit" => ("0".to_string(), Some(LINE)),
        "of 128 octets and a digit" => (hex(128) + "0", Some(LINE)),
        "in capitals" => (hex(9).to_uppercase(), Some(LINE)),
        "with one capital" => (hex(9).replacen("6e", "6E", 1), Some(LINE)),
        "with a bad digit" => (hex(9).replacen("6e", "6g", 1), Some(LINE)),
        "with a space" => (hex(9).replacen("6e", "6e ", 1), Some(LINE)),
        "with 0x" => ("0x".to_string() + &hex(9), Some(LINE)),
        "a dash" => ("-".to_string(), Some(LINE)),
        "two dashes" => ("--".to_string(), Some(LINE)),
        _ => ("a.example.".to_string(), Some(LINE)),
    };
    set_field(&mut listing, at, 1, text.as_bytes(), fault);
    taken(maker, &listing)
}

/// A name of so many octets in hexadecimal.
fn hex(length: usize) -> String {
    name_of(length).iter().map(|o| format!("{o:02x}")).collect()
}

const WORDS: [&str; 13] = [
    "state in capitals",
    "state with a letter more",
    "state empty",
    "state another word",
    "algorithm in capitals",
    "algorithm hmac-sha1",
    "algorithm hmac-sha224",
    "algorithm with a letter more",
    "algorithm a letter short",
    "algorithm with a dot",
    "algorithm by number",
    "algorithm empty",
    "algorithm in hexadecimal",
];

fn word(maker: &mut Maker, item: &str) -> bool {
    let (state, way) = two_words(item);
    let (mut listing, at) = some_line(maker, &format!("key\t{state}\t"));
    let (place, text) = match way {
        "state in capitals" => (1, state.to_uppercase()),
        "state with a letter more" => (1, state.to_string() + "s"),
        "state empty" => (1, String::new()),
        "state another word" => (1, "offered".to_string()),
        "algorithm in capitals" => (3, "HMAC-SHA256".to_string()),
        "algorithm hmac-sha1" => (3, "hmac-sha1".to_string()),
        "algorithm hmac-sha224" => (3, "hmac-sha224".to_string()),
        "algorithm with a letter more" => (3, "hmac-sha3840".to_string()),
        "algorithm a letter short" => (3, "hmac-sha51".to_string()),
        "algorithm with a dot" => (3, "hmac-sha512.".to_string()),
        "algorithm by number" => (3, "256".to_string()),
        "algorithm empty" => (3, String::new()),
        _ => (3, "0b686d61632d73686132353600".to_string()),
    };
    set_field(&mut listing, at, place, text.as_bytes(), Some(LINE));
    taken(maker, &listing)
}

const TEXTS: [&str; 32] = [
    "none",
    "one newline",
    "two newlines",
    "one octet",
    "clock line without its newline",
    "clock line of two fields",
    "clock line of two fields above pairs",
    "clock line of four fields",
    "clock line left out",
    "clock line behind an empty line",
    "clock line again below",
    "clock line again below a pair",
    "clock line again above its keys",
    "clock line again at the end",
    "pair line left out",
    "key line first",
    "a key below line 1",
    "two keys below line 1",
    "an unread key below line 1",
    "a key below line 1 and no pair",
    "an empty line between pairs",
    "an empty line above keys",
    "an empty line between keys",
    "an empty line at the end",
    "another word's line above keys",
    "last newline missing",
    "an octet behind the last newline",
    "the word key behind the last newline",
    "a key line behind the last newline",
    "a pair line behind the last newline",
    "carriage return and newline everywhere",
    "octets by lot",
];

fn text(maker: &mut Maker, item: &str) -> bool {
    let (table, number) = maker.few_pairs();
    let mut listing = Listing::of(&table);
    let clock = clock_line(table.clock, table.floor);
    match item {
        "none" => listing.lines.clear(),
        "one newline" => listing.lines = vec![Line::unread("\n")],
        "two newlines" => listing.lines = vec![Line::unread("\n"), Line::unread("\n")],
        "one octet" => listing.lines = vec![Line::unread("c")],
        "clock line without its newline" => {
            listing.lines = vec![Line::unread(clock.trim_end())];
        }
        "clock line of two fields" => listing.lines = vec![Line::unread("clock\t1000\n")],
        "clock line of two fields above pairs" => listing.set(0, "clock\t1000\n", Some(LINE)),
        "clock line of four fields" => listing.set(0, "clock\t1000\t1\t1\n", Some(LINE)),
        "clock line left out" => {
            listing.lines.remove(0);
            listing.lines[0].fault = Some(LINE);
        }
        "clock line behind an empty line" => listing.lines.insert(0, Line::unread("\n")),
        "carriage return and newline everywhere" => {
            for line in &mut listing.lines {
                line.octets.insert(line.octets.len() - 1, b'\r');
                line.fault = Some(LINE);
            }
        }
        "octets by lot" => by_lot(maker, &mut listing),
        _ => put_between(maker, &mut listing, number, item),
    }
    taken(maker, &listing)
}

/// A line more or less, beside this pair or below line 1.
fn put_between(maker: &mut Maker, listing: &mut Listing, number: usize, item: &str) {
    let pair = listing.pair(number);
    let key = listing.lines[pair + 1].clone();
    let (empty, again) = (
        Line::unread("\n"),
        Line::unread(listing.lines[0].octets.clone()),
    );
    match item {
        "clock line again below" => listing.lines.insert(1, again),
        "clock line again below a pair" => listing.lines.insert(pair, again),
        "clock line again above its keys" => listing.lines.insert(pair + 1, again),
        "clock line again at the end" => listing.lines.push(again),
        // Its keys are those of the pair above, which then has too many, or of line 1.
        "pair line left out" => {
            listing.lines.remove(pair);
            if pair > 1 {
                spoil_above(listing, pair);
            }
        }
        "key line first" => listing.lines.insert(0, Line::unread(key.octets)),
        "a key below line 1" => listing.lines.insert(1, key),
        "two keys below line 1" => drop(listing.lines.splice(1..1, [key.clone(), key])),
        "an unread key below line 1" => listing.lines.insert(1, Line::unread("key\t\n")),
        "a key below line 1 and no pair" => {
            listing.lines.truncate(1);
            listing.lines.push(key);
        }
        "an empty line between pairs" => listing.lines.insert(pair, empty),
        "an empty line above keys" => listing.lines.insert(pair + 1, empty),
        "an empty line between keys" => listing.lines.insert(pair + 2, empty),
        "an empty line at the end" => listing.lines.push(empty),
        "another word's line above keys" => {
            let words = ["keys", "note", " ", "\t", "\tkey", "KEY", "key "];
            let line = format!("{}\tadopted\n", maker.rng.pick(&words));
            listing.lines.insert(pair + 1, Line::unread(line));
        }
        _ => put_behind(maker, listing, key, item),
    }
}

/// Octets behind the last newline are one more line, which does not read.
fn put_behind(maker: &mut Maker, listing: &mut Listing, key: Line, item: &str) {
    let octets = match item {
        "last newline missing" => return join(listing, listing.lines.len() - 1),
        "an octet behind the last newline" => vec![*maker.rng.pick(b"\tkp \0\r")],
        "the word key behind the last newline" => b"key".to_vec(),
        "a key line behind the last newline" => key.octets.trim_ascii_end().to_vec(),
        _ => b"pair\t017a00\t1\t600\t400".to_vec(),
    };
    listing.lines.push(Line::unread(octets));
}

/// A pair that got two keys more: they follow other keys, or are an adopted and a waiting one that
/// break a rule where they came to a pair without keys. That pair is given a key too many.
fn spoil_above(listing: &mut Listing, at: usize) {
    let key = listing.lines[at].clone();
    listing.lines.insert(at, key);
    let above = listing
        .places("pair\t")
        .into_iter()
        .filter(|&place| place < at);
    let pair = above.max().expect("a pair above");
    listing.lines[pair].fault = Some(RULE);
}

/// Octets without a newline on a line of their own, which no line of a listing is.
fn by_lot(maker: &mut Maker, listing: &mut Listing) {
    let at = maker.rng.within(1, listing.lines.len() as u64) as usize;
    let mut octets = maker.rng.some_octets(0, 40);
    octets.retain(|&o| o != b'\n');
    octets.push(b'\n');
    listing.lines.insert(at, Line::unread(octets));
}
