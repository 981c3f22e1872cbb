//! Script lines that do not read, and odd ones that do.

use super::{cross, list, two_words, Group};
use crate::batch::Answer;
use crate::desk::Want;
use crate::maker::{Maker, Signer};
use crate::resolver::Said;
use crate::signing::Told;
use crate::wire;

pub fn groups() -> Vec<Group> {
    vec![
        Group {
            name: "bad line",
            weight: 45,
            items: || list(&BAD),
            run: bad,
        },
        Group {
            name: "odd line",
            weight: 20,
            items: || list(&ODD),
            run: odd,
        },
        Group {
            name: "resolver's bad line",
            weight: 8,
            items: || list(&RESOLVERS_BAD),
            run: resolvers_bad,
        },
        Group {
            name: "resolver's odd line",
            weight: 2,
            items: || list(&RESOLVERS_ODD),
            run: resolvers_odd,
        },
        Group {
            name: "signing's bad line",
            weight: 13,
            items: signings_bad_items,
            run: signings_bad,
        },
        Group {
            name: "signing's odd line",
            weight: 2,
            items: || list(&SIGNINGS_ODD),
            run: signings_odd,
        },
        Group {
            name: "batch's bad line",
            weight: 8,
            items: batches_bad_items,
            run: batches_bad,
        },
        Group {
            name: "batch's odd line",
            weight: 2,
            items: || list(&BATCHES_ODD),
            run: batches_odd,
        },
    ]
}

const BAD: [&str; 65] = [
    "empty",
    "one space",
    "unknown word",
    "word in capitals",
    "word with a letter more",
    "comment",
    "leading space",
    "trailing space",
    "two spaces",
    "tab for space",
    "carriage return",
    "NUL octet",
    "octet 255",
    "missing word in new",
    "missing word in enrol",
    "missing word in issue",
    "missing word in revoke",
    "missing word in look",
    "missing word in message",
    "missing word in long message",
    "extra word in new",
    "extra word in enrol",
    "extra word in issue",
    "extra word in revoke",
    "extra word in look",
    "extra word in message",
    "extra word in long message",
    "extra word in list",
    "list and a space",
    "list and a carriage return",
    "number 2^64",
    "number 2^64 with leading zeros",
    "number far above 2^64",
    "number with plus",
    "number with minus",
    "number in hexadecimal",
    "number with a point",
    "number with a letter",
    "number empty",
    "number a dash",
    "hex of odd length",
    "hex of one digit",
    "hex with a bad digit",
    "hex with a dash",
    "hex with 0x",
    "hex of two dashes",
    "hex empty",
    "offer odd",
    "suffix odd",
    "verdict in capitals",
    "verdict missing",
    "verdict a number",
    "room 2^64",
    "keying verdict in capitals",
    "keying verdict a number",
    "keying verdict a dash",
    "keying verdict missing",
    "record odd",
    "record of one digit",
    "record a bad digit",
    "record missing",
    "record before its verdict",
    "algorithm by name",
    "pair with minus",
    "words in another order",
];

/// A line that reads, to be spoilt.
fn good(maker: &mut Maker, call: &str) -> String {
    let time = maker.table.clock;
    match call {
        "new" => format!("new {time}"),
        "enrol" => format!("enrol {time} 0171026c6e00 600 400 256"),
        "issue" => format!("issue {time} 1 512"),
        "revoke" => format!("revoke {time} 1"),
        "list" => "list".to_string(),
        _ => {
            let s = maker.live();
            let octets = maker.ordinary(&s).octets();
            let hex = maker.hex(&octets);
            match call {
                "look" => format!("look {hex}"),
                "long message" => {
                    format!(
                        "message {} good 0a0b 512 {hex} bad 0000190001000000000000",
                        s.time
                    )
                }
                _ => format!("message {} good 0a0b 512 {hex}", s.time),
            }
        }
    }
}

fn bad(maker: &mut Maker, item: &str) -> bool {
    let line = bad_line(maker, item);
    maker.line(&line).bad
}

fn bad_line(maker: &mut Maker, item: &str) -> Vec<u8> {
    if let Some(call) = item.strip_prefix("missing word in ") {
        let line = good(maker, call);
        return line[..line.rfind(' ').unwrap_or(0)].into();
    }
    if let Some(call) = item.strip_prefix("extra word in ") {
        return (good(maker, call) + " 0 0").into();
    }
    let words = ["new", "enrol", "issue", "revoke", "look", "message", "list"];
    let call = *maker.rng.pick(&words);
    let line = good(maker, call);
    let mid = line.find(' ').unwrap_or(line.len());
    let (first, rest) = line.split_at(mid);
    match item {
        "empty" => vec![],
        "one space" => b" ".to_vec(),
        "unknown word" => format!("shut{rest}").into(),
        "word in capitals" => format!("{}{rest}", first.to_uppercase()).into(),
        "word with a letter more" => format!("{first}s{rest}").into(),
        "comment" => format!("# {line}").into(),
        "leading space" => format!(" {line}").into(),
        "trailing space" => format!("{line} ").into(),
        "two spaces" => good(maker, "issue").replacen(' ', "  ", 1).into(),
        "carriage return" => format!("{line}\r").into(),
        "NUL octet" => format!("{line}\0").into(),
        "octet 255" => [line.as_bytes(), &[255]].concat(),
        "list and a space" => b"list ".to_vec(),
        "list and a carriage return" => b"list\r".to_vec(),
        "tab for space" => good(maker, "issue").replacen(' ', "\t", 1).into(),
        _ => bad_word(maker, item),
    }
}

fn bad_word(maker: &mut Maker, item: &str) -> Vec<u8> {
    let time = maker.table.clock;
    let number = match item {
        "number 2^64" => "18446744073709551616".to_string(),
        "number 2^64 with leading zeros" => "00018446744073709551616".to_string(),
        "number far above 2^64" => "9".repeat(60),
        "number with plus" => format!("+{time}"),
        "number with minus" => format!("-{time}"),
        "number in hexadecimal" => format!("0x{time}"),
        "number with a point" => format!("{time}.0"),
        "number with a letter" => format!("{time}s"),
        "number empty" => String::new(),
        "number a dash" => "-".to_string(),
        _ => return bad_octets(maker, item),
    };
    let lines = [
        format!("new {number}"),
        format!("revoke {number} 1"),
        format!("issue {time} {number} 256"),
        format!("enrol {time} 0161026c6e00 {number} 400 256"),
        format!("message {time} good - {number} 000000000000000000000000"),
    ];
    maker.rng.pick(&lines).clone().into()
}

fn bad_octets(maker: &mut Maker, item: &str) -> Vec<u8> {
    let time = maker.table.clock;
    let hex = match item {
        "hex of odd length" => "00000000000000000000000",
        "hex of one digit" => "0",
        "hex with a bad digit" => "0000000g0000000000000000",
        "hex with a dash" => "00000000-000000000000000",
        "hex with 0x" => "0x0000000000000000000000",
        "hex of two dashes" => "--",
        "hex empty" => "",
        _ => return bad_message(maker, item),
    };
    let lines = [
        format!("look {hex}"),
        format!("message {time} good 00 512 {hex}"),
        format!("message {time} good {hex} 512 000000000000000000000000"),
        format!("enrol {time} {hex} 600 400 256"),
    ];
    maker.rng.pick(&lines).clone().into()
}

fn bad_message(maker: &mut Maker, item: &str) -> Vec<u8> {
    let time = maker.table.clock;
    let header = "000000000000000000000000";
    let line = match item {
        "offer odd" => format!("message {time} good 0 512 {header}"),
        "suffix odd" => format!("enrol {time} 01610 600 400 256"),
        "verdict in capitals" => {
            let verdict = maker.rng.pick(&["Good", "BAD", "GOOD", "gooD"]);
            format!("message {time} {verdict} - 512 {header}")
        }
        "verdict missing" => format!("message {time}  - 512 {header}"),
        "verdict a number" => format!("message {time} 1 - 512 {header}"),
        "room 2^64" => format!("message {time} bad - 18446744073709551616 {header}"),
        "keying verdict in capitals" => {
            let verdict = maker.rng.pick(&["Good", "BAD", "GOOD", "baD"]);
            format!("message {time} good - 512 {header} {verdict} -")
        }
        "keying verdict a number" => format!("message {time} good - 512 {header} 1 -"),
        "keying verdict a dash" => format!("message {time} good - 512 {header} - -"),
        "keying verdict missing" => format!("message {time} good - 512 {header}  -"),
        "record odd" => format!("message {time} good - 512 {header} good 000"),
        "record of one digit" => format!("message {time} good - 512 {header} good 0"),
        "record a bad digit" => format!("message {time} good - 512 {header} bad 0g"),
        "record missing" => format!("message {time} good - 512 {header} good "),
        "record before its verdict" => format!("message {time} good - 512 {header} 00 good"),
        "algorithm by name" => format!("issue {time} 1 hmac-sha256"),
        "pair with minus" => format!("revoke {time} -1"),
        _ => format!("message good {time} - 512 {header}"),
    };
    line.into()
}

const ODD: [&str; 12] = [
    "capitals in hex",
    "both cases in hex",
    "leading zeros",
    "number 2^64 - 1",
    "number 0",
    "room 2^64 - 1",
    "no offer",
    "no message",
    "no suffix",
    "long line of a message",
    "no record",
    "short line as the long one",
];

/// Lines that read, whatever the call says then.
fn odd(maker: &mut Maker, item: &str) -> bool {
    let time = maker.table.clock;
    let s = maker.live();
    let octets = maker.ordinary(&s).octets();
    let hex = maker.hex(&octets);
    let at = s.time;
    let line = match item {
        "capitals in hex" => format!("look {}", hex.to_uppercase()),
        "both cases in hex" => {
            let half = hex.len() / 2;
            format!(
                "look {}{}",
                hex[..half].to_uppercase(),
                hex[half..].to_lowercase()
            )
        }
        "leading zeros" => format!("message {at:0>40} good 0A 00512 {hex}"),
        "number 2^64 - 1" => format!("revoke {} 1", u64::MAX),
        "number 0" => format!("revoke {time} 0"),
        "room 2^64 - 1" => format!("message {at} good - {} {hex}", u64::MAX),
        "no offer" => format!("message {at} bad - 512 {hex}"),
        "no message" => format!("message {at} good - 512 -"),
        "long line of a message" => format!("message {at} good 0A 512 {hex} good aBcD"),
        "no record" => format!("message {at} good - 512 {hex} good -"),
        "short line as the long one" => return short_as_long(maker, &s),
        _ => format!("enrol {at} - 600 400 256"),
    };
    maker.line(line.as_bytes()).is_call()
}

/// A renewal by Diffie-Hellman, whose KEY then does not fit.
fn short_as_long(maker: &mut Maker, s: &Signer) -> bool {
    let ask = maker.renewal_of(s, wire::DIFFIE_HELLMAN);
    let line = format!(
        "message {} good 0a 512 {}",
        s.time,
        maker.hex(&ask.octets())
    );
    let short = maker.line(line.as_bytes());
    let long = maker.line((line + " bad -").as_bytes());
    Want::Tkey(17).fits(&short) && short == long
}

const RESOLVERS_BAD: [&str; 57] = [
    "leading space",
    "trailing space",
    "two spaces",
    "tab for space",
    "carriage return",
    "word in capitals",
    "missing word in hold",
    "missing word in renewal",
    "missing word in adoption",
    "missing word in deletion",
    "missing word in note",
    "missing word in reply",
    "extra word in hold",
    "extra word in renewal",
    "extra word in adoption",
    "extra word in deletion",
    "extra word in note",
    "extra word in reply",
    "extra word in keys",
    "keys and a space",
    "hold of 256 octets",
    "hold of odd octets",
    "hold of a bad digit",
    "hold, algorithm 257",
    "hold, algorithm 0",
    "hold, algorithm by name",
    "hold, inception 2^32",
    "hold, inception 2^64",
    "hold, expiration 2^32",
    "hold, expiration with minus",
    "renewal, ID 65536",
    "renewal, ID 2^64",
    "renewal, name odd",
    "renewal, name empty",
    "renewal, algorithm 257",
    "renewal, algorithm 255",
    "renewal, algorithm 2^32 + 256",
    "renewal, inception 2^32",
    "renewal, expiration 2^32",
    "renewal, KEY odd",
    "renewal, KEY empty",
    "renewal, room 2^64",
    "renewal, room a dash",
    "adoption, ID 65536",
    "adoption, ID a dash",
    "adoption, ID with plus",
    "adoption, room 2^64",
    "deletion, ID 65536",
    "deletion, ID in hexadecimal",
    "deletion, room empty",
    "note, ID 65536",
    "note, ID 2^64",
    "note, ID empty",
    "reply, verdict in capitals",
    "reply, verdict a number",
    "reply odd",
    "reply empty",
];

/// The words of a resolver's line that reads.
fn resolvers_good(call: &str) -> Vec<&str> {
    match call {
        "hold" => vec!["hold", "016b00", "256", "1", "2"],
        "renewal" => vec![
            "renewal",
            "7",
            "-",
            "384",
            "3",
            "4",
            "0000190001000000000000",
            "512",
        ],
        "adoption" => vec!["adoption", "8", "512"],
        "deletion" => vec!["deletion", "9", "512"],
        "note" => vec!["note", "10"],
        "reply" => vec!["reply", "good", "000a80000000000000000000"],
        _ => vec!["keys"],
    }
}

const RESOLVERS: [&str; 7] = [
    "hold", "renewal", "adoption", "deletion", "note", "reply", "keys",
];

/// Whatever the resolver holds, such a line does nothing to it.
fn resolvers_bad(maker: &mut Maker, item: &str) -> bool {
    let line = resolvers_bad_line(maker, item);
    maker.step(&line) == Said::Bad
}

fn resolvers_bad_line(maker: &mut Maker, item: &str) -> String {
    if let Some(call) = item.strip_prefix("missing word in ") {
        let words = resolvers_good(call);
        return words[..words.len() - 1].join(" ");
    }
    if let Some(call) = item.strip_prefix("extra word in ") {
        return resolvers_good(call).join(" ") + " 0";
    }
    let call = *maker.rng.pick(&RESOLVERS);
    let line = resolvers_good(call).join(" ");
    match item {
        "leading space" => format!(" {line}"),
        "trailing space" => format!("{line} "),
        "two spaces" => "adoption  1 2".to_string(),
        "tab for space" => "note\t1".to_string(),
        "carriage return" => format!("{line}\r"),
        "word in capitals" => line.to_uppercase(),
        "keys and a space" => "keys ".to_string(),
        _ => resolvers_bad_word(item),
    }
}

fn resolvers_bad_word(item: &str) -> String {
    let long = "00".repeat(256);
    let call = item.split([',', ' ']).next().unwrap_or_default();
    let mut words = resolvers_good(call);
    let (place, word) = match item {
        "hold of 256 octets" => (1, long.as_str()),
        "hold of odd octets" => (1, "016b0"),
        "hold of a bad digit" => (1, "0g"),
        "hold, algorithm 257" => (2, "257"),
        "hold, algorithm 0" => (2, "0"),
        "hold, algorithm by name" => (2, "hmac-sha256"),
        "hold, inception 2^32" => (3, "4294967296"),
        "hold, inception 2^64" => (3, "18446744073709551616"),
        "hold, expiration 2^32" => (4, "4294967296"),
        "hold, expiration with minus" => (4, "-1"),
        "renewal, ID 65536" | "adoption, ID 65536" => (1, "65536"),
        "deletion, ID 65536" | "note, ID 65536" => (1, "65536"),
        "renewal, ID 2^64" | "note, ID 2^64" => (1, "18446744073709551616"),
        "renewal, name odd" => (2, "016"),
        "renewal, name empty" => (2, ""),
        "renewal, algorithm 257" => (3, "257"),
        "renewal, algorithm 255" => (3, "255"),
        "renewal, algorithm 2^32 + 256" => (3, "4294967552"),
        "renewal, inception 2^32" => (4, "4294967296"),
        "renewal, expiration 2^32" => (5, "4294967296"),
        "renewal, KEY odd" => (6, "00001"),
        "renewal, KEY empty" => (6, ""),
        "renewal, room 2^64" => (7, "18446744073709551616"),
        "renewal, room a dash" => (7, "-"),
        "adoption, ID a dash" => (1, "-"),
        "adoption, ID with plus" => (1, "+1"),
        "adoption, room 2^64" => (2, "18446744073709551616"),
        "deletion, ID in hexadecimal" => (1, "0x9"),
        "deletion, room empty" => (2, ""),
        "note, ID empty" => (1, ""),
        "reply, verdict in capitals" => (1, "Good"),
        "reply, verdict a number" => (1, "1"),
        "reply odd" => (2, "000a800000000000000000000"),
        _ => (2, ""),
    };
    words[place] = word;
    words.join(" ")
}

const RESOLVERS_ODD: [&str; 8] = [
    "leading zeros",
    "capitals in hex",
    "hold of 255 octets",
    "hold of no octets",
    "hold of times 2^32 - 1",
    "note of ID 65535",
    "reply of no octets",
    "hold and list",
];

/// Lines that read, whatever the call says then.
fn resolvers_odd(maker: &mut Maker, item: &str) -> bool {
    let long = format!("hold {} 512 0 0", "ff".repeat(255));
    match item {
        "leading zeros" => {
            maker.step("hold 016B00 000256 0000000000000000000000007 08") == Said::Number(0)
                && maker.step("note 0000000000000000000000065535") == Said::Number(0)
                && maker.step("deletion 0007 00000000000000000000000011") == Said::unwritten(5)
        }
        "capitals in hex" => maker.step("hold 016BaB 256 1 2") == Said::Number(0),
        "hold of 255 octets" => maker.step(&long) == Said::Number(0),
        "hold of no octets" => maker.step("hold - 384 1 2") == Said::Number(0),
        "hold of times 2^32 - 1" => {
            maker.step("hold 00 256 4294967295 4294967295") == Said::Number(0)
        }
        "note of ID 65535" => maker.notes(65_535),
        "reply of no octets" => maker.step("reply good -") == Said::Read(4, false),
        _ => maker.step("hold 016b00 256 1 2") == Said::Number(0) && maker.line(b"list").listed,
    }
}

const SIGNINGS: [&str; 5] = [
    "digest-request",
    "digest-reply",
    "finish",
    "read-back",
    "remove",
];

/// What their lines have in common, wherever they have it.
const SIGNINGS_BAD: [&str; 7] = [
    "missing word",
    "extra word",
    "leading space",
    "trailing space",
    "carriage return",
    "word in capitals",
    "MESSAGE odd",
];

const BAD_FIELDS: [&str; 23] = [
    "MESSAGE empty",
    "NAME odd",
    "NAME empty",
    "NAME a bad digit",
    "ALGORITHM odd",
    "ALGORITHM 256",
    "ALGORITHM empty",
    "SIGNED 2^64",
    "SIGNED a dash",
    "SIGNED -1",
    "FUDGE 65536",
    "FUDGE 2^64",
    "FUDGE empty",
    "ID 65536",
    "ID 0x9",
    "ERROR 65536",
    "ERROR a dash",
    "OTHER odd",
    "OTHER --",
    "OTHER empty",
    "ROOM 2^64",
    "ROOM a dash",
    "ROOM empty",
];

const BAD_MACS: [&str; 3] = ["MAC odd", "MAC empty", "MAC a bad digit"];

const OTHER_SIGNINGS_BAD: [&str; 7] = [
    "read-back, MESSAGE empty",
    "remove, MESSAGE empty",
    "remove, ROOM 2^64",
    "remove, ROOM a dash",
    "two spaces",
    "tab for space",
    "underscore for hyphen",
];

fn signings_bad_items() -> Vec<String> {
    let mut all = cross(&SIGNINGS, &SIGNINGS_BAD);
    all.extend(cross(&SIGNINGS[..3], &BAD_FIELDS));
    all.extend(cross(&SIGNINGS[1..3], &BAD_MACS));
    all.extend(list(&OTHER_SIGNINGS_BAD));
    all
}

/// The words of a signing line that reads.
fn signings_good(call: &str) -> Vec<&str> {
    let message = "000a00000000000000000000";
    let mut words = vec![call, message];
    match call {
        "read-back" => {}
        "remove" => words.push("512"),
        _ => words.extend(["016b00", "016100", "1000", "300", "10", "0", "-", "512"]),
    }
    if call == "digest-reply" || call == "finish" {
        words.push("0a0b");
    }
    words
}

/// Which word of the line a field is.
fn field_place(call: &str, field: &str) -> usize {
    let fields = [
        "MESSAGE",
        "NAME",
        "ALGORITHM",
        "SIGNED",
        "FUDGE",
        "ID",
        "ERROR",
        "OTHER",
        "ROOM",
        "MAC",
    ];
    match (call, field) {
        ("remove", "ROOM") => 2,
        _ => 1 + fields.iter().position(|f| *f == field).expect("a field"),
    }
}

fn signings_bad(maker: &mut Maker, item: &str) -> bool {
    let line = signings_bad_line(item);
    maker.sign_line(&line) == Told::Bad
}

fn signings_bad_line(item: &str) -> String {
    let good = |call| signings_good(call).join(" ");
    match item {
        "two spaces" => return good("finish").replacen(' ', "  ", 1),
        "tab for space" => return good("remove").replacen(' ', "\t", 1),
        "underscore for hyphen" => return good("read-back").replacen('-', "_", 1),
        _ => {}
    }
    let (call, fault) = two_words(item);
    let mut words = signings_good(call);
    match fault {
        "missing word" => return words[..words.len() - 1].join(" "),
        "extra word" => return words.join(" ") + " 0a",
        "leading space" => return format!(" {}", words.join(" ")),
        "trailing space" => return words.join(" ") + " ",
        "carriage return" => return words.join(" ") + "\r",
        "word in capitals" => return words.join(" ").to_uppercase(),
        _ => {}
    }
    let (field, way) = fault.split_once(' ').expect("a field and what is wrong");
    words[field_place(call, field)] = match way {
        "odd" => "000a00000000000000000000000",
        "empty" => "",
        "a dash" => "-",
        "a bad digit" => "016g00",
        "2^64" => "18446744073709551616",
        // An algorithm is octets here, and 256 is an odd count of digits.
        itself => itself,
    };
    words.join(" ")
}

const SIGNINGS_ODD: [&str; 6] = [
    "leading zeros",
    "capitals in hex",
    "no message",
    "no name",
    "no MAC",
    "numbers at their greatest",
];

/// Lines that read, whatever the call says then.
fn signings_odd(maker: &mut Maker, item: &str) -> bool {
    let mut told = |line: &str| maker.sign_line(line).number();
    let header = "000a00000000000000000000";
    match item {
        "leading zeros" => {
            let numbers = "0001000 0000000000000000000000065535 007 00 - 00512";
            told(&format!("digest-request {header} 016B00 016100 {numbers}")) == Some(0)
                && told(&format!("remove {header} 000012")) == Some(6)
        }
        "capitals in hex" => {
            told(&format!(
                "finish 000A{header} 016B00 016100 1 2 3 4 aBCd 512 Ef"
            )) == Some(6)
                && told(&format!("read-back 0ABc{header}")) == Some(6)
        }
        "no message" => {
            told("read-back -") == Some(4)
                && told("remove - 0") == Some(4)
                && told("finish - 00 00 0 0 0 0 - 0 -") == Some(4)
        }
        "no name" => told(&format!("finish {header} - 00 0 0 0 0 - 512 -")) == Some(12),
        "no MAC" => told(&format!("digest-reply {header} 00 00 0 0 0 0 - 512 -")) == Some(0),
        _ => {
            let numbers = "281474976710655 65535 65535 65535 - 18446744073709551615";
            told(&format!("digest-request {header} 00 00 {numbers}")) == Some(0)
        }
    }
}

const BATCHES_BAD: [&str; 25] = [
    "no words",
    "ROOM alone",
    "1 word left over",
    "2 words left over",
    "3 words left over",
    "4 words left over",
    "5 words left over",
    "6 words left over",
    "7 words left over",
    "8 words left over",
    "items of six words",
    "three items of six words",
    "leading space",
    "trailing space",
    "trailing space and no items",
    "two spaces",
    "two spaces between items",
    "tab for space",
    "carriage return",
    "word in capitals",
    "word with a letter more",
    "the 65th does not read",
    "the 66th does not read",
    "item before the octets",
    "items parted by commas",
];

/// By word of the line; those of an item after OCTETS.
const BATCH_WORDS: [(&str, &[&str]); 11] = [
    ("ROOM", &["2^64", "a dash", "empty", "with plus"]),
    ("OCTETS", &["odd", "empty", "a bad digit", "two dashes"]),
    ("TIME", &["2^64", "a dash", "empty", "with minus"]),
    ("verdict", &["in capitals", "a number", "empty", "a dash"]),
    ("FROM", &["2^64", "a dash", "empty", "with minus"]),
    ("SIZE", &["2^64", "a dash", "empty", "in hexadecimal"]),
    ("OFFERFROM", &["2^64", "a dash", "empty", "with plus"]),
    ("OFFERSIZE", &["2^64", "a dash", "empty", "with a letter"]),
    ("keying", &["in capitals", "a number", "empty", "a dash"]),
    ("RECORDFROM", &["2^64", "a dash", "empty", "with minus"]),
    ("RECORDSIZE", &["2^64", "a dash", "empty", "with a letter"]),
];

fn batches_bad_items() -> Vec<String> {
    let mut all = list(&BATCHES_BAD);
    for (word, ways) in BATCH_WORDS {
        all.extend(ways.iter().map(|way| format!("{word} {way}")));
    }
    all
}

/// An item that reads, at the table's clock.
fn batch_item(maker: &Maker) -> String {
    format!("{} good 0 12 3 4 bad 5 6", maker.table.clock)
}

const BATCH_START: &str = "batch 512 000a00000000000000000000";

/// The time is one at which the line, were it read, would move the clock.
fn batches_bad(maker: &mut Maker, item: &str) -> bool {
    maker.time_for(1);
    let line = match BATCHES_BAD.contains(&item) {
        true => batches_bad_line(maker, item),
        false => batches_bad_word(maker, item),
    };
    maker.batch_line(&line) == Answer::Bad
}

fn batches_bad_line(maker: &mut Maker, item: &str) -> String {
    let six = format!("{} good 0 12 3 4", maker.table.clock + 1);
    let one = format!("{six} bad 5 6");
    let items = maker.rng.within(1, 3) as usize;
    let line = BATCH_START.to_string() + &format!(" {one}").repeat(items);
    match item {
        "no words" => "batch".to_string(),
        "ROOM alone" => "batch 512".to_string(),
        "leading space" => format!(" {line}"),
        "trailing space" => format!("{line} "),
        "trailing space and no items" => format!("{BATCH_START} "),
        "two spaces" => line.replacen(' ', "  ", 1),
        "two spaces between items" => format!("{line}  {one}"),
        "tab for space" => line.replacen(' ', "\t", 1),
        "carriage return" => format!("{line}\r"),
        "word in capitals" => line.to_uppercase(),
        "word with a letter more" => line.replacen("batch", "batches", 1),
        "the 65th does not read" => with_last_bad(&one, 64),
        "the 66th does not read" => with_last_bad(&one, 65),
        "item before the octets" => format!("batch 512 {one} 000a00000000000000000000"),
        "items parted by commas" => format!("{line}, {one}"),
        "items of six words" => {
            let count = *maker.rng.pick(&[1, 2, 4, 5]);
            BATCH_START.to_string() + &format!(" {six}").repeat(count)
        }
        // As many words as two items have.
        "three items of six words" => BATCH_START.to_string() + &format!(" {six}").repeat(3),
        _ => {
            let count = item.split(' ').next().and_then(|word| word.parse().ok());
            let words: Vec<&str> = one.split(' ').collect();
            format!("{line} {}", words[..count.expect("a count")].join(" "))
        }
    }
}

/// That there are too many is said of a line that reads.
fn with_last_bad(item: &str, before: usize) -> String {
    format!(
        "{BATCH_START}{} 0 good 0 0 0 0 bad 0 x",
        format!(" {item}").repeat(before)
    )
}

fn batches_bad_word(maker: &mut Maker, item: &str) -> String {
    let (name, way) = item.split_once(' ').expect("a word and what is wrong");
    let word = match way {
        "2^64" => "18446744073709551616",
        "a dash" => "-",
        "empty" => "",
        "with plus" => "+1",
        "with minus" => "-1",
        "in hexadecimal" => "0x9",
        "with a letter" => "1s",
        "odd" => "000a0",
        "a bad digit" => "0g",
        "two dashes" => "--",
        "in capitals" => "GOOD",
        _ => "1",
    };
    let place = BATCH_WORDS.iter().position(|(word, _)| *word == name);
    let place = 1 + place.expect("a word of the line");
    let later = format!(" {} good 0 12 3 4 good 5 6", maker.table.clock + 1);
    let line = BATCH_START.to_string() + &later.repeat(3);
    let mut words: Vec<&str> = line.split(' ').collect();
    // Any of the three items, for a word of an item.
    let skipped = match place > 2 {
        true => 9 * maker.rng.below(3) as usize,
        false => 0,
    };
    words[place + skipped] = word;
    words.join(" ")
}

const BATCHES_ODD: [&str; 6] = [
    "no octets and no items",
    "octets and no items",
    "no octets and an item",
    "leading zeros",
    "capitals in hex",
    "numbers at their greatest",
];

/// Lines that read, whatever the call says then.
fn batches_odd(maker: &mut Maker, item: &str) -> bool {
    let (clock, one) = (maker.table.clock, batch_item(maker));
    let mut told = |line: &str| maker.batch_line(line);
    let numbers = |answer: Answer| match answer {
        Answer::Done(items) => items.iter().map(|item| item.number).collect(),
        _ => vec![u64::MAX],
    };
    match item {
        "no octets and no items" => told("batch 0 -") == Answer::Done(Vec::new()),
        "octets and no items" => told(BATCH_START) == Answer::Done(Vec::new()),
        "no octets and an item" => {
            numbers(told(&format!("batch 0 - {clock} bad 0 0 0 0 good 0 0"))) == [4]
                && told(&format!("batch 0 - {one}")) == Answer::Refused(17)
        }
        "leading zeros" => {
            let octets = "000a00000000000000000000";
            let zeros =
                format!("{clock:0>40} good 000 0000000000000000000000012 03 00004 bad 00 01");
            numbers(told(&format!("batch 000512 {octets} {zeros} {one}"))) == [0, 0]
        }
        "capitals in hex" => {
            let line = format!("batch 0 ABcd00000000000000000000 {one}");
            numbers(told(&line)) == [0]
        }
        _ => {
            let most = u64::MAX;
            let item = format!("{most} good {most} {most} {most} {most} good {most} {most}");
            let late = format!("batch {most} 00 {most} good 0 0 0 0 good 1 0");
            told(&format!("batch {most} 00 {item}")) == Answer::Refused(17)
                && numbers(told(&late)) == [2]
        }
    }
}
