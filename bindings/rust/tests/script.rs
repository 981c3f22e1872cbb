//! Scripts as docs/SCRIPT.md has them, run through the wrapper and compared
//! line by line with the second reader; and what each line leaves of the words.

mod support;

use luffcringle::resolver::Resolver;
use luffcringle::{Algorithm, Answer, Given, Item, Refusal, Span, Table};
use std::path::{Path, PathBuf};
use support::words::{hex_or_none, number, octets, verdict_of};
use support::{changed, enrol_numbered, issue_numbered, row, row_of, table_of, with_junk, Random};
use support::{listing_lines, office_lines, signing_lines};
use support::{CLOCK, COUNT, FLOOR, LIFETIME, MAP, ROW_WORDS};

const LONGEST_LINE: usize = 200_000;
const MOST_ROOM: usize = 65_535;
/// For all replies of a batch.
const MOST_BATCH_ROOM: usize = 100_000;

/// What one call comes to.
type CallResult = Result<Answer, Refusal>;

/// A run through the wrapper. With junk, what has no meaning holds something
/// else before every line.
struct Runner {
    table: Table,
    resolver: Resolver,
    junk: Option<Random>,
    line: u64,
    reply: Vec<u8>,
}

impl Runner {
    fn new(junk: Option<Random>) -> Runner {
        Runner {
            table: Table::new(0).expect("0 is a time"),
            resolver: office_lines::nobody(),
            junk,
            line: 0,
            reply: vec![0; MOST_BATCH_ROOM],
        }
    }

    /// What one line prints.
    fn line(&mut self, line: &[u8]) -> String {
        self.line += 1;
        if let Some(random) = &mut self.junk {
            self.table = with_junk(&self.table, random);
        }
        let before = self.table.clone();
        let words = match std::str::from_utf8(line) {
            Ok(text) if line.len() <= LONGEST_LINE => text.split(' ').collect(),
            _ => Vec::new(),
        };
        if let Some(result) = self.batch(&words) {
            check_batch_kept(self.line, &before, &self.table, &result);
            return printed_batch(result, &self.reply);
        }
        let listing = listing_lines::line(&mut self.table, &words);
        let office = || office_lines::line(&mut self.resolver, &words);
        let other = listing.or_else(office);
        if let Some(printed) = other.or_else(|| signing_lines::line(&words)) {
            return printed;
        }
        let result = self.call(&words);
        check_kept(self.line, line, &before, &self.table, result);
        match result {
            Some(result) => printed(result, &self.reply),
            None => format!("bad line {}\n", self.line),
        }
    }

    /// `None` is a bad line: all words are read before a call is made.
    fn call(&mut self, words: &[&str]) -> Option<CallResult> {
        let table = &mut self.table;
        Some(match *words {
            ["new", time] => table.clear(number(time)?),
            ["enrol", time, suffix, lifetime, fresh, algorithm] => {
                let (time, suffix) = (number(time)?, octets(suffix)?);
                let [lifetime, fresh] = [number(lifetime)?, number(fresh)?];
                let algorithm = number(algorithm)?;
                match Algorithm::of(algorithm) {
                    Some(known) => table.enrol(time, &suffix, lifetime, fresh, known),
                    None => enrol_numbered(table, time, &suffix, [lifetime, fresh], algorithm),
                }
            }
            ["issue", time, pair, algorithm] => {
                let (time, pair, algorithm) = (number(time)?, number(pair)?, number(algorithm)?);
                match Algorithm::of(algorithm) {
                    Some(known) => table.issue(time, pair, known),
                    None => issue_numbered(table, time, pair, algorithm),
                }
            }
            ["revoke", time, pair] => table.revoke(number(time)?, number(pair)?),
            ["close", time, pair] => table.close(number(time)?, number(pair)?),
            ["look", message] => table.look(&octets(message)?),
            ["message", time, verdict, offer, room, message] => {
                return self.message([time, verdict, offer, room, message, "bad", "-"])
            }
            ["message", time, verdict, offer, room, message, fits, record] => {
                return self.message([time, verdict, offer, room, message, fits, record])
            }
            _ => return None,
        })
    }

    /// The long line of a message.
    fn message(&mut self, words: [&str; 7]) -> Option<CallResult> {
        let [time, verdict, offer, room, message, fits, record] = words;
        let given = Given {
            time: number(time)?,
            mac: verdict_of(verdict)?,
            offer: &octets(offer)?,
            keying: verdict_of(fits)?,
            record: &octets(record)?,
        };
        let room = number(room)?.min(MOST_ROOM as u64) as usize;
        let (message, reply) = (octets(message)?, &mut self.reply[..room]);
        Some(self.table.message(&given, &message, reply))
    }

    /// The line of a batch, nine words for each item.
    fn batch(&mut self, words: &[&str]) -> Option<Result<Vec<CallResult>, Refusal>> {
        let ["batch", room, lent, ref items @ ..] = *words else {
            return None;
        };
        let items: Option<Vec<Item>> = items.chunks(9).map(item).collect();
        let room = number(room)?.min(MOST_BATCH_ROOM as u64) as usize;
        let (lent, replies) = (octets(lent)?, &mut self.reply[..room]);
        Some(self.table.batch(&lent, &items?, replies))
    }
}

fn item(words: &[&str]) -> Option<Item> {
    let [time, verdict, from, size, offer_from, offer_size, fits, record_from, record_size] =
        *words
    else {
        return None;
    };
    Some(Item {
        time: number(time)?,
        mac: verdict_of(verdict)?,
        message: span(from, size)?,
        offer: span(offer_from, offer_size)?,
        keying: verdict_of(fits)?,
        record: span(record_from, record_size)?,
    })
}

fn span(from: &str, size: &str) -> Option<Span> {
    let (from, size) = (number(from)?, number(size)?);
    Some(Span { from, size })
}

fn printed(result: CallResult, reply: &[u8]) -> String {
    let number = result.err().map_or(0, Refusal::number);
    let place = result.err().map_or(0, Refusal::place);
    let answer = result.unwrap_or_default();
    let reply = hex_or_none(&reply[..answer.length]);
    let (length, error, skew) = (answer.length, answer.error.number(), answer.skew);
    let (pair, serial) = (answer.pair, answer.serial);
    format!("{number} {length} {error} {skew} {pair} {serial} {reply} {place}\n")
}

/// A reply begins where the one before it ends.
fn printed_batch(result: Result<Vec<CallResult>, Refusal>, replies: &[u8]) -> String {
    let number = result.as_ref().err().map_or(0, |refusal| refusal.number());
    let results = result.unwrap_or_default();
    let mut text = format!("{number} {}\n", results.len());
    let mut rest = replies;
    for result in results {
        text += &printed(result, rest);
        rest = &rest[result.map_or(0, |answer| answer.length)..];
    }
    text
}

/// A line leaves what it may not change: TABLE all, another refusal all but the
/// clock, and a call that is done all but the clock and its own words.
fn check_kept(at: u64, line: &[u8], before: &Table, after: &Table, result: Option<CallResult>) {
    let call = line.split(|&octet| octet == b' ').next();
    // How many places a call that moves pairs may touch.
    let moved = match (call, result) {
        (Some(b"enrol"), Some(Ok(answer))) => answer.pair as usize,
        (Some(b"close"), Some(Ok(_))) => before.parts().0[COUNT] as usize,
        _ => 0,
    };
    let octets = |table: &Table| table.parts().1[128 * moved..].to_vec();
    assert!(octets(before) == octets(after), "line {at}: octets");
    for word in changed(before, after) {
        let is_own = match (call, result) {
            (_, None | Some(Err(Refusal::Table))) | (Some(b"look"), _) => false,
            (_, Some(Err(_))) => word == CLOCK,
            (Some(b"new"), _) => word <= FLOOR,
            (Some(b"enrol" | b"close"), _) => {
                word <= COUNT
                    || (word == FLOOR && call == Some(b"close"))
                    || (MAP..MAP + moved).contains(&word)
                    || (row(0)..row(moved)).contains(&word)
            }
            (_, Some(Ok(answer))) => word == CLOCK || is_of_pair(before, answer.pair, word),
        };
        assert!(is_own, "line {at}: word {word}");
    }
}

/// A batch that is refused whole leaves all; another changes the clock and what
/// its items may change.
fn check_batch_kept(
    at: u64,
    before: &Table,
    after: &Table,
    result: &Result<Vec<CallResult>, Refusal>,
) {
    assert!(before.parts().1 == after.parts().1, "line {at}: octets");
    let items = result.as_deref().unwrap_or_default();
    for word in changed(before, after) {
        let is_own = match word {
            CLOCK => !items.is_empty(),
            _ => {
                let mut done = items.iter().flatten();
                done.any(|answer| is_of_pair(before, answer.pair, word))
            }
        };
        assert!(is_own, "line {at}: word {word}");
    }
}

/// Whether it is one of the fourteen words that a call may change of the pair.
/// A message that no key signed has no pair in its answer; the pair that its
/// TSIG's name leads to keeps its keys, but not words without meaning.
fn is_of_pair(table: &Table, pair: u64, word: usize) -> bool {
    let is_in = |pair| (LIFETIME..ROW_WORDS).contains(&word.wrapping_sub(row_of(table, pair)));
    match pair {
        0 => (1..=table.parts().0[COUNT]).any(is_in),
        pair => is_in(pair),
    }
}

/// Both readers, line by line and table by table, ours with junk and without;
/// answers with what all print.
fn agree(script: &[u8]) -> String {
    let mut ours = Runner::new(None);
    let mut junk = Runner::new(Some(Random(1)));
    let mut theirs = second::script::Runner::new();
    let mut all = String::new();
    let script = script.strip_suffix(b"\n").unwrap_or(script);
    for line in script.split(|&octet| octet == b'\n') {
        let printed = ours.line(line);
        let mut expected = Vec::new();
        theirs.line(line, &mut expected);
        let at = ours.line;
        assert_eq!(printed.as_bytes(), expected, "line {at}");
        assert_eq!(&table_of(&ours.table), theirs.table(), "line {at}");
        assert_eq!(junk.line(line), printed, "line {at}, with junk");
        assert_eq!(junk.table.view(), ours.table.view(), "line {at}, with junk");
        all.push_str(&printed);
    }
    all
}

fn read(path: &Path) -> Vec<u8> {
    std::fs::read(path).unwrap_or_else(|error| panic!("{}: {error}", path.display()))
}

fn example(name: &str) -> Vec<u8> {
    read(
        &Path::new(env!("CARGO_MANIFEST_DIR"))
            .join("../../examples")
            .join(name),
    )
}

fn as_expected(name: &str) {
    let printed = agree(&example(&format!("{name}.script")));
    assert_eq!(printed.as_bytes(), example(&format!("{name}.expected")));
}

#[test]
fn the_worked_day() {
    as_expected("day");
}

#[test]
fn an_exchange_of_both_halves() {
    as_expected("exchange");
}

#[test]
fn the_octets_under_a_signature() {
    as_expected("signing");
}

#[test]
fn listings() {
    as_expected("listing");
}

/// Pairs with distinct suffixes of 128 octets, from the last to the first, and
/// with both keys: as long as a table's lines can be.
fn long_listing(pairs: usize) -> String {
    let (last, lifetime) = ((1 << 48) - 1, (1 << 31) - 1);
    let mut text = format!("clock\t{last}\t{}\n", 1u64 << 32);
    for pair in (0..pairs).rev() {
        let label = [format!("3f{:04x}", 0x6161 + pair), "6f".repeat(61)].concat();
        let suffix = [label, "3e".to_string(), "70".repeat(62), "00".to_string()].concat();
        let next = 1u64 << 32;
        text += &format!("pair\t{suffix}\t{next}\t{lifetime}\t{}\n", lifetime - 1);
        for (state, serial) in [("adopted", next - 2), ("waiting", next - 1)] {
            let inception: u64 = last - lifetime;
            let times = format!("{inception}\t{}\t{last}", last - 1);
            text += &format!("key\t{state}\t{serial}\thmac-sha512\t{times}\n");
        }
    }
    text
}

/// Full tables and one pair more; and as many dropped lines as can be named, and
/// one more.
#[test]
fn long_listings() {
    let hex = |text: &str| hex_or_none(text.as_bytes());
    let (full, over) = (long_listing(64), long_listing(65));
    let (length, less) = (full.len(), full.len() - 1);
    let blank = |lines: usize| hex(&(full.clone() + &"\n".repeat(lines)));
    let script = [
        format!("load {}\nlist\nlist {length}\nlist {less}", hex(&full)),
        format!("mend 9 {}\nlist", hex(&over)),
        format!("new 0\nload {}\nlist", hex(&over)),
        format!("mend 5000 {}\nnew 0", blank(4096)),
        format!("mend 5000 {}\nlist", blank(4097)),
    ];
    let printed = agree(script.join("\n").as_bytes());
    let in_full = printed.matches(&full).count();
    assert_eq!(in_full, 2);
    for line in ["8 0", "0 0 3", "194 15", "1 0", "0 0 4096", "8 0 0"] {
        assert!(printed.lines().any(|printed| printed == line), "{line}");
    }
}

/// One edit of a listing's lines.
fn damage(lines: &mut Vec<String>, random: &mut Random) {
    const FIELDS: [&str; 8] = ["", "0", "1", "07", "4294967296", "key", "pair", "waiting"];
    let (at, other) = (random.below(lines.len()), random.below(lines.len()));
    match random.below(6) {
        0 => drop(lines.remove(at)),
        1 => lines.insert(at, lines[other].clone()),
        2 => lines.swap(at, other),
        3 => {
            let suffix = format!("02{:04x}00", random.below(1 << 16));
            lines.push(format!("pair\t{suffix}\t1\t9\t8"));
        }
        _ => {
            let mut fields: Vec<&str> = lines[at].split('\t').collect();
            let field = random.below(fields.len());
            fields[field] = FIELDS[random.below(FIELDS.len())];
            lines[at] = fields.join("\t");
        }
    }
}

/// Loads and mends of listings with one to three edits, each number and each
/// reason among them.
#[test]
fn damaged_listings() {
    let day = "clock\t1000\t2\n\
        pair\t0161076578616d706c6500\t2\t600\t400\n\
        key\tadopted\t1\thmac-sha256\t1000\t1400\t1600\n\
        pair\t016200\t1\t9\t8\n";
    let texts = [day.to_string(), long_listing(3), long_listing(64)];
    let mut random = Random(11);
    let mut script = Vec::new();
    for round in 0..4000 {
        let which = if round % 40 == 0 { 2 } else { random.below(2) };
        let mut lines: Vec<String> = texts[which].lines().map(str::to_string).collect();
        for _ in 0..=random.below(3) {
            damage(&mut lines, &mut random);
        }
        let newline = if random.below(20) == 0 { "" } else { "\n" };
        let text = hex_or_none((lines.join("\n") + newline).as_bytes());
        script.push(format!("load {text}\nmend {} {text}", random.below(12)));
    }
    let printed = agree(script.join("\n").as_bytes());
    let of_load = ["0 0", "1 0", "18 1", "18 3"];
    let of_mend = ["0 0 0", "0 0 3", "1 0 0", "8 0 0", "18 1 0"];
    let reasons = ["3 18", "3 1", "5 14", "194 15"];
    for line in of_load.iter().chain(&of_mend).chain(&reasons) {
        assert!(printed.lines().any(|printed| printed == *line), "{line}");
    }
}

/// The script that LUFFCRINGLE_SCRIPT names, if it is set.
#[test]
fn the_named_script() {
    let Some(path) = std::env::var_os("LUFFCRINGLE_SCRIPT") else {
        return;
    };
    let script = read(&PathBuf::from(path));
    assert!(!script.is_empty());
    let printed = agree(&script);
    println!("{} lines of results", printed.lines().count());
}

#[test]
fn lines_that_do_not_read() {
    agree(b"new 01\nnew +1\nnew 18446744073709551616\nnew  1\nlook abc\nlook \nlook gg\n\xff\nList\n\nmessage 1 Good - 9 -\nmessage 1 good - 9 - bad\nmessage 1 good - 9 - Bad -\nmessage 1 good - 9 - bad 0\nmessage 1 good - 9 - bad - -\nlook -");
    let longest = [b"look ".as_slice(), &[b'0'; LONGEST_LINE - 4]].concat();
    agree(&longest);
    agree(&longest[..LONGEST_LINE - 1]);
    agree(b"batch 9\nbatch 9 - \nbatch 9 - 5 good 0 0 0 0\nbatch 9 - 5 good 0 0 0 0 bad 0\nbatch 9 - 5 good 0 0 0 0 bad 0 0 5\nbatch 9 - 5 Good 0 0 0 0 bad 0 0\nbatch 9 - 5 good 0 0 0 0 Bad 0 0\nbatch 9 - 5 good 0 0 0 0 bad 0 -\nbatch 9 -");
    agree(
        b"list \nlist -\nlist 1 1\nload\nload 6\nload - -\nmend 1\nmend - -\nmend 1 6\nmend 1 - -",
    );
}
