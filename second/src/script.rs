//! The text of scripts, results and the listing. formats/SCRIPT.md and the
//! rulings on the script text; the listing is CR 7's, without CR 9's floor.

use std::io::{self, BufRead, Read, Write};

use crate::batch::{self, Item, Span};
use crate::calls::{self, Done, Refusal};
use crate::compare::{self, compare};
use crate::judging::Given;
use crate::listing::{self, Dropped};
use crate::resolver::{self, Asked, Resolver, Which, Wish, Written};
use crate::signing::{self, Fields};
use crate::table::{Algorithm, Key, Table};
use crate::wire::Tsig;

/// The most octets of a line, its newline not counted.
pub const LONGEST_LINE: usize = 200_000;
/// The most room that a reply or a request can use.
const MOST_ROOM: usize = 65_535;
/// The most room that is lent for the octets of a signing line, and for all
/// replies of a batch.
const MOST_LONG_ROOM: usize = 100_000;
/// The most octets of a name that the resolver is given to hold.
const LONGEST_HELD: usize = 255;
/// The most dropped lines that `mend` can name.
const MOST_NAMED: usize = 4_096;

/// What one call comes to.
type CallResult = Result<Done, Refusal>;

/// Runs a script line by line, from the empty table with clock 0 and a resolver
/// without a key.
#[derive(Clone, Debug)]
pub struct Runner {
    table: Table,
    resolver: Resolver,
    line: u64,
    /// What is lent for replies, requests and the octets of signing.
    buffer: Vec<u8>,
}

impl Default for Runner {
    fn default() -> Runner {
        Runner::new()
    }
}

impl Runner {
    /// SCRIPT.md: the start of a run.
    pub fn new() -> Runner {
        Runner {
            table: Table::empty(0),
            resolver: Resolver::default(),
            line: 0,
            buffer: vec![0; MOST_LONG_ROOM],
        }
    }

    /// The run's table as it stands.
    pub fn table(&self) -> &Table {
        &self.table
    }

    /// The run's resolver as it stands.
    pub fn resolver(&self) -> &Resolver {
        &self.resolver
    }

    /// One line without its newline; its output is appended to `out`.
    pub fn line(&mut self, line: &[u8], out: &mut Vec<u8>) {
        if line.len() > LONGEST_LINE {
            return self.too_long(out);
        }
        self.line += 1;
        let words: Vec<&[u8]> = line.split(|&octet| octet == b' ').collect();
        if line == b"list" {
            print_listing(&self.table, out);
        } else if line == b"keys" {
            print_resolver(&self.resolver, out);
        } else if let Some(result) = self.call(&words) {
            print_result(result, &self.buffer, out);
        } else if let Some(result) = self.batch(&words) {
            print_batch(result, &self.buffer, out);
        } else if let Some(result) = self.write_request(&words) {
            print_written(result, &self.buffer, out);
        } else if let Some(result) = self.sign(&words) {
            print_signing(result, &self.buffer, out);
        } else if self.listing(&words, out).is_some() {
            // It is done and printed.
        } else if let Some(result) = compare_line(&words) {
            print_compared(result, out);
        } else if let Some(message) = read_back_line(&words) {
            print_tsig(signing::read_back(&message), out);
        } else if self.tell_resolver(&words, out).is_none() {
            print_bad_line(self.line, out);
        }
    }

    /// A line of over 200,000 octets, whatever it says.
    pub fn too_long(&mut self, out: &mut Vec<u8>) {
        self.line += 1;
        print_bad_line(self.line, out);
    }

    /// CR 7: `list ROOM`, `load` and `mend`, done and printed. `None` is another
    /// line, or a bad one.
    fn listing(&mut self, words: &[&[u8]], out: &mut Vec<u8>) -> Option<()> {
        match *words {
            [b"list", room] => match listing::list(&self.table, size(room)?) {
                Ok(text) => out.extend(text),
                Err(refusal) => print(out, format_args!("{} 0\n", refusal.number())),
            },
            [b"load", text] => {
                let result = listing::load(&octets(text)?);
                let refusal = result.as_ref().err();
                let (number, line) = refusal.map_or((0, 0), |r| (r.number(), r.line()));
                print(out, format_args!("{number} {line}\n"));
                result.into_iter().for_each(|table| self.table = table);
            }
            [b"mend", room, text] => {
                let room = size(room)?.min(MOST_NAMED);
                match listing::mend(&octets(text)?, room) {
                    Ok((table, dropped)) => {
                        self.table = table;
                        print(out, format_args!("0 0 {}\n", dropped.len()));
                        for Dropped { line, reason } in dropped {
                            print(out, format_args!("{line} {reason}\n"));
                        }
                    }
                    Err(refusal) => {
                        let (number, line) = (refusal.number(), refusal.line());
                        print(out, format_args!("{number} {line} 0\n"));
                    }
                }
            }
            _ => return None,
        }
        Some(())
    }

    /// SCRIPT.md: one call, its words parted by exactly one space. `None` is a
    /// bad line: all words are read before a call is made.
    fn call(&mut self, words: &[&[u8]]) -> Option<CallResult> {
        let table = &mut self.table;
        Some(match *words {
            [b"new", time] => calls::new(number(time)?).map(|new| {
                *table = new;
                Done::default()
            }),
            [b"enrol", time, suffix, lifetime, fresh, algorithm] => calls::enrol(
                table,
                number(time)?,
                &octets(suffix)?,
                number(lifetime)?,
                number(fresh)?,
                number(algorithm)?,
            ),
            [b"issue", time, pair, algorithm] => {
                calls::issue(table, number(time)?, number(pair)?, number(algorithm)?)
            }
            [b"revoke", time, pair] => calls::revoke(table, number(time)?, number(pair)?),
            [b"close", time, pair] => calls::close(table, number(time)?, number(pair)?),
            [b"look", message] => calls::look(table, &octets(message)?),
            [b"message", ref words @ ..] => return self.message(words),
            _ => return None,
        })
    }

    /// SCRIPT.md, the message's line. The short one ends as with `bad -`
    /// (CR 10).
    fn message(&mut self, words: &[&[u8]]) -> Option<CallResult> {
        let (words, [fits, record]) = match words.split_last_chunk() {
            Some((short, last)) if short.len() == 5 => (short, *last),
            _ => (words, [&b"bad"[..], b"-"]),
        };
        let &[time, verdict, offer, room, message] = words else {
            return None;
        };
        let given = Given {
            time: number(time)?,
            good: is_good(verdict)?,
            offer: &octets(offer)?,
            fits: is_good(fits)?,
            record: &octets(record)?,
        };
        let reply = lent(&mut self.buffer, room, MOST_ROOM)?;
        Some(calls::message(
            &mut self.table,
            &given,
            &octets(message)?,
            reply,
        ))
    }

    /// SCRIPT.md, the batch's line: nine words for each item (CR 10).
    fn batch(&mut self, words: &[&[u8]]) -> Option<Result<Vec<CallResult>, Refusal>> {
        let [b"batch", room, lent_octets, ref items @ ..] = *words else {
            return None;
        };
        let items: Option<Vec<Item>> = items.chunks(9).map(item).collect();
        let (items, lent_octets) = (items?, octets(lent_octets)?);
        let replies = lent(&mut self.buffer, room, MOST_LONG_ROOM)?;
        Some(batch::batch(&mut self.table, &lent_octets, &items, replies))
    }

    /// SCRIPT.md, the resolver's lines: the calls that write a request.
    fn write_request(&mut self, words: &[&[u8]]) -> Option<Result<Written, resolver::Refusal>> {
        let (resolver, buffer) = (&mut self.resolver, &mut self.buffer);
        Some(match *words {
            [b"renewal", id, name, algorithm, inception, expiration, key_record, room] => {
                let wish = Wish {
                    name: match name {
                        b"-" => &[0],
                        name => &octets(name)?,
                    },
                    algorithm: Algorithm::from_number(number(algorithm)?)?,
                    inception: u32::try_from(number(inception)?).ok()?,
                    expiration: u32::try_from(number(expiration)?).ok()?,
                    key_record: &octets(key_record)?,
                };
                resolver.renewal(short(id)?, &wish, lent(buffer, room, MOST_ROOM)?)
            }
            [b"adoption", id, room] => {
                resolver.adoption(short(id)?, lent(buffer, room, MOST_ROOM)?)
            }
            [b"deletion", id, room] => {
                resolver.deletion(short(id)?, lent(buffer, room, MOST_ROOM)?)
            }
            _ => return None,
        })
    }

    /// SCRIPT.md, the signing calls' lines: those that write octets.
    fn sign(&mut self, words: &[&[u8]]) -> Option<Result<usize, signing::Refusal>> {
        let buffer = &mut self.buffer;
        let (call, message, fields, room, mac) = match *words {
            [b"remove", message, room] => {
                let message = octets(message)?;
                let buffer = lent(buffer, room, MOST_LONG_ROOM)?;
                return Some(signing::remove(&message, buffer));
            }
            [call @ b"digest-request", message, ref fields @ .., room] => {
                (call, message, fields, room, &b"-"[..])
            }
            [call @ (b"digest-reply" | b"finish"), message, ref fields @ .., room, mac] => {
                (call, message, fields, room, mac)
            }
            _ => return None,
        };
        let &[name, algorithm, signed, fudge, id, error, other] = fields else {
            return None;
        };
        let fields = Fields {
            name: &octets(name)?,
            algorithm: &octets(algorithm)?,
            time_signed: number(signed)?,
            fudge: short(fudge)?,
            original_id: short(id)?,
            error: short(error)?,
            other_data: &octets(other)?,
        };
        let (message, mac) = (octets(message)?, octets(mac)?);
        let buffer = lent(buffer, room, MOST_LONG_ROOM)?;
        Some(match call {
            b"digest-request" => signing::digest_request(&message, &fields, buffer),
            b"digest-reply" => signing::digest_reply(&message, &fields, &mac, buffer),
            _ => signing::finish(&message, &fields, &mac, buffer),
        })
    }

    /// SCRIPT.md, the resolver's lines: those that print no request.
    fn tell_resolver(&mut self, words: &[&[u8]], out: &mut Vec<u8>) -> Option<()> {
        match *words {
            [b"hold", name, algorithm, inception, expiration] => {
                let adopted = resolver::Key {
                    name: octets(name).filter(|name| name.len() <= LONGEST_HELD)?,
                    algorithm: Algorithm::from_number(number(algorithm)?)?,
                    inception: u32::try_from(number(inception)?).ok()?,
                    expiration: u32::try_from(number(expiration)?).ok()?,
                };
                self.resolver = Resolver::holding(adopted);
                print(out, format_args!("0\n"));
            }
            [b"note", id] => {
                self.resolver.note(short(id)?);
                print(out, format_args!("0\n"));
            }
            [b"reply", verdict, message] => {
                let result = self.resolver.reply(is_good(verdict)?, &octets(message)?);
                let number = result.err().map_or(0, |refusal| refusal as u8);
                let due = if result == Ok(true) { "due" } else { "-" };
                print(out, format_args!("{number} {due}\n"));
            }
            _ => return None,
        }
        Some(())
    }
}

/// SECOND.md: runs a whole script. A line is what stands before a newline, or
/// the non-empty rest at the end; an over-long one is skipped to its newline.
pub fn run(input: &mut impl BufRead, output: &mut impl Write) -> io::Result<()> {
    let mut runner = Runner::new();
    let mut line = Vec::new();
    let mut out = Vec::new();
    loop {
        line.clear();
        let mut start = input.by_ref().take(LONGEST_LINE as u64 + 1);
        if start.read_until(b'\n', &mut line)? == 0 {
            return output.flush();
        }
        if line.last() == Some(&b'\n') {
            line.pop();
            runner.line(&line, &mut out);
        } else if line.len() > LONGEST_LINE {
            input.skip_until(b'\n')?;
            runner.too_long(&mut out);
        } else {
            runner.line(&line, &mut out);
        }
        output.write_all(&out)?;
        out.clear();
    }
}

/// SECOND.md: one or more decimal digits with a value below 2^64.
fn number(word: &[u8]) -> Option<u64> {
    let add = |value: u64, digit: &u8| match digit {
        b'0'..=b'9' => value.checked_mul(10)?.checked_add(u64::from(digit - b'0')),
        _ => None,
    };
    word.first()?;
    word.iter().try_fold(0, add)
}

/// A room that may be larger than any.
fn size(word: &[u8]) -> Option<usize> {
    Some(usize::try_from(number(word)?).unwrap_or(usize::MAX))
}

/// SCRIPT.md: a message ID, a fudge and an error are below 65,536.
fn short(word: &[u8]) -> Option<u16> {
    u16::try_from(number(word)?).ok()
}

/// SCRIPT.md: room above the most that is lent does as the most does.
fn lent<'a>(buffer: &'a mut [u8], room: &[u8], most: usize) -> Option<&'a mut [u8]> {
    let room = usize::try_from(number(room)?).unwrap_or(most);
    Some(&mut buffer[..room.min(most)])
}

/// SCRIPT.md: the message of a `read-back` line.
fn read_back_line(words: &[&[u8]]) -> Option<Vec<u8>> {
    match *words {
        [b"read-back", message] => octets(message),
        _ => None,
    }
}

/// CR 12: a `compare` line, done. The run's table has no part in it.
fn compare_line(words: &[&[u8]]) -> Option<Result<(), compare::Refusal>> {
    let [b"compare", listing, time, verdict, offer, message, fits, record, reply] = *words else {
        return None;
    };
    let given = Given {
        time: number(time)?,
        good: is_good(verdict)?,
        offer: &octets(offer)?,
        fits: is_good(fits)?,
        record: &octets(record)?,
    };
    let (listing, message, reply) = (octets(listing)?, octets(message)?, octets(reply)?);
    Some(compare(&listing, &given, &message, &reply))
}

/// SCRIPT.md: an item of a batch, which has exactly nine words.
fn item(words: &[&[u8]]) -> Option<Item> {
    let [time, verdict, from, size, offer_from, offer_size, fits, record_from, record_size] =
        *words
    else {
        return None;
    };
    Some(Item {
        time: number(time)?,
        good: is_good(verdict)?,
        message: span(from, size)?,
        offer: span(offer_from, offer_size)?,
        fits: is_good(fits)?,
        record: span(record_from, record_size)?,
    })
}

/// SCRIPT.md: first place and size.
fn span(from: &[u8], size: &[u8]) -> Option<Span> {
    let (from, size) = (number(from)?, number(size)?);
    Some(Span { from, size })
}

/// SECOND.md: a verdict, in lower case only.
fn is_good(word: &[u8]) -> Option<bool> {
    match word {
        b"good" => Some(true),
        b"bad" => Some(false),
        _ => None,
    }
}

/// SECOND.md: an even, non-zero count of hexadecimal digits, or `-` alone.
fn octets(word: &[u8]) -> Option<Vec<u8>> {
    if word == b"-" {
        return Some(Vec::new());
    }
    let pairs = word.chunks_exact(2);
    if word.is_empty() || !pairs.remainder().is_empty() {
        return None;
    }
    pairs
        .map(|pair| Some((digit(pair[0])? << 4) | digit(pair[1])?))
        .collect()
}

/// A hexadecimal digit of either case.
fn digit(octet: u8) -> Option<u8> {
    match octet {
        b'0'..=b'9' => Some(octet - b'0'),
        b'a'..=b'f' => Some(octet - b'a' + 10),
        b'A'..=b'F' => Some(octet - b'A' + 10),
        _ => None,
    }
}

/// Appends text; a vector takes it all.
fn print(out: &mut Vec<u8>, text: std::fmt::Arguments) {
    out.write_fmt(text).expect("a vector takes all octets");
}

/// Octets in lower-case hexadecimal.
fn print_hex(octets: &[u8], out: &mut Vec<u8>) {
    const DIGITS: &[u8; 16] = b"0123456789abcdef";
    for octet in octets {
        out.push(DIGITS[usize::from(octet >> 4)]);
        out.push(DIGITS[usize::from(octet & 15)]);
    }
}

/// SCRIPT.md, a line that does not read.
fn print_bad_line(line: u64, out: &mut Vec<u8>) {
    print(out, format_args!("bad line {line}\n"));
}

/// SCRIPT.md: NUMBER LENGTH TSIGERROR SKEW PAIR SERIAL REPLY PLACE. A refusal
/// returns its number, FORMAT its place (CR 6), all else 0.
fn print_result(result: CallResult, reply: &[u8], out: &mut Vec<u8>) {
    let number = result.err().map_or(0, Refusal::number);
    let place = result.err().map_or(0, Refusal::place);
    let done = result.unwrap_or_default();
    let (length, error, skew) = (done.length, done.error, done.skew);
    let (pair, serial) = (done.pair, done.serial);
    let text = format_args!("{number} {length} {error} {skew} {pair} {serial} ");
    print(out, text);
    print_octets(&reply[..length], out);
    print(out, format_args!(" {place}\n"));
}

/// SCRIPT.md: NUMBER COUNT, then the items' results. A reply begins where the
/// one before it ends.
fn print_batch(result: Result<Vec<CallResult>, Refusal>, replies: &[u8], out: &mut Vec<u8>) {
    let number = result.as_ref().err().map_or(0, |refusal| refusal.number());
    let results = result.unwrap_or_default();
    print(out, format_args!("{number} {}\n", results.len()));
    let mut rest = replies;
    for result in results {
        print_result(result, rest, out);
        rest = &rest[result.map_or(0, |done| done.length)..];
    }
}

/// CR 12: NUMBER PLACE.
fn print_compared(result: Result<(), compare::Refusal>, out: &mut Vec<u8>) {
    let number = result.err().map_or(0, compare::Refusal::number);
    let place = result.err().map_or(0, compare::Refusal::place);
    print(out, format_args!("{number} {place}\n"));
}

/// SCRIPT.md: octets in a result, `-` for none.
fn print_octets(octets: &[u8], out: &mut Vec<u8>) {
    match octets {
        [] => out.push(b'-'),
        octets => print_hex(octets, out),
    }
}

/// SCRIPT.md: NUMBER LENGTH SIGNER OCTETS. A refusal has all else 0 or `-`.
fn print_written(result: Result<Written, resolver::Refusal>, buffer: &[u8], out: &mut Vec<u8>) {
    match result {
        Ok(Written { length, signer }) => {
            print(out, format_args!("0 {length} {} ", which(signer)));
            print_octets(&buffer[..length], out);
            out.push(b'\n');
        }
        Err(refusal) => print(out, format_args!("{} 0 - -\n", refusal as u8)),
    }
}

/// SCRIPT.md: NUMBER LENGTH OCTETS. A refusal has all else 0 or `-`.
fn print_signing(result: Result<usize, signing::Refusal>, buffer: &[u8], out: &mut Vec<u8>) {
    let number = result.err().map_or(0, |refusal| refusal as u8);
    let length = result.unwrap_or_default();
    print(out, format_args!("{number} {length} "));
    print_octets(&buffer[..length], out);
    out.push(b'\n');
}

/// SCRIPT.md: NUMBER NAME ALGORITHM SIGNED FUDGE MAC ID ERROR OTHER.
fn print_tsig(result: Result<Tsig, signing::Refusal>, out: &mut Vec<u8>) {
    let tsig = match result {
        Ok(tsig) => tsig,
        Err(refusal) => return print(out, format_args!("{} - - 0 0 - 0 0 -\n", refusal as u8)),
    };
    print(out, format_args!("0 "));
    print_octets(tsig.name.octets(), out);
    out.push(b' ');
    print_octets(tsig.algorithm, out);
    print(out, format_args!(" {} {} ", tsig.time_signed, tsig.fudge));
    print_octets(tsig.mac, out);
    print(out, format_args!(" {} {} ", tsig.original_id, tsig.error));
    print_octets(tsig.other_data, out);
    out.push(b'\n');
}

/// SCRIPT.md: one of the resolver's keys.
fn which(key: Which) -> &'static str {
    match key {
        Which::Adopted => "adopted",
        Which::Offered => "offered",
    }
}

/// SCRIPT.md, `keys`: the resolver as lines of text, fields parted by tabs.
fn print_resolver(resolver: &Resolver, out: &mut Vec<u8>) {
    let asked = match resolver.open.map(|request| request.asked) {
        None => "-",
        Some(Asked::Ordinary) => "ordinary",
        Some(Asked::Renewal) => "renewal",
        Some(Asked::Adoption) => "adoption",
        Some(Asked::Deletion) => "deletion",
    };
    print(out, format_args!("resolver\t{asked}\t"));
    match resolver.open {
        None => out.push(b'-'),
        Some(request) => print(out, format_args!("{}", request.id)),
    }
    print(out, format_args!("\t{}\n", which(resolver.turn)));
    let keys = [
        (Which::Adopted, resolver.adopted()),
        (Which::Offered, resolver.offered()),
    ];
    for (place, key) in keys {
        let Some(key) = key else { continue };
        print(out, format_args!("key\t{}\t", which(place)));
        print_octets(&key.name, out);
        let (algorithm, inception) = (key.algorithm.text(), key.inception);
        let expiration = key.expiration;
        print(
            out,
            format_args!("\t{algorithm}\t{inception}\t{expiration}\n"),
        );
    }
}

/// CR 7: the table as lines of text, fields parted by tabs.
pub fn print_listing(table: &Table, out: &mut Vec<u8>) {
    print(
        out,
        format_args!("clock\t{}\t{}\n", table.clock, table.floor),
    );
    for pair in &table.pairs {
        out.extend_from_slice(b"pair\t");
        print_hex(&pair.suffix, out);
        let (next, lifetime, fresh) = (pair.next_serial, pair.lifetime, pair.fresh);
        print(out, format_args!("\t{next}\t{lifetime}\t{fresh}\n"));
        if let Some(key) = pair.adopted() {
            print_key("adopted", key, out);
        }
        if let Some(key) = pair.waiting() {
            print_key("waiting", key, out);
        }
    }
}

/// CR 7: one key's line.
fn print_key(state: &str, key: &Key, out: &mut Vec<u8>) {
    let (serial, algorithm) = (key.serial, key.algorithm.text());
    let (inception, partial, expiry) = (key.inception, key.partial, key.expiry);
    print(
        out,
        format_args!("key\t{state}\t{serial}\t{algorithm}\t{inception}\t{partial}\t{expiry}\n"),
    );
}
