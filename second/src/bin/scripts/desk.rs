//! What a call printed, and the table as `list` shows it, read back from text.

use crate::wire;

#[derive(Clone, Debug, PartialEq)]
pub struct Key {
    pub serial: u64,
    pub algorithm: u64,
    pub inception: u64,
    pub partial: u64,
    pub expiry: u64,
}

#[derive(Clone, Debug, PartialEq)]
pub struct Pair {
    pub suffix: Vec<u8>,
    pub next: u64,
    pub life: u64,
    pub fresh: u64,
    pub adopted: Option<Key>,
    pub waiting: Option<Key>,
}

impl Pair {
    pub fn is_fresh(&self, time: u64) -> bool {
        self.adopted.as_ref().is_some_and(|k| time < k.partial)
    }

    pub fn is_live(&self, time: u64) -> bool {
        self.adopted.as_ref().is_some_and(|k| time < k.expiry)
    }

    pub fn is_revoked(&self, time: u64) -> bool {
        self.is_live(time) && !self.is_fresh(time)
    }
}

#[derive(Clone, Debug, Default, PartialEq)]
pub struct Table {
    pub clock: u64,
    pub floor: u64,
    pub pairs: Vec<Pair>,
}

pub fn read_number(text: &str) -> u64 {
    text.parse().expect("a number")
}

pub fn read_hex(text: &str) -> Vec<u8> {
    if text == "-" {
        return Vec::new();
    }
    (0..text.len() / 2)
        .map(|i| u8::from_str_radix(&text[2 * i..2 * i + 2], 16).expect("hexadecimal"))
        .collect()
}

fn read_key(fields: &[&str]) -> Key {
    Key {
        serial: read_number(fields[2]),
        algorithm: read_number(fields[3].strip_prefix("hmac-sha").expect("algorithm")),
        inception: read_number(fields[4]),
        partial: read_number(fields[5]),
        expiry: read_number(fields[6]),
    }
}

impl Table {
    pub fn read(listing: &str) -> Table {
        let mut table = Table::default();
        for line in listing.lines() {
            let fields: Vec<&str> = line.split('\t').collect();
            match fields[0] {
                "clock" => {
                    table.clock = read_number(fields[1]);
                    table.floor = read_number(fields[2]);
                }
                "pair" => table.pairs.push(Pair {
                    suffix: read_hex(fields[1]),
                    next: read_number(fields[2]),
                    life: read_number(fields[3]),
                    fresh: read_number(fields[4]),
                    adopted: None,
                    waiting: None,
                }),
                _ => {
                    let pair = table.pairs.last_mut().expect("a pair above its keys");
                    let place = match fields[1] {
                        "adopted" => &mut pair.adopted,
                        _ => &mut pair.waiting,
                    };
                    *place = Some(read_key(&fields));
                }
            }
        }
        table
    }

    /// The table rules that every call is to keep, without those of suffixes.
    pub fn is_sound(&self) -> bool {
        let key_sound = |p: &Pair, k: &Key| {
            k.serial >= 1
                && k.serial < p.next
                && k.inception <= k.partial
                && k.partial < k.expiry
                && k.expiry == k.inception + p.life
                && k.expiry < 1 << 48
                && k.inception <= self.clock
        };
        let waiting_sound = |p: &Pair| match (&p.adopted, &p.waiting) {
            (Some(a), Some(w)) => w.serial > a.serial && w.expiry >= a.expiry,
            (_, waiting) => waiting.is_none(),
        };
        let terms_sound = |p: &Pair| {
            (1..p.life).contains(&p.fresh) && p.life < 1 << 31 && (1..=1 << 32).contains(&p.next)
        };
        self.pairs.len() <= 64
            && self.clock < 1 << 48
            && (1..=1 << 32).contains(&self.floor)
            && self.pairs.iter().all(|p| {
                terms_sound(p)
                    && p.adopted.iter().chain(&p.waiting).all(|k| key_sound(p, k))
                    && waiting_sound(p)
            })
    }
}

/// What a reply's TKEY record says.
pub struct TkeySeen {
    pub mode: u16,
    pub error: u16,
}

#[derive(Clone, Debug, Default, PartialEq)]
pub struct Outcome {
    pub bad: bool,
    pub listed: bool,
    pub number: u64,
    pub length: u64,
    pub error: u64,
    pub skew: i64,
    pub pair: u64,
    pub serial: u64,
    pub reply: Vec<u8>,
    /// Where reading failed, beside FORMAT.
    pub place: u64,
}

fn skip_name(octets: &[u8], mut at: usize) -> usize {
    while octets[at] != 0 && octets[at] < 192 {
        at += 1 + octets[at] as usize;
    }
    if octets[at] == 0 {
        at + 1
    } else {
        at + 2
    }
}

fn two(octets: &[u8], at: usize) -> u16 {
    u16::from_be_bytes([octets[at], octets[at + 1]])
}

impl Outcome {
    pub fn read(printed: &str) -> Outcome {
        let mut seen = Outcome::default();
        if printed.starts_with("bad line ") {
            seen.bad = true;
        } else if printed.starts_with("clock\t") {
            seen.listed = true;
        } else {
            let words: Vec<&str> = printed.trim_end_matches('\n').split(' ').collect();
            assert_eq!(words.len(), 8, "eight words in {printed:?}");
            seen.number = read_number(words[0]);
            seen.length = read_number(words[1]);
            seen.error = read_number(words[2]);
            seen.skew = words[3].parse().expect("a skew");
            seen.pair = read_number(words[4]);
            seen.serial = read_number(words[5]);
            seen.reply = read_hex(words[6]);
            seen.place = read_number(words[7]);
        }
        seen
    }

    pub fn is_call(&self) -> bool {
        !self.bad && !self.listed
    }

    pub fn rcode(&self) -> Option<u8> {
        self.reply.get(3).map(|o| o & 15)
    }

    pub fn tkey(&self) -> Option<TkeySeen> {
        if self.reply.len() < 12 || two(&self.reply, 6) == 0 {
            return None;
        }
        let mut at = 12;
        for _ in 0..two(&self.reply, 4) {
            at = skip_name(&self.reply, at) + 4;
        }
        at = skip_name(&self.reply, at);
        if two(&self.reply, at) != wire::TKEY {
            return None;
        }
        at = skip_name(&self.reply, at + 10);
        Some(TkeySeen {
            mode: two(&self.reply, at + 8),
            error: two(&self.reply, at + 10),
        })
    }

    /// A refusal returns its number, FORMAT its place, and nothing else.
    pub fn is_bare(&self) -> bool {
        self.length == 0
            && self.error == 0
            && self.skew == 0
            && self.pair == 0
            && self.serial == 0
            && self.reply.is_empty()
            && (self.number == 6 || self.place == 0)
    }
}

/// What the papers say a message call comes to.
#[derive(Clone, Copy, Debug, PartialEq)]
pub enum Want {
    Refused(u64),
    /// Refused with FORMAT at this place.
    Format(usize),
    /// RCODE 1 of step 1.
    Ill,
    /// RCODE 1 of steps 4 and 6.
    Bad,
    /// RCODE 5 of step 2.
    Refuse,
    BadKey,
    BadSig,
    BadTime,
    Partial,
    /// Passed up with this skew.
    Passed(i64),
    /// Handed up as unsigned.
    Handed,
    /// TKEY outcome with this error.
    Tkey(u16),
}

impl Want {
    /// RCODE, TSIG error and whether a pair is named, for the outcomes with a reply.
    fn reply(&self) -> Option<(u8, u64, bool)> {
        match self {
            Want::Ill => Some((1, 0, false)),
            Want::Bad => Some((1, 0, true)),
            Want::Refuse => Some((5, 0, false)),
            Want::BadKey => Some((9, 17, false)),
            Want::BadSig => Some((9, 16, true)),
            Want::BadTime => Some((9, 18, true)),
            Want::Partial => Some((9, 3841, true)),
            Want::Tkey(_) => Some((0, 0, true)),
            _ => None,
        }
    }

    pub fn rcode(&self) -> u16 {
        self.reply().map_or(0, |(rcode, _, _)| rcode.into())
    }

    pub fn fits(&self, seen: &Outcome) -> bool {
        if !seen.is_call() {
            return false;
        }
        match self {
            Want::Refused(number) => seen.number == *number && seen.is_bare(),
            Want::Format(place) => {
                seen.number == 6 && seen.is_bare() && seen.place == *place as u64
            }
            Want::Handed => seen.number == 0 && seen.is_bare(),
            Want::Passed(skew) => {
                seen.number == 0
                    && seen.length == 0
                    && seen.error == 0
                    && seen.pair != 0
                    && seen.serial != 0
                    && seen.skew == *skew
            }
            _ => self.fits_reply(seen),
        }
    }

    fn fits_reply(&self, seen: &Outcome) -> bool {
        let Some((rcode, error, named)) = self.reply() else {
            return false;
        };
        let tkey = match self {
            Want::Tkey(error) => Some(*error),
            _ => None,
        };
        seen.number == 0
            && seen.length == seen.reply.len() as u64
            && seen.rcode() == Some(rcode)
            && seen.error == error
            && seen.skew == 0
            && (seen.pair != 0) == named
            && (seen.serial != 0) == named
            && seen.tkey().map(|t| t.error) == tkey
    }
}
