//! What the resolver's lines printed, and the resolver as `keys` shows it, read back from text.

use crate::desk::{read_hex, read_number};

#[derive(Clone, Debug, PartialEq)]
pub struct Key {
    pub name: Vec<u8>,
    pub algorithm: u64,
    pub inception: u32,
    pub expiration: u32,
}

#[derive(Clone, Debug, Default, PartialEq)]
pub struct Resolver {
    /// What was asked, and the ID.
    pub open: Option<(String, u16)>,
    /// Whether the offered key signs the next adoption.
    pub offered_signs: bool,
    pub adopted: Option<Key>,
    pub offered: Option<Key>,
}

fn read_key(fields: &[&str]) -> Key {
    Key {
        name: read_hex(fields[2]),
        algorithm: read_number(fields[3].strip_prefix("hmac-sha").expect("algorithm")),
        inception: read_number(fields[4]) as u32,
        expiration: read_number(fields[5]) as u32,
    }
}

impl Resolver {
    pub fn read(listing: &str) -> Resolver {
        let mut resolver = Resolver::default();
        for line in listing.lines() {
            let fields: Vec<&str> = line.split('\t').collect();
            match fields[..2] {
                ["resolver", asked] => {
                    if asked != "-" {
                        resolver.open = Some((asked.to_string(), read_number(fields[2]) as u16));
                    }
                    resolver.offered_signs = fields[3] == "offered";
                }
                ["key", "adopted"] => resolver.adopted = Some(read_key(&fields)),
                _ => resolver.offered = Some(read_key(&fields)),
            }
        }
        resolver
    }

    pub fn holding(key: &Key) -> Resolver {
        Resolver {
            adopted: Some(key.clone()),
            ..Resolver::default()
        }
    }
}

/// What a resolver's line printed.
#[derive(Clone, Debug, PartialEq)]
pub enum Said {
    Bad,
    Listed,
    Number(u64),
    /// A reply was read: whether renewal is due.
    Read(u64, bool),
    Wrote {
        number: u64,
        length: u64,
        signer: String,
        octets: Vec<u8>,
    },
}

impl Said {
    pub fn read(printed: &str) -> Said {
        if printed.starts_with("bad line ") {
            return Said::Bad;
        }
        if printed.starts_with("resolver\t") {
            return Said::Listed;
        }
        let words: Vec<&str> = printed.trim_end_matches('\n').split(' ').collect();
        match words[..] {
            [number] => Said::Number(read_number(number)),
            [number, due] => Said::Read(read_number(number), due == "due"),
            [number, length, signer, octets] => Said::Wrote {
                number: read_number(number),
                length: read_number(length),
                signer: signer.to_string(),
                octets: read_hex(octets),
            },
            _ => panic!("one, two or four words in {printed:?}"),
        }
    }

    pub fn wrote(signer: &str, octets: Vec<u8>) -> Said {
        Said::Wrote {
            number: 0,
            length: octets.len() as u64,
            signer: signer.to_string(),
            octets,
        }
    }

    pub fn unwritten(number: u64) -> Said {
        Said::Wrote {
            number,
            length: 0,
            signer: "-".to_string(),
            octets: Vec::new(),
        }
    }

    pub fn number(&self) -> u64 {
        match self {
            Said::Bad | Said::Listed => 0,
            Said::Number(number) | Said::Read(number, _) | Said::Wrote { number, .. } => *number,
        }
    }

    /// A refusal returns its number and nothing else.
    pub fn is_bare(&self) -> bool {
        match self {
            Said::Read(_, due) => !due,
            Said::Wrote { number, .. } => *self == Said::unwritten(*number),
            _ => true,
        }
    }
}

/// What the papers say a reply comes to.
#[derive(Clone, Debug, PartialEq)]
pub enum Read {
    Refused(u64),
    /// Its request is closed and no key moves.
    Closed,
    /// The same, and renewal is due.
    Due,
    Offered(Key),
    Adopted,
    Deleted,
}

impl Read {
    pub fn said(&self) -> Said {
        match self {
            Read::Refused(number) => Said::Read(*number, false),
            _ => Said::Read(0, *self == Read::Due),
        }
    }

    /// The resolver after such a reply.
    pub fn after(&self, mut resolver: Resolver) -> Resolver {
        if !matches!(self, Read::Refused(_)) {
            resolver.open = None;
        }
        match self {
            Read::Refused(_) | Read::Closed | Read::Due => {}
            Read::Offered(key) => {
                resolver.offered = Some(key.clone());
                resolver.offered_signs = false;
            }
            Read::Adopted => resolver.adopted = resolver.offered.take(),
            Read::Deleted => {
                resolver.adopted = None;
                resolver.offered = None;
            }
        }
        resolver
    }
}
