//! What the signing calls' lines printed, read back from text.

use crate::desk::{read_hex, read_number};
use crate::wire::Tsig;

/// The fields of a TSIG, as `read-back` shows them.
#[derive(Clone, Debug, Default, PartialEq)]
pub struct Fields {
    name: Vec<u8>,
    algorithm: Vec<u8>,
    signed: u64,
    fudge: u64,
    mac: Vec<u8>,
    original: u64,
    error: u64,
    other: Vec<u8>,
}

/// What a line printed.
#[derive(Clone, Debug, PartialEq)]
pub enum Told {
    Bad,
    Wrote {
        number: u64,
        length: u64,
        octets: Vec<u8>,
    },
    Read(u64, Box<Fields>),
}

impl Told {
    pub fn read(printed: &str) -> Told {
        if printed.starts_with("bad line ") {
            return Told::Bad;
        }
        let words: Vec<&str> = printed.trim_end_matches('\n').split(' ').collect();
        match words[..] {
            [number, length, octets] => Told::Wrote {
                number: read_number(number),
                length: read_number(length),
                octets: read_hex(octets),
            },
            [number, name, algorithm, signed, fudge, mac, original, error, other] => {
                let fields = Fields {
                    name: read_hex(name),
                    algorithm: read_hex(algorithm),
                    signed: read_number(signed),
                    fudge: read_number(fudge),
                    mac: read_hex(mac),
                    original: read_number(original),
                    error: read_number(error),
                    other: read_hex(other),
                };
                Told::Read(read_number(number), Box::new(fields))
            }
            _ => panic!("three or nine words in {printed:?}"),
        }
    }

    pub fn wrote(octets: Vec<u8>) -> Told {
        Told::Wrote {
            number: 0,
            length: octets.len() as u64,
            octets,
        }
    }

    /// The owner is kept written out.
    pub fn fields(tsig: &Tsig) -> Told {
        let fields = Fields {
            name: tsig.owner.clone(),
            algorithm: tsig.algorithm.clone(),
            signed: tsig.signed,
            fudge: tsig.fudge.into(),
            mac: tsig.mac.clone(),
            original: tsig.original.into(),
            error: tsig.error.into(),
            other: tsig.other.clone(),
        };
        Told::Read(0, Box::new(fields))
    }

    pub fn refused(call: &str, number: u64) -> Told {
        match call {
            "read-back" => Told::Read(number, Box::default()),
            _ => Told::Wrote {
                number,
                length: 0,
                octets: Vec::new(),
            },
        }
    }

    /// None of a line that does not read.
    pub fn number(&self) -> Option<u64> {
        match self {
            Told::Bad => None,
            Told::Wrote { number, .. } | Told::Read(number, _) => Some(*number),
        }
    }

    /// A refusal returns its number and nothing else.
    pub fn is_bare(&self) -> bool {
        match self {
            Told::Bad => true,
            Told::Wrote { length, octets, .. } => *length == 0 && octets.is_empty(),
            Told::Read(_, fields) => **fields == Fields::default(),
        }
    }
}
