//! Messages and tables to test with, built octet by octet.

use second::{enrol, names, Done, Given, Refusal, Table};

pub const A: u16 = 1;
pub const SOA: u16 = 6;
pub const KEY: u16 = 25;
pub const TKEY: u16 = 249;
pub const TSIG: u16 = 250;
pub const IN: u16 = 1;
pub const ANY: u16 = 255;

/// Diffie-Hellman, server and resolver assignment.
pub const RENEWALS: [u16; 3] = [4097, 4098, 4099];
pub const RENEWAL: u16 = 4098;
pub const ADOPTION: u16 = 4100;
pub const DELETION: u16 = 5;

/// What fills a reply buffer before a call.
pub const FILL: u8 = 0xaa;

/// Octets from hexadecimal text with any white space.
pub fn hex(text: &str) -> Vec<u8> {
    let digits: Vec<u8> = text.bytes().filter(|o| !o.is_ascii_whitespace()).collect();
    assert_eq!(digits.len() % 2, 0);
    let value = |digit: u8| (digit as char).to_digit(16).expect("a digit") as u8;
    let octet = |two: &[u8]| value(two[0]) << 4 | value(two[1]);
    digits.chunks(2).map(octet).collect()
}

/// A wire name from `a.example.`.
pub fn name(text: &str) -> Vec<u8> {
    let mut octets = Vec::new();
    for label in text.split('.').filter(|label| !label.is_empty()) {
        octets.push(label.len() as u8);
        octets.extend_from_slice(label.as_bytes());
    }
    octets.push(0);
    octets
}

/// A wire name of just so many octets.
pub fn name_of(length: usize) -> Vec<u8> {
    let mut octets = Vec::new();
    let mut left = length - 1;
    while left > 0 {
        // A rest of 1 octet would be no label.
        let label = if left == 65 { 63 } else { left.min(64) };
        octets.push(label as u8 - 1);
        octets.extend(vec![b'x'; label - 1]);
        left -= label;
    }
    octets.push(0);
    assert_eq!(octets.len(), length);
    octets
}

pub fn sized(octets: &[u8]) -> Vec<u8> {
    [&(octets.len() as u16).to_be_bytes()[..], octets].concat()
}

pub fn record(owner: &[u8], kind: u16, class: u16, ttl: u32, data: &[u8]) -> Vec<u8> {
    let mut octets = owner.to_vec();
    octets.extend(kind.to_be_bytes());
    octets.extend(class.to_be_bytes());
    octets.extend(ttl.to_be_bytes());
    octets.extend(sized(data));
    octets
}

#[derive(Clone)]
pub struct Tsig {
    pub owner: Vec<u8>,
    pub class: u16,
    pub ttl: u32,
    pub algorithm: Vec<u8>,
    pub time: u64,
    pub fudge: u16,
    pub mac: usize,
    pub error: u16,
    pub other: Vec<u8>,
}

impl Tsig {
    pub fn by(key: &str, time: u64) -> Tsig {
        Tsig {
            owner: name(key),
            class: ANY,
            ttl: 0,
            algorithm: name("hmac-sha256."),
            time,
            fudge: 300,
            mac: 32,
            error: 0,
            other: Vec::new(),
        }
    }

    pub fn data(&self) -> Vec<u8> {
        let mut data = self.algorithm.clone();
        data.extend(&self.time.to_be_bytes()[2..]);
        data.extend(self.fudge.to_be_bytes());
        data.extend(sized(&vec![0x5a; self.mac]));
        data.extend([0x12, 0x34]);
        data.extend(self.error.to_be_bytes());
        data.extend(sized(&self.other));
        data
    }

    pub fn octets(&self) -> Vec<u8> {
        record(&self.owner, TSIG, self.class, self.ttl, &self.data())
    }
}

#[derive(Clone)]
pub struct Tkey {
    pub owner: Vec<u8>,
    pub class: u16,
    pub ttl: u32,
    pub algorithm: Vec<u8>,
    pub inception: u32,
    pub expiration: u32,
    pub mode: u16,
    pub error: u16,
    pub key: Vec<u8>,
    pub other: Vec<u8>,
}

impl Tkey {
    pub fn new(owner: &str, mode: u16, other: Vec<u8>) -> Tkey {
        Tkey {
            owner: name(owner),
            class: ANY,
            ttl: 0,
            algorithm: name("hmac-sha256."),
            inception: 1000,
            expiration: 2000,
            mode,
            error: 0,
            key: Vec::new(),
            other,
        }
    }

    pub fn data(&self) -> Vec<u8> {
        let mut data = self.algorithm.clone();
        data.extend(self.inception.to_be_bytes());
        data.extend(self.expiration.to_be_bytes());
        data.extend(self.mode.to_be_bytes());
        data.extend(self.error.to_be_bytes());
        data.extend(sized(&self.key));
        data.extend(sized(&self.other));
        data
    }

    pub fn octets(&self) -> Vec<u8> {
        record(&self.owner, TKEY, self.class, self.ttl, &self.data())
    }
}

/// OldName and OldAlgorithm of a key with hmac-sha256.
pub fn old(key: &str) -> Vec<u8> {
    [name(key), name("hmac-sha256.")].concat()
}

/// A message in parts; the counts follow from them.
#[derive(Clone)]
pub struct Draft {
    pub id: u16,
    pub flags: u16,
    pub questions: Vec<Vec<u8>>,
    pub answer: Vec<Vec<u8>>,
    pub authority: Vec<Vec<u8>>,
    pub additional: Vec<Vec<u8>>,
}

impl Draft {
    pub fn empty() -> Draft {
        Draft {
            id: 0x1234,
            flags: 0x0100,
            questions: Vec::new(),
            answer: Vec::new(),
            authority: Vec::new(),
            additional: Vec::new(),
        }
    }

    /// An unsigned ordinary query.
    pub fn ordinary() -> Draft {
        Draft::empty().ask(&name("z.example."), SOA, IN)
    }

    /// An unsigned TKEY request with this record.
    pub fn tkey(tkey: &Tkey) -> Draft {
        Draft::empty()
            .ask(&name("q."), TKEY, ANY)
            .add(tkey.octets())
    }

    /// An unsigned renewal of a key, with its KEY record.
    pub fn renewal(key: &str) -> Draft {
        Draft::renewal_by(RENEWAL, key)
    }

    /// The same in any of the three modes.
    pub fn renewal_by(mode: u16, key: &str) -> Draft {
        Draft::tkey(&Tkey::new("new.", mode, old(key))).add(key_record())
    }

    /// An unsigned adoption of one key in place of another.
    pub fn adoption(new: &str, key: &str) -> Draft {
        Draft::tkey(&Tkey::new(new, ADOPTION, old(key)))
    }

    /// An unsigned deletion of a key.
    pub fn deletion(key: &str) -> Draft {
        Draft::tkey(&Tkey::new(key, DELETION, Vec::new()))
    }

    pub fn ask(mut self, name: &[u8], kind: u16, class: u16) -> Draft {
        self.questions
            .push([name, &kind.to_be_bytes(), &class.to_be_bytes()].concat());
        self
    }

    pub fn add(mut self, record: Vec<u8>) -> Draft {
        self.additional.push(record);
        self
    }

    pub fn octets(&self) -> Vec<u8> {
        let parts = [
            &self.questions,
            &self.answer,
            &self.authority,
            &self.additional,
        ];
        let mut octets = self.id.to_be_bytes().to_vec();
        octets.extend(self.flags.to_be_bytes());
        for part in parts {
            octets.extend((part.len() as u16).to_be_bytes());
        }
        for part in parts {
            octets.extend(part.concat());
        }
        octets
    }

    /// Signed with hmac-sha256 at this time.
    pub fn signed(&self, key: &str, time: u64) -> Vec<u8> {
        self.with(&Tsig::by(key, time))
    }

    pub fn with(&self, tsig: &Tsig) -> Vec<u8> {
        self.clone().add(tsig.octets()).octets()
    }
}

pub fn key_record() -> Vec<u8> {
    record(&name("client."), KEY, IN, 3600, &[2, 0, 3, 2, 9, 9])
}

/// 01's day just after enrolment.
pub fn day() -> Table {
    let mut table = Table::empty(0);
    let done = enrol(&mut table, 1000, &name("a.example."), 600, 400, 256);
    assert_eq!(done, with_key(1, 1));
    table
}

/// DONE with a pair and a serial and nothing else.
pub fn with_key(pair: u64, serial: u64) -> Result<Done, Refusal> {
    Ok(Done {
        pair,
        serial,
        ..Done::default()
    })
}

/// A message call without a KEY that fits and without a lent record.
pub fn message(
    table: &mut Table,
    time: u64,
    good: bool,
    octets: &[u8],
    offer: &[u8],
    reply: &mut [u8],
) -> Result<Done, Refusal> {
    second::message(table, &Given::new(time, good, offer), octets, reply)
}

/// A good message with an offer of four octets and all room: the result and
/// the reply.
pub fn send(table: &mut Table, time: u64, octets: &[u8]) -> (Done, Vec<u8>) {
    let offer = [0xde, 0xad, 0xbe, 0xef];
    send_given(table, &Given::new(time, true, &offer), octets)
}

pub fn send_given(table: &mut Table, given: &Given, octets: &[u8]) -> (Done, Vec<u8>) {
    let mut reply = vec![FILL; 65_535];
    let done = second::message(table, given, octets, &mut reply).expect("done");
    assert!(reply[done.length..].iter().all(|&octet| octet == FILL));
    reply.truncate(done.length);
    (done, reply)
}

/// RCODE and TSIG error of a good message; there is no TKEY record.
pub fn denied(table: &mut Table, time: u64, octets: &[u8]) -> (u8, u16) {
    let (done, reply) = send(table, time, octets);
    assert_eq!(reply[6..12], [0; 6]);
    (reply[3] & 15, done.error)
}

/// The TKEY error of a good message, whose RCODE is 0.
pub fn tkey_error(table: &mut Table, time: u64, octets: &[u8]) -> u16 {
    let (done, reply) = send(table, time, octets);
    assert_eq!(done.error, 0);
    tkey_error_in(&reply)
}

/// The TKEY error of a reply, whose RCODE is 0.
pub fn tkey_error_in(reply: &[u8]) -> u16 {
    assert_eq!(reply[3] & 15, 0);
    let (_, data) = tkey_answer(reply);
    let algorithm = names::plain(&data).unwrap().len();
    u16::from_be_bytes([data[algorithm + 10], data[algorithm + 11]])
}

/// Name and data of the TKEY record in a reply's answer section, behind which
/// only a lent KEY record may stand.
pub fn tkey_answer(reply: &[u8]) -> (Vec<u8>, Vec<u8>) {
    assert_eq!(reply[4..7], [0, 1, 0]);
    assert!([1, 2].contains(&reply[7]));
    let owner = names::skip(reply, 12).unwrap() + 4;
    let fixed = names::skip(reply, owner).unwrap();
    assert_eq!(reply[fixed..fixed + 8], [0, 249, 0, 255, 0, 0, 0, 0]);
    let size = u16::from_be_bytes([reply[fixed + 8], reply[fixed + 9]]);
    let data = &reply[fixed + 10..][..usize::from(size)];
    (reply[owner..fixed].to_vec(), data.to_vec())
}
