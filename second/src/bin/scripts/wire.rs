//! Names, records and messages as octets. All is well formed until a scenario bends it.

pub const KEY: u16 = 25;
pub const TKEY: u16 = 249;
pub const TSIG: u16 = 250;
pub const ANY: u16 = 255;
pub const IN: u16 = 1;
pub const A: u16 = 1;
pub const NULL: u16 = 10;

pub const DELETE: u16 = 5;
/// Renewals: by Diffie-Hellman, by server and by resolver assignment.
pub const DIFFIE_HELLMAN: u16 = 4097;
pub const BY_SERVER: u16 = 4098;
pub const BY_RESOLVER: u16 = 4099;
pub const RENEWALS: [u16; 3] = [DIFFIE_HELLMAN, BY_SERVER, BY_RESOLVER];
pub const ADOPT: u16 = 4100;

pub const QR: u16 = 0x8000;
pub const RD: u16 = 0x0100;

pub const ALGORITHMS: [u64; 3] = [256, 384, 512];

pub fn label(text: &[u8]) -> Vec<u8> {
    let mut octets = vec![text.len() as u8];
    octets.extend(text);
    octets
}

pub fn name(labels: &[&[u8]]) -> Vec<u8> {
    let mut octets: Vec<u8> = labels.iter().flat_map(|l| label(l)).collect();
    octets.push(0);
    octets
}

pub fn key_name(serial: u64, suffix: &[u8]) -> Vec<u8> {
    joined(&[&label(serial.to_string().as_bytes()), suffix])
}

pub fn algorithm_name(algorithm: u64) -> Vec<u8> {
    name(&[format!("hmac-sha{algorithm}").as_bytes()])
}

pub fn mac_length(algorithm: u64) -> u64 {
    algorithm / 8
}

pub fn pointer(to: usize) -> Vec<u8> {
    (0xc000 | to as u16).to_be_bytes().to_vec()
}

pub fn joined(parts: &[&[u8]]) -> Vec<u8> {
    parts.concat()
}

/// Labels of `length` octets in all, without the root; `length` is not 1.
pub fn labels_of(length: usize) -> Vec<u8> {
    let mut octets = Vec::new();
    while octets.len() < length {
        let left = length - octets.len();
        let mut take = left.min(64);
        if left - take == 1 {
            take -= 1;
        }
        octets.extend(label(&vec![b'n'; take - 1]));
    }
    octets
}

/// A name of `length` octets, root included; `length` is not 2.
pub fn name_of(length: usize) -> Vec<u8> {
    joined(&[&labels_of(length - 1), &[0]])
}

/// Places in an uncompressed name where a label begins.
fn label_places(name: &[u8]) -> Vec<usize> {
    let mut places = Vec::new();
    let mut at = 0;
    while at < name.len() && name[at] != 0 {
        places.push(at);
        at += 1 + name[at] as usize;
    }
    places
}

/// `name` with its longest tail that also stands in the first question replaced by a pointer.
pub fn compressed(name: &[u8], first_question: &[u8]) -> Vec<u8> {
    for at in label_places(name) {
        for there in label_places(first_question) {
            if name[at..] == first_question[there..] {
                return joined(&[&name[..at], &pointer(12 + there)]);
            }
        }
    }
    name.to_vec()
}

#[derive(Clone)]
pub struct Question {
    pub name: Vec<u8>,
    pub kind: u16,
    pub class: u16,
}

#[derive(Clone)]
pub struct Record {
    pub owner: Vec<u8>,
    pub kind: u16,
    pub class: u16,
    pub ttl: u32,
    pub data: Vec<u8>,
    /// Added to the true length of the data.
    pub length_off: i32,
}

pub fn record(owner: &[u8], kind: u16, class: u16, data: &[u8]) -> Record {
    Record {
        owner: owner.to_vec(),
        kind,
        class,
        ttl: 0,
        data: data.to_vec(),
        length_off: 0,
    }
}

impl Record {
    pub fn octets(&self) -> Vec<u8> {
        joined(&[
            &self.owner,
            &self.kind.to_be_bytes(),
            &self.class.to_be_bytes(),
            &self.ttl.to_be_bytes(),
            &length_field(&self.data, self.length_off),
            &self.data,
        ])
    }
}

/// 02 CR 10: exactly one record of type 25, its owner name not compressed and its data length
/// right.
pub fn is_key_record(octets: &[u8]) -> bool {
    let mut at = 0;
    while octets.get(at).is_some_and(|o| (1..64).contains(o)) {
        at += 1 + octets[at] as usize;
    }
    let two = |at: usize| u16::from_be_bytes([octets[at], octets[at + 1]]);
    octets.get(at) == Some(&0)
        && at < 255
        && octets.len() >= at + 11
        && two(at + 1) == KEY
        && octets.len() == at + 11 + usize::from(two(at + 9))
}

/// A length field that may be bent by `off`.
fn length_field(data: &[u8], off: i32) -> [u8; 2] {
    ((data.len() as i32 + off) as u16).to_be_bytes()
}

#[derive(Clone)]
pub struct Tsig {
    pub owner: Vec<u8>,
    pub class: u16,
    pub ttl: u32,
    pub algorithm: Vec<u8>,
    pub signed: u64,
    pub fudge: u16,
    pub mac: Vec<u8>,
    pub mac_off: i32,
    pub original: u16,
    pub error: u16,
    pub other: Vec<u8>,
    pub other_off: i32,
    /// Octets after the other data, inside RDLENGTH.
    pub tail: Vec<u8>,
}

impl Tsig {
    pub fn record(&self) -> Record {
        let data = joined(&[
            &self.algorithm,
            &self.signed.to_be_bytes()[2..],
            &self.fudge.to_be_bytes(),
            &length_field(&self.mac, self.mac_off),
            &self.mac,
            &self.original.to_be_bytes(),
            &self.error.to_be_bytes(),
            &length_field(&self.other, self.other_off),
            &self.other,
            &self.tail,
        ]);
        Record {
            ttl: self.ttl,
            ..record(&self.owner, TSIG, self.class, &data)
        }
    }

    /// What RFC 8945 puts under the MAC of a request: the message (4.3.2) and the TSIG
    /// variables (4.3.3).
    pub fn request_digest(&self, message: &[u8]) -> Vec<u8> {
        joined(&[
            &self.original.to_be_bytes(),
            &message[2..],
            &self.owner.to_ascii_lowercase(),
            &[0, 255, 0, 0, 0, 0],
            &self.algorithm.to_ascii_lowercase(),
            &self.signed.to_be_bytes()[2..],
            &self.fudge.to_be_bytes(),
            &self.error.to_be_bytes(),
            &length_field(&self.other, 0),
            &self.other,
        ])
    }

    /// And under that of a reply, this TSIG's MAC being the request's (4.3.1).
    pub fn reply_digest(&self, message: &[u8]) -> Vec<u8> {
        let size = length_field(&self.mac, 0);
        joined(&[&size, &self.mac, &self.request_digest(message)])
    }

    /// The message with this TSIG put on.
    pub fn put_on(&self, message: &[u8]) -> Vec<u8> {
        let count = u16::from_be_bytes([message[10], message[11]]) + 1;
        joined(&[
            &message[..10],
            &count.to_be_bytes(),
            &message[12..],
            &self.record().octets(),
        ])
    }
}

#[derive(Clone)]
pub struct Tkey {
    pub owner: Vec<u8>,
    pub class: u16,
    pub ttl: u32,
    pub algorithm: Vec<u8>,
    pub inception: u32,
    pub expiration: u32,
    pub mode: u16,
    pub error: u16,
    pub key: Vec<u8>,
    pub key_off: i32,
    pub other: Vec<u8>,
    pub other_off: i32,
    pub tail: Vec<u8>,
}

impl Tkey {
    pub fn record(&self) -> Record {
        let data = joined(&[
            &self.algorithm,
            &self.inception.to_be_bytes(),
            &self.expiration.to_be_bytes(),
            &self.mode.to_be_bytes(),
            &self.error.to_be_bytes(),
            &length_field(&self.key, self.key_off),
            &self.key,
            &length_field(&self.other, self.other_off),
            &self.other,
            &self.tail,
        ]);
        Record {
            ttl: self.ttl,
            ..record(&self.owner, TKEY, self.class, &data)
        }
    }
}

/// Lays a message down octet by octet, so that a scenario knows every place.
pub struct Builder {
    octets: Vec<u8>,
    counts: [i32; 4],
}

impl Builder {
    pub fn new(id: u16, flags: u16) -> Builder {
        let mut octets = vec![0; 12];
        octets[..2].copy_from_slice(&id.to_be_bytes());
        octets[2..4].copy_from_slice(&flags.to_be_bytes());
        Builder {
            octets,
            counts: [0; 4],
        }
    }

    pub fn here(&self) -> usize {
        self.octets.len()
    }

    pub fn raw(&mut self, octets: &[u8]) {
        self.octets.extend(octets);
    }

    pub fn question(&mut self, q: &Question) {
        self.counts[0] += 1;
        self.raw(&q.name);
        self.raw(&q.kind.to_be_bytes());
        self.raw(&q.class.to_be_bytes());
    }

    /// Sections: 1 answer, 2 authority, 3 additional.
    pub fn record(&mut self, section: usize, r: &Record) {
        self.counts[section] += 1;
        self.raw(&r.octets());
    }

    pub fn bend_count(&mut self, section: usize, by: i32) {
        self.counts[section] += by;
    }

    pub fn finish(mut self) -> Vec<u8> {
        for (i, count) in self.counts.iter().enumerate() {
            let at = 4 + 2 * i;
            self.octets[at..at + 2].copy_from_slice(&(*count as u16).to_be_bytes());
        }
        self.octets
    }
}

/// A message to the desk, kept in parts so that one part can be bent. Owners are kept
/// written out; `squeeze` compresses them against the first question when laid down.
#[derive(Clone)]
pub struct Ask {
    pub id: u16,
    pub flags: u16,
    pub questions: Vec<Question>,
    /// Answer, authority, additional; the additional ones stand before TKEY, KEY and TSIG.
    pub sections: [Vec<Record>; 3],
    pub tkey: Option<Tkey>,
    pub keys: Vec<Record>,
    pub keys_first: bool,
    pub tsig: Option<Tsig>,
    pub squeeze: bool,
    pub counts: [i32; 4],
    pub tail: Vec<u8>,
}

impl Ask {
    fn additional(&self) -> Vec<Record> {
        let mut all = self.sections[2].clone();
        if self.keys_first {
            all.extend(self.keys.clone());
        }
        all.extend(self.tkey.iter().map(Tkey::record));
        if !self.keys_first {
            all.extend(self.keys.clone());
        }
        all.extend(self.tsig.iter().map(Tsig::record));
        all
    }

    fn laid(&self, record: &Record) -> Record {
        let mut record = record.clone();
        if let (true, Some(first)) = (self.squeeze, self.questions.first()) {
            record.owner = compressed(&record.owner, &first.name);
        }
        record
    }

    pub fn octets(&self) -> Vec<u8> {
        let mut b = Builder::new(self.id, self.flags);
        for q in &self.questions {
            b.question(q);
        }
        for section in [1, 2] {
            for r in &self.sections[section - 1] {
                b.record(section, r);
            }
        }
        for r in self.additional() {
            b.record(3, &self.laid(&r));
        }
        for (section, by) in self.counts.iter().enumerate() {
            b.bend_count(section, *by);
        }
        b.raw(&self.tail);
        b.finish()
    }

    fn reply_start(&self, rcode: u16) -> Builder {
        let mut b = Builder::new(self.id, QR | (self.flags & 0x7900) | rcode);
        for q in &self.questions {
            b.question(q);
        }
        b
    }

    /// The reply that the papers ask for where no TKEY record is answered.
    pub fn plain_reply(&self, rcode: u16) -> Vec<u8> {
        self.reply_start(rcode).finish()
    }

    /// The reply that the papers ask for with this TKEY in the answer.
    pub fn tkey_reply(&self, tkey: Tkey, error: u16) -> Vec<u8> {
        self.tkey_answered(tkey, error).finish()
    }

    /// The same of a granted renewal, which echoes the KEY; behind the TKEY stands what is lent.
    pub fn renewal_reply(&self, tkey: Tkey, lent: Option<&[u8]>) -> Vec<u8> {
        let mut b = self.tkey_answered(tkey, 0);
        if let Some(octets) = lent {
            b.raw(octets);
            b.bend_count(1, 1);
        }
        if let Some(key) = self.keys.first() {
            b.record(3, key);
        }
        b.finish()
    }

    fn tkey_answered(&self, mut tkey: Tkey, error: u16) -> Builder {
        tkey.class = ANY;
        tkey.ttl = 0;
        tkey.error = error;
        let mut b = self.reply_start(0);
        b.record(1, &tkey.record());
        b
    }
}
