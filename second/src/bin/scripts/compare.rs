//! A reply field by field (02, CR 12), bent and laid down again with its names compressed or not,
//! and what `compare` printed, read back from text.

use crate::desk::read_number;
use crate::rng::Rng;
use crate::wire::{pointer, Record};

pub const HEADER: [&str; 6] = ["ID", "flags", "QDCOUNT", "ANCOUNT", "NSCOUNT", "ARCOUNT"];
pub const QUESTION: [&str; 3] = ["name", "type", "class"];
pub const RECORD: [&str; 5] = ["owner", "type", "class", "TTL", "RDLENGTH"];
pub const TKEY_DATA: [&str; 9] = [
    "algorithm",
    "inception",
    "expiration",
    "mode",
    "error",
    "key size",
    "key data",
    "other size",
    "other data",
];

#[derive(Clone)]
pub struct Field {
    /// Such as the header or the TKEY.
    pub part: &'static str,
    pub word: &'static str,
    /// A name is kept written out.
    pub octets: Vec<u8>,
}

impl Field {
    fn new(part: &'static str, word: &'static str, octets: &[u8]) -> Field {
        Field {
            part,
            word,
            octets: octets.to_vec(),
        }
    }

    /// A name of a question or an owner, which may be compressed.
    pub fn is_name(&self) -> bool {
        ["name", "owner"].contains(&self.word)
    }

    fn is_folded(&self) -> bool {
        self.is_name() || self.word == "algorithm"
    }

    pub fn number(&self) -> u16 {
        u16::from_be_bytes([self.octets[0], self.octets[1]])
    }

    pub fn set(&mut self, number: usize) {
        self.octets = (number as u16).to_be_bytes().to_vec();
    }
}

/// The fields of a record, a TKEY's data not parted.
pub fn record_fields(part: &'static str, record: &Record) -> Vec<Field> {
    vec![
        Field::new(part, "owner", &record.owner),
        Field::new(part, "type", &record.kind.to_be_bytes()),
        Field::new(part, "class", &record.class.to_be_bytes()),
        Field::new(part, "TTL", &record.ttl.to_be_bytes()),
        Field::new(part, "RDLENGTH", &(record.data.len() as u16).to_be_bytes()),
        Field::new(part, "data", &record.data),
    ]
}

/// Takes a reply of ours apart.
struct Reader<'a> {
    reply: &'a [u8],
    at: usize,
    fields: Vec<Field>,
}

impl Reader<'_> {
    fn take(&mut self, part: &'static str, word: &'static str, size: usize) -> usize {
        let octets = &self.reply[self.at..self.at + size];
        self.fields.push(Field::new(part, word, octets));
        self.at += size;
        octets.iter().fold(0, |sum, &o| sum << 8 | usize::from(o))
    }

    fn name(&mut self, part: &'static str, word: &'static str) {
        let (name, after) = expand(self.reply, self.at).expect("a good name of ours");
        self.fields.push(Field::new(part, word, &name));
        self.at = after;
    }

    fn question(&mut self, part: &'static str) {
        self.name(part, "name");
        self.take(part, "type", 2);
        self.take(part, "class", 2);
    }

    fn record(&mut self, part: &'static str) {
        self.name(part, "owner");
        self.take(part, "type", 2);
        self.take(part, "class", 2);
        self.take(part, "TTL", 4);
        let size = self.take(part, "RDLENGTH", 2);
        if part != "TKEY" {
            self.take(part, "data", size);
            return;
        }
        self.name(part, "algorithm");
        for (word, size) in TKEY_DATA[1..5].iter().zip([4, 4, 2, 2]) {
            self.take(part, word, size);
        }
        let size = self.take(part, "key size", 2);
        self.take(part, "key data", size);
        let size = self.take(part, "other size", 2);
        self.take(part, "other data", size);
    }
}

/// 01 "Reading": the name at a place, written out, and the place after it.
pub fn expand(octets: &[u8], start: usize) -> Option<(Vec<u8>, usize)> {
    let (mut name, mut at, mut run, mut after) = (Vec::new(), start, start, None);
    loop {
        let first = *octets.get(at)?;
        match first {
            0 => break,
            1..=63 => {
                let end = at + 1 + usize::from(first);
                name.extend(octets.get(at..end)?);
                at = end;
            }
            64..=191 => return None,
            _ => {
                let to = usize::from(first & 63) << 8 | usize::from(*octets.get(at + 1)?);
                after = after.or(Some(at + 2));
                if !(12..run).contains(&to) {
                    return None;
                }
                (at, run) = (to, to);
            }
        }
        if name.len() > 254 {
            return None;
        }
    }
    name.push(0);
    Some((name, after.unwrap_or(at + 1)))
}

#[derive(Clone)]
pub struct Fields {
    pub all: Vec<Field>,
}

/// Octets, and where each field begins.
pub struct Laid {
    pub octets: Vec<u8>,
    pub places: Vec<usize>,
}

impl Fields {
    /// Of a reply of ours: questions; a TKEY, behind it what is lent; the echoed KEY.
    pub fn of(reply: &[u8]) -> Fields {
        let mut reader = Reader {
            reply,
            at: 0,
            fields: Vec::new(),
        };
        let [_, _, questions, answers, _, echoed] =
            HEADER.map(|word| reader.take("header", word, 2));
        for number in 0..questions {
            reader.question(if number == 0 {
                "question"
            } else {
                "next question"
            });
        }
        for number in 0..answers {
            reader.record(if number == 0 { "TKEY" } else { "lent KEY" });
        }
        for _ in 0..echoed {
            reader.record("echoed KEY");
        }
        assert_eq!(reader.at, reply.len(), "a reply of ours is read");
        Fields { all: reader.fields }
    }

    /// The number of a field.
    pub fn find(&self, part: &str, word: &str) -> usize {
        let is_it = |field: &Field| field.part == part && field.word == word;
        self.all.iter().position(is_it).expect("such a field")
    }

    pub fn get(&mut self, part: &str, word: &str) -> &mut Field {
        let number = self.find(part, word);
        &mut self.all[number]
    }

    pub fn has(&self, part: &str) -> bool {
        self.all.iter().any(|field| field.part == part)
    }

    /// The first field of a part, or the end.
    pub fn start(&self, part: &str) -> usize {
        let start = self.all.iter().position(|field| field.part == part);
        start.unwrap_or(self.all.len())
    }

    /// Takes a part out.
    pub fn cut(&mut self, part: &str) -> Vec<Field> {
        let (cut, left) = std::mem::take(&mut self.all)
            .into_iter()
            .partition(|field| field.part == part);
        self.all = left;
        cut
    }

    /// Puts a part in front of another, or at the end where there is no such part.
    pub fn move_before(&mut self, part: &str, next: &str) {
        let fields = self.cut(part);
        self.put(self.start(next), fields);
    }

    pub fn double(&mut self, part: &str) {
        let is_of = |field: &&Field| field.part == part;
        let copy = self.all.iter().filter(is_of).cloned().collect();
        self.put(self.start(part), copy);
    }

    pub fn put(&mut self, at: usize, fields: Vec<Field>) {
        self.all.splice(at..at, fields);
    }

    /// Adds to a number of 16 bits.
    pub fn add(&mut self, part: &str, word: &str, by: i32) {
        let field = self.get(part, word);
        let number = i32::from(field.number()) + by;
        field.set(number as usize);
    }

    /// Makes sizes and RDLENGTH of the TKEY what its data have.
    pub fn fit_tkey(&mut self) {
        for (size, data) in [("key size", "key data"), ("other size", "other data")] {
            let length = self.get("TKEY", data).octets.len();
            self.get("TKEY", size).set(length);
        }
        let data = self.all.iter().filter(|f| TKEY_DATA.contains(&f.word));
        let length = data.map(|field| field.octets.len()).sum();
        self.get("TKEY", "RDLENGTH").set(length);
    }

    /// Letters of names in other case, algorithms among them.
    pub fn mix_case(&mut self, rng: &mut Rng) {
        for field in self.all.iter_mut().filter(|field| field.is_folded()) {
            field.octets = rng.mixed_case(&field.octets);
        }
    }

    pub fn lay(&self) -> Laid {
        self.lay_with(|_, name| name.to_vec())
    }

    /// Each name is compressed with this chance, where it can be.
    pub fn squeeze(&self, rng: &mut Rng, percent: u64) -> Laid {
        self.lay_with(|laid, name| match rng.chance(percent) {
            true => squeezed(rng, laid, name),
            false => name.to_vec(),
        })
    }

    fn lay_with(&self, mut write: impl FnMut(&[u8], &[u8]) -> Vec<u8>) -> Laid {
        let (mut octets, mut places) = (Vec::new(), Vec::new());
        for field in &self.all {
            places.push(octets.len());
            let written = match field.is_name() {
                true => write(&octets, &field.octets),
                false => field.octets.clone(),
            };
            octets.extend(written);
        }
        Laid { octets, places }
    }
}

/// A name with some tail of it, if only the root, replaced by a pointer to where the octets laid
/// so far read as that tail, in a name or not.
fn squeezed(rng: &mut Rng, laid: &[u8], name: &[u8]) -> Vec<u8> {
    let end = laid.len().min(1 << 14);
    let reads = |at| expand(laid, at).map(|(tail, _)| (at, tail));
    let tails: Vec<(usize, Vec<u8>)> = (12..end).filter_map(reads).collect();
    let mut ways: Vec<(usize, Vec<usize>)> = Vec::new();
    let mut cut = 0;
    while cut < name.len() {
        let fits = |(_, tail): &&(usize, Vec<u8>)| tail.eq_ignore_ascii_case(&name[cut..]);
        let targets: Vec<usize> = tails.iter().filter(fits).map(|(at, _)| *at).collect();
        if !targets.is_empty() {
            ways.push((cut, targets));
        }
        cut += 1 + usize::from(name[cut]);
    }
    if ways.is_empty() {
        return name.to_vec();
    }
    let (cut, targets) = rng.pick(&ways);
    let target = *rng.pick(targets);
    [&name[..*cut], &pointer(target)].concat()
}

/// NUMBER and PLACE; `None` for a line that does not read.
pub type Said = Option<(u64, u64)>;

pub fn read_said(printed: &str) -> Said {
    if printed.starts_with("bad line ") {
        return None;
    }
    let (number, place) = printed.trim_end().split_once(' ').expect("two words");
    Some((read_number(number), read_number(place)))
}
