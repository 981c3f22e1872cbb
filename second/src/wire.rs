//! Reading messages. 01 "Reading"; RFC 1035 §4, RFC 8945 §4.2, RFC 2930 §2.

use crate::names::{self, Name, Place};

// Types of records, and the class ANY.
pub const KEY: u16 = 25;
pub const TKEY: u16 = 249;
pub const TSIG: u16 = 250;
pub const ANY: u16 = 255;

// TKEY modes (01 "Reading", CR 10).
pub const DELETION: u16 = 5;
pub const RENEWAL_BY_DIFFIE_HELLMAN: u16 = 4097;
pub const RENEWAL_BY_SERVER: u16 = 4098;
pub const RENEWAL_BY_RESOLVER: u16 = 4099;
pub const ADOPTION: u16 = 4100;

/// Octets read from the front; `None` where one is missing.
struct Cursor<'a> {
    octets: &'a [u8],
    place: usize,
}

impl<'a> Cursor<'a> {
    fn new(octets: &'a [u8]) -> Cursor<'a> {
        Cursor { octets, place: 0 }
    }

    /// The next `count` octets.
    fn take(&mut self, count: usize) -> Option<&'a [u8]> {
        let taken = self.octets[self.place..].get(..count)?;
        self.place += count;
        Some(taken)
    }

    fn array<const N: usize>(&mut self) -> Option<[u8; N]> {
        self.take(N)?.try_into().ok()
    }

    fn u16(&mut self) -> Option<u16> {
        self.array().map(u16::from_be_bytes)
    }

    fn u32(&mut self) -> Option<u32> {
        self.array().map(u32::from_be_bytes)
    }

    /// RFC 8945 §4.2: 48 bits of time signed.
    fn u48(&mut self) -> Option<u64> {
        let [a, b, c, d, e, f] = self.array()?;
        Some(u64::from_be_bytes([0, 0, a, b, c, d, e, f]))
    }

    /// A 16-bit size and so many octets.
    fn sized(&mut self) -> Option<&'a [u8]> {
        let size = self.u16()?;
        self.take(usize::from(size))
    }

    /// A name that may be compressed; answers with where it stands, or with
    /// where it breaks a rule.
    fn name(&mut self) -> Result<usize, Place> {
        let start = self.place;
        self.place = names::skip(self.octets, start)?;
        Ok(start)
    }

    /// RFC 1035 §4.1.1: the six words of a header.
    fn header(&mut self) -> Option<[u16; 6]> {
        let octets: [u8; 12] = self.array()?;
        let (words, _) = octets.as_chunks::<2>();
        Some(std::array::from_fn(|i| u16::from_be_bytes(words[i])))
    }

    /// RFC 1035 §4.1.2: type and class, behind a question's name.
    fn after_question_name(&mut self) -> Option<(u16, u16)> {
        Some((self.u16()?, self.u16()?))
    }

    /// RFC 1035 §4.1.3: type, class, TTL and data, behind an owner name.
    fn after_owner(&mut self) -> Option<(u16, u16, u32, &'a [u8])> {
        Some((self.u16()?, self.u16()?, self.u32()?, self.sized()?))
    }

    /// A name that may not be compressed.
    fn plain_name(&mut self) -> Option<&'a [u8]> {
        let name = names::plain(&self.octets[self.place..])?;
        self.place += name.len();
        Some(name)
    }

    /// Whether nothing is left over.
    fn at_end(&self) -> bool {
        self.place == self.octets.len()
    }
}

/// RFC 1035 §4.1: the sections of records.
#[derive(Clone, Copy, Debug, PartialEq, Eq)]
enum Section {
    Answer,
    Authority,
    Additional,
}

/// One record where it lies in its message, its owner name known to be good.
#[derive(Clone, Copy, Debug)]
pub struct Record<'a> {
    message: &'a [u8],
    owner: usize,
    index: usize,
    section: Section,
    kind: u16,
    class: u16,
    ttl: u32,
    data: &'a [u8],
    /// The octets from TYPE to the end of the data.
    pub after_owner: &'a [u8],
}

impl<'a> Record<'a> {
    /// RFC 1035 §4.1.3; or the place where it breaks a rule.
    fn read(cursor: &mut Cursor<'a>, index: usize, section: Section) -> Result<Record<'a>, Place> {
        let message = cursor.octets;
        let owner = cursor.name()?;
        let start = cursor.place;
        let (kind, class, ttl, data) = cursor.after_owner().ok_or(message.len())?;
        Ok(Record {
            message,
            owner,
            index,
            section,
            kind,
            class,
            ttl,
            data,
            after_owner: &message[start..cursor.place],
        })
    }

    /// The owner name, written out.
    pub fn owner(&self) -> Option<Name> {
        names::expand(self.message, self.owner).ok()
    }

    /// RDATA.
    pub fn data(&self) -> &'a [u8] {
        self.data
    }
}

/// The records of one type.
#[derive(Clone, Copy, Debug)]
pub enum Found<'a> {
    None,
    One(Record<'a>),
    More,
}

impl<'a> Found<'a> {
    fn add(&mut self, record: Record<'a>) {
        *self = match self {
            Found::None => Found::One(record),
            _ => Found::More,
        };
    }
}

/// A message, as far as the desk wants to know it.
#[derive(Clone, Debug)]
pub struct Message<'a> {
    pub id: u16,
    /// QR, opcode, AA, TC, RD, RA, Z and RCODE.
    pub flags: u16,
    pub question_count: u16,
    /// The octets of all questions.
    pub questions: &'a [u8],
    /// Type and class of the last question.
    asked: Option<(u16, u16)>,
    record_count: usize,
    tsigs: Found<'a>,
    tkeys: Found<'a>,
    /// Those of the TKEY records that stand in the answer section.
    tkey_answers: Found<'a>,
    /// KEY records count in the additional section only (ruling 6).
    pub keys: Found<'a>,
}

/// A TSIG that is ill formed or not in its place.
pub struct BadTsig;

impl<'a> Message<'a> {
    /// 01 "Reading": header, then questions, then records, as counted, and
    /// nothing left over. Else FORMAT with CR 6's place: the message's length
    /// where an octet is missing, else the first octet that breaks a rule or is
    /// left over.
    pub fn read(octets: &'a [u8]) -> Result<Message<'a>, Place> {
        let mut cursor = Cursor::new(octets);
        let header = cursor.header().ok_or(octets.len())?;
        let [id, flags, question_count, answer, authority, additional] = header;
        let mut message = Message {
            id,
            flags,
            question_count,
            questions: &[],
            asked: None,
            record_count: 0,
            tsigs: Found::None,
            tkeys: Found::None,
            tkey_answers: Found::None,
            keys: Found::None,
        };
        message.read_questions(&mut cursor)?;
        message.read_section(&mut cursor, answer, Section::Answer)?;
        message.read_section(&mut cursor, authority, Section::Authority)?;
        message.read_section(&mut cursor, additional, Section::Additional)?;
        match cursor.at_end() {
            true => Ok(message),
            false => Err(cursor.place),
        }
    }

    /// RFC 1035 §4.1.2.
    fn read_questions(&mut self, cursor: &mut Cursor<'a>) -> Result<(), Place> {
        let start = cursor.place;
        for _ in 0..self.question_count {
            cursor.name()?;
            let asked = cursor.after_question_name().ok_or(cursor.octets.len())?;
            self.asked = Some(asked);
        }
        self.questions = &cursor.octets[start..cursor.place];
        Ok(())
    }

    /// Reads the records of a section and keeps those of interest.
    fn read_section(
        &mut self,
        cursor: &mut Cursor<'a>,
        count: u16,
        section: Section,
    ) -> Result<(), Place> {
        for _ in 0..count {
            let record = Record::read(cursor, self.record_count, section)?;
            self.record_count += 1;
            match record.kind {
                TSIG => self.tsigs.add(record),
                TKEY => {
                    self.tkeys.add(record);
                    if section == Section::Answer {
                        self.tkey_answers.add(record);
                    }
                }
                KEY if section == Section::Additional => self.keys.add(record),
                _ => (),
            }
        }
        Ok(())
    }

    /// 01, number 7: the QR bit.
    pub fn is_response(&self) -> bool {
        self.flags & 0x8000 != 0
    }

    /// RFC 1035 §4.1.1: the low four bits of the flags.
    pub fn rcode(&self) -> u16 {
        self.flags & 0x000f
    }

    /// 01 "Reading", last paragraph: opcode 0 and one question, of type 249
    /// and class 255.
    pub fn is_tkey_request(&self) -> bool {
        self.flags & 0x7800 == 0 && self.question_count == 1 && self.asked == Some((TKEY, ANY))
    }

    /// 01 "Judging" step 1, for the whole message (ruling 4): its TSIG, if any,
    /// is the very last record, in the additional section, and well formed.
    pub fn tsig(&self) -> Result<Option<Tsig<'a>>, BadTsig> {
        match self.tsigs {
            Found::None => Ok(None),
            Found::One(record)
                if record.section == Section::Additional
                    && record.index + 1 == self.record_count =>
            {
                Tsig::read(&record).map(Some).ok_or(BadTsig)
            }
            _ => Err(BadTsig),
        }
    }

    /// CR 3: whether a TSIG stands anywhere, well placed or not.
    pub fn has_tsig(&self) -> bool {
        !matches!(self.tsigs, Found::None)
    }

    /// 01 "Judging" step 6: exactly one TKEY record in the whole message, in
    /// the additional section and well formed. Other data can be ill formed in
    /// renewals and adoptions only (ruling 5).
    pub fn tkey(&self) -> Option<Tkey<'a>> {
        match self.tkeys {
            Found::One(record) if record.section == Section::Additional => {
                let mut tkey = Tkey::read(&record)?;
                tkey.task = Task::read(tkey.mode, tkey.other_data)?;
                Some(tkey)
            }
            _ => None,
        }
    }

    /// CR 1: exactly one TKEY record in the answer section, well formed, its
    /// other data free: 002 §2.4.2 answers a repeated adoption with none.
    pub fn tkey_answer(&self) -> Option<Tkey<'a>> {
        match self.tkey_answers {
            Found::One(record) => Tkey::read(&record),
            _ => None,
        }
    }
}

/// A TSIG record (RFC 8945 §4.2).
#[derive(Clone, Debug)]
pub struct Tsig<'a> {
    /// Where the record begins in its message.
    pub place: usize,
    /// The owner name, written out.
    pub name: Name,
    pub algorithm: &'a [u8],
    pub time_signed: u64,
    pub fudge: u16,
    pub mac: &'a [u8],
    pub original_id: u16,
    pub error: u16,
    pub other_data: &'a [u8],
}

impl<'a> Tsig<'a> {
    /// 01 "Reading", second paragraph. `None` is ill formed.
    fn read(record: &Record<'a>) -> Option<Tsig<'a>> {
        if record.class != ANY || record.ttl != 0 {
            return None;
        }
        let mut data = Cursor::new(record.data);
        let tsig = Tsig {
            place: record.owner,
            name: record.owner()?,
            algorithm: data.plain_name()?,
            time_signed: data.u48()?,
            fudge: data.u16()?,
            mac: data.sized()?,
            original_id: data.u16()?,
            error: data.u16()?,
            other_data: data.sized()?,
        };
        data.at_end().then_some(tsig)
    }
}

/// A TKEY record (RFC 2930 §2).
#[derive(Clone, Debug)]
pub struct Tkey<'a> {
    /// The owner name, written out.
    pub name: Name,
    pub algorithm: &'a [u8],
    pub inception: u32,
    pub expiration: u32,
    pub mode: u16,
    pub error: u16,
    pub key_data: &'a [u8],
    pub other_data: &'a [u8],
    /// Of a request only; an answer asks for nothing.
    pub task: Task<'a>,
}

impl<'a> Tkey<'a> {
    /// 01 "Reading", second paragraph; class and TTL are ignored. `None` is ill
    /// formed, whatever other data says.
    fn read(record: &Record<'a>) -> Option<Tkey<'a>> {
        let mut data = Cursor::new(record.data);
        let tkey = Tkey {
            name: record.owner()?,
            algorithm: data.plain_name()?,
            inception: data.u32()?,
            expiration: data.u32()?,
            mode: data.u16()?,
            error: data.u16()?,
            key_data: data.sized()?,
            other_data: data.sized()?,
            task: Task::Unsupported,
        };
        data.at_end().then_some(tkey)
    }
}

/// 002 §2.5, CR 10: how both sides come to a renewal's new secret.
#[derive(Clone, Copy, Debug, PartialEq, Eq)]
pub enum Scheme {
    DiffieHellman,
    ServerAssigned,
    ResolverAssigned,
}

/// What a TKEY asks for.
#[derive(Clone, Copy, Debug)]
pub enum Task<'a> {
    Deletion,
    Renewal(Scheme, OldKey<'a>),
    Adoption(OldKey<'a>),
    Unsupported,
}

impl<'a> Task<'a> {
    /// 01 "Reading", modes; CR 10.
    fn read(mode: u16, other_data: &'a [u8]) -> Option<Task<'a>> {
        let scheme = match mode {
            DELETION => return Some(Task::Deletion),
            ADOPTION => return OldKey::read(other_data).map(Task::Adoption),
            RENEWAL_BY_DIFFIE_HELLMAN => Scheme::DiffieHellman,
            RENEWAL_BY_SERVER => Scheme::ServerAssigned,
            RENEWAL_BY_RESOLVER => Scheme::ResolverAssigned,
            _ => return Some(Task::Unsupported),
        };
        OldKey::read(other_data).map(|old| Task::Renewal(scheme, old))
    }
}

/// The other data of renewal and adoption: OldName and OldAlgorithm.
#[derive(Clone, Copy, Debug)]
pub struct OldKey<'a> {
    pub name: &'a [u8],
    pub algorithm: &'a [u8],
}

impl<'a> OldKey<'a> {
    /// 01 "Reading", second paragraph; 002 §2.3.4: both names, nothing more.
    fn read(other_data: &'a [u8]) -> Option<OldKey<'a>> {
        let mut other = Cursor::new(other_data);
        let old = OldKey {
            name: other.plain_name()?,
            algorithm: other.plain_name()?,
        };
        other.at_end().then_some(old)
    }
}

/// CR 1 and CR 10: whether these octets are exactly one KEY record, its owner
/// name not compressed.
pub fn is_key_record(octets: &[u8]) -> bool {
    let mut cursor = Cursor::new(octets);
    let mut read = || {
        cursor.plain_name()?;
        let (kind, _class, _ttl, _data) = cursor.after_owner()?;
        Some(kind == KEY && cursor.at_end())
    };
    read() == Some(true)
}
