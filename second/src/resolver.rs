//! The resolver's half. CR 1; 002 §2.3, §2.4 and §2.5.2, RFC 2930 §4.2.
//! Signing is the caller's: a request is written without its TSIG, and a reply
//! comes with its TSIG and the caller's verdict on the MAC.

use crate::judging::PARTIAL_REVOKE;
use crate::names;
use crate::table::Algorithm;
use crate::wire::{self, Message, Tkey, Tsig, ANY, TKEY};

/// The refusals of CR 1's own list, `as u8` its numbers.
#[derive(Clone, Copy, Debug, PartialEq, Eq)]
pub enum Refusal {
    Lost = 1,
    WrongId,
    Unsigned,
    Format,
    Room,
    NoKey,
}

/// A key as the resolver knows it: the times are those of TKEY, which has no
/// partial revocation (002 §2.3.3).
#[derive(Clone, Debug, PartialEq, Eq)]
pub struct Key {
    pub name: Vec<u8>,
    pub algorithm: Algorithm,
    pub inception: u32,
    pub expiration: u32,
}

impl Key {
    /// 002 §2.3.4: OldName and OldAlgorithm.
    fn as_old(&self) -> Vec<u8> {
        [&self.name[..], &self.algorithm.name()].concat()
    }
}

/// No key, the adopted key, or the adopted key and one offered key.
#[derive(Clone, Debug, Default, PartialEq, Eq)]
pub enum Keys {
    #[default]
    None,
    Adopted(Key),
    Offered {
        adopted: Key,
        offered: Key,
    },
}

/// One of the two keys.
#[derive(Clone, Copy, Debug, Default, PartialEq, Eq)]
pub enum Which {
    #[default]
    Adopted,
    Offered,
}

impl Which {
    /// CR 1: "and so on in turn".
    fn other(self) -> Which {
        match self {
            Which::Adopted => Which::Offered,
            Which::Offered => Which::Adopted,
        }
    }
}

/// What a request asks for.
#[derive(Clone, Copy, Debug, PartialEq, Eq)]
pub enum Asked {
    Ordinary,
    Renewal,
    Adoption,
    Deletion,
}

impl Asked {
    /// 01 "Reading", modes.
    fn mode(self) -> Option<u16> {
        match self {
            Asked::Ordinary => None,
            Asked::Renewal => Some(wire::RENEWAL_BY_SERVER),
            Asked::Adoption => Some(wire::ADOPTION),
            Asked::Deletion => Some(wire::DELETION),
        }
    }
}

/// A request that waits for its reply.
#[derive(Clone, Copy, Debug, PartialEq, Eq)]
pub struct Request {
    pub id: u16,
    pub asked: Asked,
}

/// What a renewal asks for.
#[derive(Clone, Copy, Debug)]
pub struct Wish<'a> {
    /// The name asked for; the root leaves it to the server.
    pub name: &'a [u8],
    pub algorithm: Algorithm,
    pub inception: u32,
    pub expiration: u32,
    /// The KEY record, under which the server encrypts the new secret.
    pub key_record: &'a [u8],
}

/// A request that was written.
#[derive(Clone, Copy, Debug, PartialEq, Eq)]
pub struct Written {
    pub length: usize,
    /// The key to sign it with.
    pub signer: Which,
}

/// The fields are open, so that a resolver may hold what no reply gives.
#[derive(Clone, Debug, Default, PartialEq, Eq)]
pub struct Resolver {
    pub keys: Keys,
    pub open: Option<Request>,
    /// Whose turn it is to sign an adoption of the offered key.
    pub turn: Which,
}

impl Resolver {
    /// A resolver with this adopted key and nothing else.
    pub fn holding(adopted: Key) -> Resolver {
        Resolver {
            keys: Keys::Adopted(adopted),
            ..Resolver::default()
        }
    }

    /// The adopted key, if there is a key.
    pub fn adopted(&self) -> Option<&Key> {
        match &self.keys {
            Keys::None => None,
            Keys::Adopted(adopted) | Keys::Offered { adopted, .. } => Some(adopted),
        }
    }

    /// The offered key, if there is one.
    pub fn offered(&self) -> Option<&Key> {
        match &self.keys {
            Keys::Offered { offered, .. } => Some(offered),
            _ => None,
        }
    }

    /// CR 1: the ID of an ordinary message is noted as an open request.
    pub fn note(&mut self, id: u16) {
        let asked = Asked::Ordinary;
        self.open = Some(Request { id, asked });
    }

    /// 002 §2.3.1 and §2.5.2, signed with the key that it renews.
    pub fn renewal(&mut self, id: u16, wish: &Wish, buffer: &mut [u8]) -> Result<Written, Refusal> {
        let adopted = usable(self.adopted())?;
        ensure(names::is_name(wish.name), Refusal::NoKey)?;
        ensure(wire::is_key_record(wish.key_record), Refusal::NoKey)?;
        let question = Question {
            name: wish.name,
            algorithm: wish.algorithm,
            inception: wish.inception,
            expiration: wish.expiration,
            mode: wire::RENEWAL_BY_SERVER,
            other_data: adopted.as_old(),
        };
        let octets = question.octets(id, wish.key_record);
        let asked = Asked::Renewal;
        self.write(Request { id, asked }, Which::Adopted, &octets, buffer)
    }

    /// 002 §2.4.1. A retry is signed with the offered key, since the reply to
    /// the first may be lost and the old key gone (002 §2.4.2), then with the
    /// old one, since the first itself may be lost.
    pub fn adoption(&mut self, id: u16, buffer: &mut [u8]) -> Result<Written, Refusal> {
        let adopted = usable(self.adopted())?;
        let offered = usable(self.offered())?;
        let question = Question {
            name: &offered.name,
            algorithm: offered.algorithm,
            inception: offered.inception,
            expiration: offered.expiration,
            mode: wire::ADOPTION,
            other_data: adopted.as_old(),
        };
        let octets = question.octets(id, &[]);
        let asked = Asked::Adoption;
        let written = self.write(Request { id, asked }, self.turn, &octets, buffer)?;
        self.turn = self.turn.other();
        Ok(written)
    }

    /// RFC 2930 §4.2, signed with the key that it deletes.
    pub fn deletion(&mut self, id: u16, buffer: &mut [u8]) -> Result<Written, Refusal> {
        let adopted = usable(self.adopted())?;
        let question = Question {
            name: &adopted.name,
            algorithm: adopted.algorithm,
            inception: 0,
            expiration: 0,
            mode: wire::DELETION,
            other_data: Vec::new(),
        };
        let octets = question.octets(id, &[]);
        let asked = Asked::Deletion;
        self.write(Request { id, asked }, Which::Adopted, &octets, buffer)
    }

    /// Writes the request, if there is room, in place of the open one.
    fn write(
        &mut self,
        request: Request,
        signer: Which,
        octets: &[u8],
        buffer: &mut [u8],
    ) -> Result<Written, Refusal> {
        let length = octets.len();
        ensure(length <= 65_535 && length <= buffer.len(), Refusal::Room)?;
        buffer[..length].copy_from_slice(octets);
        self.open = Some(request);
        Ok(Written { length, signer })
    }

    /// CR 1: reads a reply; `good` is the verdict on its MAC. Answers with
    /// whether renewal is due. A refusal leaves the request open.
    pub fn reply(&mut self, good: bool, octets: &[u8]) -> Result<bool, Refusal> {
        ensure((12..=65_535).contains(&octets.len()), Refusal::Format)?;
        let message = Message::read(octets).map_err(|_| Refusal::Format)?;
        let Request { id, asked } = self.open.ok_or(Refusal::Lost)?;
        ensure(message.id == id, Refusal::WrongId)?;
        let tsig = message.tsig().ok().flatten();
        let tsig = tsig.filter(|_| good).ok_or(Refusal::Unsigned)?;
        self.open = None;
        if let Some(answer) = granted(&message, &tsig, asked) {
            self.change_keys(asked, &answer);
        }
        Ok(message.is_response() && tsig.error == PARTIAL_REVOKE)
    }

    /// What a granted request does to the keys.
    fn change_keys(&mut self, asked: Asked, answer: &Tkey) {
        let (adopted, offered) = (self.adopted().cloned(), self.offered().cloned());
        let algorithm = Algorithm::from_name(answer.algorithm);
        match (asked, adopted, offered, algorithm) {
            (Asked::Renewal, Some(adopted), _, Some(algorithm)) => {
                let offered = Key {
                    name: answer.name.octets().to_vec(),
                    algorithm,
                    inception: answer.inception,
                    expiration: answer.expiration,
                };
                self.keys = Keys::Offered { adopted, offered };
                self.turn = Which::Adopted;
            }
            (Asked::Adoption, _, Some(offered), _) => self.keys = Keys::Adopted(offered),
            (Asked::Deletion, ..) => self.keys = Keys::None,
            _ => (),
        }
    }
}

/// CR 1: the answer of a reply without errors, with one TKEY answer of its
/// request's mode.
fn granted<'a>(message: &Message<'a>, tsig: &Tsig, asked: Asked) -> Option<Tkey<'a>> {
    let is_without_error = message.is_response() && message.rcode() == 0 && tsig.error == 0;
    let answer = message.tkey_answer().filter(|_| is_without_error)?;
    (Some(answer.mode) == asked.mode() && answer.error == 0).then_some(answer)
}

/// CR 1, number 6: there is such a key, and its name is a wire name.
fn usable(key: Option<&Key>) -> Result<&Key, Refusal> {
    key.filter(|key| names::is_name(&key.name))
        .ok_or(Refusal::NoKey)
}

/// Refuses unless something holds.
fn ensure(holds: bool, refusal: Refusal) -> Result<(), Refusal> {
    holds.then_some(()).ok_or(refusal)
}

/// The TKEY record of a request: its error is 0, and it has no key data.
struct Question<'a> {
    name: &'a [u8],
    algorithm: Algorithm,
    inception: u32,
    expiration: u32,
    mode: u16,
    other_data: Vec<u8>,
}

impl Question<'_> {
    /// The whole request: opcode and flags 0, one question for the TKEY's own
    /// name, TKEY and any KEY record in the additional section (002 §2.4.1,
    /// §2.5.2). OldName and OldAlgorithm are short, so that 16 bits hold RDLENGTH.
    fn octets(&self, id: u16, key_record: &[u8]) -> Vec<u8> {
        let data = [
            &self.algorithm.name()[..],
            &self.inception.to_be_bytes(),
            &self.expiration.to_be_bytes(),
            &self.mode.to_be_bytes(),
            &[0; 4], // error, key size
            &(self.other_data.len() as u16).to_be_bytes(),
            &self.other_data,
        ]
        .concat();
        let kind_and_class = [TKEY.to_be_bytes(), ANY.to_be_bytes()].concat();
        let additional = if key_record.is_empty() { 1 } else { 2 };
        [
            &id.to_be_bytes()[..],
            &[0, 0, 0, 1, 0, 0, 0, 0, 0, additional],
            self.name,
            &kind_and_class,
            self.name,
            &kind_and_class,
            &[0; 4], // TTL
            &(data.len() as u16).to_be_bytes(),
            &data,
            key_record,
        ]
        .concat()
    }
}

/// The key data of a reply's only TKEY answer.
pub fn answer_data(octets: &[u8]) -> Option<Vec<u8>> {
    let message = Message::read(octets).ok()?;
    Some(message.tkey_answer()?.key_data.to_vec())
}
