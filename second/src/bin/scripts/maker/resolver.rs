//! The resolver's calls as script lines, its requests and the replies to them.

use super::{Maker, Signer, LINE_LIMIT, MAX_ROOM};
use crate::resolver::{Key, Read, Resolver, Said};
use crate::wire::{self, Ask, Question, Record, Tkey, Tsig};

/// What a renewal asks for.
#[derive(Clone)]
pub struct Wish {
    /// No octets where the caller gives no name.
    pub name: Vec<u8>,
    pub algorithm: u64,
    pub inception: u32,
    pub expiration: u32,
    pub key: Record,
}

/// A request that the resolver is told to write.
#[derive(Clone)]
pub struct Order {
    pub kind: &'static str,
    pub id: u16,
    /// The line without its room.
    pub front: String,
    /// `adopted` or `offered`.
    pub signer: &'static str,
    /// The request that the papers ask for, not signed.
    pub ask: Ask,
}

/// A reply in parts, so that one part can be bent.
#[derive(Clone)]
pub struct Reply {
    pub ask: Ask,
    /// The first record of the answer.
    pub tkey: Tkey,
}

impl Reply {
    pub fn octets(&self) -> Vec<u8> {
        let mut ask = self.ask.clone();
        ask.sections[0].insert(0, self.tkey.record());
        ask.octets()
    }
}

/// A request or reply with these questions and additional records.
fn plain(id: u16, flags: u16, questions: Vec<Question>, keys: Vec<Record>) -> Ask {
    Ask {
        id,
        flags,
        questions,
        sections: [Vec::new(), Vec::new(), Vec::new()],
        tkey: None,
        keys,
        keys_first: false,
        tsig: None,
        squeeze: false,
        counts: [0; 4],
        tail: Vec::new(),
    }
}

fn order_ask(id: u16, tkey: Tkey, keys: Vec<Record>) -> Ask {
    let question = Question {
        name: tkey.owner.clone(),
        kind: wire::TKEY,
        class: wire::ANY,
    };
    Ask {
        tkey: Some(tkey),
        ..plain(id, 0, vec![question], keys)
    }
}

/// The TKEY of a request for a key of this name, algorithm and times.
fn order_tkey(key: &Key, mode: u16, other: Vec<u8>) -> Tkey {
    Tkey {
        owner: key.name.clone(),
        class: wire::ANY,
        ttl: 0,
        algorithm: wire::algorithm_name(key.algorithm),
        inception: key.inception,
        expiration: key.expiration,
        mode,
        error: 0,
        key: Vec::new(),
        key_off: 0,
        other,
        other_off: 0,
        tail: Vec::new(),
    }
}

fn old(key: &Key) -> Vec<u8> {
    wire::joined(&[&key.name, &wire::algorithm_name(key.algorithm)])
}

impl Maker<'_> {
    /// Writes one line of the resolver's, runs it and counts what it reached.
    pub fn tell(&mut self, line: &str) -> Said {
        self.put(line.as_bytes());
        let said = match line.len() > LINE_LIMIT {
            true => Said::Bad,
            false => Said::read(&self.printed(line.as_bytes())),
        };
        self.shown = self.printed(b"keys");
        let before = std::mem::replace(&mut self.resolver, Resolver::read(&self.shown));
        if self.counts() {
            self.note_told(line, &before, &said);
        }
        said
    }

    /// The same, and shows the keys then.
    pub fn step(&mut self, line: &str) -> Said {
        let said = self.tell(line);
        self.tell("keys");
        said
    }

    pub fn hold_line(&mut self, key: &Key) -> String {
        format!(
            "hold {} {} {} {}",
            self.hex(&key.name),
            self.number(key.algorithm),
            self.number(key.inception.into()),
            self.number(key.expiration.into())
        )
    }

    pub fn holds(&mut self, key: &Key) -> bool {
        let line = self.hold_line(key);
        self.step(&line) == Said::Number(0) && self.resolver == Resolver::holding(key)
    }

    pub fn notes(&mut self, id: u16) -> bool {
        let after = Resolver {
            open: Some(("ordinary".to_string(), id)),
            ..self.resolver.clone()
        };
        let line = format!("note {}", self.number(id.into()));
        self.step(&line) == Said::Number(0) && self.resolver == after
    }

    /// Sends a line that is refused with this number and changes nothing.
    pub fn refuses(&mut self, line: &str, number: u64) -> bool {
        let before = self.resolver.clone();
        self.step(line) == Said::unwritten(number) && self.resolver == before
    }

    /// Writes a request into this room and says whether it is the one wanted.
    pub fn writes(&mut self, order: &Order, room: u64) -> bool {
        let octets = order.ask.octets();
        let line = format!("{} {}", order.front, self.number(room));
        if octets.len() as u64 > room.min(MAX_ROOM) {
            return self.refuses(&line, 5);
        }
        let mut after = self.resolver.clone();
        after.open = Some((order.kind.to_string(), order.id));
        if order.kind == "adoption" {
            after.offered_signs = !after.offered_signs;
        }
        self.step(&line) == Said::wrote(order.signer, octets) && self.resolver == after
    }

    /// Reads a reply and says whether it came to what is wanted.
    pub fn reads(&mut self, good: bool, octets: &[u8], want: &Read) -> bool {
        let after = want.after(self.resolver.clone());
        let said = self.reply(good, octets);
        said == want.said() && self.resolver == after
    }

    pub fn reply(&mut self, good: bool, octets: &[u8]) -> Said {
        let verdict = if good { "good" } else { "bad" };
        let line = format!("reply {verdict} {}", self.hex(octets));
        self.step(&line)
    }

    /// A key that no desk knows.
    pub fn some_key(&mut self) -> Key {
        let first = self.rng.letters(3);
        let second = self.rng.some_octets(1, 8);
        Key {
            name: wire::name(&[&first, &second]),
            algorithm: self.rng.algorithm(),
            inception: self.rng.next() as u32,
            expiration: self.rng.next() as u32,
        }
    }

    /// The adopted key of a pair as the resolver knows it.
    pub fn key_of(&self, s: &Signer) -> Key {
        let adopted = self.pair(s.pair).adopted.as_ref().expect("an adopted key");
        Key {
            name: s.name(),
            algorithm: s.algorithm,
            inception: adopted.inception as u32,
            expiration: adopted.expiry as u32,
        }
    }

    /// A wish that the desk grants.
    pub fn wish(&mut self) -> Wish {
        let inception = self.rng.next() as u32;
        let owner = self.some_key().name;
        let data = self.rng.some_octets(0, 24);
        let mut key = wire::record(&owner, wire::KEY, wire::IN, &data);
        key.class = *self.rng.pick(&[1, 255, 77]);
        key.ttl = self.rng.below(5000) as u32;
        Wish {
            name: match self.rng.chance(60) {
                true => Vec::new(),
                false => self.some_key().name,
            },
            algorithm: self.rng.algorithm(),
            inception,
            expiration: self.rng.expiration_after(inception),
            key,
        }
    }

    /// A request of this kind, for which the resolver has the keys.
    pub fn order(&mut self, kind: &str) -> Order {
        let id = self.rng.next() as u16;
        self.order_with(kind, id)
    }

    pub fn order_with(&mut self, kind: &str, id: u16) -> Order {
        match kind {
            "renewal" => {
                let wish = self.wish();
                self.renewal_order(id, &wish)
            }
            "adoption" => self.adoption_order(id),
            _ => self.deletion_order(id),
        }
    }

    /// The line of a renewal without its room, whatever the parts are.
    pub fn renewal_front(&mut self, id: u16, wish: &Wish, key: &[u8]) -> String {
        format!(
            "renewal {} {} {} {} {} {}",
            self.number(id.into()),
            self.hex(&wish.name),
            self.number(wish.algorithm),
            self.number(wish.inception.into()),
            self.number(wish.expiration.into()),
            self.hex(key)
        )
    }

    pub fn renewal_order(&mut self, id: u16, wish: &Wish) -> Order {
        let asked = Key {
            name: match wish.name.is_empty() {
                true => vec![0],
                false => wish.name.clone(),
            },
            algorithm: wish.algorithm,
            inception: wish.inception,
            expiration: wish.expiration,
        };
        let tkey = order_tkey(&asked, wire::BY_SERVER, old(self.adopted_key()));
        Order {
            kind: "renewal",
            id,
            front: self.renewal_front(id, wish, &wish.key.octets()),
            signer: "adopted",
            ask: order_ask(id, tkey, vec![wish.key.clone()]),
        }
    }

    fn adoption_order(&mut self, id: u16) -> Order {
        let offered = self.resolver.offered.as_ref().expect("an offered key");
        let tkey = order_tkey(offered, wire::ADOPT, old(self.adopted_key()));
        Order {
            kind: "adoption",
            id,
            front: format!("adoption {}", self.number(id.into())),
            signer: match self.resolver.offered_signs {
                true => "offered",
                false => "adopted",
            },
            ask: order_ask(id, tkey, Vec::new()),
        }
    }

    fn deletion_order(&mut self, id: u16) -> Order {
        let key = Key {
            inception: 0,
            expiration: 0,
            ..self.adopted_key().clone()
        };
        Order {
            kind: "deletion",
            id,
            front: format!("deletion {}", self.number(id.into())),
            signer: "adopted",
            ask: order_ask(id, order_tkey(&key, wire::DELETE, Vec::new()), Vec::new()),
        }
    }

    pub fn adopted_key(&self) -> &Key {
        self.resolver.adopted.as_ref().expect("an adopted key")
    }

    /// The key that is to sign a request.
    pub fn signing_key(&self, order: &Order) -> Key {
        match order.signer {
            "offered" => self.resolver.offered.clone().expect("an offered key"),
            _ => self.adopted_key().clone(),
        }
    }

    /// A TSIG by this key.
    pub fn tsig_by(&mut self, key: &Key, time: u64) -> Tsig {
        self.tsig_of(key.name.clone(), key.algorithm, time)
    }

    /// A good reply to a request, as a desk would give it, and what it comes to.
    pub fn granting(&mut self, order: &Order) -> (Reply, Read) {
        let key = self.signing_key(order);
        let mut ask = plain(
            order.id,
            wire::QR,
            order.ask.questions.clone(),
            order.ask.keys.clone(),
        );
        let time = self.rng.below(1 << 48);
        ask.tsig = Some(self.tsig_by(&key, time));
        let mut tkey = order.ask.tkey.clone().expect("a TKEY request");
        let want = match order.kind {
            "renewal" => {
                let new = self.some_key();
                tkey.owner = new.name.clone();
                tkey.algorithm = wire::algorithm_name(new.algorithm);
                tkey.inception = new.inception;
                tkey.expiration = new.expiration;
                tkey.key = self.rng.some_octets(1, 16);
                Read::Offered(new)
            }
            "adoption" => {
                if self.rng.chance(50) {
                    tkey.other.clear();
                }
                Read::Adopted
            }
            _ => Read::Deleted,
        };
        (Reply { ask, tkey }, want)
    }

    /// A resolver with an adopted key, and an offered one if asked.
    pub fn prepared(&mut self, offered: bool) -> bool {
        let key = self.some_key();
        self.holds(&key) && (!offered || self.offered_by_reply())
    }

    fn offered_by_reply(&mut self) -> bool {
        let order = self.order("renewal");
        let (reply, want) = self.granting(&order);
        self.writes(&order, MAX_ROOM) && self.reads(true, &reply.octets(), &want)
    }

    /// A request of this kind, written and open.
    pub fn opened(&mut self, kind: &str) -> Option<Order> {
        let offered = kind == "adoption" || self.rng.chance(30);
        let ready = self.prepared(offered);
        let order = self.order(kind);
        (ready && self.writes(&order, MAX_ROOM)).then_some(order)
    }
}
