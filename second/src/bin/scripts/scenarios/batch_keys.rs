//! Batches whose items change keys: of one pair, and of several; items that share octets; and
//! batches by lot, and very large ones.

use super::batches::{add_some, add_still, set_offer, STILL};
use super::damage::{mutate, MUTATIONS};
use super::large::{ask_for_reply, padded, padding, MAX};
use super::mixture::{any_request, REQUESTS};
use super::{cross, list, room_for, two_words, Group};
use crate::batch::{Answer, Batch, Span};
use crate::desk::Want;
use crate::maker::{tkey, Maker, Signer, LINE_LIMIT, MAX_BATCH_ROOM};
use crate::wire::{self, joined, key_name, record};

pub fn groups() -> Vec<Group> {
    vec![
        Group {
            name: "batch of one pair",
            weight: 8,
            items: || list(&ONE_PAIR),
            run: one_pair,
        },
        Group {
            name: "batch of pairs",
            weight: 3,
            items: || list(&PAIRS),
            run: pairs,
        },
        Group {
            name: "batch's octets",
            weight: 6,
            items: || list(&OCTETS),
            run: octets,
        },
        Group {
            name: "batch's mixture",
            weight: 12,
            items: || cross(&["short", "long"], &MIXTURES),
            run: batch_mixture,
        },
        Group {
            name: "large batch",
            weight: 2,
            items: || list(&LARGE),
            run: large,
        },
    ]
}

/// Steps of keys, put into a batch one after another. What is wanted is worked out from the
/// keys that the steps before leave.
struct Steps<'m, 'a> {
    maker: &'m mut Maker<'a>,
    batch: Batch,
}

impl<'m, 'a> Steps<'m, 'a> {
    fn new(maker: &'m mut Maker<'a>) -> Steps<'m, 'a> {
        Steps {
            maker,
            batch: Batch::new(MAX_BATCH_ROOM),
        }
    }

    /// A renewal that is granted, and the waiting key that it makes, the pair having made so
    /// many in this batch before.
    fn renew(&mut self, by: &Signer, made: u64) -> Signer {
        let mode = *self.maker.rng.pick(&wire::RENEWALS);
        self.renew_by(by, made, mode)
    }

    fn renew_by(&mut self, by: &Signer, made: u64, mode: u16) -> Signer {
        let algorithm = self.maker.rng.algorithm();
        let mut ask = self.maker.renewal_of(by, mode);
        tkey(&mut ask).algorithm = wire::algorithm_name(algorithm);
        let call = self.maker.call_for(&ask, by.time);
        self.batch.asks(&call, &ask, Want::Tkey(0));
        Signer {
            serial: self.maker.pair(by.pair).next + made,
            algorithm,
            ..by.clone()
        }
    }

    fn adopt(&mut self, by: &Signer, key: &Signer, error: u16) {
        let ask = self.maker.adoption(by, &key.name(), key.algorithm);
        let call = self.maker.call(by.time);
        self.batch.asks(&call, &ask, Want::Tkey(error));
    }

    fn delete(&mut self, by: &Signer, key: &Signer, error: u16) {
        let ask = self.maker.deletion(by, &key.name());
        let call = self.maker.call(by.time);
        self.batch.asks(&call, &ask, Want::Tkey(error));
    }

    fn say(&mut self, by: &Signer, want: Want) {
        let ask = self.maker.ordinary(by);
        let call = self.maker.call(by.time);
        self.batch.asks(&call, &ask, want);
    }

    /// The last step comes to this instead.
    fn but(&mut self, want: Want) {
        self.batch.last().want = Some(want);
    }

    /// Lends one octet less than the last step's reply has.
    fn lacks_room(&mut self) {
        let last = self.batch.last().clone();
        let (ask, want) = (last.ask.expect("parts"), last.want.expect("an outcome"));
        self.batch.room = self.maker.due_reply(&last.call, &ask, want).len() as u64 - 1;
        self.but(Want::Refused(8));
    }

    fn send(self) -> bool {
        self.maker.batch(&self.batch)
    }
}

const ONE_PAIR: [&str; 21] = [
    "renewal, adoption, message with the new key",
    "renewal, adoption, message with the old key",
    "renewal, message",
    "renewal, message with the waiting key",
    "two renewals, adoption of the first",
    "two renewals, adoption of the second",
    "adoption, renewal, adoption",
    "renewal, adoption, adoption by the old key",
    "renewal, adoption, adoption by the new key",
    "renewal, adoption, deletion of the old key",
    "renewal, adoption, deletion, message",
    "renewal, deletion",
    "deletion, message",
    "deletion, renewal",
    "deletion, deletion",
    "three renewals and adoptions in turn",
    "renewal in a batch, adoption in the next",
    "renewal without room, adoption",
    "adoption without room, message with the old key",
    "deletion without room, message",
    "bad verdict, good verdict",
];

fn one_pair(maker: &mut Maker, item: &str) -> bool {
    let old = maker.fresh_keys(1).remove(0);
    let mut steps = Steps::new(maker);
    match item {
        "deletion, message" => {
            steps.delete(&old, &old, 0);
            steps.say(&old, Want::BadKey);
        }
        "deletion, renewal" => {
            steps.delete(&old, &old, 0);
            steps.renew(&old, 0);
            steps.but(Want::BadKey);
        }
        "deletion, deletion" => {
            steps.delete(&old, &old, 0);
            steps.delete(&old, &old, 0);
            steps.but(Want::BadKey);
        }
        "bad verdict, good verdict" => {
            steps.say(&old, Want::BadSig);
            steps.batch.last().call.good = false;
            steps.say(&old, Want::Passed(0));
        }
        "adoption, renewal, adoption" => {
            let next = steps.maker.pair(old.pair).next;
            let algorithm = old.algorithm;
            let asked = steps
                .maker
                .adoption(&old, &key_name(next, &old.suffix), algorithm);
            let call = steps.maker.call(old.time);
            steps.batch.asks(&call, &asked, Want::Tkey(20));
            let new = steps.renew(&old, 0);
            steps.adopt(&old, &new, 0);
        }
        "three renewals and adoptions in turn" => {
            let mut key = old;
            for made in 0..3 {
                let new = steps.renew(&key, made);
                steps.adopt(&key, &new, 0);
                key = new;
            }
            steps.say(&key, Want::Passed(0));
        }
        "renewal in a batch, adoption in the next" => {
            let new = steps.renew(&old, 0);
            let renewed = steps.send();
            let mut steps = Steps::new(maker);
            steps.adopt(&old, &new, 0);
            steps.say(&new, Want::Passed(0));
            return renewed && steps.send();
        }
        _ if item.contains("without room") => return without_room(maker, item, &old),
        _ => after_renewal(&mut steps, item, &old),
    }
    steps.send()
}

fn after_renewal(steps: &mut Steps, item: &str, old: &Signer) {
    let new = steps.renew(old, 0);
    if item.contains("renewal, adoption") {
        steps.adopt(old, &new, 0);
    }
    match item {
        "renewal, adoption, message with the new key" => steps.say(&new, Want::Passed(0)),
        "renewal, adoption, message with the old key" => steps.say(old, Want::BadKey),
        "renewal, message" => steps.say(old, Want::Partial),
        "renewal, message with the waiting key" => steps.say(&new, Want::BadKey),
        "two renewals, adoption of the first" => {
            steps.renew(old, 1);
            steps.adopt(old, &new, 20);
        }
        "two renewals, adoption of the second" => {
            let second = steps.renew(old, 1);
            steps.adopt(old, &second, 0);
            steps.say(&second, Want::Passed(0));
        }
        "renewal, adoption, adoption by the old key" => {
            steps.adopt(old, &new, 0);
            steps.but(Want::BadKey);
        }
        // The other data that it repeats is emptied.
        "renewal, adoption, adoption by the new key" => steps.adopt(&new, &new, 0),
        "renewal, adoption, deletion of the old key" => steps.delete(&new, old, 20),
        "renewal, deletion" => {
            steps.delete(old, old, 0);
            steps.but(Want::Partial);
        }
        _ => {
            steps.delete(&new, &new, 0);
            steps.say(&new, Want::BadKey);
        }
    }
}

/// What has no room changes no key, and leaves its room to the next.
fn without_room(maker: &mut Maker, item: &str, old: &Signer) -> bool {
    if item.starts_with("adoption") {
        maker.grant(old);
    }
    let waiting = maker.pair(old.pair).waiting.clone();
    let mut steps = Steps::new(maker);
    match item {
        "renewal without room, adoption" => {
            // The offer makes the reply long, so that the next one has room.
            let mode = *steps.maker.rng.pick(&wire::RENEWALS[..2]);
            let new = steps.renew_by(old, 0, mode);
            let offer = steps.maker.rng.octets(1024);
            steps.batch.last().offer = steps.batch.lay(&offer);
            steps.batch.last().call.offer = offer;
            steps.lacks_room();
            steps.adopt(old, &new, 20);
        }
        "deletion without room, message" => {
            steps.delete(old, old, 0);
            steps.lacks_room();
            steps.say(old, Want::Passed(0));
        }
        _ => {
            let waiting = waiting.expect("a waiting key");
            let new = Signer {
                serial: waiting.serial,
                algorithm: waiting.algorithm,
                ..old.clone()
            };
            steps.adopt(old, &new, 0);
            steps.lacks_room();
            steps.say(old, Want::Partial);
        }
    }
    steps.send()
}

const PAIRS: [&str; 8] = [
    "renewals and adoptions by turns",
    "deletion, message of the other",
    "renewal, message of the other",
    "each asks for the other's keys",
    "each names the other's key as old",
    "all pass",
    "all renew",
    "all renew, then all adopt",
];

fn pairs(maker: &mut Maker, item: &str) -> bool {
    if item.starts_with("all") {
        return all_pairs(maker, item);
    }
    let keys = maker.fresh_keys(2);
    let [one, other] = &keys[..] else {
        return false;
    };
    let mut steps = Steps::new(maker);
    match item {
        "renewals and adoptions by turns" => {
            let new_one = steps.renew(one, 0);
            let new_other = steps.renew(other, 0);
            steps.adopt(one, &new_one, 0);
            steps.say(other, Want::Partial);
            steps.adopt(other, &new_other, 0);
            steps.say(&new_one, Want::Passed(0));
            steps.say(&new_other, Want::Passed(0));
        }
        "deletion, message of the other" => {
            steps.delete(one, one, 0);
            steps.say(other, Want::Passed(0));
            steps.say(one, Want::BadKey);
        }
        "renewal, message of the other" => {
            steps.renew(one, 0);
            steps.say(other, Want::Passed(0));
            steps.say(one, Want::Partial);
        }
        // To a pair, the other's keys do not exist.
        "each asks for the other's keys" => {
            steps.delete(one, other, 20);
            let new_other = steps.renew(other, 0);
            let new_one = steps.renew(one, 0);
            steps.adopt(one, &new_other, 20);
            steps.adopt(other, &new_one, 20);
            steps.adopt(one, other, 20);
        }
        _ => {
            for (by, old) in [(one, other), (other, one)] {
                let mut ask = steps.maker.renewal(by);
                tkey(&mut ask).other = joined(&[&old.name(), &old.algorithm_name()]);
                let call = steps.maker.call(by.time);
                steps.batch.asks(&call, &ask, Want::Tkey(17));
            }
            steps.say(one, Want::Passed(0));
        }
    }
    steps.send()
}

/// Every pair of the table, as far as the items go.
fn all_pairs(maker: &mut Maker, item: &str) -> bool {
    let most = if item == "all renew, then all adopt" {
        32
    } else {
        64
    };
    let count = maker.count().clamp(2, most);
    let keys = maker.fresh_keys(count);
    let mut steps = Steps::new(maker);
    if item == "all pass" {
        for key in &keys {
            steps.say(key, Want::Passed(0));
        }
        return steps.send();
    }
    let new: Vec<Signer> = keys.iter().map(|key| steps.renew(key, 0)).collect();
    if item == "all renew, then all adopt" {
        for (old, new) in keys.iter().zip(&new) {
            steps.adopt(old, new, 0);
        }
    }
    steps.send()
}

const OCTETS: [&str; 17] = [
    "two items on the same octets",
    "a renewal and the same octets again",
    "one message, three offers",
    "one offer, three messages",
    "the offer inside its message",
    "the offer is the message",
    "the offer inside another message",
    "the message inside the next one's offer",
    "a message inside another",
    "messages that share octets",
    "octets between",
    "in reverse order",
    "no messages among others",
    "no offers",
    "offers of 1024 and 1025 that overlap",
    "one message cut at many lengths",
    "one message with more and more behind it",
];

fn octets(maker: &mut Maker, item: &str) -> bool {
    let keys = maker.fresh_keys(3);
    let mut batch = Batch::new(MAX_BATCH_ROOM);
    match item {
        "a message inside another" | "messages that share octets" => {
            return shared(maker, item, &keys)
        }
        "two items on the same octets" => {
            let kind = *maker.rng.pick(&STILL);
            add_still(maker, &mut batch, &keys[0], kind);
            batch.items.push(batch.items[0].clone());
        }
        "one message cut at many lengths" | "one message with more and more behind it" => {
            add_still(maker, &mut batch, &keys[0], "passed up");
            add_some(maker, &mut batch, &keys, 3);
            add_other_lengths(maker, &mut batch, item);
        }
        "octets between" => {
            for key in &keys {
                let gap = maker.rng.some_octets(1, 20);
                batch.lay(&gap);
                add_renewal(maker, &mut batch, key);
            }
        }
        "in reverse order" => {
            add_some(maker, &mut batch, &keys, 5);
            batch.items.reverse();
        }
        "no messages among others" => {
            for key in &keys {
                add_renewal(maker, &mut batch, key);
                let call = maker.call(key.time);
                batch.sends(&call, &[], Some(Want::Refused(4)));
                let end = batch.octets.len() as u64;
                batch.last().message.from = maker.rng.within(0, end);
            }
        }
        _ => {
            for key in &keys {
                add_renewal(maker, &mut batch, key);
            }
            share_offers(maker, &mut batch, item);
        }
    }
    maker.batch(&batch)
}

/// A renewal that is granted, which shows its offer.
fn add_renewal(maker: &mut Maker, batch: &mut Batch, key: &Signer) {
    let ask = maker.renewal(key);
    let call = maker.call_for(&ask, key.time);
    batch.asks(&call, &ask, Want::Tkey(0));
}

/// The first message again, shorter or longer than it is: the octets that are missing are lent
/// all the same, and those that are left over are another's.
fn add_other_lengths(maker: &mut Maker, batch: &mut Batch, item: &str) {
    let first = batch.items[0].clone();
    let (whole, end) = (first.message.size, batch.octets.len() as u64);
    for _ in 0..maker.rng.within(5, 40) {
        let mut other = first.clone();
        let size = match item {
            "one message cut at many lengths" => maker.rng.below(whole),
            _ => maker.rng.within(whole + 1, end),
        };
        other.message.size = size;
        other.ask = None;
        other.want = Some(match size {
            0..12 => Want::Refused(4),
            _ => Want::Format(size.min(whole) as usize),
        });
        batch.items.push(other);
    }
}

/// Gives three renewals, each of a pair of its own, other messages or other offers.
fn share_offers(maker: &mut Maker, batch: &mut Batch, item: &str) {
    let within = |span: Span, skip: u64, size: u64| Span {
        from: span.from + skip,
        size,
    };
    let [first, second, third] = [0, 1, 2].map(|place| batch.items[place].message);
    match item {
        // The same key asks thrice, and each time a new one takes the waiting one's place.
        "one message, three offers" | "a renewal and the same octets again" => {
            let (message, ask) = (first, batch.items[0].ask.clone());
            let (fits, record) = (batch.items[0].call.fits, batch.items[0].record);
            let lent = batch.part(record).to_vec();
            for item in &mut batch.items {
                (item.message, item.ask, item.record) = (message, ask.clone(), record);
                (item.call.fits, item.call.record) = (fits, lent.clone());
            }
        }
        _ => {}
    }
    let offers = match item {
        "one message, three offers" => return,
        "a renewal and the same octets again" | "one offer, three messages" => {
            [batch.items[0].offer; 3]
        }
        "the offer inside its message" => [first, second, third].map(|span| within(span, 12, 9)),
        "the offer is the message" => [first, second, third],
        "the offer inside another message" => [within(second, 1, 20), first, within(first, 0, 1)],
        "the message inside the next one's offer" => {
            let size = second.from + second.size;
            [third, Span { from: 0, size }, within(second, 0, 5)]
        }
        "no offers" => [
            Span::default(),
            within(second, 3, 0),
            within(batch.whole(), batch.octets.len() as u64, 0),
        ],
        _ => {
            let padding = maker.rng.octets(1100);
            let long = batch.lay(&padding);
            [1024, 1025, 1024].map(|size| within(long, size % 2, size))
        }
    };
    for (place, offer) in offers.into_iter().enumerate() {
        set_offer(batch, place, offer);
    }
}

/// An unsigned message whose last record's data is the next message or begins it.
fn shared(maker: &mut Maker, item: &str, keys: &[Signer]) -> bool {
    let mut batch = Batch::new(MAX_BATCH_ROOM);
    add_renewal(maker, &mut batch, &keys[0]);
    let inner = batch.octets.clone();
    let common = match item {
        "a message inside another" => inner.len(),
        _ => maker.rng.within(1, inner.len() as u64 - 1) as usize,
    };
    let mut outer = maker.unsigned(&keys[1]);
    let data = record(&[0], wire::NULL, wire::IN, &inner[..common]);
    outer.sections[2].push(data);
    let outer_octets = outer.octets();
    let place = (outer_octets.len() - common) as u64;
    // The renewal's octets, of which the first ones end the outer message.
    batch.octets = joined(&[&outer_octets, &inner[common..]]);
    batch.items[0].message.from += place;
    batch.items[0].offer.from += place;
    batch.items[0].record.from += place;
    let call = maker.call(keys[1].time);
    batch.asks(&call, &outer, Want::Handed);
    batch.last().message = Span {
        from: 0,
        size: outer_octets.len() as u64,
    };
    if maker.rng.chance(50) {
        batch.items.reverse();
    }
    maker.batch(&batch)
}

const MIXTURES: [&str; 4] = ["requests", "damaged", "spans by lot", "all by lot"];

/// No outcome is wanted here: an item and its call alone must only agree, and both readers.
fn batch_mixture(maker: &mut Maker, item: &str) -> bool {
    let (length, kind) = two_words(item);
    let count = match length {
        "short" => maker.rng.within(2, 6),
        _ => maker.rng.within(7, 40),
    };
    let mut batch = Batch::new(MAX_BATCH_ROOM);
    let mut pair = maker.any_pair();
    let mut time = maker.tick();
    for _ in 0..count {
        let request = *maker.rng.pick(&REQUESTS);
        let (call, mut message) = any_request(maker, pair, time, request);
        if kind == "damaged" || (kind == "all by lot" && maker.rng.chance(30)) {
            let change = *maker.rng.pick(&MUTATIONS);
            mutate(maker, &mut message, change);
        }
        batch.sends(&call, &message, None);
        // Mostly on, now and then back.
        time = (time + maker.rng.below(3)).saturating_sub(maker.rng.below(2));
        if maker.rng.chance(50) {
            pair = maker.any_pair();
        }
    }
    if kind.contains("by lot") {
        lay_by_lot(maker, &mut batch);
        batch.room = maker.rng.below(2000);
    }
    maker.batch(&batch)
}

/// Some messages, offers and records stand elsewhere, inside all the same.
fn lay_by_lot(maker: &mut Maker, batch: &mut Batch) {
    let end = batch.octets.len() as u64;
    let spans: Vec<Span> = batch.items.iter().map(|item| item.message).collect();
    let records: Vec<Span> = batch.items.iter().map(|item| item.record).collect();
    for item in &mut batch.items {
        if maker.rng.chance(20) {
            item.message = *maker.rng.pick(&spans);
        }
        if maker.rng.chance(20) {
            item.message.size -= maker.rng.below(2);
        }
        if maker.rng.chance(20) {
            let from = maker.rng.within(0, end);
            let size = maker.rng.within(0, (end - from).min(1100));
            item.offer = Span { from, size };
        }
        if maker.rng.chance(20) {
            item.record = *maker.rng.pick(&records);
        }
        if maker.rng.chance(10) {
            item.record.size = item.record.size.saturating_sub(1);
        }
    }
}

const LARGE: [&str; 17] = [
    "64 pairs",
    "9000 items",
    "line of 200000 octets",
    "line of 200001 octets",
    "message of 65535",
    "message of 65536",
    "reply of 65535 and another",
    "reply of 65536 in all the room",
    "replies of 80000 in room of 80000",
    "replies of 80000 in room of 79999",
    "replies of 80000 in room of 65535",
    "replies of 99999 in room of 100001",
    "replies of 100000 in room of 100000",
    "replies of 100000 in room of 99999",
    "replies of 100001 in room of 100001",
    "replies of 100001 in room of 2^64 - 1",
    "64 items on a long message",
];

fn large(maker: &mut Maker, item: &str) -> bool {
    match item {
        "64 pairs" => {
            maker.fill();
            let item = *maker.rng.pick(&["all pass", "all renew"]);
            all_pairs(maker, item)
        }
        "9000 items" => many_items(maker),
        _ if item.starts_with("line") => long_line(maker, item),
        _ if item.starts_with("replies of") => large_replies(maker, item),
        _ => large_message(maker, item),
    }
}

/// Far more than a batch may have, in a line that holds hardly more.
fn many_items(maker: &mut Maker) -> bool {
    let items = " 0 bad 0 0 0 0 bad 0 0".repeat(9_000);
    maker.batch_line(&format!("batch 9 -{items}")) == Answer::Refused(17)
}

/// Leading zeros of the room make a line as long as one likes.
fn long_line(maker: &mut Maker, item: &str) -> bool {
    let length: usize = match item {
        "line of 200000 octets" => LINE_LIMIT,
        _ => LINE_LIMIT + 1,
    };
    let zeros = "0".repeat(length - "batch  -".len());
    let want = match length > LINE_LIMIT {
        true => Answer::Bad,
        false => Answer::Done(Vec::new()),
    };
    maker.batch_line(&format!("batch {zeros} -")) == want
}

/// Two replies on the same octets, and a third for what is missing then.
fn large_replies(maker: &mut Maker, item: &str) -> bool {
    let words = item.trim_start_matches("replies of ");
    let (total, room) = words.split_once(" in room of ").expect("two numbers");
    let rest = room_for(0, total) - 80_000;
    let s = maker.fresh_keys(1).remove(0);
    let mut batch = Batch::new(room_for(0, room));
    add_error(maker, &mut batch, &s, 40_000);
    batch.items.push(batch.items[0].clone());
    let mut lengths = vec![40_000, 40_000];
    if rest > 0 {
        add_error(maker, &mut batch, &s, rest);
        lengths.push(rest);
    }
    let mut left = batch.room.min(MAX_BATCH_ROOM);
    for (item, length) in batch.items.iter_mut().zip(lengths) {
        match length > left {
            true => item.want = Some(Want::Refused(8)),
            false => left -= length,
        }
    }
    maker.batch(&batch)
}

/// A TKEY error whose reply has so many octets, with the request's key data in it.
fn add_error(maker: &mut Maker, batch: &mut Batch, s: &Signer, length: u64) {
    let mut ask = maker.request(s, 3, &s.name());
    let call = maker.call(s.time);
    let missing = length as usize - maker.due_reply(&call, &ask, Want::Tkey(19)).len();
    tkey(&mut ask).key.extend(padding(missing));
    batch.asks(&call, &ask, Want::Tkey(19));
}

/// A large one between others, or many times.
fn large_message(maker: &mut Maker, item: &str) -> bool {
    let keys = maker.fresh_keys(2);
    let mut batch = Batch::new(MAX_BATCH_ROOM);
    let call = maker.call(keys[0].time);
    let signed = maker.ordinary(&keys[0]);
    if item == "64 items on a long message" {
        let length = maker.rng.within(10_000, 30_000);
        let message = padded(signed, length as usize);
        batch.sends(&call, &message, Some(Want::Passed(0)));
        batch.items = vec![batch.items[0].clone(); 64];
        return maker.batch(&batch);
    }
    add_some(maker, &mut batch, &keys, 2);
    match item {
        "message of 65535" => batch.sends(&call, &padded(signed, MAX), Some(Want::Passed(0))),
        "message of 65536" => {
            batch.sends(&call, &padded(signed, MAX + 1), Some(Want::Refused(4)));
        }
        _ => {
            let size = if item.contains("65536") { MAX + 1 } else { MAX };
            let (call, ask, want) = ask_for_reply(maker, &keys[0], "error", size);
            batch.asks(&call, &ask, want);
        }
    }
    add_some(maker, &mut batch, &keys, 2);
    maker.batch(&batch)
}
