//! What a line reached, whatever scenario made it, and rules that hold of every call.

use super::Maker;
use crate::batch::{Answer, Item};
use crate::compare;
use crate::desk::{Outcome, Table};
use crate::listing;
use crate::resolver::{Resolver, Said};
use crate::signing::Told;
use crate::wire;

impl Maker<'_> {
    pub(super) fn note(&mut self, line: &[u8], before: &Table, seen: &Outcome) {
        if !self.table.is_sound() {
            self.surprise("the table breaks a rule");
        }
        if seen.bad || seen.listed {
            self.hit(if seen.bad { "bad line" } else { "list" });
            self.check_unchanged(before);
            return;
        }
        let text = String::from_utf8_lossy(line);
        let words: Vec<&str> = text.split(' ').collect();
        let call = words[0];
        self.hit(&format!("{call} {}", seen.number));
        if call == "look" {
            self.note_look(before, seen);
        } else {
            let time = words[1].parse().expect("a time that read");
            self.note_clock(call, time, before, seen);
        }
        if call == "message" {
            self.note_message(before, seen);
        }
        if seen.number != 0 {
            self.check_refused(before, seen);
        }
        let message = if call == "message" {
            5
        } else {
            words.len() - 1
        };
        self.check_place(seen, words[message].len() as u64 / 2);
    }

    /// The resolver's lines.
    pub(super) fn note_told(&mut self, line: &str, before: &Resolver, said: &Said) {
        if self.printed(b"list") != self.listing {
            self.surprise("a resolver's line changed the table");
        }
        match said {
            Said::Bad => self.hit("bad line"),
            Said::Listed => self.hit("keys"),
            _ => {
                let call = line.split(' ').next().unwrap_or_default();
                self.hit(&format!("{call} {}", said.number()));
                if *said == Said::Read(0, true) {
                    self.hit("renewal due");
                }
            }
        }
        let idle = matches!(said, Said::Bad | Said::Listed) || said.number() != 0;
        if idle && self.resolver != *before {
            self.surprise("the resolver changed");
        }
        if said.number() != 0 && !said.is_bare() {
            self.surprise("a refusal returned more than its number");
        }
    }

    /// The signing calls' lines.
    pub(super) fn note_signing(&mut self, line: &str, told: &Told) {
        if self.printed(b"list") != self.listing || self.printed(b"keys") != self.shown {
            self.surprise("a signing line changed the table or the resolver");
        }
        let Some(number) = told.number() else {
            return self.hit("bad line");
        };
        let call = line.split(' ').next().unwrap_or_default();
        self.hit(&format!("{call} {number}"));
        if number != 0 && !told.is_bare() {
            self.surprise("a refusal returned more than its number");
        }
    }

    /// The batch's lines.
    pub(super) fn note_batch(&mut self, before: &Table, answer: &Answer) {
        if !self.table.is_sound() {
            self.surprise("the table breaks a rule");
        }
        match answer {
            Answer::Bad => self.hit("bad line"),
            Answer::Refused(number) => self.hit(&format!("batch {number}")),
            Answer::Done(_) => return self.hit("batch 0"),
        }
        self.check_unchanged(before);
    }

    /// `list ROOM`, `load` and `mend`.
    pub(super) fn note_listing(&mut self, line: &[u8], before: &Table, said: &listing::Said) {
        if !self.table.is_sound() {
            self.surprise("the table breaks a rule");
        }
        let text = String::from_utf8_lossy(line);
        let call = match text.split(' ').next() {
            Some("list") => "list ROOM",
            word => word.unwrap_or_default(),
        };
        match said {
            listing::Said::Bad => self.hit("bad line"),
            _ => self.hit(&format!("{call} {}", said.number())),
        }
        let listing::Said::Done(dropped) = said else {
            return self.check_unchanged(before);
        };
        for reason in listing::REASONS {
            if dropped.iter().any(|(_, why)| *why == reason) {
                self.hit(&format!("line dropped for {reason}"));
            }
        }
    }

    /// `compare`: the place is 0 or in the reply, or a line of the listing.
    pub(super) fn note_compare(&mut self, line: &[u8], said: compare::Said) {
        if self.printed(b"list") != self.listing || self.printed(b"keys") != self.shown {
            self.surprise("a compare line changed the table or the resolver");
        }
        let Some((number, place)) = said else {
            return self.hit("bad line");
        };
        self.hit(&format!("compare {number}"));
        let length = line.rsplit(|&o| o == b' ').next().map_or(0, <[u8]>::len) as u64 / 2;
        let is_good = match number {
            6 => (12..=length).contains(&place),
            21 => place < length.max(1),
            18 => place > 0,
            _ => place == 0,
        };
        if !is_good {
            self.surprise("the place is not as it should be");
        }
    }

    /// One item of a batch that is done; the table is the one that the item left.
    pub(super) fn note_item(&mut self, item: &Item, before: &Table, seen: &Outcome) {
        self.hit(&format!("batch item {}", seen.number));
        self.note_clock("batch item", item.call.time, before, seen);
        self.note_message(before, seen);
        if seen.number != 0 {
            self.check_refused(before, seen);
        }
        self.check_place(seen, item.message.size);
    }

    /// An item of a batch and the same call alone.
    pub(super) fn check_alike(&mut self, alone: &Outcome, seen: &Outcome) {
        if alone != seen {
            self.surprise("an item came out otherwise than its call alone");
        }
    }

    pub(super) fn check_resolver_unchanged(&mut self) {
        if self.printed(b"keys") != self.shown {
            self.surprise("a line of the table's changed the resolver");
        }
    }

    fn check_unchanged(&mut self, before: &Table) {
        if self.table != *before {
            self.surprise("the table changed");
        }
    }

    fn check_refused(&mut self, before: &Table, seen: &Outcome) {
        if !seen.is_bare() {
            self.surprise("a refusal returned more than its number");
        }
        if self.table.pairs != before.pairs {
            self.surprise("a refusal changed a pair");
        }
    }

    /// The place beside FORMAT is behind the header and in the message or at its end, the
    /// message having this length; every other result has place 0.
    fn check_place(&mut self, seen: &Outcome, length: u64) {
        let is_good = match seen.number {
            6 => (12..=length).contains(&seen.place),
            _ => seen.place == 0,
        };
        if !is_good {
            self.surprise("the place is not as it should be");
        }
    }

    fn note_clock(&mut self, call: &str, time: u64, before: &Table, seen: &Outcome) {
        let kept = seen.number == 2 || seen.number == 3;
        let due = if kept { before.clock } else { time };
        if self.table.clock != due {
            self.surprise("the clock is not as it should be");
        }
        if seen.number > 3 && time > before.clock {
            self.hit(&format!("clock moved by a refused {call}"));
        }
    }

    fn note_look(&mut self, before: &Table, seen: &Outcome) {
        self.check_unchanged(before);
        if seen.number != 0 {
            return;
        }
        if seen.pair == 0 {
            self.hit("look 0 0");
            return;
        }
        self.hit("look found");
        if !self.pair(seen.pair).is_live(self.table.clock) {
            self.hit("look found an expired key");
        }
    }

    fn note_message(&mut self, before: &Table, seen: &Outcome) {
        if seen.number != 0 {
            return;
        }
        if seen.error != 0 {
            self.hit(&format!("tsig error {}", seen.error));
        }
        match (seen.rcode(), seen.tkey()) {
            (None, _) => self.note_unanswered(seen),
            (Some(rcode), tkey) => {
                self.hit(&format!("rcode {rcode}"));
                if let Some(tkey) = tkey {
                    self.hit(&format!("tkey error {}", tkey.error));
                    if tkey.error == 0 {
                        return self.note_success(tkey.mode, before, seen);
                    }
                }
            }
        }
        if self.table.pairs != before.pairs {
            self.surprise("a message without success changed a pair");
        }
    }

    fn note_unanswered(&mut self, seen: &Outcome) {
        if seen.pair == 0 {
            self.hit("success handed up unsigned");
            return;
        }
        self.hit("success passed up");
        self.hit(match seen.skew.signum() {
            -1 => "skew negative",
            0 => "skew zero",
            _ => "skew positive",
        });
    }

    fn note_success(&mut self, mode: u16, before: &Table, seen: &Outcome) {
        let was = before.pairs[seen.pair as usize - 1].clone();
        let is = self.pair(seen.pair).clone();
        if wire::RENEWALS.contains(&mode) {
            let way = match was.waiting {
                None => "granted",
                Some(_) => "replacing a waiting key",
            };
            self.hit(&format!("success renewal of mode {mode} {way}"));
            if let Some(key) = &is.waiting {
                self.note_wrap(key.inception, key.expiry);
            }
            return;
        }
        let item = match (mode, was.waiting.is_some()) {
            (wire::ADOPT, _) if was.adopted != is.adopted => "success adoption",
            (wire::ADOPT, false) => "success re-adoption without a waiting key",
            (wire::ADOPT, true) => "success re-adoption with a waiting key",
            (_, true) if is.adopted.is_none() => "success deletion of both keys of a pair",
            (_, true) => "success deletion of the waiting key",
            (_, false) => "success deletion of the adopted key",
        };
        self.hit(item);
    }

    /// The reply has these times modulo 2^32.
    fn note_wrap(&mut self, inception: u64, expiry: u64) {
        match (inception >> 32, expiry >> 32) {
            (0, 0) => {}
            (0, _) => self.hit("renewal with times on both sides of 2^32"),
            _ => self.hit("renewal with times above 2^32"),
        }
    }
}
