//! The batch as a script line, held against its items called one by one.

use super::{printed, verdict, Maker, LINE_LIMIT};
use crate::batch::{Answer, Batch, Item};
use crate::desk::{Outcome, Table};
use second::script::Runner;

/// Room above this does as this does.
pub const MAX_BATCH_ROOM: u64 = 100_000;

impl Maker<'_> {
    /// Writes one line of a batch, runs it and counts what it reached.
    pub fn batch_line(&mut self, line: &str) -> Answer {
        self.put(line.as_bytes());
        let answer = match line.len() > LINE_LIMIT {
            true => Answer::Bad,
            false => Answer::read(&self.printed(line.as_bytes())),
        };
        self.listing = self.printed(b"list");
        let before = std::mem::replace(&mut self.table, Table::read(&self.listing));
        if self.counts() {
            self.note_batch(&before, &answer);
            self.check_resolver_unchanged();
        }
        answer
    }

    pub fn batch_text(&mut self, batch: &Batch) -> String {
        let room = self.number(batch.room);
        let mut line = format!("batch {room} {}", self.hex(&batch.octets));
        for item in &batch.items {
            let (message, offer, record) = (item.message, item.offer, item.record);
            let words = [
                self.number(item.call.time),
                verdict(item.call.good).to_string(),
                self.number(message.from),
                self.number(message.size),
                self.number(offer.from),
                self.number(offer.size),
                verdict(item.call.fits).to_string(),
                self.number(record.from),
                self.number(record.size),
            ];
            line = line + " " + &words.join(" ");
        }
        line
    }

    /// Sends a batch that is not refused whole, and says whether each item came to what is
    /// wanted.
    pub fn batch(&mut self, batch: &Batch) -> bool {
        let line = self.batch_text(batch);
        let apart = (self.runner.clone(), self.table.clone());
        match self.batch_line(&line) {
            Answer::Done(seen) => self.goes_one_by_one(batch, &seen, apart),
            _ => false,
        }
    }

    pub fn refuses_batch(&mut self, batch: &Batch) -> bool {
        let line = self.batch_text(batch);
        self.batch_line(&line) == Answer::Refused(17)
    }

    /// CR 4: "Results, replies and final table equal calling one by one, each call lent the
    /// room that is left." The calls are made apart, from the state before the batch; the
    /// table goes through all states between.
    fn goes_one_by_one(
        &mut self,
        batch: &Batch,
        seen: &[Outcome],
        (mut apart, before): (Runner, Table),
    ) -> bool {
        let after = std::mem::replace(&mut self.table, before);
        let mut left = batch.room.min(MAX_BATCH_ROOM);
        let mut as_wanted = batch.items.len() == seen.len();
        for (item, seen) in batch.items.iter().zip(seen) {
            as_wanted &= self.is_wanted(item, seen);
            let line = self.call_alone(batch, item, left);
            let alone = Outcome::read(&printed(&mut apart, line.as_bytes()));
            let table = Table::read(&printed(&mut apart, b"list"));
            let before = std::mem::replace(&mut self.table, table);
            if self.counts() {
                self.note_item(item, &before, seen);
                self.check_alike(&alone, seen);
            }
            left = left.saturating_sub(seen.length);
        }
        as_wanted &= self.table == after;
        self.table = after;
        as_wanted
    }

    /// By the table as it stands before the item.
    fn is_wanted(&self, item: &Item, seen: &Outcome) -> bool {
        let Some(want) = item.want else {
            return true;
        };
        let reply = item
            .ask
            .as_ref()
            .map(|a| self.due_reply(&item.call, a, want));
        want.fits(seen) && reply.is_none_or(|reply| reply == seen.reply)
    }

    fn call_alone(&mut self, batch: &Batch, item: &Item, room: u64) -> String {
        format!(
            "message {} {} {} {room} {} {} {}",
            item.call.time,
            verdict(item.call.good),
            self.hex(batch.part(item.offer)),
            self.hex(batch.part(item.message)),
            verdict(item.call.fits),
            self.hex(batch.part(item.record))
        )
    }
}
