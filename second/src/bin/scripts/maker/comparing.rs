//! `compare` as script lines.

use super::{verdict, Call, Maker, LINE_LIMIT};
use crate::compare::{read_said, Said};

/// What leads to a reply of ours.
#[derive(Clone)]
pub struct Judged {
    pub listing: Vec<u8>,
    pub call: Call,
    pub message: Vec<u8>,
}

impl Maker<'_> {
    /// Writes one such line, runs it and counts what it reached.
    pub fn compare_line(&mut self, line: &[u8]) -> Said {
        self.put(line);
        let said = match line.len() > LINE_LIMIT {
            true => None,
            false => read_said(&self.printed(line)),
        };
        if self.counts() {
            self.note_compare(line, said);
        }
        said
    }

    pub fn compare_text(&mut self, judged: &Judged, reply: &[u8]) -> String {
        format!(
            "compare {} {} {} {} {} {} {} {}",
            self.hex(&judged.listing),
            self.number(judged.call.time),
            verdict(judged.call.good),
            self.hex(&judged.call.offer),
            self.hex(&judged.message),
            verdict(judged.call.fits),
            self.hex(&judged.call.record),
            self.hex(reply)
        )
    }

    /// Compares a reply, and says whether number and place are as the papers say.
    pub fn compares(&mut self, judged: &Judged, reply: &[u8], number: u64, place: usize) -> bool {
        let line = self.compare_text(judged, reply);
        self.compare_line(line.as_bytes()) == Some((number, place as u64))
    }
}
