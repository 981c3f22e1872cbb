//! Several messages in one call. CR 4; CR 10.

use crate::calls::{self, ensure, Done, Refusal};
use crate::judging::Given;
use crate::table::Table;

/// The most items of a batch.
pub const MOST_ITEMS: usize = 64;

/// Where octets of an item stand among the lent ones: their first place, from
/// 0, and their count.
#[derive(Clone, Copy, Debug, PartialEq, Eq)]
pub struct Span {
    pub from: u64,
    pub size: u64,
}

impl Span {
    /// The octets there, if all are lent. Nothing is added up, so no sum can be
    /// too great. Even a span of no octets begins at the end at the latest.
    fn part<'a>(&self, lent: &'a [u8]) -> Option<&'a [u8]> {
        let from = usize::try_from(self.from).ok()?;
        let size = usize::try_from(self.size).ok()?;
        lent.get(from..)?.get(..size)
    }
}

/// What a message call takes beside the table and its room.
#[derive(Clone, Copy, Debug, PartialEq, Eq)]
pub struct Item {
    pub time: u64,
    /// The verdict on the MAC.
    pub good: bool,
    pub message: Span,
    pub offer: Span,
    /// The keying verdict.
    pub fits: bool,
    /// The lent KEY record.
    pub record: Span,
}

impl Item {
    /// Its message and what is given with it, if all of it is inside the lent
    /// octets.
    fn parts<'a>(&self, lent: &'a [u8]) -> Option<(&'a [u8], Given<'a>)> {
        let message = self.message.part(lent)?;
        let given = Given {
            time: self.time,
            good: self.good,
            offer: self.offer.part(lent)?,
            fits: self.fits,
            record: self.record.part(lent)?,
        };
        Some((message, given))
    }
}

/// CR 4: the items in order, each a message call that is lent the room left.
/// The replies stand one after another in `replies`; the length of each is in
/// its item's result. A batch refused whole leaves table and buffer alone.
pub fn batch(
    table: &mut Table,
    lent: &[u8],
    items: &[Item],
    replies: &mut [u8],
) -> Result<Vec<Result<Done, Refusal>>, Refusal> {
    ensure(table.keeps_rules(), Refusal::Table)?;
    ensure(items.len() <= MOST_ITEMS, Refusal::Batch)?;
    let parts: Option<Vec<_>> = items.iter().map(|item| item.parts(lent)).collect();
    let parts = parts.ok_or(Refusal::Batch)?;
    let mut left = replies;
    let mut results = Vec::with_capacity(items.len());
    for (message, given) in parts {
        let result = calls::message(table, &given, message, left);
        let length = result.map_or(0, |done| done.length);
        left = &mut left[length..];
        results.push(result);
    }
    Ok(results)
}
