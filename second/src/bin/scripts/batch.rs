//! A batch in parts, and what its line printed, read back from text.

use crate::desk::{read_number, Outcome, Want};
use crate::maker::Call;
use crate::wire::Ask;

/// Where octets stand among the lent ones.
#[derive(Clone, Copy, Default)]
pub struct Span {
    pub from: u64,
    pub size: u64,
}

/// One item, and what the papers say of it.
#[derive(Clone)]
pub struct Item {
    /// Its room is the batch's.
    pub call: Call,
    pub message: Span,
    pub offer: Span,
    pub record: Span,
    /// The message in parts, for its reply to be worked out.
    pub ask: Option<Ask>,
    /// None where the readers must only agree.
    pub want: Option<Want>,
}

#[derive(Clone, Default)]
pub struct Batch {
    pub room: u64,
    pub octets: Vec<u8>,
    pub items: Vec<Item>,
}

impl Batch {
    pub fn new(room: u64) -> Batch {
        Batch {
            room,
            ..Batch::default()
        }
    }

    /// Puts octets behind those that are lent already.
    pub fn lay(&mut self, octets: &[u8]) -> Span {
        let from = self.octets.len() as u64;
        self.octets.extend(octets);
        Span {
            from,
            size: octets.len() as u64,
        }
    }

    /// All that is lent.
    pub fn whole(&self) -> Span {
        Span {
            from: 0,
            size: self.octets.len() as u64,
        }
    }

    /// The octets of a span that is inside.
    pub fn part(&self, span: Span) -> &[u8] {
        &self.octets[span.from as usize..][..span.size as usize]
    }

    pub fn asks(&mut self, call: &Call, ask: &Ask, want: Want) {
        self.sends(call, &ask.octets(), Some(want));
        self.last().ask = Some(ask.clone());
    }

    /// The same for octets as they are, whose reply is not worked out.
    pub fn sends(&mut self, call: &Call, message: &[u8], want: Option<Want>) {
        let message = self.lay(message);
        let offer = self.lay(&call.offer);
        let record = self.lay(&call.record);
        self.items.push(Item {
            call: call.clone(),
            message,
            offer,
            record,
            ask: None,
            want,
        });
    }

    pub fn last(&mut self) -> &mut Item {
        self.items.last_mut().expect("an item")
    }
}

/// What a line printed.
#[derive(Clone, Debug, PartialEq)]
pub enum Answer {
    Bad,
    /// Refused whole.
    Refused(u64),
    Done(Vec<Outcome>),
}

impl Answer {
    pub fn read(printed: &str) -> Answer {
        if printed.starts_with("bad line ") {
            return Answer::Bad;
        }
        let mut lines = printed.lines();
        let first = lines.next().and_then(|line| line.split_once(' '));
        let (number, count) = first.expect("two words");
        let items: Vec<Outcome> = lines.map(Outcome::read).collect();
        assert_eq!(read_number(count), items.len() as u64, "lines as counted");
        match read_number(number) {
            0 => Answer::Done(items),
            number => {
                assert!(items.is_empty(), "nothing after a refusal");
                Answer::Refused(number)
            }
        }
    }
}
