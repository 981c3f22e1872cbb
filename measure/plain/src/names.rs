//! Wire names: stepping over them, writing them out, putting them in order.

use std::cmp::Ordering;

/// The most octets of a name, its final 0 counted.
const LONGEST: usize = 255;

/// The first octet that a pointer may lead to.
const FIRST_TARGET: usize = 12;

/// Whether names are put in order octet by octet, and not eight at a time.
const OCTET_BY_OCTET: bool = cfg!(feature = "octets");

/// Room for a name that is written out, and seven octets more: so eight can be
/// read from each of its octets on.
pub type Buffer = [u8; LONGEST + 7];

/// A good name, not compressed. Its octets may go on behind it.
#[derive(Clone, Copy)]
pub struct Name<'a> {
    octets: &'a [u8],
    length: usize,
}

impl<'a> Name<'a> {
    pub fn new(octets: &'a [u8], length: usize) -> Name<'a> {
        Name { octets, length }
    }

    pub fn octets(&self) -> &'a [u8] {
        &self.octets[..self.length]
    }

    /// What follows the first label; the root has none.
    pub fn parent(&self) -> Option<Name<'a>> {
        let label = match self.octets[0] {
            0 => return None,
            length => 1 + usize::from(length),
        };
        Some(Name::new(&self.octets[label..], self.length - label))
    }

    /// The first label as a number, as it is written in a key's name: in decimal
    /// without leading zeros.
    pub fn serial(&self) -> Option<u64> {
        let label = &self.octets[1..=usize::from(self.octets[0])];
        if label.len() > 10 || matches!(label, [] | [b'0', ..]) {
            return None;
        }
        let mut number = 0;
        for digit in label {
            match digit {
                b'0'..=b'9' => number = 10 * number + u64::from(digit - b'0'),
                _ => return None,
            }
        }
        Some(number)
    }

    /// Eight octets from a place on as a number, 0 where the name has ended.
    #[inline]
    fn raw_eight(&self, from: usize) -> u64 {
        let eight = match self.octets.get(from..).and_then(<[u8]>::first_chunk) {
            Some(eight) => u64::from_be_bytes(*eight),
            None => {
                let mut eight = [0; 8];
                let rest = self.octets.get(from..).unwrap_or_default();
                eight[..rest.len()].copy_from_slice(rest);
                u64::from_be_bytes(eight)
            }
        };
        let left = 8 * self.length.saturating_sub(from);
        eight & !u64::MAX.unbounded_shr(left as u32)
    }

    /// The first eight octets as a number, A to Z as a to z.
    #[inline]
    pub fn first_eight(&self) -> u64 {
        match OCTET_BY_OCTET {
            true => 0,
            false => lower(self.raw_eight(0)),
        }
    }

    /// In the order of the rows, where the first eight are equal. No name begins
    /// with another, so an end needs no test of its own.
    #[inline]
    pub fn order_of_rest(&self, other: &Name) -> Ordering {
        if OCTET_BY_OCTET {
            let lower = u8::to_ascii_lowercase;
            let octets = self.octets().iter().map(lower);
            return octets.cmp(other.octets().iter().map(lower));
        }
        let (ones, others) = (self.more_eights(), other.more_eights());
        for (one, other) in ones.iter().zip(others).filter(|(one, other)| one != other) {
            let order = lower(u64::from_be_bytes(*one)).cmp(&lower(u64::from_be_bytes(*other)));
            if order.is_ne() {
                return order;
            }
        }
        let rest = 8 + 8 * ones.len().min(others.len());
        lower(self.raw_eight(rest)).cmp(&lower(other.raw_eight(rest)))
    }

    fn more_eights(&self) -> &'a [[u8; 8]] {
        self.octets().get(8..).unwrap_or_default().as_chunks().0
    }

    pub fn is(&self, other: &Name) -> bool {
        self.first_eight() == other.first_eight() && self.order_of_rest(other).is_eq()
    }
}

/// A to Z as a to z in each of eight octets.
#[inline]
fn lower(eight: u64) -> u64 {
    const ALL: u64 = 0x0101_0101_0101_0101;
    let low = eight & (0x7f * ALL);
    let from_a = low + (0x80 - b'A' as u64) * ALL;
    let past_z = low + (0x7f - b'Z' as u64) * ALL;
    let upper = (from_a ^ past_z) & !eight & (0x80 * ALL);
    eight | upper >> 2
}

/// The place after the name at `start`, or the one where it breaks a rule.
#[inline]
pub fn skip(message: &[u8], start: usize) -> Result<usize, usize> {
    let mut place = start;
    loop {
        match message.get(place) {
            Some(0) => return Ok(place + 1),
            Some(&label @ 1..=63) => {
                let next = place + 1 + usize::from(label);
                if next - start >= LONGEST {
                    return Err(place);
                }
                place = next;
            }
            Some(192..) => {
                follow(message, place, start, place - start)?;
                return Ok(place + 2);
            }
            Some(_) => return Err(place),
            None => return Err(message.len()),
        }
    }
}

/// From a pointer to the end of its name, of which `length` octets stand before.
fn follow(message: &[u8], pointer: usize, run: usize, length: usize) -> Result<(), usize> {
    let (mut place, mut run, mut length) = (pointer, run, length);
    loop {
        if let Some(&[first @ 192..=255, second]) =
            message.get(place..).and_then(<[u8]>::first_chunk)
        {
            let target = usize::from(u16::from_be_bytes([first, second]) & 0x3fff);
            if target < FIRST_TARGET || target >= run {
                return Err(place);
            }
            (place, run) = (target, target);
            continue;
        }
        match message.get(place) {
            Some(0) => return Ok(()),
            Some(&label @ 1..=63) => {
                length += 1 + usize::from(label);
                if length >= LONGEST {
                    return Err(place);
                }
                place += 1 + usize::from(label);
            }
            Some(64..=191) => return Err(place),
            Some(192..) | None => return Err(message.len()),
        }
    }
}

/// A name that is known to be good: where it lies or, if it is compressed,
/// written out.
pub fn expand<'a>(message: &'a [u8], start: usize, buffer: &'a mut Buffer) -> Name<'a> {
    let mut run = start;
    let mut place = end_of_run(message, run);
    if message[place] == 0 {
        return Name::new(&message[start..], place + 1 - start);
    }
    let mut length = 0;
    loop {
        if run < place {
            buffer[length..][..place - run].copy_from_slice(&message[run..place]);
            length += place - run;
        }
        if message[place] == 0 {
            buffer[length] = 0;
            return Name::new(buffer, length + 1);
        }
        run = usize::from(u16::from_be_bytes([
            message[place] & 0x3f,
            message[place + 1],
        ]));
        place = end_of_run(message, run);
    }
}

/// Where the labels end: the place of the 0 or of a pointer.
#[inline]
fn end_of_run(message: &[u8], start: usize) -> usize {
    let mut place = start;
    while let label @ 1..=63 = message[place] {
        place += 1 + usize::from(label);
    }
    place
}

/// The length of the name that the octets begin with, never compressed.
#[inline]
pub fn plain_length(octets: &[u8]) -> Option<usize> {
    let mut length = 0;
    loop {
        match *octets.get(length)? {
            0 if length < LONGEST => return Some(length + 1),
            label @ 1..=63 => length += 1 + usize::from(label),
            _ => return None,
        }
    }
}
