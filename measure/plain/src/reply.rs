//! Writing replies.

use crate::reading::{ANY, TKEY};

/// The octets of a reply that are still to be written.
pub struct Writer<'a> {
    left: &'a mut [u8],
}

impl<'a> Writer<'a> {
    /// For a reply of this length; `None` where there is no room.
    pub fn new(reply: &'a mut [u8], length: usize) -> Option<Writer<'a>> {
        match length <= 65_535 {
            true => reply.get_mut(..length).map(|left| Writer { left }),
            false => None,
        }
    }

    #[inline]
    pub fn put(&mut self, octets: &[u8]) {
        let (here, left) = std::mem::take(&mut self.left).split_at_mut(octets.len());
        here.copy_from_slice(octets);
        self.left = left;
    }

    /// ID, opcode and RD as asked, QR 1, and the questions.
    pub fn head(&mut self, asked: &[u8], rcode: u8, answers: u8, additional: u8) {
        let flags = 0x80 | asked[2] & 0x79;
        self.put(&[
            asked[0], asked[1], flags, rcode, asked[4], asked[5], 0, answers, 0, 0, 0, additional,
        ]);
        self.put(&asked[12..]);
    }

    /// What of a TKEY record stands between its name and its algorithm.
    pub fn tkey_head(&mut self, size: usize) {
        let [high, low] = (size as u16).to_be_bytes();
        self.put(&[0, TKEY as u8, 0, ANY as u8, 0, 0, 0, 0, high, low]);
    }

    /// The fields of a TKEY record between algorithm and key data.
    pub fn tkey_fields(&mut self, times: [u32; 2], mode: u16, error: u16, size: usize) {
        let mut fields = [0; 14];
        fields[..4].copy_from_slice(&times[0].to_be_bytes());
        fields[4..8].copy_from_slice(&times[1].to_be_bytes());
        fields[8..10].copy_from_slice(&mode.to_be_bytes());
        fields[10..12].copy_from_slice(&error.to_be_bytes());
        fields[12..].copy_from_slice(&(size as u16).to_be_bytes());
        self.put(&fields);
    }

    /// Octets behind their count.
    pub fn sized(&mut self, octets: &[u8]) {
        self.put(&(octets.len() as u16).to_be_bytes());
        self.put(octets);
    }
}

/// The first label of a key's name: its serial in decimal, behind its length.
pub struct Label {
    octets: [u8; 11],
    first: usize,
}

impl Label {
    /// Of a serial below 2^32.
    pub fn of(serial: u64) -> Label {
        let mut octets = [0; 11];
        let mut first = octets.len();
        let mut rest = serial as u32;
        while first > 1 {
            first -= 1;
            octets[first] = b'0' + (rest % 10) as u8;
            rest /= 10;
            if rest == 0 {
                break;
            }
        }
        octets[first - 1] = (11 - first) as u8;
        Label {
            octets,
            first: first - 1,
        }
    }

    pub fn octets(&self) -> &[u8] {
        &self.octets[self.first..]
    }
}
