//! Wire names. 01 "Reading", first paragraph; RFC 1035 §3.1 and §4.1.4.

/// The place of an octet in a message, from 0: where reading first failed (CR 6).
pub type Place = usize;

/// The most octets of an expanded name, its final 0 counted (01 "Reading").
pub const LONGEST: usize = 255;

/// The first octet that a pointer may lead to: the header is no name.
const FIRST_TARGET: usize = 12;

/// A name written out: labels and the final 0.
#[derive(Clone, Debug)]
pub struct Name {
    octets: [u8; LONGEST],
    length: usize,
}

impl Name {
    /// No octets yet.
    fn empty() -> Name {
        Name {
            octets: [0; LONGEST],
            length: 0,
        }
    }

    /// Appends octets that are known to fit.
    fn push(&mut self, octets: &[u8]) {
        self.octets[self.length..][..octets.len()].copy_from_slice(octets);
        self.length += octets.len();
    }

    /// The octets of the name.
    pub fn octets(&self) -> &[u8] {
        &self.octets[..self.length]
    }

    /// 01 "The desk's business": a key's name is its serial in decimal without
    /// leading zeros as one label, then the suffix of its pair (a valid one).
    pub fn of_key(serial: u64, suffix: &[u8]) -> Name {
        let mut digits = [0; 20];
        let mut first = digits.len();
        let mut rest = serial;
        loop {
            first -= 1;
            digits[first] = b'0' + (rest % 10) as u8;
            rest /= 10;
            if rest == 0 {
                break;
            }
        }
        let label = &digits[first..];
        let mut name = Name::empty();
        name.push(&[label.len() as u8]);
        name.push(label);
        name.push(suffix);
        name
    }
}

/// 01 "The desk's business": names compare without regard to the case of A to
/// Z. Both are written out; a length octet is below 64 and so no letter.
pub fn same(one: &[u8], other: &[u8]) -> bool {
    one.eq_ignore_ascii_case(other)
}

/// A number that names share which are the same, and hardly any others: a
/// quick look before `same`. The bit that parts a from A is set everywhere.
pub fn fingerprint(name: &[u8]) -> u64 {
    let mix = |sum: u64, word: u64| {
        (sum ^ word)
            .wrapping_mul(0x9e37_79b9_7f4a_7c15)
            .rotate_left(29)
    };
    let (words, rest) = name.as_chunks::<8>();
    let sum = words.iter().fold(name.len() as u64, |sum, word| {
        mix(sum, u64::from_le_bytes(*word) | 0x2020_2020_2020_2020)
    });
    rest.iter()
        .fold(sum, |sum, octet| mix(sum, u64::from(octet | 0x20)))
}

/// 01 "The desk's business": what follows the first label of a name. The root
/// has no label (ruling 4).
pub fn after_first_label(name: &[u8]) -> Option<&[u8]> {
    match *name.first()? {
        0 => None,
        length => name.get(1 + usize::from(length)..),
    }
}

/// 01 "Reading": the place after the name at `start`, or the one where the name
/// breaks a rule.
pub fn skip(message: &[u8], start: usize) -> Result<usize, Place> {
    walk(message, start, |_| ())
}

/// 01 "Reading": the name at `start`, written out.
pub fn expand(message: &[u8], start: usize) -> Result<Name, Place> {
    let mut name = Name::empty();
    walk(message, start, |label| name.push(label))?;
    name.push(&[0]);
    Ok(name)
}

/// 01 "Reading": follows labels and pointers from `start`, hands each label
/// with its length octet to `take`, and answers with the place after the name.
/// A pointer leads below the place where its own label run began; a pointer
/// with no label before it is an empty run that begins at itself (ruling 3).
///
/// CR 6, the place of a failure: the message's length where an octet is
/// missing, else the first octet of the label or pointer that breaks a rule.
/// A label too long for its name is so whether or not all of it is there.
fn walk<'a>(
    message: &'a [u8],
    start: usize,
    mut take: impl FnMut(&'a [u8]),
) -> Result<usize, Place> {
    let missing = message.len();
    let mut place = start;
    let mut run = start;
    let mut length = 0;
    let mut after_pointer = None;
    loop {
        let first = *message.get(place).ok_or(missing)?;
        match first {
            0 => return Ok(after_pointer.unwrap_or(place + 1)),
            1..=63 => {
                let size = 1 + usize::from(first);
                length += size;
                if length + 1 > LONGEST {
                    return Err(place);
                }
                take(message.get(place..place + size).ok_or(missing)?);
                place += size;
            }
            64..=191 => return Err(place),
            192..=255 => {
                let second = *message.get(place + 1).ok_or(missing)?;
                let target = usize::from(u16::from_be_bytes([first & 0x3f, second]));
                if target < FIRST_TARGET || target >= run {
                    return Err(place);
                }
                after_pointer.get_or_insert(place + 2);
                run = target;
                place = target;
            }
        }
    }
}

/// 01 "Reading": the octets of the name that `octets` begin with, never
/// compressed, as in TSIG and TKEY data.
pub fn plain(octets: &[u8]) -> Option<&[u8]> {
    let mut length = 0;
    loop {
        match *octets.get(length)? {
            0 if length < LONGEST => return octets.get(..length + 1),
            label @ 1..=63 => length += 1 + usize::from(label),
            _ => return None,
        }
    }
}

/// Whether the octets are a wire name, never compressed, and nothing more.
pub fn is_name(octets: &[u8]) -> bool {
    plain(octets) == Some(octets)
}

/// 01 "The desk's business", number 12: an uncompressed wire name of 3 to 128
/// octets and nothing more.
pub fn is_suffix(octets: &[u8]) -> bool {
    (3..=128).contains(&octets.len()) && is_name(octets)
}
