//! The table as text: listed, loaded and mended (document 02, change request 7).

use crate::sys::{self, MendingWords};
use crate::table::{Lent, Table, TABLE_OCTETS, TABLE_WORDS};
use crate::words::Refusal;
use std::fmt;

/// The room that is enough for every table's listing.
pub const LISTING_OCTETS: usize = 48 + 64 * 541;

/// Why a listing was not loaded or mended.
#[derive(Clone, Copy, Debug, PartialEq, Eq, Hash)]
pub enum LoadError {
    /// The first line that does not read, from 1; line 1 where there is none.
    /// Mending asks it of line 1 alone.
    Line(u64),
    /// The lines read, but the table that they list breaks a table rule. Of
    /// mending: line 1 does, by its clock or its floor.
    Table,
}

impl LoadError {
    pub(crate) fn of(number: u64, line: u64) -> LoadError {
        match number {
            1 => LoadError::Table,
            18 => LoadError::Line(line),
            _ => unreachable!("no listing is refused with {number}"),
        }
    }

    /// Its number in document 02: 18, or 1 as in document 01.
    pub fn number(self) -> u64 {
        match self {
            LoadError::Line(_) => 18,
            LoadError::Table => 1,
        }
    }

    /// The line that does not read, of `Line`; else 0.
    pub fn line(self) -> u64 {
        match self {
            LoadError::Line(line) => line,
            LoadError::Table => 0,
        }
    }
}

impl fmt::Display for LoadError {
    fn fmt(&self, f: &mut fmt::Formatter<'_>) -> fmt::Result {
        match self {
            LoadError::Line(line) => write!(f, "line {line} of the listing does not read"),
            LoadError::Table => f.write_str("the listing breaks a table rule"),
        }
    }
}

impl std::error::Error for LoadError {}

/// Why a line was dropped: the first reason that applies to its pair.
#[derive(Clone, Copy, Debug, PartialEq, Eq, Hash)]
pub enum Reason {
    /// One of the pair's lines does not read.
    Line,
    /// Its suffix is that of a pair kept before.
    Twin,
    /// 64 pairs are kept.
    Full,
    /// It breaks another table rule.
    Table,
}

impl Reason {
    fn of(number: u64) -> Reason {
        match number {
            1 => Reason::Table,
            14 => Reason::Twin,
            15 => Reason::Full,
            18 => Reason::Line,
            _ => unreachable!("no line is dropped with {number}"),
        }
    }

    /// Its number: 18, 14, 15 or 1.
    pub fn number(self) -> u64 {
        match self {
            Reason::Line => 18,
            Reason::Twin => 14,
            Reason::Full => 15,
            Reason::Table => 1,
        }
    }
}

impl fmt::Display for Reason {
    fn fmt(&self, f: &mut fmt::Formatter<'_>) -> fmt::Result {
        f.write_str(match self {
            Reason::Line => "a line of its pair does not read",
            Reason::Twin => "its suffix is that of a pair above",
            Reason::Full => "64 pairs are kept",
            Reason::Table => "its pair breaks a table rule",
        })
    }
}

/// A line that mending dropped.
#[derive(Clone, Copy, Debug, PartialEq, Eq, Hash)]
pub struct Dropped {
    /// Its number, from 1.
    pub line: u64,
    /// Why.
    pub reason: Reason,
}

impl fmt::Display for Dropped {
    fn fmt(&self, f: &mut fmt::Formatter<'_>) -> fmt::Result {
        write!(f, "line {} dropped: {}", self.line, self.reason)
    }
}

impl Table {
    /// The table as lines of text, to keep on disk: the header has their shape.
    /// Refused with `Table`.
    ///
    /// ```
    /// use luffcringle::{Algorithm, Table};
    ///
    /// let mut table = Table::new(1000)?;
    /// table.enrol(1000, b"\x01a\x07example\0", 600, 400, Algorithm::Sha256)?;
    /// let text = table.list()?;
    /// assert_eq!(
    ///     text,
    ///     "clock\t1000\t1\n\
    ///      pair\t0161076578616d706c6500\t2\t600\t400\n\
    ///      key\tadopted\t1\thmac-sha256\t1000\t1400\t1600\n"
    /// );
    /// let again = Table::from_listing(text.as_bytes())?;
    /// assert_eq!(again.view(), table.view());
    /// # Ok::<(), Box<dyn std::error::Error>>(())
    /// ```
    pub fn list(&self) -> Result<String, Refusal> {
        let mut text = vec![0; LISTING_OCTETS];
        let length = self.list_into(&mut text)?;
        text.truncate(length);
        Ok(String::from_utf8(text).expect("a listing is ASCII"))
    }

    /// The same into the first octets of a lent buffer, and how many they are.
    /// Refused with `Table`, `Room`, and then the buffer stays as it is;
    /// [`LISTING_OCTETS`] are enough.
    pub fn list_into(&self, text: &mut [u8]) -> Result<usize, Refusal> {
        let Lent { words, suffixes } = &*self.lent;
        let mut length = 0;
        // SAFETY: text is as long as told, and borrowed alone.
        let number = unsafe {
            sys::luffcringle_list(words, suffixes, text.as_mut_ptr(), text.len(), &mut length)
        };
        match number {
            0 => Ok(length as usize),
            number => Err(Refusal::of(number, 0)),
        }
    }

    /// The table of a listing.
    ///
    /// ```
    /// use luffcringle::{LoadError, Table};
    ///
    /// assert!(Table::from_listing(b"clock\t1000\t1\n").is_ok());
    /// let error = Table::from_listing(b"clock\t1000\n").err();
    /// assert_eq!(error, Some(LoadError::Line(1)));
    /// let error = Table::from_listing(b"clock\t1000\t0\n").err();
    /// assert_eq!(error, Some(LoadError::Table));
    /// ```
    pub fn from_listing(text: &[u8]) -> Result<Table, LoadError> {
        let mut table = Table::from_parts(&[0; TABLE_WORDS], &[0; TABLE_OCTETS]);
        table.load(text).map(|()| table)
    }

    /// Load: the table of a listing in the place of this one, whatever it held.
    /// A refusal leaves this one as it is.
    ///
    /// Loading an old listing rewinds serials: a name may then be made again
    /// that was made before. That none is made twice holds from a load onward.
    pub fn load(&mut self, text: &[u8]) -> Result<(), LoadError> {
        let Lent { words, suffixes } = &mut *self.lent;
        let mut line = 0;
        // SAFETY: text is as long as told.
        let number =
            unsafe { sys::luffcringle_load(words, suffixes, text.as_ptr(), text.len(), &mut line) };
        match number {
            0 => Ok(()),
            number => Err(LoadError::of(number, line)),
        }
    }

    /// Mend: what can be kept of a listing in the place of this table; answers
    /// with the lines that were dropped, in order. Line 1 is kept as it is; of
    /// the pairs exactly those whose lines all read and that break no table
    /// rule with the pairs kept before. A refusal leaves this table as it is.
    ///
    /// It counts as a load, and does not raise the floor for a dropped pair.
    ///
    /// ```
    /// use luffcringle::{Dropped, LoadError, Reason, Table};
    ///
    /// let text = b"clock\t1000\t1\n\
    ///     pair\t0161076578616d706c6500\t2\t600\t400\n\
    ///     key\tadopted\t1\thmac-md5\t1000\t1400\t1600\n\
    ///     pair\t0162076578616d706c6500\t1\t600\t400\n";
    /// let mut table = Table::new(0)?;
    /// assert_eq!(table.load(text), Err(LoadError::Line(3)));
    /// let reason = Reason::Line;
    /// let dropped = [Dropped { line: 2, reason }, Dropped { line: 3, reason }];
    /// assert_eq!(table.mend(text)?, dropped);
    /// assert_eq!(table.list()?.lines().count(), 2);
    /// # Ok::<(), Box<dyn std::error::Error>>(())
    /// ```
    pub fn mend(&mut self, text: &[u8]) -> Result<Vec<Dropped>, LoadError> {
        let Lent { words, suffixes } = &mut *self.lent;
        let lines = 1 + text.iter().filter(|&&octet| octet == b'\n').count();
        let (mut named, mut told) = (vec![[0; 2]; lines], MendingWords::default());
        // SAFETY: text is as long as told, and so is named, of two words each
        // and borrowed alone.
        let number = unsafe {
            sys::luffcringle_mend(
                words,
                suffixes,
                text.as_ptr(),
                text.len(),
                named.as_mut_ptr().cast(),
                2 * named.len(),
                &mut told,
            )
        };
        let [line, count] = told;
        if number != 0 {
            return Err(LoadError::of(number, line));
        }
        let dropped = named[..count as usize].iter();
        let reasons = dropped.map(|&[line, reason]| Dropped {
            line,
            reason: Reason::of(reason),
        });
        Ok(reasons.collect())
    }
}
