//! Luffcringle: the key table of a DNS server, the octets under a TSIG's MAC,
//! and the resolver's half of a key's renewal, safe to use from Rust. The work
//! is done by proved code behind the C interface of `include/luffcringle.h`,
//! which says more about each call than the notes here.
//!
//! - [`Table`] has the table's calls, the inquiries into it, and itself as text;
//!   [`asks`] says what a TKEY request asks for.
//! - [`signing`] is for whoever calculates MACs.
//! - [`resolver`] is for an office that renews its key.
//!
//! MACs, secrets and key data are the caller's. Times are seconds since 1970.
#![deny(missing_docs)]
#![deny(unsafe_op_in_unsafe_fn)]

mod compare;
mod inquiry;
mod listing;
pub mod resolver;
pub mod signing;
pub mod sys;
mod table;
mod view;
mod words;

pub use compare::{compare, Objection};
pub use inquiry::{asks, Asks, Mode, Moves, PairState};
pub use listing::{Dropped, LoadError, Reason, LISTING_OCTETS};
pub use sys::{Octets, Words};
pub use table::{Answer, Given, Item, ReplyTsig, Span, Table};
pub use table::{MOST_ITEMS, TABLE_OCTETS, TABLE_WORDS};
pub use view::{Key, Keys, Pair, View};
pub use words::{Algorithm, Name, Refusal, TsigError, Verdict};

/// The version of the archive that is linked, as the header numbers it: 500 is
/// 0.5.0.
pub fn version() -> u64 {
    // SAFETY: nothing is lent.
    unsafe { sys::luffcringle_version() }
}
