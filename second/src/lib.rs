//! A second reader of the key desk's papers, in ordinary Rust.
//!
//! It is written from the papers alone: RFC 8945 (TSIG), RFC 2930 (TKEY),
//! RFC 1035 (messages), document 002 (renewal draft 05) and document 01, whose
//! order the modules follow. "Ruling N" is a ruling on an open point.
//!
//! A message call first reads the whole message (`wire`), then judges it
//! without changing anything (`judging`), then writes the reply (`reply`), and
//! only then changes keys (`calls`).
//!
//! `resolver` is the other half of the protocol (CR 1): it writes the requests
//! and reads the replies. `signing` has the octets under a MAC, and puts a TSIG
//! on and takes it off (CR 3); it knows no key. `batch` makes several message
//! calls in one (CR 4). `inquiries` are what a name server asks beside: of a
//! table, of a pair before and after a call, of a message. `compare` holds another
//! server's reply to ours (CR 12). A renewal has one of three schemes (CR 10); the
//! resolver here asks for server assignment alone.
#![forbid(unsafe_code)]

pub mod batch;
pub mod calls;
pub mod compare;
pub mod inquiries;
mod judging;
pub mod listing;
pub mod names;
mod reply;
pub mod resolver;
pub mod script;
pub mod signing;
pub mod table;
mod wire;

pub use batch::batch;
pub use calls::{close, enrol, issue, look, message, new, revoke, Done, Refusal};
pub use compare::compare;
pub use judging::Given;
pub use table::{Algorithm, Key, Keys, Pair, Table};
pub use wire::Tsig;
