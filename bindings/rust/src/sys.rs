//! The calls as C has them, for what the safe types rule out. The header,
//! `include/luffcringle.h`, says what each does and what its pointers must be.
#![allow(missing_docs)]

/// The words of a table; the header has their layout.
pub type Words = [u64; 1091];
/// A table's suffixes, 128 octets for each place.
pub type Octets = [u8; 8192];
/// Room for the longest reply.
pub type ReplyOctets = [u8; 65_535];
/// The answer of a call on the table.
pub type Told = [u64; 7];
/// An item of a batch.
pub type ItemWords = [u64; 9];
/// The line beside LINE, and how many lines mending dropped.
pub type MendingWords = [u64; 2];
/// A pair as an inquiry shows it.
pub type PairWords = [u64; 14];
/// Made, adopted, ended, dropped.
pub type MovesWords = [u64; 4];
/// What a TKEY request asks for.
pub type AskedWords = [u64; 10];
/// The fields of a TSIG that was read.
pub type TsigWords = [u64; 10];
/// An expanded name, in its first octets.
pub type NameOctets = [u8; 255];
/// A resolver's state; the header has its layout.
pub type StateWords = [u64; 12];
/// The names of its keys.
pub type StateOctets = [u8; 510];

// A reference to an array, or to a word, is what C calls a pointer to it.
extern "C" {
    pub fn luffcringle_version() -> u64;

    pub fn luffcringle_new_table(
        words: &mut Words,
        suffixes: &Octets,
        time: u64,
        answer: &mut Told,
    ) -> u64;
    pub fn luffcringle_enrol(
        words: &mut Words,
        suffixes: &mut Octets,
        time: u64,
        suffix: *const u8,
        suffix_length: usize,
        lifetime: u64,
        fresh: u64,
        algorithm: u64,
        answer: &mut Told,
    ) -> u64;
    pub fn luffcringle_close(
        words: &mut Words,
        suffixes: &mut Octets,
        time: u64,
        pair: u64,
        answer: &mut Told,
    ) -> u64;
    pub fn luffcringle_issue(
        words: &mut Words,
        suffixes: &Octets,
        time: u64,
        pair: u64,
        algorithm: u64,
        answer: &mut Told,
    ) -> u64;
    pub fn luffcringle_revoke(
        words: &mut Words,
        suffixes: &Octets,
        time: u64,
        pair: u64,
        answer: &mut Told,
    ) -> u64;
    pub fn luffcringle_look(
        words: &Words,
        suffixes: &Octets,
        message: *const u8,
        message_length: usize,
        answer: &mut Told,
    ) -> u64;
    pub fn luffcringle_message(
        words: &mut Words,
        suffixes: &Octets,
        time: u64,
        good: bool,
        message: *const u8,
        message_length: usize,
        offer: *const u8,
        offer_length: usize,
        fits: bool,
        record: *const u8,
        record_length: usize,
        reply: *mut u8,
        reply_room: usize,
        answer: &mut Told,
    ) -> u64;
    pub fn luffcringle_batch(
        words: &mut Words,
        suffixes: &Octets,
        count: u64,
        items: &[ItemWords; 64],
        octets: *const u8,
        octets_length: usize,
        answers: &mut [Told; 64],
        replies: *mut u8,
        replies_room: usize,
    ) -> u64;

    pub fn luffcringle_list(
        words: &Words,
        suffixes: &Octets,
        text: *mut u8,
        text_room: usize,
        length: &mut u64,
    ) -> u64;
    pub fn luffcringle_load(
        words: &mut Words,
        suffixes: &mut Octets,
        text: *const u8,
        text_length: usize,
        line: &mut u64,
    ) -> u64;
    pub fn luffcringle_mend(
        words: &mut Words,
        suffixes: &mut Octets,
        text: *const u8,
        text_length: usize,
        named: *mut u64,
        named_words: usize,
        told: &mut MendingWords,
    ) -> u64;

    pub fn luffcringle_compare(
        listing: *const u8,
        listing_length: usize,
        time: u64,
        good: bool,
        message: *const u8,
        message_length: usize,
        offer: *const u8,
        offer_length: usize,
        fits: bool,
        record: *const u8,
        record_length: usize,
        theirs: *const u8,
        theirs_length: usize,
        words: &mut Words,
        suffixes: &mut Octets,
        reply: &mut ReplyOctets,
        place: &mut u64,
    ) -> u64;

    pub fn luffcringle_test(words: &Words, suffixes: &Octets) -> u64;
    pub fn luffcringle_pair_of_suffix(
        words: &Words,
        suffixes: &Octets,
        suffix: *const u8,
        suffix_length: usize,
        pair: &mut u64,
    ) -> u64;
    pub fn luffcringle_pair_of_key(
        words: &Words,
        suffixes: &Octets,
        name: *const u8,
        name_length: usize,
        pair: &mut u64,
    ) -> u64;
    pub fn luffcringle_key_name(
        words: &Words,
        suffixes: &Octets,
        pair: u64,
        serial: u64,
        name: *mut u8,
        name_room: usize,
        name_length: &mut u64,
    ) -> u64;
    pub fn luffcringle_pair(
        words: &Words,
        suffixes: &Octets,
        pair: u64,
        shown: &mut PairWords,
    ) -> u64;
    pub fn luffcringle_moves(before: &PairWords, after: &PairWords, moves: &mut MovesWords);
    pub fn luffcringle_asks(
        message: *const u8,
        message_length: usize,
        asked: &mut AskedWords,
    ) -> u64;

    pub fn luffcringle_digest_request(
        message: *const u8,
        message_length: usize,
        name: *const u8,
        name_length: usize,
        algorithm: *const u8,
        algorithm_length: usize,
        signed_time: u64,
        fudge: u16,
        original_id: u16,
        error: u16,
        other: *const u8,
        other_length: usize,
        digest: *mut u8,
        digest_room: usize,
        written: &mut u64,
    ) -> u64;
    pub fn luffcringle_digest_reply(
        request_mac: *const u8,
        request_mac_length: usize,
        message: *const u8,
        message_length: usize,
        name: *const u8,
        name_length: usize,
        algorithm: *const u8,
        algorithm_length: usize,
        signed_time: u64,
        fudge: u16,
        original_id: u16,
        error: u16,
        other: *const u8,
        other_length: usize,
        digest: *mut u8,
        digest_room: usize,
        written: &mut u64,
    ) -> u64;
    pub fn luffcringle_digest_later(
        prior_mac: *const u8,
        prior_mac_length: usize,
        before: *const u8,
        before_length: usize,
        message: *const u8,
        message_length: usize,
        signed_time: u64,
        fudge: u16,
        original_id: u16,
        digest: *mut u8,
        digest_room: usize,
        written: &mut u64,
    ) -> u64;
    pub fn luffcringle_finish(
        message: *const u8,
        message_length: usize,
        name: *const u8,
        name_length: usize,
        algorithm: *const u8,
        algorithm_length: usize,
        signed_time: u64,
        fudge: u16,
        original_id: u16,
        error: u16,
        mac: *const u8,
        mac_length: usize,
        other: *const u8,
        other_length: usize,
        finished: *mut u8,
        finished_room: usize,
        written: &mut u64,
    ) -> u64;
    pub fn luffcringle_read_tsig(
        message: *const u8,
        message_length: usize,
        name: &mut NameOctets,
        algorithm: &mut NameOctets,
        fields: &mut TsigWords,
    ) -> u64;
    pub fn luffcringle_remove(
        message: *const u8,
        message_length: usize,
        rest: *mut u8,
        rest_room: usize,
        written: &mut u64,
    ) -> u64;
    pub fn luffcringle_received_request(
        message: *const u8,
        message_length: usize,
        digest: *mut u8,
        digest_room: usize,
        written: &mut u64,
    ) -> u64;
    pub fn luffcringle_received_reply(
        request_mac: *const u8,
        request_mac_length: usize,
        message: *const u8,
        message_length: usize,
        digest: *mut u8,
        digest_room: usize,
        written: &mut u64,
    ) -> u64;
    pub fn luffcringle_received_later(
        prior_mac: *const u8,
        prior_mac_length: usize,
        before: *const u8,
        before_length: usize,
        message: *const u8,
        message_length: usize,
        digest: *mut u8,
        digest_room: usize,
        written: &mut u64,
    ) -> u64;

    pub fn luffcringle_resolver_hold(
        words: &mut StateWords,
        names: &mut StateOctets,
        name: *const u8,
        name_length: usize,
        algorithm: u64,
        inception: u32,
        expiration: u32,
    ) -> u64;
    pub fn luffcringle_resolver_renewal(
        words: &mut StateWords,
        names: &mut StateOctets,
        id: u16,
        name: *const u8,
        name_length: usize,
        algorithm: u64,
        inception: u32,
        expiration: u32,
        record: *const u8,
        record_length: usize,
        request: *mut u8,
        request_room: usize,
        sending: &mut [u64; 2],
    ) -> u64;
    pub fn luffcringle_resolver_adoption(
        words: &mut StateWords,
        names: &mut StateOctets,
        id: u16,
        request: *mut u8,
        request_room: usize,
        sending: &mut [u64; 2],
    ) -> u64;
    pub fn luffcringle_resolver_deletion(
        words: &mut StateWords,
        names: &mut StateOctets,
        id: u16,
        request: *mut u8,
        request_room: usize,
        sending: &mut [u64; 2],
    ) -> u64;
    pub fn luffcringle_resolver_note(words: &mut StateWords, names: &mut StateOctets, id: u16);
    pub fn luffcringle_resolver_reply(
        words: &mut StateWords,
        names: &mut StateOctets,
        good: bool,
        message: *const u8,
        message_length: usize,
        heard: &mut [u64; 4],
    ) -> u64;
}
