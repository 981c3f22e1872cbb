//! 01 "The reply", octets written out by hand.

use second::{enrol, Table};

use crate::build::*;

/// Suffix a.example. enrolled with capitals.
fn capitals() -> Table {
    let mut table = Table::empty(0);
    enrol(&mut table, 1000, &name("A.Example."), 600, 400, 256).unwrap();
    table
}

/// A request as a client would pack it: TKEY, KEY and TSIG owners compressed.
fn packed(mode: &str, key_and_other: &str, key_record: &str) -> Vec<u8> {
    let additional = if key_record.is_empty() { "2" } else { "3" };
    hex(&format!(
        "beef 0110 0001 0000 0000 000{additional}
         01 31 01 61 07 65 78 61 6d 70 6c 65 00  00f9 00ff
         c00c 00f9 0001 00000009 {}
           0b 68 6d 61 63 2d 73 68 61 32 35 36 00 00000064 000000c8 {mode} 0063 {key_and_other}
         {key_record}
         c00c 00fa 00ff 00000000 003d
           0b 68 6d 61 63 2d 73 68 61 32 35 36 00
           0000000004b0 012c 0020 {} beef 0000 0000",
        if key_record.is_empty() {
            "001e"
        } else {
            "0039"
        },
        "5a".repeat(32),
    ))
}

const OLD: &str = "001a 01 31 01 61 07 65 78 61 6d 70 6c 65 00
    0b 68 6d 61 63 2d 73 68 61 32 35 36 00";

#[test]
fn a_granted_renewal() {
    let key_record = "06 63 6c 69 65 6e 74 c00e 0019 0001 00000e10 0006 0200 0302 0909";
    let request = packed("1002", &format!("0002 7777 {OLD}"), key_record);
    let (done, reply) = send(&mut capitals(), 1200, &request);
    let expected = hex("beef 8100 0001 0001 0000 0001
         01 31 01 61 07 65 78 61 6d 70 6c 65 00  00f9 00ff
         01 32 01 41 07 45 78 61 6d 70 6c 65 00  00f9 00ff 00000000 003b
           0b 68 6d 61 63 2d 73 68 61 32 35 36 00
           000004b0 00000708 1002 0000
           0004 de ad be ef
           001a 01 31 01 61 07 65 78 61 6d 70 6c 65 00
                0b 68 6d 61 63 2d 73 68 61 32 35 36 00
         06 63 6c 69 65 6e 74 01 61 07 65 78 61 6d 70 6c 65 00
           0019 0001 00000e10 0006 0200 0302 0909");
    assert_eq!(reply, expected);
    assert_eq!((done.error, done.skew), (0, 0));
    assert_eq!((done.pair, done.serial), (1, 1));
}

#[test]
fn an_error_outcome() {
    // Deletion of key 9 by key 1: BADNAME; class, TTL and error are ours.
    let mut tkey = Tkey::new("9.a.example.", DELETION, vec![0x0f]);
    (tkey.class, tkey.ttl, tkey.error) = (IN, 9, 99);
    (tkey.inception, tkey.expiration) = (100, 200);
    tkey.key = vec![0x77];
    tkey.owner = hex("01 39 c0 0e");
    let draft = Draft::empty().ask(&name("1.a.example."), TKEY, ANY);
    let request = draft.add(tkey.octets()).signed("1.a.example.", 1200);
    let (done, reply) = send(&mut capitals(), 1200, &request);
    let expected = hex("1234 8100 0001 0001 0000 0000
         01 31 01 61 07 65 78 61 6d 70 6c 65 00  00f9 00ff
         01 39 01 61 07 65 78 61 6d 70 6c 65 00  00f9 00ff 00000000 001f
           0b 68 6d 61 63 2d 73 68 61 32 35 36 00
           00000064 000000c8 0005 0014 0001 77 0001 0f");
    assert_eq!(reply, expected);
    assert_eq!((done.error, done.pair, done.serial), (0, 1, 1));
}

#[test]
fn a_deletion_keeps_the_request() {
    let request = packed("0005", "0001 77 0000", "");
    let mut table = capitals();
    let (_, reply) = send(&mut table, 1200, &request);
    let expected = hex("beef 8100 0001 0001 0000 0000
         01 31 01 61 07 65 78 61 6d 70 6c 65 00  00f9 00ff
         01 31 01 61 07 65 78 61 6d 70 6c 65 00  00f9 00ff 00000000 001e
           0b 68 6d 61 63 2d 73 68 61 32 35 36 00
           00000064 000000c8 0005 0000 0001 77 0000");
    assert_eq!(reply, expected);
    assert!(table.pairs[0].adopted().is_none());
}

#[test]
fn a_badkey() {
    // ID, opcode and RD as asked; both questions copied with their pointer.
    let request = hex(&format!(
        "abcd 2df5 0002 0000 0000 0001
         01 7a 07 65 78 61 6d 70 6c 65 00  0006 0001
         01 79 c00e 00ff 0003
         01 39 01 61 c00e 00fa 00ff 00000000 003d
           0b 68 6d 61 63 2d 73 68 61 32 35 36 00
           0000000004b0 012c 0020 {} abcd 0000 0000",
        "5a".repeat(32)
    ));
    let (done, reply) = send(&mut day(), 1200, &request);
    let expected = hex("abcd a909 0002 0000 0000 0000
         01 7a 07 65 78 61 6d 70 6c 65 00  0006 0001
         01 79 c00e 00ff 0003");
    assert_eq!(reply, expected);
    assert_eq!((done.error, done.pair, done.serial), (17, 0, 0));
}

#[test]
fn flags() {
    for (asked, answered) in [
        (0x0000, 0x8001),
        (0x7fff, 0xf901),
        (0x0100, 0x8101),
        (0x06ff, 0x8001),
        (0x2800, 0xa801),
    ] {
        let mut draft = Draft::empty();
        draft.flags = asked;
        draft.answer.push(Tsig::by("1.a.example.", 1000).octets());
        let (done, reply) = send(&mut day(), 1000, &draft.octets());
        assert_eq!(done.length, 12);
        assert_eq!(u16::from_be_bytes([reply[2], reply[3]]), answered);
    }
}

#[test]
fn other_data_is_repeated_but_emptied_for_the_adopted_key() {
    let mut table = day();
    let renewal = Draft::renewal("1.a.example.").signed("1.a.example.", 1100);
    send(&mut table, 1100, &renewal);
    let mut answered = |new: &str, key: &str| {
        let mut tkey = Tkey::new(new, ADOPTION, old("1.A.example."));
        tkey.key = vec![0x77];
        tkey.algorithm = name("HMAC-sha256.");
        let (_, reply) = send(&mut table, 1100, &Draft::tkey(&tkey).signed(key, 1100));
        assert_eq!(reply[10..12], [0, 0]);
        let (owner, data) = tkey_answer(&reply);
        assert_eq!(owner, name(new));
        (tkey.data(), data)
    };
    let (asked, data) = answered("1.a.example.", "1.a.example.");
    let without_other = asked.len() - 26;
    let empty = [&asked[..without_other - 2], &[0, 0]].concat();
    assert_eq!(data, empty);
    let (asked, data) = answered("2.a.Example.", "1.a.example.");
    assert_eq!(data, asked);
    let (_, data) = answered("2.a.example.", "2.a.example.");
    assert_eq!(data, empty);
}

#[test]
fn a_failed_renewal_echoes_no_key_record_and_keeps_its_key_data() {
    let mut tkey = Tkey::new("New.", RENEWAL, old("1.a.example."));
    tkey.key = vec![0x77; 3];
    tkey.expiration = 0;
    let draft = Draft::tkey(&tkey).add(key_record());
    let (_, reply) = send(&mut day(), 1100, &draft.signed("1.a.example.", 1100));
    assert_eq!(reply[10..12], [0, 0]);
    tkey.error = 18;
    assert_eq!(tkey_answer(&reply), (name("New."), tkey.data()));
}

#[test]
fn times_of_a_granted_renewal_are_modulo_2_32() {
    let start = (1 << 32) - 100;
    let mut table = Table::empty(0);
    enrol(&mut table, start, &name("a.example."), 600, 400, 256).unwrap();
    let renewal = Draft::renewal("1.a.example.").signed("1.a.example.", start);
    let (_, reply) = send(&mut table, start, &renewal);
    let (owner, data) = tkey_answer(&reply);
    assert_eq!(owner, name("2.a.example."));
    assert_eq!(data[13..21], hex("ffffff9c 000001f4"));
    assert_eq!(table.pairs[0].waiting().unwrap().expiry, start + 600);
}
