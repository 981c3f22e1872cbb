//! 01 "One day at the counter", case by case.

use second::names::Name;
use second::{Algorithm, Done, Key, Keys, Refusal, Table};

use crate::build::*;

const PARTIAL_REVOKE: (u8, u16) = (9, 3841);
const BADKEY: (u8, u16) = (9, 17);

fn key(serial: u64, inception: u64, partial: u64, expiry: u64) -> Key {
    Key {
        serial,
        algorithm: Algorithm::Sha256,
        inception,
        partial,
        expiry,
    }
}

/// Key 1 renewed at 1200 and again at 1201.
fn renewed_twice() -> Table {
    let mut table = day();
    for time in [1200, 1201] {
        let request = Draft::renewal("1.a.example.").signed("1.a.example.", time);
        assert_eq!(tkey_error(&mut table, time, &request), 0);
    }
    table
}

#[test]
fn name_of_serial_10011() {
    let expected = hex("05 31 30 30 31 31 01 61 07 65 78 61 6d 70 6c 65 00");
    let name = Name::of_key(10011, &name("a.example."));
    assert_eq!(name.octets(), expected);
}

#[test]
fn enrolment() {
    let table = day();
    assert_eq!(table.clock, 1000);
    assert_eq!(table.pairs[0].next_serial, 2);
    assert_eq!(table.pairs[0].keys, Keys::Adopted(key(1, 1000, 1400, 1600)));
}

#[test]
fn ordinary_passes_at_1399_and_is_partly_revoked_at_1400() {
    let mut table = day();
    let (done, reply) = send(
        &mut table,
        1399,
        &Draft::ordinary().signed("1.a.example.", 1399),
    );
    assert_eq!((Ok(done), reply.len()), (with_key(1, 1), 0));
    let late = Draft::ordinary().signed("1.a.example.", 1400);
    assert_eq!(denied(&mut table, 1400, &late), PARTIAL_REVOKE);
}

#[test]
fn renewal_at_1599() {
    let mut table = day();
    let request = Draft::renewal("1.a.example.").signed("1.a.example.", 1599);
    assert_eq!(tkey_error(&mut table, 1599, &request), 0);
    assert_eq!(
        table.pairs[0].keys,
        Keys::Renewing {
            adopted: key(1, 1000, 1400, 1600),
            waiting: key(2, 1599, 1999, 2199),
        }
    );
    assert_eq!(table.pairs[0].next_serial, 3);
}

#[test]
fn renewal_at_1600_is_badkey() {
    let mut table = day();
    let request = Draft::renewal("1.a.example.").signed("1.a.example.", 1600);
    assert_eq!(denied(&mut table, 1600, &request), BADKEY);
    assert_eq!(table.pairs, day().pairs);
}

#[test]
fn renewal_at_1200_and_again_at_1201() {
    let mut table = day();
    let request = Draft::renewal("1.a.example.").signed("1.a.example.", 1200);
    assert_eq!(tkey_error(&mut table, 1200, &request), 0);
    let ordinary = Draft::ordinary().signed("1.a.example.", 1200);
    assert_eq!(denied(&mut table, 1200, &ordinary), PARTIAL_REVOKE);
    assert_eq!(
        renewed_twice().pairs[0].keys,
        Keys::Renewing {
            adopted: key(1, 1000, 1200, 1600),
            waiting: key(3, 1201, 1601, 1801),
        }
    );
}

#[test]
fn adoption_at_1202() {
    let mut table = renewed_twice();
    let dropped = Draft::adoption("2.a.example.", "1.a.example.").signed("1.a.example.", 1202);
    assert_eq!(tkey_error(&mut table, 1202, &dropped), 20);
    assert_eq!(table.pairs, renewed_twice().pairs);
    let waiting = Draft::adoption("3.a.example.", "1.a.example.").signed("1.a.example.", 1202);
    assert_eq!(tkey_error(&mut table, 1202, &waiting), 0);
    let adopted = Keys::Adopted(key(3, 1201, 1601, 1801));
    assert_eq!(table.pairs[0].keys, adopted);
    let again = Draft::adoption("3.a.example.", "1.a.example.").signed("3.a.example.", 1202);
    assert_eq!(tkey_error(&mut table, 1202, &again), 0);
    assert_eq!(table.pairs[0].keys, adopted);
    let old = Draft::ordinary().signed("1.a.example.", 1202);
    assert_eq!(denied(&mut table, 1202, &old), BADKEY);
    let new = Draft::ordinary().signed("3.a.example.", 1202);
    assert_eq!(Ok(send(&mut table, 1202, &new).0), with_key(1, 3));
}

#[test]
fn skew_and_fudge() {
    let mut table = day();
    let signed_at_1000 = Draft::ordinary().signed("1.a.example.", 1000);
    let (done, _) = send(&mut table, 1300, &signed_at_1000);
    let expected = Done {
        skew: -300,
        pair: 1,
        serial: 1,
        ..Done::default()
    };
    assert_eq!(done, expected);
    assert_eq!(denied(&mut table, 1301, &signed_at_1000), (9, 18));
}

#[test]
fn pointer_to_itself_or_to_octet_11() {
    for pointer in [[0xc0, 12], [0xc0, 11]] {
        let octets = Draft::empty().ask(&pointer, A, IN).octets();
        let result = message(&mut day(), 1000, true, &octets, &[], &mut []);
        assert_eq!(result, Err(Refusal::Format(12)));
    }
}
