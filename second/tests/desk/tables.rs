//! 01, the table rules one by one.

use second::calls::TIME_LIMIT;
use second::{look, Algorithm, Key, Keys, Pair, Refusal, Table};

use crate::build::*;

const CLOCK: u64 = 1500;

fn adopted() -> Key {
    Key {
        serial: 3,
        algorithm: Algorithm::Sha256,
        inception: 1000,
        partial: 1400,
        expiry: 1600,
    }
}

fn waiting() -> Key {
    Key {
        serial: 5,
        algorithm: Algorithm::Sha512,
        inception: 1450,
        partial: 1850,
        expiry: 2050,
    }
}

fn pair(suffix: &str, keys: Keys) -> Pair {
    Pair {
        suffix: name(suffix),
        lifetime: 600,
        fresh: 400,
        next_serial: 6,
        keys,
    }
}

/// Three pairs, one with both keys.
fn table() -> Table {
    let both = Keys::Renewing {
        adopted: adopted(),
        waiting: waiting(),
    };
    Table {
        clock: CLOCK,
        floor: 1,
        pairs: vec![
            pair("a.example.", Keys::None),
            pair("b.example.", Keys::Adopted(adopted())),
            pair("c.example.", both),
        ],
    }
}

fn keeps(change: impl FnOnce(&mut Table)) -> bool {
    let mut table = table();
    change(&mut table);
    let before = table.clone();
    let looked = look(&table, &[0; 12]).is_ok();
    let time = table.clock.clamp(CLOCK, TIME_LIMIT - 1);
    let sent = message(&mut table, time, true, &[0; 12], &[], &mut []);
    if !looked {
        assert_eq!(sent, Err(Refusal::Table));
        assert_eq!(table, before);
    }
    assert_eq!(looked, table.keeps_rules());
    looked
}

fn keeps_adopted(change: impl Fn(&mut Key)) -> bool {
    let kept = [1, 2].map(|index| {
        keeps(|table| match &mut table.pairs[index].keys {
            Keys::Adopted(adopted) | Keys::Renewing { adopted, .. } => change(adopted),
            Keys::None => unreachable!(),
        })
    });
    assert_eq!(kept[0], kept[1]);
    kept[0]
}

fn keeps_waiting(change: impl FnOnce(&mut Key)) -> bool {
    keeps(|table| match &mut table.pairs[2].keys {
        Keys::Renewing { waiting, .. } => change(waiting),
        _ => unreachable!(),
    })
}

#[test]
fn the_table_to_begin_with() {
    assert!(keeps(|_| ()));
    assert!(keeps(|table| *table = Table::empty(0)));
}

#[test]
fn at_most_64_pairs() {
    let fill = |table: &mut Table, count: usize| {
        let more = (3..count).map(|number| pair(&format!("p{number}."), Keys::None));
        table.pairs.extend(more);
    };
    assert!(keeps(|table| fill(table, 64)));
    assert!(!keeps(|table| fill(table, 65)));
}

#[test]
fn clock_below_2_48() {
    assert!(keeps(|table| table.clock = (1 << 48) - 1));
    assert!(!keeps(|table| table.clock = 1 << 48));
    assert!(!keeps(|table| table.clock = u64::MAX));
}

#[test]
fn suffixes_valid_and_distinct() {
    let keeps_suffix = |suffix: Vec<u8>| keeps(|table| table.pairs[0].suffix = suffix);
    assert!(keeps_suffix(name("x.")));
    assert!(keeps_suffix(name_of(128)));
    assert!(!keeps_suffix(name_of(129)));
    assert!(!keeps_suffix(vec![0]));
    assert!(!keeps_suffix(Vec::new()));
    assert!(!keeps_suffix(b"\x01a".to_vec()));
    assert!(!keeps_suffix(b"\x01a\x00\x00".to_vec()));
    assert!(!keeps_suffix(name("c.example.")));
    assert!(!keeps_suffix(name("C.eXample.")));
    // Names that differ in the bit that parts a from A, but not in letters.
    assert!(keeps(|table| {
        table.pairs[0].suffix = name("@.example.");
        table.pairs[1].suffix = name("`.example.");
    }));
    // A twin in the last of 64 places.
    assert!(!keeps(|table| {
        let more = (3..63).map(|number| pair(&format!("p{number}."), Keys::None));
        table.pairs.extend(more);
        table.pairs.push(pair("P3.", Keys::None));
    }));
}

#[test]
fn terms() {
    let keeps_terms = |lifetime: u64, fresh: u64| {
        keeps(|table| {
            table.pairs[0].lifetime = lifetime;
            table.pairs[0].fresh = fresh;
        })
    };
    assert!(keeps_terms(2, 1));
    assert!(keeps_terms((1 << 31) - 1, (1 << 31) - 2));
    assert!(!keeps_terms(1 << 31, 1));
    assert!(!keeps_terms(2, 0));
    assert!(!keeps_terms(2, 2));
    assert!(!keeps_terms(2, 3));
    assert!(!keeps_terms(u64::MAX, u64::MAX - 1));
}

#[test]
fn next_serials_1_to_2_32() {
    let keeps_next = |next: u64| keeps(|table| table.pairs[0].next_serial = next);
    assert!(!keeps_next(0));
    assert!(keeps_next(1));
    assert!(keeps_next(1 << 32));
    assert!(!keeps_next((1 << 32) + 1));
}

#[test]
fn key_serials() {
    assert!(!keeps_adopted(|key| key.serial = 0));
    assert!(keeps_adopted(|key| key.serial = 1));
    assert!(!keeps_adopted(|key| key.serial = 6));
    let keeps_serial = |serial: u64| keeps_waiting(|key| key.serial = serial);
    assert!(!keeps_serial(3));
    assert!(!keeps_serial(2));
    assert!(keeps_serial(4));
    assert!(!keeps_serial(6));
}

#[test]
fn key_times() {
    assert!(keeps_adopted(|key| key.partial = 1000));
    assert!(!keeps_adopted(|key| key.partial = 999));
    assert!(keeps_adopted(|key| key.partial = 1599));
    assert!(!keeps_adopted(|key| key.partial = 1600));
    assert!(!keeps_adopted(|key| key.expiry = 1601));
    assert!(!keeps_adopted(|key| key.inception = 1001));
    assert!(!keeps_waiting(|key| key.partial = 1449));
    assert!(!keeps_waiting(|key| key.expiry = 2051));
    // Sums beyond 64 bits.
    assert!(!keeps_adopted(|key| {
        (key.inception, key.partial, key.expiry) = (u64::MAX, u64::MAX, 599);
    }));
}

fn at(inception: u64) -> impl Fn(&mut Key) {
    move |key| {
        key.inception = inception;
        key.partial = inception;
        key.expiry = inception + 600;
    }
}

#[test]
fn inception_not_after_the_clock() {
    assert!(keeps_waiting(at(CLOCK)));
    assert!(!keeps_waiting(at(CLOCK + 1)));
    assert!(keeps(|table| {
        let mut key = adopted();
        at(CLOCK)(&mut key);
        table.pairs[1].keys = Keys::Adopted(key);
    }));
    assert!(!keeps_adopted(at(CLOCK + 1)));
}

#[test]
fn expiry_below_2_48() {
    let keeps_expiry = |expiry: u64| {
        keeps(|table| {
            table.clock = (1 << 48) - 1;
            let mut key = adopted();
            at(expiry - 600)(&mut key);
            table.pairs[1].keys = Keys::Adopted(key);
        })
    };
    assert!(keeps_expiry((1 << 48) - 1));
    assert!(!keeps_expiry(1 << 48));
}

#[test]
fn waiting_expiry_not_before_adopted_expiry() {
    assert!(keeps_waiting(at(1000)));
    assert!(!keeps_waiting(at(999)));
}
