//! 01 "Numbers a caller sees".

use second::calls::TIME_LIMIT;
use second::{enrol, issue, look, new, revoke, Done, Keys, Refusal, Table};

use crate::build::*;

/// A table that breaks a rule, its clock late.
fn broken() -> Table {
    let mut table = day();
    table.clock = 5000;
    table.pairs[0].fresh = 0;
    table
}

/// Asserts a refusal that sets the clock to `time` and changes nothing else.
fn refused_at(
    mut table: Table,
    time: u64,
    call: impl FnOnce(&mut Table) -> Result<Done, Refusal>,
    refusal: Refusal,
) {
    let before = Table {
        clock: time,
        ..table.clone()
    };
    assert_eq!(call(&mut table), Err(refusal));
    assert_eq!(table, before);
}

#[test]
fn numbers() {
    let numbers = [
        Refusal::Table,
        Refusal::Time,
        Refusal::Clock,
        Refusal::Size,
        Refusal::Offer,
        Refusal::Format(0),
        Refusal::NotQuery,
        Refusal::Room,
        Refusal::NoPair,
        Refusal::NoKey,
        Refusal::Spent,
        Refusal::Name,
        Refusal::Term,
        Refusal::Twin,
        Refusal::Full,
    ];
    assert!((1..=15).eq(numbers.into_iter().map(Refusal::number)));
    assert!(numbers.into_iter().all(|refusal| refusal.place() == 0));
    for (refusal, number) in [(Refusal::Batch, 17), (Refusal::KeyRec, 19)] {
        assert_eq!((refusal.number(), refusal.place()), (number, 0));
    }
    assert_eq!(Refusal::Format(12).place(), 12);
}

#[test]
fn new_is_refused_only_with_time() {
    assert_eq!(TIME_LIMIT, 281_472_829_227_008);
    assert_eq!(new(TIME_LIMIT), Err(Refusal::Time));
    assert_eq!(new(u64::MAX), Err(Refusal::Time));
    let table = new(TIME_LIMIT - 1).unwrap();
    assert_eq!((table.clock, table.pairs.len()), (TIME_LIMIT - 1, 0));
}

#[test]
fn table_then_time_then_clock() {
    type Call = fn(&mut Table, u64) -> Result<Done, Refusal>;
    let calls: [Call; 4] = [
        |table, time| enrol(table, time, &[], 0, 0, 0),
        |table, time| issue(table, time, 9, 0),
        |table, time| revoke(table, time, 9),
        |table, time| message(table, time, true, &[], &[0; 1025], &mut []),
    ];
    let later = [
        Refusal::Name,
        Refusal::NoPair,
        Refusal::NoPair,
        Refusal::Size,
    ];
    for (call, later) in calls.into_iter().zip(later) {
        for time in [0, 4999, TIME_LIMIT] {
            refused_at(broken(), 5000, |t| call(t, time), Refusal::Table);
        }
        refused_at(day(), 1000, |t| call(t, TIME_LIMIT), Refusal::Time);
        refused_at(day(), 1000, |t| call(t, 999), Refusal::Clock);
        refused_at(day(), 1000, |t| call(t, 1000), later);
        // Passing 1 to 3 sets the clock.
        refused_at(day(), 1001, |t| call(t, 1001), later);
        refused_at(day(), TIME_LIMIT - 1, |t| call(t, TIME_LIMIT - 1), later);
    }
    // A clock from which no time is allowed keeps the rules.
    let mut late = day();
    late.clock = (1 << 48) - 1;
    let clock = late.clock;
    refused_at(late.clone(), clock, |t| revoke(t, clock, 1), Refusal::Time);
    refused_at(
        late,
        clock,
        |t| revoke(t, TIME_LIMIT - 1, 1),
        Refusal::Clock,
    );
}

#[test]
fn look_gives_1_4_6_and_7_only_and_changes_nothing() {
    assert_eq!(look(&broken(), &[]), Err(Refusal::Table));
    assert_eq!(look(&day(), &[0; 11]), Err(Refusal::Size));
    assert_eq!(look(&day(), &[0; 65_536]), Err(Refusal::Size));
    assert_eq!(look(&day(), &[0xff; 12]), Err(Refusal::Format(12)));
    let mut response = Draft::ordinary();
    response.flags |= 0x8000;
    let response = response.signed("1.a.example.", 0);
    assert_eq!(look(&day(), &response), Err(Refusal::NotQuery));
}

#[test]
fn message_4_to_8_in_order() {
    let offer = [0; 1025];
    let send = |octets: &[u8], offer: &[u8]| {
        let octets = octets.to_vec();
        let offer = offer.to_vec();
        move |table: &mut Table| message(table, 1100, true, &octets, &offer, &mut [])
    };
    let response_with_rest = [&[0, 0, 0x80, 0, 0, 0, 0, 0, 0, 0, 0, 0][..], &[0]].concat();
    let response = &response_with_rest[..12];
    let denied = Draft::ordinary().signed("9.a.example.", 1100);
    refused_at(day(), 1100, send(&[0; 11], &offer), Refusal::Size);
    refused_at(day(), 1100, send(&[0; 65_536], &offer), Refusal::Size);
    refused_at(
        day(),
        1100,
        send(&response_with_rest, &offer),
        Refusal::Offer,
    );
    refused_at(day(), 1100, send(&denied, &offer), Refusal::Offer);
    let rest = &response_with_rest;
    refused_at(day(), 1100, send(rest, &offer[..1024]), Refusal::Format(12));
    refused_at(day(), 1100, send(response, &[]), Refusal::NotQuery);
    refused_at(day(), 1100, send(&denied, &[]), Refusal::Room);
    // No reply, no room needed.
    let passed = Draft::ordinary().signed("1.a.example.", 1100);
    assert_eq!(send(&passed, &[])(&mut day()), with_key(1, 1));
    assert_eq!(send(&[0; 12], &[])(&mut day()), Ok(Done::default()));
    let longest = Draft::ordinary().add(record(&[0], A, IN, 0, &vec![0; 65_497]));
    assert_eq!(longest.octets().len(), 65_535);
    assert_eq!(
        send(&longest.octets(), &[])(&mut day()),
        Ok(Done::default())
    );
}

#[test]
fn enrol_12_to_15_in_order() {
    let mut full = new(0).unwrap();
    for number in 1..=64 {
        let suffix = name(&format!("p{number}.example."));
        let done = enrol(&mut full, 10, &suffix, 2, 1, 384);
        assert_eq!(done, with_key(number, 1));
    }
    let enrol = |suffix: Vec<u8>, lifetime: u64, fresh: u64, algorithm: u64| {
        move |table: &mut Table| enrol(table, 20, &suffix, lifetime, fresh, algorithm)
    };
    let check = |call: &dyn Fn(&mut Table) -> Result<Done, Refusal>, refusal| {
        refused_at(full.clone(), 20, call, refusal);
    };
    check(&enrol(name("."), 0, 0, 1), Refusal::Name);
    check(&enrol(name_of(129), 0, 0, 1), Refusal::Name);
    let twin = name("P1.EXAMPLE.");
    check(&enrol(twin.clone(), 1, 0, 256), Refusal::Term);
    check(&enrol(twin.clone(), 1, 1, 256), Refusal::Term);
    check(&enrol(twin.clone(), 1 << 31, 1, 256), Refusal::Term);
    check(&enrol(twin.clone(), 2, 1, 255), Refusal::Term);
    check(&enrol(twin, 2, 1, 256), Refusal::Twin);
    check(&enrol(name("new."), (1 << 31) - 1, 1, 512), Refusal::Full);
    full.pairs.pop();
    let done = enrol(name_of(128), (1 << 31) - 1, (1 << 31) - 2, 512)(&mut full);
    assert_eq!(done, with_key(64, 1));
}

#[test]
fn enrolment_at_the_last_time_keeps_the_rules() {
    let mut table = new(0).unwrap();
    let (time, longest) = (TIME_LIMIT - 1, (1 << 31) - 1);
    let done = enrol(&mut table, time, &name("a."), longest, longest - 1, 256);
    assert_eq!(done, with_key(1, 1));
    assert_eq!(table.pairs[0].adopted().unwrap().expiry, (1 << 48) - 2);
    assert!(table.keeps_rules());
}

#[test]
fn issue_9_11_13_in_order() {
    let mut spent = day();
    spent.pairs[0].next_serial = 1 << 32;
    for number in [0, 2, 65, u64::MAX] {
        refused_at(
            spent.clone(),
            1100,
            |t| issue(t, 1100, number, 1),
            Refusal::NoPair,
        );
    }
    refused_at(spent, 1100, |t| issue(t, 1100, 1, 1), Refusal::Spent);
    refused_at(day(), 1100, |t| issue(t, 1100, 1, 1), Refusal::Term);
    let mut table = day();
    let renewal = Draft::renewal("1.a.example.").signed("1.a.example.", 1100);
    table.pairs[0].next_serial = 7;
    assert_eq!(tkey_error(&mut table, 1100, &renewal), 0);
    assert_eq!(issue(&mut table, 1100, 1, 512), with_key(1, 8));
    assert!(matches!(table.pairs[0].keys, Keys::Adopted(key) if key.serial == 8));
    table.pairs[0].next_serial = (1 << 32) - 1;
    assert_eq!(issue(&mut table, 1100, 1, 384), with_key(1, (1 << 32) - 1));
    assert_eq!(issue(&mut table, 1100, 1, 384), Err(Refusal::Spent));
}

#[test]
fn revoke_9_10_in_order() {
    let mut empty = day();
    empty.pairs[0].keys = Keys::None;
    let nokey = Refusal::NoKey;
    for number in [0, 2] {
        let call = |t: &mut Table| revoke(t, 1600, number);
        refused_at(day(), 1600, call, Refusal::NoPair);
    }
    refused_at(empty, 1100, |t| revoke(t, 1100, 1), nokey);
    refused_at(day(), 1600, |t| revoke(t, 1600, 1), nokey);
    for (time, partial) in [(1000, 1000), (1399, 1399), (1401, 1400), (1599, 1400)] {
        let mut table = day();
        assert_eq!(revoke(&mut table, time, 1), with_key(1, 1));
        assert_eq!(table.pairs[0].adopted().unwrap().partial, partial);
        assert_eq!(table.clock, time);
    }
}

#[test]
fn room_to_the_octet_and_nothing_written_without() {
    let request = Draft::renewal("1.a.example.").signed("1.a.example.", 1100);
    let denied = Draft::ordinary().signed("9.a.example.", 1100);
    for octets in [request, denied] {
        let mut table = day();
        let length = send(&mut table, 1100, &octets).0.length;
        let offer = [0xde, 0xad, 0xbe, 0xef];
        let mut small = vec![FILL; length - 1];
        let call = |t: &mut Table| message(t, 1100, true, &octets, &offer, &mut small);
        refused_at(day(), 1100, call, Refusal::Room);
        assert!(small.iter().all(|&octet| octet == FILL));
        let mut enough = vec![FILL; length];
        let done = message(&mut day(), 1100, true, &octets, &offer, &mut enough);
        assert_eq!(done.unwrap().length, length);
    }
}

/// A request of 65,535 octets whose reply has names written out.
#[test]
fn a_reply_over_65535_octets_has_no_room() {
    let long_reply = |key_size: usize| {
        let mut tkey = Tkey::new(".", 1, Vec::new());
        tkey.owner = vec![0xc0, 12];
        tkey.key = vec![7; key_size];
        let draft = Draft::empty().ask(&name_of(255), TKEY, ANY);
        draft.add(tkey.octets()).signed("1.a.example.", 1100)
    };
    // Header 12, question 259, TKEY 255 + 10 + 13 + 16 and the key data.
    let most = 65_535 - 565;
    let send = |key_size: usize| {
        let octets = long_reply(key_size);
        assert!(octets.len() <= 65_535);
        let mut reply = vec![FILL; 70_000];
        message(&mut day(), 1100, true, &octets, &[], &mut reply)
    };
    assert_eq!(send(most).unwrap().length, 65_535);
    assert_eq!(send(most + 1), Err(Refusal::Room));
}
