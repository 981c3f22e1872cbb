//! 01 "Judging, first that applies".

use second::{enrol, issue, look, revoke, Done, Keys, Table};

use crate::build::*;

const FORMERR: (u8, u16) = (1, 0);
const REFUSED: (u8, u16) = (5, 0);
const BADSIG: (u8, u16) = (9, 16);
const BADKEY: (u8, u16) = (9, 17);
const BADTIME: (u8, u16) = (9, 18);
const PARTIAL_REVOKE: (u8, u16) = (9, 3841);

const KEY1: &str = "1.a.example.";
const KEY2: &str = "2.a.example.";

fn tsig() -> Tsig {
    Tsig::by(KEY1, 1100)
}

/// RCODE and TSIG error at 1100; the pairs stay as they are.
fn denied_at_1100(octets: &[u8]) -> (u8, u16) {
    let mut table = day();
    let denied = denied(&mut table, 1100, octets);
    assert_eq!(table.pairs, day().pairs);
    denied
}

/// Pair and serial that are returned at 1100.
fn key_at_1100(octets: &[u8]) -> (u64, u64) {
    let (done, _) = send(&mut day(), 1100, octets);
    (done.pair, done.serial)
}

/// Key 1 adopted, key 2 waiting, made at 1100.
fn renewing() -> Table {
    let mut table = day();
    let request = Draft::renewal(KEY1).signed(KEY1, 1100);
    assert_eq!(tkey_error(&mut table, 1100, &request), 0);
    table
}

/// The TKEY error at 1100 of a request signed by key 1, and the table.
fn asked(mut table: Table, draft: &Draft) -> (u16, Table) {
    let error = tkey_error(&mut table, 1100, &draft.signed(KEY1, 1100));
    (error, table)
}

#[test]
fn step_1_place_of_the_tsig() {
    let opt = record(&[0], 41, 1232, 0, &[]);
    let not_last = Draft::ordinary().add(tsig().octets()).add(opt.clone());
    assert_eq!(denied_at_1100(&not_last.octets()), FORMERR);
    let last = Draft::ordinary().add(opt).with(&tsig());
    assert_eq!(Ok(send(&mut day(), 1100, &last).0), with_key(1, 1));
    let two = Draft::ordinary().add(tsig().octets()).with(&tsig());
    assert_eq!(denied_at_1100(&two), FORMERR);
    assert_eq!(look(&day(), &two), Ok(Done::default()));
    // The very last record, but in another section.
    let mut answer = Draft::ordinary();
    answer.answer.push(tsig().octets());
    assert_eq!(denied_at_1100(&answer.octets()), FORMERR);
    let mut authority = Draft::ordinary();
    authority.authority.push(tsig().octets());
    assert_eq!(denied_at_1100(&authority.octets()), FORMERR);
    assert_eq!(key_at_1100(&authority.octets()), (0, 0));
    // One in the answer section and one in its place.
    assert_eq!(denied_at_1100(&answer.with(&tsig())), FORMERR);
}

#[test]
fn step_1_goes_before_2_and_3() {
    let mut bad = Tsig::by("9.a.example.", 1100);
    assert_eq!(denied_at_1100(&Draft::ordinary().with(&bad)), BADKEY);
    bad.class = IN;
    assert_eq!(denied_at_1100(&Draft::ordinary().with(&bad)), FORMERR);
    let mut request = Draft::renewal(KEY1);
    request.answer.push(tsig().octets());
    assert_eq!(denied_at_1100(&request.octets()), FORMERR);
}

#[test]
fn step_2_no_tsig() {
    assert_eq!(denied_at_1100(&Draft::renewal(KEY1).octets()), REFUSED);
    // Whatever else it has.
    let bare = Draft::empty().ask(&name("q."), TKEY, ANY);
    assert_eq!(denied_at_1100(&bare.octets()), REFUSED);
    let ordinary = Draft::ordinary().octets();
    for good in [true, false] {
        let done = message(&mut day(), 1100, good, &ordinary, &[], &mut []);
        assert_eq!(done, Ok(Done::default()));
    }
}

#[test]
fn a_tkey_request_has_opcode_0_and_one_question_of_type_249_and_class_255() {
    let unsigned = |draft: &Draft| send(&mut day(), 1100, &draft.octets()).1.len();
    let request = Draft::deletion(KEY1);
    assert_eq!(denied_at_1100(&request.octets()), REFUSED);
    let mut update = request.clone();
    update.flags = 0x2800;
    assert_eq!(unsigned(&update), 0);
    let mut other_flags = request.clone();
    other_flags.flags = 0x07ff;
    assert_eq!(denied_at_1100(&other_flags.octets()), REFUSED);
    let two = request.clone().ask(&name("q."), TKEY, ANY);
    assert_eq!(unsigned(&two), 0);
    let tkey = || Tkey::new(KEY1, DELETION, Vec::new()).octets();
    let of_class_in = Draft::empty().ask(&name("q."), TKEY, IN).add(tkey());
    assert_eq!(unsigned(&of_class_in), 0);
    let of_type_any = Draft::empty().ask(&name("q."), ANY, ANY).add(tkey());
    assert_eq!(unsigned(&of_type_any), 0);
    // Signed, they are ordinary: key 1 is not deleted.
    for draft in [update, two, of_class_in, of_type_any] {
        let mut table = day();
        let done = send(&mut table, 1100, &draft.signed(KEY1, 1100)).0;
        assert_eq!(Ok(done), with_key(1, 1));
        assert_eq!(table.pairs, day().pairs);
    }
}

#[test]
fn step_3_name_and_algorithm() {
    let ordinary = Draft::ordinary();
    for wrong in ["2.a.example.", "01.a.example.", "1.b.example.", "1.", "."] {
        assert_eq!(denied_at_1100(&ordinary.signed(wrong, 1100)), BADKEY);
        assert_eq!(key_at_1100(&ordinary.signed(wrong, 1100)), (0, 0));
    }
    assert_eq!(key_at_1100(&ordinary.signed("1.A.eXAMPLE.", 1100)), (1, 1));
    let with_algorithm = |text: &str| {
        let algorithm = name(text);
        ordinary.with(&Tsig {
            algorithm,
            ..tsig()
        })
    };
    assert_eq!(key_at_1100(&with_algorithm("HMAC-sha256.")), (1, 1));
    for wrong in ["hmac-sha384.", "hmac-sha256.x.", "hmac-sha25.", "."] {
        assert_eq!(denied_at_1100(&with_algorithm(wrong)), BADKEY);
    }
    // BADKEY goes before the MAC size and the verdict.
    let mut short = Tsig::by("9.a.example.", 1100);
    short.mac = 0;
    let octets = ordinary.with(&short);
    let done = message(&mut day(), 1100, false, &octets, &[], &mut [0; 512]);
    assert_eq!(done.unwrap().error, 17);
}

#[test]
fn step_3_a_waiting_key_is_unknown() {
    let octets = Draft::ordinary().signed(KEY2, 1100);
    assert_eq!(denied(&mut renewing(), 1100, &octets), BADKEY);
    assert_eq!(look(&renewing(), &octets), Ok(Done::default()));
    let adoption = Draft::adoption(KEY2, KEY1).signed(KEY2, 1100);
    assert_eq!(denied(&mut renewing(), 1100, &adoption), BADKEY);
}

#[test]
fn step_3_expiry_and_look() {
    let mut table = day();
    let octets = Draft::renewal(KEY1).signed(KEY1, 1600);
    assert_eq!(denied(&mut table, 1600, &octets), BADKEY);
    assert_eq!(look(&table, &octets), with_key(1, 1));
    assert_eq!(
        look(&table, &Draft::ordinary().octets()),
        Ok(Done::default())
    );
}

#[test]
fn step_3_finds_the_right_one_of_many_pairs() {
    let mut table = day();
    let suffix = name("1.a.example.");
    assert_eq!(enrol(&mut table, 1000, &suffix, 9, 8, 384), with_key(2, 1));
    assert_eq!(issue(&mut table, 1000, 2, 256), with_key(2, 2));
    let looked = |key: &str| look(&table, &Draft::ordinary().signed(key, 0));
    assert_eq!(looked(KEY1), with_key(1, 1));
    assert_eq!(looked("2.1.a.example."), with_key(2, 2));
    assert_eq!(looked("1.1.a.example."), Ok(Done::default()));
}

#[test]
fn step_4_mac_size_then_verdict() {
    for (algorithm, number, output) in [
        ("hmac-sha256.", 256, 32),
        ("hmac-sha384.", 384, 48),
        ("hmac-sha512.", 512, 64),
    ] {
        let mut table = day();
        assert_eq!(issue(&mut table, 1100, 1, number), with_key(1, 2));
        let octets = |mac: usize| {
            let algorithm = name(algorithm);
            let tsig = Tsig::by(KEY2, 1100);
            Draft::ordinary().with(&Tsig {
                algorithm,
                mac,
                ..tsig
            })
        };
        for mac in [0, 10, output / 2 - 1, output + 1, 300] {
            assert_eq!(denied(&mut table, 1100, &octets(mac)), FORMERR);
            let (done, _) = send(&mut table, 1100, &octets(mac));
            assert_eq!((done.pair, done.serial), (1, 2));
        }
        for mac in [output / 2, output] {
            assert_eq!(Ok(send(&mut table, 1100, &octets(mac)).0), with_key(1, 2));
        }
        for (mac, error) in [(output / 2 - 1, 0), (output, 16)] {
            let done = message(&mut table, 1100, false, &octets(mac), &[], &mut [0; 512]);
            assert_eq!(done.unwrap().error, error);
        }
    }
}

#[test]
fn step_4_goes_before_5() {
    let octets = Draft::ordinary().signed(KEY1, 5000);
    let mut reply = [0; 512];
    let done = message(&mut day(), 1100, false, &octets, &[], &mut reply).unwrap();
    assert_eq!((reply[3] & 15, done.error), BADSIG);
    assert_eq!((done.pair, done.serial, done.skew), (1, 1, 0));
}

#[test]
fn step_5_and_the_skew() {
    let octets = |time: u64, fudge: u16| {
        Draft::ordinary().with(&Tsig {
            time,
            fudge,
            ..tsig()
        })
    };
    for (time, fudge, skew) in [
        (1100, 0, 0),
        (1101, 1, 1),
        (1099, 1, -1),
        (1400, 300, 300),
        (0, 1100, -1100),
        (66_635, 65_535, 65_535),
    ] {
        let (done, _) = send(&mut day(), 1100, &octets(time, fudge));
        assert_eq!((done.error, done.skew), (0, skew));
    }
    for (time, fudge) in [
        (1101, 0),
        (1099, 0),
        (1401, 300),
        (0, 1099),
        (66_636, 65_535),
        ((1 << 48) - 1, 65_535),
    ] {
        assert_eq!(denied_at_1100(&octets(time, fudge)), BADTIME);
    }
}

#[test]
fn step_5_goes_before_6_and_7() {
    let bare = Draft::empty().ask(&name("q."), TKEY, ANY);
    assert_eq!(denied_at_1100(&bare.signed(KEY1, 1401)), BADTIME);
    let octets = Draft::ordinary().signed(KEY1, 1100);
    assert_eq!(denied(&mut day(), 1500, &octets), BADTIME);
}

#[test]
fn step_6_just_one_tkey_in_the_additional_section() {
    let tkey = Tkey::new(KEY1, DELETION, Vec::new()).octets();
    let bare = Draft::empty().ask(&name("q."), TKEY, ANY);
    let mut answer = bare.clone();
    answer.answer.push(tkey.clone());
    let mut authority = bare.clone();
    authority.authority.push(tkey.clone());
    let one = bare.clone().add(tkey.clone());
    let two = one.clone().add(tkey.clone());
    let mut one_and_one = one.clone();
    one_and_one.answer.push(tkey);
    for draft in [bare, answer, authority, two, one_and_one] {
        let octets = draft.signed(KEY1, 1100);
        assert_eq!(denied_at_1100(&octets), FORMERR);
        assert_eq!(key_at_1100(&octets), (1, 1));
        // Step 6 goes before step 7.
        let late = draft.signed(KEY1, 1400);
        assert_eq!(denied(&mut day(), 1400, &late), FORMERR);
    }
    assert_eq!(asked(day(), &one).0, 0);
}

#[test]
fn step_6_form_of_the_tkey() {
    let of_data = |data: &[u8]| {
        let record = record(&name(KEY1), TKEY, ANY, 0, data);
        let draft = Draft::empty().ask(&name("q."), TKEY, ANY).add(record);
        denied_at_1100(&draft.signed(KEY1, 1100))
    };
    let data = Tkey::new(KEY1, DELETION, vec![1, 2, 3]).data();
    for length in 0..data.len() {
        assert_eq!(of_data(&data[..length]), FORMERR);
    }
    assert_eq!(of_data(&[&data[..], &[0]].concat()), FORMERR);
    assert_eq!(of_data(&[0xc0, 12].repeat(20)), FORMERR);
    // Class and TTL are ignored; other data is free in mode 5 and in others.
    let mut tkey = Tkey::new(KEY1, DELETION, vec![1, 2, 3]);
    (tkey.class, tkey.ttl, tkey.error) = (IN, 77, 99);
    assert_eq!(asked(day(), &Draft::tkey(&tkey)).0, 0);
    tkey.mode = 1;
    assert_eq!(asked(day(), &Draft::tkey(&tkey)).0, 19);
}

#[test]
fn step_6_other_data_of_renewal_and_adoption() {
    let good = old(KEY1);
    let too_long = [name_of(256), name("hmac-sha256.")].concat();
    for other in [
        Vec::new(),
        name(KEY1),
        good[..good.len() - 1].to_vec(),
        [&good[..], &[0]].concat(),
        [&[0xc0, 12][..], &name("hmac-sha256.")].concat(),
        [&name(KEY1)[..], &[0xc0, 12]].concat(),
        too_long,
    ] {
        for mode in [4097, RENEWAL, 4099, ADOPTION] {
            let draft = Draft::tkey(&Tkey::new(KEY1, mode, other.clone())).add(key_record());
            assert_eq!(denied_at_1100(&draft.signed(KEY1, 1100)), FORMERR);
        }
    }
    // Two good names that are not the signing key's are no matter of form.
    for mode in RENEWALS {
        let draft = Draft::tkey(&Tkey::new(KEY1, mode, [name_of(255), vec![0]].concat()));
        assert_eq!(asked(day(), &draft).0, 17);
    }
}

#[test]
fn a_tkey_in_an_ordinary_message_may_be_anything() {
    let junk = record(&name("x."), TKEY, IN, 9, &[0xff]);
    let octets = Draft::ordinary().add(junk.clone()).add(junk);
    let done = send(&mut day(), 1100, &octets.signed(KEY1, 1100)).0;
    assert_eq!(Ok(done), with_key(1, 1));
}

#[test]
fn step_7_partial_revocation() {
    let mut table = day();
    assert_eq!(revoke(&mut table, 1100, 1), with_key(1, 1));
    for draft in [
        Draft::ordinary(),
        Draft::deletion(KEY1),
        Draft::tkey(&Tkey::new(KEY1, 4101, old(KEY1))),
    ] {
        let octets = draft.signed(KEY1, 1100);
        assert_eq!(denied(&mut table, 1100, &octets), PARTIAL_REVOKE);
        let (done, _) = send(&mut table, 1100, &octets);
        assert_eq!((done.pair, done.serial), (1, 1));
    }
    let octets = Draft::ordinary().signed(KEY1, 1100);
    let done = message(&mut table, 1100, false, &octets, &[], &mut [0; 512]);
    assert_eq!(done.unwrap().error, 16);
    // Renewal in each mode and adoption are heard.
    assert_eq!(asked(table.clone(), &Draft::adoption(KEY2, KEY1)).0, 20);
    for (mode, error) in [(4097, 17), (4098, 0), (4099, 1)] {
        let draft = Draft::renewal_by(mode, KEY1);
        assert_eq!(asked(table.clone(), &draft).0, error);
    }
}

#[test]
fn step_9_modes() {
    for mode in [0, 1, 2, 3, 4, 6, 4096, 4101, 65_535] {
        let draft = Draft::tkey(&Tkey::new(KEY1, mode, Vec::new()));
        let (error, table) = asked(day(), &draft);
        assert_eq!((error, &table.pairs), (19, &day().pairs));
    }
}

/// A renewal by key 1 with changes.
fn renewal(change: impl FnOnce(&mut Tkey)) -> Draft {
    let mut tkey = Tkey::new("new.", RENEWAL, old(KEY1));
    change(&mut tkey);
    Draft::tkey(&tkey).add(key_record())
}

#[test]
fn renewal_errors_in_order() {
    // Each draft has the later errors too; the last lacks an offer.
    let all = |tkey: &mut Tkey| {
        tkey.other = old(KEY2);
        tkey.algorithm = name("hmac-md5.sig-alg.reg.int.");
        tkey.expiration = tkey.inception;
    };
    let good = old(KEY1);
    let mut no_key_record = renewal(|tkey| {
        all(tkey);
        tkey.other = good.clone();
    });
    no_key_record.additional.pop();
    let expected = [
        (renewal(all), 17),
        (no_key_record, 1),
        (
            renewal(|tkey| {
                all(tkey);
                tkey.other = good.clone();
            }),
            21,
        ),
        (renewal(|tkey| tkey.expiration = tkey.inception), 18),
        (renewal(|_| ()), 2),
    ];
    for (draft, error) in expected {
        let mut table = day();
        let mut reply = [0; 512];
        let octets = draft.signed(KEY1, 1100);
        let done = message(&mut table, 1100, true, &octets, &[], &mut reply).unwrap();
        let (_, data) = tkey_answer(&reply[..done.length]);
        let place = second::names::plain(&data).unwrap().len() + 10;
        assert_eq!(data[place..place + 2], [0, error]);
        assert_eq!((done.error, done.pair, done.serial), (0, 1, 1));
        assert_eq!(table.pairs, day().pairs);
    }
}

#[test]
fn renewal_wants_the_signing_key_as_old_key() {
    let with_old = |other: Vec<u8>| asked(day(), &renewal(|tkey| tkey.other = other)).0;
    assert_eq!(with_old(old("1.A.Example.")), 0);
    assert_eq!(with_old([name(KEY1), name("HMAC-SHA256.")].concat()), 0);
    assert_eq!(with_old([name(KEY1), name("hmac-sha384.")].concat()), 17);
    assert_eq!(with_old(old("01.a.example.")), 17);
    assert_eq!(with_old(vec![0, 0]), 17);
}

#[test]
fn renewal_wants_just_one_key_record_in_the_additional_section() {
    let two = renewal(|_| ()).add(key_record());
    assert_eq!(asked(day(), &two).0, 1);
    let mut elsewhere = renewal(|_| ());
    elsewhere.additional.pop();
    elsewhere.answer.push(key_record());
    assert_eq!(asked(day(), &elsewhere).0, 1);
    let mut besides = renewal(|_| ());
    besides.answer.push(key_record());
    besides.authority.push(key_record());
    assert_eq!(asked(day(), &besides).0, 0);
}

#[test]
fn renewal_algorithm_and_times() {
    for (text, error) in [
        ("hmac-sha384.", 0),
        ("Hmac-Sha512.", 0),
        ("hmac-sha1.", 21),
        ("hmac-sha2560.", 21),
        ("hmac-sha256.example.", 21),
        (".", 21),
    ] {
        let draft = renewal(|tkey| tkey.algorithm = name(text));
        assert_eq!(asked(day(), &draft).0, error, "{text}");
    }
    for (inception, expiration, error) in [
        (0, 1, 0),
        (u32::MAX - 1, u32::MAX, 0),
        (u32::MAX, 0, 0),
        (4_294_967_000, 1000, 0),
        (0, 0x7fff_ffff, 0),
        (0x8000_0001, 0, 0),
        (0, 0x8000_0000, 18),
        (0x8000_0000, 0, 18),
        (0, 0x8000_0001, 18),
        (0x7fff_ffff, 0, 18),
        (0, 3_000_000_000, 18),
        (0, u32::MAX, 18),
        (5, 4, 18),
        (0, 0, 18),
        (u32::MAX, u32::MAX, 18),
    ] {
        let draft = renewal(|tkey| {
            tkey.inception = inception;
            tkey.expiration = expiration;
        });
        assert_eq!(asked(day(), &draft).0, error, "{inception} to {expiration}");
    }
}

#[test]
fn renewal_wants_a_serial() {
    let mut table = day();
    table.pairs[0].next_serial = (1 << 32) - 1;
    let (error, mut table) = asked(table, &Draft::renewal(KEY1));
    assert_eq!((error, table.pairs[0].next_serial), (0, 1 << 32));
    assert_eq!(table.pairs[0].waiting().unwrap().serial, (1 << 32) - 1);
    table.clock = 1100;
    let before = table.clone();
    let (error, table) = asked(table, &Draft::renewal(KEY1));
    assert_eq!((error, table), (2, before));
}

#[test]
fn renewal_changes_one_pair_only_and_takes_the_asked_algorithm() {
    let mut table = day();
    enrol(&mut table, 1000, &name("b.example."), 600, 400, 512).unwrap();
    let draft = renewal(|tkey| tkey.algorithm = name("hmac-sha384."));
    let (_, after) = asked(table.clone(), &draft);
    assert_eq!(after.pairs[1], table.pairs[1]);
    let key = after.pairs[0].waiting().unwrap();
    assert_eq!(key.algorithm, second::Algorithm::Sha384);
    // OldName of another pair is a key that does not exist.
    let other = renewal(|tkey| tkey.other = old("1.b.example."));
    assert_eq!(asked(table, &other).0, 17);
}

#[test]
fn failed_renewal_keeps_partial_and_waiting() {
    let before = renewing();
    let draft = renewal(|tkey| tkey.expiration = 0);
    let (error, after) = asked(renewing(), &draft);
    assert_eq!((error, after), (18, before));
}

/// An adoption signed by key 1 with changes.
fn adoption(new: &str, change: impl FnOnce(&mut Tkey)) -> Draft {
    let mut tkey = Tkey::new(new, ADOPTION, old(KEY1));
    change(&mut tkey);
    Draft::tkey(&tkey)
}

#[test]
fn adoption_errors_in_order() {
    let wrong_old = |tkey: &mut Tkey| tkey.other = old("7.a.example.");
    let before = renewing();
    for (draft, error) in [
        // The adopted key: regardless of OldName, no change.
        (adoption(KEY1, wrong_old), 0),
        (adoption("9.a.example.", wrong_old), 20),
        (adoption("2.b.example.", wrong_old), 20),
        (
            adoption(KEY2, |tkey| tkey.algorithm = name("hmac-sha512.")),
            20,
        ),
        (
            adoption(KEY1, |tkey| tkey.algorithm = name("hmac-sha512.")),
            20,
        ),
        (adoption(KEY2, wrong_old), 17),
        (adoption(KEY2, |tkey| tkey.other = vec![0, 0]), 17),
    ] {
        let (answered, after) = asked(renewing(), &draft);
        assert_eq!((answered, &after), (error, &before));
    }
    let mut waiting = adoption("2.A.EXAMPLE.", |tkey| {
        tkey.algorithm = name("HMAC-SHA256.");
        tkey.other = old("1.A.example.");
    });
    waiting.additional.push(key_record());
    let (error, after) = asked(renewing(), &waiting);
    assert_eq!(error, 0);
    let key = *before.pairs[0].waiting().unwrap();
    assert_eq!(after.pairs[0].keys, Keys::Adopted(key));
    assert_eq!(after.pairs[0].next_serial, before.pairs[0].next_serial);
}

#[test]
fn deletion_of_the_signing_or_the_waiting_key() {
    let by_key_1 = |mut table: Table, draft: &Draft| {
        // Renewal has set the partial time; put it off again.
        if let Keys::Adopted(adopted) | Keys::Renewing { adopted, .. } = &mut table.pairs[0].keys {
            adopted.partial = 1400;
        }
        asked(table, draft)
    };
    let (error, after) = by_key_1(renewing(), &Draft::deletion("1.A.example."));
    assert_eq!((error, after.pairs[0].keys), (0, Keys::None));
    assert_eq!(after.pairs[0].next_serial, 3);
    let (error, after) = by_key_1(renewing(), &Draft::deletion(KEY2));
    assert_eq!((error, after.pairs[0].keys), (0, day().pairs[0].keys));
    for missing in ["3.a.example.", "1.b.example.", "."] {
        let (error, after) = by_key_1(renewing(), &Draft::deletion(missing));
        assert_eq!(error, 20);
        assert!(after.pairs[0].waiting().is_some());
    }
    // Only NAME counts.
    let mut tkey = Tkey::new(KEY1, DELETION, Vec::new());
    tkey.algorithm = name("hmac-sha512.");
    let (error, after) = by_key_1(day(), &Draft::tkey(&tkey));
    assert_eq!((error, after.pairs[0].keys), (0, Keys::None));
    // A pair without a key knows none.
    let octets = Draft::ordinary().signed(KEY1, 1100);
    let mut empty = after;
    assert_eq!(denied(&mut empty, 1100, &octets), BADKEY);
}
