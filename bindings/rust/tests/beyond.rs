//! What no script can do: edited words and octets, and what lies in them and in
//! the reply buffer afterwards.

mod support;

use luffcringle::{
    Algorithm, Answer, Given, Item, Key, Keys, LoadError, Octets, Refusal, Span, Table, TsigError,
    Verdict, Words,
};
use luffcringle::{MOST_ITEMS, TABLE_OCTETS, TABLE_WORDS};
use support::build::{key_record, name, Draft, FILL, RENEWALS};
use support::*;

const A: &str = "a.example.";

/// One pair with a key from 1000 to 1600, fresh until 1400.
fn day() -> Table {
    let mut table = Table::new(1000).expect("a new table");
    let answer = table.enrol(1000, &name(A), 600, 400, Algorithm::Sha256);
    assert_eq!(answer, Ok(key(1)));
    table
}

/// DONE with this key of pair 1.
fn key(serial: u64) -> Answer {
    key_of(1, serial)
}

fn key_of(pair: u64, serial: u64) -> Answer {
    Answer {
        pair,
        serial,
        ..Answer::default()
    }
}

/// A waiting key that no call can leave: the adopted one is still fresh.
fn with_waiting_key() -> Table {
    give_waiting_key(&day(), 1)
}

fn give_waiting_key(table: &Table, pair: u64) -> Table {
    let from = row_of(table, pair);
    edited(table, |words, _| {
        let row = &mut words[from..];
        row[NEXT_SERIAL] = 3;
        row[KEYS] = 2;
        row[WAITING..][..5].copy_from_slice(&[2, 256, 1000, 1400, 1600]);
    })
}

/// The names of 64 offices, some in upper case, not in order.
fn office(pair: u64) -> String {
    let number = pair * 37 % 101;
    match pair % 4 {
        0 => format!("OFFICE-{number:02}.example."),
        _ => format!("office-{number:02}.example."),
    }
}

/// So many of them. Every third has a waiting key, and every third no key.
fn offices(count: u64) -> Table {
    let mut table = Table::new(1000).expect("a new table");
    for pair in 1..=count {
        let answer = table.enrol(1000, &name(&office(pair)), 600, 400, Algorithm::Sha256);
        assert_eq!(answer, Ok(key_of(pair, 1)));
        match pair % 3 {
            0 => table = give_waiting_key(&table, pair),
            1 => {
                table = edited(&table, |words, _| {
                    words[row(place(&table, pair)) + KEYS] = 0
                })
            }
            _ => (),
        }
    }
    assert!((1..=count).any(|pair| place(&table, pair) as u64 != pair - 1));
    table
}

/// An item of a batch that is lent one message alone.
fn whole(message: &[u8]) -> Item {
    Item {
        time: 1001,
        mac: Verdict::Good,
        message: (0..message.len()).into(),
        ..Item::default()
    }
}

/// Both hold the same words and octets.
fn is_left(before: &Table, after: &Table) -> bool {
    before.parts() == after.parts()
}

/// All seven calls that read a table refuse it with TABLE, and so does list;
/// none changes anything. A load takes its place all the same.
fn refused_by_all(table: &Table, what: &str) {
    let message = Draft::ordinary().signed("1.a.example.", 1000);
    let mut lent = table.clone();
    let mut reply = [FILL; 512];
    let refused = [
        lent.enrol(1001, &name("new.example."), 600, 400, Algorithm::Sha256),
        lent.issue(1001, 1, Algorithm::Sha256),
        lent.revoke(1001, 1),
        lent.close(1001, 1),
        lent.look(&message),
        lent.message(&good(1001, &[5]), &message, &mut reply),
    ];
    assert_eq!(refused, [Err(Refusal::Table); 6], "{what}");
    // Before BATCH, and where there is nothing to do.
    for items in [&[][..], &[whole(&message); 64], &[whole(&message); 65]] {
        let refused = lent.batch(&message, items, &mut reply);
        assert_eq!(refused, Err(Refusal::Table), "{what}");
    }
    assert_eq!(lent.list(), Err(Refusal::Table), "{what}");
    assert_eq!(lent.list_into(&mut reply), Err(Refusal::Table), "{what}");
    assert!(is_left(table, &lent), "{what}");
    assert_eq!(reply, [FILL; 512], "{what}");
    assert_eq!(lent.load(b"clock\t1000\t0\n"), Err(LoadError::Table));
    assert!(is_left(table, &lent), "{what}");
    assert_eq!(lent.load(b"clock\t1000\t1\n"), Ok(()), "{what}");
    assert_eq!(lent.view(), Table::new(1000).expect("a time").view());
}

// ---- What is no table ----

/// An edit of a table of `offices(6)` that breaks the layout rule.
type Break = Box<dyn Fn(&mut Words, &mut Octets)>;

fn set(word: usize, value: u64) -> Break {
    Box::new(move |words, _| words[word] = value)
}

fn layout_breaks() -> Vec<(String, Break)> {
    let mut breaks: Vec<(String, Break)> = Vec::new();
    let mut add = |what: &str, value: u64, edit: Break| {
        breaks.push((format!("{what}, {value}"), edit));
    };
    // Times 16 or 128 some of these wrap to a good place.
    let large = [1 << 32, 1 << 57, 1 << 60, 1 << 63, u64::MAX];
    for count in [5, 7, 64, 65, 66, 6 + (1 << 32)].into_iter().chain(large) {
        add("a count of pairs", count, set(COUNT, count));
    }
    for place in [6, 63, 64].into_iter().chain(large) {
        add("the place of a pair", place, set(MAP + 2, place));
    }
    for number in [6, 64].into_iter().chain(large) {
        add("the pair at a place", number, set(row(4) + NUMBER, number));
    }
    for length in [0, 2, 129, 130, 256].into_iter().chain(large) {
        add("a length", length, set(row(0) + LENGTH, length));
    }
    for tag in [3, 4, 256].into_iter().chain(large) {
        add("a tag", tag, set(row(5) + KEYS, tag));
    }
    for algorithm in [0, 1, 255, 257, 511].into_iter().chain(large) {
        for key in [ADOPTED, WAITING] {
            let edit = move |words: &mut Words, _: &mut Octets| {
                let all = (0..6).map(row).find(|&row| words[row + KEYS] == 2);
                words[all.expect("a waiting key") + key + 1] = algorithm;
            };
            add("an algorithm", algorithm, Box::new(edit));
        }
    }
    // A suffix begins with the octet 9 and `office-NN`.
    for place in 1..6 {
        let (here, before) = (128 * place, 128 * (place - 1));
        let twin = move |_: &mut Words, suffixes: &mut Octets| {
            suffixes.copy_within(before..here, here);
        };
        add("the suffix before", place as u64, Box::new(twin));
        let in_cases = move |_: &mut Words, suffixes: &mut Octets| {
            suffixes.copy_within(before..here, here);
            suffixes[before + 1..][..6].make_ascii_uppercase();
            suffixes[here + 1..][..6].make_ascii_lowercase();
        };
        add("the same in cases", place as u64, Box::new(in_cases));
        let less = move |_: &mut Words, suffixes: &mut Octets| suffixes[here + 8] = b'/';
        add("a suffix out of order", place as u64, Box::new(less));
    }
    breaks
}

#[test]
fn what_breaks_the_layout_is_no_table() {
    let table = offices(6);
    for (what, edit) in layout_breaks() {
        let broken = edited(&table, |words, suffixes| edit(words, suffixes));
        assert!(!is_left(&table, &broken), "{what}");
        assert_eq!(broken.view(), None, "{what}");
        refused_by_all(&broken, &what);
    }
}

#[test]
fn two_numbers_to_one_place_are_no_table() {
    let table = offices(6);
    for one in 0..6 {
        for other in (0..6).filter(|&other| other != one) {
            let broken = edited(&table, |words, _| words[MAP + one] = words[MAP + other]);
            assert_eq!(broken.view(), None);
            refused_by_all(&broken, "two numbers to one place");
            let broken = edited(&table, |words, _| {
                words[row(one) + NUMBER] = words[row(other) + NUMBER];
            });
            assert_eq!(broken.view(), None);
            refused_by_all(&broken, "one number at two places");
        }
    }
}

/// A table that keeps the layout rule and breaks another is shown and refused.
#[test]
fn what_breaks_a_table_rule_is_refused() {
    let table = with_waiting_key();
    let row = row(0);
    let edits = [
        (CLOCK, 1 << 48),
        (CLOCK, u64::MAX),
        (CLOCK, 999), // before a key's inception
        (row + LENGTH, 10),
        (row + LENGTH, 12),
        (row + LIFETIME, 400),
        (row + LIFETIME, 601),
        (row + LIFETIME, 1 << 31),
        (row + FRESH, 0),
        (row + FRESH, 600),
        (row + NEXT_SERIAL, 0),
        (row + NEXT_SERIAL, 2),
        (row + NEXT_SERIAL, (1 << 32) + 1),
        (row + ADOPTED, 0),
        (row + ADOPTED, 2), // as the waiting key's
        (row + ADOPTED + 2, 1001),
        (row + ADOPTED + 3, 1600),
        (row + WAITING + 3, 999),
        (row + WAITING + 4, u64::MAX),
    ];
    for (word, value) in edits {
        let broken = edited(&table, |words, _| words[word] = value);
        assert!(!table_of(&broken).keeps_rules(), "word {word}");
        refused_by_all(&broken, &format!("{value} in word {word}"));
    }
}

/// Whatever is lent, the view does not panic, and look says what the second
/// reader says of the view, or TABLE where there is none.
#[test]
fn any_words_are_judged() {
    let mut random = Random(7);
    let message = Draft::ordinary().signed(&format!("1.{}", office(2)), 1000);
    let tables = [day(), with_waiting_key(), offices(6), offices(64)];
    let (mut shown, mut kept, mut broken) = (0, 0, 0);
    for _ in 0..20_000 {
        let start = &tables[random.below(tables.len())];
        let table = edited(start, |words, suffixes| {
            let count = words[COUNT] as usize;
            for _ in 0..=random.below(3) {
                match random.below(8) {
                    0 => suffixes[random.below(128 * count)] = random.next() as u8,
                    1 => words[random.below(MAP)] = random.word(),
                    2 => words[MAP + random.below(count)] = random.below(66) as u64,
                    3 => {
                        let (one, other) = (random.below(count), random.below(count));
                        words.swap(MAP + one, MAP + other);
                        words.swap(row(one), row(other));
                    }
                    _ => words[row(0) + random.below(16 * count)] = random.word(),
                }
            }
        });
        let expected = match table.view() {
            None => Err(Refusal::Table),
            Some(view) => as_ours(second::look(&theirs(&view), &message)),
        };
        assert_eq!(table.look(&message), expected);
        match (table.view(), expected) {
            (None, _) => broken += 1,
            (_, Err(_)) => shown += 1,
            _ => kept += 1,
        }
    }
    assert!([shown, kept, broken].iter().all(|&count| count > 1000));
    for _ in 0..100 {
        let mut words = [0; TABLE_WORDS];
        words.iter_mut().for_each(|word| *word = random.word());
        let table = Table::from_parts(&words, &[0xff; TABLE_OCTETS]);
        assert!(table.view().is_none_or(|view| view.pairs.is_empty()));
    }
}

// ---- The view ----

#[test]
fn the_view_is_in_order_of_enrolment() {
    let view = offices(64).view().expect("a table");
    assert_eq!((view.clock, view.pairs.len()), (1000, 64));
    let first = Key {
        serial: 1,
        algorithm: Algorithm::Sha256,
        inception: 1000,
        partial: 1400,
        expiry: 1600,
    };
    for (pair, shown) in (1..).zip(&view.pairs) {
        assert_eq!(shown.suffix, name(&office(pair)));
        assert_eq!((shown.lifetime, shown.fresh), (600, 400));
        let (next_serial, keys) = match pair % 3 {
            0 => {
                let waiting = Key { serial: 2, ..first };
                let adopted = first;
                (3, Keys::Renewing { adopted, waiting })
            }
            1 => (2, Keys::None),
            _ => (2, Keys::Adopted(first)),
        };
        assert_eq!((shown.next_serial, shown.keys), (next_serial, keys));
    }
}

// ---- What stays ----

#[test]
fn serials_run_out() {
    let limit = 1 << 32;
    let next = row(0) + NEXT_SERIAL;
    let mut table = edited(&day(), |words, _| words[next] = limit - 1);
    assert_eq!(table.issue(1000, 1, Algorithm::Sha256), Ok(key(limit - 1)));
    assert_eq!(table.parts().0[next], limit);
    assert_eq!(table.issue(1000, 1, Algorithm::Sha256), Err(Refusal::Spent));
}

#[test]
fn a_waiting_key_is_deleted_alone() {
    let mut table = with_waiting_key();
    let mut theirs = table_of(&table);
    let message = Draft::deletion("2.a.example.").signed("1.a.example.", 1200);
    let (mut reply, mut their_reply) = ([FILL; 512], [FILL; 512]);
    let answer = table.message(&good(1200, &[]), &message, &mut reply);
    let given = given_to_them(&good(1200, &[]));
    let expected = second::message(&mut theirs, &given, &message, &mut their_reply);
    assert_eq!(answer, as_ours(expected));
    assert_eq!(reply, their_reply);
    let answer = answer.expect("done");
    assert!(answer.length > 0);
    let signed_by = (answer.error, answer.pair, answer.serial);
    assert_eq!(signed_by, (TsigError::None, 1, 1));
    let keys = |table: &Table| table.view().expect("a table").pairs[0].keys;
    assert_eq!(keys(&table), keys(&day()));
    assert_eq!(table_of(&table), theirs);
}

/// The three schemes, by what is given: both readers do the same, and what is
/// granted makes the same keys.
#[test]
fn a_renewal_of_each_scheme() {
    let record = &key_record();
    let mut granted = Vec::new();
    for mode in RENEWALS {
        let message = Draft::renewal_by(mode, "1.a.example.").signed("1.a.example.", 1200);
        for (offer, fits, record) in [
            (&[5; 4][..], true, &record[..]),
            (&[5; 1024], true, record),
            (&[], true, record),
            (&[5; 4], false, record),
            (&[5; 4], true, &record[1..]),
            (&[5; 4], true, &[]),
            (&[], false, &[]),
            (&[5; 1025], true, record),
        ] {
            let given = Given {
                offer,
                keying: Verdict::from(fits),
                record,
                ..good(1200, &[])
            };
            let (mut ours, mut theirs) = (day(), table_of(&day()));
            let (mut reply, mut their_reply) = ([FILL; 2048], [FILL; 2048]);
            let answer = ours.message(&given, &message, &mut reply);
            let to_them = given_to_them(&given);
            let expected = second::message(&mut theirs, &to_them, &message, &mut their_reply);
            assert_eq!(answer, as_ours(expected), "{mode}, {given:?}");
            assert_eq!(reply, their_reply, "{mode}, {given:?}");
            assert_eq!(table_of(&ours), theirs, "{mode}, {given:?}");
            if theirs.pairs[0].waiting().is_some() {
                granted.push(theirs);
            }
        }
    }
    // Twice by Diffie-Hellman, five times by each assignment.
    assert_eq!(granted.len(), 2 + 5 + 5);
    assert!(granted.iter().all(|table| *table == granted[0]));
}

/// A refused call leaves all but the clock, which is then `clock`.
fn refused(
    refusal: Refusal,
    clock: u64,
    call: impl Fn(&mut Table, &mut [u8]) -> Result<Answer, Refusal>,
) {
    let clean = with_waiting_key();
    for before in [with_junk(&clean, &mut Random(3)), clean] {
        let mut table = before.clone();
        let mut reply = [FILL; 20];
        assert_eq!(call(&mut table, &mut reply), Err(refusal));
        assert_eq!(reply, [FILL; 20], "{refusal}");
        let expected = edited(&before, |words, _| words[CLOCK] = clock);
        assert!(is_left(&expected, &table), "{refusal}");
    }
}

#[test]
fn a_refusal_leaves_all_but_the_clock() {
    let query = &Draft::ordinary().octets();
    let unknown = &Draft::ordinary().signed("9.a.example.", 1001);
    let renewal = &Draft::renewal("1.a.example.").signed("1.a.example.", 1001);
    let response = &{
        let mut octets = query.clone();
        octets[2] |= 0x80;
        octets
    };
    let late = (1 << 48) - (1 << 31);
    let b = &name("b.example.");
    let offer = &[1; 1025];
    refused(Refusal::Time, 1000, |t, _| t.clear(late));
    refused(Refusal::Time, 1000, |t, r| {
        t.message(&good(late, &[]), query, r)
    });
    refused(Refusal::Clock, 1000, |t, r| {
        t.message(&good(999, &[]), query, r)
    });
    refused(Refusal::Size, 1001, |t, r| {
        t.message(&good(1001, &[]), &query[..11], r)
    });
    refused(Refusal::Offer, 1001, |t, r| {
        t.message(&good(1001, offer), query, r)
    });
    let (missing, left_over) = (&query[..12], &[&query[..], &[0]].concat());
    let format = |place: usize| Refusal::Format { place };
    refused(format(12), 1001, |t, r| {
        t.message(&good(1001, &[]), missing, r)
    });
    refused(format(query.len()), 1001, |t, r| {
        t.message(&good(1001, &[]), left_over, r)
    });
    refused(Refusal::NotQuery, 1001, |t, r| {
        t.message(&good(1001, &[]), response, r)
    });
    refused(Refusal::Room, 1001, |t, r| {
        t.message(&good(1001, &[]), unknown, r)
    });
    refused(Refusal::Room, 1001, |t, r| {
        t.message(&good(1001, &[5]), renewal, r)
    });
    // KEYREC, with room and without.
    let secret = &Draft::renewal_by(4097, "1.a.example.").signed("1.a.example.", 1001);
    let record = &key_record();
    let fitting = |record| Given {
        keying: Verdict::Good,
        record,
        ..good(1001, &[5])
    };
    let two = &record.repeat(2);
    for wrong in [&[][..], &record[1..], &record[..9], two] {
        refused(Refusal::KeyRec, 1001, |t, r| {
            t.message(&fitting(wrong), secret, r)
        });
        refused(Refusal::KeyRec, 1001, |t, _| {
            t.message(&fitting(wrong), secret, &mut [0; 512])
        });
    }
    refused(Refusal::Room, 1001, |t, r| {
        t.message(&fitting(record), secret, r)
    });
    refused(Refusal::Time, 1000, |t, _| {
        t.issue(late, 1, Algorithm::Sha256)
    });
    refused(Refusal::Clock, 1000, |t, _| {
        t.issue(999, 1, Algorithm::Sha256)
    });
    refused(Refusal::NoPair, 1001, |t, _| {
        t.issue(1001, 0, Algorithm::Sha256)
    });
    refused(Refusal::NoPair, 1001, |t, _| {
        t.issue(1001, 2, Algorithm::Sha256)
    });
    refused(Refusal::NoPair, 1001, |t, _| {
        t.issue(1001, u64::MAX, Algorithm::Sha256)
    });
    refused(Refusal::Term, 1001, |t, _| issue_numbered(t, 1001, 1, 1));
    refused(Refusal::Clock, 1000, |t, _| t.revoke(999, 1));
    refused(Refusal::NoPair, 1001, |t, _| t.revoke(1001, 2));
    refused(Refusal::NoKey, 1600, |t, _| t.revoke(1600, 1));
    refused(Refusal::Time, 1000, |t, _| t.close(late, 1));
    refused(Refusal::Clock, 1000, |t, _| t.close(999, 1));
    refused(Refusal::NoPair, 1001, |t, _| t.close(1001, 0));
    refused(Refusal::NoPair, 1001, |t, _| t.close(1001, 2));
    refused(Refusal::Clock, 1000, |t, _| {
        t.enrol(999, b, 600, 400, Algorithm::Sha256)
    });
    refused(Refusal::Name, 1001, |t, _| {
        t.enrol(1001, &[0], 600, 400, Algorithm::Sha256)
    });
    refused(Refusal::Term, 1001, |t, _| {
        t.enrol(1001, b, 400, 400, Algorithm::Sha256)
    });
    refused(Refusal::Twin, 1001, |t, _| {
        t.enrol(1001, &name("A.Example."), 600, 400, Algorithm::Sha256)
    });
    refused(Refusal::Size, 1000, |t, _| t.look(&[]));
    refused(format(12), 1000, |t, _| t.look(missing));
    refused(format(query.len()), 1000, |t, _| t.look(left_over));
    refused(Refusal::NotQuery, 1000, |t, _| t.look(response));
}

#[test]
fn a_refusal_has_its_number_and_its_place() {
    let format = Refusal::Format { place: 12 };
    assert_eq!((format.number(), format.place()), (6, 12));
    assert_eq!(format.to_string(), "refused with 6 (Format, at 12)");
    assert_eq!((Refusal::Table.number(), Refusal::Table.place()), (1, 0));
    assert_eq!((Refusal::Full.number(), Refusal::Full.place()), (15, 0));
    assert_eq!(Refusal::Full.to_string(), "refused with 15 (Full)");
    assert_eq!((Refusal::Batch.number(), Refusal::Batch.place()), (17, 0));
    assert_eq!(Refusal::Batch.to_string(), "refused with 17 (Batch)");
    assert_eq!((Refusal::KeyRec.number(), Refusal::KeyRec.place()), (19, 0));
    assert_eq!(Refusal::KeyRec.to_string(), "refused with 19 (KeyRec)");
}

#[test]
fn a_full_table_takes_no_more() {
    let before = with_junk(&offices(64), &mut Random(4));
    let mut table = before.clone();
    let answer = table.enrol(1001, &name("new.example."), 600, 400, Algorithm::Sha256);
    assert_eq!(answer, Err(Refusal::Full));
    let expected = edited(&before, |words, _| words[CLOCK] = 1001);
    assert!(is_left(&expected, &table));
}

/// A call that is done changes the clock and the fourteen words of its pair.
fn changes_its_own(
    before: &Table,
    pair: u64,
    call: impl Fn(&mut Table) -> Result<Answer, Refusal>,
) -> Table {
    let mut after = before.clone();
    call(&mut after).expect("done");
    let own = row_of(before, pair) + LIFETIME..row_of(before, pair) + ROW_WORDS;
    for word in changed(before, &after) {
        assert!(word == CLOCK || own.contains(&word), "{pair}: {word}");
    }
    assert_eq!(before.parts().1, after.parts().1);
    after
}

#[test]
fn a_call_changes_its_own_pair_alone() {
    let clean = offices(64);
    for before in [with_junk(&clean, &mut Random(5)), clean] {
        for pair in 1..=64 {
            let key = |serial: u64| format!("{serial}.{}", office(pair));
            let send = |table: &mut Table, draft: Draft, serial: u64| {
                let message = draft.signed(&key(serial), 1001);
                let answer = table.message(&good(1001, &[5]), &message, &mut [0; 512])?;
                assert_eq!((answer.pair, answer.serial), (pair, serial));
                Ok(answer)
            };
            let issued = changes_its_own(&before, pair, |t| t.issue(1001, pair, Algorithm::Sha256));
            let serial = issued.view().expect("a table").pairs[pair as usize - 1].next_serial - 1;
            let own = |table: &Table, draft: Draft| {
                changes_its_own(table, pair, |t| send(t, draft.clone(), serial))
            };
            changes_its_own(&issued, pair, |t| t.revoke(1001, pair));
            own(&issued, Draft::ordinary());
            own(&issued, Draft::deletion(&key(serial)));
            let renewed = own(&issued, Draft::renewal(&key(serial)));
            let adopted = own(&renewed, Draft::adoption(&key(serial + 1), &key(serial)));
            let keys = &adopted.view().expect("a table").pairs[pair as usize - 1].keys;
            assert!(matches!(keys, Keys::Adopted(key) if key.serial == serial + 1));
            // BADKEY: the pair that the name leads to keeps its keys.
            let unknown = Draft::ordinary().signed(&key(99), 1001);
            let kept = changes_its_own(&issued, pair, |t| {
                t.message(&good(1001, &[]), &unknown, &mut [0; 512])
            });
            assert_eq!(kept.view(), issued.view());
        }
        // Of no pair: the clock alone.
        let stranger = Draft::ordinary().signed("1.a.example.", 1001);
        for message in [stranger, Draft::ordinary().octets()] {
            let mut after = before.clone();
            let answer = after.message(&good(1001, &[]), &message, &mut [0; 512]);
            assert_eq!(answer.expect("done").pair, 0);
            let expected = edited(&before, |words, _| words[CLOCK] = 1001);
            assert!(is_left(&expected, &after));
        }
    }
}

// ---- Batches ----

/// A batch refused whole leaves every word, the clock's too, and every reply.
fn refused_whole(octets: &[u8], items: &[Item]) {
    let clean = with_waiting_key();
    for before in [with_junk(&clean, &mut Random(9)), clean] {
        let mut table = before.clone();
        let mut replies = [FILL; 200];
        let refused = table.batch(octets, items, &mut replies);
        assert_eq!(refused, Err(Refusal::Batch));
        assert_eq!(replies, [FILL; 200]);
        assert!(is_left(&before, &table));
    }
}

#[test]
fn a_batch_refused_whole_leaves_all() {
    let message = Draft::ordinary().signed("1.a.example.", 1001);
    let (item, end) = (whole(&message), message.len() as u64);
    for count in [65, 66, 128, 1000] {
        refused_whole(&message, &vec![item; count]);
    }
    let most = u64::MAX;
    let outside = [
        (0, end + 1),
        (end, 1),
        (end + 1, 0),
        (most, 0),
        (0, most),
        // Sums of 2^64 and a little more.
        (1, most),
        (most, 1),
        (most, end + 1),
        (most, most),
        (1 << 32, end),
    ];
    for (from, size) in outside {
        let span = Span { from, size };
        for place in [0, 1, 63] {
            let mut items = [item; MOST_ITEMS];
            items[place].message = span;
            refused_whole(&message, &items);
            items[place].message = item.message;
            items[place].offer = span;
            refused_whole(&message, &items);
            items[place].offer = item.offer;
            items[place].record = span;
            refused_whole(&message, &items);
        }
    }
}

/// Offices as they are, each with messages of its own: the answers, the replies
/// and the table are those of one call after another.
#[test]
fn a_batch_is_its_messages_one_by_one() {
    let clean = offices(64);
    let mut octets = Vec::new();
    let mut lay = |part: &[u8]| -> Span {
        octets.extend_from_slice(part);
        (octets.len() - part.len()..octets.len()).into()
    };
    let mut items = Vec::new();
    for turn in 0..MOST_ITEMS as u64 {
        let key = format!("1.{}", office(1 + turn * 5 % 64));
        let draft = match turn % 4 {
            0 => Draft::ordinary(),
            1 => Draft::deletion(&key),
            _ => Draft::renewal_by(RENEWALS[turn as usize % 3], &key),
        };
        let mut message = draft.signed(&key, 1001);
        // Some have an octet too much.
        message.extend(vec![0; usize::from(turn % 7 == 6)]);
        items.push(Item {
            time: 1001 + turn / 8 - turn % 9 / 8,
            mac: (turn % 5 != 4).into(),
            message: lay(&message),
            offer: lay(&[turn as u8; 3]),
            keying: (turn % 6 != 5).into(),
            record: lay(&key_record()[usize::from(turn % 11 == 10)..]),
        });
    }
    let part = |span: Span| &octets[span.from as usize..][..span.size as usize];
    for room in [0, 100, 1000, 4000, 20_000] {
        for before in [with_junk(&clean, &mut Random(10)), clean.clone()] {
            let (mut table, mut by_one) = (before.clone(), before);
            let (mut replies, mut expected) = (vec![FILL; room], vec![FILL; room]);
            let answers = table.batch(&octets, &items, &mut replies).expect("done");
            assert_eq!(answers.len(), items.len());
            let mut left = &mut expected[..];
            for (item, answer) in items.iter().zip(answers) {
                let given = Given {
                    time: item.time,
                    mac: item.mac,
                    offer: part(item.offer),
                    keying: item.keying,
                    record: part(item.record),
                };
                let one = by_one.message(&given, part(item.message), left);
                assert_eq!(answer, one);
                left = &mut left[one.map_or(0, |answer| answer.length)..];
            }
            assert_eq!(replies, expected);
            assert_eq!(table.view(), by_one.view());
        }
    }
}

extern "C" {
    fn luffcringle_batch(
        words: &mut Words,
        suffixes: &Octets,
        count: u64,
        items: &[[u64; 9]; 64],
        octets: *const u8,
        octets_length: usize,
        answers: &mut [[u64; 7]; 64],
        replies: *mut u8,
        replies_room: usize,
    ) -> u64;
}

/// The call as C has it: its number, the first item's answer, and the table.
fn batch_by_words(
    table: &Table,
    count: u64,
    items: &[[u64; 9]; 64],
    octets: &[u8],
) -> (u64, [u64; 7], Table) {
    let (mut words, suffixes) = (*table.parts().0, table.parts().1);
    let (mut answers, mut replies) = ([[0; 7]; 64], [FILL; 100]);
    // SAFETY: octets and replies are as long as told, and nothing overlaps.
    let number = unsafe {
        luffcringle_batch(
            &mut words,
            suffixes,
            count,
            items,
            octets.as_ptr(),
            octets.len(),
            &mut answers,
            replies.as_mut_ptr(),
            replies.len(),
        )
    };
    (number, answers[0], Table::from_parts(&words, suffixes))
}

/// Words that the wrapper does not pass: any verdict, any count, and anything
/// behind the count.
#[test]
fn any_words_of_items() {
    let message = Draft::ordinary().signed("1.a.example.", 1001);
    let item = |verdict: u64| [1001, verdict, 0, message.len() as u64, 0, 0, 0, 0, 0];
    let mut items = [[u64::MAX; 9]; 64];
    let large = [255, 256, 257, 1 << 32, (1 << 32) + 1, 1 << 63, u64::MAX];
    for verdict in [0, 1, 2, 3].into_iter().chain(large) {
        items[0] = item(verdict);
        let (number, answer, after) = batch_by_words(&day(), 1, &items, &message);
        let error = if verdict == 1 { 0 } else { 16 };
        assert_eq!((number, answer[0], answer[2]), (0, 0, error), "{verdict}");
        assert_eq!((answer[4], answer[5]), (1, 1), "{verdict}");
        assert_eq!(after.parts().0[CLOCK], 1001);
    }
    // The keying verdict too: a KEY that fits is KEYREC without a record.
    let renewal = Draft::renewal_by(4097, "1.a.example.").signed("1.a.example.", 1001);
    for fits in [0, 1, 2, 3].into_iter().chain(large) {
        items[0] = [1001, 1, 0, renewal.len() as u64, 0, 4, fits, 0, 0];
        let (number, answer, _) = batch_by_words(&day(), 1, &items, &renewal);
        let refusal = if fits == 1 { 19 } else { 0 };
        assert_eq!((number, answer[0]), (0, refusal), "{fits}");
    }
    // Some wrap to a small count when they are multiplied by nine or by eight.
    let items = [item(1); 64];
    let wrapping = [1 << 61, (1 << 61) + 1, 1 << 62, u64::MAX / 9 + 1];
    for count in [65, 66].into_iter().chain(large).chain(wrapping) {
        let (number, _, after) = batch_by_words(&day(), count, &items, &message);
        assert_eq!(number, 17, "{count}");
        assert!(is_left(&day(), &after), "{count}");
    }
}

#[test]
fn a_range_becomes_a_span() {
    let span = |from: u64, size: u64| Span { from, size };
    assert_eq!(Span::from(0..0), span(0, 0));
    assert_eq!(Span::from(12..40), span(12, 28));
    assert_eq!(Span::from(usize::MAX..usize::MAX), span(u64::MAX, 0));
    let (start, end) = (40, 12);
    assert_eq!(Span::from(start..end), span(40, 0));
}

// ---- What has no meaning ----

/// Junk changes no answer, and stays where no call of its own pair writes it.
#[test]
fn junk_changes_nothing_and_stays() {
    let clean = offices(6);
    let message = Draft::ordinary().signed(&format!("1.{}", office(2)), 1001);
    let lone = name("lone.example.");
    type Call<'a> = &'a dyn Fn(&mut Table, &mut [u8]) -> Result<Answer, Refusal>;
    let calls: [Call; 7] = [
        &|t, _| t.enrol(1001, &lone, 600, 400, Algorithm::Sha256),
        &|t, _| t.issue(1001, 4, Algorithm::Sha512),
        &|t, _| t.revoke(1001, 3),
        &|t, _| t.look(&message),
        &|t, r| t.message(&good(1001, &[5]), &message, r),
        &|t, r| t.batch(&message, &[whole(&message); 9], r)?[8],
        &|t, _| t.clear(1001),
    ];
    for (seed, call) in (0..).zip(calls.iter().cycle()).take(600) {
        let before = with_junk(&clean, &mut Random(seed));
        assert_eq!(before.view(), clean.view());
        let (mut table, mut reply) = (before.clone(), [FILL; 512]);
        let (mut expected, mut expected_reply) = (clean.clone(), [FILL; 512]);
        let answer = call(&mut table, &mut reply);
        assert!(answer.is_ok());
        assert_eq!(answer, call(&mut expected, &mut expected_reply));
        assert_eq!(reply, expected_reply);
        assert_eq!(table.view(), expected.view());
        // Behind the places that the call could use, and the floor.
        let (was, octets_were) = before.parts();
        let (is, octets_are) = table.parts();
        assert_eq!(was[FLOOR], is[FLOOR]);
        assert_eq!(was[MAP + 7..row(0)], is[MAP + 7..row(0)]);
        assert_eq!(was[row(7)..], is[row(7)..]);
        assert_eq!(octets_were[128 * 7..], octets_are[128 * 7..]);
    }
}

#[test]
fn a_new_table_over_junk() {
    let mut random = Random(6);
    for turn in 0..100 {
        let mut words = [u64::MAX; TABLE_WORDS];
        let mut suffixes = [0xff; TABLE_OCTETS];
        if turn > 0 {
            words.iter_mut().for_each(|word| *word = random.word());
            suffixes
                .iter_mut()
                .for_each(|octet| *octet = random.next() as u8);
        }
        let mut table = Table::from_parts(&words, &suffixes);
        let late = (1 << 48) - (1 << 31);
        assert_eq!(table.clear(late), Err(Refusal::Time));
        assert_eq!(table.parts(), (&words, &suffixes));
        assert_eq!(table.clear(late - 1), Ok(Answer::default()));
        assert_eq!(table.clear(1000), Ok(Answer::default()));
        assert_eq!(table.view(), Table::new(1000).expect("new").view());
        let mut theirs = second::new(1000).expect("new");
        for pair in 1..=64 {
            let suffix = name(&office(pair));
            let answer = table.enrol(1000, &suffix, 600, 400, Algorithm::Sha384);
            let expected = second::enrol(&mut theirs, 1000, &suffix, 600, 400, 384);
            assert_eq!(answer, as_ours(expected));
        }
        assert_eq!(table_of(&table), theirs);
    }
}

// ---- Storing, and sharing ----

#[test]
fn a_stored_table_is_lent_again() {
    let table = with_junk(&offices(64), &mut Random(8));
    let (words, suffixes) = table.parts();
    let again = Table::from_parts(words, suffixes);
    assert!(is_left(&table, &again));
    let message = Draft::ordinary().signed(&format!("1.{}", office(2)), 1000);
    assert_eq!(again.look(&message), Ok(key_of(2, 1)));
}

#[test]
fn tables_go_between_threads() {
    let table = day();
    let message = Draft::ordinary().signed("1.a.example.", 1000);
    std::thread::scope(|scope| {
        for _ in 0..2 {
            scope.spawn(|| assert_eq!(table.look(&message), Ok(key(1))));
        }
    });
}

/// Pairs closed in every order, with junk where nothing has a meaning, against
/// the second reader; and enrolled again.
#[test]
fn closings() {
    let mut random = Random(9);
    for _ in 0..200 {
        let count = 3 + random.below(4) as u64;
        let mut table = offices(count);
        let mut theirs = table_of(&table);
        while !theirs.pairs.is_empty() {
            table = with_junk(&table, &mut random);
            let pair = 1 + random.below(theirs.pairs.len()) as u64;
            let answer = table.close(1001, pair);
            assert_eq!(answer, as_ours(second::close(&mut theirs, 1001, pair)));
            assert_eq!(table_of(&table), theirs);
            if random.below(4) == 0 {
                let suffix = name(&office(1 + random.below(64) as u64));
                let answer = table.enrol(1001, &suffix, 600, 400, Algorithm::Sha256);
                let expected = second::enrol(&mut theirs, 1001, &suffix, 600, 400, 256);
                assert_eq!(answer, as_ours(expected));
                assert_eq!(table_of(&table), theirs);
            }
        }
    }
}

/// The floor's rule, and the enrolment at its end.
#[test]
fn floors() {
    let with_floor = |floor| edited(&day(), |words, _| words[FLOOR] = floor);
    for floor in [0, (1 << 32) + 1, u64::MAX] {
        refused_by_all(&with_floor(floor), "the floor");
    }
    let b = &name("b.example.");
    let mut table = with_floor((1 << 32) - 1);
    let answer = table.enrol(1001, b, 600, 400, Algorithm::Sha256);
    assert_eq!(answer, Ok(key_of(2, (1 << 32) - 1)));
    let refused = with_floor(1 << 32).enrol(1001, b, 600, 400, Algorithm::Sha256);
    assert_eq!(refused, Err(Refusal::Spent));
    // Closing a pair that has used up its serials.
    assert_eq!(table.close(1002, 2), Ok(Answer::default()));
    let refused = table.enrol(1002, b, 600, 400, Algorithm::Sha256);
    assert_eq!(refused, Err(Refusal::Spent));
}
