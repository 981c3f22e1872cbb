//! Inquiries into a table and into a message, against the second reader.

mod support;

use luffcringle::{asks, Algorithm, Asks, Given, Keys, Mode, Moves, Refusal, Table, Verdict};
use second::inquiries;
use support::build::name;
use support::{as_ours, edited, table_of, with_junk, Random};

/// Pairs with keys of all kinds.
fn table() -> Table {
    let mut table = Table::new(1000).expect("a new table");
    for (letter, count) in ('a'..='t').zip(0..) {
        let suffix = name(&format!("{letter}.example."));
        let answer = table.enrol(1000, &suffix, 600, 400, Algorithm::Sha256);
        let pair = answer.expect("it is enrolled").pair;
        for _ in 0..count {
            table.issue(1000, pair, Algorithm::Sha512).expect("a key");
        }
    }
    table
}

/// What the second reader refuses with, as a number.
fn number<T>(theirs: Result<T, second::Refusal>) -> Result<T, u64> {
    theirs.map_err(|refusal| as_ours(Err(refusal)).expect_err("a refusal").number())
}

fn ours<T>(result: Result<T, Refusal>) -> Result<T, u64> {
    result.map_err(Refusal::number)
}

/// Every inquiry with this name, pair and serial.
fn check(table: &Table, octets: &[u8], pair: u64, serial: u64) {
    let theirs = &table_of(table);
    let expected = number(inquiries::pair_of_suffix(theirs, octets));
    assert_eq!(ours(table.pair_of_suffix(octets)), expected);
    let expected = number(inquiries::pair_of_key(theirs, octets));
    assert_eq!(ours(table.pair_of_key(octets)), expected);
    let expected = number(inquiries::key_name(theirs, pair, serial, 255));
    let named = ours(table.key_name(pair, serial));
    assert_eq!(named.is_ok(), expected.is_ok());
    assert_eq!(named.as_ref().err(), expected.as_ref().err());
    if let (Ok(named), Ok(expected)) = (&named, &expected) {
        assert_eq!(&**named, expected.octets());
        assert_eq!(table.pair_of_key(named), Ok(pair));
    }
    match (table.pair(pair), number(inquiries::pair(theirs, pair))) {
        (Ok(shown), Ok(expected)) => {
            assert_eq!(shown.lifetime(), expected.lifetime);
            assert_eq!(shown.fresh(), expected.fresh);
            assert_eq!(shown.next_serial(), expected.next_serial);
            let row = &table.view().expect("a table").pairs[pair as usize - 1];
            assert_eq!(shown.keys(), row.keys);
        }
        (Err(refusal), Err(number)) => assert_eq!(refusal.number(), number),
        (shown, expected) => panic!("{shown:?} and {expected:?}"),
    }
    assert_eq!(table.is_sound(), theirs.keeps_rules());
}

#[test]
fn names_and_pairs() {
    let mut random = Random(1);
    let sound = table();
    let broken = edited(&sound, |words, _| words[0] = 1 << 48);
    for table in [&sound, &broken] {
        let table = &with_junk(table, &mut random);
        for text in [
            "a.example.",
            "T.EXAMPLE.",
            "1.a.example.",
            "x.c.EXAMPLE.",
            "example.",
            ".",
        ] {
            let octets = name(text);
            for serial in [0, 1, 2, 10, u64::MAX] {
                check(table, &octets, random.next() % 23, serial);
                check(table, &octets, random.word(), serial);
            }
            for end in 0..octets.len() {
                check(table, &octets[..end], 3, 2);
            }
        }
        for pair in 0..=21 {
            for serial in 0..=22 {
                check(table, &name("b.example."), pair, serial);
            }
        }
    }
}

/// The same for the second reader.
fn expected_moves(before: &Table, after: &Table, pair: u64) -> Moves {
    let [before, after] = [before, after].map(table_of);
    let of = |table| number(inquiries::pair(table, pair)).expect("a pair");
    let moves = inquiries::moves(of(&before), of(&after));
    let [made, adopted, ended, dropped] = moves.map(|serial| (serial > 0).then_some(serial));
    Moves {
        made,
        adopted,
        ended,
        dropped,
    }
}

#[test]
fn what_became_of_the_keys() {
    let table = table();
    let waiting = |table: &Table, serial: u64| {
        let from = support::row_of(table, 5);
        edited(table, |words, _| {
            let row = &mut words[from..];
            row[support::NEXT_SERIAL] = serial + 1;
            row[support::KEYS] = 2;
            row[support::WAITING..][..5].copy_from_slice(&[serial, 256, 1000, 1400, 1600]);
        })
    };
    let none = |table: &Table| {
        let from = support::row_of(table, 5);
        edited(table, |words, _| words[from + support::KEYS] = 0)
    };
    let mut issued = table.clone();
    issued.issue(1000, 5, Algorithm::Sha256).expect("a key");
    let states = [
        table.clone(),
        none(&table),
        waiting(&table, 6),
        waiting(&table, 7),
        issued.clone(),
        waiting(&issued, 7),
        none(&issued),
    ];
    for before in &states {
        for after in &states {
            let shown = [before, after].map(|table| table.pair(5).expect("a pair"));
            let moves = Moves::between(&shown[0], &shown[1]);
            assert_eq!(moves, expected_moves(before, after, 5));
        }
    }
    let [first, with_6] = [&states[0], &states[2]].map(|table| table.pair(5).expect("a pair"));
    assert_eq!(Moves::between(&first, &first), Moves::default());
    assert_eq!(Moves::between(&first, &with_6).made, Some(6));
    assert_eq!(Moves::between(&with_6, &first).dropped, Some(6));
    assert!(matches!(with_6.keys(), Keys::Renewing { .. }));
}

/// The messages of real clients.
fn messages() -> Vec<Vec<u8>> {
    let folder = concat!(env!("CARGO_MANIFEST_DIR"), "/../../vectors/clients");
    let mut all = Vec::new();
    for entry in std::fs::read_dir(folder).expect("a folder") {
        let path = entry.expect("a file").path();
        let text = std::fs::read_to_string(path).expect("text");
        let lines = text.lines().filter(|line| !line.starts_with('#'));
        all.extend(lines.map(|line| support::words::octets(line).expect("hexadecimal")));
    }
    assert!(all.len() > 20);
    all
}

fn number_of(mode: Mode) -> u16 {
    match mode {
        Mode::DiffieHellman => 4097,
        Mode::ServerAssignment => 4098,
        Mode::ResolverAssignment => 4099,
        Mode::Adoption => 4100,
        Mode::Deletion => 5,
        Mode::Other(number) => number,
    }
}

fn check_asks(message: &[u8]) -> Option<Asks<'_>> {
    let expected = number(inquiries::asks(message));
    let asked = asks(message);
    let same = asked.map(|asked| {
        asked.map(|asked| inquiries::Asked {
            mode: number_of(asked.mode),
            algorithm: asked
                .algorithm
                .and_then(|known| second::Algorithm::from_number(known.number())),
            inception: asked.inception,
            expiration: asked.expiration,
            key_data: asked.data,
            key: asked.key,
        })
    });
    assert_eq!(ours(same), expected);
    asked.ok().flatten()
}

#[test]
fn what_a_request_asks_for() {
    let mut random = Random(2);
    let mut modes = Vec::new();
    for message in messages() {
        modes.extend(check_asks(&message).map(|asked| number_of(asked.mode)));
        for _ in 0..2000 {
            let mut damaged = message.clone();
            for _ in 0..=random.below(2) {
                let at = random.below(damaged.len());
                damaged[at] = random.next() as u8;
            }
            check_asks(&damaged);
            check_asks(&damaged[..random.below(damaged.len())]);
        }
    }
    modes.sort();
    modes.dedup();
    assert_eq!(modes, [1, 5, 4098, 4100]);
}

/// Which TSIG a reply needs, as the header's table has it.
#[test]
fn the_tsig_of_a_reply() {
    use luffcringle::{ReplyTsig, TsigError};
    let mut table = table();
    let message = &messages()[0];
    let mut reply = [0; 512];
    let given = Given {
        time: 1100,
        mac: Verdict::Good,
        ..Given::default()
    };
    let answer = table
        .message(&given, message, &mut reply)
        .expect("an answer");
    // It is signed at another time by a key that is not there.
    assert!(matches!(
        answer.error,
        TsigError::BadKey | TsigError::BadTime
    ));
    let tsig = answer.reply_tsig(given.mac, &reply);
    assert_eq!(
        tsig == ReplyTsig::Signed,
        answer.error == TsigError::BadTime
    );
}
