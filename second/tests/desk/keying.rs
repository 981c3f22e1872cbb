//! CR 10: the three keying schemes of a renewal.

use second::batch::{Item, Span};
use second::script::run;
use second::{batch, enrol, Done, Given, Keys, Refusal, Table};

use crate::build::*;

const DIFFIE_HELLMAN: u16 = 4097;
const BY_SERVER: u16 = 4098;
const BY_RESOLVER: u16 = 4099;

const KEY1: &str = "1.a.example.";
const OFFER: [u8; 4] = [0xde, 0xad, 0xbe, 0xef];

/// Another KEY record than the request's.
fn server_record() -> Vec<u8> {
    record(&name("Server.example."), KEY, 255, 77, &[1, 2, 3])
}

/// A good message at 1200 whose KEY fits, with an offer and a record.
fn given(record: &[u8]) -> Given<'_> {
    Given {
        fits: true,
        record,
        ..Given::new(1200, true, &OFFER)
    }
}

fn request(mode: u16) -> Vec<u8> {
    Draft::renewal_by(mode, KEY1).signed(KEY1, 1200)
}

/// The TKEY error of a request on the day's table, or its refusal. What is
/// answered with an error leaves the pairs; a refusal leaves all but the clock.
fn outcome(given: &Given, octets: &[u8]) -> Result<u16, Refusal> {
    let mut table = day();
    let mut reply = [FILL; 2048];
    let done = second::message(&mut table, given, octets, &mut reply);
    assert_eq!(table.clock, given.time);
    let error = done.map(|done| tkey_error_in(&reply[..done.length]));
    if error != Ok(0) {
        assert_eq!(table.pairs, day().pairs);
    }
    if error.is_err() {
        assert_eq!(reply, [FILL; 2048]);
    }
    error
}

/// A request by key 1 as a client would pack it, with key data and a KEY, and
/// the reply to it, all but what the schemes differ in.
fn packed(mode: u16, answers: &str, key_data: &str, lent: &str) -> (Vec<u8>, Vec<u8>) {
    let (mac, size) = ("5a".repeat(32), 55 + hex(key_data).len());
    let request = hex(&format!(
        "beef 0110 0001 0000 0000 0003
         01 31 01 61 07 65 78 61 6d 70 6c 65 00  00f9 00ff
         c00c 00f9 0001 00000009 0039
           0b 68 6d 61 63 2d 73 68 61 32 35 36 00 00000064 000000c8 {mode:04x} 0063 0002 7777
           001a 01 31 01 61 07 65 78 61 6d 70 6c 65 00 0b 68 6d 61 63 2d 73 68 61 32 35 36 00
         06 63 6c 69 65 6e 74 c00e 0019 0001 00000e10 0006 0200 0302 0909
         c00c 00fa 00ff 00000000 003d
           0b 68 6d 61 63 2d 73 68 61 32 35 36 00
           0000000004b0 012c 0020 {mac} beef 0000 0000"
    ));
    let reply = hex(&format!(
        "beef 8100 0001 {answers} 0000 0001
         01 31 01 61 07 65 78 61 6d 70 6c 65 00  00f9 00ff
         01 32 01 61 07 65 78 61 6d 70 6c 65 00  00f9 00ff 00000000 {size:04x}
           0b 68 6d 61 63 2d 73 68 61 32 35 36 00
           000004b0 00000708 {mode:04x} 0000
           {:04x} {key_data}
           001a 01 31 01 61 07 65 78 61 6d 70 6c 65 00
                0b 68 6d 61 63 2d 73 68 61 32 35 36 00
         {lent}
         06 63 6c 69 65 6e 74 01 61 07 65 78 61 6d 70 6c 65 00
           0019 0001 00000e10 0006 0200 0302 0909",
        hex(key_data).len()
    ));
    (request, reply)
}

#[test]
fn granted_renewals_octet_by_octet() {
    let lent = "01 53 00 0019 00ff 0000004d 0003 01 02 03";
    for (mode, answers, key_data, follows) in [
        (DIFFIE_HELLMAN, "0002", "de ad be ef", lent),
        (BY_SERVER, "0001", "de ad be ef", ""),
        (BY_RESOLVER, "0001", "77 77", ""),
    ] {
        let (request, expected) = packed(mode, answers, key_data, follows);
        let mut table = day();
        let (done, reply) = send_given(&mut table, &given(&hex(lent)), &request);
        assert_eq!(reply, expected, "mode {mode}");
        assert_eq!((done.error, done.skew), (0, 0));
        assert_eq!((done.pair, done.serial), (1, 1));
    }
}

#[test]
fn the_same_happens_to_the_keys() {
    let mut tables: Vec<Table> = Vec::new();
    for mode in RENEWALS {
        let mut table = day();
        enrol(&mut table, 1000, &name("b.example."), 600, 400, 512).unwrap();
        let lent = server_record();
        // Twice, so that the second replaces the waiting key; then its adoption.
        for time in [1200, 1201] {
            let given = Given {
                time,
                ..given(&lent)
            };
            let octets = Draft::renewal_by(mode, KEY1).signed(KEY1, time);
            let (_, reply) = send_given(&mut table, &given, &octets);
            assert_eq!(tkey_error_in(&reply), 0);
        }
        let Keys::Renewing { adopted, waiting } = table.pairs[0].keys else {
            panic!("mode {mode} made no waiting key");
        };
        assert_eq!((adopted.serial, adopted.partial), (1, 1200));
        assert_eq!((waiting.serial, waiting.inception), (3, 1201));
        assert_eq!((waiting.partial, waiting.expiry), (1601, 1801));
        let adoption = Draft::adoption("3.a.example.", KEY1).signed(KEY1, 1202);
        assert_eq!(tkey_error(&mut table, 1202, &adoption), 0);
        tables.push(table);
    }
    assert!(tables.iter().all(|table| *table == tables[0]));
}

#[test]
fn a_key_that_does_not_fit() {
    let record = server_record();
    for (mode, error) in [(DIFFIE_HELLMAN, 17), (BY_SERVER, 0), (BY_RESOLVER, 1)] {
        assert_eq!(outcome(&given(&record), &request(mode)), Ok(0));
        let unfit = Given {
            fits: false,
            ..given(&record)
        };
        assert_eq!(outcome(&unfit, &request(mode)), Ok(error), "mode {mode}");
    }
}

/// A rule of a renewal, broken or not.
struct Broken {
    old: bool,
    count: bool,
    keying: bool,
    algorithm: bool,
    interval: bool,
    offer: bool,
    record: bool,
}

impl Broken {
    fn of(bits: u32) -> Broken {
        let bit = |place: u32| bits >> place & 1 == 1;
        Broken {
            old: bit(0),
            count: bit(1),
            keying: bit(2),
            algorithm: bit(3),
            interval: bit(4),
            offer: bit(5),
            record: bit(6),
        }
    }

    fn request(&self, mode: u16) -> Vec<u8> {
        let mut tkey = Tkey::new("new.", mode, old(KEY1));
        if self.old {
            tkey.other = old("2.a.example.");
        }
        if self.algorithm {
            tkey.algorithm = name("hmac-sha1.");
        }
        if self.interval {
            tkey.expiration = tkey.inception;
        }
        let mut draft = Draft::tkey(&tkey).add(key_record());
        if self.count {
            draft.additional.push(key_record());
        }
        draft.signed(KEY1, 1200)
    }

    /// CR 10 and 01 "Renewal": the first that applies.
    fn expected(&self, mode: u16, room: usize) -> Result<u16, Refusal> {
        let no_offer = self.offer && mode != BY_RESOLVER;
        match mode {
            _ if self.old => Ok(17),
            _ if self.count => Ok(1),
            DIFFIE_HELLMAN if self.keying => Ok(17),
            BY_RESOLVER if self.keying => Ok(1),
            _ if self.algorithm => Ok(21),
            _ if self.interval => Ok(18),
            _ if no_offer => Ok(2),
            DIFFIE_HELLMAN if self.record => Err(Refusal::KeyRec),
            _ if room == 0 => Err(Refusal::Room),
            _ => Ok(0),
        }
    }
}

/// All rules of all three modes, in every choice of those that are broken.
#[test]
fn every_order_of_errors() {
    let good = server_record();
    for (mode, bits) in RENEWALS
        .into_iter()
        .flat_map(|m| (0..128).map(move |b| (m, b)))
    {
        let broken = Broken::of(bits);
        let given = Given {
            offer: if broken.offer { &[] } else { &OFFER },
            fits: !broken.keying,
            record: if broken.record { &good[1..] } else { &good },
            ..given(&[])
        };
        let octets = broken.request(mode);
        let expected = broken.expected(mode, 2048);
        assert_eq!(outcome(&given, &octets), expected, "mode {mode}, {bits}");
        // Without room an error is refused too; KEYREC comes before that.
        let refused = second::message(&mut day(), &given, &octets, &mut []);
        let expected = match broken.expected(mode, 0) {
            Ok(_) => Refusal::Room,
            Err(refusal) => refusal,
        };
        assert_eq!(refused, Err(expected), "mode {mode}, {bits}");
    }
}

/// Octets that are not exactly one KEY record with an uncompressed owner name.
fn wrong_records() -> Vec<(&'static str, Vec<u8>)> {
    let good = server_record();
    let with = |kind: u16, owner: &[u8]| record(owner, kind, IN, 0, &[9]);
    let mut longer = good.clone();
    let size = good.len() - 4;
    longer[size] += 1;
    let mut shorter = good.clone();
    shorter[size] -= 1;
    vec![
        ("none", Vec::new()),
        ("type 24", with(24, &name("s."))),
        ("type 26", with(26, &name("s."))),
        ("type 48", with(48, &name("s."))),
        ("type 281", with(281, &name("s."))),
        ("owner a pointer", with(KEY, &[0xc0, 12])),
        ("owner with a pointer", with(KEY, &[1, b's', 0xc0, 12])),
        (
            "owner with a label octet 64",
            with(KEY, &[[64; 65], [0; 65]].concat()),
        ),
        ("owner of 256 octets", with(KEY, &name_of(256))),
        ("owner without end", vec![5, b's']),
        ("data length too long", longer),
        ("data length too short", shorter),
        ("an octet more", [&good[..], &[0]].concat()),
        ("an octet less", good[..good.len() - 1].to_vec()),
        ("its last octets", good[1..].to_vec()),
        ("no data length", good[..size - 1].to_vec()),
        ("two records", [&good[..], &good].concat()),
    ]
}

#[test]
fn the_lent_record() {
    for (what, wrong) in wrong_records() {
        let refused = outcome(&given(&wrong), &request(DIFFIE_HELLMAN));
        assert_eq!(refused, Err(Refusal::KeyRec), "{what}");
        // It is no matter to the other schemes, nor to an error.
        for mode in [BY_SERVER, BY_RESOLVER] {
            assert_eq!(outcome(&given(&wrong), &request(mode)), Ok(0), "{what}");
        }
        let unfit = Given {
            fits: false,
            ..given(&wrong)
        };
        assert_eq!(outcome(&unfit, &request(DIFFIE_HELLMAN)), Ok(17), "{what}");
    }
    for length in 0..server_record().len() {
        let cut = &server_record()[..length];
        let refused = outcome(&given(cut), &request(DIFFIE_HELLMAN));
        assert_eq!(refused, Err(Refusal::KeyRec), "{length} octets");
    }
    // Class, TTL, data and a long or no owner are free.
    for right in [
        record(&[0], KEY, 0, 0, &[]),
        record(&name_of(255), KEY, ANY, u32::MAX, &[0; 300]),
        key_record(),
    ] {
        let (_, reply) = send_given(&mut day(), &given(&right), &request(DIFFIE_HELLMAN));
        assert_eq!(reply[6..12], [0, 2, 0, 0, 0, 1]);
        assert!(reply.ends_with(&[right, key_record()].concat()));
    }
}

/// A record that is one, and too long for any reply.
#[test]
fn keyrec_before_room() {
    let long = record(&[0], KEY, IN, 0, &vec![7; 65_535]);
    let mut reply = vec![FILL; 140_000];
    let mut table = day();
    let refused = second::message(
        &mut table,
        &given(&long),
        &request(DIFFIE_HELLMAN),
        &mut reply,
    );
    assert_eq!(refused, Err(Refusal::Room));
    assert_eq!((table.clock, &table.pairs), (1200, &day().pairs));
    // To the octet.
    let record = server_record();
    let length = {
        let (done, _) = send_given(&mut day(), &given(&record), &request(DIFFIE_HELLMAN));
        done.length
    };
    let with_room = |room: usize, record: &[u8]| {
        let request = request(DIFFIE_HELLMAN);
        second::message(&mut day(), &given(record), &request, &mut vec![FILL; room])
    };
    assert_eq!(with_room(length - 1, &record), Err(Refusal::Room));
    assert_eq!(with_room(length, &record).unwrap().length, length);
    for room in [0, length - 1, length, 2048] {
        assert_eq!(with_room(room, &record[1..]), Err(Refusal::KeyRec));
    }
}

#[test]
fn offers() {
    let record = server_record();
    let with = |offer: &[u8], mode: u16| {
        let given = Given {
            offer,
            ..given(&record)
        };
        outcome(&given, &request(mode))
    };
    for (mode, error) in [(DIFFIE_HELLMAN, 2), (BY_SERVER, 2), (BY_RESOLVER, 0)] {
        assert_eq!(with(&[], mode), Ok(error));
        assert_eq!(with(&[0; 1024], mode), Ok(0));
        assert_eq!(with(&[0; 1025], mode), Err(Refusal::Offer));
    }
}

/// Before the record is looked at, and also where no offer is wanted.
#[test]
fn each_scheme_wants_a_serial() {
    let record = server_record();
    for mode in RENEWALS {
        let answered = |next_serial: u64, record: &[u8]| {
            let mut table = day();
            table.pairs[0].next_serial = next_serial;
            let (_, reply) = send_given(&mut table, &given(record), &request(mode));
            (tkey_error_in(&reply), table.pairs[0].next_serial)
        };
        let spent = 1 << 32;
        assert_eq!(answered(spent - 1, &record), (0, spent));
        assert_eq!(answered(spent, &record), (2, spent));
        assert_eq!(answered(spent, &[]), (2, spent));
    }
}

/// In 4099 the key data is the request's, none included.
#[test]
fn resolver_assignment_keeps_the_key_data() {
    for (key, offer) in [
        (vec![], &OFFER[..]),
        (vec![0x77; 300], &OFFER),
        (vec![1], &[]),
    ] {
        let mut tkey = Tkey::new("new.", BY_RESOLVER, old(KEY1));
        tkey.key = key.clone();
        let octets = Draft::tkey(&tkey).add(key_record()).signed(KEY1, 1200);
        let given = Given {
            offer,
            ..given(&[])
        };
        let (_, reply) = send_given(&mut day(), &given, &octets);
        let (owner, data) = tkey_answer(&reply);
        assert_eq!(owner, name("2.a.example."));
        assert!(data[25..].starts_with(&sized(&key)));
        assert!(reply.ends_with(&key_record()));
    }
}

/// The verdict and the record change nothing else: messages of all other kinds.
#[test]
fn other_messages_do_not_look() {
    let record = server_record();
    for octets in [
        Draft::ordinary().octets(),
        Draft::ordinary().signed(KEY1, 1200),
        Draft::ordinary().signed("9.a.example.", 1200),
        Draft::deletion(KEY1).signed(KEY1, 1200),
        Draft::deletion("9.a.example.").signed(KEY1, 1200),
        Draft::adoption(KEY1, KEY1).signed(KEY1, 1200),
        Draft::renewal_by(4096, KEY1).signed(KEY1, 1200),
        request(BY_SERVER),
        vec![0; 11],
    ] {
        let called = |fits: bool, record: &[u8]| {
            let (mut table, mut reply) = (day(), [FILL; 512]);
            let given = Given {
                fits,
                ..given(record)
            };
            let done = second::message(&mut table, &given, &octets, &mut reply);
            (done, table, reply)
        };
        let expected = called(false, &[]);
        for fits in [false, true] {
            for record in [&[][..], &record, &record[1..]] {
                assert_eq!(called(fits, record), expected);
            }
        }
    }
}

/// Each item of a batch brings its own verdict and record.
#[test]
fn batches() {
    let record = server_record();
    let message = request(DIFFIE_HELLMAN);
    let lent = [&message[..], &record, &OFFER].concat();
    let span = |from: usize, size: usize| Span {
        from: from as u64,
        size: size as u64,
    };
    let right = span(message.len(), record.len());
    let cut = span(message.len() + 1, record.len() - 1);
    let item = |fits: bool, record: Span| Item {
        time: 1200,
        good: true,
        message: span(0, message.len()),
        offer: span(lent.len() - 4, 4),
        fits,
        record,
    };
    let items = [
        item(false, right),
        item(true, right),
        item(true, cut),
        item(false, cut),
        item(true, span(0, 0)),
        item(true, right),
    ];
    let mut table = day();
    let mut replies = vec![FILL; 2048];
    let results = batch(&mut table, &lent, &items, &mut replies).unwrap();
    let mut left = &replies[..];
    let mut errors = Vec::new();
    for result in results {
        errors.push(result.map(|Done { length, .. }| {
            let (reply, rest) = left.split_at(length);
            left = rest;
            tkey_error_in(reply)
        }));
    }
    let keyrec = Err(Refusal::KeyRec);
    assert_eq!(errors, [Ok(17), Ok(0), keyrec, Ok(17), keyrec, Ok(0)]);
    assert_eq!(table.pairs[0].waiting().unwrap().serial, 3);
    // A record outside, though no item needs one.
    for outside in [span(lent.len(), 1), span(lent.len() + 1, 0)] {
        let items = [item(true, right), item(false, outside)];
        let mut table = day();
        let refused = batch(&mut table, &lent, &items, &mut replies);
        assert_eq!((refused, table), (Err(Refusal::Batch), day()));
    }
}

fn output(script: &str) -> Vec<String> {
    let mut output = Vec::new();
    run(&mut script.as_bytes(), &mut output).unwrap();
    let output = String::from_utf8(output).unwrap();
    output.lines().map(str::to_string).collect()
}

fn print_hex(octets: &[u8]) -> String {
    octets.iter().map(|octet| format!("{octet:02x}")).collect()
}

#[test]
fn the_long_line_of_a_message() {
    let message = print_hex(&request(DIFFIE_HELLMAN));
    let record = print_hex(&server_record());
    let script = format!(
        "enrol 1000 0161076578616d706c6500 600 400 256\n\
         message 1200 good 0a 512 {message}\n\
         message 1200 good 0a 512 {message} bad -\n\
         message 1200 good 0a 512 {message} bad {record}\n\
         message 1200 good 0a 0 {message} good -\n\
         message 1200 good 0a 512 {message} good {}\n\
         message 1200 bad 0a 512 {message} good {record}\nlist\n",
        record.to_uppercase(),
    );
    let lines = output(&script);
    // 1234 8100, one question, one answer; the error behind algorithm, times
    // and mode.
    assert!(lines[1].starts_with("0 89 0 0 1 1 123481000001000100000000"));
    assert!(lines[1].contains("000003e8000007d010010011"));
    assert_eq!(lines[1], lines[2]);
    assert_eq!(lines[2], lines[3]);
    assert_eq!(lines[4], "19 0 0 0 0 0 - 0");
    assert!(lines[5].starts_with("0 151 0 0 1 1 123481000001000200000001"));
    assert!(lines[5].contains(&record));
    assert!(lines[6].starts_with("0 19 16 0 1 1 12348109"));
    assert_eq!(lines[7], "clock\t1200\t1");
    assert_eq!(lines[10], "key\twaiting\t2\thmac-sha256\t1200\t1600\t1800");
}
