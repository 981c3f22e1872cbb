//! Messages that real clients sent.

use std::fs;

use second::{look, Algorithm, Key, Keys, Pair, Table};

use crate::build::*;

/// Pair a.example. with this key, made a minute before `time`.
fn table_at(time: u64, serial: u64) -> Table {
    let algorithms = [Algorithm::Sha256, Algorithm::Sha384, Algorithm::Sha512];
    let inception = time - 60;
    let key = Key {
        serial,
        algorithm: algorithms[serial as usize - 1],
        inception,
        partial: inception + 400,
        expiry: inception + 600,
    };
    Table {
        clock: inception,
        floor: 1,
        pairs: vec![Pair {
            suffix: name("a.example."),
            lifetime: 600,
            fresh: 400,
            next_serial: serial + 1,
            keys: Keys::Adopted(key),
        }],
    }
}

/// An ordinary message passes at its time signed, is late 301 seconds later,
/// and look finds its key.
fn check_ordinary(octets: &[u8], time: u64, serial: u64) {
    let table = table_at(time, serial);
    assert_eq!(look(&table, octets), with_key(1, serial));
    assert_eq!(
        Ok(send(&mut table.clone(), time, octets).0),
        with_key(1, serial)
    );
    assert_eq!(denied(&mut table.clone(), time + 301, octets), (9, 18));
    let other = serial % 3 + 1;
    assert_eq!(denied(&mut table_at(time, other), time, octets), (9, 17));
}

const DIG_01: &str = "d1e501200001000000000002017a076578616d706c65000006000100002904d000000000000c
    000a000870b1b2182135935c01310161076578616d706c650000fa00ff00000000003d0b686d61632d736861323536
    0000006af9c489012c00201c16b630db2384168cd5a6d39bcbad2079d747eb2991df5b6a09a6d734926575d1e50000
    0000";

const DNSPYTHON_03: &str = "5a9b28000001000000010001017a076578616d706c6500000600010175c00c00010001
    0000003c00047f00000501310161c00e00fa00ff00000000003d0b686d61632d7368613235360000006af9c48b012c
    0020194bb093288654459c20ed223af8034f9f62520dc26100297ff57d15bdf3fd9b5a9b00000000";

const KNSUPDATE_03: &str = "c66828000001000000020001017a076578616d706c6500000600010175c00c00010001
    0000003c00047f000005036f6c64c00c000100ff00000000000001330161076578616d706c650000fa00ff00000000
    005d0b686d61632d7368613531320000006af9c492012c004063d9fe1640767a03d77ff57e315ba5c1b161c80f465f
    8b5fbaddadad1c980da8c75eb07465b8c2aca467740705d3342df9042183837bd13390723d34f4fc580ac66800000000";

#[test]
fn ordinary_messages() {
    check_ordinary(&hex(DIG_01), 1_794_753_673, 1);
    check_ordinary(&hex(DNSPYTHON_03), 1_794_753_675, 1);
    check_ordinary(&hex(KNSUPDATE_03), 1_794_753_682, 3);
}

const TKEY_TIME: u64 = 1_794_753_754;

const DELETION_01: &str = "45210000000100000000000201310161076578616d706c650000f900ffc00c00f900ff00
    000000001d0b686d61632d7368613235360000000000000000000005000000000000c00c00fa00ff00000000003d0b
    686d61632d7368613235360000006af9c4da012c00205c1e42e786d20d88d6d04d714242b7afcec6aed0e9e6f2199c
    2eb4e5449a8205452100000000";

const RENEWAL_02: &str =
    "b4660000000100000000000301310161076578616d706c650000f900ffc00c00f900ff0000
    000000370b686d61632d736861323536006af9c4da6af9c732100200000000001a01310161076578616d706c65000b
    686d61632d7368613235360006636c69656e74c00e001900ff0000000000080200030200000000c00c00fa00ff0000
    0000003d0b686d61632d7368613235360000006af9c4da012c0020e6ca2f72a5591b96f842fa270935866b40a2f329
    fd49c072e9ab4b45a731436db46600000000";

const ADOPTION_03: &str = "2faa0000000100000000000201320161076578616d706c650000f900ffc00c00f900ff00
    00000000370b686d61632d736861323536006af9c4da6af9c732100400000000001a01310161076578616d706c6500
    0b686d61632d736861323536000131c00e00fa00ff00000000003d0b686d61632d7368613235360000006af9c4da01
    2c00204a3db0aca4caa5c27937a717e05663ad39b1dd8cab1b485a3aaf45e4765740032faa00000000";

const MODE_1_04: &str = "59b600000001000000000002036e65770161076578616d706c650000f900ffc00c00f900ff
    00000000001d0b686d61632d736861323536006af9c4da6af9c73200010000000000000131c01000fa00ff00000000
    003d0b686d61632d7368613235360000006af9c4da012c0020978a93423a8fb0f7c2c315d612b79954c84d4a69f4d9
    163f5cd77eaeb21e042559b600000000";

#[test]
fn tkey_requests() {
    let mut table = table_at(TKEY_TIME, 1);
    assert_eq!(tkey_error(&mut table, TKEY_TIME, &hex(MODE_1_04)), 19);
    assert_eq!(tkey_error(&mut table, TKEY_TIME, &hex(ADOPTION_03)), 20);
    assert_eq!(tkey_error(&mut table, TKEY_TIME, &hex(RENEWAL_02)), 0);
    assert_eq!(table.pairs[0].waiting().unwrap().serial, 2);
    // Key 1 is partly revoked by now.
    assert_eq!(denied(&mut table, TKEY_TIME, &hex(DELETION_01)), (9, 3841));
    assert_eq!(tkey_error(&mut table, TKEY_TIME, &hex(ADOPTION_03)), 0);
    assert_eq!(table.pairs[0].adopted().unwrap().serial, 2);
    assert_eq!(denied(&mut table, TKEY_TIME, &hex(ADOPTION_03)), (9, 17));
    let mut table = table_at(TKEY_TIME, 1);
    assert_eq!(tkey_error(&mut table, TKEY_TIME, &hex(DELETION_01)), 0);
    assert_eq!(table.pairs[0].keys, Keys::None);
}

/// The word after `before` in a comment line.
fn word_after<'a>(comment: &'a str, before: &str) -> &'a str {
    let (_, rest) = comment.split_once(before).expect(before);
    rest.split([' ', ';']).next().unwrap()
}

/// Every message of the project's client vectors.
#[test]
fn all_files() {
    let directory = concat!(env!("CARGO_MANIFEST_DIR"), "/../vectors/clients");
    let mut count = 0;
    for entry in fs::read_dir(directory).expect("the client vectors") {
        let text = fs::read_to_string(entry.unwrap().path()).unwrap();
        let lines: Vec<&str> = text.lines().filter(|line| !line.is_empty()).collect();
        for two in lines.chunks(2) {
            let (comment, octets) = (two[0], hex(two[1]));
            assert!(comment.starts_with("# "), "{comment}");
            let time = word_after(comment, "time signed ").parse().unwrap();
            let key = word_after(comment, "; key ");
            let serial = key.split('.').next().unwrap().parse().unwrap();
            let size = format!(" {} octets", octets.len());
            assert!(comment.contains(&size), "{comment}");
            if comment.contains("TKEY") {
                assert_eq!(look(&table_at(time, serial), &octets), with_key(1, serial));
            } else {
                check_ordinary(&octets, time, serial);
            }
            count += 1;
        }
    }
    assert_eq!(count, 49);
}
