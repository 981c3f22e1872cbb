//! 01 "Reading".

use second::names::{self, Name};
use second::{look, Done, Refusal};

use crate::build::*;

/// Octets of which the first twelve are no name's.
fn body(octets: &[u8]) -> Vec<u8> {
    [&[0; 12], octets].concat()
}

fn expanded(octets: &[u8], start: usize) -> Option<Vec<u8>> {
    let name = names::expand(octets, start);
    assert_eq!(
        name.as_ref().err(),
        names::skip(octets, start).as_ref().err()
    );
    name.ok().map(|name| name.octets().to_vec())
}

fn is_format(octets: &[u8]) -> bool {
    let refused = message(&mut day(), 1000, true, octets, &[], &mut [0; 512]);
    let looked = look(&day(), octets);
    let is_format = |result| matches!(result, Err(Refusal::Format(_)));
    assert_eq!(is_format(refused), is_format(looked));
    is_format(looked)
}

#[test]
fn labels() {
    let good = name_of(65);
    assert_eq!(good[0], 63);
    assert_eq!(expanded(&body(&good), 12), Some(good));
    for first in [64, 127, 128, 191] {
        let label = [vec![first], vec![b'x'; 200]].concat();
        assert_eq!(expanded(&body(&label), 12), None, "{first}");
    }
    assert_eq!(expanded(&body(&[3, b'a', b'b']), 12), None);
    assert_eq!(expanded(&body(&[1, b'a']), 12), None);
    assert_eq!(expanded(&body(&[]), 12), None);
    assert_eq!(expanded(&body(&[0xc0]), 12), None);
}

#[test]
fn names_of_255_and_256_octets() {
    let longest = name_of(255);
    assert_eq!(expanded(&body(&longest), 12), Some(longest.clone()));
    assert_eq!(names::plain(&longest), Some(&longest[..]));
    assert_eq!(expanded(&body(&name_of(256)), 12), None);
    assert_eq!(names::plain(&name_of(256)), None);
    // The same through a pointer: 253 octets at 12, a label before them.
    let start = 12 + 253;
    let with_label = |label: &[u8]| body(&[&name_of(253), label, &[0xc0, 12]].concat());
    assert_eq!(expanded(&with_label(b"\x01a"), start).unwrap().len(), 255);
    assert_eq!(expanded(&with_label(b"\x02ab"), start), None);
}

#[test]
fn pointers() {
    // 12: a.example. 23: b.<12> 27: <25> 29: <12> 31: c.<23>
    let octets = body(&hex(
        "01 61 07 65 78 61 6d 70 6c 65 00  01 62 c0 0c  c0 19  c0 0c  01 63 c0 17",
    ));
    assert_eq!(expanded(&octets, 23), Some(name("b.a.example.")));
    // A pointer to a pointer is allowed where it goes down.
    assert_eq!(expanded(&octets, 27), Some(name("a.example.")));
    assert_eq!(expanded(&octets, 29), Some(name("a.example.")));
    assert_eq!(expanded(&octets, 31), Some(name("c.b.a.example.")));
    assert_eq!(names::skip(&octets, 31), Ok(35));
    assert_eq!(names::skip(&octets, 27), Ok(29));
}

#[test]
fn pointer_targets() {
    // A target below 12.
    assert_eq!(expanded(&body(&hex("00 c0 0b")), 13), None);
    assert_eq!(expanded(&body(&hex("00 c0 0c")), 13), Some(vec![0]));
    // The run of labels began at 13: 12 is below, 13 and 14 are not.
    assert_eq!(expanded(&body(&hex("00 01 61 c0 0c")), 13), Some(name("a")));
    assert_eq!(expanded(&body(&hex("00 01 61 c0 0d")), 13), None);
    assert_eq!(expanded(&body(&hex("00 01 61 c0 0e")), 13), None);
    // Into the label of its own run, where a 0 would end the name.
    assert_eq!(expanded(&body(&hex("02 61 00 c0 0e")), 12), None);
    // 14: a label and <15>, 19: <14>. The run of <15> began at 14, not at 19.
    let octets = body(&hex("00 00 02 00 00 c0 0f c0 0e"));
    assert_eq!(expanded(&octets, 19), None);
    // An empty run begins at the pointer: to itself, to its second octet.
    assert_eq!(expanded(&body(&hex("c0 0c")), 12), None);
    assert_eq!(expanded(&body(&hex("c0 0d 00")), 12), None);
    // Forward.
    assert_eq!(expanded(&body(&hex("c0 0e 00")), 12), None);
    // Back to a run that leads to the same pointer: that run began at 12.
    assert_eq!(expanded(&body(&hex("01 61 c0 0c")), 14), None);
    // All 14 bits count.
    let far = [vec![0; 0x3fff], hex("00 ff ff")].concat();
    assert_eq!(expanded(&far, 0x4000), Some(vec![0]));
}

#[test]
fn longest_pointer_chain() {
    // 12: the root, 13: <12>, 15: <13>, and so on to the last target.
    let mut octets = body(&[0]);
    let mut target = 12;
    while target < 0x3ffe {
        let place = octets.len();
        octets.extend((0xc000 | target as u16).to_be_bytes());
        target = place;
    }
    assert_eq!(names::expand(&octets, target).unwrap().octets(), [0]);
}

#[test]
fn suffixes() {
    assert!(names::is_suffix(&name("a")));
    assert!(names::is_suffix(&name_of(128)));
    assert!(!names::is_suffix(&name_of(129)));
    assert!(!names::is_suffix(&[0]));
    assert!(!names::is_suffix(&[]));
    assert!(!names::is_suffix(&[1, b'a', 0, 0]));
    assert!(!names::is_suffix(&[1, b'a', 1]));
    assert!(!names::is_suffix(&[1, b'a', 0xc0, 12]));
    let label_of_64 = [vec![64], vec![b'x'; 64], vec![0]].concat();
    assert!(!names::is_suffix(&label_of_64));
}

#[test]
fn names_compare_without_case() {
    assert!(names::same(&name("a.EXAMPLE."), &name("A.example.")));
    assert!(!names::same(&name("a.example."), &name("b.example.")));
    // Only A to Z: 64 and 96, 91 and 123 stay apart.
    for (one, other) in [("@", "`"), ("[", "{")] {
        assert!(!names::same(&name(one), &name(other)));
    }
    assert!(!names::same(&name("ab.c."), &name("a.bc.")));
}

#[test]
fn key_names_at_the_ends() {
    let longest = Name::of_key(4_294_967_295, &name_of(128));
    assert_eq!(longest.octets().len(), 139);
    assert_eq!(longest.octets()[..11], *b"\x0a4294967295");
    assert_eq!(Name::of_key(1, &name("a")).octets(), name("1.a."));
}

#[test]
fn counts_and_left_over_octets() {
    let good = Draft::ordinary().signed("1.a.example.", 1000);
    assert!(!is_format(&good));
    assert!(is_format(&[&good[..], &[0]].concat()));
    for length in 12..good.len() {
        assert!(is_format(&good[..length]), "cut to {length}");
    }
    for count in [5, 7, 9, 11] {
        let mut more = good.clone();
        more[count] += 1;
        assert!(is_format(&more), "count at {count}");
    }
    assert!(!is_format(&[0; 12]));
    assert!(is_format(&[0; 13]));
}

#[test]
fn data_of_other_records_is_not_read() {
    let bad_name = record(&name("a."), 2, IN, 0, &[0xc0]);
    assert!(!is_format(&Draft::ordinary().add(bad_name).octets()));
    let bad_owner = record(&[0xc0, 5], A, IN, 0, &[]);
    assert!(is_format(&Draft::ordinary().add(bad_owner).octets()));
}

/// What look makes of a TSIG.
fn looked(change: impl FnOnce(&mut Tsig)) -> Done {
    let mut tsig = Tsig::by("1.a.example.", 1000);
    change(&mut tsig);
    look(&day(), &Draft::ordinary().with(&tsig)).unwrap()
}

#[test]
fn ill_formed_tsigs() {
    let found = with_key(1, 1).unwrap();
    let none = Done::default();
    assert_eq!(looked(|_| ()), found);
    assert_eq!(looked(|tsig| tsig.class = IN), none);
    assert_eq!(looked(|tsig| tsig.ttl = 1), none);
    assert_eq!(looked(|tsig| tsig.algorithm = vec![0xc0, 12]), none);
    assert_eq!(looked(|tsig| tsig.other = vec![1; 6]), found);
    // Data one octet short or long, and a record that is not TSIG at all.
    let data = Tsig::by("1.a.example.", 1000).data();
    let owner = name("1.a.example.");
    let look_at = |kind: u16, data: &[u8]| {
        let octets = Draft::ordinary().add(record(&owner, kind, ANY, 0, data));
        look(&day(), &octets.octets()).unwrap()
    };
    assert_eq!(look_at(TSIG, &data), found);
    assert_eq!(look_at(TSIG, &data[..data.len() - 1]), none);
    assert_eq!(look_at(TSIG, &[&data[..], &[0]].concat()), none);
    assert_eq!(look_at(TSIG, &[]), none);
    assert_eq!(look_at(TSIG, &name_of(255)), none);
    assert_eq!(look_at(A, &data), none);
}

#[test]
fn tsig_owner_may_be_compressed_but_is_not_the_root() {
    let compressed = Tsig {
        owner: hex("01 31 c0 0c"),
        ..Tsig::by(".", 1000)
    };
    let octets = Draft::empty().ask(&name("A.example."), A, IN);
    assert_eq!(look(&day(), &octets.with(&compressed)), with_key(1, 1));
    assert_eq!(looked(|tsig| tsig.owner = vec![0]), Done::default());
}
