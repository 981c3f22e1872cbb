//! CR 6: the place where reading a message first failed.

use second::{look, Refusal};

use crate::build::*;

/// The place that look and message both give beside FORMAT.
fn place(octets: &[u8]) -> usize {
    let looked = look(&day(), octets);
    let sent = message(&mut day(), 1000, true, octets, &[], &mut [0; 512]);
    assert_eq!(looked, sent);
    match looked {
        Err(refusal @ Refusal::Format(place)) => {
            assert_eq!((refusal.number(), refusal.place()), (6, place));
            place
        }
        _ => panic!("{looked:?} of {octets:?}"),
    }
}

/// Where a name can stand.
#[derive(Clone, Copy, Debug)]
enum Part {
    Question,
    SecondQuestion,
    Answer,
    Authority,
    Additional,
}

const PARTS: [Part; 5] = [
    Part::Question,
    Part::SecondQuestion,
    Part::Answer,
    Part::Authority,
    Part::Additional,
];

/// z.example. at 12, before every part but the first question, ends here.
const SECOND: usize = 12 + 11 + 4;

impl Part {
    /// Where the name begins.
    fn start(self) -> usize {
        match self {
            Part::Question => 12,
            _ => SECOND,
        }
    }

    /// A message with this name there, in a good item, and the TSIG last.
    fn with(self, name: &[u8]) -> Vec<u8> {
        self.draft(name).signed("1.a.example.", 1000)
    }

    /// One that ends with this name, though more is counted.
    fn ending_in(self, name: &[u8]) -> Vec<u8> {
        let mut octets = self.draft(name).octets();
        octets.truncate(self.start() + name.len());
        octets
    }

    fn draft(self, name: &[u8]) -> Draft {
        let mut draft = Draft::ordinary();
        let record = record(name, A, IN, 0, &[1, 2, 3, 4]);
        match self {
            Part::Question => return Draft::empty().ask(name, A, IN),
            Part::SecondQuestion => return draft.ask(name, A, IN),
            Part::Answer => draft.answer.push(record),
            Part::Authority => draft.authority.push(record),
            Part::Additional => draft.additional.push(record),
        }
        draft
    }
}

#[test]
fn a_label_octet_of_64_to_191() {
    for part in PARTS {
        for octet in [64, 128, 191] {
            let start = part.start();
            assert_eq!(place(&part.with(&[octet, 0])), start);
            assert_eq!(place(&part.with(&[2, b'a', b'b', octet, 0])), start + 3);
            // With nothing behind it.
            assert_eq!(place(&part.ending_in(&[octet])), start);
        }
    }
}

#[test]
fn a_pointer_with_a_forbidden_target() {
    for part in PARTS {
        let start = part.start() as u8;
        // To itself, to its second octet, forward, past the end, to octet 11, to 0.
        for target in [start, start + 1, start + 2, 255, 11, 0] {
            assert_eq!(place(&part.with(&[0xc0, target])), part.start());
            assert_eq!(place(&part.ending_in(&[0xc0, target])), part.start());
        }
        // Behind a label: to the start of its run, into it, to itself, to octet 11.
        for target in [start, start + 1, start + 3, 11] {
            let name = [2, 0, 0, 0xc0, target];
            assert_eq!(place(&part.with(&name)), part.start() + 3);
        }
        assert_eq!(place(&part.with(&[0xff, 0xff])), part.start());
    }
}

#[test]
fn a_pointer_or_a_label_cut_off() {
    for part in PARTS {
        for cut in [
            &[0xc0][..],
            &[0xff],
            &[2, b'a', b'b', 0xc0],
            &[1],
            &[3, b'a', b'b'],
            &[2, b'a', b'b', 63, b'c'],
        ] {
            let octets = part.ending_in(cut);
            assert_eq!(place(&octets), part.start() + cut.len());
            assert_eq!(place(&octets), octets.len());
        }
        // No octet of the name, or no further label.
        assert_eq!(place(&part.ending_in(&[])), part.start());
        assert_eq!(place(&part.ending_in(&[1, b'a'])), part.start() + 2);
    }
}

#[test]
fn a_name_of_256_octets_by_labels() {
    // Labels of 64, 64, 64 and 63 octets, and the 0.
    let long = name_of(256);
    let last = 3 * 64;
    assert_eq!(long[last], 62);
    for part in PARTS {
        assert_eq!(place(&part.with(&long)), part.start() + last);
        // Too long comes before cut off.
        let cut = part.ending_in(&long[..last + 1]);
        assert_eq!(place(&cut), part.start() + last);
        // One octet less is no more than cut off.
        let cut = part.ending_in(&name_of(255)[..last + 1]);
        assert_eq!(place(&cut), cut.len());
    }
    // 255 octets, and one more label of one octet where the 0 was.
    let more = [&name_of(255)[..254], b"\x01a\0"].concat();
    assert_eq!(place(&Part::Answer.with(&more)), SECOND + 254);
}

#[test]
fn a_name_of_256_octets_by_way_of_a_pointer() {
    // The label that goes past 255 stands in the question, before the pointer.
    let last = 12 + 3 * 64;
    let draft = Draft::empty().ask(&name_of(253), A, IN);
    let records = [
        (&b"\x01a\xc0\x0c"[..], None),
        (&b"\x02ab\xc0\x0c"[..], Some(last)),
        // Labels that leave no octet for the question's first label.
        (&[&name_of(255)[..254], b"\xc0\x0c"].concat(), Some(12)),
    ];
    for (owner, expected) in records {
        for section in 0..3 {
            let mut draft = draft.clone();
            let sections = [
                &mut draft.answer,
                &mut draft.authority,
                &mut draft.additional,
            ];
            let [answer, authority, additional] = sections;
            [answer, authority, additional][section].push(record(owner, A, IN, 0, &[]));
            let octets = draft.signed("1.a.example.", 1000);
            match expected {
                Some(expected) => assert_eq!(place(&octets), expected),
                None => assert_eq!(look(&day(), &octets), with_key(1, 1)),
            }
        }
    }
}

/// Behind a pointer the place is lower than octets read before.
#[test]
fn behind_a_pointer() {
    // 12: the root, 17: data of a record with a root owner, at 28.
    let data_at = 12 + 5 + 11;
    let cases: [(&[u8], usize); 4] = [
        (&[150, 0], 0),
        (&[1, b'a', 64], 2),
        (&[0xc0, 28], 0),
        (&[1, b'a', 0xc0, 11], 2),
    ];
    for (data, offset) in cases {
        let draft = Draft::empty()
            .ask(&[0], A, IN)
            .add(record(&[0], A, IN, 0, data))
            .add(record(&[0xc0, data_at as u8], A, IN, 0, &[]));
        assert_eq!(place(&draft.octets()), data_at + offset);
    }
    // A label behind the pointer that runs past the end.
    let draft = Draft::empty()
        .ask(&[0], A, IN)
        .add(record(&[0], A, IN, 0, &[63]))
        .add(record(&[0xc0, data_at as u8], A, IN, 0, &[]));
    assert_eq!(place(&draft.octets()), draft.octets().len());
}

#[test]
fn fixed_fields_cut_off() {
    for part in PARTS {
        let name = name("w.example.");
        let fixed = match part {
            Part::Question | Part::SecondQuestion => 4,
            _ => 10,
        };
        let octets = part.draft(&name).octets();
        for left in 0..fixed {
            let length = part.start() + name.len() + left;
            assert_eq!(place(&octets[..length]), length);
        }
    }
}

#[test]
fn data_past_the_end() {
    for part in [Part::Answer, Part::Authority, Part::Additional] {
        let octets = part.draft(&[0]).octets();
        for length in octets.len() - 4..octets.len() {
            assert_eq!(place(&octets[..length]), length);
        }
        let rdlength = octets.len() - 6;
        for size in [[0, 5], [255, 255]] {
            let mut octets = octets.clone();
            octets[rdlength..rdlength + 2].copy_from_slice(&size);
            assert_eq!(place(&octets), octets.len());
        }
    }
}

#[test]
fn octets_left_over() {
    for (octets, tail) in [
        (vec![0; 12], vec![0]),
        (Draft::ordinary().octets(), vec![64, 1, 2]),
        (Draft::ordinary().signed("1.a.example.", 1000), vec![0; 11]),
        (Draft::renewal("1.a.example.").octets(), vec![0xc0; 40]),
    ] {
        let expected = octets.len();
        assert_eq!(place(&[octets, tail].concat()), expected);
    }
}

#[test]
fn counts_that_promise_more() {
    for count in [4, 6, 8, 10] {
        let mut octets = vec![0; 12];
        octets[count + 1] = 1;
        assert_eq!(place(&octets), 12);
        octets[count] = 255;
        assert_eq!(place(&octets), 12);
    }
    let mut octets = Draft::ordinary().signed("1.a.example.", 1000);
    octets[11] += 1;
    assert_eq!(place(&octets), octets.len());
}

/// The first failure counts, in the order of reading.
#[test]
fn the_first_of_two() {
    let mut draft = Draft::empty().ask(&[64], A, IN);
    draft = draft.add(record(&[0xc0, 5], A, IN, 0, &[]));
    let octets = [draft.octets(), vec![0]].concat();
    assert_eq!(place(&octets), 12);
    draft.questions[0][0] = 0;
    let octets = [draft.octets(), vec![0]].concat();
    assert_eq!(place(&octets), 17);
}
