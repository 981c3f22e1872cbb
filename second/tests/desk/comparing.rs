//! Judging another server's replies (CR 12).

use crate::build::*;
use second::compare::{compare, Refusal};
use second::script::Runner;
use second::{listing, Given};

const CLOCK: &str = "clock\t1000\t1\n";
const PAIR: &str = "pair\t0161076578616d706c6500\t2\t600\t400\n";
const KEY_1: &str = "key\tadopted\t1\thmac-sha256\t1000\t1400\t1600\n";
const KEY_2: &str = "key\twaiting\t2\thmac-sha384\t1000\t1400\t1600\n";

const OFFER: [u8; 4] = [0xde, 0xad, 0xbe, 0xef];

/// A call, and what it gets on the day's table.
struct Case {
    time: u64,
    good: bool,
    fits: bool,
    record: Vec<u8>,
    message: Vec<u8>,
}

impl Case {
    fn at(time: u64, message: Vec<u8>) -> Case {
        Case {
            time,
            good: true,
            fits: true,
            record: lent_record(),
            message,
        }
    }

    fn given(&self) -> Given<'_> {
        Given {
            time: self.time,
            good: self.good,
            offer: &OFFER,
            fits: self.fits,
            record: &self.record,
        }
    }

    fn reply(&self) -> Vec<u8> {
        let mut table = listing::load(day_text().as_bytes()).expect("it loads");
        send_given(&mut table, &self.given(), &self.message).1
    }

    fn compare(&self, theirs: &[u8]) -> Result<(), Refusal> {
        self.compare_on(&day_text(), theirs)
    }

    fn compare_on(&self, listing: &str, theirs: &[u8]) -> Result<(), Refusal> {
        compare(listing.as_bytes(), &self.given(), &self.message, theirs)
    }

    #[track_caller]
    fn differs(&self, theirs: &[u8], place: usize) {
        assert_eq!(self.compare(theirs), Err(Refusal::Differs(place)));
    }

    /// Each of these octets changed alone differs at this place.
    #[track_caller]
    fn field(&self, place: usize, size: usize) {
        for at in place..place + size {
            let mut theirs = self.reply();
            theirs[at] ^= 0x01;
            self.differs(&theirs, place);
        }
    }
}

fn day_text() -> String {
    [CLOCK, PAIR, KEY_1].concat()
}

fn lent_record() -> Vec<u8> {
    record(&name("server."), KEY, IN, 60, &[7, 7, 7])
}

fn renewal(mode: u16) -> Case {
    let request = Draft::renewal_by(mode, "1.a.example.");
    Case::at(1200, request.signed("1.a.example.", 1200))
}

fn unsigned_request() -> Case {
    let request = Draft::empty().ask(&name("Q.example."), TKEY, ANY);
    Case::at(1200, request.octets())
}

/// Two questions and a TSIG of no key: BADKEY.
fn two_questions(second: &[u8]) -> Case {
    let asked = Draft::empty()
        .ask(&name("one.example."), SOA, IN)
        .ask(second, A, IN);
    Case::at(1200, asked.signed("9.b.", 1200))
}

/// Where things stand in the reply to a renewal, all names written out: the
/// question is `q.` at 12.
const OWNER: usize = 19;
const TYPE: usize = OWNER + 13;
const DATA: usize = TYPE + 10;
const KEY_SIZE: usize = DATA + 13 + 12;
const OTHER_SIZE: usize = KEY_SIZE + 2 + 4;
const OTHER: usize = OTHER_SIZE + 2;
const AFTER: usize = OTHER + 13 + 13;

#[test]
fn our_own_reply_is_accepted() {
    for case in RENEWALS.map(renewal).into_iter().chain([
        unsigned_request(),
        two_questions(&name("two.")),
        Case::at(1200, Draft::ordinary().signed("9.a.example.", 1200)),
        Case::at(1400, Draft::ordinary().signed("1.a.example.", 1400)),
        Case::at(1399, Draft::ordinary().signed("1.a.example.", 1000)),
        Case {
            good: false,
            ..renewal(RENEWAL)
        },
        Case {
            fits: false,
            ..renewal(RENEWALS[0])
        },
        Case::at(
            1200,
            Draft::deletion("1.a.example.").signed("1.a.example.", 1200),
        ),
        Case::at(
            1200,
            Draft::adoption("1.a.example.", "1.a.example.").signed("1.a.example.", 1200),
        ),
    ]) {
        assert!(!case.reply().is_empty());
        assert_eq!(case.compare(&case.reply()), Ok(()));
    }
}

#[test]
fn each_field_of_header_and_question() {
    let case = unsigned_request();
    case.field(0, 2);
    case.field(2, 2);
    // A letter, and not its case alone.
    let mut theirs = case.reply();
    theirs[13] ^= 1;
    case.differs(&theirs, 12);
    case.field(23, 2);
    case.field(25, 2);
}

#[test]
fn each_field_of_the_records() {
    let case = renewal(RENEWALS[0]);
    let reply = case.reply();
    assert_eq!(reply[OWNER..TYPE], name("2.a.example."));
    let mut theirs = reply.clone();
    theirs[OWNER + 1] = b'3';
    case.differs(&theirs, OWNER);
    case.field(TYPE, 2);
    case.field(TYPE + 2, 2);
    case.field(TYPE + 4, 4);
    let mut theirs = reply.clone();
    theirs[DATA + 1] ^= 1;
    case.differs(&theirs, DATA);
    case.field(DATA + 13, 4);
    case.field(DATA + 17, 4);
    case.field(DATA + 21, 2);
    case.field(DATA + 23, 2);
    case.field(KEY_SIZE, 2);
    case.field(KEY_SIZE + 2, 4);
    case.field(OTHER_SIZE, 2);
    case.field(OTHER, 26);
    // The lent KEY, then the echoed one.
    let mut place = AFTER;
    for (owner, size) in [(name("server."), 3), (name("client."), 6)] {
        let mut theirs = reply.clone();
        theirs[place + 1] ^= 1;
        case.differs(&theirs, place);
        let after = place + owner.len();
        case.field(after, 2);
        case.field(after + 2, 2);
        case.field(after + 4, 4);
        case.field(after + 10, size);
        place = after + 10 + size;
    }
    assert_eq!(place, reply.len());
}

#[test]
fn data_longer_or_shorter() {
    let case = renewal(RENEWAL);
    let reply = case.reply();
    // The echoed KEY has one octet less, and the TKEY one more.
    let size = reply.len() - 7;
    let mut theirs = reply[..reply.len() - 1].to_vec();
    theirs[size] -= 1;
    case.differs(&theirs, size - 1);
    let mut theirs = reply.clone();
    theirs[DATA - 1] += 1;
    theirs[KEY_SIZE + 1] += 1;
    theirs.insert(KEY_SIZE + 2, 0);
    case.differs(&theirs, DATA - 2);
}

#[test]
fn counts_and_order() {
    let case = renewal(RENEWALS[0]);
    let reply = case.reply();
    let (tkey, lent) = (&reply[OWNER..AFTER], lent_record());
    let echoed = &reply[AFTER + lent.len()..];
    assert_eq!(echoed, key_record());
    // A section's count without the record, or with it in another section.
    for (count, by) in [(7, -1), (9, 1), (11, -1)] {
        let mut theirs = reply.clone();
        theirs[count] = theirs[count].wrapping_add_signed(by);
        let place = if by > 0 {
            reply.len()
        } else {
            AFTER + lent.len()
        };
        assert_eq!(case.compare(&theirs), Err(Refusal::Format(place)));
    }
    let mut theirs = reply.clone();
    (theirs[7], theirs[9]) = (1, 1);
    case.differs(&theirs, 6);
    let mut theirs = reply.clone();
    (theirs[9], theirs[11]) = (1, 0);
    case.differs(&theirs, 8);
    let mut theirs = [&reply[..], echoed].concat();
    theirs[11] = 2;
    case.differs(&theirs, 10);
    let mut theirs = [&reply[..OWNER], &reply[12..]].concat();
    theirs[5] = 2;
    case.differs(&theirs, 4);
    let theirs = [&reply[..OWNER], &lent, tkey, echoed].concat();
    case.differs(&theirs, OWNER);
    let theirs = [&reply[..AFTER], echoed, &lent].concat();
    case.differs(&theirs, AFTER);
}

#[test]
fn names_in_other_writing() {
    let case = renewal(RENEWAL);
    let reply = case.reply();
    let mut theirs = reply.clone();
    for at in (12..TYPE).chain(DATA..DATA + 13) {
        theirs[at].make_ascii_uppercase();
    }
    assert_eq!(case.compare(&theirs), Ok(()));
    // OldName is no name to this call.
    let letter = OTHER + 3;
    assert_eq!(reply[letter], b'a');
    theirs[letter].make_ascii_uppercase();
    case.differs(&theirs, OTHER);
    // The KEY's owner ends with a pointer to the question's root, to an octet 0
    // that is in no name, and to `q.`.
    let owner = AFTER + name("client").len() - 1;
    let theirs = [&reply[..owner], &[0xc0, 14], &reply[owner + 1..]].concat();
    assert_eq!(case.compare(&theirs), Ok(()));
    let theirs = [&reply[..owner], &[0xc0, 15], &reply[owner + 1..]].concat();
    assert_eq!(case.compare(&theirs), Ok(()));
    let theirs = [&reply[..owner], &[0xc0, 12], &reply[owner + 1..]].concat();
    case.differs(&theirs, AFTER);
}

#[test]
fn questions_compressed_or_not() {
    let long = two_questions(&name("two.example."));
    let short = two_questions(&[&b"\x03two"[..], &[0xc0, 16]].concat());
    assert_ne!(long.reply(), short.reply());
    assert_eq!(long.compare(&short.reply()), Ok(()));
    assert_eq!(short.compare(&long.reply()), Ok(()));
    let mut theirs = short.reply();
    let end = theirs.len();
    theirs[end - 1] ^= 1;
    long.differs(&theirs, end - 2);
}

#[test]
fn an_ill_formed_tkey() {
    let case = renewal(RENEWAL);
    let reply = case.reply();
    // The algorithm's end is a pointer to an octet 0, its label octet is none,
    // it has no end, or it is the root.
    for (at, octets) in [
        (DATA + 12, &[0xc0, 14][..]),
        (DATA, &[64]),
        (DATA, &[0xc0, 12]),
        (DATA, &[63]),
        (DATA, &[0]),
    ] {
        let mut theirs = reply.clone();
        theirs[at..at + octets.len()].copy_from_slice(octets);
        case.differs(&theirs, DATA);
    }
    for size in [0u16, 3, 5, 32, 33, 65_535] {
        let mut theirs = reply.clone();
        theirs[KEY_SIZE..KEY_SIZE + 2].copy_from_slice(&size.to_be_bytes());
        case.differs(&theirs, KEY_SIZE);
    }
    for size in [0u16, 25, 27, 65_535] {
        let mut theirs = reply.clone();
        theirs[OTHER_SIZE..OTHER].copy_from_slice(&size.to_be_bytes());
        case.differs(&theirs, OTHER_SIZE);
    }
}

#[test]
fn a_listing_that_does_not_load() {
    let case = renewal(RENEWAL);
    let line = |line| Err(Refusal::Listing(listing::Refusal::Line(line)));
    let table = Err(Refusal::Listing(listing::Refusal::Table));
    for theirs in [case.reply(), Vec::new(), vec![0], vec![0; 12]] {
        assert_eq!(case.compare_on("", &theirs), line(1));
        assert_eq!(case.compare_on("clock\t1000\n", &theirs), line(1));
        let unread = [CLOCK, PAIR, PAIR, "key\n"].concat();
        assert_eq!(case.compare_on(&unread, &theirs), line(4));
        let twins = [CLOCK, PAIR, PAIR].concat();
        assert_eq!(case.compare_on(&twins, &theirs), table);
    }
    let refusals = [
        Refusal::Listing(listing::Refusal::Line(4)),
        Refusal::Listing(listing::Refusal::Table),
        Refusal::Size,
        Refusal::Format(12),
        Refusal::Differs(19),
    ];
    let numbers = refusals.map(|refusal| (refusal.number(), refusal.place()));
    assert_eq!(numbers, [(18, 4), (1, 0), (4, 0), (6, 12), (21, 19)]);
}

#[test]
fn another_listing_has_another_reply() {
    let case = renewal(RENEWAL);
    // With key 2 waiting the new key is the third, and without a pair there is
    // no TKEY in the reply.
    let next = [CLOCK, &PAIR.replace("\t2\t", "\t3\t"), KEY_1, KEY_2].concat();
    let differs = Err(Refusal::Differs(OWNER));
    assert_eq!(case.compare_on(&next, &case.reply()), differs);
    assert_eq!(
        case.compare_on(CLOCK, &case.reply()),
        Err(Refusal::Differs(2))
    );
}

#[test]
fn empty_replies() {
    let passed = Case::at(1200, Draft::ordinary().signed("1.a.example.", 1200));
    let early = Case {
        time: 999,
        ..renewal(RENEWAL)
    };
    let unread = Case::at(1200, vec![0; 13]);
    let no_record = Case {
        record: Vec::new(),
        ..renewal(RENEWALS[0])
    };
    for case in [passed, early, unread, no_record] {
        assert_eq!(case.compare(&[]), Ok(()));
        case.differs(&[0], 0);
        case.differs(&renewal(RENEWAL).reply(), 0);
        case.differs(&[0; 65_536], 0);
    }
    renewal(RENEWAL).differs(&[], 0);
}

#[test]
fn a_reply_too_long_for_a_message_is_none() {
    let mut case = renewal(RENEWALS[0]);
    let data = 65_535 - case.reply().len() + 3;
    case.record = record(&name("server."), KEY, IN, 60, &vec![7; data]);
    assert_eq!(case.reply().len(), 65_535);
    assert_eq!(case.compare(&case.reply()), Ok(()));
    case.record = record(&name("server."), KEY, IN, 60, &vec![7; data + 1]);
    assert_eq!(case.compare(&[]), Ok(()));
}

#[test]
fn size_and_format() {
    let case = unsigned_request();
    let reply = case.reply();
    for size in [1, 11, 65_536] {
        let mut theirs = reply.clone();
        theirs.resize(size, 0);
        assert_eq!(case.compare(&theirs), Err(Refusal::Size));
    }
    for end in 12..reply.len() {
        assert_eq!(case.compare(&reply[..end]), Err(Refusal::Format(end)));
    }
    // What differs before it does not matter.
    let mut theirs = [&reply[..], &[0, 0]].concat();
    theirs[0] ^= 1;
    assert_eq!(case.compare(&theirs), Err(Refusal::Format(reply.len())));
    let mut theirs = reply.clone();
    theirs[12] = 64;
    assert_eq!(case.compare(&theirs), Err(Refusal::Format(12)));
}

#[test]
fn a_reply_of_ours_that_does_not_read() {
    // The second question's name is a label that begins in the first's type and
    // ends where the TSIG begins.
    let first = name("q.");
    let kind = u16::from_be_bytes([9, b'x']);
    let asked = |second: &[u8]| {
        Draft::empty()
            .ask(&first, kind, IN)
            .ask(second, A, IN)
            .signed("9.b.", 1200)
    };
    let case = Case::at(1200, asked(&[0xc0, 15]));
    let reply = case.reply();
    assert_eq!(case.compare(&reply), Err(Refusal::Format(reply.len())));
    let mut theirs = Case::at(1200, asked(&name("x."))).reply();
    case.differs(&theirs, 19);
    theirs[13] ^= 1;
    case.differs(&theirs, 12);
}

#[test]
fn lines_of_a_script() {
    let script = "compare 636c6f636b093130303009310a 1000 bad - 1234000000010000000000000000f900ff bad - 1234800500010000000000000000f900ff
compare 636c6f636b093130303009310a 1000 bad - 1234000000010000000000000000f900ff bad - 1234800400010000000000000000f900ff
compare 636c6f636b09313030300a 1000 bad - 1234000000010000000000000000f900ff bad - -
compare 636c6f636b093130303009300a 1000 bad - 1234000000010000000000000000f900ff bad - -
compare 636c6f636b093130303009310a 1000 bad - 1234000000010000000000000000f900ff bad - 12
compare 636c6f636b093130303009310a 1000 bad - 1234000000010000000000000000f900ff bad - 1234800500010000000000000000f900
compare 636c6f636b093130303009310a 1000 bad - 1234000000010000000000000000f900ff bad -
compare 636c6f636b093130303009310a 1000 bad - 65535 1234000000010000000000000000f900ff bad - -
list";
    let (mut runner, mut out) = (Runner::new(), Vec::new());
    for line in script.lines() {
        runner.line(line.as_bytes(), &mut out);
    }
    let expected = "0 0\n21 2\n18 1\n1 0\n4 0\n6 16\nbad line 7\nbad line 8\nclock\t0\t1\n";
    assert_eq!(String::from_utf8(out).expect("text"), expected);
}
