//! CR 1, "The counter's half".

use second::resolver::*;
use second::{Algorithm, Table};

use crate::build::*;

// Names and algorithms on the wire.
const KEY_1: &str = "01 31 01 61 07 65 78 61 6d 70 6c 65 00";
const KEY_2: &str = "01 32 01 61 07 65 78 61 6d 70 6c 65 00";
const SHA256: &str = "0b 68 6d 61 63 2d 73 68 61 32 35 36 00";
const SHA384: &str = "0b 68 6d 61 63 2d 73 68 61 33 38 34 00";

fn key(text: &str, algorithm: Algorithm, inception: u32, expiration: u32) -> Key {
    Key {
        name: name(text),
        algorithm,
        inception,
        expiration,
    }
}

fn first() -> Key {
    key("1.a.example.", Algorithm::Sha256, 1000, 1600)
}

fn second_key() -> Key {
    key("2.a.example.", Algorithm::Sha384, 1599, 2199)
}

/// With the first key adopted.
fn holding() -> Resolver {
    Resolver::holding(first())
}

/// And the second one offered.
fn offered() -> Resolver {
    Resolver {
        keys: Keys::Offered {
            adopted: first(),
            offered: second_key(),
        },
        ..holding()
    }
}

fn open(resolver: Resolver, asked: Asked) -> Resolver {
    Resolver {
        open: Some(Request { id: 0x1234, asked }),
        ..resolver
    }
}

fn wish<'a>(name: &'a [u8], key_record: &'a [u8]) -> Wish<'a> {
    Wish {
        name,
        algorithm: Algorithm::Sha384,
        inception: 1599,
        expiration: 0xffff_fffe,
        key_record,
    }
}

/// What a call writes into all the room there can be, and who is to sign it.
fn written(
    resolver: &mut Resolver,
    call: impl FnOnce(&mut Resolver, &mut [u8]) -> Result<Written, Refusal>,
) -> (Vec<u8>, Which) {
    let mut buffer = vec![FILL; 70_000];
    let Written { length, signer } = call(resolver, &mut buffer).expect("written");
    assert!(buffer[length..].iter().all(|&octet| octet == FILL));
    buffer.truncate(length);
    (buffer, signer)
}

/// Asserts a refusal that changes nothing and writes nothing.
fn refused(
    mut resolver: Resolver,
    room: usize,
    call: impl FnOnce(&mut Resolver, &mut [u8]) -> Result<Written, Refusal>,
    refusal: Refusal,
) {
    let before = resolver.clone();
    let mut buffer = vec![FILL; room];
    assert_eq!(call(&mut resolver, &mut buffer), Err(refusal));
    assert_eq!(resolver, before);
    assert!(buffer.iter().all(|&octet| octet == FILL));
}

#[test]
fn numbers() {
    let numbers = [
        Refusal::Lost,
        Refusal::WrongId,
        Refusal::Unsigned,
        Refusal::Format,
        Refusal::Room,
        Refusal::NoKey,
    ];
    assert!((1..=6).eq(numbers.into_iter().map(|refusal| refusal as u8)));
}

#[test]
fn a_renewal_request() {
    let mut resolver = holding();
    let key_record = hex("06 63 6c 69 65 6e 74 00 0019 0001 00000e10 0006 0200 0302 0909");
    let (octets, signer) = written(&mut resolver, |resolver, buffer| {
        resolver.renewal(0xbeef, &wish(&[0], &key_record), buffer)
    });
    let expected = hex(&format!(
        "beef 0000 0001 0000 0000 0002
         00 00f9 00ff
         00 00f9 00ff 00000000 0037 {SHA384} 0000063f fffffffe 1002 0000 0000 001a {KEY_1} {SHA256}
         06 63 6c 69 65 6e 74 00 0019 0001 00000e10 0006 0200 0302 0909"
    ));
    assert_eq!((octets, signer), (expected, Which::Adopted));
    let asked = Asked::Renewal;
    assert_eq!(
        resolver,
        Resolver {
            open: Some(Request { id: 0xbeef, asked }),
            ..holding()
        }
    );
}

#[test]
fn a_renewal_request_with_a_name() {
    let key_record = hex("00 0019 00ff 00000000 0000");
    let (octets, signer) = written(&mut holding(), |resolver, buffer| {
        resolver.renewal(1, &wish(&name("New."), &key_record), buffer)
    });
    let expected = hex(&format!(
        "0001 0000 0001 0000 0000 0002
         03 4e 65 77 00 00f9 00ff
         03 4e 65 77 00 00f9 00ff 00000000 0037
           {SHA384} 0000063f fffffffe 1002 0000 0000 001a {KEY_1} {SHA256}
         00 0019 00ff 00000000 0000"
    ));
    assert_eq!((octets, signer), (expected, Which::Adopted));
}

#[test]
fn an_adoption_request() {
    let mut resolver = offered();
    let (octets, signer) = written(&mut resolver, |resolver, buffer| {
        resolver.adoption(0x1234, buffer)
    });
    let expected = hex(&format!(
        "1234 0000 0001 0000 0000 0001
         {KEY_2} 00f9 00ff
         {KEY_2} 00f9 00ff 00000000 0037
           {SHA384} 0000063f 00000897 1004 0000 0000 001a {KEY_1} {SHA256}"
    ));
    assert_eq!((octets, signer), (expected, Which::Adopted));
    let after = Resolver {
        turn: Which::Offered,
        ..open(offered(), Asked::Adoption)
    };
    assert_eq!(resolver, after);
}

#[test]
fn a_deletion_request() {
    let mut resolver = offered();
    let (octets, signer) = written(&mut resolver, |resolver, buffer| {
        resolver.deletion(0x1234, buffer)
    });
    let expected = hex(&format!(
        "1234 0000 0001 0000 0000 0001
         {KEY_1} 00f9 00ff
         {KEY_1} 00f9 00ff 00000000 001d {SHA256} 00000000 00000000 0005 0000 0000 0000"
    ));
    assert_eq!((octets, signer), (expected, Which::Adopted));
    assert_eq!(resolver, open(offered(), Asked::Deletion));
}

#[test]
fn a_new_request_replaces_the_open_one() {
    let mut resolver = offered();
    resolver.note(7);
    let asked = Asked::Ordinary;
    assert_eq!(resolver.open, Some(Request { id: 7, asked }));
    written(&mut resolver, |resolver, buffer| {
        resolver.adoption(8, buffer)
    });
    let asked = Asked::Adoption;
    assert_eq!(resolver.open, Some(Request { id: 8, asked }));
    written(&mut resolver, |resolver, buffer| {
        resolver.deletion(9, buffer)
    });
    let asked = Asked::Deletion;
    assert_eq!(resolver.open, Some(Request { id: 9, asked }));
    assert_eq!(
        resolver.reply(true, &answer(Asked::Adoption)),
        Err(Refusal::WrongId)
    );
}

#[test]
fn the_turn() {
    let mut resolver = offered();
    let next = |resolver: &mut Resolver| {
        written(resolver, |resolver, buffer| {
            resolver.adoption(0x1234, buffer)
        })
        .1
    };
    let turns = [
        Which::Adopted,
        Which::Offered,
        Which::Adopted,
        Which::Offered,
    ];
    for turn in turns {
        assert_eq!(next(&mut resolver), turn);
    }
    assert_eq!(next(&mut resolver), Which::Adopted);
    // Neither a refused one nor another request takes a turn.
    refused(
        resolver.clone(),
        100,
        |r, b| r.adoption(1, b),
        Refusal::Room,
    );
    assert_eq!(resolver.adoption(1, &mut [0; 100]), Err(Refusal::Room));
    resolver.note(2);
    written(&mut resolver, |resolver, buffer| {
        resolver.deletion(3, buffer)
    });
    assert_eq!(next(&mut resolver), Which::Offered);
    assert_eq!(next(&mut resolver), Which::Adopted);
    // A reply without a move leaves the turn.
    let mut denied = reply(Asked::Adoption);
    denied.flags |= 9;
    assert_eq!(
        resolver.reply(true, &denied.signed("1.a.example.", 0)),
        Ok(false)
    );
    assert_eq!(next(&mut resolver), Which::Offered);
    assert_eq!(next(&mut resolver), Which::Adopted);
    // A new offered key starts it again.
    let mut renewing = open(resolver, Asked::Renewal);
    assert_eq!(renewing.turn, Which::Offered);
    assert_eq!(renewing.reply(true, &answer(Asked::Renewal)), Ok(false));
    assert_eq!(next(&mut renewing), Which::Adopted);
}

#[test]
fn no_key_for_a_request() {
    let none = || open(Resolver::default(), Asked::Ordinary);
    let record = key_record();
    let any = &wish(&[0], &record);
    refused(none(), 0, |r, b| r.renewal(1, any, b), Refusal::NoKey);
    refused(none(), 0, |r, b| r.adoption(1, b), Refusal::NoKey);
    refused(none(), 0, |r, b| r.deletion(1, b), Refusal::NoKey);
    refused(holding(), 0, |r, b| r.adoption(1, b), Refusal::NoKey);
}

#[test]
fn a_name_that_is_no_wire_name() {
    let record = key_record();
    let bad = [
        vec![],
        vec![1],
        vec![1, b'a'],
        vec![0, 0],
        vec![64; 65],
        hex("01 61 c0 0c"),
        name_of(256),
    ];
    for bad in bad {
        let bad_key = Key {
            name: bad.clone(),
            ..second_key()
        };
        let adopted = || Resolver {
            keys: Keys::Offered {
                adopted: bad_key.clone(),
                offered: second_key(),
            },
            ..offered()
        };
        let any = &wish(&[0], &record);
        refused(adopted(), 0, |r, b| r.renewal(1, any, b), Refusal::NoKey);
        refused(adopted(), 0, |r, b| r.adoption(1, b), Refusal::NoKey);
        refused(adopted(), 0, |r, b| r.deletion(1, b), Refusal::NoKey);
        let mut waiting = Resolver {
            keys: Keys::Offered {
                adopted: first(),
                offered: bad_key.clone(),
            },
            ..offered()
        };
        refused(waiting.clone(), 0, |r, b| r.adoption(1, b), Refusal::NoKey);
        // The offered key's name is of no concern to the others.
        assert!(waiting.deletion(1, &mut [0; 512]).is_ok());
        let any = &wish(&bad, &record);
        refused(holding(), 0, |r, b| r.renewal(1, any, b), Refusal::NoKey);
    }
    // The longest name and the root are names.
    for good in [name_of(255), vec![0]] {
        let mut resolver = Resolver::holding(Key {
            name: good.clone(),
            ..first()
        });
        assert!(resolver.deletion(1, &mut [0; 1000]).is_ok());
        assert!(resolver
            .renewal(1, &wish(&good, &record), &mut [0; 1000])
            .is_ok());
    }
}

#[test]
fn octets_that_are_no_key_record() {
    let bad = [
        "",
        "00",
        "00 0019 0001 00000000",
        "00 0019 0001 00000000 0001",
        "00 0019 0001 00000000 0000 00",
        "00 0018 0001 00000000 0000",
        "c00c 0019 0001 00000000 0000",
        "01 61 c00c 0019 0001 00000000 0000",
        "01 61 0019 0001 00000000 0000",
        "00 0019 0001 00000000 0000 00 0019 0001 00000000 0000",
    ];
    for bad in bad {
        let octets = hex(bad);
        let any = &wish(&[0], &octets);
        refused(holding(), 0, |r, b| r.renewal(1, any, b), Refusal::NoKey);
    }
}

#[test]
fn room() {
    // 12 + 5 + 11 + 55 octets and the KEY record of 24; 12 + 17 + 23 + 55; 12
    // + 17 + 23 + 29.
    let record = key_record();
    let any = &wish(&[0], &record);
    refused(offered(), 106, |r, b| r.renewal(1, any, b), Refusal::Room);
    refused(offered(), 106, |r, b| r.adoption(1, b), Refusal::Room);
    refused(offered(), 80, |r, b| r.deletion(1, b), Refusal::Room);
    let mut buffer = [0; 107];
    let length = |result: Result<Written, Refusal>| result.map(|written| written.length);
    assert_eq!(length(offered().renewal(1, any, &mut buffer)), Ok(107));
    assert_eq!(length(offered().adoption(1, &mut buffer)), Ok(107));
    assert_eq!(length(offered().deletion(1, &mut buffer[..81])), Ok(81));
}

#[test]
fn room_of_65535() {
    // The KEY record's owner and fixed fields take 18 octets.
    let of_length = |length| record(&name("client."), KEY, IN, 3600, &vec![0; length]);
    let most = of_length(65_535 - 83 - 18);
    let (octets, _) = written(&mut holding(), |resolver, buffer| {
        resolver.renewal(1, &wish(&[0], &most), buffer)
    });
    assert_eq!(octets.len(), 65_535);
    let more = of_length(65_535 - 83 - 18 + 1);
    let any = &wish(&[0], &more);
    refused(
        holding(),
        70_000,
        |r, b| r.renewal(1, any, b),
        Refusal::Room,
    );
}

/// The TKEY that grants a request. Its other data is none, as after a repeated
/// adoption.
fn tkey(asked: Asked) -> Tkey {
    let mode = match asked {
        Asked::Ordinary => 3,
        Asked::Renewal => RENEWAL,
        Asked::Adoption => ADOPTION,
        Asked::Deletion => DELETION,
    };
    let mut tkey = Tkey::new("3.A.example.", mode, Vec::new());
    tkey.algorithm = name("hmac-sha512.");
    tkey
}

/// The reply that grants a request, to be signed.
fn reply(asked: Asked) -> Draft {
    let mut draft = Draft::empty().ask(&[0], TKEY, ANY);
    draft.flags = 0x8000;
    draft.answer.push(tkey(asked).octets());
    draft
}

fn answer(asked: Asked) -> Vec<u8> {
    reply(asked).signed("1.a.example.", 1600)
}

const TKEYS: [Asked; 3] = [Asked::Renewal, Asked::Adoption, Asked::Deletion];

fn moved(asked: Asked) -> Resolver {
    let keys = match asked {
        Asked::Ordinary => offered().keys,
        Asked::Renewal => Keys::Offered {
            adopted: first(),
            offered: key("3.A.example.", Algorithm::Sha512, 1000, 2000),
        },
        Asked::Adoption => Keys::Adopted(second_key()),
        Asked::Deletion => Keys::None,
    };
    Resolver { keys, ..offered() }
}

/// Asserts that the reply closes the request and moves the resolver on.
fn moves(asked: Asked, octets: &[u8]) {
    let mut resolver = open(offered(), asked);
    assert_eq!(resolver.reply(true, octets), Ok(false));
    assert_eq!(resolver, moved(asked));
}

/// Asserts that the reply closes the request and moves nothing.
fn stays(asked: Asked, octets: &[u8]) {
    let mut resolver = open(offered(), asked);
    assert_eq!(resolver.reply(true, octets), Ok(false));
    assert_eq!(resolver, offered());
}

#[test]
fn granted() {
    for asked in TKEYS {
        moves(asked, &answer(asked));
    }
    let mut first_offer = open(holding(), Asked::Renewal);
    assert_eq!(first_offer.reply(true, &answer(Asked::Renewal)), Ok(false));
    assert_eq!(first_offer, moved(Asked::Renewal));
}

#[test]
fn a_renewal_starts_the_turn_again_and_the_others_leave_it() {
    for asked in TKEYS {
        let mut resolver = open(offered(), asked);
        resolver.turn = Which::Offered;
        assert_eq!(resolver.reply(true, &answer(asked)), Ok(false));
        let is_renewal = asked == Asked::Renewal;
        let turn = if is_renewal {
            Which::Adopted
        } else {
            Which::Offered
        };
        assert_eq!(resolver.turn, turn);
    }
}

#[test]
fn what_a_granting_reply_may_have() {
    for asked in TKEYS {
        // Opcode, AA, TC, RD, RA and Z.
        let mut flags = reply(asked);
        flags.flags = 0xfff0;
        moves(asked, &flags.signed("1.a.example.", 1600));
        // No question.
        let mut bare = reply(asked);
        bare.questions.clear();
        moves(asked, &bare.signed("1.a.example.", 1600));
        // TKEY records elsewhere, good and ill formed.
        let mut elsewhere = reply(asked).add(tkey(asked).octets());
        elsewhere.authority.push(record(&[0], TKEY, ANY, 0, &[]));
        moves(asked, &elsewhere.signed("1.a.example.", 1600));
        // Class, TTL, key data and other data.
        let mut other = tkey(asked);
        (other.class, other.ttl) = (IN, 77);
        (other.key, other.other) = (vec![1; 9], vec![0xc0; 3]);
        let mut draft = reply(asked);
        draft.answer = vec![other.octets()];
        moves(asked, &draft.signed("1.a.example.", 1600));
        // Any TSIG, if the caller says that it is good.
        let tsig = Tsig {
            algorithm: name("x."),
            mac: 0,
            other: vec![0; 6],
            ..Tsig::by("nobody.", 0)
        };
        moves(asked, &reply(asked).with(&tsig));
    }
}

#[test]
fn the_offered_name_is_written_out() {
    let mut tkey = tkey(Asked::Renewal);
    tkey.owner = hex("01 33 c0 0c");
    tkey.algorithm = name("HMAC-sha512.");
    let mut draft = reply(Asked::Renewal);
    draft.questions.clear();
    let mut draft = draft.ask(&name("A.example."), TKEY, ANY);
    draft.answer = vec![tkey.octets()];
    moves(Asked::Renewal, &draft.signed("1.a.example.", 1600));
}

#[test]
fn reasons_not_to_move() {
    for asked in TKEYS {
        let bent = |bend: &dyn Fn(&mut Draft)| {
            let mut draft = reply(asked);
            bend(&mut draft);
            stays(asked, &draft.signed("1.a.example.", 1600));
        };
        bent(&|draft| draft.flags = 0);
        for rcode in 1..=15 {
            bent(&|draft| draft.flags |= rcode);
        }
        bent(&|draft| draft.answer.clear());
        bent(&|draft| draft.answer.push(tkey(asked).octets()));
        bent(&|draft| draft.answer.push(record(&[0], TKEY, ANY, 0, &[])));
        bent(&|draft| draft.authority = std::mem::take(&mut draft.answer));
        bent(&|draft| draft.additional = std::mem::take(&mut draft.answer));
        for error in [1, 2, 16, 17, 18, 65_535] {
            let tsig = Tsig {
                error,
                ..Tsig::by("1.a.example.", 1600)
            };
            stays(asked, &reply(asked).with(&tsig));
        }
        let tkeyed = |bend: &dyn Fn(&mut Tkey)| {
            let mut tkey = tkey(asked);
            bend(&mut tkey);
            bent(&|draft| draft.answer = vec![tkey.octets()]);
        };
        for error in [1, 2, 17, 18, 19, 20, 21, 3841, 65_535] {
            tkeyed(&|tkey| tkey.error = error);
        }
        for mode in [0, 1, 2, 3, 4, 5, 4097, 4098, 4099, 4100, 65_535] {
            if mode != tkey(asked).mode {
                tkeyed(&|tkey| tkey.mode = mode);
            }
        }
        tkeyed(&|tkey| tkey.algorithm = hex("c0 0c"));
        tkeyed(&|tkey| tkey.algorithm = name_of(256));
        let data = tkey(asked).data();
        for length in 0..data.len() {
            let ill = record(&[0], TKEY, ANY, 0, &data[..length]);
            bent(&|draft| draft.answer = vec![ill.clone()]);
        }
        let ill = record(&[0], TKEY, ANY, 0, &[&data[..], &[0]].concat());
        bent(&|draft| draft.answer = vec![ill.clone()]);
    }
}

#[test]
fn an_unknown_algorithm_moves_no_renewal() {
    for (asked, stays_so) in [
        (Asked::Renewal, true),
        (Asked::Adoption, false),
        (Asked::Deletion, false),
    ] {
        let mut tkey = tkey(asked);
        tkey.algorithm = name("hmac-sha1.");
        let mut draft = reply(asked);
        draft.answer = vec![tkey.octets()];
        let octets = draft.signed("1.a.example.", 1600);
        if stays_so {
            stays(asked, &octets);
        } else {
            moves(asked, &octets);
        }
    }
}

#[test]
fn an_ordinary_reply_moves_nothing() {
    for answered in [Asked::Ordinary, TKEYS[0], TKEYS[1], TKEYS[2]] {
        stays(Asked::Ordinary, &answer(answered));
    }
}

#[test]
fn renewal_is_due_on_partial_revoke_alone() {
    for asked in [Asked::Ordinary, TKEYS[0], TKEYS[1], TKEYS[2]] {
        for flags in [0x8009, 0x8000, 0] {
            let mut draft = reply(asked);
            draft.flags = flags;
            for error in [0, 9, 16, 17, 18, 3840, 3841, 3842] {
                let tsig = Tsig {
                    error,
                    ..Tsig::by("1.a.example.", 1600)
                };
                let mut resolver = open(offered(), asked);
                let due = resolver.reply(true, &draft.with(&tsig));
                let expected = error == 3841 && flags != 0;
                assert_eq!((due, resolver.open), (Ok(expected), None));
                if error != 0 {
                    assert_eq!(resolver, offered());
                }
            }
        }
    }
    // The TKEY's error is of no concern.
    let mut tkey = tkey(Asked::Renewal);
    tkey.error = 3841;
    let mut draft = reply(Asked::Renewal);
    draft.answer = vec![tkey.octets()];
    stays(Asked::Renewal, &draft.signed("1.a.example.", 1600));
}

#[test]
fn without_the_keys_it_needs() {
    let bare = [
        (Resolver::default(), Asked::Renewal),
        (Resolver::default(), Asked::Adoption),
        (holding(), Asked::Adoption),
    ];
    for (before, asked) in bare {
        let mut resolver = open(before.clone(), asked);
        assert_eq!(resolver.reply(true, &answer(asked)), Ok(false));
        assert_eq!(resolver, before);
    }
}

/// Asserts a refused reply, which leaves all as it is.
fn unread(resolver: &Resolver, good: bool, octets: &[u8], refusal: Refusal) {
    let mut after = resolver.clone();
    assert_eq!(after.reply(good, octets), Err(refusal));
    assert_eq!(after, *resolver);
}

#[test]
fn replies_refused() {
    let good = answer(Asked::Adoption);
    let waiting = &open(offered(), Asked::Adoption);
    let format = Refusal::Format;
    for length in 0..good.len() {
        unread(waiting, true, &good[..length], format);
    }
    unread(waiting, true, &[&good[..], &[0]].concat(), format);
    unread(
        waiting,
        true,
        &hex("1234 8000 0001 0000 0000 0000 c00c 00f9 00ff"),
        format,
    );
    unread(&offered(), true, &good, Refusal::Lost);
    let wrong = &Resolver {
        open: Some(Request {
            id: 0x1235,
            asked: Asked::Adoption,
        }),
        ..offered()
    };
    unread(wrong, true, &good, Refusal::WrongId);
    unread(waiting, false, &good, Refusal::Unsigned);
    unread(
        waiting,
        true,
        &reply(Asked::Adoption).octets(),
        Refusal::Unsigned,
    );
    // In order.
    unread(&offered(), false, &good[..12], format);
    unread(wrong, false, &good[..12], format);
    unread(&offered(), false, &good, Refusal::Lost);
    unread(wrong, false, &good, Refusal::WrongId);
}

#[test]
fn replies_of_65535_octets_and_one_more() {
    let padded = |length: usize| {
        let mut draft = reply(Asked::Deletion);
        let spare = length - draft.signed("1.a.example.", 1600).len() - 11;
        draft
            .authority
            .push(record(&[0], A, IN, 0, &vec![0; spare]));
        draft.signed("1.a.example.", 1600)
    };
    moves(Asked::Deletion, &padded(65_535));
    let waiting = open(offered(), Asked::Deletion);
    unread(&waiting, true, &padded(65_536), Refusal::Format);
}

#[test]
fn a_tsig_that_is_not_well_placed() {
    let asked = Asked::Renewal;
    let waiting = &open(offered(), asked);
    let tsig = Tsig::by("1.a.example.", 1600);
    let ill = [
        Tsig {
            class: IN,
            ..tsig.clone()
        },
        Tsig {
            ttl: 1,
            ..tsig.clone()
        },
        Tsig {
            algorithm: hex("c00c"),
            ..tsig.clone()
        },
    ];
    for ill in ill {
        unread(waiting, true, &reply(asked).with(&ill), Refusal::Unsigned);
    }
    let twice = reply(asked).add(tsig.octets()).with(&tsig);
    unread(waiting, true, &twice, Refusal::Unsigned);
    let not_last = reply(asked).add(tsig.octets()).add(key_record()).octets();
    unread(waiting, true, &not_last, Refusal::Unsigned);
    for section in 0..2 {
        let mut draft = reply(asked);
        match section {
            0 => draft.answer.push(tsig.octets()),
            _ => draft.authority.push(tsig.octets()),
        }
        unread(waiting, true, &draft.octets(), Refusal::Unsigned);
    }
}

/// Hands a request to the desk and its reply back, both TSIGs good.
fn exchange(
    resolver: &mut Resolver,
    table: &mut Table,
    time: u64,
    call: impl FnOnce(&mut Resolver, &mut [u8]) -> Result<Written, Refusal>,
) {
    let (octets, signer) = written(resolver, call);
    let key = match signer {
        Which::Adopted => resolver.adopted(),
        Which::Offered => resolver.offered(),
    };
    let tsig = Tsig {
        owner: key.unwrap().name.clone(),
        ..Tsig::by(".", time)
    };
    let (done, reply) = send(table, time, &with(octets, &tsig));
    let error = done.error;
    let tsig = Tsig { error, ..tsig };
    assert_eq!(resolver.reply(true, &with(reply, &tsig)), Ok(false));
}

/// Appends a TSIG to a message; there are fewer than 255 additional records.
fn with(mut message: Vec<u8>, tsig: &Tsig) -> Vec<u8> {
    message[11] += 1;
    message.extend(tsig.octets());
    message
}

#[test]
fn both_halves() {
    let (mut table, mut resolver) = (day(), holding());
    let record = key_record();
    let wish = Wish {
        algorithm: Algorithm::Sha256,
        expiration: 1600,
        ..wish(&[0], &record)
    };
    let renewal = |r: &mut Resolver, b: &mut [u8]| r.renewal(1, &wish, b);
    let adoption = |r: &mut Resolver, b: &mut [u8]| r.adoption(2, b);
    exchange(&mut resolver, &mut table, 1599, renewal);
    let next = key("2.a.example.", Algorithm::Sha256, 1599, 2199);
    assert_eq!(resolver.offered(), Some(&next));
    exchange(&mut resolver, &mut table, 1599, adoption);
    assert_eq!(resolver.keys, Keys::Adopted(next));
    assert_eq!(table.pairs[0].adopted().unwrap().serial, 2);
    // The desk adopts, but its reply is lost.
    exchange(&mut resolver, &mut table, 1700, renewal);
    let (octets, signer) = written(&mut resolver, adoption);
    assert_eq!(signer, Which::Adopted);
    let lost = with(octets, &Tsig::by("2.a.example.", 1700));
    assert_eq!(send(&mut table, 1700, &lost).0.error, 0);
    assert_eq!(table.pairs[0].adopted().unwrap().serial, 3);
    exchange(&mut resolver, &mut table, 1700, adoption);
    let last = key("3.a.example.", Algorithm::Sha256, 1700, 2300);
    assert_eq!(resolver.keys, Keys::Adopted(last));
    exchange(&mut resolver, &mut table, 1701, |r, b| r.deletion(3, b));
    assert_eq!(
        (resolver.keys, table.pairs[0].adopted()),
        (Keys::None, None)
    );
}
