//! CR 3: the octets under a signature, the TSIG put on, read back and removed.

use second::script::run;
use second::signing::{digest_reply, digest_request, finish, read_back, remove, Fields, Refusal};

use crate::build::*;

/// Header with ID 1234 and RD, and z.example. SOA IN.
const QUERY: &str = "1234 0100 0001 0000 0000 0000  017a 076578616d706c65 00 0006 0001";

/// RFC 8945 §4.3.3 by hand, for the fields below: 1.a.example. in lower case,
/// class ANY, TTL 0, hmac-sha256., 48 bits of 1000, fudge 300, error 18, other
/// data of 6 octets.
const VARIABLES: &str = "0131 0161 076578616d706c65 00  00ff 00000000  0b686d61632d736861323536 00
    0000000003e8 012c 0012 0006 000000000515";

/// The TSIG's data before and after its MAC (RFC 8945 §4.2).
const DATA_FRONT: &str = "0b484d41432d736861323536 00 0000000003e8 012c";
const DATA_BACK: &str = "abcd 0012 0006 000000000515";

const KEY_NAME: &[u8] = b"\x011\x01A\x07Example\0";
const ALGORITHM: &[u8] = b"\x0bHMAC-sha256\0";

fn fields() -> Fields<'static> {
    Fields {
        name: KEY_NAME,
        algorithm: ALGORITHM,
        time_signed: 1000,
        fudge: 300,
        original_id: 0xabcd,
        error: 18,
        other_data: &[0, 0, 0, 0, 5, 0x15],
    }
}

/// One of the calls that write octets.
type Call<'a> = &'a dyn Fn(&[u8], &Fields, &[u8], &mut [u8]) -> Result<usize, Refusal>;

fn request(octets: &[u8], fields: &Fields, _: &[u8], buffer: &mut [u8]) -> Result<usize, Refusal> {
    digest_request(octets, fields, buffer)
}

const CALLS: [Call; 3] = [&request, &digest_reply, &finish];
const WITH_MAC: [Call; 2] = [&digest_reply, &finish];

/// What a call writes into a buffer of `room`, which is else left alone.
fn written(
    call: Call,
    octets: &[u8],
    fields: &Fields,
    mac: &[u8],
    room: usize,
) -> Result<Vec<u8>, Refusal> {
    let mut buffer = vec![FILL; room];
    let result = call(octets, fields, mac, &mut buffer);
    let length = result.unwrap_or(0);
    assert!(buffer[length..].iter().all(|&octet| octet == FILL));
    buffer.truncate(length);
    result.map(|_| buffer)
}

fn removed(octets: &[u8], room: usize) -> Result<Vec<u8>, Refusal> {
    let call = |octets: &[u8], _: &Fields, _: &[u8], buffer: &mut [u8]| remove(octets, buffer);
    written(&call, octets, &fields(), &[], room)
}

fn refused(octets: &[u8]) -> Refusal {
    read_back(octets).expect_err("a refusal")
}

#[test]
fn a_request_by_hand() {
    // The original ID stands in place of the message's.
    let query = hex(QUERY);
    let wanted = [&[0xab, 0xcd], &query[2..], &hex(VARIABLES)].concat();
    assert_eq!(written(CALLS[0], &query, &fields(), &[], 512), Ok(wanted));
}

#[test]
fn a_reply_by_hand() {
    let mut reply = hex(QUERY);
    reply[2] |= 0x80;
    let rest = [&[0xab, 0xcd], &reply[2..], &hex(VARIABLES)].concat();
    // RFC 8945 §4.3.1: the MAC's length goes in front, of an empty MAC as well.
    let wanted = [&hex("0003 a1a2a3"), &rest[..]].concat();
    let mac = [0xa1, 0xa2, 0xa3];
    assert_eq!(written(CALLS[1], &reply, &fields(), &mac, 512), Ok(wanted));
    let wanted = [&hex("0000"), &rest[..]].concat();
    assert_eq!(written(CALLS[1], &reply, &fields(), &[], 512), Ok(wanted));
}

#[test]
fn a_finished_message_by_hand() {
    let query = hex(QUERY);
    let front = hex("1234 0100 0001 0000 0000 0001");
    let wanted = [
        &front,
        &query[12..],
        KEY_NAME,
        // Type, class, TTL, and a length of 13 + 8 + 2 + 2 + 6 + 6.
        &hex("00fa 00ff 00000000 0025"),
        &hex(DATA_FRONT),
        &hex("0002 5a5b"),
        &hex(DATA_BACK),
    ];
    let finished = written(CALLS[2], &query, &fields(), &[0x5a, 0x5b], 512);
    assert_eq!(finished, Ok(wanted.concat()));
}

#[test]
fn only_letters_are_lowered() {
    let name = b"\x09@AZ[`az{\xc1\0";
    let fields = Fields {
        name,
        algorithm: &[0],
        time_signed: (1 << 48) - 1,
        fudge: 0xffff,
        original_id: 0,
        error: 0,
        other_data: &[],
    };
    let wanted = [
        &hex("000000000000000000000000"),
        &b"\x09@az[`az{\xc1\0"[..],
        &hex("00ff 00000000 00 ffffffffffff ffff 0000 0000"),
    ];
    let digest = written(CALLS[0], &[0; 12], &fields, &[], 512);
    assert_eq!(digest, Ok(wanted.concat()));
}

/// Finishes a message, reads the fields back and removes them again.
fn round_trip(message: &[u8], fields: &Fields, mac: &[u8]) {
    let finished = written(CALLS[2], message, fields, mac, 65_535).unwrap();
    let tsig = read_back(&finished).unwrap();
    assert_eq!(tsig.name.octets(), fields.name);
    assert_eq!(tsig.algorithm, fields.algorithm);
    assert_eq!(tsig.time_signed, fields.time_signed);
    assert_eq!(tsig.fudge, fields.fudge);
    assert_eq!(tsig.mac, mac);
    assert_eq!(tsig.original_id, fields.original_id);
    assert_eq!(tsig.error, fields.error);
    assert_eq!(tsig.other_data, fields.other_data);
    assert_eq!(removed(&finished, message.len()), Ok(message.to_vec()));
}

#[test]
fn round_trips() {
    let opt = record(&[0], 41, 1232, 0, &[0, 10, 0, 2, 7, 7]);
    let mut compressed = Draft::ordinary();
    let owner = [0xc0, 0x0c];
    compressed.answer = vec![record(&owner, A, IN, 60, &[127, 0, 0, 1])];
    compressed.authority = vec![record(b"\x01x\xc0\x0e", A, IN, 60, &[])];
    let mut many = Draft::ordinary();
    // The low octet of the count runs over.
    many.additional = vec![record(&[0], A, IN, 0, &[]); 255];
    let messages = [
        Draft::empty(),
        Draft::ordinary(),
        Draft::ordinary().add(opt.clone()).add(opt),
        Draft::renewal("1.a.example."),
        compressed,
        many,
    ];
    let long = name_of(255);
    for message in messages {
        let message = message.octets();
        for mac in [0, 1, 16, 32, 63, 64] {
            round_trip(&message, &fields(), &vec![0x5a; mac]);
        }
        let greatest = Fields {
            name: &long,
            algorithm: &long,
            time_signed: (1 << 48) - 1,
            fudge: u16::MAX,
            original_id: u16::MAX,
            error: u16::MAX,
            other_data: &[0xee; 3000],
        };
        round_trip(&message, &greatest, &[0x5a; 64]);
        let least = Fields {
            name: &[0],
            algorithm: &[0],
            time_signed: 0,
            fudge: 0,
            original_id: 0,
            error: 0,
            other_data: &[],
        };
        round_trip(&message, &least, &[]);
    }
}

#[test]
fn a_compressed_owner_is_written_out() {
    let mut tsig = Tsig::by("1.a.example.", 1000);
    tsig.owner = b"\x011\xc0\x0c".to_vec();
    let draft = Draft::empty().ask(&name("A.example."), SOA, IN);
    let octets = draft.with(&tsig);
    assert_eq!(
        read_back(&octets).unwrap().name.octets(),
        name("1.A.example.")
    );
    assert_eq!(removed(&octets, 512), Ok(draft.octets()));
}

#[test]
fn reading_back_knows_no_mac_size() {
    let tsig = Tsig {
        mac: 700,
        ..Tsig::by("1.a.example.", 1000)
    };
    let octets = Draft::ordinary().with(&tsig);
    assert_eq!(read_back(&octets).unwrap().mac, [0x5a; 700]);
    assert_eq!(removed(&octets, 512), Ok(Draft::ordinary().octets()));
}

#[test]
fn the_id_stays_where_it_is() {
    // Tsig::by has original ID 1234.
    let mut draft = Draft::ordinary();
    draft.id = 0x9999;
    let octets = draft.signed("1.a.example.", 1000);
    assert_eq!(read_back(&octets).unwrap().original_id, 0x1234);
    assert_eq!(removed(&octets, 512), Ok(draft.octets()));
}

/// Messages that no call takes without a TSIG, a TSIG among them.
fn not_to_be_signed() -> Vec<Vec<u8>> {
    let tsig = Tsig::by("1.a.example.", 1000).octets();
    let ill = Tsig {
        class: IN,
        ..Tsig::by("1.a.example.", 1000)
    };
    let mut answered = Draft::ordinary();
    answered.answer.push(tsig.clone());
    let mut left_over = Draft::ordinary().octets();
    left_over.push(0);
    vec![
        Draft::ordinary().add(tsig.clone()).octets(),
        Draft::ordinary().add(tsig).add(key_record()).octets(),
        Draft::ordinary().with(&ill),
        answered.octets(),
        left_over,
        hex("1234 0100 0001 0000 0000 0000"),
        hex("1234 0100 0001 0000 0000 0000 c00c 0006 0001"),
    ]
}

#[test]
fn size_and_format() {
    for call in CALLS {
        let refusal = |octets: &[u8]| written(call, octets, &fields(), &[], 512).unwrap_err();
        assert_eq!(refusal(&[]), Refusal::Size);
        assert_eq!(refusal(&[0; 11]), Refusal::Size);
        assert_eq!(refusal(&[0; 65_536]), Refusal::Size);
        assert_eq!(refusal(&[0; 65_535]), Refusal::Format);
        for octets in not_to_be_signed() {
            assert_eq!(refusal(&octets), Refusal::Format);
        }
        assert!(written(call, &[0; 12], &fields(), &[], 512).is_ok());
    }
}

#[test]
fn nothing_well_placed_to_read_back() {
    for (length, refusal) in [
        (0, Refusal::Size),
        (11, Refusal::Size),
        (12, Refusal::Format),
        (65_535, Refusal::Format),
        (65_536, Refusal::Size),
    ] {
        assert_eq!(refused(&vec![0; length]), refusal);
        assert_eq!(removed(&vec![0; length], 0), Err(refusal));
    }
    let mut messages = not_to_be_signed();
    // The first has its TSIG where it belongs.
    assert!(read_back(&messages[0]).is_ok());
    messages.remove(0);
    let tsig = Tsig::by("1.a.example.", 1000);
    let data = tsig.data();
    messages.extend([
        Draft::ordinary().octets(),
        Draft::ordinary().with(&tsig)[..80].to_vec(),
        Draft::ordinary()
            .add(tsig.octets())
            .add(tsig.octets())
            .octets(),
        Draft::ordinary().with(&Tsig {
            ttl: 1,
            ..tsig.clone()
        }),
        Draft::ordinary().with(&Tsig {
            algorithm: vec![0xc0, 0x0c],
            ..tsig.clone()
        }),
        Draft::ordinary()
            .add(record(&tsig.owner, TSIG, ANY, 0, &data[..data.len() - 1]))
            .octets(),
        Draft::ordinary()
            .add(record(
                &tsig.owner,
                TSIG,
                ANY,
                0,
                &[&data[..], &[0]].concat(),
            ))
            .octets(),
    ]);
    for octets in messages {
        assert_eq!(refused(&octets), Refusal::Format);
        assert_eq!(removed(&octets, 0), Err(Refusal::Format));
    }
}

#[test]
fn names_that_are_none() {
    let longest = name_of(255);
    let too_long = name_of(256);
    let wide = [&[64][..], &[b'k'; 64], &[0]].concat();
    let bad: [&[u8]; 8] = [
        &[],
        b"\x01k",
        b"\x02k\0",
        b"\x01k\0\0",
        &[0xc0, 0x0c],
        b"\x01k\xc0\x0c",
        &wide,
        &too_long,
    ];
    let query = hex(QUERY);
    for call in CALLS {
        for name in bad {
            for fields in [
                Fields { name, ..fields() },
                Fields {
                    algorithm: name,
                    ..fields()
                },
            ] {
                let result = written(call, &query, &fields, &[], 512);
                assert_eq!(result, Err(Refusal::Name));
            }
        }
        for name in [&[0][..], b"\x01K\0", &longest] {
            let algorithm = name;
            let fields = Fields {
                name,
                algorithm,
                ..fields()
            };
            assert!(written(call, &query, &fields, &[], 1024).is_ok());
        }
    }
}

#[test]
fn times_and_mac_sizes() {
    let query = hex(QUERY);
    for call in CALLS {
        let at = |time_signed: u64| {
            let fields = Fields {
                time_signed,
                ..fields()
            };
            written(call, &query, &fields, &[], 512).err()
        };
        assert_eq!(at((1 << 48) - 1), None);
        assert_eq!(at(1 << 48), Some(Refusal::Time));
        assert_eq!(at(u64::MAX), Some(Refusal::Time));
    }
    for call in WITH_MAC {
        let with = |length| written(call, &query, &fields(), &vec![1; length], 512).err();
        assert_eq!(with(64), None);
        assert_eq!(with(65), Some(Refusal::MacSize));
        assert_eq!(with(70_000), Some(Refusal::MacSize));
    }
}

#[test]
fn room() {
    let query = hex(QUERY);
    for call in CALLS {
        let length = written(call, &query, &fields(), &[7; 16], 512)
            .unwrap()
            .len();
        let result = |room| written(call, &query, &fields(), &[7; 16], room);
        assert_eq!(result(length - 1), Err(Refusal::Room));
        assert_eq!(result(0), Err(Refusal::Room));
        assert_eq!(result(length).unwrap().len(), length);
    }
    let signed = Draft::ordinary().signed("1.a.example.", 1000);
    let length = Draft::ordinary().octets().len();
    assert_eq!(removed(&signed, length - 1), Err(Refusal::Room));
    assert!(removed(&signed, length).is_ok());
}

#[test]
fn other_data_of_65536_octets_has_no_room() {
    let query = hex(QUERY);
    let other = vec![9; 65_536];
    for call in CALLS {
        let with = |length: usize| {
            let fields = Fields {
                other_data: &other[..length],
                ..fields()
            };
            written(call, &query, &fields, &[], 200_000)
        };
        assert_eq!(with(65_536), Err(Refusal::Room));
    }
    // A digest may be longer than a message, a finished message not.
    let fields = Fields {
        other_data: &other[1..],
        ..fields()
    };
    let length = query.len() + hex(VARIABLES).len() - 6 + 65_535;
    let digest = written(CALLS[0], &query, &fields, &[], length);
    assert_eq!(digest.unwrap().len(), length);
    let digest = written(CALLS[0], &query, &fields, &[], length - 1);
    assert_eq!(digest, Err(Refusal::Room));
    let finished = written(CALLS[2], &query, &fields, &[], 200_000);
    assert_eq!(finished, Err(Refusal::Room));
}

#[test]
fn finished_messages_of_65535_octets_and_one_more() {
    let least = written(CALLS[2], &hex(QUERY), &fields(), &[], 512).unwrap();
    let padded = |length: usize| {
        let mut draft = Draft::ordinary();
        // A record has 11 octets beside its data.
        let data = vec![0xab; length - least.len() - 11];
        draft.answer.push(record(&[0], 10, IN, 0, &data));
        draft.octets()
    };
    let finished = written(CALLS[2], &padded(65_535), &fields(), &[], 100_000).unwrap();
    assert_eq!(finished.len(), 65_535);
    assert_eq!(removed(&finished, 65_535), Ok(padded(65_535)));
    let finished = written(CALLS[2], &padded(65_536), &fields(), &[], 100_000);
    assert_eq!(finished, Err(Refusal::Room));
    // The digest of the same message is done.
    assert!(written(CALLS[0], &padded(65_536), &fields(), &[], 100_000).is_ok());
}

#[test]
fn the_order_of_refusals() {
    let query = hex(QUERY);
    let signed = Draft::ordinary().signed("1.a.example.", 1000);
    let mut bad = Fields {
        name: &[0xc0, 0x0c],
        time_signed: 1 << 48,
        ..fields()
    };
    for call in WITH_MAC {
        let refusal = |octets: &[u8], fields: &Fields, mac: &[u8]| {
            written(call, octets, fields, mac, 0).unwrap_err()
        };
        let mac = [0; 65];
        assert_eq!(refusal(&query[..11], &bad, &mac), Refusal::Size);
        assert_eq!(refusal(&signed, &bad, &mac), Refusal::Format);
        bad.name = &[0xc0, 0x0c];
        assert_eq!(refusal(&query, &bad, &mac), Refusal::Name);
        (bad.name, bad.algorithm) = (KEY_NAME, &[]);
        assert_eq!(refusal(&query, &bad, &mac), Refusal::Name);
        bad.algorithm = ALGORITHM;
        assert_eq!(refusal(&query, &bad, &mac), Refusal::Time);
        assert_eq!(refusal(&query, &fields(), &mac), Refusal::MacSize);
        assert_eq!(refusal(&query, &fields(), &mac[..64]), Refusal::Room);
    }
    let refusal = |octets: &[u8], fields: &Fields| {
        let mut none = [];
        digest_request(octets, fields, &mut none).unwrap_err()
    };
    assert_eq!(refusal(&query[..11], &bad), Refusal::Size);
    assert_eq!(refusal(&signed, &bad), Refusal::Format);
    assert_eq!(refusal(&query, &bad), Refusal::Time);
    bad.name = &[];
    assert_eq!(refusal(&query, &bad), Refusal::Name);
    assert_eq!(refusal(&query, &fields()), Refusal::Room);
}

fn output(script: &str) -> String {
    let mut output = Vec::new();
    run(&mut script.as_bytes(), &mut output).unwrap();
    String::from_utf8(output).unwrap()
}

const HEADER: &str = "000a00000000000000000000";

#[test]
fn lines() {
    let digest = "0007 00000000000000000000 016b00 00ff 00000000 016100 0000000003e8 012c 0000";
    let digest = digest.replace(' ', "");
    // The TSIG's data is a name of 3 octets, 6 + 2, 2 + 2 of MAC, and 6.
    let tsig = "014b00 00fa 00ff 00000000 0015 016100 0000000003e8 012c 0002 0a0b 0007 0000 0000";
    let finished = format!("000a 0000 0000 0000 0000 0001 {tsig}").replace(' ', "");
    let names = "014B00 016100 1000 300 7 0";
    let script = format!(
        "digest-request {HEADER} {names} - 36\n\
         digest-request {HEADER} {names} - 35\n\
         digest-reply {HEADER} {names} fF 100001 0a0B\n\
         digest-reply {HEADER} {names} - 18446744073709551615 -\n\
         finish {HEADER} {names} - 46 0a0b\n\
         finish {HEADER} {names} - 45 0a0b\n\
         read-back {finished}\n\
         read-back {HEADER}\n\
         remove {finished} 12\n\
         remove {finished} 11\n\
         remove {HEADER} 12\n\
         remove - 12\n\
         finish {HEADER} - 016100 1000 300 7 0 - 100 -\n\
         digest-request {HEADER} 00 00 281474976710656 300 7 0 - 100\n\
         finish {HEADER} 00 00 0 0 0 0 - 100 {}\n",
        "00".repeat(65)
    );
    let expected = format!(
        "0 36 {digest}0000\n8 0 -\n\
         0 41 00020a0b{digest}0001ff\n\
         0 38 0000{digest}0000\n\
         0 46 {finished}\n8 0 -\n\
         0 014b00 016100 1000 300 0a0b 7 0 -\n\
         6 - - 0 0 - 0 0 -\n\
         0 12 {HEADER}\n8 0 -\n6 0 -\n4 0 -\n\
         12 0 -\n2 0 -\n16 0 -\n"
    );
    assert_eq!(output(&script), expected);
}

#[test]
fn bad_lines() {
    let bad = [
        "digest-request",
        "digest-request 00 00 00 0 0 0 0 -",
        "digest-request 00 00 00 0 0 0 0 - 0 -",
        "digest-request 0 00 00 0 0 0 0 - 0",
        "digest-request 00 0 00 0 0 0 0 - 0",
        "digest-request 00 00 256 0 0 0 0 - 0",
        "digest-request 00 00 00 - 0 0 0 - 0",
        "digest-request 00 00 00 18446744073709551616 0 0 0 - 0",
        "digest-request 00 00 00 0 65536 0 0 - 0",
        "digest-request 00 00 00 0 0 65536 0 - 0",
        "digest-request 00 00 00 0 0 0 65536 - 0",
        "digest-request 00 00 00 0 0 0 0 0 0",
        "digest-request 00 00 00 0 0 0 0 - -",
        "digest-request 00 00 00 0 0 0 0 - 18446744073709551616",
        "digest-reply 00 00 00 0 0 0 0 - 0",
        "digest-reply 00 00 00 0 0 0 0 - 0 0",
        "digest-reply 00 00 00 0 0 0 0 - 0 - -",
        "digest-reply 00 00 00 0 65536 0 0 - 0 -",
        "finish 00 00 00 0 0 0 0 - 0",
        "finish 00 00 00 0 0 0 0 - 0 ",
        "finish 00 00 00 0 0 0 0  0 -",
        "finish 00 00 00 0 0 0 65536 - 0 -",
        "finish 00 00 00 0 0 0 0 - 0 - 0 0",
        "Finish 00 00 00 0 0 0 0 - 0 -",
        "read-back",
        "read-back 0",
        "read-back - -",
        "read_back -",
        "remove",
        "remove -",
        "remove - -",
        "remove 0 0",
        "remove - 0 0",
    ];
    let expected: String = (1..=bad.len()).map(|n| format!("bad line {n}\n")).collect();
    assert_eq!(output(&bad.join("\n")), expected);
}

#[test]
fn table_and_resolver_are_left_alone() {
    let lists = "list\nkeys\n";
    let script = format!(
        "enrol 1000 016100 600 400 256\nhold 016b00 256 1 2\nnote 9\n{lists}\
         digest-request {HEADER} 00 00 0 0 0 0 - 100\nread-back {HEADER}\n{lists}"
    );
    let output = output(&script);
    let lines: Vec<&str> = output.lines().collect();
    assert_eq!(lines[3..8], lines[10..15]);
}
