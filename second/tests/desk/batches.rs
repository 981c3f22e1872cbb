//! CR 4: several messages in one call.

use second::batch::{Item, Span, MOST_ITEMS};
use second::calls::TIME_LIMIT;
use second::script::run;
use second::{batch, enrol, Done, Refusal, Table};

use crate::build::*;

type Results = Vec<Result<Done, Refusal>>;

const KEY_1: &str = "1.a.example.";
const OFFER: [u8; 4] = [0xde, 0xad, 0xbe, 0xef];
const NO_OCTETS: Span = Span { from: 0, size: 0 };

/// Good messages laid one after another, the offer behind each.
fn laid(messages: &[(u64, Vec<u8>)]) -> (Vec<u8>, Vec<Item>) {
    let mut lent = Vec::new();
    let mut lay = |octets: &[u8]| {
        let from = lent.len() as u64;
        lent.extend_from_slice(octets);
        let size = octets.len() as u64;
        Span { from, size }
    };
    let item = |(time, octets): &(u64, Vec<u8>)| Item {
        time: *time,
        good: true,
        message: lay(octets),
        offer: lay(&OFFER),
        fits: false,
        record: NO_OCTETS,
    };
    let items = messages.iter().map(item).collect();
    (lent, items)
}

/// Asserts a batch refused whole: no octet is written and the clock stays.
fn refused(table: &Table, lent: &[u8], items: &[Item], refusal: Refusal) {
    let mut after = table.clone();
    let mut replies = [FILL; 512];
    assert_eq!(batch(&mut after, lent, items, &mut replies), Err(refusal));
    assert_eq!(after, *table);
    assert_eq!(replies, [FILL; 512]);
}

/// A batch on the day's table, asserted to be its items called one by one,
/// each lent the room that is left. The rest of the buffer is left alone.
fn done(messages: &[(u64, Vec<u8>)], room: usize) -> (Results, Table) {
    let (lent, items) = laid(messages);
    let mut table = two_pairs();
    let mut replies = vec![FILL; room];
    let results = batch(&mut table, &lent, &items, &mut replies).expect("done");
    let mut by_one = two_pairs();
    let mut expected = vec![FILL; room];
    let mut left = &mut expected[..];
    for ((time, octets), result) in messages.iter().zip(&results) {
        let one = message(&mut by_one, *time, true, octets, &OFFER, left);
        assert_eq!(*result, one);
        left = &mut left[one.map_or(0, |done| done.length)..];
    }
    assert_eq!(results.len(), messages.len());
    assert_eq!((replies, &table), (expected, &by_one));
    (results, table)
}

/// 01's day with b.example. beside a.example.
fn two_pairs() -> Table {
    let mut table = day();
    let done = enrol(&mut table, 1000, &name("b.example."), 600, 400, 256);
    assert_eq!(done, with_key(2, 1));
    table
}

fn ordinary(key: &str, time: u64) -> (u64, Vec<u8>) {
    (time, Draft::ordinary().signed(key, time))
}

fn renewal(key: &str, time: u64) -> (u64, Vec<u8>) {
    (time, Draft::renewal(key).signed(key, time))
}

fn adoption(new: &str, key: &str, time: u64) -> (u64, Vec<u8>) {
    (time, Draft::adoption(new, key).signed(key, time))
}

fn deletion(key: &str, time: u64) -> (u64, Vec<u8>) {
    (time, Draft::deletion(key).signed(key, time))
}

fn errors(results: &Results) -> Vec<u16> {
    results.iter().map(|result| result.unwrap().error).collect()
}

#[test]
fn none_to_64_items_and_no_more() {
    for count in [0, 1, 2, 63, 64] {
        let messages = vec![ordinary(KEY_1, 1100); count];
        let (results, table) = done(&messages, 0);
        assert_eq!(results, vec![with_key(1, 1); count]);
        assert_eq!(table.clock, if count == 0 { 1000 } else { 1100 });
    }
    for count in [65, 66, 128, 256, 257, 320] {
        let (lent, items) = laid(&vec![ordinary(KEY_1, 1100); count]);
        refused(&day(), &lent, &items, Refusal::Batch);
    }
}

#[test]
fn table_then_batch_then_all_else() {
    let mut broken = day();
    broken.pairs[0].fresh = 0;
    let outside = Item {
        time: TIME_LIMIT,
        good: true,
        message: Span { from: 0, size: 1 },
        offer: NO_OCTETS,
        fits: false,
        record: NO_OCTETS,
    };
    refused(&broken, &[], &[], Refusal::Table);
    refused(&broken, &[], &[outside; 65], Refusal::Table);
    // The others would be refused with TIME, CLOCK and SIZE, or move the clock.
    for time in [TIME_LIMIT, 999, 1000, 1100] {
        let inside = Item {
            time,
            message: NO_OCTETS,
            ..outside
        };
        refused(&day(), &[], &[inside; 65], Refusal::Batch);
        for items in [[inside, outside], [outside, inside]] {
            refused(&day(), &[], &items, Refusal::Batch);
        }
    }
}

#[test]
fn spans_inside_and_outside() {
    let lent = Draft::ordinary().octets();
    let end = lent.len() as u64;
    let whole = Span { from: 0, size: end };
    let item = |message: Span, offer: Span, record: Span| Item {
        time: 1000,
        good: true,
        message,
        offer,
        fits: false,
        record,
    };
    let size_of = |message: Span, offer: Span, record: Span| {
        let items = [item(message, offer, record)];
        let results = batch(&mut day(), &lent, &items, &mut []);
        results.map(|results| results[0].err())
    };
    let inside = [(0, 0), (0, end), (1, end - 1), (end - 1, 1), (end, 0)];
    for (from, size) in inside {
        let span = Span { from, size };
        assert_eq!(size_of(whole, span, NO_OCTETS), Ok(None));
        assert_eq!(size_of(whole, NO_OCTETS, span), Ok(None));
        assert!(size_of(span, NO_OCTETS, NO_OCTETS).is_ok());
    }
    let most = u64::MAX;
    let outside = [
        (0, end + 1),
        (1, end),
        (end, 1),
        (end + 1, 0),
        (0, most),
        (most, 0),
        // Sums of 2^64 and a little more.
        (1, most),
        (most, 1),
        (most, 2),
        (end, most),
        (most, most),
        (most - end + 1, end),
        // What is inside if it is cut to 32 bits.
        (1 << 32, end),
        (0, (1 << 32) + end),
    ];
    for (from, size) in outside {
        let span = Span { from, size };
        let bent = [
            item(span, NO_OCTETS, NO_OCTETS),
            item(whole, span, NO_OCTETS),
            item(whole, NO_OCTETS, span),
        ];
        for bent in bent {
            refused(&day(), &lent, &[bent], Refusal::Batch);
            // Wherever such an item stands.
            for place in [0, 31, 63] {
                let mut items = [item(whole, whole, whole); MOST_ITEMS];
                items[place] = bent;
                refused(&day(), &lent, &items, Refusal::Batch);
            }
        }
    }
}

#[test]
fn spans_may_overlap() {
    let (time, request) = renewal(KEY_1, 1100);
    let whole = Span {
        from: 0,
        size: request.len() as u64,
    };
    let item = |offer: Span| Item {
        time,
        good: true,
        message: whole,
        offer,
        fits: false,
        record: NO_OCTETS,
    };
    let within = Span { from: 12, size: 3 };
    let items = [item(within), item(whole), item(NO_OCTETS)];
    let mut table = day();
    let mut replies = vec![FILL; 2000];
    let results = batch(&mut table, &request, &items, &mut replies).unwrap();
    let mut left = &replies[..];
    let mut data = Vec::new();
    for result in results {
        let (reply, rest) = left.split_at(result.unwrap().length);
        data.push(tkey_answer(reply).1);
        left = rest;
    }
    // Key data stands after the algorithm's 13 octets and 14 more.
    assert!(data[0][25..].starts_with(&sized(&request[12..15])));
    assert!(data[1][25..].starts_with(&sized(&request)));
    // An empty offer is TKEY error 2.
    assert_eq!(data[2][23..25], [0, 2]);
    assert_eq!(table.pairs[0].waiting().unwrap().serial, 3);
}

#[test]
fn a_renewal_its_adoption_and_a_message_with_the_new_key() {
    let key_2 = "2.a.example.";
    let messages = [
        renewal(KEY_1, 1100),
        ordinary(KEY_1, 1100),
        adoption(key_2, KEY_1, 1101),
        ordinary(KEY_1, 1101),
        ordinary(key_2, 1102),
        deletion(key_2, 1103),
        ordinary(key_2, 1103),
    ];
    let (results, table) = done(&messages, 2000);
    assert_eq!(errors(&results), [0, 3841, 0, 17, 0, 0, 17]);
    assert_eq!(results[4], with_key(1, 2));
    assert!(table.pairs[0].adopted().is_none());
    assert_eq!(table.clock, 1103);
}

#[test]
fn pairs_beside_each_other() {
    let other = "1.b.example.";
    let messages = [
        renewal(KEY_1, 1100),
        renewal(other, 1100),
        adoption("2.b.example.", other, 1100),
        ordinary("2.b.example.", 1100),
        ordinary(KEY_1, 1100),
    ];
    let (results, table) = done(&messages, 2000);
    assert_eq!(errors(&results), [0, 0, 0, 0, 3841]);
    assert_eq!(results[3], with_key(2, 2));
    assert_eq!(table.pairs[0].waiting().unwrap().serial, 2);
    assert!(table.pairs[1].waiting().is_none());
}

/// 27 octets of a denial, and 125 of a renewal's reply.
#[test]
fn the_room_that_is_left() {
    let denied = ordinary("9.a.example.", 1100);
    let messages = [denied.clone(), renewal(KEY_1, 1100), denied];
    let lengths = |room: usize| -> Vec<Result<usize, Refusal>> {
        let (results, table) = done(&messages, room);
        let granted = results[1].is_ok();
        assert_eq!(table.pairs[0].waiting().is_some(), granted);
        let length = |result: &Result<Done, Refusal>| result.map(|done| done.length);
        results.iter().map(length).collect()
    };
    let no_room = Err(Refusal::Room);
    assert_eq!(lengths(0), [no_room; 3]);
    assert_eq!(lengths(26), [no_room; 3]);
    assert_eq!(lengths(27), [Ok(27), no_room, no_room]);
    // What the second does not fit into is left to the third.
    assert_eq!(lengths(54), [Ok(27), no_room, Ok(27)]);
    assert_eq!(lengths(151), [Ok(27), no_room, Ok(27)]);
    assert_eq!(lengths(152), [Ok(27), Ok(125), no_room]);
    assert_eq!(lengths(178), [Ok(27), Ok(125), no_room]);
    assert_eq!(lengths(179), [Ok(27), Ok(125), Ok(27)]);
    assert_eq!(lengths(100_000), [Ok(27), Ok(125), Ok(27)]);
}

#[test]
fn each_item_at_its_own_time() {
    let short = |time: u64| (time, Vec::new());
    let messages = [
        ordinary(KEY_1, 999),
        ordinary(KEY_1, 1399),
        ordinary(KEY_1, 1398),
        ordinary(KEY_1, TIME_LIMIT),
        ordinary(KEY_1, 1400),
        short(1500),
        ordinary(KEY_1, 1499),
        renewal(KEY_1, 1599),
        ordinary(KEY_1, 1600),
    ];
    let (results, table) = done(&messages, 2000);
    let refusals: Vec<u8> = results
        .iter()
        .map(|result| result.err().map_or(0, Refusal::number))
        .collect();
    assert_eq!(refusals, [3, 0, 3, 2, 0, 4, 3, 0, 0]);
    let error = |place: usize| results[place].unwrap().error;
    assert_eq!((error(1), error(4), error(7), error(8)), (0, 3841, 0, 17));
    assert_eq!(table.clock, 1600);
    assert_eq!(table.pairs[0].waiting().unwrap().inception, 1599);
}

#[test]
fn each_refusal_between_items_that_are_done() {
    let good = Draft::ordinary().signed(KEY_1, 1100);
    let mut response = Draft::ordinary();
    response.flags |= 0x8000;
    let long = vec![0; 65_536];
    let left_over = [&good[..], &[0]].concat();
    let denied = Draft::ordinary().signed("9.a.example.", 1100);
    let bad = [
        (TIME_LIMIT, &good, Refusal::Time),
        (1099, &good, Refusal::Clock),
        (1100, &long, Refusal::Size),
        (1100, &left_over, Refusal::Format(good.len())),
        (1100, &response.octets(), Refusal::NotQuery),
        (1100, &denied, Refusal::Room),
    ];
    let mut messages = vec![(1100, good.clone())];
    let mut expected = vec![with_key(1, 1)];
    for (time, octets, refusal) in bad {
        messages.extend([(time, octets.clone()), (1100, good.clone())]);
        expected.extend([Err(refusal), with_key(1, 1)]);
    }
    assert_eq!(done(&messages, 26).0, expected);
    // An offer is too long from 1025 octets on.
    let lent = [&good[..], &[0; 1025]].concat();
    let item = |size: u64| Item {
        time: 1100,
        good: true,
        message: Span {
            from: 0,
            size: good.len() as u64,
        },
        offer: Span { from: 9, size },
        fits: false,
        record: NO_OCTETS,
    };
    let items = [item(1024), item(1025), item(1024)];
    let results = batch(&mut day(), &lent, &items, &mut []).unwrap();
    assert_eq!(
        results,
        [with_key(1, 1), Err(Refusal::Offer), with_key(1, 1)]
    );
}

/// CR 6: places are counted from the item's first octet, and an octet is
/// missing where the item ends, whatever is lent behind it.
#[test]
fn places_are_in_the_item() {
    let before = Draft::ordinary().signed(KEY_1, 1100);
    let good = Draft::ordinary().octets();
    // Behind 12 octets of header, 11 of the name and 4 more.
    assert_eq!(good.len(), 27);
    let lent = [&before[..], &good, &good].concat();
    let at = before.len() as u64;
    let item = |from: u64, size: u64| Item {
        time: 1100,
        good: true,
        message: Span { from, size },
        offer: NO_OCTETS,
        fits: false,
        record: NO_OCTETS,
    };
    for skipped in [at, at + 27] {
        let sizes: Vec<u64> = (12..=27).collect();
        let items: Vec<Item> = sizes.iter().map(|&size| item(skipped, size)).collect();
        let results = batch(&mut day(), &lent, &items, &mut []).unwrap();
        for (size, result) in sizes.into_iter().zip(results) {
            let expected = match size {
                27 => Ok(Done::default()),
                _ => Err(Refusal::Format(size as usize)),
            };
            assert_eq!(result, expected);
        }
    }
    // Octets left over are those of the next message.
    let items = [item(0, at + 1), item(at, 54), item(0, at)];
    let results = batch(&mut day(), &lent, &items, &mut []).unwrap();
    let left_over = |place: usize| Err(Refusal::Format(place));
    let expected = [left_over(before.len()), left_over(27), with_key(1, 1)];
    assert_eq!(results, expected);
}

#[test]
fn each_verdict_is_its_items_own() {
    let (lent, mut items) = laid(&vec![ordinary(KEY_1, 1100); 3]);
    items[1].good = false;
    let results = batch(&mut day(), &lent, &items, &mut [0; 27]).unwrap();
    assert_eq!(errors(&results), [0, 16, 0]);
}

/// A reply has at most 65,535 octets, however much room is left.
#[test]
fn replies_of_more_than_65535_octets_together_only() {
    let answered = |size: usize| {
        let mut tkey = Tkey::new(".", 1, Vec::new());
        tkey.owner = vec![0xc0, 12];
        tkey.key = vec![7; size];
        let draft = Draft::empty().ask(&name_of(255), TKEY, ANY);
        (1100, draft.add(tkey.octets()).signed(KEY_1, 1100))
    };
    // Header 12, question 259, TKEY 255 + 10 + 13 + 16 and the key data.
    let most = 65_535 - 565;
    let messages = [answered(most), answered(most + 1), answered(30_000)];
    let (results, _) = done(&messages, 65_535 + 30_565);
    assert_eq!(results[0].unwrap().length, 65_535);
    assert_eq!(results[1], Err(Refusal::Room));
    assert_eq!(results[2].unwrap().length, 30_565);
    let (results, _) = done(&messages, 65_535 + 30_564);
    assert_eq!(results[2], Err(Refusal::Room));
}

const ENROL: &str = "enrol 1000 0161076578616d706c6500 600 400 256\n";

fn output(script: &str) -> String {
    let mut output = Vec::new();
    run(&mut script.as_bytes(), &mut output).unwrap();
    String::from_utf8(output).unwrap()
}

fn print_hex(octets: &[u8]) -> String {
    octets.iter().map(|octet| format!("{octet:02x}")).collect()
}

#[test]
fn the_line_of_a_batch() {
    let passed = Draft::ordinary().signed(KEY_1, 1000);
    let denied = Draft::ordinary().signed("7.a.example.", 1000);
    let lent = print_hex(&[&passed[..], &denied].concat());
    let (size, at) = (denied.len(), passed.len());
    let reply = "123481090001000000000000017a076578616d706c650000060001";
    let script = format!(
        "{ENROL}batch 54 {lent} 1300 good 0 {size} 0 0 bad 0 0 \
         1300 good {at} {size} 0 0 good 0 9 1299 good 0 {size} 0 0 bad 0 0 \
         1300 bad 0 {size} 0 0 bad 0 0 1300 bad 0 {size} 0 0 good 0 0\nlist\n"
    );
    let expected = format!(
        "0 0 0 0 1 1 - 0\n0 5\n0 0 0 -300 1 1 - 0\n0 27 17 0 0 0 {reply} 0\n\
         3 0 0 0 0 0 - 0\n0 27 16 0 1 1 {reply} 0\n8 0 0 0 0 0 - 0\nclock\t1300\t1\n"
    );
    assert!(output(&script).starts_with(&expected));
}

#[test]
fn lines_of_batches_with_little_in_them() {
    let nothing = "5 good 0 0 0 0 bad 0 0";
    let items = |count: usize| vec![nothing; count].join(" ");
    let script = format!(
        "batch 0 -\nbatch 18446744073709551615 00\nbatch 000 - {}\nbatch 9 - {}\n\
         batch 9 - 7 bad 0 1 0 0 bad 0 0\nbatch 9 - 7 bad 0 0 0 0 bad 1 0\n\
         batch 9 aB {nothing} 9 good 18446744073709551615 1 0 0 good 0 0\nlist\n",
        items(2),
        items(65),
    );
    let short = "4 0 0 0 0 0 - 0\n";
    let expected = format!("0 0\n0 0\n0 2\n{short}{short}17 0\n17 0\n17 0\n17 0\nclock\t5\t1\n");
    assert_eq!(output(&script), expected);
}

/// The example of the change requests' script text.
#[test]
fn the_papers_example() {
    let request = "1234000000010000000000000000f900ff";
    let script = format!(
        "{ENROL}batch 20 {request}c00c 1200 bad 0 17 0 0 bad 0 0 1201 bad 0 17 0 0 bad 0 0 \
         1202 bad 0 18 0 0 bad 0 0 1100 bad 19 0 19 0 bad 0 0\n\
         batch 20 {request} 1300 bad 0 17 17 1 bad 0 0\nlist\n"
    );
    let expected = "0 0 0 0 1 1 - 0\n0 4\n\
         0 17 0 0 0 0 1234800500010000000000000000f900ff 0\n\
         8 0 0 0 0 0 - 0\n6 0 0 0 0 0 - 17\n3 0 0 0 0 0 - 0\n17 0\nclock\t1202\t1\n";
    assert!(output(&script).starts_with(expected));
}

#[test]
fn bad_lines_of_batches() {
    let bad = [
        "batch",
        "batch 0",
        "batch 0 ",
        "batch 0 - ",
        "batch - -",
        "batch 0 0",
        "batch 0 0g",
        "batch 18446744073709551616 -",
        "Batch 0 -",
        "batch 0 - 5",
        "batch 0 - 5 good",
        "batch 0 - 5 good 0 0 0",
        // An item's words before CR 10, and up to all but one.
        "batch 0 - 5 good 0 0 0 0",
        "batch 0 - 5 good 0 0 0 0 bad",
        "batch 0 - 5 good 0 0 0 0 bad 0",
        "batch 0 - 5 good 0 0 0 0 bad 0 0 5",
        "batch 0 - 5 good 0 0 0 0 bad 0 0 ",
        "batch 0 - 5 good 0 0 0 0 bad 0 0 5 good 0 0 0 0 bad 0",
        "batch 0 - 5 good 0 0 0 0 bad 0 0  5 good 0 0 0 0 bad 0 0",
        "batch 0 - 5 Good 0 0 0 0 bad 0 0",
        "batch 0 - 5 good 0 0 0 0 Bad 0 0",
        "batch 0 - 5 good 0 0 0 0 1 0 0",
        "batch 0 - good 5 0 0 0 0 bad 0 0",
        "batch 0 - 5 good bad 0 0 0 0 0 0",
        "batch 0 - - good 0 0 0 0 bad 0 0",
        "batch 0 - 5 good - 0 0 0 bad 0 0",
        "batch 0 - 5 good 0 -1 0 0 bad 0 0",
        "batch 0 - 5 good 0 0 18446744073709551616 0 bad 0 0",
        "batch 0 - 5 good 0 0 0 18446744073709551616 bad 0 0",
        "batch 0 - 5 good 0 0 0 0 bad 18446744073709551616 0",
        "batch 0 - 5 good 0 0 0 0 bad 0 18446744073709551616",
        "batch 0 - 5 good 0 0 0 0 bad - 0",
        "batch 0 - 5 good 0 0 0 0 bad 0 0 6 good 0 0 0 0 bad 0 x",
        // Three items of six words are no two of nine.
        "batch 0 - 5 good 0 0 0 0 5 good 0 0 0 0 5 good 0 0 0 0",
    ];
    let script = bad.join("\n") + "\nlist";
    let expected: String = (1..=bad.len()).map(|n| format!("bad line {n}\n")).collect();
    assert_eq!(output(&script), expected + "clock\t0\t1\n");
    // One that does not read is not counted as an item.
    let many =
        "batch 0 -".to_string() + &" 5 good 0 0 0 0 bad 0 0".repeat(64) + " 5 good 0 0 0 0 bad 0 x";
    assert_eq!(output(&many), "bad line 1\n");
}

/// As many items as a line of 200,000 octets holds.
#[test]
fn a_line_full_of_items() {
    let line = |zeros: usize| "batch ".to_string() + &"0".repeat(zeros) + " -";
    let items = " 0 bad 0 0 0 0 bad 0 0".repeat(9_000);
    let short = 200_000 - line(0).len() - items.len();
    assert_eq!(output(&(line(short) + &items)), "17 0\n");
    assert_eq!(output(&(line(short + 1) + &items)), "bad line 1\n");
}
