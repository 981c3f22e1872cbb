//! formats/SCRIPT.md and the rulings on the script text.

use second::script::{run, Runner};

use crate::build::*;

fn output(input: &[u8]) -> String {
    let mut output = Vec::new();
    run(&mut &input[..], &mut output).unwrap();
    String::from_utf8(output).unwrap()
}

fn print_hex(octets: &[u8]) -> String {
    octets.iter().map(|octet| format!("{octet:02x}")).collect()
}

const ENROL: &str = "enrol 1000 0161076578616d706c6500 600 400 256\n";

#[test]
fn the_day_lists_as_cr_7_says() {
    let listing = "clock\t1000\t1\n\
        pair\t0161076578616d706c6500\t2\t600\t400\n\
        key\tadopted\t1\thmac-sha256\t1000\t1400\t1600\n";
    let script = format!("list\nnew 5\nlist\n{ENROL}list\n");
    let expected = format!("clock\t0\t1\n0 0 0 0 0 0 - 0\nclock\t5\t1\n0 0 0 0 1 1 - 0\n{listing}");
    assert_eq!(output(script.as_bytes()), expected);
}

#[test]
fn waiting_keys_and_capitals_in_the_listing() {
    let request = Draft::renewal("1.a.example.");
    let request = print_hex(&request.signed("1.a.example.", 1200));
    let script = format!(
        "new 0\nenrol 1000 014107455841 6 4 5\nenrol 1000 014100 600 400 512\n\
         {ENROL}message 1200 good 00FF 65536 {request}\nrevoke 1200 1\nlist\n"
    );
    let output = output(script.as_bytes());
    let lines: Vec<&str> = output.lines().collect();
    assert_eq!(lines[1], "12 0 0 0 0 0 - 0");
    // Header 12, question 7, TKEY 13 + 10 + 13 + 16 + 2 + 26, KEY 8 + 10 + 6.
    assert!(lines[4].starts_with("0 123 0 0 2 1 123481000001000100000001"));
    let listing = [
        "clock\t1200\t1",
        "pair\t014100\t2\t600\t400",
        "key\tadopted\t1\thmac-sha512\t1000\t1200\t1600",
        "pair\t0161076578616d706c6500\t3\t600\t400",
        "key\tadopted\t1\thmac-sha256\t1000\t1200\t1600",
        "key\twaiting\t2\thmac-sha256\t1200\t1600\t1800",
    ];
    assert_eq!(lines[6..], listing);
}

#[test]
fn results() {
    let message = print_hex(&Draft::ordinary().signed("1.a.example.", 1000));
    let unknown = print_hex(&Draft::ordinary().signed("7.a.example.", 1000));
    let question = "017a076578616d706c65000006 0001".replace(' ', "");
    let script = format!(
        "{ENROL}message 1300 good - 0 {message}\nmessage 1300 bad - 12 {message}\n\
         message 1300 bad - 18446744073709551615 {message}\nlook {message}\nlook {unknown}\n\
         look -\nmessage 1300 good - 100 {unknown}\nissue 1300 1 512\nissue 1300 9 512\n\
         new 281472829227008\nrevoke 1299 1\nrevoke 01300 1\n"
    );
    let expected = format!(
        "0 0 0 0 1 1 - 0\n0 0 0 -300 1 1 - 0\n8 0 0 0 0 0 - 0\n\
         0 27 16 0 1 1 1234810900010000 00000000 {question} 0\n\
         0 0 0 0 1 1 - 0\n0 0 0 0 0 0 - 0\n4 0 0 0 0 0 - 0\n\
         0 27 17 0 0 0 1234810900010000 00000000 {question} 0\n\
         0 0 0 0 1 2 - 0\n9 0 0 0 0 0 - 0\n2 0 0 0 0 0 - 0\n3 0 0 0 0 0 - 0\n0 0 0 0 1 2 - 0\n"
    )
    .replace("00010000 00000000 ", "0001000000000000");
    assert_eq!(output(script.as_bytes()), expected);
}

#[test]
fn bad_lines() {
    let bad: [&[u8]; 42] = [
        b"",
        b" ",
        b"new",
        b"new ",
        b" new 1",
        b"new  1",
        b"new 1 ",
        b"new 1\r",
        b"new\t1",
        b"new +1",
        b"new -1",
        b"new -",
        b"new 0x1",
        b"new 1a",
        b"new 18446744073709551616",
        b"new 99999999999999999999999",
        b"new 1 2",
        b"New 1",
        b"NEW 1",
        b"list ",
        b"list x",
        b"look",
        b"look 0",
        b"look 0g",
        b"look --",
        b"look -0",
        b"look ",
        b"enrol 1000 0161 600 400 256 256",
        b"message 1 Good - 0 -",
        b"message 1 good - 0",
        b"message 1 good - - -",
        b"message 1 good - 0 - bad",
        b"message 1 good - 0 - -",
        b"message 1 good - 0 - Bad -",
        b"message 1 good - 0 - 1 -",
        b"message 1 good - 0 - - bad",
        b"message 1 good - 0 - bad 0",
        b"message 1 good - 0 - bad ",
        b"message 1 good - 0 - bad  -",
        b"message 1 good - 0 - bad - -",
        b"message 1 - 0 - bad -",
        b"\xff\xfe\x00",
    ];
    let mut runner = Runner::new();
    for (index, line) in bad.into_iter().enumerate() {
        let mut out = Vec::new();
        runner.line(line, &mut out);
        let expected = format!("bad line {}\n", index + 1);
        assert_eq!(String::from_utf8(out).unwrap(), expected);
    }
    assert_eq!(*runner.table(), second::Table::empty(0));
}

const HOLD: &str = "hold 01310161076578616d706c6500 256 1000 1600\n";

#[test]
fn the_resolver_to_begin_with() {
    let nothing = "resolver\t-\t-\tadopted\n";
    let script = "keys\nadoption 1 65535\ndeletion 1 0\nreply bad 000000000000000000000000\nkeys\n";
    let expected = format!("{nothing}6 0 - -\n6 0 - -\n1 -\n{nothing}");
    assert_eq!(output(script.as_bytes()), expected);
}

#[test]
fn the_resolver_lists() {
    let script =
        format!("{HOLD}note 65535\nkeys\ndeletion 007 81\nkeys\nhold - 512 0 4294967295\nkeys\n");
    let expected = "0\n0\n\
        resolver\tordinary\t65535\tadopted\n\
        key\tadopted\t01310161076578616d706c6500\thmac-sha256\t1000\t1600\n\
        0 81 adopted 000700000001000000000001\
        01310161076578616d706c650000f900ff01310161076578616d706c650000f900ff00000000001d\
        0b686d61632d7368613235360000000000000000000005000000000000\n\
        resolver\tdeletion\t7\tadopted\n\
        key\tadopted\t01310161076578616d706c6500\thmac-sha256\t1000\t1600\n\
        0\n\
        resolver\t-\t-\tadopted\n\
        key\tadopted\t-\thmac-sha512\t0\t4294967295\n";
    assert_eq!(output(script.as_bytes()), expected);
}

#[test]
fn a_renewal_and_its_adoption_in_lines() {
    let tkey = Tkey::new("2.a.example.", RENEWAL, Vec::new());
    let mut draft = Draft::empty();
    draft.flags = 0x8000;
    draft.answer.push(tkey.octets());
    let granted = print_hex(&draft.signed("1.a.example.", 1000));
    let revoked = Tsig {
        error: 3841,
        ..Tsig::by("1.a.example.", 1000)
    };
    let revoked = print_hex(&draft.with(&revoked));
    let record = print_hex(&key_record());
    let script = format!(
        "{HOLD}note 4660\nreply good {revoked}\nrenewal 4660 - 384 1 2 {record} 106\n\
         renewal 4660 - 384 1 2 {record} 107\nreply bad {granted}\nreply good {granted}\n\
         reply good {granted}\nadoption 1 512\nadoption 2 512\nkeys\n"
    );
    let output = output(script.as_bytes());
    let lines: Vec<&str> = output.lines().collect();
    assert_eq!(lines[..4], ["0", "0", "0 due", "5 0 - -"]);
    assert!(
        lines[4].starts_with("0 107 adopted 1234000000010000000000020000f900ff0000f900ff00000000")
    );
    assert_eq!(lines[5..8], ["3 -", "0 -", "1 -"]);
    assert!(lines[8].starts_with("0 107 adopted 0001"));
    assert!(lines[9].starts_with("0 107 offered 0002"));
    let listing = [
        "resolver\tadoption\t2\tadopted",
        "key\tadopted\t01310161076578616d706c6500\thmac-sha256\t1000\t1600",
        "key\toffered\t01320161076578616d706c6500\thmac-sha256\t1000\t2000",
    ];
    assert_eq!(lines[10..], listing);
}

#[test]
fn bad_lines_of_the_resolver() {
    let long = format!("hold {} 256 0 0", "00".repeat(256));
    let bad = [
        "keys ",
        "keys 1",
        "Keys",
        "note",
        "note 65536",
        "note -",
        "note 1 1",
        "hold 00 257 0 0",
        "hold 00 0 0 0",
        "hold 00 256 4294967296 0",
        "hold 00 256 0 4294967296",
        "hold 0 256 0 0",
        "hold 00 256 0",
        "hold 00 256 0 0 0",
        long.as_str(),
        "renewal 65536 - 256 0 0 - 0",
        "renewal 0 0 256 0 0 - 0",
        "renewal 0 - 13 0 0 - 0",
        "renewal 0 - 256 4294967296 0 - 0",
        "renewal 0 - 256 0 4294967296 - 0",
        "renewal 0 - 256 0 0 0 0",
        "renewal 0 - 256 0 0 - 18446744073709551616",
        "renewal 0 - 256 0 0 -",
        "renewal 0 - 256 0 0 - 0 0",
        "adoption 65536 0",
        "adoption 0",
        "adoption 0 0 0",
        "adoption 0 -",
        "deletion 65536 0",
        "deletion 0",
        "deletion 0 0 0",
        "reply",
        "reply good",
        "reply good 0",
        "reply Good -",
        "reply good - -",
    ];
    let mut runner = Runner::new();
    let mut out = Vec::new();
    runner.line(HOLD.trim_end().as_bytes(), &mut out);
    runner.line(b"note 9", &mut out);
    let before = runner.resolver().clone();
    for (index, line) in bad.into_iter().enumerate() {
        out.clear();
        runner.line(line.as_bytes(), &mut out);
        let expected = format!("bad line {}\n", index + 3);
        assert_eq!(String::from_utf8(out.clone()).unwrap(), expected);
    }
    assert_eq!(*runner.resolver(), before);
    let long = format!("hold {} 256 0 0", "00".repeat(255));
    out.clear();
    runner.line(long.as_bytes(), &mut out);
    assert_eq!(out, b"0\n");
}

#[test]
fn each_half_leaves_the_other_alone() {
    let script = format!("{ENROL}{HOLD}new 7\nkeys\nlist\n");
    let expected = "0 0 0 0 1 1 - 0\n0\n0 0 0 0 0 0 - 0\nresolver\t-\t-\tadopted\n\
        key\tadopted\t01310161076578616d706c6500\thmac-sha256\t1000\t1600\nclock\t7\t1\n";
    assert_eq!(output(script.as_bytes()), expected);
}

#[test]
fn good_lines_of_odd_looks() {
    let script = "new 000000000000000000000000000000007\nrevoke 7 18446744073709551615\n\
        enrol 7 - 1 1 1\nlook aBCDef\n";
    let expected = "0 0 0 0 0 0 - 0\n9 0 0 0 0 0 - 0\n12 0 0 0 0 0 - 0\n4 0 0 0 0 0 - 0\n";
    assert_eq!(output(script.as_bytes()), expected);
}

/// CR 6: the place in look and message; every other result has place 0.
#[test]
fn places() {
    let itself = "123400000001000000000000c00c00010001";
    let cut = "1234000000010000000000000000f900";
    let left_over = "12340000000000000000000000";
    let script = format!(
        "look {itself}\nmessage 9 good - 0 {cut}\nmessage 9 bad 00 512 {left_over}\n\
         look {}\nmessage 8 good - 0 {itself}\n",
        &itself[..22]
    );
    let expected = "6 0 0 0 0 0 - 12\n6 0 0 0 0 0 - 16\n6 0 0 0 0 0 - 12\n\
        4 0 0 0 0 0 - 0\n3 0 0 0 0 0 - 0\n";
    assert_eq!(output(script.as_bytes()), expected);
}

#[test]
fn a_bad_last_word_changes_nothing() {
    let script = format!("{ENROL}issue 2000 1 x\nmessage 3000 good - 9 0\nlist\n");
    let output = output(script.as_bytes());
    assert!(output.starts_with("0 0 0 0 1 1 - 0\nbad line 2\nbad line 3\nclock\t1000\t1\npair"));
}

#[test]
fn ends_of_input() {
    assert_eq!(output(b""), "");
    assert_eq!(output(b"\n"), "bad line 1\n");
    assert_eq!(output(b"list"), "clock\t0\t1\n");
    assert_eq!(output(b"list\n"), "clock\t0\t1\n");
    assert_eq!(
        output(b"list\n\nlist"),
        "clock\t0\t1\nbad line 2\nclock\t0\t1\n"
    );
}

#[test]
fn lines_of_200000_octets_and_one_more() {
    // `new ` and so many digits.
    let new = |digits: usize| [b"new ".to_vec(), vec![b'0'; digits]].concat();
    let longest = new(199_996);
    assert_eq!(longest.len(), 200_000);
    let (good, bad) = ("0 0 0 0 0 0 - 0\n", "bad line 1\n");
    assert_eq!(output(&longest), good);
    assert_eq!(output(&new(199_997)), bad);
    let followed = |line: Vec<u8>| output(&[&line[..], b"\nlist"].concat());
    assert_eq!(followed(longest), format!("{good}clock\t0\t1\n"));
    assert_eq!(followed(new(199_997)), format!("{bad}clock\t0\t1\n"));
    assert_eq!(followed(new(700_000)), format!("{bad}clock\t0\t1\n"));
    // The Runner knows it too, however the line comes.
    let mut runner = Runner::new();
    let mut out = Vec::new();
    runner.line(&new(199_997), &mut out);
    runner.too_long(&mut out);
    runner.line(b"list", &mut out);
    assert_eq!(out, b"bad line 1\nbad line 2\nclock\t0\t1\n");
}

#[test]
fn the_runner_shows_only_the_reply_of_this_call() {
    // A long reply, then a refusal and a call without a reply.
    let denied = print_hex(&Draft::ordinary().signed("7.a.example.", 1000));
    let script = format!("message 5 good - 100 {denied}\nmessage 5 good - 5 {denied}\nissue 5 1 1");
    let output = output(script.as_bytes());
    let lines: Vec<&str> = output.lines().collect();
    assert_eq!(lines[1..], ["8 0 0 0 0 0 - 0", "9 0 0 0 0 0 - 0"]);
}
