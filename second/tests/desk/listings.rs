//! Loading and mending (CR 7).

use second::listing::{list, load, mend, Dropped, Refusal};
use second::script::Runner;
use second::{Keys, Table};

const CLOCK: &str = "clock\t1000\t1\n";
const PAIR: &str = "pair\t0161076578616d706c6500\t2\t600\t400\n";
const KEY: &str = "key\tadopted\t1\thmac-sha256\t1000\t1400\t1600\n";
const OTHER: &str = "pair\t016200\t3\t600\t400\n";

fn text(lines: &[&str]) -> Vec<u8> {
    lines.concat().into_bytes()
}

fn loaded(lines: &[&str]) -> Result<Table, Refusal> {
    load(&text(lines))
}

/// The lines that mending drops, and how many pairs it keeps.
fn mended(lines: &[&str]) -> (usize, Vec<(u64, u64)>) {
    let (table, dropped) = mend(&text(lines), 4096).expect("it is mended");
    assert!(table.keeps_rules());
    let dropped = dropped
        .iter()
        .map(|Dropped { line, reason }| (*line, *reason));
    (table.pairs.len(), dropped.collect())
}

#[test]
fn the_day_both_ways() {
    let day = text(&[CLOCK, PAIR, KEY]);
    let table = load(&day).expect("it loads");
    assert!(matches!(table.pairs[0].keys, Keys::Adopted(_)));
    assert_eq!(list(&table, day.len()), Ok(day.clone()));
    assert_eq!(list(&table, day.len() - 1), Err(Refusal::Room));
    assert_eq!(mend(&day, 0), Ok((table, Vec::new())));
}

#[test]
fn lines_that_do_not_read() {
    for (lines, line) in [
        (&[][..], 1),
        (&["clock\t1000\n"], 1),
        (&["clock\t01000\t1\n"], 1),
        (&["clock\t1000\t1"], 1),
        (&["clock\t18446744073709551616\t1\n"], 1),
        (&[CLOCK, "\n"], 2),
        (&[CLOCK, KEY], 2),
        (&[CLOCK, CLOCK], 2),
        (&[CLOCK, PAIR, KEY, "key\n"], 4),
        (&[CLOCK, "pair\t0161076578616D706c6500\t2\t600\t400\n"], 2),
        (&[CLOCK, "pair\t\t2\t600\t400\n"], 2),
        (&[CLOCK, "pair\t016\t2\t600\t400\n"], 2),
        (&[CLOCK, PAIR, KEY, "x"], 4),
    ] {
        assert_eq!(loaded(lines), Err(Refusal::Line(line)), "{lines:?}");
    }
    assert_eq!(mend(b"", 9), Err(Refusal::Line(1)));
    assert_eq!(mend(b"clock\t1\t0\n", 9), Err(Refusal::Table));
}

#[test]
fn rules_that_are_broken() {
    let waiting = "key\twaiting\t1\thmac-sha256\t1000\t1400\t1600\n";
    for lines in [
        &["clock\t281474976710656\t1\n"][..],
        &["clock\t1000\t0\n"],
        &[CLOCK, PAIR, KEY, PAIR],
        &[CLOCK, PAIR, waiting],
        &[CLOCK, PAIR, KEY, KEY],
        &[CLOCK, "pair\t00\t2\t600\t400\n"],
    ] {
        assert_eq!(loaded(lines), Err(Refusal::Table), "{lines:?}");
    }
}

#[test]
fn what_mending_drops() {
    assert_eq!(mended(&[CLOCK, KEY, PAIR, KEY]), (1, vec![(2, 18)]));
    assert_eq!(
        mended(&[CLOCK, PAIR, KEY, PAIR, KEY]),
        (1, vec![(4, 14), (5, 14)])
    );
    // 18 comes before 14, and 14 before 1.
    assert_eq!(
        mended(&[CLOCK, PAIR, KEY, PAIR, "key\n"]),
        (1, vec![(4, 18), (5, 18)])
    );
    assert_eq!(
        mended(&[CLOCK, PAIR, KEY, PAIR, KEY, KEY]),
        (1, vec![(4, 14), (5, 14), (6, 14)])
    );
    // A pair that is dropped does not keep a later one out.
    assert_eq!(
        mended(&[CLOCK, PAIR, KEY, KEY, PAIR, KEY, OTHER]),
        (2, vec![(2, 1), (3, 1), (4, 1)])
    );
    assert_eq!(
        mended(&[CLOCK, "\n", KEY, OTHER]),
        (1, vec![(2, 18), (3, 18)])
    );
    let many: Vec<String> = (0..66)
        .map(|number| format!("pair\t01{number:02x}00\t1\t600\t400\n"))
        .collect();
    let mut lines: Vec<&str> = vec![CLOCK];
    lines.extend(many.iter().map(String::as_str));
    assert_eq!(mended(&lines), (64, vec![(66, 15), (67, 15)]));
    assert_eq!(mend(&text(&lines), 1), Err(Refusal::Room));
}

#[test]
fn lines_of_a_script() {
    let hex = |lines: &[&str]| -> String {
        text(lines)
            .iter()
            .map(|octet| format!("{octet:02x}"))
            .collect()
    };
    let day = hex(&[CLOCK, PAIR, KEY]);
    let twice = hex(&[CLOCK, PAIR, KEY, PAIR]);
    let script = format!(
        "load {day}\nlist 9\nlist 1000\nload -\nload {twice}\nmend 0 {twice}\nmend 9 {twice}\nmend 9 -\nlist"
    );
    let (mut runner, mut out) = (Runner::new(), Vec::new());
    for line in script.lines() {
        runner.line(line.as_bytes(), &mut out);
    }
    let listing = [CLOCK, PAIR, KEY].concat();
    let expected = format!("0 0\n8 0\n{listing}18 1\n1 0\n8 0 0\n0 0 1\n4 14\n18 1 0\n{listing}");
    assert_eq!(String::from_utf8(out).expect("text"), expected);
}
