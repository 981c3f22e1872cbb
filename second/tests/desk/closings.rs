//! Closing (CR 9): which pair goes, which floor stays, and where pairs start
//! that are enrolled later.

use crate::build::name;
use second::{close, enrol, Done, Refusal, Table};

fn three() -> Table {
    let mut table = Table::empty(1000);
    for suffix in ["a.", "b.", "c."] {
        enrol(&mut table, 1000, &name(suffix), 600, 400, 256).expect("enrolled");
    }
    for (pair, next_serial) in table.pairs.iter_mut().zip([5, 9, 7]) {
        pair.next_serial = next_serial;
    }
    table
}

fn suffixes(table: &Table) -> Vec<Vec<u8>> {
    table.pairs.iter().map(|pair| pair.suffix.clone()).collect()
}

#[test]
fn the_row_goes_and_the_floor_stays() {
    for (number, left, floor) in [
        (1, ["b.", "c."], 5),
        (2, ["a.", "c."], 9),
        (3, ["a.", "b."], 7),
    ] {
        let mut table = three();
        assert_eq!(close(&mut table, 1100, number), Ok(Done::default()));
        assert_eq!(suffixes(&table), left.map(name));
        assert_eq!((table.clock, table.floor), (1100, floor));
    }
    let mut table = three();
    for number in [2, 1, 1] {
        close(&mut table, 1100, number).expect("closed");
    }
    assert_eq!((table.pairs.len(), table.floor), (0, 9));
}

#[test]
fn refusals_leave_all_but_the_clock() {
    for (time, number, refusal) in [
        (1 << 48, 1, Refusal::Time),
        (999, 1, Refusal::Clock),
        (1100, 0, Refusal::NoPair),
        (1100, 4, Refusal::NoPair),
    ] {
        let mut table = three();
        assert_eq!(close(&mut table, time, number), Err(refusal));
        assert_eq!((table.pairs.len(), table.floor), (3, 1));
    }
}

#[test]
fn later_pairs_start_at_the_floor() {
    let mut table = three();
    close(&mut table, 1100, 2).expect("closed");
    let answer = enrol(&mut table, 1100, &name("b."), 600, 400, 256).expect("enrolled");
    assert_eq!((answer.pair, answer.serial), (3, 9));
    assert_eq!(table.pairs[2].next_serial, 10);
    table.floor = (1 << 32) - 1;
    let answer = enrol(&mut table, 1100, &name("d."), 600, 400, 256).expect("enrolled");
    assert_eq!(answer.serial, (1 << 32) - 1);
    table.floor = 1 << 32;
    let refused = enrol(&mut table, 1100, &name("e."), 600, 400, 256);
    assert_eq!(refused, Err(Refusal::Spent));
    table.floor += 1;
    let refused = enrol(&mut table, 1100, &name("e."), 600, 400, 256);
    assert_eq!(refused, Err(Refusal::Table));
}
