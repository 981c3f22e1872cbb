//! Closing (CR 9): a pair goes and the others keep their order, the floor, what comes back, and
//! what a closed pair's key signs.

use super::{cross, list, two_words, Group};
use crate::desk::{Pair, Want};
use crate::maker::{Maker, TOP};

pub fn groups() -> Vec<Group> {
    vec![
        Group {
            name: "close",
            weight: 1,
            items: || {
                cross(
                    &["the first", "a middle one", "the last"],
                    &["of some", "of 64"],
                )
            },
            run: close,
        },
        Group {
            name: "close and enrol again",
            weight: 2,
            items: || list(&AGAIN),
            run: again,
        },
        Group {
            name: "a closed pair's key",
            weight: 3,
            items: || list(&["adopted", "after its suffix is back"]),
            run: gone,
        },
        Group {
            name: "close refused",
            weight: 2,
            items: || list(&REFUSED),
            run: refused,
        },
    ]
}

/// What a closing leaves of these pairs.
fn without(pairs: &[Pair], number: u64) -> Vec<Pair> {
    let mut left = pairs.to_vec();
    left.remove(number as usize - 1);
    left
}

/// Closes the pair, and looks at all that is left.
fn closed(maker: &mut Maker, number: u64) -> bool {
    let (before, time) = (maker.table.clone(), maker.tick());
    let next = before.pairs[number as usize - 1].next;
    let seen = maker.close(time, number);
    Want::Handed.fits(&seen)
        && maker.table.clock == time
        && maker.table.floor == before.floor.max(next)
        && maker.table.pairs == without(&before.pairs, number)
}

fn close(maker: &mut Maker, item: &str) -> bool {
    let (which, many) = two_words(item);
    match many {
        "of 64" => maker.fill(),
        _ => {
            maker.with_space();
            let time = maker.tick();
            while maker.count() < 3 {
                maker.enrol_fresh(time);
            }
        }
    }
    let number = match which {
        "the first" => 1,
        "a middle one" => maker.rng.within(2, maker.count() - 1),
        _ => maker.count(),
    };
    closed(maker, number)
}

const AGAIN: [&str; 4] = ["at once", "in other case", "another suffix", "twice"];

fn again(maker: &mut Maker, item: &str) -> bool {
    let number = maker.any_pair();
    // Its serials are past the floor: the floor rises.
    while maker.pair(number).next <= maker.table.floor {
        maker.issued(number);
    }
    let suffix = maker.pair(number).suffix.clone();
    let back = match item {
        "in other case" => maker.rng.mixed_case(&suffix),
        "another suffix" => maker.fresh_suffix(5),
        _ => suffix,
    };
    let turns = if item == "twice" { 2 } else { 1 };
    let mut number = number;
    (0..turns).all(|_| {
        let was = closed(maker, number);
        let (time, floor) = (maker.tick(), maker.table.floor);
        let seen = maker.enrol(time, &back, (600, 400), 256);
        number = maker.count();
        was && seen.number == 0
            && (seen.pair, seen.serial) == (number, floor)
            && maker.pair(number).next == floor + 1
    })
}

fn gone(maker: &mut Maker, item: &str) -> bool {
    let s = maker.live();
    let ask = maker.ordinary(&s);
    let was = closed(maker, s.pair);
    if item == "after its suffix is back" {
        let time = maker.tick();
        maker.enrol(time, &s.suffix, (600, 400), s.algorithm);
    }
    let time = maker.table.clock;
    let call = maker.call(time);
    was && maker.asks(&call, &ask, Want::BadKey) && Want::Handed.fits(&maker.look(&ask.octets()))
}

const REFUSED: [&str; 5] = ["TIME", "CLOCK", "pair 0", "one too many", "2^64 - 1"];

fn refused(maker: &mut Maker, item: &str) -> bool {
    let clock = maker.clock_above_zero();
    let time = maker.tick();
    let pairs = maker.table.pairs.clone();
    let count = maker.count();
    let (time, pair, number) = match item {
        "TIME" => (TOP, 0, 2),
        "CLOCK" => (clock - 1, 0, 3),
        "pair 0" => (time, 0, 9),
        "one too many" => (time, count + 1, 9),
        _ => (time, u64::MAX, 9),
    };
    Want::Refused(number).fits(&maker.close(time, pair)) && maker.table.pairs == pairs
}
