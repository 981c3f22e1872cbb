//! Times of sides that take turns.

use std::hint::black_box;
use std::time::Instant;

/// Turns of a short call; one that takes longer gets fewer.
pub const LEAST_TURNS: usize = 21;
/// What the slowest side may take, in nanoseconds, before the turns are fewer.
const ENOUGH: i64 = 1_000_000_000;

/// Nanoseconds: the first quartile, the median and the third quartile.
pub type Figures = [i64; 3];

/// One call's nanoseconds.
pub fn timed<T>(call: impl FnOnce() -> T) -> i64 {
    let from = Instant::now();
    black_box(call());
    from.elapsed().as_nanos() as i64
}

fn figures(mut times: Vec<i64>) -> Figures {
    times.sort_unstable();
    [1, 2, 3].map(|quarter| times[(times.len() - 1) * quarter / 4])
}

/// The sides, turn by turn, after a tenth as many turns that do not count.
pub fn in_turns<const SIDES: usize>(
    most: usize,
    mut turn: impl FnMut() -> [i64; SIDES],
) -> [Figures; SIDES] {
    let slowest = turn().into_iter().max().map_or(1, |slowest| slowest.max(1));
    let turns = ((ENOUGH / slowest) as usize).clamp(LEAST_TURNS, most.max(LEAST_TURNS)) | 1;
    for _ in 0..turns / 10 {
        turn();
    }
    let turns: Vec<[i64; SIDES]> = (0..turns).map(|_| turn()).collect();
    std::array::from_fn(|side| figures(turns.iter().map(|turn| turn[side]).collect()))
}

/// A median with its quartiles.
pub fn shown(figures: Figures) -> String {
    let (unit, digits, name) = match figures[1] {
        ..1_000 => (1.0, 0, "ns"),
        1_000..1_000_000 => (1e3, 2, "µs"),
        _ => (1e6, 2, "ms"),
    };
    let [first, median, third] = figures.map(|time| format!("{:.digits$}", time as f64 / unit));
    format!("{median} {name} ({first}–{third})")
}

/// How many times as long the first takes, by their medians.
pub fn ratio(one: Figures, other: Figures) -> f64 {
    one[1] as f64 / other[1].max(1) as f64
}
