//! The morning queue by the proved code and by plain Rust, both in one run on one
//! input; `measure/queue.sh` runs it.
//!
//!     queue times TURNS           medians and quartiles of every mix, the sides taking turns
//!     queue growth TURNS FILE     how the cost grows, and a drawing of it
//!     queue mixes                 the mixes, one word each
//!     queue message               an ordinary update in hexadecimal
//!     queue count MIX SIDE TURNS  one side alone, for callgrind
//!
//! Numbers, answers, replies and tables of both sides are compared before anything
//! is timed or counted.

#[path = "../../tests/both/mod.rs"]
mod both;
mod growth;
mod jobs;
mod times;

use both::support::words::hex_or_none;
use both::{agree, Job, Side};
use jobs::{Kind, Mix};
use std::hint::black_box;
use std::process::ExitCode;
use std::time::Instant;
use times::{in_turns, ratio, shown, timed, Figures, LEAST_TURNS};

/// Kept apart, so that callgrind can count what is in them.
#[inline(never)]
fn queue_ours(side: &mut Side, job: &Job) -> u64 {
    side.ours(job)
}

#[inline(never)]
fn queue_plain(side: &mut Side, job: &Job) -> u64 {
    side.plain(job)
}

/// Ours first.
fn measure(mix: &Mix, turns: usize) -> [Figures; 2] {
    agree(&mix.table, &mix.job, mix.word);
    let start = Side::new(&mix.table, mix.job.room);
    let (mut ours, mut plain) = (start.clone(), start.clone());
    in_turns(turns, || {
        ours.words = start.words;
        let one = timed(|| queue_ours(&mut ours, black_box(&mix.job)));
        plain.words = start.words;
        let other = timed(|| queue_plain(&mut plain, black_box(&mix.job)));
        [one, other]
    })
}

/// For a second, so that the processor runs at its speed.
fn warm_up(mix: &Mix) {
    let mut side = Side::new(&mix.table, mix.job.room);
    let from = Instant::now();
    while from.elapsed().as_secs() < 1 {
        black_box(side.plain(black_box(&mix.job)));
    }
}

fn print_times(turns: usize) {
    let mixes = jobs::all();
    warm_up(&mixes[0]);
    println!(
        "Medians and quartiles, {turns} turns of the two sides; of a batch that takes over {} µs fewer, at least {LEAST_TURNS}.",
        1_000_000 / turns.max(1)
    );
    println!("The table is put back before each turn, outside the time; everything else is warm.");
    let [nothing] = in_turns(turns, || [timed(|| ())]);
    println!(
        "The clock's own cost is in each figure: {}.",
        shown(nothing)
    );
    for (kind, head) in [
        (Kind::Ordinary, "ordinary mixes"),
        (Kind::Other, "all others"),
    ] {
        println!("\n| a batch: {head} | ours | plain Rust | ratio |");
        println!("|---|---|---|---|");
        let mut worst: f64 = 0.0;
        for mix in mixes.iter().filter(|mix| mix.kind == kind) {
            let [ours, plain] = measure(mix, turns);
            let ratio = ratio(ours, plain);
            worst = worst.max(ratio);
            println!(
                "| `{}`: {} | {} | {} | {ratio:.2} |",
                mix.word,
                mix.what,
                shown(ours),
                shown(plain)
            );
        }
        println!("\nThe highest of these ratios: {worst:.2}.");
    }
}

fn count(word: &str, side: &str, turns: usize) -> Option<()> {
    let mix = jobs::named(word)?;
    let call = match side {
        "ours" => queue_ours,
        "plain" => queue_plain,
        _ => return None,
    };
    let start = Side::new(&mix.table, mix.job.room);
    let mut side = start.clone();
    for _ in 0..turns {
        side.words = start.words;
        black_box(call(&mut side, black_box(&mix.job)));
    }
    Some(())
}

fn run(words: &[&str]) -> Option<()> {
    match *words {
        ["times", turns] => print_times(turns.parse().ok()?),
        ["growth", turns, file] => {
            std::fs::write(file, growth::print(turns.parse().ok()?)).expect(file)
        }
        ["message"] => println!("{}", hex_or_none(&jobs::Differ::Early.update(64))),
        ["mixes"] => jobs::all().iter().for_each(|mix| println!("{}", mix.word)),
        ["count", mix, side, turns] => count(mix, side, turns.parse().ok()?)?,
        _ => return None,
    }
    Some(())
}

fn main() -> ExitCode {
    let words: Vec<String> = std::env::args().skip(1).collect();
    let words: Vec<&str> = words.iter().map(String::as_str).collect();
    match run(&words) {
        Some(()) => ExitCode::SUCCESS,
        None => {
            eprintln!("usage: queue times TURNS | growth TURNS FILE | mixes | message | count MIX ours|plain TURNS");
            ExitCode::from(2)
        }
    }
}
