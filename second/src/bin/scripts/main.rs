//! A seeded generator of scripts of calls. It runs every line on the second reader as it goes,
//! so that it knows the table and can say afterwards what the script reached.
//!
//!     scripts SEED CALLS            CALLS lines to standard output, the reached table to
//!                                   standard error
//!     scripts --require SEED CALLS  the same, with status 1 when something was not reached or
//!                                   came out otherwise than the papers say
//!     scripts worst KIND            a script of one worst case
//!
//! Every fourth seed (3, 7, 11 ...) ends its script without a newline.

mod batch;
mod compare;
mod desk;
mod listing;
mod maker;
mod reached;
mod resolver;
mod rng;
mod scenarios;
mod signing;
mod wire;
mod worst;

use maker::Maker;
use reached::Reached;
use std::io::{self, BufWriter, Write};
use std::process::ExitCode;

fn empty_table_of_reached(groups: &[scenarios::Group]) -> Reached {
    let mut reached = Reached::with_outcomes();
    scenarios::list_items(groups, &mut reached);
    reached.add_never();
    reached
}

fn write_script(seed: u64, calls: u64, to: &mut dyn Write) -> io::Result<Reached> {
    let groups = scenarios::groups();
    let mut maker = Maker::new(seed, calls, empty_table_of_reached(&groups), to);
    while !maker.is_done() {
        scenarios::step(&mut maker, &groups);
    }
    let reached = maker.finish()?;
    if calls > 0 && seed % 4 != 3 {
        to.write_all(b"\n")?;
    }
    Ok(reached)
}

fn script(seed: &str, calls: &str, require: bool) -> io::Result<ExitCode> {
    let (Ok(seed), Ok(calls)) = (seed.parse(), calls.parse()) else {
        return usage();
    };
    let mut out = BufWriter::new(io::stdout().lock());
    let reached = write_script(seed, calls, &mut out)?;
    out.flush()?;
    reached.write(&mut BufWriter::new(io::stderr().lock()))?;
    Ok(match require && !reached.is_complete() {
        true => ExitCode::FAILURE,
        false => ExitCode::SUCCESS,
    })
}

fn worst_case(kind: &str) -> io::Result<ExitCode> {
    if !worst::KINDS.contains(&kind) {
        return usage();
    }
    let mut out = BufWriter::new(io::stdout().lock());
    worst::write(kind, &mut out)?;
    out.flush()?;
    Ok(ExitCode::SUCCESS)
}

fn usage() -> io::Result<ExitCode> {
    eprintln!("scripts [--require] SEED CALLS");
    eprintln!("scripts worst {}", worst::KINDS.join("|"));
    Ok(ExitCode::from(2))
}

fn main() -> io::Result<ExitCode> {
    let words: Vec<String> = std::env::args().skip(1).collect();
    let words: Vec<&str> = words.iter().map(String::as_str).collect();
    match words[..] {
        ["worst", kind] => worst_case(kind),
        ["--require", seed, calls] => script(seed, calls, true),
        [seed, calls] => script(seed, calls, false),
        _ => usage(),
    }
}
