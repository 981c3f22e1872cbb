//! How the cost grows with the pairs and with the message, as a table and as a
//! drawing.

use crate::both::support::good;
use crate::both::{agree, Job, Side};
use crate::jobs::{queue, Differ, NOW};
use crate::times::{in_turns, shown, timed, Figures};
use std::fmt::Write;
use std::hint::black_box;

/// The addresses of an update beyond the first: 143 to 65,519 octets.
const ADDRESSES: [usize; 10] = [0, 6, 18, 44, 100, 210, 430, 870, 1_750, 2_724];
const PAIRS: [u64; 3] = [1, 8, 64];

/// What is called: each is a line of the drawing, with its colour.
const CALLS: [(&str, &str); 3] = [
    ("message", "#0b5394"),
    ("look", "#38761d"),
    ("plain Rust: a batch of one", "#cc4125"),
];
const QUEUES: [(&str, &str); 2] = [
    ("of a batch of 64", "#674ea7"),
    ("plain Rust: the same", "#e69138"),
];

/// The last pair's update of so many addresses more, on a table of so many pairs:
/// message, look, plain.
fn one(pairs: u64, addresses: usize, turns: usize) -> (usize, [Figures; 3]) {
    let start = Differ::Early.table(pairs);
    let message = Differ::Early.long_update(pairs, addresses);
    let job = queue([message.clone()].into_iter());
    agree(&start, &job, "one message");
    let (mut table, mut reply) = (start.clone(), [0; 512]);
    let mut side = Side::new(&start, job.room);
    let figures = in_turns(turns, || {
        let given = good(NOW, &[]);
        [
            timed(|| table.message(&given, black_box(&message), &mut reply)),
            timed(|| table.look(black_box(&message))),
            timed(|| side.plain(black_box(&job))),
        ]
    });
    (message.len(), figures)
}

/// 64 updates over so many pairs: what one of them takes, ours and plain.
fn of_batch(pairs: u64, turns: usize) -> [Figures; 2] {
    let start = Differ::Early.table(pairs);
    let job: Job = queue((0..64).map(|at| Differ::Early.update(at % pairs + 1)));
    agree(&start, &job, "64 messages");
    let (mut ours, mut plain) = (Side::new(&start, job.room), Side::new(&start, job.room));
    let figures = in_turns(turns, || {
        [
            timed(|| ours.ours(black_box(&job))),
            timed(|| plain.plain(black_box(&job))),
        ]
    });
    figures.map(|figures| figures.map(|time| time / 64))
}

pub fn print(turns: usize) -> String {
    println!("\n| pairs | message | look | plain Rust: a batch of one | one of a batch of 64 | plain Rust: the same |");
    println!("|---|---|---|---|---|---|");
    let mut by_pairs = vec![Vec::new(); 5];
    for pairs in PAIRS {
        let (one, queued) = (one(pairs, 0, turns).1, of_batch(pairs, turns));
        let figures = [one[0], one[1], one[2], queued[0], queued[1]];
        println!("| {pairs} | {} |", figures.map(shown).join(" | "));
        for (line, figures) in by_pairs.iter_mut().zip(figures) {
            line.push((pairs as f64, figures[1] as f64));
        }
    }
    println!("\n| octets, on 64 pairs | message | look | plain Rust: a batch of one |");
    println!("|---|---|---|---|");
    let mut by_octets = vec![Vec::new(); 3];
    for addresses in ADDRESSES {
        let (octets, figures) = one(64, addresses, turns);
        println!("| {octets} | {} |", figures.map(shown).join(" | "));
        for (line, figures) in by_octets.iter_mut().zip(figures) {
            line.push((octets as f64, figures[1] as f64));
        }
    }
    drawing(&by_pairs, &by_octets)
}

// ---- The drawing ----

/// Places of the median times, both axes logarithmic.
type Line = Vec<(f64, f64)>;

const WIDTH: f64 = 340.0;
const HEIGHT: f64 = 300.0;
const TOP: f64 = 60.0;
/// Nanoseconds at the bottom and at the top.
const TIMES: (f64, f64) = (50.0, 100_000.0);

struct Panel {
    left: f64,
    from: f64,
    to: f64,
}

impl Panel {
    fn x(&self, value: f64) -> f64 {
        self.left + WIDTH * (value / self.from).ln() / (self.to / self.from).ln()
    }

    fn y(&self, time: f64) -> f64 {
        TOP + HEIGHT * (1.0 - (time / TIMES.0).ln() / (TIMES.1 / TIMES.0).ln())
    }

    fn draw(&self, svg: &mut String, title: &str, values: &[f64]) {
        let (left, bottom) = (self.left, TOP + HEIGHT);
        add(svg, &format!("<rect x=\"{left}\" y=\"{TOP}\" width=\"{WIDTH}\" height=\"{HEIGHT}\" fill=\"none\" stroke=\"#888\"/>"));
        text(svg, left + WIDTH / 2.0, TOP - 14.0, "middle", title);
        for (time, label) in [
            (100.0, "100 ns"),
            (1e3, "1 µs"),
            (1e4, "10 µs"),
            (1e5, "100 µs"),
        ] {
            let y = self.y(time);
            add(
                svg,
                &format!("<path d=\"M{left} {y:.1}h{WIDTH}\" stroke=\"#ddd\"/>"),
            );
            text(svg, left - 6.0, y + 4.0, "end", label);
        }
        for value in values {
            let x = self.x(*value);
            add(
                svg,
                &format!("<path d=\"M{x:.1} {bottom}v5\" stroke=\"#888\"/>"),
            );
            text(svg, x, bottom + 18.0, "middle", &format!("{value}"));
        }
    }

    fn lines(&self, svg: &mut String, lines: &[Line], colours: impl Iterator<Item = &'static str>) {
        for (line, colour) in lines.iter().zip(colours) {
            let points = line
                .iter()
                .map(|(value, time)| format!("{:.1},{:.1}", self.x(*value), self.y(*time)));
            let points: Vec<String> = points.collect();
            add(svg, &format!("<polyline points=\"{}\" fill=\"none\" stroke=\"{colour}\" stroke-width=\"2\"/>", points.join(" ")));
            for point in points {
                let (x, y) = point.split_once(',').expect("a comma");
                add(
                    svg,
                    &format!("<circle cx=\"{x}\" cy=\"{y}\" r=\"3\" fill=\"{colour}\"/>"),
                );
            }
        }
    }
}

fn add(svg: &mut String, line: &str) {
    writeln!(svg, "{line}").expect("a string takes all");
}

fn text(svg: &mut String, x: f64, y: f64, anchor: &str, words: &str) {
    add(
        svg,
        &format!("<text x=\"{x:.1}\" y=\"{y:.1}\" text-anchor=\"{anchor}\">{words}</text>"),
    );
}

fn drawing(by_pairs: &[Line], by_octets: &[Line]) -> String {
    let colours = || CALLS.iter().chain(&QUEUES).map(|(_, colour)| *colour);
    let mut svg = String::new();
    add(&mut svg, "<svg xmlns=\"http://www.w3.org/2000/svg\" width=\"860\" height=\"460\" font-family=\"sans-serif\" font-size=\"12\">");
    add(
        &mut svg,
        "<rect width=\"860\" height=\"460\" fill=\"#fff\"/>",
    );
    text(
        &mut svg,
        430.0,
        22.0,
        "middle",
        "What one message costs: medians, both axes logarithmic",
    );
    let pairs = Panel {
        left: 70.0,
        from: 0.8,
        to: 80.0,
    };
    pairs.draw(
        &mut svg,
        "by pairs, an update of 143 octets",
        &[1.0, 8.0, 64.0],
    );
    pairs.lines(&mut svg, by_pairs, colours());
    let octets = Panel {
        left: 490.0,
        from: 120.0,
        to: 80_000.0,
    };
    octets.draw(
        &mut svg,
        "by octets, on 64 pairs",
        &[143.0, 1_000.0, 8_000.0, 65_535.0],
    );
    octets.lines(&mut svg, by_octets, colours());
    for (at, (what, colour)) in CALLS.iter().chain(&QUEUES).enumerate() {
        let (x, y) = (
            70.0 + 260.0 * (at % 3) as f64,
            410.0 + 22.0 * (at / 3) as f64,
        );
        add(
            &mut svg,
            &format!("<path d=\"M{x} {y}h22\" stroke=\"{colour}\" stroke-width=\"2\"/>"),
        );
        text(&mut svg, x + 28.0, y + 4.0, "start", what);
    }
    add(&mut svg, "</svg>");
    svg
}
