//! Times of calls through the C interface against the second reader's library,
//! the two sides taking turns; `measure/speed.sh` runs it.
//!
//! Answers, replies and tables of both sides are compared before anything is
//! timed. Calls are timed one by one, so that the table can be restored between
//! them outside the timed part; the clock's own cost is in every figure and is
//! said.

#[path = "../tests/support/mod.rs"]
mod support;

use luffcringle::{
    Algorithm, Answer, Given, Item, Refusal, Span, Table, TsigError, Verdict, LISTING_OCTETS,
};
use std::hint::black_box;
use std::path::Path;
use std::process::Command;
use std::time::Instant;
use support::build::{hex, name, record, Draft, Tsig, A, IN, SOA};
use support::words::hex_or_none;
use support::{as_ours, given_to_them, good, table_of};

/// Turns of a short call; one that takes longer gets fewer.
const MOST_TURNS: usize = 5_001;
const LEAST_TURNS: usize = 21;
/// What each side may take, in nanoseconds, before the turns are fewer.
const ENOUGH: i64 = 1_000_000_000;
const NOW: u64 = 1_000_000;
const TERMS: (u64, u64) = (86_400, 43_200);
const OFFER: [u8; 32] = [0x5e; 32];

/// A call that both sides make.
#[derive(Clone, Copy)]
enum Call<'a> {
    Message(&'a [u8]),
    Look(&'a [u8]),
    Enrol(&'a [u8]),
    Issue(u64),
    Revoke(u64),
}

impl Call<'_> {
    fn ours(self, table: &mut Table, reply: &mut [u8]) -> Result<Answer, Refusal> {
        let time = NOW;
        match self {
            Call::Message(octets) => table.message(&good(time, &OFFER), octets, reply),
            Call::Look(octets) => table.look(octets),
            Call::Enrol(suffix) => table.enrol(time, suffix, TERMS.0, TERMS.1, Algorithm::Sha256),
            Call::Issue(pair) => table.issue(time, pair, Algorithm::Sha256),
            Call::Revoke(pair) => table.revoke(time, pair),
        }
    }

    fn theirs(
        self,
        table: &mut second::Table,
        reply: &mut [u8],
    ) -> Result<second::Done, second::Refusal> {
        let time = NOW;
        match self {
            Call::Message(octets) => {
                let given = given_to_them(&good(time, &OFFER));
                second::message(table, &given, octets, reply)
            }
            Call::Look(octets) => second::look(table, octets),
            Call::Enrol(suffix) => second::enrol(table, time, suffix, TERMS.0, TERMS.1, 256),
            Call::Issue(pair) => second::issue(table, time, pair, 256),
            Call::Revoke(pair) => second::revoke(table, time, pair),
        }
    }
}

// ---- Times ----

/// Nanoseconds: the first quartile, the median and the third quartile.
type Figures = [i64; 3];

/// Of both sides, ours first.
type Times = [Figures; 2];

/// One call's nanoseconds.
fn timed<T>(call: impl FnOnce() -> T) -> i64 {
    let from = Instant::now();
    black_box(call());
    from.elapsed().as_nanos() as i64
}

fn figures(mut times: Vec<i64>) -> Figures {
    times.sort_unstable();
    [1, 2, 3].map(|quarter| times[(times.len() - 1) * quarter / 4])
}

/// Both sides, turn by turn, after a tenth as many turns that do not count.
fn in_turns(mut ours: impl FnMut() -> i64, mut theirs: impl FnMut() -> i64) -> Times {
    let mut turn = || [ours(), theirs()];
    let slower = turn().into_iter().max().map_or(1, |slower| slower.max(1));
    let turns = ((ENOUGH / slower) as usize).clamp(LEAST_TURNS, MOST_TURNS) | 1;
    (0..turns / 10).for_each(|_| {
        turn();
    });
    let turns: Vec<[i64; 2]> = (0..turns).map(|_| turn()).collect();
    [0, 1].map(|side| figures(turns.iter().map(|turn| turn[side]).collect()))
}

/// What is asked of an answer, and of whether the table changed.
type Expected = fn(Result<Answer, Refusal>, bool) -> bool;

/// A call on `start`, which is restored before each turn where it changes. The
/// sides agree, and what they do is as expected.
fn measure(start: &Table, call: Call, expected: Expected) -> Times {
    let their_start = table_of(start);
    let (mut ours, mut theirs) = (start.clone(), their_start.clone());
    let (mut our_reply, mut their_reply) = (vec![0; 65_535], vec![0; 65_535]);
    let answer = call.ours(&mut ours, &mut our_reply);
    let their_answer = as_ours(call.theirs(&mut theirs, &mut their_reply));
    assert_eq!(answer, their_answer);
    assert_eq!(our_reply, their_reply);
    assert_eq!(table_of(&ours), theirs);
    let changes = theirs != their_start;
    assert!(expected(answer, changes), "{answer:?}");
    in_turns(
        || {
            if changes {
                ours.clone_from(start);
            }
            timed(|| black_box(call).ours(&mut ours, &mut our_reply))
        },
        || {
            if changes {
                theirs = their_start.clone();
            }
            timed(|| black_box(call).theirs(&mut theirs, &mut their_reply))
        },
    )
}

// ---- Printing ----

fn print_head(what: &str) {
    println!("\n| {what} | ours | second | ratio |");
    println!("|---|---|---|---|");
}

/// A median with its quartiles.
fn shown(figures: Figures) -> String {
    let (unit, digits, name) = match figures[1] {
        ..1_000 => (1.0, 0, "ns"),
        1_000..1_000_000 => (1e3, 2, "µs"),
        _ => (1e6, 2, "ms"),
    };
    let [first, median, third] = figures.map(|time| format!("{:.digits$}", time as f64 / unit));
    format!("{median} {name} ({first}–{third})")
}

fn print_row(what: &str, [ours, theirs]: Times) {
    let ratio = ours[1] as f64 / theirs[1].max(1) as f64;
    println!(
        "| {what} | {} | {} | {ratio:.2} |",
        shown(ours),
        shown(theirs)
    );
}

// ---- 64 pairs ----

/// Where the offices' names differ, which decides what comparing them costs.
#[derive(Clone, Copy)]
enum Differ {
    Early,
    Late,
    Last,
}

impl Differ {
    fn described(self) -> &'static str {
        match self {
            Differ::Early => "suffixes of 19 octets that differ in the 2nd or 3rd",
            Differ::Late => "suffixes of 19 octets that differ in the 9th or 10th",
            Differ::Last => "suffixes of 128 octets that differ in the 126th or 127th",
        }
    }

    fn numbered(self, number: u64) -> String {
        match self {
            Differ::Early => format!("{number:02}-office.example."),
            Differ::Late => format!("office-{number:02}.example."),
            Differ::Last => format!("{0}.{0}.{number:02}.", "x".repeat(61)),
        }
    }

    /// The last pair is at the first place, so that each side searches longest.
    fn suffix(self, pair: u64) -> String {
        self.numbered(64 - pair)
    }

    fn key(self, serial: u64) -> String {
        format!("{serial}.{}", self.suffix(64))
    }

    fn table(self, pairs: u64) -> Table {
        let suffixes = (1..=pairs).map(|pair| name(&self.suffix(pair)));
        enrolled(suffixes)
    }

    /// An update of one address in zone z.example.
    fn update(self, serial: u64, time: u64) -> Vec<u8> {
        update().signed(&self.key(serial), time)
    }

    fn renewal(self) -> Vec<u8> {
        Draft::renewal(&self.key(1)).signed(&self.key(1), NOW)
    }

    fn adoption(self) -> Vec<u8> {
        Draft::adoption(&self.key(2), &self.key(1)).signed(&self.key(1), NOW)
    }
}

fn update() -> Draft {
    let mut draft = Draft::empty().ask(&name("z.example."), SOA, IN);
    draft.flags = 0x2800;
    let owner = b"\x07counter\xc0\x0c";
    draft
        .authority
        .push(record(owner, A, IN, 300, &[192, 0, 2, 1]));
    draft
}

fn enrolled(suffixes: impl Iterator<Item = Vec<u8>>) -> Table {
    let mut table = Table::new(NOW).expect("a new table");
    for suffix in suffixes {
        let answer = table.enrol(NOW, &suffix, TERMS.0, TERMS.1, Algorithm::Sha256);
        answer.expect("enrolled");
    }
    table
}

fn is_signed(answer: Result<Answer, Refusal>, changes: bool) -> bool {
    !changes && answer.is_ok_and(|answer| answer.serial == 1 && answer.length == 0)
}

fn is_granted(answer: Result<Answer, Refusal>, changes: bool) -> bool {
    changes && answer.is_ok_and(|answer| answer.serial == 1 && answer.length > 0)
}

fn is_enrolled(answer: Result<Answer, Refusal>, changes: bool) -> bool {
    changes && answer.is_ok_and(|answer| answer.pair == 64)
}

fn measure_calls(offices: Differ) {
    let table = offices.table(64);
    let mut renewed = table.clone();
    let renewal = offices.renewal();
    let granted = renewed.message(&good(NOW, &OFFER), &renewal, &mut [0; 512]);
    granted.expect("granted");
    let update = offices.update(1, NOW);

    print_head(offices.described());
    let show = |what: &str, start, call, expected| print_row(what, measure(start, call, expected));
    let what = format!("ordinary signed update, {} octets", update.len());
    show(&what, &table, Call::Message(&update), is_signed);
    show("renewal", &table, Call::Message(&renewal), is_granted);
    let adoption = offices.adoption();
    show("adoption", &renewed, Call::Message(&adoption), is_granted);
    let unknown = offices.update(9, NOW);
    show("BADKEY", &table, Call::Message(&unknown), |answer, _| {
        answer.is_ok_and(|answer| answer.error == TsigError::BadKey)
    });
    let late = offices.update(1, NOW - 1_000);
    show("BADTIME", &table, Call::Message(&late), |answer, _| {
        answer.is_ok_and(|answer| answer.error == TsigError::BadTime)
    });
    show("look", &table, Call::Look(&update), is_signed);
    let less_one = offices.table(63);
    let (before, after) = (name(&offices.numbered(0)), name(&offices.numbered(99)));
    let what = "enrol the 64th, before the others";
    show(what, &less_one, Call::Enrol(&before), is_enrolled);
    let what = "enrol the 64th, after the others";
    show(what, &less_one, Call::Enrol(&after), is_enrolled);
    show("issue", &table, Call::Issue(64), |answer, changes| {
        changes && answer.is_ok_and(|answer| answer.serial == 2)
    });
    show("revoke", &table, Call::Revoke(64), |answer, changes| {
        changes && answer.is_ok_and(|answer| answer.serial == 1)
    });
    let what = "of these, the table rules: a look refused with SIZE";
    show(what, &table, Call::Look(&[]), |answer, _| {
        answer == Err(Refusal::Size)
    });
    let what = "and of a look, the search and the key's name";
    print_row(what, searching(&table, &update));
}

// ---- Reading ----

/// A table on both sides, to look at.
struct Looked {
    ours: Table,
    theirs: second::Table,
}

impl Looked {
    fn at(table: &Table) -> Looked {
        Looked {
            ours: table.clone(),
            theirs: table_of(table),
        }
    }

    /// What a look takes longer than one that is refused with SIZE.
    fn ours(&self, message: &[u8]) -> i64 {
        timed(|| self.ours.look(black_box(message))) - timed(|| self.ours.look(black_box(&[])))
    }

    fn theirs(&self, message: &[u8]) -> i64 {
        let look = |message| second::look(&self.theirs, message);
        timed(|| look(black_box(message))) - timed(|| look(black_box(&[])))
    }
}

/// A look on a table with no pairs, less one that is refused with SIZE.
fn reading(message: &[u8]) -> Times {
    let empty = Looked::at(&Table::new(NOW).expect("a new table"));
    in_turns(|| empty.ours(message), || empty.theirs(message))
}

/// The same on a table, less the reading.
fn searching(table: &Table, message: &[u8]) -> Times {
    let empty = Looked::at(&Table::new(NOW).expect("a new table"));
    let full = Looked::at(table);
    in_turns(
        || full.ours(message) - empty.ours(message),
        || full.theirs(message) - empty.theirs(message),
    )
}

/// A query with so many records, each with a name of its own.
fn long_message(records: usize) -> Vec<u8> {
    let mut draft = Draft::empty().ask(&name("z.example."), SOA, IN);
    for i in 0..records {
        let owner = name(&format!("host-{i:04}.z.example."));
        draft
            .authority
            .push(record(&owner, A, IN, 300, &[192, 0, 2, 1]));
    }
    draft.signed("1.z.example.", NOW)
}

fn measure_reading() {
    print_head("reading alone: a look on a table with no pairs less one refused with SIZE");
    let update = Differ::Early.update(1, NOW);
    let what = format!("the update of {} octets", update.len());
    print_row(&what, reading(&update));
    let long = long_message(1_500);
    let what = format!("1,501 records, {} octets", long.len());
    print_row(&what, reading(&long));
}

// ---- The worst messages ----

/// The last message of a worst script, signed by the first key of the pair `a.`
/// at 1000, for a table of this time.
fn generated(kind: &str) -> Vec<u8> {
    let second = Path::new(env!("CARGO_MANIFEST_DIR")).join("../../second/Cargo.toml");
    let script = Command::new("cargo")
        .args([
            "run",
            "--release",
            "--offline",
            "--quiet",
            "--bin",
            "scripts",
        ])
        .arg("--manifest-path")
        .arg(second)
        .args(["--", "worst", kind])
        .output()
        .expect("cargo runs");
    assert!(script.status.success());
    let script = String::from_utf8(script.stdout).expect("a script is text");
    let last = script.lines().rfind(|line| line.starts_with("message"));
    let mut octets = hex(last.and_then(|line| line.split(' ').nth(5)).expect("one"));
    // The TSIG's data has 61 octets: the algorithm's name, then the time.
    let time = octets.len() - 61 + 13;
    assert_eq!(octets[time..time + 6], [0, 0, 0, 0, 3, 0xe8]);
    octets[time..time + 6].copy_from_slice(&NOW.to_be_bytes()[2..]);
    octets
}

/// A message whose TSIG's name ends behind so many pointers, the TSIG's own
/// counted: its first two labels are those of a key of every pair.
fn pointers(count: u16, key: &str, end: &str) -> Vec<u8> {
    let mut data = name(end);
    let first = 12 + 11; // the header, and the root's name to the data's length
    let mut target = first;
    for _ in 1..count {
        let at = first + data.len() as u16;
        data.extend((0xc000 | target).to_be_bytes());
        target = at;
    }
    let mut draft = Draft::empty();
    draft.answer.push(record(&[0], 16, IN, 0, &data));
    let mut tsig = Tsig::by(key, NOW);
    tsig.owner.pop();
    tsig.owner.extend((0xc000 | target).to_be_bytes());
    draft.with(&tsig)
}

fn measure_worst() {
    print_head("message call, the worst messages");
    let table = enrolled([name("a.")].into_iter());
    for (kind, what) in [
        ("chain", "a TSIG's name at the end of the longest chain"),
        ("records", "full of records with such names"),
        ("questions", "full of questions with such names"),
    ] {
        let message = generated(kind);
        let what = format!("`{kind}`: {what}, {} octets, one pair", message.len());
        print_row(&what, measure(&table, Call::Message(&message), is_signed));
    }
    let suffix = |pair| format!("office.{:02}.example.", 64 - pair);
    let table = enrolled((1..=64).map(|pair| name(&suffix(pair))));
    let message = pointers(8_146, "1.office.", "00.example.");
    let what = format!(
        "a TSIG's name that ends behind 8,146 pointers, {} octets, 64 pairs that differ in their second label",
        message.len()
    );
    print_row(&what, measure(&table, Call::Message(&message), is_signed));
}

// ---- The morning queue ----

/// 64 messages, one of each pair, in one batch and in 64 calls, both through C.
struct Queue {
    octets: Vec<u8>,
    items: Vec<Item>,
}

impl Queue {
    fn of(messages: impl Iterator<Item = Vec<u8>>) -> Queue {
        let mut octets = OFFER.to_vec();
        let items = messages.map(|message| {
            let from = octets.len();
            octets.extend(&message);
            let (message, offer) = (from..octets.len(), 0..OFFER.len());
            Item {
                time: NOW,
                mac: Verdict::Good,
                message: message.into(),
                offer: offer.into(),
                ..Item::default()
            }
        });
        let items = items.collect();
        Queue { octets, items }
    }

    fn at_once(&self, table: &mut Table, replies: &mut [u8]) -> Vec<Result<Answer, Refusal>> {
        let answers = table.batch(&self.octets, &self.items, replies);
        answers.expect("a batch of 64 inside its octets")
    }

    fn one_by_one(&self, table: &mut Table, replies: &mut [u8]) -> Vec<Result<Answer, Refusal>> {
        let mut used = 0;
        let part = |span: Span| &self.octets[span.from as usize..(span.from + span.size) as usize];
        let call = |item: &Item| {
            let given = Given {
                time: item.time,
                mac: item.mac,
                offer: part(item.offer),
                ..Given::default()
            };
            let answer = table.message(&given, part(item.message), &mut replies[used..]);
            used += answer.map_or(0, |answer| answer.length as usize);
            answer
        };
        self.items.iter().map(call).collect()
    }

    /// At once first, then one by one. Both end alike.
    fn measure(&self, start: &Table) -> Times {
        let (mut table, mut other) = (start.clone(), start.clone());
        let (mut replies, mut others) = (vec![0; 65_535], vec![0; 65_535]);
        let answers = self.at_once(&mut table, &mut replies);
        assert_eq!(answers, self.one_by_one(&mut other, &mut others));
        assert!(answers.iter().all(Result::is_ok) && replies == others);
        assert_eq!(table_of(&table), table_of(&other));
        in_turns(
            || {
                table.clone_from(start);
                timed(|| self.at_once(&mut table, &mut replies))
            },
            || {
                other.clone_from(start);
                timed(|| self.one_by_one(&mut other, &mut others))
            },
        )
    }
}

fn measure_queue() {
    println!("\n| 64 messages, one of each of 64 pairs | a batch | 64 calls | ratio |");
    println!("|---|---|---|---|");
    let suffix = |pair| Differ::Early.suffix(pair);
    let table = Differ::Early.table(64);
    let key = |pair| format!("1.{}", suffix(pair));
    let updates = Queue::of((1..=64).map(|pair| update().signed(&key(pair), NOW)));
    print_row("ordinary signed updates", updates.measure(&table));
    let renewals =
        Queue::of((1..=64).map(|pair| Draft::renewal(&key(pair)).signed(&key(pair), NOW)));
    print_row("renewals", renewals.measure(&table));
}

/// For a second, so that the processor runs at its speed.
fn warm_up() {
    let from = Instant::now();
    let table = Differ::Early.table(64);
    while from.elapsed().as_secs() < 1 {
        black_box(table.look(black_box(&[]))).expect_err("SIZE");
    }
}

// ---- Listings ----

/// The listing of so many pairs, each with an adopted and a waiting key.
fn listing_of(pairs: u64) -> String {
    let mut text = format!("clock\t{NOW}\t1\n");
    for pair in 0..pairs {
        let suffix = hex_or_none(format!("\x08office{pair:02}\x07example\0").as_bytes());
        let (lifetime, fresh) = TERMS;
        text += &format!("pair\t{suffix}\t3\t{lifetime}\t{fresh}\n");
        for (state, serial, inception) in [("adopted", 1, NOW - 2_000), ("waiting", 2, NOW - 1_000)]
        {
            let (partial, expiry) = (inception + fresh, inception + lifetime);
            text +=
                &format!("key\t{state}\t{serial}\thmac-sha256\t{inception}\t{partial}\t{expiry}\n");
        }
    }
    text
}

/// Loading and listing, by the length of the text. Both sides load the same
/// table and list the same text.
fn measure_listings() {
    print_head("a listing, two keys for each pair");
    for pairs in [1, 4, 16, 64] {
        let text = listing_of(pairs);
        let mut ours = Table::from_listing(text.as_bytes()).expect("it loads");
        let theirs = second::listing::load(text.as_bytes()).expect("it loads");
        assert_eq!(table_of(&ours), theirs);
        let mut listed = vec![0; LISTING_OCTETS];
        assert_eq!(ours.list_into(&mut listed), Ok(text.len()));
        assert_eq!(listed[..text.len()], *text.as_bytes());
        assert_eq!(
            second::listing::list(&theirs, LISTING_OCTETS),
            Ok(text.clone().into_bytes())
        );
        let times = in_turns(
            || timed(|| black_box(&ours).list_into(&mut listed)),
            || timed(|| second::listing::list(black_box(&theirs), LISTING_OCTETS)),
        );
        print_row(
            &format!("list: {pairs} pairs, {} octets", text.len()),
            times,
        );
        let times = in_turns(
            || timed(|| ours.load(black_box(text.as_bytes()))),
            || timed(|| second::listing::load(black_box(text.as_bytes()))),
        );
        print_row(
            &format!("load: {pairs} pairs, {} octets", text.len()),
            times,
        );
    }
}

fn main() {
    println!("Medians and quartiles, {MOST_TURNS} turns of the two sides; of a call that takes over 0.2 ms fewer, at least {LEAST_TURNS}.");
    warm_up();
    let [nothing, _] = in_turns(|| timed(|| ()), || timed(|| ()));
    println!(
        "The clock's own cost is in each figure: {}.",
        shown(nothing)
    );
    for offices in [Differ::Early, Differ::Late, Differ::Last] {
        measure_calls(offices);
    }
    measure_listings();
    measure_queue();
    measure_reading();
    measure_worst();
}
