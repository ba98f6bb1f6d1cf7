//! The time of the archive beside that of the second program, both built for
//! release, in one run, as one table in Markdown: large tables that keep every
//! rule, so that the whole check runs; a table in a checked book; the name call;
//! the growth with the length; complete clearances; a witness; and the slow
//! inputs.
//!
//! usage: bench                every row
//!        bench --slow [WORD]  the slow inputs alone, or those with the word
//!                             in their name

mod shapes;
mod slowest;

use differential::archive;
use differential::big::Big;
use second::book::Book;
use second::named::{NODE_FILL, SYMBOL_FILL};
use second::sketch::{self, Value};
use second::Answer;
use shapes::{
    boolean_book, chain_book, choice_book, equality_book, full_boolean_book, member_book,
    range_book, tristate_book, GROWTH, SHAPES, USUAL,
};
use std::hint::black_box;
use std::time::{Duration, Instant};

/// How long the two sides of one line are timed together.
const BUDGET: Duration = Duration::from_millis(800);

/// The least time of one sample, and the fewest samples.
const SAMPLE: Duration = Duration::from_micros(300);
const FEWEST: usize = 5;

/// The seed of the large books.
const SEED: u64 = 1;

/// The median times of both sides, in microseconds.
struct Times {
    archive: f64,
    second: f64,
}

impl Times {
    /// Times two functions in turn, so that both meet the same machine.
    fn of(mut archive: impl FnMut(), mut second: impl FnMut()) -> Times {
        let start = Instant::now();
        let runs = (batch(&mut archive), batch(&mut second));
        let mut samples = (Vec::new(), Vec::new());
        while samples.0.len() < FEWEST || start.elapsed() < BUDGET {
            samples.0.push(sample(&mut archive, runs.0));
            samples.1.push(sample(&mut second, runs.1));
        }
        Times { archive: median(samples.0), second: median(samples.1) }
    }
}

/// How many runs make a sample of the least time.
fn batch(function: &mut impl FnMut()) -> u32 {
    let mut runs = 1;
    while runs < 10_000 && sample(function, runs) * f64::from(runs) < SAMPLE.as_secs_f64() * 1e6 {
        runs *= 2;
    }
    runs
}

/// The time of one run, over some, in microseconds.
fn sample(function: &mut impl FnMut(), runs: u32) -> f64 {
    let start = Instant::now();
    (0..runs).for_each(|_| function());
    start.elapsed().as_secs_f64() * 1e6 / f64::from(runs)
}

/// The value in the middle.
fn median(mut values: Vec<f64>) -> f64 {
    values.sort_by(f64::total_cmp);
    values[values.len() / 2]
}

/// Times the table check on a book; both sides must answer 0.
fn table(model: &[u8], table: &[u8], nodes: usize) -> Times {
    let (mut ours, mut theirs) = (vec![NODE_FILL; nodes], vec![NODE_FILL; nodes]);
    assert_eq!(archive::check_table(model, table, &mut ours), Answer::KEPT);
    assert_eq!(second::check_table(model, table, &mut theirs), Answer::KEPT);
    assert_eq!(ours, theirs);
    Times::of(
        || _ = black_box(archive::check_table(model, table, &mut ours)),
        || _ = black_box(second::check_table(model, table, &mut theirs)),
    )
}

/// Times the table check after the book's; both sides must answer 0.
fn table_in(model: &[u8], table: &[u8], nodes: usize) -> Times {
    let (mut ours, mut theirs) = (vec![NODE_FILL; nodes], vec![NODE_FILL; nodes]);
    let book = Book::read(model).expect("a good book");
    let judge = |room: &mut [u8]| {
        let entries = second::table::read(&book, table).expect("a readable table");
        second::values::fill(&book, &entries, room);
        second::rules::first_broken(&book, &entries, room)
    };
    assert_eq!(archive::check_table_in(model, table, &mut ours), Answer::KEPT);
    assert_eq!(judge(&mut theirs), Answer::KEPT);
    assert_eq!(ours, theirs);
    Times::of(
        || _ = black_box(archive::check_table_in(model, table, &mut ours)),
        || _ = black_box(judge(&mut theirs)),
    )
}

/// Times the finding check; both sides must give this answer.
fn finding(model: &[u8], finding: &[u8], nodes: usize, symbols: usize, answer: Answer) -> Times {
    let (mut ours, mut theirs) = (vec![NODE_FILL; nodes], vec![NODE_FILL; nodes]);
    let (mut our_marks, mut their_marks) = (vec![SYMBOL_FILL; symbols], vec![SYMBOL_FILL; symbols]);
    let given = archive::check_finding(model, finding, &mut ours, &mut our_marks);
    assert_eq!(given, answer);
    let judged = second::check_finding(model, finding, &mut theirs, &mut their_marks);
    assert_eq!(judged, answer);
    Times::of(
        || _ = black_box(archive::check_finding(model, finding, &mut ours, &mut our_marks)),
        || _ = black_box(second::check_finding(model, finding, &mut theirs, &mut their_marks)),
    )
}

/// Times the name call.
fn name(model: &[u8], symbol: usize) -> Times {
    assert_eq!(archive::name(model, symbol).1, second::name(model, symbol).len());
    Times::of(
        || _ = black_box(archive::name(model, symbol)),
        || _ = black_box(second::name(model, symbol)),
    )
}

/// Prints one line of the table.
fn line(what: &str, counts: [usize; 8], bytes: usize, times: &Times) {
    let [symbols, nodes, defaults, selects, ..] = counts;
    let (ratio, per_byte) = (times.archive / times.second, times.archive * 1e3 / bytes as f64);
    println!(
        "| {what:38} | {symbols:7} | {selects:7} | {defaults:8} | {nodes:5} | {bytes:5} | {:10.1} | {:9.1} | {ratio:5.2} | {per_byte:7.2} |",
        times.archive, times.second
    );
}

/// The heads of the columns, in Markdown.
fn heads() {
    println!(
        "| {:38} | symbols | selects | defaults | nodes | bytes | archive us | second us | ratio | ns/byte |",
        ""
    );
    println!("|{}|{}", "-".repeat(40), "---:|".repeat(9));
}

/// The table check on each shape, and on the usual one the check after the
/// book's and the name call.
fn tables() {
    for (what, shape) in &SHAPES {
        let big = Big::new(shape, SEED);
        let (model, values) = (big.model(), big.table());
        let counts = big.sketch.counts();
        assert_eq!(
            counts[..5],
            [shape.symbols, shape.nodes, shape.defaults, shape.selects, shape.ranges]
        );
        assert_eq!(model.len(), shape.bytes);
        line(what, counts, model.len(), &table(&model, &values, shape.nodes));
    }
    let books = [
        ("table: f: the most members", member_book(), Value::Three(0)),
        ("table: g: the most ranges", range_book(), Value::Int(1)),
    ];
    for (what, sketch, value) in books {
        let (model, counts) = (sketch.bytes(), sketch.counts());
        let values = sketch::table(&vec![value; counts[0]]);
        line(what, counts, model.len(), &table(&model, &values, counts[1]));
    }
    let big = Big::new(&USUAL, SEED);
    let (model, counts) = (big.model(), big.sketch.counts());
    let times = table_in(&model, &big.table(), USUAL.nodes);
    line("table in a checked book: b", counts, model.len(), &times);
    let times = name(&model, USUAL.symbols - 1);
    line("name call: the last symbol of b", counts, model.len(), &times);
}

/// The complete clearance of each book made for it, and a witness on the usual
/// book: its table keeps every rule, and select 0 is met in it.
fn findings() {
    let books = [
        ("13 booleans", boolean_book()),
        ("13 booleans, full book", full_boolean_book()),
        ("8 tristates", tristate_book()),
        ("two choices", choice_book()),
        ("equalities", equality_book()),
        ("a chain of nodes", chain_book()),
    ];
    for (what, sketch) in books {
        let model = sketch.bytes();
        let clearance = second::complete_clearance(&model, 0).expect("a complete clearance");
        let counts = sketch.counts();
        let times = finding(&model, &clearance, counts[1], counts[0], Answer::KEPT);
        line(&format!("clearance: {what}"), counts, model.len(), &times);
    }
    let big = Big::new(&USUAL, SEED);
    let (model, counts) = (big.model(), big.sketch.counts());
    let witness = [&[0, 0, 0, 0], &big.table()[..]].concat();
    let times = finding(&model, &witness, counts[1], counts[0], Answer::at(24, 0));
    line("witness: the table of b", counts, model.len(), &times);
}

/// The usual shape, smaller and larger.
fn growth() {
    for bytes in GROWTH {
        let big = Big::new(&USUAL.scaled(bytes), SEED);
        let (model, values) = (big.model(), big.table());
        assert_eq!(model.len(), bytes);
        let times = table(&model, &values, big.sketch.nodes.len());
        line(&format!("growth: b at {bytes} bytes"), big.sketch.counts(), bytes, &times);
    }
}

fn main() {
    let words: Vec<String> = std::env::args().skip(1).collect();
    heads();
    if words.is_empty() {
        tables();
        growth();
        findings();
    }
    slowest::rows(words.get(1).map_or("", String::as_str));
}
