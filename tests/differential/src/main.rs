//! The archive against the second program.
//!
//! usage: differential [COUNT [SEED]]
//!        differential case HEX
//!        differential docs FOLDER DOCUMENT..
//!        differential self-test
//!
//! COUNT cases of SEED (else 100,000 of seed 1), three neighbours of each, some
//! large books and every named case go through both. Answer, place, second
//! place, names, and every byte of both rooms must be the same, and nothing else
//! may be written to. A table and a name also go through the book's check and
//! the call after it, which together must do the same. A difference is shrunk and printed as a case of the
//! protocol in hex, which `case` runs again. `docs` runs the byte examples of
//! documents, on the files of a folder; `self-test` sees to it that a judge which
//! is wrong on purpose is found out.

use differential::big::{self, Big, Shape};
use differential::compare::{compare, differs};
use differential::show::{from_hex, show};
use differential::{docs, selftest};
use second::cases::{Case, KINDS, NAME};
use second::gen::dice::Dice;
use second::gen::{self, Which};
use second::named;
use std::collections::BTreeMap;
use std::path::Path;
use std::process::ExitCode;
use std::time::Instant;

/// How many neighbours of a generated case are run.
const NEIGHBOURS: usize = 3;

/// One large book for so many generated cases, and how often it is changed.
const LARGE_EVERY: usize = 500;
const LARGE_CASES: usize = 16;

/// The differences shown before the run is given up.
const SHOWN: usize = 3;

fn main() -> ExitCode {
    let words: Vec<String> = std::env::args().skip(1).collect();
    match &words[..] {
        [word, text] if word == "case" => return one_case(text),
        [word, folder, documents @ ..] if word == "docs" => {
            return ExitCode::from(u8::from(!docs::all(documents, Path::new(folder))));
        }
        [word] if word == "self-test" => {
            return ExitCode::from(u8::from(!selftest::run()));
        }
        _ => {}
    }
    let number = |word: usize, usual: u64| match words.get(word) {
        Some(text) => text.replace([',', '_'], "").parse().ok(),
        None => Some(usual),
    };
    let (Some(count), Some(seed), true) = (number(0, 100_000), number(1, 1), words.len() <= 2)
    else {
        eprintln!(
            "usage: differential [COUNT [SEED]] | case HEX | docs FOLDER DOCUMENT.. | self-test"
        );
        return ExitCode::from(2);
    };
    let mut run = Run::default();
    let start = Instant::now();
    run.all(count as usize, seed);
    run.report(seed, start.elapsed().as_secs_f64())
}

/// What was run so far, and what it drew.
#[derive(Default)]
struct Run {
    generated: usize,
    neighbours: usize,
    large: usize,
    named: usize,
    differences: usize,
    drawn: BTreeMap<(u32, u32), usize>,
}

impl Run {
    /// All named cases, then the generated ones, with neighbours and large books.
    fn all(&mut self, count: usize, seed: u64) {
        for case in named::cases() {
            self.named += 1;
            self.one(&case);
        }
        for index in 0..count {
            if self.differences >= SHOWN {
                return;
            }
            let case = gen::case(seed, index as u64, Which::All);
            self.generated += 1;
            self.one(&case);
            let mut dice = Dice::new(!seed, index as u64);
            for number in 0..NEIGHBOURS {
                self.neighbours += 1;
                self.one(&neighbour(&mut dice, &case, number));
            }
            if index % LARGE_EVERY == 0 {
                self.large_book(&mut dice, seed, index);
            }
        }
    }

    /// A large book, changed again and again.
    fn large_book(&mut self, dice: &mut Dice, seed: u64, index: usize) {
        let shape = Shape::random(dice);
        let big = Big::new(&shape, dice.next());
        for number in 0..LARGE_CASES {
            let mut case = big::changed(dice, &big);
            case.name = format!("large-{seed}-{index}-{number}");
            self.large += 1;
            self.one(&case);
        }
    }

    /// One case; a difference is shrunk and shown.
    fn one(&mut self, case: &Case) {
        match compare(case) {
            Ok(answer) => *self.drawn.entry((case.kind, answer)).or_insert(0) += 1,
            Err(_) if self.differences >= SHOWN => {}
            Err(difference) => {
                self.differences += 1;
                show(case, &difference);
            }
        }
    }

    /// Prints what was drawn, and says how it went.
    fn report(&self, seed: u64, seconds: f64) -> ExitCode {
        let (generated, neighbours) = (self.generated, self.neighbours);
        let (large, named) = (self.large, self.named);
        for (kind, word) in KINDS.iter().enumerate() {
            let drawn: Vec<String> = self
                .drawn
                .range((kind as u32, 0)..(kind as u32 + 1, 0))
                .map(|((kind, answer), count)| format!("{}: {count}", label(*kind, *answer)))
                .collect();
            println!("{word:8} {}", if drawn.is_empty() { "-".into() } else { drawn.join("  ") });
        }
        println!(
            "differential: seed {seed}: {generated} generated cases, {neighbours} neighbours, \
             {large} on large books, {named} named, in {seconds:.1} s: {} differ{}",
            self.differences,
            if self.differences >= SHOWN { ", and the run was given up" } else { "" },
        );
        ExitCode::from(u8::from(self.differences > 0))
    }
}

/// The case with one byte of the model or of the other bytes changed, or with a
/// room of another length.
fn neighbour(dice: &mut Dice, case: &Case, number: usize) -> Case {
    let mut case = case.clone();
    case.name = format!("{}-{number}", case.name);
    let bytes = match dice.below(8) {
        0 => {
            let nodes = case.node_work.len();
            case.node_work.resize((nodes + 1).saturating_sub(dice.below(4)), 0xa7);
            return case;
        }
        1 => {
            let symbols = case.symbol_work.len();
            case.symbol_work.resize((symbols + 1).saturating_sub(dice.below(4)), 0xb9);
            return case;
        }
        2..=4 if case.second.is_empty() => &mut case.model,
        2..=4 => &mut case.second,
        _ => &mut case.model,
    };
    let at = dice.below(bytes.len());
    if let Some(byte) = bytes.get_mut(at) {
        *byte = match dice.below(3) {
            0 => dice.byte(),
            1 => *byte ^ 1 << dice.below(8),
            _ => dice.below(11) as u8,
        };
    }
    case
}

/// The word for what a case drew.
fn label(kind: u32, answer: u32) -> String {
    match (kind, answer) {
        (NAME, 0) => "named".into(),
        (NAME, _) => "empty".into(),
        _ => answer.to_string(),
    }
}

/// Runs one case of the protocol, given in hex.
fn one_case(text: &str) -> ExitCode {
    let Some(case) = from_hex(text) else {
        eprintln!("these bytes are no case");
        return ExitCode::from(2);
    };
    match compare(&case) {
        Ok(answer) => println!("{}: both draw {}", case.name, label(case.kind, answer)),
        Err(difference) => show(&case, &difference),
    }
    ExitCode::from(u8::from(differs(&case)))
}
