//! The comparer with a judge that is wrong on purpose: the difference must be
//! found, made small, and be the same case again after it went through hex.

use crate::compare::{blind_the_judge, compare, differs};
use crate::show::{from_hex, to_hex};
use crate::shrink::shrunk;
use second::cases::Case;
use second::gen::{self, Which};

/// The answers that the judge is made blind to, one after the other.
const ANSWERS: [u32; 8] = [3, 6, 11, 14, 15, 22, 23, 24];

/// The most bytes that the model and the table or finding of a shrunk case may
/// have.
const SMALL: (usize, usize) = (100, 30);

/// The seed of the cases that are tried, and the most of them before a wrong
/// judge must have been found.
const SEED: u64 = 11;
const MOST: u64 = 20_000;

/// Tries each wrong judge on generated cases; says whether all were found out.
pub fn run() -> bool {
    let mut good = true;
    for answer in ANSWERS {
        match one(answer) {
            Ok((index, case, small)) => {
                let fits = small.model.len() <= SMALL.0 && small.second.len() <= SMALL.1;
                good &= fits;
                println!(
                    "self-test: a judge blind to {answer}: found at case {index}, {} + {} bytes shrunk to {} + {}{}",
                    case.model.len(),
                    case.second.len(),
                    small.model.len(),
                    small.second.len(),
                    if fits { "" } else { ": TOO LARGE" },
                );
                println!("  case {}", to_hex(&small));
            }
            Err(fault) => {
                println!("self-test: a judge blind to {answer}: {fault}");
                good = false;
            }
        }
    }
    good
}

/// Finds and shrinks what a judge blind to an answer gets wrong.
fn one(answer: u32) -> Result<(u64, Case, Case), String> {
    blind_the_judge(Some(answer));
    let mut cases = (0..MOST).map(|index| (index, gen::case(SEED, index, Which::All)));
    let found = cases.find(|(_, case)| differs(case));
    let result = found.map(|(index, case)| {
        let small = shrunk(&case);
        let again = from_hex(&to_hex(&small));
        (index, case, again.filter(differs))
    });
    blind_the_judge(None);
    match result {
        None => Err(format!("NOT FOUND in {MOST} cases")),
        Some((_, _, None)) => Err("the shrunk case does NOT differ again".into()),
        Some((index, case, Some(small))) => match compare(&small) {
            Ok(drawn) if drawn == answer => Ok((index, case, small)),
            _ => Err("the right judge does NOT see that answer in the shrunk case".into()),
        },
    }
}
