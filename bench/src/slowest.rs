//! The slow inputs, each as large as it can be; but one that would take the
//! archive too long is cut.

use crate::{line, Times};
use second::cases::Case;
use slow::kinds::{Kind, KINDS};
use slow::{run, Size};
use std::time::Duration;

/// The longest that a call of the archive may take.
const LONGEST: Duration = Duration::from_secs(60);

/// How long the calls of one side are timed.
const TOGETHER: Duration = Duration::from_millis(200);

/// The leaves of a clearance are cut to this part, to see what the whole takes.
const PART: usize = 100;

/// The slow inputs with a word in their name: a line of the table each, and one
/// more behind the table for each that was cut.
pub fn rows(word: &str) {
    let mut cuts = Vec::new();
    for kind in KINDS.iter().filter(|kind| kind.name.contains(word)) {
        for &full in kind.full {
            let (size, whole) = fitting(kind, full);
            row(kind, size);
            if size != full {
                cuts.push((kind.name, size.leaves, full.leaves, whole));
            }
        }
    }
    println!();
    for (name, leaves, all, whole) in cuts {
        let seconds = whole.as_secs();
        println!("- slow: {name}: cut to {leaves} of {all} leaves, with which the archive would take about {seconds} s.");
    }
}

/// The size in which the archive takes no longer than it may, and about how
/// long it takes in the size that is wanted. The time grows with the leaves.
fn fitting(kind: &Kind, full: Size) -> (Size, Duration) {
    if full.leaves < PART {
        return (full, Duration::ZERO);
    }
    let part = Size { leaves: full.leaves / PART, ..full };
    let whole = run::archive(&kind.case(part)).1 * PART as u32;
    if whole <= LONGEST {
        return (full, whole);
    }
    let share = LONGEST.as_secs_f64() / whole.as_secs_f64();
    let leaves = (full.leaves as f64 * share / 10.0) as usize;
    (Size { leaves: leaves.max(1), ..full }, whole)
}

/// Times both sides on one input, and prints its line; they must answer alike.
fn row(kind: &Kind, size: Size) {
    let case = kind.case(size);
    let (ours, archive) = run::quickest(run::archive, &case, TOGETHER);
    let (theirs, second) = run::quickest(run::second, &case, TOGETHER);
    assert_eq!(ours, theirs, "{}", kind.name);
    assert!(kind.is_due(&case, &ours), "{}: {:?}", kind.name, ours.numbers);
    let what = match size.leaves {
        0 => format!("slow: {}", kind.name),
        leaves => format!("slow: {}, {leaves} leaves", kind.name),
    };
    let micros = |time: Duration| time.as_secs_f64().max(1e-7) * 1e6;
    let times = Times { archive: micros(archive), second: micros(second) };
    line(&what, counts(&case), case.model.len(), &times);
}

/// How many records each section of a case's book has.
fn counts(case: &Case) -> [usize; 8] {
    let at = |section: usize| 6 + 4 * section;
    let bytes = |section: usize| [case.model[at(section)], case.model[at(section) + 1]];
    [0, 1, 2, 3, 4, 5, 6, 7].map(|section| usize::from(u16::from_le_bytes(bytes(section))))
}
