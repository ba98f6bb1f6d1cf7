//! One case on either side, with the time it takes.

use differential::archive;
use second::cases::{Case, FINDING, NAME};
use std::time::Duration;

extern "C" {
    /// The C library's count of the time that the process has run, in
    /// microseconds.
    fn clock() -> i64;
}

/// What a side gave: its numbers, and both rooms afterwards.
#[derive(PartialEq, Eq, Debug)]
pub struct Given {
    pub numbers: [usize; 3],
    pub nodes: Vec<u8>,
    pub symbols: Vec<u8>,
}

/// The time that this process has run so far.
pub fn cpu() -> Duration {
    // A function of the C library that takes nothing and changes nothing.
    Duration::from_micros(unsafe { clock() } as u64)
}

/// Calls the archive; the time is that of the call alone.
pub fn archive(case: &Case) -> (Given, Duration) {
    let (mut nodes, mut symbols) = (case.node_work.clone(), case.symbol_work.clone());
    let start = cpu();
    let numbers = match case.kind {
        NAME => {
            let (start, length) = archive::name(&case.model, case.index as usize);
            [start, length, 0]
        }
        FINDING => {
            triple(archive::check_finding(&case.model, &case.second, &mut nodes, &mut symbols))
        }
        _ => triple(archive::check_table(&case.model, &case.second, &mut nodes)),
    };
    (Given { numbers, nodes, symbols }, cpu() - start)
}

/// Calls the second program.
pub fn second(case: &Case) -> (Given, Duration) {
    let (mut nodes, mut symbols) = (case.node_work.clone(), case.symbol_work.clone());
    let start = cpu();
    let numbers = match case.kind {
        NAME => {
            let name = second::name(&case.model, case.index as usize);
            let start = (name.as_ptr() as usize).wrapping_sub(case.model.as_ptr() as usize);
            [if name.is_empty() { 0 } else { start }, name.len(), 0]
        }
        FINDING => {
            triple(second::check_finding(&case.model, &case.second, &mut nodes, &mut symbols))
        }
        _ => triple(second::check_table(&case.model, &case.second, &mut nodes)),
    };
    (Given { numbers, nodes, symbols }, cpu() - start)
}

/// An answer's three numbers.
fn triple(answer: second::Answer) -> [usize; 3] {
    [answer.number, answer.place, answer.second].map(|number| number as usize)
}

/// The time of the quickest of some calls: as many as take so long together,
/// but at least one.
pub fn quickest(
    call: impl Fn(&Case) -> (Given, Duration),
    case: &Case,
    together: Duration,
) -> (Given, Duration) {
    let (given, mut best) = call(case);
    let mut spent = best;
    while spent < together {
        let time = call(case).1;
        spent += time.max(Duration::from_micros(2));
        best = best.min(time);
    }
    (given, best)
}
