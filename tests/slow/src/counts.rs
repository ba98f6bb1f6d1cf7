//! The costs of all inputs: instructions by callgrind's dumps, or times.

use crate::judge::{Cost, Costs};
use crate::kinds::{Kind, KINDS};
use crate::run;
use std::path::Path;
use std::time::Duration;

/// The kind whose time is the measure of all others where instructions cannot
/// be counted.
pub const FAIR: &str = "a_fair_book";

/// How long the calls of one input are timed.
const TOGETHER: Duration = Duration::from_millis(50);

/// Calls the archive once for each input, each kind in both of its sizes: the
/// calls whose instructions are counted, in the order of their dumps.
pub fn calls() {
    for kind in KINDS {
        for size in [kind.cut, kind.twice()] {
            run::archive(&kind.case(size));
        }
    }
}

/// The costs by the dumps of callgrind in a folder, one for each call.
pub fn counted(folder: &Path) -> Result<Costs, String> {
    let mut costs = Costs::new();
    for (index, kind) in KINDS.iter().enumerate() {
        let [cut, twice] = [1, 2].map(|call| total(folder, 2 * index + call));
        costs.insert(kind.name.into(), Cost { cut: cut?, twice: twice? });
    }
    match total(folder, 2 * KINDS.len() + 1) {
        Ok(count) if count > 0.0 => Err("there are more calls than inputs".into()),
        _ => Ok(costs),
    }
}

/// The instructions of one dump.
fn total(folder: &Path, number: usize) -> Result<f64, String> {
    let file = folder.join(format!("dump.{number}"));
    let text = std::fs::read_to_string(&file).map_err(|_| format!("no dump of call {number}"))?;
    let line = text.lines().find_map(|line| line.strip_prefix("totals: "));
    let count = line.and_then(|line| line.trim().parse().ok());
    count.ok_or(format!("no total in the dump of call {number}"))
}

/// The costs by time, as if a fair book cost what it was committed to cost.
pub fn timed(fair: f64) -> Costs {
    let time =
        |kind: &Kind, size| seconds(run::quickest(run::archive, &kind.case(size), TOGETHER).1);
    let measure =
        KINDS.iter().find(|kind| kind.name == FAIR).map_or(1.0, |kind| time(kind, kind.cut));
    let scaled = |kind: &Kind, size| time(kind, size) * fair / measure;
    let cost =
        |kind: &Kind| Cost { cut: scaled(kind, kind.cut), twice: scaled(kind, kind.twice()) };
    KINDS.iter().map(|kind| (kind.name.to_string(), cost(kind))).collect()
}

/// A time in seconds, and never nothing.
fn seconds(time: Duration) -> f64 {
    time.max(Duration::from_micros(1)).as_secs_f64()
}
