//! What the inputs cost, beside what was committed.

use crate::kinds::{Kind, KINDS};
use std::collections::BTreeMap;
use std::fmt::Write;

/// How many times its committed count an input may cost.
pub const MOST: f64 = 2.0;

/// How many times its cost may become where an input that is linear is made
/// twice as large: twice, and what the parts that do not grow hide.
pub const LINEAR: f64 = 2.6;

/// What an input cost: in the size of the gate, and made twice as large.
#[derive(Clone, Copy, PartialEq, Debug)]
pub struct Cost {
    pub cut: f64,
    pub twice: f64,
}

impl Cost {
    /// How many times the cost became.
    pub fn growth(&self) -> f64 {
        self.twice / self.cut.max(1.0)
    }
}

/// What was committed for an input: its count, and the growth that it may have.
#[derive(Clone, Copy, PartialEq, Debug)]
pub struct Due {
    pub count: f64,
    pub growth: f64,
}

/// The costs of the inputs by their names.
pub type Costs = BTreeMap<String, Cost>;

/// What was committed for the inputs, by their names.
pub type Dues = BTreeMap<String, Due>;

/// Reads the committed counts: a line for each input with its name, its count
/// and the growth it may have; `#` begins a comment.
pub fn read(text: &str) -> Result<Dues, String> {
    let mut dues = Dues::new();
    for line in text.lines() {
        let words: Vec<&str> = line.split('#').next().unwrap_or("").split_whitespace().collect();
        let due = match &words[..] {
            [] => continue,
            [name, count, growth] => {
                let numbers = (count.parse(), growth.parse());
                let (Ok(count), Ok(growth)) = numbers else {
                    return Err(format!("no number in '{line}'"));
                };
                (name.to_string(), Due { count, growth })
            }
            _ => return Err(format!("'{line}' is no name, count and growth")),
        };
        if dues.insert(due.0, due.1).is_some() {
            return Err(format!("'{}' stands twice", words[0]));
        }
    }
    Ok(dues)
}

/// The text of the committed counts for these costs. Where the cost grows
/// faster than the input, the growth that it may have is the one that it has.
pub fn written(costs: &Costs) -> String {
    let mut text = String::from(
        "# Written by tests/slow/run.sh --write: what the archive's call costs in instructions on each input of the slow test,\n\
         # and how many times that it may become where the input is made twice as large.\n",
    );
    for kind in KINDS {
        let Some(cost) = costs.get(kind.name) else { continue };
        let growth = cost.growth();
        let (may, note) = match growth <= LINEAR {
            true => (LINEAR, ""),
            false => ((growth * 10.5).ceil() / 10.0, " # more than linear"),
        };
        _ = writeln!(text, "{:40} {:>10.0} {may:.1}{note}", kind.name, cost.cut);
    }
    text
}

/// What is wrong with the costs of the inputs of these names beside what was
/// committed: a sentence for each fault. `slack` is 1 where instructions were
/// counted, and more where time was taken.
pub fn faults(names: &[&str], costs: &Costs, dues: &Dues, slack: f64) -> Vec<String> {
    let mut faults = Vec::new();
    for &name in names {
        match (costs.get(name), dues.get(name)) {
            (None | Some(Cost { cut: 0.0, .. }), _) => {
                faults.push(format!("{name}: was not measured"));
            }
            (_, None) => faults.push(format!("{name}: has no committed count")),
            (Some(cost), Some(due)) => faults.extend(over(name, cost, due, slack)),
        }
    }
    let known = |name: &&String| !names.contains(&name.as_str());
    let left = dues.keys().filter(known);
    faults.extend(left.map(|name| format!("{name}: is committed, but no input has that name")));
    faults
}

/// What is wrong with the cost of one input.
fn over(name: &str, cost: &Cost, due: &Due, slack: f64) -> Vec<String> {
    let mut faults = Vec::new();
    let (most, growth) = (due.count * MOST * slack, due.growth * slack.sqrt());
    if cost.cut > most {
        faults.push(format!(
            "{name}: costs {:.0}, more than {:.0} times its committed count of {:.0}",
            cost.cut,
            MOST * slack,
            due.count
        ));
    }
    if cost.growth() > growth {
        faults.push(format!(
            "{name}: made twice as large it costs {:.2} times as much, more than {growth:.2}",
            cost.growth()
        ));
    }
    faults
}

/// The table: each input with its cost, what was committed, and the growth.
pub fn table(costs: &Costs, dues: &Dues, unit: &str) -> String {
    let mut text = format!(
        "{:40} {:>12} {:>12} {:>6} {:>7} {:>5}\n",
        "input", unit, "committed", "share", "growth", "most"
    );
    for kind in KINDS {
        let (cost, due) = (costs.get(kind.name), dues.get(kind.name));
        let (cost, due) = match (cost, due) {
            (Some(cost), Some(due)) => (cost, due),
            _ => continue,
        };
        let share = cost.cut / due.count.max(1.0);
        _ = writeln!(
            text,
            "{:40} {:>12.0} {:>12.0} {share:>6.2} {:>7.2} {:>5.1}",
            kind.name,
            cost.cut,
            due.count,
            cost.growth(),
            due.growth
        );
    }
    text
}

/// The names of all kinds.
pub fn names() -> Vec<&'static str> {
    KINDS.iter().map(|kind: &Kind| kind.name).collect()
}
