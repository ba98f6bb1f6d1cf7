//! The judge on costs that are wrong on purpose: it must name each fault.

use crate::judge::{faults, names, read, written, Cost, Costs, Dues};

/// Tries each input in turn with a count, a growth, a committed line and an
/// input that are not as they should be; says whether every one was found.
pub fn run(costs: &Costs) -> bool {
    let dues = match read(&written(costs)) {
        Ok(dues) => dues,
        Err(fault) => return said(&format!("the counts that were written are not read: {fault}")),
    };
    if let Some(fault) = faults(&names(), costs, &dues, 1.0).first() {
        return said(&format!("the counts that were written are refused: {fault}"));
    }
    let missed: Vec<&str> = names().into_iter().filter(|name| !found(name, costs, &dues)).collect();
    if !missed.is_empty() {
        return said(&format!("a fault was NOT FOUND at {}", missed.join(", ")));
    }
    println!(
        "slow: self-test: a cost over twice its count, a growth over its share, a missing count, \
         an input that was not measured, and a count without an input are refused at each of {} inputs",
        names().len()
    );
    true
}

/// Prints what went wrong.
fn said(fault: &str) -> bool {
    println!("slow: self-test: {fault}");
    false
}

/// Whether each fault at this input is found, and no fault where there is none.
fn found(name: &str, costs: &Costs, dues: &Dues) -> bool {
    let named = |costs: &Costs, dues: &Dues| {
        let faults = faults(&names(), costs, dues, 1.0);
        faults.len() == 1 && faults[0].starts_with(&format!("{name}: "))
    };
    let (Some(&cost), Some(&due)) = (costs.get(name), dues.get(name)) else {
        return false;
    };
    let with = |cost: Cost| {
        let mut costs = costs.clone();
        costs.insert(name.into(), cost);
        costs
    };
    let times = |factor: f64| Cost { cut: due.count * factor, twice: due.count * factor * 2.0 };
    let steep = Cost { twice: cost.cut.max(1.0) * (due.growth + 0.01), ..cost };
    let (mut unmeasured, mut uncommitted, mut renamed) =
        (costs.clone(), dues.clone(), dues.clone());
    unmeasured.remove(name);
    uncommitted.remove(name);
    renamed.insert("an_input_that_is_gone".into(), due);
    let gone = faults(&names(), costs, &renamed, 1.0);
    named(&with(times(2.01)), dues)
        && faults(&names(), &with(times(1.99)), dues, 1.0).is_empty()
        && named(&with(steep), dues)
        && named(&unmeasured, dues)
        && named(&with(Cost { cut: 0.0, ..cost }), dues)
        && named(costs, &uncommitted)
        && gone.len() == 1
        && gone[0].starts_with("an_input_that_is_gone: ")
}
