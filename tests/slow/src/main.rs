//! The slow test: what the inputs that cost most may cost.
//!
//! usage: slow alike                both sides on every input of the gate
//!        slow calls                one call of the archive for each of them
//!        slow judge COUNTS DUMPS   the dumps of those calls by callgrind
//!        slow write COUNTS DUMPS   writes the counts anew
//!        slow times COUNTS         by time, where there is no valgrind

use slow::counts::{calls, counted, timed, FAIR};
use slow::judge::{faults, names, read, table, written, Costs};
use slow::kinds::KINDS;
use slow::{run, selftest};
use std::path::Path;
use std::process::ExitCode;

/// How many times wider the margin is for times than for counts: a machine is
/// shared with whatever else it does, and no two are alike.
const SLACK: f64 = 4.0;

fn main() -> ExitCode {
    let words: Vec<String> = std::env::args().skip(1).collect();
    let words: Vec<&str> = words.iter().map(String::as_str).collect();
    let result = match &words[..] {
        ["alike"] => alike(),
        ["calls"] => {
            calls();
            Ok(())
        }
        ["judge", counts, dumps] => {
            counted(Path::new(dumps)).and_then(|costs| judged(counts, &costs, "instructions", 1.0))
        }
        ["write", counts, dumps] => counted(Path::new(dumps)).and_then(|costs| put(counts, &costs)),
        ["times", counts] => by_time(counts),
        _ => Err(
            "usage: slow alike | calls | judge COUNTS DUMPS | write COUNTS DUMPS | times COUNTS"
                .into(),
        ),
    };
    match result {
        Ok(()) => ExitCode::SUCCESS,
        Err(fault) => {
            println!("slow: {fault}");
            ExitCode::FAILURE
        }
    }
}

/// Both sides on every input, in both sizes: the numbers and the rooms.
fn alike() -> Result<(), String> {
    for kind in KINDS {
        for size in [kind.cut, kind.twice()] {
            let case = kind.case(size);
            let (ours, theirs) = (run::archive(&case).0, run::second(&case).0);
            if ours != theirs {
                return Err(format!("{}: the two sides differ", kind.name));
            }
            if !kind.is_due(&case, &ours) {
                return Err(format!("{}: drew {:?}", kind.name, ours.numbers));
            }
        }
    }
    println!("slow: both sides answer {} inputs alike, each in two sizes", KINDS.len());
    Ok(())
}

/// The self-test, then the costs beside the committed counts.
fn judged(counts: &str, costs: &Costs, unit: &str, slack: f64) -> Result<(), String> {
    let text = std::fs::read_to_string(counts).map_err(|fault| format!("{counts}: {fault}"))?;
    let dues = read(&text)?;
    if !selftest::run(costs) {
        return Err("the self-test failed".into());
    }
    print!("{}", table(costs, &dues, unit));
    let faults = faults(&names(), costs, &dues, slack);
    if faults.is_empty() {
        println!("slow: {} inputs, none costs more than it may", KINDS.len());
        return Ok(());
    }
    faults.iter().for_each(|fault| println!("slow: FAILED: {fault}"));
    Err(format!("{} faults", faults.len()))
}

/// Writes the counts of these costs.
fn put(counts: &str, costs: &Costs) -> Result<(), String> {
    std::fs::write(counts, written(costs)).map_err(|fault| format!("{counts}: {fault}"))?;
    println!("slow: {counts} written anew");
    Ok(())
}

/// Times instead of counts, with a fair book for the measure.
fn by_time(counts: &str) -> Result<(), String> {
    let text = std::fs::read_to_string(counts).map_err(|fault| format!("{counts}: {fault}"))?;
    let fair = read(&text)?.get(FAIR).map(|due| due.count);
    let fair = fair.ok_or(format!("{FAIR}: has no committed count"))?;
    println!(
        "slow: no valgrind: times instead of instructions, with {FAIR} for the measure and {SLACK} times the margin"
    );
    judged(counts, &timed(fair), "as time", SLACK)
}
