//! The worked model W, its cases P1 to P10, the run cases, and the program.

use super::*;
use crate::sketch::{three_table, witness};

/// The model W of document 01.
pub fn w() -> Sketch {
    let mut sketch = Sketch::default();
    sketch.node(0, 0, 0);
    sketch.node(0, 2, 0);
    sketch.node(1, 2, 0);
    sketch.symbol(0, "PUSH", 1, 1);
    sketch.symbol(0, "TICK", 0, 2);
    sketch.symbol(0, "RTC", 1, 1);
    sketch.selects.push([0, 1, 1]);
    sketch
}

/// All cases of this part.
pub fn all() -> Vec<Named> {
    let mut all = worked_tables();
    all.extend(worked_findings());
    all.extend(run_cases());
    all.extend(run_names());
    all.extend(programs());
    all
}

/// P1 to P5.
fn worked_tables() -> Vec<Named> {
    let case = |name: &str, values: [u8; 3], expected: &str| {
        table_bytes(name, &w().bytes(), &three_table(&values), expected)
    };
    vec![
        case("p1-selected-above-its-dependency", [2, 2, 0], "0 65535 65535 000200/"),
        case("p2-below-lower", [2, 0, 0], "11 1 65535 000200/"),
        case("p3-not-the-default", [0, 2, 0], "13 1 65535 000200/"),
        case("p4-all-n", [0, 0, 0], "0 65535 65535 000200/"),
        case("p5-m-on-a-boolean", [1, 0, 0], "10 0 65535 000200/"),
    ]
}

/// P6 to P10.
fn worked_findings() -> Vec<Named> {
    let mut free = w();
    free.symbols[1].dependency = 1;
    let mut narrow = w();
    narrow.selects[0][2] = 2;
    let zero = "0 65535 65535 000000/000000";
    let p6 = witness(0, &three_table(&[2, 2, 0]));
    let p7 = witness(0, &three_table(&[2, 2, 2]));
    let leaf = [0, 0, 1, 0, 1, 20, 0, 0];
    let split = [0, 0, 1, 0, 0, 2, 0, 1, 20, 0, 0, 1, 20, 0, 0];
    let open = "23 4 65535 000000/000000";
    let met = "24 0 65535 000000/000000";
    vec![
        finding_case("p6-witness-unmet", &w(), &p6, zero),
        finding_case("p7-witness-met", &w(), &p7, met),
        finding_case("p8-closed-because-one-pick-closes", &w(), &leaf, open),
        finding_case("p9-dependency-y", &free, &leaf, zero),
        finding_case("p10-split-on-the-condition", &narrow, &split, zero),
    ]
}

/// A book of one int with a prompt y and a range over it.
pub fn ranged(low: i32, high: i32) -> Sketch {
    let mut sketch = Sketch::default();
    sketch.node(0, 2, 0);
    let low = sketch.int(low);
    let high = sketch.int(high);
    sketch.symbol(3, "SIZE", 0, 0);
    sketch.ranges.push([0, low, high, 0]);
    sketch
}

/// The run cases other than the names.
fn run_cases() -> Vec<Named> {
    let empty = Sketch::default().bytes();
    let mut short = empty[..35].to_vec();
    short[0] = 35;
    let mut upper = Sketch::default();
    upper.node(0, 1, 0);
    upper.symbol(0, "B", 0, 0);
    let mut choice = Sketch::default();
    choice.node(0, 2, 0);
    choice.choice(0, 1, 0, &[]);
    let lowest = ranged(i32::MIN, -1);
    vec![
        table_bytes("run-no-symbols-36-bytes", &empty, &[4, 0, 0, 0], "0 65535 65535 /"),
        table_bytes("run-35-bytes", &short, &[4, 0, 0, 0], "1 0 65535 /"),
        table_case("run-boolean-prompt-m-value-y", &upper, &[Y], "12 0 65535 01/"),
        table_case("run-mandatory-choice-without-members", &choice, &[], "17 0 65535 02/"),
        table_case(
            "run-lowest-int-in-range",
            &lowest,
            &[Value::Int(i32::MIN)],
            "0 65535 65535 020000/",
        ),
        table_case(
            "run-empty-string-in-range",
            &lowest,
            &[Value::Text(Vec::new())],
            "14 0 0 020000/",
        ),
    ]
}

/// The run cases of names.
fn run_names() -> Vec<Named> {
    let named = |length: usize| {
        let mut sketch = Sketch::default();
        sketch.node(0, 2, 0);
        sketch.symbol(0, &"A".repeat(length), 0, 0);
        sketch
    };
    vec![
        table_case("run-name-of-64", &named(64), &[Y], "0 65535 65535 02/"),
        table_case("run-name-of-65", &named(65), &[Y], "3 1 0 ee/"),
        name_case("name-of-64-whole", &named(64).bytes(), 0, &"41".repeat(64)),
        name_case("name-of-65-is-empty", &named(65).bytes(), 0, ""),
        name_case("name-of-rtc", &w().bytes(), 2, "525443"),
        name_case("name-index-at-the-count", &w().bytes(), 3, ""),
        name_case("name-index-wraps-at-65536", &w().bytes(), 65536 + 1, ""),
        name_case("name-index-largest", &w().bytes(), u32::MAX, ""),
    ]
}

/// The program: its printed line, and odd inputs.
fn programs() -> Vec<Named> {
    let worked = [19, 0, 3, 0, 0, 1, 16, 0, 0, 1, 17, 0, 0, 1, 18, 0, 2, 0, 0];
    let model = w().bytes();
    let input = [&model[..], &worked[..]].concat();
    let with_length = |length: u16| {
        let mut input = input.clone();
        input[..2].copy_from_slice(&length.to_le_bytes());
        input
    };
    let beside = [&choice_of_two().bytes()[..], &three_table(&[2, 1])].concat();
    let at_m = [&with_modules().bytes()[..], &three_table(&[0, 1])].concat();
    let valid = [&model[..], &three_table(&[2, 2, 0])].concat();
    let long = [&model[..], &worked, &[0; 131_072]].concat();
    vec![
        program_case("program-worked-line", &input, "11 1 65535 TICK"),
        program_case("program-valid", &valid, "0 65535 65535 -"),
        program_case("program-no-bytes", &[], "1 0 65535 -"),
        program_case("program-one-byte", &[36], "1 0 65535 -"),
        program_case("program-length-0", &with_length(0), "1 0 65535 -"),
        program_case("program-length-1", &with_length(1), "1 0 65535 -"),
        program_case("program-length-past-the-input", &with_length(115), "1 0 65535 -"),
        program_case("program-length-is-all-so-no-table", &with_length(114), "2 8 65535 -"),
        program_case("program-without-a-table", &model, "5 0 65535 -"),
        program_case("program-table-over-65535", &long, "5 0 65535 -"),
        program_case("program-names-the-second-place-of-15", &beside, "15 0 1 TWO"),
        program_case("program-names-the-place-of-18", &at_m, "18 1 65535 TRI"),
    ]
}

/// The modules symbol and a tristate, with prompts y.
fn with_modules() -> Sketch {
    let mut sketch = Sketch::default();
    sketch.node(0, 2, 0);
    sketch.modules = sketch.symbol(0, "MODULES", 0, 0);
    sketch.symbol(1, "TRI", 0, 0);
    sketch
}

/// A tristate choice of the symbols ONE and TWO, mandatory, all prompts y.
pub fn choice_of_two() -> Sketch {
    let mut sketch = Sketch::default();
    sketch.node(0, 2, 0);
    sketch.symbol(1, "ONE", 0, 0);
    sketch.symbol(1, "TWO", 0, 0);
    sketch.choice(1, 1, 0, &[0, 1]);
    sketch
}
