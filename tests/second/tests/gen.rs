//! The generator: it reaches every answer, it is the same for the same seed,
//! and no bytes whatever make a check panic.

use second::book::Book;
use second::cases::{self, drawn, Case};
use second::gen::dice::Dice;
use second::gen::{self, damage, Which};
use second::{check_finding, check_table, complete_clearance, line, name};
use std::collections::{HashMap, HashSet};

/// The answers of a table check that can occur.
const TABLE: [u32; 16] = [0, 1, 2, 3, 4, 5, 6, 7, 10, 11, 12, 13, 14, 15, 17, 18];

/// The answers of a finding check beside those of its witness's table.
const MORE: [u32; 5] = [8, 21, 22, 23, 24];

/// How often each answer is drawn.
fn counts(which: Which, count: usize) -> HashMap<u32, usize> {
    let mut counts = HashMap::new();
    for case in gen::cases_of(11, count, which) {
        *counts.entry(drawn(&case).0).or_insert(0) += 1;
    }
    counts
}

/// Each answer that can occur is at least one case in two hundred.
#[test]
fn every_answer_is_reached() {
    let tables = counts(Which::Tables, 3000);
    let findings = counts(Which::Findings, 3000);
    let programs = counts(Which::Programs, 2000);
    for number in TABLE {
        assert!(tables[&number] >= 15, "table {number} {tables:?}");
        assert!(findings[&number] >= 15, "finding {number} {findings:?}");
        assert!(number == 7 || programs[&number] >= 10, "{programs:?}");
    }
    for number in MORE {
        assert!(findings[&number] >= 15, "finding {number} {findings:?}");
    }
    assert_eq!(tables.len(), TABLE.len());
    assert_eq!(findings.len(), TABLE.len() + MORE.len());
}

/// Answer 3 is reached in each section, and 2 at each section.
#[test]
fn every_section_is_reached() {
    let mut seen = HashSet::new();
    for case in gen::cases_of(12, 4000, Which::Tables) {
        let answer = check_table(&case.model, &case.second, &mut case.node_work.clone());
        seen.insert((answer.number, answer.place));
    }
    for section in 1..=8 {
        assert!(seen.contains(&(2, section)), "2 at {section}");
        assert!(section == 8 || seen.contains(&(3, section)), "3 at {section}");
    }
}

/// Adds the leaf rules of an accepted clearance.
fn leaf_rules(finding: &[u8], rules: &mut HashSet<u8>) {
    let mut at = 4;
    while at < finding.len() {
        if finding[at] == 0 {
            at += 3;
        } else {
            rules.insert(finding[at + 1]);
            at += 4;
        }
    }
}

/// Accepted clearances close leaves of every rule, and many are not the
/// complete one.
#[test]
fn accepted_clearances_are_of_every_sort() {
    let (mut rules, mut other, mut witnesses) = (HashSet::new(), 0, 0);
    for case in gen::cases_of(13, 6000, Which::Findings) {
        if drawn(&case).0 != 0 {
            continue;
        }
        if case.second[2] == 0 {
            witnesses += 1;
            continue;
        }
        let select = usize::from(case.second[0]);
        if complete_clearance(&case.model, select).as_ref() != Some(&case.second) {
            leaf_rules(&case.second, &mut rules);
            other += 1;
        }
    }
    let all: HashSet<u8> = [11, 12, 13, 15, 17, 18, 20].into();
    assert_eq!(rules, all);
    assert!(other > 300 && witnesses > 100, "{other} {witnesses}");
}

/// The same seed gives the same cases, another seed others; each goes through
/// the protocol unchanged.
#[test]
fn same_seed_same_cases() {
    let first = gen::cases(5, 300);
    assert_eq!(first, gen::cases(5, 300));
    assert_ne!(first[0].model, gen::cases(6, 1)[0].model);
    let mut bytes = Vec::new();
    first.iter().for_each(|case| case.write(&mut bytes));
    assert_eq!(Case::read_all(&bytes), (first, 0));
}

/// Rooms hold what document 01 owes: untouched up to 7 or 8; after that the
/// nodes' values, or zeros; and bytes past the counts are never touched.
#[test]
fn rooms_hold_what_is_owed() {
    for case in gen::cases(14, 6000) {
        let (mut nodes, mut symbols) = (case.node_work.clone(), case.symbol_work.clone());
        let answer = match case.kind {
            cases::TABLE => check_table(&case.model, &case.second, &mut nodes),
            cases::FINDING => check_finding(&case.model, &case.second, &mut nodes, &mut symbols),
            _ => continue,
        };
        if (1..=4).contains(&answer.number) {
            assert_eq!((&nodes, &symbols), (&case.node_work, &case.symbol_work));
            continue;
        }
        let book = Book::read(&case.model).expect("a model that was not refused");
        let early = match case.kind {
            cases::TABLE => answer.number > 0 && answer.number <= 7,
            _ => [21, 7, 8].contains(&answer.number),
        };
        if early {
            assert_eq!((&nodes, &symbols), (&case.node_work, &case.symbol_work));
            continue;
        }
        let (node_count, symbol_count) = (book.nodes.len(), book.symbols.len());
        assert_eq!(nodes[node_count..], case.node_work[node_count..]);
        assert!(nodes[..node_count].iter().all(|&value| value <= 2));
        if case.kind == cases::FINDING {
            assert!(nodes[..node_count].iter().all(|&value| value == 0));
            assert!(symbols[..symbol_count].iter().all(|&value| value == 0));
            assert_eq!(symbols[symbol_count..], case.symbol_work[symbol_count..]);
        }
    }
}

/// Runs everything on some bytes.
fn run_all(model: &[u8], second: &[u8], nodes: usize, symbols: usize) {
    let (mut nodes, mut symbols) = (vec![1; nodes], vec![1; symbols]);
    check_table(model, second, &mut nodes);
    check_finding(model, second, &mut nodes, &mut symbols);
    name(model, second.len());
    line(&[model, second].concat());
    complete_clearance(model, 0);
    Case::read_all(second);
}

/// Random bytes, and random changes of good cases, make nothing panic.
#[test]
fn no_bytes_make_a_check_panic() {
    let mut dice = Dice::new(15, 0);
    for case in gen::cases(15, 4000) {
        let (mut model, mut second) = (case.model, case.second);
        for _ in 0..3 {
            match dice.below(6) {
                0 => damage::flip(&mut dice, &mut model, 36),
                1 => damage::flip(&mut dice, &mut model, 0),
                2 => damage::flip(&mut dice, &mut second, 0),
                3 => damage::cut_or_extend(&mut dice, &mut second),
                4 => damage::flip(&mut dice, &mut second, 4),
                _ => damage::cut_or_extend(&mut dice, &mut model),
            }
            let (nodes, symbols) = (dice.below(40), dice.below(14));
            run_all(&model, &second, nodes, symbols);
        }
    }
    for _ in 0..3000 {
        let length = dice.below(120);
        let mut model: Vec<u8> = (0..length).map(|_| dice.byte()).collect();
        if model.len() > 2 && dice.chance(70) {
            model[0] = length as u8;
            model[1] = 0;
        }
        let length = dice.below(40);
        let second: Vec<u8> = (0..length).map(|_| dice.byte() % 4).collect();
        run_all(&model, &second, 9, 9);
    }
}

/// Long books, long chains of nodes and long slices are answered soon and
/// without a panic.
#[test]
fn long_inputs_make_nothing_panic() {
    let mut sketch = second::sketch::Sketch::default();
    sketch.node(0, 2, 0);
    for node in 0..10_000 {
        sketch.node(5 + (node % 2) as u8, node, node * (node % 2));
    }
    sketch.symbol(0, "A", 10_000, 10_000);
    sketch.selects.push([0, 0, 10_000]);
    let model = sketch.bytes();
    let mut finding = vec![0, 0, 1, 0];
    finding.extend([1, 20, 0, 0].repeat(16_000));
    run_all(&model, &finding, 10_001, 1);
    run_all(&vec![0; 70_000], &vec![1; 70_000], 0, 0);
    run_all(&vec![255; 65_535], &vec![255; 65_535], 70_000, 70_000);
}
