//! What in a case counts by the records of a section: brought down when some
//! records go, so that a case made smaller still says the same.

use crate::shrink::{count, is_clearance, lower};
use second::book::{u16_at, HEAD, WIDTH};
use second::cases::{Case, FINDING, NAME, TABLE};
use std::ops::Range;

/// The sections, from 0.
const SYMBOLS: usize = 0;
const NODES: usize = 1;
const SELECTS: usize = 3;
const CHOICES: usize = 5;
const MEMBERS: usize = 6;
const TEXTS: usize = 7;

/// The numbers of two bytes that point into a section: in a record of the
/// first, at the second, into the third. Nodes are apart.
const POINTS: [(usize, usize, usize); 16] = [
    (SYMBOLS, 2, TEXTS),
    (SYMBOLS, 4, NODES),
    (SYMBOLS, 6, NODES),
    (2, 0, SYMBOLS),
    (2, 2, NODES),
    (2, 4, NODES),
    (SELECTS, 0, SYMBOLS),
    (SELECTS, 2, SYMBOLS),
    (SELECTS, 4, NODES),
    (4, 0, SYMBOLS),
    (4, 2, NODES),
    (4, 4, NODES),
    (4, 6, NODES),
    (CHOICES, 2, NODES),
    (CHOICES, 4, MEMBERS),
    (MEMBERS, 0, SYMBOLS),
];

/// Brings down what points behind or at records that went from a section.
pub fn lowered(case: &mut Case, section: usize, from: usize, many: usize) {
    let lost = |bytes: &mut [u8], at: usize| bring_down(bytes, at, from, many);
    if section == SYMBOLS && case.model.len() >= 4 && u16_at(&case.model, 2) != 65535 {
        lost(&mut case.model, 2);
    }
    for (owner, offset, into) in POINTS.into_iter().filter(|point| point.2 == section) {
        for record in 0..count(&case.model, owner) {
            if let Some(at) = place(&case.model, owner, record, offset) {
                let (last, took) = (from + many, u16_at(&case.model, at));
                if into == MEMBERS && (took..took + u16_at(&case.model, at + 2)).contains(&from) {
                    lower(&mut case.model, at + 2, many);
                } else if into != MEMBERS || took >= last {
                    lost(&mut case.model, at);
                }
            }
        }
    }
    for record in 0..count(&case.model, NODES) {
        let Some(at) = place(&case.model, NODES, record, 0) else { break };
        let into = match case.model[at] {
            1 => SYMBOLS,
            2 => TEXTS,
            5.. => NODES,
            _ => continue,
        };
        if into == section {
            lost(&mut case.model, at + 2);
            if case.model[at] > 5 {
                lost(&mut case.model, at + 4);
            }
        }
    }
    bytes_lowered(case, section, from, many);
}

/// The same for the table, the finding, or the index of a name.
fn bytes_lowered(case: &mut Case, section: usize, from: usize, many: usize) {
    if case.kind == NAME && section == SYMBOLS {
        case.index = case.index.saturating_sub(many as u32);
    }
    let front = if case.kind == FINDING { 4 } else { 0 };
    if front == 4 && section == SELECTS && case.second.len() >= 2 {
        bring_down(&mut case.second, 0, from, many);
    }
    if is_clearance(case) {
        let (finding, mut at) = (&mut case.second, 4);
        while at + 3 <= finding.len() {
            let split = finding[at] == 0;
            let into = match finding[at + 1] {
                _ if split => SYMBOLS,
                15 | 17 => CHOICES,
                20 => SELECTS,
                _ => SYMBOLS,
            };
            let number = if split { at + 1 } else { at + 2 };
            if into == section && number + 2 <= finding.len() {
                bring_down(finding, number, from, many);
            }
            at += if split { 3 } else { 4 };
        }
    } else if section == SYMBOLS && (case.kind == TABLE || case.kind == FINDING) {
        for _ in 0..many {
            without_entry(&mut case.second, front, from);
        }
    }
}

/// Where a field of a record stands, if it is there.
fn place(model: &[u8], section: usize, record: usize, offset: usize) -> Option<usize> {
    let at = u16_at(model.get(..HEAD)?, 4 + 4 * section) + record * WIDTH[section] + offset;
    (at + 4 <= model.len()).then_some(at)
}

/// Brings one number down: past the records that went by their number, at one
/// of them to the first record of all.
fn bring_down(bytes: &mut [u8], at: usize, from: usize, many: usize) {
    let number = u16_at(bytes, at);
    if number >= from {
        lower(bytes, at, if number >= from + many { many } else { number });
    }
}

/// Takes one entry out of the table at a front, as far as it can be read.
fn without_entry(bytes: &mut Vec<u8>, front: usize, entry: usize) {
    let Some(table) = bytes.get(front..) else { return };
    let entries = if table.len() < 8 { 0 } else { u16_at(table, 2) };
    if entry >= entries || 4 + 4 * entries > table.len() {
        return;
    }
    let mut table = table.to_vec();
    let length = usize::from(table[4 * entry + 5]);
    let start = u16_at(&table, 4 * entry + 6);
    if start >= 4 + 4 * entries && start + length <= table.len() {
        table.drain(start..start + length);
    }
    for other in 0..entries {
        lower(&mut table, 6 + 4 * other, if other > entry { 4 + length } else { 4 });
    }
    table.drain(4 + 4 * entry..8 + 4 * entry);
    lower(&mut table, 2, 1);
    let total = table.len() as u16;
    table[..2].copy_from_slice(&total.to_le_bytes());
    bytes.truncate(front);
    bytes.extend(table);
}

/// The subtrees of the split at an offset; none if there is none, or a cut one.
pub fn subtrees(model: &[u8], finding: &[u8], at: usize) -> Vec<Range<usize>> {
    let mut parts = Vec::new();
    let mut end = at + 3;
    for _ in 0..branches(model, finding, at).unwrap_or(0) {
        match tree_end(model, finding, end, 70) {
            Some(next) => parts.push(end..next),
            None => return Vec::new(),
        }
        end = parts[parts.len() - 1].end;
    }
    parts
}

/// How many subtrees the split at an offset has.
fn branches(model: &[u8], finding: &[u8], at: usize) -> Option<usize> {
    let bytes = finding.get(at..at + 3).filter(|bytes| bytes[0] == 0)?;
    let record = place(model, SYMBOLS, u16_at(bytes, 1), 0)?;
    Some(2 + usize::from(model[record] == 1))
}

/// Where the tree at an offset ends.
fn tree_end(model: &[u8], finding: &[u8], at: usize, deep: usize) -> Option<usize> {
    if *finding.get(at)? == 1 {
        return Some(at + 4).filter(|&end| end <= finding.len());
    }
    let mut end = at + 3;
    for _ in 0..branches(model, finding, at).filter(|_| deep > 0)? {
        end = tree_end(model, finding, end, deep - 1)?;
    }
    Some(end)
}
