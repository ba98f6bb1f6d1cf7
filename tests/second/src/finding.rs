//! The finding check: its head, its rooms, and the witness.

use crate::book::{u16_at, Book};
use crate::clearance;
use crate::rules::first_broken;
use crate::table;
use crate::values::{self, State};
use crate::Answer;

/// The longest finding.
pub const LONGEST: usize = 65535;

/// Checks one finding about one select. Refused at 1 to 4, 21, 7 or 8 nothing is
/// touched; later the first node-count and symbol-count bytes are zero.
pub fn check_finding(
    model: &[u8],
    finding: &[u8],
    node_work: &mut [u8],
    symbol_work: &mut [u8],
) -> Answer {
    let book = match Book::read(model) {
        Ok(book) => book,
        Err(refused) => return refused,
    };
    let (nodes, symbols) = (book.nodes.len(), book.symbols.len());
    let select = match head(&book, finding) {
        Some(select) => select,
        None => return Answer::at(21, 0),
    };
    if node_work.len() < nodes {
        return Answer::at(7, nodes);
    }
    if symbol_work.len() < symbols {
        return Answer::at(8, symbols);
    }
    node_work[..nodes].fill(0);
    symbol_work[..symbols].fill(0);
    if finding[2] == 0 {
        witness(&book, select, &finding[4..]).unwrap_or_else(|refused| refused)
    } else {
        clearance::check(&book, select, finding)
    }
}

/// The select a finding is about, if its head and length are good.
fn head(book: &Book, finding: &[u8]) -> Option<usize> {
    if finding.len() < 4 || finding.len() > LONGEST || finding[2] > 1 || finding[3] != 0 {
        return None;
    }
    Some(u16_at(finding, 0)).filter(|&select| select < book.selects.len())
}

/// The answer to a witness: the table's own, or 24 if it is valid and the
/// select is met.
fn witness(book: &Book, select: usize, bytes: &[u8]) -> Result<Answer, Answer> {
    let entries = table::read(book, bytes)?;
    let mut nodes = vec![0; book.nodes.len()];
    values::fill(book, &entries, &mut nodes);
    let answer = first_broken(book, &entries, &nodes);
    let state = State { book, entries: &entries, nodes: &nodes };
    if answer == Answer::KEPT && !state.unmet(&book.selects[select]) {
        return Err(Answer::at(24, select));
    }
    Ok(answer)
}
