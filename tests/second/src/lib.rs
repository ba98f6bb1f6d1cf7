//! A second program for document 01: the check of one configuration table
//! against one model book, the check of one finding about one select, the name
//! of a symbol, and the printed line. Written from document 01 alone, in plain
//! Rust, so that its answers can be compared with those of the first program.

pub mod book;
pub mod brute;
pub mod cases;
pub mod clearance;
pub mod finding;
pub mod gen;
pub mod literal;
pub mod named;
pub mod program;
pub mod rules;
pub mod sets;
pub mod sketch;
pub mod spell;
pub mod table;
pub mod values;

pub use clearance::complete_clearance;
pub use finding::check_finding;
pub use program::line;

use book::Book;

/// The number that stands for "no place" in an answer, and for "no modules
/// symbol" in a book.
pub const NO_PLACE: u32 = 65535;

/// One answer: its number, its place and its second place.
#[derive(Clone, Copy, PartialEq, Eq, Debug)]
pub struct Answer {
    pub number: u32,
    pub place: u32,
    pub second: u32,
}

impl Answer {
    /// The answer 0: the table is valid, or the finding is accepted.
    pub const KEPT: Answer = Answer { number: 0, place: NO_PLACE, second: NO_PLACE };

    /// An answer with one place and no second place.
    pub fn at(number: u32, place: usize) -> Answer {
        Answer { number, place: place as u32, second: NO_PLACE }
    }

    /// An answer with a place and a second place.
    pub fn both(number: u32, place: usize, second: usize) -> Answer {
        Answer { number, place: place as u32, second: second as u32 }
    }
}

/// Checks one configuration table against one model book. Refused at 1 to 7 the
/// node work is untouched; else its first bytes hold each node's value.
pub fn check_table(model: &[u8], table: &[u8], node_work: &mut [u8]) -> Answer {
    table_answer(model, table, node_work).unwrap_or_else(|refused| refused)
}

/// The table check with refusals as errors, in the order 1-4, 5-6, 7, 10-18.
fn table_answer(model: &[u8], table: &[u8], node_work: &mut [u8]) -> Result<Answer, Answer> {
    let book = Book::read(model)?;
    let entries = table::read(&book, table)?;
    let count = book.nodes.len();
    let room = match node_work.get_mut(..count) {
        Some(room) => room,
        None => return Err(Answer::at(7, count)),
    };
    values::fill(&book, &entries, room);
    Ok(rules::first_broken(&book, &entries, room))
}

/// The name of a symbol as a part of the model's own bytes: empty for an index
/// not below the symbol count, and for a model refused at 1 to 4.
pub fn name(model: &[u8], index: usize) -> &[u8] {
    match Book::read(model) {
        Ok(book) => book.symbols.get(index).map_or(&[], |symbol| symbol.name),
        Err(_) => &[],
    }
}
