//! A book that nobody made to be slow.

use crate::{table_case, Size};
use differential::big::{Big, Shape};
use differential::names::Naming;
use second::cases::Case;

/// The shape of a usual large book.
const USUAL: Shape = Shape {
    symbols: 1747,
    nodes: 1800,
    defaults: 1500,
    selects: 1012,
    ranges: 20,
    choices: 10,
    bytes: 58_000,
    naming: Naming::Real,
};

/// A usual book of so many bytes, with a table that keeps every rule.
pub fn a_fair_book(size: Size) -> Case {
    let big = Big::new(&USUAL.scaled(size.book), 1);
    table_case(&big.sketch, &big.values)
}
