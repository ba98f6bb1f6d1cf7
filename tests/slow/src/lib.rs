//! The inputs that cost the archive most: for each kind of them a generator,
//! which makes it as large as can be for the bench, and smaller for the gate.
//! Both sides must answer each of them alike. `judge` compares what they cost
//! with what was committed.

pub mod choices;
pub mod clearances;
pub mod counts;
pub mod fair;
pub mod judge;
pub mod kinds;
pub mod made;
pub mod names;
pub mod nodes;
pub mod records;
pub mod run;
pub mod selftest;

use second::cases::{Case, FINDING, NAME, TABLE};
use second::named::{NODE_FILL, SYMBOL_FILL};
use second::sketch::{self, Sketch, SymbolSketch, Value};
use std::collections::HashSet;

/// The first nodes of most books: the three values.
pub const N: u16 = 0;
pub const M: u16 = 1;
pub const Y: u16 = 2;

/// How large an input is: how many of the records that make it dear its book
/// has, and about how many leaves its clearance.
#[derive(Clone, Copy, PartialEq, Eq, Debug)]
pub struct Size {
    pub book: usize,
    pub leaves: usize,
}

/// The most names of three letters in the texts; longer ones stand in the same
/// bytes.
const THREES: usize = 1400;

/// A book with the three values for nodes, and nothing else.
pub fn constants() -> Sketch {
    let mut sketch = Sketch::default();
    (0..3).for_each(|value| _ = sketch.node(0, value, 0));
    sketch
}

/// Adds symbols of a type, with short names that lie over each other in the
/// texts. Other texts come later.
pub fn filled(sketch: &mut Sketch, kind: u8, count: usize, prompt: u16) {
    let from = sketch.symbols.len();
    let end = from + count;
    let letters = letters(end.min(THREES) + 3 + end / THREES);
    assert!(letters.starts_with(&sketch.texts[..sketch.texts.len().min(letters.len())]));
    if sketch.texts.len() < letters.len() {
        sketch.texts = letters;
    }
    for number in from..end {
        let (offset, length) = ((number % THREES) as u16, (3 + number / THREES) as u8);
        sketch.symbols.push(SymbolSketch { kind, length, offset, prompt, dependency: Y });
    }
}

/// So many letters, no three of which stand in a row twice.
fn letters(count: usize) -> Vec<u8> {
    let mut text = b"AA".to_vec();
    let mut taken = HashSet::new();
    let mut state = 1usize;
    while text.len() < count {
        state = (state * 1103 + 12345) % 65536;
        let last = text.len() - 2;
        let row = |letter: usize| [text[last], text[last + 1], b'A' + letter as u8];
        let free = (0..26).map(|step| row((state / 7 + step) % 26)).find(|row| taken.insert(*row));
        text.push(free.expect("a letter that is free")[2]);
    }
    text
}

/// A case of the name call for the last symbol.
pub fn name_of_last(sketch: &Sketch) -> Case {
    let index = sketch.symbols.len() as u32 - 1;
    Case { kind: NAME, model: model(sketch), index, ..Case::default() }
}

/// A case of the table check, with room for the nodes.
pub fn table_case(sketch: &Sketch, values: &[Value]) -> Case {
    Case {
        kind: TABLE,
        model: model(sketch),
        second: sketch::table(values),
        node_work: vec![NODE_FILL; sketch.nodes.len()],
        ..Case::default()
    }
}

/// A case of the finding check, with rooms of just the bytes needed.
pub fn finding_case(sketch: &Sketch, finding: &[u8]) -> Case {
    assert!(finding.len() <= 65535, "a finding of {} bytes", finding.len());
    Case {
        kind: FINDING,
        model: model(sketch),
        second: finding.to_vec(),
        node_work: vec![NODE_FILL; sketch.nodes.len()],
        symbol_work: vec![SYMBOL_FILL; sketch.symbols.len()],
        ..Case::default()
    }
}

/// A case of the finding check on a witness against select 0.
pub fn witness_case(sketch: &Sketch, values: &[Value]) -> Case {
    finding_case(sketch, &sketch::witness(0, &sketch::table(values)))
}

/// The bytes of a book, which must be no more than there may be.
fn model(sketch: &Sketch) -> Vec<u8> {
    let bytes = sketch.bytes();
    assert!(bytes.len() <= 65535, "a book of {} bytes", bytes.len());
    bytes
}
