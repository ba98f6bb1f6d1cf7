//! The hand-named cases, each with the answer that document 01 gives it,
//! written by hand.

pub mod books;
pub mod findings;
pub mod rules;
pub mod sets;
pub mod tables;
pub mod worked;

use crate::cases::{self, Case};
use crate::sketch::{table, Sketch, Value};

/// The bytes that fill the rooms as lent.
pub const NODE_FILL: u8 = 0xee;
pub const SYMBOL_FILL: u8 = 0xdd;

/// The three values as they stand in a table.
pub const N: Value = Value::Three(0);
pub const M: Value = Value::Three(1);
pub const Y: Value = Value::Three(2);

/// A named case with what is expected of it: the front of its answer line, up
/// to a space or the end.
#[derive(Clone, Debug)]
pub struct Named {
    pub case: Case,
    pub expected: String,
}

impl Named {
    /// Whether the answer line is as expected.
    pub fn holds(&self) -> bool {
        let line = String::from_utf8_lossy(&self.case.answer()).into_owned();
        let whole = format!("{} {}", self.case.name, self.expected);
        let line = line.trim_end_matches('\n');
        line == whole || line.starts_with(&format!("{whole} "))
    }

    /// The case with other lengths of its rooms.
    pub fn rooms(mut self, nodes: usize, symbols: usize) -> Named {
        self.case.node_work = vec![NODE_FILL; nodes];
        self.case.symbol_work = vec![SYMBOL_FILL; symbols];
        self
    }
}

/// A case of the table check on bytes, with room for the nodes that the model
/// states.
pub fn table_bytes(name: &str, model: &[u8], table: &[u8], expected: &str) -> Named {
    let nodes = node_count(model);
    Named {
        case: Case {
            kind: cases::TABLE,
            name: name.into(),
            model: model.to_vec(),
            second: table.to_vec(),
            node_work: vec![NODE_FILL; nodes],
            ..Case::default()
        },
        expected: expected.into(),
    }
}

/// A case of the table check on a sketch and values.
pub fn table_case(name: &str, sketch: &Sketch, values: &[Value], expected: &str) -> Named {
    table_bytes(name, &sketch.bytes(), &table(values), expected)
}

/// A case of the finding check, with rooms of exact lengths.
pub fn finding_case(name: &str, sketch: &Sketch, finding: &[u8], expected: &str) -> Named {
    Named {
        case: Case {
            kind: cases::FINDING,
            name: name.into(),
            model: sketch.bytes(),
            second: finding.to_vec(),
            node_work: vec![NODE_FILL; sketch.nodes.len()],
            symbol_work: vec![SYMBOL_FILL; sketch.symbols.len()],
            index: 0,
        },
        expected: expected.into(),
    }
}

/// A case of the name call; the name is expected in hex.
pub fn name_case(name: &str, model: &[u8], index: u32, expected: &str) -> Named {
    Named {
        case: Case {
            kind: cases::NAME,
            name: name.into(),
            model: model.to_vec(),
            index,
            ..Case::default()
        },
        expected: expected.into(),
    }
}

/// A case of the program.
pub fn program_case(name: &str, input: &[u8], expected: &str) -> Named {
    Named {
        case: Case {
            kind: cases::PROGRAM,
            name: name.into(),
            model: input.to_vec(),
            ..Case::default()
        },
        expected: expected.into(),
    }
}

/// The node count that a model states, or 0 if it is too short to state one.
fn node_count(model: &[u8]) -> usize {
    let two = model.get(10..12);
    two.map_or(0, |two| usize::from(u16::from_le_bytes([two[0], two[1]])))
}

/// Every named case with its expected answer.
pub fn all() -> Vec<Named> {
    let groups =
        [worked::all(), books::all(), tables::all(), rules::all(), findings::all(), sets::all()];
    groups.into_iter().flatten().collect()
}

/// Every named case.
pub fn cases() -> Vec<Case> {
    all().into_iter().map(|named| named.case).collect()
}
