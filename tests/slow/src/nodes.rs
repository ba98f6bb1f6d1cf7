//! Books of nodes: trees, chains and equalities, in a table check.

use crate::{constants, filled, table_case, witness_case, Size, Y};
use second::cases::Case;
use second::sketch::{Sketch, Value};

/// How deep the trees are.
const DEPTH: u32 = 8;

/// The nodes of one such tree.
const IN_TREE: usize = (2 << DEPTH) - 1;

/// A binary tree whose lowest nodes are of this op over this pair; gives its
/// root.
fn tree(sketch: &mut Sketch, depth: u32, op: u8, pair: [u16; 2]) -> u16 {
    if depth == 0 {
        return sketch.node(op, pair[0], pair[1]);
    }
    let [left, right] = [0, 1].map(|_| tree(sketch, depth - 1, op, pair));
    sketch.node(6 + (depth % 2) as u8, left, right)
}

/// Binary trees of depth 8 over one leaf, together of about so many nodes;
/// gives the roots.
pub fn trees(sketch: &mut Sketch, nodes: usize, leaf: u16) -> Vec<u16> {
    (0..nodes / IN_TREE).map(|_| tree(sketch, DEPTH, 6, [leaf, leaf])).collect()
}

/// The same over equalities of a pair.
pub fn equal_trees(sketch: &mut Sketch, nodes: usize, pair: [u16; 2]) -> Vec<u16> {
    (0..nodes / IN_TREE).map(|_| tree(sketch, DEPTH, 8, pair)).collect()
}

/// One binary tree of about so many nodes; gives its root.
pub fn one_tree(sketch: &mut Sketch, nodes: usize, leaf: u16) -> u16 {
    let (mut row, mut next) = (Vec::new(), Vec::new());
    (0..nodes / 2).for_each(|_| row.push(sketch.node(6, leaf, leaf)));
    while row.len() > 1 {
        for pair in row.chunks(2) {
            next.push(sketch.node(7, pair[0], pair[pair.len() - 1]));
        }
        (row, next) = (next, Vec::new());
    }
    row[0]
}

/// A chain of so many nodes, each on the one before it; gives the last.
pub fn chain(sketch: &mut Sketch, nodes: usize, leaf: u16) -> u16 {
    let mut last = leaf;
    for step in 0..nodes {
        last = sketch.node(6 + (step % 2) as u8, last, leaf);
    }
    last
}

/// A chain in which each node has the one before it for both operands: whoever
/// follows both without a memory never ends.
pub fn doubled(sketch: &mut Sketch, nodes: usize, leaf: u16) -> u16 {
    let mut last = leaf;
    for _ in 0..nodes {
        last = sketch.node(6, last, last);
    }
    last
}

/// Two leaves that are spelled unlike, and only just.
pub type Pair = fn(&mut Sketch) -> [u16; 2];

/// Texts of 64 bytes that differ in the last.
pub fn texts(sketch: &mut Sketch) -> [u16; 2] {
    let mut text = [b'x'; 64];
    let one = sketch.text_node(&text);
    text[63] = b'y';
    [one, sketch.text_node(&text)]
}

/// Ints of eleven letters that differ in the last.
pub fn ints(sketch: &mut Sketch) -> [u16; 2] {
    [sketch.int(i32::MIN), sketch.int(i32::MIN + 1)]
}

/// Hexes of ten letters that differ in the last.
pub fn hexes(sketch: &mut Sketch) -> [u16; 2] {
    [sketch.hex(u32::MAX), sketch.hex(u32::MAX - 1)]
}

/// An int, and a text that differs from its spelling in the last letter.
pub fn int_and_text(sketch: &mut Sketch) -> [u16; 2] {
    [sketch.int(i32::MIN), sketch.text_node(b"-2147483647")]
}

/// An equality of two leaves; gives the node.
pub fn equal(sketch: &mut Sketch, pair: [u16; 2]) -> u16 {
    sketch.node(8, pair[0], pair[1])
}

/// A table check of a book in which every node is an equality of two leaves.
fn equalities(size: Size, pair: Pair, differ: bool) -> Case {
    let mut sketch = constants();
    filled(&mut sketch, 0, 1, Y);
    let pair = pair(&mut sketch);
    (0..size.book).for_each(|_| _ = sketch.node(8 + u8::from(differ), pair[0], pair[1]));
    table_case(&sketch, &[Value::Three(0)])
}

/// Every node compares texts of 64 bytes.
pub fn equal_texts(size: Size) -> Case {
    equalities(size, texts, false)
}

/// Every node spells two ints.
pub fn equal_ints(size: Size) -> Case {
    equalities(size, ints, true)
}

/// Every node spells two hexes.
pub fn equal_hexes(size: Size) -> Case {
    equalities(size, hexes, false)
}

/// Every node spells an int beside a text.
pub fn equal_int_and_text(size: Size) -> Case {
    equalities(size, int_and_text, false)
}

/// Every node compares two symbols with strings of 64 bytes, in a witness.
pub fn equal_strings(size: Size) -> Case {
    let mut sketch = constants();
    filled(&mut sketch, 2, 2, Y);
    filled(&mut sketch, 0, 2, Y);
    sketch.selects.push([2, 3, Y]);
    let pair = [sketch.node(1, 0, 0), sketch.node(1, 1, 0)];
    (0..size.book).for_each(|_| _ = equal(&mut sketch, pair));
    let (one, mut other) = (vec![b'x'; 64], vec![b'x'; 64]);
    other[63] = b'y';
    let values = [Value::Text(one), Value::Text(other), Value::Three(0), Value::Three(0)];
    witness_case(&sketch, &values)
}

/// Every node compares two tristates.
pub fn equal_tristates(size: Size) -> Case {
    let mut sketch = constants();
    filled(&mut sketch, 1, 2, Y);
    let pair = [sketch.node(1, 0, 0), sketch.node(1, 1, 0)];
    (0..size.book).for_each(|_| _ = equal(&mut sketch, pair));
    table_case(&sketch, &[Value::Three(1), Value::Three(2)])
}

/// Trees of depth 8 over a symbol.
pub fn trees_in_a_table(size: Size) -> Case {
    let mut sketch = constants();
    filled(&mut sketch, 0, 1, Y);
    let leaf = sketch.node(1, 0, 0);
    trees(&mut sketch, size.book, leaf);
    table_case(&sketch, &[Value::Three(2)])
}

/// One chain of nodes over a symbol.
pub fn a_chain_in_a_table(size: Size) -> Case {
    let mut sketch = constants();
    filled(&mut sketch, 0, 1, Y);
    let leaf = sketch.node(1, 0, 0);
    chain(&mut sketch, size.book, leaf);
    table_case(&sketch, &[Value::Three(2)])
}
