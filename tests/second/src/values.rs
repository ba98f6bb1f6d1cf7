//! The values of nodes in a table, and Lower and Default.

use crate::book::{Book, Node, Select};
use crate::spell::alike;
use crate::table::Entry;

/// The three values.
pub const N: u8 = 0;
pub const M: u8 = 1;
pub const Y: u8 = 2;

/// Not v.
pub fn not(value: u8) -> u8 {
    Y - value
}

/// The value y or n of a statement.
pub fn truth(holds: bool) -> u8 {
    if holds {
        Y
    } else {
        N
    }
}

/// The value of an entry: n where it is not three-valued.
pub fn three(entry: Entry) -> u8 {
    match entry {
        Entry::Three(value) => value,
        _ => N,
    }
}

/// A leaf's own kind and content; a symbol's is its table entry. Operations
/// have none.
pub fn leaf<'a>(node: Node<'a>, entries: &[Entry<'a>]) -> Option<Entry<'a>> {
    match node {
        Node::Constant(value) => Some(Entry::Three(value)),
        Node::Symbol(symbol) => entries.get(symbol).copied(),
        Node::Text(text) => Some(Entry::Text(text)),
        Node::Int(number) => Some(Entry::Int(number)),
        Node::Hex(number) => Some(Entry::Hex(number)),
        _ => None,
    }
}

/// Fills the room, one byte for each node, with the nodes' values.
pub fn fill(book: &Book, entries: &[Entry], room: &mut [u8]) {
    for index in 0..book.nodes.len() {
        room[index] = value(book, entries, room, index);
    }
}

/// The value of one node, those of the earlier nodes being in the room.
fn value(book: &Book, entries: &[Entry], room: &[u8], index: usize) -> u8 {
    match book.nodes[index] {
        Node::Not(child) => not(room[child]),
        Node::And(left, right) => room[left].min(room[right]),
        Node::Or(left, right) => room[left].max(room[right]),
        Node::Equal(left, right) => truth(equal(book, entries, left, right)),
        Node::Differ(left, right) => truth(!equal(book, entries, left, right)),
        node => leaf(node, entries).map_or(N, three),
    }
}

/// Whether two leaves are spelled alike in a table.
fn equal(book: &Book, entries: &[Entry], left: usize, right: usize) -> bool {
    match (leaf(book.nodes[left], entries), leaf(book.nodes[right], entries)) {
        (Some(one), Some(other)) => alike(one, other),
        _ => false,
    }
}

/// A table against its book, with the values of all nodes.
#[derive(Clone, Copy)]
pub struct State<'s, 'a> {
    pub book: &'s Book<'a>,
    pub entries: &'s [Entry<'a>],
    pub nodes: &'s [u8],
}

impl<'a> State<'_, 'a> {
    /// The value of a symbol.
    pub fn symbol(&self, symbol: usize) -> u8 {
        three(self.entries[symbol])
    }

    /// The smaller of a select's selector and condition.
    pub fn push(&self, select: &Select) -> u8 {
        self.symbol(select.selector).min(self.nodes[select.condition])
    }

    /// Whether a select is unmet: its push exceeds the target's dependency.
    pub fn unmet(&self, select: &Select) -> bool {
        let dependency = self.book.symbols[select.target].dependency;
        self.push(select) > self.nodes[dependency]
    }

    /// Lower of a symbol.
    pub fn lower(&self, symbol: usize) -> u8 {
        let selects = self.book.selects_on[symbol].iter();
        selects.map(|&select| self.push(&self.book.selects[select])).max().unwrap_or(N)
    }

    /// The value node of the first default that applies to a symbol.
    fn default_node(&self, symbol: usize) -> Option<usize> {
        let defaults = self.book.defaults_of[symbol].iter();
        defaults
            .map(|&index| self.book.defaults[index])
            .find(|default| self.nodes[default.condition] > N)
            .map(|default| default.value)
    }

    /// Default of a boolean or tristate symbol.
    pub fn default_value(&self, symbol: usize) -> u8 {
        self.default_node(symbol).map_or(N, |node| self.nodes[node])
    }

    /// Default of a string, int or hex symbol, as kind and content.
    pub fn default_entry(&self, symbol: usize) -> Entry<'a> {
        match self.default_node(symbol) {
            Some(node) => leaf(self.book.nodes[node], self.entries).unwrap_or(Entry::Three(N)),
            None => Entry::Text(&[]),
        }
    }
}
