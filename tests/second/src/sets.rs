//! Sets of values, and the set of each node on a path.

use crate::book::{Book, Node};
use crate::spell::alike;
use crate::table::Entry;
use crate::values::{not, truth, N, Y};

/// A set of the three values, one bit for each.
#[derive(Clone, Copy, PartialEq, Eq, Debug)]
pub struct Set(u8);

impl Set {
    /// The set of no value, from which others are built.
    pub const EMPTY: Set = Set(0);

    /// The set of one value.
    pub fn one(value: u8) -> Set {
        Set(1 << value)
    }

    /// All values that a type allows; {n} where it is not three-valued.
    pub fn of_type(kind: u8) -> Set {
        match kind {
            0 => Set::one(N).with(Y),
            1 => Set(0b111),
            _ => Set::one(N),
        }
    }

    /// The set with one more value.
    pub fn with(self, value: u8) -> Set {
        Set(self.0 | 1 << value)
    }

    /// The set with all values of another.
    pub fn join(self, other: Set) -> Set {
        Set(self.0 | other.0)
    }

    /// Whether a value is in the set.
    pub fn has(self, value: u8) -> bool {
        self.0 >> value & 1 == 1
    }

    /// The values in the set, in order.
    pub fn values(self) -> impl Iterator<Item = u8> {
        (0..3).filter(move |&value| self.has(value))
    }

    /// The set of what an operation gives for every pair of values.
    pub fn pairs(self, other: Set, operation: impl Fn(u8, u8) -> u8) -> Set {
        let mut result = Set::EMPTY;
        for left in self.values() {
            for right in other.values() {
                result = result.with(operation(left, right));
            }
        }
        result
    }
}

/// The node sets worked out for one leaf. Only nodes that the leaf reads are
/// worked out, each once.
pub struct Memo {
    known: Vec<Set>,
    touched: Vec<usize>,
    waiting: Vec<usize>,
}

impl Memo {
    /// A memo for a book, with nothing worked out.
    pub fn new(book: &Book) -> Memo {
        Memo { known: vec![Set::EMPTY; book.nodes.len()], touched: Vec::new(), waiting: Vec::new() }
    }

    /// Forgets what was worked out.
    pub fn clear(&mut self) {
        for node in self.touched.drain(..) {
            self.known[node] = Set::EMPTY;
        }
    }

    /// The set of a node where each symbol has the given set.
    pub fn node(&mut self, book: &Book, symbols: &[Set], root: usize) -> Set {
        self.waiting.push(root);
        while let Some(&node) = self.waiting.last() {
            let unknown = self.unknown_child(book, node);
            if let Some(child) = unknown {
                self.waiting.push(child);
                continue;
            }
            self.waiting.pop();
            if self.known[node] == Set::EMPTY {
                self.known[node] = self.work_out(book, symbols, node);
                self.touched.push(node);
            }
        }
        self.known[root]
    }

    /// A child whose set is needed and not known yet.
    fn unknown_child(&self, book: &Book, node: usize) -> Option<usize> {
        let children = match book.nodes[node] {
            Node::Not(child) => [child, child],
            Node::And(left, right) | Node::Or(left, right) => [left, right],
            _ => return None,
        };
        let mut children = children.into_iter();
        children.find(|&child| self.known[child] == Set::EMPTY)
    }

    /// The set of a node whose children's sets are known.
    fn work_out(&self, book: &Book, symbols: &[Set], node: usize) -> Set {
        let known = &self.known;
        match book.nodes[node] {
            Node::Constant(value) => Set::one(value),
            Node::Symbol(symbol) => symbols[symbol],
            Node::Text(_) | Node::Int(_) | Node::Hex(_) => Set::one(N),
            Node::Not(child) => known[child].pairs(Set::one(N), |value, _| not(value)),
            Node::And(left, right) => known[left].pairs(known[right], u8::min),
            Node::Or(left, right) => known[left].pairs(known[right], u8::max),
            Node::Equal(left, right) => equality(book, symbols, left, right, true),
            Node::Differ(left, right) => equality(book, symbols, left, right, false),
        }
    }
}

/// The set of an equality: y where being spelled alike is as wanted, else n,
/// over every pair of spellings.
fn equality(book: &Book, symbols: &[Set], left: usize, right: usize, wanted: bool) -> Set {
    let operands = (spellings(book, symbols, left), spellings(book, symbols, right));
    let (Some(lefts), Some(rights)) = operands else {
        return Set::one(N).with(Y);
    };
    let mut result = Set::EMPTY;
    for one in lefts.into_iter().flatten() {
        for other in rights.into_iter().flatten() {
            result = result.with(truth(alike(one, other) == wanted));
        }
    }
    result
}

/// What an operand of an equality may stand by: a text or number by itself, a
/// constant or three-valued symbol by each of its values. Nothing for a string,
/// int or hex symbol, whose spellings are not known.
fn spellings<'a>(book: &Book<'a>, symbols: &[Set], node: usize) -> Option<[Option<Entry<'a>>; 3]> {
    let single = |entry| Some([Some(entry), None, None]);
    match book.nodes[node] {
        Node::Constant(value) => single(Entry::Three(value)),
        Node::Text(text) => single(Entry::Text(text)),
        Node::Int(number) => single(Entry::Int(number)),
        Node::Hex(number) => single(Entry::Hex(number)),
        Node::Symbol(symbol) if book.symbols[symbol].three_valued() => {
            let set = symbols[symbol];
            Some([0, 1, 2].map(|value| set.has(value).then_some(Entry::Three(value))))
        }
        _ => None,
    }
}
