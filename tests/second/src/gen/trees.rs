//! Trees of clearances: random ones, those of a small greedy finder, deep
//! chains, and faults in trees.

use super::dice::Dice;
use crate::clearance::{Path, MARK};
use crate::literal::{tried, Leaf};
use crate::sets::Set;
use crate::sketch::{Sketch, Tree};

/// The most picks that the finder tries for a leaf.
const MOST_PICKS: usize = 3000;

/// The rules that a leaf may have.
const RULES: [u8; 7] = [11, 12, 13, 15, 17, 18, MARK];

/// A finder: at a place it tries the leaves in some order and takes one that
/// closes; else it splits.
pub struct Finder<'d, 'b, 'a> {
    pub dice: &'d mut Dice,
    pub path: Path<'b, 'a>,
    /// How many splits may still be made.
    pub budget: usize,
    /// Percent of places where it splits although a leaf might close.
    pub eager: usize,
    /// Percent of places where it takes a leaf that one field keeps open.
    pub near: usize,
}

impl Finder<'_, '_, '_> {
    /// A tree for the path as it stands; its leaves all close if the finder was
    /// lucky.
    pub fn tree(&mut self) -> Tree {
        let free = self.free();
        let must_end = self.budget == 0 || free.is_empty();
        if self.dice.chance(self.near) {
            if let Some(leaf) = self.nearly_closing() {
                return leaf;
            }
        }
        if must_end || !self.dice.chance(self.eager) {
            if let Some(leaf) = self.closing() {
                return leaf;
            }
        }
        if must_end {
            return Tree::Leaf(MARK, self.path.select as u16);
        }
        self.budget -= 1;
        let symbol = self.dice.one_of(&free);
        self.split(symbol)
    }

    /// A split on a symbol with a tree for each of its values.
    fn split(&mut self, symbol: usize) -> Tree {
        let all = self.path.symbols[symbol];
        let mut branches = Vec::new();
        for value in all.values() {
            self.path.symbols[symbol] = Set::one(value);
            branches.push(self.tree());
        }
        self.path.symbols[symbol] = all;
        Tree::Split(symbol as u16, branches)
    }

    /// The boolean and tristate symbols not split on this path.
    fn free(&self) -> Vec<usize> {
        let symbols = 0..self.path.symbols.len();
        let open = |&symbol: &usize| self.path.symbols[symbol].values().count() > 1;
        symbols.filter(open).collect()
    }

    /// A leaf that does not close here only because of one field, of some rule;
    /// rather not because of the symbol's own value.
    fn nearly_closing(&mut self) -> Option<Tree> {
        let possible: Vec<Vec<u8>> =
            self.path.symbols.iter().map(|set| set.values().collect()).collect();
        let (book, select) = (self.path.book, self.path.select);
        let mut leaves = leaves(book.symbols.len(), book.choices.len());
        leaves.push((MARK, select));
        self.dice.shuffle(&mut leaves);
        let mut rules = RULES;
        self.dice.shuffle(&mut rules);
        let mut spare = None;
        for wanted in rules {
            for &(rule, place) in leaves.iter().filter(|leaf| leaf.0 == wanted) {
                if !self.path.well_formed(rule, place) {
                    continue;
                }
                let leaf = Leaf { select, rule, place };
                let tried = tried(book, &possible, leaf, MOST_PICKS);
                let deciding = tried.map_or(Vec::new(), |tried| tried.deciding);
                if deciding.iter().any(|&field| field > 0) {
                    return Some(Tree::Leaf(rule, place as u16));
                }
                if !deciding.is_empty() {
                    spare = Some(Tree::Leaf(rule, place as u16));
                }
            }
        }
        spare
    }

    /// A leaf that closes here.
    fn closing(&mut self) -> Option<Tree> {
        let mut leaves = leaves(self.path.book.symbols.len(), self.path.book.choices.len());
        self.dice.shuffle(&mut leaves);
        leaves.push((MARK, self.path.select));
        if self.dice.chance(50) {
            leaves.reverse();
        }
        for (rule, place) in leaves {
            if self.path.well_formed(rule, place) && self.path.closed(rule, place) {
                return Some(Tree::Leaf(rule, place as u16));
            }
        }
        None
    }
}

/// Every leaf of a rule other than 20, well formed or not.
pub fn leaves(symbols: usize, choices: usize) -> Vec<(u8, usize)> {
    let mut leaves = Vec::new();
    for symbol in 0..symbols {
        leaves.extend([11, 12, 13, 18].map(|rule| (rule, symbol)));
    }
    for choice in 0..choices {
        leaves.extend([15, 17].map(|rule| (rule, choice)));
    }
    leaves
}

/// A random tree, mostly well formed.
pub fn random(dice: &mut Dice, sketch: &Sketch, select: u16, path: &mut Vec<u16>) -> Tree {
    let free: Vec<u16> = (0..sketch.symbols.len() as u16)
        .filter(|symbol| sketch.symbols[usize::from(*symbol)].kind < 2 && !path.contains(symbol))
        .collect();
    if free.is_empty() || dice.chance(45) {
        return random_leaf(dice, sketch, select);
    }
    let symbol = dice.one_of(&free);
    let values = 2 + usize::from(sketch.symbols[usize::from(symbol)].kind);
    path.push(symbol);
    let branches = (0..values).map(|_| random(dice, sketch, select, path));
    let branches = branches.collect();
    path.pop();
    Tree::Split(symbol, branches)
}

/// A random leaf whose place mostly fits its rule.
pub fn random_leaf(dice: &mut Dice, sketch: &Sketch, select: u16) -> Tree {
    let rule = dice.one_of(&RULES);
    let three: Vec<u16> = (0..sketch.symbols.len() as u16)
        .filter(|&symbol| sketch.symbols[usize::from(symbol)].kind < 2)
        .collect();
    let choices = sketch.choices.len();
    match rule {
        15 | 17 if choices > 0 => Tree::Leaf(rule, dice.below(choices) as u16),
        11 | 12 | 13 | 18 if !three.is_empty() => Tree::Leaf(rule, dice.one_of(&three)),
        _ => Tree::Leaf(MARK, select),
    }
}

/// A chain of splits: one branch goes on, the others end in mark 20.
pub fn chain(dice: &mut Dice, sketch: &Sketch, select: u16, depth: usize) -> Tree {
    let mut order: Vec<u16> = (0..sketch.symbols.len() as u16).collect();
    dice.shuffle(&mut order);
    let side = dice.below(3);
    let mut tree = Tree::Leaf(MARK, select);
    for &symbol in order.iter().take(depth).rev() {
        let values = 2 + usize::from(sketch.symbols[usize::from(symbol)].kind);
        let mut branches = vec![Tree::Leaf(MARK, select); values];
        let at = if side < 2 { side } else { dice.below(values) };
        branches[at] = tree;
        tree = Tree::Split(symbol, branches);
    }
    tree
}

/// Puts one fault, or one harmless change, into a tree.
pub fn damage(dice: &mut Dice, tree: &mut Tree, sketch: &Sketch, select: u16) {
    let mut number = dice.below(tree.size());
    let Some(node) = tree.nth(&mut number) else {
        return;
    };
    match node {
        Tree::Leaf(rule, place) => match dice.below(6) {
            0 => *rule = dice.one_of(&[0, 10, 14, 16, 19, 21, 255]),
            1 => *rule = dice.one_of(&RULES),
            2 => *place = some_place(dice, sketch),
            3 => *place = place.wrapping_add(dice.one_of(&[1, 256, 65535])),
            4 => *node = random_leaf(dice, sketch, select),
            _ => *node = repeated(dice, sketch, node.clone()),
        },
        Tree::Split(symbol, branches) => match dice.below(7) {
            0 => *symbol = some_place(dice, sketch),
            1 => *symbol = symbol.wrapping_add(dice.one_of(&[1, 256, 65535])),
            2 => {
                branches.pop();
            }
            3 => branches.push(Tree::Leaf(MARK, select)),
            4 => branches.reverse(),
            5 => *node = branches[0].clone(),
            _ => repeat_in_branch(dice, *symbol, branches),
        },
    }
}

/// A split on some symbol around a leaf.
fn repeated(dice: &mut Dice, sketch: &Sketch, leaf: Tree) -> Tree {
    let symbol = dice.below(sketch.symbols.len());
    let kind = sketch.symbols.get(symbol).map_or(0, |record| record.kind);
    let values = if kind == 1 { 3 } else { 2 };
    Tree::Split(symbol as u16, vec![leaf; values])
}

/// Splits a branch once more on the symbol it hangs from.
fn repeat_in_branch(dice: &mut Dice, symbol: u16, branches: &mut [Tree]) {
    let values = branches.len();
    let at = dice.below(values);
    if at < values {
        branches[at] = Tree::Split(symbol, vec![branches[at].clone(); values]);
    }
}

/// A number at or near an index.
fn some_place(dice: &mut Dice, sketch: &Sketch) -> u16 {
    let symbols = sketch.symbols.len();
    let choices = sketch.choices.len();
    let place = match dice.below(6) {
        0 => symbols,
        1 => choices,
        2 => sketch.selects.len(),
        3 => 65535,
        _ => dice.below(symbols + 1),
    };
    place as u16
}
