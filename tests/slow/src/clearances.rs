//! Clearances whose every leaf is closed, and dear: what one leaf reads, times
//! the leaves of a finding.

use crate::nodes::{self, chain, doubled, equal, equal_trees, one_tree, trees, Pair};
use crate::{constants, filled, finding_case, Size, M, N, Y};
use second::cases::Case;
use second::sketch::{clearance, Sketch, Tree};

/// The symbols of every such book: the place of its leaves, a tristate; the
/// selector and the target of select 0, whose dependency is y, so that mark 20
/// is closed on every path; a tristate that is never split; then those that
/// are split.
const PLACE: u16 = 0;
const SELECTOR: u16 = 1;
const TARGET: u16 = 2;
const FREE: u16 = 3;
const SPLITS: u16 = 4;

/// How many symbols can be split, and the most splits on a path.
const MOST_SPLITS: usize = 62;
const MOST_ON_PATH: usize = 64;

/// The node that reads the tristate which is never split.
const FREE_NODE: u16 = 3;

/// A leaf that is closed on every path, and cheap.
const CHEAP: Tree = Tree::Leaf(20, 0);

/// A book with those symbols, the place having this prompt.
fn book(prompt: u16, split_kind: u8) -> Sketch {
    let mut sketch = constants();
    filled(&mut sketch, 1, 1, prompt);
    filled(&mut sketch, 0, 2, Y);
    filled(&mut sketch, 1, 1, Y);
    filled(&mut sketch, split_kind, MOST_SPLITS, Y);
    sketch.node(1, FREE, 0);
    sketch.selects.push([SELECTOR, TARGET, Y]);
    sketch
}

/// A tree of so many leaves, all alike, that is as low as can be; `ways` is 2
/// where booleans are split and 3 for tristates.
fn bush(leaves: usize, ways: usize, symbol: u16, leaf: &Tree) -> Tree {
    with_splits((leaves - 1) / (ways - 1), ways, symbol, leaf)
}

/// The same by the splits that it has.
fn with_splits(splits: usize, ways: usize, symbol: u16, leaf: &Tree) -> Tree {
    if splits == 0 {
        return leaf.clone();
    }
    let part = |way: usize| with_splits((splits - 1 + way) / ways, ways, symbol + 1, leaf);
    Tree::Split(symbol, (0..ways).map(part).collect())
}

/// The tree where the place has this value, and cheap leaves elsewhere.
fn at_place(value: usize, tree: Tree) -> Tree {
    let mut branches = vec![CHEAP; 3];
    branches[value] = tree;
    Tree::Split(PLACE, branches)
}

/// A clearance with so many leaves of rule 13 at the place, which is y there.
fn default_leaves(sketch: &Sketch, leaves: usize) -> Case {
    let tree = at_place(2, bush(leaves, 2, SPLITS, &Tree::Leaf(13, PLACE)));
    finding_case(sketch, &clearance(0, &tree))
}

/// Rule 13 where each default's condition is one of these nodes.
fn with_conditions(mut sketch: Sketch, conditions: &[u16], leaves: usize) -> Case {
    let defaults = conditions.iter().map(|&condition| [PLACE, N, condition]);
    sketch.defaults.extend(defaults);
    default_leaves(&sketch, leaves)
}

/// The conditions are trees of depth 8: past a depth, a pass over all nodes
/// below for each node there.
pub fn conditions_are_deep_trees(size: Size) -> Case {
    let mut sketch = book(N, 0);
    let roots = trees(&mut sketch, size.book, FREE_NODE);
    with_conditions(sketch, &roots, size.leaves)
}

/// The same trees over equalities of tristates.
pub fn conditions_are_trees_of_equalities(size: Size) -> Case {
    let mut sketch = book(N, 0);
    let roots = equal_trees(&mut sketch, size.book, [FREE_NODE, FREE_NODE]);
    with_conditions(sketch, &roots, size.leaves)
}

/// The conditions are chains of so many nodes each.
fn with_chains(size: Size, length: usize) -> Case {
    let mut sketch = book(N, 0);
    let count = size.book / length;
    let ends: Vec<u16> = (0..count).map(|_| chain(&mut sketch, length, FREE_NODE)).collect();
    with_conditions(sketch, &ends, size.leaves)
}

/// The conditions are chains of nine nodes: such a pass for each chain.
pub fn conditions_are_chains_of_nine(size: Size) -> Case {
    with_chains(size, 9)
}

/// The conditions are chains of 65 nodes: too deep for a memory of 64.
pub fn conditions_are_chains_of_65(size: Size) -> Case {
    with_chains(size, 65)
}

/// The conditions are on one chain, each ninth node of it from the bottom up.
pub fn conditions_climb_one_chain(size: Size) -> Case {
    let mut sketch = book(N, 0);
    let last = chain(&mut sketch, size.book, FREE_NODE);
    let nodes: Vec<u16> = (FREE_NODE + 9..=last).step_by(9).collect();
    with_conditions(sketch, &nodes, size.leaves)
}

/// The same from the top down: all is known behind the first.
pub fn conditions_descend_one_chain(size: Size) -> Case {
    let mut sketch = book(N, 0);
    let last = chain(&mut sketch, size.book, FREE_NODE);
    let nodes: Vec<u16> = (FREE_NODE + 9..=last).rev().step_by(9).collect();
    with_conditions(sketch, &nodes, size.leaves)
}

/// One condition, a chain as long as the book.
pub fn a_condition_is_one_chain(size: Size) -> Case {
    let mut sketch = book(N, 0);
    let last = chain(&mut sketch, size.book, FREE_NODE);
    with_conditions(sketch, &[last], size.leaves)
}

/// One condition, a tree as large as the book.
pub fn a_condition_is_one_tree(size: Size) -> Case {
    let mut sketch = book(N, 0);
    let root = one_tree(&mut sketch, size.book, FREE_NODE);
    with_conditions(sketch, &[root], size.leaves)
}

/// One condition, a chain whose nodes have the one before for both operands.
pub fn a_condition_doubles_at_each_node(size: Size) -> Case {
    let mut sketch = book(N, 0);
    let last = doubled(&mut sketch, size.book, FREE_NODE);
    with_conditions(sketch, &[last], size.leaves)
}

/// Every default has the same condition, a chain.
pub fn conditions_are_one_node(size: Size) -> Case {
    let mut sketch = book(N, 0);
    let last = chain(&mut sketch, 20, FREE_NODE);
    with_conditions(sketch, &vec![last; size.book], size.leaves)
}

/// Values and conditions are two halves of the nodes, in trees.
pub fn values_are_deep_trees(size: Size) -> Case {
    let mut sketch = book(N, 0);
    let conditions = trees(&mut sketch, size.book / 2, FREE_NODE);
    let values = trees(&mut sketch, size.book / 2, N);
    let records = conditions.iter().zip(&values);
    sketch.defaults.extend(records.map(|(&condition, &value)| [PLACE, value, condition]));
    default_leaves(&sketch, size.leaves)
}

/// A leaf reads a chain of some nodes, and below it stand equalities that no
/// leaf reads: whoever works out all nodes below pays for each of them.
pub fn unread_equalities_below(size: Size) -> Case {
    let mut sketch = book(N, 0);
    let pair = nodes::ints(&mut sketch);
    (0..size.book).for_each(|_| _ = equal(&mut sketch, pair));
    let last = chain(&mut sketch, 12, FREE_NODE);
    with_conditions(sketch, &[last], size.leaves)
}

/// The same with equalities of a tristate and an int: three pairs each.
pub fn unread_equalities_of_a_tristate(size: Size) -> Case {
    let mut sketch = book(N, 0);
    let pair = [FREE_NODE, sketch.int(i32::MIN)];
    (0..size.book).for_each(|_| _ = equal(&mut sketch, pair));
    let last = chain(&mut sketch, 12, FREE_NODE);
    with_conditions(sketch, &[last], size.leaves)
}

/// The nodes of a chain stand far apart, with nodes between them that no leaf
/// reads: whoever passes over all nodes to find those that are read pays.
pub fn read_nodes_stand_far_apart(size: Size) -> Case {
    let mut sketch = book(N, 0);
    let pair = nodes::ints(&mut sketch);
    let mut last = FREE_NODE;
    for step in 0..size.book {
        equal(&mut sketch, pair);
        if step % 100 == 99 {
            last = sketch.node(6, last, FREE_NODE);
        }
    }
    with_conditions(sketch, &[last], size.leaves)
}

/// A leaf reads two constants, and the book has nodes that no leaf reads:
/// whoever clears a room of all nodes pays for them.
pub fn unread_nodes(size: Size) -> Case {
    let mut sketch = book(Y, 0);
    chain(&mut sketch, size.book, FREE_NODE);
    let tree = bush(size.leaves, 2, SPLITS, &CHEAP);
    finding_case(&sketch, &clearance(0, &tree))
}

/// The same leaf in a book with symbols that no leaf reads.
pub fn unread_symbols(size: Size) -> Case {
    let mut sketch = book(Y, 0);
    filled(&mut sketch, 0, size.book, Y);
    let tree = bush(size.leaves, 2, SPLITS, &CHEAP);
    finding_case(&sketch, &clearance(0, &tree))
}

/// The same leaf in a book with ranges and choices that no leaf reads.
pub fn unread_ranges_and_choices(size: Size) -> Case {
    let mut sketch = book(Y, 0);
    filled(&mut sketch, 3, 1, Y);
    let (int, number) = (sketch.symbols.len() as u16 - 1, sketch.int(0));
    for _ in 0..size.book / 2 {
        sketch.ranges.push([int, number, number, Y]);
        sketch.choice(0, 1, Y, &[]);
    }
    let tree = bush(size.leaves, 2, SPLITS, &CHEAP);
    finding_case(&sketch, &clearance(0, &tree))
}

/// Each node of the condition's chain reads another symbol that is split, so
/// that its sets are others on each path.
pub fn a_chain_reads_every_split(size: Size) -> Case {
    let mut sketch = book(N, 0);
    let symbols: Vec<u16> = (0..14).map(|at| sketch.node(1, SPLITS + at, 0)).collect();
    let mut last = FREE_NODE;
    for step in 0..size.book {
        last = sketch.node(6 + (step % 2) as u8, symbols[step % 14], last);
    }
    with_conditions(sketch, &[last], size.leaves)
}

/// The leaves are at sixteen places in turn, each with defaults of its own.
pub fn leaves_are_at_places_in_turn(size: Size) -> Case {
    let mut sketch = book(N, 0);
    let from = SPLITS + 16;
    for step in 0..size.book as u16 {
        sketch.defaults.push([from + step % 16, N, FREE_NODE]);
    }
    (from..from + 16).for_each(|place| sketch.symbols[usize::from(place)].prompt = N);
    let mut tree = bush(size.leaves, 2, SPLITS, &Tree::Leaf(13, from));
    let mut turn = 0;
    places_in_turn(&mut tree, from, &mut turn);
    let tree = (from..from + 16).fold(tree, |tree, place| Tree::Split(place, vec![CHEAP, tree]));
    finding_case(&sketch, &clearance(0, &tree))
}

/// Gives each leaf the next of sixteen places.
fn places_in_turn(tree: &mut Tree, from: u16, turn: &mut u16) {
    match tree {
        Tree::Leaf(_, place) => {
            *place = from + *turn % 16;
            *turn = turn.wrapping_add(1);
        }
        Tree::Split(_, branches) => {
            branches.iter_mut().for_each(|branch| places_in_turn(branch, from, turn));
        }
    }
}

/// Each default has two equalities: its value compares a pair, its condition a
/// tristate with itself.
fn equal_defaults(size: Size, pair: Pair) -> Case {
    let mut sketch = book(N, 0);
    let pair = pair(&mut sketch);
    for _ in 0..size.book / 2 {
        let condition = equal(&mut sketch, [FREE_NODE, FREE_NODE]);
        let value = equal(&mut sketch, pair);
        sketch.defaults.push([PLACE, value, condition]);
    }
    default_leaves(&sketch, size.leaves)
}

/// Equalities of ints in every default.
pub fn defaults_compare_ints(size: Size) -> Case {
    equal_defaults(size, nodes::ints)
}

/// Equalities of hexes in every default.
pub fn defaults_compare_hexes(size: Size) -> Case {
    equal_defaults(size, nodes::hexes)
}

/// Equalities of long texts in every default.
pub fn defaults_compare_texts(size: Size) -> Case {
    equal_defaults(size, nodes::texts)
}

/// Equalities of an int and a text in every default.
pub fn defaults_compare_int_and_text(size: Size) -> Case {
    equal_defaults(size, nodes::int_and_text)
}

/// Equalities of a tristate and an int in every default: three spellings.
pub fn defaults_compare_tristate_and_int(size: Size) -> Case {
    equal_defaults(size, |sketch| [FREE_NODE, sketch.int(i32::MIN)])
}

/// Equalities of a tristate and a constant in every condition.
pub fn defaults_compare_symbol_and_constant(size: Size) -> Case {
    let mut sketch = book(N, 0);
    for _ in 0..size.book {
        let condition = equal(&mut sketch, [FREE_NODE, M]);
        sketch.defaults.push([PLACE, N, condition]);
    }
    default_leaves(&sketch, size.leaves)
}

/// Equalities of two tristates in every condition: nine pairs.
pub fn defaults_compare_symbols(size: Size) -> Case {
    let mut sketch = book(N, 0);
    for _ in 0..size.book {
        let condition = equal(&mut sketch, [FREE_NODE, FREE_NODE]);
        sketch.defaults.push([PLACE, N, condition]);
    }
    default_leaves(&sketch, size.leaves)
}

/// Rule 13 at a symbol without defaults, in a book where another has them all.
pub fn defaults_are_on_another_symbol(size: Size) -> Case {
    let mut sketch = book(N, 0);
    sketch.defaults = vec![[TARGET, N, FREE_NODE]; size.book];
    default_leaves(&sketch, size.leaves)
}

/// Rule 13 at a symbol with many defaults, all of one record's nodes.
pub fn defaults_are_on_the_place(size: Size) -> Case {
    with_conditions(book(N, 0), &vec![FREE_NODE; size.book], size.leaves)
}

/// Rule 13 at a symbol that has half of its records in defaults and half in
/// selects.
pub fn defaults_and_selects_are_on_the_place(size: Size) -> Case {
    let mut sketch = book(N, 0);
    sketch.selects.extend(vec![[FREE, PLACE, N]; size.book / 2]);
    with_conditions(sketch, &vec![FREE_NODE; size.book / 2], size.leaves)
}

/// A clearance with so many leaves of rule 11 at the place, which is n there
/// while the selector is y.
fn lower_leaves(mut sketch: Sketch, leaves: usize) -> Case {
    sketch.selects.push([SELECTOR, PLACE, Y]);
    let tree = at_place(0, bush(leaves, 2, SPLITS, &Tree::Leaf(11, PLACE)));
    let tree = Tree::Split(SELECTOR, vec![CHEAP, tree]);
    finding_case(&sketch, &clearance(0, &tree))
}

/// Rule 11 at a symbol with one select, in a book where another has the rest.
pub fn selects_are_on_another_symbol(size: Size) -> Case {
    let mut sketch = book(Y, 0);
    sketch.selects.extend(vec![[FREE, TARGET, FREE_NODE]; size.book]);
    lower_leaves(sketch, size.leaves)
}

/// Rule 11 at a symbol that has all selects.
pub fn selects_are_on_the_place(size: Size) -> Case {
    let mut sketch = book(Y, 0);
    sketch.selects.extend(vec![[FREE, PLACE, FREE_NODE]; size.book]);
    lower_leaves(sketch, size.leaves)
}

/// Rule 11 where the selects' conditions are trees.
pub fn selects_have_deep_trees(size: Size) -> Case {
    let mut sketch = book(Y, 0);
    let roots = trees(&mut sketch, size.book, FREE_NODE);
    sketch.selects.extend(roots.iter().map(|&root| [FREE, PLACE, root]));
    lower_leaves(sketch, size.leaves)
}

/// Rule 12, the prompt and the selects' conditions being trees that are m.
pub fn a_prompt_and_selects_are_trees(size: Size) -> Case {
    let mut sketch = book(N, 0);
    let roots = trees(&mut sketch, size.book, M);
    sketch.symbols[usize::from(PLACE)].prompt = *roots.last().expect("a tree");
    sketch.selects.extend(roots.iter().map(|&root| [FREE, PLACE, root]));
    let tree = at_place(2, bush(size.leaves, 2, SPLITS, &Tree::Leaf(12, PLACE)));
    finding_case(&sketch, &clearance(0, &tree))
}

/// Rule 15 at a choice of thousands, of which two are split to y.
pub fn a_choice_of_thousands(size: Size) -> Case {
    let mut sketch = book(Y, 0);
    filled(&mut sketch, 0, size.book, Y);
    let last = sketch.symbols.len() as u16 - 1;
    let members: Vec<u16> = (SPLITS + 40..=last).collect();
    sketch.choice(1, 0, Y, &members);
    let tree = bush(size.leaves, 2, SPLITS, &Tree::Leaf(15, 0));
    let tree = Tree::Split(last, vec![CHEAP, tree]);
    finding_case(&sketch, &clearance(0, &Tree::Split(last - 1, vec![CHEAP, tree])))
}

/// Rule 17 at an empty choice whose prompt is a tree as large as the book.
pub fn a_choice_has_a_large_prompt(size: Size) -> Case {
    let mut sketch = book(Y, 0);
    let root = one_tree(&mut sketch, size.book, Y);
    sketch.choice(0, 1, root, &[]);
    let tree = bush(size.leaves, 2, SPLITS, &Tree::Leaf(17, 0));
    finding_case(&sketch, &clearance(0, &tree))
}

/// A path of so many splits, a cheap leaf on each n, and a tree at its end.
fn deep_path(splits: usize, symbol: u16, tree: Tree) -> Tree {
    let symbols = (symbol..symbol + splits as u16).rev();
    symbols.fold(tree, |tree, symbol| Tree::Split(symbol, vec![tree, CHEAP]))
}

/// Rule 17 at a mandatory choice of 48 members, each split to n on the path.
pub fn a_choice_is_all_on_the_path(size: Size) -> Case {
    let mut sketch = book(Y, 0);
    let members: Vec<u16> = (SPLITS + 14..SPLITS + MOST_SPLITS as u16).collect();
    sketch.choice(0, 1, Y, &members);
    chain(&mut sketch, size.book, FREE_NODE);
    let tree = bush(size.leaves, 2, SPLITS, &Tree::Leaf(17, 0));
    let tree = deep_path(MOST_SPLITS - 14, SPLITS + 14, tree);
    finding_case(&sketch, &clearance(0, &tree))
}

/// Rule 18 on every leaf, in a book of nodes that none reads.
pub fn a_symbol_is_m_without_modules(size: Size) -> Case {
    let mut sketch = book(Y, 0);
    sketch.modules = TARGET;
    chain(&mut sketch, size.book, FREE_NODE);
    let tree = at_place(1, bush(size.leaves, 2, SPLITS, &Tree::Leaf(18, PLACE)));
    finding_case(&sketch, &clearance(0, &Tree::Split(TARGET, vec![tree, CHEAP])))
}

/// Mark 20, the select's condition and its target's dependency being trees.
pub fn a_condition_and_a_dependency_are_trees(size: Size) -> Case {
    let mut sketch = book(Y, 0);
    let condition = one_tree(&mut sketch, size.book / 2, FREE_NODE);
    let half = one_tree(&mut sketch, size.book / 2, FREE_NODE);
    sketch.symbols[usize::from(TARGET)].dependency = sketch.node(7, half, Y);
    sketch.selects[0][2] = condition;
    let tree = bush(size.leaves, 2, SPLITS, &CHEAP);
    finding_case(&sketch, &clearance(0, &tree))
}

/// Nearly every leaf stands below 64 splits.
pub fn paths_are_64_deep(size: Size) -> Case {
    let mut sketch = book(Y, 0);
    filled(&mut sketch, 0, 10, Y);
    chain(&mut sketch, size.book, FREE_NODE);
    let low = bush(size.leaves, 2, SPLITS, &CHEAP);
    let depth = size.leaves.ilog2() as usize;
    let tree = deep_path(MOST_ON_PATH - depth - 1, SPLITS + depth as u16 + 1, low);
    finding_case(&sketch, &clearance(0, &tree))
}

/// Tristates are split, three branches each.
pub fn tristates_are_split(size: Size) -> Case {
    let mut sketch = book(N, 1);
    let last = chain(&mut sketch, size.book, FREE_NODE);
    sketch.defaults.push([PLACE, N, last]);
    let tree = at_place(2, bush(size.leaves, 3, SPLITS, &Tree::Leaf(13, PLACE)));
    finding_case(&sketch, &clearance(0, &tree))
}

/// A clearance that is good, for the ends below.
fn before_the_end(size: Size) -> Case {
    a_condition_is_one_chain(size)
}

/// The whole tree is good, and a byte is left over.
pub fn a_byte_is_left_over(size: Size) -> Case {
    let mut case = before_the_end(size);
    case.second.push(0);
    case
}

/// The last leaf has no rule.
pub fn the_last_leaf_is_malformed(size: Size) -> Case {
    let mut case = before_the_end(size);
    let rule = case.second.len() - 3;
    case.second[rule] = 99;
    case
}

/// The last leaf is not closed.
pub fn the_last_leaf_is_open(size: Size) -> Case {
    let mut case = before_the_end(size);
    let rule = case.second.len() - 3;
    case.second[rule] = 12;
    case
}
