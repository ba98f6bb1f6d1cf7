//! Cases of the finding check.

use super::dice::Dice;
use super::models::Profile;
use super::tables::{self, Draft};
use super::trees::{self, Finder};
use super::{bad_model, damage, profile, room, room_length, short_length};
use crate::book::Book;
use crate::cases::{self, Case};
use crate::clearance::Path;
use crate::sketch::{clearance, witness, Sketch, Tree};
use crate::{check_finding, complete_clearance};

/// The answers that a finding check may give, with how often each is sought.
const ANSWERS: [(u32, usize); 21] = [
    (0, 26),
    (1, 2),
    (2, 2),
    (3, 4),
    (4, 2),
    (5, 3),
    (6, 3),
    (7, 3),
    (8, 3),
    (10, 3),
    (11, 4),
    (12, 4),
    (13, 4),
    (14, 4),
    (15, 4),
    (17, 4),
    (18, 4),
    (21, 4),
    (22, 14),
    (23, 22),
    (24, 5),
];

/// A book, and a finding about one of its selects.
struct Made {
    sketch: Sketch,
    model: Vec<u8>,
    finding: Vec<u8>,
}

impl Made {
    /// The answer in rooms that are long enough.
    fn answer(&self) -> u32 {
        let mut nodes = vec![0; self.sketch.nodes.len()];
        let mut symbols = vec![0; self.sketch.symbols.len()];
        check_finding(&self.model, &self.finding, &mut nodes, &mut symbols).number
    }
}

/// A case of the finding check.
pub fn case(dice: &mut Dice) -> Case {
    let wanted = dice.weighted(&ANSWERS);
    let mut made = sought(dice, wanted);
    let selects = made.sketch.selects.len();
    if (1..=4).contains(&wanted) {
        made.model = bad_model(dice, &made.sketch, wanted);
    }
    if wanted == 21 || wanted < 9 && wanted > 0 && dice.chance(6) {
        damage::finding_head(dice, &mut made.finding, selects);
    }
    if dice.chance(2) {
        damage::flip(dice, &mut made.finding, 4);
    }
    let (nodes, symbols) = room_lengths(dice, &made.sketch, wanted);
    Case {
        kind: cases::FINDING,
        model: made.model,
        second: made.finding,
        node_work: room(dice, nodes),
        symbol_work: room(dice, symbols),
        ..Case::default()
    }
}

/// The lengths of the rooms, short ones where 7 or 8 is sought.
fn room_lengths(dice: &mut Dice, sketch: &Sketch, wanted: u32) -> (usize, usize) {
    let (nodes, symbols) = (sketch.nodes.len(), sketch.symbols.len());
    let early = wanted > 0 && wanted < 7 || wanted == 21;
    let short_nodes = wanted == 7 || early && dice.chance(6);
    let short_symbols = wanted == 8 || (early || wanted == 7) && dice.chance(20);
    let node_length =
        if short_nodes { short_length(dice, nodes) } else { room_length(dice, nodes) };
    let symbol_length =
        if short_symbols { short_length(dice, symbols) } else { room_length(dice, symbols) };
    (node_length, symbol_length)
}

/// A finding that draws the wanted answer, if one is found soon.
fn sought(dice: &mut Dice, wanted: u32) -> Made {
    let mut last = attempt(dice, wanted);
    for _ in 0..12 {
        if !(wanted == 0 || wanted > 21) || last.answer() == wanted {
            break;
        }
        last = attempt(dice, wanted);
    }
    last
}

/// One try at a finding that draws the wanted answer.
fn attempt(dice: &mut Dice, wanted: u32) -> Made {
    match wanted {
        0 if dice.chance(35) => real_witness(dice),
        0 => good_clearance(dice),
        5 | 6 => damaged_witness(dice, wanted),
        10..=18 | 24 => a_witness(dice, if wanted == 24 { 0 } else { wanted }),
        22 => malformed(dice),
        23 => open(dice),
        _ if dice.chance(40) => a_witness(dice, 0),
        _ if dice.chance(50) => random_tree(dice),
        _ => good_clearance(dice),
    }
}

/// The profile of a finding's book: it has selects.
fn with_selects(dice: &mut Dice, three: usize) -> Profile {
    if dice.chance(three) {
        return Profile::THREE;
    }
    let mut profile = profile(dice);
    profile.equalities = dice.one_of(&[8, 50]);
    profile.selects = 100;
    profile.others = profile.others.min(30);
    profile.symbols.0 = profile.symbols.0.max(2);
    profile.symbols.1 = profile.symbols.1.max(2);
    profile
}

/// A select of the book; 0 if it has none.
fn some_select(dice: &mut Dice, sketch: &Sketch) -> u16 {
    dice.below(sketch.selects.len()) as u16
}

/// A witness whose table draws the wanted answer.
fn a_witness(dice: &mut Dice, wanted: u32) -> Made {
    let profile = with_selects(dice, 30);
    let draft = tables::drawing(dice, wanted, profile);
    witness_of(dice, draft)
}

/// A witness with the table of a draft.
fn witness_of(dice: &mut Dice, draft: Draft) -> Made {
    let select = some_select(dice, &draft.sketch);
    let finding = witness(select, &draft.table());
    Made { sketch: draft.sketch, model: draft.model, finding }
}

/// A witness with a damaged table.
fn damaged_witness(dice: &mut Dice, wanted: u32) -> Made {
    let mut made = a_witness(dice, 0);
    let mut table = made.finding.split_off(4);
    if wanted == 5 {
        damage::table_frame(dice, &mut table);
    } else {
        damage::table_entry(dice, &mut table);
    }
    made.finding.extend(table);
    made.finding.truncate(65535);
    made
}

/// A witness of a select that is unmet, if one is found soon.
fn real_witness(dice: &mut Dice) -> Made {
    let mut last = a_witness(dice, 0);
    for _ in 0..10 {
        for select in 0..last.sketch.selects.len() as u16 {
            last.finding[..2].copy_from_slice(&select.to_le_bytes());
            if last.answer() == 0 {
                return last;
            }
        }
        last = a_witness(dice, 0);
    }
    last
}

/// A book with selects, and one of them.
fn book_and_select(dice: &mut Dice) -> (Sketch, u16) {
    let profile = with_selects(dice, 65);
    let sketch = super::models::book(dice, profile);
    let select = some_select(dice, &sketch);
    (sketch, select)
}

/// A finding with a tree.
fn made_of(sketch: Sketch, select: u16, tree: &Tree) -> Made {
    Made { model: sketch.bytes(), finding: clearance(select, tree), sketch }
}

/// The finder's tree for a select; mark 20 alone if the book has no select.
pub fn found(dice: &mut Dice, sketch: &Sketch, select: u16, budget: usize) -> Tree {
    near_found(dice, sketch, select, budget, 0)
}

/// The finder's tree in which some leaves are only nearly closed.
fn near_found(dice: &mut Dice, sketch: &Sketch, select: u16, budget: usize, near: usize) -> Tree {
    let model = sketch.bytes();
    match Book::read(&model) {
        Ok(book) if usize::from(select) < book.selects.len() => {
            let eager = dice.one_of(&[0, 0, 15, 40]);
            let path = Path::new(&book, usize::from(select));
            let mut finder = Finder { dice, path, budget, eager, near };
            finder.tree()
        }
        _ => Tree::Leaf(20, select),
    }
}

/// A clearance that is often accepted: the finder's, the complete one, or a
/// deep chain.
fn good_clearance(dice: &mut Dice) -> Made {
    if dice.chance(4) {
        let depth = dice.one_of(&[63, 64]);
        return deep(dice, depth);
    }
    let (sketch, select) = book_and_select(dice);
    if dice.chance(15) {
        let model = sketch.bytes();
        let complete = complete_clearance(&model, usize::from(select));
        if let Some(finding) = complete.filter(|finding| finding.len() < 4000) {
            return Made { sketch, model, finding };
        }
    }
    let tree = found(dice, &sketch, select, 60);
    made_of(sketch, select, &tree)
}

/// A chain of splits in a book of some 70 symbols whose select is always met.
fn deep(dice: &mut Dice, depth: usize) -> Made {
    let mut sketch = Sketch::default();
    sketch.node(0, 2, 0);
    for index in 0..dice.from_to(66, 72) {
        let kind = u8::from(dice.chance(10));
        sketch.symbol(kind, &format!("S{index}"), 0, 0);
    }
    sketch.selects.push([0, 1, 0]);
    let tree = trees::chain(dice, &sketch, 0, depth);
    made_of(sketch, 0, &tree)
}

/// A random tree for a random select.
fn random_tree(dice: &mut Dice) -> Made {
    let (sketch, select) = book_and_select(dice);
    let tree = trees::random(dice, &sketch, select, &mut Vec::new());
    made_of(sketch, select, &tree)
}

/// A tree with something wrong in it, or bytes after it.
fn malformed(dice: &mut Dice) -> Made {
    if dice.chance(6) {
        let depth = dice.one_of(&[65, 65, 66]);
        return deep(dice, depth);
    }
    let (sketch, select) = book_and_select(dice);
    let mut tree = if dice.chance(70) {
        found(dice, &sketch, select, 20)
    } else {
        trees::random(dice, &sketch, select, &mut Vec::new())
    };
    let bytes_only = dice.chance(40);
    if !bytes_only {
        trees::damage(dice, &mut tree, &sketch, select);
    }
    let mut made = made_of(sketch, select, &tree);
    if bytes_only {
        match dice.below(3) {
            0 => damage::flip(dice, &mut made.finding, 4),
            _ => damage::cut_or_extend(dice, &mut made.finding),
        }
    }
    if made.finding.len() < 4 {
        made.finding = vec![0, 0, 1, 0];
    }
    made
}

/// A tree with a leaf that is likely not closed.
fn open(dice: &mut Dice) -> Made {
    if dice.chance(20) {
        return random_tree(dice);
    }
    let (sketch, select) = book_and_select(dice);
    if dice.chance(75) {
        let near = dice.one_of(&[15, 40, 70]);
        let tree = near_found(dice, &sketch, select, 30, near);
        return made_of(sketch, select, &tree);
    }
    let mut tree = found(dice, &sketch, select, 25);
    for _ in 0..dice.below(3) {
        let mut number = dice.below(tree.size());
        if let Some(node) = tree.nth(&mut number) {
            if let Tree::Leaf(..) = node {
                *node = trees::random_leaf(dice, &sketch, select);
            }
        }
    }
    made_of(sketch, select, &tree)
}
