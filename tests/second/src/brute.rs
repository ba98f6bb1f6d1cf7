//! Brute force on tiny books: every table is tried, and what the checks say
//! about tables, clearances and leaves is held against it.

use crate::book::Book;
use crate::clearance::Path;
use crate::gen::dice::Dice;
use crate::gen::findings::found;
use crate::gen::models::{self, Profile};
use crate::gen::trees;
use crate::literal::{closed_literally, valid_by_search, Leaf, Literal};
use crate::sets::Set;
use crate::sketch::{clearance, table, witness, Sketch, Value};
use crate::table::Entry;
use crate::{check_finding, check_table, complete_clearance};

/// The most tables tried for one book.
const MOST_TABLES: usize = 4000;

/// What was counted, and what went wrong.
#[derive(Default, Debug)]
pub struct Counts {
    pub books: usize,
    pub tables: usize,
    pub valid: usize,
    pub selects: usize,
    pub never_unmet: usize,
    pub complete: usize,
    pub trees: usize,
    pub accepted: usize,
    pub leaves: usize,
    pub closed: usize,
    pub violations: Vec<String>,
}

impl Counts {
    /// The counts as lines of text.
    pub fn lines(&self) -> String {
        let rows = [
            ("books", self.books),
            ("tables", self.tables),
            ("valid tables", self.valid),
            ("selects", self.selects),
            ("selects never unmet", self.never_unmet),
            ("complete clearances", self.complete),
            ("trees", self.trees),
            ("trees accepted", self.accepted),
            ("leaves tried literally", self.leaves),
            ("leaves closed", self.closed),
            ("violations", self.violations.len()),
        ];
        let rows = rows.iter().map(|(what, count)| format!("{what} {count}\n"));
        rows.collect()
    }
}

/// Tries so many books of a seed; every fourth has string, int or hex symbols.
pub fn run(seed: u64, count: usize) -> Counts {
    let mut counts = Counts::default();
    for index in 0..count as u64 {
        let mut dice = Dice::new(seed ^ 0xb0b0, index);
        let mut profile = Profile::THREE;
        if index % 4 == 3 {
            profile.symbols = (2, 4);
            profile.others = 45;
            profile.ranges = 60;
        }
        let sketch = models::book(&mut dice, profile);
        let trial =
            Trial { what: format!("seed {seed} book {index}"), model: sketch.bytes(), sketch };
        trial.run(&mut dice, &mut counts);
    }
    counts
}

/// One book under trial.
struct Trial {
    what: String,
    sketch: Sketch,
    model: Vec<u8>,
}

impl Trial {
    /// Tries the book.
    fn run(&self, dice: &mut Dice, counts: &mut Counts) {
        let book = match Book::read(&self.model) {
            Ok(book) => book,
            Err(refused) => return self.fail(counts, &format!("book refused {refused:?}")),
        };
        counts.books += 1;
        let unmet = self.tables(&book, dice, counts);
        for (select, &unmet) in unmet.iter().enumerate() {
            counts.selects += 1;
            counts.never_unmet += usize::from(!unmet);
            self.complete(select, unmet, counts);
            self.trees(dice, select as u16, unmet, counts);
            self.leaves(&book, dice, select, counts);
        }
    }

    /// Notes a violation.
    fn fail(&self, counts: &mut Counts, what: &str) {
        counts.violations.push(format!("{}: {what}", self.what));
    }

    /// Tries every table, and says for each select whether a valid table leaves
    /// it unmet.
    fn tables(&self, book: &Book, dice: &mut Dice, counts: &mut Counts) -> Vec<bool> {
        let values = self.possible_values(dice);
        let total: usize = values.iter().map(Vec::len).product();
        let mut unmet = vec![false; book.selects.len()];
        for number in 0..total {
            let mut rest = number;
            let mut row = Vec::new();
            for values in &values {
                row.push(values[rest % values.len()].clone());
                rest /= values.len();
            }
            self.one_table(book, &row, &mut unmet, counts);
        }
        unmet
    }

    /// Tries one table: the check against the literal statement, and each
    /// select's witness.
    fn one_table(&self, book: &Book, row: &[Value], unmet: &mut [bool], counts: &mut Counts) {
        let entries: Vec<Entry> = row.iter().map(entry_of).collect();
        let literal = Literal { book, entries: &entries };
        let valid = literal.valid();
        let bytes = table(row);
        let mut room = vec![0; book.nodes.len()];
        let kept = check_table(&self.model, &bytes, &mut room).number == 0;
        if kept != valid || valid_by_search(book, &entries) != valid {
            self.fail(counts, &format!("check and rules differ on {row:?}"));
        }
        counts.tables += 1;
        counts.valid += usize::from(valid);
        for select in 0..unmet.len() {
            let broken = literal.unmet(select);
            unmet[select] |= valid && broken;
            let number = self.answer(&witness(select as u16, &bytes));
            let expected = if broken { 0 } else { 24 };
            if valid && number != expected || !valid && (number == 0 || number == 24) {
                self.fail(counts, &format!("witness {select} {number} on {row:?}"));
            }
        }
    }

    /// A handful of values for each symbol; all of them where three-valued.
    fn possible_values(&self, dice: &mut Dice) -> Vec<Vec<Value>> {
        let kinds: Vec<u8> = self.sketch.symbols.iter().map(|s| s.kind).collect();
        let mut values: Vec<Vec<Value>> = Vec::new();
        for &kind in &kinds {
            values.push(match kind {
                0 => vec![Value::Three(0), Value::Three(2)],
                1 => (0..3).map(Value::Three).collect(),
                _ => self.named_values(kind),
            });
        }
        for (list, &kind) in values.iter_mut().zip(&kinds) {
            if kind > 1 {
                dice.shuffle(list);
            }
        }
        while values.iter().map(Vec::len).product::<usize>() > MOST_TABLES {
            let longest = values.iter_mut().max_by_key(|list| list.len());
            longest.map(|list| list.pop());
        }
        values
    }

    /// The values of a type that the book names, and the empty string.
    fn named_values(&self, kind: u8) -> Vec<Value> {
        let mut values = vec![Value::Text(Vec::new())];
        for node in &self.sketch.nodes {
            let bits = u32::from(node.left) | u32::from(node.right) << 16;
            let start = usize::from(node.left);
            let value = match (kind, node.op) {
                (2, 2) => Value::Text(self.sketch.texts[start..][..node.right.into()].to_vec()),
                (3, 3) => Value::Int(bits as i32),
                (4, 4) => Value::Hex(bits),
                _ => continue,
            };
            if !values.contains(&value) {
                values.push(value);
            }
        }
        values.push(match kind {
            2 => Value::Text(b"y".to_vec()),
            3 => Value::Int(7),
            _ => Value::Hex(7),
        });
        values
    }

    /// The number a finding draws.
    fn answer(&self, finding: &[u8]) -> u32 {
        let mut nodes = vec![1; self.sketch.nodes.len()];
        let mut symbols = vec![1; self.sketch.symbols.len()];
        check_finding(&self.model, finding, &mut nodes, &mut symbols).number
    }

    /// The complete clearance is accepted exactly when no valid table leaves
    /// the select unmet.
    fn complete(&self, select: usize, unmet: bool, counts: &mut Counts) {
        let Some(finding) = complete_clearance(&self.model, select) else {
            return;
        };
        counts.complete += 1;
        let number = self.answer(&finding);
        if number != if unmet { 23 } else { 0 } {
            self.fail(counts, &format!("complete clearance {select} draws {number}"));
        }
    }

    /// An accepted clearance never stands beside a valid table that leaves the
    /// select unmet.
    fn trees(&self, dice: &mut Dice, select: u16, unmet: bool, counts: &mut Counts) {
        let three = self.sketch.symbols.iter().all(|symbol| symbol.kind < 2);
        for number in 0..14 {
            let mut tree = match number % 2 {
                0 => found(dice, &self.sketch, select, 200),
                _ => trees::random(dice, &self.sketch, select, &mut Vec::new()),
            };
            let clean = number == 0;
            if !clean && dice.chance(70) {
                trees::damage(dice, &mut tree, &self.sketch, select);
            }
            let accepted = self.answer(&clearance(select, &tree)) == 0;
            counts.trees += 1;
            counts.accepted += usize::from(accepted);
            if accepted && unmet {
                self.fail(counts, &format!("unsound on select {select}: {tree:?}"));
            }
            if clean && three && accepted == unmet {
                self.fail(counts, &format!("finder on select {select}: {tree:?}"));
            }
        }
    }

    /// The lifted closing agrees with the literal one on a random path.
    fn leaves(&self, book: &Book, dice: &mut Dice, select: usize, counts: &mut Counts) {
        let mut path = Path::new(book, select);
        for symbol in 0..book.symbols.len() {
            if dice.chance(55) {
                let values: Vec<u8> = path.symbols[symbol].values().collect();
                path.symbols[symbol] = Set::one(dice.one_of(&values));
            }
        }
        let sets = path.symbols.iter();
        let possible: Vec<Vec<u8>> = sets.map(|set| set.values().collect()).collect();
        let mut leaves = trees::leaves(book.symbols.len(), book.choices.len());
        leaves.push((20, select));
        for (rule, place) in leaves {
            if !path.well_formed(rule, place) {
                continue;
            }
            let lifted = path.closed(rule, place);
            let literal = closed_literally(book, &possible, Leaf { select, rule, place });
            counts.leaves += usize::from(literal.is_some());
            counts.closed += usize::from(literal == Some(true));
            if literal.is_some_and(|literal| literal != lifted) {
                self.fail(counts, &format!("leaf {rule} {place} on {possible:?}"));
            }
        }
    }
}

/// A value as a read entry.
fn entry_of(value: &Value) -> Entry<'_> {
    match value {
        Value::Three(value) => Entry::Three(*value),
        Value::Text(text) => Entry::Text(text),
        Value::Int(number) => Entry::Int(*number),
        Value::Hex(number) => Entry::Hex(*number),
    }
}
