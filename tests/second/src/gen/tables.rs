//! Random tables, and their mending towards valid ones.

use super::dice::Dice;
use super::models::{self, Profile, HEXES, INTS};
use crate::literal::words;
use crate::sketch::{table, NodeSketch, Sketch, Value};
use crate::table::Entry;
use crate::{check_table, Answer};

/// How often a table is mended before it is taken as it is.
const ROUNDS: usize = 40;

/// A book and a table for it, as values and as bytes.
#[derive(Clone, Debug)]
pub struct Draft {
    pub sketch: Sketch,
    pub model: Vec<u8>,
    pub values: Vec<Value>,
    pub answer: Answer,
}

impl Draft {
    /// A random book with a random table whose kinds fit.
    pub fn random(dice: &mut Dice, profile: Profile) -> Draft {
        let sketch = models::book(dice, profile);
        Draft::of(dice, sketch)
    }

    /// A book with a random table whose kinds fit.
    pub fn of(dice: &mut Dice, sketch: Sketch) -> Draft {
        let count = sketch.symbols.len();
        let values = (0..count).map(|symbol| fitting(dice, &sketch, symbol));
        let values = values.collect();
        let mut draft = Draft { model: sketch.bytes(), sketch, values, answer: Answer::KEPT };
        draft.check();
        draft
    }

    /// The bytes of the table.
    pub fn table(&self) -> Vec<u8> {
        table(&self.values)
    }

    /// Runs the check and keeps the answer.
    pub fn check(&mut self) {
        let mut room = vec![0; self.sketch.nodes.len()];
        self.answer = check_table(&self.model, &self.table(), &mut room);
    }

    /// Mends the offending symbol again and again.
    pub fn mend(&mut self, dice: &mut Dice) {
        for _ in 0..ROUNDS {
            if self.answer.number == 0 {
                return;
            }
            self.mend_once(dice);
            self.check();
        }
    }

    /// Gives another value to the symbol that the answer blames, or now and
    /// then to any symbol.
    fn mend_once(&mut self, dice: &mut Dice) {
        let count = self.values.len();
        if count == 0 {
            return;
        }
        let place = self.answer.place as usize;
        let (symbol, value) = match self.answer.number {
            15 => (self.answer.second as usize, Some(Value::Three(0))),
            17 => (self.some_member(dice, place), Some(Value::Three(2))),
            18 if dice.chance(50) => (usize::from(self.sketch.modules), Some(Value::Three(2))),
            _ => (place, None),
        };
        if symbol >= count || dice.chance(20) {
            return self.change_one(dice);
        }
        self.values[symbol] = value.unwrap_or_else(|| fitting(dice, &self.sketch, symbol));
    }

    /// A member of a choice; past the symbols if it has none.
    fn some_member(&self, dice: &mut Dice, choice: usize) -> usize {
        let choice = self.sketch.choices[choice];
        if choice.count == 0 {
            return self.values.len();
        }
        let member = usize::from(choice.first) + dice.below(usize::from(choice.count));
        usize::from(self.sketch.members[member])
    }

    /// Gives one symbol another value that fits.
    pub fn change_one(&mut self, dice: &mut Dice) {
        if !self.values.is_empty() {
            let symbol = dice.below(self.values.len());
            self.values[symbol] = fitting(dice, &self.sketch, symbol);
        }
    }

    /// Takes the prompt from a string, int or hex symbol and gives it a default
    /// of another kind that is spelled as its value is.
    fn owe_a_spelling(&mut self, dice: &mut Dice) {
        let others: Vec<usize> =
            (0..self.values.len()).filter(|&s| self.sketch.symbols[s].kind > 1).collect();
        if others.is_empty() {
            return;
        }
        let symbol = dice.one_of(&others);
        let (int, hex) = (dice.one_of(&INTS), dice.one_of(&HEXES));
        let (value, node) = match (self.sketch.symbols[symbol].kind, dice.below(3)) {
            (2, 0) => (Value::Text(b"y".to_vec()), 1),
            (2, 1) => (Value::Text(words(Entry::Int(int))), self.sketch.int(int)),
            (2, _) => (Value::Text(words(Entry::Hex(hex))), self.sketch.hex(hex)),
            (3, _) => (Value::Int(int), self.sketch.text_node(&words(Entry::Int(int)))),
            _ => (Value::Hex(hex), self.sketch.text_node(&words(Entry::Hex(hex)))),
        };
        self.sketch.symbols[symbol].prompt = 0;
        self.sketch.defaults.insert(0, [symbol as u16, node, 1]);
        self.sketch.ranges.retain(|range| usize::from(range[0]) != symbol);
        self.values[symbol] = value;
        self.model = self.sketch.bytes();
        self.check();
    }

    /// The bytes of the table with a string of 65 bytes in one entry.
    pub fn long_string(&self, dice: &mut Dice) -> Vec<u8> {
        let mut values = self.values.clone();
        let at = dice.below(values.len());
        if let Some(value) = values.get_mut(at) {
            *value = Value::Text(vec![b'z'; 65]);
        }
        table(&values)
    }

    /// Gives one symbol a value of any kind.
    pub fn change_kind(&mut self, dice: &mut Dice) {
        if self.values.is_empty() {
            return;
        }
        let symbol = dice.below(self.values.len());
        self.values[symbol] = match dice.below(6) {
            0 => Value::Three(1),
            1 => Value::Three(dice.below(3) as u8),
            2 => Value::Text(Vec::new()),
            3 => some_text(dice, &self.sketch),
            4 => Value::Int(dice.one_of(&INTS)),
            _ => Value::Hex(dice.one_of(&HEXES)),
        };
    }
}

/// A value that fits a symbol's type, often one that the book names.
fn fitting(dice: &mut Dice, sketch: &Sketch, symbol: usize) -> Value {
    if dice.chance(35) {
        if let Some(value) = own_default(dice, sketch, symbol) {
            return value;
        }
    }
    match sketch.symbols[symbol].kind {
        0 => Value::Three(dice.one_of(&[0, 2])),
        1 => Value::Three(dice.below(3) as u8),
        2 => some_text(dice, sketch),
        _ if dice.chance(15) => Value::Text(Vec::new()),
        3 => Value::Int(some_int(dice, sketch)),
        _ => Value::Hex(some_int_bits(dice, sketch, 4)),
    }
}

/// The number of a number node, as bits.
fn bits(node: NodeSketch) -> u32 {
    u32::from(node.left) | u32::from(node.right) << 16
}

/// What a default of a string, int or hex symbol gives it, or for a string how
/// that is spelled.
fn own_default(dice: &mut Dice, sketch: &Sketch, symbol: usize) -> Option<Value> {
    let own: Vec<[u16; 3]> =
        sketch.defaults.iter().filter(|record| usize::from(record[0]) == symbol).copied().collect();
    if own.is_empty() {
        return None;
    }
    let node = sketch.nodes[usize::from(dice.one_of(&own)[1])];
    match (sketch.symbols[symbol].kind, node.op) {
        (2, 0 | 2 | 3 | 4) => Some(Value::Text(spelled(sketch, node))),
        (3, 3) => Some(Value::Int(bits(node) as i32)),
        (4, 4) => Some(Value::Hex(bits(node))),
        _ => None,
    }
}

/// The spelling of a constant, text or number.
fn spelled(sketch: &Sketch, node: NodeSketch) -> Vec<u8> {
    let start = usize::from(node.left);
    match node.op {
        0 => words(Entry::Three(node.left as u8)),
        2 => sketch.texts[start..start + usize::from(node.right)].to_vec(),
        3 => words(Entry::Int(bits(node) as i32)),
        _ => words(Entry::Hex(bits(node))),
    }
}

/// A string: a text of the book, the spelling of one of its constants, the
/// empty one, or some bytes.
fn some_text(dice: &mut Dice, sketch: &Sketch) -> Value {
    let leaves: Vec<NodeSketch> =
        sketch.nodes.iter().filter(|node| [0, 2, 3, 4].contains(&node.op)).copied().collect();
    if leaves.is_empty() || dice.chance(30) {
        let short: [&[u8]; 6] = [b"", b"", b"y", b"n", b"5", b"0x5"];
        let length = dice.one_of(&[1, 63, 64]);
        let long = vec![dice.byte(); length];
        let text = if dice.chance(85) { dice.one_of(&short).to_vec() } else { long };
        return Value::Text(text);
    }
    Value::Text(spelled(sketch, dice.one_of(&leaves)))
}

/// An int: one of the book's or one beside it, or any constant.
fn some_int(dice: &mut Dice, sketch: &Sketch) -> i32 {
    if dice.chance(25) {
        return dice.one_of(&INTS);
    }
    some_int_bits(dice, sketch, 3) as i32
}

/// The bits of a number of the book's nodes of this op, or of one beside it.
fn some_int_bits(dice: &mut Dice, sketch: &Sketch, op: u8) -> u32 {
    let nodes: Vec<u32> =
        sketch.nodes.iter().filter(|node| node.op == op).map(|node| bits(*node)).collect();
    if nodes.is_empty() {
        return dice.one_of(&HEXES);
    }
    let bits = dice.one_of(&nodes);
    match dice.below(6) {
        0 => bits.wrapping_add(1),
        1 => bits.wrapping_sub(1),
        _ => bits,
    }
}

/// The profile in which an answer is likely.
fn profile_for(dice: &mut Dice, wanted: u32, base: Profile) -> Profile {
    let mut profile = base;
    match wanted {
        13 => profile.others = dice.one_of(&[0, 25, 80]),
        14 => {
            profile.ranges = 100;
            profile.others = 60;
        }
        15 | 17 => {
            profile.choices = 100;
            profile.others = 10;
        }
        18 => {
            profile.modules = 100;
            profile.others = 10;
        }
        11 | 12 => profile.others = 10,
        _ => {}
    }
    if wanted == 11 {
        profile.selects = 100;
    }
    profile
}

/// A book and table that draw a wanted answer of 0 and 10 to 18, if one is
/// found soon; else the last one tried.
pub fn drawing(dice: &mut Dice, wanted: u32, base: Profile) -> Draft {
    let profile = profile_for(dice, wanted, base);
    let mut last = None;
    for _ in 0..16 {
        let mut draft = Draft::random(dice, profile);
        if draft.answer.number == wanted && dice.chance(50) {
            return draft;
        }
        draft.mend(dice);
        if wanted == 13 && dice.chance(20) {
            draft.owe_a_spelling(dice);
        }
        if wanted == draft.answer.number {
            return draft;
        }
        if let Some(found) = mutant(dice, &draft, wanted) {
            return found;
        }
        last = Some(draft);
    }
    last.unwrap_or_else(|| Draft::random(dice, profile))
}

/// A table one or two entries away that draws the wanted answer, if found soon.
fn mutant(dice: &mut Dice, draft: &Draft, wanted: u32) -> Option<Draft> {
    if wanted == 0 {
        return None;
    }
    for _ in 0..12 {
        let mut other = draft.clone();
        if wanted == 10 {
            other.change_kind(dice);
        } else {
            other.change_one(dice);
        }
        if dice.chance(30) {
            other.change_one(dice);
        }
        other.check();
        if other.answer.number == wanted {
            return Some(other);
        }
    }
    None
}
