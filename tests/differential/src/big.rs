//! Large books of a wanted shape, each with a table in which every rule is
//! kept, so that a check has to look at everything; and changes to them.

use crate::names::{names, Naming, ALIKE};
use second::book::Book;
use second::cases::{self, Case};
use second::gen::dice::Dice;
use second::named::{NODE_FILL, SYMBOL_FILL};
use second::sketch::{self, Sketch, SymbolSketch, Tree, Value};
use second::table::{self, Entry};
use second::values::{self, State, N, Y};

/// How many records of each section a book has, and how long it is in all.
#[derive(Clone, Copy, Debug)]
pub struct Shape {
    pub symbols: usize,
    pub nodes: usize,
    pub defaults: usize,
    pub selects: usize,
    pub ranges: usize,
    pub choices: usize,
    pub bytes: usize,
    pub naming: Naming,
}

/// The members of each choice.
const MEMBERS: usize = 4;

/// The first three nodes.
const NODE_N: u16 = 0;
const NODE_M: u16 = 1;
const NODE_Y: u16 = 2;

/// Between these are all ints and all hexes, so that a range can hold them.
const INTS: (i32, i32) = (-1000, 1000);
const HEXES: (u32, u32) = (0x10, 0xffff);

impl Shape {
    /// The bytes left for the texts.
    fn texts(&self) -> usize {
        let triples = self.nodes + self.defaults + self.selects;
        let choices = self.choices * (8 + 2 * MEMBERS);
        self.bytes - (36 + 8 * self.symbols + 6 * triples + 8 * self.ranges + choices)
    }

    /// The shape made smaller or larger, to a length.
    pub fn scaled(&self, bytes: usize) -> Shape {
        let scale = |count: usize| count * bytes / self.bytes;
        Shape {
            symbols: scale(self.symbols),
            nodes: scale(self.nodes),
            defaults: scale(self.defaults),
            selects: scale(self.selects),
            ranges: scale(self.ranges),
            choices: scale(self.choices),
            bytes,
            naming: self.naming,
        }
    }

    /// A random shape, mostly of some hundred symbols.
    pub fn random(dice: &mut Dice) -> Shape {
        let symbols = match dice.below(20) {
            0..=9 => dice.from_to(60, 270),
            10..=16 => dice.from_to(250, 700),
            _ => dice.from_to(700, 1400),
        };
        let share = |dice: &mut Dice, most: usize| symbols * dice.from_to(1, most) / 10;
        let mut shape = Shape {
            symbols,
            nodes: 20 + share(dice, 8),
            defaults: share(dice, 12),
            selects: share(dice, 12),
            ranges: symbols / 40,
            choices: symbols / 60,
            bytes: 65535,
            naming: dice.one_of(&[Naming::Real, Naming::Overlapping, Naming::Alike]),
        };
        let names = match shape.naming {
            Naming::Real => symbols * dice.from_to(8, 12),
            Naming::Alike => symbols * ALIKE,
            _ => symbols,
        };
        shape.bytes -= shape.texts() - names;
        shape
    }
}

/// What a symbol may be used for. Values m stand on drivers only, which no node
/// reads and which select drivers only: so no boolean is ever forced to m.
#[derive(Clone, Copy, PartialEq, Eq, Debug)]
enum Part {
    Core,
    Driver,
    Member,
    Other,
}

/// A book with a table that keeps every rule.
#[derive(Clone, Debug)]
pub struct Big {
    pub sketch: Sketch,
    pub values: Vec<Value>,
}

impl Big {
    /// The book of a shape; the same for the same seed.
    pub fn new(shape: &Shape, seed: u64) -> Big {
        let mut dice = Dice::new(seed, shape.bytes as u64);
        let mut making = Making::new(&mut dice, shape);
        making.members();
        making.nodes();
        making.prompts();
        making.defaults();
        making.selects();
        making.ranges();
        let wanted = making.wanted();
        let sketch = making.sketch;
        let values = settled(&sketch, wanted);
        Big { sketch, values }
    }

    /// The bytes of the book.
    pub fn model(&self) -> Vec<u8> {
        self.sketch.bytes()
    }

    /// The bytes of the table.
    pub fn table(&self) -> Vec<u8> {
        sketch::table(&self.values)
    }
}

/// A book in the making.
struct Making<'d> {
    dice: &'d mut Dice,
    shape: Shape,
    sketch: Sketch,
    parts: Vec<Part>,
    /// For each node, one more than the largest symbol that it reads.
    reads: Vec<usize>,
    /// Nodes whose values are n and y, and nodes that are leaves.
    logic: Vec<u16>,
    leaves: Vec<u16>,
}

impl<'d> Making<'d> {
    /// The symbols with their names and types, and nothing else.
    fn new(dice: &'d mut Dice, shape: &Shape) -> Making<'d> {
        let mut sketch = Sketch { modules: 0, ..Sketch::default() };
        let names = names(dice, shape.naming, shape.symbols, shape.texts());
        sketch.texts = names.texts;
        let mut parts = Vec::new();
        for (index, (offset, length)) in names.places.into_iter().enumerate() {
            let (kind, part) = match index % 50 {
                7 | 32 => (2, Part::Other),
                13 | 38 => (3, Part::Other),
                19 => (4, Part::Other),
                _ if index == 0 || dice.chance(45) => (0, Part::Core),
                _ if dice.chance(30) => (1, Part::Core),
                _ => (1, Part::Driver),
            };
            let symbol = SymbolSketch { kind, length, offset, prompt: NODE_Y, dependency: NODE_Y };
            sketch.symbols.push(symbol);
            parts.push(part);
        }
        let (reads, logic, leaves) = (Vec::new(), Vec::new(), Vec::new());
        Making { dice, shape: *shape, sketch, parts, reads, logic, leaves }
    }

    /// The choices, spread over the book; their members are booleans.
    fn members(&mut self) {
        let apart = self.shape.symbols / self.shape.choices.max(1);
        for choice in 0..self.shape.choices {
            let from = choice * apart + 1;
            let free = (from..).filter(|&at| self.parts[at] != Part::Other);
            let members: Vec<u16> = free.take(MEMBERS).map(|at| at as u16).collect();
            for &member in &members {
                self.sketch.symbols[usize::from(member)].kind = 0;
                self.parts[usize::from(member)] = Part::Member;
            }
            self.sketch.choice(0, u8::from(choice % 3 != 2), NODE_Y, &members);
        }
    }

    /// Adds a node, and notes what it reads and what it is good for.
    fn node(&mut self, op: u8, left: u16, right: u16, is_logic: bool) {
        let index = self.sketch.node(op, left, right);
        let reads = match op {
            1 => usize::from(left) + 1,
            5..=9 => self.reads[usize::from(left)].max(self.reads[usize::from(right)]),
            _ => 0,
        };
        self.reads.push(reads);
        if is_logic {
            self.logic.push(index);
        }
        if op < 5 {
            self.leaves.push(index);
        }
    }

    /// The constants, the bounds of ranges, then leaves and operations.
    fn nodes(&mut self) {
        (0..3).for_each(|value| self.node(0, value, 0, value != NODE_M));
        self.node(3, INTS.0 as u16, (INTS.0 >> 16) as u16, false);
        self.node(3, INTS.1 as u16, (INTS.1 >> 16) as u16, false);
        self.node(4, HEXES.0 as u16, 0, false);
        self.node(4, HEXES.1 as u16, 0, false);
        self.text_leaf();
        while self.sketch.nodes.len() < self.shape.nodes {
            match self.dice.below(100) {
                0..=44 => self.symbol_leaf(|part| part == Part::Core || part == Part::Member, true),
                45..=49 => self.symbol_leaf(|part| part == Part::Other, false),
                50..=53 => self.text_leaf(),
                54..=56 => self.number_leaf(),
                57..=68 => {
                    let child = self.dice.one_of(&self.logic);
                    self.node(5, child, 0, true);
                }
                roll @ 69..=90 => {
                    let (left, right) =
                        (self.dice.one_of(&self.logic), self.dice.one_of(&self.logic));
                    self.node(if roll < 84 { 6 } else { 7 }, left, right, true);
                }
                roll => {
                    let (left, right) =
                        (self.dice.one_of(&self.leaves), self.dice.one_of(&self.leaves));
                    self.node(if roll < 96 { 8 } else { 9 }, left, right, true);
                }
            }
        }
    }

    /// A leaf that reads a symbol of some part, if one is soon found.
    fn symbol_leaf(&mut self, fits: fn(Part) -> bool, is_logic: bool) {
        for _ in 0..60 {
            let symbol = self.dice.below(self.parts.len());
            if fits(self.parts[symbol]) {
                return self.node(1, symbol as u16, 0, is_logic);
            }
        }
    }

    /// A leaf with a text: the name of some symbol.
    fn text_leaf(&mut self) {
        let symbol = self.dice.one_of(&self.sketch.symbols);
        self.node(2, symbol.offset, u16::from(symbol.length), false);
    }

    /// A leaf with an int or a hex.
    fn number_leaf(&mut self) {
        if self.dice.chance(60) {
            let number = self.an_int();
            self.node(3, number as u16, (number >> 16) as u16, false);
        } else {
            let number = self.a_hex();
            self.node(4, number as u16, 0, false);
        }
    }

    /// An int within the bounds.
    fn an_int(&mut self) -> i32 {
        INTS.0 + self.dice.below((INTS.1 - INTS.0) as usize) as i32
    }

    /// A hex within the bounds.
    fn a_hex(&mut self) -> u32 {
        HEXES.0 + self.dice.below((HEXES.1 - HEXES.0) as usize) as u32
    }

    /// A node that reads only symbols before this one; often the constant y.
    fn earlier(&mut self, symbol: usize) -> u16 {
        if self.dice.chance(45) {
            return NODE_Y;
        }
        for _ in 0..12 {
            let node = self.dice.one_of(&self.logic);
            if self.reads[usize::from(node)] <= symbol {
                return node;
            }
        }
        NODE_Y
    }

    /// Prompts and dependencies; members of choices keep the prompt y.
    fn prompts(&mut self) {
        for symbol in 1..self.parts.len() {
            let prompt = match self.parts[symbol] {
                Part::Member => NODE_Y,
                _ if self.dice.chance(35) => NODE_N,
                Part::Core | Part::Other => self.earlier(symbol),
                Part::Driver => NODE_Y,
            };
            self.sketch.symbols[symbol].prompt = prompt;
            let free = self.dice.chance(40);
            let dependency = if free { NODE_Y } else { self.dice.one_of(&self.logic) };
            self.sketch.symbols[symbol].dependency = dependency;
        }
    }

    /// The defaults, on any symbols in any order.
    fn defaults(&mut self) {
        while self.sketch.defaults.len() < self.shape.defaults {
            let symbol = self.dice.below(self.parts.len());
            let kind = self.sketch.symbols[symbol].kind;
            let constants = [NODE_N, NODE_M, NODE_Y];
            let value = match self.parts[symbol] {
                Part::Driver => self.dice.one_of(&constants),
                Part::Other => match self.leaf_of(kind) {
                    Some(leaf) => leaf,
                    None => continue,
                },
                _ => self.earlier(symbol),
            };
            let condition = self.earlier(symbol);
            self.sketch.defaults.push([symbol as u16, value, condition]);
        }
    }

    /// A leaf node of the kind of a string, int or hex symbol.
    fn leaf_of(&mut self, kind: u8) -> Option<u16> {
        for _ in 0..200 {
            let leaf = self.dice.one_of(&self.leaves);
            if self.sketch.nodes[usize::from(leaf)].op == kind {
                return Some(leaf);
            }
        }
        None
    }

    /// The selects, half of them on a few symbols that many want, each from a
    /// symbol before its target.
    fn selects(&mut self) {
        let count = self.parts.len();
        while self.sketch.selects.len() < self.shape.selects {
            let mut target = self.dice.below(count);
            if self.dice.chance(50) {
                target = target / 40 * 40 + 39;
            }
            let selector = self.dice.below(target.min(count - 1) + 1);
            let fits = match self.parts.get(target) {
                Some(Part::Core) => matches!(self.parts[selector], Part::Core | Part::Member),
                Some(Part::Driver) => self.parts[selector] != Part::Other,
                _ => false,
            };
            if fits && selector < target {
                let condition = self.earlier(target);
                self.sketch.selects.push([selector as u16, target as u16, condition]);
            }
        }
    }

    /// The ranges, on ints and hexes that can be set.
    fn ranges(&mut self) {
        while self.sketch.ranges.len() < self.shape.ranges {
            let symbol = self.dice.below(self.parts.len());
            let kind = self.sketch.symbols[symbol].kind;
            if kind > 2 {
                self.sketch.symbols[symbol].prompt = NODE_Y;
                let low = if kind == 3 { 3 } else { 5 };
                let condition = self.dice.one_of(&self.logic);
                self.sketch.ranges.push([symbol as u16, low, low + 1, condition]);
            }
        }
    }

    /// The value of each symbol that somebody would set: modules are on, and
    /// the first member of a choice is chosen.
    fn wanted(&mut self) -> Vec<Value> {
        let mut wanted: Vec<Value> = (0..self.parts.len())
            .map(|symbol| match (self.parts[symbol], self.sketch.symbols[symbol].kind) {
                (Part::Member, _) => Value::Three(N),
                (_, 2) => sketch::string("/dev/ttyS0"),
                (_, 3) => Value::Int(self.an_int()),
                (_, 4) => Value::Hex(self.a_hex()),
                (Part::Driver, _) => Value::Three(self.dice.below(3) as u8),
                _ => Value::Three(self.dice.one_of(&[N, Y, Y])),
            })
            .collect();
        wanted[0] = Value::Three(Y);
        for choice in &self.sketch.choices {
            let first = self.sketch.members[usize::from(choice.first)];
            wanted[usize::from(first)] = Value::Three(Y);
        }
        wanted
    }
}

/// The wanted values, brought into the limits of the rules. Every symbol reads
/// only symbols before it, so going through them again and again comes to rest.
fn settled(sketch: &Sketch, wanted: Vec<Value>) -> Vec<Value> {
    let model = sketch.bytes();
    let book = Book::read(&model).expect("the book is well formed");
    let mut nodes = vec![N; book.nodes.len()];
    let mut values = wanted.clone();
    for _ in 0..=values.len() {
        let bytes = sketch::table(&values);
        let entries = table::read(&book, &bytes).expect("the table can be read");
        values::fill(&book, &entries, &mut nodes);
        let state = State { book: &book, entries: &entries, nodes: &nodes };
        let symbols = wanted.iter().enumerate();
        let next: Vec<Value> =
            symbols.map(|(symbol, value)| limited(&state, symbol, value)).collect();
        if next == values {
            return values;
        }
        values = next;
    }
    panic!("the values of a large book do not come to rest");
}

/// The value that the rules leave to a symbol.
fn limited(state: &State, symbol: usize, wanted: &Value) -> Value {
    let prompt = state.nodes[state.book.symbols[symbol].prompt];
    match wanted {
        Value::Three(_) if prompt == N => {
            Value::Three(state.default_value(symbol).max(state.lower(symbol)))
        }
        Value::Three(value) => Value::Three((*value).min(prompt).max(state.lower(symbol))),
        _ if prompt == N => match state.default_entry(symbol) {
            Entry::Three(value) => Value::Three(value),
            Entry::Text(text) => Value::Text(text.to_vec()),
            Entry::Int(number) => Value::Int(number),
            Entry::Hex(number) => Value::Hex(number),
        },
        value => value.clone(),
    }
}

/// A case on a large book with one thing changed, or nothing.
pub fn changed(dice: &mut Dice, big: &Big) -> Case {
    let mut big = big.clone();
    let last = big.sketch.symbols.len();
    let (one, other) = (dice.below(last), dice.below(last));
    match dice.below(12) {
        0 => {}
        1 | 2 => big.values[one] = another(dice, &big.values[one]),
        3 => repeat_name(dice, &mut big.sketch, one, other),
        4 => near_name(dice, &mut big.sketch, one),
        5 => change_record(dice, &mut big.sketch.defaults, last),
        6 => change_record(dice, &mut big.sketch.selects, last),
        7 => big.sketch.symbols[one].prompt = dice.below(3) as u16,
        8 => {
            let defaults = &mut big.sketch.defaults;
            let (one, other) = (dice.below(defaults.len()), dice.below(defaults.len()));
            defaults.swap(one, other);
        }
        9 => big.sketch.members.iter_mut().for_each(|member| {
            if dice.chance(2) {
                *member = one as u16;
            }
        }),
        _ => return flipped(dice, &big),
    }
    asked(dice, &big)
}

/// A case on a large book: its table checked, a finding, or a name.
fn asked(dice: &mut Dice, big: &Big) -> Case {
    let (nodes, symbols) = (big.sketch.nodes.len(), big.sketch.symbols.len());
    let mut case = Case {
        kind: cases::TABLE,
        model: big.model(),
        second: big.table(),
        node_work: vec![NODE_FILL; nodes + dice.below(2)],
        ..Case::default()
    };
    if dice.chance(8) {
        case.kind = cases::NAME;
        case.index = dice.below(symbols + 1) as u32;
    } else if dice.chance(40) {
        let select = dice.below(big.sketch.selects.len()) as u16;
        case.kind = cases::FINDING;
        case.symbol_work = vec![SYMBOL_FILL; symbols + dice.below(2)];
        case.second = if dice.chance(50) {
            sketch::witness(select, &case.second)
        } else {
            let mut path = Vec::new();
            sketch::clearance(select, &tree(dice, &big.sketch, select, &mut path, &mut 40))
        };
    }
    case
}

/// A tree of a few splits, many of them on the selector; most leaves say that
/// the select is met.
fn tree(
    dice: &mut Dice,
    sketch: &Sketch,
    select: u16,
    path: &mut Vec<u16>,
    splits: &mut usize,
) -> Tree {
    let selector = sketch.selects[usize::from(select)][0];
    let any = dice.below(sketch.symbols.len()) as u16;
    let symbol = if dice.chance(30) { selector } else { any };
    let kind = sketch.symbols[usize::from(symbol)].kind;
    let fits = kind < 2 && (!path.contains(&symbol) || dice.chance(2));
    if *splits == 0 || !fits || dice.chance(40) {
        let choice = dice.below(sketch.choices.len()) as u16;
        return match dice.below(20) {
            0..=14 => Tree::Leaf(20, select),
            15 | 16 => Tree::Leaf(dice.one_of(&[15, 17]), choice),
            _ => Tree::Leaf(dice.one_of(&[11, 12, 13, 18]), symbol),
        };
    }
    *splits -= 1;
    path.push(symbol);
    let branches = 2 + usize::from(kind);
    let branches = (0..branches).map(|_| tree(dice, sketch, select, path, splits)).collect();
    path.pop();
    Tree::Split(symbol, branches)
}

/// A case on a large book in which one byte of the model or of the table is
/// another one.
fn flipped(dice: &mut Dice, big: &Big) -> Case {
    let mut case = asked(dice, big);
    let bytes = if dice.chance(60) { &mut case.model } else { &mut case.second };
    let at = dice.below(bytes.len());
    if let Some(byte) = bytes.get_mut(at) {
        *byte = if dice.chance(50) { dice.byte() } else { *byte ^ 1 << dice.below(8) };
    }
    case
}

/// Another value of the same kind.
fn another(dice: &mut Dice, value: &Value) -> Value {
    match value {
        Value::Three(value) => Value::Three((value + 1 + dice.below(2) as u8) % 3),
        Value::Text(text) if text.is_empty() => sketch::string("x"),
        Value::Int(number) => Value::Int(number.wrapping_add(dice.one_of(&[1, 5000, i32::MIN]))),
        Value::Hex(number) => Value::Hex(number.wrapping_add(dice.one_of(&[1, 0x8000_0000]))),
        Value::Text(_) => Value::Text(Vec::new()),
    }
}

/// Gives a symbol another one's name: the same bytes, or a copy of them laid
/// over other bytes of the texts.
fn repeat_name(dice: &mut Dice, sketch: &mut Sketch, one: usize, other: usize) {
    let name = sketch.symbols[one];
    let (offset, length) = (usize::from(name.offset), usize::from(name.length));
    let to = usize::from(sketch.symbols[other].offset);
    let copy = sketch.texts[offset..offset + length].to_vec();
    if dice.chance(50) && to + length <= sketch.texts.len() {
        sketch.texts[to..to + length].copy_from_slice(&copy);
    } else {
        sketch.symbols[other].offset = name.offset;
    }
    sketch.symbols[other].length = name.length;
}

/// Changes one byte of a name, mostly its last.
fn near_name(dice: &mut Dice, sketch: &mut Sketch, symbol: usize) {
    let name = sketch.symbols[symbol];
    let back = if dice.chance(70) { 1 } else { 1 + dice.below(usize::from(name.length)) };
    let at = usize::from(name.offset) + usize::from(name.length) - back;
    sketch.texts[at] = dice.one_of(b"AZ09_a");
}

/// Changes one number of a record of symbols and nodes.
fn change_record(dice: &mut Dice, records: &mut [[u16; 3]], symbols: usize) {
    let at = dice.below(records.len());
    if let Some(record) = records.get_mut(at) {
        record[dice.below(3)] = dice.below(symbols) as u16;
    }
}
