//! Random good books.

use super::dice::Dice;
use crate::sketch::Sketch;

/// Texts that an equality or a default may meet.
const TEXTS: [&[u8]; 24] = [
    b"",
    b"n",
    b"m",
    b"y",
    b"Y",
    b"5",
    b"-5",
    b"0x5",
    b"0",
    b"0x0",
    b"-0",
    b"05",
    b"0x05",
    b"0X5",
    b"0xA",
    b"0xa",
    b"10",
    b"-2147483648",
    b"2147483647",
    b"0xffffffff",
    b"4294967295",
    b"A",
    b"yy",
    b"some text with a space \xff\x00",
];

/// Int constants, extreme ones included.
pub const INTS: [i32; 14] =
    [0, 1, 5, -5, -1, 10, 100, -100, 65535, 65536, -65536, i32::MAX, i32::MIN, -2147483647];

/// Hex constants, extreme ones included.
pub const HEXES: [u32; 11] =
    [0, 1, 5, 10, 0xff, 0xffff, 0x1_0000, 0x7fff_ffff, 0x8000_0000, 0xffff_ffff, 0xffff_fffe];

/// What a random book should have.
#[derive(Clone, Copy, Debug)]
pub struct Profile {
    /// The fewest and the most symbols.
    pub symbols: (usize, usize),
    /// Percent of symbols that are string, int or hex.
    pub others: usize,
    /// Percent of books with a modules symbol, ranges, choices, selects.
    pub modules: usize,
    pub ranges: usize,
    pub choices: usize,
    pub selects: usize,
    /// Percent of prompts, dependencies and conditions that are equalities,
    /// where the book has some.
    pub equalities: usize,
}

impl Profile {
    /// Small books of every sort.
    pub const PLAIN: Profile = Profile {
        symbols: (1, 6),
        others: 25,
        modules: 35,
        ranges: 60,
        choices: 40,
        selects: 60,
        equalities: 8,
    };

    /// Small books of boolean and tristate symbols with selects.
    pub const THREE: Profile = Profile {
        symbols: (1, 4),
        others: 0,
        modules: 30,
        ranges: 0,
        choices: 35,
        selects: 100,
        equalities: 12,
    };

    /// Books in which every section has records.
    pub const RICH: Profile = Profile {
        symbols: (4, 9),
        others: 40,
        modules: 50,
        ranges: 100,
        choices: 100,
        selects: 100,
        equalities: 12,
    };
}

/// A random good book.
pub fn book(dice: &mut Dice, profile: Profile) -> Sketch {
    let mut sketch = Sketch::default();
    let count = dice.from_to(profile.symbols.0, profile.symbols.1);
    let kinds = kinds(dice, profile, count);
    nodes(dice, &mut sketch, &kinds);
    symbols(dice, &mut sketch, &kinds, profile.equalities);
    if count > 0 {
        defaults(dice, &mut sketch, &kinds);
    }
    if dice.chance(profile.selects) {
        selects(dice, &mut sketch, &kinds, profile.equalities);
    }
    if dice.chance(profile.ranges) {
        ranges(dice, &mut sketch, &kinds);
    }
    if dice.chance(profile.choices) {
        choices(dice, &mut sketch, &kinds);
    }
    let booleans = of_kinds(&kinds, |kind| kind == 0);
    if !booleans.is_empty() && dice.chance(profile.modules) {
        sketch.modules = dice.one_of(&booleans);
    }
    sketch
}

/// The types of the symbols.
fn kinds(dice: &mut Dice, profile: Profile, count: usize) -> Vec<u8> {
    let tristates = dice.one_of(&[20, 50, 80]);
    let mut kinds = Vec::new();
    for _ in 0..count {
        kinds.push(if dice.chance(profile.others) {
            dice.from_to(2, 4) as u8
        } else {
            u8::from(dice.chance(tristates))
        });
    }
    kinds
}

/// The symbols whose type is as wanted.
fn of_kinds(kinds: &[u8], wanted: impl Fn(u8) -> bool) -> Vec<u16> {
    let symbols = (0..kinds.len() as u16).filter(|&symbol| wanted(kinds[usize::from(symbol)]));
    symbols.collect()
}

/// Nodes: the constants n, y and m first, then leaves, then operations.
fn nodes(dice: &mut Dice, sketch: &mut Sketch, kinds: &[u8]) {
    sketch.node(0, 0, 0);
    sketch.node(0, 2, 0);
    sketch.node(0, 1, 0);
    for symbol in 0..kinds.len() {
        if dice.chance(85) {
            sketch.node(1, symbol as u16, 0);
        }
    }
    for _ in 0..dice.below(4) {
        constant(dice, sketch);
    }
    for _ in 0..dice.below(8) {
        operation(dice, sketch);
    }
    if dice.chance(25) {
        either_way(dice, sketch, kinds);
    }
    if dice.chance(30) {
        twins(dice, sketch, kinds);
    }
}

/// An equality of a number, or of a symbol that may hold it, with a text that
/// spells it, or nearly so.
fn twins(dice: &mut Dice, sketch: &mut Sketch, kinds: &[u8]) {
    let kind = dice.one_of(&[3, 4]);
    let (number, text) = if kind == 3 {
        let number = dice.one_of(&INTS);
        (sketch.int(number), number.to_string())
    } else {
        let number = dice.one_of(&HEXES);
        (sketch.hex(number), format!("{number:#x}"))
    };
    let text = match dice.below(8) {
        0 => text.replacen('0', "00", 1),
        1 => text.to_uppercase(),
        2 => format!("0{text}"),
        _ => text,
    };
    let text = sketch.text_node(text.as_bytes());
    let alike = of_kinds(kinds, |other| other == kind || other == 2);
    let other = if alike.is_empty() || dice.chance(40) {
        number
    } else {
        let symbol = dice.one_of(&alike);
        sketch.node(1, symbol, 0)
    };
    let (left, right) = if dice.chance(50) { (text, other) } else { (other, text) };
    sketch.node(dice.one_of(&[8, 9]), left, right);
}

/// A text or a number.
fn constant(dice: &mut Dice, sketch: &mut Sketch) -> u16 {
    match dice.below(3) {
        0 => {
            let text = dice.one_of(&TEXTS);
            sketch.text_node(text)
        }
        1 => sketch.int(dice.one_of(&INTS)),
        _ => sketch.hex(dice.one_of(&HEXES)),
    }
}

/// An operation on earlier nodes; an equality may add a constant first.
fn operation(dice: &mut Dice, sketch: &mut Sketch) -> u16 {
    let op = dice.from_to(5, 9) as u8;
    let any = |dice: &mut Dice, sketch: &Sketch| dice.below(sketch.nodes.len()) as u16;
    match op {
        5 => {
            let left = any(dice, sketch);
            sketch.node(5, left, 0)
        }
        6 | 7 => {
            let (left, right) = (any(dice, sketch), any(dice, sketch));
            sketch.node(op, left, right)
        }
        _ => {
            let (left, right) = (leaf(dice, sketch), leaf(dice, sketch));
            if dice.chance(50) {
                sketch.node(op, left, right)
            } else {
                sketch.node(op, right, left)
            }
        }
    }
}

/// A leaf, old or new.
fn leaf(dice: &mut Dice, sketch: &mut Sketch) -> u16 {
    if dice.chance(40) {
        return constant(dice, sketch);
    }
    let leaves: Vec<u16> = (0..sketch.nodes.len() as u16)
        .filter(|&node| sketch.nodes[usize::from(node)].op <= 4)
        .collect();
    dice.one_of(&leaves)
}

/// X or not X, or X equal to X, mostly of a symbol.
fn either_way(dice: &mut Dice, sketch: &mut Sketch, kinds: &[u8]) {
    let x = if kinds.is_empty() || dice.chance(20) {
        leaf(dice, sketch)
    } else {
        let symbol = dice.below(kinds.len());
        sketch.node(1, symbol as u16, 0)
    };
    if dice.chance(50) {
        let not = sketch.node(5, x, 0);
        sketch.node(7, x, not);
    } else {
        sketch.node(dice.one_of(&[8, 8, 9]), x, x);
    }
}

/// Any node, the constants n and y more often.
fn any_node(dice: &mut Dice, sketch: &Sketch, n: usize, y: usize) -> u16 {
    let throw = dice.below(100);
    if throw < n {
        0
    } else if throw < n + y {
        1
    } else {
        dice.below(sketch.nodes.len()) as u16
    }
}

/// A node, or so many times in a hundred an equality of the book instead.
fn or_equality(dice: &mut Dice, sketch: &Sketch, node: u16, percent: usize) -> u16 {
    let equalities: Vec<u16> = (0..sketch.nodes.len() as u16)
        .filter(|&node| sketch.nodes[usize::from(node)].op >= 8)
        .collect();
    if equalities.is_empty() || !dice.chance(percent) {
        return node;
    }
    dice.one_of(&equalities)
}

/// Symbols with names that differ; now and then one of 64 bytes, or one that
/// lies within another in the texts.
fn symbols(dice: &mut Dice, sketch: &mut Sketch, kinds: &[u8], equalities: usize) {
    for (index, &kind) in kinds.iter().enumerate() {
        let prompt = if dice.chance(10) { 2 } else { any_node(dice, sketch, 20, 40) };
        let dependency = any_node(dice, sketch, 10, 25);
        let prompt = or_equality(dice, sketch, prompt, equalities / 2);
        let dependency = or_equality(dice, sketch, dependency, equalities);
        let name = name(dice, index);
        sketch.symbol(kind, &name, prompt, dependency);
        if name.len() > 3 && dice.chance(20) {
            let last = sketch.symbols.len() - 1;
            sketch.symbols[last].length -= 1;
        }
    }
}

/// A name that no other index gives, even without its last byte.
fn name(dice: &mut Dice, index: usize) -> String {
    let letter = char::from(b'A' + (index % 26) as u8);
    let mut name = format!("{}{letter}", index / 26);
    let length = match dice.below(20) {
        0 => 62,
        1 => 61,
        _ => dice.below(5),
    };
    for _ in 0..length {
        name.push(dice.one_of(&['A', 'Z', '0', '9', '_', 'Q']));
    }
    name
}

/// Defaults, often several on one symbol.
fn defaults(dice: &mut Dice, sketch: &mut Sketch, kinds: &[u8]) {
    for _ in 0..dice.below(kinds.len() + 3) {
        let symbol = dice.below(kinds.len());
        let value = if kinds[symbol] < 2 {
            any_node(dice, sketch, 10, 25)
        } else {
            default_leaf(dice, sketch, kinds, kinds[symbol])
        };
        let condition = any_node(dice, sketch, 10, 30);
        sketch.defaults.push([symbol as u16, value, condition]);
    }
}

/// A leaf for the default of a string, int or hex symbol, mostly of its type.
fn default_leaf(dice: &mut Dice, sketch: &mut Sketch, kinds: &[u8], kind: u8) -> u16 {
    if dice.chance(30) {
        return leaf(dice, sketch);
    }
    let alike = of_kinds(kinds, |other| other == kind);
    if dice.chance(30) {
        let symbol = dice.one_of(&alike);
        return sketch.node(1, symbol, 0);
    }
    match kind {
        2 => {
            let text = dice.one_of(&TEXTS);
            sketch.text_node(text)
        }
        3 => sketch.int(dice.one_of(&INTS)),
        _ => sketch.hex(dice.one_of(&HEXES)),
    }
}

/// One to four selects among boolean and tristate symbols.
fn selects(dice: &mut Dice, sketch: &mut Sketch, kinds: &[u8], equalities: usize) {
    let three = of_kinds(kinds, |kind| kind < 2);
    if three.is_empty() {
        return;
    }
    let target = dice.one_of(&three);
    for _ in 0..dice.from_to(1, 4) {
        let target = if dice.chance(40) { target } else { dice.one_of(&three) };
        let selector = dice.one_of(&three);
        let condition = any_node(dice, sketch, 5, 45);
        let condition = or_equality(dice, sketch, condition, equalities);
        sketch.selects.push([selector, target, condition]);
    }
}

/// One or two ranges on int and hex symbols.
fn ranges(dice: &mut Dice, sketch: &mut Sketch, kinds: &[u8]) {
    let numbers = of_kinds(kinds, |kind| kind > 2);
    if numbers.is_empty() {
        return;
    }
    for _ in 0..dice.from_to(1, 2) {
        let symbol = dice.one_of(&numbers);
        let kind = kinds[usize::from(symbol)];
        let low = bound(dice, sketch, kinds, kind, true);
        let high = bound(dice, sketch, kinds, kind, false);
        let condition = any_node(dice, sketch, 10, 60);
        sketch.ranges.push([symbol, low, high, condition]);
    }
}

/// A bound of a type: a symbol, or a constant that is mostly small for the low
/// bound and large for the high one.
fn bound(dice: &mut Dice, sketch: &mut Sketch, kinds: &[u8], kind: u8, low: bool) -> u16 {
    if dice.chance(20) {
        let alike = of_kinds(kinds, |other| other == kind);
        let symbol = dice.one_of(&alike);
        return sketch.node(1, symbol, 0);
    }
    if kind == 3 {
        let (one, other) = (dice.one_of(&INTS), dice.one_of(&INTS));
        let mild = if low { one.min(other) } else { one.max(other) };
        return sketch.int(mild);
    }
    let (one, other) = (dice.one_of(&HEXES), dice.one_of(&HEXES));
    let mild = if low { one.min(other) } else { one.max(other) };
    sketch.hex(mild)
}

/// One to three choices over some of the boolean and tristate symbols.
fn choices(dice: &mut Dice, sketch: &mut Sketch, kinds: &[u8]) {
    let mut free = of_kinds(kinds, |kind| kind < 2);
    dice.shuffle(&mut free);
    for _ in 0..dice.from_to(1, 3) {
        let kind = u8::from(dice.chance(60));
        let wanted = if dice.chance(12) { 0 } else { dice.from_to(1, 4) };
        let mut members = Vec::new();
        while members.len() < wanted {
            let fitting = free.iter().position(|&s| kinds[usize::from(s)] <= kind);
            match fitting {
                Some(at) => members.push(free.remove(at)),
                None => break,
            }
        }
        let prompt = any_node(dice, sketch, 10, 50);
        let mandatory = u8::from(dice.chance(60));
        sketch.choice(kind, mandatory, prompt, &members);
    }
}
