//! The books that are timed.

use differential::big::Shape;
use differential::names::Naming;
use second::sketch::Sketch;

/// The most bytes of a book.
pub const FULL: usize = 65535;

/// The shapes of the table check, by what they stand for.
pub const SHAPES: [(&str, Shape); 5] = [
    (
        "table: a: few selects",
        Shape {
            symbols: 1068,
            nodes: 600,
            defaults: 400,
            selects: 50,
            ranges: 20,
            choices: 10,
            bytes: 33_000,
            naming: Naming::Real,
        },
    ),
    ("table: b: the usual large book", USUAL),
    (
        "table: c: more selects than symbols",
        Shape {
            symbols: 1450,
            nodes: 1000,
            defaults: 900,
            selects: 1578,
            ranges: 20,
            choices: 10,
            bytes: 53_000,
            naming: Naming::Real,
        },
    ),
    (
        "table: d: the most selects",
        Shape {
            symbols: 4000,
            nodes: 20,
            defaults: 300,
            selects: 5000,
            ranges: 0,
            choices: 0,
            bytes: FULL,
            naming: Naming::Overlapping,
        },
    ),
    (
        "table: e: the most names",
        Shape {
            symbols: 6000,
            nodes: 20,
            defaults: 20,
            selects: 20,
            ranges: 0,
            choices: 0,
            bytes: FULL,
            naming: Naming::Short,
        },
    ),
];

/// The shape that is also made smaller and larger.
pub const USUAL: Shape = Shape {
    symbols: 1747,
    nodes: 1800,
    defaults: 1500,
    selects: 1012,
    ranges: 20,
    choices: 10,
    bytes: 58_000,
    naming: Naming::Real,
};

/// The lengths of the growth.
pub const GROWTH: [usize; 4] = [8192, 16384, 32768, FULL];

/// The booleans of a complete clearance.
const BOOLEANS: u16 = 13;

/// As many booleans as fit, all members of one choice, in a mixed order.
pub fn member_book() -> Sketch {
    let count = 5000u32;
    let mut sketch = leaves(0);
    (0..count).for_each(|symbol| _ = sketch.symbol(0, &three_letters(symbol), 1, 1));
    let mixed = (0..count).map(|at| (at * 2467 % count) as u16);
    sketch.choice(0, 0, 1, &mixed.collect::<Vec<_>>());
    sketch
}

/// As many ints as fit, each with a range, in a mixed order.
pub fn range_book() -> Sketch {
    let count = 3400u32;
    let mut sketch = leaves(0);
    let (low, high) = (sketch.int(-5), sketch.int(5));
    (0..count).for_each(|symbol| _ = sketch.symbol(3, &three_letters(symbol), 1, 1));
    let mixed = (0..count).map(|at| [(at * 2467 % count) as u16, low, high, 1]);
    sketch.ranges.extend(mixed);
    sketch
}

/// The name with this number, of three letters.
fn three_letters(number: u32) -> String {
    [number / 676, number / 26 % 26, number % 26]
        .map(|at| (b'A' + at as u8) as char)
        .iter()
        .collect()
}

/// The first nodes of a book: n, y, and one for each symbol.
fn leaves(symbols: u16) -> Sketch {
    let mut sketch = Sketch::default();
    sketch.node(0, 0, 0);
    sketch.node(0, 2, 0);
    (0..symbols).for_each(|symbol| _ = sketch.node(1, symbol, 0));
    sketch
}

/// A book of 13 booleans in which each selects the next, half of them without a
/// prompt. The target of select 0 depends on nothing, so its complete
/// clearance is accepted.
pub fn boolean_book() -> Sketch {
    let mut sketch = leaves(BOOLEANS);
    for symbol in 0..BOOLEANS {
        sketch.symbol(0, &format!("OPTION_{symbol}"), 1 - symbol % 2, 1);
    }
    for symbol in 1..BOOLEANS {
        sketch.selects.push([symbol - 1, symbol, 2 + (symbol + 5) % BOOLEANS]);
        sketch.defaults.push([symbol, 1, 2 + symbol / 2]);
    }
    sketch
}

/// The same book filled with nodes, selects and defaults up to 65,535 bytes.
pub fn full_boolean_book() -> Sketch {
    let mut sketch = boolean_book();
    for record in 0..1900 {
        let (one, other) = (record % BOOLEANS, record / BOOLEANS % BOOLEANS);
        let from = one.min(other);
        sketch.selects.push([from, (from + 1).min(BOOLEANS - 1), 2 + other]);
        sketch.defaults.push([one, record % 2, 2 + other]);
    }
    while sketch.bytes().len() + 6 <= FULL {
        let index = sketch.nodes.len() as u16;
        match index % 4 {
            0 => sketch.node(5, index - 1, 0),
            1 => sketch.node(6, index - 1, 2 + index % BOOLEANS),
            2 => sketch.node(7, index - 2, index - 7),
            _ => sketch.node(8, 2 + index % BOOLEANS, 2 + index / BOOLEANS % BOOLEANS),
        };
    }
    sketch.texts.resize(sketch.texts.len() + FULL - sketch.bytes().len(), b'.');
    sketch
}

/// Eight tristates in which each selects the next under a condition of its own,
/// made of every kind of node, and has two defaults.
pub fn tristate_book() -> Sketch {
    let count = 8;
    let mut sketch = leaves(count);
    for symbol in 0..count {
        sketch.symbol(1, &format!("TRISTATE_{symbol}"), 1 - symbol % 2, 1);
    }
    for symbol in 1..count {
        let both = sketch.node(6, 1 + symbol, 2 + (symbol + 3) % count);
        let not = sketch.node(5, 2 + (symbol + 5) % count, 0);
        let either = sketch.node(7, both, not);
        let equal = sketch.node(8, 2 + symbol, 2 + (symbol + 1) % count);
        let all = sketch.node(6, either, equal);
        sketch.selects.push([symbol - 1, symbol, either]);
        sketch.defaults.push([symbol, 2 + symbol / 2, all]);
        sketch.defaults.push([symbol, 1, equal]);
    }
    sketch
}

/// Thirteen booleans in two mandatory choices.
pub fn choice_book() -> Sketch {
    let mut sketch = leaves(BOOLEANS);
    for symbol in 0..BOOLEANS {
        sketch.symbol(0, &format!("MEMBER_{symbol}"), 1, 1);
    }
    sketch.selects.push([0, 1, 1]);
    sketch.choice(0, 1, 1, &(0..6).collect::<Vec<_>>());
    sketch.choice(0, 1, 2, &(6..BOOLEANS).collect::<Vec<_>>());
    sketch
}

/// Twelve booleans whose conditions are equalities with a text, and of an int
/// and a hex.
pub fn equality_book() -> Sketch {
    let count = 12;
    let mut sketch = leaves(count);
    let (text, int, hex) = (sketch.text_node(b"y"), sketch.int(-1_234_567), sketch.hex(0xbeef));
    for symbol in 0..count {
        sketch.symbol(0, &format!("EQUAL_{symbol}"), 1 - symbol % 2, 1);
    }
    for symbol in 1..count {
        let equal = sketch.node(8, 2 + symbol, text);
        let unlike = sketch.node(9, int, hex);
        let both = sketch.node(6, equal, unlike);
        let other = sketch.node(9, 2 + (symbol + 4) % count, text);
        sketch.selects.push([symbol - 1, symbol, both]);
        sketch.defaults.push([symbol, 1, other]);
    }
    sketch
}

/// Twelve booleans whose conditions stand on one chain of 200 nodes.
pub fn chain_book() -> Sketch {
    let count = 12;
    let mut sketch = leaves(count);
    for symbol in 0..count {
        sketch.symbol(0, &format!("CHAIN_{symbol}"), 1 - symbol % 2, 1);
    }
    let mut last = 2;
    for step in 0..200u16 {
        last = sketch.node(6 + (step % 2) as u8, 2 + step % count, last);
    }
    for symbol in 1..count {
        sketch.selects.push([symbol - 1, symbol, last - symbol * 3]);
        sketch.defaults.push([symbol, 1, last - symbol]);
    }
    sketch
}
