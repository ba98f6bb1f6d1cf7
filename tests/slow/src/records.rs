//! Books of ranges, defaults and selects, and tables of long strings.

use crate::{constants, filled, table_case, witness_case, Size, N, Y};
use second::cases::Case;
use second::sketch::{Sketch, Value};

/// A book of ints, each within the bounds that are given as nodes.
fn ints(count: usize) -> (Sketch, [u16; 2]) {
    let mut sketch = constants();
    let bounds = [sketch.int(-5), sketch.int(5)];
    filled(&mut sketch, 3, count, Y);
    (sketch, bounds)
}

/// Ranges on one symbol, all kept.
pub fn ranges_on_one_symbol(size: Size) -> Case {
    let (mut sketch, [low, high]) = ints(1);
    sketch.ranges = vec![[0, low, high, Y]; size.book];
    table_case(&sketch, &[Value::Int(5)])
}

/// Ranges on one symbol, the last one broken.
pub fn the_last_range_is_broken(size: Size) -> Case {
    let (mut sketch, [low, high]) = ints(1);
    sketch.ranges = vec![[0, low, high, Y]; size.book];
    sketch.ranges[size.book - 1] = [0, low, low, Y];
    table_case(&sketch, &[Value::Int(5)])
}

/// A range on each symbol, all kept, the last symbol first.
pub fn a_range_on_each_symbol(size: Size) -> Case {
    let (mut sketch, [low, high]) = ints(size.book);
    sketch.ranges = (0..size.book as u16).rev().map(|symbol| [symbol, low, high, Y]).collect();
    table_case(&sketch, &vec![Value::Int(5); size.book])
}

/// A range on each symbol, all broken, the last symbol first: the first symbol
/// that breaks one is another at every range.
pub fn every_range_is_broken(size: Size) -> Case {
    let (mut sketch, [low, high]) = ints(size.book);
    sketch.ranges = (0..size.book as u16).rev().map(|symbol| [symbol, low, high, Y]).collect();
    table_case(&sketch, &vec![Value::Int(6); size.book])
}

/// Ranges between two symbols, each broken but for its condition.
pub fn ranges_between_symbols(size: Size) -> Case {
    let (mut sketch, _) = ints(3);
    let (low, high) = (sketch.node(1, 1, 0), sketch.node(1, 2, 0));
    sketch.ranges = vec![[0, high, low, N]; size.book];
    table_case(&sketch, &[Value::Int(0), Value::Int(-5), Value::Int(5)])
}

/// Defaults on one symbol, of which the last one applies.
pub fn defaults_on_one_symbol(size: Size) -> Case {
    let mut sketch = constants();
    filled(&mut sketch, 0, 1, N);
    sketch.defaults = vec![[0, N, N]; size.book];
    sketch.defaults.push([0, Y, Y]);
    table_case(&sketch, &[Value::Three(2)])
}

/// A default on each symbol: as many symbols as defaults.
pub fn a_default_on_each_symbol(size: Size) -> Case {
    let mut sketch = constants();
    filled(&mut sketch, 0, size.book, N);
    sketch.defaults = (0..size.book as u16).rev().map(|symbol| [symbol, Y, Y]).collect();
    table_case(&sketch, &vec![Value::Three(2); size.book])
}

/// Selects on one symbol, all of which give y.
pub fn selects_on_one_symbol(size: Size) -> Case {
    let mut sketch = constants();
    filled(&mut sketch, 0, 2, Y);
    sketch.selects = vec![[0, 1, Y]; size.book];
    witness_case(&sketch, &vec![Value::Three(2); 2])
}

/// A select on each symbol: as many symbols as selects.
pub fn a_select_on_each_symbol(size: Size) -> Case {
    let mut sketch = constants();
    filled(&mut sketch, 0, size.book, N);
    let count = size.book as u16;
    sketch.selects = (0..count).rev().map(|symbol| [count - 1 - symbol, symbol, Y]).collect();
    table_case(&sketch, &vec![Value::Three(0); size.book])
}

/// A select and a default on each symbol.
pub fn a_select_and_a_default_on_each(size: Size) -> Case {
    let mut sketch = constants();
    filled(&mut sketch, 0, size.book, N);
    let count = size.book as u16;
    sketch.selects = (0..count).rev().map(|symbol| [count - 1 - symbol, symbol, Y]).collect();
    sketch.defaults = (0..count).map(|symbol| [symbol, Y, Y]).collect();
    table_case(&sketch, &vec![Value::Three(2); size.book])
}

/// Strings of 64 bytes everywhere: each is its symbol's default, and is compared
/// with it to the last byte.
pub fn strings_of_64_bytes(size: Size) -> Case {
    let mut sketch = constants();
    filled(&mut sketch, 2, size.book, N);
    let text = [b'x'; 64];
    let node = sketch.text_node(&text);
    sketch.defaults = (0..size.book as u16).map(|symbol| [symbol, node, Y]).collect();
    table_case(&sketch, &vec![Value::Text(text.to_vec()); size.book])
}

/// The last of many symbols is m without modules: rule 18 at the very end.
pub fn the_last_symbol_is_m(size: Size) -> Case {
    let mut sketch = constants();
    filled(&mut sketch, 0, 1, Y);
    filled(&mut sketch, 1, size.book - 1, Y);
    sketch.modules = 0;
    let mut values = vec![Value::Three(0); size.book];
    values[size.book - 1] = Value::Three(1);
    table_case(&sketch, &values)
}
