//! The rules in order: 10 for all symbols, 11 to 14 for each symbol, 15 to 17
//! for each choice, then 18.

use crate::book::{Book, Choice, Range, HEX, INT, STRING};
use crate::table::Entry;
use crate::values::{leaf, State, M, N, Y};
use crate::Answer;

/// The first broken rule of a table, or the answer 0.
pub fn first_broken(book: &Book, entries: &[Entry], nodes: &[u8]) -> Answer {
    let state = State { book, entries, nodes };
    let broken = types(&state)
        .or_else(|| (0..book.symbols.len()).find_map(|symbol| symbol_rules(&state, symbol)))
        .or_else(|| (0..book.choices.len()).find_map(|choice| choice_rules(&state, choice)))
        .or_else(|| modules(&state));
    broken.unwrap_or(Answer::KEPT)
}

/// Rule 10: the first symbol whose entry does not fit its type.
fn types(state: &State) -> Option<Answer> {
    let mut pairs = state.book.symbols.iter().zip(state.entries);
    let symbol = pairs.position(|(symbol, &entry)| !fits(symbol.kind, entry))?;
    Some(Answer::at(10, symbol))
}

/// Whether an entry fits a type.
fn fits(kind: u8, entry: Entry) -> bool {
    match entry {
        Entry::Three(value) => kind == 1 || kind == 0 && value != M,
        Entry::Text(text) => kind == STRING || kind > STRING && text.is_empty(),
        Entry::Int(_) => kind == INT,
        Entry::Hex(_) => kind == HEX,
    }
}

/// Rules 11 to 14 for one symbol.
fn symbol_rules(state: &State, symbol: usize) -> Option<Answer> {
    let prompt = state.nodes[state.book.symbols[symbol].prompt];
    if state.book.symbols[symbol].three_valued() {
        return three_valued_rules(state, symbol, prompt);
    }
    if prompt == N && state.entries[symbol] != state.default_entry(symbol) {
        return Some(Answer::at(13, symbol));
    }
    let mut ranges = state.book.ranges_of[symbol].iter();
    let range = ranges.find(|&&range| out_of_range(state, &state.book.ranges[range]))?;
    Some(Answer::both(14, symbol, *range))
}

/// Rules 11 to 13 for a boolean or tristate symbol.
fn three_valued_rules(state: &State, symbol: usize, prompt: u8) -> Option<Answer> {
    let value = state.symbol(symbol);
    let lower = state.lower(symbol);
    if value < lower {
        return Some(Answer::at(11, symbol));
    }
    if prompt > N && prompt >= lower && value > prompt {
        return Some(Answer::at(12, symbol));
    }
    if prompt == N && value != state.default_value(symbol).max(lower) {
        return Some(Answer::at(13, symbol));
    }
    None
}

/// Rule 14 for one range: its condition holds, and the value or a bound is
/// empty, or the value is outside.
fn out_of_range(state: &State, range: &Range) -> bool {
    if state.nodes[range.condition] == N {
        return false;
    }
    let bound = |node: usize| leaf(state.book.nodes[node], state.entries);
    match (state.entries[range.symbol], bound(range.low), bound(range.high)) {
        (Entry::Int(value), Some(Entry::Int(low)), Some(Entry::Int(high))) => {
            value < low || value > high
        }
        (Entry::Hex(value), Some(Entry::Hex(low)), Some(Entry::Hex(high))) => {
            value < low || value > high
        }
        _ => true,
    }
}

/// Rules 15 to 17 for one choice.
fn choice_rules(state: &State, index: usize) -> Option<Answer> {
    let choice = state.book.choices[index];
    if state.nodes[choice.prompt] == N {
        return None;
    }
    let members = state.book.members_of(&choice);
    if let Some(symbol) = beside_the_first_y(state, members) {
        return Some(Answer::both(15, index, symbol));
    }
    if let Some(symbol) = at_m_in_a_boolean(state, &choice, members) {
        return Some(Answer::both(16, index, symbol));
    }
    if choice.mandatory && members.iter().all(|&member| state.symbol(member) == N) {
        return Some(Answer::at(17, index));
    }
    None
}

/// Rule 15: the first member above n other than the first y, if there is a y.
fn beside_the_first_y(state: &State, members: &[usize]) -> Option<usize> {
    let first = members.iter().position(|&member| state.symbol(member) == Y)?;
    let mut others = members.iter().enumerate();
    let other = others.find(|&(place, &member)| place != first && state.symbol(member) > N)?;
    Some(*other.1)
}

/// Rule 16: the first member at m in a boolean choice.
fn at_m_in_a_boolean(state: &State, choice: &Choice, members: &[usize]) -> Option<usize> {
    let mut members = members.iter().copied();
    members.find(|&member| choice.kind == 0 && state.symbol(member) == M)
}

/// Rule 18: the first symbol at m where the modules symbol is declared and n.
fn modules(state: &State) -> Option<Answer> {
    let modules = state.book.modules?;
    if state.symbol(modules) != N {
        return None;
    }
    let symbol = state.entries.iter().position(|&entry| entry == Entry::Three(M))?;
    Some(Answer::at(18, symbol))
}
