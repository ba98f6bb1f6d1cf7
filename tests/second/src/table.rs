//! The configuration table: its entries, and the answers 5 and 6.

use crate::book::{u16_at, Book, LONGEST};
use crate::Answer;

/// A read entry: its kind and content.
#[derive(Clone, Copy, PartialEq, Eq, Debug)]
pub enum Entry<'a> {
    Three(u8),
    Text(&'a [u8]),
    Int(i32),
    Hex(u32),
}

/// Reads every entry of a table, or gives the answer 5 or 6 that refuses it.
pub fn read<'a>(book: &Book, table: &'a [u8]) -> Result<Vec<Entry<'a>>, Answer> {
    let refused = Answer::at(5, 0);
    let count = book.symbols.len();
    let contents_end = 4 + 4 * count;
    if table.len() < 4
        || u16_at(table, 0) != table.len()
        || u16_at(table, 2) != count
        || contents_end > table.len()
    {
        return Err(refused);
    }
    let mut end = contents_end;
    let mut entries = Vec::with_capacity(count);
    for symbol in 0..count {
        let record = &table[4 + 4 * symbol..8 + 4 * symbol];
        let body = body(table, record, end).ok_or(Answer::at(6, symbol))?;
        entries.push(entry(record[0], body).ok_or(Answer::at(6, symbol))?);
        end += body.len();
    }
    if end < table.len() {
        return Err(refused);
    }
    Ok(entries)
}

/// The body of an entry, if it starts where the former ended and ends in the
/// table.
fn body<'a>(table: &'a [u8], record: &[u8], former_end: usize) -> Option<&'a [u8]> {
    let start = u16_at(record, 2);
    if start != former_end {
        return None;
    }
    table.get(start..start + usize::from(record[1]))
}

/// An entry from its kind and body, if the length and the bytes fit the kind.
fn entry(kind: u8, body: &[u8]) -> Option<Entry<'_>> {
    match (kind, body) {
        (0, &[value]) if value <= 2 => Some(Entry::Three(value)),
        (1, text) if text.len() <= LONGEST => Some(Entry::Text(text)),
        (2, &[a, b, c, d]) => Some(Entry::Int(i32::from_le_bytes([a, b, c, d]))),
        (3, &[a, b, c, d]) => Some(Entry::Hex(u32::from_le_bytes([a, b, c, d]))),
        _ => None,
    }
}
