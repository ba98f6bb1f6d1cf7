//! The program: one line for one standard input.

use crate::book::u16_at;
use crate::{check_table, name, Answer};

/// The most nodes a book can hold.
const MOST_NODES: usize = 65535 / 6;

/// What the program prints for a standard input, the newline included.
pub fn line(input: &[u8]) -> Vec<u8> {
    let (model, table) = input.split_at(model_length(input));
    let mut node_work = vec![0; MOST_NODES];
    let answer = check_table(model, table, &mut node_work);
    let mut line = format!("{} {} {} ", answer.number, answer.place, answer.second).into_bytes();
    match offending(answer) {
        Some(symbol) => line.extend(name(model, symbol)),
        None => line.push(b'-'),
    }
    line.push(b'\n');
    line
}

/// How many bytes of an input are the model: as many as its first two bytes
/// say, or all if there are fewer or under two.
fn model_length(input: &[u8]) -> usize {
    if input.len() < 2 {
        return input.len();
    }
    u16_at(input, 0).min(input.len())
}

/// The symbol that an answer blames.
fn offending(answer: Answer) -> Option<usize> {
    match answer.number {
        10..=14 | 18 => Some(answer.place as usize),
        15 | 16 => Some(answer.second as usize),
        _ => None,
    }
}
