//! One input of a fuzzer as one case for the archive and the second program.
//!
//! The first byte says what is asked (its lowest two bits: 0 table, 1 or 3
//! finding, 2 name), whether the bytes are mended first (the next bit), and by
//! how much the rooms miss what is needed (two bits each, see `ROOMS`). Then
//! comes the model, as long as its first two bytes say, then the table, the
//! finding, or the symbol's number in two bytes.
//!
//! Mended means that totals, counts and starts are made to fit the counts and
//! lengths beside them, so that a changed count is not just a broken chain.

use differential::compare::{compare, model_length};
use differential::show::show;
use second::book::{u16_at, HEAD, WIDTH};
use second::cases::{Case, FINDING, NAME, PROGRAM, TABLE};
use second::named::{NODE_FILL, SYMBOL_FILL};

/// The bit of the first byte that asks for mending.
const MEND: u8 = 4;

/// How long a room is beside what is needed.
const ROOMS: [isize; 4] = [0, 9, -1, 1];

/// What libFuzzer calls. A difference is shown and ends the run.
///
/// # Safety
/// The pointer and the length must be those of live bytes.
#[no_mangle]
pub unsafe extern "C" fn LLVMFuzzerTestOneInput(data: *const u8, length: usize) -> i32 {
    let input = if length == 0 { &[] } else { std::slice::from_raw_parts(data, length) };
    if !alike(input) {
        std::process::abort();
    }
    0
}

/// Whether both sides do the same on an input; a difference is shown.
pub fn alike(input: &[u8]) -> bool {
    let case = case(input);
    match compare(&case) {
        Ok(_) => true,
        Err(difference) => {
            show(&case, &difference);
            false
        }
    }
}

/// The case that an input stands for.
pub fn case(input: &[u8]) -> Case {
    let (first, rest) = input.split_first().unwrap_or((&0, &[]));
    let kind = [TABLE, FINDING, NAME, FINDING][usize::from(first & 3)];
    let mut bytes = rest.to_vec();
    let length = if first & MEND != 0 { mend_model(&mut bytes) } else { model_length(&bytes) };
    let mut second = bytes.split_off(length);
    let counted = |at: usize| if bytes.len() < HEAD { 0 } else { u16_at(&bytes, at) };
    let (symbols, nodes) = (counted(6), counted(10));
    if first & MEND != 0 && kind != NAME {
        let front = if kind == FINDING { 4 } else { 0 };
        if front == 0 || second.get(2) == Some(&0) {
            mend_table(&mut second, front, symbols);
        }
    }
    let room = |needed: usize, bits: u8| needed.saturating_add_signed(ROOMS[usize::from(bits & 3)]);
    let index = if second.len() < 2 { 0 } else { u16_at(&second, 0) as u32 };
    Case {
        kind,
        name: "fuzzed".into(),
        node_work: vec![NODE_FILL; room(nodes, first >> 3)],
        symbol_work: vec![SYMBOL_FILL; room(symbols, first >> 5)],
        index: if kind == NAME { index } else { 0 },
        model: bytes,
        second,
    }
}

/// The input that stands for a case, its rooms apart.
pub fn input(case: &Case, first: u8) -> Vec<u8> {
    let kind = match case.kind {
        FINDING => 1,
        NAME => 2,
        _ => 0,
    };
    let mut out = vec![first & !3 | kind];
    out.extend(&case.model);
    match case.kind {
        NAME => out.extend((case.index as u16).to_le_bytes()),
        PROGRAM => {}
        _ => out.extend(&case.second),
    }
    out
}

/// Makes the chain and the total fit the counts, the last sections giving way
/// where there are too few bytes; says how long the model is then.
fn mend_model(bytes: &mut [u8]) -> usize {
    if bytes.len() < HEAD {
        return bytes.len();
    }
    let most = bytes.len().min(65535);
    let mut at = HEAD;
    for (section, width) in WIDTH.into_iter().enumerate() {
        let count = u16_at(bytes, 6 + 4 * section).min((most - at) / width);
        put(bytes, 4 + 4 * section, at);
        put(bytes, 6 + 4 * section, count);
        at += count * width;
    }
    put(bytes, 0, at);
    at
}

/// Makes the total, the count and the starts of a table fit its lengths.
fn mend_table(bytes: &mut [u8], front: usize, symbols: usize) {
    let Some(table) = bytes.get_mut(front..).filter(|table| table.len() >= 4 + 4 * symbols) else {
        return;
    };
    let mut at = 4 + 4 * symbols;
    put(table, 0, table.len());
    put(table, 2, symbols);
    for symbol in 0..symbols {
        put(table, 6 + 4 * symbol, at);
        at += usize::from(table[5 + 4 * symbol]);
    }
}

/// Writes a number of two bytes.
fn put(bytes: &mut [u8], at: usize, number: usize) {
    bytes[at..at + 2].copy_from_slice(&(number as u16).to_le_bytes());
}
