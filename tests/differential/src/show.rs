//! A difference in print, and a case as hex and back.

use crate::compare::{compare, Difference};
use crate::shrink::shrunk;
use second::cases::{hex, Case, KINDS};

/// Shows a difference, and the smallest case found that still has one.
pub fn show(case: &Case, difference: &Difference) {
    println!("DIFFERENCE in {} ({} + {} bytes)", case.name, case.model.len(), case.second.len());
    println!("  archive: {}", cut(&difference.archive));
    println!("  second:  {}", cut(&difference.second));
    let small = shrunk(case);
    let Err(left) = compare(&small) else {
        println!("  it comes and goes: the same case did not differ again");
        return;
    };
    println!("  shrunk to {} + {} bytes", small.model.len(), small.second.len());
    println!("  model   {}", cut(&hex(&small.model)));
    println!("  {:7} {}", KINDS[small.kind as usize], cut(&hex(&small.second)));
    println!("  archive: {}", cut(&left.archive));
    println!("  second:  {}", cut(&left.second));
    println!("  case {}", to_hex(&small));
}

/// A long line, cut.
fn cut(line: &str) -> String {
    match line.char_indices().nth(400) {
        Some((at, _)) => format!("{}... ({} in all)", &line[..at], line.len()),
        None => line.to_string(),
    }
}

/// A case of the protocol in hex.
pub fn to_hex(case: &Case) -> String {
    let mut bytes = Vec::new();
    case.write(&mut bytes);
    hex(&bytes)
}

/// The case of the protocol that hex spells.
pub fn from_hex(text: &str) -> Option<Case> {
    let digits: Option<Vec<u8>> = text.chars().map(|c| Some(c.to_digit(16)? as u8)).collect();
    let digits = digits.filter(|digits| digits.len() % 2 == 0)?;
    let bytes: Vec<u8> = digits.chunks(2).map(|pair| pair[0] << 4 | pair[1]).collect();
    let (case, taken) = Case::read(&bytes)?;
    (taken == bytes.len()).then_some(case)
}
