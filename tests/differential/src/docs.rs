//! The byte examples of the documents: each block marked `case` is run by the
//! second program and by the archive, and must draw what it says.
//!
//!     model    FILE.hex, byte N = HH .., cut to N bytes, then HH ..
//!     table    the same; or bytes in hex, '#' starting a comment
//!     answer   ANSWER PLACE SECOND [NAME]
//!
//! Instead of `table` there may be `finding`, or `symbol N` with `name TEXT`
//! for its answer. `rooms N S` gives the lengths of the rooms, which else have
//! just the bytes that are needed; `nodes` and `symbols` give them afterwards.
//! A line that starts with a blank goes on with the one before.

use crate::compare::compare;
use second::cases::{hex, Case, FINDING, NAME, TABLE};
use second::named::{NODE_FILL, SYMBOL_FILL};
use std::fs;
use std::path::Path;

/// Runs the examples of some documents, the bytes of files standing in a
/// folder, and says how it went.
pub fn all(documents: &[String], files: &Path) -> bool {
    let mut good = true;
    for document in documents {
        match run(Path::new(document), files) {
            Ok(count) => println!("{document}: {count} examples hold on both sides"),
            Err(fault) => {
                eprintln!("{fault}");
                good = false;
            }
        }
    }
    good
}

/// Runs every example of a document, and says how many there are.
fn run(document: &Path, files: &Path) -> Result<usize, String> {
    let text = read(document)?;
    let blocks = blocks(&text);
    if blocks.is_empty() {
        return Err(format!("{}: no example", document.display()));
    }
    for (line, block) in &blocks {
        let told = |fault| format!("{}:{line}: {fault}", document.display());
        one(block, files).map_err(told)?;
    }
    Ok(blocks.len())
}

/// Each block marked `case`, with the number of its first line.
fn blocks(text: &str) -> Vec<(usize, Vec<(String, String)>)> {
    let mut found = Vec::new();
    let mut inside = false;
    for (number, line) in text.lines().enumerate() {
        match line.trim_end() {
            "```case" => {
                inside = true;
                found.push((number + 1, Vec::new()));
            }
            "```" => inside = false,
            line if inside => {
                let block: &mut Vec<(String, String)> = &mut found.last_mut().expect("a block").1;
                let bare = line.split('#').next().unwrap_or("");
                match (bare.starts_with(' '), block.last_mut()) {
                    (true, Some(entry)) => entry.1 += &format!(" {}", bare.trim()),
                    _ => {
                        let (key, rest) = bare.split_once(' ').unwrap_or((bare, ""));
                        block.push((key.to_string(), rest.trim().to_string()));
                    }
                }
            }
            _ => {}
        }
    }
    found
}

/// Runs one example.
fn one(block: &[(String, String)], files: &Path) -> Result<(), String> {
    let known =
        ["model", "table", "finding", "symbol", "rooms", "answer", "nodes", "symbols", "name"];
    if let Some((key, _)) = block.iter().find(|(key, _)| !known.contains(&key.as_str())) {
        return Err(format!("'{key}' is no word of an example"));
    }
    let value = |key: &str| block.iter().find(|entry| entry.0 == key).map(|entry| entry.1.as_str());
    let model = bytes(value("model").ok_or("no model")?, files)?;
    let counted =
        |at: usize| model.get(at..at + 2).map_or(0, |b| usize::from(b[0]) | usize::from(b[1]) << 8);
    let rooms = match value("rooms") {
        Some(text) => numbers(text)?,
        None => vec![counted(10), counted(6)],
    };
    let [nodes, symbols] = rooms[..] else {
        return Err("rooms has two lengths".into());
    };
    let mut case = Case {
        kind: TABLE,
        name: "example".into(),
        model,
        node_work: vec![NODE_FILL; nodes],
        symbol_work: vec![SYMBOL_FILL; symbols],
        ..Case::default()
    };
    match (value("table"), value("finding"), value("symbol")) {
        (Some(text), None, None) => case.second = bytes(text, files)?,
        (None, Some(text), None) => {
            case.kind = FINDING;
            case.second = bytes(text, files)?;
        }
        (None, None, Some(text)) => {
            case.kind = NAME;
            case.index = text.parse().map_err(|_| "no symbol number")?;
        }
        _ => return Err("one of table, finding and symbol must be there".into()),
    }
    stated(&case, &value)?;
    match compare(&case) {
        Ok(_) => Ok(()),
        Err(difference) => Err(format!("the archive draws {}", difference.archive)),
    }
}

/// Whether the second program draws what the example says.
fn stated<'b>(case: &Case, value: &impl Fn(&str) -> Option<&'b str>) -> Result<(), String> {
    let drawn = String::from_utf8_lossy(&case.answer()).into_owned();
    let drawn = drawn.strip_prefix("example").unwrap_or(&drawn).trim();
    if case.kind == NAME {
        let due = value("name").ok_or("no name")?;
        let due = hex(due.as_bytes());
        return if drawn == due { Ok(()) } else { Err(format!("the name is {drawn}")) };
    }
    let due = value("answer").ok_or("no answer")?;
    let mut words: Vec<&str> = due.split_whitespace().collect();
    let name = if words.len() > 3 { words.pop() } else { None };
    let (answer, rooms) = drawn.rsplit_once(' ').unwrap_or((drawn, "/"));
    if words.join(" ") != answer {
        return Err(format!("it says {due}, and draws {drawn}"));
    }
    if let Some(name) = name {
        let numbers = numbers(answer)?;
        let symbol = if matches!(numbers[0], 15 | 16) { numbers[2] } else { numbers[1] };
        if second::name(&case.model, symbol) != name.as_bytes() {
            return Err(format!("the symbol is not {name}"));
        }
    }
    let (nodes, symbols) = rooms.split_once('/').unwrap_or((rooms, ""));
    for (key, drawn) in [("nodes", nodes), ("symbols", symbols)] {
        if value(key).is_some_and(|due| due.replace(' ', "") != drawn) {
            return Err(format!("{key} are {drawn}"));
        }
    }
    Ok(())
}

/// The bytes that an example names: a file with changes, or hex.
fn bytes(text: &str, files: &Path) -> Result<Vec<u8>, String> {
    let mut parts = text.split(',').map(str::trim);
    let first = parts.next().unwrap_or("");
    let mut out = match first.ends_with(".hex") {
        true => annotated(&files.join(first))?,
        false => digits(first)?,
    };
    for change in parts {
        if let Some(more) = change.strip_prefix("then ") {
            out.extend(digits(more)?);
        } else if let Some(rest) = change.strip_prefix("cut to ") {
            let length = rest.trim_end_matches("bytes").trim().parse().map_err(|_| "no length")?;
            out.truncate(length);
        } else {
            let (at, with) = change
                .strip_prefix("byte ")
                .and_then(|rest| rest.split_once('='))
                .ok_or_else(|| format!("'{change}' is no change"))?;
            let at: usize = at.trim().parse().map_err(|_| "no offset")?;
            let with = digits(with)?;
            let place = out.get_mut(at..at + with.len()).ok_or("a change past the end")?;
            place.copy_from_slice(&with);
        }
    }
    Ok(out)
}

/// The bytes of an annotated file. A comment that starts with a number behind
/// bytes gives their offset, and must be right.
fn annotated(file: &Path) -> Result<Vec<u8>, String> {
    let mut out = Vec::new();
    for (number, line) in read(file)?.lines().enumerate() {
        let (code, comment) = line.split_once('#').unwrap_or((line, ""));
        let found = digits(code)?;
        let offset = comment.split_whitespace().next().and_then(|word| word.parse::<usize>().ok());
        if !found.is_empty() && offset != Some(out.len()) {
            return Err(format!("{}:{}: the offset is {}", file.display(), number + 1, out.len()));
        }
        out.extend(found);
    }
    Ok(out)
}

/// Bytes in hex, with blanks between them.
fn digits(text: &str) -> Result<Vec<u8>, String> {
    let bare: String = text.split_whitespace().collect();
    let pairs = bare.as_bytes().chunks(2);
    let byte = |pair: &[u8]| {
        std::str::from_utf8(pair).ok().and_then(|two| u8::from_str_radix(two, 16).ok())
    };
    let found: Option<Vec<u8>> = pairs.map(|pair| byte(pair).filter(|_| pair.len() == 2)).collect();
    found.ok_or_else(|| format!("'{text}' are no bytes in hex"))
}

/// Decimal numbers with blanks between them.
fn numbers(text: &str) -> Result<Vec<usize>, String> {
    let words = text.split_whitespace();
    words.map(|word| word.parse().map_err(|_| format!("'{word}' is no number"))).collect()
}

/// The text of a file.
fn read(file: &Path) -> Result<String, String> {
    fs::read_to_string(file).map_err(|error| format!("{}: {error}", file.display()))
}
