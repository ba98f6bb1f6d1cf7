//! The case protocol: a head of seven little-endian u32, then the bytes.

use crate::{check_finding, check_table, line, name};

/// What a case asks for.
pub const TABLE: u32 = 0;
pub const FINDING: u32 = 1;
pub const NAME: u32 = 2;
pub const PROGRAM: u32 = 3;

/// The bytes of a case's head.
const HEAD: usize = 28;

/// One case: what is asked, and the bytes lent.
#[derive(Clone, PartialEq, Eq, Debug, Default)]
pub struct Case {
    pub kind: u32,
    pub name: String,
    pub model: Vec<u8>,
    pub second: Vec<u8>,
    pub node_work: Vec<u8>,
    pub symbol_work: Vec<u8>,
    pub index: u32,
}

impl Case {
    /// Reads the case at the front of the bytes and says how many it took.
    /// Nothing if the bytes hold no whole case.
    pub fn read(bytes: &[u8]) -> Option<(Case, usize)> {
        let head = bytes.get(..HEAD)?;
        let field = |index: usize| {
            let at = 4 * index;
            u32::from_le_bytes([head[at], head[at + 1], head[at + 2], head[at + 3]])
        };
        let mut at = HEAD;
        let mut part = |length: u32| {
            let end = at.checked_add(usize::try_from(length).ok()?)?;
            let part = bytes.get(at..end)?;
            at = end;
            Some(part.to_vec())
        };
        let case = Case {
            kind: field(0),
            name: String::from_utf8(part(field(1))?).ok()?,
            model: part(field(2))?,
            second: part(field(3))?,
            node_work: part(field(4))?,
            symbol_work: part(field(5))?,
            index: field(6),
        };
        (case.kind <= PROGRAM && is_case_name(&case.name)).then_some((case, at))
    }

    /// Reads every case, and how many bytes at the end are no case.
    pub fn read_all(bytes: &[u8]) -> (Vec<Case>, usize) {
        let mut cases = Vec::new();
        let mut rest = bytes;
        while let Some((case, taken)) = Case::read(rest) {
            cases.push(case);
            rest = &rest[taken..];
        }
        (cases, rest.len())
    }

    /// Writes the case after the bytes already there.
    pub fn write(&self, out: &mut Vec<u8>) {
        let parts: [&[u8]; 5] =
            [self.name.as_bytes(), &self.model, &self.second, &self.node_work, &self.symbol_work];
        out.extend(self.kind.to_le_bytes());
        for part in parts {
            out.extend((part.len() as u32).to_le_bytes());
        }
        out.extend(self.index.to_le_bytes());
        for part in parts {
            out.extend(part);
        }
    }

    /// The answer line of the case: its name, a space, the answer, a newline.
    pub fn answer(&self) -> Vec<u8> {
        let mut out = self.name.clone().into_bytes();
        out.push(b' ');
        match self.kind {
            NAME => out.extend(hex(name(&self.model, self.index as usize)).bytes()),
            PROGRAM => {
                out.extend(line(&self.model));
                return out;
            }
            _ => out.extend(self.check().bytes()),
        }
        out.push(b'\n');
        out
    }

    /// Runs a table or finding check in rooms of its own.
    fn check(&self) -> String {
        let mut nodes = self.node_work.clone();
        let mut symbols = self.symbol_work.clone();
        let answer = match self.kind {
            TABLE => check_table(&self.model, &self.second, &mut nodes),
            _ => check_finding(&self.model, &self.second, &mut nodes, &mut symbols),
        };
        let (number, place, second) = (answer.number, answer.place, answer.second);
        format!("{number} {place} {second} {}/{}", hex(&nodes), hex(&symbols))
    }
}

/// Whether a text can name a case.
fn is_case_name(text: &str) -> bool {
    let fits = |byte: u8| byte.is_ascii_lowercase() || byte.is_ascii_digit() || byte == b'-';
    !text.is_empty() && text.bytes().all(fits)
}

/// Bytes in lower-case hex.
pub fn hex(bytes: &[u8]) -> String {
    let digit = |value: u8| char::from(b"0123456789abcdef"[usize::from(value)]);
    let pairs = bytes.iter().flat_map(|&byte| [byte >> 4, byte & 15]);
    pairs.map(digit).collect()
}

/// The words for the kinds, in their order.
pub const KINDS: [&str; 4] = ["table", "finding", "name", "program"];

/// For each kind, how many cases drew each answer. A name call counts as
/// "named" or "empty".
pub fn histogram(cases: &[Case]) -> String {
    let mut counts = std::collections::BTreeMap::new();
    for case in cases {
        *counts.entry((case.kind, drawn(case))).or_insert(0usize) += 1;
    }
    let mut out = String::new();
    for kind in [TABLE, FINDING, NAME, PROGRAM] {
        let total = cases.iter().filter(|case| case.kind == kind).count();
        out += &format!("{} {total}\n", KINDS[kind as usize]);
        for ((_, (_, answer)), count) in counts.iter().filter(|(key, _)| key.0 == kind) {
            let share = 100.0 * *count as f64 / total as f64;
            out += &format!("  {answer:>5} {count:>7} {share:>6.2}%\n");
        }
    }
    out
}

/// What a case drew, as a number to sort by and a word.
pub fn drawn(case: &Case) -> (u32, String) {
    if case.kind == NAME {
        let empty = name(&case.model, case.index as usize).is_empty();
        return (u32::from(empty), if empty { "empty" } else { "named" }.into());
    }
    let line = String::from_utf8_lossy(&case.answer()).into_owned();
    let word = line.split(' ').nth(1).unwrap_or("").to_string();
    (word.parse().unwrap_or(0), word)
}
