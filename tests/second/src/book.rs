//! The model book: its contents, its records, and the answers 1 to 4.

use crate::Answer;
use std::collections::HashSet;

/// The fewest bytes of a book: two numbers and eight contents entries.
pub const HEAD: usize = 36;

/// The bytes of one record of each section.
pub const WIDTH: [usize; 8] = [8, 6, 6, 6, 8, 8, 2, 1];

/// The longest name and the longest text.
pub const LONGEST: usize = 64;

/// The types of symbols that are not three-valued: string, int, hex.
pub const STRING: u8 = 2;
pub const INT: u8 = 3;
pub const HEX: u8 = 4;

/// A symbol record with its name cut out of the texts.
#[derive(Clone, Copy, Debug)]
pub struct Symbol<'a> {
    pub kind: u8,
    pub name: &'a [u8],
    pub prompt: usize,
    pub dependency: usize,
}

impl Symbol<'_> {
    /// Whether the symbol is boolean or tristate.
    pub fn three_valued(&self) -> bool {
        self.kind < STRING
    }
}

/// A node: five leaves, then five operations on earlier nodes.
#[derive(Clone, Copy, Debug)]
pub enum Node<'a> {
    Constant(u8),
    Symbol(usize),
    Text(&'a [u8]),
    Int(i32),
    Hex(u32),
    Not(usize),
    And(usize, usize),
    Or(usize, usize),
    Equal(usize, usize),
    Differ(usize, usize),
}

impl Node<'_> {
    /// Whether the node is a leaf, that is of op 0 to 4.
    pub fn is_leaf(&self) -> bool {
        matches!(
            self,
            Node::Constant(_) | Node::Symbol(_) | Node::Text(_) | Node::Int(_) | Node::Hex(_)
        )
    }
}

/// A default record.
#[derive(Clone, Copy, Debug)]
pub struct Default {
    pub symbol: usize,
    pub value: usize,
    pub condition: usize,
}

/// A select record.
#[derive(Clone, Copy, Debug)]
pub struct Select {
    pub selector: usize,
    pub target: usize,
    pub condition: usize,
}

/// A range record.
#[derive(Clone, Copy, Debug)]
pub struct Range {
    pub symbol: usize,
    pub low: usize,
    pub high: usize,
    pub condition: usize,
}

/// A choice record.
#[derive(Clone, Copy, Debug)]
pub struct Choice {
    pub kind: u8,
    pub mandatory: bool,
    pub prompt: usize,
    pub first: usize,
    pub count: usize,
}

/// A book read whole and found good, with the records of each symbol grouped.
#[derive(Debug)]
pub struct Book<'a> {
    pub modules: Option<usize>,
    pub symbols: Vec<Symbol<'a>>,
    pub nodes: Vec<Node<'a>>,
    pub defaults: Vec<Default>,
    pub selects: Vec<Select>,
    pub ranges: Vec<Range>,
    pub choices: Vec<Choice>,
    pub members: Vec<usize>,
    pub defaults_of: Vec<Vec<usize>>,
    pub selects_on: Vec<Vec<usize>>,
    pub ranges_of: Vec<Vec<usize>>,
}

impl<'a> Book<'a> {
    /// Reads a book, or gives the answer 1, 2, 3 or 4 that refuses it.
    pub fn read(model: &'a [u8]) -> Result<Book<'a>, Answer> {
        let contents = Contents::read(model)?;
        let symbols = read_symbols(&contents)?;
        let nodes = read_nodes(&contents)?;
        let defaults = read_defaults(&contents, &symbols, &nodes)?;
        let selects = read_selects(&contents, &symbols)?;
        let ranges = read_ranges(&contents, &symbols, &nodes)?;
        let choices = read_choices(&contents)?;
        let members = read_members(&contents, &symbols, &choices)?;
        let modules = read_modules(model, &symbols)?;
        let count = symbols.len();
        Ok(Book {
            modules,
            defaults_of: grouped(count, defaults.iter().map(|record| record.symbol)),
            selects_on: grouped(count, selects.iter().map(|record| record.target)),
            ranges_of: grouped(count, ranges.iter().map(|record| record.symbol)),
            symbols,
            nodes,
            defaults,
            selects,
            ranges,
            choices,
            members,
        })
    }

    /// The symbols of a choice's members, in order.
    pub fn members_of(&self, choice: &Choice) -> &[usize] {
        &self.members[choice.first..choice.first + choice.count]
    }
}

/// The two bytes at a place, the lower first.
pub fn u16_at(bytes: &[u8], at: usize) -> usize {
    usize::from(bytes[at]) | usize::from(bytes[at + 1]) << 8
}

/// For each of `count` symbols, the indices of the records that are its own.
fn grouped(count: usize, owners: impl Iterator<Item = usize>) -> Vec<Vec<usize>> {
    let mut groups = vec![Vec::new(); count];
    for (index, owner) in owners.enumerate() {
        groups[owner].push(index);
    }
    groups
}

/// The sections of a book whose chain was found whole.
struct Contents<'a> {
    parts: [&'a [u8]; 8],
    counts: [usize; 8],
}

impl<'a> Contents<'a> {
    /// Reads the head and follows the chain, or gives the answer 1 or 2.
    fn read(model: &'a [u8]) -> Result<Contents<'a>, Answer> {
        if model.len() < HEAD || model.len() != u16_at(model, 0) {
            return Err(Answer::at(1, 0));
        }
        let mut counts = [0; 8];
        let mut ends = [HEAD; 9];
        for section in 0..8 {
            let start = u16_at(model, 4 + 4 * section);
            if start != ends[section] {
                return Err(Answer::at(2, section + 1));
            }
            counts[section] = u16_at(model, 6 + 4 * section);
            ends[section + 1] = start + counts[section] * WIDTH[section];
        }
        if ends[8] != model.len() {
            return Err(Answer::at(2, 8));
        }
        let mut parts: [&'a [u8]; 8] = [&[]; 8];
        for section in 0..8 {
            parts[section] = &model[ends[section]..ends[section + 1]];
        }
        Ok(Contents { parts, counts })
    }

    /// Reads every record of a section (numbered from 1) with `read`, which
    /// gives nothing for a bad one; the first bad one draws the answer 3.
    fn records<T>(
        &self,
        section: usize,
        mut read: impl FnMut(usize, &'a [u8]) -> Option<T>,
    ) -> Result<Vec<T>, Answer> {
        let mut good = Vec::with_capacity(self.counts[section - 1]);
        let width = WIDTH[section - 1];
        for (index, record) in self.parts[section - 1].chunks_exact(width).enumerate() {
            match read(index, record) {
                Some(value) => good.push(value),
                None => return Err(Answer::both(3, section, index)),
            }
        }
        Ok(good)
    }

    /// The part of the texts from an offset, if its end is in range.
    fn text(&self, offset: usize, length: usize) -> Option<&'a [u8]> {
        self.parts[7].get(offset..offset + length)
    }

    /// The number in a record that must be below the count of a section.
    fn index(&self, section: usize, record: &[u8], at: usize) -> Option<usize> {
        Some(u16_at(record, at)).filter(|&index| index < self.counts[section - 1])
    }
}

/// Reads section 1.
fn read_symbols<'a>(contents: &Contents<'a>) -> Result<Vec<Symbol<'a>>, Answer> {
    let mut earlier = HashSet::new();
    contents.records(1, |_, record| {
        let name = contents.text(u16_at(record, 2), usize::from(record[1]))?;
        if record[0] > HEX || !is_name(name) || !earlier.insert(name) {
            return None;
        }
        Some(Symbol {
            kind: record[0],
            name,
            prompt: contents.index(2, record, 4)?,
            dependency: contents.index(2, record, 6)?,
        })
    })
}

/// Whether a text has 1 to 64 of A-Z, 0-9, _ and is not digits alone.
fn is_name(text: &[u8]) -> bool {
    let letters = |byte: &u8| byte.is_ascii_uppercase() || byte.is_ascii_digit() || *byte == b'_';
    !text.is_empty()
        && text.len() <= LONGEST
        && text.iter().all(letters)
        && !text.iter().all(u8::is_ascii_digit)
}

/// Reads section 2; the ops read so far tell which earlier nodes are leaves.
fn read_nodes<'a>(contents: &Contents<'a>) -> Result<Vec<Node<'a>>, Answer> {
    let mut leaves = Vec::with_capacity(contents.counts[1]);
    contents.records(2, |index, record| {
        let node = read_node(contents, index, record, &leaves)?;
        leaves.push(node.is_leaf());
        Some(node)
    })
}

/// Reads one node record, or nothing if it is bad.
fn read_node<'a>(
    contents: &Contents<'a>,
    index: usize,
    record: &[u8],
    leaves: &[bool],
) -> Option<Node<'a>> {
    let (left, right) = (u16_at(record, 2), u16_at(record, 4));
    let number = (left | right << 16) as u32;
    let below = left < index && right < index;
    let two_leaves = below && leaves[left] && leaves[right];
    let node = match record[0] {
        0 if left <= 2 && right == 0 => Node::Constant(left as u8),
        1 if left < contents.counts[0] && right == 0 => Node::Symbol(left),
        2 if right <= LONGEST => Node::Text(contents.text(left, right)?),
        3 => Node::Int(number as i32),
        4 => Node::Hex(number),
        5 if left < index && right == 0 => Node::Not(left),
        6 if below => Node::And(left, right),
        7 if below => Node::Or(left, right),
        8 if two_leaves => Node::Equal(left, right),
        9 if two_leaves => Node::Differ(left, right),
        _ => return None,
    };
    Some(node).filter(|_| record[1] == 0)
}

/// Reads section 3.
fn read_defaults(
    contents: &Contents,
    symbols: &[Symbol],
    nodes: &[Node],
) -> Result<Vec<Default>, Answer> {
    contents.records(3, |_, record| {
        let symbol = contents.index(1, record, 0)?;
        let value = contents.index(2, record, 2)?;
        let condition = contents.index(2, record, 4)?;
        if !symbols[symbol].three_valued() && !nodes[value].is_leaf() {
            return None;
        }
        Some(Default { symbol, value, condition })
    })
}

/// Reads section 4.
fn read_selects(contents: &Contents, symbols: &[Symbol]) -> Result<Vec<Select>, Answer> {
    contents.records(4, |_, record| {
        let selector = contents.index(1, record, 0)?;
        let target = contents.index(1, record, 2)?;
        let condition = contents.index(2, record, 4)?;
        if !symbols[selector].three_valued() || !symbols[target].three_valued() {
            return None;
        }
        Some(Select { selector, target, condition })
    })
}

/// Reads section 5.
fn read_ranges(
    contents: &Contents,
    symbols: &[Symbol],
    nodes: &[Node],
) -> Result<Vec<Range>, Answer> {
    contents.records(5, |_, record| {
        let symbol = contents.index(1, record, 0)?;
        let low = contents.index(2, record, 2)?;
        let high = contents.index(2, record, 4)?;
        let condition = contents.index(2, record, 6)?;
        let kind = symbols[symbol].kind;
        if !is_bound(kind, nodes[low], symbols) || !is_bound(kind, nodes[high], symbols) {
            return None;
        }
        Some(Range { symbol, low, high, condition })
    })
}

/// Whether a node can bound a range on a symbol of this type.
fn is_bound(kind: u8, node: Node, symbols: &[Symbol]) -> bool {
    match node {
        Node::Int(_) => kind == INT,
        Node::Hex(_) => kind == HEX,
        Node::Symbol(symbol) => (kind == INT || kind == HEX) && symbols[symbol].kind == kind,
        _ => false,
    }
}

/// Reads section 6; the choices take the members in turn and use them all.
fn read_choices(contents: &Contents) -> Result<Vec<Choice>, Answer> {
    let mut taken = 0;
    let choices = contents.records(6, |_, record| {
        let prompt = contents.index(2, record, 2)?;
        let (first, count) = (u16_at(record, 4), u16_at(record, 6));
        if record[0] > 1 || record[1] > 1 || first != taken || first + count > contents.counts[6] {
            return None;
        }
        taken += count;
        Some(Choice { kind: record[0], mandatory: record[1] == 1, prompt, first, count })
    })?;
    if taken != contents.counts[6] {
        return Err(Answer::both(3, 6, choices.len()));
    }
    Ok(choices)
}

/// Reads section 7; a member's type must fit its choice, and each symbol
/// stands once in the section.
fn read_members(
    contents: &Contents,
    symbols: &[Symbol],
    choices: &[Choice],
) -> Result<Vec<usize>, Answer> {
    let mut highest = Vec::with_capacity(contents.counts[6]);
    for choice in choices {
        highest.extend(std::iter::repeat_n(choice.kind, choice.count));
    }
    let mut seen = vec![false; symbols.len()];
    contents.records(7, |index, record| {
        let symbol = contents.index(1, record, 0)?;
        if symbols[symbol].kind > highest[index] || seen[symbol] {
            return None;
        }
        seen[symbol] = true;
        Some(symbol)
    })
}

/// Reads the modules symbol: none, or the index of a boolean symbol.
fn read_modules(model: &[u8], symbols: &[Symbol]) -> Result<Option<usize>, Answer> {
    let index = u16_at(model, 2);
    if index == crate::NO_PLACE as usize {
        return Ok(None);
    }
    match symbols.get(index) {
        Some(symbol) if symbol.kind == 0 => Ok(Some(index)),
        _ => Err(Answer::at(4, index)),
    }
}
