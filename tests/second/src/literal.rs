//! The rules and the closing of leaves stated over again, literally and apart
//! from the ordered search and the lifted sets: slow, for small books only.

use crate::book::{Book, Node};
use crate::rules;
use crate::table::Entry;
use std::collections::BTreeSet;

/// The most picks that are enumerated for a leaf.
const MOST_PICKS: usize = 40_000;

/// A book and the entries of a table.
pub struct Literal<'l, 'a> {
    pub book: &'l Book<'a>,
    pub entries: &'l [Entry<'a>],
}

impl Literal<'_, '_> {
    /// The value of a symbol.
    fn of(&self, symbol: usize) -> u8 {
        match self.entries[symbol] {
            Entry::Three(value) => value,
            _ => 0,
        }
    }

    /// The value of a node, from its children's.
    fn worth(&self, node: usize) -> u8 {
        match self.book.nodes[node] {
            Node::Constant(value) => value,
            Node::Symbol(symbol) => self.of(symbol),
            Node::Text(_) | Node::Int(_) | Node::Hex(_) => 0,
            Node::Not(child) => 2 - self.worth(child),
            Node::And(left, right) => std::cmp::min(self.worth(left), self.worth(right)),
            Node::Or(left, right) => std::cmp::max(self.worth(left), self.worth(right)),
            Node::Equal(left, right) => 2 * u8::from(self.words(left) == self.words(right)),
            Node::Differ(left, right) => 2 * u8::from(self.words(left) != self.words(right)),
        }
    }

    /// The spelled text of a leaf.
    fn words(&self, node: usize) -> Vec<u8> {
        words(self.content(node))
    }

    /// The kind and content of a leaf.
    fn content(&self, node: usize) -> Entry<'_> {
        match self.book.nodes[node] {
            Node::Symbol(symbol) => self.entries[symbol],
            Node::Constant(value) => Entry::Three(value),
            Node::Text(text) => Entry::Text(text),
            Node::Int(number) => Entry::Int(number),
            Node::Hex(number) => Entry::Hex(number),
            _ => Entry::Text(b"an operation"),
        }
    }

    /// Lower of a symbol, over all selects of the book.
    fn lower(&self, symbol: usize) -> u8 {
        let selects = self.book.selects.iter();
        selects
            .filter(|select| select.target == symbol)
            .map(|select| self.of(select.selector).min(self.worth(select.condition)))
            .fold(0, u8::max)
    }

    /// The value node of the first default that applies.
    fn default(&self, symbol: usize) -> Option<usize> {
        let mut defaults = self.book.defaults.iter();
        defaults
            .find(|default| default.symbol == symbol && self.worth(default.condition) != 0)
            .map(|default| default.value)
    }

    /// Whether every rule holds, each as one statement over the whole table.
    pub fn valid(&self) -> bool {
        let all = 0..self.book.symbols.len();
        all.clone().all(|symbol| self.rule_10(symbol))
            && all.clone().all(|symbol| self.rules_11_to_13(symbol))
            && (0..self.book.ranges.len()).all(|range| self.rule_14(range))
            && (0..self.book.choices.len()).all(|choice| self.rules_15_to_17(choice))
            && self.rule_18()
    }

    /// Rule 10 for a symbol.
    fn rule_10(&self, symbol: usize) -> bool {
        match (self.book.symbols[symbol].kind, self.entries[symbol]) {
            (0, Entry::Three(value)) => value == 0 || value == 2,
            (1, Entry::Three(_)) | (2, Entry::Text(_)) => true,
            (3, Entry::Int(_)) | (4, Entry::Hex(_)) => true,
            (3 | 4, Entry::Text(text)) => text.is_empty(),
            _ => false,
        }
    }

    /// Rules 11 to 13 for a symbol.
    fn rules_11_to_13(&self, symbol: usize) -> bool {
        let record = &self.book.symbols[symbol];
        let prompt = self.worth(record.prompt);
        let default = self.default(symbol);
        if record.kind >= 2 {
            let owed = default.map_or(Entry::Text(b""), |node| self.content(node));
            return prompt != 0 || self.entries[symbol] == owed;
        }
        let (value, lower) = (self.of(symbol), self.lower(symbol));
        let owed = default.map_or(0, |node| self.worth(node));
        value >= lower
            && (prompt == 0 || prompt < lower || value <= prompt)
            && (prompt != 0 || value == owed.max(lower))
    }

    /// Rule 14 for a range.
    fn rule_14(&self, range: usize) -> bool {
        let range = &self.book.ranges[range];
        let number = |entry: Entry| match entry {
            Entry::Int(number) => Some(i64::from(number)),
            Entry::Hex(number) => Some(i64::from(number)),
            _ => None,
        };
        let value = number(self.entries[range.symbol]);
        let (low, high) = (number(self.content(range.low)), number(self.content(range.high)));
        let within = value.is_some() && low.is_some() && high.is_some();
        self.worth(range.condition) == 0 || within && low <= value && value <= high
    }

    /// Rules 15 to 17 for a choice.
    fn rules_15_to_17(&self, choice: usize) -> bool {
        let choice = &self.book.choices[choice];
        let members = &self.book.members[choice.first..choice.first + choice.count];
        let values: Vec<u8> = members.iter().map(|&member| self.of(member)).collect();
        let above = values.iter().filter(|&&value| value > 0).count();
        self.worth(choice.prompt) == 0
            || !(values.contains(&2) && above > 1)
                && !(choice.kind == 0 && values.contains(&1))
                && !(choice.mandatory && above == 0)
    }

    /// Rule 18.
    fn rule_18(&self) -> bool {
        match self.book.modules {
            Some(modules) if self.of(modules) == 0 => !self.entries.contains(&Entry::Three(1)),
            _ => true,
        }
    }

    /// Whether a select is unmet.
    pub fn unmet(&self, select: usize) -> bool {
        let select = &self.book.selects[select];
        let push = self.of(select.selector).min(self.worth(select.condition));
        push > self.worth(self.book.symbols[select.target].dependency)
    }
}

/// The spelled text of an entry, by the standard library's own writing.
pub fn words(entry: Entry) -> Vec<u8> {
    match entry {
        Entry::Three(value) => ["n", "m", "y"][usize::from(value)].into(),
        Entry::Text(text) => text.to_vec(),
        Entry::Int(number) => number.to_string().into_bytes(),
        Entry::Hex(number) => format!("{number:#x}").into_bytes(),
    }
}

/// The check's own answer to the same entries.
pub fn valid_by_search(book: &Book, entries: &[Entry]) -> bool {
    let mut nodes = vec![0; book.nodes.len()];
    crate::values::fill(book, entries, &mut nodes);
    rules::first_broken(book, entries, &nodes).number == 0
}

/// The values a symbol may have on a path, for each symbol.
pub type Possible = [Vec<u8>];

/// The set of a node, over every pair of its operands' values.
fn node_set(book: &Book, possible: &Possible, node: usize) -> BTreeSet<u8> {
    let pairs = |left: usize, right: usize, operation: fn(u8, u8) -> u8| {
        let (lefts, rights) = (node_set(book, possible, left), node_set(book, possible, right));
        let all = lefts.iter().flat_map(|&one| {
            let rights = rights.iter();
            rights.map(move |&other| operation(one, other))
        });
        all.collect()
    };
    match book.nodes[node] {
        Node::Constant(value) => BTreeSet::from([value]),
        Node::Symbol(symbol) => possible[symbol].iter().copied().collect(),
        Node::Text(_) | Node::Int(_) | Node::Hex(_) => BTreeSet::from([0]),
        Node::Not(child) => {
            let child = node_set(book, possible, child);
            child.into_iter().map(|value| 2 - value).collect()
        }
        Node::And(left, right) => pairs(left, right, std::cmp::min),
        Node::Or(left, right) => pairs(left, right, std::cmp::max),
        Node::Equal(left, right) => equality_set(book, possible, left, right),
        Node::Differ(left, right) => {
            let equal = equality_set(book, possible, left, right);
            equal.into_iter().map(|value| 2 - value).collect()
        }
    }
}

/// The set of an equality.
fn equality_set(book: &Book, possible: &Possible, left: usize, right: usize) -> BTreeSet<u8> {
    let unknown = |node: usize| match book.nodes[node] {
        Node::Symbol(symbol) => book.symbols[symbol].kind > 1,
        _ => false,
    };
    if unknown(left) || unknown(right) {
        return BTreeSet::from([0, 2]);
    }
    let spelled = |node: usize| -> Vec<Vec<u8>> {
        match book.nodes[node] {
            Node::Text(text) => vec![text.to_vec()],
            Node::Int(number) => vec![words(Entry::Int(number))],
            Node::Hex(number) => vec![words(Entry::Hex(number))],
            _ => {
                let values = node_set(book, possible, node);
                values.into_iter().map(|v| words(Entry::Three(v))).collect()
            }
        }
    };
    let mut set = BTreeSet::new();
    for one in spelled(left) {
        for other in spelled(right) {
            set.insert(2 * u8::from(one == other));
        }
    }
    set
}

/// The picks that a leaf has, each with its possible values, in a fixed order.
fn picks(book: &Book, possible: &Possible, select: usize, rule: u8, place: usize) -> Vec<Vec<u8>> {
    let node = |node: usize| node_set(book, possible, node).into_iter().collect();
    let mut picks: Vec<Vec<u8>> = Vec::new();
    if (11..=13).contains(&rule) {
        picks.push(possible[place].clone());
        picks.push(node(book.symbols[place].prompt));
        for select in book.selects.iter().filter(|record| record.target == place) {
            picks.push(possible[select.selector].clone());
            picks.push(node(select.condition));
        }
        if rule == 13 {
            for default in book.defaults.iter().filter(|record| record.symbol == place) {
                picks.push(node(default.value));
                picks.push(node(default.condition));
            }
        }
    } else if rule == 15 || rule == 17 {
        let choice = &book.choices[place];
        picks.push(node(choice.prompt));
        let members = book.members_of(choice).iter();
        picks.extend(members.map(|&member| possible[member].clone()));
    } else if rule == 18 {
        picks.push(possible[place].clone());
        picks.extend(book.modules.map(|modules| possible[modules].clone()));
    } else {
        let record = &book.selects[select];
        picks.push(possible[record.selector].clone());
        picks.push(node(record.condition));
        picks.push(node(book.symbols[record.target].dependency));
    }
    picks
}

/// Whether one pick breaks the leaf's rule, or for 20 leaves the select met.
fn closes(book: &Book, rule: u8, place: usize, pick: &[u8]) -> bool {
    let selects = book.selects.iter().filter(|r| r.target == place).count();
    let lower = |pick: &[u8]| {
        let pairs = pick[2..2 + 2 * selects].chunks(2);
        pairs.map(|pair| pair[0].min(pair[1])).max().unwrap_or(0)
    };
    match rule {
        11 => pick[0] < lower(pick),
        12 => pick[1] > 0 && pick[1] >= lower(pick) && pick[0] > pick[1],
        13 => {
            let mut defaults = pick[2 + 2 * selects..].chunks(2);
            let default = defaults.find(|pair| pair[1] > 0).map_or(0, |pair| pair[0]);
            pick[1] == 0 && pick[0] != default.max(lower(pick))
        }
        15 => {
            let above = pick[1..].iter().filter(|&&value| value > 0).count();
            pick[0] > 0 && pick[1..].contains(&2) && above >= 2
        }
        17 => {
            let none = pick[1..].iter().all(|&value| value == 0);
            pick[0] > 0 && book.choices[place].mandatory && none
        }
        18 => pick.len() == 2 && pick[0] == 1 && pick[1] == 0,
        _ => pick[0].min(pick[1]) <= pick[2],
    }
}

/// A leaf of a clearance of a select.
#[derive(Clone, Copy, Debug)]
pub struct Leaf {
    pub select: usize,
    pub rule: u8,
    pub place: usize,
}

/// What trying every pick of a leaf showed.
#[derive(Clone, Debug)]
pub struct Tried {
    /// Whether every pick closes the leaf.
    pub closed: bool,
    /// The fields that decide: with a certain value for such a one every pick
    /// would close the leaf. None where it is closed.
    pub deciding: Vec<usize>,
}

/// Tries every pick of a leaf; nothing if there are more than `most`.
pub fn tried(book: &Book, possible: &Possible, leaf: Leaf, most: usize) -> Option<Tried> {
    let picks = picks(book, possible, leaf.select, leaf.rule, leaf.place);
    let mut count = 1usize;
    for values in &picks {
        count = count.checked_mul(values.len())?;
    }
    if count > most {
        return None;
    }
    let mut open = vec![[false; 3]; picks.len()];
    let mut closed = true;
    for number in 0..count {
        let pick = pick_at(&picks, number);
        if !closes(book, leaf.rule, leaf.place, &pick) {
            closed = false;
            pick.iter().zip(&mut open).for_each(|(&value, seen)| seen[usize::from(value)] = true);
        }
    }
    let decides = |&field: &usize| {
        !closed && picks[field].iter().any(|&value| !open[field][usize::from(value)])
    };
    let deciding = (0..picks.len()).filter(decides).collect();
    Some(Tried { closed, deciding })
}

/// The pick with a number, counting the first field fastest.
fn pick_at(picks: &[Vec<u8>], mut number: usize) -> Vec<u8> {
    let mut pick = Vec::with_capacity(picks.len());
    for values in picks {
        pick.push(values[number % values.len()]);
        number /= values.len();
    }
    pick
}

/// Whether a leaf is closed, by trying every pick; nothing if there are too
/// many.
pub fn closed_literally(book: &Book, possible: &Possible, leaf: Leaf) -> Option<bool> {
    tried(book, possible, leaf, MOST_PICKS).map(|tried| tried.closed)
}
