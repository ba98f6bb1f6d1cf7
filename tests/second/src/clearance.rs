//! Clearances: the tree walk, the closing of leaves, the complete clearance.

use crate::book::{u16_at, Book, Select};
use crate::finding::LONGEST;
use crate::rules::first_broken;
use crate::sets::{Memo, Set};
use crate::table::Entry;
use crate::values::{self, M, N, Y};
use crate::Answer;

/// The most splits on a path.
pub const MOST_SPLITS: usize = 64;

/// The rule byte of a leaf that says the select is not unmet.
pub const MARK: u8 = 20;

/// Checks the tree of a clearance: the earliest bad node decides between 22 and
/// 23, and bytes left over come last.
pub fn check(book: &Book, select: usize, finding: &[u8]) -> Answer {
    let mut walk =
        Walk { finding, path: Path::new(book, select), on_path: vec![false; book.symbols.len()] };
    match walk.tree(4, MOST_SPLITS) {
        Ok(end) if end == finding.len() => Answer::KEPT,
        Ok(end) => Answer::at(22, end),
        Err(refused) => refused,
    }
}

/// A walk through the tree of a finding.
struct Walk<'w, 'b, 'a> {
    finding: &'w [u8],
    path: Path<'b, 'a>,
    on_path: Vec<bool>,
}

impl Walk<'_, '_, '_> {
    /// Walks the tree at an offset and gives the offset after it.
    fn tree(&mut self, at: usize, splits: usize) -> Result<usize, Answer> {
        match self.finding.get(at) {
            Some(0) => self.split(at, splits),
            Some(1) => self.leaf(at),
            _ => Err(Answer::at(22, at)),
        }
    }

    /// Walks a split and its subtrees, one for each value of the symbol's type.
    fn split(&mut self, at: usize, splits: usize) -> Result<usize, Answer> {
        let symbol = match self.split_symbol(at) {
            Some(symbol) if splits > 0 => symbol,
            _ => return Err(Answer::at(22, at)),
        };
        let kind = self.path.book.symbols[symbol].kind;
        let mut end = at + 3;
        self.on_path[symbol] = true;
        for value in Set::of_type(kind).values() {
            self.path.symbols[symbol] = Set::one(value);
            end = self.tree(end, splits - 1)?;
        }
        self.path.symbols[symbol] = Set::of_type(kind);
        self.on_path[symbol] = false;
        Ok(end)
    }

    /// The symbol of a split, if it is whole, three-valued and not on the path.
    fn split_symbol(&self, at: usize) -> Option<usize> {
        let symbol = u16_at(self.finding.get(at + 1..at + 3)?, 0);
        let record = self.path.book.symbols.get(symbol)?;
        Some(symbol).filter(|_| record.three_valued() && !self.on_path[symbol])
    }

    /// Walks a leaf: malformed is 22, not closed is 23.
    fn leaf(&mut self, at: usize) -> Result<usize, Answer> {
        let Some(bytes) = self.finding.get(at + 1..at + 4) else {
            return Err(Answer::at(22, at));
        };
        let (rule, place) = (bytes[0], u16_at(bytes, 1));
        if !self.path.well_formed(rule, place) {
            return Err(Answer::at(22, at));
        }
        if !self.path.closed(rule, place) {
            return Err(Answer::at(23, at));
        }
        Ok(at + 4)
    }
}

/// A path: the select it is about, and the set of each symbol.
pub struct Path<'b, 'a> {
    pub book: &'b Book<'a>,
    pub select: usize,
    pub symbols: Vec<Set>,
    memo: Memo,
}

impl<'b, 'a> Path<'b, 'a> {
    /// The path without splits.
    pub fn new(book: &'b Book<'a>, select: usize) -> Path<'b, 'a> {
        let kinds = book.symbols.iter().map(|symbol| symbol.kind);
        Path { book, select, symbols: kinds.map(Set::of_type).collect(), memo: Memo::new(book) }
    }

    /// Whether a leaf's rule is one of those a leaf may have and its place fits.
    pub fn well_formed(&self, rule: u8, place: usize) -> bool {
        match rule {
            11 | 12 | 13 | 18 => {
                let symbol = self.book.symbols.get(place);
                symbol.is_some_and(|symbol| symbol.three_valued())
            }
            15 | 17 => place < self.book.choices.len(),
            MARK => place == self.select,
            _ => false,
        }
    }

    /// Whether a well-formed leaf is closed: its rule is broken, or for 20 the
    /// select is not unmet, under every independent pick.
    pub fn closed(&mut self, rule: u8, place: usize) -> bool {
        self.memo.clear();
        match rule {
            11 => self.lower_broken(place),
            12 => self.upper_broken(place),
            13 => self.default_broken(place),
            15 => self.one_broken(place),
            17 => self.mandatory_broken(place),
            18 => self.modules_broken(place),
            MARK => self.never_unmet(),
            _ => false,
        }
    }

    /// The set of a node on this path.
    fn node(&mut self, node: usize) -> Set {
        self.memo.node(self.book, &self.symbols, node)
    }

    /// The set of the smaller of a select's selector and condition.
    fn push(&mut self, select: Select) -> Set {
        let condition = self.node(select.condition);
        self.symbols[select.selector].pairs(condition, u8::min)
    }

    /// The set of Lower: each select's picks are its own, so lifting is exact.
    fn lower(&mut self, symbol: usize) -> Set {
        let book = self.book;
        let mut lower = Set::one(N);
        for &select in &book.selects_on[symbol] {
            let push = self.push(book.selects[select]);
            lower = lower.pairs(push, u8::max);
        }
        lower
    }

    /// The set of Default: the values of defaults up to the first whose
    /// condition is never n, and n if every condition can be n.
    fn default(&mut self, symbol: usize) -> Set {
        let book = self.book;
        let mut default = Set::EMPTY;
        for &index in &book.defaults_of[symbol] {
            let condition = self.node(book.defaults[index].condition);
            if condition != Set::one(N) {
                default = default.join(self.node(book.defaults[index].value));
            }
            if !condition.has(N) {
                return default;
            }
        }
        default.with(N)
    }

    /// Rule 11 under every pick of the value and of Lower.
    fn lower_broken(&mut self, symbol: usize) -> bool {
        let lower = self.lower(symbol);
        let value = self.symbols[symbol];
        value.values().all(|value| lower.values().all(|lower| value < lower))
    }

    /// Rule 12 under every pick of the value, the prompt and Lower.
    fn upper_broken(&mut self, symbol: usize) -> bool {
        let lower = self.lower(symbol);
        let prompt = self.node(self.book.symbols[symbol].prompt);
        let value = self.symbols[symbol];
        prompt.values().all(|prompt| {
            prompt > N
                && lower.values().all(|lower| prompt >= lower)
                && value.values().all(|value| value > prompt)
        })
    }

    /// Rule 13 under every pick of the value, the prompt, Default and Lower.
    fn default_broken(&mut self, symbol: usize) -> bool {
        let lower = self.lower(symbol);
        let owed = self.default(symbol).pairs(lower, u8::max);
        let prompt = self.node(self.book.symbols[symbol].prompt);
        let value = self.symbols[symbol];
        prompt == Set::one(N) && value.values().all(|value| !owed.has(value))
    }

    /// Rule 15 under every pick of the prompt and of each member. A state is how
    /// many members are above n, two standing for more, and whether one is y.
    fn one_broken(&mut self, choice: usize) -> bool {
        let choice = self.book.choices[choice];
        if self.node(choice.prompt).has(N) {
            return false;
        }
        let mut states = [false; 6];
        states[0] = true;
        for &member in self.book.members_of(&choice) {
            states = self.with_member(states, member);
        }
        let broken = state_of(2, true);
        (0..6).all(|state| !states[state] || state == broken)
    }

    /// The states of a choice after one more member.
    fn with_member(&self, states: [bool; 6], member: usize) -> [bool; 6] {
        let mut next = [false; 6];
        for state in (0..6).filter(|&state| states[state]) {
            let (above, has_y) = (state / 2, state % 2 == 1);
            for value in self.symbols[member].values() {
                let above = (above + usize::from(value > N)).min(2);
                next[state_of(above, has_y || value == Y)] = true;
            }
        }
        next
    }

    /// Rule 17 under every pick of the prompt and of each member.
    fn mandatory_broken(&mut self, choice: usize) -> bool {
        let choice = self.book.choices[choice];
        let mut members = self.book.members_of(&choice).iter();
        choice.mandatory
            && !self.node(choice.prompt).has(N)
            && members.all(|&member| self.symbols[member] == Set::one(N))
    }

    /// Rule 18: the place itself is m and the modules symbol n.
    fn modules_broken(&self, symbol: usize) -> bool {
        match self.book.modules {
            Some(modules) => {
                self.symbols[symbol] == Set::one(M) && self.symbols[modules] == Set::one(N)
            }
            None => false,
        }
    }

    /// Mark 20: the select is not unmet under every pick of selector, condition
    /// and the target's dependency.
    fn never_unmet(&mut self) -> bool {
        let select = self.book.selects[self.select];
        let push = self.push(select);
        let dependency = self.node(self.book.symbols[select.target].dependency);
        push.values().all(|push| dependency.values().all(|dependency| push <= dependency))
    }
}

/// The number of a choice's state in rule 15.
fn state_of(above: usize, has_y: bool) -> usize {
    above * 2 + usize::from(has_y)
}

/// The complete clearance of a select, head included: splits on every symbol in
/// order, each path ending in its first broken rule or in 20. Nothing for a bad
/// model, a select not in it, a symbol that is not boolean or tristate, or a
/// finding over 65,535 bytes.
pub fn complete_clearance(model: &[u8], select: usize) -> Option<Vec<u8>> {
    let book = Book::read(model).ok()?;
    book.selects.get(select)?;
    let length = complete_length(&book)?;
    let mut complete = Complete {
        entries: vec![Entry::Three(N); book.symbols.len()],
        nodes: vec![N; book.nodes.len()],
        bytes: Vec::with_capacity(length),
        book: &book,
        select,
    };
    complete.bytes.extend([select as u8, (select >> 8) as u8, 1, 0]);
    complete.tree(0);
    Some(complete.bytes)
}

/// The length of the complete clearance, if there can be one.
fn complete_length(book: &Book) -> Option<usize> {
    let mut length = 4;
    let mut paths = 1;
    for symbol in &book.symbols {
        if !symbol.three_valued() {
            return None;
        }
        length += 3 * paths;
        paths *= Set::of_type(symbol.kind).values().count();
        if length + 4 * paths > LONGEST {
            return None;
        }
    }
    Some(length + 4 * paths)
}

/// A complete clearance in the making.
struct Complete<'c, 'a> {
    book: &'c Book<'a>,
    select: usize,
    entries: Vec<Entry<'c>>,
    nodes: Vec<u8>,
    bytes: Vec<u8>,
}

impl Complete<'_, '_> {
    /// Writes the tree in which the symbols before this one are chosen.
    fn tree(&mut self, symbol: usize) {
        let Some(record) = self.book.symbols.get(symbol) else {
            return self.leaf();
        };
        self.bytes.extend([0, symbol as u8, (symbol >> 8) as u8]);
        for value in Set::of_type(record.kind).values() {
            self.entries[symbol] = Entry::Three(value);
            self.tree(symbol + 1);
        }
    }

    /// Writes the leaf where every symbol is chosen.
    fn leaf(&mut self) {
        values::fill(self.book, &self.entries, &mut self.nodes);
        let broken = first_broken(self.book, &self.entries, &self.nodes);
        let (rule, place) = match broken.number {
            0 => (MARK, self.select as u32),
            rule => (rule as u8, broken.place),
        };
        self.bytes.extend([1, rule, place as u8, (place >> 8) as u8]);
    }
}
