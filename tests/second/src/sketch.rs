//! A book described record by record, and a table value by value, from which
//! the bytes are written. A sketch may hold faults on purpose.

use crate::book::WIDTH;

/// The number that stands for no modules symbol.
pub const NO_MODULES: u16 = 65535;

/// A symbol record.
#[derive(Clone, Copy, Debug)]
pub struct SymbolSketch {
    pub kind: u8,
    pub length: u8,
    pub offset: u16,
    pub prompt: u16,
    pub dependency: u16,
}

/// A node record.
#[derive(Clone, Copy, Debug)]
pub struct NodeSketch {
    pub op: u8,
    pub zero: u8,
    pub left: u16,
    pub right: u16,
}

/// A choice record.
#[derive(Clone, Copy, Debug)]
pub struct ChoiceSketch {
    pub kind: u8,
    pub mandatory: u8,
    pub prompt: u16,
    pub first: u16,
    pub count: u16,
}

/// A whole book.
#[derive(Clone, Debug)]
pub struct Sketch {
    pub modules: u16,
    pub symbols: Vec<SymbolSketch>,
    pub nodes: Vec<NodeSketch>,
    pub defaults: Vec<[u16; 3]>,
    pub selects: Vec<[u16; 3]>,
    pub ranges: Vec<[u16; 4]>,
    pub choices: Vec<ChoiceSketch>,
    pub members: Vec<u16>,
    pub texts: Vec<u8>,
}

impl Default for Sketch {
    /// The empty book.
    fn default() -> Sketch {
        Sketch {
            modules: NO_MODULES,
            symbols: Vec::new(),
            nodes: Vec::new(),
            defaults: Vec::new(),
            selects: Vec::new(),
            ranges: Vec::new(),
            choices: Vec::new(),
            members: Vec::new(),
            texts: Vec::new(),
        }
    }
}

impl Sketch {
    /// Adds a text and gives its offset.
    pub fn text(&mut self, text: &[u8]) -> u16 {
        let offset = self.texts.len() as u16;
        self.texts.extend(text);
        offset
    }

    /// Adds a symbol and gives its index.
    pub fn symbol(&mut self, kind: u8, name: &str, prompt: u16, dependency: u16) -> u16 {
        let offset = self.text(name.as_bytes());
        self.symbols.push(SymbolSketch {
            kind,
            length: name.len() as u8,
            offset,
            prompt,
            dependency,
        });
        self.symbols.len() as u16 - 1
    }

    /// Adds a node and gives its index.
    pub fn node(&mut self, op: u8, left: u16, right: u16) -> u16 {
        self.nodes.push(NodeSketch { op, zero: 0, left, right });
        self.nodes.len() as u16 - 1
    }

    /// Adds a text node and gives its index.
    pub fn text_node(&mut self, text: &[u8]) -> u16 {
        let offset = self.text(text);
        self.node(2, offset, text.len() as u16)
    }

    /// Adds an int node and gives its index.
    pub fn int(&mut self, number: i32) -> u16 {
        self.node(3, number as u16, (number >> 16) as u16)
    }

    /// Adds a hex node and gives its index.
    pub fn hex(&mut self, number: u32) -> u16 {
        self.node(4, number as u16, (number >> 16) as u16)
    }

    /// Adds a choice with its members and gives its index.
    pub fn choice(&mut self, kind: u8, mandatory: u8, prompt: u16, members: &[u16]) -> u16 {
        self.choices.push(ChoiceSketch {
            kind,
            mandatory,
            prompt,
            first: self.members.len() as u16,
            count: members.len() as u16,
        });
        self.members.extend(members);
        self.choices.len() as u16 - 1
    }

    /// How many records each section has.
    pub fn counts(&self) -> [usize; 8] {
        [
            self.symbols.len(),
            self.nodes.len(),
            self.defaults.len(),
            self.selects.len(),
            self.ranges.len(),
            self.choices.len(),
            self.members.len(),
            self.texts.len(),
        ]
    }

    /// The bytes of the book, with the contents and the total that fit it.
    pub fn bytes(&self) -> Vec<u8> {
        let counts = self.counts();
        let total: usize = 36 + (0..8).map(|at| counts[at] * WIDTH[at]).sum::<usize>();
        let mut out = Vec::with_capacity(total);
        put(&mut out, &[total as u16, self.modules]);
        let mut start = 36;
        for section in 0..8 {
            put(&mut out, &[start as u16, counts[section] as u16]);
            start += counts[section] * WIDTH[section];
        }
        self.write_records(&mut out);
        out.extend(&self.texts);
        out
    }

    /// Writes the records of sections 1 to 7.
    fn write_records(&self, out: &mut Vec<u8>) {
        for symbol in &self.symbols {
            out.extend([symbol.kind, symbol.length]);
            put(out, &[symbol.offset, symbol.prompt, symbol.dependency]);
        }
        for node in &self.nodes {
            out.extend([node.op, node.zero]);
            put(out, &[node.left, node.right]);
        }
        let triples = self.defaults.iter().chain(&self.selects);
        triples.for_each(|record| put(out, record));
        self.ranges.iter().for_each(|record| put(out, record));
        for choice in &self.choices {
            out.extend([choice.kind, choice.mandatory]);
            put(out, &[choice.prompt, choice.first, choice.count]);
        }
        put(out, &self.members);
    }
}

/// Writes numbers of two bytes, the lower first.
pub fn put(out: &mut Vec<u8>, numbers: &[u16]) {
    for number in numbers {
        out.extend(number.to_le_bytes());
    }
}

/// A value of a table entry, by kind and content.
#[derive(Clone, PartialEq, Eq, Debug)]
pub enum Value {
    Three(u8),
    Text(Vec<u8>),
    Int(i32),
    Hex(u32),
}

impl Value {
    /// The kind byte and the body of the entry.
    fn parts(&self) -> (u8, Vec<u8>) {
        match self {
            Value::Three(value) => (0, vec![*value]),
            Value::Text(text) => (1, text.clone()),
            Value::Int(number) => (2, number.to_le_bytes().to_vec()),
            Value::Hex(number) => (3, number.to_le_bytes().to_vec()),
        }
    }
}

/// A string value.
pub fn string(text: &str) -> Value {
    Value::Text(text.as_bytes().to_vec())
}

/// The bytes of a table with these values.
pub fn table(values: &[Value]) -> Vec<u8> {
    let parts: Vec<(u8, Vec<u8>)> = values.iter().map(Value::parts).collect();
    let mut start = 4 + 4 * values.len();
    let total = start + parts.iter().map(|part| part.1.len()).sum::<usize>();
    let mut out = Vec::with_capacity(total);
    put(&mut out, &[total as u16, values.len() as u16]);
    for (kind, body) in &parts {
        out.extend([*kind, body.len() as u8]);
        put(&mut out, &[start as u16]);
        start += body.len();
    }
    parts.iter().for_each(|part| out.extend(&part.1));
    out
}

/// The bytes of a table of three-valued entries only.
pub fn three_table(values: &[u8]) -> Vec<u8> {
    let values: Vec<Value> = values.iter().map(|&value| Value::Three(value)).collect();
    table(&values)
}

/// A tree of a clearance.
#[derive(Clone, PartialEq, Eq, Debug)]
pub enum Tree {
    Split(u16, Vec<Tree>),
    Leaf(u8, u16),
}

impl Tree {
    /// Writes the tree, parent first.
    pub fn write(&self, out: &mut Vec<u8>) {
        match self {
            Tree::Split(symbol, branches) => {
                out.push(0);
                put(out, &[*symbol]);
                branches.iter().for_each(|branch| branch.write(out));
            }
            Tree::Leaf(rule, place) => {
                out.extend([1, *rule]);
                put(out, &[*place]);
            }
        }
    }

    /// How many nodes the tree has.
    pub fn size(&self) -> usize {
        match self {
            Tree::Split(_, branches) => 1 + branches.iter().map(Tree::size).sum::<usize>(),
            Tree::Leaf(..) => 1,
        }
    }

    /// The node with this number, counting parents first from 0.
    pub fn nth(&mut self, number: &mut usize) -> Option<&mut Tree> {
        if *number == 0 {
            return Some(self);
        }
        *number -= 1;
        if let Tree::Split(_, branches) = self {
            for branch in branches {
                if let Some(found) = branch.nth(number) {
                    return Some(found);
                }
            }
        }
        None
    }
}

/// The bytes of a clearance of a select.
pub fn clearance(select: u16, tree: &Tree) -> Vec<u8> {
    let mut out = Vec::new();
    put(&mut out, &[select]);
    out.extend([1, 0]);
    tree.write(&mut out);
    out
}

/// The bytes of a witness against a select.
pub fn witness(select: u16, table: &[u8]) -> Vec<u8> {
    let mut out = Vec::new();
    put(&mut out, &[select]);
    out.extend([0, 0]);
    out.extend(table);
    out
}
