//! Faults on purpose in books, tables and findings.

use super::dice::Dice;
use crate::book::WIDTH;
use crate::sketch::Sketch;

/// Writes a number of two bytes over those at a place, if they are there.
fn set(bytes: &mut [u8], at: usize, number: usize) {
    if let Some(two) = bytes.get_mut(at..at + 2) {
        two.copy_from_slice(&(number as u16).to_le_bytes());
    }
}

/// The number of two bytes at a place; 0 if they are not there.
fn get(bytes: &[u8], at: usize) -> usize {
    let two = bytes.get(at..at + 2);
    two.map_or(0, |two| usize::from(u16::from_le_bytes([two[0], two[1]])))
}

/// An index below a count, if there is one.
fn some_index(dice: &mut Dice, count: usize) -> Option<usize> {
    (count > 0).then(|| dice.below(count))
}

/// A number not below a count: just past it, or the largest.
fn past(dice: &mut Dice, count: usize) -> u16 {
    dice.one_of(&[count as u16, count as u16, count as u16 + 1, 65535])
}

/// Changes one to three bytes anywhere from a place on.
pub fn flip(dice: &mut Dice, bytes: &mut [u8], from: usize) {
    if bytes.len() <= from {
        return;
    }
    for _ in 0..dice.from_to(1, 3) {
        let at = from + dice.below(bytes.len() - from);
        bytes[at] = match dice.below(4) {
            0 => bytes[at] ^ 1 << dice.below(8),
            1 => bytes[at].wrapping_add(1),
            2 => bytes[at].wrapping_sub(1),
            _ => dice.byte(),
        };
    }
}

/// Cuts bytes off the end, or adds some.
pub fn cut_or_extend(dice: &mut Dice, bytes: &mut Vec<u8>) {
    if dice.chance(50) {
        let left = bytes.len().saturating_sub(dice.from_to(1, 6));
        bytes.truncate(left);
    } else {
        for _ in 0..dice.from_to(1, 5) {
            bytes.push(dice.one_of(&[0, 0, 1, 20, 255]));
        }
    }
}

/// Makes bytes longer than 65,535, with a total that fits after wrapping.
pub fn overlong(dice: &mut Dice, bytes: &mut Vec<u8>, total: bool) {
    let length = dice.one_of(&[65536, 65537, 65536 + bytes.len(), 65600]);
    bytes.resize(length, 0);
    if total {
        set(bytes, 0, length & 0xffff);
    }
}

/// A model whose length is unlike its total, or under 36.
pub fn model_length(dice: &mut Dice, model: &mut Vec<u8>) {
    let length = model.len();
    match dice.below(8) {
        0 | 1 => cut_or_extend(dice, model),
        2 => set(model, 0, length + 1),
        3 => set(model, 0, length.wrapping_sub(1)),
        4 => set(model, 0, dice.below(65536)),
        5 => {
            model.truncate(35);
            let length = model.len();
            set(model, 0, length);
        }
        6 => model.truncate(dice.below(36)),
        _ if dice.chance(10) => overlong(dice, model, true),
        _ => model.truncate(dice.below(length)),
    }
}

/// A section that is not where the chain puts it. Some counts are such that
/// the sum would fit if it wrapped at 65,536.
pub fn chain(dice: &mut Dice, model: &mut Vec<u8>) {
    let section = dice.below(8);
    let at = 4 + 4 * section;
    let (start, count) = (get(model, at), get(model, at + 2));
    match dice.below(8) {
        0 => set(model, at, start + 1),
        1 => set(model, at, start.wrapping_sub(1)),
        2 => set(model, at, dice.below(65536)),
        3 => set(model, at + 2, count + 1),
        4 => set(model, at + 2, count.wrapping_sub(1)),
        5 | 6 => {
            let turn = if WIDTH[section] == 8 { 8192 } else { 32768 };
            set(model, at + 2, count + turn);
        }
        _ => {
            let extra = dice.from_to(1, 9);
            model.extend(vec![b'A'; extra]);
            let total = model.len();
            set(model, 0, total);
        }
    }
}

/// A bad modules symbol.
pub fn modules(dice: &mut Dice, sketch: &mut Sketch) -> bool {
    let count = sketch.symbols.len();
    let others: Vec<u16> =
        (0..count as u16).filter(|&symbol| sketch.symbols[usize::from(symbol)].kind != 0).collect();
    sketch.modules = match dice.below(4) {
        0 => count as u16,
        1 => dice.one_of(&[65534, 300, 256]),
        _ if others.is_empty() => return false,
        _ => dice.one_of(&others),
    };
    true
}

/// Puts a fault into one record of some section; false if none was found to
/// fit.
pub fn record(dice: &mut Dice, sketch: &mut Sketch) -> bool {
    for _ in 0..20 {
        let section =
            dice.weighted(&[(1, 19), (2, 28), (3, 9), (4, 9), (5, 14), (6, 11), (7, 8), (8, 2)]);
        let done = match section {
            1 => symbol(dice, sketch),
            2 => node(dice, sketch),
            3 => default(dice, sketch),
            4 => select(dice, sketch),
            5 => range(dice, sketch),
            6 => choice(dice, sketch),
            7 => member(dice, sketch),
            _ => swapped(dice, sketch),
        };
        if done.is_some() {
            return true;
        }
    }
    false
}

/// A fault in a symbol record.
fn symbol(dice: &mut Dice, sketch: &mut Sketch) -> Option<()> {
    let index = some_index(dice, sketch.symbols.len())?;
    let (texts, nodes) = (sketch.texts.len(), sketch.nodes.len());
    let fault = dice.below(11);
    if (4..=7).contains(&fault) {
        return name(dice, sketch, index, fault);
    }
    let record = &mut sketch.symbols[index];
    let length = u16::from(record.length);
    match fault {
        0 => record.kind = dice.one_of(&[5, 6, 128, 255]),
        1 => record.length = 0,
        2 => record.offset = (texts as u16 + 1).wrapping_sub(length),
        3 => record.offset = 0u16.wrapping_sub(length) + dice.below(usize::from(length)) as u16,
        8 => record.prompt = past(dice, nodes),
        9 => record.dependency = past(dice, nodes),
        _ => record.length = dice.one_of(&[65, 128, 255]),
    }
    Some(())
}

/// A fault in a name: too long, a byte it may not have, digits alone, or the
/// same as an earlier one.
fn name(dice: &mut Dice, sketch: &mut Sketch, index: usize, fault: usize) -> Option<()> {
    let name = match fault {
        4 => vec![b'A'; 65],
        5 => {
            let bad = dice.one_of(&[b'a', b' ', b'-', 0, b'@', b'[', b'/', b':', b'`', 0xff]);
            let mut name = b"AB_9".to_vec();
            let at = dice.below(4);
            name[at] = bad;
            name
        }
        6 => dice.one_of(&[&b"0"[..], b"42", b"0123456789"]).to_vec(),
        _ => {
            let earlier = sketch.symbols[some_index(dice, index)?];
            if dice.chance(50) {
                sketch.symbols[index].offset = earlier.offset;
                sketch.symbols[index].length = earlier.length;
                return Some(());
            }
            let start = usize::from(earlier.offset);
            let end = start + usize::from(earlier.length);
            sketch.texts.get(start..end)?.to_vec()
        }
    };
    sketch.symbols[index].length = name.len() as u8;
    sketch.symbols[index].offset = sketch.text(&name);
    Some(())
}

/// Two records of a section in each other's place, which may be no fault.
fn swapped(dice: &mut Dice, sketch: &mut Sketch) -> Option<()> {
    let section = dice.below(6);
    let count = sketch.counts()[[0, 1, 2, 3, 5, 6][section]];
    let (one, other) = (some_index(dice, count)?, some_index(dice, count)?);
    match section {
        0 => sketch.symbols.swap(one, other),
        1 => sketch.nodes.swap(one, other),
        2 => sketch.defaults.swap(one, other),
        3 => sketch.selects.swap(one, other),
        4 => sketch.choices.swap(one, other),
        _ => sketch.members.swap(one, other),
    }
    Some(())
}

/// A fault in a node record, of any op that the book has.
fn node(dice: &mut Dice, sketch: &mut Sketch) -> Option<()> {
    let op = dice.below(10) as u8;
    let index = usize::from(node_where(dice, sketch, |other| other == op)?);
    let symbols = sketch.symbols.len();
    let record = &mut sketch.nodes[index];
    let waste = dice.one_of(&[1, 2, 256, 65535]);
    let own = dice.one_of(&[index as u16, index as u16 + 1, 65535]);
    match (dice.below(8), record.op) {
        (0, _) => record.op = dice.one_of(&[10, 11, 64, 255]),
        (1, _) => record.zero = dice.one_of(&[1, 128, 255]),
        (2..=4, 0) => record.left = dice.one_of(&[3, 4, 256, 258, 65535]),
        (2..=4, 1) => record.left = past(dice, symbols),
        (5.., 0 | 1 | 5) => record.right = waste,
        (2.., 2) => return text(dice, sketch, index),
        (2..=4, 5) => record.left = own,
        (2..=3, 8 | 9) => return not_a_leaf(dice, sketch, index),
        (2..=4, 6..=9) => record.left = own,
        (5.., 6..=9) => record.right = own,
        _ => return None,
    }
    Some(())
}

/// A fault in a text node: too long, or its end past the texts.
fn text(dice: &mut Dice, sketch: &mut Sketch, index: usize) -> Option<()> {
    if dice.chance(30) {
        let offset = sketch.text(&[b'x'; 66]);
        sketch.nodes[index].left = offset;
        sketch.nodes[index].right = dice.one_of(&[65, 66]);
        return Some(());
    }
    let texts = sketch.texts.len() as u16;
    let record = &mut sketch.nodes[index];
    if dice.chance(50) {
        record.left = (texts + 1).saturating_sub(record.right);
        record.right = texts + 1 - record.left;
    } else {
        record.right = record.right.max(1);
        record.left = 0u16.wrapping_sub(record.right);
    }
    Some(())
}

/// Gives an equality an operand that is no leaf.
fn not_a_leaf(dice: &mut Dice, sketch: &mut Sketch, index: usize) -> Option<()> {
    let operations: Vec<u16> =
        (0..index as u16).filter(|&node| sketch.nodes[usize::from(node)].op > 4).collect();
    if operations.is_empty() {
        return None;
    }
    let operation = dice.one_of(&operations);
    if dice.chance(50) {
        sketch.nodes[index].left = operation;
    } else {
        sketch.nodes[index].right = operation;
    }
    Some(())
}

/// A node for which a test on its op holds.
fn node_where(dice: &mut Dice, sketch: &Sketch, test: impl Fn(u8) -> bool) -> Option<u16> {
    let fitting: Vec<u16> = (0..sketch.nodes.len() as u16)
        .filter(|&node| test(sketch.nodes[usize::from(node)].op))
        .collect();
    (!fitting.is_empty()).then(|| dice.one_of(&fitting))
}

/// A symbol for which a test on its type holds.
fn symbol_where(dice: &mut Dice, sketch: &Sketch, test: impl Fn(u8) -> bool) -> Option<u16> {
    let fitting: Vec<u16> = (0..sketch.symbols.len() as u16)
        .filter(|&symbol| test(sketch.symbols[usize::from(symbol)].kind))
        .collect();
    (!fitting.is_empty()).then(|| dice.one_of(&fitting))
}

/// A fault in a default record.
fn default(dice: &mut Dice, sketch: &mut Sketch) -> Option<()> {
    let index = some_index(dice, sketch.defaults.len())?;
    let (symbols, nodes) = (sketch.symbols.len(), sketch.nodes.len());
    match dice.below(5) {
        0 => sketch.defaults[index][0] = past(dice, symbols),
        1 => sketch.defaults[index][1] = past(dice, nodes),
        2 => sketch.defaults[index][2] = past(dice, nodes),
        _ => {
            let symbol = symbol_where(dice, sketch, |kind| kind > 1)?;
            let value = node_where(dice, sketch, |op| op > 4)?;
            sketch.defaults[index][0] = symbol;
            sketch.defaults[index][1] = value;
        }
    }
    Some(())
}

/// A fault in a select record.
fn select(dice: &mut Dice, sketch: &mut Sketch) -> Option<()> {
    let index = some_index(dice, sketch.selects.len())?;
    let (symbols, nodes) = (sketch.symbols.len(), sketch.nodes.len());
    let field = dice.below(2);
    match dice.below(5) {
        0 | 1 => sketch.selects[index][field] = past(dice, symbols),
        2 => sketch.selects[index][2] = past(dice, nodes),
        _ => sketch.selects[index][field] = symbol_where(dice, sketch, |kind| kind > 1)?,
    }
    Some(())
}

/// A fault in a range record.
fn range(dice: &mut Dice, sketch: &mut Sketch) -> Option<()> {
    let index = some_index(dice, sketch.ranges.len())?;
    let (symbols, nodes) = (sketch.symbols.len(), sketch.nodes.len());
    let bound = dice.from_to(1, 2);
    let ranged = usize::from(sketch.ranges[index][0]);
    let kind = sketch.symbols.get(ranged).map_or(3, |symbol| symbol.kind);
    let twin = 7u8.wrapping_sub(kind);
    match dice.below(9) {
        0 => sketch.ranges[index][0] = past(dice, symbols),
        1 => sketch.ranges[index][bound] = past(dice, nodes),
        2 => sketch.ranges[index][3] = past(dice, nodes),
        3 => sketch.ranges[index][0] = symbol_where(dice, sketch, |other| other < 3)?,
        4 => sketch.ranges[index][0] = symbol_where(dice, sketch, |other| other == twin)?,
        5 => sketch.ranges[index][bound] = node_where(dice, sketch, |op| op == twin)?,
        6 => sketch.ranges[index][bound] = node_where(dice, sketch, |op| op == 0 || op == 2)?,
        7 => sketch.ranges[index][bound] = node_where(dice, sketch, |op| op > 4)?,
        _ => {
            let symbol = symbol_where(dice, sketch, |other| other != kind)?;
            let node = sketch.node(1, symbol, 0);
            sketch.ranges[index][bound] = node;
        }
    }
    Some(())
}

/// A fault in a choice record, or members left over.
fn choice(dice: &mut Dice, sketch: &mut Sketch) -> Option<()> {
    let index = some_index(dice, sketch.choices.len())?;
    let nodes = sketch.nodes.len();
    if dice.chance(15) {
        sketch.members.push(0);
        return Some(());
    }
    let members = sketch.members.len() as u16;
    let record = &mut sketch.choices[index];
    match dice.below(9) {
        0 => record.kind = dice.one_of(&[2, 255]),
        1 => record.mandatory = dice.one_of(&[2, 255]),
        2 => record.prompt = past(dice, nodes),
        3 => record.first = record.first.wrapping_add(1),
        4 => record.first = record.first.wrapping_sub(1),
        5 => record.count = (members + 1).wrapping_sub(record.first),
        6 => record.count = 0u16.wrapping_sub(record.first.max(1)),
        7 if record.count > 0 => record.count -= 1,
        _ => record.count = record.count.wrapping_add(1),
    }
    Some(())
}

/// A fault in a member record.
fn member(dice: &mut Dice, sketch: &mut Sketch) -> Option<()> {
    let index = some_index(dice, sketch.members.len())?;
    let symbols = sketch.symbols.len();
    let member = match dice.below(4) {
        0 => past(dice, symbols),
        1 => sketch.members[some_index(dice, index)?],
        2 => symbol_where(dice, sketch, |kind| kind == 1)?,
        _ => symbol_where(dice, sketch, |kind| kind > 1)?,
    };
    sketch.members[index] = member;
    Some(())
}

/// A table that is short, whose total or count is wrong, or whose bodies end
/// before the total.
pub fn table_frame(dice: &mut Dice, table: &mut Vec<u8>) {
    let (length, count) = (table.len(), get(table, 2));
    match dice.below(9) {
        0 => set(table, 0, length + 1),
        1 => set(table, 0, length.wrapping_sub(1)),
        2 => set(table, 2, count + 1),
        3 => set(table, 2, count.wrapping_sub(1)),
        4 => table.truncate(dice.below(4)),
        5 => {
            table.truncate(4 + dice.below(4 * count.max(1)));
            let length = table.len();
            set(table, 0, length);
        }
        6 if dice.chance(10) => overlong(dice, table, true),
        6 => cut_or_extend(dice, table),
        _ => {
            let extra = dice.from_to(1, 4);
            table.extend(vec![0; extra]);
            let length = table.len();
            set(table, 0, length);
        }
    }
}

/// A table with one bad entry.
pub fn table_entry(dice: &mut Dice, table: &mut Vec<u8>) {
    let Some(symbol) = some_index(dice, get(table, 2)) else {
        return;
    };
    let at = 4 + 4 * symbol;
    if at + 4 > table.len() {
        return;
    }
    let (kind, start) = (table[at], get(table, at + 2));
    match dice.below(9) {
        0 => table[at] = dice.one_of(&[4, 5, 255]),
        1 => table[at] = kind.wrapping_add(1) % 4,
        2 => table[at + 1] = table[at + 1].wrapping_add(1),
        3 => table[at + 1] = dice.one_of(&[0, 2, 3, 5, 65, 255]),
        4 => set(table, at + 2, start + 1),
        5 => set(table, at + 2, start.wrapping_sub(1)),
        6 => set(table, at + 2, dice.one_of(&[0, 4, 65535])),
        7 if kind == 0 && start < table.len() => table[start] = dice.one_of(&[3, 4, 128, 255]),
        _ => {
            table.pop();
            let length = table.len();
            set(table, 0, length);
        }
    }
}

/// A finding whose head or length is bad.
pub fn finding_head(dice: &mut Dice, finding: &mut Vec<u8>, selects: usize) {
    if finding.len() < 4 {
        return;
    }
    match dice.below(6) {
        0 => set(finding, 0, selects),
        1 => set(finding, 0, dice.one_of(&[65535, 256, selects + 256])),
        2 => finding[2] = dice.one_of(&[2, 3, 128, 255]),
        3 => finding[3] = dice.one_of(&[1, 2, 128, 255]),
        4 if dice.chance(12) => overlong(dice, finding, false),
        _ => finding.truncate(dice.below(4)),
    }
}
