//! One case through the archive and through the second program.

use crate::archive;
use second::book::Book;
use second::cases::{hex, Case, FINDING, NAME, PROGRAM};
use second::Answer;
use std::sync::atomic::{AtomicU32, Ordering};

/// The answer that the judge is made blind to: it says 0 in its place. None
/// but for the self-test, which sees to it that a wrong judge is found out.
static BLIND_TO: AtomicU32 = AtomicU32::new(NONE);
const NONE: u32 = u32::MAX;

/// The bytes kept free on each side of what is lent.
const MARGIN: usize = 32;

/// What the margins hold: no value, no set and no zero.
const UNTOUCHED: u8 = 0x5a;

/// Room for the nodes of every book.
const MOST_NODES: usize = 65535 / 6;

/// What each side gave where they differ.
#[derive(Clone, PartialEq, Eq, Debug)]
pub struct Difference {
    pub archive: String,
    pub second: String,
}

/// Bytes lent from a buffer of their own, with a margin on each side.
struct Lent {
    whole: Vec<u8>,
}

impl Lent {
    /// A copy of the bytes between two margins.
    fn of(bytes: &[u8]) -> Lent {
        let mut whole = Vec::with_capacity(bytes.len() + 2 * MARGIN);
        whole.resize(MARGIN, UNTOUCHED);
        whole.extend(bytes);
        whole.resize(bytes.len() + 2 * MARGIN, UNTOUCHED);
        Lent { whole }
    }

    /// The bytes between the margins.
    fn part(&self) -> &[u8] {
        &self.whole[MARGIN..self.whole.len() - MARGIN]
    }

    /// The bytes between the margins, to write in.
    fn part_mut(&mut self) -> &mut [u8] {
        let end = self.whole.len() - MARGIN;
        &mut self.whole[MARGIN..end]
    }

    /// Whether the margins are as they were made.
    fn margins_kept(&self) -> bool {
        let end = self.whole.len() - MARGIN;
        let mut margins = self.whole[..MARGIN].iter().chain(&self.whole[end..]);
        margins.all(|&byte| byte == UNTOUCHED)
    }

    /// Whether neither the margins nor the bytes were changed.
    fn kept(&self, bytes: &[u8]) -> bool {
        self.part() == bytes && self.margins_kept()
    }
}

/// Runs a case on both sides. Gives the answer that both drew (for a name 0,
/// or 1 where it is empty), or what they differ in.
pub fn compare(case: &Case) -> Result<u32, Difference> {
    match case.kind {
        NAME => names(case),
        PROGRAM => line(case),
        _ => check(case),
    }
}

/// Makes the judge of all later comparisons blind to an answer, or right again.
pub fn blind_the_judge(answer: Option<u32>) {
    BLIND_TO.store(answer.unwrap_or(NONE), Ordering::Relaxed);
}

/// The second program's answer, as the judge says it.
fn judged(answer: Answer) -> Answer {
    if answer.number == BLIND_TO.load(Ordering::Relaxed) {
        return Answer::KEPT;
    }
    answer
}

/// Whether the two sides differ on a case.
pub fn differs(case: &Case) -> bool {
    compare(case).is_err()
}

/// Compares a table or finding check: the answer, and every byte lent.
fn check(case: &Case) -> Result<u32, Difference> {
    let model = Lent::of(&case.model);
    let bytes = Lent::of(&case.second);
    let mut nodes = Lent::of(&case.node_work);
    let mut symbols = Lent::of(&case.symbol_work);
    let ours = if case.kind == FINDING {
        let rooms = (nodes.part_mut(), symbols.part_mut());
        archive::check_finding(model.part(), bytes.part(), rooms.0, rooms.1)
    } else {
        archive::check_table(model.part(), bytes.part(), nodes.part_mut())
    };
    let mut their_nodes = case.node_work.clone();
    let mut their_symbols = case.symbol_work.clone();
    let theirs = judged(if case.kind == FINDING {
        second::check_finding(&case.model, &case.second, &mut their_nodes, &mut their_symbols)
    } else {
        second::check_table(&case.model, &case.second, &mut their_nodes)
    });
    let inputs_kept = model.kept(&case.model) && bytes.kept(&case.second);
    let outside_kept = nodes.margins_kept() && symbols.margins_kept();
    let alike = ours == theirs
        && nodes.part() == their_nodes
        && symbols.part() == their_symbols
        && inputs_kept
        && outside_kept;
    if alike {
        if case.kind != FINDING {
            in_turn(case, ours, nodes.part())?;
        }
        return Ok(theirs.number);
    }
    let mut archive = told(ours, nodes.part(), symbols.part());
    if !inputs_kept {
        archive += ", and it wrote into its inputs";
    }
    if !outside_kept {
        archive += ", and it wrote outside of its rooms";
    }
    Err(Difference { archive, second: told(theirs, &their_nodes, &their_symbols) })
}

/// Compares the book's check and the check after it with the table check's
/// answer and room: in a good book the second is the table check, in a bad one
/// the first is, and the second keeps to its numbers and to the nodes' bytes.
fn in_turn(case: &Case, whole: Answer, room: &[u8]) -> Result<(), Difference> {
    let (model, bytes) = (Lent::of(&case.model), Lent::of(&case.second));
    let mut nodes = Lent::of(&case.node_work);
    let due = judged(Book::read(&case.model).err().unwrap_or(Answer::KEPT));
    let book = archive::check_book(model.part());
    let table = archive::check_table_in(model.part(), bytes.part(), nodes.part_mut());
    let after = if book.number == 0 {
        table == whole && nodes.part() == room
    } else {
        let front = match table.number {
            5..=7 => 0,
            _ => counted_nodes(&case.model).min(case.node_work.len()),
        };
        book == whole
            && matches!(table.number, 0 | 5..=7 | 10..=18)
            && nodes.part()[front..] == case.node_work[front..]
    };
    let kept = model.kept(&case.model) && bytes.kept(&case.second) && nodes.margins_kept();
    if book == due && after && kept {
        return name_in_turn(&case.model, whole.place as usize, book.number == 0);
    }
    let archive = format!(
        "the book {}, then the table {}{}",
        told(book, &[], &[]),
        told(table, nodes.part(), &[]),
        if kept { "" } else { ", and it wrote into its inputs or outside of its room" },
    );
    let second =
        format!("the book {}, both at once {}", told(due, &[], &[]), told(whole, room, &[]));
    Err(Difference { archive, second })
}

/// How many nodes the check after the book counts, whatever the model is.
fn counted_nodes(model: &[u8]) -> usize {
    let byte = |at: usize| usize::from(model.get(at).copied().unwrap_or(0));
    byte(10) | byte(11) << 8
}

/// Compares a name without a look at the book: in the model whatever it is,
/// and in a good book the name with a look at it.
fn name_in_turn(model: &[u8], index: usize, good: bool) -> Result<(), Difference> {
    let (start, length) = archive::name_in(model, index);
    let inside = start <= model.len() && length <= model.len() - start;
    if inside && (!good || (start, length) == archive::name(model, index)) {
        return Ok(());
    }
    let archive = format!("symbol {index} after the book: {length} bytes from {start}");
    let second = if good {
        format!("symbol {index} with the book: {:?}", archive::name(model, index))
    } else {
        format!("a part of {} bytes", model.len())
    };
    Err(Difference { archive, second })
}

/// An answer and both rooms in words.
fn told(answer: Answer, nodes: &[u8], symbols: &[u8]) -> String {
    let (number, place, second) = (answer.number, answer.place, answer.second);
    format!("{number} {place} {second}, rooms {}/{}", hex(nodes), hex(symbols))
}

/// Compares the name call for the index, and for two that only look like it
/// where a number is cut to 32 bits.
fn names(case: &Case) -> Result<u32, Difference> {
    let index = case.index as usize;
    let lent = Lent::of(&case.model);
    let model = lent.part();
    for asked in [index, index + (1 << 32), usize::MAX] {
        let (start, length) = archive::name(model, asked);
        let theirs = second::name(model, asked);
        let alike = if theirs.is_empty() {
            length == 0 && start <= model.len()
        } else {
            start == theirs.as_ptr() as usize - model.as_ptr() as usize && length == theirs.len()
        };
        if !alike || !lent.kept(&case.model) {
            let archive = format!("symbol {asked}: {length} bytes from {start}");
            let second = format!("the name \"{}\"", theirs.escape_ascii());
            return Err(Difference { archive, second });
        }
        name_in_turn(model, asked, archive::check_book(model).number == 0)?;
    }
    Ok(u32::from(second::name(model, index).is_empty()))
}

/// Compares the line that the program prints, here put together from the
/// archive's table check and name call.
fn line(case: &Case) -> Result<u32, Difference> {
    let (input, cut) = (&case.model, model_length(&case.model));
    let (model, table) = input.split_at(cut);
    let mut room = vec![0; MOST_NODES];
    let answer = archive::check_table(model, table, &mut room);
    let mut ours = format!("{} {} {} ", answer.number, answer.place, answer.second).into_bytes();
    match answer.number {
        10..=14 | 18 => ours.extend(name_bytes(model, answer.place as usize)),
        15 | 16 => ours.extend(name_bytes(model, answer.second as usize)),
        _ => ours.push(b'-'),
    }
    ours.push(b'\n');
    let theirs = second::line(input);
    if ours == theirs {
        return Ok(answer.number);
    }
    let text = |line: &[u8]| line.trim_ascii_end().escape_ascii().to_string();
    Err(Difference { archive: text(&ours), second: text(&theirs) })
}

/// How many bytes of an input are the model, by its first two.
pub fn model_length(input: &[u8]) -> usize {
    match input {
        [low, high, ..] => input.len().min(usize::from(u16::from_le_bytes([*low, *high]))),
        _ => input.len(),
    }
}

/// The bytes of a name that the archive points at; nothing if it points
/// outside of the model.
fn name_bytes(model: &[u8], symbol: usize) -> &[u8] {
    let (start, length) = archive::name(model, symbol);
    model.get(start..start + length).unwrap_or(&[])
}
