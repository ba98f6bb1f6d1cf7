//! Books whose names are hard to tell apart. Each is asked for the name of its
//! last symbol, which needs the whole book to be read, and nothing else.

use crate::{name_of_last, table_case, witness_case, Size};
use differential::names::{names, Naming};
use second::cases::Case;
use second::gen::dice::Dice;
use second::sketch::{Sketch, SymbolSketch, Value};
use std::collections::HashSet;

/// The length of the longest names.
const LONG: usize = 64;

/// How far the codes stand apart in a text of runs.
const PERIOD: usize = 58;

/// The letters of the codes; the runs are made of none of them.
const LETTERS: &[u8; 36] = b"BCDEFGHIJKLMNOPQRSTUVWXYZ_1234567890";

/// Where a name stands in the texts, and its length.
type Place = (u16, u8);

/// Two letters for a number.
fn code(number: usize) -> [u8; 2] {
    [LETTERS[number / 25 % 36], LETTERS[number % 25]]
}

/// A book of booleans with these names, and one node.
fn book(texts: Vec<u8>, places: &[Place]) -> Sketch {
    let mut sketch = Sketch { texts, ..Sketch::default() };
    sketch.node(0, 2, 0);
    for &(offset, length) in places {
        sketch.symbols.push(SymbolSketch { kind: 0, length, offset, prompt: 0, dependency: 0 });
    }
    sketch
}

/// So many different parts of a text, of these lengths, that fit.
fn parts(
    text: &[u8],
    lengths: std::ops::RangeInclusive<usize>,
    count: usize,
    fits: impl Fn(&[u8]) -> bool,
) -> Vec<Place> {
    let mut taken = HashSet::new();
    let mut places = Vec::new();
    for length in lengths {
        for (offset, part) in text.windows(length).enumerate() {
            if places.len() < count && fits(part) && taken.insert(part) {
                places.push((offset as u16, length as u8));
            }
        }
    }
    assert_eq!(places.len(), count, "too few parts");
    places
}

/// Names of 64 letters that lie over each other: a run of one letter, of at
/// least `least`, then a code, then runs and codes. They share their first
/// three letters and their last three.
fn runs(count: usize, least: usize, letter: u8) -> Sketch {
    let a_period = PERIOD - 6 - least;
    let periods = count / a_period + 3;
    let mut text = Vec::new();
    for number in 0..periods {
        text.extend([letter; PERIOD - 2]);
        text.extend(code(number));
    }
    let ends = [letter; 3];
    let places = parts(&text, LONG..=LONG, count, |part| {
        let run = part.iter().take_while(|&&byte| byte == letter).count();
        run >= least && part.ends_with(&ends)
    });
    book(text, &places)
}

/// Names one after another, each made from its number.
fn numbered(count: usize, name: impl Fn(usize) -> Vec<u8>) -> Sketch {
    let (mut texts, mut places) = (Vec::new(), Vec::new());
    for number in 0..count {
        let name = name(number);
        places.push((texts.len() as u16, name.len() as u8));
        texts.extend(name);
    }
    book(texts, &places)
}

/// A name of 64 letters, all alike but for a number of five digits at a place.
fn with_digits(number: usize, at: usize) -> Vec<u8> {
    let mut name = vec![b'A'; LONG];
    name[at..at + 5].copy_from_slice(format!("{number:05}").as_bytes());
    name
}

/// A key made of the first and the last letters is the same for every name.
pub fn names_share_their_ends(size: Size) -> Case {
    name_of_last(&runs(size.book, 3, b'A'))
}

/// The same, and two names are told apart only after half of their letters.
pub fn names_share_a_long_run(size: Size) -> Case {
    name_of_last(&runs(size.book, 28, b'A'))
}

/// The same, and the run is of digits: whether a name is digits alone is known
/// only behind it.
pub fn names_begin_with_digits(size: Size) -> Case {
    name_of_last(&runs(size.book, 28, b'0'))
}

/// Names of every length share their ends: as many as there can be.
pub fn names_share_ends_at_every_length(size: Size) -> Case {
    let mut text = Vec::new();
    for number in 0..20 {
        text.extend([b'A'; PERIOD - 2]);
        text.extend(code(number));
    }
    let places = parts(&text, 3..=LONG, size.book, |part| {
        part.starts_with(b"AAA") && part.ends_with(b"AAA")
    });
    name_of_last(&book(text, &places))
}

/// Names that share their ends, before a table check.
pub fn names_of_a_table(size: Size) -> Case {
    let sketch = runs(size.book, 3, b'A');
    table_case(&sketch, &vec![Value::Three(0); size.book])
}

/// The same names before a witness.
pub fn names_of_a_witness(size: Size) -> Case {
    let mut sketch = runs(size.book, 3, b'A');
    sketch.selects.push([0, 1, 0]);
    witness_case(&sketch, &vec![Value::Three(0); size.book])
}

/// All letters are shared but some in the middle.
pub fn names_differ_in_the_middle(size: Size) -> Case {
    name_of_last(&numbered(size.book, |number| with_digits(number, 30)))
}

/// The first 56 letters are shared, and the last three.
pub fn names_share_56_letters(size: Size) -> Case {
    name_of_last(&numbered(size.book, |number| with_digits(number, 56)))
}

/// Names that differ in their last letters only.
pub fn names_differ_at_the_end(size: Size) -> Case {
    name_of_last(&numbered(size.book, |number| with_digits(number, LONG - 5)))
}

/// All letters are shared but one, which stands anywhere: a key of some of the
/// letters is the same for most of them.
pub fn names_differ_in_one_letter(size: Size) -> Case {
    name_of_last(&numbered(size.book, |number| {
        let mut name = vec![b'A'; LONG];
        name[number % LONG] = LETTERS[number / LONG];
        name
    }))
}

/// The same eight words in another order: a sum over words tells nothing.
pub fn names_of_the_same_words(size: Size) -> Case {
    name_of_last(&numbered(size.book, |number| {
        let mut words: Vec<[u8; 8]> = (0..8).map(|word| [b'A' + word; 8]).collect();
        let (mut left, mut name) = (number, Vec::new());
        for count in (1..=8).rev() {
            name.extend(words.remove(left % count));
            left /= count;
        }
        name
    }))
}

/// Numbered names, as a driver's family has them.
pub fn names_like_snd_0001_soc(size: Size) -> Case {
    name_of_last(&numbered(size.book, |number| format!("SND_{number:04}_SOC").into_bytes()))
}

/// The same letters in another order: a sum over them tells nothing.
pub fn names_of_the_same_letters(size: Size) -> Case {
    let names = names(&mut Dice::new(1, 1), Naming::Alike, size.book, size.book * 14);
    name_of_last(&book(names.texts, &names.places))
}

/// As many names as there can be, the shortest that there are.
pub fn names_as_short_as_can_be(size: Size) -> Case {
    let text: Vec<u8> = (0..1450).flat_map(code).take(1450).collect();
    let letters = |part: &[u8]| !part.iter().all(u8::is_ascii_digit);
    name_of_last(&book(text.clone(), &parts(&text, 1..=LONG, size.book, letters)))
}

/// As many names as there can be, of every length, in a text of 200 letters.
pub fn names_of_every_length(size: Size) -> Case {
    let text: Vec<u8> = (0..100).flat_map(code).collect();
    let letters = |part: &[u8]| !part.iter().all(u8::is_ascii_digit);
    name_of_last(&book(text.clone(), &parts(&text, 1..=LONG, size.book, letters)))
}

/// The last symbol has the first one's name: the names of its block are
/// compared with all before them.
pub fn the_last_name_is_the_first(size: Size) -> Case {
    let mut sketch = runs(size.book, 28, b'A');
    let last = size.book - 1;
    sketch.symbols[last] = sketch.symbols[0];
    name_of_last(&sketch)
}

/// The last symbol has the name of the one before it, among names that are
/// told apart at once.
pub fn the_last_name_is_the_one_before(size: Size) -> Case {
    let mut sketch = numbered(size.book, |number| format!("{number:04}_A").into_bytes());
    let last = size.book - 1;
    sketch.symbols[last] = sketch.symbols[last - 1];
    name_of_last(&sketch)
}

/// The second half of the symbols has the names of the first.
pub fn half_of_the_names_are_repeats(size: Size) -> Case {
    let mut sketch = runs(size.book, 28, b'A');
    let half = size.book / 2;
    for symbol in half..size.book {
        sketch.symbols[symbol] = sketch.symbols[symbol - half];
    }
    name_of_last(&sketch)
}

/// Every symbol has the same name.
pub fn one_name_for_all(size: Size) -> Case {
    name_of_last(&book(vec![b'A'; LONG], &vec![(0, LONG as u8); size.book]))
}
