//! The generator of cases: the same cases for the same seed on every machine.

pub mod damage;
pub mod dice;
pub mod findings;
pub mod models;
pub mod tables;
pub mod trees;

use crate::cases::{self, Case};
use crate::sketch::Sketch;
use dice::Dice;
use models::Profile;
use tables::Draft;

/// Which cases to make.
#[derive(Clone, Copy, PartialEq, Eq, Debug)]
pub enum Which {
    Tables,
    Findings,
    Names,
    Programs,
    All,
}

/// The answers that a table check may give, with how often each is sought.
const TABLE_ANSWERS: [(u32, usize); 16] = [
    (0, 18),
    (1, 3),
    (2, 5),
    (3, 13),
    (4, 3),
    (5, 5),
    (6, 6),
    (7, 3),
    (10, 5),
    (11, 5),
    (12, 5),
    (13, 7),
    (14, 6),
    (15, 5),
    (17, 4),
    (18, 4),
];

/// The first cases of a seed, of every kind.
pub fn cases(seed: u64, count: usize) -> Vec<Case> {
    cases_of(seed, count, Which::All).collect()
}

/// The first cases of a seed, one after another.
pub fn cases_of(seed: u64, count: usize, which: Which) -> impl Iterator<Item = Case> {
    (0..count as u64).map(move |index| case(seed, index, which))
}

/// One case of a seed.
pub fn case(seed: u64, index: u64, which: Which) -> Case {
    let mut dice = Dice::new(seed, index);
    let drawn = dice.weighted(&[
        (Which::Tables, 42),
        (Which::Findings, 44),
        (Which::Names, 5),
        (Which::Programs, 9),
    ]);
    let which = if which == Which::All { drawn } else { which };
    let mut case = match which {
        Which::Findings => findings::case(&mut dice),
        Which::Names => name_case(&mut dice),
        Which::Programs => program_case(&mut dice),
        _ => table_case(&mut dice),
    };
    case.name = format!("gen-{seed}-{index}");
    case
}

/// The profile of most cases; now and then no symbols, or more of them.
pub fn profile(dice: &mut Dice) -> Profile {
    let mut profile = Profile::PLAIN;
    profile.others = dice.one_of(&[0, 10, 25, 50]);
    match dice.below(30) {
        0 => profile.symbols = (0, 1),
        1 | 2 => profile.symbols = (7, 12),
        _ => {}
    }
    profile
}

/// A room of a length with bytes in it.
pub fn room(dice: &mut Dice, length: usize) -> Vec<u8> {
    (0..length).map(|_| dice.byte() | 1).collect()
}

/// The length of a room for so many bytes: mostly exact, often longer.
pub fn room_length(dice: &mut Dice, count: usize) -> usize {
    match dice.below(10) {
        0..=5 => count,
        6 => count + 1,
        _ => count + dice.below(9),
    }
}

/// A length that is too short for so many bytes, where that can be.
pub fn short_length(dice: &mut Dice, count: usize) -> usize {
    match dice.below(3) {
        0 => 0,
        1 => dice.below(count),
        _ => count.saturating_sub(1),
    }
}

/// A model refused with a wanted answer of 1 to 4, from a sketch.
pub fn bad_model(dice: &mut Dice, sketch: &Sketch, wanted: u32) -> Vec<u8> {
    let mut sketch = sketch.clone();
    match wanted {
        3 => {
            damage::record(dice, &mut sketch);
            while dice.chance(15) {
                damage::record(dice, &mut sketch);
            }
        }
        4 => while !damage::modules(dice, &mut sketch) {},
        _ => {}
    }
    if wanted < 4 && dice.chance(10) {
        damage::modules(dice, &mut sketch);
    }
    let mut model = sketch.bytes();
    match wanted {
        1 => damage::model_length(dice, &mut model),
        2 => damage::chain(dice, &mut model),
        3 if dice.chance(10) => damage::flip(dice, &mut model, 36),
        _ => {}
    }
    if wanted < 3 && dice.chance(15) {
        damage::flip(dice, &mut model, 2);
    }
    model
}

/// A book and table in which an answer is sought; those with an answer of 1 to
/// 7 start from a book that has every section, or from a plain one.
fn draft_for(dice: &mut Dice, wanted: u32) -> Draft {
    if wanted == 0 || wanted >= 10 {
        let profile = profile(dice);
        return tables::drawing(dice, wanted, profile);
    }
    let profile = if dice.chance(70) { Profile::RICH } else { profile(dice) };
    let mut draft = Draft::random(dice, profile);
    if dice.chance(50) {
        draft.mend(dice);
    }
    draft
}

/// A case of the table check.
fn table_case(dice: &mut Dice) -> Case {
    let wanted = dice.weighted(&TABLE_ANSWERS);
    let draft = draft_for(dice, wanted);
    let nodes = draft.sketch.nodes.len();
    let (model, table) = model_and_table(dice, &draft, wanted);
    let length = if wanted == 7 || wanted < 7 && dice.chance(5) {
        short_length(dice, nodes)
    } else {
        room_length(dice, nodes)
    };
    Case {
        kind: cases::TABLE,
        model,
        second: table,
        node_work: room(dice, length),
        ..Case::default()
    }
}

/// The bytes of a book and of a table, with the faults that were sought.
fn model_and_table(dice: &mut Dice, draft: &Draft, wanted: u32) -> (Vec<u8>, Vec<u8>) {
    let mut model = draft.model.clone();
    let mut table = draft.table();
    match wanted {
        1..=4 => model = bad_model(dice, &draft.sketch, wanted),
        5 => damage::table_frame(dice, &mut table),
        6 if dice.chance(10) => table = draft.long_string(dice),
        6 => damage::table_entry(dice, &mut table),
        _ => {}
    }
    if wanted < 7 && wanted > 0 && dice.chance(12) {
        match dice.below(3) {
            0 => damage::table_frame(dice, &mut table),
            1 => damage::table_entry(dice, &mut table),
            _ => damage::flip(dice, &mut table, 0),
        }
    } else if dice.chance(2) {
        damage::flip(dice, &mut table, 4);
    } else if dice.chance(2) {
        damage::flip(dice, &mut model, 36);
    }
    (model, table)
}

/// A case of the name call.
fn name_case(dice: &mut Dice) -> Case {
    let profile = profile(dice);
    let sketch = models::book(dice, profile);
    let wanted = dice.weighted(&[(0, 70), (1, 5), (2, 7), (3, 10), (4, 8)]);
    let model = if wanted == 0 { sketch.bytes() } else { bad_model(dice, &sketch, wanted) };
    let count = sketch.symbols.len();
    let index = match dice.below(10) {
        0 => count,
        1 => dice.one_of(&[65535, 65536, count + 65536, 65537, 0xffff_ffff]),
        2 => dice.below(65536),
        _ => dice.below(count),
    };
    Case { kind: cases::NAME, model, index: index as u32, ..Case::default() }
}

/// A case of the program.
fn program_case(dice: &mut Dice) -> Case {
    let mut wanted = dice.weighted(&TABLE_ANSWERS);
    if wanted == 7 {
        wanted = dice.one_of(&[1, 14, 18]);
    }
    let draft = draft_for(dice, wanted);
    let (mut input, table) = model_and_table(dice, &draft, wanted);
    input.extend(table);
    if wanted == 1 {
        odd_input(dice, &mut input);
    }
    Case { kind: cases::PROGRAM, model: input, ..Case::default() }
}

/// An input of under two bytes, or whose length is none for a model.
fn odd_input(dice: &mut Dice, input: &mut Vec<u8>) {
    let length = match dice.below(7) {
        0 => return input.truncate(dice.below(2)),
        1 => return input.truncate(2 + dice.below(34)),
        2 => input.len() + 1,
        3 => dice.below(2),
        4 => 65535,
        5 => 35,
        _ => 2 + dice.below(34),
    };
    if let Some(two) = input.get_mut(..2) {
        two.copy_from_slice(&(length as u16).to_le_bytes());
    }
}
