//! Names made by someone who has read how the archive looks names up
//! (crates/names): by a key, whose bits give a link and two marks. They are
//! made for the key of its first try.

use crate::{name_of_last, Size};
use second::cases::Case;
use second::sketch::Sketch;

/// The factor of the first try, and the one that spreads the key.
const FACTOR: u64 = 1_000_000_007;
const LAST_FACTOR: u64 = 1_640_532_007;

/// The key of a name of eight letters.
fn key(name: [u8; 8]) -> u64 {
    let word =
        |at: usize| u64::from(u32::from_le_bytes(name[at..at + 4].try_into().expect("four")));
    let mixed = |sum: u64| {
        let low = (sum * FACTOR + word(0)) % (1 << 32);
        (low * FACTOR + word(4)) % (1 << 32)
    };
    mixed(mixed(8)) * LAST_FACTOR
}

/// Eight letters for a number.
fn letters(number: u64) -> [u8; 8] {
    let mut name = [b'A'; 8];
    (0..8).fold(number, |rest, at| {
        name[at] += (rest % 26) as u8;
        rest / 26
    });
    name
}

/// A book of so many names whose keys are as asked.
fn names(count: usize, fits: impl Fn(u64) -> bool) -> Sketch {
    let mut sketch = Sketch::default();
    sketch.node(0, 2, 0);
    let made = (0..).map(letters).filter(|&name| fits(key(name)));
    for name in made.take(count) {
        let name = String::from_utf8(name.to_vec()).expect("letters");
        sketch.symbol(0, &name, 0, 0);
    }
    sketch
}

/// All in one link: every name of a block would be compared with every other.
pub fn names_made_for_one_link(size: Size) -> Case {
    name_of_last(&names(size.book, |key| key >> 30 & 127 == 77))
}

/// In links of few enough names each, and with marks that are always set: every
/// name would be compared with those of its link in every later block.
pub fn names_made_for_all_marks(size: Size) -> Case {
    name_of_last(&names(size.book, |key| key >> 26 & 63 == 5 && key >> 15 & 63 == 9))
}
