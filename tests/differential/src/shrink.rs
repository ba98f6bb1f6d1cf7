//! Makes a case on which the two sides differ smaller, while they differ.

use crate::compare::differs;
use crate::refs;
use second::book::{u16_at, HEAD, WIDTH};
use second::cases::{Case, FINDING};
use std::time::{Duration, Instant};

/// How many smaller cases are tried in all, and for how long.
const TRIES: usize = 40_000;
const LONGEST: Duration = Duration::from_secs(8);

/// One of the byte lists of a case.
type Bytes = fn(&mut Case) -> &mut Vec<u8>;

/// A smaller case on which the two sides still differ.
pub fn shrunk(case: &Case) -> Case {
    let mut shrinking = Shrinking { case: case.clone(), tries: TRIES, start: Instant::now() };
    while shrinking.round() && shrinking.tries > 0 {}
    shrinking.case
}

/// The smallest case so far, the tries left, and when the first was made.
struct Shrinking {
    case: Case,
    tries: usize,
    start: Instant,
}

impl Shrinking {
    /// Takes the other case if the two sides differ on it too.
    fn take(&mut self, other: Case) -> bool {
        if self.tries == 0 || other == self.case {
            return false;
        }
        self.tries = if self.start.elapsed() < LONGEST { self.tries - 1 } else { 0 };
        let better = differs(&other);
        if better {
            self.case = other;
        }
        better
    }

    /// Tries each way once; says whether one made the case smaller.
    fn round(&mut self) -> bool {
        let mut smaller = self.shorter_rooms();
        smaller |= self.fewer_records();
        smaller |= self.fewer_splits();
        smaller |= self.shorter_names();
        if self.case.model.len() < 500 {
            smaller |= self.cut_pieces(|case| &mut case.model);
        }
        smaller |= self.cut_pieces(|case| &mut case.second);
        smaller |= self.zero_bytes(HEAD, |case| &mut case.model);
        smaller | self.zero_bytes(4, |case| &mut case.second)
    }

    /// Rooms of half the length, or of one byte less.
    fn shorter_rooms(&mut self) -> bool {
        let rooms: [Bytes; 2] = [|case| &mut case.node_work, |case| &mut case.symbol_work];
        let mut smaller = false;
        for room in rooms {
            loop {
                let length = room(&mut self.case).len();
                let took = [length / 2, length.saturating_sub(1)].into_iter().any(|shorter| {
                    let mut other = self.case.clone();
                    room(&mut other).truncate(shorter);
                    self.take(other)
                });
                if !took {
                    break;
                }
                smaller = true;
            }
        }
        smaller
    }

    /// The model without some records, from half of a section down to one, and
    /// whatever counts by them brought down too; then as it is without that.
    fn fewer_records(&mut self) -> bool {
        let mut smaller = false;
        for section in (0..8).rev() {
            let mut many = count(&self.case.model, section).div_ceil(2);
            while many > 0 {
                let mut end = count(&self.case.model, section);
                while end >= many && self.tries > 0 {
                    end -= many;
                    let Some(model) = without_records(&self.case.model, section, end, many) else {
                        break;
                    };
                    let plain = Case { model, ..self.case.clone() };
                    let mut fitting = plain.clone();
                    refs::lowered(&mut fitting, section, end, many);
                    smaller |= self.take(fitting) || self.take(plain);
                }
                many /= 2;
            }
        }
        smaller
    }

    /// A clearance with a split replaced by one of its subtrees.
    fn fewer_splits(&mut self) -> bool {
        let mut smaller = false;
        let mut at = 4;
        while is_clearance(&self.case) && at < self.case.second.len() && self.tries > 0 {
            let parts = refs::subtrees(&self.case.model, &self.case.second, at);
            let took = parts.iter().any(|part| {
                let mut other = self.case.clone();
                let subtree = other.second[part.clone()].to_vec();
                other.second.splice(at..parts[parts.len() - 1].end, subtree);
                self.take(other)
            });
            smaller |= took;
            at += if took { 0 } else { 1 };
        }
        smaller
    }

    /// Names of one byte, of two, or of half the length.
    fn shorter_names(&mut self) -> bool {
        let mut smaller = false;
        for symbol in 0..count(&self.case.model, 0) {
            let at = u16_at(&self.case.model, 4) + 8 * symbol + 1;
            let length = self.case.model.get(at).copied().unwrap_or(0);
            smaller |= [1, 2, length / 2].into_iter().any(|shorter| {
                let mut other = self.case.clone();
                shorter < length && {
                    other.model[at] = shorter;
                    self.take(other)
                }
            });
        }
        smaller
    }

    /// Pieces cut out, from half of the bytes down to one, with the total of
    /// the first two bytes as it was or made to fit.
    fn cut_pieces(&mut self, bytes: Bytes) -> bool {
        let mut smaller = false;
        let mut size = bytes(&mut self.case).len() / 2;
        while size > 0 {
            let mut at = 0;
            while at + size <= bytes(&mut self.case).len() && self.tries > 0 {
                let mut plain = self.case.clone();
                bytes(&mut plain).drain(at..at + size);
                let mut fitting = plain.clone();
                let length = bytes(&mut fitting).len() as u16;
                if let Some(total) = bytes(&mut fitting).get_mut(..2) {
                    total.copy_from_slice(&length.to_le_bytes());
                }
                let took = self.take(fitting) || self.take(plain);
                smaller |= took;
                at += if took { 0 } else { size };
            }
            size /= 2;
        }
        smaller
    }

    /// Bytes set to zero, one at a time.
    fn zero_bytes(&mut self, from: usize, bytes: Bytes) -> bool {
        let mut smaller = false;
        for at in from..bytes(&mut self.case).len() {
            if bytes(&mut self.case)[at] != 0 {
                let mut other = self.case.clone();
                bytes(&mut other)[at] = 0;
                smaller |= self.take(other);
            }
        }
        smaller
    }
}

/// How many records a section says it has.
pub(crate) fn count(model: &[u8], section: usize) -> usize {
    if model.len() < HEAD {
        return 0;
    }
    u16_at(model, 6 + 4 * section)
}

/// The model without some records, its contents and its total made to fit.
fn without_records(model: &[u8], section: usize, from: usize, many: usize) -> Option<Vec<u8>> {
    let length = many * WIDTH[section];
    let at = u16_at(model, 4 + 4 * section) + from * WIDTH[section];
    if at < HEAD || at + length > model.len() {
        return None;
    }
    let mut out = model.to_vec();
    out.drain(at..at + length);
    lower(&mut out, 0, length);
    lower(&mut out, 6 + 4 * section, many);
    for later in section + 1..8 {
        lower(&mut out, 4 + 4 * later, length);
    }
    Some(out)
}

/// Whether a case has a finding that is a clearance.
pub(crate) fn is_clearance(case: &Case) -> bool {
    case.kind == FINDING && case.second.len() >= 4 && case.second[2] == 1
}

/// Lowers the number of two bytes at a place.
pub(crate) fn lower(bytes: &mut [u8], at: usize, by: usize) {
    let number = (u16_at(bytes, at) as u16).wrapping_sub(by as u16);
    bytes[at..at + 2].copy_from_slice(&number.to_le_bytes());
}
