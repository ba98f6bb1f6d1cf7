//! Books of members and choices.

use crate::{constants, filled, name_of_last, table_case, Size, N, Y};
use second::cases::Case;
use second::sketch::{Sketch, Value};

/// So many booleans in a mixed order.
fn mixed(count: usize) -> Vec<u16> {
    let step = (1..).map(|at| 2467 + 2 * at).find(|step| coprime(*step, count)).unwrap_or(1);
    (0..count).map(|at| (at * step % count) as u16).collect()
}

/// Whether two numbers have no common divisor.
fn coprime(one: usize, other: usize) -> bool {
    let (mut one, mut other) = (one, other);
    while other > 0 {
        (one, other) = (other, one % other);
    }
    one == 1
}

/// So many booleans with a prompt.
fn booleans(count: usize) -> Sketch {
    let mut sketch = constants();
    filled(&mut sketch, 0, count, Y);
    sketch
}

/// The last member record repeats a symbol: it is compared with all before it.
pub fn the_last_member_is_a_repeat(size: Size) -> Case {
    let mut sketch = booleans(size.book);
    let mut members = mixed(size.book);
    members.push(members[0]);
    sketch.choice(0, 0, Y, &members);
    name_of_last(&sketch)
}

/// As many member records as there can be, of a few symbols at the end: every
/// pass over the symbols before them meets them all.
pub fn members_are_all_repeats(size: Size) -> Case {
    let mut sketch = booleans(2500);
    let members: Vec<u16> = (0..size.book).map(|at| 2300 + (at % 200) as u16).collect();
    sketch.choice(0, 0, Y, &members);
    name_of_last(&sketch)
}

/// One choice that has every symbol for a member, none of them above n.
pub fn one_choice_of_all(size: Size) -> Case {
    let mut sketch = booleans(size.book);
    sketch.choice(0, 0, Y, &mixed(size.book));
    table_case(&sketch, &vec![Value::Three(0); size.book])
}

/// The last two members of a large choice are y: rule 15 at its end.
pub fn the_last_two_members_are_y(size: Size) -> Case {
    let mut sketch = booleans(size.book);
    let members: Vec<u16> = (0..size.book as u16).collect();
    sketch.choice(0, 0, Y, &members);
    let mut values = vec![Value::Three(0); size.book];
    values[size.book - 2..].fill(Value::Three(2));
    table_case(&sketch, &values)
}

/// Choices of one member each, all of them y.
pub fn choices_of_one_member(size: Size) -> Case {
    let mut sketch = booleans(size.book);
    for member in mixed(size.book) {
        sketch.choice(0, 1, Y, &[member]);
    }
    table_case(&sketch, &vec![Value::Three(2); size.book])
}

/// Choices of no member.
pub fn choices_of_no_member(size: Size) -> Case {
    let mut sketch = booleans(1);
    for choice in 0..size.book {
        sketch.choice(0, (choice % 2) as u8, N, &[]);
    }
    table_case(&sketch, &[Value::Three(0)])
}

/// Choices of two members, and both are y in the last one alone.
pub fn the_last_choice_has_two_ys(size: Size) -> Case {
    let mut sketch = booleans(2 * size.book);
    for choice in 0..size.book as u16 {
        sketch.choice(0, 0, Y, &[2 * choice, 2 * choice + 1]);
    }
    let mut values = vec![Value::Three(0); 2 * size.book];
    values[2 * size.book - 2..].fill(Value::Three(2));
    table_case(&sketch, &values)
}
