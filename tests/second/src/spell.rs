//! The spelled texts that an equality compares.

use crate::table::Entry;

/// Room for the longest spelled number, "-2147483648".
pub type Room = [u8; 11];

/// Whether two entries are spelled alike.
pub fn alike(left: Entry, right: Entry) -> bool {
    let (mut one, mut other): (Room, Room) = ([0; 11], [0; 11]);
    spelled(left, &mut one) == spelled(right, &mut other)
}

/// The spelled text of an entry: n, m, y, the string itself, or a number
/// written into the room.
pub fn spelled<'r>(entry: Entry<'r>, room: &'r mut Room) -> &'r [u8] {
    match entry {
        Entry::Three(0) => b"n",
        Entry::Three(1) => b"m",
        Entry::Three(_) => b"y",
        Entry::Text(text) => text,
        Entry::Int(number) => {
            let sign: &[u8] = if number < 0 { b"-" } else { b"" };
            digits(number.unsigned_abs(), 10, sign, room)
        }
        Entry::Hex(number) => digits(number, 16, b"0x", room),
    }
}

/// Writes a number's digits in a base after a head, at the end of the room.
fn digits<'r>(mut number: u32, base: u32, head: &[u8], room: &'r mut Room) -> &'r [u8] {
    let mut start = room.len();
    loop {
        start -= 1;
        room[start] = b"0123456789abcdef"[(number % base) as usize];
        number /= base;
        if number == 0 {
            break;
        }
    }
    let from = start - head.len();
    room[from..start].copy_from_slice(head);
    &room[from..]
}
