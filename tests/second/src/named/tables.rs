//! Named cases of the table's bytes, of the rooms, and of the nodes' values.

use super::worked::w;
use super::*;
use crate::sketch::{string, three_table};

/// All cases of this part.
pub fn all() -> Vec<Named> {
    let mut all = frames();
    all.extend(entries());
    all.extend(strings());
    all.extend(wrapping_body());
    all.extend(rooms());
    all.extend(kinds());
    all.extend(equalities());
    all.extend(spelled_numbers());
    all
}

/// W's table of P1 with bytes changed.
fn p1_with(name: &str, changes: &[(usize, u8)], expected: &str) -> Named {
    let mut table = three_table(&[2, 2, 0]);
    for &(at, byte) in changes {
        table[at] = byte;
    }
    table_bytes(name, &w().bytes(), &table, expected)
}

/// Faults of the table as a whole.
fn frames() -> Vec<Named> {
    let model = w().bytes();
    let long = |extra: usize| {
        let mut table = three_table(&[2, 2, 0]);
        table.resize(19 + extra, 0);
        table[0] = 19 + extra as u8;
        table
    };
    let mut bad_and_long = long(1);
    bad_and_long[4] = 7;
    let cut = [15, 0, 3, 0, 0, 1, 16, 0, 0, 1, 17, 0, 0, 1, 18];
    vec![
        table_bytes("table-of-no-bytes", &model, &[], "5 0 65535 eeeeee/"),
        table_bytes("table-of-3-bytes", &model, &[3, 0, 3], "5 0 65535"),
        table_bytes("table-contents-cut", &model, &cut, "5 0 65535"),
        table_bytes("bodies-end-before-the-total", &model, &long(1), "5 0 65535 eeeeee/"),
        table_bytes("bad-entry-before-left-bodies", &model, &bad_and_long, "6 0 65535"),
        p1_with("table-total-off-by-one", &[(0, 20)], "5 0 65535"),
        p1_with("table-count-off-by-one", &[(2, 2)], "5 0 65535"),
        p1_with("table-wrong-total-and-bad-entry", &[(0, 18), (4, 9)], "5 0 65535"),
    ]
}

/// Bad entries of a three-valued table.
fn entries() -> Vec<Named> {
    let mut short = three_table(&[2, 2, 0]);
    short.pop();
    short[0] = 18;
    vec![
        p1_with("entry-kind-4", &[(8, 4)], "6 1 65535 eeeeee/"),
        p1_with("entry-value-3", &[(17, 3)], "6 1 65535"),
        p1_with("entry-of-length-2", &[(5, 2)], "6 0 65535"),
        p1_with("entry-start-off-by-one", &[(10, 18)], "6 1 65535"),
        p1_with("entry-int-of-one-byte", &[(4, 2)], "6 0 65535"),
        p1_with("entry-string-of-one-byte", &[(4, 1)], "10 0 65535 000200/"),
        table_bytes("last-body-past-the-total", &w().bytes(), &short, "6 2 65535"),
    ]
}

/// A book of one string, TEXT, with a prompt y.
fn one_string() -> Sketch {
    let mut sketch = Sketch::default();
    sketch.node(0, 2, 0);
    sketch.symbol(2, "TEXT", 0, 0);
    sketch
}

/// String entries.
fn strings() -> Vec<Named> {
    let long = |length: usize| Value::Text(vec![b'z'; length]);
    let book = one_string();
    let model = book.bytes();
    vec![
        table_case("string-of-64", &book, &[long(64)], "0 65535 65535 02/"),
        table_case("string-of-65", &book, &[long(65)], "6 0 65535 ee/"),
        table_case("string-empty", &book, &[string("")], "0 65535 65535"),
        table_bytes("empty-body-off-its-place", &model, &[8, 0, 1, 0, 1, 0, 0, 0], "6 0 65535"),
        table_bytes("empty-body-past-the-total", &model, &[8, 0, 1, 0, 1, 0, 9, 0], "6 0 65535"),
    ]
}

/// Tables of 65,535 bytes on a book of 964 strings: 963 bodies of 64 bytes end
/// at 65,492, so a last one of 43 fills the table, and one of 64 would end at 20
/// if the sum wrapped.
fn wrapping_body() -> Vec<Named> {
    let mut sketch = Sketch::default();
    sketch.node(0, 2, 0);
    for index in 0..964 {
        sketch.symbol(2, &format!("S{index}"), 0, 0);
    }
    let model = sketch.bytes();
    let with_last = |length: usize| {
        let mut values = vec![Value::Text(vec![b'z'; 64]); 963];
        values.push(Value::Text(vec![b'z'; length]));
        let mut table = table(&values);
        table.resize(65535, b'z');
        table[..2].copy_from_slice(&[255, 255]);
        table
    };
    let full = with_last(43);
    let left = with_last(42);
    let wraps = with_last(64);
    vec![
        table_bytes("table-of-65535-bytes", &model, &full, "0 65535 65535 02/"),
        table_bytes("table-of-65535-bytes-one-left", &model, &left, "5 0 65535"),
        table_bytes("body-end-wraps-at-65536", &model, &wraps, "6 963 65535"),
    ]
}

/// Rooms that are short, exact and longer.
fn rooms() -> Vec<Named> {
    let case = |name: &str, nodes: usize, expected: &str| {
        let named = table_bytes(name, &w().bytes(), &three_table(&[2, 2, 0]), expected);
        named.rooms(nodes, 0)
    };
    let bad = p1_with("bad-entry-before-short-room", &[(4, 9)], "6 0 65535 eeee/");
    let left = {
        let mut table = three_table(&[2, 2, 0]);
        table.push(0);
        table[0] = 20;
        table_bytes("left-bodies-before-short-room", &w().bytes(), &table, "5 0 65535 ee/")
    };
    let broken = p1_with("short-room-before-rules", &[(16, 1)], "7 3 65535 eeee/");
    vec![
        case("room-short-by-one", 2, "7 3 65535 eeee/"),
        case("room-of-no-bytes", 0, "7 3 65535 /"),
        case("room-longer-with-bytes", 5, "0 65535 65535 000200eeee/"),
        bad.rooms(2, 0),
        left.rooms(1, 0),
        broken.rooms(2, 0),
    ]
}

/// The kind of an entry, not the type of its symbol, gives a node its value.
fn kinds() -> Vec<Named> {
    let mut book = one_string();
    book.node(1, 0, 0);
    let mut boolean = Sketch::default();
    boolean.node(0, 2, 0);
    boolean.symbol(0, "B", 0, 0);
    boolean.node(1, 0, 0);
    let mut number = one_string();
    number.symbols[0].kind = 3;
    let mut guarded = book.clone();
    guarded.symbol(0, "B", 1, 0);
    vec![
        table_case("string-with-the-entry-y-has-node-2", &book, &[Y], "10 0 65535 0202/"),
        table_case("m-on-a-boolean-has-node-1", &boolean, &[M], "10 0 65535 0201/"),
        table_case("int-with-a-string-entry", &number, &[string("5")], "10 0 65535 02/"),
        table_case("int-with-a-hex-entry", &number, &[Value::Hex(5)], "10 0 65535 02/"),
        table_case("string-with-an-int-entry", &book, &[Value::Int(5)], "10 0 65535 0200/"),
        table_case(
            "string-y-is-n-outside-equality",
            &guarded,
            &[string("y"), Y],
            "13 1 65535 0200/",
        ),
    ]
}

/// A book of a string, a tristate, an int and a hex, with prompts y, nodes for
/// each, and more nodes by `add`.
fn mixed(add: impl Fn(&mut Sketch)) -> Sketch {
    let mut sketch = Sketch::default();
    sketch.node(0, 2, 0);
    for (kind, name) in [(2, "TEXT"), (1, "TRI"), (3, "INT"), (4, "HEX")] {
        let symbol = sketch.symbol(kind, name, 0, 0);
        sketch.node(1, symbol, 0);
    }
    add(&mut sketch);
    sketch
}

/// An equality of two of the nodes of `mixed`, and its opposite: their values
/// are expected after those of the five leaves, of which only TRI may be m.
fn equal(name: &str, sides: [u16; 2], values: [Value; 4], holds: bool) -> Named {
    let sketch = mixed(|s| {
        s.node(8, sides[0], sides[1]);
        s.node(9, sides[0], sides[1]);
    });
    let tri = if values[1] == M { "01" } else { "00" };
    let last = if holds { "0200" } else { "0002" };
    table_case(name, &sketch, &values, &format!("0 65535 65535 0200{tri}0000{last}/"))
}

/// Equalities by spelling. Node 0 is y, 1 TEXT, 2 TRI, 3 INT, 4 HEX.
fn equalities() -> Vec<Named> {
    let all = |text: &str, tri: Value, int: i32, hex: u32| {
        [string(text), tri, Value::Int(int), Value::Hex(hex)]
    };
    let lowest = all("-2147483648", N, i32::MIN, 0);
    let highest = all("0xffffffff", N, 0, u32::MAX);
    let empty = [string(""), N, string(""), Value::Hex(0)];
    vec![
        equal("string-y-equals-value-y", [1, 0], all("y", N, 0, 0), true),
        equal("string-m-equals-tristate-m", [1, 2], all("m", M, 0, 0), true),
        equal("int-never-equals-hex", [3, 4], all("", N, 5, 5), false),
        equal("int-equals-its-decimal", [1, 3], lowest, true),
        equal("hex-equals-its-lower-case-digits", [4, 1], highest, true),
        equal("hex-zero-is-0x0", [1, 4], all("0x0", N, 0, 0), true),
        equal("empty-int-equals-empty-string", [1, 3], empty, true),
    ]
}

/// Texts that look like a number's spelling and are not.
fn spelled_numbers() -> Vec<Named> {
    let text = |name: &str, text: &str, node: u16, bytes: &str| {
        let sketch = mixed(|s| {
            let text = s.text_node(text.as_bytes());
            s.node(8, text, node);
        });
        let values = [string("y"), M, Value::Int(-5), Value::Hex(0xab)];
        table_case(name, &sketch, &values, &format!("0 65535 65535 {bytes}/"))
    };
    vec![
        text("text-minus-5-equals-int", "-5", 3, "02000100000002"),
        text("text-with-a-leading-zero", "-05", 3, "02000100000000"),
        text("text-0xab-equals-hex", "0xab", 4, "02000100000002"),
        text("text-upper-case-hex", "0xAB", 4, "02000100000000"),
        text("text-hex-with-a-leading-zero", "0x0ab", 4, "02000100000000"),
        text("text-m-equals-tristate-m", "m", 2, "02000100000002"),
        text("text-y-equals-string-y", "y", 1, "02000100000002"),
        text("text-2-is-not-y", "2", 0, "02000100000000"),
    ]
}
