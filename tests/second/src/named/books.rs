//! Named cases of the model book: answers 1 to 4.

use super::worked::{ranged, w};
use super::*;
use crate::sketch::three_table;

/// All cases of this part.
pub fn all() -> Vec<Named> {
    let mut all = chains();
    all.extend(long_slices());
    all.extend(symbols());
    all.extend(names());
    all.extend(texts());
    all.extend(nodes());
    all.extend(children());
    all.extend(records());
    all.extend(ranges());
    all.extend(choices());
    all.extend(turns());
    all.extend(members());
    all.extend(member_types());
    all.extend(modules());
    all
}

/// The model W with some numbers of two bytes changed, and P1's table.
fn w_with(name: &str, changes: &[(usize, u16)], expected: &str) -> Named {
    let mut model = w().bytes();
    for &(at, number) in changes {
        model[at..at + 2].copy_from_slice(&number.to_le_bytes());
    }
    let mut named = table_bytes(name, &model, &three_table(&[2, 2, 0]), expected);
    named.case.node_work = vec![NODE_FILL; 3];
    named
}

/// A changed W with P1's table; refused, so the room is untouched.
fn changed(name: &str, change: impl Fn(&mut Sketch), expected: &str) -> Named {
    let mut sketch = w();
    change(&mut sketch);
    let count = sketch.symbols.len();
    let mut values = vec![2, 2, 0];
    values.resize(count, 0);
    table_bytes(name, &sketch.bytes(), &three_table(&values), expected)
}

/// The chain of sections. W's sections start at 36, 60, 78, 78, 84, 84, 84, 84.
fn chains() -> Vec<Named> {
    let mut extra = w().bytes();
    extra.push(b'A');
    extra[0] = 96;
    vec![
        w_with("chain-wraps-at-65536", &[(6, 3 + 8192)], "2 2 65535 eeeeee/"),
        w_with("chain-of-nodes-wraps", &[(10, 3 + 32768)], "2 3 65535"),
        w_with("chain-of-members-wraps", &[(30, 32768)], "2 8 65535"),
        w_with("first-section-not-at-36", &[(4, 37)], "2 1 65535"),
        w_with("texts-past-the-total", &[(34, 12)], "2 8 65535"),
        w_with("members-past-the-total", &[(30, 6), (32, 96), (34, 0)], "2 8 65535"),
        w_with("texts-before-the-total", &[(34, 10)], "2 8 65535"),
        w_with("empty-section-off-its-place", &[(24, 85)], "2 6 65535"),
        w_with("total-off-by-one", &[(0, 94)], "1 0 65535"),
        table_bytes("byte-after-the-texts", &extra, &[], "2 8 65535"),
        w_with("modules-and-chain-bad", &[(2, 9), (4, 35)], "2 1 65535"),
    ]
}

/// Slices longer than 65,535, whose totals would fit after wrapping.
fn long_slices() -> Vec<Named> {
    let mut model = w().bytes();
    model.resize(65536 + 95, b'A');
    let mut zeros = vec![0; 65536];
    zeros[2..4].fill(255);
    let mut table = three_table(&[2, 2, 0]);
    table.resize(65536 + 19, 0);
    let worked = w().bytes();
    let valid = three_table(&[2, 2, 0]);
    vec![
        table_bytes("model-of-65631-bytes", &model, &valid, "1 0 65535"),
        table_bytes("model-of-65536-bytes", &zeros, &valid, "1 0 65535"),
        table_bytes("table-of-65555-bytes", &worked, &table, "5 0 65535"),
        name_case("name-in-a-model-of-65631-bytes", &model, 0, ""),
    ]
}

/// Faults of symbol records other than in names.
fn symbols() -> Vec<Named> {
    vec![
        changed("symbol-type-5", |s| s.symbols[0].kind = 5, "3 1 0 eeeeee/"),
        changed("prompt-at-the-node-count", |s| s.symbols[1].prompt = 3, "3 1 1"),
        changed("dependency-at-the-node-count", |s| s.symbols[2].dependency = 3, "3 1 2"),
        changed(
            "first-bad-record-in-section-order",
            |s| {
                s.selects[0][0] = 9;
                s.nodes[2].op = 10;
            },
            "3 2 2",
        ),
        changed(
            "first-bad-record-in-record-order",
            |s| {
                s.symbols[2].kind = 5;
                s.symbols[1].prompt = 9;
            },
            "3 1 1",
        ),
    ]
}

/// Faults of names. W's texts are 11 bytes: PUSHTICKRTC.
fn names() -> Vec<Named> {
    vec![
        changed("name-length-0", |s| s.symbols[0].length = 0, "3 1 0"),
        changed("name-end-past-the-texts", |s| s.symbols[2].offset = 9, "3 1 2"),
        changed("name-end-wraps-at-65536", |s| s.symbols[2].offset = 65533, "3 1 2"),
        changed("name-with-lower-case", |s| s.texts[0] = b'p', "3 1 0"),
        changed("name-with-a-byte-of-255", |s| s.texts[4] = 255, "3 1 1"),
        changed("name-digits-alone", |s| s.texts[8..].copy_from_slice(b"427"), "3 1 2"),
        changed(
            "name-digits-and-underscore",
            |s| s.texts[8..].copy_from_slice(b"42_"),
            "0 65535 65535",
        ),
        changed("name-twice-at-the-later", |s| s.texts[4..8].copy_from_slice(b"PUSH"), "3 1 1"),
        changed(
            "name-within-another-name",
            |s| {
                s.symbols[2].offset = 0;
                s.symbols[2].length = 3;
            },
            "0 65535 65535",
        ),
    ]
}

/// Text nodes. W with one more node, at index 3.
fn texts() -> Vec<Named> {
    let with = |name: &str, left: u16, right: u16, expected: &str| {
        let change = |s: &mut Sketch| {
            s.texts.extend([b'x'; 66]);
            s.node(2, left, right);
        };
        changed(name, change, expected)
    };
    vec![
        with("text-length-0-at-the-end-of-texts", 77, 0, "0 65535 65535 00020000/"),
        with("text-length-0-past-the-texts", 78, 0, "3 2 3 eeeeeeee/"),
        with("text-end-at-the-texts", 13, 64, "0 65535 65535"),
        with("text-end-past-the-texts", 14, 64, "3 2 3"),
        with("text-end-wraps-at-65536", 65535, 1, "3 2 3"),
        with("text-of-64", 0, 64, "0 65535 65535"),
        with("text-of-65", 0, 65, "3 2 3"),
    ]
}

/// Faults of leaf nodes and of unused bytes.
fn nodes() -> Vec<Named> {
    vec![
        changed("node-op-10", |s| s.nodes[0].op = 10, "3 2 0"),
        changed("node-zero-byte-not-0", |s| s.nodes[1].zero = 1, "3 2 1"),
        changed("constant-left-3", |s| s.nodes[0].left = 3, "3 2 0"),
        changed("constant-left-258", |s| s.nodes[0].left = 258, "3 2 0"),
        changed("constant-right-not-0", |s| s.nodes[1].right = 1, "3 2 1"),
        changed("symbol-node-at-the-count", |s| s.nodes[2].left = 3, "3 2 2"),
        changed("symbol-node-right-not-0", |s| s.nodes[2].right = 256, "3 2 2"),
    ]
}

/// Faults of operations. W with one or two more nodes, from index 3.
fn children() -> Vec<Named> {
    let with = |name: &str, op: u8, left: u16, right: u16, expected: &str| {
        let change = |s: &mut Sketch| {
            s.node(5, 2, 0);
            s.node(op, left, right);
        };
        changed(name, change, expected)
    };
    vec![
        with("not-of-itself", 5, 4, 0, "3 2 4"),
        with("not-with-a-right", 5, 1, 1, "3 2 4"),
        with("and-of-a-later-node", 6, 1, 5, "3 2 4"),
        with("or-of-itself", 7, 4, 1, "3 2 4"),
        with("or-of-an-operation", 7, 3, 2, "0 65535 65535 0002000202/"),
        with("equal-to-an-operation", 8, 1, 3, "3 2 4"),
        with("not-equal-of-an-operation", 9, 3, 1, "3 2 4"),
        with("equal-to-itself-by-index", 8, 4, 1, "3 2 4"),
        with("equal-leaves", 8, 1, 0, "0 65535 65535 0002000200/"),
        with("differing-leaves", 9, 1, 0, "0 65535 65535 0002000202/"),
    ]
}

/// Faults of default and select records.
fn records() -> Vec<Named> {
    let string = |s: &mut Sketch| s.symbol(2, "TEXT", 1, 1);
    let not = |s: &mut Sketch| s.node(5, 0, 0);
    vec![
        changed("default-symbol-at-the-count", |s| s.defaults.push([3, 0, 1]), "3 3 0"),
        changed("default-value-at-the-count", |s| s.defaults.push([0, 3, 1]), "3 3 0"),
        changed("default-condition-at-the-count", |s| s.defaults.push([0, 0, 3]), "3 3 0"),
        changed(
            "string-default-no-leaf",
            |s| {
                let (symbol, value) = (string(s), not(s));
                s.defaults.push([symbol, value, 1]);
            },
            "3 3 0",
        ),
        changed(
            "boolean-default-no-leaf",
            |s| {
                let value = not(s);
                s.defaults.push([0, value, 1]);
            },
            "0 65535 65535",
        ),
        changed("selector-at-the-count", |s| s.selects[0][0] = 3, "3 4 0"),
        changed("target-at-the-count", |s| s.selects[0][1] = 3, "3 4 0"),
        changed("select-condition-at-the-count", |s| s.selects[0][2] = 3, "3 4 0"),
        changed("selector-a-string", |s| s.selects[0][0] = string(s), "3 4 0"),
        changed("target-a-string", |s| s.selects[0][1] = string(s), "3 4 0"),
    ]
}

/// Adds a hex symbol and a node for it.
fn hex_symbol(sketch: &mut Sketch) -> u16 {
    let symbol = sketch.symbol(4, "HEX", 0, 0);
    sketch.node(1, symbol, 0)
}

/// Faults of range records, on a book of an int with nodes y, 0, 9.
fn ranges() -> Vec<Named> {
    let with = |name: &str, change: &dyn Fn(&mut Sketch), expected: &str| {
        let mut sketch = ranged(0, 9);
        change(&mut sketch);
        table_case(name, &sketch, &[Value::Int(4)], expected)
    };
    vec![
        with("bound-a-constant-value", &|s| s.ranges[0][1] = 0, "3 5 0"),
        with("range-on-a-hex-with-int-bounds", &|s| s.symbols[0].kind = 4, "3 5 0"),
        with("range-on-a-string", &|s| s.symbols[0].kind = 2, "3 5 0"),
        with("bound-its-own-symbol", &|s| s.ranges[0][2] = s.node(1, 0, 0), "0 65535 65535"),
        with("bound-a-text", &|s| s.ranges[0][2] = s.text_node(b"9"), "3 5 0"),
        with("bound-a-hex-for-an-int", &|s| s.ranges[0][1] = s.hex(0), "3 5 0"),
        with("bound-a-hex-symbol-for-an-int", &|s| s.ranges[0][1] = hex_symbol(s), "3 5 0"),
        with("bound-at-the-node-count", &|s| s.ranges[0][2] = 3, "3 5 0"),
        with("range-condition-at-the-count", &|s| s.ranges[0][3] = 3, "3 5 0"),
        with("range-symbol-at-the-count", &|s| s.ranges[0][0] = 1, "3 5 0"),
    ]
}

/// Choices and the members they take.
fn choices() -> Vec<Named> {
    vec![
        changed(
            "empty-choice-at-the-end",
            |s| {
                s.choice(0, 0, 1, &[0]);
                s.choice(0, 0, 1, &[]);
            },
            "0 65535 65535",
        ),
        changed(
            "empty-choice-before-the-last-members",
            |s| {
                s.choice(0, 0, 1, &[]);
                s.choice(0, 0, 1, &[0]);
            },
            "0 65535 65535",
        ),
        changed("choice-kind-2", |s| s.choices.extend(odd(2, 0, 1, 0)), "3 6 0"),
        changed("choice-mandatory-2", |s| s.choices.extend(odd(0, 2, 1, 0)), "3 6 0"),
        changed("choice-prompt-at-the-count", |s| s.choices.extend(odd(0, 0, 3, 0)), "3 6 0"),
        changed("choice-overruns-the-members", |s| s.choices.extend(odd(0, 0, 1, 1)), "3 6 0"),
    ]
}

/// Choices that do not take the members in turn, or do not use them all.
fn turns() -> Vec<Named> {
    vec![
        changed(
            "choice-count-wraps-at-65536",
            |s| {
                s.choice(0, 0, 1, &[0]);
                s.choice(0, 0, 1, &[]);
                s.choices[1].count = 65535;
            },
            "3 6 1",
        ),
        changed(
            "choice-first-leaves-a-gap",
            |s| {
                s.choice(0, 0, 1, &[0]);
                s.choices[0].first = 1;
                s.choices[0].count = 0;
            },
            "3 6 0",
        ),
        changed(
            "members-left-over-before-a-bad-member",
            |s| {
                s.choice(0, 0, 1, &[9, 1]);
                s.choices[0].count = 1;
            },
            "3 6 1",
        ),
        changed("members-without-a-choice", |s| s.members.push(0), "3 6 0"),
    ]
}

/// A choice record that starts at member 0.
fn odd(kind: u8, mandatory: u8, prompt: u16, count: u16) -> Option<crate::sketch::ChoiceSketch> {
    Some(crate::sketch::ChoiceSketch { kind, mandatory, prompt, first: 0, count })
}

/// Faults that count at the member.
fn members() -> Vec<Named> {
    vec![
        changed(
            "member-at-the-symbol-count",
            |s| {
                s.choice(0, 0, 0, &[0, 3]);
            },
            "3 7 1",
        ),
        changed(
            "member-twice-in-another-choice",
            |s| {
                s.choice(0, 0, 0, &[0, 1]);
                s.choice(0, 0, 0, &[2, 1]);
            },
            "3 7 3",
        ),
    ]
}

/// Members whose type fits their choice or not.
fn member_types() -> Vec<Named> {
    vec![
        changed(
            "tristate-in-a-boolean-choice",
            |s| {
                s.symbols[1].kind = 1;
                s.choice(0, 0, 0, &[0, 1]);
            },
            "3 7 1",
        ),
        changed(
            "string-in-a-tristate-choice",
            |s| {
                let text = s.symbol(2, "TEXT", 1, 1);
                s.choice(1, 0, 0, &[text]);
            },
            "3 7 0",
        ),
        changed(
            "boolean-in-a-tristate-choice",
            |s| {
                s.choice(1, 0, 0, &[0, 1]);
            },
            "0 65535 65535",
        ),
    ]
}

/// The modules symbol.
fn modules() -> Vec<Named> {
    let mut late = w();
    late.modules = 300;
    vec![
        changed("modules-raw-number", |s| s.modules = 300, "4 300 65535 eeeeee/"),
        changed("modules-at-the-count", |s| s.modules = 3, "4 3 65535"),
        changed("modules-65534", |s| s.modules = 65534, "4 65534 65535"),
        changed(
            "modules-a-tristate",
            |s| {
                s.symbols[2].kind = 1;
                s.modules = 2;
            },
            "4 2 65535",
        ),
        changed(
            "bad-record-before-bad-modules",
            |s| {
                s.modules = 300;
                s.choice(0, 0, 0, &[9]);
            },
            "3 7 0",
        ),
        name_case("name-in-a-model-refused-4", &late.bytes(), 0, ""),
    ]
}
