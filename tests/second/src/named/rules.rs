//! Named cases of the rules 10 to 18.

use super::worked::{choice_of_two, ranged};
use super::*;
use crate::sketch::string;

/// All cases of this part.
pub fn all() -> Vec<Named> {
    let mut all = orders();
    all.extend(defaults());
    all.extend(default_conditions());
    all.extend(default_kinds());
    all.extend(default_symbols());
    all.extend(bounds());
    all.extend(three_values());
    all.extend(ranges());
    all.extend(range_order());
    all.extend(choices());
    all.extend(choice_prompts());
    all.extend(modules());
    all
}

/// A book with the nodes n, m, y at 0, 1, 2 and more by `add`.
pub fn book(add: impl Fn(&mut Sketch)) -> Sketch {
    let mut sketch = Sketch::default();
    for value in 0..3 {
        sketch.node(0, value, 0);
    }
    add(&mut sketch);
    sketch
}

/// The order in which rules are tried.
fn orders() -> Vec<Named> {
    let two = book(|s| {
        s.symbol(0, "A", 0, 2);
        s.symbol(0, "B", 2, 2);
        s.symbol(0, "C", 2, 2);
        s.selects.push([2, 1, 2]);
    });
    let two_choices = book(|s| {
        s.symbol(0, "A", 2, 2);
        s.symbol(0, "B", 2, 2);
        s.choice(0, 1, 2, &[]);
        s.choice(0, 0, 2, &[0, 1]);
    });
    let swapped = book(|s| {
        s.symbol(0, "A", 2, 2);
        s.symbol(0, "B", 2, 2);
        s.choice(0, 0, 2, &[0, 1]);
        s.choice(0, 1, 2, &[]);
    });
    vec![
        table_case("symbol-by-symbol-not-rule-by-rule", &two, &[Y, N, Y], "13 0 65535"),
        table_case("type-before-every-other-rule", &two, &[Y, N, M], "10 2 65535"),
        table_case("choice-by-choice-17-first", &two_choices, &[Y, Y], "17 0 65535"),
        table_case("choice-by-choice-15-first", &swapped, &[Y, Y], "15 0 1"),
    ]
}

/// Which default applies.
fn defaults() -> Vec<Named> {
    let two = book(|s| {
        s.symbol(0, "A", 0, 2);
        s.defaults.extend([[0, 2, 2], [0, 0, 2]]);
    });
    let skipped = book(|s| {
        s.symbol(0, "A", 0, 2);
        s.defaults.extend([[0, 0, 0], [0, 2, 2]]);
    });
    let none = book(|s| {
        s.symbol(1, "A", 0, 2);
        s.defaults.push([0, 2, 0]);
    });
    vec![
        table_case("first-default-used", &two, &[Y], "0 65535 65535"),
        table_case("last-default-not-used", &two, &[N], "13 0 65535"),
        table_case("default-with-condition-n-skipped", &skipped, &[Y], "0 65535 65535"),
        table_case("no-default-applies-is-n", &none, &[N], "0 65535 65535"),
        table_case("no-default-applies-is-not-y", &none, &[Y], "13 0 65535"),
    ]
}

/// Defaults at m.
fn default_conditions() -> Vec<Named> {
    let at_m = book(|s| {
        s.symbol(1, "A", 0, 2);
        s.defaults.extend([[0, 2, 1], [0, 0, 2]]);
    });
    let m_on_boolean = book(|s| {
        s.symbol(0, "A", 0, 2);
        s.defaults.push([0, 1, 2]);
    });
    let either = book(|s| {
        s.symbol(1, "X", 2, 2);
        s.node(1, 0, 0);
        s.node(5, 3, 0);
        s.node(7, 3, 4);
        s.symbol(1, "A", 0, 2);
        s.defaults.push([1, 5, 2]);
    });
    let expected = "0 65535 65535 000102010101/";
    vec![
        table_case("default-condition-at-m-holds", &at_m, &[Y], "0 65535 65535"),
        table_case("default-not-cut-by-its-condition", &at_m, &[M], "13 0 65535"),
        table_case("default-m-on-a-boolean-y", &m_on_boolean, &[Y], "13 0 65535"),
        table_case("default-m-on-a-boolean-n", &m_on_boolean, &[N], "13 0 65535"),
        table_case("x-or-not-x-at-m", &either, &[M, M], expected),
        table_case("x-or-not-x-at-m-is-not-y", &either, &[M, Y], "13 1 65535"),
    ]
}

/// A book of one symbol of a type without a prompt, whose default is the node
/// that `add` gives.
fn promptless(kind: u8, add: impl Fn(&mut Sketch) -> u16) -> Sketch {
    book(|s| {
        s.symbol(kind, "A", 0, 2);
        let value = add(s);
        s.defaults.push([0, value, 2]);
    })
}

/// Defaults keep their own kind.
fn default_kinds() -> Vec<Named> {
    let int_of_text = promptless(3, |s| s.text_node(b"5"));
    let int_of_empty = promptless(3, |s| s.text_node(b""));
    let int_of_y = promptless(3, |_| 2);
    let string_of_int = promptless(2, |s| s.int(5));
    let string_of_y = promptless(2, |_| 2);
    let string_of_text = promptless(2, |s| s.text_node(b"some"));
    let hex_of_hex = promptless(4, |s| s.hex(0x8000_0000));
    let hex_of_int = promptless(4, |s| s.int(5));
    let five = Value::Int(5);
    vec![
        table_case("int-default-text-5", &int_of_text, &[five], "13 0 65535"),
        table_case("int-default-text-5-empty", &int_of_text, &[string("")], "13 0 65535"),
        table_case("int-default-empty-text", &int_of_empty, &[string("")], "0 65535 65535"),
        table_case("int-default-constant", &int_of_y, &[string("")], "13 0 65535"),
        table_case("string-default-spelled-alike", &string_of_int, &[string("5")], "13 0 65535"),
        table_case("string-default-constant-y", &string_of_y, &[string("y")], "13 0 65535"),
        table_case("string-default-text", &string_of_text, &[string("some")], "0 65535 65535"),
        table_case("hex-default-hex", &hex_of_hex, &[Value::Hex(0x8000_0000)], "0 65535 65535"),
        table_case("hex-default-int", &hex_of_int, &[Value::Hex(5)], "13 0 65535"),
    ]
}

/// A default that is a symbol stands by its table entry.
fn default_symbols() -> Vec<Named> {
    let case = |name: &str, kinds: [u8; 2], values: [Value; 2], expected: &str| {
        let sketch = book(|s| {
            s.symbol(kinds[0], "A", 0, 2);
            s.symbol(kinds[1], "B", 2, 2);
            let value = s.node(1, 1, 0);
            s.defaults.push([0, value, 2]);
        });
        table_case(name, &sketch, &values, expected)
    };
    let none = book(|s| {
        s.symbol(3, "A", 0, 2);
    });
    let kept = "0 65535 65535";
    let seven = || Value::Int(7);
    let empty = || string("");
    vec![
        case("int-default-an-int-symbol", [3, 3], [seven(), seven()], kept),
        case("int-default-an-empty-int", [3, 3], [empty(), empty()], kept),
        case("string-default-an-int-symbol", [2, 3], [string("7"), seven()], "13 0 65535"),
        case("string-default-a-tristate-symbol", [2, 1], [string("m"), M], "13 0 65535"),
        case("tristate-default-a-string-symbol-is-n", [1, 2], [N, string("y")], kept),
        table_case("int-without-default-empty", &none, &[empty()], kept),
        table_case("int-without-default-0", &none, &[Value::Int(0)], "13 0 65535"),
    ]
}

/// Lower and upper. B is selected by A; prompts as given.
fn bounds() -> Vec<Named> {
    let pair = |prompt: u16, default: u16| {
        book(|s| {
            s.symbol(1, "A", 2, 2);
            s.symbol(1, "B", prompt, 2);
            s.selects.push([0, 1, 2]);
            s.defaults.push([1, default, 2]);
        })
    };
    let kept = "0 65535 65535";
    vec![
        table_case("value-below-lower", &pair(2, 0), &[Y, M], "11 1 65535"),
        table_case("value-at-lower", &pair(2, 0), &[M, M], kept),
        table_case("prompt-below-lower-frees-upper", &pair(1, 0), &[Y, Y], kept),
        table_case("prompt-at-lower-binds-upper", &pair(1, 0), &[M, Y], "12 1 65535"),
        table_case("promptless-default-above-upper", &pair(0, 2), &[N, Y], kept),
        table_case("promptless-owes-lower-over-default", &pair(0, 1), &[Y, Y], kept),
        table_case("promptless-owes-default-over-lower", &pair(0, 1), &[N, M], kept),
        table_case("promptless-above-what-it-owes", &pair(0, 1), &[N, Y], "13 1 65535"),
    ]
}

/// Selects at m, in circles, and several on one target.
fn three_values() -> Vec<Named> {
    let half = book(|s| {
        s.symbol(1, "A", 2, 2);
        s.symbol(1, "B", 2, 2);
        s.selects.push([0, 1, 1]);
    });
    let circle = book(|s| {
        s.symbol(1, "A", 0, 2);
        s.symbol(1, "B", 0, 2);
        s.selects.extend([[0, 1, 2], [1, 0, 2]]);
    });
    let itself = book(|s| {
        s.symbol(0, "A", 0, 0);
        s.selects.push([0, 0, 2]);
    });
    let several = book(|s| {
        for name in ["A", "B", "C"] {
            s.symbol(1, name, 2, 2);
        }
        s.selects.extend([[0, 2, 2], [1, 2, 2], [0, 2, 0]]);
    });
    let kept = "0 65535 65535";
    vec![
        table_case("select-condition-m-cuts-y", &half, &[Y, M], kept),
        table_case("select-condition-m-still-pushes", &half, &[Y, N], "11 1 65535"),
        table_case("circle-of-selects-at-y", &circle, &[Y, Y], kept),
        table_case("circle-of-selects-at-n", &circle, &[N, N], kept),
        table_case("circle-of-selects-apart", &circle, &[M, Y], "11 0 65535"),
        table_case("selects-itself-at-y", &itself, &[Y], kept),
        table_case("largest-of-several-selects", &several, &[M, Y, M], "11 2 65535"),
    ]
}

/// Ranges: signed ints, unsigned hexes, empty values and bounds.
fn ranges() -> Vec<Named> {
    let int = |number: i32| [Value::Int(number)];
    let hexes = book(|s| {
        s.symbol(4, "A", 2, 2);
        let (low, high) = (s.hex(1), s.hex(u32::MAX));
        s.ranges.push([0, low, high, 2]);
    });
    let bound = |condition: u16| {
        book(|s| {
            s.symbol(3, "A", 2, 2);
            s.symbol(3, "LOW", 2, 2);
            let (low, high) = (s.node(1, 1, 0), s.int(9));
            s.ranges.push([0, low, high, condition]);
        })
    };
    let kept = "0 65535 65535";
    let empty = [Value::Int(5), string("")];
    let high = [Value::Hex(0x8000_0000)];
    vec![
        table_case("int-compared-signed", &ranged(0, 9), &int(-1), "14 0 0"),
        table_case("int-at-the-high-bound", &ranged(0, 9), &int(9), kept),
        table_case("int-past-the-high-bound", &ranged(0, 9), &int(10), "14 0 0"),
        table_case("int-from-lowest-to-highest", &ranged(i32::MIN, i32::MAX), &int(0), kept),
        table_case("low-above-high", &ranged(9, 0), &int(5), "14 0 0"),
        table_case("hex-compared-unsigned", &hexes, &high, kept),
        table_case("hex-below-the-low-bound", &hexes, &[Value::Hex(0)], "14 0 0"),
        table_case("empty-bound-where-it-holds", &bound(2), &empty, "14 0 0"),
        table_case("empty-bound-under-condition-n", &bound(0), &empty, kept),
        table_case("range-condition-at-m-holds", &bound(1), &empty, "14 0 0"),
    ]
}

/// Ranges in section order for each symbol in order.
fn range_order() -> Vec<Named> {
    let crossed = book(|s| {
        s.symbol(3, "A", 2, 2);
        s.symbol(3, "B", 2, 2);
        let (low, high) = (s.int(0), s.int(9));
        s.ranges.extend([[1, low, high, 2], [0, low, high, 2]]);
    });
    let second = book(|s| {
        s.symbol(3, "A", 2, 2);
        let (low, high, lower) = (s.int(0), s.int(9), s.int(5));
        s.ranges.extend([[0, low, high, 2], [0, low, lower, 2]]);
    });
    let owed = book(|s| {
        s.symbol(3, "A", 0, 2);
        let (low, high) = (s.int(0), s.int(9));
        s.ranges.push([0, low, high, 2]);
    });
    let int = Value::Int;
    vec![
        table_case("range-by-symbol-not-by-section", &crossed, &[int(-1), int(-1)], "14 0 1"),
        table_case("range-of-the-later-symbol", &crossed, &[int(1), int(-1)], "14 1 0"),
        table_case("second-range-broken", &second, &[int(7)], "14 0 1"),
        table_case("default-before-range", &owed, &[int(70)], "13 0 65535"),
        table_case("promptless-int-in-a-range", &owed, &[string("")], "14 0 0"),
    ]
}

/// Choices: 15 and 17.
fn choices() -> Vec<Named> {
    let optional = {
        let mut sketch = choice_of_two();
        sketch.choices[0].mandatory = 0;
        sketch
    };
    let three = book(|s| {
        for name in ["A", "B", "C"] {
            s.symbol(1, name, 2, 2);
        }
        s.choice(1, 1, 2, &[2, 0, 1]);
    });
    let kept = "0 65535 65535";
    vec![
        table_case("first-y-after-an-m", &choice_of_two(), &[M, Y], "15 0 0"),
        table_case("first-y-before-an-m", &choice_of_two(), &[Y, M], "15 0 1"),
        table_case("two-members-y", &choice_of_two(), &[Y, Y], "15 0 1"),
        table_case("members-all-m", &choice_of_two(), &[M, M], kept),
        table_case("mandatory-and-empty", &choice_of_two(), &[N, N], "17 0 65535"),
        table_case("mandatory-with-an-m", &choice_of_two(), &[N, M], kept),
        table_case("optional-and-empty", &optional, &[N, N], kept),
        table_case("second-place-in-member-order", &three, &[M, Y, M], "15 0 2"),
        table_case("second-place-a-symbol-not-a-member", &three, &[Y, Y, N], "15 0 1"),
    ]
}

/// Choices: their prompts.
fn choice_prompts() -> Vec<Named> {
    let prompted = |prompt: u16| {
        book(|s| {
            s.symbol(0, "A", 2, 2);
            s.symbol(0, "B", 2, 2);
            s.choice(0, 1, prompt, &[0, 1]);
        })
    };
    let kept = "0 65535 65535";
    vec![
        table_case("choice-without-prompt-two-y", &prompted(0), &[Y, Y], kept),
        table_case("choice-without-prompt-empty", &prompted(0), &[N, N], kept),
        table_case("choice-prompt-at-m-two-y", &prompted(1), &[Y, Y], "15 0 1"),
        table_case("choice-prompt-at-m-empty", &prompted(1), &[N, N], "17 0 65535"),
        table_case("m-in-a-boolean-choice-is-10", &prompted(2), &[M, N], "10 0 65535"),
    ]
}

/// The modules symbol.
fn modules() -> Vec<Named> {
    let with = |modules: u16| {
        book(|s| {
            s.symbol(1, "A", 2, 2);
            s.symbol(1, "B", 2, 2);
            s.symbol(0, "MODULES", 2, 2);
            s.modules = modules;
        })
    };
    let kept = "0 65535 65535";
    vec![
        table_case("modules-n-first-m", &with(2), &[Y, M, N], "18 1 65535"),
        table_case("modules-n-two-m", &with(2), &[M, M, N], "18 0 65535"),
        table_case("modules-n-no-m", &with(2), &[Y, N, N], kept),
        table_case("modules-y", &with(2), &[M, M, Y], kept),
        table_case("modules-not-declared", &with(65535), &[M, M, N], kept),
    ]
}
