//! Named cases of leaf closing: sets, picks, lifting.

use super::findings::{split, MET};
use super::rules::book;
use super::*;
use crate::complete_clearance;
use crate::sketch::{clearance, Tree};

/// What an accepted finding draws.
const KEPT: &str = "0 65535 65535";

/// All cases of this part.
pub fn all() -> Vec<Named> {
    let mut all = lower_and_upper();
    all.extend(unsure_lower());
    all.extend(defaults());
    all.extend(fall_through());
    all.extend(sets_taken_back());
    all.extend(choices());
    all.extend(one_of_a_choice());
    all.extend(modules());
    all.extend(picks());
    all.extend(dependencies());
    all.extend(equalities());
    all.extend(constant_equalities());
    all.extend(many_selects());
    all.extend(complete());
    all
}

/// A clearance of select 0 with a tree.
fn tree(name: &str, sketch: &Sketch, tree: &Tree, expected: &str) -> Named {
    finding_case(name, sketch, &clearance(0, tree), expected)
}

/// A always y, selecting B, whose dependency is n: only a broken rule clears.
fn forced(prompt: u16, add: impl Fn(&mut Sketch)) -> Sketch {
    book(|s| {
        s.symbol(0, "A", 2, 2);
        s.symbol(1, "B", prompt, 0);
        s.selects.push([0, 1, 2]);
        add(s);
    })
}

/// Leaves of 11 and 12.
fn lower_and_upper() -> Vec<Named> {
    let sketch = forced(2, |_| {});
    let lower = Tree::Leaf(11, 1);
    let on_a = |leaf: &Tree| split(0, &[MET, leaf.clone()]);
    let on_b = |n: &Tree, m: &Tree, y: &Tree| split(1, &[n.clone(), m.clone(), y.clone()]);
    let upper = book(|s| {
        s.symbol(1, "A", 1, 2);
        s.symbol(1, "B", 2, 1);
        s.selects.push([0, 1, 2]);
    });
    let above = Tree::Leaf(12, 0);
    vec![
        tree("leaf-11-unsplit", &sketch, &on_a(&lower), "23 11 65535"),
        tree(
            "leaf-11-closed-then-open-at-y",
            &sketch,
            &on_a(&on_b(&lower, &lower, &lower)),
            "23 22 65535",
        ),
        tree("leaf-12-closed", &upper, &split(0, &[MET, MET, above.clone()]), KEPT),
        tree(
            "leaf-12-on-a-value-not-above",
            &upper,
            &split(0, &[above.clone(), MET, above]),
            "23 7 65535",
        ),
    ]
}

/// Leaves of 11 and 12 on A, which X may select; A selects B, whose dependency
/// is m. A's prompt is m.
fn unsure_lower() -> Vec<Named> {
    let sketch = book(|s| {
        s.symbol(1, "A", 1, 2);
        s.symbol(1, "B", 2, 1);
        s.symbol(0, "X", 2, 2);
        s.selects.extend([[0, 1, 2], [2, 0, 2]]);
    });
    let (lower, upper) = (Tree::Leaf(11, 0), Tree::Leaf(12, 0));
    let on_x = |n: &Tree, y: &Tree| split(2, &[n.clone(), y.clone()]);
    let at_y = |leaf: &Tree| split(0, &[MET, MET, leaf.clone()]);
    let at_n = |leaf: &Tree| split(0, &[leaf.clone(), MET, MET]);
    let case = |name: &str, whole: &Tree, expected: &str| tree(name, &sketch, whole, expected);
    vec![
        case("leaf-12-lower-unsure", &at_y(&upper), "23 15 65535"),
        case("leaf-12-freed-by-lower-y", &at_y(&on_x(&upper, &upper)), "23 22 65535"),
        case("leaf-11-lower-unsure", &at_n(&lower), "23 7 65535"),
        case("leaf-11-lower-sure-on-one-branch", &at_n(&on_x(&MET, &lower)), "23 22 65535"),
    ]
}

/// A has no prompt and some defaults; it selects T, whose dependency is n. The
/// nodes n, m, y are 0, 1, 2, and X is node 3.
fn owing(defaults: &[[u16; 3]]) -> Sketch {
    book(|s| {
        s.symbol(0, "A", 0, 2);
        s.symbol(1, "T", 2, 0);
        s.symbol(0, "X", 2, 2);
        s.node(1, 2, 0);
        s.selects.push([0, 1, 2]);
        s.defaults.extend(defaults);
    })
}

/// Leaves of 13, on A at y in the last branch of a split.
fn defaults() -> Vec<Named> {
    let case = |name: &str, defaults: &[[u16; 3]], expected: &str| {
        let leaf = split(0, &[MET, Tree::Leaf(13, 0)]);
        tree(name, &owing(defaults), &leaf, expected)
    };
    let open = "23 11 65535";
    vec![
        case("default-none-is-n", &[], KEPT),
        case("default-stops-at-sure-condition", &[[0, 0, 2], [0, 2, 2]], KEPT),
        case("default-unsure-condition-goes-on", &[[0, 0, 3], [0, 2, 2]], open),
        case("default-condition-n-reads-no-value", &[[0, 2, 0]], KEPT),
        case("default-condition-m-is-sure", &[[0, 1, 1], [0, 2, 2]], KEPT),
        case("default-value-unsure", &[[0, 3, 2]], open),
        case("default-sure-y-at-the-end", &[[0, 0, 3], [0, 2, 3]], open),
        case("default-of-another-symbol", &[[2, 2, 2]], KEPT),
    ]
}

/// Leaves of 13 on A at n, which a sure default y would close.
fn fall_through() -> Vec<Named> {
    let case = |name: &str, defaults: &[[u16; 3]], expected: &str| {
        let leaf = split(0, &[Tree::Leaf(13, 0), Tree::Leaf(13, 0)]);
        tree(name, &owing(defaults), &leaf, expected)
    };
    let mut prompted = owing(&[]);
    prompted.symbols[0].prompt = 3;
    let at_y = split(0, &[MET, Tree::Leaf(13, 0)]);
    vec![
        tree("leaf-13-prompt-unsure", &prompted, &at_y, "23 11 65535"),
        case("default-falls-through-where-unsure", &[[0, 2, 3]], "23 7 65535"),
        case("default-falls-through-two-unsure", &[[0, 2, 3], [0, 2, 3]], "23 7 65535"),
        case("default-never-falls-through-a-sure-one", &[[0, 2, 3], [0, 2, 1]], "23 11 65535"),
        case("default-m-owed-by-a-boolean", &[[0, 1, 1], [0, 2, 3]], KEPT),
    ]
}

/// A split on B in the first branch of a split on A says nothing in the second.
fn sets_taken_back() -> Vec<Named> {
    let sketch = book(|s| {
        s.symbol(0, "A", 2, 2);
        s.symbol(0, "T", 2, 3);
        s.symbol(0, "B", 2, 2);
        s.node(1, 2, 0);
        s.selects.push([0, 1, 2]);
    });
    let on_b = split(2, &[MET, MET]);
    let both = split(0, &[on_b, MET]);
    vec![tree("set-taken-back-on-other-branch", &sketch, &both, "23 18 65535")]
}

/// Leaves of 15 and 17. A selects B; C is in the choice with B, or alone.
fn choices() -> Vec<Named> {
    let chosen = |mandatory: u8, prompt: u16| {
        book(|s| {
            s.symbol(0, "A", 2, 2);
            s.symbol(1, "B", 2, 0);
            s.symbol(1, "C", 2, 2);
            s.selects.push([0, 1, 2]);
            s.choice(1, mandatory, prompt, &[1, 2]);
        })
    };
    let one = Tree::Leaf(15, 0);
    let none = Tree::Leaf(17, 0);
    let under = |b: usize, leaf: &Tree| {
        let mut branches = vec![MET, MET, MET];
        branches[b] = split(2, &[leaf.clone(), leaf.clone(), leaf.clone()]);
        split(0, &[MET, split(1, &branches)])
    };
    let first = |n: &Tree| split(1, &[split(2, &[n.clone(), MET, MET]), MET, MET]);
    vec![
        tree("leaf-15-y-and-n", &chosen(0, 2), &split(1, &[one.clone(), MET, MET]), "23 7 65535"),
        tree("leaf-15-both-unsplit", &chosen(0, 2), &one, "23 4 65535"),
        tree("leaf-15-at-n-is-open", &chosen(0, 2), &under(0, &one), "23 17 65535"),
        tree("leaf-17-closed-then-open", &chosen(1, 2), &first(&none), "23 14 65535"),
        tree("leaf-17-prompt-n", &chosen(1, 0), &first(&none), "23 10 65535"),
        tree("leaf-17-member-unsplit", &chosen(1, 2), &split(1, &[none, MET, MET]), "23 7 65535"),
    ]
}

/// Leaves of 15 that close. A selects B, whose dependency is n; both stand in a
/// choice, C too where there are three.
fn one_of_a_choice() -> Vec<Named> {
    let chosen = |members: &[u16]| {
        book(|s| {
            s.symbol(0, "A", 2, 2);
            s.symbol(1, "B", 2, 0);
            s.symbol(1, "C", 2, 2);
            s.selects.push([0, 1, 2]);
            s.choice(1, 0, 1, members);
        })
    };
    let (lower, one) = (Tree::Leaf(11, 1), Tree::Leaf(15, 0));
    let at_y =
        |n: &Tree, m: &Tree| split(0, &[MET, split(1, &[n.clone(), m.clone(), one.clone()])]);
    let two = chosen(&[0, 1]);
    vec![
        tree("leaf-15-closed-on-two-y", &two, &at_y(&lower, &lower), KEPT),
        tree("leaf-15-closed-on-y-and-m", &two, &at_y(&lower, &one), KEPT),
        tree("leaf-15-open-on-y-and-n", &two, &at_y(&one, &one), "23 14 65535"),
        tree("leaf-15-third-member-unsplit", &chosen(&[2, 1, 0]), &at_y(&lower, &one), KEPT),
        tree("leaf-15-member-not-in-it", &chosen(&[2, 1]), &at_y(&lower, &one), "23 18 65535"),
    ]
}

/// Leaves of 18. A selects T; M is the modules symbol where declared.
fn modules() -> Vec<Named> {
    let with = |modules: u16| {
        book(|s| {
            s.symbol(1, "A", 2, 2);
            s.symbol(1, "T", 2, 1);
            s.symbol(0, "M", 2, 2);
            s.selects.push([0, 1, 1]);
            s.modules = modules;
        })
    };
    let leaf = Tree::Leaf(18, 0);
    let at = |leaf: &Tree| split(2, &[split(0, &[MET, leaf.clone(), MET]), MET]);
    let boolean = Tree::Leaf(18, 2);
    let narrowed = book(|s| {
        s.symbol(1, "A", 2, 2);
        s.symbol(1, "T", 2, 0);
        s.symbol(0, "M", 2, 2);
        let a = s.node(1, 0, 0);
        let m = s.text_node(b"m");
        let at_m = s.node(8, a, m);
        s.selects.push([0, 1, at_m]);
        s.modules = 2;
    });
    vec![
        tree("leaf-18-closed", &with(2), &at(&leaf), KEPT),
        tree("leaf-18-none-declared-at-m", &with(65535), &at(&leaf), "23 14 65535"),
        tree("leaf-18-on-a-boolean", &with(2), &at(&boolean), "23 14 65535"),
        tree(
            "leaf-18-modules-unsplit",
            &with(2),
            &split(0, &[MET, leaf.clone(), MET]),
            "23 11 65535",
        ),
        tree("leaf-18-place-unsplit", &with(2), &split(2, &[leaf, MET]), "23 7 65535"),
        tree("modules-split-at-n-does-not-narrow", &narrowed, &split(2, &[MET, MET]), "23 7 65535"),
    ]
}

/// One pick for each field, separate where two hold the same symbol.
fn picks() -> Vec<Named> {
    let clash = book(|s| {
        s.symbol(0, "A", 2, 2);
        s.symbol(0, "B", 2, 0);
        let a = s.node(1, 0, 0);
        let not_a = s.node(5, a, 0);
        s.selects.push([0, 1, not_a]);
    });
    let same = book(|s| {
        s.symbol(0, "A", 2, 2);
        s.symbol(0, "B", 2, 2);
        let a = s.node(1, 0, 0);
        s.symbols[1].dependency = a;
        s.selects.push([0, 1, a]);
    });
    let itself = book(|s| {
        s.symbol(0, "A", 0, 0);
        s.selects.push([0, 0, 2]);
    });
    let split_a = split(0, &[MET, MET]);
    vec![
        tree("one-symbol-in-two-fields-two-picks", &clash, &MET, "23 4 65535"),
        tree("one-symbol-in-two-fields-split", &clash, &split_a, KEPT),
        tree("one-node-in-two-fields-two-picks", &same, &MET, "23 4 65535"),
        tree("one-node-in-two-fields-split", &same, &split_a, KEPT),
        tree("own-value-and-selector-two-picks", &itself, &Tree::Leaf(11, 0), "23 4 65535"),
    ]
}

/// A select whose target's dependency is the node that `add` gives.
fn depending(kind: u8, add: impl Fn(&mut Sketch) -> u16) -> Sketch {
    book(|s| {
        s.symbol(1, "A", 2, 2);
        s.symbol(1, "B", 2, 2);
        s.symbol(kind, "X", 2, 2);
        let dependency = add(s);
        s.symbols[1].dependency = dependency;
        s.selects.push([0, 1, 2]);
    })
}

/// Sets of operations.
fn dependencies() -> Vec<Named> {
    let either = |s: &mut Sketch| {
        let x = s.node(1, 2, 0);
        let not = s.node(5, x, 0);
        s.node(7, x, not)
    };
    let boolean = depending(0, either);
    let tristate = depending(1, either);
    let half = depending(1, |s| {
        let x = s.node(1, 2, 0);
        s.node(7, x, 1)
    });
    let string = depending(2, |s| {
        let x = s.node(1, 2, 0);
        s.node(5, x, 0)
    });
    let low = split(0, &[MET, MET, MET]);
    vec![
        tree("x-or-not-x-unsplit", &boolean, &MET, "23 4 65535"),
        tree("x-or-not-x-split", &boolean, &split(2, &[MET, MET]), KEPT),
        tree("x-or-not-x-split-tristate", &tristate, &split(2, &[MET, MET, MET]), "23 11 65535"),
        tree("x-or-m-is-never-n", &half, &low, "23 15 65535"),
        tree("string-symbol-is-n-so-not-is-y", &string, &MET, KEPT),
    ]
}

/// Sets of equalities.
fn equalities() -> Vec<Named> {
    let with = |kind: u8, op: u8, text: &'static [u8]| {
        depending(kind, move |s| {
            let x = s.node(1, 2, 0);
            let text = s.text_node(text);
            s.node(op, x, text)
        })
    };
    let itself = |kind: u8| {
        depending(kind, |s| {
            let x = s.node(1, 2, 0);
            s.node(8, x, x)
        })
    };
    let (open, split_x) = ("23 4 65535", split(2, &[MET, MET]));
    vec![
        tree("symbol-equal-itself-unsplit", &itself(0), &MET, open),
        tree("symbol-equal-itself-split", &itself(0), &split_x, KEPT),
        tree("string-symbol-equal-itself", &itself(2), &MET, open),
        tree("string-symbol-not-equal", &with(2, 9, b"x"), &MET, open),
        tree("int-symbol-differs-from-y", &with(3, 9, b"y"), &MET, open),
        tree("boolean-never-m-by-spelling", &with(0, 9, b"m"), &MET, KEPT),
        tree("tristate-may-be-m-by-spelling", &with(1, 9, b"m"), &MET, open),
        tree("boolean-never-a-number", &with(0, 9, b"2"), &MET, KEPT),
    ]
}

/// Sets of equalities of constants, texts and numbers.
fn constant_equalities() -> Vec<Named> {
    let constants = |left: u16, text: &'static [u8]| {
        depending(0, move |s| {
            let text = s.text_node(text);
            s.node(8, left, text)
        })
    };
    let numbers = depending(0, |s| {
        let (int, text) = (s.int(-5), s.text_node(b"-5"));
        s.node(8, int, text)
    });
    let both = depending(0, |s| {
        let (int, hex) = (s.int(5), s.hex(5));
        s.node(8, int, hex)
    });
    let open = "23 4 65535";
    vec![
        tree("text-y-equals-constant-y-in-sets", &constants(2, b"y"), &MET, KEPT),
        tree("text-n-differs-from-constant-y", &constants(2, b"n"), &MET, open),
        tree("int-equals-its-text-in-sets", &numbers, &MET, KEPT),
        tree("int-differs-from-hex-in-sets", &both, &MET, open),
    ]
}

/// Forty selects on one target: picks must not be enumerated one by one.
fn many_selects() -> Vec<Named> {
    let sketch = book(|s| {
        s.symbol(0, "A", 2, 2);
        s.symbol(1, "B", 0, 0);
        s.symbol(1, "X", 2, 2);
        let x = s.node(1, 2, 0);
        s.selects.push([0, 1, 2]);
        s.selects.extend([[2, 1, x]; 40]);
        s.defaults.extend([[1, x, x]; 40]);
    });
    let leaf = |rule: u8| {
        let n = Tree::Leaf(rule, 1);
        split(0, &[MET, split(1, &[n.clone(), n.clone(), n])])
    };
    vec![
        tree("forty-selects-leaf-11", &sketch, &leaf(11), "23 22 65535"),
        tree("forty-selects-leaf-13", &sketch, &leaf(13), "23 22 65535"),
    ]
}

/// Complete clearances: accepted, and open where a table leaves the select
/// unmet.
fn complete() -> Vec<Named> {
    let whole = |name: &str, sketch: &Sketch, expected: &str| {
        let finding = complete_clearance(&sketch.bytes(), 0).unwrap_or_default();
        finding_case(name, sketch, &finding, expected)
    };
    let worked = super::worked::w();
    let never = book(|s| {
        s.symbol(1, "A", 0, 2);
        s.symbol(1, "B", 2, 0);
        s.selects.push([0, 1, 2]);
    });
    let modules = book(|s| {
        s.symbol(1, "A", 2, 2);
        s.symbol(0, "M", 0, 2);
        s.symbol(1, "B", 2, 1);
        s.selects.push([0, 2, 1]);
        s.choice(1, 1, 2, &[0, 2]);
        s.modules = 1;
    });
    vec![
        whole("complete-clearance-of-w", &worked, "23 49 65535"),
        whole("complete-clearance-of-a-promptless-selector", &never, KEPT),
        whole("complete-clearance-with-modules-and-choice", &modules, KEPT),
    ]
}
