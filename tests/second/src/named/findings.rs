//! Named cases of findings: heads, rooms, witnesses, and the shape of trees.

use super::rules::book;
use super::worked::w;
use super::*;
use crate::sketch::{clearance, three_table, witness, Tree};

/// All cases of this part.
pub fn all() -> Vec<Named> {
    let mut all = heads();
    all.extend(rooms());
    all.extend(witnesses());
    all.extend(cut_trees());
    all.extend(leaf_shapes());
    all.extend(split_shapes());
    all.extend(earliest());
    all.extend(depths());
    all.extend(long_findings());
    all
}

/// A split.
pub fn split(symbol: u16, branches: &[Tree]) -> Tree {
    Tree::Split(symbol, branches.to_vec())
}

/// A leaf of mark 20 for select 0.
pub const MET: Tree = Tree::Leaf(20, 0);

/// W with TICK's dependency y, so that mark 20 closes everywhere.
pub fn free() -> Sketch {
    let mut sketch = w();
    sketch.symbols[1].dependency = 1;
    sketch
}

/// A finding of bytes on W with TICK's dependency y.
fn bytes(name: &str, finding: &[u8], expected: &str) -> Named {
    finding_case(name, &free(), finding, expected)
}

/// A clearance on W with TICK's dependency y.
fn tree(name: &str, tree: &Tree, expected: &str) -> Named {
    finding_case(name, &free(), &clearance(0, tree), expected)
}

/// Heads and lengths: 21, with nothing touched.
fn heads() -> Vec<Named> {
    let refused = "21 0 65535 eeeeee/dddddd";
    let mut bare = free();
    bare.selects.clear();
    let leaf = [0, 0, 1, 0, 1, 20, 0, 0];
    let mut bad = free();
    bad.modules = 7;
    vec![
        bytes("finding-of-no-bytes", &[], refused),
        bytes("finding-of-3-bytes", &[0, 0, 1], refused),
        bytes("finding-select-at-the-count", &[1, 0, 1, 0, 1, 20, 1, 0], refused),
        bytes("finding-select-high-byte", &[0, 1, 1, 0, 1, 20, 0, 1], refused),
        bytes("finding-kind-2", &[0, 0, 2, 0, 1, 20, 0, 0], refused),
        bytes("finding-byte-3-not-0", &[0, 0, 1, 1, 1, 20, 0, 0], refused),
        finding_case("finding-without-selects", &bare, &leaf, refused),
        finding_case("finding-bad-head-bad-modules", &bad, &[], "4 7 65535 eeeeee/dddddd"),
    ]
}

/// Rooms: 7 before 8, both after 21, and what they hold.
fn rooms() -> Vec<Named> {
    let leaf = [0, 0, 1, 0, 1, 20, 0, 0];
    let case = |name: &str, nodes: usize, symbols: usize, expected: &str| {
        bytes(name, &leaf, expected).rooms(nodes, symbols)
    };
    let open =
        finding_case("open-leaf-leaves-zeros", &w(), &leaf, "23 4 65535 000000eeee/000000dd");
    let table = three_table(&[2, 2, 0]);
    let unmet = finding_case(
        "witness-leaves-zeros-in-longer-rooms",
        &w(),
        &witness(0, &table),
        "0 65535 65535 000000ee/000000dddd",
    );
    let cut = bytes("finding-bad-head-before-short-rooms", &[0, 0, 1], "21 0 65535 /");
    vec![
        case("both-rooms-short", 2, 2, "7 3 65535 eeee/dddd"),
        case("symbol-room-short-by-one", 3, 2, "8 3 65535 eeeeee/dddd"),
        case("symbol-room-of-no-bytes", 4, 0, "8 3 65535 eeeeeeee/"),
        case("rooms-longer-with-bytes", 5, 4, "0 65535 65535 000000eeee/000000dd"),
        open.rooms(5, 4),
        unmet.rooms(4, 5),
        cut.rooms(0, 0),
    ]
}

/// Witnesses: the table's own starts and total count from byte 4.
fn witnesses() -> Vec<Named> {
    let good = three_table(&[2, 2, 0]);
    let with = |name: &str, changes: &[(usize, u8)], expected: &str| {
        let mut table = good.clone();
        for &(at, byte) in changes {
            table[at] = byte;
        }
        finding_case(name, &w(), &witness(0, &table), expected)
    };
    let zeros = |number: &str| format!("{number} 000000/000000");
    let shifted = [(6, 20), (10, 21), (14, 22)];
    let left = [&good[..], &[0]].concat();
    let left = witness(0, &left);
    let two = book(|s| {
        s.symbol(1, "A", 2, 2);
        s.symbol(1, "B", 2, 1);
        s.selects.extend([[0, 1, 2], [0, 1, 1]]);
    });
    let table = three_table(&[2, 2]);
    let m = |select: u16| witness(select, &table);
    vec![
        with("witness-starts-count-from-byte-4", &shifted, &zeros("6 0 65535")),
        with("witness-total-counts-from-byte-4", &[(0, 23)], &zeros("5 0 65535")),
        with("witness-count-wrong", &[(2, 4)], &zeros("5 0 65535")),
        with("witness-below-lower", &[(17, 0)], &zeros("11 1 65535")),
        with("witness-m-on-a-boolean", &[(18, 1)], &zeros("10 2 65535")),
        finding_case("witness-bytes-left", &w(), &left, &zeros("5 0 65535")),
        finding_case("witness-of-no-table", &w(), &[0, 0, 0, 0], &zeros("5 0 65535")),
        finding_case("witness-y-over-dependency-m", &two, &m(0), "0 65535 65535"),
        finding_case("witness-m-over-dependency-m", &two, &m(1), "24 1 65535"),
    ]
}

/// Trees that are cut, and bytes left over.
fn cut_trees() -> Vec<Named> {
    let zeros = |number: &str| format!("{number} 65535 000000/000000");
    let closed = [0, 0, 1, 0, 1, 20, 0, 0];
    let left = [&closed[..], &[1, 20, 0, 0]].concat();
    let one_left = [&closed[..], &[0]].concat();
    vec![
        bytes("clearance-of-4-bytes", &[0, 0, 1, 0], &zeros("22 4")),
        bytes("leaf-cut", &closed[..7], &zeros("22 4")),
        bytes("leaf-of-one-byte", &closed[..5], &zeros("22 4")),
        bytes("split-cut", &[0, 0, 1, 0, 0, 2], &zeros("22 4")),
        bytes("split-without-branches", &[0, 0, 1, 0, 0, 2, 0], &zeros("22 7")),
        bytes("second-branch-missing", &[0, 0, 1, 0, 0, 2, 0, 1, 20, 0, 0], &zeros("22 11")),
        bytes("second-branch-cut", &[0, 0, 1, 0, 0, 2, 0, 1, 20, 0, 0, 1, 20, 0], &zeros("22 11")),
        bytes("left-over-bytes-after-tree", &left, &zeros("22 8")),
        bytes("left-over-byte-after-tree", &one_left, &zeros("22 8")),
        bytes("tree-byte-2", &[0, 0, 1, 0, 2, 20, 0, 0], &zeros("22 4")),
    ]
}

/// Leaves whose rule or place is malformed, and leaves that never close.
fn leaf_shapes() -> Vec<Named> {
    let sketch = book(|s| {
        s.symbol(0, "A", 2, 2);
        s.symbol(2, "TEXT", 2, 2);
        s.symbol(0, "B", 2, 2);
        s.selects.extend([[0, 2, 2], [2, 0, 2]]);
        s.choice(0, 0, 2, &[]);
    });
    let leaf = |name: &str, rule: u8, place: u16, expected: &str| {
        let finding = clearance(0, &Tree::Leaf(rule, place));
        finding_case(name, &sketch, &finding, expected)
    };
    vec![
        leaf("leaf-20-of-another-select", 20, 1, "22 4 65535"),
        leaf("leaf-20-of-this-select", 20, 0, "0 65535 65535"),
        leaf("leaf-10", 10, 0, "22 4 65535"),
        leaf("leaf-14", 14, 1, "22 4 65535"),
        leaf("leaf-16", 16, 0, "22 4 65535"),
        leaf("leaf-19", 19, 0, "22 4 65535"),
        leaf("leaf-0", 0, 0, "22 4 65535"),
        leaf("leaf-11-on-a-string", 11, 1, "22 4 65535"),
        leaf("leaf-13-past-the-symbols", 13, 3, "22 4 65535"),
        leaf("leaf-18-on-a-string", 18, 1, "22 4 65535"),
        leaf("leaf-15-past-the-choices", 15, 1, "22 4 65535"),
        leaf("leaf-17-past-the-choices", 17, 1, "22 4 65535"),
        leaf("leaf-place-high-byte", 11, 256, "22 4 65535"),
        leaf("leaf-17-on-an-optional-choice", 17, 0, "23 4 65535"),
        leaf("leaf-15-on-an-empty-choice", 15, 0, "23 4 65535"),
        leaf("leaf-18-without-modules", 18, 0, "23 4 65535"),
    ]
}

/// Splits: what may be split, and which marks are on the path.
fn split_shapes() -> Vec<Named> {
    let sketch = book(|s| {
        s.symbol(0, "A", 2, 2);
        s.symbol(1, "T", 2, 2);
        s.symbol(2, "TEXT", 2, 2);
        s.selects.push([0, 1, 2]);
    });
    let case = |name: &str, tree: &Tree, expected: &str| {
        finding_case(name, &sketch, &clearance(0, tree), expected)
    };
    let on_t = split(1, &[MET, MET, MET]);
    let on_a = split(0, &[MET, MET]);
    let kept = "0 65535 65535 000000/000000";
    vec![
        case("split-on-a-string", &split(2, &[MET, MET]), "22 4 65535"),
        case("split-past-the-symbols", &split(3, &[MET, MET]), "22 4 65535"),
        case("split-symbol-high-byte", &split(256, &[MET, MET]), "22 4 65535"),
        case("tristate-with-two-branches", &split(1, &[MET, MET]), "22 15 65535"),
        case("boolean-with-three-branches", &split(0, &[MET, MET, MET]), "22 15 65535"),
        case("split-repeated-on-the-path", &split(0, &[on_a.clone(), MET]), "22 7 65535"),
        case("split-repeated-on-the-last-branch", &split(0, &[MET, on_a.clone()]), "22 11 65535"),
        case("mark-taken-back-on-other-branch", &split(0, &[on_t.clone(), on_t]), kept),
        case("mark-taken-back-twice", &split(1, &[on_a.clone(), on_a.clone(), on_a]), kept),
    ]
}

/// The earliest bad node decides.
fn earliest() -> Vec<Named> {
    let open = Tree::Leaf(11, 0);
    let bad = Tree::Leaf(10, 0);
    let pair = |one: &Tree, other: &Tree| split(2, &[one.clone(), other.clone()]);
    let mut open_and_left = clearance(0, &open);
    open_and_left.push(1);
    vec![
        tree("earlier-open-leaf-before-later-malformed", &pair(&open, &bad), "23 7 65535"),
        tree("earlier-malformed-before-later-open-leaf", &pair(&bad, &open), "22 7 65535"),
        tree("first-leaf-closed-second-open", &pair(&MET, &open), "23 11 65535"),
        bytes("open-leaf-before-left-over-bytes", &open_and_left, "23 4 65535"),
        bytes("open-leaf-before-missing-branch", &[0, 0, 1, 0, 0, 2, 0, 1, 11, 0, 0], "23 7 65535"),
    ]
}

/// A chain of splits down the last branch, in a book of 70 booleans.
fn chain(depth: u16) -> (Sketch, Tree) {
    let mut sketch = Sketch::default();
    sketch.node(0, 2, 0);
    for index in 0..70 {
        sketch.symbol(0, &format!("S{index}"), 0, 0);
    }
    sketch.selects.push([0, 1, 0]);
    let mut tree = MET;
    for symbol in (0..depth).rev() {
        tree = split(symbol, &[MET, tree]);
    }
    (sketch, tree)
}

/// At most 64 splits on a path. Each split and its first branch take 7 bytes.
fn depths() -> Vec<Named> {
    let case = |name: &str, depth: u16, expected: &str| {
        let (sketch, tree) = chain(depth);
        finding_case(name, &sketch, &clearance(0, &tree), expected)
    };
    let (sketch, tree) = chain(64);
    let both = split(69, &[MET, tree.clone()]);
    let wide = split(69, &[chain(63).1, chain(63).1]);
    vec![
        case("sixty-four-splits", 64, "0 65535 65535"),
        case("sixty-fifth-split", 65, "22 452 65535"),
        case("sixty-sixth-split", 66, "22 452 65535"),
        finding_case(
            "sixty-five-splits-another-first",
            &sketch,
            &clearance(0, &both),
            "22 452 65535",
        ),
        finding_case(
            "more-than-64-splits-but-not-on-one-path",
            &sketch,
            &clearance(0, &wide),
            "0 65535 65535",
        ),
    ]
}

/// Findings at and over 65,535 bytes.
fn long_findings() -> Vec<Named> {
    let mut longest = vec![0, 0, 1, 0, 1, 20, 0, 0];
    longest.resize(65535, 0);
    let mut too_long = longest.clone();
    too_long.push(0);
    vec![
        bytes("finding-of-65535-bytes", &longest, "22 8 65535 000000/000000"),
        bytes("finding-of-65536-bytes", &too_long, "21 0 65535 eeeeee/dddddd"),
    ]
}
