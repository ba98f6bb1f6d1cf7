//! The named cases: P1 to P10, the run cases, the printed line and the hard
//! ones, with the numbers that document 01 gives, written by hand.

use second::cases::Case;
use second::named::{self, worked};
use second::{check_finding, check_table, name, Answer};
use std::collections::HashSet;

/// Every named case draws what was written by hand for it.
#[test]
fn every_named_case_holds() {
    let mut wrong = Vec::new();
    for named in named::all() {
        if !named.holds() {
            let line = String::from_utf8_lossy(&named.case.answer()).into_owned();
            wrong.push(format!("{line}  expected {}", named.expected));
        }
    }
    assert!(wrong.is_empty(), "{}", wrong.join("\n"));
}

/// Names of cases differ, and the protocol carries each case unchanged.
#[test]
fn named_cases_pass_through_the_protocol() {
    let cases = named::cases();
    let names: HashSet<&String> = cases.iter().map(|case| &case.name).collect();
    assert_eq!(names.len(), cases.len());
    let mut bytes = Vec::new();
    cases.iter().for_each(|case| case.write(&mut bytes));
    let (read, left) = Case::read_all(&bytes);
    assert_eq!((read, left), (cases, 0));
    let (_, left) = Case::read_all(&bytes[..bytes.len() - 1]);
    assert!(left > 0);
}

/// The bytes of W as document 01 describes them.
fn w_bytes() -> Vec<u8> {
    let mut bytes = vec![95, 0, 255, 255];
    bytes.extend([36, 0, 3, 0, 60, 0, 3, 0, 78, 0, 0, 0, 78, 0, 1, 0]);
    bytes.extend([84, 0, 0, 0, 84, 0, 0, 0, 84, 0, 0, 0, 84, 0, 11, 0]);
    bytes.extend([0, 4, 0, 0, 1, 0, 1, 0]);
    bytes.extend([0, 4, 4, 0, 0, 0, 2, 0]);
    bytes.extend([0, 3, 8, 0, 1, 0, 1, 0]);
    bytes.extend([0, 0, 0, 0, 0, 0, 0, 0, 2, 0, 0, 0, 1, 0, 2, 0, 0, 0]);
    bytes.extend([0, 0, 1, 0, 1, 0]);
    bytes.extend(b"PUSHTICKRTC");
    bytes
}

/// The sketch of W writes those bytes.
#[test]
fn w_is_95_bytes() {
    assert_eq!(w_bytes().len(), 95);
    assert_eq!(worked::w().bytes(), w_bytes());
    assert_eq!(name(&w_bytes(), 1), b"TICK");
}

/// An answer from three numbers.
fn answer(number: u32, place: u32, second: u32) -> Answer {
    Answer { number, place, second }
}

/// P1 to P5 on raw bytes.
#[test]
fn p1_to_p5() {
    let expected = [
        ([2, 2, 0], answer(0, 65535, 65535)),
        ([2, 0, 0], answer(11, 1, 65535)),
        ([0, 2, 0], answer(13, 1, 65535)),
        ([0, 0, 0], answer(0, 65535, 65535)),
        ([1, 0, 0], answer(10, 0, 65535)),
    ];
    for (values, expected) in expected {
        let mut table = vec![19, 0, 3, 0, 0, 1, 16, 0, 0, 1, 17, 0, 0, 1, 18, 0];
        table.extend(values);
        let mut room = [9; 4];
        assert_eq!(check_table(&w_bytes(), &table, &mut room), expected);
        assert_eq!(room, [0, 2, 0, 9]);
    }
}

/// P6 to P10 on raw bytes.
#[test]
fn p6_to_p10() {
    let table = [0, 0, 0, 0, 19, 0, 3, 0, 0, 1, 16, 0, 0, 1, 17, 0, 0, 1, 18, 0];
    let p6 = [&table[..], &[2, 2, 0]].concat();
    let p7 = [&table[..], &[2, 2, 2]].concat();
    let p8 = vec![0, 0, 1, 0, 1, 20, 0, 0];
    let p10 = vec![0, 0, 1, 0, 0, 2, 0, 1, 20, 0, 0, 1, 20, 0, 0];
    let mut free = w_bytes();
    free[36 + 8 + 6] = 1;
    let mut narrow = w_bytes();
    narrow[78 + 4] = 2;
    let expected = [
        (w_bytes(), p6, answer(0, 65535, 65535)),
        (w_bytes(), p7, answer(24, 0, 65535)),
        (w_bytes(), p8.clone(), answer(23, 4, 65535)),
        (free, p8, answer(0, 65535, 65535)),
        (narrow, p10, answer(0, 65535, 65535)),
    ];
    for (model, finding, expected) in expected {
        let (mut nodes, mut symbols) = ([7; 5], [8; 4]);
        let drawn = check_finding(&model, &finding, &mut nodes, &mut symbols);
        assert_eq!(drawn, expected);
        assert_eq!((nodes, symbols), ([0, 0, 0, 7, 7], [0, 0, 0, 8]));
    }
}

/// The printed line for W.
#[test]
fn the_printed_line() {
    let mut input = w_bytes();
    input.extend([19, 0, 3, 0, 0, 1, 16, 0, 0, 1, 17, 0, 0, 1, 18, 0, 2, 0, 0]);
    assert_eq!(second::line(&input), b"11 1 65535 TICK\n");
}
