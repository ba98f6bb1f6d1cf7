//! Brute force and spelling, held against statements written apart.

use second::brute;
use second::gen::dice::Dice;
use second::literal::words;
use second::spell::spelled;
use second::table::Entry;

/// On tiny books every table is tried: the check agrees with the literal rules,
/// accepted clearances are sound, the complete one is exact, and the lifted
/// closing agrees with every pick tried one by one.
#[test]
fn brute_force_finds_no_violation() {
    let counts = brute::run(7, 1500);
    assert!(counts.violations.is_empty(), "{:#?}", counts.violations);
    assert_eq!(counts.books, 1500);
    assert!(counts.valid > 1000 && counts.accepted > 2000 && counts.closed > 500);
    assert!(counts.never_unmet > 500 && counts.selects - counts.never_unmet > 300);
}

/// Spelled numbers, extreme ones included.
#[test]
fn spelling_by_hand() {
    let expected: [(Entry, &str); 16] = [
        (Entry::Three(0), "n"),
        (Entry::Three(1), "m"),
        (Entry::Three(2), "y"),
        (Entry::Text(b""), ""),
        (Entry::Text(b"y"), "y"),
        (Entry::Int(0), "0"),
        (Entry::Int(7), "7"),
        (Entry::Int(-5), "-5"),
        (Entry::Int(10), "10"),
        (Entry::Int(i32::MAX), "2147483647"),
        (Entry::Int(i32::MIN), "-2147483648"),
        (Entry::Hex(0), "0x0"),
        (Entry::Hex(5), "0x5"),
        (Entry::Hex(0xab), "0xab"),
        (Entry::Hex(0x8000_0000), "0x80000000"),
        (Entry::Hex(u32::MAX), "0xffffffff"),
    ];
    for (entry, text) in expected {
        assert_eq!(spelled(entry, &mut [0; 11]), text.as_bytes());
    }
}

/// Spelled numbers against the standard library's own writing.
#[test]
fn spelling_of_many_numbers() {
    let mut dice = Dice::new(3, 3);
    for _ in 0..100_000 {
        let bits = (dice.next() >> 32) as u32 >> dice.below(32);
        for entry in [Entry::Int(bits as i32), Entry::Hex(bits)] {
            assert_eq!(spelled(entry, &mut [0; 11]), words(entry));
        }
    }
}
