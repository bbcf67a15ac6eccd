//! The reader on the sheets of document 01 and on one sheet for each refusal.

use super::{literal, Sheet};

/// As document 01 prints sheet B.
const SHEET_B: [u8; 39] = [
    2, 0, 0, 0, 1, 0, 0, 0, 2, 0, 0, 0, 1, 0, 0, 0, 32, 0, 0, 0, 36, 0, 0, 0, 37, 0, 0, 0, 39, 0,
    0, 0, 0x01, 0x00, 0x00, 0x00, 0xFF, 0x01, 0x02,
];

/// Joined by hand, so that the reader is not tried on what the writer believes.
fn joined(words: [u32; 8], ends: &[u32], literals: &[u8], objectives: &[u8]) -> Vec<u8> {
    let mut bytes = Vec::new();
    for word in words.iter().chain(ends) {
        bytes.extend(word.to_le_bytes());
    }
    [&bytes, literals, objectives].concat()
}

fn bytes_and_sheets() -> [(Vec<u8>, Sheet); 6] {
    let a = joined(
        [3, 2, 3, 4, 32, 40, 44, 47],
        &[2, 4],
        &[0xFF, 0xFE, 0xFE, 0xFD],
        &[1, 2, 3],
    );
    let c = joined([2, 0, 1, 0, 32, 32, 32, 33], &[], &[], &[1]);
    let d = joined([1, 0, 0, 0, 32, 32, 32, 32], &[], &[], &[]);
    let e = joined([3, 1, 2, 1, 32, 36, 37, 39], &[1], &[0xFF], &[1, 2]);
    let f = joined([1, 1, 0, 0, 32, 36, 36, 36], &[0], &[], &[]);
    [
        (a, Sheet::of(3, &[&[-1, -2], &[-2, -3]], &[1, 2, 3])),
        (SHEET_B.to_vec(), Sheet::of(2, &[&[-1]], &[1, 2])),
        (c, Sheet::of(2, &[], &[1])),
        (d, Sheet::of(1, &[], &[])),
        (e, Sheet::of(3, &[&[-1]], &[1, 2])),
        (f, Sheet::of(1, &[&[]], &[])),
    ]
}

#[test]
fn sheets_a_to_f_are_read() {
    for (bytes, sheet) in bytes_and_sheets() {
        assert_eq!(Sheet::read(&bytes), Ok(sheet));
    }
}

#[test]
fn sheets_a_to_f_are_written() {
    for (bytes, sheet) in bytes_and_sheets() {
        assert_eq!(sheet.write(), bytes);
    }
}

#[test]
fn sheet_a_has_47_bytes_and_its_sizes() {
    let (bytes, sheet) = &bytes_and_sheets()[0];
    assert_eq!(bytes.len(), 47);
    assert_eq!(sheet.sizes(), [3, 2, 3]);
}

#[test]
fn refused_10_under_32_bytes() {
    assert_eq!(Sheet::read(&SHEET_B[..31]), Err(10));
    assert_eq!(Sheet::read(&[]), Err(10));
}

#[test]
fn refused_11_each_size_above_its_limit_and_no_atom() {
    for (word, value) in [(0, 0), (0, 65), (1, 1025), (2, 65), (3, 8193)] {
        let mut words = [2, 1, 2, 1, 32, 36, 37, 39];
        words[word] = value;
        let bytes = joined(words, &[1], &[0xFF], &[1, 2]);
        assert_eq!(Sheet::read(&bytes), Err(11), "word {word} is {value}");
    }
}

#[test]
fn refused_12_each_offset_and_the_length() {
    for word in 4..8 {
        let mut bytes = SHEET_B;
        bytes[4 * word] += 1;
        assert_eq!(Sheet::read(&bytes), Err(12), "word {word}");
    }
    assert_eq!(Sheet::read(&SHEET_B[..38]), Err(12));
    assert_eq!(Sheet::read(&[&SHEET_B[..], &[1]].concat()), Err(12));
}

#[test]
fn refused_13_falling_ends_wrong_last_and_literals_without_clause() {
    let three = |ends: [u32; 3]| joined([1, 3, 0, 2, 32, 44, 46, 46], &ends, &[1, 1], &[]);
    assert!(Sheet::read(&three([1, 1, 2])).is_ok());
    assert_eq!(Sheet::read(&three([2, 1, 2])), Err(13));
    assert_eq!(Sheet::read(&three([3, 2, 2])), Err(13));
    assert_eq!(Sheet::read(&three([1, 1, 1])), Err(13));
    assert_eq!(Sheet::read(&three([1, 2, 3])), Err(13));
    let no_clause = joined([1, 0, 0, 1, 32, 32, 33, 33], &[], &[1], &[]);
    assert_eq!(Sheet::read(&no_clause), Err(13));
}

#[test]
fn refused_14_clause_bytes_that_are_no_literals() {
    for byte in [0, 3, 127, 128, 129, 253] {
        let mut bytes = SHEET_B;
        bytes[36] = byte;
        assert_eq!(Sheet::read(&bytes), Err(14), "byte {byte}");
    }
}

#[test]
fn refused_15_objective_bytes_that_are_no_literals_or_stand_twice() {
    for byte in [0, 3, 128, 253, 1] {
        let mut bytes = SHEET_B;
        bytes[38] = byte;
        assert_eq!(Sheet::read(&bytes), Err(15), "byte {byte}");
    }
}

#[test]
fn complement_may_stand_beside_an_objective() {
    let mut bytes = SHEET_B;
    bytes[38] = 0xFF;
    assert_eq!(Sheet::read(&bytes), Ok(Sheet::of(2, &[&[-1]], &[1, -1])));
}

#[test]
fn bytes_1_to_n_and_256_minus_n_to_255_are_literals() {
    for n in 1..=64u32 {
        for byte in 0..=255u8 {
            let number = u32::from(byte);
            let expected = (1..=n).contains(&number) || (256 - n..=255).contains(&number);
            assert_eq!(literal(byte, n).is_some(), expected, "n {n}, byte {byte}");
        }
    }
}

#[test]
fn the_longest_sheet_has_12_384_bytes() {
    let longest = Sheet {
        n: 64,
        clauses: vec![vec![-64; 8]; 1024],
        objectives: (1..=64).collect(),
    };
    let bytes = longest.write();
    assert_eq!(bytes.len(), 12_384);
    assert_eq!(Sheet::read(&bytes), Ok(longest));
}
