use super::shrink;
use crate::sheet::Sheet;

fn large_sheet() -> Sheet {
    Sheet {
        n: 60,
        clauses: vec![vec![7, -60, 59]; 300],
        objectives: (10..=50).collect(),
    }
}

#[test]
fn length_alone_leaves_zeros() {
    assert_eq!(shrink(&[9; 300], &|bytes| bytes.len() >= 5), [0; 5]);
}

#[test]
fn one_needed_byte_remains() {
    let bytes: Vec<u8> = (0..=255).collect();
    assert_eq!(shrink(&bytes, &|bytes| bytes.contains(&200)), [200]);
}

#[test]
fn numbers_come_down_to_what_is_needed() {
    let word_1 = |bytes: &[u8]| u32::from_le_bytes(bytes[4..8].try_into().unwrap());
    let above = |bytes: &[u8]| bytes.len() == 32 && word_1(bytes) >= 1 << 16;
    let shrunk = shrink(&[255; 32], &above);
    assert_eq!(word_1(&shrunk), 1 << 16);
    assert_eq!(shrunk.iter().filter(|&&byte| byte > 0).count(), 1);
}

#[test]
fn accepted_sheet_comes_down_to_the_smallest() {
    let shrunk = shrink(&large_sheet().write(), &|bytes| Sheet::read(bytes).is_ok());
    assert_eq!(Sheet::read(&shrunk).unwrap().sizes(), [1, 0, 0]);
    assert_eq!(shrunk.len(), 32);
}

#[test]
fn faulty_clause_byte_in_a_large_sheet_remains_alone() {
    let mut bytes = large_sheet().write();
    bytes[32 + 4 * 300 + 450] = 128;
    let needed = |bytes: &[u8]| Sheet::read(bytes) == Err(14) && bytes.contains(&128);
    let shrunk = shrink(&bytes, &needed);
    let alone = [1, 1, 0, 1, 32, 36, 37, 37, 1]
        .map(u32::to_le_bytes)
        .concat();
    assert_eq!(shrunk, [&alone[..], &[128]].concat());
}

#[test]
fn fall_in_a_large_sheet_remains_alone() {
    let mut bytes = large_sheet().write();
    bytes[32 + 4 * 100..32 + 4 * 101].copy_from_slice(&900u32.to_le_bytes());
    let shrunk = shrink(&bytes, &|bytes| Sheet::read(bytes) == Err(13));
    assert!(shrunk.len() <= 36, "{} bytes", shrunk.len());
    assert_eq!(Sheet::read(&shrunk), Err(13));
}

#[test]
fn what_is_needed_twice_is_kept_twice() {
    let twice = |bytes: &[u8]| bytes.iter().filter(|&&byte| byte == 7).count() >= 2;
    assert_eq!(shrink(&[1, 7, 2, 3, 7, 7, 9], &twice), [7, 7]);
}
