//! Full plans of several kinds, for the benchmark.

use crate::generate::{Kind, Random, Sheet, legal_of_length};

/// The most bytes that a plan has.
pub const FULL: usize = 4096;

/// Full plans of several kinds.
pub fn plans() -> Vec<(&'static str, Vec<u8>)> {
    vec![
        ("many receives", many_receives()),
        ("large constants", large_constants()),
        ("variables and sums", small_expressions()),
        ("deep nesting", deep_nesting()),
        (
            "random sets",
            legal_of_length(&mut Random::new(7), FULL).bytes,
        ),
    ]
}

fn receive(sheet: &mut Sheet) {
    sheet.begin();
    sheet.message(Some(2), 63, 62, &[3, 2, 1, 0]);
}

pub(crate) fn code(sheet: &mut Sheet, code: u32) {
    sheet.begin();
    sheet.put(Kind::Code, code);
}

pub(crate) fn list(sheet: &mut Sheet, kind: u32, count: u32) {
    code(sheet, kind);
    sheet.put(Kind::ListCount, count);
}

/// A set of variable 4 to an expression of exactly `size` - 2 bytes; large constants if asked.
fn set(sheet: &mut Sheet, size: usize, large: bool) {
    code(sheet, 3);
    sheet.put(Kind::Variable, 4);
    expression(sheet, size - 2, 8, large);
}

/// An expression of `size` bytes: leaves of 6 bytes where large, else of 2, the last of what is left.
fn expression(sheet: &mut Sheet, size: usize, levels: u32, large: bool) {
    let most = |levels: u32| 7 * (1usize << (levels - 1)) - 1;
    let small = |levels: u32| 3 * (1usize << (levels - 1)) - 1;
    if size <= 6 && (large || size < 5 || levels == 1) {
        if size == 2 {
            sheet.put(Kind::Form, 1);
            sheet.put(Kind::Variable, 1);
        } else {
            sheet.put(Kind::Form, 0);
            let bits = if size == 6 { 32 } else { 7 * (size as u32 - 1) };
            sheet.put(Kind::Constant, (((1u64 << bits) - 1) as u32).max(1));
        }
        return;
    }
    sheet.put(Kind::Form, 2 + levels % 4);
    let most = if large {
        most(levels - 1)
    } else {
        small(levels - 1)
    };
    let left = ((size - 1) / 2).min(most);
    expression(sheet, left, levels - 1, large);
    expression(sheet, size - 1 - left, levels - 1, large);
}

/// Sets up to the last byte but one, `count` of them, then the root's fault part.
fn fill(sheet: &mut Sheet, count: usize, large: bool) {
    let end = FULL - 1;
    for at in 0..count {
        let size = (end - sheet.bytes.len()) / (count - at);
        set(sheet, size, large);
    }
    assert_eq!(sheet.bytes.len(), end);
    code(sheet, 0);
}

/// 232 receives in 8 flows, and sets to fill the rest.
fn many_receives() -> Vec<u8> {
    let mut sheet = Sheet::default();
    sheet.header(5, &[0]);
    list(&mut sheet, 8, 13);
    for _ in 0..8 {
        list(&mut sheet, 9, 29);
        for _ in 0..29 {
            receive(&mut sheet);
        }
    }
    fill(&mut sheet, 5, true);
    sheet.bytes
}

/// A receive and five sets of 5-group constants.
fn large_constants() -> Vec<u8> {
    let mut sheet = Sheet::default();
    sheet.header(5, &[0]);
    list(&mut sheet, 8, 6);
    receive(&mut sheet);
    fill(&mut sheet, 5, true);
    sheet.bytes
}

/// A receive and 31 sets of short operands: as many numbers as the bytes allow.
fn small_expressions() -> Vec<u8> {
    let mut sheet = Sheet::default();
    sheet.header(5, &[0]);
    list(&mut sheet, 8, 32);
    receive(&mut sheet);
    fill(&mut sheet, 31, false);
    sheet.bytes
}

/// Chains of picks, repeats, flows and chooses down to depth 16, with a set at the end of each.
fn deep_nesting() -> Vec<u8> {
    let mut sheet = Sheet::default();
    sheet.header(5, &[0]);
    list(&mut sheet, 8, 12);
    receive(&mut sheet);
    for _ in 0..6 {
        // Depths 2 to 15.
        for level in 0..14 {
            match level % 4 {
                0 => {
                    list(&mut sheet, 10, 1);
                    sheet.begin();
                    sheet.message(None, 1, 2, &[0, 1]);
                }
                1 => {
                    code(&mut sheet, 7);
                    expression(&mut sheet, 5, 8, false);
                }
                2 => list(&mut sheet, 9, 1),
                _ => {
                    code(&mut sheet, 6);
                    expression(&mut sheet, 2, 8, false);
                    code(&mut sheet, 0);
                }
            }
        }
        set(&mut sheet, 300, false);
    }
    fill(&mut sheet, 5, true);
    sheet.bytes
}
