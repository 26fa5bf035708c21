//! Records of words: a good one, and copies of it damaged in each way of 11, or over size, or of another frame.

use super::{HUGE, MOST, ONES, words};
use calls::Words;

const PTR: [u32; 5] = [0, 2, 2, 5, 6];
const NUMBERS: [u32; 6] = [0, 1, 1, 2, 3, 0];
const MASKS: [u64; 6] = [
    0x8000_0000_0000_0009,
    0x8000_0000_0000_0001,
    2,
    4,
    0x80,
    ONES,
];

/// Four rows of 200 columns, the second empty, the last column 199: 72 ones.
pub fn good() -> Words {
    words(4, 200, &PTR, &NUMBERS, &MASKS)
}

/// The good record with pointers that fall.
pub fn falling() -> Words {
    with_pointers(4, &[0, 2, 1, 5, 6])
}

pub fn all() -> Vec<Words> {
    let groups = [
        frames(),
        totals(),
        pointer_lists(),
        rows_met(),
        numbers(),
        masks(),
        lists_unequal(),
        empty(),
    ];
    groups.concat()
}

fn framed(nrows: usize, ncols: usize) -> Words {
    Words {
        nrows,
        ncols,
        ..good()
    }
}

/// 1 by rows and columns; wider frames, which are good; 11 where a bit or a word lies at or past the column count, and where rows
/// have no pointers.
fn frames() -> Vec<Words> {
    let frames = [
        (4, 200),
        (4, 201),
        (4, MOST),
        (4, MOST + 1),
        (4, HUGE),
        (MOST, 200),
        (MOST + 1, 200),
        (HUGE, 200),
        (4, 199),
        (4, 192),
        (4, 128),
        (4, 0),
    ];
    frames.map(|(nrows, ncols)| framed(nrows, ncols)).to_vec()
}

/// 11 by the total; 1 before it; 11 before the 8 of another frame.
fn totals() -> Vec<Words> {
    let totals = [
        (200, 71),
        (200, 73),
        (200, 0),
        (200, HUGE),
        (MOST + 1, 0),
        (300, 0),
    ];
    totals
        .map(|(ncols, total)| Words {
            structural_nnz: total,
            ..framed(4, ncols)
        })
        .to_vec()
}

fn with_pointers(nrows: usize, ptr: &[u32]) -> Words {
    words(nrows, 200, ptr, &NUMBERS, &MASKS)
}

/// 11 by the pointers: none, one too few or too many for the rows (with fewer and more rows they are good); the first not 0; the
/// last below and above the count; falls, a pointer far past the count.
fn pointer_lists() -> Vec<Words> {
    let lists: [(usize, &[u32]); 12] = [
        (4, &[]),
        (4, &[0, 2, 5, 6]),
        (4, &[0, 2, 2, 5, 6, 6]),
        (3, &[0, 2, 5, 6]),
        (5, &[0, 2, 2, 5, 6, 6]),
        (4, &[1, 2, 2, 5, 6]),
        (4, &[0, 2, 2, 5, 5]),
        (4, &[0, 2, 2, 5, 7]),
        (4, &[0, 2, 1, 5, 6]),
        (4, &[0, 9, 9, 9, 6]),
        (4, &[0, 2, 2, 7, 6]),
        (4, &[0, 2, u32::MAX, 5, 6]),
    ];
    lists.map(|(nrows, ptr)| with_pointers(nrows, ptr)).to_vec()
}

/// Two words of one number, or a number that falls, are good in different rows only; the last one is good.
fn rows_met() -> Vec<Words> {
    [[0, 3, 3, 5, 6], [0, 2, 2, 6, 6], [0, 2, 5, 6, 6]]
        .map(|ptr| with_pointers(4, &ptr))
        .to_vec()
}

/// 11 by the word numbers: equal, swapped, falling in a later row, past the last word, far past it; a number too few, one too
/// many.
fn numbers() -> Vec<Words> {
    let lists: [&[u32]; 7] = [
        &[0, 0, 1, 2, 3, 0],
        &[1, 0, 1, 2, 3, 0],
        &[0, 1, 2, 1, 3, 0],
        &[0, 1, 1, 2, 4, 0],
        &[0, 1, 1, 2, 3, u32::MAX],
        &[0, 1, 1, 2, 3],
        &[0, 1, 1, 2, 3, 0, 1],
    ];
    lists
        .map(|numbers| words(4, 200, &PTR, numbers, &MASKS))
        .to_vec()
}

/// One mask changed, each with the total of its bits: a bit more, which is good; empty masks first, in the middle and last; a bit
/// at the column count and at the word's end. Then the bit more without its total.
fn masks() -> Vec<Words> {
    let changes = [
        (4, 0xc0),
        (0, 0),
        (3, 0),
        (5, 0),
        (4, 0x100),
        (4, 0x8000_0000_0000_0000),
    ];
    let mut all = changes
        .map(|(place, mask)| {
            let mut masks = MASKS;
            masks[place] = mask;
            words(4, 200, &PTR, &NUMBERS, &masks)
        })
        .to_vec();
    let mut uncounted = all[0].clone();
    uncounted.structural_nnz -= 1;
    all.push(uncounted);
    all
}

/// 11 by lists of unequal length, or both of another length than the last pointer says; the last one is good.
fn lists_unequal() -> Vec<Words> {
    let five = [0, 2, 2, 5, 5];
    vec![
        words(4, 200, &PTR, &NUMBERS, &MASKS[..5]),
        words(4, 200, &five, &NUMBERS[..5], &MASKS),
        words(4, 200, &five, &NUMBERS, &MASKS[..5]),
        words(4, 200, &PTR, &NUMBERS[..5], &MASKS[..5]),
        words(4, 200, &five, &NUMBERS[..5], &MASKS[..5]),
    ]
}

/// Records without rows, columns or words, which are good; with a total; with no pointer at all.
fn empty() -> Vec<Words> {
    let frame = |nrows, ncols| words(nrows, ncols, &vec![0; nrows + 1], &[], &[]);
    let mut counted = frame(4, 200);
    counted.structural_nnz = 1;
    vec![
        frame(0, 0),
        frame(0, 200),
        frame(4, 0),
        frame(4, 200),
        counted,
        words(0, 0, &[], &[], &[]),
    ]
}
