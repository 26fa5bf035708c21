//! All inputs of blocks of tiny shapes, and small patterns in every frame of up to 20 rows and columns.

use super::{Block, blocks_of, lengths, listed, width};
use crate::Sink;
use crate::exhaustive::{COUNTS, Share, lists, pairs, patterns};
use crate::make::Judge;
use crate::restricted::room;
use calls::{Blocks, Call, Csr};

const BOTH: [bool; 2] = [false, true];

pub fn all(sink: &mut impl Sink, judge: Judge, share: &mut Share) {
    figures(sink, share);
    small_patterns(sink, judge, share);
    frames(sink, judge, share);
    rooms(sink, judge, share);
    entry_sequences(sink, share);
    raw_blocks(sink, share);
    sums(sink, share);
}

fn figures(sink: &mut impl Sink, share: &mut Share) {
    let parts = [4, 8, 9, 36]
        .map(|n| COUNTS.map(|count| count / n))
        .concat();
    for a in COUNTS.into_iter().chain(4..40) {
        for b in COUNTS.into_iter().chain(4..40) {
            if share.mine() {
                sink.call(&Call::DenseBlockBlockFill(a, b));
                sink.call(&Call::DenseBlockValuePaddingRatio(9 * (a % 99), b));
                sink.call(&Call::DenseBlockValuePaddingRatio(a, b));
            }
        }
    }
    for a in parts.iter().copied().chain(0..20) {
        for b in parts.iter().copied().chain(0..20) {
            if share.mine() {
                sink.call(&Call::DenseBlockMetadataBytes(a, b));
                for slots in [b % 99 * 9, b % 99 * 36, a, b, usize::MAX / 8, usize::MAX] {
                    sink.call(&Call::DenseBlockStorageBytes(a, b, slots));
                }
            }
        }
    }
}

const FINITE_X: [f64; 3] = [0.3, -2.0, 1e308];
const WILD_X: [f64; 3] = [f64::INFINITY, -0.0, f64::NAN];

/// Plot lists of up to 2 rows and 3 columns: their blocks, and the questions to these.
fn small_patterns(sink: &mut impl Sink, judge: Judge, share: &mut Share) {
    for c in patterns(&[1.0, -1.0, -0.0]).filter(|_| share.mine()) {
        for six in BOTH {
            let room = room([2, 1, 36]);
            sink.call(&Call::DenseBlockFromCsr32(c.clone(), six, room));
            let b = blocks_of(judge, &c, six).expect("a good plot list");
            sink.call(&Call::DenseBlockCheck(b.clone()));
            sink.call(&Call::DenseBlockFastBlockFraction(b.clone()));
            for x in [FINITE_X, WILD_X] {
                let (x, y) = (x[..c.ncols].to_vec(), vec![7.0; c.nrows]);
                sink.call(&Call::DenseBlockApply(b.clone(), x, y));
            }
        }
    }
}

/// Whether the place has an entry, in each of the patterns.
const PATTERNS: [fn(usize, usize) -> bool; 6] = [
    |_, _| false,
    |_, _| true,
    |row, col| row == col,
    |row, col| (row + 2 * col) % 5 == 0,
    |row, col| row % 3 == 2 && col % 6 == 5,
    |row, col| row / 3 == col / 3 || col >= 17,
];

/// The plot list of a pattern, unsorted, a place in seven twice.
fn patterned(nrows: usize, ncols: usize, entry: fn(usize, usize) -> bool) -> Csr {
    let mut c = Csr {
        nrows,
        ncols,
        row_ptr: vec![0],
        col_idx: vec![],
        values: vec![],
    };
    for row in 0..nrows {
        for col in (0..ncols).rev().filter(|&col| entry(row, col)) {
            let value = ((7 * row + 3 * col) % 11) as f64 / 8.0 - 0.5;
            let twice = (row + col) % 7 == 0;
            let values = if twice { vec![value, 0.1] } else { vec![value] };
            c.col_idx.extend(vec![col as u32; values.len()]);
            c.values.extend(values);
        }
        c.row_ptr.push(c.col_idx.len() as u32);
    }
    c
}

/// Every frame of up to 20 rows and columns: the patterns' blocks; the product with numbers, and with one place not finite.
fn frames(sink: &mut impl Sink, judge: Judge, share: &mut Share) {
    for (nrows, ncols) in pairs(&COUNTED, &COUNTED).map(|(a, b)| (*a, *b)) {
        for (entry, six) in pairs(&PATTERNS, &BOTH).filter(|_| share.mine()) {
            let c = patterned(nrows, ncols, *entry);
            let b = blocks_of(judge, &c, *six).expect("a good plot list");
            let room = room(lengths(&b));
            sink.call(&Call::DenseBlockFromCsr32(c, *six, room));
            sink.call(&Call::DenseBlockCheck(b.clone()));
            sink.call(&Call::DenseBlockFastBlockFraction(b.clone()));
            let mut x: Vec<f64> = (0..ncols).map(|col| 0.1 + col as f64 / 3.0).collect();
            let y = vec![7.0; nrows];
            sink.call(&Call::DenseBlockApply(b.clone(), x.clone(), y.clone()));
            if let Some(last) = x.last_mut() {
                *last = f64::NAN;
                x[ncols / 2] = f64::NEG_INFINITY;
                sink.call(&Call::DenseBlockApply(b, x, y));
            }
        }
    }
}

const COUNTED: [usize; 21] = [
    0, 1, 2, 3, 4, 5, 6, 7, 8, 9, 10, 11, 12, 13, 14, 15, 16, 17, 18, 19, 20,
];

/// Every list one short, exact and one longer, in all combinations; x and y too.
fn rooms(sink: &mut impl Sink, judge: Judge, share: &mut Share) {
    for (entry, six) in pairs(&PATTERNS[1..], &BOTH) {
        for (nrows, ncols) in [(7, 7), (6, 12), (1, 20), (13, 5)] {
            let c = patterned(nrows, ncols, *entry);
            let b = blocks_of(judge, &c, *six).expect("a good plot list");
            let needed = lengths(&b);
            for number in (0..27).filter(|_| share.mine()) {
                let length = |place: u32, needed: usize| {
                    (needed + number / 3usize.pow(place) % 3).saturating_sub(1)
                };
                let [pointers, columns, values] = needed;
                let room = room([length(0, pointers), length(1, columns), length(2, values)]);
                sink.call(&Call::DenseBlockFromCsr32(c.clone(), *six, room));
                let (x, y) = (vec![0.5; length(0, ncols)], vec![7.0; length(1, nrows)]);
                sink.call(&Call::DenseBlockApply(b.clone(), x, y));
            }
        }
    }
}

/// One row of up to 4 entries in 2 columns, in every order and with every number of copies: one block of six, two of three.
fn entry_sequences(sink: &mut impl Sink, share: &mut Share) {
    let values = [1.0, -1.0, 0.1, -0.0, f64::MAX];
    let entries: Vec<(u32, f64)> = values.iter().flat_map(|&v| [(0, v), (3, v)]).collect();
    for list in lists(&entries, 4).into_iter().filter(|_| share.mine()) {
        let c = Csr {
            nrows: 1,
            ncols: 4,
            row_ptr: vec![0, list.len() as u32],
            col_idx: list.iter().map(|e| e.0).collect(),
            values: list.iter().map(|e| e.1).collect(),
        };
        sink.call(&Call::DenseBlockFromCsr32(
            c.clone(),
            false,
            room([2, 2, 18]),
        ));
        sink.call(&Call::DenseBlockFromCsr32(c, true, room([2, 1, 36])));
    }
}

/// Blocks of any small lists, most of them bad.
fn raw_blocks(sink: &mut impl Sink, share: &mut Share) {
    let pointers = lists(&[0, 1, 2], 3);
    let columns = lists(&[0, 1, 2], 2);
    let frames = lists(&[0, 3, 4, 6, 7], 2);
    for frame in frames.iter().filter(|frame| frame.len() == 2) {
        for (row_ptr, col_idx) in pairs(&pointers, &columns) {
            for six in BOTH.into_iter().filter(|_| share.mine()) {
                let (w, n) = (width(six), col_idx.len());
                let exact = n * w * w;
                for slots in [exact, exact + 1, exact.saturating_sub(1), n * 9, 0] {
                    let b = Blocks {
                        nrows: frame[0],
                        ncols: frame[1],
                        six,
                        row_ptr: row_ptr.clone(),
                        col_idx: col_idx.clone(),
                        values: vec![1.5; slots],
                    };
                    raw_questions(sink, b);
                }
            }
        }
    }
}

fn raw_questions(sink: &mut impl Sink, b: Blocks) {
    let (x, y) = (vec![2.0; b.ncols], vec![7.0; b.nrows]);
    sink.call(&Call::DenseBlockCheck(b.clone()));
    sink.call(&Call::DenseBlockFastBlockFraction(b.clone()));
    sink.call(&Call::DenseBlockApply(b, x, y));
}

/// A number in one block and three in the next, which is full or a tail, in full block rows and in a partial one: the sums show
/// in what order they are added.
fn sums(sink: &mut impl Sink, share: &mut Share) {
    let half = f64::EPSILON / 2.0;
    let numbers = lists(&[1.0, half, -1.0, f64::MAX, -0.0], 4);
    for list in numbers.iter().filter(|list| list.len() == 4) {
        for six in BOTH.into_iter().filter(|_| share.mine()) {
            let w = width(six);
            let rows = [vec![
                Block::new(0, six, &list[..1]),
                Block::new(1, six, &list[1..]),
            ]];
            for (nrows, ncols) in [(w, 2 * w), (w, 2 * w - 1), (w - 1, 2 * w), (1, 2 * w - 1)] {
                let b = listed((nrows, ncols), six, &rows);
                let (x, y) = (vec![1.0; ncols], vec![7.0; nrows]);
                sink.call(&Call::DenseBlockApply(b, x, y));
            }
        }
    }
}
