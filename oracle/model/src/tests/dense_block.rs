//! Blocks: the build, the check, the product, the figures, the refusals.

use super::faults::{
    Fault, Left, STORED_OVER, blocks_faults, csr_faults, fault, fault_told, in_order,
    short_blocks_faults, shorten, within,
};
use super::{accepted, accepted_with, csr, csr_room, f, good_blocks, good_csr};
use crate::judge;
use calls::Call::*;
use calls::{Blocks, Csr, CsrRoom, bits};

const INF: f64 = f64::INFINITY;

fn blocks(frame: (usize, usize), six: bool, row_ptr: &[u32], columns: &[u32]) -> Blocks {
    let slots = if six { 36 } else { 9 };
    Blocks {
        nrows: frame.0,
        ncols: frame.1,
        six,
        row_ptr: row_ptr.to_vec(),
        col_idx: columns.to_vec(),
        values: vec![0.0; slots * columns.len()],
    }
}

/// Both widths with the block rows of each.
fn block_rows(nrows: usize) -> [(bool, usize); 2] {
    [(false, nrows.div_ceil(3)), (true, nrows.div_ceil(6))]
}

/// Document 01's worked plot.
#[test]
fn a_block_and_a_tail() {
    let list = csr((4, 4), &[0, 2, 2, 2, 2], &[(0, 1.0), (3, 2.0)]);
    let outcome = judge(&DenseBlockFromCsr32(list, false, csr_room([3, 2, 18])));
    assert_eq!(outcome.result, [4, 4, 2, 2, 18, 2, 12]);
    let mut values = [0; 18];
    (values[0], values[9]) = (f(1.0), f(2.0));
    assert_eq!(outcome.lists, [vec![0, 2, 2], vec![0, 1], values.to_vec()]);
    let made = blocks((4, 4), false, &[0, 2, 2], &[0, 1]);
    accepted(DenseBlockFastBlockFraction(made), [f(0.5)]);
}

/// The places of one block: block column, row in it, column in it, value.
type Place = (usize, usize, usize, f64);

/// Builds the first block row of a list into lists one place too long and compares columns, values and the last two counts.
fn builds_to(list: Csr, six: bool, columns: &[u64], places: &[Place], counts: [u64; 2]) {
    let (w, n) = (if six { 6 } else { 3 }, columns.len());
    let mut values = vec![0; n * w * w + 1];
    for &(block, row, col, value) in places {
        values[(block * w + row) * w + col] = bits(value);
    }
    let room = csr_room([3, n + 1, n * w * w + 1]);
    let (nrows, ncols) = (list.nrows as u64, list.ncols as u64);
    let outcome = judge(&DenseBlockFromCsr32(list, six, room));
    let slots = (n * w * w) as u64;
    let result = [nrows, ncols, 1, n as u64, slots, counts[0], counts[1]];
    assert_eq!((outcome.number, outcome.result), (0, result.to_vec()));
    let columns: Vec<u64> = columns.iter().copied().chain([0]).collect();
    let pointers = vec![0, n as u64, 0];
    assert_eq!(outcome.lists, [pointers, columns, values]);
}

#[test]
fn blocks_rise_and_hold_their_rows_one_after_another() {
    let entries = [(7, 1.0), (0, 2.0), (5, 3.0), (6, 4.0), (1, 5.0)];
    let list = csr((3, 8), &[0, 2, 3, 5], &entries);
    let three = [
        (0, 0, 0, 2.0),
        (0, 2, 1, 5.0),
        (1, 1, 2, 3.0),
        (2, 0, 1, 1.0),
        (2, 2, 0, 4.0),
    ];
    builds_to(list.clone(), false, &[0, 1, 2], &three, [5, 9 + 9 + 6]);
    let six = [
        (0, 0, 0, 2.0),
        (0, 1, 5, 3.0),
        (0, 2, 1, 5.0),
        (1, 0, 1, 1.0),
        (1, 2, 0, 4.0),
    ];
    builds_to(list, true, &[0, 1], &six, [5, 3 * 6 + 3 * 2]);
}

/// A block without an entry isn't stored, a block row without one has equal pointers.
#[test]
fn blocks_without_an_entry() {
    let list = csr((8, 9), &[0, 1, 1, 1, 1, 1, 1, 2, 2], &[(8, 1.0), (4, 2.0)]);
    let room = csr_room([4, 2, 18]);
    let mut values = [0; 18];
    (values[2], values[10]) = (f(1.0), f(2.0));
    let result = [8, 9, 3, 2, 18, 2, 9 + 6];
    let call = DenseBlockFromCsr32(list, false, room);
    accepted_with(call, result, [&[0, 1, 1, 2], &[2, 1], &values]);
    for (nrows, ncols) in [(0, 0), (0, 7), (7, 0), (7, 7)] {
        for (six, block_rows) in block_rows(nrows) {
            let list = csr((nrows, ncols), &vec![0; nrows + 1], &[]);
            let call = DenseBlockFromCsr32(list, six, csr_room([block_rows + 1, 0, 0]));
            let result = [nrows, ncols, block_rows, 0, 0, 0, 0].map(|n| n as u64);
            accepted_with(call, result, [&vec![0; block_rows + 1], &[], &[]]);
        }
    }
}

fn one_row(entries: &[(u32, f64)]) -> Csr {
    csr((1, 3), &[0, entries.len() as u32], entries)
}

/// Zeros and cancelling copies are places with an entry; a block of them alone is stored.
#[test]
fn zeros_are_entries() {
    builds_to(one_row(&[(1, 0.0)]), false, &[0], &[], [1, 3]);
    builds_to(one_row(&[(1, -0.0), (2, -0.0)]), true, &[0], &[], [2, 3]);
    builds_to(one_row(&[(1, 1.0), (1, -1.0)]), false, &[0], &[], [1, 3]);
    let back = [(1, 1.0), (1, -1.0), (1, -0.0), (0, 2.0)];
    builds_to(one_row(&back), false, &[0], &[(0, 0, 0, 2.0)], [2, 3]);
}

#[test]
fn copies_add_in_stored_order() {
    let e = f64::EPSILON / 2.0;
    for six in [false, true] {
        let sum = |entries: &[(u32, f64)], value: f64| {
            builds_to(one_row(entries), six, &[0], &[(0, 0, 2, value)], [1, 3]);
        };
        sum(&[(2, 1.0), (2, e), (2, e)], 1.0);
        sum(&[(2, e), (2, e), (2, 1.0)], 1.0 + 2.0 * e);
        sum(&[(2, 1e300), (2, -1e300), (2, 1.0)], 1.0);
        sum(&[(2, 1e300), (2, 1.0), (2, -1e300)], 0.0);
        // Merged values may be infinite, and stay so.
        let (most, least) = (f64::MAX, f64::MIN);
        sum(&[(2, most), (2, most)], INF);
        sum(&[(2, least), (2, least), (2, most)], -INF);
    }
}

type FromCsr = (Csr, bool, CsrRoom);

#[test]
fn refusals_of_the_build() {
    // 2 rows of 70 columns: blocks 0, 1, 21 of width 3 and 0, 10 of width 6.
    for (six, needed) in [(false, [2, 3, 27]), (true, [2, 2, 72])] {
        let mut faults = within(csr_faults(), |input: &mut FromCsr| &mut input.0);
        for place in 0..3 {
            let mut lengths = needed;
            lengths[place] -= 1;
            faults.push(fault(13, move |input: &mut FromCsr| {
                input.2 = csr_room(lengths)
            }));
        }
        faults.push(fault(13, |input: &mut FromCsr| input.2 = csr_room([0; 3])));
        let left = Left::Zeros(|input: &FromCsr| {
            let room = &input.2;
            vec![room.row_ptr.len(), room.col_idx.len(), room.values.len()]
        });
        let good = (good_csr(), six, csr_room(needed));
        let call = |(c, six, room)| DenseBlockFromCsr32(c, six, room);
        in_order(&good, &faults, call, left);
    }
}

#[test]
fn check() {
    in_order(
        &good_blocks(),
        &blocks_faults(),
        DenseBlockCheck,
        Left::Nothing,
    );
    // The length of the values is no matter of 1.
    let long = [fault(12, |b: &mut Blocks| {
        b.values = vec![0.0; STORED_OVER]
    })];
    in_order(&good_blocks(), &long, DenseBlockCheck, Left::Nothing);
}

#[test]
fn empty_shapes() {
    for (nrows, ncols) in [(0, 0), (0, 70), (4, 0), (4, 70)] {
        for (six, block_rows) in block_rows(nrows) {
            let none = blocks((nrows, ncols), six, &vec![0; block_rows + 1], &[]);
            let faults: [Fault<Blocks>; 3] = [
                fault(12, |b: &mut Blocks| b.values.push(0.0)),
                fault(12, |b: &mut Blocks| b.row_ptr.push(0)),
                fault(12, |b: &mut Blocks| b.row_ptr.clear()),
            ];
            in_order(&none, &faults, DenseBlockCheck, Left::Nothing);
            accepted(DenseBlockFastBlockFraction(none), [0]);
        }
    }
}

/// 12 judges no value: a NaN, an infinite one, a zero, another than 0.0 outside the frame.
#[test]
fn any_values_are_good() {
    let mut b = good_blocks();
    for (place, value) in [f64::NAN, INF, -INF, -0.0, 5e-324].into_iter().enumerate() {
        b.values[place] = value;
        b.values[26 - place] = value;
    }
    accepted(DenseBlockCheck(b), []);
}

#[test]
fn block_columns_rise_within_a_row_only() {
    let two = blocks((6, 6), false, &[0, 1, 2], &[1, 0]);
    accepted(DenseBlockCheck(two.clone()), []);
    let faults = [
        fault(12, |b: &mut Blocks| b.row_ptr = vec![0, 2, 2]),
        fault(12, |b: &mut Blocks| b.row_ptr = vec![0, 0, 2]),
    ];
    in_order(&two, &faults, DenseBlockCheck, Left::Nothing);
    // The last block column holds one column, and there is none past it.
    for (six, ncols) in [(false, 7), (true, 13)] {
        let tail = blocks((1, ncols), six, &[0, 1], &[2]);
        let faults = [fault(12, |b: &mut Blocks| b.ncols -= 1)];
        in_order(&tail, &faults, DenseBlockCheck, Left::Nothing);
    }
}

/// The first row of the product.
fn first_row(b: Blocks, x: &[f64], sum: f64) {
    let nrows = b.nrows;
    let outcome = judge(&DenseBlockApply(b, x.to_vec(), vec![9.0; nrows]));
    assert_eq!((outcome.number, outcome.lists[0].len()), (0, nrows));
    assert_eq!(outcome.lists[0][0], bits(sum));
}

/// Two blocks: 1.0 at the first place of one, then `next` in the first row of the other, cut to the frame.
fn two_blocks(frame: (usize, usize), six: bool, next: &[f64]) -> Blocks {
    let mut b = blocks(frame, six, &[0, 2], &[0, 1]);
    let second = b.values.len() / 2;
    b.values[0] = 1.0;
    b.values[second..second + next.len()].copy_from_slice(next);
    b
}

/// On its own e + e is 2e, which 1.0 takes; one after the other 1.0 takes neither.
#[test]
fn a_full_block_adds_one_number_and_a_tail_its_terms() {
    let e = f64::EPSILON / 2.0;
    for (six, w) in [(false, 3), (true, 6)] {
        let ones = |n: usize| vec![1.0; n];
        let pair = [e, e];
        let full = two_blocks((w, 2 * w), six, &pair);
        first_row(full, &ones(2 * w), 1.0 + 2.0 * e);
        let tail = two_blocks((w, w + 2), six, &pair);
        first_row(tail, &ones(w + 2), 1.0);
        for ncols in [2 * w, w + 2] {
            let partial = two_blocks((w - 1, ncols), six, &pair);
            first_row(partial, &ones(ncols), 1.0 + 2.0 * e);
        }
        let (most, least) = (f64::MAX, f64::MIN);
        let mut full = two_blocks((w, 2 * w), six, &[most, least]);
        full.values[0] = most;
        first_row(full.clone(), &ones(2 * w), most);
        (full.nrows, full.ncols) = (w, w + 2);
        first_row(full.clone(), &ones(w + 2), INF);
        (full.nrows, full.ncols) = (1, w + 2);
        first_row(full, &ones(w + 2), most);
    }
}

/// A tail that comes first is added to 0.0 term by term, which is its sum from 0.0.
#[test]
fn a_block_sums_from_left_to_right() {
    let e = f64::EPSILON / 2.0;
    let one_block = |frame: (usize, usize), six: bool, row: &[f64]| {
        let mut b = blocks(frame, six, &[0, 1], &[0]);
        b.values[..row.len()].copy_from_slice(row);
        b
    };
    let more = 1.0 + 2.0 * e;
    for nrows in [3, 2] {
        first_row(one_block((nrows, 3), false, &[1.0, e, e]), &[1.0; 3], 1.0);
        first_row(one_block((nrows, 3), false, &[e, e, 1.0]), &[1.0; 3], more);
    }
    for nrows in [6, 5] {
        let split = [1.0, 0.0, 0.0, e, e, 0.0];
        first_row(one_block((nrows, 6), true, &split), &[1.0; 6], 1.0);
        let paired = [e, e, 0.0, 0.0, 0.0, 1.0];
        first_row(one_block((nrows, 6), true, &paired), &[1.0; 6], more);
        let last = [1.0, -1.0, e, e, 1.0, 0.0];
        first_row(one_block((nrows, 6), true, &last), &[1.0; 6], more);
    }
}

#[test]
fn rows_of_every_block() {
    // Rows 0 to 2 are in the full block row, 3 and 4 in the partial one.
    let x = [1.0, 2.0, 3.0, 4.0, 5.0, 6.0, 7.0];
    let call = DenseBlockApply(good_blocks(), x.to_vec(), vec![9.0; 5]);
    // Values 1 to 9, 10 to 18 (the first column of each row inside), 19 to 27.
    let rows = [
        (1.0 + 4.0 + 9.0) + 70.0,
        (4.0 + 10.0 + 18.0) + 91.0,
        (7.0 + 16.0 + 27.0) + 112.0,
        76.0 + 100.0 + 126.0,
        88.0 + 115.0 + 144.0,
    ];
    accepted_with(call, [], [&rows.map(f)]);
    let none = blocks((2, 3), true, &[0, 0], &[]);
    let call = DenseBlockApply(none, vec![f64::NAN; 3], vec![9.0; 2]);
    accepted_with(call, [], [&[0, 0]]);
    let call = DenseBlockApply(blocks((0, 0), false, &[0], &[]), vec![], vec![]);
    accepted_with(call, [], [&[]]);
}

/// Places of a stored block without an entry are 0.0 and multiply x; places outside the frame don't.
#[test]
fn places_without_an_entry() {
    for wild in [f64::NAN, INF, -INF] {
        for (frame, tail) in [((3, 6), 5), ((3, 5), 4), ((2, 5), 4)] {
            let mut x = vec![1.0; frame.1];
            x[tail] = wild;
            first_row(two_blocks(frame, false, &[2.0]), &x, f64::NAN);
        }
    }
    let mut outside = two_blocks((3, 5), false, &[2.0]);
    outside.values[11] = f64::NAN;
    first_row(outside.clone(), &[1.0; 5], 3.0);
    outside.nrows = 2;
    outside.values[15] = INF;
    first_row(outside, &[1.0; 5], 3.0);
}

#[test]
fn zeros_and_rounding_of_products() {
    for (frame, six) in [
        ((3, 3), false),
        ((1, 2), false),
        ((3, 2), false),
        ((6, 6), true),
    ] {
        let mut b = blocks(frame, six, &[0, 1], &[0]);
        first_row(b.clone(), &vec![-0.0; frame.1], 0.0);
        // Each product is rounded before it is added.
        let near = 1.0 + f64::EPSILON;
        let far = -(1.0 + 2.0 * f64::EPSILON);
        (b.values[0], b.values[1]) = (far, near);
        let mut x = vec![0.0; frame.1];
        (x[0], x[1]) = (1.0, near);
        first_row(b, &x, 0.0);
    }
}

#[test]
fn refusals_of_the_product() {
    type Input = (Blocks, Vec<f64>, Vec<f64>);
    let mut faults = within(short_blocks_faults(), |input: &mut Input| &mut input.0);
    faults.push(fault_told((6, 7, 6), |input: &mut Input| {
        shorten(&mut input.1)
    }));
    faults.push(fault_told((6, 5, 6), |input: &mut Input| input.2.push(9.0)));
    let good = (good_blocks(), vec![1.0; 7], vec![9.0; 5]);
    let left = Left::Untouched(|input: &Input| vec![f(9.0); input.2.len()]);
    in_order(&good, &faults, |(b, x, y)| DenseBlockApply(b, x, y), left);
}

#[test]
fn fractions() {
    // Of three blocks of 5 by 7 one lies wholly in the frame: one is a tail, one in the partial row.
    let good = good_blocks();
    accepted(DenseBlockFastBlockFraction(good.clone()), [f(1.0 / 3.0)]);
    for (nrows, ncols, whole) in [(6, 9, 3), (6, 8, 2), (5, 9, 2), (4, 7, 1)] {
        let mut b = good.clone();
        (b.nrows, b.ncols) = (nrows, ncols);
        let fraction = f64::from(whole) / 3.0;
        accepted(DenseBlockFastBlockFraction(b), [f(fraction)]);
    }
    let tail = blocks((6, 5), true, &[0, 1], &[0]);
    accepted(DenseBlockFastBlockFraction(tail), [0]);
    let whole = blocks((6, 6), true, &[0, 1], &[0]);
    accepted(DenseBlockFastBlockFraction(whole), [f(1.0)]);
    in_order(
        &good,
        &short_blocks_faults(),
        DenseBlockFastBlockFraction,
        Left::Nothing,
    );
}

#[test]
fn figures() {
    let (max, all) = (usize::MAX, u64::MAX);
    accepted(DenseBlockBlockFill(5, 15), [f(5.0 / 15.0)]);
    accepted(DenseBlockBlockFill(5, 0), [0]);
    accepted(DenseBlockBlockFill(0, 5), [0]);
    accepted(
        DenseBlockBlockFill(max, 1),
        [f(18_446_744_073_709_551_616.0)],
    );
    accepted(DenseBlockValuePaddingRatio(18, 2), [f(9.0)]);
    accepted(DenseBlockValuePaddingRatio(18, 0), [0]);
    accepted(
        DenseBlockValuePaddingRatio((1 << 53) + 1, 1),
        [f(9_007_199_254_740_992.0)],
    );
    accepted(DenseBlockMetadataBytes(2, 3), [12 + 12]);
    accepted(DenseBlockMetadataBytes(0, 0), [4]);
    accepted(DenseBlockMetadataBytes(max, 0), [all]);
    accepted(DenseBlockMetadataBytes(0, max), [all]);
    accepted(DenseBlockMetadataBytes(max / 4, 0), [all]);
    accepted(DenseBlockMetadataBytes(max / 4 - 1, 0), [all - 3]);
    accepted(DenseBlockStorageBytes(2, 3, 27), [24 + 216]);
    accepted(DenseBlockStorageBytes(0, 0, max), [all]);
    accepted(DenseBlockStorageBytes(0, 0, max / 8), [all - 3]);
    accepted(DenseBlockStorageBytes(0, 1, max / 8), [all]);
    accepted(DenseBlockStorageBytes(max, max, 0), [all]);
}

#[test]
fn the_edge_of_the_domain() {
    let places = 1 << 20;
    let list = Csr {
        nrows: places,
        ncols: places,
        row_ptr: (0..=places).map(|row| (row == places).into()).collect(),
        col_idx: vec![places as u32 - 1],
        values: vec![1.0],
    };
    // 2^20 = 3 × 349,525 + 1 = 6 × 174,762 + 4.
    for (six, block_rows, valid) in [(false, 349_526, 1), (true, 174_763, 16)] {
        let slots = if six { 36 } else { 9 };
        let room = csr_room([block_rows + 1, 1, slots]);
        let made = judge(&DenseBlockFromCsr32(list.clone(), six, room));
        let result = [places, places, block_rows, 1, slots, 1, valid];
        assert_eq!(made.result, result.map(|n| n as u64));
        assert_eq!(made.lists[1], [block_rows as u64 - 1]);
        let mut b = blocks((places, places), six, &vec![0; block_rows + 1], &[]);
        accepted(DenseBlockCheck(b.clone()), []);
        b.ncols += 1;
        assert_eq!(judge(&DenseBlockCheck(b)).number, 1);
    }
}
