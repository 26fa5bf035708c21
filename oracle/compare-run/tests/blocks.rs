//! Document 01's worked plot of blocks and the sums of its products, asked of all three judges; and the shrinking of blocks.

mod common;

use calls::{Blocks, Call, Csr, bits};
use common::all_say;
use compare_run::blocks::{Block, blocks_of, listed};
use compare_run::restricted::room;
use compare_run::shrink::smallest;
use judges::ours;

/// 4 by 4 with (0,0) and (0,3), width 3: fraction 0.5.
#[test]
fn a_block_and_a_tail() {
    let c = Csr {
        nrows: 4,
        ncols: 4,
        row_ptr: vec![0, 2, 2, 2, 2],
        col_idx: vec![0, 3],
        values: vec![1.0, 2.0],
    };
    let mut values = vec![0; 18];
    (values[0], values[9]) = (bits(1.0), bits(2.0));
    let lists = [vec![0, 2, 2], vec![0, 1], values];
    let build = Call::DenseBlockFromCsr32(c.clone(), false, room([3, 2, 18]));
    all_say(&build, 0, &[4, 4, 2, 2, 18, 2, 12], &lists);
    let b = blocks_of(ours::judge, &c, false).expect("a good plot list");
    all_say(&Call::DenseBlockCheck(b.clone()), 0, &[], &[]);
    let half = Call::DenseBlockFastBlockFraction(b);
    all_say(&half, 0, &[bits(0.5)], &[]);
    let six = Call::DenseBlockFromCsr32(c, true, room([2, 1, 36]));
    let mut values = vec![0; 36];
    (values[0], values[3]) = (bits(1.0), bits(2.0));
    let lists = [vec![0, 1], vec![0], values];
    all_say(&six, 0, &[4, 4, 1, 1, 36, 2, 16], &lists);
}

/// Half an ulp twice after 1.0: a full block and a block of a partial row add their sum, a column tail each number.
#[test]
fn sums_of_blocks() {
    let half = f64::EPSILON / 2.0;
    for (six, w) in [(false, 3), (true, 6)] {
        let blocks = [
            Block::new(0, six, &[1.0]),
            Block::new(1, six, &[half, half]),
        ];
        let more = 1.0 + 2.0 * half;
        for (nrows, ncols, sum) in [
            (w, 2 * w, more),
            (w, w + 2, 1.0),
            (1, 2 * w, more),
            (1, w + 2, more),
        ] {
            let b = listed((nrows, ncols), six, &[blocks.to_vec()]);
            let mut y = vec![0; nrows];
            y[0] = bits(sum);
            let call = Call::DenseBlockApply(b, vec![1.0; ncols], vec![9.0; nrows]);
            all_say(&call, 0, &[], &[y]);
        }
    }
}

#[test]
fn figures() {
    all_say(
        &Call::DenseBlockBlockFill(2, 12),
        0,
        &[bits(2.0 / 12.0)],
        &[],
    );
    all_say(&Call::DenseBlockBlockFill(0, 0), 0, &[0], &[]);
    let ratio = Call::DenseBlockValuePaddingRatio(18, 2);
    all_say(&ratio, 0, &[bits(9.0)], &[]);
    all_say(&Call::DenseBlockMetadataBytes(2, 2), 0, &[20], &[]);
    all_say(&Call::DenseBlockStorageBytes(2, 2, 18), 0, &[164], &[]);
    all_say(&Call::DenseBlockStorageBytes(1, 2, 72), 0, &[592], &[]);
}

/// Blocks shrink to the one that matters and stay good.
#[test]
fn blocks_shrink() {
    let block = |col| Block::new(col, false, &[1.0, 2.0, 3.0, 4.0]);
    let rows = [
        vec![block(0), block(2)],
        vec![block(1)],
        vec![],
        vec![block(3)],
    ];
    let good = |b: &Blocks| model::judge(&Call::DenseBlockCheck(b.clone())).number == 0;
    let wanted = |b: &Blocks| b.col_idx.iter().any(|&col| col >= 1);
    let fails = |call: &Call| {
        matches!(call, Call::DenseBlockApply(b, x, y)
            if good(b) && wanted(b) && (x.len(), y.len()) == (b.ncols, b.nrows))
    };
    let b = listed((12, 12), false, &rows);
    let call = Call::DenseBlockApply(b, vec![0.5; 12], vec![9.0; 12]);
    let Call::DenseBlockApply(small, ..) = smallest(&call, &fails) else {
        panic!("another call");
    };
    assert_eq!((small.nrows, small.ncols, small.col_idx), (1, 4, vec![1]));
}
