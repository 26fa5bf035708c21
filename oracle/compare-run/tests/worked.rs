//! Document 01's worked plots, by its own figures, asked of all three judges; and the shrinking of a call.

mod common;

use calls::{Call, Csr, Mask, Store, StoreRoom, Words, WordsRoom, bits};
use common::all_say;
use compare_run::shrink::smallest;

/// 70 columns, row 65, 3, 3, 64 with 2.0, 1.0, 0.5, 4.0.
fn plot_list() -> Csr {
    Csr {
        nrows: 1,
        ncols: 70,
        row_ptr: vec![0, 4],
        col_idx: vec![65, 3, 3, 64],
        values: vec![2.0, 1.0, 0.5, 4.0],
    }
}

fn words() -> Words {
    Words {
        nrows: 1,
        ncols: 70,
        row_word_ptr: vec![0, 2],
        word_indices: vec![0, 1],
        masks: vec![8, 3],
        structural_nnz: 3,
    }
}

fn store() -> Store {
    Store {
        words: words(),
        row_value_ptr: vec![0, 3],
        values: vec![1.5, 4.0, 2.0],
    }
}

fn room(words: usize, values: usize) -> StoreRoom {
    StoreRoom {
        words: WordsRoom {
            row_word_ptr: vec![9; 2],
            word_indices: vec![9; words],
            masks: vec![9; words],
        },
        row_value_ptr: vec![9; 2],
        values: vec![9.0; values],
    }
}

#[test]
fn the_build_and_packing_of_the_worked_row() {
    let lists = vec![vec![0, 2], vec![0, 1], vec![8, 3]];
    let call = Call::TopologyFromCsr32(plot_list(), room(2, 0).words);
    all_say(&call, 0, &[2, 3], &lists);
    let mut packed = lists;
    packed.push(vec![0, 3]);
    packed.push(vec![bits(1.5), bits(4.0), bits(2.0), 0]);
    let call = Call::MetadataFirstFromCsr32(plot_list(), room(2, 4));
    all_say(&call, 0, &[2, 3], &packed);
}

#[test]
fn ranks_and_selects_of_the_worked_row() {
    for (col, rank) in [(0, 0), (4, 1), (64, 1), (65, 2), (70, 3)] {
        all_say(&Call::TopologyRowRank(words(), 0, col), 0, &[rank], &[]);
    }
    all_say(&Call::TopologyRowRank(words(), 0, 71), 7, &[0], &[]);
    for (ordinal, column) in [(0, 3), (1, 64), (2, 65)] {
        all_say(
            &Call::TopologyRowSelect(words(), 0, ordinal),
            0,
            &[1, column],
            &[],
        );
    }
    all_say(&Call::TopologyRowSelect(words(), 0, 3), 0, &[0, 0], &[]);
    all_say(&Call::TopologyStats(words()), 0, &[1, 70, 3, 2, 32], &[]);
}

#[test]
fn dots_of_the_worked_row() {
    let dot = |mask: [u64; 2]| {
        let active = Mask {
            len: 70,
            words: mask.to_vec(),
        };
        Call::MetadataFirstSparseDotRow(store(), 0, active, vec![1.0; 70])
    };
    all_say(&dot([8, 2]), 0, &[bits(3.5), 3, 2, 1, 2, 2], &[]);
    all_say(&dot([8, 0]), 0, &[bits(1.5), 3, 1, 2, 2, 1], &[]);
}

#[test]
fn the_largest_value_twice_is_refused_before_a_short_list() {
    let c = Csr {
        nrows: 1,
        ncols: 6,
        row_ptr: vec![0, 2],
        col_idx: vec![5, 5],
        values: vec![f64::MAX; 2],
    };
    all_say(&Call::MetadataFirstCheckMerge(c.clone()), 4, &[], &[]);
    let zeros = [vec![0; 2], vec![], vec![], vec![0; 2], vec![]];
    all_say(
        &Call::MetadataFirstFromCsr32(c, room(0, 0)),
        4,
        &[0, 0],
        &zeros,
    );
}

#[test]
fn a_call_shrinks_to_the_one_entry_that_matters() {
    let mut c = plot_list();
    c.nrows = 3;
    c.row_ptr = vec![0, 1, 4, 4];
    let fails = |call: &Call| matches!(call, Call::Csr32Apply(c, ..) if c.col_idx.contains(&64));
    let call = Call::Csr32Apply(c, vec![2.0; 70], vec![7.0; 3]);
    let Call::Csr32Apply(small, x, y) = smallest(&call, &fails) else {
        panic!("another call");
    };
    assert_eq!(small.col_idx, [64]);
    assert!(small.row_ptr.is_empty() && small.values.is_empty() && x.is_empty() && y.is_empty());
}
