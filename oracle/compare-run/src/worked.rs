//! The worked plots of document 01 as calls, as far as their lists are short.

use calls::{Call, Csr, Mask, StoreRoom, Words, WordsRoom};

fn words_room(nrows: usize, words: usize) -> WordsRoom {
    WordsRoom {
        row_word_ptr: vec![9; nrows + 1],
        word_indices: vec![9; words],
        masks: vec![9; words],
    }
}

fn store_room(nrows: usize, words: usize, values: usize) -> StoreRoom {
    StoreRoom {
        words: words_room(nrows, words),
        row_value_ptr: vec![9; nrows + 1],
        values: vec![9.0; values],
    }
}

fn one_row(ncols: usize, col_idx: Vec<u32>, values: Vec<f64>) -> Csr {
    Csr {
        nrows: 1,
        ncols,
        row_ptr: vec![0, col_idx.len() as u32],
        col_idx,
        values,
    }
}

fn one_word(mask: u64) -> Words {
    Words {
        nrows: 1,
        ncols: 3,
        row_word_ptr: vec![0, 1],
        word_indices: vec![0],
        masks: vec![mask],
        structural_nnz: mask.count_ones() as usize,
    }
}

pub fn calls() -> Vec<Call> {
    let mut all = seventy_columns();
    all.extend(set_operations());
    let cancelling = one_row(6, vec![5, 5], vec![1.0, -1.0]);
    let overflowing = one_row(6, vec![5, 5], vec![f64::MAX, f64::MAX]);
    for c in [cancelling, overflowing, one_row(6, vec![], vec![])] {
        all.push(Call::TopologyFromCsr32(c.clone(), words_room(1, 1)));
        all.push(Call::MetadataFirstCheckMerge(c.clone()));
        all.push(Call::MetadataFirstFromCsr32(c.clone(), store_room(1, 1, 1)));
        all.push(Call::MetadataFirstFromCsr32(c, store_room(1, 0, 0)));
    }
    all
}

/// 70 columns, row 65, 3, 3, 64 with 2.0, 1.0, 0.5, 4.0.
fn seventy_columns() -> Vec<Call> {
    let c = one_row(70, vec![65, 3, 3, 64], vec![2.0, 1.0, 0.5, 4.0]);
    let words = Words {
        nrows: 1,
        ncols: 70,
        row_word_ptr: vec![0, 2],
        word_indices: vec![0, 1],
        masks: vec![8, 3],
        structural_nnz: 3,
    };
    let mut all = vec![
        Call::TopologyFromCsr32(c.clone(), words_room(1, 2)),
        Call::MetadataFirstFromCsr32(c, store_room(1, 2, 3)),
        Call::TopologyStats(words.clone()),
    ];
    all.extend([0, 4, 64, 65, 70, 71].map(|c| Call::TopologyRowRank(words.clone(), 0, c)));
    all.extend([0, 1, 2, 3].map(|k| Call::TopologyRowSelect(words.clone(), 0, k)));
    all
}

/// Masks 6 and 3.
fn set_operations() -> Vec<Call> {
    let (a, b, room) = (one_word(6), one_word(3), words_room(1, 1));
    let mask = |word| Mask {
        len: 3,
        words: vec![word],
    };
    vec![
        Call::TopologyUnion(a.clone(), b.clone(), room.clone()),
        Call::TopologyIntersection(a.clone(), b.clone(), room.clone()),
        Call::TopologyAndNot(a.clone(), b.clone(), room.clone()),
        Call::TopologyXor(a.clone(), b, room.clone()),
        Call::TopologyXor(a.clone(), a, room),
        Call::MaskUnionAssign(mask(6), mask(3)),
        Call::MaskIntersectAssign(mask(6), mask(3)),
        Call::MaskAndNotAssign(mask(6), mask(3)),
    ]
}
