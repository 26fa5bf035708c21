//! What is expected is written out by hand from document 01; only `judge` is asked.

mod abtm;
mod any_input;
mod below;
mod combine;
mod csr32;
mod dense_block;
mod dot;
mod faults;
mod large;
mod mask;
mod metadata_first;
mod plots;
mod ratios;
mod restricted;
mod topology;
mod words;

use crate::judge;
use calls::{
    Blocks, Call, Csr, CsrRoom, Mask, Outcome, Store, StoreRoom, Tiles, TilesRoom, Words, WordsRoom,
};

/// An accepted call that writes nothing.
fn accepted<const N: usize>(call: Call, result: [u64; N]) {
    accepted_with(call, result, []);
}

/// An accepted call, and the lists after it.
fn accepted_with<const N: usize, const L: usize>(call: Call, result: [u64; N], lists: [&[u64]; L]) {
    let expected = Outcome {
        result: result.into(),
        lists: lists.map(|list| list.to_vec()).into(),
        ..Outcome::default()
    };
    assert_eq!(judge(&call), expected, "{call:?}");
}

fn f(x: f64) -> u64 {
    x.to_bits()
}

fn mask(len: usize, words: &[u64]) -> Mask {
    Mask {
        len,
        words: words.to_vec(),
    }
}

fn csr(frame: (usize, usize), row_ptr: &[u32], entries: &[(u32, f64)]) -> Csr {
    Csr {
        nrows: frame.0,
        ncols: frame.1,
        row_ptr: row_ptr.to_vec(),
        col_idx: entries.iter().map(|entry| entry.0).collect(),
        values: entries.iter().map(|entry| entry.1).collect(),
    }
}

/// Words whose total is right.
fn words(frame: (usize, usize), row_word_ptr: &[u32], words: &[(u32, u64)]) -> Words {
    Words {
        nrows: frame.0,
        ncols: frame.1,
        row_word_ptr: row_word_ptr.to_vec(),
        word_indices: words.iter().map(|word| word.0).collect(),
        masks: words.iter().map(|word| word.1).collect(),
        structural_nnz: words.iter().map(|word| word.1.count_ones() as usize).sum(),
    }
}

/// Lent lists of these lengths that hold something before.
fn words_room(row_word_ptr: usize, word_indices: usize, masks: usize) -> WordsRoom {
    WordsRoom {
        row_word_ptr: vec![9; row_word_ptr],
        word_indices: vec![9; word_indices],
        masks: vec![9; masks],
    }
}

fn store_room(words: WordsRoom, row_value_ptr: usize, values: usize) -> StoreRoom {
    StoreRoom {
        words,
        row_value_ptr: vec![9; row_value_ptr],
        values: vec![9.0; values],
    }
}

/// The plot list of most tests: document 01's first worked row, and a row with one entry.
fn good_csr() -> Csr {
    let entries = [(65, 2.0), (3, 1.0), (3, 0.5), (64, 4.0), (0, 8.0)];
    csr((2, 70), &[0, 4, 5], &entries)
}

/// Its words: columns 3, 64, 65, and column 0.
fn good_words() -> Words {
    words((2, 70), &[0, 2, 3], &[(0, 8), (1, 3), (0, 1)])
}

/// Its store.
fn good_store() -> Store {
    Store {
        words: good_words(),
        row_value_ptr: vec![0, 3, 4],
        values: vec![1.5, 4.0, 2.0, 8.0],
    }
}

/// Tiles of all three kinds: Sparse 3 and Dense 64, 65 in the first row, Bitmap 0, 2 in the second.
fn good_tiles() -> Tiles {
    let mut values = vec![1.5, 4.0, 2.0];
    values.resize(65, 0.0);
    values.extend([8.0, -1.0]);
    Tiles {
        nrows: 2,
        ncols: 70,
        row_tile_ptr: vec![0, 2, 3],
        masks: vec![8, 3, 5],
        value_offsets: vec![0, 1, 65],
        metas: vec![0, 1 + (2 << 30), 1 << 30],
        values,
        matrix_nnz: 5,
    }
}

/// Lent lists of these lengths: pointers, masks, offsets, metas, values.
fn tiles_room(lengths: [usize; 5]) -> TilesRoom {
    let [row_tile_ptr, masks, value_offsets, metas, values] = lengths;
    TilesRoom {
        row_tile_ptr: vec![9; row_tile_ptr],
        masks: vec![9; masks],
        value_offsets: vec![9; value_offsets],
        metas: vec![9; metas],
        values: vec![9.0; values],
    }
}

/// Lent lists of these lengths: pointers, columns, values.
fn csr_room([row_ptr, col_idx, values]: [usize; 3]) -> CsrRoom {
    CsrRoom {
        row_ptr: vec![9; row_ptr],
        col_idx: vec![9; col_idx],
        values: vec![9.0; values],
    }
}

/// Blocks of width 3 in 5 by 7: a full one and a column tail in the first block row, one in the partial second.
fn good_blocks() -> Blocks {
    Blocks {
        nrows: 5,
        ncols: 7,
        six: false,
        row_ptr: vec![0, 2, 3],
        col_idx: vec![0, 2, 1],
        values: (1..=27).map(f64::from).collect(),
    }
}

fn good_mask() -> Mask {
    mask(70, &[1 << 3, 1 << 1])
}
