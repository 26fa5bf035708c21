//! Named cases: fixed calls, each group with a comment that says what it shows. All of them are recorded, and `compare` asks the
//! library them too.

mod below;
mod block_stores;
mod blocks;
mod combine;
mod csr32;
mod demand;
mod generated;
mod local;
mod mask;
mod metadata_first;
mod products;
mod records;
mod restricted;
mod stores;
mod tile_stores;
mod tiles;
mod topology;
mod values;

use calls::{Below, Call, Csr, Mask, Store, StoreRoom, Words, WordsRoom};

const HUGE: usize = usize::MAX;
const ONES: u64 = u64::MAX;
/// The most rows, columns and places of a mask.
const MOST: usize = 1 << 20;
const INF: f64 = f64::INFINITY;
const NAN: f64 = f64::NAN;

/// All named calls of the C interface.
pub fn calls() -> Vec<Call> {
    let groups = [
        mask::calls(),
        mask::long(),
        csr32::calls(),
        products::calls(),
        topology::calls(),
        combine::calls(),
        metadata_first::calls(),
        stores::calls(),
        generated::calls(),
        values::calls(),
        tiles::calls(),
        tile_stores::calls(),
        restricted::calls(),
        local::calls(),
        demand::calls(),
        blocks::calls(),
        block_stores::calls(),
    ];
    groups.concat()
}

/// All named calls of the crates below.
pub fn calls_below() -> Vec<Below> {
    below::calls()
}

fn mask(len: usize, words: &[u64]) -> Mask {
    Mask {
        len,
        words: words.to_vec(),
    }
}

fn csr(nrows: usize, ncols: usize, row_ptr: &[u32], col_idx: &[u32], values: &[f64]) -> Csr {
    Csr {
        nrows,
        ncols,
        row_ptr: row_ptr.to_vec(),
        col_idx: col_idx.to_vec(),
        values: values.to_vec(),
    }
}

/// Words with the total that their masks have.
fn words(nrows: usize, ncols: usize, ptr: &[u32], numbers: &[u32], masks: &[u64]) -> Words {
    Words {
        nrows,
        ncols,
        row_word_ptr: ptr.to_vec(),
        word_indices: numbers.to_vec(),
        masks: masks.to_vec(),
        structural_nnz: masks.iter().map(|m| m.count_ones() as usize).sum(),
    }
}

fn store(words: &Words, row_value_ptr: &[u32], values: &[f64]) -> Store {
    Store {
        words: words.clone(),
        row_value_ptr: row_value_ptr.to_vec(),
        values: values.to_vec(),
    }
}

/// Lent lists of these lengths, which hold something else.
fn words_room(pointers: usize, numbers: usize, masks: usize) -> WordsRoom {
    WordsRoom {
        row_word_ptr: vec![77; pointers],
        word_indices: vec![77; numbers],
        masks: vec![77; masks],
    }
}

fn store_room([p, w, m, value_pointers, values]: [usize; 5]) -> StoreRoom {
    StoreRoom {
        words: words_room(p, w, m),
        row_value_ptr: vec![77; value_pointers],
        values: vec![7.5; values],
    }
}

/// The lengths of lists for so many pointers and words: just long enough, each one place short, each one longer, all longer,
/// none.
fn words_rooms(pointers: usize, n: usize) -> Vec<WordsRoom> {
    let short = n.saturating_sub(1);
    vec![
        words_room(pointers, n, n),
        words_room(pointers - 1, n, n),
        words_room(pointers, short, n),
        words_room(pointers, n, short),
        words_room(pointers + 1, n, n),
        words_room(pointers, n + 1, n),
        words_room(pointers, n, n + 1),
        words_room(pointers + 2, n + 3, n + 4),
        words_room(0, 0, 0),
    ]
}
