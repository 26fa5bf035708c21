//! Calls at the edge of document 01's domain, and one past it.

use crate::Sink;
use crate::make::{Judge, store_of, words_of};
use crate::{blocks, restricted, tiles};
use calls::{Call, Csr, Mask, StoreRoom, Words, WordsRoom};

const MOST_PLACES: usize = 1 << 20;
const MOST_STORED: usize = 1 << 24;

/// The first thread has the calls with many stored things, the second the others.
pub fn all(sink: &mut impl Sink, judge: Judge, thread: usize) {
    if thread == 0 {
        many_stored(sink);
        many_words(sink);
        full_rows(sink);
        tiles::edge::many(sink);
        restricted::edge::many(sink);
        blocks::edge::many(sink);
    } else {
        for len in [MOST_PLACES - 1, MOST_PLACES, MOST_PLACES + 1] {
            masks(sink, len);
        }
        for ncols in [MOST_PLACES - 1, MOST_PLACES, MOST_PLACES + 1] {
            wide(sink, judge, ncols);
        }
        for nrows in [MOST_PLACES, MOST_PLACES + 1] {
            tall(sink, judge, nrows);
        }
        tiles::edge::large(sink, judge);
        restricted::edge::large(sink);
        blocks::edge::large(sink, judge);
    }
}

fn mask(len: usize, word: u64) -> Mask {
    let mut words = vec![word; len.div_ceil(64)];
    if let Some(last) = words.last_mut()
        && !len.is_multiple_of(64)
    {
        *last &= (1 << (len % 64)) - 1;
    }
    Mask { len, words }
}

fn masks(sink: &mut impl Sink, len: usize) {
    let (m, other) = (mask(len, u64::MAX), mask(len, 0x8000_0000_0000_0001));
    sink.call(&Call::MaskCheck(m.clone()));
    sink.call(&Call::MaskCountOnes(m.clone()));
    sink.call(&Call::MaskIsEmpty(m.clone()));
    for index in [0, len - 1, len, usize::MAX] {
        sink.call(&Call::MaskContains(m.clone(), index));
        sink.call(&Call::MaskSet(m.clone(), index, false));
        sink.call(&Call::MaskFromIndices(len, vec![index], vec![7; 1 << 15]));
    }
    for word in [len / 64 - 1, len / 64, usize::MAX] {
        sink.call(&Call::MaskOrWord(other.clone(), word, u64::MAX));
    }
    let ones = other.words.iter().map(|w| w.count_ones() as usize).sum();
    sink.call(&Call::MaskIndices(other.clone(), vec![7; ones]));
    sink.call(&Call::MaskIndices(other.clone(), vec![7; ones - 1]));
    sink.call(&Call::MaskNew(len, vec![7; len.div_ceil(64)]));
    sink.call(&Call::MaskNew(len, vec![7; len.div_ceil(64) - 1]));
    sink.call(&Call::MaskUnionAssign(other.clone(), m.clone()));
    sink.call(&Call::MaskIntersectAssign(m.clone(), other.clone()));
    sink.call(&Call::MaskAndNotAssign(m.clone(), other.clone()));
    sink.call(&Call::MaskIntersects(m, other));
}

fn words_room(nrows: usize, words: usize) -> WordsRoom {
    WordsRoom {
        row_word_ptr: vec![7; nrows + 1],
        word_indices: vec![7; words],
        masks: vec![7; words],
    }
}

fn store_room(nrows: usize, entries: usize) -> StoreRoom {
    StoreRoom {
        words: words_room(nrows, entries),
        row_value_ptr: vec![7; nrows + 1],
        values: vec![7.0; entries],
    }
}

/// Every call that is handed a plot list, and the questions to its words and its store.
fn plot_list(sink: &mut impl Sink, judge: Judge, c: Csr) {
    let n = c.col_idx.len();
    let x: Vec<f64> = (0..c.ncols).map(|col| 0.1 + col as f64).collect();
    sink.call(&Call::Csr32Check(c.clone()));
    sink.call(&Call::Csr32MetadataBytes(c.clone()));
    sink.call(&Call::Csr32StorageBytes(c.clone()));
    sink.call(&Call::Csr32Apply(c.clone(), x.clone(), vec![7.0; c.nrows]));
    sink.call(&Call::TopologyFromCsr32(c.clone(), words_room(c.nrows, n)));
    sink.call(&Call::MetadataFirstCheckMerge(c.clone()));
    sink.call(&Call::MetadataFirstFromCsr32(
        c.clone(),
        store_room(c.nrows, n),
    ));
    if let Some(words) = words_of(judge, &c) {
        questions(sink, &words);
    }
    let Some(store) = store_of(judge, &c) else {
        return;
    };
    let m = mask(c.ncols, 0xaaaa_aaaa_aaaa_aaaa);
    sink.call(&Call::MetadataFirstCheck(store.clone()));
    sink.call(&Call::MetadataFirstStats(store.clone()));
    for row in [0, c.nrows - 1, c.nrows] {
        sink.call(&Call::MetadataFirstRowValues(store.clone(), row));
        let call = Call::MetadataFirstSparseDotRow(store.clone(), row, m.clone(), x.clone());
        sink.call(&call);
    }
    let (sums, executed) = (vec![7.0; c.nrows], vec![7; c.nrows]);
    sink.call(&Call::MetadataFirstSparseDotRows(
        store, m, x, sums, executed,
    ));
}

fn questions(sink: &mut impl Sink, w: &Words) {
    sink.call(&Call::TopologyCheck(w.clone()));
    sink.call(&Call::TopologyStats(w.clone()));
    for row in [0, w.nrows - 1, w.nrows] {
        sink.call(&Call::TopologyRowWords(w.clone(), row));
        sink.call(&Call::TopologyRowNonemptyWords(w.clone(), row));
        sink.call(&Call::TopologyRowPopcount(w.clone(), row));
        for place in [0, 3, w.ncols - 1, w.ncols, w.ncols + 1] {
            sink.call(&Call::TopologyRowContains(w.clone(), row, place));
            sink.call(&Call::TopologyRowRank(w.clone(), row, place));
            sink.call(&Call::TopologyRowSelect(w.clone(), row, place));
        }
    }
    let room = words_room(w.nrows, w.masks.len());
    sink.call(&Call::TopologyUnion(w.clone(), w.clone(), room.clone()));
    sink.call(&Call::TopologyIntersection(
        w.clone(),
        w.clone(),
        room.clone(),
    ));
    sink.call(&Call::TopologyAndNot(w.clone(), w.clone(), room.clone()));
    sink.call(&Call::TopologyXor(w.clone(), w.clone(), room));
}

/// One row whose entries lie at the ends of the columns, unsorted and with a copy.
fn wide(sink: &mut impl Sink, judge: Judge, ncols: usize) {
    let last = ncols as u32 - 1;
    let c = Csr {
        nrows: 1,
        ncols,
        row_ptr: vec![0, 6],
        col_idx: vec![last, 0, 63, last, 64, last - 64],
        values: vec![2.5, 1.0, -1.0, 0.1, 3.0, -0.0],
    };
    plot_list(sink, judge, c);
}

/// As many rows as the domain has, with entries in the first and the last.
fn tall(sink: &mut impl Sink, judge: Judge, nrows: usize) {
    let mut row_ptr = vec![2; nrows + 1];
    row_ptr[0] = 0;
    row_ptr[nrows] = 3;
    let c = Csr {
        nrows,
        ncols: 66,
        row_ptr,
        col_idx: vec![65, 0, 64],
        values: vec![1.5, 2.0, -4.0],
    };
    plot_list(sink, judge, c);
}

/// Lists of 2^24 places, and of one more.
fn many_stored(sink: &mut impl Sink) {
    let small = Csr {
        nrows: 0,
        ncols: 1,
        row_ptr: vec![0],
        col_idx: vec![],
        values: vec![],
    };
    let words = Words {
        nrows: 0,
        ncols: 1,
        row_word_ptr: vec![0],
        word_indices: vec![],
        masks: vec![],
        structural_nnz: 0,
    };
    for n in [MOST_STORED, MOST_STORED + 1] {
        let mut c = small.clone();
        c.col_idx = vec![0; n];
        sink.call(&Call::Csr32Check(c));
        let mut c = small.clone();
        c.values = vec![0.0; n];
        sink.call(&Call::Csr32Check(c));
        let mut w = words.clone();
        w.word_indices = vec![0; n];
        sink.call(&Call::TopologyCheck(w));
        let mut w = words.clone();
        w.masks = vec![0; n];
        sink.call(&Call::TopologyCheck(w));
        let store = calls::Store {
            words: words.clone(),
            row_value_ptr: vec![0],
            values: vec![0.0; n],
        };
        sink.call(&Call::MetadataFirstCheck(store));
    }
}

/// Rows with a one in each of their 16,384 words, from row `from` on, below `to`; the other rows are empty.
fn worded_rows(nrows: usize, from: usize, to: usize, first_words: usize) -> Words {
    let mut w = Words {
        nrows,
        ncols: MOST_PLACES,
        row_word_ptr: vec![0],
        word_indices: vec![],
        masks: vec![],
        structural_nnz: 0,
    };
    for row in 0..nrows {
        if (from..to).contains(&row) {
            w.word_indices.extend(0..first_words as u32);
            w.masks.extend(vec![1; first_words]);
        }
        w.row_word_ptr.push(w.masks.len() as u32);
    }
    w.structural_nnz = w.masks.len();
    w
}

/// Set operations on 2^24 words and one word more in the last row: the union and the xor have too many.
fn many_words(sink: &mut impl Sink) {
    let a = worded_rows(1025, 0, 1024, 1 << 14);
    let b = worded_rows(1025, 1024, 1025, 1);
    let room = words_room(1025, 1);
    sink.call(&Call::TopologyUnion(a.clone(), b.clone(), room.clone()));
    sink.call(&Call::TopologyXor(a.clone(), b.clone(), room.clone()));
    sink.call(&Call::TopologyIntersection(
        a.clone(),
        b.clone(),
        room.clone(),
    ));
    sink.call(&Call::TopologyAndNot(b, a, room));
}

/// 16 full rows of 2^20 columns: 2^24 entries.
fn full_rows(sink: &mut impl Sink) {
    let row: Vec<u32> = (0..MOST_PLACES as u32).collect();
    let nrows = 16;
    let c = Csr {
        nrows,
        ncols: MOST_PLACES,
        row_ptr: (0..=nrows as u32).map(|r| r * MOST_PLACES as u32).collect(),
        col_idx: row.repeat(nrows),
        values: (0..MOST_STORED).map(|n| n as f64 * 0.1).collect(),
    };
    let x: Vec<f64> = (0..MOST_PLACES).map(|col| 1.0 / (1 + col) as f64).collect();
    sink.call(&Call::Csr32Check(c.clone()));
    sink.call(&Call::Csr32Apply(c.clone(), x, vec![7.0; nrows]));
    sink.call(&Call::TopologyFromCsr32(c, words_room(nrows, 1 << 18)));
}
