//! Words and stores built from plot lists by one of the judges, for questions to them.

use calls::{Call, Csr, Outcome, Store, StoreRoom, Words, WordsRoom};

pub type Judge = fn(&Call) -> Outcome;

/// A room that is long enough for the words of any plot list with these entries.
fn words_room(c: &Csr) -> WordsRoom {
    let n = c.col_idx.len();
    WordsRoom {
        row_word_ptr: vec![0; c.row_ptr.len()],
        word_indices: vec![0; n],
        masks: vec![0; n],
    }
}

/// The used parts of the words that a build gave.
fn used(c: &Csr, made: &Outcome) -> Words {
    let n = made.result[0] as usize;
    Words {
        nrows: c.nrows,
        ncols: c.ncols,
        row_word_ptr: made.lists[0].iter().map(|&v| v as u32).collect(),
        word_indices: made.lists[1][..n].iter().map(|&v| v as u32).collect(),
        masks: made.lists[2][..n].to_vec(),
        structural_nnz: made.result[1] as usize,
    }
}

/// The words of a plot list; None where the judge refuses it.
pub fn words_of(judge: Judge, c: &Csr) -> Option<Words> {
    let made = judge(&Call::TopologyFromCsr32(c.clone(), words_room(c)));
    (made.number == 0).then(|| used(c, &made))
}

/// The packed store of a plot list; None where the judge refuses it.
pub fn store_of(judge: Judge, c: &Csr) -> Option<Store> {
    let room = StoreRoom {
        words: words_room(c),
        row_value_ptr: vec![0; c.row_ptr.len()],
        values: vec![0.0; c.col_idx.len()],
    };
    let made = judge(&Call::MetadataFirstFromCsr32(c.clone(), room));
    if made.number != 0 {
        return None;
    }
    let words = used(c, &made);
    let values = &made.lists[4][..words.structural_nnz];
    Some(Store {
        row_value_ptr: made.lists[3].iter().map(|&v| v as u32).collect(),
        values: values.iter().map(|&v| f64::from_bits(v)).collect(),
        words,
    })
}
