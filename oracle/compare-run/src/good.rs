//! Good inputs: plot lists, masks and vectors, around the places where a port goes wrong.

use crate::rng::Rng;
use calls::{Csr, Mask, Store, StoreRoom, Words, WordsRoom};

/// Column counts on both sides of each boundary.
pub const BOUNDARIES: [usize; 11] = [0, 1, 63, 64, 65, 127, 128, 129, 1023, 1024, 1025];

const PLAIN: [f64; 6] = [1.0, -1.0, 0.5, 2.0, 0.1, 3.0];
const SPECIAL: [f64; 14] = [
    0.0,
    -0.0,
    f64::MAX,
    f64::MIN,
    f64::MIN_POSITIVE,
    5e-324,
    -5e-324,
    2.2e-308,
    0.1,
    0.2,
    0.3,
    9007199254740993.0,
    1e16,
    -1e16,
];
const NOT_FINITE: [f64; 3] = [f64::NAN, f64::INFINITY, f64::NEG_INFINITY];

/// How the numbers of a list are drawn.
#[derive(Clone, Copy)]
pub enum Style {
    Plain,
    Special,
    AnyFinite,
    /// For vectors alone: NaN and the infinities too.
    Wild,
}

pub fn float(rng: &mut Rng, style: Style) -> f64 {
    match style {
        Style::Plain => rng.pick(&PLAIN),
        Style::Special => rng.pick(&SPECIAL),
        Style::Wild if rng.once_in(3) => rng.pick(&NOT_FINITE),
        _ => finite(rng),
    }
}

fn finite(rng: &mut Rng) -> f64 {
    if rng.once_in(4) {
        let any = f64::from_bits(rng.draw());
        if any.is_finite() { any } else { 1.5 }
    } else {
        (rng.draw() as i64 >> 20) as f64 / 1024.0
    }
}

fn value_style(rng: &mut Rng) -> Style {
    rng.pick(&[
        Style::Plain,
        Style::Plain,
        Style::Special,
        Style::AnyFinite,
        Style::AnyFinite,
    ])
}

/// A vector of n places.
pub fn vector(rng: &mut Rng, n: usize) -> Vec<f64> {
    let style = rng.pick(&[Style::Plain, Style::Special, Style::AnyFinite, Style::Wild]);
    (0..n).map(|_| float(rng, style)).collect()
}

/// A column count: mostly small, often at a boundary, seldom up to 65,536.
pub fn column_count(rng: &mut Rng) -> usize {
    match rng.below(1000) {
        0..500 => rng.below(9),
        500..900 => BOUNDARIES[2 + rng.below(6)],
        900..970 => rng.below(300),
        970..998 => BOUNDARIES[8 + rng.below(3)],
        _ => rng.below(65_537),
    }
}

pub fn row_count(rng: &mut Rng) -> usize {
    match rng.below(100) {
        0..5 => 0,
        5..98 => 1 + rng.below(4),
        _ => rng.below(70),
    }
}

/// A column that is likely to be near a boundary.
fn column(rng: &mut Rng, ncols: usize) -> u32 {
    let near = [
        0,
        1,
        62,
        63,
        64,
        65,
        126,
        127,
        128,
        129,
        ncols - 1,
        ncols.saturating_sub(2),
    ];
    let col = if rng.once_in(3) {
        rng.pick(&near)
    } else {
        rng.below(ncols)
    };
    col.min(ncols - 1) as u32
}

/// The columns of one row, in stored order: none, all, or a few, with copies.
fn row_columns(rng: &mut Rng, ncols: usize) -> Vec<u32> {
    if ncols == 0 {
        return Vec::new();
    }
    let mut cols: Vec<u32> = match rng.below(12) {
        0 => Vec::new(),
        1 if ncols <= 130 => (0..ncols as u32).collect(),
        2 if rng.once_in(20) => (0..rng.below(600)).map(|_| column(rng, ncols)).collect(),
        _ => (0..rng.below(7)).map(|_| column(rng, ncols)).collect(),
    };
    add_copies(rng, &mut cols);
    if rng.once_in(2) {
        rng.shuffle(&mut cols);
    } else {
        cols.sort_unstable();
    }
    cols
}

/// Half of the rows hold each column once, most others some columns twice, and a few hold one more often.
fn add_copies(rng: &mut Rng, cols: &mut Vec<u32>) {
    let style = rng.below(16);
    if style < 14 {
        cols.sort_unstable();
        cols.dedup();
    }
    match style {
        0..8 => {}
        8..14 => {
            let twice: Vec<u32> = cols.iter().copied().filter(|_| rng.once_in(2)).collect();
            cols.extend(twice);
        }
        _ => {
            if let Some(&col) = cols.first() {
                cols.extend(vec![col; 1 + rng.below(6)]);
            }
        }
    }
}

/// A good plot list of this shape.
pub fn csr_of_shape(rng: &mut Rng, nrows: usize, ncols: usize) -> Csr {
    let style = value_style(rng);
    let mut c = Csr {
        nrows,
        ncols,
        row_ptr: vec![0],
        col_idx: Vec::new(),
        values: Vec::new(),
    };
    for _ in 0..nrows {
        c.col_idx.extend(row_columns(rng, ncols));
        c.row_ptr.push(c.col_idx.len() as u32);
    }
    for place in 0..c.col_idx.len() {
        let copied = place > 0 && c.col_idx[place] == c.col_idx[place - 1];
        let value = match (copied, rng.below(8)) {
            // Copies of the largest value overflow when merged: keep most of them from it.
            (true, 0..4) => float(rng, style) / 4.0,
            (true, 4..7) => -c.values[place - 1],
            _ => float(rng, style),
        };
        c.values.push(value);
    }
    c
}

pub fn csr(rng: &mut Rng) -> Csr {
    let (nrows, ncols) = (row_count(rng), column_count(rng));
    csr_of_shape(rng, nrows, ncols)
}

/// A good mask of this length.
pub fn mask(rng: &mut Rng, len: usize) -> Mask {
    let style = rng.below(5);
    let mut words: Vec<u64> = (0..len.div_ceil(64))
        .map(|_| match style {
            0 => 0,
            1 => u64::MAX,
            2 => rng.draw() & rng.draw() & rng.draw(),
            _ => rng.draw(),
        })
        .collect();
    if let Some(last) = words.last_mut()
        && !len.is_multiple_of(64)
    {
        *last &= (1 << (len % 64)) - 1;
    }
    Mask { len, words }
}

/// How long a lent list is made that must have `need` places: exact, longer, one short, or anything.
fn room_length(rng: &mut Rng, need: usize) -> usize {
    match rng.below(40) {
        0..26 => need,
        26..38 => need + 1 + rng.below(3),
        38 => need.saturating_sub(1),
        _ => rng.below(need + 2),
    }
}

pub fn room32(rng: &mut Rng, need: usize) -> Vec<u32> {
    let n = room_length(rng, need);
    (0..n).map(|_| rng.draw() as u32).collect()
}

pub fn room64(rng: &mut Rng, need: usize) -> Vec<u64> {
    let n = room_length(rng, need);
    (0..n).map(|_| rng.draw()).collect()
}

pub fn room_sizes(rng: &mut Rng, need: usize) -> Vec<usize> {
    let n = room_length(rng, need);
    (0..n).map(|_| rng.draw() as usize).collect()
}

pub fn room_floats(rng: &mut Rng, need: usize) -> Vec<f64> {
    let n = room_length(rng, need);
    (0..n).map(|_| float(rng, Style::Wild)).collect()
}

/// Lists for words of so many rows and words.
pub fn words_room(rng: &mut Rng, nrows: usize, words: usize) -> WordsRoom {
    WordsRoom {
        row_word_ptr: room32(rng, nrows + 1),
        word_indices: room32(rng, words),
        masks: room64(rng, words),
    }
}

/// Lists for the store of a plot list, with the words that it has.
pub fn store_room(rng: &mut Rng, words: &Words) -> StoreRoom {
    StoreRoom {
        words: words_room(rng, words.nrows, words.masks.len()),
        row_value_ptr: room32(rng, words.nrows + 1),
        values: room_floats(rng, words.structural_nnz),
    }
}

/// A row, column, ordinal or index to ask: below n, at its boundaries, or far off.
pub fn place(rng: &mut Rng, n: usize) -> usize {
    match rng.below(12) {
        0..6 => rng.below(n + 1),
        6 => n,
        7 => n.saturating_add(1),
        8 => n.saturating_sub(1),
        9 => rng.pick(&[0, 1, 62, 63, 64, 65, 66, 127, 128, 129, 1024]),
        10 => rng.pick(&[usize::MAX, usize::MAX - 1, 1 << 20, 1 << 32, 1 << 63]),
        _ => rng.below(70),
    }
}

/// A store with its values drawn anew, -0.0 among them: most can't come of packing.
pub fn other_values(rng: &mut Rng, store: &mut Store) {
    let style = value_style(rng);
    for value in &mut store.values {
        *value = float(rng, style);
    }
}
