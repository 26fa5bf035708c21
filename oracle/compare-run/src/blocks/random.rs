//! Random calls to blocks: plot lists in blocks and others, stores with other values than a build gives, and bad ones.

use super::{Block, blocks_of, lengths, listed, rows_of, width};
use crate::Sink;
use crate::damage::damage;
use crate::good::{self, Style};
use crate::make::Judge;
use crate::random::{ask, count};
use crate::rng::Rng;
use crate::tiles::random::{copies, vector};
use calls::{Blocks, Call, Csr, CsrRoom};

/// Some calls to the blocks of one plot list.
pub fn round(sink: &mut impl Sink, judge: Judge, rng: &mut Rng) {
    let six = rng.once_in(2);
    let c = plot_list(rng, six);
    let Some(b) = blocks_of(judge, &c, six) else {
        return;
    };
    for _ in 0..2 {
        let room = room(rng, lengths(&b));
        ask(sink, rng, Call::DenseBlockFromCsr32(c.clone(), six, room));
    }
    let b = varied(rng, b);
    questions(sink, rng, &b);
}

/// A row or column count: near a multiple of the width, small, or any.
fn size(rng: &mut Rng, w: usize) -> usize {
    match rng.below(40) {
        0..24 => (w * rng.below(5) + rng.pick(&[0, 0, 1, w - 1])).saturating_sub(rng.below(2)),
        24..36 => rng.below(3 * w),
        36..39 => rng.pick(&good::BOUNDARIES[..8]),
        _ => rng.below(300),
    }
}

/// A good plot list: rows as in other calls, or entries in some blocks alone, so that blocks are full, half full and empty.
fn plot_list(rng: &mut Rng, six: bool) -> Csr {
    let w = width(six);
    let (nrows, ncols) = (size(rng, w), size(rng, w));
    if rng.once_in(3) {
        let ncols = if rng.once_in(60) {
            good::column_count(rng)
        } else {
            ncols
        };
        return good::csr_of_shape(rng, nrows.min(40), ncols);
    }
    let mut c = Csr {
        nrows,
        ncols,
        row_ptr: vec![0],
        col_idx: vec![],
        values: vec![],
    };
    let style = rng.pick(&[Style::Plain, Style::AnyFinite, Style::Special]);
    let plain = rng.once_in(2);
    let mut chosen = Vec::new();
    for row in 0..nrows {
        if row % w == 0 {
            chosen = block_columns(rng, ncols.div_ceil(w));
        }
        let entries = row_entries(rng, &chosen, (w, ncols), style, plain);
        c.col_idx.extend(entries.iter().map(|entry| entry.0));
        c.values.extend(entries.iter().map(|entry| entry.1));
        c.row_ptr.push(c.col_idx.len() as u32);
    }
    c
}

/// Block columns with how many of ten places have an entry; the last one often.
fn block_columns(rng: &mut Rng, count: usize) -> Vec<(usize, usize)> {
    let last = count.checked_sub(1).filter(|_| rng.once_in(2));
    let mut all: Vec<usize> = (0..count).filter(|_| rng.once_in(3)).take(4).collect();
    all.extend(last.filter(|last| !all.contains(last)));
    let share = |rng: &mut Rng| rng.pick(&[1, 5, 9, 10]);
    all.into_iter().map(|col| (col, share(rng))).collect()
}

/// The entries of one row in these blocks, in stored order.
fn row_entries(
    rng: &mut Rng,
    blocks: &[(usize, usize)],
    (w, ncols): (usize, usize),
    style: Style,
    plain: bool,
) -> Vec<(u32, f64)> {
    let mut entries = Vec::new();
    for &(block, share) in blocks {
        for col in block * w..ncols.min((block + 1) * w) {
            if rng.below(10) >= share {
                continue;
            }
            let values = if plain {
                vec![good::float(rng, style)]
            } else {
                copies(rng, style)
            };
            entries.extend(values.into_iter().map(|value| (col as u32, value)));
        }
    }
    if rng.once_in(2) {
        rng.shuffle(&mut entries);
    }
    entries
}

/// Lists for blocks of these lengths; in some one of the three is one short.
fn room(rng: &mut Rng, mut lengths: [usize; 3]) -> CsrRoom {
    if rng.once_in(6) {
        let place = rng.below(3);
        lengths[place] = lengths[place].saturating_sub(1);
    }
    let [pointers, columns, values] = lengths;
    CsrRoom {
        row_ptr: good::room32(rng, pointers),
        col_idx: good::room32(rng, columns),
        values: good::room_floats(rng, values),
    }
}

/// The blocks, or some with other values or in another frame, or bad ones.
fn varied(rng: &mut Rng, b: Blocks) -> Blocks {
    match rng.below(12) {
        0..4 => b,
        4 | 5 => reframed(rng, b),
        6 | 7 => other_values(rng, b),
        8 => {
            let mut call = Call::DenseBlockCheck(b);
            damage(rng, &mut call);
            match call {
                Call::DenseBlockCheck(b) => b,
                _ => unreachable!("the kind of call stays"),
            }
        }
        _ => spoilt(rng, b),
    }
}

/// The same blocks where the last block row or column is full or has one place fewer.
fn reframed(rng: &mut Rng, mut b: Blocks) -> Blocks {
    let w = width(b.six);
    let change = |rng: &mut Rng, n: &mut usize| {
        let full = n.div_ceil(w) * w;
        *n = full - rng.below(w.min(full.max(1)));
    };
    change(rng, &mut b.nrows);
    change(rng, &mut b.ncols);
    b
}

/// Values drawn anew: numbers, some infinite ones, or any float in any place, outside the frame too.
fn other_values(rng: &mut Rng, mut b: Blocks) -> Blocks {
    let style = rng.pick(&[Style::Plain, Style::Special, Style::AnyFinite, Style::Wild]);
    let infinite = [f64::INFINITY, f64::NEG_INFINITY];
    let all = rng.once_in(3);
    let n = b.values.len();
    for place in 0..n {
        if all || rng.once_in(n.min(4)) {
            let value = match rng.below(8) {
                0 => rng.pick(&infinite),
                1 => 0.0,
                _ => good::float(rng, style),
            };
            if all || b.values[place] != 0.0 {
                b.values[place] = value;
            }
        }
    }
    b
}

/// Blocks that break one rule of 12 and no other, as far as there is a block to break it.
fn spoilt(rng: &mut Rng, b: Blocks) -> Blocks {
    match rng.below(3) {
        0 => spoilt_pointers(rng, b),
        1 => spoilt_columns(rng, b),
        _ => spoilt_values(rng, b),
    }
}

/// A pointer too many or too few, the first not 0, the last not the count, a fall.
fn spoilt_pointers(rng: &mut Rng, mut b: Blocks) -> Blocks {
    let (n, last) = (b.row_ptr.len(), b.row_ptr.len() - 1);
    match rng.below(6) {
        0 => b.row_ptr.push(b.row_ptr[last]),
        1 => {
            // Where the last block row is empty, only the number of pointers is wrong then.
            b.row_ptr.pop();
        }
        2 => b.row_ptr[0] = b.row_ptr[n.min(2) - 1].min(1),
        3 => {
            // A block past the last pointer, with its values.
            let slots = width(b.six) * width(b.six);
            b.col_idx.push(0);
            b.values.resize(b.values.len() + slots, 0.0);
        }
        4 if n > 2 => {
            let place = 1 + rng.below(n - 2);
            b.row_ptr[place] = b.row_ptr[last] + 1;
        }
        _ if n > 2 => {
            let place = 1 + rng.below(n - 2);
            b.row_ptr[place] = b.row_ptr[place - 1].wrapping_sub(1);
        }
        _ => b.row_ptr[last] += 1,
    }
    b
}

/// A block column as the one before it, two changed about, one at or past the last.
fn spoilt_columns(rng: &mut Rng, b: Blocks) -> Blocks {
    let mut rows = rows_of(&b).expect("good blocks");
    let columns = b.ncols.div_ceil(width(b.six)) as u32;
    let long: Vec<usize> = (0..rows.len()).filter(|&row| rows[row].len() > 1).collect();
    if !long.is_empty() && rng.once_in(2) {
        let row = rng.pick(&long);
        let place = rng.below(rows[row].len() - 1);
        let first = rows[row][place].col;
        if rng.once_in(2) {
            rows[row][place + 1].col = first;
        } else {
            rows[row].swap(place, place + 1);
        }
    } else if let Some(row) = rows.iter_mut().rfind(|row| !row.is_empty()) {
        let last = row.len() - 1;
        row[last].col = rng.pick(&[columns, columns + 1, u32::MAX]);
    } else if let Some(row) = rows.first_mut() {
        row.push(Block::new(columns, b.six, &[1.0]));
    }
    listed((b.nrows, b.ncols), b.six, &rows)
}

/// A value too many or too few, a block's values too many or too few, those of the other width.
fn spoilt_values(rng: &mut Rng, mut b: Blocks) -> Blocks {
    let (n, slots) = (b.values.len(), width(b.six) * width(b.six));
    match rng.below(5) {
        0 => b.values.push(0.0),
        1 => b.values.truncate(n.saturating_sub(1)),
        2 => b.values.resize(n + slots, 1.0),
        3 => b.values.truncate(n.saturating_sub(slots)),
        _ => b.values.resize(n / slots * width(!b.six).pow(2), 0.5),
    }
    b
}

fn questions(sink: &mut impl Sink, rng: &mut Rng, b: &Blocks) {
    ask(sink, rng, Call::DenseBlockCheck(b.clone()));
    ask(sink, rng, Call::DenseBlockFastBlockFraction(b.clone()));
    for _ in 0..3 {
        let x = vector(rng, b.ncols.min(1 << 17));
        let y = good::vector(rng, b.nrows.min(1 << 10));
        ask(sink, rng, Call::DenseBlockApply(b.clone(), x, y));
    }
}

/// The figures: most of counts that blocks can have.
pub fn by_value(sink: &mut impl Sink, rng: &mut Rng) {
    for _ in 0..3 {
        let (a, b) = match rng.below(3) {
            0 => (count(rng), count(rng)),
            _ => (rng.below(200), rng.below(200)),
        };
        let slots = rng.pick(&[9, 36]);
        ask(sink, rng, Call::DenseBlockBlockFill(a.min(b), a.max(b)));
        ask(sink, rng, Call::DenseBlockBlockFill(a, b));
        let values = a.wrapping_mul(slots);
        ask(sink, rng, Call::DenseBlockValuePaddingRatio(values, b));
        ask(
            sink,
            rng,
            Call::DenseBlockValuePaddingRatio(values, a.saturating_mul(2)),
        );
        ask(sink, rng, Call::DenseBlockMetadataBytes(a, b));
        let values = if rng.once_in(4) {
            count(rng)
        } else {
            b.wrapping_mul(slots)
        };
        ask(sink, rng, Call::DenseBlockStorageBytes(a, b, values));
    }
}
