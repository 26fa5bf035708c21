//! Random calls to tiles: counts around the thresholds, any number of copies, tiles of other kinds and values, bad tiles.

use super::{Tile, lengths, listed, rows_of, tiles_of};
use crate::Sink;
use crate::damage::damage;
use crate::good::{self, Style};
use crate::make::Judge;
use crate::random::{ask, count};
use crate::rng::Rng;
use calls::{Call, Csr, Mask, Tiles, TilesRoom};
use std::collections::BTreeSet;

const INFINITE: [f64; 2] = [f64::INFINITY, f64::NEG_INFINITY];

/// Some calls to the tiles of one plot list.
pub fn round(sink: &mut impl Sink, judge: Judge, rng: &mut Rng) {
    let thresholds = thresholds(rng);
    let c = plot_list(rng, thresholds);
    let Some(t) = tiles_of(judge, &c, thresholds) else {
        return;
    };
    for _ in 0..2 {
        let (sparse, dense) = thresholds;
        let room = room(rng, lengths(&t));
        ask(
            sink,
            rng,
            Call::AbtmFromCsr32(c.clone(), sparse, dense, room),
        );
    }
    let t = varied(rng, t);
    questions(sink, rng, &t);
}

/// Good thresholds, often at a border.
pub fn thresholds(rng: &mut Rng) -> (u8, u8) {
    let sparse = 1 + rng.below(63) as u8;
    let dense = sparse + 1 + rng.below(64 - usize::from(sparse)) as u8;
    let any = (sparse, dense);
    rng.pick(&[(1, 2), (63, 64), (1, 64), (8, 40), (4, 32), any, any, any])
}

fn shape(rng: &mut Rng) -> (usize, usize) {
    let ncols = match rng.below(20) {
        0..6 => rng.below(65),
        6..18 => rng.pick(&[63, 64, 65, 70, 127, 128, 129, 130, 200]),
        _ => good::column_count(rng),
    };
    let nrows = if rng.once_in(3) && ncols <= 200 {
        ncols
    } else {
        good::row_count(rng)
    };
    (nrows, ncols)
}

/// A good plot list; of a square with many rows only a few have entries.
pub fn plot_list(rng: &mut Rng, thresholds: (u8, u8)) -> Csr {
    let (nrows, ncols) = shape(rng);
    let mut c = Csr {
        nrows,
        ncols,
        row_ptr: vec![0],
        col_idx: vec![],
        values: vec![],
    };
    for _ in 0..nrows {
        if nrows < 5 || rng.once_in(nrows / 4) {
            for (col, value) in row(rng, ncols, thresholds) {
                c.col_idx.push(col);
                c.values.push(value);
            }
        }
        c.row_ptr.push(c.col_idx.len() as u32);
    }
    c
}

/// How many columns of a word have entries: mostly near a threshold.
fn columns_in_word(rng: &mut Rng, (sparse, dense): (u8, u8)) -> usize {
    let (sparse, dense) = (usize::from(sparse), usize::from(dense));
    let near = [0, 1, sparse - 1, sparse, sparse + 1, dense - 1, dense, 64];
    if rng.once_in(4) {
        rng.below(65)
    } else {
        rng.pick(&near)
    }
}

/// The entries of a row, in stored order. Half of the rows hold each column once and no zero, so that the counts decide.
fn row(rng: &mut Rng, ncols: usize, thresholds: (u8, u8)) -> Vec<(u32, f64)> {
    let words = ncols.div_ceil(64);
    let mut entries = Vec::new();
    if words == 0 {
        return entries;
    }
    let last = |rng: &mut Rng| rng.once_in(3).then_some(words - 1);
    let chosen: BTreeSet<usize> = (0..rng.below(4))
        .map(|_| last(rng).unwrap_or_else(|| rng.below(words)))
        .collect();
    let style = rng.pick(&[Style::Plain, Style::AnyFinite, Style::Special]);
    let plain = rng.once_in(2);
    for word in chosen {
        let mut cols: Vec<usize> = (word * 64..ncols.min(word * 64 + 64)).collect();
        rng.shuffle(&mut cols);
        cols.truncate(columns_in_word(rng, thresholds));
        for col in cols {
            let values = if plain {
                vec![nonzero(rng, style)]
            } else {
                copies(rng, style)
            };
            entries.extend(values.into_iter().map(|value| (col as u32, value)));
        }
    }
    if rng.once_in(2) {
        rng.shuffle(&mut entries);
    } else {
        entries.sort_by_key(|entry| entry.0);
    }
    entries
}

pub fn nonzero(rng: &mut Rng, style: Style) -> f64 {
    let value = good::float(rng, style);
    if value == 0.0 { 0.5 } else { value }
}

/// The entries of one column: one, a zero, a pair that cancels or overflows, or several.
pub fn copies(rng: &mut Rng, style: Style) -> Vec<f64> {
    let value = nonzero(rng, style);
    match rng.below(12) {
        0..5 => vec![value],
        5 => vec![rng.pick(&[0.0, -0.0])],
        6 => vec![value, -value],
        7 => vec![f64::MAX, f64::MAX, rng.pick(&[f64::MIN, 0.0])],
        8 => vec![f64::MIN, f64::MIN],
        9 => vec![value, rng.pick(&[0.0, -0.0]), -value, value],
        _ => (0..2 + rng.below(5))
            .map(|_| good::float(rng, style))
            .collect(),
    }
}

/// Lists for tiles of these lengths; in some one of the five is one short.
fn room(rng: &mut Rng, mut lengths: [usize; 5]) -> TilesRoom {
    if rng.once_in(6) {
        let place = rng.below(5);
        lengths[place] = lengths[place].saturating_sub(1);
    }
    let [pointers, masks, offsets, metas, values] = lengths;
    TilesRoom {
        row_tile_ptr: good::room32(rng, pointers),
        masks: good::room64(rng, masks),
        value_offsets: good::room32(rng, offsets),
        metas: good::room32(rng, metas),
        values: good::room_floats(rng, values),
    }
}

/// The tiles, or some of other kinds or values, or bad ones.
pub fn varied(rng: &mut Rng, t: Tiles) -> Tiles {
    match rng.below(12) {
        0..5 => t,
        5 => changed(rng, t, |rng, tile| {
            tile.meta = tile.meta % (1 << 30) + ((rng.below(3) as u32) << 30);
        }),
        6 | 7 => changed(rng, t, |rng, tile| {
            let style = rng.pick(&[Style::Plain, Style::Special, Style::AnyFinite]);
            for value in &mut tile.present {
                *value = match rng.below(6) {
                    0 => rng.pick(&INFINITE),
                    _ => nonzero(rng, style),
                };
            }
        }),
        8 => {
            let mut call = Call::AbtmCheck(t);
            damage(rng, &mut call);
            match call {
                Call::AbtmCheck(t) => t,
                _ => unreachable!("the kind of call stays"),
            }
        }
        _ => spoilt(rng, t),
    }
}

/// The tiles with each of them changed, their lists made anew.
fn changed(rng: &mut Rng, t: Tiles, change: impl Fn(&mut Rng, &mut Tile)) -> Tiles {
    let mut rows = rows_of(&t).expect("good tiles");
    for tile in rows.iter_mut().flatten() {
        change(rng, tile);
    }
    listed(t.ncols, &rows)
}

/// Tiles that break one rule of 12 and no other, as far as there is a tile to break it.
fn spoilt(rng: &mut Rng, t: Tiles) -> Tiles {
    match rng.below(4) {
        0 => spoilt_tile(rng, t),
        1 => spoilt_slot(rng, t),
        2 => spoilt_list(rng, t),
        _ => spoilt_absent(rng, t),
    }
}

/// A mask without a bit or with one past the last column, a word number that doesn't rise or is too high, kind 3.
fn spoilt_tile(rng: &mut Rng, t: Tiles) -> Tiles {
    let mut rows = rows_of(&t).expect("good tiles");
    let mut all: Vec<&mut Tile> = rows.iter_mut().flatten().collect();
    if all.is_empty() {
        return t;
    }
    let place = rng.below(all.len());
    let before = all[place.saturating_sub(1)].meta % (1 << 30);
    let tile = &mut *all[place];
    let kind = tile.meta >> 30 << 30;
    match rng.below(6) {
        0 => (tile.mask, tile.present) = (0, vec![]),
        1 => {
            tile.mask |= 1 << 63;
            tile.present.resize(tile.mask.count_ones() as usize, 1.0);
        }
        2 => tile.meta = kind + before,
        3 => tile.meta = kind + before.saturating_sub(1),
        4 => tile.meta = kind + t.ncols.div_ceil(64) as u32,
        _ => tile.meta |= 3 << 30,
    }
    listed(t.ncols, &rows)
}

/// A zero or NaN at a present place.
fn spoilt_slot(rng: &mut Rng, t: Tiles) -> Tiles {
    let mut rows = rows_of(&t).expect("good tiles");
    let mut all: Vec<&mut f64> = rows
        .iter_mut()
        .flatten()
        .flat_map(|t| &mut t.present)
        .collect();
    if !all.is_empty() {
        let place = rng.below(all.len());
        *all[place] = rng.pick(&[0.0, -0.0, f64::NAN, -f64::NAN]);
    }
    listed(t.ncols, &rows)
}

/// Something else than +0.0 at an absent place of a Dense tile, past the last column too.
fn spoilt_absent(rng: &mut Rng, mut t: Tiles) -> Tiles {
    let dense = (0..t.masks.len()).filter(|&place| t.metas[place] >> 30 == 2);
    let slots = dense.flat_map(|place| {
        let (first, mask) = (t.value_offsets[place] as usize, t.masks[place]);
        let absent = (0..64).filter(move |offset| mask >> offset & 1 == 0);
        absent.map(move |offset| first + offset)
    });
    let absent: Vec<usize> = slots.collect();
    if !absent.is_empty() {
        let place = rng.pick(&absent);
        t.values[place] = rng.pick(&[-0.0, 1.0, 5e-324, f64::NAN, f64::INFINITY]);
    }
    t
}

/// A gap or an overlap of offsets, a value too many, a wrong total, a pointer moved.
fn spoilt_list(rng: &mut Rng, mut t: Tiles) -> Tiles {
    let n = t.masks.len();
    match rng.below(6) {
        0 => t.matrix_nnz += 1,
        1 => t.matrix_nnz = t.matrix_nnz.wrapping_sub(1),
        2 => t.values.push(1.0),
        3 if n > 0 => {
            // A gap: the tile and those after it stand one place further on, with a place more.
            let from = rng.below(n);
            let at = t.value_offsets[from] as usize;
            t.values.insert(at, 0.0);
            t.value_offsets[from..].iter_mut().for_each(|o| *o += 1);
        }
        4 if n > 1 => {
            let place = 1 + rng.below(n - 1);
            t.value_offsets[place] -= 1;
        }
        _ => {
            let place = rng.below(t.row_tile_ptr.len());
            t.row_tile_ptr[place] = rng.below(n + 2) as u32;
        }
    }
    t
}

fn questions(sink: &mut impl Sink, rng: &mut Rng, t: &Tiles) {
    ask(sink, rng, Call::AbtmCheck(t.clone()));
    ask(sink, rng, Call::AbtmStats(t.clone()));
    let nrows = t.nrows.min(1 << 10);
    let row = rng.below(nrows + 1);
    ask(sink, rng, Call::AbtmRowTiles(t.clone(), row));
    let row = good::place(rng, nrows);
    ask(sink, rng, Call::AbtmRowTiles(t.clone(), row));
    for _ in 0..3 {
        let x = vector(rng, t.ncols.min(1 << 17));
        let y = good::vector(rng, nrows);
        ask(sink, rng, Call::AbtmApply(t.clone(), x, y));
    }
    if t.nrows == t.ncols || rng.once_in(4) {
        for _ in 0..3 {
            let len = if rng.once_in(8) { t.ncols + 1 } else { t.nrows };
            let m = mask(rng, len.min(1 << 17));
            let room = good::room64(rng, m.words.len());
            ask(sink, rng, Call::AbtmExpandMaskOneHop(t.clone(), m, room));
        }
    }
}

/// A vector; some have one place alone that isn't finite, so that it shows which places are read.
pub fn vector(rng: &mut Rng, n: usize) -> Vec<f64> {
    let mut x = good::vector(rng, n);
    if n > 0 && rng.once_in(2) {
        x = vec![1.0; n];
        let place = rng.below(n);
        x[place] = rng.pick(&[f64::NAN, f64::INFINITY, f64::NEG_INFINITY]);
    }
    x
}

/// A mask; many have few members, so that two hops would show.
fn mask(rng: &mut Rng, len: usize) -> Mask {
    let mut m = good::mask(rng, len);
    if len > 0 && rng.once_in(2) {
        m.words.fill(0);
        for _ in 0..1 + rng.below(3) {
            let index = rng.below(len);
            m.words[index / 64] |= 1 << (index % 64);
        }
    }
    m
}

/// The calls whose arguments are numbers alone.
pub fn by_value(sink: &mut impl Sink, rng: &mut Rng) {
    for _ in 0..3 {
        let (sparse, dense) = thresholds(rng);
        ask(sink, rng, Call::AbtmValidate(sparse, dense));
        let word = (rng.draw() >> (34 + rng.below(30))) as u32;
        let meta = word + ((rng.below(4) as u32) << 30);
        ask(sink, rng, Call::AbtmTileKind(meta));
        ask(sink, rng, Call::AbtmTileBaseCol(meta));
        let (a, b) = (count(rng), count(rng));
        ask(sink, rng, Call::AbtmMetadataBytesPerNnz(a, b));
        let slots = b >> rng.below(8);
        ask(sink, rng, Call::AbtmTotalEstimatedBytes(a, slots));
    }
}
