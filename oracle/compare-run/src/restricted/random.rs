//! Random calls to restricted and local lists: masks from none to all, infinite values active and not, squares with a region,
//! members that rise or not.

use super::mask_of;
use crate::Sink;
use crate::damage::damage;
use crate::good::{self, Style};
use crate::make::Judge;
use crate::random::{ask, count};
use crate::rng::Rng;
use crate::tiles::{Tile, listed, random as tiles, rows_of, tiles_of};
use calls::{Call, Csr, CsrRoom, Mask, Tiles};

/// Some restrictions of one plot list and of its tiles.
pub fn round(sink: &mut impl Sink, judge: Judge, rng: &mut Rng) {
    let thresholds = tiles::thresholds(rng);
    let c = if rng.once_in(2) {
        good::csr(rng)
    } else {
        tiles::plot_list(rng, thresholds)
    };
    for _ in 0..2 {
        let m = mask(rng, c.ncols, &c.col_idx);
        let room = room(rng, c.nrows, kept(&c, &m));
        let call = Call::RestrictedFromCsr32(c.clone(), m, room);
        ask(sink, rng, call);
    }
    let Some(t) = tiles_of(judge, &c, thresholds) else {
        return;
    };
    let t = if rng.once_in(2) {
        some_infinite(rng, t)
    } else {
        tiles::varied(rng, t)
    };
    for _ in 0..2 {
        let m = mask(rng, t.ncols.min(1 << 17), &c.col_idx);
        let room = room(rng, t.nrows.min(1 << 10), kept_of_tiles(&t, &m));
        ask(sink, rng, Call::RestrictedFromAbtm(t.clone(), m, room));
    }
}

/// A mask of no, one in a hundred, half or all columns, now and then of another length; in some one column of the list alone
/// is active or alone isn't.
fn mask(rng: &mut Rng, ncols: usize, cols: &[u32]) -> Mask {
    let len = match rng.below(30) {
        0 => ncols + 1,
        1 => ncols.saturating_sub(1),
        _ => ncols,
    };
    let share = rng.pick(&[0, 1, 50, 50, 100]);
    let mut members: Vec<usize> = (0..len).filter(|_| rng.below(100) < share).collect();
    let col = if cols.is_empty() {
        0
    } else {
        rng.pick(cols) as usize
    };
    if col < len && rng.once_in(3) {
        members = match rng.below(2) {
            0 => vec![col],
            _ => (0..len).filter(|&index| index != col).collect(),
        };
    }
    mask_of(len, members)
}

fn has(m: &Mask, index: usize) -> bool {
    index < m.len && m.words[index / 64] >> (index % 64) & 1 == 1
}

fn kept(c: &Csr, m: &Mask) -> usize {
    c.col_idx
        .iter()
        .filter(|&&col| has(m, col as usize))
        .count()
}

/// The present columns of tiles that are active; damaged tiles may have other ones.
fn kept_of_tiles(t: &Tiles, m: &Mask) -> usize {
    let ones = t.masks.iter().zip(&t.metas).map(|(mask, meta)| {
        let word = m.words.get((meta % (1 << 30)) as usize);
        (mask & word.copied().unwrap_or(0)).count_ones() as usize
    });
    ones.sum()
}

/// Lists for so many rows and entries; in some one of the three is one short.
fn room(rng: &mut Rng, nrows: usize, kept: usize) -> CsrRoom {
    let mut lengths = [nrows + 1, kept, kept];
    if rng.once_in(6) {
        let place = rng.below(3);
        lengths[place] = lengths[place].saturating_sub(1);
    }
    let [pointers, columns, values] = lengths;
    CsrRoom {
        row_ptr: good::room32(rng, pointers),
        col_idx: good::room32(rng, columns),
        values: good::room_floats(rng, values),
    }
}

/// The tiles with one or two infinite values, which an active column refuses and an inactive one doesn't.
fn some_infinite(rng: &mut Rng, t: Tiles) -> Tiles {
    let mut rows = rows_of(&t).expect("good tiles");
    let mut all: Vec<&mut Tile> = rows.iter_mut().flatten().collect();
    for _ in 0..1 + rng.below(2) {
        if !all.is_empty() {
            let place = rng.below(all.len());
            let slot = rng.below(all[place].present.len());
            all[place].present[slot] = rng.pick(&[f64::INFINITY, f64::NEG_INFINITY]);
        }
    }
    listed(t.ncols, &rows)
}

/// The local lists of some regions of one square; a few lists aren't square.
pub fn local(sink: &mut impl Sink, rng: &mut Rng) {
    let size = match rng.below(20) {
        0..10 => rng.below(9),
        10..18 => rng.pick(&[63, 64, 65, 127, 128, 129]),
        _ => rng.below(300),
    };
    let nrows = if rng.once_in(20) { size + 1 } else { size };
    let c = square(rng, nrows, size);
    for _ in 0..3 {
        let m = mask(rng, size, &c.col_idx);
        let members: Vec<usize> = (0..size).filter(|&index| has(&m, index)).collect();
        let rows = members.iter().filter(|&&row| row < nrows);
        let entries = rows.flat_map(|&row| c.row_ptr[row] as usize..c.row_ptr[row + 1] as usize);
        let kept = entries.filter(|&place| has(&m, c.col_idx[place] as usize));
        let room = room(rng, members.len(), kept.count());
        let members = good::room32(rng, members.len());
        ask(sink, rng, Call::LocalFromCsr32(c.clone(), m, members, room));
    }
}

/// A square whose rows have few entries, unsorted and with copies; of many rows only some have any.
fn square(rng: &mut Rng, nrows: usize, ncols: usize) -> Csr {
    let mut c = good::csr_of_shape(rng, nrows.min(4), ncols);
    let drawn = c.clone();
    (c.nrows, c.row_ptr) = (nrows, vec![0]);
    (c.col_idx, c.values) = (vec![], vec![]);
    for row in 0..nrows {
        if nrows <= 4 || rng.once_in(3) {
            let from = row % 4;
            let places = drawn.row_ptr[from] as usize..drawn.row_ptr[from + 1] as usize;
            c.col_idx.extend(&drawn.col_idx[places.clone()]);
            c.values.extend(&drawn.values[places]);
        }
        c.row_ptr.push(c.col_idx.len() as u32);
    }
    c
}

/// Members, mostly good: none, all, some; one twice, two changed about, one at or past the size.
fn some_members(rng: &mut Rng, size: usize) -> Vec<u32> {
    let share = rng.pick(&[0, 1, 50, 50, 100]);
    let mut members: Vec<u32> = (0..size as u32)
        .filter(|_| rng.below(100) < share)
        .collect();
    let n = members.len();
    match rng.below(10) {
        0 if n > 1 => {
            let place = rng.below(n - 1);
            members[place + 1] = members[place];
        }
        1 if n > 1 => {
            let place = rng.below(n - 1);
            members.swap(place, place + 1);
        }
        2 => members.push(size as u32),
        3 => members.push(rng.pick(&[size as u32 + 1, u32::MAX])),
        _ => {}
    }
    members
}

/// Members as such, and what is gathered of a vector by them.
pub fn members(sink: &mut impl Sink, rng: &mut Rng) {
    for _ in 0..3 {
        let size = match rng.below(400) {
            0..200 => rng.below(9),
            200..380 => rng.pick(&good::BOUNDARIES[..8]),
            380..399 => rng.pick(&good::BOUNDARIES),
            _ => rng.below(65_537),
        };
        let members = some_members(rng, size);
        ask(sink, rng, Call::LocalCheck(size, members.clone()));
        for _ in 0..2 {
            let lengths = match rng.below(8) {
                0 => [size + 1, members.len()],
                1 => [size.saturating_sub(1), members.len()],
                2 => [size, members.len() + 1],
                3 => [size, members.len().saturating_sub(1)],
                _ => [size, members.len()],
            };
            let global = good::vector(rng, lengths[0]);
            let local = (0..lengths[1]).map(|_| good::float(rng, Style::Wild));
            let local = local.collect();
            ask(
                sink,
                rng,
                Call::LocalGatherInput(size, members.clone(), global, local),
            );
        }
        let mut bad = Call::LocalCheck(size, members);
        damage(rng, &mut bad);
        sink.call(&bad);
    }
}

/// The figures: most of counts that a list can have.
pub fn by_value(sink: &mut impl Sink, rng: &mut Rng) {
    for _ in 0..3 {
        let (a, b) = match rng.below(3) {
            0 => (count(rng), count(rng)),
            _ => (rng.below(1000), rng.below(1000)),
        };
        let (kept, source) = if rng.once_in(4) {
            (a, b)
        } else {
            (a.min(b), a.max(b))
        };
        ask(sink, rng, Call::RestrictedRetainedFraction(kept, source));
        ask(sink, rng, Call::LocalBoundaryPruningRatio(kept, source));
        let columns = if rng.once_in(3) {
            count(rng)
        } else {
            good::column_count(rng)
        };
        ask(sink, rng, Call::RestrictedStorageBytes(a, columns, b));
        ask(sink, rng, Call::LocalStorageBytes(a, b));
    }
}
