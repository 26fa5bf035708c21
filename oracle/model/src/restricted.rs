//! Plot lists restricted to active columns, and plot lists of a region with numbers of their own.

use crate::answer::{
    BAD_STORE, Built, Checked, NOT_FINITE, NOT_SQUARE, build, bytes, change, list_bits, need,
    need_length, need_sizes, number, ratio, verdict,
};
use crate::csr32::{self, entries};
use crate::mask::{self, Members};
use crate::{abtm, words::WIDTH};
use calls::{Csr, CsrRoom, Mask, Outcome, Tiles, bits};

/// A row as the entries that are kept of it.
type Row = Vec<(usize, f64)>;

/// The three lists of the rows: pointers, columns, values.
fn listed(rows: &[Row]) -> [Vec<u64>; 3] {
    let ends = rows.iter().scan(0, |end, row| {
        *end += row.len() as u64;
        Some(*end)
    });
    let columns = rows.iter().flatten().map(|&(col, _)| col as u64);
    let values = rows.iter().flatten().map(|&(_, value)| bits(value));
    [
        std::iter::once(0).chain(ends).collect(),
        columns.collect(),
        values.collect(),
    ]
}

fn lengths(room: &CsrRoom) -> [usize; 3] {
    [room.row_ptr.len(), room.col_idx.len(), room.values.len()]
}

/// The answer tells the frame, the source count and the kept entries.
fn restricted(nrows: usize, ncols: usize, source: usize, rows: &[Row]) -> Built<4, 3> {
    let kept = rows.iter().map(Vec::len).sum();
    Built {
        result: [nrows, ncols, source, kept].map(|n| n as u64),
        used: listed(rows),
    }
}

/// The entries in the columns of a set, in their order.
fn within(entries: impl Iterator<Item = (usize, f64)>, columns: &Members) -> Row {
    entries.filter(|(col, _)| columns.contains(col)).collect()
}

pub fn judge_from_csr32(csr: &Csr, active: &Mask, room: &CsrRoom) -> Outcome {
    build(from_csr32(csr, active), lengths(room))
}

fn from_csr32(csr: &Csr, active: &Mask) -> Checked<Built<4, 3>> {
    csr32::sizes(csr)?;
    mask::sizes(active)?;
    csr32::rules(csr)?;
    mask::rules(active)?;
    need_length(csr.ncols, active.len)?;
    let columns = mask::members(active);
    let rows: Vec<Row> = (0..csr.nrows)
        .map(|row| within(entries(csr, row), &columns))
        .collect();
    let source = csr.col_idx.len();
    Ok(restricted(csr.nrows, csr.ncols, source, &rows))
}

pub fn judge_from_abtm(tiles: &Tiles, active: &Mask, room: &CsrRoom) -> Outcome {
    build(from_abtm(tiles, active), lengths(room))
}

/// 4 for an infinite active value comes before 1 for too many entries.
fn from_abtm(tiles: &Tiles, active: &Mask) -> Checked<Built<4, 3>> {
    abtm::sizes(tiles)?;
    mask::sizes(active)?;
    abtm::rules(tiles)?;
    mask::rules(active)?;
    need_length(tiles.ncols, active.len)?;
    let columns = mask::members(active);
    let rows: Vec<Row> = (0..tiles.nrows)
        .map(|row| within(abtm::present(tiles, row), &columns))
        .collect();
    let finite = rows.iter().flatten().all(|(_, value)| value.is_finite());
    need(finite, NOT_FINITE)?;
    let kept = rows.iter().map(Vec::len).sum();
    need_sizes(&[], &[kept])?;
    Ok(restricted(
        tiles.nrows,
        tiles.ncols,
        tiles.matrix_nnz,
        &rows,
    ))
}

pub fn judge_retained_fraction(kept: usize, source: usize) -> Outcome {
    number(ratio(kept, source))
}

/// Four bytes for each pointer and column, eight for each value and word of the mask.
pub fn judge_storage_bytes(nrows: usize, ncols: usize, kept: usize) -> Outcome {
    bytes(&[(4, nrows), (4, 1), (12, kept), (8, ncols.div_ceil(WIDTH))])
}

pub fn judge_local_from_csr32(
    csr: &Csr,
    region: &Mask,
    members: &[u32],
    room: &CsrRoom,
) -> Outcome {
    let [pointers, columns, values] = lengths(room);
    build(
        local_from_csr32(csr, region),
        [members.len(), pointers, columns, values],
    )
}

fn local_from_csr32(csr: &Csr, region: &Mask) -> Checked<Built<4, 4>> {
    csr32::sizes(csr)?;
    mask::sizes(region)?;
    csr32::rules(csr)?;
    mask::rules(region)?;
    need(csr.nrows == csr.ncols, NOT_SQUARE)?;
    need_length(csr.nrows, region.len)?;
    let members = mask::members(region);
    let below = |col: usize| members.range(..col).count();
    let source: usize = members.iter().map(|&row| entries(csr, row).count()).sum();
    let rows: Vec<Row> = members
        .iter()
        .map(|&row| {
            let kept = within(entries(csr, row), &members).into_iter();
            kept.map(|(col, value)| (below(col), value)).collect()
        })
        .collect();
    let kept: usize = rows.iter().map(Vec::len).sum();
    let [pointers, columns, values] = listed(&rows);
    let numbers = members.iter().map(|&row| row as u64).collect();
    Ok(Built {
        result: [csr.nrows, members.len(), kept, source].map(|n| n as u64),
        used: [numbers, pointers, columns, values],
    })
}

/// Two row counts are judged by 1: the global size, and the members, which are the rows of the local list.
fn local_check(global_size: usize, members: &[u32]) -> Checked {
    need_sizes(&[global_size], &[])?;
    let rising = members.is_sorted_by(|a, b| a < b);
    let inside = members.iter().all(|&m| (m as usize) < global_size);
    need(rising && inside, BAD_STORE)
}

pub fn judge_local_check(global_size: usize, members: &[u32]) -> Outcome {
    verdict(local_check(global_size, members))
}

pub fn judge_gather_input(
    global_size: usize,
    members: &[u32],
    global: &[f64],
    local: &[f64],
) -> Outcome {
    let gathered = local_check(global_size, members)
        .and_then(|()| need_length(global_size, global.len()))
        .and_then(|()| need_length(members.len(), local.len()))
        .map(|()| members.iter().map(|&m| bits(global[m as usize])).collect());
    change(gathered, list_bits(local))
}

/// 1.0 less the share of the entries that are kept, 0.0 where the rows have none.
pub fn judge_boundary_pruning_ratio(kept: usize, source: usize) -> Outcome {
    number(if source == 0 {
        0.0
    } else {
        1.0 - ratio(kept, source)
    })
}

/// Four bytes for each pointer, column and member, eight for each value.
pub fn judge_local_storage_bytes(members: usize, kept: usize) -> Outcome {
    bytes(&[(4, members), (4, 1), (12, kept), (4, members)])
}
