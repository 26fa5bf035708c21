//! The Rust's restricted and local lists. Members that are handed in are made from a region with the same members of a matrix
//! without entries, and figures from a list with those counts.

use super::tiles::{tiles_of, tiles_within};
use super::{
    MAX_ENTRIES, MOST_LISTED, Reason, accepted, csr_of, csr_within, dense_block, filled, mask_of,
    mask_within, numbers, refused, told, wide, with_lists, within, zeros,
};
use calls::{Call, Csr, CsrRoom, Mask, Outcome, Tiles, bits};
use hybit_core::HybitError;
use hybit_matrix::{
    Csr32Matrix, DofMask, PreparedColumnRestrictedCsrOperator as Restricted,
    PreparedLocalCsrOperator as Local,
};

/// What the Rust makes of a call to restricted or local lists.
pub fn judge(call: &Call) -> Result<Outcome, Reason> {
    use Call::*;
    match call {
        RestrictedFromCsr32(c, m, room) => from_csr32(c, m, room),
        RestrictedFromAbtm(t, m, room) => from_abtm(t, m, room),
        RestrictedRetainedFraction(kept, source) => {
            let fraction = restriction(1, 2, *source, *kept)?.retained_fraction();
            Ok(accepted(vec![bits(fraction)]))
        }
        RestrictedStorageBytes(nrows, ncols, kept) => {
            let bytes = restriction(*nrows, *ncols, *kept, *kept)?.storage_bytes();
            Ok(accepted(vec![bytes as u64]))
        }
        LocalFromCsr32(c, m, members, room) => local_from_csr32(c, m, members.len(), room),
        LocalCheck(size, members) => local(*size, members).map(|_| accepted(vec![])),
        LocalGatherInput(size, members, global, room) => {
            let mut gathered = room.clone();
            let answer = local(*size, members)?.gather_input(global, &mut gathered);
            let answer = told(answer.map(|()| vec![]), 0);
            Ok(with_lists(answer, vec![numbers(&gathered)]))
        }
        LocalBoundaryPruningRatio(kept, source) => {
            let ratio = region(2, 1, *source, *kept)?.boundary_pruning_ratio();
            Ok(accepted(vec![bits(ratio)]))
        }
        LocalStorageBytes(members, kept) => {
            let bytes = region(*members, *members, *kept, *kept)?.storage_bytes();
            Ok(accepted(vec![bytes as u64]))
        }
        _ => dense_block::judge(call),
    }
}

fn rooms(room: &CsrRoom) -> [usize; 3] {
    [room.row_ptr.len(), room.col_idx.len(), room.values.len()]
}

/// The three lists of a plot list in lent lists.
fn lists(made: &Csr32Matrix, room: &CsrRoom) -> Result<Vec<Vec<u64>>, Reason> {
    Ok(vec![
        filled(wide(made.row_ptr()), room.row_ptr.len())?,
        filled(wide(made.col_idx()), room.col_idx.len())?,
        filled(numbers(made.values()), room.values.len())?,
    ])
}

fn built(made: Result<Restricted, HybitError>, room: &CsrRoom) -> Result<Outcome, Reason> {
    let made = match made {
        Ok(made) => made,
        Err(error) => return Ok(with_lists(refused(error, 4), zeros(&rooms(room)))),
    };
    if made.retained_nnz() > MAX_ENTRIES {
        return Err(Reason::ResultOverSize);
    }
    let (nrows, ncols) = (made.matrix().nrows(), made.matrix().ncols());
    let answer = [nrows, ncols, made.source_nnz(), made.retained_nnz()];
    let answer = accepted(answer.map(|n| n as u64).to_vec());
    Ok(with_lists(answer, lists(made.matrix(), room)?))
}

fn from_csr32(c: &Csr, m: &Mask, room: &CsrRoom) -> Result<Outcome, Reason> {
    csr_within(c)?;
    mask_within(m)?;
    match csr_of(c) {
        Ok(csr) => built(Restricted::from_csr32(&csr, &mask_of(m)?), room),
        Err(error) => built(Err(error), room),
    }
}

fn from_abtm(t: &Tiles, m: &Mask, room: &CsrRoom) -> Result<Outcome, Reason> {
    tiles_within(t)?;
    mask_within(m)?;
    let tiles = tiles_of(t)?;
    built(Restricted::from_abtm(&tiles, &mask_of(m)?), room)
}

fn local_from_csr32(
    c: &Csr,
    m: &Mask,
    members_room: usize,
    room: &CsrRoom,
) -> Result<Outcome, Reason> {
    csr_within(c)?;
    mask_within(m)?;
    let made = match csr_of(c) {
        Ok(csr) => Local::from_csr32(&csr, &mask_of(m)?),
        Err(error) => Err(error),
    };
    let made = match made {
        Ok(made) => made,
        Err(error) => {
            let [pointers, columns, values] = rooms(room);
            let rooms = [members_room, pointers, columns, values];
            return Ok(with_lists(refused(error, 4), zeros(&rooms)));
        }
    };
    let mut all = vec![filled(wide(made.global_nodes()), members_room)?];
    all.extend(lists(made.matrix(), room)?);
    let (nodes, nnz) = (made.local_nodes(), made.local_nnz());
    let answer = [made.global_size(), nodes, nnz, made.source_row_nnz()];
    let answer = accepted(answer.map(|n| n as u64).to_vec());
    Ok(with_lists(answer, all))
}

/// The Rust's local list of these members, where it can hold them.
fn local(global_size: usize, members: &[u32]) -> Result<Local, Reason> {
    within(&[global_size], &[])?;
    let indices: Vec<usize> = members.iter().map(|&m| m as usize).collect();
    let region = DofMask::from_indices(global_size, &indices).map_err(|_| Reason::BadMembers)?;
    let pointers = vec![0; global_size + 1];
    let made = Csr32Matrix::new(global_size, global_size, pointers, vec![], vec![])
        .and_then(|csr| Local::from_csr32(&csr, &region))
        .expect("a good plot list and region");
    let shown = made.global_nodes() == members;
    shown.then_some(made).ok_or(Reason::BadMembers)
}

/// A plot list with so many entries in its first row: the kept ones in column 0, the others in column 1.
fn counted(nrows: usize, ncols: usize, source: usize, kept: usize) -> Result<Csr32Matrix, Reason> {
    let other = source.checked_sub(kept).ok_or(Reason::NoSuchList)?;
    let listed = [nrows, ncols, source].iter().all(|&n| n <= MOST_LISTED);
    let placed = (source == 0 || nrows > 0 && ncols > 0) && (other == 0 || ncols > 1);
    if !listed || !placed {
        return Err(Reason::NoSuchList);
    }
    let mut pointers = vec![source as u32; nrows + 1];
    pointers[0] = 0;
    let mut cols = vec![0; kept];
    cols.resize(source, 1);
    let made = Csr32Matrix::new(nrows, ncols, pointers, cols, vec![1.0; source]);
    Ok(made.expect("a good plot list"))
}

/// The first column alone, where there is one.
fn first(len: usize, n: usize) -> DofMask {
    let indices: Vec<usize> = (0..n.min(len)).collect();
    DofMask::from_indices(len, &indices).expect("indices below the length")
}

fn restriction(
    nrows: usize,
    ncols: usize,
    source: usize,
    kept: usize,
) -> Result<Restricted, Reason> {
    let csr = counted(nrows, ncols, source, kept)?;
    Ok(Restricted::from_csr32(&csr, &first(ncols, 1)).expect("a good plot list and mask"))
}

/// The region of the first members of a square.
fn region(size: usize, members: usize, source: usize, kept: usize) -> Result<Local, Reason> {
    let csr = counted(size, size, source, kept)?;
    Ok(Local::from_csr32(&csr, &first(size, members)).expect("a good plot list and region"))
}
