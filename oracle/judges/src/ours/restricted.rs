//! The library's answers to calls of restricted and local lists.

use super::{Answer, Lent, dense_block, lent_floats, lent32, plain, with_lists};
use crate::sys;
use calls::{Call, Csr, CsrRoom, Mask, Outcome, Tiles};

/// What the library makes of a call to restricted or local lists.
pub fn judge(call: &Call) -> Outcome {
    use Call::*;
    match call {
        RestrictedFromCsr32(c, m, room) => from_csr32(c, m, room),
        RestrictedFromAbtm(t, m, room) => from_abtm(t, m, room),
        LocalFromCsr32(c, m, members, room) => local_from_csr32(c, m, members, room),
        LocalCheck(size, members) => {
            unsafe { sys::denimrasp_local_check(*size, members.as_ptr(), members.len()) }.outcome()
        }
        LocalGatherInput(size, members, global, local) => {
            gather_input(*size, members, global, local)
        }
        _ => by_value(call),
    }
}

fn by_value(call: &Call) -> Outcome {
    use Call::*;
    // SAFETY: no pointer is handed over.
    unsafe {
        match *call {
            RestrictedRetainedFraction(kept, source) => {
                plain(sys::denimrasp_restricted_retained_fraction(kept, source))
            }
            RestrictedStorageBytes(nrows, ncols, kept) => {
                plain(sys::denimrasp_restricted_storage_bytes(nrows, ncols, kept))
            }
            LocalBoundaryPruningRatio(kept, source) => {
                plain(sys::denimrasp_local_boundary_pruning_ratio(kept, source))
            }
            LocalStorageBytes(members, kept) => {
                plain(sys::denimrasp_local_storage_bytes(members, kept))
            }
            _ => dense_block::judge(call),
        }
    }
}

/// The lists that a build of a plot list or of blocks is lent.
pub struct Room {
    pub ptr: Lent<u32>,
    pub cols: Lent<u32>,
    pub values: Lent<f64>,
}

impl Room {
    pub fn new(room: &CsrRoom) -> Room {
        Room {
            ptr: lent32(&room.row_ptr),
            cols: lent32(&room.col_idx),
            values: lent_floats(&room.values),
        }
    }

    pub fn numbers(&self) -> Vec<Vec<u64>> {
        let (ptr, cols) = (self.ptr.numbers(), self.cols.numbers());
        vec![ptr, cols, self.values.numbers()]
    }
}

fn from_csr32(c: &Csr, m: &Mask, room: &CsrRoom) -> Outcome {
    let mut room = Room::new(room);
    let answer = with_csr!(
        denimrasp_restricted_from_csr32,
        c,
        m.len,
        m.words.as_ptr(),
        m.words.len(),
        room.ptr.as_mut_ptr(),
        room.ptr.len(),
        room.cols.as_mut_ptr(),
        room.cols.len(),
        room.values.as_mut_ptr(),
        room.values.len()
    );
    with_lists(answer, room.numbers())
}

fn from_abtm(t: &Tiles, m: &Mask, room: &CsrRoom) -> Outcome {
    let mut room = Room::new(room);
    let answer = with_tiles!(
        denimrasp_restricted_from_abtm,
        t,
        m.len,
        m.words.as_ptr(),
        m.words.len(),
        room.ptr.as_mut_ptr(),
        room.ptr.len(),
        room.cols.as_mut_ptr(),
        room.cols.len(),
        room.values.as_mut_ptr(),
        room.values.len()
    );
    with_lists(answer, room.numbers())
}

fn local_from_csr32(c: &Csr, m: &Mask, members: &[u32], room: &CsrRoom) -> Outcome {
    let mut members = lent32(members);
    let mut room = Room::new(room);
    let answer = with_csr!(
        denimrasp_local_from_csr32,
        c,
        m.len,
        m.words.as_ptr(),
        m.words.len(),
        members.as_mut_ptr(),
        members.len(),
        room.ptr.as_mut_ptr(),
        room.ptr.len(),
        room.cols.as_mut_ptr(),
        room.cols.len(),
        room.values.as_mut_ptr(),
        room.values.len()
    );
    let mut lists = vec![members.numbers()];
    lists.extend(room.numbers());
    with_lists(answer, lists)
}

fn gather_input(size: usize, members: &[u32], global: &[f64], local: &[f64]) -> Outcome {
    let mut local = lent_floats(local);
    let answer = unsafe {
        sys::denimrasp_local_gather_input(
            size,
            members.as_ptr(),
            members.len(),
            global.as_ptr(),
            global.len(),
            local.as_mut_ptr(),
            local.len(),
        )
    };
    with_lists(answer, vec![local.numbers()])
}
