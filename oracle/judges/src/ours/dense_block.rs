//! The library's answers to calls of blocks.

use super::restricted::Room;
use super::{Answer, lent_floats, plain, with_lists};
use crate::sys;
use calls::{Blocks, Call, Csr, CsrRoom, Outcome};

/// What the library makes of a call to blocks.
pub fn judge(call: &Call) -> Outcome {
    use Call::*;
    match call {
        DenseBlockFromCsr32(c, six, room) => from_csr32(c, *six, room),
        DenseBlockCheck(b) => with_blocks!(denimrasp_dense_block_check, b).outcome(),
        DenseBlockApply(b, x, y) => apply(b, x, y),
        DenseBlockFastBlockFraction(b) => {
            with_blocks!(denimrasp_dense_block_fast_block_fraction, b).outcome()
        }
        _ => by_value(call),
    }
}

fn by_value(call: &Call) -> Outcome {
    use Call::*;
    // SAFETY: no pointer is handed over.
    unsafe {
        match *call {
            DenseBlockBlockFill(structural, valid) => {
                plain(sys::denimrasp_dense_block_block_fill(structural, valid))
            }
            DenseBlockValuePaddingRatio(slots, structural) => plain(
                sys::denimrasp_dense_block_value_padding_ratio(slots, structural),
            ),
            DenseBlockMetadataBytes(block_rows, blocks) => plain(
                sys::denimrasp_dense_block_metadata_bytes(block_rows, blocks),
            ),
            DenseBlockStorageBytes(block_rows, blocks, slots) => plain(
                sys::denimrasp_dense_block_storage_bytes(block_rows, blocks, slots),
            ),
            _ => unreachable!("every other call is answered before"),
        }
    }
}

fn from_csr32(c: &Csr, six: bool, room: &CsrRoom) -> Outcome {
    let mut room = Room::new(room);
    let answer = with_csr!(
        denimrasp_dense_block_from_csr32,
        c,
        six,
        room.ptr.as_mut_ptr(),
        room.ptr.len(),
        room.cols.as_mut_ptr(),
        room.cols.len(),
        room.values.as_mut_ptr(),
        room.values.len()
    );
    with_lists(answer, room.numbers())
}

fn apply(b: &Blocks, x: &[f64], y: &[f64]) -> Outcome {
    let mut y = lent_floats(y);
    let answer = with_blocks!(
        denimrasp_dense_block_apply,
        b,
        x.as_ptr(),
        x.len(),
        y.as_mut_ptr(),
        y.len()
    );
    with_lists(answer, vec![y.numbers()])
}
