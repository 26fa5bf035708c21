//! The library's answers to calls of tiles.

use super::{Answer, lent_floats, lent32, lent64, plain, restricted, with_lists};
use crate::sys;
use calls::{Call, Csr, Mask, Outcome, Tiles, TilesRoom};

/// What the library makes of a call to tiles.
pub fn judge(call: &Call) -> Outcome {
    use Call::*;
    match call {
        AbtmCheck(t) => with_tiles!(denimrasp_abtm_check, t).outcome(),
        AbtmFromCsr32(c, sparse, dense, room) => from_csr32(c, *sparse, *dense, room),
        AbtmRowTiles(t, row) => with_tiles!(denimrasp_abtm_row_tiles, t, *row).outcome(),
        AbtmStats(t) => with_tiles!(denimrasp_abtm_stats, t).outcome(),
        AbtmApply(t, x, y) => apply(t, x, y),
        AbtmExpandMaskOneHop(t, m, room) => expand_mask_one_hop(t, m, room),
        _ => by_value(call),
    }
}

fn by_value(call: &Call) -> Outcome {
    use Call::*;
    // SAFETY: no pointer is handed over.
    unsafe {
        match *call {
            AbtmValidate(sparse, dense) => sys::denimrasp_abtm_validate(sparse, dense).outcome(),
            AbtmTileKind(meta) => sys::denimrasp_abtm_tile_kind(meta).outcome(),
            AbtmTileBaseCol(meta) => plain(sys::denimrasp_abtm_tile_base_col(meta)),
            AbtmMetadataBytesPerNnz(bytes, nnz) => {
                plain(sys::denimrasp_abtm_metadata_bytes_per_nnz(bytes, nnz))
            }
            AbtmTotalEstimatedBytes(bytes, slots) => {
                plain(sys::denimrasp_abtm_total_estimated_bytes(bytes, slots))
            }
            _ => restricted::judge(call),
        }
    }
}

fn from_csr32(c: &Csr, sparse: u8, dense: u8, room: &TilesRoom) -> Outcome {
    let mut ptr = lent32(&room.row_tile_ptr);
    let mut masks = lent64(&room.masks);
    let mut offsets = lent32(&room.value_offsets);
    let mut metas = lent32(&room.metas);
    let mut values = lent_floats(&room.values);
    let answer = with_csr!(
        denimrasp_abtm_from_csr32,
        c,
        sparse,
        dense,
        ptr.as_mut_ptr(),
        ptr.len(),
        masks.as_mut_ptr(),
        masks.len(),
        offsets.as_mut_ptr(),
        offsets.len(),
        metas.as_mut_ptr(),
        metas.len(),
        values.as_mut_ptr(),
        values.len()
    );
    with_lists(
        answer,
        vec![
            ptr.numbers(),
            masks.numbers(),
            offsets.numbers(),
            metas.numbers(),
            values.numbers(),
        ],
    )
}

fn apply(t: &Tiles, x: &[f64], y: &[f64]) -> Outcome {
    let mut y = lent_floats(y);
    let answer = with_tiles!(
        denimrasp_abtm_apply,
        t,
        x.as_ptr(),
        x.len(),
        y.as_mut_ptr(),
        y.len()
    );
    with_lists(answer, vec![y.numbers()])
}

fn expand_mask_one_hop(t: &Tiles, m: &Mask, room: &[u64]) -> Outcome {
    let mut out = lent64(room);
    let answer = with_tiles!(
        denimrasp_abtm_expand_mask_one_hop,
        t,
        m.len,
        m.words.as_ptr(),
        m.words.len(),
        out.as_mut_ptr(),
        out.len()
    );
    with_lists(answer, vec![out.numbers()])
}
