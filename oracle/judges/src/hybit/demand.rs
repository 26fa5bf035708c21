//! Demand 3 through hybit's own objects.

use super::{counts_of, csr_of, many_copies, mask_of, numbers};
use calls::{Csr, Mask, bits};
use hybit_core::{HybitError, LinearOperator};
use hybit_matrix::{
    AbtmConfig, AbtmMatrix, AbtmMetadataFirstMatrix, Csr32Matrix, DofMask,
    PreparedColumnRestrictedCsrOperator as Restricted,
};

/// The number by its bits, executed, active words.
pub type RowAnswer = (u64, usize, usize);

/// The answers of all rows by each route: the pruned dot; restricted from CSR, packed, every column active; the row products of
/// the list restricted from tiles, where it is asked for.
#[derive(Debug, PartialEq)]
pub struct Routes {
    pub dots: Vec<RowAnswer>,
    pub restricted: Vec<RowAnswer>,
    pub tiles: Option<Vec<u64>>,
}

/// None where a row holds a column three times or more: the Rust's order of adding is then its own.
pub fn routes(
    c: &Csr,
    active: &Mask,
    x: &[f64],
    thresholds: Option<(u8, u8)>,
) -> Option<Result<Routes, HybitError>> {
    let active = mask_of(active).expect("a valid mask");
    (!many_copies(c)).then(|| through(c, &active, x, thresholds))
}

fn through(
    c: &Csr,
    active: &DofMask,
    x: &[f64],
    thresholds: Option<(u8, u8)>,
) -> Result<Routes, HybitError> {
    let csr = csr_of(c)?;
    let every: Vec<usize> = (0..c.ncols).collect();
    let every = DofMask::from_indices(c.ncols, &every)?;
    let restricted = Restricted::from_csr32(&csr, active)?;
    let tiles = match thresholds {
        Some(thresholds) => Some(from_tiles(&csr, active, x, thresholds)?),
        None => None,
    };
    Ok(Routes {
        dots: dots(&csr, active, x)?,
        restricted: dots(restricted.matrix(), &every, x)?,
        tiles,
    })
}

fn dots(csr: &Csr32Matrix, active: &DofMask, x: &[f64]) -> Result<Vec<RowAnswer>, HybitError> {
    let store = AbtmMetadataFirstMatrix::from_csr32(csr)?;
    (0..csr.nrows())
        .map(|row| {
            let (sum, report) = store.sparse_dot_row(row, active, x)?;
            let [_, executed, _, _, words] = counts_of(&report);
            Ok((bits(sum), executed, words))
        })
        .collect()
}

fn from_tiles(
    csr: &Csr32Matrix,
    active: &DofMask,
    x: &[f64],
    (sparse_max_nnz, dense_min_nnz): (u8, u8),
) -> Result<Vec<u64>, HybitError> {
    let config = AbtmConfig {
        sparse_max_nnz,
        dense_min_nnz,
    };
    let tiles = AbtmMatrix::from_csr32(csr, config)?;
    let mut y = vec![7.0; csr.nrows()];
    Restricted::from_abtm(&tiles, active)?.apply(x, &mut y)?;
    Ok(numbers(&y))
}
