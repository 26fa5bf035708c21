//! hybit-matrix, unchanged, from the sources that HYBIT_SRC names. Diagonals, solvers and the like are not here.

include!(concat!(env!("OUT_DIR"), "/modules.rs"));

/// What hybit keeps to its own crate and the comparison asks.
pub mod reach {
    use crate::DofMask;
    use hybit_core::HybitError;

    pub fn or_word(mask: &mut DofMask, word: usize, bits: u64) {
        mask.or_word(word, bits);
    }

    pub fn and_not_assign(mask: &mut DofMask, other: &DofMask) -> Result<(), HybitError> {
        mask.and_not_assign(other)
    }
}
