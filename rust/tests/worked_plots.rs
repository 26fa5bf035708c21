//! The worked plots of document 01 that masks, plot lists, words and the packed store take part in.

use denimrasp::{
    AbtmMetadataFirstMatrix, AbtmProductPruningStats, AbtmTopology, Csr32Matrix, DofMask,
    HybitError,
};

/// One row of 70 columns: 65, 3, 3, 64 with 2.0, 1.0, 0.5, 4.0.
fn plots() -> Csr32Matrix {
    Csr32Matrix::new(
        1,
        70,
        vec![0, 4],
        vec![65, 3, 3, 64],
        vec![2.0, 1.0, 0.5, 4.0],
    )
    .unwrap()
}

fn one_row(ncols: usize, columns: &[u32]) -> AbtmTopology {
    let values = vec![1.0; columns.len()];
    let ends = vec![0, columns.len() as u32];
    AbtmTopology::from_csr32(&Csr32Matrix::new(1, ncols, ends, columns.to_vec(), values).unwrap())
        .unwrap()
}

fn words(topology: &AbtmTopology) -> Vec<(u32, u64)> {
    let row = topology.row(0).unwrap();
    row.words().map(|w| (w.word_index(), w.mask())).collect()
}

fn counts(c: [usize; 5]) -> AbtmProductPruningStats {
    AbtmProductPruningStats {
        candidate_products: c[0],
        executed_products: c[1],
        skipped_products: c[2],
        topology_words: c[3],
        active_words: c[4],
    }
}

#[test]
fn words_and_ranks() {
    let topology = AbtmTopology::from_csr32(&plots()).unwrap();
    assert_eq!(words(&topology), [(0, 8), (1, 3)]);
    let row = topology.row(0).unwrap();
    let ranks: Vec<_> = [0, 4, 64, 65, 70].map(|c| row.rank(c).unwrap()).to_vec();
    assert_eq!(ranks, [0, 1, 1, 2, 3]);
    let past = row.rank(71).unwrap_err();
    assert_eq!(past.number(), Some(7));
    let selects: Vec<_> = (0..4).map(|k| row.select(k)).collect();
    assert_eq!(selects, [Some(3), Some(64), Some(65), None]);
    assert_eq!((row.nonempty_words(), row.popcount()), (2, 3));
    let held: Vec<_> = (0..80).filter(|&c| row.contains(c)).collect();
    assert_eq!(held, [3, 64, 65]);
    assert_eq!(topology.stats().metadata_bytes, 32);
}

#[test]
fn words_by_value() {
    let topology = one_row(70, &[1, 2, 63]);
    let word = topology.row(0).unwrap().words().next().unwrap();
    assert_eq!((word.base_col(), word.popcount()), (0, 3));
    assert_eq!(
        [0, 1, 2, 63, 64].map(|o| word.rank(o).unwrap()),
        [0, 0, 1, 2, 3]
    );
    assert_eq!(
        [0, 1, 2, 3].map(|k| word.select(k)),
        [Some(1), Some(2), Some(63), None]
    );
    assert_eq!(
        [0, 1, 63, 64].map(|o| word.contains_offset(o)),
        [false, true, true, false]
    );
}

#[test]
fn packed_values_and_dots() {
    let store = AbtmMetadataFirstMatrix::from_csr32(&plots()).unwrap();
    assert_eq!(store.packed_values(), [1.5, 4.0, 2.0]);
    assert_eq!(store.row_values(0).unwrap(), [1.5, 4.0, 2.0]);
    let x = vec![1.0; 70];
    let both = DofMask::from_indices(70, &[3, 65]).unwrap();
    assert_eq!(
        store.sparse_dot_row(0, &both, &x).unwrap(),
        (3.5, counts([3, 2, 1, 2, 2]))
    );
    let one = DofMask::from_indices(70, &[3]).unwrap();
    assert_eq!(
        store.sparse_dot_row(0, &one, &x).unwrap(),
        (1.5, counts([3, 1, 2, 2, 1]))
    );
    assert_eq!(
        store.sparse_dot_rows(&both, &x).unwrap(),
        (vec![3.5], vec![2])
    );
    assert_eq!(store.stats().total_estimated_bytes(), 32 + 8 + 24);
}

#[test]
fn masked_yields_are_not_read() {
    let store = AbtmMetadataFirstMatrix::from_csr32(&plots()).unwrap();
    let mut x = vec![f64::NAN; 70];
    x[3] = 2.0;
    let one = DofMask::from_indices(70, &[3]).unwrap();
    assert_eq!(store.sparse_dot_row(0, &one, &x).unwrap().0, 3.0);
}

#[test]
fn an_empty_row() {
    let empty = Csr32Matrix::new(1, 70, vec![0, 0], vec![], vec![]).unwrap();
    let store = AbtmMetadataFirstMatrix::from_csr32(&empty).unwrap();
    let all = DofMask::from_indices(70, &(0..70).collect::<Vec<_>>()).unwrap();
    let (sum, report) = store.sparse_dot_row(0, &all, &[1.0; 70]).unwrap();
    assert_eq!(
        (sum.to_bits(), report),
        (0.0f64.to_bits(), Default::default())
    );
    assert_eq!(report.pruning_ratio(), 0.0);
}

#[test]
fn set_operations() {
    let (a, b) = (one_row(70, &[1, 2]), one_row(70, &[0, 1]));
    assert_eq!(words(&a.union(&b).unwrap()), [(0, 7)]);
    assert_eq!(words(&a.intersection(&b).unwrap()), [(0, 2)]);
    assert_eq!(words(&a.and_not(&b).unwrap()), [(0, 4)]);
    assert_eq!(words(&a.xor(&b).unwrap()), [(0, 5)]);
    let nothing = a.xor(&a).unwrap();
    assert_eq!((nothing.nonempty_words(), nothing.structural_nnz()), (0, 0));
}

#[test]
fn a_cancelled_column_stays() {
    let csr = Csr32Matrix::new(1, 70, vec![0, 2], vec![5, 5], vec![1.0, -1.0]).unwrap();
    let store = AbtmMetadataFirstMatrix::from_csr32(&csr).unwrap();
    assert!(store.topology().row(0).unwrap().contains(5));
    assert_eq!(store.packed_values()[0].to_bits(), 0.0f64.to_bits());
}

#[test]
fn an_infinite_merged_value() {
    let most = vec![f64::MAX, f64::MAX];
    let csr = Csr32Matrix::new(1, 70, vec![0, 2], vec![5, 5], most).unwrap();
    assert!(AbtmTopology::from_csr32(&csr).is_ok());
    let error = AbtmMetadataFirstMatrix::from_csr32(&csr).unwrap_err();
    let text = "ABTM G2 packed values contain NaN or infinity";
    assert_eq!(error, HybitError::InvalidMatrix(text));
    assert_eq!(error.number(), Some(4));
}

#[test]
fn three_copies_are_added_in_stored_order() {
    let values = vec![1.0, 1.0e16, -1.0e16];
    let csr = Csr32Matrix::new(1, 70, vec![0, 3], vec![5, 5, 5], values).unwrap();
    let store = AbtmMetadataFirstMatrix::from_csr32(&csr).unwrap();
    assert_eq!(store.packed_values(), [(0.0 + 1.0 + 1.0e16) - 1.0e16]);
}

#[test]
fn products() {
    let csr = plots();
    let mut x = vec![0.0; 70];
    (x[3], x[64], x[65]) = (10.0, 100.0, 1000.0);
    assert_eq!(csr.spmv(&x).unwrap(), [2.0 * 1000.0 + 15.0 + 400.0]);
    assert_eq!(csr.metadata_bytes(), 4 * 2 + 4 * 4);
    assert_eq!(csr.storage_bytes(), 4 * 2 + 4 * 4 + 8 * 4);
}

#[test]
fn masks() {
    let mut mask = DofMask::new(70);
    assert!(mask.is_empty());
    mask.set(3, true).unwrap();
    mask.set(69, true).unwrap();
    mask.set(3, false).unwrap();
    assert_eq!((mask.indices(), mask.count_ones()), (vec![69], 1));
    mask.or_word(1, u64::MAX);
    mask.or_word(9, u64::MAX);
    assert_eq!(mask.indices(), [64, 65, 66, 67, 68, 69]);
    let other = DofMask::from_indices(70, &[69, 1]).unwrap();
    assert!(mask.intersects(&other).unwrap());
    mask.and_not_assign(&other).unwrap();
    assert!(!mask.contains(69) && mask.contains(68) && !mask.contains(70));
    mask.union_assign(&other).unwrap();
    mask.intersect_assign(&other).unwrap();
    assert_eq!(mask, other);
}

#[test]
fn ratios() {
    let report = counts([4, 1, 3, 2, 1]);
    assert_eq!(
        (report.pruning_ratio(), report.empty_word_ratio()),
        (0.75, 0.5)
    );
    assert_eq!(counts([0, 0, 0, 1, 2]).empty_word_ratio(), 0.0);
    let stats = AbtmTopology::from_csr32(&plots()).unwrap().stats();
    assert_eq!(stats.average_word_nnz(), 1.5);
    assert_eq!(stats.word_fill_ratio(), 1.5 / 64.0);
    assert_eq!(stats.metadata_bytes_per_nnz(), 32.0 / 3.0);
}
